"""Many clients at once: the lines that they send, what each of them got, and whether the stored order explains it."""
from __future__ import annotations

import asyncio
import random
import socket
from collections.abc import Awaitable, Callable, Iterable
from itertools import combinations
from pathlib import Path
from typing import NamedTuple

from hosting import store
from hosting.records import Address, Settings
from hosting.tests import support
from hosting.tests.running import PATIENCE, WORKED_LINES, Running

Streams = tuple[asyncio.StreamReader, asyncio.StreamWriter]

FORBIDDEN = 0xFFFFFF
COST_WIDTH = 3
MOVE_WIDTH = 6
# Document 01's reasons 1, 2, 3, 5, 6, 7, 8, 9 and 15, as far as a line alone can have them.
DECLINED = [b"", b"0", b"0g", b"04 ", b"0" * 19_837, b"FF", b"0400", b"0100", b"01010001010F4241", b"0101000101000000010000", b"02FF00000001",
            b"0600000000"]


def written(*fields: tuple[int, int]) -> bytes:
    """A line of some numbers, each with its width in bytes; those below 0 in two's complement."""
    return b"".join((number % (1 << 8 * width)).to_bytes(width, "big") for number, width in fields).hex().upper().encode()


class Shape(NamedTuple):
    """What the loads of one study have in common, so that lines of several writers fit."""

    scale: int
    sizes: list[int]
    pairs: list[tuple[int, int]]

    def entries(self) -> list[int]:
        """How many costs each train and then each pair has."""
        return self.sizes + [self.sizes[i] * self.sizes[j] for i, j in self.pairs]


def some_shape(chosen: random.Random) -> Shape:
    """A small shape, by chance."""
    trains = chosen.randint(1, 6)
    pairs = [pair for pair in combinations(range(trains), 2) if chosen.random() < 0.5]
    return Shape(chosen.choice([1, 2, 1000]), [chosen.randint(1, 4) for _ in range(trains)], pairs)


class Writer:
    """Writes lines for a study of one shape, by chance: of every kind, refused ones among them, and those of the examples."""

    def __init__(self, shape: Shape, seed: int) -> None:
        self._shape = shape
        self._chosen = random.Random(seed)

    def lines(self, count: int) -> list[bytes]:
        """So many lines."""
        kinds = {self._load: 8, self._add: 20, self._shift: 15, self._tighten: 12, self._certify: 10, self._search: 15, self._save: 5,
                 self._round: 5, self._declined: 5, self._example: 5}
        return [self._sent(kind()) for kind in self._chosen.choices(list(kinds), list(kinds.values()), k=count)]

    def _sent(self, line: bytes) -> bytes:
        """A line as it is sent: of those that have a kind every fourth by radio, and every tenth of these with two characters dropped."""
        if line in DECLINED or self._chosen.random() < 0.75:
            return line
        sent = support.by_radio(line)
        return sent if self._chosen.random() < 0.9 else sent[:-4] + sent[-2:]

    def _load(self) -> bytes:
        scale, sizes, pairs = self._shape
        costs = [(self._cost(), COST_WIDTH) for _ in range(sum(sizes))]
        fields = [(1, 1), (len(sizes), 1), (scale, 2), *((size, 1) for size in sizes), *costs, (len(pairs), 1)]
        for i, j in pairs:
            fields += [(i, 1), (j, 1), *((self._cost(), COST_WIDTH) for _ in range(sizes[i] * sizes[j]))]
        return written(*fields)

    def _cost(self) -> int:
        return FORBIDDEN if self._chosen.random() < 0.02 else self._chosen.randint(0, 30)

    def _add(self) -> bytes:
        train = self._chosen.randrange(len(self._shape.sizes))
        choice = self._chosen.randrange(self._shape.sizes[train])
        points = self._chosen.choice([0, 1, 7, 100, 999_990])
        return written((2, 1), (train, 1), (choice, 1), (points, 3))

    def _shift(self) -> bytes:
        """A shift with one lift or move other than 0."""
        sizes, pairs = self._shape.sizes, self._shape.pairs
        moves = [0] * (len(sizes) + sum(sizes[i] + sizes[j] for i, j in pairs))
        moves[self._chosen.randrange(len(moves))] = self._chosen.choice([-2, -1, 1, 2])
        return written((3, 1), *((move, MOVE_WIDTH) for move in moves))

    def _tighten(self) -> bytes:
        return b"04"

    def _certify(self) -> bytes:
        """The weights of some plans together, now and then with one weight too high."""
        sizes, pairs = self._shape.sizes, self._shape.pairs
        plans = [[self._chosen.randrange(size) for size in sizes] for _ in range(self._chosen.randint(1, 4))]
        tables = [[0] * entries for entries in self._shape.entries()]
        for plan in plans:
            for train, choice in enumerate(plan):
                tables[train][choice] += 1
            for pair, (i, j) in enumerate(pairs):
                tables[len(sizes) + pair][plan[i] * sizes[j] + plan[j]] += 1
        weights = [weight for table in tables for weight in table]
        weights[0] += self._chosen.random() < 0.1
        return written((5, 1), (len(plans), COST_WIDTH), *((weight, COST_WIDTH) for weight in weights))

    def _search(self) -> bytes:
        return written((6, 1), (self._chosen.randint(1, 3000), 4))

    def _save(self) -> bytes:
        return b"07"

    def _round(self) -> bytes:
        return b"08"

    def _declined(self) -> bytes:
        return self._chosen.choice(DECLINED)

    def _example(self) -> bytes:
        return self._chosen.choice(WORKED_LINES.splitlines())


class Client:
    """A client that sends lines so many at a time, and what it has sent and got so far."""

    def __init__(self, lines: list[bytes], ahead: int) -> None:
        self._lines = lines
        self._ahead = ahead
        self.sent: list[bytes] = []
        self.received: list[bytes] = []

    async def talk(self, connecting: Awaitable[Streams], seen: Callable[[], None] = lambda: None) -> None:
        """Sends the lines and takes the replies until all are there or the host is gone. `seen` is called after each reply."""
        try:
            reader, writer = await connecting
        except OSError:
            return
        try:
            while len(self.sent) < len(self._lines):
                await self._ask(reader, writer, seen)
        except (OSError, EOFError):
            pass
        finally:
            writer.close()

    async def _ask(self, reader: asyncio.StreamReader, writer: asyncio.StreamWriter, seen: Callable[[], None]) -> None:
        lines = self._lines[len(self.sent):][:self._ahead]
        self.sent += lines
        writer.write(b"".join(line + b"\n" for line in lines))
        for _ in lines:
            reply = await reader.readuntil(b"\n")
            self.received.append(reply.removesuffix(b"\n"))
            seen()


def shares(stored: Iterable[tuple[bytes, bytes]], clients: list[Client]) -> set[tuple[int, ...]]:
    """In how many ways stored lines with their replies can be the clients' lines, each client's in its order and with the replies that it
    got: how many lines of each client are stored, for each way. Without a way nothing is given."""
    ways = {(0,) * len(clients)}
    for line, reply in stored:
        ways = {way[:k] + (way[k] + 1,) + way[k + 1:] for way in ways for k, client in enumerate(clients) if _fits(client, way[k], line, reply)}
    return ways


def _fits(client: Client, place: int, line: bytes, reply: bytes) -> bool:
    """Whether a stored line can be the one at a place of a client's lines. A reply that the client did not get may be any."""
    return client.sent[place:place + 1] == [line] and client.received[place:place + 1] in ([], [reply])


class FileHost(Running):
    """A host whose studies are at socket files, which nobody else takes while it is not at work."""

    def path(self, name: str) -> Path:
        """The socket file of a study."""
        return self.data / f"{name}.socket"

    def add(self, name: str) -> None:
        store.create(self.data, Settings(name, Address("", 0, str(self.path(name))), False))

    def connect(self, name: str) -> socket.socket:
        client = socket.socket(socket.AF_UNIX)
        client.settimeout(PATIENCE)
        try:
            client.connect(str(self.path(name)))
        except OSError:
            client.close()
            raise
        return client

    def kill(self) -> None:
        """Ends the host by SIGKILL."""
        self.process.kill()
        self.process.wait()

    def start_again(self, name: str) -> None:
        """Starts the host, and waits until it serves a study."""
        served = f"study {name} is served"
        before = self.log().count(served)
        self.start()
        self.wait_log(served, before + 1)
