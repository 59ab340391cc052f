"""A host that is killed at random moments while lines flow, with room on the disk and without."""
import asyncio
import random
import time
import unittest
from concurrent.futures import ThreadPoolExecutor
from typing import NamedTuple

from hosting import library, records, store
from hosting.config import FILE, SECTION, Config
from hosting.records import Stored
from hosting.tests import support
from hosting.tests.running import HostTest
from hosting.tests.traffic import Client, FileHost, Shape, Writer, shares, some_shape

CLIENTS = 4
# How long after a reply the kill comes at most: a commit takes some milliseconds.
LAST_SECONDS = 0.005
# One start in so many is broken off by a kill of its own, within so many seconds.
BROKEN_START = 8
START_SECONDS = 0.3
# A line that takes a page and more of the database, and is declined.
LONG_LINE = b"FF" * 4000
LONG_SHARE = 0.3
# The pages that a study may have in its first life, and how many more in each life after.
FIRST_PAGES, MORE_PAGES = 20, 12


class Series(NamedTuple):
    """How often a host is killed, how many lines its clients send ahead of their replies, and after how many replies it is killed at most."""

    kills: int
    ahead: int
    replies: int


# The last one also has kills while SQLite's log is moved into the database, which is done every 500 lines.
SERIES = [Series(50, 1, 30), Series(50, 4, 60), Series(50, 16, 120), Series(25, 64, 800)]
FULL_DISK = Series(25, 4, 60)


class Log:
    """What is known of a study's stored lines, and the block after them."""

    def __init__(self, test: unittest.TestCase, host: FileHost) -> None:
        self._test = test
        self._host = host
        self._library = library.installed()
        self._block = self._library.fresh()
        self.known: list[Stored] = []

    def check(self, clients: list[Client], most_unanswered: int) -> None:
        """Nothing known is undone; the lines since are those of the clients, all that were answered and of each client a few unanswered
        ones; replies and block are those of the lines taken again."""
        with store.reading(self._host.data, "a") as study:
            stored, block = list(study.lines()), study.block()
        self._test.assertEqual(stored[:len(self.known)], self.known)
        new = stored[len(self.known):]
        ways = shares([(row.line, row.reply) for row in new], clients)
        fit = [way for way in ways if all(0 <= count - len(client.received) <= most_unanswered for count, client in zip(way, clients))]
        self._test.assertTrue(fit, f"{len(new)} lines are stored in {len(ways)} ways of the clients' {[len(client.received) for client in clients]}")
        for row in new:
            reply, self._block = self._library.answer(self._block, row.line)
            self._test.assertEqual((row.number, row.reply, row.block_sha256), (len(self.known) + 1, reply, records.sha256(self._block)))
            self.known.append(row)
        self._test.assertEqual(block, self._block if stored else None)


async def talk(host: FileHost, clients: list[Client], replies: int | None) -> None:
    """Lets the clients talk until they have so many replies, and a moment longer, or until each has ended."""
    enough = asyncio.Event()
    count = 0

    def seen() -> None:
        nonlocal count
        count += 1
        if count == replies:
            enough.set()

    if replies == 0:
        enough.set()
    talking = asyncio.gather(*(client.talk(asyncio.open_unix_connection(host.path("a")), seen) for client in clients))
    moment = asyncio.create_task(enough.wait())
    await asyncio.wait([talking, moment], return_when=asyncio.FIRST_COMPLETED)
    await asyncio.sleep(random.uniform(0, LAST_SECONDS) if replies is not None else 0)
    host.kill()
    moment.cancel()
    await talking


class KillTest(HostTest):
    def host(self, **config: object) -> FileHost:
        host = FileHost("a", **config)
        self.addCleanup(host.close)
        return host

    def start_again(self, host: FileHost, chosen: random.Random) -> None:
        if chosen.randrange(BROKEN_START) == 0:
            host.start()
            time.sleep(chosen.uniform(0, START_SECONDS))
            host.kill()
        host.start_again("a")

    def end(self, host: FileHost, log: Log) -> None:
        for word in ("are gone", "true block", "is not served"):
            self.assertNotIn(word, host.log())
        self.assertEqual(host.stop(), 0)
        self.verified(host, "a")
        self.assertEqual([row.reply for row in log.known], support.reference([row.line for row in log.known]))

    def kill_often(self, number: int, series: Series) -> None:
        """Kills a host again and again, and looks at what is stored after each start."""
        host, chosen = self.host(), random.Random(number)
        log, shape = Log(self, host), some_shape(chosen)
        for _ in range(series.kills):
            clients = [Client(Writer(shape, chosen.getrandbits(32)).lines(series.replies), series.ahead) for _ in range(CLIENTS)]
            asyncio.run(talk(host, clients, chosen.randint(0, series.replies)))
            self.start_again(host, chosen)
            log.check(clients, Config().outstanding_lines)
        self.end(host, log)

    def test_kills_while_lines_flow(self) -> None:
        self.assertEqual(sum(series.kills for series in [*SERIES, FULL_DISK]), 200)
        with ThreadPoolExecutor(len(SERIES)) as at_once:
            list(at_once.map(self.kill_often, range(len(SERIES)), SERIES))

    def test_kills_with_a_full_disk(self) -> None:
        """In every other life the clients talk until the disk is full and the host has closed their connections; no line without a reply
        is stored then. The next life has room for some pages more, and the one after the last has no limit."""
        host, chosen = self.host(page_limit=FIRST_PAGES), random.Random(24)
        log, shape = Log(self, host), some_shape(chosen)
        for life in range(FULL_DISK.kills):
            to_the_end = life % 2 == 0
            clients = [Client(self.filling_lines(shape, chosen), FULL_DISK.ahead) for _ in range(CLIENTS)]
            asyncio.run(talk(host, clients, None if to_the_end else chosen.randint(0, FULL_DISK.replies)))
            if to_the_end:
                self.assertTrue(any(len(client.received) < len(client.sent) for client in clients), "the disk was not full")
            pages = FIRST_PAGES + MORE_PAGES * (life + 1) if life + 1 < FULL_DISK.kills else 0
            (host.data / FILE).write_text(f"[{SECTION}]\npage_limit = {pages}\n")
            self.start_again(host, chosen)
            log.check(clients, 0 if to_the_end else Config().outstanding_lines)
        self.assertIn("not stored, so not answered: database or disk is full", host.log())
        goes_on = Client(self.filling_lines(shape, chosen), 1)
        asyncio.run(talk(host, [goes_on], None))
        self.assertEqual(len(goes_on.received), FULL_DISK.replies)
        host.start_again("a")
        log.check([goes_on], 0)
        self.end(host, log)

    def filling_lines(self, shape: Shape, chosen: random.Random) -> list[bytes]:
        lines = Writer(shape, chosen.getrandbits(32)).lines(FULL_DISK.replies)
        return [LONG_LINE if chosen.random() < LONG_SHARE else line for line in lines]


if __name__ == "__main__":
    unittest.main()
