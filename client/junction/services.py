"""Services to ask: over a socket, by a program, or by the library. A method for each kind of line; names where the study has them, numbers always.

Nothing is sent again by itself: where a connection ends, Disconnected tells which lines have no reply. A service is for one thread.
"""

import os
import ssl
from collections import deque
from collections.abc import Iterable, Iterator, Sequence
from pathlib import Path
from types import TracebackType
from typing import TypeVar

from junction import channels, lines, replies
from junction.channels import Channel
from junction.errors import Disconnected, NoPlace, Unreadable
from junction.lines import Clause
from junction.replies import Bound, Ceiling, Choices, Found, Order, Reason, Record, Reply
from junction.study import Absent, Choice, Study, Train

AHEAD = 16
Name = str | int
Kind = TypeVar("Kind", bound=Reply)
UNIX, TLS = "unix:", "tls:"


class _Sent:
    """A line as it was given, as it was sent, and the reply once it has come."""

    def __init__(self, line: str, form: str) -> None:
        self.line, self.form = line, form
        self.reply: str | None = None


class Service:
    """A study that is asked line by line. `study` is where names come from: the one that was loaded here, or one that was given."""

    def __init__(self, channel: Channel, radio: bool = False) -> None:
        self._channel, self._radio = channel, radio
        self._waiting: deque[_Sent] = deque()
        self._clauses_scale: int | None = None
        self.study: Study | None = None

    def __enter__(self) -> "Service":
        return self

    def __exit__(self, kind: type[BaseException] | None, error: BaseException | None, trace: TracebackType | None) -> None:
        self.close()

    def close(self) -> None:
        """Ends the connection."""
        self._channel.close()

    def ask(self, line: str) -> str:
        """The reply to a line as it stands. Over train radio both are the plain forms."""
        return self._reply(self._put(line))

    def ask_all(self, given: Iterable[str]) -> Iterator[str]:
        """The replies to lines, in their order. At most 16 lines are sent ahead of their replies."""
        ahead: deque[_Sent] = deque()
        for line in given:
            ahead.append(self._put(line))
            if len(ahead) == AHEAD:
                yield self._reply(ahead.popleft())
        while ahead:
            yield self._reply(ahead.popleft())

    def load(self, study: Study) -> Bound:
        """A new study. From now on names are this study's."""
        bound = _of(Bound, self._decoded(lines.load(study)))
        self.study = study
        return bound

    def clauses(self, trains: int, scale: int, clauses: Sequence[Clause]) -> Bound:
        """A new study of weighted clauses. Its trains and choices have numbers alone."""
        bound = _of(Bound, self._decoded(lines.clauses(trains, scale, clauses)))
        self._clauses_scale = scale
        return bound

    def add(self, train: Name, choice: Name, points: int) -> Bound:
        """A choice gets dearer."""
        return _of(Bound, self._decoded(lines.add(self._train(train), self._choice(train, choice), points)))

    def shift(self, lifts: Iterable[int], moves: Iterable[int]) -> Bound:
        """Costs in parts go from trains to the constant, and from entries of pairs to choices."""
        return _of(Bound, self._decoded(lines.shift(lifts, moves)))

    def tighten(self) -> Bound:
        """Leasts are moved, pair by pair and then train by train."""
        return _of(Bound, self._decoded(lines.tighten()))

    def certify(self, weights: Sequence[int], full: int | None = None) -> Ceiling:
        """A ceiling, by weights. `full` is W; where it is not given, it is what the weights of train 0 sum to."""
        if full is None:
            full = sum(weights[:self._choices_of_first()])
        return _of(Ceiling, self._decoded(lines.certify(full, weights)))

    def search(self, budget: int) -> Found:
        """Plans are tried, by so many tries at most."""
        return _of(Found, self._decoded(lines.search(budget)))

    def save(self) -> Study:
        """The study of the costs in points, additions included; with names where the study has them."""
        return _named(_of(Study, self._decoded(lines.save())), self.study)

    def round(self) -> Bound:
        """One round from the last train to the first."""
        return _of(Bound, self._decoded(lines.directional_round()))

    def explain(self, train: Name, choice: Name, limit: int) -> Reason:
        """Why a choice is out against a limit in points."""
        return _of(Reason, self._decoded(lines.explain(self._train(train), self._choice(train, choice), limit)))

    def order(self, trains: Iterable[Name]) -> Order:
        """The order in which a search tries the trains."""
        return _of(Order, self._decoded(lines.order(map(self._train, trains))))

    def screen(self, choices: Sequence[Name], bound: int, cost: int) -> Choices:
        """A station screen reads a record."""
        return _of(Choices, self._decoded(lines.screen(self._plan(choices), bound, cost)))

    def planner(self, choices: Sequence[Name], bound: int, cost: int) -> Record:
        """A planning room reads a record."""
        return _of(Record, self._decoded(lines.planner(self._plan(choices), bound, cost)))

    def record(self, choices: Sequence[Name]) -> Record:
        """The record of the plan with these choices, by train."""
        return _of(Record, self._decoded(lines.record(self._plan(choices))))

    def dearest(self, sizes: Sequence[int]) -> Study:
        """The study of these sizes whose search tries the most choices."""
        return _of(Study, self._decoded(lines.dearest(sizes)))

    def _put(self, line: str) -> _Sent:
        if "\n" in line:
            raise NoPlace("a line has no line end within it")
        if not self._waiting and (early := self._channel.stray()):
            raise Unreadable(_text(early))
        sent = _Sent(line, self._form(line))
        self._waiting.append(sent)
        self._channel.put(sent.form.encode("utf-8", "backslashreplace"))
        return sent

    def _form(self, line: str) -> str:
        """The form in which a line is sent. A line of no kind has only the plain one."""
        return lines.by_radio(line) if self._radio and lines.has_form_by_radio(line) else line

    def _reply(self, sent: _Sent) -> str:
        """The reply to a line that was sent. Replies to lines before it are kept for those who sent them."""
        while sent.reply is None:
            reply = self._channel.reply()
            if reply is None:
                unanswered = [waiting.line for waiting in self._waiting]
                raise Disconnected(unanswered) from self._channel.why
            first = self._waiting.popleft()
            first.reply = _text(reply)
            self._forget_names(first)
        return replies.plain(sent.form, sent.reply) if self._radio else sent.reply

    def _forget_names(self, sent: _Sent) -> None:
        """After a load of any kind, trains and choices are others."""
        kind = lines.kind_of(lines.plain(sent.line))
        if kind in (lines.LOAD, lines.CLAUSES) and sent.reply is not None and not sent.reply.startswith("FF"):
            self.study, self._clauses_scale = None, None

    def _decoded(self, line: str) -> Reply:
        return replies.decode(line, self.ask(line), self._scale())

    def _scale(self) -> int | None:
        return self._clauses_scale if self.study is None else self.study.scale

    def _choices_of_first(self) -> int:
        if self.study is not None and self.study.trains:
            return self.study.sizes[0]
        if self._clauses_scale is not None:
            return 2
        raise Absent("W is to be given, since no study was loaded or given here")

    def _train(self, name: Name) -> int:
        if isinstance(name, int):
            return name
        return _number(name) if self.study is None else self.study.train(name)

    def _choice(self, train: Name, name: Name) -> int:
        if isinstance(name, int):
            return name
        return _number(name) if self.study is None else self.study.choice(train, name)

    def _plan(self, choices: Sequence[Name]) -> list[int]:
        return [self._choice(train, choice) for train, choice in enumerate(choices)]


def connect(address: str, context: ssl.SSLContext | None = None, radio: bool = False) -> Service:
    """The service at HOST:PORT, at tls:HOST:PORT or at the socket file of unix:PATH. A context says whom TLS trusts, and which certificate it shows."""
    if address.startswith(UNIX):
        _without_context(address, context)
        return Service(channels.to_socket(address.removeprefix(UNIX)), radio)
    host, _, port = address.removeprefix(TLS).rpartition(":")
    if not host or not (port.isascii() and port.isdecimal()):
        raise ValueError(f"an address is HOST:PORT, tls:HOST:PORT or unix:PATH, not {address!r}")
    if address.startswith(TLS):
        context = context or ssl.create_default_context()
    else:
        _without_context(address, context)
    return Service(channels.to_port(host.removeprefix("[").removesuffix("]"), int(port), context), radio)


def _without_context(address: str, context: ssl.SSLContext | None) -> None:
    if context is not None:
        raise ValueError(f"a context is for addresses of tls:HOST:PORT, and {address!r} is none")


def program(path: str | os.PathLike[str], radio: bool = False) -> Service:
    """A program that answers the lines of its standard input, as target/junction does. Its study ends with it."""
    return Service(channels.of_program(Path(path)), radio)


def library(path: str | os.PathLike[str], radio: bool = False) -> Service:
    """The library, as libjunction.so, on a block of its own."""
    return Service(channels.Called(Path(path)), radio)


def _of(kind: type[Kind], reply: Reply) -> Kind:
    """A reply is of the kind that its line has; `decode` has seen to it."""
    assert isinstance(reply, kind)
    return reply


def _number(name: str) -> int:
    """A number that stands for itself."""
    if name.isascii() and name.isdecimal():
        return int(name)
    raise Absent(f"{name!r} is no number, and no study was loaded or given here")


def _named(study: Study, names: Study | None) -> Study:
    """A study with the names of another of the same sizes."""
    if names is None or names.sizes != study.sizes:
        return study
    trains = []
    for train, named in zip(study.trains, names.trains, strict=True):
        choices = (Choice(name.name, choice.cost) for choice, name in zip(train.choices, named.choices, strict=True))
        trains.append(Train(named.name, tuple(choices)))
    return Study(tuple(trains), study.pairs, study.scale)


def _text(octets: bytes) -> str:
    return octets.decode("ascii", "backslashreplace")
