"""Replies as numbers. Anything that is no reply to the line is Unreadable; a line that was declined is Refused."""

from collections.abc import Callable
from dataclasses import dataclass, field, replace
from enum import IntEnum
from fractions import Fraction

from junction import kinds, lines
from junction.errors import Refused, Unreadable
from junction.kinds import Fields
from junction.lines import Asked
from junction.study import Study


class State(IntEnum):
    """How a search came to its end."""

    SPENT = kinds.SPENT
    ENDED = kinds.ENDED
    WITHOUT_PLAN = kinds.ENDED_WITHOUT_PLAN

    def __repr__(self) -> str:
        return self.name


SPENT, ENDED, WITHOUT_PLAN = State.SPENT, State.ENDED, State.WITHOUT_PLAN
NO_COST = (1 << 8 * kinds.FIGURE_WIDTH) - 1


class Out(IntEnum):
    """Why a choice is out against a limit."""

    NOT_OUT = kinds.NOT_OUT
    BY_ITSELF = kinds.OUT_BY_ITSELF
    WITH_PARTNER = kinds.OUT_BY_PARTNER

    def __repr__(self) -> str:
        return self.name


NOT_OUT, BY_ITSELF, WITH_PARTNER = Out.NOT_OUT, Out.BY_ITSELF, Out.WITH_PARTNER


@dataclass(frozen=True)
class Bound:
    """The constant in parts, and the bound in points: no plan costs less."""

    constant: int
    bound: int


@dataclass(frozen=True)
class Ceiling:
    """E/W parts, which no rewriting of the tables can pass, and whether the constant has reached it."""

    reached: bool
    E: int
    W: int
    scale: int | None = field(default=None, repr=False)

    @property
    def points(self) -> Fraction | None:
        """The ceiling in points; None where the scale is not known."""
        return None if self.scale is None else Fraction(self.E, self.W * self.scale)


@dataclass(frozen=True)
class Found:
    """What a search found. Cost and plan are None where it found no plan."""

    state: State
    tries: int
    cost: int | None
    plan: tuple[int, ...] | None

    def by_train(self, study: Study) -> list[tuple[str, str]]:
        """The plan in a study's names: each train with its choice. Nothing where there is no plan."""
        return [] if self.plan is None else study.by_train(self.plan)


@dataclass(frozen=True)
class Reason:
    """Why a choice is out, and with which train where one is named."""

    reason: Out
    partner: int | None


@dataclass(frozen=True)
class Order:
    """The order in which a search tries the trains."""

    trains: tuple[int, ...]


@dataclass(frozen=True)
class Choices:
    """What a station screen shows: each train's choice."""

    choices: tuple[int, ...]


@dataclass(frozen=True)
class Record:
    """A record of a plan, bound and cost in points."""

    choices: tuple[int, ...]
    bound: int
    cost: int


# Why a line is declined before its kind is known; over train radio these replies are plain.
PLAIN_REFUSALS = ("FF01", "FF02", "FF03", "FF10")

Reply = Bound | Ceiling | Found | Reason | Order | Choices | Record | Study


class _NoReply(Exception):
    """It is no reply to the line."""


def decode(line: str, reply: str, scale: int | None = None) -> Reply:
    """The reply to a line, in either form. A scale is the study's, for ceilings in points."""
    try:
        answer = plain(line, reply)
        fields = _fields(answer)
        if fields.number(kinds.KIND_WIDTH) == kinds.DECLINED:
            raise _refused(fields, line)
        decoded = _accepted(lines.plain(line), answer)
    except (_NoReply, kinds.CutShort, ValueError):
        raise Unreadable(reply) from None
    return replace(decoded, scale=scale) if isinstance(decoded, Ceiling) else decoded


def decode_load(line: str) -> Study:
    """The study of a load line, in either form, with numbers as names."""
    if lines.is_by_radio(line) and not _fields(line).adds_up():
        raise Unreadable(line)
    study = _study(lines.plain(line))
    if study is None:
        raise Unreadable(line)
    return study


def plain(line: str, reply: str) -> str:
    """A reply without the additions of train radio, which it has if its line has them, but for the refusals from before a line's kind is known."""
    if not lines.is_by_radio(line) or reply in PLAIN_REFUSALS:
        return reply
    without = kinds.plain_reply(reply.encode("ascii", "replace"))
    if without is None:
        raise Unreadable(reply)
    return without.decode("ascii")


def _fields(text: str) -> Fields:
    frame = text.encode("ascii", "replace")
    if not kinds.FRAME.fullmatch(frame):
        raise _NoReply
    return Fields(frame)


def _refused(fields: Fields, line: str) -> Refused:
    number = fields.number(kinds.COUNT_WIDTH)
    _hold(fields.left(kinds.COUNT_WIDTH) == 0)
    return Refused(number, kinds.reason(number) or "for a reason that this client does not know", line)


def _accepted(line: str, answer: str) -> Reply:
    """The reply to a plain line that was accepted. What a line fixes of its reply has to be as the line says."""
    asked = lines.read(line)
    if asked is None:
        raise _NoReply
    if asked.encoder in (lines.save, lines.dearest):
        return _load_reply(asked, answer)
    kind, reader = _READERS[asked.encoder]
    fields = _fields(answer)
    _hold(fields.number(kinds.KIND_WIDTH) == kind)
    decoded = reader(fields, asked)
    _hold(fields.left(kinds.COUNT_WIDTH) == 0)
    return decoded


def _hold(holds: bool) -> None:
    if not holds:
        raise _NoReply


def _load_reply(asked: Asked, answer: str) -> Study:
    study = _study(answer)
    if study is None or not study.trains:
        raise _NoReply
    _hold(asked.encoder is lines.save or (list(study.sizes),) == asked.arguments)
    return study


def _study(line: str) -> Study | None:
    asked = lines.read(line)
    study = asked.arguments[0] if asked is not None and asked.encoder is lines.load else None
    return study if isinstance(study, Study) else None


def _bound(fields: Fields, _: Asked) -> Bound:
    return Bound(*fields.numbers(2, kinds.FIGURE_WIDTH))


def _ceiling(fields: Fields, asked: Asked) -> Ceiling:
    reached, ceiling, full = fields.number(kinds.COUNT_WIDTH), fields.number(kinds.SUM_WIDTH), fields.number(kinds.WEIGHT_WIDTH)
    _hold(reached in (0, 1) and full == asked.arguments[0] != 0)
    return Ceiling(reached == 1, ceiling, full)


def _found(fields: Fields, asked: Asked) -> Found:
    state, tries, cost = State(fields.number(kinds.COUNT_WIDTH)), fields.number(kinds.TRIES_WIDTH), fields.number(kinds.FIGURE_WIDTH)
    plan = tuple(fields.numbers(fields.left(kinds.COUNT_WIDTH), kinds.COUNT_WIDTH))
    (budget,) = asked.arguments
    _hold(plan != () and (tries == budget if state is SPENT else 1 <= tries <= budget))
    if cost == NO_COST and set(plan) == {kinds.NO_PLAN}:
        _hold(state is not ENDED)
        return Found(state, tries, None, None)
    _hold(state is not WITHOUT_PLAN and cost != NO_COST and kinds.NO_PLAN not in plan)
    return Found(state, tries, cost, plan)


def _reason(fields: Fields, asked: Asked) -> Reason:
    reason, partner = Out(fields.number(kinds.COUNT_WIDTH)), fields.number(kinds.COUNT_WIDTH)
    _hold((partner != kinds.NO_PARTNER) == (reason is WITH_PARTNER) and partner != asked.arguments[0])
    return Reason(reason, partner if reason is WITH_PARTNER else None)


def _order(fields: Fields, asked: Asked) -> Order:
    trains = fields.numbers(fields.left(kinds.COUNT_WIDTH), kinds.COUNT_WIDTH)
    _hold(trains == asked.arguments[0])
    return Order(tuple(trains))


def _choices(fields: Fields, asked: Asked) -> Choices:
    choices = fields.numbers(fields.number(kinds.COUNT_WIDTH), kinds.COUNT_WIDTH)
    _hold(choices == asked.arguments[0])
    return Choices(tuple(choices))


def _read_record(fields: Fields, asked: Asked) -> Record:
    choices = fields.numbers(fields.number(kinds.COUNT_WIDTH), kinds.COUNT_WIDTH)
    _hold(choices == asked.arguments[0])
    return Record(tuple(choices), *fields.numbers(2, kinds.FIGURE_WIDTH))


def _shown_record(fields: Fields, asked: Asked) -> Record:
    record = _read_record(fields, asked)
    _hold(asked.arguments[1:] == (record.bound, record.cost))
    return record


_READERS: dict[Callable[..., str], tuple[int, Callable[[Fields, Asked], Reply]]] = {
    lines.load: (0x81, _bound),
    lines.add: (0x82, _bound),
    lines.shift: (0x83, _bound),
    lines.tighten: (0x84, _bound),
    lines.certify: (0x85, _ceiling),
    lines.search: (0x86, _found),
    lines.directional_round: (0x88, _bound),
    lines.clauses: (0x89, _bound),
    lines.explain: (0x8A, _reason),
    lines.order: (0x8B, _order),
    lines.screen: (0x8C, _choices),
    lines.planner: (0x8D, _shown_record),
    lines.record: (0x8E, _read_record),
}
