"""What is tried on a part, in turn, until it is settled: a shift, a renumbering and a search. Lines go to a fresh block, and are kept with their replies.

Each rung costs more than the one before it: few sweeps and a small budget, more sweeps and a great one, by degeneracy and by links, and then the shift of a
linear programme where a solver is there. Shifts and plans at hand are only guesses at which lines are good. What is known comes from the replies.
"""

from collections.abc import Callable, Iterator, Sequence
from typing import NamedTuple

from junction import lift, lines, programme, replies
from junction.block import Tables
from junction.errors import Refused
from junction.lift import Shift
from junction.native import Library
from junction.replies import WITHOUT_PLAN, Bound, Found, Reply
from junction.solvers import Solver, Unsolved
from junction.solving import order, parts, plans
from junction.solving.parts import Alone
from junction.solving.proof import Part, SettledPart
from junction.solving.renumber import Renumbering
from junction.study import Plan, Study

FEW_SWEEPS, MORE_SWEEPS = 6, 30
SMALL_BUDGET, GREAT_BUDGET = 3_000_000, 10_000_000
# With two trains first of which no choices fit, at most 8 + 64 tries show that.
CLOSING_BUDGET = 1000


class Rung(NamedTuple):
    """A shift of a part's tables, what it leaves of them, and the order of trains and the budget of a search."""

    shift: Shift
    left: Tables
    order: tuple[int, ...]
    budget: int


class Best(NamedTuple):
    """The best plan known and its cost in points."""

    cost: int
    plan: tuple[int, ...]


class Tried(NamedTuple):
    """What a rung came to: the bound of the part, the best plan now, and the part with its lines if they settle it. `numbers` are those of the lines."""

    bound: int
    best: Best | None
    settled: SettledPart | None
    numbers: Renumbering


class Ladder:
    """The rungs of a study's parts. `before` is called before each line."""

    def __init__(self, study: Study, library: Library, solver: Solver | None, before: Callable[[], None]) -> None:
        self._study, self._library, self._solver, self._before = study, library, solver, before
        self._pairs = [(pair.first, pair.second) for pair in study.pairs]

    def order(self, part: Part) -> tuple[int, ...]:
        """The order of the trains by which a part is split."""
        return order.degeneracy(self._pairs, part)

    def rungs(self, part: Part, begun: Shift | None) -> Iterator[Rung]:
        """The rungs of a part, each made when it is asked for. The sweeps begin with the shift of a part that it was split from."""
        degeneracy, by_links = self.order(part), order.by_links(self._pairs, part)
        rung = self._swept(part, begun, degeneracy, FEW_SWEEPS)._replace(budget=SMALL_BUDGET)
        yield rung
        rung = self._swept(part, rung.shift, degeneracy, MORE_SWEEPS)
        yield rung
        yield rung._replace(order=by_links)
        solved = self._by_programme(part, rung)
        if solved is not None:
            yield solved
            yield solved._replace(order=by_links)

    def bound(self, part: Part, rung: Rung) -> int:
        """The bound of a part, by the lines of a rung without its search."""
        return self._shifted(part, rung, self._numbers(rung, None)).bound

    def climb(self, part: Part, rung: Rung, best: Best | None) -> Tried:
        """Tries a rung. The best plan known goes first in it where the part has it, so that the search drops early what costs as much."""
        numbers = self._numbers(rung, best if best is not None and _has(part, best.plan) else None)
        given = self._shifted(part, rung, numbers)
        if best is not None and given.bound >= best.cost:
            return Tried(given.bound, best, given.settled(part, numbers), numbers)
        found = given.search(rung.budget)
        if found.plan is not None and found.cost is not None and (best is None or found.cost < best.cost):
            best = Best(found.cost, numbers.back(found.plan))
        ended = found.state is not replies.SPENT or (best is not None and given.bound >= best.cost)
        return Tried(given.bound, best, given.settled(part, numbers) if ended else None, numbers)

    def close(self, part: Part, alone: Alone) -> SettledPart | None:
        """The part of choices that a partner leaves no permitted pair, if a search ends without a plan when these two trains go first."""
        part = parts.only(part, alone.train, alone.choices)
        first = order.by_links(self._pairs, part, (alone.train, alone.partner))
        numbers = Renumbering.of_trains(first, self._study.sizes)
        given = self._loaded(part, numbers)
        return given.settled(part, numbers) if given.search(CLOSING_BUDGET).state is WITHOUT_PLAN else None

    def _swept(self, part: Part, begun: Shift | None, by: Sequence[int], sweeps: int) -> Rung:
        """A rung with a shift by so many sweeps behind the one that begins it."""
        held = parts.tables(self._study, part, begun)
        found = lift.by_sweeps(held, by, sweeps, sweeps)
        return Rung(found if begun is None else _sum(begun, found), lift.apply(held, found), tuple(by), GREAT_BUDGET)

    def _by_programme(self, part: Part, rung: Rung) -> Rung | None:
        """The rung with the best shift. None where there is no solver, or none better."""
        if self._solver is None:
            return None
        self._before()
        try:
            found = programme.best(rung.left, self._solver).shift
        except Unsolved:
            return None
        if found is None:
            return None
        return Rung(_sum(rung.shift, found), lift.apply(rung.left, found), self.order(part), GREAT_BUDGET)

    def _numbers(self, rung: Rung, best: Best | None) -> Renumbering:
        """The numbers for the lines of a rung: a good plan's choices first, or the best one's."""
        plan: Plan = plans.good(rung.left, rung.order)
        if best is not None:
            cost = plans.cost(self._study, plan)
            plan = best.plan if cost is None or cost >= best.cost else plan
        return Renumbering.by(rung.order, rung.left, plan)

    def _loaded(self, part: Part, numbers: Renumbering) -> "_Given":
        given = _Given(self._library, self._before)
        given.ask(lines.load(numbers.study(self._study, part)))
        return given

    def _shifted(self, part: Part, rung: Rung, numbers: Renumbering) -> "_Given":
        """Load, shift and round. Without the shift, where it is declined."""
        shift = numbers.shift(rung.left, rung.shift)
        given = self._loaded(part, numbers)
        try:
            given.ask(lines.shift(shift.lifts, shift.moves))
        except Refused:
            given = self._loaded(part, numbers)
        given.ask(lines.directional_round())
        return given


class _Given:
    """Lines that a fresh block was given, with their replies."""

    def __init__(self, library: Library, before: Callable[[], None]) -> None:
        self._library, self._before, self._block = library, before, library.fresh()
        self._lines: list[str] = []
        self._replies: list[str] = []
        self.bound = 0

    def ask(self, line: str) -> Reply:
        """The reply to a line."""
        self._before()
        answer, self._block = self._library.answer(self._block, line.encode("ascii"))
        reply = answer.decode("ascii")
        decoded = replies.decode(line, reply)
        self._lines.append(line)
        self._replies.append(reply)
        if isinstance(decoded, Bound):
            self.bound = max(self.bound, decoded.bound)
        return decoded

    def search(self, budget: int) -> Found:
        """What a search finds."""
        found = self.ask(lines.search(budget))
        assert isinstance(found, Found)
        return found

    def settled(self, part: Part, numbers: Renumbering) -> SettledPart:
        """The part that these lines settle."""
        return SettledPart(part, numbers.trains, numbers.choices, tuple(self._lines), tuple(self._replies))


def _has(part: Part, plan: Plan) -> bool:
    return all(choice in choices for choice, choices in zip(plan, part, strict=True))


def _sum(first: Shift, second: Shift) -> Shift:
    """Two shifts as one."""
    lifts = [number + other for number, other in zip(first.lifts, second.lifts, strict=True)]
    return Shift(tuple(lifts), tuple(number + other for number, other in zip(first.moves, second.moves, strict=True)))
