"""Settles a study: finds a plan and shows that none costs less, or that there is none, in as few parts as it can.

All is done on blocks of this process, at the scale that serves best; the study itself stays as it is. What was reached stands in one value at any time, so
that it can be ended anywhere and lose the part at hand at most.
"""

import time
from collections.abc import Callable
from dataclasses import dataclass, field, replace

from junction import lines, solvers
from junction.errors import Failure
from junction.lift import Shift
from junction.native import Library
from junction.solving import parts, plans
from junction.solving.ladder import Best, Ladder, Tried
from junction.solving.proof import Part, Proof, SettledPart
from junction.solvers import Solver
from junction.study import SCALE, Study


class Stop(Exception):
    """Ends the settling in order: what is told of the progress may raise it."""


class Unfit(Failure):
    """A proof that is to be gone on with is of another study, or names what the study has not."""


@dataclass(frozen=True)
class Progress:
    """How far it is. The bound is the least one of the parts that are open, or the best cost where that is less; None where there is no plan."""

    cost: int | None
    bound: int | None
    settled: int
    open: int
    seconds: float


@dataclass(frozen=True)
class Outcome:
    """The best plan known with its cost in points, what no plan costs less than, and whether all is settled. Settled without a plan, there is none."""

    cost: int | None
    plan: tuple[int, ...] | None
    bound: int | None
    settled: bool
    proof: Proof


@dataclass(frozen=True)
class _Open:
    """A part that is not settled, its bound, and the shift that its sweeps begin with."""

    part: Part
    bound: int = 0
    begun: Shift | None = None


@dataclass(frozen=True)
class _Standing:
    """All that was reached. The last of the open parts is the next."""

    settled: tuple[SettledPart, ...]
    open: tuple[_Open, ...]
    best: Best | None = None

    @property
    def cost(self) -> int | None:
        """The cost of the best plan."""
        return None if self.best is None else self.best.cost

    @property
    def bound(self) -> int | None:
        """What no plan costs less than."""
        bounds = [part.bound for part in self.open]
        return min(bounds if self.best is None else [*bounds, self.best.cost], default=None)


def settle(
    study: Study, library: Library, seconds: float | None, progress: Callable[[Progress], None], begun: Proof | None = None,
) -> Outcome:
    """Settles a study, or goes on with a proof that was begun. It ends in order after these seconds, by Stop, or by Ctrl-C. A search is not broken off, so
    that it may end a little later."""
    settling = _Settling(study, library, seconds, progress, begun)
    try:
        settling.run()
    except (Stop, KeyboardInterrupt):
        pass
    return settling.outcome()


@dataclass
class _Settling:
    study: Study
    library: Library
    seconds: float | None
    progress: Callable[[Progress], None]
    begun: Proof | None
    standing: _Standing = field(init=False)

    def __post_init__(self) -> None:
        self._since = time.monotonic()
        self._ladder = Ladder(self.study.with_scale(SCALE), self.library, _solver(), self._before)
        self.standing = _Standing((), (_Open(parts.whole(self.study)),)) if self.begun is None else _again(self.study, self.begun)

    def run(self) -> None:
        """Goes on until no part is open."""
        if self.begun is not None and self.standing.open:
            self._raise_bounds()
        while self.standing.open:
            if self._closed():
                self._take(self.standing.open[-1])

    def outcome(self) -> Outcome:
        """What was reached."""
        now = self.standing
        plan = None if now.best is None else now.best.plan
        still = tuple(part.part for part in reversed(now.open))
        return Outcome(now.cost, plan, now.bound, not still, Proof(lines.load(self.study), now.settled, still, plan, now.cost))

    def _before(self) -> None:
        """Tells the progress before a line, and ends when the time is over."""
        seconds, now = time.monotonic() - self._since, self.standing
        self.progress(Progress(now.cost, now.bound, len(now.settled), len(now.open), seconds))
        if self.seconds is not None and seconds >= self.seconds:
            raise Stop

    def _raise_bounds(self) -> None:
        """A proof has no bounds of open parts: that of the whole study is one for each of them."""
        part = parts.whole(self.study)
        bound = self._ladder.bound(part, next(self._ladder.rungs(part, None)))
        self.standing = replace(self.standing, open=tuple(replace(still, bound=bound) for still in self.standing.open))

    def _closed(self) -> bool:
        """Closes the choices of the next part that a partner leaves no permitted pair of choices. Whether anything is left of it then."""
        now = self.standing
        while (found := parts.alone(self.study, now.open[-1].part)) is not None:
            at = now.open[-1]
            settled = self._ladder.close(at.part, found)
            if settled is None:
                break
            left = replace(at, part=parts.without(at.part, found.train, found.choices))
            others = now.open[:-1]
            now = replace(now, settled=(*now.settled, settled), open=(*others, left) if left.part[found.train] else others)
            self.standing = now
            if not left.part[found.train]:
                return False
        return True

    def _take(self, at: _Open) -> None:
        """Settles the next part, or splits it."""
        others = self.standing.open[:-1]
        for rung in self._ladder.rungs(at.part, at.begun):
            tried = self._ladder.climb(at.part, rung, self.standing.best)
            at = replace(at, bound=max(at.bound, tried.bound), begun=rung.shift)
            if tried.settled is not None:
                self.standing = _Standing((*self.standing.settled, tried.settled), others, tried.best)
                return
            self.standing = _Standing(self.standing.settled, (*others, at), tried.best)
        self.standing = replace(self.standing, open=(*others, *self._split(at, tried)))

    def _split(self, at: _Open, tried: Tried) -> list[_Open]:
        """A part for each choice of the first train that has several: the choice that is tried first is the next part."""
        train = next(train for train in self._ladder.order(at.part) if len(at.part[train]) > 1)
        return [replace(at, part=part) for part in reversed(parts.split(at.part, train, tried.numbers.choices[train]))]


def _solver() -> Solver | None:
    try:
        return solvers.find()
    except solvers.NoSolver:
        return None


def _again(study: Study, begun: Proof) -> _Standing:
    """Where a proof was left. What its parts prove is not looked at here."""
    if begun.save != lines.load(study):
        raise Unfit("the proof is of another study, or of other costs")
    permitted = parts.whole(study)
    for part in begun.open:
        if len(part) != len(permitted) or not all(set(choices) <= set(of) for choices, of in zip(part, permitted)):
            raise Unfit("an open part of the proof has a train or a choice that the study has not")
    best = None
    if begun.plan is not None and begun.cost is not None:
        if len(begun.plan) != len(permitted) or not all(choice in of for choice, of in zip(begun.plan, permitted)):
            raise Unfit("the plan of the proof is none of the study's")
        if plans.cost(study, begun.plan) != begun.cost:
            raise Unfit("the plan of the proof does not cost what it says")
        best = Best(begun.cost, begun.plan)
    return _Standing(begun.settled, tuple(_Open(part) for part in reversed(begun.open)), best)
