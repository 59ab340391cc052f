"""What the lines since a load have come to: bound, plans with their costs, the ceiling, and whether a search has ended.

Lines are taken in their order. An addition makes plans dearer and can raise a ceiling, so what was found before it is held with that in mind.
"""

from collections.abc import Callable
from dataclasses import dataclass, field
from fractions import Fraction
from typing import NamedTuple

from hosting.asked import ONE_PLAN
from hosting.records import Stored
from junction import kinds, lines
from junction.kinds import Facts

Plan = tuple[int, ...]


class Ceiling(NamedTuple):
    """A certificate's ceiling, E/W parts, and its line."""

    E: int
    W: int
    line: int

    @property
    def parts(self) -> Fraction:
        """The ceiling in parts."""
        return Fraction(self.E, self.W)


class Figures(NamedTuple):
    """Bound and best cost in points, and the ceiling in parts, after a line."""

    bound: int | None
    best: int | None
    ceiling: Fraction | None


@dataclass
class Run:
    """The lines from one to another after which the figures were the same."""

    first: int
    last: int
    figures: Figures


class Event(NamedTuple):
    """What a line did, as far as a page goes by it."""

    number: int
    loaded: bool = False
    bound: int | None = None
    # Train, choice and points of an addition.
    added: tuple[int, int, int] | None = None
    plan: Plan | None = None
    cost: int | None = None
    ended: bool = False
    ceiling: tuple[int, int] | None = None


@dataclass
class Findings:
    """What the lines since the load have come to, taken in their order."""

    load: int | None = None
    bound: int | None = None
    ceiling: Ceiling | None = None
    # Each plan, with the last line that shows it, and with what it costs by the line that shows it and the additions since.
    plans: dict[Plan, int] = field(default_factory=dict)
    costs: dict[Plan, int] = field(default_factory=dict)
    # The last search that ended with a plan and after which nothing was added, and the last one that ended since there is no plan.
    ended: int | None = None
    without_plan: int | None = None
    runs: list[Run] = field(default_factory=list)

    def take(self, event: Event) -> None:
        """Takes what the next line did."""
        self.bound = self.bound if event.bound is None else event.bound
        if event.added is not None:
            self._add(*event.added)
        if event.plan is not None:
            self._take_plan(event.number, event.plan, event.cost, event.ended)
        elif event.ended:
            self.without_plan = event.number
        if event.ceiling is not None:
            ceiling = Ceiling(*event.ceiling, event.number)
            self.ceiling = ceiling if self.ceiling is None or ceiling.parts < self.ceiling.parts else self.ceiling
        self._follow(event.number)

    def _add(self, train: int, choice: int, points: int) -> None:
        """An addition makes the plans with its choice dearer. What ended before it says nothing now, and a ceiling can be higher."""
        self.ended = self.ceiling = None
        for plan in self.costs:
            if plan[train:train + 1] == (choice,):
                self.costs[plan] += points

    def _take_plan(self, number: int, plan: Plan, cost: int | None, ended: bool) -> None:
        self.plans[plan] = number
        if cost is not None:
            self.costs[plan] = cost
        if ended:
            self.ended = number

    def _follow(self, number: int) -> None:
        """Goes on with the run of the figures, or begins another."""
        figures = Figures(self.bound, min(self.costs.values(), default=None), self.ceiling and self.ceiling.parts)
        if self.runs and self.runs[-1].figures == figures:
            self.runs[-1].last = number
        else:
            self.runs.append(Run(number, number, figures))

    def since(self, holds: Callable[[Figures], bool]) -> int | None:
        """The line since which the figures hold something, where they do now."""
        first = None
        for run in reversed(self.runs):
            if not holds(run.figures):
                break
            first = run.first
        return first


def event(stored: Stored, sizes: Plan, scale: int) -> Event:
    """What a stored line did, by its reply. The sizes and the scale are those of the study that is loaded."""
    asked = kinds.plain_line(stored.line)
    reply = stored.reply if asked is None else kinds.plain_reply(stored.reply)
    if not reply or not kinds.FRAME.fullmatch(reply):
        return Event(stored.number)
    fields = kinds.Fields(reply)
    kind = fields.number(kinds.KIND_WIDTH)
    form = kinds.REPLIES.get(kind)
    try:
        facts: Facts = form.read(fields) if form else {}
    except kinds.CutShort:
        return Event(stored.number)
    line = (stored.line if asked is None else asked).decode("ascii", "backslashreplace")
    return _event(stored.number, kind, facts, line, sizes, scale)


def _event(number: int, kind: int, facts: Facts, line: str, sizes: Plan, scale: int) -> Event:
    if kind in kinds.BOUND_SHOWN:
        return Event(number, loaded=kind in kinds.LOADED, bound=facts["bound"], added=_addition(line) if kind == kinds.ADDED else None)
    if "tries" in facts:
        return Event(number, plan=facts["plan"] and tuple(facts["plan"]), cost=facts["cost"], ended=facts["ended"])
    if "W" in facts:
        return _certified(number, facts, line, sizes, scale)
    return Event(number)


def _addition(line: str) -> tuple[int, int, int] | None:
    asked = lines.read(line)
    if asked is None or asked.encoder is not lines.add:
        return None
    train, choice, points = asked.arguments
    return train, choice, points


def _certified(number: int, facts: Facts, line: str, sizes: Plan, scale: int) -> Event:
    """A certificate. With W = 1 its weights are those of one plan, and E is what this costs, in parts."""
    plan, cost = None, None
    if facts["W"] == ONE_PLAN:
        asked = lines.read(line)
        plan = None if asked is None else _plan(asked.arguments[1], sizes)
        cost = facts["E"] // scale if plan is not None and scale else None
    return Event(number, plan=plan, cost=cost, ceiling=(facts["E"], facts["W"]))


def _plan(weights: list[int], sizes: Plan) -> Plan | None:
    """The plan whose weights begin so: the first are those of the trains' choices, 1 on each that it takes."""
    plan, begin = [], 0
    for size in sizes:
        own = weights[begin:begin + size]
        if sorted(own) != [0] * (size - 1) + [1]:
            return None
        plan.append(own.index(1))
        begin += size
    return tuple(plan)
