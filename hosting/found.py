"""What the lines since a study's load have found: plans, ceilings, and whether a search has settled the study.

An addition makes plans dearer and can raise a ceiling, so both say which addition came after them.
"""

from collections.abc import Iterable, Iterator, Sequence
from dataclasses import dataclass, field
from itertools import accumulate

from hosting import asked
from hosting.kept import Kept
from junction import kinds
from junction.kinds import Facts
from junction.native import Library


@dataclass
class Found:
    """The findings of lines that are taken newest first."""

    last: Facts | None = None
    ceiling: Facts | None = None
    # The addition that is nearest behind the line that is taken.
    added: int | None = None
    # Each plan that a search found, with the number of the last line that shows it.
    plans: dict[tuple[int, ...], int] = field(default_factory=dict)
    # The same of each plan that a certificate with W = 1 shows, by the places of its weights.
    shown: dict[tuple[int, ...], int] = field(default_factory=dict)
    # The last search that ended with a plan and after which nothing was added, and the last one that ended since there is no plan.
    ended: int | None = None
    without_plan: int | None = None

    def take(self, number: int, answer: Facts) -> None:
        """Takes the answer to a line."""
        at = {"line": number, "added_since": self.added}
        if answer["kind"] == kinds.ADDED:
            self.added = number
        elif answer.get("ended") or answer.get("plan"):
            self.last = self.last or {**answer, **at}
            self._take_search(number, answer)
        elif answer.get("W"):
            self.ceiling = self.ceiling or {**answer, **at}
            if "places" in answer:
                self.shown.setdefault(answer["places"], number)

    def _take_search(self, number: int, answer: Facts) -> None:
        if not answer["plan"]:
            self.without_plan = self.without_plan or number
            return
        self.plans.setdefault(tuple(answer["plan"]), number)
        if answer["ended"] and self.added is None:
            self.ended = self.ended or number


def since_load(answers: Iterable[tuple[int, Facts]]) -> Found:
    """What was found since the load, by the answers to the lines from the last to the first, each with its line's number."""
    found = Found()
    for number, answer in answers:
        if answer["kind"] in kinds.LOADED:
            break
        found.take(number, answer)
    return found


def best(library: Library, block: bytes, found: Found, proof: Kept | None = None) -> Facts:
    """The plan of those found that costs least now, with the bound, and whether the study is settled: no plan costs less, or there is no plan.

    Settled is a plan that costs the bound, or that is there when a search has ended and nothing was added since, or that costs what a kept proof of these
    costs says. Where a search has ended without a plan, or such a proof says that there is none, there is none until a load, since additions permit nothing.
    """
    bound = asked.bound(library, block)
    costs = sorted(_costs(library, block, found, proof), key=lambda costing: (costing[1], -(costing[2] or 0)))
    if not costs:
        none = found.without_plan is not None or (proof is not None and proof.plan is None)
        return {"plan": None, "cost": None, "bound": bound, "settled": none, "line": found.without_plan}
    plan, cost, line = costs[0]
    settled = cost == bound or found.ended is not None or (proof is not None and proof.cost == cost)
    return {"plan": plan, "cost": cost, "bound": bound, "settled": settled, "line": line}


def _costs(library: Library, block: bytes, found: Found, proof: Kept | None) -> Iterator[tuple[list[int], int, int | None]]:
    """Each plan found with what it costs now, and the last line that shows it; that of a kept proof, where it costs what the proof says, no line need show."""
    plans, sizes = dict(found.plans), asked.tables(block).sizes
    for places, line in found.shown.items():
        plan = _plan(places, sizes)
        plans[plan] = max(line, plans.get(plan, line))
    for plan, line in plans.items():
        cost = asked.cost(library, block, plan)
        if cost is not None:
            yield list(plan), cost, line
    if proof is not None and proof.plan is not None and asked.cost(library, block, proof.plan) == proof.cost is not None:
        yield list(proof.plan), proof.cost, None


def _plan(places: Sequence[int], sizes: Sequence[int]) -> tuple[int, ...]:
    """The plan of a certificate with W = 1: each train has one weight among those of its choices, and the trains' stand before the pairs'."""
    return tuple(place - begins for place, begins in zip(places, accumulate(sizes[:-1], initial=0)))
