"""Plans: what one costs, and a good one at hand, by the tables that a shift leaves. Shifts keep what plans cost, so the tables left serve for both."""

from collections.abc import Sequence

from junction.block import Tables
from junction.lift import NEVER
from junction.study import Cost, Plan, Study

# How often all trains are gone through at most while that makes a plan cheaper.
PASSES = 20


def cost(study: Study, plan: Plan) -> Cost:
    """What a plan costs in points, None where it takes something forbidden."""
    costs = [train.choices[choice].cost for train, choice in zip(study.trains, plan, strict=True)]
    costs += [pair.costs[plan[pair.first]][plan[pair.second]] for pair in study.pairs]
    return None if None in costs else sum(cost for cost in costs if cost is not None)


def good(tables: Tables, order: Sequence[int]) -> list[int]:
    """A plan train by train in an order, each with the choice that costs least beside those before it, and then bettered one train at a time. Where it meets
    something forbidden it is no plan, and serves to number choices all the same."""
    tried = _Tried(tables)
    for train in order:
        tried.choose(train)
    for _ in range(PASSES):
        if not any([tried.choose(train) for train in order]):
            break
    return [tried.chosen[train] for train in range(len(tables.sizes))]


class _Tried:
    """The choices of the trains that have one so far."""

    def __init__(self, tables: Tables) -> None:
        self.chosen: dict[int, int] = {}
        self._costs = [_figures(row) for row in tables.choices]
        # By train: its partners, each with what its choices cost, a row for each choice of the partner.
        self._beside: list[list[tuple[int, list[list[int]]]]] = [[] for _ in tables.sizes]
        for (first, second), rows in zip(tables.pairs, tables.entries, strict=True):
            figures = [_figures(row) for row in rows]
            self._beside[second].append((first, figures))
            self._beside[first].append((second, [list(column) for column in zip(*figures, strict=True)]))

    def choose(self, train: int) -> bool:
        """Gives a train the choice that costs least now. Whether it is another than before."""
        costs = self._costs[train]
        for partner, rows in self._beside[train]:
            if partner in self.chosen:
                costs = [cost + more for cost, more in zip(costs, rows[self.chosen[partner]], strict=True)]
        before = self.chosen.get(train)
        least = min(costs)
        if before is not None and costs[before] == least:
            return False
        self.chosen[train] = costs.index(least)
        return True


def _figures(costs: Sequence[Cost]) -> list[int]:
    return [NEVER if cost is None else cost for cost in costs]
