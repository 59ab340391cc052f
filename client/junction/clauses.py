"""The study that weighted clauses stand for (document 02, change 7).

All trains have two choices. Literal k is train k - 1 taking choice 0, and -k is its choice 1. A clause costs its weight where none of its literals is met, so
that its weight goes to one choice, or to one entry of a pair: the one that meets no literal. A clause without a weight forbids.
"""

from collections.abc import Sequence

from junction.study import Choice, Cost, Pair, Study, Train

SIZE = 2


class Beyond(ValueError):
    """A clause takes a study beyond its limits."""


class Costs:
    """What the clauses so far cost, choice by choice and entry by entry."""

    def __init__(self, trains: int, most_cost: int, most_pairs: int) -> None:
        self._choices: list[list[Cost]] = [[0] * SIZE for _ in range(trains)]
        self._pairs: dict[tuple[int, int], list[list[Cost]]] = {}
        self._most_cost, self._most_pairs = most_cost, most_pairs

    def charge(self, literals: Sequence[int], weight: Cost) -> None:
        """One more clause, of one literal or of two trains. None forbids what meets no literal of it."""
        (train, choice), *partner = sorted(_unmet(literal) for literal in literals)
        if partner:
            ((other, other_choice),) = partner
            where = f"choices {choice} and {other_choice} of trains {train} and {other}"
            self._add(self._pair(train, other)[choice], other_choice, weight, where)
        else:
            self._add(self._choices[train], choice, weight, f"choice {choice} of train {train}")

    def study(self, scale: int) -> Study:
        """The study, with numbers as names."""
        trains = (Train(str(number), tuple(Choice(str(choice), cost) for choice, cost in enumerate(costs))) for number, costs in enumerate(self._choices))
        pairs = (Pair(*both, tuple(map(tuple, rows))) for both, rows in sorted(self._pairs.items()))
        return Study(tuple(trains), tuple(pairs), scale)

    def _pair(self, first: int, second: int) -> list[list[Cost]]:
        """The entries of two trains, who are a pair from now on."""
        if (first, second) not in self._pairs:
            if len(self._pairs) == self._most_pairs:
                raise Beyond(f"trains {first} and {second} are one pair more, and {self._most_pairs} are the most")
            self._pairs[first, second] = [[0] * SIZE for _ in range(SIZE)]
        return self._pairs[first, second]

    def _add(self, entries: list[Cost], at: int, weight: Cost, where: str) -> None:
        """Add a weight to an entry, or forbid it. What is forbidden stays so."""
        before = entries[at]
        if before is None or weight is None:
            entries[at] = None
        elif before + weight > self._most_cost:
            raise Beyond(f"the clauses so far cost {before + weight} at {where}, and {self._most_cost} is the most")
        else:
            entries[at] = before + weight


def literal(train: int, choice: int) -> int:
    """The literal that one choice of a train does not meet, and the other does."""
    return train + 1 if choice else -(train + 1)


def _unmet(of: int) -> tuple[int, int]:
    """The train of a literal, and the choice that does not meet it."""
    return abs(of) - 1, int(of > 0)
