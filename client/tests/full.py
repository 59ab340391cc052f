"""Studies by seeds that are hard to settle: full ones of 24 trains with 8 choices each and 48 pairs, and small ones of which all plans can be tried.

Only `random` of a generator is used, whose numbers stay the same in later versions of Python.
"""

import random
from collections.abc import Sequence

from junction.study import Choice, Cost, Pair, Study, Train

TRAINS, CHOICES, PAIRS = 24, 8, 48
FEW_TRAINS, FEW_CHOICES = 5, 4


class Chance:
    """A generator of whole numbers and costs."""

    def __init__(self, seed: str) -> None:
        self._random = random.Random(seed).random

    def below(self, most: int) -> int:
        """A whole number from 0, below another."""
        return int(self._random() * most)

    def cost(self, kind: str, of_pair: bool) -> Cost:
        """A cost: forbidden now and then, a multiple of 5, small and in pairs seldom 0, or 0 or 1 in pairs alone."""
        if kind == "forbidden":
            return None if self.below(10) == 0 else self.below(1001)
        if kind == "tariff":
            return 5 * self.below(21)
        if kind == "dense":
            return self.below(10) if of_pair or self.below(3) == 0 else 0
        if kind == "hard and forbidden" and of_pair and self.below(3) == 0:
            return None
        return int(of_pair and self.below(10) < 7)


def full(seed: int, kind: str, regular: bool = False) -> Study:
    """A full study. In a regular one each train is in 4 pairs; with costs of 0 and 1 these take longest."""
    chance = Chance(f"{kind} {seed}")
    return _study(chance, kind, TRAINS, CHOICES, _regular(chance) if regular else _any(chance))


def small(seed: int) -> Study:
    """A study of few trains with a pair of each two, and costs of 0 and 1. One in four has forbidden pairs of choices too."""
    pairs = [(first, second) for first in range(FEW_TRAINS) for second in range(first + 1, FEW_TRAINS)]
    return _study(Chance(f"small {seed}"), "hard" if seed % 4 else "hard and forbidden", FEW_TRAINS, FEW_CHOICES, pairs)


def _study(chance: Chance, kind: str, count: int, size: int, pairs: Sequence[tuple[int, int]]) -> Study:
    trains = [[chance.cost(kind, False) for _ in range(size)] for _ in range(count)]
    costs = [tuple(tuple(chance.cost(kind, True) for _ in range(size)) for _ in range(size)) for _ in pairs]
    named = (Train(str(number), tuple(Choice(str(choice), cost) for choice, cost in enumerate(row))) for number, row in enumerate(trains))
    return Study(tuple(named), tuple(Pair(first, second, rows) for (first, second), rows in zip(pairs, costs, strict=True)))


def _any(chance: Chance) -> list[tuple[int, int]]:
    pairs: set[tuple[int, int]] = set()
    while len(pairs) < PAIRS:
        first, second = sorted((chance.below(TRAINS), chance.below(TRAINS)))
        if first != second:
            pairs.add((first, second))
    return sorted(pairs)


def _regular(chance: Chance) -> list[tuple[int, int]]:
    while True:
        ends = [train for train in range(TRAINS) for _ in range(2 * PAIRS // TRAINS)]
        for place in range(len(ends) - 1, 0, -1):
            other = chance.below(place + 1)
            ends[place], ends[other] = ends[other], ends[place]
        pairs = {(min(first, second), max(first, second)) for first, second in zip(ends[::2], ends[1::2], strict=True)}
        if len(pairs) == PAIRS and all(first != second for first, second in pairs):
            return sorted(pairs)
