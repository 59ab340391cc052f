"""A certificate's weights from a solution's duals: whole numbers whose sums agree, none of them on a forbidden entry.

The duals are fractions as a rule, and their common denominator becomes the full weight. Where it would be too great, the full weight is the greatest there is,
and the weights are near the duals: those of each train are rounded to their sum, and those of each pair are filled in between its trains'. Such a certificate is
right too, but its ceiling may be higher.
"""

import math
from collections.abc import Iterator, Sequence
from fractions import Fraction
from itertools import chain, islice, pairwise
from typing import NamedTuple, TypeVar

from junction.block import Tables
from junction.study import Cost

MOST_FULL = 100_000
# The denominators that are tried, and how far from a fraction a dual may be.
DENOMINATORS = (60, 1000, 20_000)
NEAR = 1e-7
# A weight that is so little below a whole number is taken for it.
BELOW = 1e-6


Number = TypeVar("Number", int, float)


class Certificate(NamedTuple):
    """The full weight, the weights in the order of the line, and whether they stand for the very duals."""

    full: int
    weights: tuple[int, ...]
    exact: bool


def costs_in_order(tables: Tables) -> Iterator[Cost]:
    """The held costs in the order of a certificate's weights, and of a load's costs."""
    return chain(chain.from_iterable(tables.choices), (cost for rows in tables.entries for row in rows for cost in row))


def of(tables: Tables, duals: Sequence[float]) -> Certificate | None:
    """The certificate of duals, given in the order of the weights; None where no whole numbers were found."""
    for most in DENOMINATORS:
        certificate = exact(tables, duals, most)
        if certificate is not None:
            return certificate
    return near(tables, duals)


def ceiling(tables: Tables, certificate: Certificate) -> Fraction:
    """What document 01 calls E / W, in parts."""
    costs = sum(weight * cost for weight, cost in zip(certificate.weights, costs_in_order(tables), strict=True) if cost is not None)
    return tables.constant + Fraction(costs, certificate.full)


def fractions(numbers: Sequence[float], most: int) -> list[Fraction] | None:
    """Numbers as the fractions that are meant, of denominators up to `most`; None where one is near none."""
    meant: dict[float, Fraction] = {}
    for number in set(numbers):
        meant[number] = Fraction(number).limit_denominator(most)
        if abs(float(meant[number]) - number) > NEAR * max(1.0, abs(number)):
            return None
    return [meant[number] for number in numbers]


def exact(tables: Tables, duals: Sequence[float], most: int) -> Certificate | None:
    """The certificate whose weights are the duals as fractions of denominators up to `most`; None where there is none."""
    found = fractions(duals, most)
    if found is None:
        return None
    full = math.lcm(*(fraction.denominator for fraction in found))
    if full > MOST_FULL:
        return None
    weights = tuple(int(fraction * full) for fraction in found)
    return Certificate(full, weights, True) if agree(tables, full, weights) else None


def near(tables: Tables, duals: Sequence[float]) -> Certificate | None:
    """A certificate of the greatest full weight whose weights are near the duals; None where there is none."""
    wishes = [max(0.0, dual) * MOST_FULL for dual in duals]
    of_trains, of_pairs = _by_place(tables, wishes)
    rounded = [_rounded(wished, row) for wished, row in zip(of_trains, tables.choices, strict=True)]
    weights = list(chain.from_iterable(rounded))
    for (first, second), rows, wished in zip(tables.pairs, tables.entries, of_pairs, strict=True):
        filling = _Filling(rounded[first], rounded[second], wished, rows)
        if not filling.fill():
            return None
        weights += chain.from_iterable(filling.weights)
    return Certificate(MOST_FULL, tuple(weights), False) if agree(tables, MOST_FULL, weights) else None


def agree(tables: Tables, full: int, weights: Sequence[int]) -> bool:
    """Whether each train's weights sum to the full weight, each pair's rows and columns to their choices', and none is below 0 or on a forbidden entry."""
    if any(weight < 0 or (weight > 0 and cost is None) for weight, cost in zip(weights, costs_in_order(tables), strict=True)):
        return False
    of_trains, of_pairs = _by_place(tables, weights)
    if any(sum(row) != full for row in of_trains):
        return False
    return all(
        [sum(row) for row in rows] == of_trains[first] and [sum(column) for column in zip(*rows, strict=True)] == of_trains[second]
        for (first, second), rows in zip(tables.pairs, of_pairs, strict=True)
    )


def _by_place(tables: Tables, numbers: Sequence[Number]) -> tuple[list[list[Number]], list[list[list[Number]]]]:
    """Numbers in the order of the line, by train, and by pair and the first train's choice."""
    rest = iter(numbers)
    of_trains = [list(islice(rest, size)) for size in tables.sizes]
    of_pairs = [[list(islice(rest, tables.sizes[second])) for _ in range(tables.sizes[first])] for first, second in tables.pairs]
    return of_trains, of_pairs


def _rounded(wished: Sequence[float], costs: Sequence[Cost]) -> list[int]:
    """Whole numbers near a train's weights, whose sum is the greatest full weight where a choice is permitted."""
    weights = [0 if cost is None else math.floor(weight + BELOW) for weight, cost in zip(wished, costs, strict=True)]
    permitted = [choice for choice, cost in enumerate(costs) if cost is not None]
    missing = MOST_FULL - sum(weights)
    if missing < 0:
        weights[weights.index(max(weights))] += missing
    elif permitted:
        share, more = divmod(missing, len(permitted))
        for place, choice in enumerate(sorted(permitted, key=lambda choice: weights[choice] - wished[choice])):
            weights[choice] += share + (place < more)
    return weights


class _Filling:
    """A pair's weights, such that rows and columns have given sums: what is wished for rounded down, and then filled up.

    Each time as much as can be goes along a path from a row in which something is missing to a column in which something is: on an entry of a row the weight grows,
    and on one by which the path goes back from a column to another row it falls.
    """

    def __init__(self, row_sums: Sequence[int], column_sums: Sequence[int], wished: Sequence[Sequence[float]], costs: Sequence[Sequence[Cost]]) -> None:
        self._rows, self._columns = list(row_sums), list(column_sums)
        self._permitted = [[cost is not None for cost in row] for row in costs]
        self.weights = [[0] * len(self._columns) for _ in self._rows]
        for row, wishes in enumerate(wished):
            for column, wish in enumerate(wishes):
                if self._permitted[row][column]:
                    self._put(row, column, min(math.floor(wish + BELOW), self._rows[row], self._columns[column]))

    def fill(self) -> bool:
        """Whether rows and columns could be filled."""
        while any(self._rows):
            path = self._path()
            if path is None:
                return False
            steps = list(pairwise(path))
            forward, back = steps[::2], [(row, column) for column, row in steps[1::2]]
            amount = min([self._rows[path[0]], self._columns[path[-1]]] + [self.weights[row][column] for row, column in back])
            for row, column in forward:
                self._put(row, column, amount)
            for row, column in back:
                self._put(row, column, -amount)
        return not any(self._columns)

    def _put(self, row: int, column: int, amount: int) -> None:
        """Lets a weight grow."""
        self.weights[row][column] += amount
        self._rows[row] -= amount
        self._columns[column] -= amount

    def _path(self) -> list[int] | None:
        """A shortest path, as row, column, row, and so on to a column; None where there is none."""
        ways = {row: [row] for row, missing in enumerate(self._rows) if missing}
        waiting, columns = list(ways), set[int]()
        for row in waiting:
            for column, permitted in enumerate(self._permitted[row]):
                if not permitted or column in columns:
                    continue
                columns.add(column)
                way = ways[row] + [column]
                if self._columns[column]:
                    return way
                for other, weights in enumerate(self.weights):
                    if weights[column] and other not in ways:
                        ways[other] = way + [other]
                        waiting.append(other)
        return None
