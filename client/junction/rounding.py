"""A shift of whole numbers from a solution's moves.

Floating-point numbers may be a little off, and whole numbers of parts are not the fractions that a solution has. So each move is taken again, as the most that
its row or column of entries can give, and each lift is its train's least: no permitted entry ends below 0, whatever the solution was.

Where all moves of a pair's first train grow by an amount and those of its second fall by it, the entries stay. By how much they do, before the moves become whole,
decides what is lost: it is chosen pair by pair, such that the trains' leasts are highest.
"""

import math
from collections.abc import Sequence

from junction.block import Tables
from junction.lift import MOST_HELD, Moves, Shift
from junction.study import Cost

# A number so near to a whole one is taken for it.
NEAR = 1e-6
# How many digits of the parts of numbers after the point are compared.
DIGITS = 7
# How often all pairs are gone through.
PASSES = 4


def whole(tables: Tables, moves: Sequence[float], most: int) -> Shift:
    """A shift near a solution's moves, whose lifts sum to `most` at most."""
    chosen = _Chosen(tables, _of_pairs(tables, moves))
    for _ in range(PASSES):
        if not any([chosen.choose(pair) for pair in range(len(tables.pairs))]):
            break
    return Shift.of(_lifts(chosen.sums(), most), chosen.moves())


def _lifts(sums: Sequence[Sequence[int]], most: int) -> list[int]:
    """Each train's least. Where there is no plan that may be too much: then it is less, as long as its choices stay within the limit. A train without a permitted
    choice, of which anything can be lifted, has what the others leave."""
    lifts = [min(costs, default=0) for costs in sums]
    for train, costs in enumerate(sums):
        if costs:
            lifts[train] -= max(0, min(sum(lifts) - most, lifts[train] + MOST_HELD - max(costs)))
    if not all(sums):
        lifts[[not costs for costs in sums].index(True)] = most - sum(lifts)
    return lifts


def _of_pairs(tables: Tables, moves: Sequence[float]) -> list[list[Moves]]:
    """For each pair the whole moves that are to choose from."""
    found: list[list[Moves]] = []
    at = 0
    for (first, second), entries in zip(tables.pairs, tables.entries, strict=True):
        between, end = at + tables.sizes[first], at + tables.sizes[first] + tables.sizes[second]
        found.append(_of_pair(entries, moves[at:between], moves[between:end]))
        at = end
    return found


def _of_pair(entries: Sequence[Sequence[Cost]], row_moves: Sequence[float], column_moves: Sequence[float]) -> list[Moves]:
    """The whole moves of one pair, for each amount that makes a row's move whole where it is added to the rows' moves."""
    found: list[Moves] = []
    for added in sorted({round(-move % 1.0, DIGITS) % 1.0 for move in row_moves}):
        moves = _most_moves(entries, [_down(move + added) for move in row_moves], [_down(move) for move in column_moves])
        if moves not in found:
            found.append(moves)
    return found


def _most_moves(entries: Sequence[Sequence[Cost]], row_moves: Sequence[int], column_moves: Sequence[int]) -> Moves:
    """The columns' moves are the most that the rows' moves leave, the rows' moves then the most that the columns' leave."""
    columns = [_most(column, row_moves, move) for column, move in zip(zip(*entries, strict=True), column_moves, strict=True)]
    return [_most(row, columns, move) for row, move in zip(entries, row_moves, strict=True)], columns


def _most(costs: Sequence[Cost], moves: Sequence[int], otherwise: int) -> int:
    """The most that entries can give after others' moves. Where all are forbidden that is anything, and so what it would be otherwise."""
    return min((cost - move for cost, move in zip(costs, moves, strict=True) if cost is not None), default=otherwise)


def _down(number: float) -> int:
    """The whole number below, or the one that is meant."""
    nearest = round(number)
    return nearest if abs(number - nearest) < NEAR else math.floor(number)


class _Chosen:
    """The moves chosen for each pair, and what each train's choices come to with them."""

    def __init__(self, tables: Tables, of_pairs: list[list[Moves]]) -> None:
        self._pairs, self._of_pairs, self._numbers = tables.pairs, of_pairs, [0] * len(tables.pairs)
        self._permitted = [[choice for choice, cost in enumerate(row) if cost is not None] for row in tables.choices]
        self._sums = [[cost or 0 for cost in row] for row in tables.choices]
        for pair in range(len(tables.pairs)):
            self._put(pair, 1)

    def moves(self) -> list[Moves]:
        """The chosen moves."""
        return [moves[number] for moves, number in zip(self._of_pairs, self._numbers, strict=True)]

    def sums(self) -> list[list[int]]:
        """What the permitted choices of each train come to."""
        return [[self._sums[train][choice] for choice in choices] for train, choices in enumerate(self._permitted)]

    def choose(self, pair: int) -> bool:
        """Chooses a pair's moves such that its trains' leasts are highest, and then as few of their choices as can be have them. Whether they are others now."""
        before = self._numbers[pair]
        if len(self._of_pairs[pair]) == 1:
            return False
        self._put(pair, -1)
        values = []
        for number in range(len(self._of_pairs[pair])):
            self._numbers[pair] = number
            self._put(pair, 1)
            values.append((self._value(pair), number == before, -number))
            self._put(pair, -1)
        self._numbers[pair] = -max(values)[2]
        self._put(pair, 1)
        return self._numbers[pair] != before

    def _put(self, pair: int, times: int) -> None:
        """Adds a pair's chosen moves to what its trains' choices come to, or takes them away."""
        for train, moves in zip(self._pairs[pair], self._of_pairs[pair][self._numbers[pair]], strict=True):
            sums = self._sums[train]
            for choice, move in enumerate(moves):
                sums[choice] += times * move

    def _value(self, pair: int) -> tuple[int, int]:
        """The sum of the leasts of a pair's trains, and less than 0 by how many choices have them."""
        total = count = 0
        for train in self._pairs[pair]:
            costs = [self._sums[train][choice] for choice in self._permitted[train]]
            if costs:
                total += min(costs)
                count += costs.count(min(costs))
        return total, -count
