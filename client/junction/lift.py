"""Shifts of a block's tables: what they change, and one that is found by sweeps, without a solver.

A shift moves costs between the choices of trains and their pairs, and lifts what every choice of a train has to the constant; plans keep their totals.
The higher the constant, the higher the published bound, and the sooner a search drops a try. A sweep goes over the trains in an order, there and back:
each train takes all that its pairs with the trains behind it can give, and hands what it has above its least in equal shares to its pairs with the trains
ahead (sequential reweighting). All is in whole parts.

The service judges every permitted entry, also of choices that are in no plan, because a partner leaves them no permitted entry. The sweeps go without
these; they get afterwards what they lack, from the pair that leaves them without a partner, since forbidden entries give any amount.
"""

from collections.abc import Iterable, Sequence
from dataclasses import dataclass, replace
from operator import add, sub
from typing import NamedTuple

from junction.block import Rows, Tables
from junction.study import Cost

Moves = tuple[Sequence[int], Sequence[int]]

# The limits of document 01 and of document 02, change 3: lifts and moves, and what an entry and the constant can hold, in parts.
MOST_MOVED = 10 ** 12
MOST_HELD = 72_000_000_000

# Sweeps go on as long as the last three together raised the constant by more than one part in so many.
LEAST_GAIN = 1000
# A shift that an entry has no room for is halved, at most so often: no move is then left above 0.
HALVINGS = 41
# Stands for a forbidden entry during the sweeps: more than any costs together. Each row and column has a permitted one.
NEVER = 10 ** 15


@dataclass(frozen=True)
class Shift:
    """Lifts by train, and moves in the order of the line: for each pair its first train's moves by choice, then its second train's. In parts."""

    lifts: tuple[int, ...]
    moves: tuple[int, ...]

    @staticmethod
    def of(lifts: Iterable[int], moves: Iterable[Moves]) -> "Shift":
        """A shift of lifts, and of each pair's moves: those of its first train and those of its second."""
        return Shift(tuple(lifts), tuple(move for pair in moves for side in pair for move in side))

    @staticmethod
    def nothing(tables: Tables) -> "Shift":
        """The shift that moves nothing."""
        return Shift.of([0] * len(tables.sizes), [([0] * tables.sizes[i], [0] * tables.sizes[j]) for i, j in tables.pairs])

    def by_pair(self, tables: Tables) -> list[Moves]:
        """Each pair's moves: those of its first train by choice, and those of its second."""
        found: list[Moves] = []
        at = 0
        for first, second in tables.pairs:
            between, end = at + tables.sizes[first], at + tables.sizes[first] + tables.sizes[second]
            found.append((self.moves[at:between], self.moves[between:end]))
            at = end
        return found


def apply(tables: Tables, shift: Shift) -> Tables:
    """The tables after a shift, by the arithmetic of document 01's line 03. Whether the service accepts it is not judged."""
    choices = [_sums(row, [-lift] * len(row)) for row, lift in zip(tables.choices, shift.lifts, strict=True)]
    entries: list[Rows] = []
    for (first, second), rows, (row_moves, column_moves) in zip(tables.pairs, tables.entries, shift.by_pair(tables), strict=True):
        entries.append(tuple(_sums(row, [-move - other for other in column_moves]) for row, move in zip(rows, row_moves, strict=True)))
        choices[first] = _sums(choices[first], row_moves)
        choices[second] = _sums(choices[second], column_moves)
    return replace(tables, constant=tables.constant + sum(shift.lifts), choices=tuple(choices), entries=tuple(entries))


def _sums(costs: Sequence[Cost], numbers: Sequence[int]) -> tuple[Cost, ...]:
    """Each permitted cost with its number added."""
    return tuple(None if cost is None else cost + number for cost, number in zip(costs, numbers, strict=True))


def accepted(tables: Tables, shift: Shift) -> bool:
    """Whether a shift is within the limits of the line, and leaves the constant and every permitted entry within those of the block."""
    if any(abs(number) > MOST_MOVED for number in (*shift.lifts, *shift.moves)):
        return False
    after = apply(tables, shift)
    rows = [*after.choices, *(row for rows in after.entries for row in rows)]
    return 0 <= after.constant <= MOST_HELD and all(0 <= cost <= MOST_HELD for row in rows for cost in row if cost is not None)


def by_sweeps(tables: Tables, order: Sequence[int] | None = None, sweeps: int = 6, most: int = 30) -> Shift:
    """A shift that the service accepts on these tables, and by which the constant does not fall.

    The sweeps go over the trains in this order, or in the one in which a search tries them: at least `sweeps`, and up to `most` while they gain. Where a
    train has no usable choice there is no plan, and nothing is moved.
    """
    usable = _Usable(tables)
    if not all(usable.choices):
        return Shift.nothing(tables)
    swept = _Sweeps(tables, usable.choices, tables.order if order is None else order)
    swept.run(sweeps, most)
    moves = swept.moves_by_pair(tables)
    shift = _whole(tables, usable, moves, _most_of_a_plan(tables, usable.choices))
    return shift if _serves(tables, shift) else _halved(tables, _whole(tables, usable, moves, 0))


def _serves(tables: Tables, shift: Shift) -> bool:
    """Whether a shift is accepted and the constant does not fall by it."""
    return sum(shift.lifts) >= 0 and accepted(tables, shift)


def _halved(tables: Tables, shift: Shift) -> Shift:
    """A shift, or else its half, its quarter and so on: the first that the entries have room for. Where none is, nothing is moved."""
    for _ in range(HALVINGS):
        if _serves(tables, shift):
            return shift
        moves = tuple(move // 2 for move in shift.moves)
        moved = apply(tables, Shift((0,) * len(tables.sizes), moves))
        shift = Shift(tuple(min(cost for cost in row if cost is not None) for row in moved.choices), moves)
    return Shift.nothing(tables)


class _Unusable(NamedTuple):
    """A choice that a pair leaves no permitted entry with a usable choice of the partner. The pair is None where the choice is forbidden itself."""

    train: int
    choice: int
    pair: int | None


class _Usable:
    """The choices of each train that have a permitted entry with a usable choice of every partner. All plans are of these.

    `others` has the choices that are not usable in the order in which they were found: what the pair of one permits is beside some that stand before it.
    """

    def __init__(self, tables: Tables) -> None:
        self.choices = [[choice for choice, cost in enumerate(row) if cost is not None] for row in tables.choices]
        self.others = [_Unusable(train, choice, None) for train, row in enumerate(tables.choices) for choice, cost in enumerate(row) if cost is None]
        found = -1
        while found != len(self.others):
            found = len(self.others)
            for pair, (first, second) in enumerate(tables.pairs):
                rows = tables.entries[pair]
                self._find_others(pair, first, second, rows)
                self._find_others(pair, second, first, tuple(zip(*rows)))

    def _find_others(self, pair: int, train: int, partner: int, rows: Rows) -> None:
        """Finds the choices of the train that the pair leaves without a partner; they are then no longer usable."""
        without = [choice for choice in self.choices[train] if all(rows[choice][other] is None for other in self.choices[partner])]
        self.others += [_Unusable(train, choice, pair) for choice in without]
        self.choices[train] = [choice for choice in self.choices[train] if choice not in without]


class _Sweeps:
    """The usable choices and what has been moved. What is left of an entry, its cost less both moves, is never below 0."""

    def __init__(self, tables: Tables, usable: Sequence[Sequence[int]], order: Sequence[int]) -> None:
        self._order = order
        self._usable = usable
        self._costs = [_figures(tables.choices[train], choices) for train, choices in enumerate(usable)]
        # By train and partner: the entries, a row for each choice of the train, and what they have given to the train's choices.
        self._rows: dict[tuple[int, int], list[list[int]]] = {}
        self._moves: dict[tuple[int, int], list[int]] = {}
        # By train: the partners before it in the order, and those after it.
        self._partners: list[tuple[list[int], list[int]]] = [([], []) for _ in usable]
        places = {train: place for place, train in enumerate(order)}
        for (first, second), entries in zip(tables.pairs, tables.entries, strict=True):
            rows = [_figures(entries[choice], usable[second]) for choice in usable[first]]
            self._rows[first, second] = rows
            self._rows[second, first] = [list(column) for column in zip(*rows)]
            for train, partner in ((first, second), (second, first)):
                self._moves[train, partner] = [0] * len(usable[train])
                self._partners[train][places[partner] > places[train]].append(partner)

    def run(self, least: int, most: int) -> None:
        """Sweeps there and back: so many at least, and up to so many while the last three together gain."""
        constants: list[int] = []
        while len(constants) < most:
            self._sweep(ahead=1)
            constants.append(self._sweep(ahead=0))
            if len(constants) >= max(least, 4) and (constants[-1] - constants[-4]) * LEAST_GAIN <= constants[-1]:
                break

    def moves_by_pair(self, tables: Tables) -> list[Moves]:
        """The moves of all choices; those that are not usable have none."""
        return [(self._of_all(first, second, tables), self._of_all(second, first, tables)) for first, second in tables.pairs]

    def _of_all(self, train: int, partner: int, tables: Tables) -> list[int]:
        moves = [0] * tables.sizes[train]
        for choice, move in zip(self._usable[train], self._moves[train, partner], strict=True):
            moves[choice] = move
        return moves

    def _sweep(self, ahead: int) -> int:
        """Goes over the trains once, forwards if those ahead are the later ones. Gives what lifts would now add to the constant."""
        constant = 0
        for train in self._order if ahead else reversed(self._order):
            partners_behind, partners_ahead = self._partners[train][1 - ahead], self._partners[train][ahead]
            for partner in partners_behind:
                given = self._moves[partner, train]
                self._moves[train, partner] = [min(map(sub, row, given)) for row in self._rows[train, partner]]
            held = self._held(train)
            least = min(held)
            constant += least
            count = max(len(partners_behind), len(partners_ahead))
            shares = [(cost - least) // count for cost in held] if count else []
            for partner in partners_ahead:
                self._moves[train, partner] = list(map(sub, self._moves[train, partner], shares))
        return constant

    def _held(self, train: int) -> list[int]:
        """What the usable choices of a train cost now."""
        held = self._costs[train]
        for partners in self._partners[train]:
            for partner in partners:
                held = list(map(add, held, self._moves[train, partner]))
        return held


def _figures(costs: Sequence[Cost], choices: Sequence[int]) -> list[int]:
    """The costs of these choices."""
    return [NEVER if (cost := costs[choice]) is None else cost for choice in choices]


def _most_of_a_plan(tables: Tables, usable: Sequence[Sequence[int]]) -> int:
    """At least what any plan costs above the constant: the greatest cost of each train's usable choices, and of each pair's."""
    trains = sum(max(tables.choices[train][choice] or 0 for choice in choices) for train, choices in enumerate(usable))
    pairs = zip(tables.pairs, tables.entries, strict=True)
    return trains + sum(max(rows[a][c] or 0 for a in usable[first] for c in usable[second]) for (first, second), rows in pairs)


def _whole(tables: Tables, usable: _Usable, moves: Sequence[Moves], worth: int) -> Shift:
    """A shift that leaves no permitted entry below 0, whatever the moves: what each column and row of usable choices can give is taken again, and each
    lift is its train's least. A choice that is not usable costs at least its worth afterwards."""
    ending = _Ending(tables, usable.choices, moves)
    lifts = [min(ending.held(train, choice) for choice in choices) for train, choices in enumerate(usable.choices)]
    for other in reversed(usable.others):
        ending.settle(other, lifts[other.train] + worth)
    return Shift.of(lifts, ending.moves)


class _Ending:
    """Moves on their way to a shift: those of some choices are settled, and the permitted entries of settled choices are at least 0."""

    def __init__(self, tables: Tables, usable: Sequence[Sequence[int]], moves: Sequence[Moves]) -> None:
        self.moves = [(list(first), list(second)) for first, second in moves]
        self._tables = tables
        self._settled = [list(choices) for choices in usable]
        # By train: its pairs, each with the train's side of it and the pair's entries, a row for each choice of the train.
        self._sides: list[list[tuple[int, int, Rows]]] = [[] for _ in usable]
        for pair, (first, second) in enumerate(tables.pairs):
            rows = tables.entries[pair]
            columns = tuple(zip(*rows))
            self._sides[first].append((pair, 0, rows))
            self._sides[second].append((pair, 1, columns))
            for choice in usable[second]:
                self.moves[pair][1][choice] = self._left(pair, 1, columns[choice])
            for choice in usable[first]:
                self.moves[pair][0][choice] = self._left(pair, 0, rows[choice])

    def held(self, train: int, choice: int) -> int:
        """What a choice costs after the moves."""
        return (self._tables.choices[train][choice] or 0) + sum(self.moves[pair][side][choice] for pair, side, _ in self._sides[train])

    def settle(self, other: _Unusable, least: int) -> None:
        """Settles a choice that is not usable. Its pairs give what the settled choices leave, which may be below 0. The pair without a partner for it gives
        what it then lacks: all that this pair permits is beside choices that are settled later."""
        for pair, side, rows in self._sides[other.train]:
            self.moves[pair][side][other.choice] = self._left(pair, side, rows[other.choice])
        if other.pair is not None:
            side = self._tables.pairs[other.pair].index(other.train)
            self.moves[other.pair][side][other.choice] += max(0, least - self.held(other.train, other.choice))
        self._settled[other.train].append(other.choice)

    def _left(self, pair: int, side: int, row: Sequence[Cost]) -> int:
        """The most that a row of a pair can give to its choice: the least of what the partner's settled choices leave. 0 where none is permitted."""
        partner, given = self._tables.pairs[pair][1 - side], self.moves[pair][1 - side]
        return min((cost - given[choice] for choice in self._settled[partner] if (cost := row[choice]) is not None), default=0)
