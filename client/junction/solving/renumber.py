"""Trains and choices with other numbers, and back: a search tries both by their numbers, so it is by these that a good plan comes first."""

from collections.abc import Sequence
from typing import NamedTuple

from junction.block import Tables
from junction.lift import Moves, Shift
from junction.solving.proof import Part
from junction.study import Choice, Pair, Plan, Study, Train


class _Place(NamedTuple):
    """Where a pair stands: its trains' new numbers, its old place, and whether its trains stand the other way round."""

    first: int
    second: int
    pair: int
    turned: bool


class Renumbering(NamedTuple):
    """New train k is old train trains[k], and new choice c of old train t is its old choice choices[t][c]."""

    trains: tuple[int, ...]
    choices: tuple[tuple[int, ...], ...]

    @staticmethod
    def by(order: Sequence[int], tables: Tables, plan: Plan) -> "Renumbering":
        """Trains in an order; of each train the plan's choice first, then the others by what they cost in the tables, the forbidden ones last."""
        choices = [
            sorted(range(len(row)), key=lambda choice: (choice != first, row[choice] is None, row[choice] or 0, choice))
            for row, first in zip(tables.choices, plan, strict=True)
        ]
        return Renumbering(tuple(order), tuple(map(tuple, choices)))

    @staticmethod
    def of_trains(order: Sequence[int], sizes: Sequence[int]) -> "Renumbering":
        """Trains in an order, with their choices as they are."""
        return Renumbering(tuple(order), tuple(tuple(range(size)) for size in sizes))

    def study(self, study: Study, part: Part) -> Study:
        """A study in the new numbers, in which all choices that are not in a part are forbidden."""
        trains = tuple(self._train(study.trains[train], train, part) for train in self.trains)
        pairs = []
        for place in self._places([(pair.first, pair.second) for pair in study.pairs]):
            old = study.pairs[place.pair]
            rows = tuple(tuple(old.costs[a][c] for c in self.choices[old.second]) for a in self.choices[old.first])
            pairs.append(Pair(place.first, place.second, tuple(zip(*rows, strict=True)) if place.turned else rows))
        return Study(trains, tuple(pairs), study.scale)

    def shift(self, tables: Tables, shift: Shift) -> Shift:
        """A shift of tables in the old numbers, in the new ones."""
        moves: list[Moves] = []
        of_pairs = shift.by_pair(tables)
        for place in self._places(tables.pairs):
            old = tables.pairs[place.pair]
            sides = [[side[choice] for choice in self.choices[train]] for train, side in zip(old, of_pairs[place.pair], strict=True)]
            moves.append((sides[1], sides[0]) if place.turned else (sides[0], sides[1]))
        return Shift.of([shift.lifts[train] for train in self.trains], moves)

    def back(self, plan: Plan) -> tuple[int, ...]:
        """A plan of the new numbers, in the old ones."""
        old = {train: self.choices[train][choice] for train, choice in zip(self.trains, plan, strict=True)}
        return tuple(old[train] for train in range(len(plan)))

    def _train(self, train: Train, number: int, part: Part) -> Train:
        costs = [train.choices[choice].cost if choice in part[number] else None for choice in self.choices[number]]
        return Train(str(number), tuple(Choice(str(choice), cost) for choice, cost in enumerate(costs)))

    def _places(self, pairs: Sequence[tuple[int, int]]) -> list[_Place]:
        """Each pair's new place, in the order of the new numbers."""
        now = {train: number for number, train in enumerate(self.trains)}
        places = []
        for pair, (first, second) in enumerate(pairs):
            turned = now[first] > now[second]
            low, high = sorted((now[first], now[second]))
            places.append(_Place(low, high, pair, turned))
        return sorted(places)
