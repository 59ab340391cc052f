"""Orders, plans at hand, renumbering and parts, by hand and by trying all plans."""

import random
import unittest

from junction import lift
from junction.lift import Shift
from junction.solving import order, parts, plans
from junction.solving.parts import Alone
from junction.solving.proof import Part
from junction.solving.renumber import Renumbering
from junction.study import Choice, Pair, Plan, Study, Train
from tests import graphs

# Trains 0, 1 and 2 are all paired with one another, 3 with 2, and 4 with 3.
PAIRS = [(0, 1), (0, 2), (1, 2), (2, 3), (3, 4)]
SEEDS = range(40)


def part_of(*counts: int) -> Part:
    return tuple(tuple(range(count)) for count in counts)


class Orders(unittest.TestCase):
    def test_by_degeneracy(self) -> None:
        # 4 has one link and goes first, then 3, then of three with two each the first.
        self.assertEqual(order.degeneracy(PAIRS, part_of(2, 2, 2, 2, 2)), (2, 1, 0, 3, 4))

    def test_decided_trains_come_first_and_are_no_links(self) -> None:
        # Without 2 the links are 0 with 1 and 3 with 4.
        self.assertEqual(order.degeneracy(PAIRS, part_of(2, 2, 1, 2, 2)), (2, 4, 3, 1, 0))

    def test_by_links(self) -> None:
        # 2 has most links, then 0 and 1 are linked to those before, and 1 to two of them.
        self.assertEqual(order.by_links(PAIRS, part_of(2, 2, 2, 2, 2)), (2, 0, 1, 3, 4))

    def test_some_first(self) -> None:
        self.assertEqual(order.by_links(PAIRS, part_of(2, 2, 2, 1, 2), (4, 3)), (4, 3, 2, 0, 1))


class Plans(unittest.TestCase):
    def test_what_one_costs(self) -> None:
        for seed in SEEDS:
            study = graphs.small(seed)
            for plan in graphs.plans(study.sizes)[:50]:
                self.assertEqual(plans.cost(study, plan), graphs.plan_cost(study, plan))

    def test_train_by_train_and_bettered(self) -> None:
        trains = tuple(Train(name, (Choice("0", first), Choice("1", second))) for name, first, second in (("a", 0, 1), ("b", 0, 3)))
        study = Study(trains, (Pair(0, 1, ((5, 5), (0, 5))),))
        # a takes 0 for 0, b then 0 for 5; with b at 0 it is 1 for a that costs least, 1 in all.
        self.assertEqual(plans.good(parts.tables(study, parts.whole(study)), [0, 1]), [1, 0])

    def test_no_change_of_one_train_is_cheaper(self) -> None:
        for seed in SEEDS:
            study = graphs.small(seed)
            if seed % 3 == 0:
                continue
            found = plans.good(parts.tables(study, parts.whole(study)), range(len(study.trains)))
            cost = graphs.plan_cost(study, tuple(found))
            assert cost is not None
            for train, size in enumerate(study.sizes):
                for choice in range(size):
                    other = graphs.plan_cost(study, (*found[:train], choice, *found[train + 1:]))
                    assert other is not None
                    self.assertGreaterEqual(other, cost)


class Renumberings(unittest.TestCase):
    def any(self, study: Study, chance: random.Random) -> Renumbering:
        trains = chance.sample(range(len(study.trains)), len(study.trains))
        return Renumbering(tuple(trains), tuple(tuple(chance.sample(range(size), size)) for size in study.sizes))

    def test_plans_keep_their_costs(self) -> None:
        for seed in SEEDS:
            study = graphs.small(seed)
            numbers = self.any(study, random.Random(seed))
            other = numbers.study(study, parts.whole(study))
            self.assertEqual([(pair.first, pair.second) for pair in other.pairs], sorted((pair.first, pair.second) for pair in other.pairs))
            self.assertTrue(all(pair.first < pair.second for pair in other.pairs))
            old: set[Plan] = set()
            for plan in graphs.plans(other.sizes):
                back = numbers.back(plan)
                old.add(back)
                self.assertEqual(graphs.plan_cost(other, plan), graphs.plan_cost(study, back))
            self.assertEqual(old, set(graphs.plans(study.sizes)))

    def test_a_shift_leaves_the_same(self) -> None:
        for seed in SEEDS:
            study, chance = graphs.small(seed), random.Random(seed)
            numbers, tables = self.any(study, chance), parts.tables(study, parts.whole(study))
            nothing = Shift.nothing(tables)
            shift = Shift(tuple(chance.randint(0, 9) for _ in nothing.lifts), tuple(chance.randint(-9, 9) for _ in nothing.moves))
            left = lift.apply(tables, shift)
            other = numbers.study(study, parts.whole(study))
            left_other = lift.apply(parts.tables(other, parts.whole(other)), numbers.shift(tables, shift))
            self.assertEqual(left_other.constant, left.constant)
            for new, train in enumerate(numbers.trains):
                self.assertEqual(list(left_other.choices[new]), [left.choices[train][choice] for choice in numbers.choices[train]])
            for (i, j), rows in zip(left_other.pairs, left_other.entries, strict=True):
                first, second = numbers.trains[i], numbers.trains[j]
                turned = first > second
                old = left.entries[left.pairs.index((second, first) if turned else (first, second))]
                for a, one in enumerate(numbers.choices[first]):
                    for c, two in enumerate(numbers.choices[second]):
                        self.assertEqual(rows[a][c], old[two][one] if turned else old[one][two])

    def test_the_plan_first_then_by_cost_and_forbidden_last(self) -> None:
        study = Study((Train("a", (Choice("0", None), Choice("1", 4), Choice("2", 2), Choice("3", 4), Choice("4", 9))),))
        tables = parts.tables(study, parts.whole(study))
        self.assertEqual(Renumbering.by([0], tables, [4]).choices, ((4, 2, 1, 3, 0),))

    def test_what_is_not_in_a_part_is_forbidden(self) -> None:
        study = graphs.small(1)
        first = study.sizes.index(max(study.sizes))
        part = parts.only(parts.whole(study), first, [0])
        other = Renumbering.of_trains(range(len(study.trains)), study.sizes).study(study, part)
        self.assertEqual([choice.cost is None for choice in other.trains[first].choices], [False] + [True] * (study.sizes[first] - 1))
        self.assertEqual(other.pairs, study.pairs)


class Parts(unittest.TestCase):
    def test_whole_and_split(self) -> None:
        study = Study((Train("a", (Choice("0", 3), Choice("1", None), Choice("2", 0))), Train("b", (Choice("0", 1),))))
        whole = parts.whole(study)
        self.assertEqual(whole, ((0, 2), (0,)))
        self.assertEqual(parts.split(whole, 0, (2, 1, 0)), [((2,), (0,)), ((0,), (0,))])
        self.assertEqual(parts.without(whole, 0, (0,)), ((2,), (0,)))

    def test_choices_alone(self) -> None:
        trains = tuple(Train(name, (Choice("0", 0), Choice("1", 0))) for name in "abc")
        study = Study(trains, (Pair(0, 1, ((0, 0), (0, 0))), Pair(1, 2, ((1, None), (None, None)))))
        whole = parts.whole(study)
        self.assertEqual(parts.alone(study, whole), Alone(1, 2, (1,)))
        self.assertEqual(parts.alone(study, parts.without(whole, 1, (1,))), Alone(2, 1, (1,)))
        self.assertIsNone(parts.alone(study, ((0, 1), (0,), (0,))))


if __name__ == "__main__":
    unittest.main()
