"""Files of .wcsp: what they give, that what is written reads back the same, that toulbar2 reads and writes the same studies, and what is said of wrong ones."""

import contextlib
import itertools
import random
import tempfile
import unittest
from pathlib import Path

from junction import formats
from junction.errors import FormatError
from junction.formats import wcsp
from junction.study import Choice, Pair, Study, Train

from tests import graphs, studies

SEEDS = range(60)

# The costs of train 0 are 4 and 9, and every plan costs 6 more. Two functions are of trains 0 and 1, one of them given from train 1.
NORTH = """north 3 3 6 100
2 3 1
1 0 4 1
1 9
1 2 0 1
0 150
2 0 1 5 2
0 0 0
1 2 7
2 1 0 1 1
2 1 100
2 2 1 0 2
0 0 1
0 1 2
0 6 0
"""
NORTH_TRAINS = (Train("0", (Choice("0", 10), Choice("1", 15))), Train("1", (Choice("0", 0), Choice("1", 0), Choice("2", 0))), Train("2", (Choice("0", None),)))
NORTH_STUDY = Study(NORTH_TRAINS, (Pair(0, 1, ((1, 6, 6), (6, 6, None))), Pair(1, 2, ((1,), (2,), (0,)))), 840)

Given = list[tuple[tuple[int, ...], int, dict[tuple[int, ...], int]]]


def given(seed: int) -> tuple[list[int], Given, int]:
    """The trains' choices, the functions and the top of a file: scopes in either order, several functions of the same trains, constants."""
    chance = random.Random(seed)
    sizes = [chance.randint(1, 4) for _ in range(chance.randint(1, 4))]
    functions: Given = []
    for _ in range(chance.randint(0, 12)):
        scope = tuple(chance.sample(range(len(sizes)), min(len(sizes), chance.choice([0, 1, 2, 2, 2]))))
        choices = graphs.plans(sizes[train] for train in scope) if scope else []
        functions.append((scope, chance.randint(0, 9), {one: chance.randint(0, 30) for one in choices if chance.random() < 0.5}))
    return sizes, functions, chance.choice([20, 40, 10_000])


def text_of(sizes: list[int], functions: Given, top: int) -> str:
    """A file of them."""
    rows = [f"x {len(sizes)} {max(sizes)} {len(functions)} {top}", " ".join(map(str, sizes))]
    for scope, default, costs in functions:
        rows.append(" ".join(map(str, [len(scope), *scope, default, len(costs)])))
        rows += [" ".join(map(str, [*choices, cost])) for choices, cost in costs.items()]
    return "\n".join(rows)


class Reading(unittest.TestCase):
    """What a file gives."""

    def test_a_file(self) -> None:
        self.assertEqual(wcsp.read(NORTH, "north.wcsp"), (NORTH_STUDY, (), None))

    def test_other_forms_of_the_same_file(self) -> None:
        words = NORTH.split()
        for text in NORTH.replace("\n", "\r\n"), NORTH.replace(" ", "\t "), NORTH.rstrip("\n"), " ".join(words), "\n".join(words), f"\n {NORTH} \n":
            with self.subTest(text=text):
                self.assertEqual(wcsp.read(text, "north.wcsp"), wcsp.read(NORTH, "north.wcsp"))

    def test_plans_cost_what_the_functions_say(self) -> None:
        for seed in SEEDS:
            sizes, functions, top = given(seed)
            read = wcsp.read(text_of(sizes, functions, top), "x.wcsp")
            self.assertEqual(read.study.sizes, tuple(sizes))
            reaching = False
            for plan in graphs.plans(sizes):
                costs = [costs.get(tuple(plan[train] for train in scope), default) for scope, default, costs in functions]
                cost = graphs.plan_cost(read.study, plan)
                if cost is None:
                    self.assertGreaterEqual(sum(costs), top, (seed, plan))
                else:
                    self.assertEqual(cost, sum(costs), (seed, plan))
                    self.assertLess(max(costs, default=0), top, (seed, plan))
                    reaching = reaching or cost >= top
            if reaching:
                self.assertEqual(read.notes, (f"x.wcsp: plans that cost {top}, the top, or more are none there; this is not kept",))

    def test_a_cost_of_the_top_or_more_is_forbidden(self) -> None:
        study = wcsp.read("x 2 3 1 7\n3 1\n2 1 0 6 2\n0 1 7\n0 2 8\n", "x.wcsp").study
        self.assertEqual(study.pairs, (Pair(0, 1, ((6,), (None,), (None,))),))

    def test_costs_that_add_up_to_the_top_are_forbidden(self) -> None:
        study = wcsp.read("x 1 3 2 7\n3\n1 0 3 1\n0 2\n1 0 4 1\n2 3\n", "x.wcsp").study
        self.assertEqual(study.trains[0].choices, (Choice("0", 6), Choice("1", None), Choice("2", 6)))

    def test_costs_that_come_to_the_top_with_the_constant_are_forbidden(self) -> None:
        study = wcsp.read("x 2 2 3 7\n2 2\n1 0 0 1\n1 4\n2 0 1 3 1\n0 0 4\n0 3 0\n", "x.wcsp").study
        self.assertEqual(study.trains[0].choices, (Choice("0", 3), Choice("1", None)))
        self.assertEqual(study.pairs, (Pair(0, 1, ((None, 3), (3, 3))),))

    def test_costs_above_the_limit_that_are_forbidden(self) -> None:
        study = wcsp.read(f"x 1 3 2 1000001\n3\n1 0 0 2\n0 1000000\n1 {10**18}\n1 0 0 1\n2 1000001\n", "x.wcsp").study
        self.assertEqual(study.trains[0].choices, (Choice("0", 1_000_000), Choice("1", None), Choice("2", None)))

    def test_several_constants(self) -> None:
        study = wcsp.read("x 2 2 3 100\n2 1\n0 3 0\n1 0 0 1\n0 2\n0 4 0\n", "x.wcsp").study
        self.assertEqual(study.trains, (Train("0", (Choice("0", 9), Choice("1", 7))), Train("1", (Choice("0", 0),))))

    def test_functions_in_common(self) -> None:
        read = wcsp.read("x 3 2 3 9\n2 2 2\n-2 0 1 1 1\n0 1 4\n-1 2 0 1\n1 3\n2 2 1 0 -1\n", "x.wcsp")
        self.assertEqual(read.study.pairs, (Pair(0, 1, ((1, 4), (1, 1))), Pair(1, 2, ((0, 0), (4, 0)))))

    def test_the_greatest_file(self) -> None:
        pairs = list(itertools.combinations(range(24), 2))[:48]
        rows = [f"2 {i} {j} 1000000 0\n" for i, j in pairs] + [f"1 {number} 1000000 0\n" for number in range(24)]
        read = wcsp.read(f"x 24 8 72 100000000\n{'8 ' * 24}\n" + "".join(rows), "x.wcsp")
        self.assertEqual({cost for pair in read.study.pairs for row in pair.costs for cost in row}, {1_000_000})
        self.assertEqual((len(read.study.pairs), read.study.sizes, read.notes), (48, (8,) * 24, ()))

    def test_by_its_suffix(self) -> None:
        path = Path(self.enterContext(tempfile.TemporaryDirectory())) / "north.wcsp"
        path.write_text(NORTH)
        self.assertEqual(formats.read(str(path), scale=12), (NORTH_STUDY.with_scale(12), (), None))


class Writing(unittest.TestCase):
    """What is written."""

    def test_a_study(self) -> None:
        # No plan costs more than 15, and 6 and 2 for the pairs.
        self.assertEqual(wcsp.write(NORTH_STUDY), "junction 3 3 4 24\n2 3 1\n1 0 0 2\n0 10\n1 15\n1 2 0 1\n0 24\n"
                                                  "2 0 1 0 6\n0 0 1\n0 1 6\n0 2 6\n1 0 6\n1 1 6\n1 2 24\n2 1 2 0 2\n0 0 1\n1 0 2\n")

    def test_a_study_that_costs_nothing(self) -> None:
        study = Study((Train("0", (Choice("0", 0),)), Train("1", (Choice("0", 0), Choice("1", None)))), (Pair(0, 1, ((0, 0),)),))
        self.assertEqual(wcsp.write(study), "junction 2 2 2 1\n1 2\n1 1 0 1\n1 1\n2 0 1 0 0\n")

    def test_what_is_written_reads_back_the_same(self) -> None:
        for seed in SEEDS:
            study = studies.study(seed, named=False)
            with self.subTest(seed=seed):
                read = wcsp.read(wcsp.write(study), "x.wcsp")
                self.assertEqual(read, (study, (), None))
                self.assertEqual(wcsp.write(read.study), wcsp.write(study))

    def test_names_are_left_out_with_a_word(self) -> None:
        path = str(Path(self.enterContext(tempfile.TemporaryDirectory())) / "x.wcsp")
        study = Study((Train("RE 5", (Choice("0", 3),)),), (), 60)
        self.assertEqual(formats.write(study, path), ("names of trains have no place in .wcsp and are left out",
                                                      "the scale, 60, has no place in .wcsp and is left out"))
        self.assertEqual(formats.read(path, scale=60).study, Study((Train("0", (Choice("0", 3),)),), (), 60))


class Toulbar2(unittest.TestCase):
    """That toulbar2 has the same study."""

    def setUp(self) -> None:
        self.folder = Path(self.enterContext(tempfile.TemporaryDirectory()))

    def test_it_finds_the_same_least_cost(self) -> None:
        for seed in range(1, 15):
            with self.subTest(seed=seed):
                study = graphs.small(seed)
                path = self.folder / f"{seed}.wcsp"
                path.write_text(wcsp.write(study))
                self.assertEqual(graphs.least_of_toulbar2(path), graphs.least(study))

    def test_what_it_writes_is_read(self) -> None:
        for seed in range(1, 15):
            with self.subTest(seed=seed):
                study = graphs.small(seed)
                ours, its = self.folder / f"{seed}.wcsp", self.folder / f"{seed}-again.wcsp"
                ours.write_text(wcsp.write(study))
                graphs.toulbar2(ours, f"-z={its}", "-z=1")
                if not its.exists():
                    # It writes nothing where its first pass finds that there is no plan.
                    self.assertIsNone(graphs.least(study))
                    continue
                read = wcsp.read(its.read_text(), str(its))
                self.assertEqual(read.notes, ())
                for plan in graphs.plans(study.sizes):
                    self.assertEqual(graphs.plan_cost(read.study, plan), graphs.plan_cost(study, plan), plan)


class Wrong(unittest.TestCase):
    """What is said of a file that is no study."""

    def told(self, text: str, *expected: str) -> None:
        """The sentences of all mistakes of a file."""
        with self.assertRaises(FormatError) as raised:
            wcsp.read(text, "north.wcsp")
        self.assertEqual([str(mistake) for mistake in raised.exception.all_of_them], [f"north.wcsp, {sentence}" for sentence in expected])

    def test_files_that_end_early(self) -> None:
        self.told("", "line 1, word 1: the file ends here, before the name")
        self.told("north 3\n", "line 1, word 2: the file ends here, before the most choices of a train")
        self.told("north 2 2 1 9\n2\n", "line 2, word 1: the file ends here, before the number of choices of train 1")
        self.told("north 1 2 2 9\n2\n1 0 0 0\n", "line 3, word 4: the file ends here, before function 2 of 2")
        self.told("north 1 2 1 9\n2\n1 0 0 2\n0 3\n1", "line 5, word 1: the file ends here, before a cost")
        self.told("north 1 2 1 9\n2\n999999999999 0 0", "line 3, word 3: the file ends here, before the number of a train")

    def test_more_behind_the_end(self) -> None:
        self.told("north 1 2 1 9\n2\n1 0 0 0\n\n1 0 0 0\n", "line 5, word 1: the header says 1 function, and more stands behind")

    def test_numbers(self) -> None:
        self.told("three 3x 2 1 9\n", "line 1, word 2: the number of trains is a whole number, not '3x'")
        self.told("north -3 2 1 9\n", "line 1, word 2: the number of trains is -3, and not below 0")
        self.told("north 1 2 1 1e9\n2\n", "line 1, word 5: the top is a whole number, not '1e9'")
        self.told("north 1 2 1 9\n2\n1 0 0 1\n0 2.5\n", "line 4, word 2: a cost is a whole number, not '2.5'")
        self.told("north 1 2 1 9\n2\n1 0 0 1\n0 ٣\n", "line 4, word 2: a cost is a whole number, not '٣'")
        self.told("north 1 2 1 9\n2\n1 0 0 1\n0 " + "9" * 5_000, f"line 4, word 2: a cost is a whole number, not '{'9' * 30}'")

    def test_headers(self) -> None:
        self.told("north 0 2 1 9\n", "line 1, word 2: there is no train, and a study has at least one")
        self.told("north 25 2 1 9\n", "line 1, word 2: 25 trains, and 24 are the most")
        self.told("north 1 2 0 0\n2\n", "line 1, word 5: a top of 0 forbids every cost")
        self.told("north 4 9 0 9\n8 9 0\n-4",
                  "line 2, word 2: train 1 has 9 choices, and 1 to 8 can be",
                  "line 2, word 3: train 2 has 0 choices, and 1 to 8 can be",
                  "line 3, word 1: train 3 has an interval of choices, by a number below 0; its choices have to be given by their number")

    def test_named_functions(self) -> None:
        self.told("north 4 2 2 9\n2 2 2 2\n4 0 1 2 3 -1 salldiff var 1\n1 9 0 0\n",
                  "line 3, word 6: the function 'salldiff' is named; costs have to be given by choices, one by one")
        self.told("north 2 2 2 9\n2 2\n1 2 0 0\n2 0 1 -1 >= 0 0\n",
                  "line 3, word 2: there is no train 2", "line 4, word 4: the function '>=' is named; costs have to be given by choices, one by one")

    def test_functions_of_three_trains(self) -> None:
        self.told("north 3 2 3 9\n2 2 2\n3 0 1 2 0 2\n0 0 0 1\n1 0 1 5\n1 3 0 0\n4 0 1 2 0 0 0\n",
                  "line 3, word 1: a function of 3 trains; costs are of one train or of two", "line 6, word 2: there is no train 3",
                  "line 7, word 1: a function of 4 trains; costs are of one train or of two")

    def test_trains_and_choices(self) -> None:
        self.told("north 2 2 3 9\n2 1\n2 0 0 3 0\n2 0 1 0 2\n0 1 4\n2 0 5\n2 2 -1 0 0\n",
                  "line 3, word 1: a function of train 0 twice", "line 5, word 2: train 1 has no choice 1", "line 6, word 1: train 0 has no choice 2",
                  "line 7, word 2: there is no train 2", "line 7, word 3: the number of a train is -1, and not below 0")

    def test_costs(self) -> None:
        self.told("north 1 2 2 2000000\n2\n1 0 -2 1\n0 -3\n1 0 0 1\n1 1000001\n", "line 3, word 3: a cost of -2, and no cost is below 0",
                  "line 4, word 2: a cost of -3, and no cost is below 0", "line 6, word 2: a cost of 1000001, and 1000000 is the most")
        self.told("north 1 2 1 9\n2\n1 0 0 3\n0 1\n1 2\n0 1\n", "line 6, word 1: the cost of choices 0 is given twice in this function")
        self.told("north 2 2 1 9\n2 2\n2 1 0 0 2\n0 1 4\n0 1 5\n", "line 5, word 1: the cost of choices 0 1 is given twice in this function")
        self.told("north 1 2 1 9\n2\n0 3 1 4\n", "line 3, word 3: a constant is the cost by default, and has no costs by choices")

    def test_costs_that_add_up_to_too_much(self) -> None:
        self.told("north 2 2 3 9000000\n2 1\n2 0 1 600000 0\n2 1 0 400000 0\n2 0 1 0 1\n1 0 7\n",
                  "line 6, word 3: with this cost of 7 the costs on the same choices come to 1000007, and 1000000 is the most")
        self.told("north 1 2 2 9000000\n2\n1 0 1 0\n0 1000000 0\n",
                  "line 4, word 2: with this cost of 1000000 the costs on the same choices come to 1000001, and 1000000 is the most")
        self.told("north 2 2 1 9000000\n2 2\n2 0 1 1000001 0\n", "line 3, word 4: a cost of 1000001, and 1000000 is the most")

    def test_functions_in_common(self) -> None:
        self.told("north 2 2 2 9\n2 1\n-1 0 0 1\n0 3\n1 0 0 -2\n", "line 5, word 4: there is no function number 2 before this one whose costs it could have")
        self.told("north 2 2 2 9\n2 1\n-1 0 0 1\n0 3\n1 1 0 -1\n",
                  "line 5, word 4: function number 1, whose costs this one has, is of trains with other numbers of choices")

    def test_the_first_pair_beyond_the_limit(self) -> None:
        pairs = list(itertools.combinations(range(11), 2))[:50]
        rows = [f"2 {j} {i} 0 0\n" for i, j in pairs[:48]]
        wcsp.read(f"north 11 1 49 9\n{'1 ' * 11}\n" + "".join([*rows, "2 0 1 3 0\n"]), "north.wcsp")
        self.told(f"north 11 1 51 9\n{'1 ' * 11}\n" + "".join([*rows, "2 0 1 3 0\n", *(f"2 {i} {j} 0 0\n" for i, j in pairs[48:])]),
                  "line 52, word 1: this is the 49th pair, and 48 are the most")

    def test_all_mistakes_up_to_20_are_told(self) -> None:
        for count in 1, 19, 20, 21, 100:
            self.told(f"north 1 2 {count} 9\n2\n" + "1 1 0 0\n" * count, *(f"line {row}, word 2: there is no train 1" for row in range(3, 3 + min(count, 20))))

    def test_damaged_files_are_read_or_told(self) -> None:
        for seed in range(600):
            for text in NORTH, wcsp.write(graphs.small(3)):
                with contextlib.suppress(FormatError):
                    wcsp.read(graphs.damaged(text, seed), "north.wcsp")
