"""MaxSAT files: what they give, that what is written reads back the same, and what is said of wrong ones."""

import itertools
import random
import re
import shutil
import subprocess
import tempfile
import unittest
from pathlib import Path

from junction import lines
from junction.errors import FormatError
from junction.formats import wcnf
from junction.study import Choice, Cost, Pair, Study, Train

from tests import reference

SEEDS = range(60)
BUDGET = 10_000_000

# Choice 0 of train 0 costs 4 (it does not meet literal -1), its choice 1 costs 9; choice 1 of train 2 is forbidden. An entry of a pair meets no literal.
NORTH = """c three trains
p wcnf 3 6 100
4 -1 0
9 1 0
100 3 0
c the same entry twice, either literal first
7 1 -2 0
5 -2 1 0
250 -2 -3 0
"""


def two(number: int, first: Cost, second: Cost) -> Train:
    """A train of two choices, with numbers as names."""
    return Train(str(number), (Choice("0", first), Choice("1", second)))


def any_study(seed: int) -> Study:
    """A study of trains with two choices. One in three has forbidden costs."""
    chance = random.Random(seed)
    count = 24 if seed % 10 == 0 else chance.randint(1, 6)

    def cost() -> Cost:
        return None if seed % 3 == 0 and chance.random() < 0.2 else chance.choice([0, 0, 1, 5, 1_000_000, chance.randint(0, 1_000_000)])

    possible = list(itertools.combinations(range(count), 2))
    pairs = sorted(chance.sample(possible, chance.randint(0, min(48, len(possible)))))
    empty = {both for both in pairs if chance.random() < 0.3}
    return Study(tuple(two(number, cost(), cost()) for number in range(count)),
                 tuple(Pair(*both, tuple(tuple(0 if both in empty else cost() for _ in range(2)) for _ in range(2))) for both in pairs))


def plan_cost(study: Study, plan: tuple[int, ...]) -> Cost:
    """What a plan costs, None where it takes something forbidden."""
    costs = [train.choices[choice].cost for train, choice in zip(study.trains, plan, strict=True)]
    costs += [pair.costs[plan[pair.first]][plan[pair.second]] for pair in study.pairs]
    return None if None in costs else sum(cost for cost in costs if cost is not None)


class Reading(unittest.TestCase):
    """What a file gives."""

    def test_a_file_with_a_header(self) -> None:
        read = wcnf.read(NORTH, "north.wcnf")
        trains = (two(0, 4, 9), two(1, 0, 0), two(2, 0, None))
        pairs = (Pair(0, 1, ((0, 0), (12, 0))), Pair(1, 2, ((None, 0), (0, 0))))
        self.assertEqual(read, (Study(trains, pairs, 840), (), None))

    def test_the_form_of_2022(self) -> None:
        given = NORTH.replace("p wcnf 3 6 100\n", "").replace("100 3", "h 3").replace("250 -2", "h -2")
        self.assertEqual(wcnf.read(given, "north.wcnf"), wcnf.read(NORTH, "north.wcnf"))

    def test_other_forms_of_the_same_file(self) -> None:
        ends = NORTH.replace("\n", "\r\n"), NORTH.rstrip("\n"), NORTH.replace("\n", "\n\n")
        for text in *ends, NORTH.replace(" ", "\t "), NORTH.replace("7 1 -2 0", "7 1 -2 1 0"):
            with self.subTest(text=text):
                self.assertEqual(wcnf.read(text, "north.wcnf"), wcnf.read(NORTH, "north.wcnf"))

    def test_soft_clauses_become_a_line_of_clauses(self) -> None:
        read = wcnf.read("1000000 1 -2 0\n5 2 0\n0 -3 1 0\n", "x.wcnf")
        # Kind, 3 trains, 840, 3 clauses; then two literals and a weight each.
        self.assertEqual(read.line, "09" "03" "0348" "0003" "01FE0F4240" "0200000005" "FD01000000")
        pairs = (Pair(0, 1, ((0, 0), (1_000_000, 0))), Pair(0, 2, ((0, 0), (0, 0))))
        self.assertEqual((read.study, read.notes), (Study((two(0, 0, 0), two(1, 0, 5), two(2, 0, 0)), pairs), ()))

    def test_the_reference_takes_the_line_for_the_same_study(self) -> None:
        files = ["".join(f"{weight} {' '.join(map(str, literals))} 0\n" for literals, weight in self._soft(seed)) for seed in SEEDS]
        read = [wcnf.read(text, "x.wcnf") for text in files]
        self.assertEqual(reference.saved(*(each.line or "no line" for each in read)), [lines.load(each.study) for each in read])

    def test_a_plan_costs_the_weights_of_the_clauses_that_it_fails(self) -> None:
        for seed in SEEDS:
            given = [(literals, None if seed % 2 and number % 7 == 0 else weight) for number, (literals, weight) in enumerate(self._soft(seed, 4))]
            rows = [f"{500 if weight is None else weight} {' '.join(map(str, literals))} 0" for literals, weight in given]
            read = wcnf.read("\n".join([f"p wcnf 5 {len(given)} 500", *rows]), "x.wcnf")
            for plan in itertools.product(range(2), repeat=5):
                failed = [weight for literals, weight in given if all((plan[abs(literal) - 1] == 0) != (literal > 0) for literal in literals)]
                self.assertEqual(plan_cost(read.study, plan), None if None in failed else sum(weight for weight in failed if weight is not None), (seed, plan))

    @staticmethod
    def _soft(seed: int, trains: int = 24) -> list[tuple[tuple[int, ...], int]]:
        """Clauses of one literal or two, over at most so many trains."""
        chance = random.Random(seed)
        most = chance.randint(1, trains)
        pairs = chance.sample(list(itertools.combinations(range(1, most + 1), 2)), min(48, most * (most - 1) // 2))
        named = [chance.choice([(chance.randint(1, most),), *([chance.choice(pairs)] * 3 if pairs else [])]) for _ in range(chance.randint(1, 60))]
        return [(tuple(chance.choice([variable, -variable]) for variable in chance.sample(one, len(one))), chance.randint(0, 400)) for one in named]

    def test_a_clause_that_is_always_met_is_left_out(self) -> None:
        read = wcnf.read("c\n3 1 -1 0\nh -2 2 0\n5 1 0\n", "x.wcnf")
        self.assertEqual(read.study, Study((two(0, 0, 5), two(1, 0, 0))))
        self.assertEqual(read.notes, tuple(f"x.wcnf, line {number}: this clause is always met, and is left out" for number in (2, 3)))
        self.assertEqual(read.line, "09" "02" "0348" "0001" "0100000005")

    def test_a_clause_without_literals_costs_every_plan(self) -> None:
        read = wcnf.read("3 0\n5 1 0\n", "x.wcnf")
        self.assertEqual(read, (Study((two(0, 3, 8),)), (), "09" "01" "0348" "0003" "0100000003" "FF00000003" "0100000005"))
        self.assertEqual(wcnf.read("h 0\n5 1 0\n", "x.wcnf"), (Study((two(0, None, None),)), (), None))

    def test_without_a_top_every_clause_is_soft(self) -> None:
        self.assertEqual(wcnf.read("p wcnf 2 1\n1000000 1 0\n", "x.wcnf").study, Study((two(0, 0, 1_000_000), two(1, 0, 0))))

    def test_the_limits_of_a_line_of_clauses(self) -> None:
        full = wcnf.read("1 1 24 0\n" * 500, "x.wcnf")
        self.assertEqual((len(full.line or ""), full.notes, full.study.pairs[0].costs), (12 + 500 * 10, (), ((0, 0), (0, 500))))
        self.assertEqual(reference.saved(full.line or "no line"), [lines.load(full.study)])
        more = wcnf.read("1 1 24 0\n" * 501, "x.wcnf")
        self.assertEqual((more.line, more.study.pairs[0].costs), (None, ((0, 0), (0, 501))))
        self.assertEqual(more.notes, ("x.wcnf, line 501: a line of clauses has at most 500, which end before this one, so the file becomes a load",))

    def test_the_greatest_file(self) -> None:
        pairs = list(itertools.combinations(range(1, 25), 2))[:48]
        given = [f"1000000 {sign * i} {other * j} 0" for i, j in pairs for sign in (1, -1) for other in (1, -1)]
        read = wcnf.read("\n".join([f"p wcnf 24 {len(given)} 1000001", *given]), "x.wcnf")
        self.assertEqual({cost for pair in read.study.pairs for row in pair.costs for cost in row}, {1_000_000})
        self.assertEqual(reference.saved(read.line or "no line"), [lines.load(read.study)])


class Writing(unittest.TestCase):
    """What is written."""

    def test_a_study(self) -> None:
        study = Study((two(0, 4, 9), two(1, 0, None), two(2, 0, 0)), (Pair(0, 1, ((0, 7), (12, None))), Pair(1, 2, ((0, 0), (0, 0)))))
        # No plan costs more than 9 + 12. A clause is not met by the choices that it makes dearer.
        self.assertEqual(wcnf.write(study), "p wcnf 3 7 22\n4 -1 0\n9 1 0\n22 2 0\n7 -1 2 0\n12 1 -2 0\n22 1 2 0\n0 -2 -3 0\n")

    def test_what_is_written_reads_back_the_same(self) -> None:
        for seed in SEEDS:
            with self.subTest(seed=seed):
                study = any_study(seed)
                read = wcnf.read(wcnf.write(study), "x.wcnf")
                self.assertEqual((read.study, read.notes), (study, ()))
                self.assertEqual(wcnf.write(read.study), wcnf.write(study))

    def test_a_study_that_does_not_fit(self) -> None:
        one, three = Train("S 1", (Choice("early", 0),)), Train("RE 5", tuple(Choice(str(number), 0) for number in range(3)))
        with self.assertRaises(FormatError) as raised:
            wcnf.write(Study((one, two(1, 0, 0), three)))
        self.assertEqual([str(mistake) for mistake in raised.exception.all_of_them],
                         ["the study, train S 1: it has 1 choice, and a variable of .wcnf has two values",
                          "the study, train RE 5: it has 3 choices, and a variable of .wcnf has two values"])

    def test_toulbar2_finds_the_same_least_cost(self) -> None:
        if shutil.which("toulbar2") is None:
            self.skipTest("toulbar2 is not there: Debian's package toulbar2")
        folder = self.enterContext(tempfile.TemporaryDirectory())
        for seed in range(1, 13):
            with self.subTest(seed=seed):
                study = any_study(seed)
                path = Path(folder) / f"{seed}.wcnf"
                path.write_text(wcnf.write(study))
                found = reference.replies(lines.load(study), lines.search(BUDGET))[1]
                # Reply 86, how it ended (01 with a plan, 02 without one), 4 bytes of tries, 6 of the cost.
                expected = int(found[12:24], 16) if found[2:4] == "01" else None
                self.assertEqual(self._least(path), (expected, expected))

    def _least(self, path: Path) -> tuple[Cost, Cost]:
        """toulbar2's least cost, and what its plan costs in the study: its value 0 of a variable is the literal -k, choice 1 of train k - 1."""
        said = subprocess.run(["toulbar2", path, "-s"], capture_output=True, text=True, check=False).stdout
        optimum = re.search(r"Optimum: (\d+)", said)
        if optimum is None:
            self.assertIn("No solution", said)
            return None, None
        values = re.findall(r"\n ((?:[01] ?)+)\n", said)[-1].split()
        return int(optimum[1]), plan_cost(wcnf.read(path.read_text(), str(path)).study, tuple(1 - int(value) for value in values))


class Wrong(unittest.TestCase):
    """What is said of a file that is no study."""

    def told(self, text: str, *expected: str) -> None:
        """The sentences of all mistakes of a file."""
        with self.assertRaises(FormatError) as raised:
            wcnf.read(text, "north.wcnf")
        self.assertEqual([str(mistake) for mistake in raised.exception.all_of_them], [f"north.wcnf{sentence}" for sentence in expected])

    def test_no_variables(self) -> None:
        for text in "", "c nothing\n\n", "h 0\n3 0\n", "p wcnf 0 0 5\n":
            self.told(text, ": it names no variable, and a study has at least one train")

    def test_headers(self) -> None:
        self.told("c\np cnf 3 2\n1 2 0\n", ", line 2, word 2: this is a file of cnf, and not of wcnf")
        self.told("p\n1 2 0\n", ", line 1: the header ends early")
        wanted = ", line 1: a header is 'p wcnf', the number of variables, the number of clauses and, where some are hard, the top"
        self.told("p wcnf 3\n", wanted)
        self.told("p wcnf 3 1 5 8\n5 1 0\n", wanted)
        self.told("p wcnf three 1 5\n5 1 0\n", ", line 1, word 3: the number of variables is a whole number, not 'three'")
        self.told("p wcnf 3 -1 5\n5 1 0\n", ", line 1, word 4: the number of clauses is a whole number, not '-1'")
        self.told("p wcnf 3 1 1e6\n5 1 0\n", ", line 1, word 5: the top is a whole number, not '1e6'")
        self.told("p wcnf 3 1 0\n5 1 0\n", ", line 1, word 5: with a top of 0 every clause is hard")
        self.told("p wcnf 25 1 5\n5 1 0\n", ", line 1, word 3: 25 variables are as many trains, and 24 are the most")
        self.told("p wcnf 3 2 5\n3 1 0\n", ", line 1, word 4: the header says 2 clauses, and behind it is 1 line")
        self.told("p wcnf 3 1 5\n3 1 0\n3 2 0\n", ", line 1, word 4: the header says 1 clause, and behind it are 2 lines")

    def test_a_header_behind_a_clause(self) -> None:
        self.told("3 1 0\np wcnf 3 1 5\n", ", line 2: a header stands before all clauses, and once")
        self.told("p wcnf 3 2 5\np wcnf 3 2 5\n3 1 0\n", ", line 2: a header stands before all clauses, and once")

    def test_weights(self) -> None:
        self.told("-3 1 0\n", ", line 1, word 1: the weight of a clause is a whole number, not '-3'")
        self.told("2.5 1 0\n3 1 0\nH 2 0\n", ", line 1, word 1: the weight of a clause is a whole number, not '2.5'",
                  ", line 3, word 1: the weight of a clause is a whole number, not 'H'")
        self.told("٣ 1 0\n", ", line 1, word 1: the weight of a clause is a whole number, not '٣'")
        self.told("9" * 5_000 + " 1 0\n", f", line 1, word 1: the weight of a clause is a whole number, not '{'9' * 30}'")
        self.told("1000001 1 0\n", ", line 1, word 1: the weight of a clause is 1000001, and 1000000 is the most")
        self.told("p wcnf 3 1 2000001\n2000000 1 0\n", ", line 2, word 1: the weight of a clause is 2000000, and 1000000 is the most")
        self.told("p wcnf 3 1 9\nh 1 0\n", ", line 2, word 1: where there is a header, its top says which clauses are hard, and not 'h'")

    def test_literals(self) -> None:
        self.told("3 x1 0\n", ", line 1, word 2: the variable of a literal is a whole number, not 'x1'")
        self.told("3 1 --2 0\n", ", line 1, word 3: the variable of a literal is a whole number, not '-2'")
        self.told("3 1 0 2 0\n", ", line 1, word 3: 0 ends a clause, and more stands behind it")
        self.told("3 1 -25 0\n", ", line 1, word 3: this is variable 25, a train each, and 24 are the most")
        self.told("p wcnf 3 1 9\n3 -4 1 0\n", ", line 2, word 2: this is variable 4, and the header says 3 variables")
        self.told("p wcnf 1 1 9\n3 2 0\n", ", line 2, word 2: this is variable 2, and the header says 1 variable")

    def test_clauses(self) -> None:
        self.told("3 1 2\n4 0\nh\n", ", line 1: a clause ends in 0, on its line", ", line 3: a clause ends in 0, on its line")
        self.told("h 1 2 -3 0\n", ", line 1: it has 3 literals, and at most 2 trains cost something together")
        self.told("3 1 -1 2 0\n", ", line 1: it has 3 literals, and at most 2 trains cost something together")

    def test_limits_name_the_first_line_beyond(self) -> None:
        pairs = list(itertools.combinations(range(1, 12), 2))[:50]
        self.told("c\n" + "".join(f"1 {i} {j} 0\n" for i, j in pairs[:49]), ", line 50: trains 6 and 10 are one pair more, and 48 are the most")
        self.told("h 1 0\n600000 2 0\n400000 2 0\n1 2 0\n", ", line 4: the clauses so far cost 1000001 at choice 1 of train 1, and 1000000 is the most")
        self.told("600000 -2 1 0\n600000 1 -2 0\n", ", line 2: the clauses so far cost 1200000 at choices 1 and 0 of trains 0 and 1, and 1000000 is the most")

    def test_all_mistakes_up_to_20_are_told(self) -> None:
        for count in 1, 2, 19, 20, 21, 100:
            told = (f", line {number}, word 2: the variable of a literal is a whole number, not 'x'" for number in range(1, min(count, 20) + 1))
            self.told("3 x 0\n" * count, *told)
        self.told("p wcnf 2 5 9\n1 3 0\n1 0\n1 1\nx 1 0\n",
                  ", line 1, word 4: the header says 5 clauses, and behind it are 4 lines",
                  ", line 2, word 2: this is variable 3, and the header says 2 variables",
                  ", line 4: a clause ends in 0, on its line",
                  ", line 5, word 1: the weight of a clause is a whole number, not 'x'")
