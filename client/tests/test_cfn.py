"""Files of .cfn: what they give, that what is written reads back the same, that toulbar2 reads and writes the same studies, and what is said of wrong ones."""

import contextlib
import itertools
import json
import random
import re
import tempfile
import unittest
from decimal import Decimal
from pathlib import Path

from junction import formats
from junction.errors import FormatError
from junction.formats import cfn
from junction.study import Choice, Pair, Study, Train

from tests import graphs, studies

SEEDS = range(60)

# The pair's costs are given from S 1, and 0.5 by default. Every plan costs 1.5 more.
NORTH = """{"problem": {"name": "north", "mustbe": "<100.0"},
"variables": {"RE 5": ["platform 1", "platform 2"], "S 1": 3, "RB 7": ["early"]},
"functions": {
"of RE 5": {"scope": ["RE 5"], "costs": [0, 2.25]},
"both": {"scope": ["S 1", "RE 5"], "defaultcost": 0.5, "costs": [0, "platform 1", 3, 2, 1, 100]},
"more": {"scope": [0, "S 1"], "costs": [0, 1, 2, 0, 0, 0]},
"last": {"scope": ["S 1", "RB 7"], "defaultcost": 0, "costs": []},
"constant": {"scope": [], "costs": [1.5]}}}
"""
NORTH_STUDY = Study((Train("RE 5", (Choice("platform 1", 150), Choice("platform 2", 375))), Train("S 1", (Choice("0", 0), Choice("1", 0), Choice("2", 0))),
                     Train("RB 7", (Choice("early", 0),))), (Pair(0, 1, ((300, 150, 250), (50, 50, None))), Pair(1, 2, ((0,), (0,), (0,)))), 840)
NORTH_NOTES = ("north.cfn: costs are multiplied by 100, so that all of them are whole",)

# As toulbar2 1.1.1 writes it (option -z=3): names without quotation marks, costs that every plan pays in the constant, and what was 30, the top, now below it.
WRITTEN = """{"problem":{"name":"u.cfn","mustbe":"<30"},
"variables":{
"x0":["0","1"],
"x1":["a","b"],
"x2":["0"]
},
"functions": {
"F_0_1":{"scope":[x1,x0],"defaultcost":0,
"costs":[
1,0,29,
0,1,1,
1,1,3
]},
"F_0":{"scope":[x0],"defaultcost":32,
"costs":[0,0,1,29]},
"F_1":{"scope":[x1],"defaultcost":32,
"costs":[0,0,1,0]},
"F_2":{"scope":[x2],"defaultcost":32,
"costs":[0,0]},
"F":{"scope":[],"costs":[2]}
}
}
"""


def one(*functions: str, top: str = "100", variables: str = '{"x": ["a", "b"], "y": 2}') -> str:
    """A file with these functions, a line each from line 3."""
    return f'{{"problem": {{"name": "n", "mustbe": "<{top}"}},\n"variables": {variables}, "functions": [\n' + "\n".join(functions) + "]}\n"


class Reading(unittest.TestCase):
    """What a file gives."""

    def test_a_file(self) -> None:
        self.assertEqual(cfn.read(NORTH, "north.cfn"), (NORTH_STUDY, NORTH_NOTES, None))

    def test_as_toulbar2_writes_it(self) -> None:
        trains = (Train("x0", (Choice("0", 2), Choice("1", None))), Train("x1", (Choice("a", 0), Choice("b", 0))), Train("x2", (Choice("0", 0),)))
        self.assertEqual(cfn.read(WRITTEN, "x.cfn"), (Study(trains, (Pair(0, 1, ((0, None), (1, 3))),)), (), None))

    def test_other_forms_of_the_same_file(self) -> None:
        bare = NORTH.replace("RE 5", "RE_5").replace("S 1", "S_1").replace("RB 7", "RB_7").replace("platform ", "platform_").replace("of RE", "of_RE")
        expected = cfn.read(bare, "north.cfn")
        free = re.sub('[",:]', " ", bare)
        tagless = re.sub(r"\b(problem|name|mustbe|variables|functions|scope|defaultcost|costs)\b(?! *<)", "", free)
        brackets = bare.replace("{", "[").replace("}", "]")
        quoted = re.sub(r"(?<=[ \[])([0-9][0-9.]*)(?=[,\]])", r'"\1"', bare)
        commented = bare.replace("\n", "\n#{[\"\n")
        laid_out = json.dumps(json.loads(bare), indent=1)
        for text in bare.replace("\n", "\r\n"), bare.replace("\n", " "), f"# north\n{bare}", commented, free, tagless, brackets, quoted, laid_out:
            with self.subTest(text=text):
                self.assertEqual(cfn.read(text, "north.cfn"), expected)

    def test_names_as_json_has_them(self) -> None:
        variables = '{"a \\"b\\" [c]": ["K\\u00f6ln", "x,y"], "0": 1}'
        study = cfn.read(f'{{"problem": {{"name": "a, b: {{c}}", "mustbe": "<9"}}, "variables": {variables}, "functions": {{}}}}', "x.cfn").study
        self.assertEqual(study.trains, (Train('a "b" [c]', (Choice("Köln", 0), Choice("x,y", 0))), Train("0", (Choice("0", 0),))))

    def test_numbers_that_are_names(self) -> None:
        # Without quotation marks a number stands for itself; in quotation marks it is a name where there is such a name.
        study = cfn.read(one('{"scope": ["1"], "defaultcost": 0, "costs": ["1", 5]}', '{"scope": [1], "defaultcost": 0, "costs": [1, 7, "3", 8]}',
                             variables='{"1": ["1", "0"], "0": ["1", "2", "3"]}'), "x.cfn").study
        self.assertEqual(study.trains, (Train("1", (Choice("1", 5), Choice("0", 0))), Train("0", (Choice("1", 0), Choice("2", 7), Choice("3", 8)))))

    def test_trains_without_names(self) -> None:
        study = cfn.read(one('{"scope": [1], "costs": [4, 5, 6]}', variables='[2, ["a", "b", "c"], 1]'), "x.cfn").study
        second = Train("1", (Choice("a", 4), Choice("b", 5), Choice("c", 6)))
        self.assertEqual(study.trains, (Train("0", (Choice("0", 0), Choice("1", 0))), second, Train("2", (Choice("0", 0),))))

    def test_a_cost_of_the_top_or_more_is_forbidden(self) -> None:
        read = cfn.read(one('{"scope": ["x"], "costs": [9.9, 10.05]}', '{"scope": ["x", "y"], "costs": [1, 10, 7, 2]}', top="10.00"), "x.cfn")
        self.assertEqual((read.study.trains[0].choices, read.study.pairs[0].costs), ((Choice("a", 99), Choice("b", None)), ((10, None), (70, 20))))
        # The hundredth of the forbidden cost counts for nothing.
        self.assertEqual(read.notes, ("x.cfn: costs are multiplied by 10, so that all of them are whole",
                                      "x.cfn: plans that cost 10 or more are none there, by mustbe; this is not kept"))

    def test_without_mustbe_nothing_is_forbidden(self) -> None:
        read = cfn.read('{"problem": {"name": "n"}, "variables": {"x": 2}, "functions": {"f": {"scope": ["x"], "costs": [1000000, 0]}}}', "x.cfn")
        self.assertEqual(read, (Study((Train("x", (Choice("0", 1_000_000), Choice("1", 0))),)), (), None))

    def test_decimals(self) -> None:
        for costs, factor, whole in (("[1.0, 2.000]", 1, (1, 2)), ("[0.5, 2]", 10, (5, 20)), ("[.125, +3.]", 1000, (125, 3000)),
                                     ("[0.000001, 1]", 1_000_000, (1, 1_000_000))):
            read = cfn.read(one(f'{{"scope": ["x"], "costs": {costs}}}'), "x.cfn")
            self.assertEqual(tuple(choice.cost for choice in read.study.trains[0].choices), whole)
            self.assertEqual(read.notes, () if factor == 1 else (f"x.cfn: costs are multiplied by {factor}, so that all of them are whole",))

    def test_a_constant_below_0_where_train_0_has_as_much(self) -> None:
        study = cfn.read(one('{"scope": ["x"], "costs": [3, 4.5]}', '{"scope": [], "costs": [-2.5]}'), "x.cfn").study
        self.assertEqual(study.trains[0].choices, (Choice("a", 5), Choice("b", 20)))

    def test_functions_in_common(self) -> None:
        text = one('f {"scope": [z, x], "costs": g}', 'g {"scope": [x, y], "costs": [1, 2, 3, 4]}', variables='{"x": 2, "y": 2, "z": 2}')
        self.assertEqual(cfn.read(text, "x.cfn").study.pairs, (Pair(0, 1, ((1, 2), (3, 4))), Pair(0, 2, ((1, 3), (2, 4)))))

    def test_plans_cost_what_the_functions_say(self) -> None:
        for seed in SEEDS:
            chance = random.Random(seed)
            sizes = [chance.randint(1, 4) for _ in range(chance.randint(1, 4))]
            top = Decimal(chance.choice(["2", "4.5", "1000"]))
            functions = []
            for _ in range(chance.randint(0, 10)):
                scope = tuple(chance.sample(range(len(sizes)), min(len(sizes), chance.choice([0, 1, 2, 2]))))
                choices = graphs.plans(sizes[train] for train in scope)
                functions.append((scope, {each: Decimal(chance.randint(0, 200)).scaleb(-chance.randint(0, 2)) for each in choices}))
            rows = [self._row(scope, costs, chance) for scope, costs in functions]
            read = cfn.read(one(*rows, top=str(top), variables=str(sizes)), "x.cfn")
            factor = next((int(re.findall("by ([0-9]+)", note)[0]) for note in read.notes if "multiplied" in note), 1)
            for plan in graphs.plans(sizes):
                paid = [costs[tuple(plan[train] for train in scope)] for scope, costs in functions]
                cost = graphs.plan_cost(read.study, plan)
                if cost is None:
                    self.assertGreaterEqual(sum(paid), top, (seed, plan))
                else:
                    self.assertEqual(cost, sum(paid) * factor, (seed, plan))
                    self.assertLess(max(paid, default=Decimal(0)), top, (seed, plan))

    @staticmethod
    def _row(scope: tuple[int, ...], costs: dict[tuple[int, ...], Decimal], chance: random.Random) -> str:
        """A function in one of its two forms."""
        if chance.random() < 0.5:
            return f'{{"scope": {list(scope)}, "costs": [{", ".join(map(str, costs.values()))}]}}'
        default = min(costs.values())
        told = [str(word) for choices, cost in costs.items() if cost != default for word in (*choices, cost)]
        return f'{{"scope": {list(scope)}, "defaultcost": {default}, "costs": [{", ".join(told)}]}}'

    def test_the_greatest_file(self) -> None:
        pairs = list(itertools.combinations(range(24), 2))[:48]
        rows = [f'{{"scope": [{i}, {j}], "defaultcost": 1000000, "costs": []}}' for i, j in pairs]
        read = cfn.read(one(*rows, top="100000000", variables=str([8] * 24)), "x.cfn")
        self.assertEqual({cost for pair in read.study.pairs for row in pair.costs for cost in row}, {1_000_000})
        self.assertEqual((len(read.study.pairs), read.study.sizes, read.notes), (48, (8,) * 24, ()))


class Writing(unittest.TestCase):
    """What is written."""

    def test_a_study(self) -> None:
        trains = (Train("RE_5", (Choice("early", 1), Choice("late", None))), Train("S_1", (Choice("0", 0), Choice("1", 0))))
        study = Study(trains, (Pair(0, 1, ((0, 4), (None, 2))),))
        text = cfn.write(study)
        self.assertEqual(text, '{"problem": {"name": "junction", "mustbe": "<6"},\n"variables": {\n"RE_5": ["early", "late"],\n"S_1": 2\n},\n"functions": {\n'
                               '"f_0": {"scope": ["RE_5"], "costs": [1, 6]},\n"f_0_1": {"scope": ["RE_5", "S_1"], "costs": [0, 4, 6, 2]}\n}}\n')
        self.assertEqual(json.loads(text)["variables"], {"RE_5": ["early", "late"], "S_1": 2})
        self.assertEqual((cfn.read(text, "x.cfn"), cfn.notes(study)), ((study, (), None), ()))

    def test_what_is_written_reads_back_the_same(self) -> None:
        for seed in SEEDS:
            study = studies.study(seed, named=False)
            with self.subTest(seed=seed):
                json.loads(cfn.write(study))
                self.assertEqual(cfn.read(cfn.write(study), "x.cfn"), (study, (), None))
                self.assertEqual(cfn.notes(study), ())

    def test_names_that_toulbar2_does_not_read_are_changed(self) -> None:
        for seed in SEEDS:
            study = studies.study(seed)
            with self.subTest(seed=seed):
                text = cfn.write(study)
                read = cfn.read(text, "x.cfn").study
                self.assertEqual(self._unnamed(read), self._unnamed(study))
                for names in [train.name for train in read.trains], *([choice.name for choice in train.choices] for train in read.trains):
                    for name in set(names) - {str(number) for number in range(len(names))}:
                        self.assertRegex(name, r'^[^\s,:"{}\[\]/#\\0-9.+-][^\s,:"{}\[\]/#\\]*$')
                self.assertEqual(cfn.notes(read), ())
                self.assertEqual(cfn.write(read), text)

    @staticmethod
    def _unnamed(study: Study) -> Study:
        choices = [tuple(Choice(str(at), choice.cost) for at, choice in enumerate(train.choices)) for train in study.trains]
        return Study(tuple(Train(str(number), each) for number, each in enumerate(choices)), study.pairs, study.scale)

    def test_what_is_said_of_changed_names(self) -> None:
        study = Study((Train("RE 5", (Choice("1", 0), Choice("2", 0))), Train("RE_5", (Choice("a", 0), Choice("b c", 0))),
                       Train("RE/5", (Choice("0", 0), Choice("1", 0)))))
        path = str(Path(self.enterContext(tempfile.TemporaryDirectory())) / "x.cfn")
        self.assertEqual(formats.write(study, path), ("toulbar2 reads no names in .cfn that have blanks or begin with a digit: "
                                                      "5 names changed, the first from 'RE 5' to 'RE_5_'",))
        read = formats.read(path).study
        self.assertEqual([(train.name, [choice.name for choice in train.choices]) for train in read.trains],
                         [("RE_5_", ["_1", "_2"]), ("RE_5", ["a", "b_c"]), ("RE_5__", ["0", "1"])])


class Toulbar2(unittest.TestCase):
    """That toulbar2 has the same study."""

    def setUp(self) -> None:
        self.folder = Path(self.enterContext(tempfile.TemporaryDirectory()))

    def test_it_finds_the_same_least_cost(self) -> None:
        for seed in range(1, 15):
            with self.subTest(seed=seed):
                study = self._named(seed)
                path = self.folder / f"{seed}.cfn"
                path.write_text(cfn.write(study))
                self.assertEqual(graphs.least_of_toulbar2(path), graphs.least(study))

    def test_what_it_writes_is_read(self) -> None:
        for seed in range(1, 15):
            with self.subTest(seed=seed):
                study = self._named(seed)
                ours, its = self.folder / f"{seed}.cfn", self.folder / f"{seed}-again.cfn"
                ours.write_text(cfn.write(study))
                graphs.toulbar2(ours, f"-z={its}", "-z=3")
                if not its.exists():
                    # It writes nothing where its first pass finds that there is no plan.
                    self.assertIsNone(graphs.least(study))
                    continue
                read = cfn.read(its.read_text(), str(its))
                self.assertEqual(read.notes, ())
                for plan in graphs.plans(study.sizes):
                    self.assertEqual(graphs.plan_cost(read.study, plan), graphs.plan_cost(study, plan), plan)

    @staticmethod
    def _named(seed: int) -> Study:
        """A small study, every other one with names, some of which toulbar2 does not read."""
        study = graphs.small(seed)
        if seed % 2 == 0:
            return study
        choices = [tuple(Choice(f"{choice.name}: x", choice.cost) for choice in train.choices) for train in study.trains]
        return Study(tuple(Train(f"RE {number}", each) for number, each in enumerate(choices)), study.pairs)


class Wrong(unittest.TestCase):
    """What is said of a file that is no study."""

    def told(self, text: str, *expected: str) -> None:
        """The sentences of all mistakes of a file."""
        with self.assertRaises(FormatError) as raised:
            cfn.read(text, "north.cfn")
        self.assertEqual([str(mistake) for mistake in raised.exception.all_of_them], [f"north.cfn, {sentence}" for sentence in expected])

    def test_brackets(self) -> None:
        self.told("", "line 1, word 1: the file is empty")
        self.told("# nothing\n\n", "line 1, word 1: the file is empty")
        self.told('problem {"a"}', "line 1, word 1: a file begins with a bracket, and not with 'problem'")
        self.told('{"problem": {"name": "n"},\n"variables": [2', "line 2, word 2: the file ends here, with 2 brackets not closed")
        self.told('{"problem": {"name": "n"},\n"variables": [2}', "line 2, word 2: behind this stands '}', which closes no bracket")
        self.told('{"problem": {"name": "n"}, "variables": [2], "functions": []}\n}', "line 1, word 6: behind this stands '}', which closes no bracket")
        self.told('{"problem": {"name": "n"}, "variables": [2], "functions": []}\n"more"', "line 2, word 1: behind the last bracket stands more")
        self.told('{"problem": {"name": "n},\n"variables": [2]}',
                  "line 1, word 3: a quotation mark is not closed on its line, or a \\ stands before a character that needs none")

    def test_parts_that_are_missing(self) -> None:
        self.told("{}", "line 1, word 1: behind this should stand the properties of the problem")
        self.told('{"problem": {"name": "n"}}', "line 1, word 3: behind this should stand the variables")
        self.told('{"problem": {"name": "n"}, "variables": [2]}', "line 1, word 5: behind this should stand the functions")
        self.told('{"problem": {"name": "n"}, "variables": {}, "functions": {}}', "line 1, word 1: there is no train, and a study has at least one")
        self.told('{"variables": {"x": 2}, "functions": {}}', "line 1, word 1: the properties of the problem stand in brackets, and not 'variables'")
        self.told('{"problem": {"name": "n"}, "variables": [2], "functions": {}, "more": 1}', "line 1, word 7: 'more' is not known here")

    def test_mustbe(self) -> None:
        for word, why in ((">5", "mustbe begins with >, which asks for the plan that costs most; here plans cost as little as they can"),
                          ("5", "mustbe is < and a number, not '5'"), ("<1e9", "mustbe is < and a number, not '<1e9'"),
                          ("<0.0", "a mustbe of <0.0 forbids every cost"), ("<-3", "a mustbe of <-3 forbids every cost")):
            self.told(f'{{"problem": {{"name": "n",\n"mustbe": "{word}"}}, "variables": [2], "functions": []}}', f"line 2, word 2: {why}")

    def test_variables(self) -> None:
        self.told(one(variables='{"x": ["a", "b", "a"], "y": 9, "x": 0,\n"z": -5, "v": [], "w": many, "u": ["1","2","3","4","5","6","7","8","9", "10"]}'),
                  "line 2, word 5: the name 'a' stands twice",
                  "line 2, word 7: train y has 9 choices, and 1 to 8 can be",
                  "line 2, word 8: the name 'x' stands twice",
                  "line 2, word 9: train x has 0 choices, and 1 to 8 can be",
                  "line 3, word 2: train z has -5 choices, and 1 to 8 can be",
                  "line 3, word 3: train v has no choice",
                  "line 3, word 5: the choices of train w are their names in brackets or their number, not 'many'",
                  "line 3, word 15: this is the 9th choice of train u, and 8 are the most")
        self.told(one(variables='{"x": [["a"], "b"]}'), "line 2, word 2: behind this stand brackets, and not the name of a choice")
        self.told(one(variables='{"x": 2, "y"}'), "line 2, word 4: behind this should stand the choices of train y")
        self.told(one(variables=str([1] * 26)), "line 2, word 26: this is the 25th train, and 24 are the most")

    def test_named_functions(self) -> None:
        self.told(one('"f": {"scope": ["x", "y"], "type": ">=", "params": [1, 3]}', '{"scope": ["x", "q"], "costs": []}'),
                  "line 3, word 6: the function '>=' is named; costs have to be given by choices, one by one", "line 4, word 3: there is no train 'q'")

    def test_scopes(self) -> None:
        self.told(one('{"scope": ["x", "y", "x"], "costs": []}', '{"scope": ["x", 0], "costs": []}', '{"scope": [2], "costs": []}',
                      '{"costs": [1, 2]}', '{"scope": "x"}', "4"),
                  "line 3, word 4: a function of 3 trains; costs are of one train or of two",
                  "line 4, word 3: a function of train x twice",
                  "line 5, word 2: there is no train '2'",
                  "line 6, word 1: the trains of a function stand in brackets, and not 'costs'",
                  "line 7, word 2: the trains of a function stand in brackets, and not 'x'",
                  "line 8, word 1: behind this should stand a function's scope and costs")

    def test_costs(self) -> None:
        self.told(one('{"scope": ["x"], "costs": [1, 2, 3]}', '{"scope": ["x"], "costs": [1, -2]}', '{"scope": ["x"], "costs": [1, 1e3]}', '{"scope": ["x"]}',
                      '{"scope": ["x"], "costs": [1, 2], "more": 3}', '{"scope": ["x"], "costs": [[1], 2]}', '{"scope": ["x"], "default": 3, "costs": []}'),
                  "line 3, word 3: this function has 3 costs, and its trains have 2 choices together", "line 4, word 5: a cost of -2, and no cost is below 0",
                  "line 5, word 5: a cost is a whole or decimal number, not '1e3'", "line 6, word 2: behind this should stand the costs of a function",
                  "line 7, word 6: 'more' is not known here",
                  "line 8, word 3: behind this stand brackets, and not a cost",
                  "line 9, word 4: '3' is not known here")

    def test_costs_by_choices(self) -> None:
        self.told(one('{"scope": ["x", "y"], "defaultcost": 0, "costs": ["a", 1, 5,', '"c", 2, 6,', '"a", "1", 7]}',
                      '{"scope": ["x"], "defaultcost": none, "costs": []}',
                      '{"scope": ["x"], "defaultcost": 0, "costs": ["b"]}'),
                  "line 4, word 1: train x has no choice 'c'",
                  "line 4, word 2: train y has no choice '2'",
                  "line 5, word 1: the cost of these choices is given twice in this function",
                  "line 6, word 4: a cost is a whole or decimal number, not 'none'", "line 7, word 6: behind this should stand a cost")

    def test_costs_above_the_limit(self) -> None:
        self.told(one('{"scope": ["x"], "costs": [1000000, 1000001]}', top="9000000"), "line 3, word 5: a cost of 1000001, and 1000000 is the most")
        self.told(one('{"scope": ["x"], "costs": [1000.5, 100000.25]}', top="9000000"),
                  "line 3, word 5: a cost of 100000.25, which is 10000025 when all costs are made whole by a factor of 100, and 1000000 is the most")
        self.told(one('{"scope": ["x"], "costs": [600000, 3]}', '{"scope": ["x"], "defaultcost": 400000.5, "costs": [1, 0.0]}', top="9000000"),
                  "line 3, word 4: a cost of 600000, which is 6000000 when all costs are made whole by a factor of 10, and 1000000 is the most")
        self.told(one('{"scope": ["x"], "costs": [60000, 3]}', '{"scope": ["x"], "defaultcost": 40000.5, "costs": [1, 0.0]}', top="9000000"),
                  "line 4, word 4: with this cost of 40000.5 the costs on the same choices come to 100000.5, "
                  "which is 1000005 when all costs are made whole by a factor of 10, and 1000000 is the most")

    def test_a_constant_below_0(self) -> None:
        self.told(one('{"scope": ["x"], "costs": [2, 3]}', '{"scope": [], "costs": [-2.5]}'),
                  "line 4, word 3: the constant goes onto every choice of train 0, and would leave one of them -0.5: no cost is below 0")

    def test_functions_in_common(self) -> None:
        self.told(one('"f": {"scope": ["x"], "costs": "h"}', '"g": {"scope": ["x", "y"], "costs": [1, 2, 3, 4]}', '"e": {"scope": ["y"], "costs": "g"}'),
                  "line 3, word 5: there is no function 'h' with costs of its own",
                  "line 5, word 5: function 'g', whose costs this one has, is of trains with other numbers of choices")

    def test_the_first_pair_beyond_the_limit(self) -> None:
        pairs = list(itertools.combinations(range(11), 2))[:50]
        rows = [f'{{"scope": [{j}, {i}], "costs": [0]}}' for i, j in pairs[:48]]
        cfn.read(one(*rows, rows[0], variables=str([1] * 11)), "north.cfn")
        self.told(one(*rows, rows[0], *(f'{{"scope": [{i}, {j}], "costs": [0]}}' for i, j in pairs[48:]), variables=str([1] * 11)),
                  "line 52, word 1: this is the 49th pair, and 48 are the most")

    def test_all_mistakes_up_to_20_are_told(self) -> None:
        for count in 1, 19, 20, 21, 100:
            self.told(one(*['{"scope": ["z"], "costs": []}'] * count), *(f"line {row}, word 2: there is no train 'z'" for row in range(3, 3 + min(count, 20))))

    def test_damaged_files_are_read_or_told(self) -> None:
        for seed in range(600):
            for text in NORTH, WRITTEN:
                with contextlib.suppress(FormatError):
                    cfn.read(graphs.damaged(text, seed), "north.cfn")
