"""JSON files: what they give, that what is written reads back the same, and what is said of wrong ones."""

import json
import random
import unittest
from typing import Any

from junction.errors import FormatError
from junction.formats import json_file
from junction.study import Choice, Pair, Study, Train

from tests import studies

NORTH = """{
  "format": "junction-study",
  "version": 1,
  "scale": 12,
  "trains": [
    {"name": "RE 5", "choices": [{"name": "platform 1", "cost": 0}, {"name": "platform 2", "cost": 3}]},
    {"name": "Köln", "choices": [{"name": "früh", "cost": null}, {"name": "spät", "cost": 1000000}]}
  ],
  "pairs": [
    {"trains": [0, 1], "costs": [[null, 0], [0, 7]]}
  ]
}
"""


def whole(**changed: Any) -> dict[str, Any]:
    """The file above as a value, with some keys changed."""
    return {**json.loads(NORTH), **changed}


def train(*costs: Any, name: str = "a") -> dict[str, Any]:
    """A train with choices of these costs."""
    return {"name": name, "choices": [{"cost": cost} for cost in costs]}


class Reading(unittest.TestCase):
    """What a file gives."""

    def test_a_file(self) -> None:
        first = Train("RE 5", (Choice("platform 1", 0), Choice("platform 2", 3)))
        second = Train("Köln", (Choice("früh", None), Choice("spät", 1_000_000)))
        expected = Study((first, second), (Pair(0, 1, ((None, 0), (0, 7))),), 12)
        self.assertEqual(json_file.read(NORTH, "north.json").study, expected)
        self.assertEqual(json_file.read(json.dumps(json.loads(NORTH)), "north.json").study, expected)

    def test_what_may_be_left_out(self) -> None:
        text = '{"version": 1, "trains": [{"choices": [{"cost": 1}, {"cost": 2}]}, {"choices": [{"cost": null}]}], "format": "junction-study"}'
        expected = Study((Train("0", (Choice("0", 1), Choice("1", 2))), Train("1", (Choice("0", None),))), (), 840)
        self.assertEqual(json_file.read(text, "x.json").study, expected)

    def test_pairs_in_any_order_are_put_in_order(self) -> None:
        trains = [train(0, name=name) for name in "abc"]
        pairs = [{"trains": pair, "costs": [[cost]]} for cost, pair in enumerate([[1, 2], [0, 2], [0, 1]])]
        study = json_file.read(json.dumps(whole(trains=trains, pairs=pairs)), "x.json").study
        self.assertEqual(study.pairs, (Pair(0, 1, ((2,),)), Pair(0, 2, ((1,),)), Pair(1, 2, ((0,),))))

    def test_limits_at_both_ends(self) -> None:
        for scale in 1, 1000:
            self.assertEqual(json_file.read(json.dumps(whole(scale=scale)), "x.json").study.scale, scale)
        trains = [train(*[1_000_000] * 8, name=str(number)) for number in range(24)]
        pairs = [{"trains": [i, j], "costs": [[0] * 8] * 8} for i in range(24) for j in range(i + 1, min(i + 4, 24))][:48]
        study = json_file.read(json.dumps(whole(trains=trains, pairs=pairs)), "x.json").study
        self.assertEqual((study.sizes, len(study.pairs)), ((8,) * 24, 48))


class Writing(unittest.TestCase):
    """What is written."""

    def test_what_is_written_reads_back_the_same(self) -> None:
        for seed in range(60):
            with self.subTest(seed=seed):
                study = studies.study(seed, named=seed % 4 != 0, scale=seed * 16 % 1000 + 1)
                written = json_file.write(study)
                self.assertEqual(json_file.read(written, "x.json").study, study)
                self.assertEqual(json_file.write(json_file.read(written, "x.json").study), written)

    def test_a_study_is_written_with_a_line_for_each_train_and_pair(self) -> None:
        self.assertEqual(json_file.write(json_file.read(NORTH, "north.json").study), NORTH)
        written = json_file.write(Study((Train("a", (Choice("b", 0),)),)))
        self.assertTrue(written.endswith('"pairs": []\n}\n'), written)

    def test_a_study_with_one_name_twice_is_not_written(self) -> None:
        with self.assertRaisesRegex(FormatError, "^the study, trains: the name 'a' stands twice$"):
            json_file.write(Study((Train("a", (Choice("b", 0),)), Train("a", (Choice("b", 0),)))))


class Wrong(unittest.TestCase):
    """What is said of a file that is no study."""

    def told(self, text: str, *expected: str) -> None:
        """The sentences of all mistakes of a file."""
        with self.assertRaises(FormatError) as raised:
            json_file.read(text, "north.json")
        self.assertEqual([str(mistake) for mistake in raised.exception.all_of_them], [f"north.json{sentence}" for sentence in expected])

    def told_of(self, value: Any, *expected: str) -> None:
        """The same, of a value."""
        self.told(json.dumps(value), *expected)

    def test_no_json(self) -> None:
        self.told("", ", line 1, column 1: it is no JSON: expecting value")
        self.told(NORTH.replace('12,', '12'), ", line 5, column 3: it is no JSON: expecting ',' delimiter")
        self.told(NORTH + "}", ", line 13, column 1: it is no JSON: extra data")
        for number in "NaN", "-Infinity", "1" * 5_000:
            self.told(NORTH.replace("12", number), ": it is no JSON: it has a number that is none, or too many values in one another")
        self.told("[" * 100_000, ": it is no JSON: it has a number that is none, or too many values in one another")

    def test_no_object(self) -> None:
        for text in "[]", "1", "null", '"junction-study"':
            self.told(text, ": it is no object of keys and values")

    def test_another_format_or_version(self) -> None:
        self.told_of(whole(format="junction-labels"), ', format: it is "junction-labels", and not "junction-study"')
        self.told_of(whole(version=2, more=1), ", version: it is 2, and not 1")
        self.told_of(whole(format=1, version="1"), ', format: it is 1, and not "junction-study"', ', version: it is "1", and not 1')
        self.told_of(whole(version=True), ", version: it is true, and not 1")
        self.told("{}", ", format: the key is missing", ", version: the key is missing", ", trains: the key is missing")

    def test_keys(self) -> None:
        self.told_of(whole(Pairs=[], names=1), ", Pairs: there is no such key", ", names: there is no such key")
        self.told_of(whole(trains=[{**train(0), "size": 1}], pairs=[]), ", trains[0].size: there is no such key")
        self.told_of(whole(trains=[{"choices": [{"cost": 0, "a\nb": 0}]}], pairs=[]), ', trains[0].choices[0]."a\\nb": there is no such key')
        self.told_of(whole(trains=[{"choices": [{"name": "x"}]}, {"name": "b"}], pairs=[]), ", trains[0].choices[0].cost: the key is missing",
                     ", trains[1].choices: the key is missing")
        self.told_of(whole(pairs=[{"trains": [0, 1], "cost": [[0, 0], [0, 0]]}]), ", pairs[0].cost: there is no such key",
                     ", pairs[0].costs: the key is missing")
        self.told(NORTH.replace('"cost": 3', '"cost": 3, "cost": 4'), ", trains[0].choices[1].cost: the key stands twice")
        self.told(NORTH.replace('"scale": 12', '"scale": 12, "scale": 12'), ", scale: the key stands twice")

    def test_scales(self) -> None:
        for scale, shown in (0, "0"), (1001, "1001"), (-1, "-1"), (1.0, "1.0"), ("12", '"12"'), (None, "null"), (True, "true"), ([12], "[12]"):
            self.told_of(whole(scale=scale), f", scale: {shown} is no scale: scales are from 1 to 1000")

    def test_costs(self) -> None:
        for cost, shown in (1_000_001, "1000001"), (-1, "-1"), (0.5, "0.5"), (7.0, "7.0"), ("forbidden", '"forbidden"'), (False, "false"), ({}, "{}"):
            why = f"{shown} is no cost: costs are from 0 to 1000000, or null"
            self.told_of(whole(trains=[train(0, cost)], pairs=[]), f", trains[0].choices[1].cost: {why}")
            self.told_of(whole(pairs=[{"trains": [0, 1], "costs": [[0, 1], [2, cost]]}]), f", pairs[0].costs[1][1]: {why}")

    def test_names(self) -> None:
        self.told_of(whole(trains=[train(0), train(0)], pairs=[]), ", trains[1].name: the name 'a' stands at trains[0].name too")
        self.told_of(whole(trains=[train(0, name="1"), {"choices": [{"cost": 0}]}], pairs=[]), ", trains[1].name: the name '1' stands at trains[0].name too")
        unprinted = "has a character that is not printed"
        for name, why in (("", "there is no name"), (" a", "the name ' a' has blanks before or behind it"), (5, "5 is no name"), (None, "null is no name"),
                          ("a\tb", f"the name 'a\\tb' {unprinted}"), ("\ud800", f"the name '\\ud800' {unprinted}")):
            self.told_of(whole(trains=[{"name": "b", "choices": [{"name": name, "cost": 0}]}], pairs=[]), f", trains[0].choices[0].name: {why}")

    def test_lists(self) -> None:
        self.told_of(whole(trains={}), ", trains: {} is no list")
        self.told_of(whole(trains=[]), ", trains: there is no train")
        self.told_of(whole(trains=[{"choices": []}], pairs=[]), ", trains[0].choices: there is no choice")
        self.told_of(whole(trains=[5, {"choices": 5}], pairs=5), ", trains[0]: 5 is no object of keys and values", ", trains[1].choices: 5 is no list",
                     ", pairs: 5 is no list")
        self.told_of(whole(pairs=[[0, 1]]), ", pairs[0]: [0, 1] is no object of keys and values")
        self.told_of(whole(scale="x" * 100), f', scale: "{"x" * 39}.. is no scale: scales are from 1 to 1000')

    def test_pairs(self) -> None:
        for shown in "[1, 0]", "[0, 0]", "[0, 2]", "[-1, 0]", "[0]", "[0, 1, 1]", "[false, 1]", "[]":
            self.told_of(whole(pairs=[{"trains": json.loads(shown), "costs": []}]),
                         f", pairs[0].trains: {shown} is no pair: it is of two trains, the lower first, and trains are from 0 to 1")
        self.told_of(whole(pairs=[{"trains": "01", "costs": []}]), ', pairs[0].trains: "01" is no list')
        pair = {"trains": [0, 1], "costs": [[0, 0], [0, 0]]}
        self.told_of(whole(pairs=[pair, pair, pair]), ", pairs[1].trains: trains 0 and 1 are the pair of pairs[0] too",
                     ", pairs[2].trains: trains 0 and 1 are the pair of pairs[0] too")

    def test_costs_of_other_sizes(self) -> None:
        self.told_of(whole(pairs=[{"trains": [0, 1], "costs": [[0, 0], [0, 0], [0, 0]]}]),
                     ", pairs[0].costs: the number of rows is 3, and the first train has 2 choices")
        self.told_of(whole(pairs=[{"trains": [0, 1], "costs": [[0, 0], [0]]}]),
                     ", pairs[0].costs[1]: the number of costs is 1, and the second train has 2 choices")
        self.told_of(whole(pairs=[{"trains": [0, 1], "costs": [0, [0, 0]]}]), ", pairs[0].costs[0]: 0 is no list")
        self.told_of(whole(trains=[train(0), train(name="b")]), ", trains[1].choices: there is no choice",
                     ", pairs[0].costs: the number of rows is 2, and the first train has 1 choice")

    def test_limits_name_the_first_beyond(self) -> None:
        trains = [train(0, name=str(number)) for number in range(27)]
        self.told_of(whole(trains=trains, pairs=[{"trains": [25, 26], "costs": [[0]]}]), ", trains[24]: this is the 25th train, and 24 are the most")
        self.told_of(whole(trains=[train(*[0] * 10), train(0, name="b")], pairs=[{"trains": [0, 1], "costs": [[0]] * 10}]),
                     ", trains[0].choices[8]: this is the 9th choice, and 8 are the most")
        pairs = [{"trains": [i, j], "costs": [[0]]} for i in range(11) for j in range(i + 1, 11)]
        self.told_of(whole(trains=trains[:11], pairs=pairs), ", pairs[48]: this is the 49th pair, and 48 are the most")

    def test_all_mistakes_up_to_20_are_told(self) -> None:
        for count in 1, 19, 20, 21, 64:
            trains = [train(*[-1] * min(8, count - start), name=str(start)) for start in range(0, count, 8)]
            why = "-1 is no cost: costs are from 0 to 1000000, or null"
            expected = [f", trains[{number // 8}].choices[{number % 8}].cost: {why}" for number in range(min(count, 20))]
            self.told_of(whole(trains=trains, pairs=[]), *expected)

    def test_a_damaged_file_is_a_study_or_its_mistakes_are_told(self) -> None:
        written = json_file.write(studies.study(3))
        chance = random.Random(38)
        outcomes = set()
        for _ in range(400):
            text = studies.damaged(written, chance)
            try:
                study = json_file.read(text, "x.json").study
            except FormatError as error:
                outcomes.add("wrong")
                self.assertLessEqual(len(error.all_of_them), 20)
            else:
                outcomes.add("right")
                self.assertEqual(json_file.read(json_file.write(study), "x.json").study, study)
        self.assertEqual(outcomes, {"right", "wrong"})
