"""CSV files: what they give, that what is written reads back the same, and what is said of wrong ones."""

import random
import unittest
from collections.abc import Iterable

from junction.errors import FormatError
from junction.formats import csv_file
from junction.study import Choice, Pair, Study, Train

from tests import studies

HEADER = "train,choice,with_train,with_choice,cost\n"

NORTH = """train,choice,with_train,with_choice,cost
RE 5,platform 1,,,0
RE 5,platform 2,,,3
S 1,early,,,forbidden
S 1,late,,,1000000
RE 5,platform 2,S 1,late,7
S 1,early,RE 5,platform 1,forbidden
"""


def rows(*given: str) -> str:
    """A file of the header and these rows."""
    return HEADER + "".join(f"{row}\n" for row in given)


def choices(count: int, train: str = "a") -> list[str]:
    """The rows of so many choices of a train."""
    return [f"{train},{number},,,0" for number in range(count)]


class Reading(unittest.TestCase):
    """What a file gives."""

    def test_a_file(self) -> None:
        first = Train("RE 5", (Choice("platform 1", 0), Choice("platform 2", 3)))
        second = Train("S 1", (Choice("early", None), Choice("late", 1_000_000)))
        pair = Pair(0, 1, ((None, 0), (0, 7)))
        self.assertEqual(csv_file.read(NORTH, "north.csv").study, Study((first, second), (pair,), 840))

    def test_other_forms_of_the_same_file(self) -> None:
        expected = csv_file.read(NORTH, "north.csv")
        padded = "\n".join(" , ".join(row.split(",")) for row in NORTH.splitlines())
        blank = NORTH.replace("\nS 1", "\n\n,,,,\n , , , ,\nS 1", 1)
        quoted = "\n".join(",".join(f'"{field}"' for field in row.split(",")) for row in NORTH.splitlines())
        for text in NORTH.replace(",", ";"), NORTH.replace("\n", "\r\n"), NORTH.replace("\n", "\r"), NORTH.rstrip("\n"), padded, blank, quoted:
            with self.subTest(text=text):
                self.assertEqual(csv_file.read(text, "north.csv"), expected)

    def test_numbers_are_names_in_the_order_of_their_first_rows(self) -> None:
        study = csv_file.read(rows("7,1,,,5", "3,0,,,6", "7,0,,,7"), "x.csv").study
        self.assertEqual(study.trains, (Train("7", (Choice("1", 5), Choice("0", 7))), Train("3", (Choice("0", 6),))))

    def test_a_pair_row_may_be_the_first_to_name_a_choice(self) -> None:
        study = csv_file.read(rows("b,y,a,x,4", "a,w,,,1", "a,x,,,2", "b,y,,,3"), "x.csv").study
        self.assertEqual(study.trains, (Train("b", (Choice("y", 3),)), Train("a", (Choice("x", 2), Choice("w", 1)))))
        self.assertEqual(study.pairs, (Pair(0, 1, ((4, 0),)),))

    def test_a_pair_is_there_as_soon_as_a_row_names_it(self) -> None:
        study = csv_file.read(rows("a,0,,,0", "b,0,,,0", "c,0,,,0", "c,0,b,0,0"), "x.csv").study
        self.assertEqual(study.pairs, (Pair(1, 2, ((0,),)),))

    def test_the_greatest_study(self) -> None:
        trains = [f"t{number}" for number in range(24)]
        pairs = [(i, j) for i in range(24) for j in range(i + 1, min(i + 4, 24))][:48]
        given = [row for train in trains for row in choices(8, train)]
        given += [f"t{i},{a},t{j},{b},1000000" for i, j in pairs for a in range(8) for b in range(8)]
        study = csv_file.read(rows(*given), "x.csv").study
        self.assertEqual(study.sizes, (8,) * 24)
        self.assertEqual([(pair.first, pair.second) for pair in study.pairs], pairs)
        self.assertEqual({cost for pair in study.pairs for row in pair.costs for cost in row}, {1_000_000})

    def test_names_with_commas_quotes_and_line_signs(self) -> None:
        study = csv_file.read(rows('"S 1, north","say ""go""",,,1', '"S 1, north",a;b,,,2'), "x.csv").study
        self.assertEqual(study.trains, (Train("S 1, north", (Choice('say "go"', 1), Choice("a;b", 2))),))
        self.assertEqual(csv_file.read(rows("a;b,c,,,1").replace("\n", "\r"), "x.csv").study.trains, (Train("a;b", (Choice("c", 1),)),))


class Writing(unittest.TestCase):
    """What is written."""

    def test_what_is_written_reads_back_the_same(self) -> None:
        for seed in range(60):
            with self.subTest(seed=seed):
                study = studies.study(seed, named=seed % 4 != 0)
                written = csv_file.write(study)
                self.assertEqual(csv_file.read(written, "x.csv").study, study)
                self.assertEqual(csv_file.write(csv_file.read(written, "x.csv").study), written)

    def test_a_study(self) -> None:
        study = Study((Train("a,b", (Choice('"', 0), Choice("0", None))), Train("c", (Choice("ä", 5),)), Train("d", (Choice("x", 0),))),
                      (Pair(0, 1, ((0,), (7,))), Pair(0, 2, ((0,), (0,)))))
        expected = rows('"a,b","""",,,0', '"a,b",0,,,forbidden', "c,ä,,,5", "d,x,,,0", '"a,b",0,c,ä,7', '"a,b","""",d,x,0')
        self.assertEqual(csv_file.write(study), expected)

    def test_a_study_whose_names_do_not_tell_it(self) -> None:
        given = Study((Train("a", (Choice("x", 0), Choice("x", 1))), Train("a", (Choice(" y", 0),)), Train("", (Choice("l\nm", 0),))))
        with self.assertRaises(FormatError) as raised:
            csv_file.write(given)
        self.assertEqual([str(mistake) for mistake in raised.exception.all_of_them], [
            "the study, trains: the name 'a' stands twice",
            "the study, trains: there is no name",
            "the study, choices of train 0: the name 'x' stands twice",
            "the study, choices of train 1: the name ' y' has blanks before or behind it",
            "the study, choices of train 2: the name 'l\\nm' has a character that is not printed"])


class Wrong(unittest.TestCase):
    """What is said of a file that is no study."""

    def told(self, text: str, *expected: str) -> None:
        """The sentences of all mistakes of a file."""
        with self.assertRaises(FormatError) as raised:
            csv_file.read(text, "north.csv")
        self.assertEqual([str(mistake) for mistake in raised.exception.all_of_them], [f"north.csv{sentence}" for sentence in expected])

    def test_the_example_of_the_documents(self) -> None:
        given = [*choices(14, "S 2")[:8], *choices(2, "RE 5"), "RE 5,platform 2,,,0", "S 2,1,RE 5,0,2", "S 2,1,RE 5,1,3", "S 2,2,RE 5,0,2", "S 2,2,RE 5,1,2",
                 "S 2,4,RE 5,platfrom 2,1"]
        self.told(rows(*given), ", row 17, column with_choice: train RE 5 has no choice 'platfrom 2'")

    def test_headers(self) -> None:
        wanted = ", row 1: the header is train,choice,with_train,with_choice,cost"
        self.told("", f"{wanted}, and it is missing")
        self.told("\n" + NORTH, f"{wanted}, and it is missing")
        self.told("train,choice,cost\na,0,1\n", f"{wanted}, and not 'train,choice,cost'")
        self.told("a,0,,,1\n", f"{wanted}, and not 'a,0,,,1'")
        self.told("Train,Choice,With_train,With_choice,Cost\n", f"{wanted}, and not 'Train,Choice,With_train,With_choice,Cost'")

    def test_no_rows(self) -> None:
        self.told(HEADER, ": there is no train in it")
        self.told(HEADER + "\n,,,,\n", ": there is no train in it")

    def test_fields(self) -> None:
        self.told(rows("a,0,1"), ", row 2: it has 3 fields, and not 5")
        self.told(rows("a,0,,,1,"), ", row 2: it has 6 fields, and not 5")
        self.told(rows("a;0;;;1"), ", row 2: it has 1 field, and not 5")
        self.told(rows("a,0,,,1", "a,1,,2", "a,1,,,3", "a,1,b"), ", row 3: it has 4 fields, and not 5", ", row 5: it has 3 fields, and not 5")

    def test_quotes(self) -> None:
        quotes = "the quotes of a field are not closed, or something stands behind them"
        self.told(rows("a,0,,,1", 'a,"1,,,2', "b,0,,,3", "b,0,a,1,0"), f", row 3: {quotes}")
        self.told(rows("a,0,b,0,1", 'a,"1"st,,,2'), f", row 3: {quotes}")
        self.told('"' + NORTH, f", row 1: {quotes}")
        self.told(rows("a" * 140_000 + ",0,,,1"), ", row 2: a field is too long")

    def test_names(self) -> None:
        self.told(rows(",0,,,1"), ", row 2, column train: there is no name")
        self.told(rows("a,,,,1"), ", row 2, column choice: there is no name")
        self.told(rows("a,0,,,1", "b,0,,,1", "a,0,b,,1"), ", row 4, column with_choice: there is no name")
        self.told(rows("a,0,,,1", "b,0,,,1", "a,0,,0,1"), ", row 4, column with_train: there is no name")
        self.told(rows('"a\tb",0,,,1'), ", row 2, column train: the name 'a\\tb' has a character that is not printed")
        self.told(rows('a,"two\nlines",,,1', "b,0,,,x"), ", row 2, column choice: the name 'two\\nlines' has a character that is not printed",
                  ", row 3, column cost: 'x' is no cost: costs are from 0 to 1000000, or forbidden")

    def test_costs(self) -> None:
        for cost in "1000001", "-1", "1.0", "1e3", "", "Forbidden", "none", "٣", "1_000", "9" * 5_000:
            self.told(rows(f"a,0,,,{cost}"), f", row 2, column cost: {cost!r} is no cost: costs are from 0 to 1000000, or forbidden")
        self.told(rows("a,0,,,1", "b,0,,,1", "a,0,b,0,1000001"), ", row 4, column cost: '1000001' is no cost: costs are from 0 to 1000000, or forbidden")

    def test_trains_and_choices_that_are_not_there(self) -> None:
        self.told(rows("a,0,,,1", "a,0,b,0,1"), ", row 3, column with_train: there is no train 'b'")
        self.told(rows("a,0,,,1", "b,0,a,0,1"), ", row 3, column train: there is no train 'b'")
        self.told(rows("a,0,,,1", "b,0,,,1", "a,1,b,0,1"), ", row 4, column choice: train a has no choice '1'")
        self.told(rows("a,0,,,1", "b,0,,,1", "A,0,b,2,1"), ", row 4, column train: there is no train 'A'",
                  ", row 4, column with_choice: train b has no choice '2'")
        self.told(rows("a,0,,,1", "a,0,a,0,1"), ", row 3, column with_train: train a makes no pair with itself")

    def test_costs_given_twice(self) -> None:
        self.told(rows("a,0,,,1", "a,0,,,1"), ", row 3: this cost is given in row 2 too")
        self.told(rows("a,0,,,1", "b,0,,,1", "a,0,b,0,1", "a,0,b,0,2", "b,0,a,0,1"), ", row 5: this cost is given in row 4 too",
                  ", row 6: this cost is given in row 4 too")

    def test_limits_name_the_first_row_beyond(self) -> None:
        trains = [f"t{number},0,,,0" for number in range(27)]
        self.told(rows(*trains, "t25,0,t0,0,1"), ", row 26, column train: this is the 25th train, and 24 are the most")
        self.told(rows("t26,0,t0,0,1", *trains), ", row 26, column train: this is the 25th train, and 24 are the most")
        self.told(rows(*choices(11), *choices(10, "b")), ", row 10, column choice: this is the 9th choice of train a, and 8 are the most",
                  ", row 21, column choice: this is the 9th choice of train b, and 8 are the most")
        pairs = [f"t{i},0,t{j},0,0" for i in range(11) for j in range(i)]
        self.told(rows(*trains[:11], *pairs), ", row 61, column with_train: this is the 49th pair, and 48 are the most")

    def test_all_mistakes_up_to_20_are_told(self) -> None:
        def sentences(numbers: Iterable[int]) -> list[str]:
            return [f", row {number}, column cost: '' is no cost: costs are from 0 to 1000000, or forbidden" for number in numbers]

        for count in 1, 2, 19, 20, 21, 100:
            given = [f"t{number % 20},{number // 20},,," for number in range(count)]
            self.told(rows(*given), *sentences(range(2, 2 + min(count, 20))))

    def test_several_mistakes_stand_in_the_order_of_the_file(self) -> None:
        self.told(rows("a,0,,,x", "b,0,a,1,1", "b,0,,,2", "b,0,,,3", "c,0"),
                  ", row 2, column cost: 'x' is no cost: costs are from 0 to 1000000, or forbidden",
                  ", row 3, column with_choice: train a has no choice '1'",
                  ", row 5: this cost is given in row 4 too",
                  ", row 6: it has 2 fields, and not 5")

    def test_a_damaged_file_is_a_study_or_its_mistakes_are_told(self) -> None:
        written = csv_file.write(studies.study(3))
        chance = random.Random(38)
        outcomes = set()
        for _ in range(400):
            text = studies.damaged(written, chance)
            try:
                study = csv_file.read(text, "x.csv").study
            except FormatError as error:
                outcomes.add("wrong")
                self.assertLessEqual(len(error.all_of_them), 20)
            else:
                outcomes.add("right")
                self.assertEqual(csv_file.read(csv_file.write(study), "x.csv").study, study)
        self.assertEqual(outcomes, {"right", "wrong"})
