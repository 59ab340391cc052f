"""Lines from numbers: document 01's and the README's own, both ends of every field, the form for train radio, and back to numbers."""

import random
import unittest
from collections.abc import Callable
from typing import Any

from junction import lines
from junction.errors import NoPlace
from junction.study import Choice, Cost, Pair, Study, Train
from tests.reference import ROOT
from tests.studies import study

WORKED = (ROOT / "examples/worked.lines").read_text().split()
SEEDS = range(60)


def of_numbers(costs: list[list[Cost]], pairs: list[tuple[int, int, list[list[Cost]]]], scale: int = 1) -> Study:
    """A study whose trains and choices have numbers for names."""
    trains = tuple(Train(str(number), tuple(Choice(str(choice), cost) for choice, cost in enumerate(of))) for number, of in enumerate(costs))
    return Study(trains, tuple(Pair(i, j, tuple(map(tuple, entries))) for i, j, entries in pairs), scale)


# Document 01's problem J.
J = of_numbers([[2, 0], [0, 0]], [(0, 1, [[1, 0], [3, 2]])])
ONE = of_numbers([[0]], [])


class Written(unittest.TestCase):
    """The lines of documents 01 and 02 and of the README."""

    def test_document_01(self) -> None:
        self.assertEqual(lines.load(J), "010200010202000002000000000000000000010001000001000000000003000002")
        self.assertEqual(lines.tighten(), "04")
        self.assertEqual(lines.certify(1, [1, 0, 0, 1, 0, 1, 0, 0]), "05000001000001000000000000000001000000000001000000000000")
        self.assertEqual(lines.search(10), "060000000A")
        self.assertEqual(lines.add(0, 0, 1_000_000), "0200000F4240")
        self.assertEqual(lines.shift([1], [0] * 5), "03000000000001" + "0" * 60)
        self.assertEqual(lines.shift([-10**12 - 1], []), "03FF172B5AEFFF")

    def test_the_worked_session(self) -> None:
        made = [lines.clauses(2, 1, [(2, -1, 5), (-2, 1, 1)][:0]), lines.save(), lines.directional_round(), lines.explain(1, 1, 3), lines.order([1, 0]),
                lines.record([1, 0]), lines.screen([1, 0], 1, 1), lines.planner([1, 0], 1, 1), lines.dearest([2, 3])]
        self.assertEqual(made[0], "0902000100" "00")
        self.assertEqual(lines.clauses(2, 1, [(1, 2, 5), (-1, 0, 2), (-2, 1, 1)]), WORKED[15])
        for line in made[1:]:
            self.assertIn(line, WORKED)

    def test_forbidden(self) -> None:
        self.assertEqual(lines.load(of_numbers([[None, 0xFFFFFE]], [])), "0101000102FFFFFFFFFFFE00")

    def test_by_radio(self) -> None:
        self.assertEqual(lines.by_radio(lines.tighten()), "44BC")
        self.assertEqual(lines.by_radio("44BC"), "44BC")
        self.assertEqual(lines.by_radio(lines.search(10)), "460000000AB0")
        self.assertEqual(lines.plain("460000000AB0"), "060000000A")
        self.assertEqual((lines.plain("44BD"), lines.plain("04"), lines.plain("0"), lines.plain("é")), ("04", "04", "0", "é"))
        for none in ("", "0", "10", "00", "04 ", "40C0", "FF", "é4"):
            with self.assertRaisesRegex(NoPlace, "the line has no form for train radio: it is of no kind"):
                lines.by_radio(none)


class Fields(unittest.TestCase):
    """Both ends of each field, and one beyond."""

    def ends(self, encoder: Callable[[int], str], least: int, most: int, what: str) -> None:
        """The two ends stand in the line as they are read again; beyond them there is no place."""
        for number in (least, most):
            line = encoder(number)
            asked = lines.read(line)
            assert asked is not None
            self.assertEqual(asked.again(), line)
        for number in (least - 1, most + 1):
            with self.assertRaises(NoPlace) as raised:
                encoder(number)
            self.assertEqual(str(raised.exception), f"{what} is {least:,} to {most:,} in a line, not {number:,}")

    def test_numbers_without_a_sign(self) -> None:
        cases: list[tuple[Callable[[int], str], int, str]] = [
            (lambda number: lines.load(of_numbers([[number]], [])), 1, "a cost"),
            (lambda number: lines.load(of_numbers([[0], [0]], [(0, 1, [[number]])])), 1, "a cost"),
            (lambda number: lines.load(ONE.with_scale(number)), 2, "the scale"),
            (lambda number: lines.clauses(number, 1, []), 3, "the count of trains"),
            (lambda number: lines.clauses(1, number, []), 2, "the scale"),
            (lambda number: lines.clauses(1, 1, [(1, 0, number)]), 4, "the weight of a clause"),
            (lambda number: lines.add(number, 0, 1), 3, "a train"),
            (lambda number: lines.add(0, number, 1), 3, "a choice"),
            (lambda number: lines.add(0, 0, number), 4, "the points to add"),
            (lambda number: lines.certify(number, []), 4, "W"),
            (lambda number: lines.certify(1, [0, number]), 4, "a weight"),
            (lambda number: lines.search(number), 5, "the budget"),
            (lambda number: lines.explain(number, 0, 1), 3, "a train"),
            (lambda number: lines.explain(0, number, 1), 3, "a choice"),
            (lambda number: lines.explain(0, 0, number), 5, "the limit"),
            (lambda number: lines.order([0, number]), 3, "a train"),
            (lambda number: lines.record([0, number]), 3, "a choice"),
            (lambda number: lines.screen([number], 0, 0), 3, "a choice"),
            (lambda number: lines.screen([0], number, 0), 6, "the bound of a record"),
            (lambda number: lines.planner([0], 0, number), 6, "the cost of a record"),
            (lambda number: lines.dearest([1, number]), 3, "the count of choices of a train"),
        ]
        most = {1: 2**24 - 2, 2: 2**16 - 1, 3: 2**8 - 1, 4: 2**24 - 1, 5: 2**32 - 1, 6: 2**48 - 1}
        for encoder, field, what in cases:
            with self.subTest(what):
                self.ends(encoder, 0, most[field], what)

    def test_numbers_with_a_sign(self) -> None:
        self.ends(lambda number: lines.shift([number], []), -2**47, 2**47 - 1, "a lift")
        self.ends(lambda number: lines.shift([], [number]), -2**47, 2**47 - 1, "a move")
        self.ends(lambda number: lines.clauses(1, 1, [(number, 0, 1)]), -128, 127, "a literal")
        self.ends(lambda number: lines.clauses(1, 1, [(1, number, 1)]), -128, 127, "a literal")

    def test_counts(self) -> None:
        self.assertEqual(lines.load(of_numbers([[]] * 255, []))[:4], "01FF")
        self.assertEqual(lines.clauses(1, 1, [(1, 0, 1)] * 65535)[:14], "09010001FFFF01")
        self.assertEqual(lines.record([0] * 300), "0E" + "00" * 300)
        too_many: list[tuple[Callable[[], str], str]] = [
            (lambda: lines.load(of_numbers([[]] * 256, [])), "the count of trains is 0 to 255 in a line, not 256"),
            (lambda: lines.load(of_numbers([[0] * 256], [])), "the count of choices of a train is 0 to 255 in a line, not 256"),
            (lambda: lines.load(of_numbers([[0]] * 24, [(i, j, [[0]]) for i in range(24) for j in range(i + 1, 24)])),
             "the count of pairs is 0 to 255 in a line, not 276"),
            (lambda: lines.clauses(1, 1, [(1, 0, 1)] * 65536), "the count of clauses is 0 to 65,535 in a line, not 65,536"),
            (lambda: lines.screen([0] * 256, 0, 0), "the count of choices of a record is 0 to 255 in a line, not 256"),
            (lambda: lines.dearest([1] * 256), "the count of trains is 0 to 255 in a line, not 256"),
        ]
        for encoder, sentence in too_many:
            with self.assertRaises(NoPlace) as raised:
                encoder()
            self.assertEqual(str(raised.exception), sentence)

    def test_a_cost_that_is_forbidden_by_its_number_has_no_place(self) -> None:
        with self.assertRaisesRegex(NoPlace, "a cost is 0 to 16,777,214 in a line, not 16,777,215"):
            lines.load(of_numbers([[0xFFFFFF]], []))


def any_line(chance: random.Random) -> tuple[Callable[..., str], tuple[Any, ...]]:
    """An encoder and what it is given, of any kind, anywhere in the fields."""
    def byte() -> int:
        return chance.choice([0, 1, 255, chance.randrange(256)])

    def wide(bits: int) -> int:
        return chance.choice([0, 1, (1 << bits) - 1, chance.randrange(1 << bits)])

    def signed(bits: int) -> int:
        half = 1 << bits - 1
        return chance.choice([0, -1, half - 1, -half, chance.randrange(-half, half)])

    def few(number: Callable[[], int]) -> list[int]:
        return [number() for _ in range(chance.randrange(20))]

    kinds: list[tuple[Callable[..., str], tuple[Any, ...]]] = [
        (lines.load, (study(chance.randrange(1000), named=False, scale=wide(16)),)),
        (lines.add, (byte(), byte(), wide(24))),
        (lines.shift, (few(lambda: signed(48)), [])),
        (lines.tighten, ()),
        (lines.certify, (wide(24), few(lambda: wide(24)))),
        (lines.search, (wide(32),)),
        (lines.save, ()),
        (lines.directional_round, ()),
        (lines.clauses, (byte(), wide(16), [(signed(8), signed(8), wide(24)) for _ in range(chance.randrange(20))])),
        (lines.explain, (byte(), byte(), wide(32))),
        (lines.order, (few(byte),)),
        (lines.screen, (few(byte), wide(48), wide(48))),
        (lines.planner, (few(byte), wide(48), wide(48))),
        (lines.record, (few(byte),)),
        (lines.dearest, (few(byte),)),
    ]
    return chance.choice(kinds)


class Again(unittest.TestCase):
    """Encode, decode, encode gives the same line."""

    def test_by_seeds(self) -> None:
        seen = set()
        for seed in SEEDS:
            chance = random.Random(seed)
            for _ in range(20):
                encoder, arguments = any_line(chance)
                line = encoder(*arguments)
                asked = lines.read(line)
                assert asked is not None
                self.assertEqual((asked.encoder, asked.arguments, asked.again()), (encoder, arguments, line))
                by_radio = lines.by_radio(line)
                self.assertEqual((sum(bytes.fromhex(by_radio)) % 256, by_radio[2:-2], int(by_radio[:2], 16)), (0, line[2:], int(line[:2], 16) + 0x40))
                self.assertEqual(lines.plain(by_radio), line)
                seen.add(encoder)
        self.assertEqual(len(seen), 15)

    def test_lines_that_are_cut_short_or_longer_are_not_read(self) -> None:
        for seed in SEEDS:
            encoder, arguments = any_line(random.Random(seed))
            line = encoder(*arguments)
            if encoder in (lines.order, lines.record):
                continue
            self.assertIsNone(lines.read(line + "00"))
            whole = {lines.shift: 12, lines.certify: 6}.get(encoder, 2)
            for end in (2, len(line) // 2, len(line) - 1, len(line) - 2):
                if end < len(line) and (end - 2) % whole:
                    self.assertIsNone(lines.read(line[:end]), (line, end))

    def test_what_is_no_line_is_not_read(self) -> None:
        for text in ("", "0", "10", "00", "FF", "4404", "04\n", "0a010100000003", "é4", "01010001000000",
                     "010200010101000000000000010100000000", "0A01010000"):
            self.assertIsNone(lines.read(text), text)


if __name__ == "__main__":
    unittest.main()
