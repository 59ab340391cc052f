"""Proof files: their form, row by row, and what is said of files that have another."""

import tempfile
import unittest
from pathlib import Path

from junction.errors import FormatError
from junction.solving import proof
from junction.solving.proof import Proof, SettledPart

PROOF = Proof(
    "01AA", (SettledPart(((0, 2), (1,)), (1, 0), ((2, 0, 1), (0, 1)), ("01BB", "06CC"), ("81DD", "86EE")),), (((1,), (0, 1)),), (2, 1), 7,
)
ROWS = [
    '{"save": "01AA"}',
    '{"part": [[0, 2], [1]], "trains": [1, 0], "choices": [[2, 0, 1], [0, 1]], "lines": ["01BB", "06CC"], "replies": ["81DD", "86EE"]}',
    '{"open": [[1], [0, 1]]}',
    '{"plan": [2, 1], "cost": 7}',
]
SAVE, PART, _, END = ROWS


class Files(unittest.TestCase):
    def setUp(self) -> None:
        folder = tempfile.TemporaryDirectory()
        self.addCleanup(folder.cleanup)
        self.path = Path(folder.name, "a.proof")

    def write(self, *rows: str) -> None:
        self.path.write_text("".join(f"{row}\n" for row in rows), encoding="utf-8")

    def test_written(self) -> None:
        PROOF.write(self.path)
        self.assertEqual(self.path.read_text(encoding="ascii").splitlines(), ROWS)

    def test_read(self) -> None:
        self.write(*ROWS)
        self.assertEqual(proof.read(self.path), PROOF)

    def test_without_a_plan(self) -> None:
        without = Proof("01AA", PROOF.settled, (), None, None)
        without.write(self.path)
        self.assertEqual(self.path.read_text(encoding="ascii").splitlines()[-1], '{"plan": null, "cost": null}')
        self.assertEqual(proof.read(self.path), without)

    def test_others(self) -> None:
        others: list[tuple[int | None, list[str]]] = [
            (None, []),
            (None, [SAVE, PART]),
            (None, ["é"]),
            (1, [PART, END]),
            (2, [SAVE, SAVE, END]),
            (3, [SAVE, END, PART]),
            (3, [SAVE, END, END]),
            (2, [SAVE, PART[:50]]),
            (2, [SAVE, "[]", END]),
            (2, [SAVE, '{"part": []}', END]),
            (2, [SAVE, PART.replace('"86EE"', "6"), END]),
            (2, [SAVE, PART.replace(', "86EE"', ""), END]),
            (2, [SAVE, PART.replace("[1, 0]", "[1, -1]"), END]),
            (2, [SAVE, PART.replace("[1, 0]", "[true, false]"), END]),
            (2, [SAVE, PART.replace("[1, 0]", "10"), END]),
            (2, [SAVE, PART.replace("[2, 0, 1]", "2"), END]),
            (2, [SAVE, '{"open": 1}', END]),
            (2, [SAVE, '{"plan": null, "cost": 7}']),
            (2, [SAVE, '{"plan": [2, 1], "cost": null}']),
            (2, [SAVE, '{"plan": [2, 1], "cost": 7.0}']),
            (1, ['{"save": 1}', END]),
        ]
        for row, rows in others:
            with self.subTest(rows=rows):
                self.write(*rows)
                with self.assertRaises(FormatError) as refused:
                    proof.read(self.path)
                self.assertEqual((refused.exception.path, refused.exception.row), (str(self.path), row))

    def test_a_cut_file(self) -> None:
        self.write(*ROWS)
        text = self.path.read_text(encoding="ascii").rstrip("\n")
        for length in range(len(text)):
            self.path.write_text(text[:length], encoding="ascii")
            with self.subTest(length=length), self.assertRaises(FormatError):
                proof.read(self.path)


if __name__ == "__main__":
    unittest.main()
