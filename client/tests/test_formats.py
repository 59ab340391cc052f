"""What all formats share: how a file's format is told, what is read and written where, and what is left out."""

import contextlib
import io
import shutil
import sys
import tempfile
import unittest
from pathlib import Path
from unittest import mock

from junction import formats
from junction.errors import FormatError
from junction.formats.parts import Mistakes, Read, ordinal
from junction.study import Choice, Pair, Study, Train

from tests import studies

NORTH = Study((Train("RE 5", (Choice("Köln", 0), Choice("b", None))), Train("S 1", (Choice("a", 7),))), (Pair(0, 1, ((0,), (5,))),), 12)
ROWS = "train,choice,with_train,with_choice,cost\nRE 5,Köln,,,0\nRE 5,b,,,forbidden\nS 1,a,,,7\nRE 5,b,S 1,a,5\n"
KNOWN = "csv, json, wcsp, cfn, wcnf, line"


class FormatsCase(unittest.TestCase):
    """A test with a folder."""

    def setUp(self) -> None:
        self.folder = Path(tempfile.mkdtemp(prefix="junction-"))
        self.addCleanup(shutil.rmtree, self.folder)

    def file(self, name: str, content: bytes = b"") -> str:
        """A file's path, and its content where it is to have one."""
        path = self.folder / name
        if content:
            path.write_bytes(content)
        return str(path)


class Kinds(unittest.TestCase):
    """How a file's format is told."""

    def test_by_suffix(self) -> None:
        for path, kind in ("north.csv", "csv"), ("a.b/north.JSON", "json"), ("x.y.wcsp", "wcsp"), ("x.cfn", "cfn"), ("x.wcnf", "wcnf"), ("x.line", "line"):
            self.assertEqual(formats.kind_of(path, None, "--from"), kind)

    def test_as_given(self) -> None:
        for path, kind, found in ("-", "csv", "csv"), ("north.csv", "json", "json"), ("north", ".line", "line"), ("x.txt", "WCSP", "wcsp"):
            self.assertEqual(formats.kind_of(path, kind, "--from"), found)

    def test_what_is_said_where_there_is_none(self) -> None:
        for path, kind, option, sentence in (("north.xls", None, "--from", f"north.xls: the suffix '.xls' is no format's; --from gives the format: {KNOWN}"),
                                             ("a.csv/north", None, "--to", f"a.csv/north: it has no suffix; --to gives the format: {KNOWN}"),
                                             ("-", None, "--from", f"standard input: its format is given by --from: {KNOWN}"),
                                             ("-", None, "--to", f"standard output: its format is given by --to: {KNOWN}"),
                                             ("north.csv", "xls", "--to", f"north.csv: there is no format 'xls'; there are {KNOWN}")):
            with self.assertRaises(FormatError) as raised:
                formats.kind_of(path, kind, option)
            self.assertEqual(str(raised.exception), sentence)


class Reading(FormatsCase):
    """What is read."""

    def test_a_file(self) -> None:
        for content in ROWS.encode(), b"\xef\xbb\xbf" + ROWS.encode():
            self.assertEqual(formats.read(self.file("x.csv", content)), Read(NORTH.with_scale(840)))
        self.assertEqual(formats.read(self.file("x.txt", ROWS.encode()), "csv", 12), Read(NORTH))

    def test_standard_input(self) -> None:
        with mock.patch.object(sys, "stdin", io.TextIOWrapper(io.BytesIO(ROWS.encode()), "ascii")):
            self.assertEqual(formats.read("-", "csv", 1), Read(NORTH.with_scale(1)))
        with mock.patch.object(sys, "stdin", io.TextIOWrapper(io.BytesIO(b"a"), "ascii")), self.assertRaises(FormatError) as raised:
            formats.read("-", "json")
        self.assertEqual(str(raised.exception), "standard input, line 1, column 1: it is no JSON: expecting value")

    def test_files_that_cannot_be_read(self) -> None:
        latin = self.file("latin.csv", ROWS.encode("latin-1"))
        half = self.file("half.json", b'{\n"name": "\xc3')
        missing = self.file("missing.csv")
        folder = self.file("folder.csv")
        Path(folder).mkdir()
        for path, sentence in ((latin, f"{latin}, row 2: it is not UTF-8 text"), (half, f"{half}, line 2: it is not UTF-8 text"),
                               (missing, f"{missing}: it cannot be read: No such file or directory"), (folder, f"{folder}: it cannot be read: Is a directory")):
            with self.assertRaises(FormatError) as raised:
                formats.read(path)
            self.assertEqual(str(raised.exception), sentence)


class Writing(FormatsCase):
    """What is written."""

    def test_files_read_back_the_same(self) -> None:
        for seed in range(10):
            study = studies.study(seed)
            for path in self.file("x.csv"), self.file("x.json"):
                self.assertEqual(formats.write(study, path), ())
                self.assertEqual(formats.read(path).study, study)

    def test_standard_output(self) -> None:
        output = io.BytesIO()
        with contextlib.redirect_stdout(io.TextIOWrapper(output, "ascii")):
            formats.write(NORTH, "-", "csv")
            self.assertEqual(output.getvalue(), ROWS.encode())

    def test_nothing_is_written_where_it_does_not_fit(self) -> None:
        path = self.file("x.csv", b"before")
        with self.assertRaises(FormatError):
            formats.write(Study((Train("a", (Choice("b", 0), Choice("b", 0))),)), path)
        self.assertEqual(Path(path).read_bytes(), b"before")

    def test_files_that_cannot_be_written(self) -> None:
        for path in self.file("no/x.csv"), str(self.folder):
            with self.assertRaises(FormatError) as raised:
                formats.write(NORTH, path, "csv")
            why = "Is a directory" if path == str(self.folder) else "No such file or directory"
            self.assertEqual(str(raised.exception), f"{path}: it cannot be written: {why}")

    def test_what_is_left_out_is_told(self) -> None:
        self.assertEqual(formats.write(NORTH, self.file("x.csv")), ("the scale, 12, has no place in .csv and is left out",))
        self.assertEqual(formats.write(NORTH, self.file("x.json")), ())
        self.assertEqual(formats.write(NORTH, self.file("x.line")), ("names of trains and choices have no place in .line and are left out",))


class MistakesOfAFile(unittest.TestCase):
    """The list of mistakes."""

    def test_none(self) -> None:
        Mistakes("x").end()

    def test_the_twentieth_ends_the_reading(self) -> None:
        mistakes = Mistakes("x")
        for row in range(19):
            mistakes.add(row, None, "why")
        with self.assertRaises(FormatError) as raised:
            mistakes.add(19, "cost", "why")
        self.assertEqual([mistake.row for mistake in raised.exception.all_of_them], list(range(20)))
        self.assertEqual(str(raised.exception), "x, row 0: why")
        self.assertEqual(str(raised.exception.all_of_them[19]), "x, row 19, column cost: why")

    def test_places_in_a_row(self) -> None:
        self.assertEqual([ordinal(number) for number in (1, 2, 3, 4, 9, 11, 12, 13, 21, 25, 49, 101, 111, 501)],
                         ["1st", "2nd", "3rd", "4th", "9th", "11th", "12th", "13th", "21st", "25th", "49th", "101st", "111th", "501st"])
