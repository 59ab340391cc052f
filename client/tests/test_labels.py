"""Names that are kept beside a study."""

import shutil
import tempfile
import unittest
from pathlib import Path

from junction import labels
from junction.errors import FormatError
from junction.labels import Kept, Labels
from junction.study import Choice, Pair, Study, Train

from tests import studies

NORTH = Study((Train("RE 5", (Choice("platform 1", 0), Choice("platform 2", None))), Train("Köln, spät", (Choice('"', 7),))), (Pair(0, 1, ((0,), (5,))),), 12)
NUMBERED = Study((Train("0", (Choice("0", 1), Choice("1", 2))), Train("1", (Choice("0", 3),))), (Pair(0, 1, ((4,), (None,))),), 10)

FILE = """{
  "format": "junction-labels",
  "version": 1,
  "trains": [
    {"name": "RE 5", "choices": ["platform 1", "platform 2"]},
    {"name": "Köln, spät", "choices": ["\\""]}
  ]
}
"""


class LabelsCase(unittest.TestCase):
    """A test with a folder."""

    def setUp(self) -> None:
        self.folder = Path(tempfile.mkdtemp(prefix="junction-"))
        self.addCleanup(shutil.rmtree, self.folder)
        self.file = self.folder / "labels.json"


class Keeping(LabelsCase):
    """Names are kept and used."""

    def test_the_file(self) -> None:
        labels.keep(NORTH, self.folder)
        self.assertEqual(self.file.read_text(encoding="utf-8"), FILE)
        self.assertEqual([path.name for path in self.folder.iterdir()], ["labels.json"])

    def test_the_same_names_come_back(self) -> None:
        for seed in range(40):
            with self.subTest(seed=seed):
                study = studies.study(seed, named=seed % 4 != 0)
                labels.keep(study, self.folder)
                self.assertEqual(labels.kept(self.folder, study.sizes), Kept(Labels.of(study)))
                self.assertEqual(labels.named(study, self.folder), (study, None))

    def test_costs_are_the_studys_and_names_are_those_that_are_kept(self) -> None:
        labels.keep(NORTH, self.folder)
        first, second = Train("RE 5", (Choice("platform 1", 1), Choice("platform 2", 2))), Train("Köln, spät", (Choice('"', 3),))
        self.assertEqual(labels.named(NUMBERED, self.folder), (Study((first, second), NUMBERED.pairs, 10), None))

    def test_later_names_take_the_place_of_earlier_ones(self) -> None:
        labels.keep(NORTH, self.folder)
        labels.keep(NUMBERED, self.folder)
        self.assertEqual(labels.named(NUMBERED, self.folder), (NUMBERED, None))

    def test_names_that_are_none_are_not_kept(self) -> None:
        labels.keep(NORTH, self.folder)
        with self.assertRaisesRegex(FormatError, "^the study, trains: the name 'a' stands twice$"):
            labels.keep(Study((Train("a", (Choice("0", 0),)), Train("a", (Choice("0", 0),)))), self.folder)
        self.assertEqual(self.file.read_text(encoding="utf-8"), FILE)


class LeavingOut(LabelsCase):
    """Where names are not the study's, or are not to be read, it is said."""

    def left_out(self, sizes: tuple[int, ...], word: str) -> None:
        """The names are left out with this word."""
        self.assertEqual(labels.kept(self.folder, sizes), Kept(word=f"the names are left out: {word}"))

    def test_no_names(self) -> None:
        self.assertEqual(labels.kept(self.folder, (2, 1)), Kept())
        self.assertEqual(labels.named(NUMBERED, self.folder), (NUMBERED, None))

    def test_another_number_of_trains(self) -> None:
        labels.keep(NORTH, self.folder)
        self.left_out((2, 1, 1), "the study has 3 trains now, and they are of 2")
        self.left_out((2,), "the study has 1 train now, and they are of 2")
        self.left_out((), "the study has 0 trains now, and they are of 2")

    def test_other_numbers_of_choices(self) -> None:
        labels.keep(NORTH, self.folder)
        self.left_out((1, 1), "train 0 has 1 choice now, and they are of 2 for RE 5")
        self.left_out((2, 8), "train 1 has 8 choices now, and they are of 1 for Köln, spät")
        more = Study((*NUMBERED.trains, Train("2", (Choice("0", 0),))))
        self.assertEqual(labels.named(more, self.folder), (more, "the names are left out: the study has 3 trains now, and they are of 2"))

    def test_files_that_are_not_to_be_read(self) -> None:
        for text, word in ((FILE.replace(",", "", 1), "labels.json, line 3, column 3: it is no JSON: expecting ',' delimiter"),
                           (FILE.replace("labels", "study"), 'labels.json, format: it is "junction-study", and not "junction-labels"'),
                           (FILE.replace('"RE 5"', "5"), "labels.json, trains[0].name: 5 is no name"),
                           (FILE.replace("form 2", "form 1"), "labels.json, trains[0].choices[1]: the name 'platform 1' stands at trains[0].choices[0] too"),
                           (FILE.replace('"choices"', '"sizes"', 1), "labels.json, trains[0].sizes: there is no such key")):
            with self.subTest(word=word):
                self.file.write_text(text, encoding="utf-8")
                self.left_out((2, 1), word)
        self.file.write_bytes(FILE.encode("latin-1"))
        self.left_out((2, 1), "labels.json: it is not UTF-8 text")
        self.file.unlink()
        self.file.mkdir()
        self.left_out((2, 1), "labels.json cannot be read: Is a directory")
