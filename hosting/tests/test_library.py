"""The library through the host: replies, blocks, lengths, and what cannot be loaded."""

import threading
import unittest
from pathlib import Path
from unittest import mock

from hosting import header, library
from hosting.header import HeaderError
from hosting.tests import support
from hosting.tests.support import DataCase
from junction.errors import LibraryError
from junction.lengths import BY_DOCUMENT, Lengths
from junction.native import Library


class Headers(unittest.TestCase):
    def test_the_header_says_the_lengths_of_document_01(self) -> None:
        self.assertEqual(header.read(support.ROOT / "include/junction.h"), Lengths(6676, 74, 19836, 19836))
        self.assertEqual(BY_DOCUMENT, Lengths(6676, 74, 19836, 19836))

    def test_a_length_is_a_number_or_the_name_of_another(self) -> None:
        text = "#define JUNCTION_BLOCK_NUMBERS 1\n#define JUNCTION_REPLY_BYTES 2\n#define JUNCTION_LINE_CHARACTERS 3\n"
        named = text + "#define JUNCTION_LONGEST_REPLY_BYTES JUNCTION_LINE_CHARACTERS\n"
        self.assertEqual(header.parse(named), Lengths(1, 2, 3, 3))
        for wrong in ("", "#define JUNCTION_LONGEST_REPLY_BYTES JUNCTION_NOTHING\n"):
            with self.assertRaisesRegex(HeaderError, "JUNCTION_LONGEST_REPLY_BYTES"):
                header.parse(text + wrong)

    def test_lengths_are_read_back_as_they_are_kept(self) -> None:
        lengths = Lengths(5, 6, 7, 8)
        self.assertEqual(header.parse(header.text(lengths)), lengths)


class Answers(DataCase):
    def test_the_worked_session_has_the_replies_of_the_reference(self) -> None:
        block, replies = self.library.fresh(), []
        for line in support.LINES:
            reply, block = self.library.answer(block, line)
            replies.append(reply)
        self.assertEqual(replies, support.REPLIES)

    def test_a_call_leaves_its_arguments(self) -> None:
        block = self.library.fresh()
        _, after = self.library.answer(block, support.LOAD)
        self.assertEqual(block, bytes(len(block)))
        self.assertNotEqual(after, block)

    def test_the_longest_reply_comes_whole(self) -> None:
        load = support.full_load()
        longest = support.by_radio(load)
        self.assertEqual(len(longest), self.library.header.line_characters)
        for sent, save in ((load, b"07"), (longest, support.by_radio(b"07"))):
            _, block = self.library.answer(self.library.fresh(), sent)
            self.assertEqual(self.library.answer(block, save), (sent, block))

    def test_lines_of_any_bytes_and_any_length(self) -> None:
        fresh = self.library.fresh()
        longest = self.library.header.line_characters
        cases = {b"": b"FF01", b"04\x0004": b"FF01", b"\xff\xfe": b"FF01", b"0" * (longest + 1): b"FF02", b"0" * longest: b"FF03", b"04": b"FF04",
                 b"44BC": b"FF04FD", b"44": b"FF19E8"}
        for line, reply in cases.items():
            with self.subTest(line=line[:8], length=len(line)):
                self.assertEqual(self.library.answer(fresh, line), (reply, fresh))

    def test_blocks_that_are_not_well_formed(self) -> None:
        fresh = self.library.fresh()
        loaded = self.library.answer(fresh, support.LOAD)[1]
        for block, expected in ((fresh, True), (loaded, True), (b"\x01" * len(fresh), False), (fresh[:-8], False), (fresh + bytes(8), False), (b"", False)):
            with self.subTest(length=len(block), begin=block[:8]):
                self.assertEqual(self.library.well_formed(block), expected)

    def test_other_threads_run_during_a_search(self) -> None:
        _, block = self.library.answer(self.library.fresh(), support.long_search_load())
        search = threading.Thread(target=self.library.answer, args=(block, b"06" + b"%08X" % 10_000_000))
        search.start()
        steps = 0
        while search.is_alive():
            search.join(0.001)
            steps += 1
        self.assertGreater(steps, 3)


class Files(DataCase):
    def test_what_cannot_be_loaded(self) -> None:
        lengths = self.library.header
        for path in (self.data / "missing.so", Path(__file__)):
            with self.subTest(path=path), self.assertRaisesRegex(LibraryError, path.name):
                Library(path, lengths)
        with self.assertRaisesRegex(LibraryError, "missing.h"):
            library.load(self.library.path, self.data / "missing.h")

    def test_a_buffer_that_a_wrong_header_makes_too_short_is_no_reply(self) -> None:
        wrong = Library(self.library.path, self.library.header._replace(longest_reply_bytes=71))
        with self.assertRaisesRegex(LibraryError, "wrote 0 bytes"):
            wrong.answer(wrong.fresh(), b"04")

    def test_another_library_is_named_by_the_environment(self) -> None:
        other = self.other_library()
        with mock.patch.dict("os.environ", JUNCTION_LIBRARY=str(other.path)):
            self.assertEqual(library.installed().sha256, other.sha256)
        with mock.patch.dict("os.environ", JUNCTION_LIBRARY=str(self.data / "missing.so")), self.assertRaisesRegex(LibraryError, "hosting/build"):
            library.installed()

    def test_a_kept_library_answers_as_the_first(self) -> None:
        other = self.other_library(more_numbers=1)
        library.keep(other, self.data / "libraries")
        other.path.unlink()
        kept = library.kept(other.sha256, self.data / "libraries")
        self.assertEqual((kept.header, kept.answer(kept.fresh(), b"04")), (other.header, other.answer(other.fresh(), b"04")))

    def test_a_kept_library_that_was_changed_is_refused(self) -> None:
        library.keep(self.library, self.data)
        with open(self.data / f"{self.library.sha256}.so", "ab") as file:
            file.write(b"\0")
        with self.assertRaisesRegex(LibraryError, "not the one that its name says"):
            library.kept(self.library.sha256, self.data)
