"""Opening, verify and compact: what was changed by hand is found, lines that are gone are told, and libraries follow one another."""

import random
import shutil
import struct
import unittest
from unittest import mock

from hosting import checks, records, store
from hosting.checks import Findings
from hosting.store import NotServed, Unusable
from hosting.tests.support import ADD, LINES, LOAD, REPLIES, SEARCH, TIGHTEN, DataCase, full_load
from junction.lengths import Lengths
from junction.native import Library

LOG = "hosting.checks"
# SQLite's pages, and the number of the next page with which a page of a long row begins.
PAGE_BYTES, LINK_BYTES = 4096, 4


class CheckedCase(DataCase):
    def setUp(self) -> None:
        super().setUp()
        self.add()

    def verify(self, installed: Library | None = None) -> Findings:
        return checks.verify(self.data, "study", installed or self.library)

    def assert_found(self, *wrong: str) -> None:
        """Verify finds these things, in this order, and no others."""
        found = self.verify().wrong
        self.assertEqual(len(found), len(wrong), found)
        for text, expected in zip(found, wrong):
            self.assertRegex(text, expected)

    def assert_not_served(self, reason: str, answering: Library | None = None) -> None:
        with self.assertRaisesRegex(NotServed, reason):
            self.open(answering=answering)

    def block(self) -> bytes:
        with store.reading(self.data, "study") as read:
            return read.block()


class ChangedByHand(CheckedCase):
    def setUp(self) -> None:
        super().setUp()
        self.take(LINES)
        self.true_block = self.block()

    def wrong_block(self, place: int, number: int) -> bytes:
        """The true block with another number in one place."""
        block = bytearray(self.true_block)
        block[8 * place:8 * place + 8] = number.to_bytes(8, "little", signed=True)
        return bytes(block)

    def test_an_unchanged_study_agrees(self) -> None:
        findings = self.verify()
        self.assertEqual(findings.wrong, [])
        self.assertEqual(findings.said, ["15 lines answered, 15 of them kept", f"library {self.library.sha256}: lines 1 to 15: 15 of 15 agree"])

    def test_a_study_without_lines_agrees(self) -> None:
        self.add("empty")
        self.assertEqual(checks.verify(self.data, "empty", self.library).wrong, [])

    def test_a_block_is_found_and_the_true_one_takes_its_place(self) -> None:
        cases = {"constant": self.wrong_block(3, 1), "not well formed": self.wrong_block(1, 0), "shorter": self.true_block[:-8]}
        for name, block in cases.items():
            with self.subTest(name):
                self.edit("UPDATE block SET packed = ?", records.pack(block))
                found = self.verify().wrong
                self.assertEqual(found[0], "the stored block is not the one after line 15")
                self.assertEqual("the stored block is not well formed" in found, name != "constant")
                self.assert_goes_on_from_true_block()

    def test_a_block_that_cannot_be_read_or_is_missing(self) -> None:
        for statement in ("UPDATE block SET packed = x'00'", "DELETE FROM block"):
            with self.subTest(statement):
                self.edit(statement)
                self.assert_found("the stored block is not the one after line 15", "not well formed")
                self.assert_goes_on_from_true_block()

    def assert_goes_on_from_true_block(self) -> None:
        with self.assertLogs(LOG, "ERROR") as logged:
            study = self.open()
        self.assertIn("the log gives the true block", logged.output[0])
        self.assertEqual((study.block, self.block()), (self.true_block, self.true_block))
        self.assertEqual(self.verify().wrong, [])

    def test_a_block_changed_together_with_its_sum(self) -> None:
        block = self.wrong_block(3, 1)
        self.edit("UPDATE block SET packed = ?", records.pack(block))
        self.edit("UPDATE lines SET block_sha256 = ? WHERE number = 15", records.sha256(block))
        self.assert_found("line 15: the block after it", "the stored block is not the one after line 15")

    def test_a_block_that_is_not_well_formed_changed_together_with_its_sum(self) -> None:
        block = self.wrong_block(1, 0)
        self.edit("UPDATE block SET packed = ?", records.pack(block))
        self.edit("UPDATE lines SET block_sha256 = ? WHERE number = 15", records.sha256(block))
        self.assert_found("line 15: the block after it", "the stored block is not the one after line 15", "not well formed")
        self.assert_not_served("the block after line 15 is not well formed")

    def test_rows_of_lines(self) -> None:
        cases = {
            "UPDATE lines SET line = CAST('06' AS BLOB) WHERE number = 3": "line 3: the stored reply is b'8501",
            "UPDATE lines SET reply = CAST('84' AS BLOB) WHERE number = 2": "line 2: the stored reply is b'84', and the library answers b'84000000000002000000000002'",
            "UPDATE lines SET block_sha256 = 'aa' WHERE number = 7": "line 7: the block after it",
            "UPDATE lines SET library = 'aa' WHERE number = 9": "line 9: it names library aa",
        }
        for statement, wrong in cases.items():
            with self.subTest(statement):
                before = self.copy_aside()
                self.edit(statement)
                self.assert_found(wrong)
                self.put_back(before)

    def copy_aside(self) -> bytes:
        return store.database(self.data, "study").read_bytes()

    def put_back(self, content: bytes) -> None:
        store.database(self.data, "study").write_bytes(content)

    def test_the_first_line_that_differs_is_named(self) -> None:
        self.edit("UPDATE lines SET line = ? WHERE number = 5", ADD)
        findings = self.verify()
        self.assertRegex(findings.wrong[0], "^line 5: ")
        self.assertNotIn("15 of 15 agree", findings.said[1])

    def test_a_missing_line_is_found(self) -> None:
        self.edit("DELETE FROM lines WHERE number = 5")
        self.assert_not_served("lines are missing in the log: 1")
        self.assert_found("lines are missing in the log: 1", "line 6: ")

    def test_a_log_that_does_not_give_its_last_block_is_not_served(self) -> None:
        self.edit("UPDATE lines SET block_sha256 = 'aa' WHERE number = 15")
        self.assert_not_served("give another block than the log says, first after line 15")

    def test_a_changed_or_missing_start(self) -> None:
        self.edit("UPDATE starts SET block = ?", records.pack(self.true_block))
        self.assertEqual(self.verify().wrong[0], "line 1: the log does not begin with a fresh block")
        self.edit("DELETE FROM starts")
        self.assertEqual(self.verify().wrong[0], "line 1: the log does not begin with a fresh block")

    def test_a_damaged_file(self) -> None:
        content = bytearray(self.copy_aside())
        content[4096:] = bytes(len(content) - 4096)
        for damaged in (bytes(content), b"no database", b""):
            with self.subTest(length=len(damaged)):
                self.put_back(damaged)
                self.assert_not_served("damaged|malformed|not a database|not the database")
                with self.assertRaises(Unusable):
                    self.verify()


    def test_a_file_damaged_where_only_sqlite_looks(self) -> None:
        line = b"0" * self.library.header.line_characters
        self.take([line])
        content = self.copy_aside()
        place = content.index(line[:PAGE_BYTES - LINK_BYTES], PAGE_BYTES) // PAGE_BYTES * PAGE_BYTES
        self.assertEqual(content[place + LINK_BYTES:place + PAGE_BYTES], line[:PAGE_BYTES - LINK_BYTES])
        self.put_back(content[:place] + b"\xff" * LINK_BYTES + content[place + LINK_BYTES:])
        self.assert_not_served("the database is damaged")


class CutLog(CheckedCase):
    def test_a_log_cut_anywhere_gives_an_earlier_line(self) -> None:
        folder, aside = store.database(self.data, "study").parent, self.data / "aside"
        study = self.open()
        blocks = [study.block]
        for line in [*LINES, *[ADD, TIGHTEN, SEARCH] * 5]:
            study.take(line)
            blocks.append(study.block)
        shutil.copytree(folder, aside)
        study.close()
        length = (aside / "study.db-wal").stat().st_size
        chosen = random.Random(24)
        lost = 0
        for cut in [0, length - 1, *(chosen.randrange(length) for _ in range(20))]:
            with self.subTest(cut=cut):
                shutil.rmtree(folder)
                shutil.copytree(aside, folder)
                with open(folder / "study.db-wal", "r+b") as file:
                    file.truncate(cut)
                (folder / "study.db-shm").unlink()
                lost += self.assert_opened_at_earlier_line(blocks)
        self.assertGreater(lost, 0)

    def assert_opened_at_earlier_line(self, blocks: list[bytes]) -> int:
        with self.assertLogs(LOG, "ERROR") as logged:
            study = self.open()
        gone = len(blocks) - 1 - study.count
        self.assertIn(f" {gone} answered lines are gone; it goes on after line {study.count}", logged.output[0])
        self.assertEqual(study.block, blocks[study.count])
        self.assertEqual(self.verify().wrong, [])
        study.close()
        return gone

    def test_where_lines_are_gone_the_others_must_give_the_block(self) -> None:
        self.take(LINES)
        self.edit("UPDATE lines SET line = ? WHERE number = 14", ADD)
        self.open().close()
        store.database(self.data, "study").with_name(store.COUNT).write_text("16")
        self.assert_not_served("give another block than the log says, first after line 14")

    def test_nothing_is_said_where_nothing_is_gone(self) -> None:
        self.take(LINES)
        with self.assertNoLogs(LOG):
            self.open()


class Libraries(CheckedCase):
    def test_each_line_is_compared_with_its_own_library(self) -> None:
        other = self.other_library()
        self.assertEqual(self.take(LINES[:3]), REPLIES[:3])
        with_first = self.block()
        self.assertEqual(self.take([TIGHTEN, SEARCH], other), [b"BB", b"BB"])
        with_other = self.block()
        self.assertEqual([a - b for a, b in zip(with_other, with_first) if a != b], [2])
        for installed in (self.library, other):
            findings = self.verify(installed)
            self.assertEqual(findings.wrong, [])
            self.assertEqual(findings.said[1:], [f"library {self.library.sha256}: lines 1 to 3: 3 of 3 agree", f"library {other.sha256}: lines 4 to 5: 2 of 2 agree"])

    def test_a_library_that_declines_the_stored_block_does_not_serve_it(self) -> None:
        self.take([LOAD])
        self.take([TIGHTEN], self.other_library())
        self.assert_not_served("the block after line 2 is not well formed")

    def test_a_library_may_come_back(self) -> None:
        other = self.other_library()
        self.assertEqual(self.take(LINES[:2], self.library), REPLIES[:2])
        self.take([b""], other)
        self.assertEqual(self.take(LINES[2:], self.library), REPLIES[2:])
        with store.reading(self.data, "study") as read:
            self.assertEqual([(start.number, start.library) for start in read.starts()], [(1, self.library.sha256), (3, other.sha256), (4, self.library.sha256)])
        self.assertEqual(self.verify().wrong, [])

    def test_a_start_that_does_not_go_on_from_the_line_before(self) -> None:
        self.take(LINES[:2])
        self.take([b""], self.other_library())
        self.edit("UPDATE starts SET block = ? WHERE number = 3", records.pack(self.library.fresh()))
        self.assertRegex(self.verify().wrong[0], "^line 3: the block from which library .* went on is not the one after the line before")

    def test_a_missing_library_is_named_with_its_lines(self) -> None:
        other = self.other_library()
        self.take(LINES[:2])
        self.take([TIGHTEN] * 3, other)
        (store.libraries(self.data) / f"{other.sha256}.so").unlink()
        self.assert_found(f"lines 3 to 5 could not be taken again: library {other.sha256} is not at hand", "not well formed")

    def test_the_true_block_is_made_by_the_library_of_the_lines(self) -> None:
        other = self.other_library()
        self.take([TIGHTEN] * 3, other)
        true_block = self.block()
        self.edit("DELETE FROM block")
        with self.assertLogs(LOG, "ERROR"):
            self.assert_not_served("the block after line 3 is not well formed")
        self.assertEqual(self.block(), true_block)

    def test_a_longer_block_needs_a_rule(self) -> None:
        self.take(LINES[:4])
        longer, numbers = self.other_library(more_numbers=1), self.library.header.block_numbers
        self.assert_not_served(f"the block has {numbers} numbers, those of the library have {numbers + 1}, and there is no rule", longer)
        self.assertEqual(self.take([TIGHTEN]), [REPLIES[1]])
        with mock.patch.dict(checks.CARRIED, {(numbers, numbers + 1): lambda block: block + bytes(8)}):
            before = self.block()
            self.assertEqual(self.take([TIGHTEN], longer), [b"BB"])
            self.assertEqual(self.block(), before + (1).to_bytes(8, "little"))
            self.assertEqual(self.verify(longer).wrong, [])


class Carried(unittest.TestCase):
    """Blocks of 6,652 numbers get the order of trains in which they were searched."""

    def carried(self, *front: int) -> list[int]:
        """What the places from 6652 on hold of a block that begins so, the others being 0 to 6651 backwards; these stay."""
        block = [*front, *range(6651 - len(front), -1, -1)]
        numbers = struct.unpack("<6676q", checks.carried(struct.pack("<6652q", *block), Lengths(6676, 74, 19836, 19836)))
        self.assertEqual(list(numbers[:6652]), block)
        return list(numbers[6652:])

    def test_orders(self) -> None:
        self.assertEqual(checks.carried(bytes(8 * 6652), Lengths(6676, 74, 19836, 19836)), bytes(8 * 6676))
        for trains in (1, 2, 23, 24):
            self.assertEqual(self.carried(trains, 1), [*range(trains), *[0] * (24 - trains)])

    def test_blocks_that_were_not_well_formed_stay_so(self) -> None:
        self.assertEqual(self.carried(0, 1), [0] * 24)
        self.assertEqual(self.carried(-1), [0] * 24)
        self.assertEqual(self.carried(25), list(range(24)))

    def test_other_lengths_have_no_rule(self) -> None:
        for stored, taken in ((6651, 6676), (6675, 6676), (6677, 6676), (6652, 6653), (6676, 6652)):
            with self.assertRaisesRegex(NotServed, f"the block has {stored} numbers, those of the library have {taken}, and there is no rule"):
                checks.carried(bytes(8 * stored), Lengths(taken, 74, 19836, 19836))


class LibraryBefore(CheckedCase):
    """A data folder of the library before kind 0B is served, goes on and verifies."""

    TURN, TURNED = b"0B0100", b"8B0100"

    def setUp(self) -> None:
        super().setUp()
        self.before = self.library_before()

    def take_before(self, lines: list[bytes], replies: list[bytes]) -> bytes:
        """The study's lines are answered by the library before; gives the block that is then stored, of 6,652 numbers."""
        self.assertEqual(self.take(lines, self.before), replies)
        block = self.block()
        self.assertEqual(len(block), 8 * 6652)
        return block

    def assert_goes_on(self, block: bytes, order: list[int], lines: list[bytes], replies: list[bytes]) -> None:
        """The installed library answers these lines from the block and this order, and both libraries' lines agree."""
        expected = block + struct.pack("<24q", *order, *[0] * (24 - len(order)))
        study = self.open()
        first = study.count + 1
        self.assertEqual(study.block, expected)
        self.assertEqual([study.take(line) for line in lines], replies)
        with store.reading(self.data, "study") as read:
            self.assertEqual((read.starts()[-1].number, read.starts()[-1].block), (first, expected))
        for installed in (self.library, self.before):
            findings = self.verify(installed)
            self.assertEqual(findings.wrong, [])
            self.assertRegex(findings.said[1], f"library {self.before.sha256}: lines 1 to {first - 1}: ([0-9]+) of \\1 agree")
            self.assertEqual(findings.said[2], f"library {self.library.sha256}: lines {first} to {study.count}: {len(lines)} of {len(lines)} agree")

    def test_a_study_goes_on(self) -> None:
        block = self.take_before(LINES[:8], REPLIES[:8])
        self.assertEqual(self.verify().wrong, [])
        self.assert_goes_on(block, [0, 1], [*LINES[8:], self.TURN], [*REPLIES[8:], self.TURNED])
        self.assert_not_served("the block has 6676 numbers, those of the library have 6652, and there is no rule", self.before)

    def test_a_study_without_a_load_goes_on(self) -> None:
        block = self.take_before([TIGHTEN, b""], [b"FF04", b"FF01"])
        self.assertFalse(any(block))
        self.assert_goes_on(block, [], LINES, REPLIES)

    def test_a_study_of_all_trains_goes_on(self) -> None:
        load = full_load()
        block = self.take_before([load], [b"81" + b"0" * 24])
        self.assert_goes_on(block, list(range(24)), [b"07", self.TURN], [load, b"FF05"])

    def test_a_study_goes_on_after_compact(self) -> None:
        block = self.take_before([*LINES[:8], SEARCH, SEARCH, TIGHTEN], [*REPLIES[:8], *[REPLIES[11]] * 2, REPLIES[14].replace(b"88", b"84")])
        self.assertEqual(checks.compact(self.data, "study"), (6, 5))
        self.assert_goes_on(block, [0, 1], [SEARCH, self.TURN, b"07"], [REPLIES[11], self.TURNED, REPLIES[12]])
        self.assertEqual(checks.compact(self.data, "study"), (2, 6))
        self.assertEqual(self.verify().wrong, [])

    def test_a_block_that_the_log_gives(self) -> None:
        block = self.take_before(LINES[:8], REPLIES[:8])
        self.edit("DELETE FROM block")
        with self.assertLogs(LOG, "ERROR") as logged:
            self.open().close()
        self.assertIn("the log gives the true block", logged.output[0])
        self.assertEqual(self.block(), block)
        self.assert_goes_on(block, [0, 1], LINES[8:], REPLIES[8:])

    def test_a_block_that_the_log_gives_after_compact(self) -> None:
        block = self.take_before(LINES[:8], REPLIES[:8])
        checks.compact(self.data, "study")
        wrong = bytearray(block)
        wrong[24] ^= 1
        self.edit("UPDATE block SET packed = ?", records.pack(bytes(wrong)))
        with self.assertLogs(LOG, "ERROR"):
            self.open().close()
        self.assertEqual(self.block(), block)
        self.assert_goes_on(block, [0, 1], LINES[8:], REPLIES[8:])

    def test_without_the_library_before_its_lines_cannot_be_taken_again(self) -> None:
        block = self.take_before(LINES[:8], REPLIES[:8])
        (store.libraries(self.data) / f"{self.before.sha256}.so").unlink()
        study = self.open()
        self.assertEqual(study.block, block + struct.pack("<24q", 0, 1, *[0] * 22))
        self.assertEqual([study.take(line) for line in LINES[8:]], REPLIES[8:])
        self.assert_found(f"lines 1 to 8 could not be taken again: library {self.before.sha256} is not at hand")

    def test_an_order_is_kept_and_verified(self) -> None:
        lines, replies = [LOAD, TIGHTEN, self.TURN, SEARCH], [REPLIES[0], REPLIES[1], self.TURNED, b"8601000000050000000000020001"]
        self.assertEqual(self.take(lines), replies)
        self.edit("DELETE FROM block")
        with self.assertLogs(LOG, "ERROR"):
            self.assertEqual(self.take([SEARCH]), replies[3:])
        self.assertEqual(struct.unpack("<24q", self.block()[8 * 6652:]), (1, 0, *[0] * 22))
        self.assertEqual(self.verify().wrong, [])


class Compact(CheckedCase):
    def test_lines_that_changed_nothing_are_dropped(self) -> None:
        self.take([*LINES, SEARCH, SEARCH])
        block = self.block()
        self.assertEqual(checks.compact(self.data, "study"), (10, 7))
        with store.reading(self.data, "study") as read:
            self.assertEqual([stored.number for stored in read.lines()], [1, 2, 5, 8, 14, 15, 17])
            self.assertEqual((read.count(), read.block()), (17, block))
        self.assertEqual(self.verify().said[1], f"library {self.library.sha256}: lines 1 to 17: 7 of 7 agree")
        self.assertEqual(self.verify().wrong, [])
        self.assertEqual(checks.compact(self.data, "study"), (0, 7))

    def test_a_compacted_study_goes_on(self) -> None:
        self.take(LINES[:8])
        checks.compact(self.data, "study")
        study = self.open()
        self.assertEqual([study.take(line) for line in LINES[8:]], REPLIES[8:])
        self.assertEqual(study.count, len(LINES))
        self.assertEqual(checks.compact(self.data, "study").dropped, 5)
        self.assertEqual(self.verify().wrong, [])

    def test_a_damaged_block_is_made_again_after_compact(self) -> None:
        self.take([*LINES, SEARCH])
        checks.compact(self.data, "study")
        block = self.block()
        self.edit("DELETE FROM block")
        with self.assertLogs(LOG, "ERROR"):
            self.assertEqual(self.open().block, block)

    def test_starts_are_kept(self) -> None:
        other = self.other_library()
        self.take([LOAD, SEARCH, SEARCH])
        self.take([b"", b"", TIGHTEN, b""], other)
        self.assertEqual(checks.compact(self.data, "study"), (4, 3))
        self.assertEqual(self.verify(other).wrong, [])

    def test_the_file_gets_smaller(self) -> None:
        self.open().take_all([b"0" * self.library.header.line_characters] * 50)
        path = store.database(self.data, "study")
        checks.compact(self.data, "study")
        self.assertLess(path.stat().st_size, 200_000)
