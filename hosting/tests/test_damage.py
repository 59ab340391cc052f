"""Files that were damaged: SQLite's log cut short, a block, a line or a reply changed by hand, any byte changed by chance."""
import logging
import random
import shutil
import signal
import sqlite3
import unittest
from collections import Counter
from contextlib import closing

from hosting import checks, records, store
from hosting.records import Start
from hosting.store import NotServed, StudyError
from hosting.tests import support
from hosting.tests.running import HostTest, ask
from hosting.tests.support import LINES, REPLIES, SEARCH, DataCase
from hosting.tests.traffic import FileHost
from junction.lengths import NUMBER_BYTES

# These two show what the block holds: a save its costs in points, a round its constant.
SHOWN = [b"07", b"08"]
# Places in the block of document 01.
SCALE, CONSTANT = 1, 3
CUTS = 8
CHANGED_BYTES = 250


class DamageCase(HostTest):
    def setUp(self) -> None:
        """A host that has answered the lines of the examples, each committed by itself."""
        self.host = FileHost("a")
        self.addCleanup(self.host.close)
        with self.host.connect("a") as client:
            self.assertEqual([ask(client, line + b"\n").rstrip() for line in LINES], REPLIES)
        self.folder = store.database(self.host.data, "a").parent
        self.aside = self.host.data / "aside"

    def put_back(self) -> None:
        """Makes the study's folder what it was when it was copied aside."""
        shutil.rmtree(self.folder)
        shutil.copytree(self.aside, self.folder)

    def assert_answers_after(self, count: int) -> None:
        """The host answers as the reference does after so many lines of the examples, and stores that."""
        replies = self.host.session("a", b"".join(line + b"\n" for line in SHOWN)).splitlines()
        stored = self.host.stored("a")
        self.assertEqual(stored, [*zip(LINES[:count], REPLIES[:count]), *zip(SHOWN, replies, strict=True)])
        self.verified(self.host, "a")
        self.assertEqual(replies, support.reference([*LINES[:count], *SHOWN])[count:])


class CutTest(DamageCase):
    def setUp(self) -> None:
        super().setUp()
        self.host.kill()
        shutil.copytree(self.folder, self.aside)
        self.log_file = self.folder / "study.db-wal"
        self.content = self.log_file.read_bytes()

    def test_a_cut_log_gives_an_earlier_line(self) -> None:
        chosen = random.Random(24)
        gone = [self.lines_gone(self.content[:cut]) for cut in [0, *(chosen.randrange(len(self.content)) for _ in range(CUTS))]]
        self.assertEqual(gone[0], len(LINES))
        self.assertGreater(len(set(gone)), CUTS // 2)

    def test_a_changed_byte_in_the_log_gives_an_earlier_line(self) -> None:
        changed = bytearray(self.content)
        changed[len(changed) // 2] ^= 1
        self.assertIn(self.lines_gone(bytes(changed)), range(1, len(LINES)))

    def lines_gone(self, content: bytes) -> int:
        """How many lines the host says are gone when it finds such a log. It goes on after the line that it says."""
        self.put_back()
        self.log_file.write_bytes(content)
        before = len(self.host.log())
        self.host.start_again("a")
        count = len(self.host.stored("a"))
        gone = len(LINES) - count
        said = f"study a: {gone} answered lines are gone; it goes on after line {count}, which was verified"
        with self.subTest(length=len(content)):
            self.assertIn(said, self.host.log()[before:])
            self.assert_answers_after(count)
        self.host.kill()
        return gone


class HandTest(DamageCase):
    def setUp(self) -> None:
        super().setUp()
        self.assertEqual(self.host.stop(), 0)
        with store.reading(self.host.data, "a") as study:
            self.block = study.block()

    def edit(self, statement: str, *values: object) -> None:
        """Changes the database."""
        connection = sqlite3.connect(store.database(self.host.data, "a"), isolation_level=None)
        try:
            self.assertEqual(connection.execute(statement, values).rowcount, 1)
        finally:
            connection.close()

    def change_block(self, place: int, number: int) -> None:
        """Puts another number into a place of the stored block."""
        block = bytearray(self.block)
        block[NUMBER_BYTES * place:NUMBER_BYTES * (place + 1)] = number.to_bytes(NUMBER_BYTES, "little", signed=True)
        self.edit("UPDATE block SET packed = ?", records.pack(bytes(block)))

    def assert_found(self, *wrong: str) -> None:
        """`verify` says this, and gives the status of a check that found something."""
        done = self.host.command("verify", "a")
        self.assertEqual(done.returncode, 1)
        for text in wrong:
            self.assertIn(text, done.stderr)

    def test_a_changed_block_that_is_well_formed(self) -> None:
        self.change_block(CONSTANT, 1)
        self.assert_true_block_takes_its_place("the stored block is not the one after line 15")

    def test_a_changed_block_that_is_not_well_formed(self) -> None:
        self.change_block(SCALE, 0)
        self.assert_true_block_takes_its_place("the stored block is not the one after line 15", "the stored block is not well formed")

    def assert_true_block_takes_its_place(self, *wrong: str) -> None:
        self.assert_found(*wrong)
        self.host.start_again("a")
        self.assertIn("study a: the stored block is not the one after line 15; the log gives the true block", self.host.log())
        self.assert_answers_after(len(LINES))

    def test_a_block_that_is_changed_while_the_host_serves(self) -> None:
        """The host answers from its own block, and puts the stored one right when it starts again."""
        self.host.start_again("a")
        self.change_block(CONSTANT, 1)
        self.assert_found("the stored block is not the one after line 15")
        reply = self.host.session("a", SEARCH + b"\n").rstrip()
        self.host.kill()
        self.host.start_again("a")
        self.assertIn("study a: the stored block is not the one after line 16; the log gives the true block", self.host.log())
        self.verified(self.host, "a")
        self.assertEqual(reply, support.reference([*LINES, SEARCH])[-1])

    def test_changed_lines_and_replies(self) -> None:
        for number, (column, content) in enumerate([("line", b"020000000001"), ("reply", b"8400000000000300000000000F"), ("line", b"")], 1):
            with self.subTest(number=number, column=column):
                true = (LINES if column == "line" else REPLIES)[number - 1]
                self.edit(f"UPDATE lines SET {column} = ? WHERE number = ?", content, number)
                self.assert_found(f"study a: line {number}: ")
                self.edit(f"UPDATE lines SET {column} = ? WHERE number = ?", true, number)
        self.assertEqual(self.host.command("verify", "a").returncode, 0)

    def test_a_changed_block_and_a_changed_line(self) -> None:
        """The true block is then unknown, so nobody answers until the line is as it was."""
        self.edit("UPDATE lines SET line = ? WHERE number = 5", b"020000000001")
        self.change_block(CONSTANT, 1)
        self.host.start()
        self.host.wait_log("study a is not served: the lines taken again give another block than the log says, first after line 5")
        self.assert_found("line 5: ")
        with self.assertRaises(OSError):
            self.host.connect("a")
        self.edit("UPDATE lines SET line = ? WHERE number = 5", LINES[4])
        self.host.signal(signal.SIGHUP)
        self.host.wait_log("study a is served", times=2)
        self.assertIn("the log gives the true block", self.host.log())
        self.assert_answers_after(len(LINES))


class ByteTest(DataCase):
    """Whatever byte of the database is changed, the study goes on from the true block, or it is not served. Where `verify` finds nothing,
    what it looks at is as it was."""

    def setUp(self) -> None:
        super().setUp()
        self.add()
        self.take(LINES)
        self.path = store.database(self.data, "study")
        self.true = self.contents()
        logging.disable()
        self.addCleanup(logging.disable, logging.NOTSET)

    def contents(self) -> tuple[list[tuple[int, bytes, str]], list[Start], bytes | None]:
        """What `verify` compares. The lines themselves it takes as they are: one with the same reply and block may stand for another."""
        with store.reading(self.data, "study") as study:
            return [(row.number, row.reply, row.block_sha256) for row in study.lines()], study.starts(), study.block()

    def test_changed_bytes(self) -> None:
        content, chosen = self.path.read_bytes(), random.Random(24)
        outcomes: Counter[tuple[str, str]] = Counter()
        for _ in range(CHANGED_BYTES):
            changed, place = bytearray(content), chosen.randrange(len(content))
            changed[place] ^= 1 << chosen.randrange(8)
            with self.subTest(place=place, byte=changed[place]):
                self.path.write_bytes(changed)
                verified = self.verified()
                self.path.write_bytes(changed)
                outcomes[verified, self.opened()] += 1
        for outcome in [("nothing", "served"), ("something", "served"), ("something", "not served")]:
            self.assertIn(outcome, outcomes)
        self.assertNotIn(("nothing", "not served"), outcomes)

    def verified(self) -> str:
        """What `verify` finds."""
        try:
            if checks.verify(self.data, "study", self.library).wrong:
                return "something"
        except StudyError:
            return "something"
        self.assertEqual(self.contents(), self.true)
        return "nothing"

    def opened(self) -> str:
        """Whether the study is served, which is from the true block only."""
        try:
            study = checks.open_study(self.data, "study", self.library, self.config)
        except NotServed:
            return "not served"
        with closing(study):
            self.assertEqual((study.count, study.block), (len(LINES), self.true[2]))
        return "served"


if __name__ == "__main__":
    unittest.main()
