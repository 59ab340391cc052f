"""Studies on the disk: what is stored before a reply, what happens where it cannot be stored, adding and removing."""

import os
import resource
import time
from collections.abc import Iterator
from contextlib import contextmanager

from hosting import checks, config, records, store
from hosting.config import Config, ConfigError
from hosting.records import Address, Settings
from hosting.store import NotStored, Study, StudyError
from hosting.tests import support
from hosting.tests.support import ADD, LINES, LOAD, REPLIES, SEARCH, TIGHTEN, DataCase

ROOM = 1_000_000


class Taking(DataCase):
    def setUp(self) -> None:
        super().setUp()
        self.add()

    def test_each_reply_comes_after_its_line_is_stored(self) -> None:
        study = self.open()
        for number, (line, reply) in enumerate(zip(LINES, REPLIES), 1):
            self.assertEqual(study.take(line), reply)
            with store.reading(self.data, "study") as read:
                stored = read.last()
                self.assertEqual((stored.number, stored.line, stored.reply), (number, line, reply))
                self.assertEqual(stored.library, self.library.sha256)
                self.assertEqual(checks.logged_block(read), study.block)

    def test_a_study_goes_on_as_its_last_line_left_it(self) -> None:
        replies = []
        for line in LINES:
            replies += self.take([line])
        self.assertEqual(replies, REPLIES)
        self.assertEqual(self.open().count, len(LINES))

    def test_a_study_stands_after_a_process_that_never_closed_it(self) -> None:
        study = self.open()
        replies = [study.take(line) for line in LINES[:8]]
        after = self.open()
        self.assertEqual((after.block, after.count), (study.block, 8))
        self.assertEqual(replies + [after.take(line) for line in LINES[8:]], REPLIES)

    def test_the_block_is_written_only_where_it_changed(self) -> None:
        study = self.open()
        written = []
        study._connection.set_trace_callback(lambda text: written.append(text) if "INTO block" in text else None)
        for line, changes in ((LOAD, 1), (TIGHTEN, 1), (TIGHTEN, 0), (SEARCH, 0), (b"07", 0), (b"no line", 0), (ADD, 1)):
            written.clear()
            study.take(line)
            self.assertEqual(len(written), changes, line)

    def test_lines_of_any_bytes_are_stored_as_they_are(self) -> None:
        lines = [b"", b"\x00\xff", "ä".encode(), b"0" * (self.library.header.line_characters + 1)]
        self.assertEqual(self.take(lines), [b"FF01", b"FF01", b"FF01", b"FF02"])
        with store.reading(self.data, "study") as read:
            self.assertEqual([stored.line for stored in read.lines()], lines)
            self.assertEqual([stored.line for stored in read.newest_first()], lines[::-1])

    def test_more_lines_than_are_read_at_once(self) -> None:
        count = 2 * records.ROWS_AT_ONCE + 1
        self.open().take_all([TIGHTEN] * count)
        with store.reading(self.data, "study") as read:
            self.assertEqual([stored.number for stored in read.lines()], list(range(1, count + 1)))
            self.assertEqual([stored.number for stored in read.newest_first()], list(range(count, 0, -1)))

    def test_lines_together_have_the_replies_of_lines_one_by_one(self) -> None:
        study = self.open()
        self.assertEqual(study.take_all(iter(LINES)), REPLIES)
        self.assertEqual(study.take_all([]), [])
        self.assertEqual(study.count, len(LINES))
        self.assertEqual(checks.verify(self.data, "study", self.library).wrong, [])

    def test_the_log_of_the_database_does_not_grow_for_ever(self) -> None:
        study = self.open()
        log = store.database(self.data, "study").with_name("study.db-wal")
        for _ in range(3):
            study.take_all([TIGHTEN] * store.CHECKPOINT_LINES)
            self.assertEqual(log.stat().st_size, 0)

    def test_sqlite_moves_nothing_from_its_log_by_itself(self) -> None:
        study = self.open()
        before = store.database(self.data, "study").read_bytes()
        for _ in range(2):
            study.take_all([b"0" * self.library.header.line_characters] * (store.CHECKPOINT_LINES // 2 - 1))
        self.assertEqual(store.database(self.data, "study").read_bytes(), before)

    def test_who_reads_does_not_hold_up_a_study(self) -> None:
        study = self.open()
        study.take(LOAD)
        begin = time.monotonic()
        with store.open_records(self.data, "study") as reader, records.transaction(reader, "BEGIN"):
            reader.execute("SELECT * FROM lines").fetchall()
            study.take_all([TIGHTEN] * store.CHECKPOINT_LINES)
        self.assertEqual(study.count, 1 + store.CHECKPOINT_LINES)
        self.assertLess(time.monotonic() - begin, records.BUSY_SECONDS / 2)


class NoRoom(DataCase):
    def setUp(self) -> None:
        super().setUp()
        self.add()

    def assert_as_before(self, study: Study, lines: list[bytes], failing: str) -> None:
        """A line that cannot be stored has no reply, and leaves the study as it was, in memory and on the disk."""
        block, count = study.block, study.count
        for line in lines:
            with self.assertRaisesRegex(NotStored, failing):
                study.take(line)
            self.assertEqual((study.block, study.count), (block, count))
        with store.reading(self.data, "study") as read:
            self.assertEqual((checks.logged_block(read), read.count()), (block, count))

    def fill(self, study: Study) -> None:
        with self.assertRaisesRegex(NotStored, "full"):
            for _ in range(ROOM):
                study.take(b"0" * self.library.header.line_characters)

    def test_a_full_disk_and_room_again(self) -> None:
        self.config = Config(page_limit=40)
        study = self.open()
        study.take(LOAD)
        self.fill(study)
        self.assert_as_before(study, [support.full_load(), support.full_load()], "full")
        study._connection.execute(f"PRAGMA max_page_count = {ROOM}")
        self.assertEqual(study.take(TIGHTEN), REPLIES[1])
        self.assertEqual(checks.verify(self.data, "study", self.library).wrong, [])

    def test_compact_makes_room_for_a_study_that_is_served(self) -> None:
        self.config = Config(page_limit=40)
        study = self.open()
        self.fill(study)
        checks.compact(self.data, "study")
        self.assertEqual(study.take(LOAD), REPLIES[0])
        self.assertEqual(checks.verify(self.data, "study", self.library).wrong, [])

    def test_a_database_that_cannot_be_written(self) -> None:
        study = self.open()
        study.take(LOAD)
        study._connection.execute("PRAGMA query_only = ON")
        self.assert_as_before(study, [TIGHTEN, TIGHTEN], "readonly")
        study._connection.execute("PRAGMA query_only = OFF")
        self.assertEqual(study.take(TIGHTEN), REPLIES[1])

    def test_a_disk_that_fails_in_the_commit(self) -> None:
        study = self.open()
        study.take(LOAD)
        log = store.database(self.data, "study").with_name("study.db-wal")
        with longest_file(log.stat().st_size + 100):
            self.assert_as_before(study, [TIGHTEN, TIGHTEN], "disk|full")
        self.assertEqual(study.take(TIGHTEN), REPLIES[1])
        self.assertEqual(checks.verify(self.data, "study", self.library).wrong, [])

    def test_a_row_in_the_way(self) -> None:
        study = self.open()
        study.take(LOAD)
        self.edit("INSERT INTO lines SELECT 2, time, library, line, reply, block_sha256 FROM lines")
        with self.assertRaisesRegex(NotStored, "UNIQUE"):
            study.take(TIGHTEN)
        self.edit("DELETE FROM lines WHERE number = 2")
        self.assertEqual(study.take(TIGHTEN), REPLIES[1])

    def test_lines_together_are_stored_all_or_none(self) -> None:
        study = self.open()
        study.take(LOAD)
        study._connection.execute("PRAGMA max_page_count = 1")
        with self.assertRaisesRegex(NotStored, "full"):
            study.take_all([TIGHTEN, *[support.full_load()] * 9])
        self.assertEqual(study.count, 1)
        with store.reading(self.data, "study") as read:
            self.assertEqual(read.count(), 1)

    def test_a_library_that_writes_no_reply_gives_none(self) -> None:
        study = self.open()
        study.take(LOAD)
        study.library.header = self.library.header._replace(longest_reply_bytes=71)
        self.assert_as_before(study, [TIGHTEN], "wrote 0 bytes")


@contextmanager
def longest_file(size: int) -> Iterator[None]:
    """Lets no file grow beyond a size, as a disk without room would."""
    before = resource.getrlimit(resource.RLIMIT_FSIZE)
    resource.setrlimit(resource.RLIMIT_FSIZE, (size, before[1]))
    try:
        yield
    finally:
        resource.setrlimit(resource.RLIMIT_FSIZE, before)


class Studies(DataCase):
    def test_settings_are_kept(self) -> None:
        for settings in (Settings("a", Address("127.0.0.1", 5000, ""), True), Settings("b.c-d_9", Address("", 0, "/run/b"), False)):
            store.create(self.data, settings)
            self.assertEqual(store.settings(self.data, settings.name), settings)
        self.assertEqual(list(store.present(self.data)), ["a", "b.c-d_9"])
        self.assertEqual(sorted(os.listdir(self.data / "studies")), ["a", "b.c-d_9"])
        self.assertEqual([str(Address("::1", 5000, "")), str(Address("127.0.0.1", 5000, "")), str(Address("", 0, "/run/b"))], ["[::1]:5000", "127.0.0.1:5000", "/run/b"])

    def test_names_that_are_refused(self) -> None:
        for name in ("", ".", "..", ".a", "-a", "a/b", "a b", "ä", "a\n", "a" * 65):
            with self.subTest(name=name), self.assertRaisesRegex(StudyError, "a name has"):
                self.add(name)
        self.assertEqual(store.present(self.data), {})

    def test_names_and_addresses_are_given_once(self) -> None:
        self.add("a")
        with self.assertRaisesRegex(StudyError, "there is a study a already"):
            self.add("a")
        with self.assertRaisesRegex(StudyError, "study a has the address"):
            store.create(self.data, Settings("b", store.settings(self.data, "a").address, False))

    def test_a_removed_study_is_kept_aside_whole(self) -> None:
        self.add()
        study = self.open()
        study.take(LOAD)
        identity = store.present(self.data)["study"]
        moved = store.remove(self.data, "study")
        self.assertEqual(store.present(self.data), {})
        self.add()
        self.assertNotEqual(store.present(self.data)["study"], identity)
        self.assertEqual(study.take(TIGHTEN), REPLIES[1])
        moved.rename(self.data / "studies" / "again")
        with store.reading(self.data, "again") as read:
            self.assertEqual([stored.reply for stored in read.lines()], REPLIES[:2])
        with self.assertRaisesRegex(StudyError, "there is no study b"):
            store.remove(self.data, "b")


class Configuration(DataCase):
    def write(self, text: str) -> None:
        (self.data / config.FILE).write_text(text)

    def test_without_a_file_the_defaults_hold(self) -> None:
        self.assertEqual(config.read(self.data), Config())

    def test_settings_and_paths_are_read(self) -> None:
        (self.data / "c.pem").touch()
        self.write("[host]\nconnections = 7\npage_limit = 0\ncertificate = c.pem\nkey = c.pem\nclient_ca =\n")
        path = str(self.data / "c.pem")
        self.assertEqual(config.read(self.data), Config(connections=7, certificate=path, key=path))

    def test_what_is_wrong_is_said(self) -> None:
        (self.data / "c.pem").touch()
        wrong = {
            "": "one section",
            "[other]\n": "one section",
            "[host]\nconections = 7\n": "no setting conections",
            "[host]\nconnections = 0\n": "connections is not a whole number of 1 or more: 0",
            "[host]\nidle_seconds = ten\n": "idle_seconds is not",
            "[host]\ncertificate = c.pem\n": "both certificate and key",
            "[host]\ncertificate = c.pem\nkey = d.pem\n": "key: there is no file",
            "[host]\nclient_ca = c.pem\n": "needs TLS",
            "host": "no section headers",
        }
        for text, reason in wrong.items():
            self.write(text)
            with self.subTest(text=text), self.assertRaisesRegex(ConfigError, f"host.ini: .*{reason}"):
                config.read(self.data)

    def test_without_tls_the_host_listens_on_loopback_only(self) -> None:
        tls = Config(certificate="c", key="k")
        for bind, plain in (("127.0.0.1", True), ("127.0.0.2", True), ("::1", True), ("0.0.0.0", False), ("::", False), ("192.0.2.1", False), ("name", False)):
            self.assertEqual((config.may_listen(bind, Config()), config.may_listen(bind, tls)), (plain, True), bind)
