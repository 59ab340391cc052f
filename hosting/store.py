"""Studies on the disk: each is a folder DIR/studies/NAME with its database, and a file that says how many lines were answered."""

import fcntl
import logging
import os
import re
import shutil
import sqlite3
from collections.abc import Iterable, Iterator
from contextlib import contextmanager
from datetime import datetime, timezone
from pathlib import Path

from hosting import records
from hosting.library import FOLDER_MODE
from hosting.records import Address, Records, Settings, Stored
from junction.errors import LibraryError
from junction.native import Library

NAME = re.compile(r"[A-Za-z0-9][A-Za-z0-9._-]{0,63}")
CHECKPOINT_LINES = 500
FILE_MODE = 0o600
COUNT = "count"
COUNT_DIGITS = 19

log = logging.getLogger(__name__)


class StudyError(Exception):
    """A study that cannot be added, removed or read."""


class Unusable(StudyError):
    """A study whose database is damaged, or on which SQLite fails."""


class NotServed(Exception):
    """A study that is not answered from, and why."""


class NotStored(Exception):
    """A line that could not be stored, so that there is no reply to it; the study is as before."""


def database(data: Path, name: str) -> Path:
    """The database of a study."""
    return data / "studies" / name / "study.db"


def libraries(data: Path) -> Path:
    """The folder of the libraries that answered stored lines."""
    return data / "libraries"


def present(data: Path) -> dict[str, int]:
    """The names of all studies, in order, each with the number of its folder: a study that was removed and added anew has another."""
    try:
        entries = sorted(os.scandir(data / "studies"), key=lambda entry: entry.name)
    except FileNotFoundError:
        return {}
    return {entry.name: entry.inode() for entry in entries if NAME.fullmatch(entry.name) and entry.is_dir()}


def create(data: Path, settings: Settings) -> None:
    """Adds a study. Its folder takes its place whole, by a rename."""
    name = settings.name
    if not NAME.fullmatch(name):
        raise StudyError(f"a name has up to 64 of the characters A-Z, a-z, 0-9, '.', '_' and '-', a letter or digit first: {name}")
    with _changing(data) as studies:
        if name in present(data):
            raise StudyError(f"there is a study {name} already")
        for other in present(data):
            if _address_of(data, other) == settings.address:
                raise StudyError(f"study {other} has the address {settings.address}")
        made = studies / f".{name}.new"
        shutil.rmtree(made, ignore_errors=True)
        made.mkdir(mode=FOLDER_MODE)
        _make_database(made / "study.db", settings)
        _sync_folder(made)
        made.rename(studies / name)
        _sync_folder(studies)


def remove(data: Path, name: str) -> Path:
    """Takes a study away: its folder is moved to DIR/removed, and nothing is deleted."""
    with _changing(data) as studies:
        if name not in present(data):
            raise StudyError(f"there is no study {name}")
        removed = data / "removed"
        removed.mkdir(mode=FOLDER_MODE, exist_ok=True)
        moved = removed / f"{name}-{datetime.now(timezone.utc):%Y%m%dT%H%M%S.%fZ}"
        (studies / name).rename(moved)
        _sync_folder(removed)
        _sync_folder(studies)
    return moved


@contextmanager
def open_records(data: Path, name: str) -> Iterator[sqlite3.Connection]:
    """The database of a study, for other commands than `serve`, also while it is served."""
    if name not in present(data):
        raise StudyError(f"there is no study {name}")
    try:
        connection = records.connect(database(data, name))
        try:
            yield connection
        finally:
            connection.close()
    except records.DAMAGE as error:
        raise Unusable(f"study {name} cannot be used: {error}") from error


@contextmanager
def reading(data: Path, name: str) -> Iterator[Records]:
    """The records of a study, to be read."""
    with open_records(data, name) as connection:
        yield Records(connection)


def settings(data: Path, name: str) -> Settings:
    """What a study was added with."""
    with reading(data, name) as study:
        return study.settings()


def _address_of(data: Path, name: str) -> Address | None:
    try:
        return settings(data, name).address
    except StudyError:
        return None


@contextmanager
def _changing(data: Path) -> Iterator[Path]:
    """The folder of studies, for one at a time who adds or removes one."""
    studies = data / "studies"
    try:
        studies.mkdir(mode=FOLDER_MODE, parents=True, exist_ok=True)
        folder = os.open(studies, os.O_RDONLY)
        try:
            fcntl.flock(folder, fcntl.LOCK_EX)
            yield studies
        finally:
            os.close(folder)
    except (OSError, sqlite3.Error) as error:
        raise StudyError(f"the studies of {data} cannot be changed: {error}") from error


def _make_database(path: Path, settings: Settings) -> None:
    path.touch(mode=FILE_MODE)
    connection = sqlite3.connect(path, isolation_level=None)
    try:
        connection.executescript(records.SCHEMA)
        name, address, crlf = settings
        connection.execute("INSERT INTO settings VALUES (?, ?, ?, ?, ?, 0)", (name, *address, crlf))
    finally:
        connection.close()


def _sync_folder(path: Path) -> None:
    folder = os.open(path, os.O_RDONLY)
    try:
        os.fsync(folder)
    finally:
        os.close(folder)


def counted(path: Path) -> int:
    """How many lines a study has answered by the file that says so; 0 where it says nothing."""
    try:
        text = path.with_name(COUNT).read_bytes().strip()
    except FileNotFoundError:
        return 0
    return int(text) if text.isdigit() else 0


class Study:
    """A study that is answered from, by one thread. `checks.open_study` opens it."""

    def __init__(self, path: Path, connection: sqlite3.Connection, library: Library, block: bytes) -> None:
        study = Records(connection)
        starts = study.starts()
        self.settings = study.settings()
        self.library = library
        self.block = block
        self.count = study.count()
        self._connection = connection
        self._digest = records.sha256(block)
        self._starts_here = not starts or starts[-1].library != library.sha256
        self._uncut_lines = 0
        self._count_file = os.fdopen(os.open(path.with_name(COUNT), os.O_WRONLY | os.O_CREAT, FILE_MODE), "wb", buffering=0)

    def take(self, line: bytes) -> bytes:
        """The reply to a line, after line, reply and block are stored."""
        return self.take_all([line])[0]

    def take_all(self, lines: Iterable[bytes]) -> list[bytes]:
        """The replies to some lines in turn, after all of them are stored together. Where they cannot be, none of them is."""
        answered, block = self._answer(lines)
        if answered:
            self._store(answered, block)
            self.block, self._digest = block, answered[-1].block_sha256
            self.count = answered[-1].number
            self._starts_here = False
            self._write_count()
            self._checkpoint(len(answered))
        return [stored.reply for stored in answered]

    def close(self) -> None:
        """Ends the use of the database."""
        self._count_file.close()
        self._connection.close()

    def _answer(self, lines: Iterable[bytes]) -> tuple[list[Stored], bytes]:
        """The rows of some lines, and the block after them."""
        block, digest, answered = self.block, self._digest, []
        for number, line in enumerate(lines, self.count + 1):
            try:
                reply, after = self.library.answer(block, line)
            except LibraryError as error:
                raise NotStored(str(error)) from error
            if after != block:
                block, digest = after, records.sha256(after)
            answered.append(Stored(number, _now(), self.library.sha256, line, reply, digest))
        return answered, block

    def _store(self, answered: list[Stored], block: bytes) -> None:
        """Commits rows, and the block where it changed; the first line of a library also with the block before it."""
        execute = self._connection.execute
        try:
            with records.transaction(self._connection):
                if self._starts_here:
                    start = (answered[0].number, self.library.sha256, records.pack(self.block))
                    execute("INSERT INTO starts VALUES (?, ?, ?)", start)
                self._connection.executemany("INSERT INTO lines VALUES (?, ?, ?, ?, ?, ?)", answered)
                if self._starts_here or block != self.block:
                    execute("REPLACE INTO block VALUES (1, ?)", (records.pack(block),))
        except sqlite3.Error as error:
            raise NotStored(str(error)) from error

    def _write_count(self) -> None:
        """Says how many lines were answered, beside the database and never synced: it serves only to see that lines are gone, which no kill does."""
        try:
            os.pwrite(self._count_file.fileno(), b"%0*d\n" % (COUNT_DIGITS, self.count), 0)
        except OSError as error:
            log.warning("study %s: the number of answered lines cannot be written: %s", self.settings.name, error)

    def _checkpoint(self, lines: int) -> None:
        """Now and then moves what is committed from SQLite's log into the database. Where that fails the log grows, and it is tried again."""
        self._uncut_lines += lines
        if self._uncut_lines < CHECKPOINT_LINES:
            return
        self._uncut_lines = 0
        try:
            records.checkpoint(self._connection)
        except sqlite3.Error as error:
            log.warning("study %s: the log of the database cannot be moved into it: %s", self.settings.name, error)


def _now() -> str:
    return datetime.now(timezone.utc).isoformat(timespec="milliseconds")
