"""What the database of a study holds, and how it is read."""

import hashlib
import sqlite3
import zlib
from collections.abc import Iterator
from contextlib import contextmanager
from pathlib import Path
from typing import NamedTuple

APPLICATION = 0x4A554E43
VERSION = 1
BUSY_SECONDS = 60.0
ROWS_AT_ONCE = 256
SCHEMA = f"""
PRAGMA application_id = {APPLICATION};
PRAGMA user_version = {VERSION};
PRAGMA journal_mode = WAL;
-- one row; dropped is how many answered lines were dropped since, as they changed nothing
CREATE TABLE settings (name TEXT NOT NULL, bind TEXT NOT NULL, port INTEGER NOT NULL, socket TEXT NOT NULL, crlf INTEGER NOT NULL,
                       dropped INTEGER NOT NULL) STRICT;
-- every answered line, with the SHA-256 of the library that answered it and of the block afterwards
CREATE TABLE lines (number INTEGER PRIMARY KEY, time TEXT NOT NULL, library TEXT NOT NULL, line BLOB NOT NULL, reply BLOB NOT NULL,
                    block_sha256 TEXT NOT NULL) STRICT;
-- the number of the first line that a library answered, and the block before that line, packed
CREATE TABLE starts (number INTEGER PRIMARY KEY, library TEXT NOT NULL, block BLOB NOT NULL) STRICT;
-- the block after the last line, packed; no row before the first line
CREATE TABLE block (id INTEGER PRIMARY KEY CHECK (id = 1), packed BLOB NOT NULL) STRICT;
"""
LINE_COLUMNS = "number, time, library, line, reply, block_sha256"


class Damaged(Exception):
    """A database that is not one of a study, or whose contents cannot be read."""


# What the use of a damaged database raises: a UnicodeDecodeError where SQLite's own message quotes damaged bytes.
DAMAGE = (Damaged, sqlite3.Error, UnicodeDecodeError)


class Address(NamedTuple):
    """Where a study is reached: a socket file if its path is not empty, else a TCP port."""

    bind: str
    port: int
    socket: str

    def __str__(self) -> str:
        return self.socket or (f"[{self.bind}]:{self.port}" if ":" in self.bind else f"{self.bind}:{self.port}")


class Settings(NamedTuple):
    """What a study was added with. With crlf its lines end in CR LF."""

    name: str
    address: Address
    crlf: bool


class Stored(NamedTuple):
    """A stored line. The time is for people: nothing goes by it."""

    number: int
    time: str
    library: str
    line: bytes
    reply: bytes
    block_sha256: str


class Start(NamedTuple):
    """The block from which a library went on, and the number of the first line that it answered."""

    number: int
    library: str
    block: bytes


def sha256(block: bytes) -> str:
    """The SHA-256 of a block, as hexadecimal digits."""
    return hashlib.sha256(block).hexdigest()


def pack(block: bytes) -> bytes:
    """A block as it is stored."""
    return zlib.compress(block, level=1)


def unpack(packed: bytes) -> bytes:
    """The block that was stored so."""
    try:
        return zlib.decompress(packed)
    except zlib.error as error:
        raise Damaged(f"a stored block cannot be unpacked: {error}") from error


def connect(path: Path, page_limit: int = 0) -> sqlite3.Connection:
    """Opens the database of a study. SQLite moves nothing from its log into the database by itself, `checkpoint` does: so where the log is
    not empty, the database is as it was before the log, and a log that was cut gives the study after an earlier line."""
    connection = sqlite3.connect(f"{path.absolute().as_uri()}?mode=rw", uri=True, isolation_level=None, timeout=BUSY_SECONDS)
    try:
        if connection.execute("PRAGMA application_id").fetchone() != (APPLICATION,):
            raise Damaged(f"{path} is not the database of a study")
        if connection.execute("PRAGMA user_version").fetchone() != (VERSION,):
            raise Damaged(f"{path} is of another version of the host")
        connection.execute("PRAGMA synchronous = FULL")
        connection.execute("PRAGMA wal_autocheckpoint = 0")
        if page_limit:
            connection.execute(f"PRAGMA max_page_count = {page_limit}")
    except BaseException:
        connection.close()
        raise
    return connection


@contextmanager
def transaction(connection: sqlite3.Connection, begin: str = "BEGIN IMMEDIATE") -> Iterator[None]:
    """All that is done within is committed together, or nothing of it."""
    connection.execute(begin)
    try:
        yield
        connection.execute("COMMIT")
    finally:
        if connection.in_transaction:
            connection.execute("ROLLBACK")


def checkpoint(connection: sqlite3.Connection) -> None:
    """Moves what is committed from SQLite's log into the database and cuts the log to nothing, unless somebody reads just now."""
    connection.execute("PRAGMA busy_timeout = 0")
    try:
        connection.execute("PRAGMA wal_checkpoint(TRUNCATE)").fetchone()
    finally:
        connection.execute(f"PRAGMA busy_timeout = {round(BUSY_SECONDS * 1000)}")


class Records:
    """Reads the database of a study."""

    def __init__(self, connection: sqlite3.Connection) -> None:
        self._connection = connection

    def settings(self) -> Settings:
        row = self._connection.execute("SELECT name, bind, port, socket, crlf FROM settings").fetchone()
        if row is None:
            raise Damaged("the settings are missing")
        name, bind, port, socket, crlf = row
        return Settings(name, Address(bind, port, socket), bool(crlf))

    def block(self) -> bytes | None:
        """The block after the last line; None before the first."""
        row = self._connection.execute("SELECT packed FROM block").fetchone()
        return unpack(row[0]) if row else None

    def starts(self) -> list[Start]:
        """From which block each library went on, in order."""
        rows = self._connection.execute("SELECT number, library, block FROM starts ORDER BY number").fetchall()
        return [Start(number, library, unpack(block)) for number, library, block in rows]

    def last(self) -> Stored | None:
        """The last line."""
        row = self._connection.execute(f"SELECT {LINE_COLUMNS} FROM lines ORDER BY number DESC LIMIT 1").fetchone()
        return Stored._make(row) if row else None

    def count(self) -> int:
        """How many lines were answered. The last one is never dropped, so its number says it."""
        last = self.last()
        return last.number if last else 0

    def kept(self) -> int:
        """How many lines are in the database."""
        return self._connection.execute("SELECT count(*) FROM lines").fetchone()[0]

    def missing(self) -> int:
        """How many answered lines are neither in the database nor were dropped."""
        dropped = self._connection.execute("SELECT total(dropped) FROM settings").fetchone()[0]
        return self.count() - self.kept() - int(dropped)

    def lines(self, first: int = 1, last: int | None = None) -> Iterator[Stored]:
        """The lines from one number to another, in order. No transaction is open between two of them."""
        query = f"SELECT {LINE_COLUMNS} FROM lines WHERE number BETWEEN ? AND ? ORDER BY number LIMIT {ROWS_AT_ONCE}"
        last = self.count() if last is None else last
        while rows := self._connection.execute(query, (first, last)).fetchall():
            yield from map(Stored._make, rows)
            first = rows[-1][0] + 1

    def newest_first(self) -> Iterator[Stored]:
        """The lines from the last to the first."""
        query = f"SELECT {LINE_COLUMNS} FROM lines WHERE number < ? ORDER BY number DESC LIMIT {ROWS_AT_ONCE}"
        before = 1 << 62
        while rows := self._connection.execute(query, (before,)).fetchall():
            yield from map(Stored._make, rows)
            before = rows[-1][0]
