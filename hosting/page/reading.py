"""Opens the database of a study for reading alone.

SQLite cannot open a database with a log of its own (-wal) for reading where the folder is not to be written and no host has it open. Then it is read as a file
that nobody changes, but only where no log is there, and this is looked at again after reading: a host that began to write meanwhile makes the reading void.
"""

import sqlite3
from collections.abc import Callable, Iterator
from pathlib import Path
from typing import TypeVar

from hosting import records
from hosting.records import LINE_COLUMNS, Damaged, Stored
from hosting.store import NotServed, Unusable

Result = TypeVar("Result")

BUSY_SECONDS = 5.0
READING, UNCHANGED = "mode=ro", "mode=ro&immutable=1"
# What the use of a database raises where it is damaged, or not one that the installed library reads.
UNUSABLE = (*records.DAMAGE, NotServed, OSError)


class Changed(Exception):
    """A database was written while it was read as one that nobody changes."""


def read(path: Path, name: str, use: Callable[[sqlite3.Connection], Result]) -> Result:
    """What is read of a database. Raises Unusable where it cannot be read, Changed where what was read is void."""
    try:
        before = _state(path)
        connection, alone = _open_to_read(path)
        try:
            result = use(connection)
        finally:
            connection.close()
        if alone and _state(path) != before:
            raise Changed(f"the database of study {name} was written while it was read")
        return result
    except UNUSABLE as error:
        raise Unusable(f"study {name} cannot be used: {error}") from error


def _open_to_read(path: Path) -> tuple[sqlite3.Connection, bool]:
    """The database opened for reading, and whether as one that nobody changes."""
    try:
        return open_as(path, READING), False
    except sqlite3.OperationalError:
        if log(path).exists():
            raise
    return open_as(path, UNCHANGED), True


def open_as(path: Path, mode: str) -> sqlite3.Connection:
    """Opens a database in a mode that SQLite names so."""
    connection = sqlite3.connect(f"{path.absolute().as_uri()}?{mode}", uri=True, isolation_level=None, timeout=BUSY_SECONDS)
    try:
        if connection.execute("PRAGMA application_id").fetchone() != (records.APPLICATION,):
            raise Damaged(f"{path} is not the database of a study")
        if connection.execute("PRAGMA user_version").fetchone() != (records.VERSION,):
            raise Damaged(f"{path} is of another version of the host")
    except BaseException:
        connection.close()
        raise
    return connection


def last_number(connection: sqlite3.Connection) -> int:
    """The number of the last line, 0 before the first. No row of a line is read for it."""
    return int(connection.execute("SELECT coalesce(max(number), 0) FROM lines").fetchone()[0])


def newer(connection: sqlite3.Connection, number: int) -> Iterator[Stored]:
    """The lines behind a number, in their order, each read when it is asked for."""
    return map(Stored._make, connection.execute(f"SELECT {LINE_COLUMNS} FROM lines WHERE number > ? ORDER BY number", (number,)))


def newest_first(connection: sqlite3.Connection) -> Iterator[Stored]:
    """The lines from the last to the first, each read when it is asked for."""
    return map(Stored._make, connection.execute(f"SELECT {LINE_COLUMNS} FROM lines ORDER BY number DESC"))


def log(path: Path) -> Path:
    """SQLite's log of a database."""
    return path.with_name(f"{path.name}-wal")


def _state(path: Path) -> tuple[bool, int, int]:
    """By what a database that was written is told: whether its log is there, its length and when it was changed."""
    status = path.stat()
    return log(path).exists(), status.st_size, status.st_mtime_ns
