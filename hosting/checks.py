"""What is looked at when a study is opened, `verify` and `compact`."""

import logging
import sqlite3
import struct
from collections.abc import Callable
from pathlib import Path
from typing import NamedTuple

from hosting import library as libraries
from hosting import records, store
from hosting.config import Config
from hosting.records import Damaged, Records, Start, Stored
from hosting.store import NotServed, Study
from junction.errors import LibraryError
from junction.lengths import NUMBER_BYTES, Lengths
from junction.native import Library

# How many places the order of trains has, behind the tables of a block of 6,652 numbers.
ORDER_PLACES = 24


def _with_order(block: bytes) -> bytes:
    """A block of 6,652 numbers, behind which its trains stand in the order in which they were tried: 0 to n - 1, n being its first number, and zeros."""
    trains = int.from_bytes(block[:NUMBER_BYTES], "little", signed=True)
    return block + struct.pack(f"<{ORDER_PLACES}q", *(place if place < trains else 0 for place in range(ORDER_PLACES)))


# How a block of one length becomes one of another, by the two lengths in numbers. Without a rule a study is not served.
CARRIED: dict[tuple[int, int], Callable[[bytes], bytes]] = {(6652, 6676): _with_order}

log = logging.getLogger(__name__)


class Shelf:
    """The libraries at hand: the installed one, and those that were kept because they answered stored lines."""

    def __init__(self, data: Path, installed: Library) -> None:
        self._folder = store.libraries(data)
        self.installed = installed

    def find(self, sha256: str) -> Library:
        """The library of this SHA-256. Raises LibraryError where there is none."""
        return self.installed if sha256 == self.installed.sha256 else libraries.kept(sha256, self._folder)


def open_study(data: Path, name: str, library: Library, config: Config) -> Study:
    """Opens a study to be answered from, by the thread that calls. Raises NotServed where it is not to be answered from."""
    path = store.database(data, name)
    shelf = Shelf(data, library)
    connection = None
    try:
        libraries.keep(library, store.libraries(data))
        connection = records.connect(path, config.page_limit)
        _check_file(connection)
        _check_whole(connection)
        block = _sound_block(connection, name, shelf)
        _tell_gone(path, name, Records(connection), shelf)
        return Study(path, connection, library, block)
    except (*records.DAMAGE, OSError, LibraryError, NotServed) as error:
        if connection:
            connection.close()
        raise NotServed(str(error)) from error


def _check_file(connection: sqlite3.Connection) -> None:
    """SQLite's own check of the database."""
    found = connection.execute("PRAGMA quick_check(1)").fetchone()[0]
    if found != "ok":
        raise Damaged(f"the database is damaged: {' '.join(found.split())}")


def _check_whole(connection: sqlite3.Connection) -> None:
    """Whether the database can be written, and no line is missing in it."""
    with records.transaction(connection):
        missing = Records(connection).missing()
    if missing:
        raise Damaged(f"lines are missing in the log: {missing}")


def _tell_gone(path: Path, name: str, study: Records, shelf: Shelf) -> None:
    """Says in the log that answered lines are gone, after those that are left were taken again."""
    gone = store.counted(path) - study.count()
    if gone > 0:
        if study.count():
            _block_of_log(study, shelf)
        log.error("study %s: %d answered lines are gone; it goes on after line %d, which was verified", name, gone, study.count())


def carried(block: bytes, header: Lengths) -> bytes:
    """A stored block as a library of these lengths takes it."""
    if len(block) == header.block_bytes:
        return block
    lengths = (len(block) // NUMBER_BYTES, header.block_numbers)
    if lengths not in CARRIED:
        raise NotServed(f"the block has {lengths[0]} numbers, those of the library have {lengths[1]}, and there is no rule for these lengths")
    return CARRIED[lengths](block)


def logged_block(study: Records) -> bytes | None:
    """The stored block, if it is the one of the log; None before the first line."""
    block, last = study.block(), study.last()
    if block is None and last is None and not study.starts():
        return None
    if block is None or last is None or records.sha256(block) != last.block_sha256:
        raise Damaged(f"the stored block is not the one after line {study.count()}")
    return block


def _sound_block(connection: sqlite3.Connection, name: str, shelf: Shelf) -> bytes:
    """The block from which a study goes on: the stored one, if it is the one of the log, else the one that the log gives."""
    study = Records(connection)
    try:
        block = logged_block(study)
    except Damaged as damage:
        block = _block_of_log(study, shelf)
        connection.execute("REPLACE INTO block VALUES (1, ?)", (records.pack(block),))
        log.error("study %s: %s; the log gives the true block, which takes its place", name, damage)
    if block is None:
        return shelf.installed.fresh()
    block = carried(block, shelf.installed.header)
    if not shelf.installed.well_formed(block):
        raise NotServed(f"the block after line {study.count()} is not well formed")
    return block


def _block_of_log(study: Records, shelf: Shelf) -> bytes:
    """The block that the lines of the last library give, taken again from its start. Lines that changed nothing are passed over."""
    starts = study.starts()
    if not starts or study.last() is None:
        raise NotServed("the log does not say how it begins or ends")
    library = shelf.find(starts[-1].library)
    block = starts[-1].block
    digest = records.sha256(block)
    for stored in study.lines(starts[-1].number):
        if stored.block_sha256 != digest:
            block = library.answer(block, stored.line)[1]
            digest = records.sha256(block)
        if stored.block_sha256 != digest:
            raise NotServed(f"the lines taken again give another block than the log says, first after line {stored.number}")
    return block


class Findings:
    """What `verify` says, and what of it is wrong."""

    def __init__(self) -> None:
        self.said: list[str] = []
        self.wrong: list[str] = []

    def expect(self, holds: bool, otherwise: str) -> None:
        """Something must hold; where it does not, that is wrong."""
        if not holds:
            self.wrong.append(otherwise)


def verify(data: Path, name: str, library: Library) -> Findings:
    """Takes the lines of a study again, each by the library that answered it, and compares every reply and every block."""
    findings = Findings()
    shelf = Shelf(data, library)
    with store.open_records(data, name) as connection:
        study = Records(connection)
        with records.transaction(connection, "BEGIN"):
            _check_file(connection)
            last, starts, stored, missing = study.count(), study.starts(), _readable_block(study), study.missing()
            findings.said.append(f"{last} lines answered, {study.kept()} of them kept")
        findings.expect(missing == 0, f"lines are missing in the log: {missing}")
        block = _take_all_again(study, starts, last, shelf, findings)
    if last:
        findings.expect(block in (None, stored), f"the stored block is not the one after line {last}")
        findings.expect(stored is not None and _well_formed(stored, starts, shelf), "the stored block is not well formed")
    return findings


def _readable_block(study: Records) -> bytes | None:
    """The stored block; None where there is none that can be read."""
    try:
        return study.block()
    except Damaged:
        return None


def _well_formed(block: bytes, starts: list[Start], shelf: Shelf) -> bool:
    """Whether the library that made a block takes lines on it; the installed one where that one is missing."""
    try:
        library = shelf.find(starts[-1].library)
    except (LibraryError, IndexError):
        library = shelf.installed
    return library.well_formed(block)


def _spans(starts: list[Start], last: int) -> list[tuple[Start, int]]:
    """Each start with the number of the last line that goes back to it."""
    ends = [start.number - 1 for start in starts[1:]] + [last]
    return list(zip(starts, ends))


def _take_all_again(study: Records, starts: list[Start], last: int, shelf: Shelf, findings: Findings) -> bytes | None:
    """Takes the lines of each start again, and gives the block after the last line, if it could be made."""
    begins = bool(starts) and starts[0].number == 1 and not any(starts[0].block)
    findings.expect(begins or last == 0, "line 1: the log does not begin with a fresh block")
    block = None
    for start, end in _spans(starts, last):
        try:
            library = shelf.find(start.library)
        except LibraryError as error:
            findings.wrong.append(f"lines {start.number} to {end} could not be taken again: {error}")
            block = None
            continue
        findings.expect(
            block is None or _goes_on(block, start, library),
            f"line {start.number}: the block from which library {start.library} went on is not the one after the line before",
        )
        block = _take_again(study, start, end, library, findings)
    return block


def _goes_on(block: bytes, start: Start, library: Library) -> bool:
    """Whether a start is from the block that the lines before it gave."""
    try:
        return carried(block, library.header) == start.block
    except NotServed:
        return False


def _take_again(study: Records, start: Start, end: int, library: Library, findings: Findings) -> bytes:
    """Takes the lines of one start again, says how many agree and which is the first that differs, and gives the block after them."""
    block, digest, agreeing, taken = start.block, records.sha256(start.block), 0, 0
    first = None
    for stored in study.lines(start.number, end):
        reply, after = library.answer(block, stored.line)
        if after != block:
            block, digest = after, records.sha256(after)
        why = _difference(stored, library.sha256, reply, digest)
        taken += 1
        agreeing += why is None
        first = first or why
    findings.said.append(f"library {library.sha256}: lines {start.number} to {end}: {agreeing} of {taken} agree")
    if first:
        findings.wrong.append(first)
    return block


def _difference(stored: Stored, library: str, reply: bytes, block_sha256: str) -> str | None:
    """How a stored line differs from what its library answers now."""
    if stored.library != library:
        return f"line {stored.number}: it names library {stored.library}, but library {library} was at work"
    if stored.reply != reply:
        return f"line {stored.number}: the stored reply is {stored.reply[:72]!r}, and the library answers {reply[:72]!r}"
    if stored.block_sha256 != block_sha256:
        return f"line {stored.number}: the block after it is not the one whose SHA-256 is stored"
    return None


class Compacted(NamedTuple):
    """How many lines `compact` dropped, and how many it kept."""

    dropped: int
    kept: int


def compact(data: Path, name: str) -> Compacted:
    """Drops lines that changed nothing, except the last one, whose number says how many were answered, and makes the file smaller."""
    with store.open_records(data, name) as connection:
        with records.transaction(connection):
            dropped = _unchanging(Records(connection))
            connection.executemany("DELETE FROM lines WHERE number = ?", dropped)
            connection.execute("UPDATE settings SET dropped = dropped + ?", (len(dropped),))
        connection.execute("VACUUM")
        records.checkpoint(connection)
        return Compacted(len(dropped), Records(connection).kept())


def _unchanging(study: Records) -> list[tuple[int]]:
    """The numbers of the lines after which the block was as before, without the last line."""
    last, numbers = study.count(), []
    for start, end in _spans(study.starts(), last):
        before = records.sha256(start.block)
        for stored in study.lines(start.number, end):
            if stored.block_sha256 == before and stored.number != last:
                numbers.append((stored.number,))
            before = stored.block_sha256
    return numbers
