"""What follows from the lines of a study, read on from where it was read to: each line is read once, however long a page is watched.

The first view reads the lines since the last load, from the newest back, and at least the newest ones that a page shows. Where a study is removed and added
anew, or has fewer lines than were read, it is begun anew; a new load takes away what was found before it.
"""

import sqlite3
import threading
from collections import deque
from collections.abc import Iterable, Iterator
from contextlib import contextmanager, suppress
from pathlib import Path
from typing import Any, NamedTuple

from hosting import asked, checks, records, store
from hosting.page import reading
from hosting.page.findings import Event, Findings, Plan, event
from hosting.page.reading import Changed
from hosting.records import Damaged, Records, Stored
from hosting.store import StudyError, Unusable
from junction.block import SCALE, SIZES, TRAINS
from junction.native import Library

RECENT = 20
# How often a reading is begun anew where a study changes under it.
TIMES = 5


class Identity(NamedTuple):
    """By what a study that was removed and added anew is told from the one before."""

    folder: int
    database: int


class Seen(NamedTuple):
    """A study as it was at one moment, for its facts."""

    name: str
    folder: Path
    library: Library
    block: bytes
    findings: Findings
    recent: tuple[Stored, ...]
    # What was found out of it, by what that depends on beside its lines. A new line empties it.
    memory: dict[Any, Any]

    @property
    def loaded(self) -> bool:
        """Whether a study is loaded."""
        return asked.numbers(self.block)[TRAINS] > 0


class Following:
    """One study, followed. One thread at a time reads it."""

    def __init__(self, name: str, folder: Path, library: Library, identity: Identity) -> None:
        self.identity = identity
        self.findings = Findings()
        self.rows_read = 0
        self.lock = threading.Lock()
        self._name, self._folder, self._library = name, folder, library
        self._recent: deque[Stored] = deque(maxlen=RECENT)
        self._block = library.fresh()
        self._memory: dict[Any, Any] = {}
        self._begun = False

    @property
    def last(self) -> int:
        """The number of the last line that was read."""
        return self._recent[-1].number if self._recent else 0

    def seen(self) -> Seen:
        """The study as it was read last."""
        return Seen(self._name, self._folder, self._library, self._block, self.findings, tuple(reversed(self._recent)), self._memory)

    def read_on(self, connection: sqlite3.Connection) -> bool:
        """Reads the lines behind the last one that was read. Says whether they go on from there: else the study is to be begun anew."""
        with records.transaction(connection, "BEGIN"):
            end = reading.last_number(connection)
            if end < self.last:
                return False
            if self._begun and end == self.last:
                return True
            self._read(connection, Records(connection).block())
        self._begun = True
        return True

    def _read(self, connection: sqlite3.Connection, block: bytes | None) -> None:
        carried = self._library.fresh() if block is None else checks.carried(block, self._library.header)
        numbers = asked.numbers(carried)
        sizes, scale = numbers[SIZES:SIZES + numbers[TRAINS]], numbers[SCALE]
        if self._recent:
            for stored in self._counted(reading.newer(connection, self.last)):
                self._take(event(stored, sizes, scale))
                self._recent.append(stored)
        else:
            self._read_back(connection, sizes, scale)
        if self._recent and (block is None or records.sha256(block) != self._recent[-1].block_sha256):
            raise Damaged(f"the stored block is not the one after line {self.last}")
        self._block = carried
        self._memory.clear()

    def _read_back(self, connection: sqlite3.Connection, sizes: Plan, scale: int) -> None:
        """Reads from the newest line back to the load, and at least the lines that are shown. Of the others only what they did is held."""
        newest: list[Stored] = []
        events: list[Event] = []
        loaded = False
        for stored in self._counted(reading.newest_first(connection)):
            if len(newest) < RECENT:
                newest.append(stored)
            if not loaded:
                events.append(event(stored, sizes, scale))
                loaded = events[-1].loaded
            if loaded and len(newest) == RECENT:
                break
        for happened in reversed(events):
            self._take(happened)
        self._recent.extend(reversed(newest))

    def _take(self, event: Event) -> None:
        if event.loaded:
            self.findings = Findings(load=event.number)
        self.findings.take(event)

    def _counted(self, rows: Iterable[Stored]) -> Iterator[Stored]:
        for row in rows:
            self.rows_read += 1
            yield row


class Studies:
    """The studies of a data folder, each followed from when it was asked for."""

    def __init__(self, data: Path, library: Library) -> None:
        self.data = data
        self.library = library
        self._followed: dict[str, Following] = {}
        self._lock = threading.Lock()

    def names(self) -> list[str]:
        """The names of all studies, in order."""
        return list(store.present(self.data))

    def last_line(self, name: str) -> int:
        """The number of a study's last line, 0 before the first. Raises StudyError where there is no such study, or where it cannot be read."""
        self._identity(name)
        for _ in range(TIMES):
            with suppress(Changed):
                return reading.read(store.database(self.data, name), name, reading.last_number)
        raise _changing(name)

    @contextmanager
    def look(self, name: str) -> Iterator[Seen]:
        """A study as it is now; nothing of it is read on meanwhile. Raises StudyError where there is no such study, Unusable where it cannot be read."""
        for _ in range(TIMES):
            following = self._following(name)
            with following.lock:
                if self._read_on(name, following):
                    yield following.seen()
                    return
        raise _changing(name)

    def _read_on(self, name: str, following: Following) -> bool:
        """Reads a study on. Says whether that led somewhere: else what was read of it is let go."""
        try:
            goes_on = reading.read(store.database(self.data, name), name, following.read_on)
        except Changed:
            goes_on = False
        except BaseException:
            self._leave(name, following)
            raise
        if not goes_on:
            self._leave(name, following)
        return goes_on

    def rows_read(self, name: str) -> int:
        """How many stored lines were read of a study so far."""
        return self._following(name).rows_read

    def _following(self, name: str) -> Following:
        identity = self._identity(name)
        with self._lock:
            following = self._followed.get(name)
            if following is None or following.identity != identity:
                following = Following(name, store.database(self.data, name).parent, self.library, identity)
                self._followed[name] = following
            return following

    def _leave(self, name: str, following: Following) -> None:
        """Lets go of what was read of a study, so that it is begun anew."""
        with self._lock:
            if self._followed.get(name) is following:
                del self._followed[name]

    def _identity(self, name: str) -> Identity:
        folder = store.present(self.data).get(name)
        if folder is None:
            with self._lock:
                self._followed.pop(name, None)
            raise StudyError(f"there is no study {name}")
        try:
            return Identity(folder, store.database(self.data, name).stat().st_ino)
        except OSError as error:
            raise Unusable(f"study {name} cannot be used: {error.strerror}") from error


def _changing(name: str) -> Unusable:
    return Unusable(f"study {name} was changed while it was read, {TIMES} times")
