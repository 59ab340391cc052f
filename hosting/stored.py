"""A study as it is stored now, for commands that show it, also while it is served."""

from collections.abc import Iterator
from contextlib import contextmanager
from pathlib import Path
from typing import NamedTuple

from hosting import asked, checks, found, kept, names, records, store, words
from hosting.found import Found
from hosting.kept import Kept
from hosting.names import Named, Since
from hosting.records import Records
from hosting.store import StudyError
from junction import kinds, lines
from junction.block import TRAINS
from junction.native import Library


class Now(NamedTuple):
    """A study's records, all of one moment, and the block after its last line."""

    records: Records
    library: Library
    block: bytes
    folder: Path

    @property
    def loaded(self) -> bool:
        """Whether a study is loaded."""
        return asked.numbers(self.block)[TRAINS] > 0

    def found(self) -> Found:
        """What the lines since the load have found."""
        return found.since_load(words.answers(self.library.header, self.records.newest_first()))

    def proof(self) -> Kept | None:
        """What the proof says that is kept of the costs of now."""
        return kept.proof(self.folder, lines.load(asked.saved(self.library, self.block))) if self.loaded else None

    def named(self) -> Named:
        """The names that are kept for the study."""
        return names.kept(asked.saved(self.library, self.block), self.folder) if self.loaded else names.UNNAMED

    def names_by_line(self) -> Since:
        """The names, for the lines since the load."""
        study, left_out = self.named()
        if study is None:
            return Since(None, 0, left_out)
        loads = (number for number, answer in words.answers(self.library.header, self.records.newest_first()) if answer["kind"] in kinds.LOADED)
        return Since(study, next(loads, 1))


@contextmanager
def now(data: Path, name: str, library: Library) -> Iterator[Now]:
    """A study as it is now. What is read within is of one moment, whatever is answered meanwhile."""
    with store.open_records(data, name) as connection, records.transaction(connection, "BEGIN"):
        study = Records(connection)
        block = checks.logged_block(study)
        block = library.fresh() if block is None else checks.carried(block, library.header)
        yield Now(study, library, block, store.database(data, name).parent)


def names_by_line(data: Path, name: str, library: Library) -> Since:
    """The names of a study, for the lines since the load."""
    with now(data, name, library) as study:
        return study.names_by_line()



@contextmanager
def loaded(data: Path, name: str, library: Library) -> Iterator[Now]:
    """The same, of a study that is loaded."""
    with now(data, name, library) as study:
        if not study.loaded:
            raise StudyError(f"study {name}: nothing is loaded")
        yield study
