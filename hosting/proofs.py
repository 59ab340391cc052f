"""The proofs that are kept with studies, each under the SHA-256 of the save line whose costs it is of: a study whose costs are others has none."""

import os
from contextlib import suppress
from pathlib import Path

from hosting import asked, kept, store, stored
from hosting.library import FOLDER_MODE
from hosting.store import StudyError
from junction import lines
from junction.native import Library


def keep(data: Path, save: str, content: bytes, library: Library) -> list[str]:
    """Keeps a proof in the folder of each study that has these costs now, and gives their names. A study that cannot be read has none."""
    names = []
    for study in store.present(data):
        with suppress(StudyError), stored.loaded(data, study, library) as now:
            if lines.load(asked.saved(library, now.block)) == save:
                _write_whole(kept.path(now.folder, save), content)
                names.append(study)
    return names


def _write_whole(place: Path, content: bytes) -> None:
    """Writes a file, which takes its place whole."""
    place.parent.mkdir(mode=FOLDER_MODE, exist_ok=True)
    made = place.with_name(f".{place.name}.new")
    made.write_bytes(content)
    os.replace(made, place)
