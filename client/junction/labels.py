"""The names of trains and choices, kept beside a study: lines and replies have none.

They are of the study that was imported. Where a study has other trains or choices since, by a load of somebody else, they are left out, and why is said.
"""

import os
from collections.abc import Sequence
from pathlib import Path
from typing import NamedTuple

from junction.errors import FormatError
from junction.formats.json_parts import Reading, listed
from junction.formats.parts import check_names
from junction.kinds import counted
from junction.study import Study

FILE = "labels.json"
FORMAT = "junction-labels"
VERSION = 1


class Labels(NamedTuple):
    """The names of trains, and of the choices of each."""

    trains: tuple[str, ...]
    choices: tuple[tuple[str, ...], ...]

    @staticmethod
    def of(study: Study) -> "Labels":
        """The names of a study."""
        return Labels(tuple(train.name for train in study.trains), tuple(tuple(choice.name for choice in train.choices) for train in study.trains))

    @property
    def sizes(self) -> tuple[int, ...]:
        """How many choices each train has."""
        return tuple(map(len, self.choices))

    def on(self, study: Study) -> Study:
        """A study of these sizes with these names."""
        trains = []
        for train, name, names in zip(study.trains, self.trains, self.choices, strict=True):
            choices = tuple(choice._replace(name=named) for choice, named in zip(train.choices, names, strict=True))
            trains.append(train._replace(name=name, choices=choices))
        return Study(tuple(trains), study.pairs, study.scale)


class Kept(NamedTuple):
    """The names that are kept for a study, or a word on why there are none to be used; neither where none are kept."""

    labels: Labels | None = None
    word: str | None = None


def keep(study: Study, folder: Path) -> None:
    """Keep the names of a study in its folder, in the place of those that are kept there. The file takes its place whole."""
    check_names(study)
    made = folder / f".{FILE}.new"
    made.write_text(_text(Labels.of(study)), encoding="utf-8")
    os.replace(made, folder / FILE)


def kept(folder: Path, sizes: Sequence[int]) -> Kept:
    """The names that are kept in a folder, for a study whose trains have so many choices."""
    try:
        labels = _read(folder / FILE)
    except FileNotFoundError:
        return Kept()
    except OSError as error:
        return Kept(word=f"the names are left out: {FILE} cannot be read: {error.strerror}")
    except FormatError as error:
        return Kept(word=f"the names are left out: {error}")
    why = _why_not(labels, sizes)
    return Kept(labels) if why is None else Kept(word=f"the names are left out: {why}")


def named(study: Study, folder: Path) -> tuple[Study, str | None]:
    """A study with the names that are kept in its folder, or as it is, and a word where they are left out."""
    found = kept(folder, study.sizes)
    return study if found.labels is None else found.labels.on(study), found.word


def _why_not(labels: Labels, sizes: Sequence[int]) -> str | None:
    """Why names are not those of a study."""
    if len(labels.sizes) != len(sizes):
        return f"the study has {counted(len(sizes), 'train')} now, and they are of {len(labels.sizes)}"
    for number, (name, size, now) in enumerate(zip(labels.trains, labels.sizes, sizes, strict=True)):
        if size != now:
            return f"train {number} has {counted(now, 'choice')} now, and they are of {size} for {name}"
    return None


def _text(labels: Labels) -> str:
    trains = [{"name": name, "choices": choices} for name, choices in zip(labels.trains, labels.choices, strict=True)]
    return f'{{\n  "format": "{FORMAT}",\n  "version": {VERSION},\n  "trains": {listed(trains)}\n}}\n'


def _read(path: Path) -> Labels:
    """The names of a file."""
    reading = Reading(FILE)
    try:
        text = path.read_text(encoding="utf-8")
    except UnicodeDecodeError:
        raise FormatError(FILE, None, None, "it is not UTF-8 text") from None
    whole = reading.whole(text, FORMAT, VERSION, ("trains",))
    trains, choices = [], []
    seen: dict[str, str] = {}
    for number, item in enumerate(reading.items(whole.get("trains", []), "trains")):
        path_of = f"trains[{number}]"
        train = reading.keys(item, path_of, ("name", "choices"))
        if train is not None:
            trains.append(reading.name(train["name"], f"{path_of}.name", seen))
            choices.append(_names(reading, train["choices"], f"{path_of}.choices"))
    reading.mistakes.end()
    return Labels(tuple(trains), tuple(choices))


def _names(reading: Reading, value: object, path: str) -> tuple[str, ...]:
    seen: dict[str, str] = {}
    return tuple(reading.name(name, f"{path}[{number}]", seen) for number, name in enumerate(reading.items(value, path)))
