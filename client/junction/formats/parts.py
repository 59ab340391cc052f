"""What all formats share: what a file gives, the limits of a study, and the list of what is wrong in a file.

The limits are the service's (document 01). They are told here as well, so that the row of a file is named and not a refusal's number.
"""

import unicodedata
from collections.abc import Iterable
from typing import NamedTuple

from junction.errors import FormatError
from junction.study import Study

TRAINS = 24
CHOICES = 8
PAIRS = 48
COST = 1_000_000
SCALE_MOST = 1_000
CLAUSES = 500

# So many mistakes of a file are told at once.
TOLD = 20

# Unicode's categories of what stands in no name: controls, line and paragraph ends, halves of characters.
IN_NO_NAME = frozenset({"Cc", "Cs", "Zl", "Zp"})

# What a mistake is in where a study is written, since it is then no file's.
STUDY = "the study"


class Read(NamedTuple):
    """What a file gives: a study, what its user is told of it, and the line it becomes where that is not the study's load."""

    study: Study
    notes: tuple[str, ...] = ()
    line: str | None = None


class Mistakes:
    """The mistakes of one file, in its order. The twentieth ends the reading, since what comes after is seldom worth reading."""

    def __init__(self, path: str) -> None:
        self.path = path
        self._found: list[FormatError] = []

    def add(self, row: int | str | None, column: str | None, why: str) -> None:
        """Another mistake."""
        self._found.append(FormatError(self.path, row, column, why))
        if len(self._found) == TOLD:
            self.end()

    def end(self) -> None:
        """Raise what was found, if anything was."""
        if self._found:
            raise FormatError.of(self._found)


def unfit(name: str) -> str | None:
    """Why a text is no name, if it is none: so that a name can stand in every table and in every sentence."""
    if name == "":
        return "there is no name"
    if name != name.strip():
        return f"the name {name!r} has blanks before or behind it"
    if any(unicodedata.category(character) in IN_NO_NAME for character in name):
        return f"the name {name!r} has a character that is not printed"
    return None


def check_names(study: Study, path: str = STUDY) -> None:
    """Judge the names of a study that was read, or is to be written: what is written is read again."""
    mistakes = Mistakes(path)
    for why in _wrong(train.name for train in study.trains):
        mistakes.add("trains", None, why)
    for number, train in enumerate(study.trains):
        for why in _wrong(choice.name for choice in train.choices):
            mistakes.add(f"choices of train {number}", None, why)
    mistakes.end()


def _wrong(names: Iterable[str]) -> Iterable[str]:
    """What is wrong with names that stand side by side."""
    seen: set[str] = set()
    for name in names:
        why = unfit(name)
        if why is not None:
            yield why
        elif name in seen:
            yield f"the name {name!r} stands twice"
        seen.add(name)


def ordinal(number: int) -> str:
    """A number as a place in a row: 25th."""
    tens, ones = divmod(number, 10)
    ending = {1: "st", 2: "nd", 3: "rd"}.get(ones, "th") if tens % 10 != 1 else "th"
    return f"{number}{ending}"


def beyond(noun: str, most: int) -> str:
    """That the first one beyond a limit is one too many."""
    return f"this is the {ordinal(most + 1)} {noun}, and {most} are the most"
