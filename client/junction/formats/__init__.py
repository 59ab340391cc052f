"""Files of studies: one module a format, told by the suffix of a file or by its user.

A module has `read(text, path) -> Read` and `write(study) -> str`. It raises FormatError for what is no study, or for a study that its format cannot say. Where
it writes something otherwise than the study has it, its `notes(study)` say so.
"""

import importlib
import sys
from pathlib import Path
from types import ModuleType
from typing import NamedTuple

from junction import lines
from junction.errors import FormatError
from junction.formats.parts import Read, check_names
from junction.study import SCALE, Study

__all__ = ["FORMATS", "Format", "Read", "kind_of", "read", "write"]

STANDARD = "-"


class Format(NamedTuple):
    """A format: the module that reads and writes it, and which parts of a study it has a place for."""

    module: str
    trains_named: bool
    choices_named: bool
    scale_kept: bool

    def loaded(self) -> ModuleType:
        """The module, imported when it is first used."""
        return importlib.import_module(f"{__name__}.{self.module}")


FORMATS = {
    "csv": Format("csv_file", trains_named=True, choices_named=True, scale_kept=False),
    "json": Format("json_file", trains_named=True, choices_named=True, scale_kept=True),
    "wcsp": Format("wcsp", trains_named=False, choices_named=False, scale_kept=False),
    "cfn": Format("cfn", trains_named=True, choices_named=True, scale_kept=False),
    "wcnf": Format("wcnf", trains_named=False, choices_named=False, scale_kept=False),
    "line": Format("line_file", trains_named=False, choices_named=False, scale_kept=True),
}


def read(path: str, kind: str | None = None, scale: int | None = None) -> Read:
    """The study of a file, or of standard input where the path is '-'. A scale that is given takes the place of the file's."""
    found = kind_of(path, kind, "--from")
    name = "standard input" if path == STANDARD else path
    result = FORMATS[found].loaded().read(_text(path, name, found), name)
    check_names(result.study, name)
    assert isinstance(result, Read)
    return result if scale is None else Read(result.study.with_scale(scale), result.notes, result.line and lines.with_scale(result.line, scale))


def write(study: Study, path: str, kind: str | None = None, line: str | None = None) -> tuple[str, ...]:
    """Write a study to a file, or to standard output where the path is '-'. Nothing is written where it does not fit. What the format has no place for is told.
    A line that a file gave beside the study is written instead of its load."""
    found = kind_of(path, kind, "--to")
    module = FORMATS[found].loaded()
    text = line + "\n" if line and found == "line" else module.write(study)
    _put(text.encode(), path)
    otherwise: tuple[str, ...] = module.notes(study) if hasattr(module, "notes") else ()
    return _left_out(study, found) + otherwise


def kind_of(path: str, kind: str | None, option: str) -> str:
    """The kind of a file, as given, else by its suffix."""
    known = ", ".join(FORMATS)
    if kind is not None:
        found = kind.removeprefix(".").lower()
        if found not in FORMATS:
            raise FormatError(path, None, None, f"there is no format {kind!r}; there are {known}")
        return found
    if path == STANDARD:
        raise FormatError("standard input" if option == "--from" else "standard output", None, None, f"its format is given by {option}: {known}")
    suffix = Path(path).suffix
    if suffix[1:].lower() not in FORMATS:
        told = f"the suffix {suffix!r} is no format's" if suffix else "it has no suffix"
        raise FormatError(path, None, None, f"{told}; {option} gives the format: {known}")
    return suffix[1:].lower()


def _text(path: str, name: str, kind: str) -> str:
    """What a file says. A mark of the order of bytes before it is left out."""
    try:
        octets = sys.stdin.buffer.read() if path == STANDARD else Path(path).read_bytes()
    except OSError as error:
        raise FormatError(name, None, None, f"it cannot be read: {error.strerror}") from None
    try:
        return octets.decode("utf-8-sig")
    except UnicodeDecodeError as error:
        number = octets[: error.start].count(b"\n") + 1
        raise FormatError(name, number if kind == "csv" else f"line {number}", None, "it is not UTF-8 text") from None


def _put(octets: bytes, path: str) -> None:
    """Write to a file, or to standard output."""
    try:
        if path == STANDARD:
            sys.stdout.buffer.write(octets)
            sys.stdout.buffer.flush()
        else:
            Path(path).write_bytes(octets)
    except OSError as error:
        raise FormatError("standard output" if path == STANDARD else path, None, None, f"it cannot be written: {error.strerror}") from None


def _left_out(study: Study, kind: str) -> tuple[str, ...]:
    """What a format has no place for, of what the study has."""
    of = FORMATS[kind]
    notes = []
    trains = not of.trains_named and any(train.name != str(number) for number, train in enumerate(study.trains))
    choices = not of.choices_named and any(choice.name != str(number) for train in study.trains for number, choice in enumerate(train.choices))
    if trains or choices:
        notes.append(f"names of {'trains and choices' if trains and choices else 'trains' if trains else 'choices'} have no place in .{kind} and are left out")
    if not of.scale_kept and study.scale != SCALE:
        notes.append(f"the scale, {study.scale}, has no place in .{kind} and is left out")
    return tuple(notes)
