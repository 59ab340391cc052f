"""A proof that no plan of a study costs less than one that is given, or that it has none: for each part the lines that settle it, with their replies.

It is a file of JSON lines. The first has the save line of the study; then stands a line for each settled part, and one for each part that is still open; the
last has the best plan and its cost in points, both null where none is known.

    {"save": LINE}
    {"part": [[0, 2], ..], "trains": [..], "choices": [[..], ..], "lines": [..], "replies": [..]}
    {"open": [[0, 2], ..]}
    {"plan": [..], "cost": N}

A file without that last line is cut. Reading a file says whether it has this form, and nothing of whether it proves what it claims.
"""

import json
import os
from collections.abc import Iterator, Sequence
from dataclasses import dataclass
from pathlib import Path
from typing import Any

from junction.errors import FormatError
from junction.formats.json_parts import said

# The plans of a part are those in which each train takes one of these choices: for each train of the study their numbers, ascending.
Part = tuple[tuple[int, ...], ...]


@dataclass(frozen=True)
class SettledPart:
    """A part, and lines from a fresh block on, with their replies, that settle it.

    The lines have other numbers than the study: train k of them is train trains[k] of the study, and choice c of the study's train t there is choice
    choices[t][c] of it here.
    """

    part: Part
    trains: tuple[int, ...]
    choices: tuple[tuple[int, ...], ...]
    lines: tuple[str, ...]
    replies: tuple[str, ...]


@dataclass(frozen=True)
class Proof:
    """The save line of a study, its parts, and the best plan known with its cost in points. It is whole where no part is open."""

    save: str
    settled: tuple[SettledPart, ...]
    open: tuple[Part, ...]
    plan: tuple[int, ...] | None
    cost: int | None

    def write(self, path: Path) -> None:
        """Writes the file, which takes its place whole."""
        made = path.with_name(f".{path.name}.new")
        made.write_text("".join(f"{json.dumps(row)}\n" for row in self._rows()), encoding="ascii")
        os.replace(made, path)

    def _rows(self) -> Iterator[dict[str, Any]]:
        yield {"save": self.save}
        for settled in self.settled:
            yield {
                "part": settled.part, "trains": settled.trains, "choices": settled.choices, "lines": settled.lines, "replies": settled.replies,
            }
        for part in self.open:
            yield {"open": part}
        yield {"plan": self.plan, "cost": self.cost}


def read(path: Path) -> Proof:
    """The proof of a file. A file that is none is a FormatError, which names its row."""
    reading = _Reading(str(path))
    try:
        text = path.read_text(encoding="ascii")
    except UnicodeDecodeError:
        raise FormatError(str(path), None, None, "it is no proof: it is not ASCII text") from None
    for line in text.splitlines():
        reading.take(line)
    return reading.proof()


class _Reading:
    """The rows of a file so far."""

    def __init__(self, path: str) -> None:
        self._path, self._row = path, 0
        self._save: str | None = None
        self._settled: list[SettledPart] = []
        self._open: list[Part] = []
        self._end: tuple[tuple[int, ...] | None, int | None] | None = None

    def take(self, line: str) -> None:
        """Takes the next row."""
        self._row += 1
        row = self._object(line)
        if (self._save is None) != (row.keys() == {"save"}):
            raise self._wrong("the first row, and no other, has the save line of the study")
        if self._end is not None:
            raise self._wrong("a row stands behind the one of plan and cost")
        match sorted(row):
            case ["save"]:
                self._save = self._text(row["save"])
            case ["choices", "lines", "part", "replies", "trains"]:
                self._settled.append(self._part(row))
            case ["open"]:
                self._open.append(self._lists(row["open"]))
            case ["cost", "plan"]:
                self._end = self._plan(row["plan"], row["cost"])
            case _:
                raise self._wrong("its keys are those of no row of a proof")

    def proof(self) -> Proof:
        """The whole, of all rows."""
        if self._save is None or self._end is None:
            raise FormatError(self._path, None, None, "the proof is cut: its last row, of plan and cost, is missing")
        return Proof(self._save, tuple(self._settled), tuple(self._open), *self._end)

    def _object(self, line: str) -> dict[str, Any]:
        try:
            row = json.loads(line)
        except (ValueError, RecursionError):
            raise self._wrong("it is no JSON") from None
        if not isinstance(row, dict):
            raise self._wrong("it is no object of keys and values")
        return row

    def _part(self, row: dict[str, Any]) -> SettledPart:
        lines, replies = (tuple(map(self._text, self._items(row[key]))) for key in ("lines", "replies"))
        if not lines or len(lines) != len(replies):
            raise self._wrong("a part has lines, and a reply to each")
        return SettledPart(self._lists(row["part"]), self._numbers(row["trains"]), self._lists(row["choices"]), lines, replies)

    def _plan(self, plan: Any, cost: Any) -> tuple[tuple[int, ...] | None, int | None]:
        if plan is None and cost is None:
            return None, None
        return self._numbers(plan), self._number(cost)

    def _lists(self, value: Any) -> tuple[tuple[int, ...], ...]:
        return tuple(map(self._numbers, self._items(value)))

    def _numbers(self, value: Any) -> tuple[int, ...]:
        return tuple(map(self._number, self._items(value)))

    def _number(self, value: Any) -> int:
        if type(value) is not int or value < 0:
            raise self._wrong(f"{said(value)} is no whole number from 0")
        return value

    def _items(self, value: Any) -> Sequence[Any]:
        if not isinstance(value, list):
            raise self._wrong(f"{said(value)} is no list")
        return value

    def _text(self, value: Any) -> str:
        if not isinstance(value, str):
            raise self._wrong(f"{said(value)} is no line or reply")
        return value

    def _wrong(self, why: str) -> FormatError:
        return FormatError(self._path, self._row, None, why)
