"""CSV: a row for each choice of a train, and one for each entry of two trains' costs together. Spreadsheets write and read it.

The header is `train,choice,with_train,with_choice,cost`, with `;` for `,` too. A row without `with_train` and `with_choice` is what a choice costs, a row with
both is what two choices cost together, in whichever order the trains stand. A pair is there as soon as a row names it, and its entries that no row gives are 0.
Trains and choices are numbered in the order of the first row that names them. Rows are counted as a spreadsheet counts them: the header is row 1, and a field
in quotes may go over several lines. Rows without any field are left out, and so are blanks around a field.
"""

import csv
import io
import re
from collections.abc import Iterable, Iterator
from typing import NamedTuple

from junction.errors import FormatError
from junction.formats.parts import CHOICES, COST, PAIRS, TRAINS, Mistakes, Read, beyond, check_names, unfit
from junction.kinds import counted
from junction.study import Choice, Cost, Pair, Study, Train

HEADER = ("train", "choice", "with_train", "with_choice", "cost")
FORBIDDEN = "forbidden"
NUMBER = re.compile(r"[0-9]+")
LINE_END = re.compile(r"[\r\n]")
SHOWN = 80

Entry = tuple[int, int]
Named = tuple[str, ...]


class _Row(NamedTuple):
    """A row of the file, by its number."""

    number: int
    fields: tuple[str, ...]

    @property
    def first(self) -> tuple[str, ...]:
        """The train and the choice that the row begins with."""
        return self.fields[:2]

    @property
    def second(self) -> tuple[str, ...]:
        """The train and the choice that they are with."""
        return self.fields[2:4]

    @property
    def of_a_pair(self) -> bool:
        """Whether the row is an entry of a pair."""
        return any(self.second)


def read(text: str, path: str) -> Read:
    """The study of a file."""
    mistakes = Mistakes(path)
    rows = list(_rows(text, mistakes))
    reading = _Reading({row.first for row in rows if not row.of_a_pair}, mistakes)
    for row in rows:
        reading.take(row)
    mistakes.end()
    if not reading.choices:
        raise FormatError(path, None, None, "there is no train in it")
    return Read(reading.study())


def write(study: Study) -> str:
    """A study as a file: the choices of each train, then the entries of each pair that are not 0, or its first one where all are."""
    check_names(study)
    written = io.StringIO()
    writer = csv.writer(written, lineterminator="\n")
    writer.writerow(HEADER)
    for train in study.trains:
        writer.writerows((train.name, choice.name, "", "", _said(choice.cost)) for choice in train.choices)
    for pair in study.pairs:
        writer.writerows(_entries(study, pair))
    return written.getvalue()


def _entries(study: Study, pair: Pair) -> Iterator[tuple[str, ...]]:
    """The rows of a pair."""
    first, second = study.trains[pair.first], study.trains[pair.second]
    empty = all(cost == 0 for row in pair.costs for cost in row)
    for choice, row in zip(first.choices, pair.costs, strict=True):
        for other, cost in zip(second.choices, row, strict=True):
            if cost != 0 or empty:
                yield first.name, choice.name, second.name, other.name, _said(cost)
                empty = False


def _said(cost: Cost) -> str:
    return FORBIDDEN if cost is None else str(cost)


def _rows(text: str, mistakes: Mistakes) -> Iterator[_Row]:
    """The rows behind the header that have any field. Of a file whose quotes are wrong nothing else is told: the rows behind them are not known."""
    delimiter = ";" if ";" in LINE_END.split(text, maxsplit=1)[0] else ","
    reader = csv.reader(io.StringIO(text, newline=""), delimiter=delimiter, strict=True)
    number = 0
    try:
        for number, fields in enumerate(reader, 1):
            row = _Row(number, tuple(field.strip() for field in fields))
            if number == 1:
                _check_header(row, mistakes)
            elif any(row.fields):
                yield row
    except csv.Error as error:
        long = "a field is too long" if "limit" in str(error) else "the quotes of a field are not closed, or something stands behind them"
        mistakes.add(number + 1, None, long)
        mistakes.end()
    if number == 0:
        _check_header(_Row(1, ()), mistakes)


def _check_header(row: _Row, mistakes: Mistakes) -> None:
    """A file with another header is not read any further."""
    if row.fields != HEADER:
        shown = ",".join(row.fields)[:SHOWN]
        mistakes.add(row.number, None, f"the header is {','.join(HEADER)}, and {f'not {shown!r}' if shown else 'it is missing'}")
        mistakes.end()


class _Reading:
    """What the rows up to now have given. `known` are the choices that have a row of their own, wherever it stands."""

    def __init__(self, known: Iterable[Named], mistakes: Mistakes) -> None:
        self.choices: list[dict[str, int]] = []
        self._known = set(known)
        self._trains_known = {named[0] for named in self._known}
        self._mistakes = mistakes
        self._trains: dict[str, int] = {}
        self._costs: dict[Entry, Cost] = {}
        self._pairs: dict[Entry, dict[Entry, Cost]] = {}
        self._rows: dict[tuple[Entry, ...], int] = {}
        self._beyond: set[str] = set()

    def take(self, row: _Row) -> None:
        """Take a row."""
        if len(row.fields) != len(HEADER):
            self._mistakes.add(row.number, None, f"it has {counted(len(row.fields), 'field')}, and not {len(HEADER)}")
            return
        named = self._are_names(row)
        entry = self._entry(row) if named else None
        cost = self._cost(row)
        if entry is not None and self._once(row, entry):
            if len(entry) == 1:
                self._costs[entry[0]] = cost
            else:
                self._take_entry(row, entry, cost)

    def study(self) -> Study:
        """The study of all rows."""
        trains = []
        for name, train in self._trains.items():
            trains.append(Train(name, tuple(Choice(choice, self._costs[train, number]) for choice, number in self.choices[train].items())))
        return Study(tuple(trains), tuple(self._pair(*pair) for pair in sorted(self._pairs)))

    def _pair(self, first: int, second: int) -> Pair:
        entries = self._pairs[first, second]
        rows, columns = range(len(self.choices[first])), range(len(self.choices[second]))
        return Pair(first, second, tuple(tuple(entries.get((a, b), 0) for b in columns) for a in rows))

    def _are_names(self, row: _Row) -> bool:
        """Whether the names of a row are names; a pair's row has all four."""
        right = True
        for column, name in zip(HEADER, row.fields[:4 if row.of_a_pair else 2], strict=False):
            why = unfit(name)
            if why is not None:
                self._mistakes.add(row.number, column, why)
                right = False
        return right

    def _cost(self, row: _Row) -> Cost:
        """The cost of a row."""
        text = row.fields[4]
        if text == FORBIDDEN:
            return None
        digits = text.lstrip("0") or "0"
        if not NUMBER.fullmatch(text) or len(digits) > len(str(COST)) or int(digits) > COST:
            self._mistakes.add(row.number, "cost", f"{text!r} is no cost: costs are from 0 to {COST}, or {FORBIDDEN}")
            return 0
        return int(digits)

    def _entry(self, row: _Row) -> tuple[Entry, ...] | None:
        """What a row gives the cost of: a choice, or two with the lower train first. None where it cannot be given."""
        first = self._number(row, row.first, "train", "choice")
        if not row.of_a_pair:
            return None if first is None else (first,)
        if row.fields[0] == row.fields[2]:
            self._mistakes.add(row.number, "with_train", f"train {row.fields[0]} makes no pair with itself")
            return None
        second = self._number(row, row.second, "with_train", "with_choice")
        return None if first is None or second is None else (min(first, second), max(first, second))

    def _number(self, row: _Row, named: Named, train_column: str, choice_column: str) -> Entry | None:
        """The numbers of a train and of its choice; they are given where the row is the first to name them."""
        train, choice = named
        if train not in self._trains_known:
            self._mistakes.add(row.number, train_column, f"there is no train {train!r}")
            return None
        if named not in self._known:
            self._mistakes.add(row.number, choice_column, f"train {train} has no choice {choice!r}")
            return None
        if train not in self._trains and len(self._trains) == TRAINS:
            self._too_many(row, train_column, "train", TRAINS)
            return None
        number = self._trains.setdefault(train, len(self._trains))
        if number == len(self.choices):
            self.choices.append({})
        choices = self.choices[number]
        if choice not in choices and len(choices) == CHOICES:
            self._too_many(row, choice_column, f"choice of train {train}", CHOICES)
            return None
        return number, choices.setdefault(choice, len(choices))

    def _take_entry(self, row: _Row, entry: tuple[Entry, ...], cost: Cost) -> None:
        (i, a), (j, b) = entry
        if (i, j) not in self._pairs and len(self._pairs) == PAIRS:
            self._too_many(row, "with_train", "pair", PAIRS)
        else:
            self._pairs.setdefault((i, j), {})[a, b] = cost

    def _too_many(self, row: _Row, column: str, noun: str, most: int) -> None:
        """Only the first row beyond a limit is told."""
        if noun not in self._beyond:
            self._beyond.add(noun)
            self._mistakes.add(row.number, column, beyond(noun, most))

    def _once(self, row: _Row, entry: tuple[Entry, ...]) -> bool:
        """Whether no row before gives the same cost."""
        before = self._rows.setdefault(entry, row.number)
        if before != row.number:
            self._mistakes.add(row.number, None, f"this cost is given in row {before} too")
        return before == row.number
