"""Weighted constraint networks (.wcsp): words between blanks, which number trains, choices and costs.

A header (a name, the trains, the most choices of a train, the functions, the top), the trains' choices, then the functions: how many trains, which, the cost by
default, how many choices have another cost, and these. A function of no train is a constant. Where several functions have their costs in common, the first
begins with a count below 0, and the others give its number, below 0 too, in place of their costs.
"""

import re
from fractions import Fraction
from typing import NamedTuple

from junction.formats.parts import CHOICES, TRAINS, Read
from junction.formats.sums import TOGETHER, Choices, Faults, Function, Names, Place, Sums, Term, Wrong, greatest
from junction.kinds import counted
from junction.study import Cost, Study

NAME = "junction"
NUMBER = re.compile(r"-?[0-9]+")
# More digits than any number of such a file has.
LONGEST_NUMBER = 30
# The cost by default of a function that is given by a name.
NAMED = -1


class Word(NamedTuple):
    """A word, and where it stands."""

    text: str
    place: Place


class Number(NamedTuple):
    """A number, and where it stands."""

    value: int
    place: Place


class Words:
    """The words of a file, from left to right."""

    def __init__(self, text: str) -> None:
        self._words = [Word(word, Place(line, at)) for line, row in enumerate(text.split("\n"), 1) for at, word in enumerate(row.split(), 1)]
        self._at = 0

    def left(self) -> Word | None:
        """The next word, if there is one; it stays the next."""
        return self._words[self._at] if self._at < len(self._words) else None

    def take(self, what: str) -> Word:
        """The next word."""
        word = self.left()
        if word is None:
            last = self._words[-1].place if self._words else Place(1, 1)
            raise Wrong(last, f"the file ends here, before {what}")
        self._at += 1
        return word

    def number(self, what: str) -> Number:
        """The next word, which is a whole number."""
        word = self.take(what)
        if not NUMBER.fullmatch(word.text) or len(word.text) > LONGEST_NUMBER:
            raise Wrong(word.place, f"{what} is a whole number, not {word.text[:LONGEST_NUMBER]!r}")
        return Number(int(word.text), word.place)

    def count(self, what: str) -> Number:
        """The next word, which is a whole number from 0."""
        number = self.number(what)
        if number.value < 0:
            raise Wrong(number.place, f"{what} is {number.value}, and not below 0")
        return number


class Header(NamedTuple):
    """What a header says."""

    sizes: list[int]
    functions: Number
    top: int


def read(text: str, path: str) -> Read:
    """The study of a file. Trains and choices have their numbers as names."""
    faults = Faults(path)
    words = Words(text)
    try:
        header = _header(words, faults)
    except Wrong as wrong:
        # Which trains there are is not known: the functions cannot be judged.
        faults.add(wrong.place, wrong.why)
        faults.end()
        raise
    faults.end()
    sums = Sums([Names(str(number), [str(choice) for choice in range(size)]) for number, size in enumerate(header.sizes)], faults)
    try:
        Functions(words, header, sums).read()
    except Wrong as wrong:
        faults.add(wrong.place, wrong.why)
    study, _, reaches_top = sums.study(Fraction(header.top))
    notes = [f"{path}: plans that cost {header.top}, the top, or more are none there; this is not kept"] if reaches_top else []
    return Read(study, tuple(notes))


def write(study: Study) -> str:
    """A file whose top is above the cost of every plan."""
    top = greatest(study) + 1
    functions = [_function((number,), {(at,): choice.cost for at, choice in enumerate(train.choices)}, top) for number, train in enumerate(study.trains)]
    functions = [rows for rows in functions if len(rows) > 1]
    for pair in study.pairs:
        functions.append(_function((pair.first, pair.second), {(a, c): cost for a, row in enumerate(pair.costs) for c, cost in enumerate(row)}, top))
    header = f"{NAME} {len(study.trains)} {max(study.sizes, default=0)} {len(functions)} {top}"
    return "\n".join([header, " ".join(map(str, study.sizes)), *(row for rows in functions for row in rows)]) + "\n"


def _function(scope: tuple[int, ...], costs: dict[Choices, Cost], top: int) -> list[str]:
    """The rows of a function: what it is of, then its costs other than 0."""
    told = [(choices, top if cost is None else cost) for choices, cost in costs.items() if cost != 0]
    rows = [" ".join(map(str, [*choices, cost])) for choices, cost in told]
    return [" ".join(map(str, [len(scope), *scope, 0, len(rows)])), *rows]


def _header(words: Words, faults: Faults) -> Header:
    words.take("the name")
    trains = words.count("the number of trains")
    words.count("the most choices of a train")
    functions = words.count("the number of functions")
    top = words.count("the top")
    if trains.value == 0:
        faults.add(trains.place, "there is no train, and a study has at least one")
    if trains.value > TRAINS:
        raise Wrong(trains.place, f"{trains.value} trains, and {TRAINS} are the most")
    if top.value == 0:
        faults.add(top.place, "a top of 0 forbids every cost")
    sizes = [words.number(f"the number of choices of train {train}") for train in range(trains.value)]
    for train, size in enumerate(sizes):
        if size.value < 0:
            faults.add(size.place, f"train {train} has an interval of choices, by a number below 0; its choices have to be given by their number")
        elif not 1 <= size.value <= CHOICES:
            faults.add(size.place, f"train {train} has {counted(size.value, 'choice')}, and 1 to {CHOICES} can be")
    return Header([size.value for size in sizes], functions, top.value)


class Functions:
    """The functions of a file, read one after the other."""

    def __init__(self, words: Words, header: Header, sums: Sums) -> None:
        self._words, self._header, self._sums, self._faults = words, header, sums, sums.faults
        self._shared: list[tuple[list[int], dict[Choices, Term]]] = []

    def read(self) -> None:
        """All of them, and that nothing stands behind them."""
        for at in range(self._header.functions.value):
            self._function(f"function {at + 1} of {self._header.functions.value}")
        left = self._words.left()
        if left is not None:
            self._faults.add(left.place, f"the header says {counted(self._header.functions.value, 'function')}, and more stands behind")

    def _function(self, what: str) -> None:
        words = self._words
        count = words.number(what)
        trains = [self._in_range(words.count("the number of a train"), len(self._header.sizes), "train") for _ in range(abs(count.value))]
        default = words.number("the cost by default")
        if default.value == NAMED:
            raise Wrong(default.place, f"the function {words.take('the name of a function').text!r} is named; costs have to be given by choices, one by one")
        given = self._given(count, trains)
        if len(trains) > TOGETHER:
            self._faults.add(count.place, f"a function of {len(trains)} trains; costs are of one train or of two")
        elif len(set(trains)) < len(trains):
            self._faults.add(count.place, f"a function of train {trains[0]} twice")
        elif None not in trains and given is not None:
            scope = tuple(train for train in trains if train is not None)
            self._sums.add(Function(scope, given, self._cost(default)), count.place)
            if count.value < 0:
                self._shared.append(([self._header.sizes[train] for train in scope], given))

    def _given(self, of: Number, trains: list[int | None]) -> dict[Choices, Term] | None:
        """The costs that are given by choices; nothing where they cannot be used."""
        count = self._words.number("the number of costs")
        if count.value < 0:
            return self._given_before(count, trains)
        if count.value > 0 and not trains:
            raise Wrong(count.place, "a constant is the cost by default, and has no costs by choices")
        given: dict[Choices, Term] = {}
        usable = len(trains) <= TOGETHER
        for _ in range(count.value):
            places = [self._choice(train) for train in trains]
            cost = self._cost(self._words.number("a cost"))
            choices = tuple(choice.value for choice in places)
            if usable and choices in given:
                self._faults.add(places[0].place, f"the cost of choices {' '.join(map(str, choices))} is given twice in this function")
            given[choices] = cost
        return given if usable else None

    def _given_before(self, number: Number, trains: list[int | None]) -> dict[Choices, Term] | None:
        """The costs of an earlier function, which this one has in common with it."""
        at = -number.value - 1
        if at >= len(self._shared):
            self._faults.add(number.place, f"there is no function number {-number.value} before this one whose costs it could have")
            return None
        sizes, given = self._shared[at]
        if sizes != [None if train is None else self._header.sizes[train] for train in trains]:
            self._faults.add(number.place, f"function number {-number.value}, whose costs this one has, is of trains with other numbers of choices")
            return None
        return given

    def _choice(self, train: int | None) -> Number:
        choice = self._words.count("the number of a choice")
        if train is not None:
            self._in_range(choice, self._header.sizes[train], f"choice of train {train}", f"train {train} has no choice {choice.value}")
        return choice

    def _cost(self, cost: Number) -> Term:
        if cost.value < 0:
            self._faults.add(cost.place, f"a cost of {cost.value}, and no cost is below 0")
        return Term(Fraction(max(cost.value, 0)), cost.place)

    def _in_range(self, number: Number, count: int, noun: str, why: str = "") -> int | None:
        if number.value < count:
            return number.value
        self._faults.add(number.place, why or f"there is no {noun} {number.value}")
        return None
