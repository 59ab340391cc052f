"""What .wcsp and .cfn have in common: costs given by functions of no, one or two trains, which are added up to a study, and mistakes told by line and word.

A cost from which the file takes no plan, the top, is forbidden: a choice or two choices whose cost comes to the top together with the constant. Every plan
with them costs the top or more, so that it is none in the file either. toulbar2 takes what every plan pays out of the tables into the constant before it writes
a file, and what was forbidden is then below the top by so much. Plans that only come to the top by several costs are none in the file, but plans in the study;
this is said.
"""

import itertools
from collections.abc import Iterable, Mapping, Sequence
from dataclasses import dataclass, field
from fractions import Fraction
from typing import NamedTuple

from junction.formats.parts import COST, PAIRS, Mistakes, beyond
from junction.study import Choice, Cost, Pair, Study, Train

# The most trains of a function.
TOGETHER = 2

Choices = tuple[int, ...]


class Place(NamedTuple):
    """Where something stands in a file: its line, and which word of the line it is, both counted from 1."""

    line: int
    word: int

    def __str__(self) -> str:
        return f"line {self.line}, word {self.word}"


class Wrong(Exception):
    """What stands at a place is not as it should be, and nothing can be read behind it."""

    def __init__(self, place: Place, why: str) -> None:
        super().__init__(why)
        self.place, self.why = place, why


class Faults:
    """The mistakes of a file, by their places: of several at the same place the first is told."""

    def __init__(self, path: str) -> None:
        self._path = path
        self._found: dict[Place, str] = {}

    def add(self, place: Place, why: str) -> None:
        """Another mistake."""
        self._found.setdefault(place, why)

    def end(self) -> None:
        """Raise what was found, if anything was, in the order of the file."""
        mistakes = Mistakes(self._path)
        for place, why in sorted(self._found.items()):
            mistakes.add(str(place), None, why)
        mistakes.end()


class Term(NamedTuple):
    """A cost as a file gives it, and where."""

    amount: Fraction
    place: Place


class Names(NamedTuple):
    """How a train and its choices are called."""

    train: str
    choices: Sequence[str]


@dataclass(frozen=True)
class Function:
    """What some trains cost together: the costs that are given by their choices, and the cost of all other choices."""

    scope: tuple[int, ...]
    given: Mapping[Choices, Term]
    default: Term | None


class Added(NamedTuple):
    """A study as it comes out of the sums, by what its costs were multiplied, and whether some plans reach the top."""

    study: Study
    factor: int
    reaches_top: bool


@dataclass
class Sums:
    """The functions of a file. Several of the same trains add up, and the constants are the function of no train."""

    names: Sequence[Names]
    faults: Faults
    _tables: dict[tuple[int, ...], dict[Choices, list[Term]]] = field(default_factory=dict)
    _pairs: int = 0

    def add(self, function: Function, place: Place) -> None:
        """Another function, with the place at which it begins."""
        order = sorted(range(len(function.scope)), key=lambda at: function.scope[at])
        scope = tuple(function.scope[at] for at in order)
        if scope not in self._tables and len(scope) == TOGETHER:
            self._pairs += 1
            if self._pairs == PAIRS + 1:
                self.faults.add(place, beyond("pair", PAIRS))
        table = self._tables.setdefault(scope, {})
        for choices in itertools.product(*(range(len(self.names[train].choices)) for train in function.scope)):
            term = function.given.get(choices, function.default)
            if term is not None and term.amount != 0:
                table.setdefault(tuple(choices[at] for at in order), []).append(term)

    def study(self, top: Fraction | None) -> Added:
        """The study, its costs multiplied so that all of them are whole. Costs beyond the limit are told at the word that takes them there."""
        constants = self._tables.get((), {}).get((), [])
        adding = Adding(top, constants, self._factor(top), self.faults)
        trains = [Train(names.train, tuple(self._choice(adding, number, at) for at in range(len(names.choices)))) for number, names in enumerate(self.names)]
        pairs = [self._pair(adding, *scope) for scope in sorted(self._tables) if len(scope) == TOGETHER]
        self.faults.end()
        study = Study(tuple(trains), tuple(pairs))
        return Added(study, adding.factor, top is not None and greatest(study) >= top * adding.factor)

    def _choice(self, adding: "Adding", train: int, choice: int) -> Choice:
        terms = self._tables.get((train,), {}).get((choice,), [])
        return Choice(self.names[train].choices[choice], adding.cost(terms, adding.constants if train == 0 else ()))

    def _pair(self, adding: "Adding", first: int, second: int) -> Pair:
        table = self._tables[first, second]
        rows, columns = len(self.names[first].choices), len(self.names[second].choices)
        return Pair(first, second, tuple(tuple(adding.cost(table.get((a, c), ())) for c in range(columns)) for a in range(rows)))

    def _factor(self, top: Fraction | None) -> int:
        """The least power of ten that makes all costs whole, of those that are below the top."""
        terms = (term.amount for table in self._tables.values() for found in table.values() for term in found)
        factor = 1
        for amount in set(terms):
            while (top is None or amount < top) and (amount * factor).denominator != 1:
                factor *= 10
        return factor


class Adding(NamedTuple):
    """How the costs of a file become those of a study."""

    top: Fraction | None
    constants: Sequence[Term]
    factor: int
    faults: Faults

    def cost(self, terms: Iterable[Term], constants: Sequence[Term] = ()) -> Cost:
        """What these come to, with the constants where they go onto this cost: added in the order of the file, but for what is below 0, which comes first."""
        terms = list(terms)
        paid = max(_total(self.constants), Fraction(0))
        if self.top is not None and _total(terms) + paid >= self.top:
            return None
        total = Fraction(0)
        for count, term in enumerate(sorted([*constants, *terms], key=lambda term: (term.amount >= 0, term.place)), 1):
            total += term.amount
            if total * self.factor > COST:
                self.faults.add(term.place, self._too_much(term.amount, total, count))
                return None
        if total < 0:
            why = f"the constant goes onto every choice of train 0, and would leave one of them {shown(total)}: no cost is below 0"
            self.faults.add(constants[-1].place, why)
            return None
        return int(total * self.factor)

    def _too_much(self, amount: Fraction, total: Fraction, count: int) -> str:
        """Why a cost is too much, where it is that by itself, by the factor or by what was added before."""
        by_itself = f"a cost of {shown(amount)}" if count == 1 else f"with this cost of {shown(amount)} the costs on the same choices come to {shown(total)}"
        if self.factor == 1:
            return f"{by_itself}, and {COST} is the most"
        return f"{by_itself}, which is {shown(total * self.factor)} when all costs are made whole by a factor of {self.factor}, and {COST} is the most"


def _total(terms: Iterable[Term]) -> Fraction:
    return sum((term.amount for term in terms), Fraction(0))


def greatest(study: Study) -> int:
    """A cost that no plan exceeds: the greatest of each train and of each pair."""
    choices = sum(max((choice.cost or 0 for choice in train.choices), default=0) for train in study.trains)
    return choices + sum(max(cost or 0 for row in pair.costs for cost in row) for pair in study.pairs)


def shown(amount: Fraction) -> str:
    """An amount as a decimal number, which all amounts of files are."""
    places = 0
    while (amount * 10**places).denominator != 1:
        places += 1
    digits = str(abs(int(amount * 10**places))).rjust(places + 1, "0")
    text = f"{digits[:-places]}.{digits[-places:]}" if places else digits
    return f"-{text}" if amount < 0 else text
