"""The best shift of a block's tables, and the certificate that none is better, by the linear programme of document 000's Theorem 4.2.

The programme is solved twice: on the tables, and on what the first shift leaves of them. There the numbers are small, so floating-point numbers tell which
fractions they stand for. Both shifts are sent as one line. What the service is sent it judges as ever, and what it replies is all that is known: nothing is
taken for true because a solver says so.
"""

from collections.abc import Iterable, Sequence
from dataclasses import dataclass, replace
from fractions import Fraction
from itertools import chain
from math import gcd, lcm
from typing import NamedTuple

from junction import certificates, solvers
from junction.block import Rows, Tables
from junction.certificates import Certificate
from junction.lift import MOST_HELD, Shift, accepted, apply
from junction.rounding import NEAR, whole
from junction.solvers import Row, Solver
from junction.study import Cost

MOST_SCALE = 1000

# How far below the limit an entry stays, since a move that becomes whole may raise it.
ROOM = 100_000
# Greater entries are taken for this one when what is left is solved again. Of it a few parts at most are lifted.
MOST_LEFT = 20_000

NO_PLAN = "there is no plan"
NO_RISE = "no shift can raise the bound"
NO_PLAN_NO_CERTIFICATE = "no certificate is sent, since the solver finds no plan"
NO_CERTIFICATE = "no certificate is sent, since no whole weights near the solver's have the right sums"


@dataclass(frozen=True)
class Best:
    """What is to be sent, the shift first: a shift, and a certificate's full weight and weights; None where there is none to send.

    The optimum is the programme's, in parts: the highest constant that lifts and moves reach, fractions among them. `scale_reached` is a scale at which lifts and
    moves of whole parts reach it, and `reaching` is that shift, for the tables which the same lines leave at that scale. Both are None where none was found.
    """

    shift: Shift | None
    weights: tuple[int, ...] | None
    full: int | None
    optimum: Fraction
    scale_reached: int | None
    reaching: Shift | None
    sentences: tuple[str, ...]


class Answer(NamedTuple):
    """A solution: lifts, moves in the order of a shift's line, weights in the order of a certificate's, and whether it says that there is no plan."""

    lifts: list[float]
    moves: list[float]
    weights: list[float]
    without_plan: bool

    def fractions(self, divisor: int = 1) -> list[Fraction] | None:
        """The fractions that lifts and then moves stand for, divided by a number; None where one is near none."""
        return certificates.fractions([number / divisor for number in (*self.lifts, *self.moves)], MOST_SCALE)


def best(tables: Tables, solver: Solver) -> Best:
    """The best shift of tables, and its certificate."""
    answer = solved(tables, solver)
    first = _taken(tables, _whole(tables, answer), 0)
    rest = apply(tables, first)
    if answer.without_plan:
        return Best(_rising(first), None, None, Fraction(rest.constant), None, None, (NO_PLAN_NO_CERTIFICATE,))
    small = _capped(rest)
    second = solved(small, solver)
    shift = _sum(first, _taken(rest, _whole(small, second), 1))
    certificate = certificates.of(rest, second.weights)
    weights, full = (None, None) if certificate is None else (certificate.weights, certificate.full)
    optimum = _optimum(rest, second, certificate)
    reaches = tables.constant + sum(shift.lifts) == optimum
    scale, reaching = (tables.scale, shift) if reaches else _reaching(tables, _fractions(tables, answer, first, second), optimum)
    sentences = tuple(_sentences(certificate, None if reaches else scale))
    return Best(_rising(shift), weights, full, optimum, scale, reaching, sentences)


def without_plan(tables: Tables, constant: int) -> bool:
    """Whether a constant that a reply shows is above what any plan can cost. The tables are of a block that was read after the reply, with all additions."""
    return constant > _dearest(tables)


def cannot_rise(bound: int, ceiling: Fraction) -> bool:
    """Whether a bound is at or above a ceiling, in points. Then no shift raises it: of a constant up to the ceiling the bound is no higher."""
    return bound >= ceiling


def solved(tables: Tables, solver: Solver) -> Answer:
    """The solution for tables."""
    solution = solver.solve(programme(tables))
    trains, duals = len(tables.sizes), iter(solution.duals)
    weights = [0.0 if cost is None else next(duals) for cost in certificates.costs_in_order(tables)]
    return Answer(solution.values[:trains], solution.values[trains:], weights, next(duals) > NEAR)


def _whole(tables: Tables, answer: Answer) -> Shift:
    """A solution in whole numbers, within the constant's limit."""
    return whole(tables, answer.moves, min(_highest(tables), MOST_HELD) - tables.constant)


def programme(tables: Tables) -> solvers.Programme:
    """A column for each lift and each move, a row for each permitted entry, in the orders of the lines, and a last row for where there is no plan."""
    trains = len(tables.sizes)
    firsts = _first_columns(tables)
    rows = [*_choice_rows(tables, firsts), *_entry_rows(tables, firsts)]
    rows.append(Row([(train, 1) for train in range(trains)], _highest(tables) - tables.constant))
    return solvers.Programme(trains, trains + sum(tables.sizes[first] + tables.sizes[second] for first, second in tables.pairs), rows)


def _first_columns(tables: Tables) -> list[tuple[int, int]]:
    """For each pair the first column of its first train's moves, and of its second train's."""
    columns, at = [], len(tables.sizes)
    for first, second in tables.pairs:
        columns.append((at, at + tables.sizes[first]))
        at += tables.sizes[first] + tables.sizes[second]
    return columns


def _choice_rows(tables: Tables, firsts: Sequence[tuple[int, int]]) -> Iterable[Row]:
    """A choice loses its train's lift, and gets its moves."""
    of_train: list[list[int]] = [[] for _ in tables.sizes]
    for trains, columns in zip(tables.pairs, firsts, strict=True):
        for train, column in zip(trains, columns, strict=True):
            of_train[train].append(column)
    for train, costs in enumerate(tables.choices):
        for choice, cost in enumerate(costs):
            yield from _row([(train, 1), *((column + choice, -1) for column in of_train[train])], cost)


def _entry_rows(tables: Tables, firsts: Sequence[tuple[int, int]]) -> Iterable[Row]:
    """An entry loses a move of either train. One beside a forbidden choice is judged too."""
    for rows, (of_first, of_second) in zip(tables.entries, firsts, strict=True):
        for choice, costs in enumerate(rows):
            for other, cost in enumerate(costs):
                yield from _row([(of_first + choice, 1), (of_second + other, 1)], cost)


def _row(terms: list[tuple[int, int]], cost: Cost) -> Iterable[Row]:
    """What a permitted entry loses is at most what it has, and leaves it some way below the limit."""
    if cost is not None:
        yield Row(terms, cost, MOST_HELD - ROOM)


def _highest(tables: Tables) -> int:
    """What holds the constant down where there is no plan: more than any could cost, by so much that whole lifts show it too."""
    held = tables.constant + _greatest(tables.choices, tables.entries)
    above = tables.scale + 2 * len(tables.pairs) + len(tables.sizes)
    return max(held, _dearest(tables)) + above


def _dearest(tables: Tables) -> int:
    """What no plan costs more than, in parts, by the loaded costs."""
    return tables.scale * _greatest(tables.loaded_choices, tables.loaded_entries)


def _greatest(choices: Rows, entries: Sequence[Rows]) -> int:
    """The sum of the greatest permitted costs, one of each train and one of each pair."""
    tables = chain(choices, (list(chain.from_iterable(rows)) for rows in entries))
    return sum(max((cost for cost in costs if cost is not None), default=0) for costs in tables)


def _capped(tables: Tables) -> Tables:
    """The tables with no entry above what is solved again."""
    return replace(tables, choices=_capped_rows(tables.choices), entries=tuple(_capped_rows(rows) for rows in tables.entries))


def _capped_rows(rows: Rows) -> Rows:
    return tuple(tuple(None if cost is None else min(cost, MOST_LEFT) for cost in costs) for costs in rows)


def _taken(tables: Tables, shift: Shift, least: int) -> Shift:
    """The shift, where the service takes it and the lifts sum to so much; else one that moves nothing."""
    return shift if sum(shift.lifts) >= least and accepted(tables, shift) else Shift.nothing(tables)


def _sum(first: Shift, second: Shift) -> Shift:
    """Two shifts as one."""
    return Shift(_sums(first.lifts, second.lifts), _sums(first.moves, second.moves))


def _sums(first: Sequence[int], second: Sequence[int]) -> tuple[int, ...]:
    return tuple(number + other for number, other in zip(first, second, strict=True))


def _rising(shift: Shift) -> Shift | None:
    """A shift by which the constant rises."""
    return shift if sum(shift.lifts) > 0 else None


def _optimum(rest: Tables, answer: Answer, certificate: Certificate | None) -> Fraction:
    """The ceiling of the solver's weights; where there are no such weights, what the lifts sum to."""
    if certificate is not None and certificate.exact:
        return certificates.ceiling(rest, certificate)
    return rest.constant + Fraction(sum(answer.lifts)).limit_denominator(MOST_SCALE)


def _fractions(tables: Tables, answer: Answer, first: Shift, second: Answer) -> Iterable[list[Fraction]]:
    """Lifts and then moves as fractions of parts: the first shift and what the second solution has beyond it, and the first solution as fractions of points."""
    beyond, points = second.fractions(), answer.fractions(tables.scale)
    if beyond is not None:
        yield [number + more for number, more in zip((*first.lifts, *first.moves), beyond, strict=True)]
    if points is not None:
        yield [number * tables.scale for number in points]


def _reaching(tables: Tables, found: Iterable[list[Fraction]], optimum: Fraction) -> tuple[int, Shift] | tuple[None, None]:
    """The scale at which a shift reaches the optimum, and that shift, by whole numbers alone: the first such one of some fractions of parts."""
    held = [tables.constant, *(cost for cost in certificates.costs_in_order(tables) if cost is not None)]
    of_held = tables.scale // gcd(tables.scale, *held)
    for numbers in found:
        scale = lcm(of_held, *((number / tables.scale).denominator for number in numbers))
        if scale > MOST_SCALE:
            continue
        there = _at(tables, scale)
        parts = tuple(int(number * scale / tables.scale) for number in numbers)
        shift = Shift(parts[:len(tables.sizes)], parts[len(tables.sizes):])
        if accepted(there, shift) and apply(there, shift).constant * tables.scale == scale * optimum:
            return scale, shift
    return None, None


def _at(tables: Tables, scale: int) -> Tables:
    """The tables at another scale, at which all that is held is whole."""
    entries = tuple(_rows_at(rows, tables.scale, scale) for rows in tables.entries)
    constant = tables.constant * scale // tables.scale
    return replace(tables, scale=scale, constant=constant, choices=_rows_at(tables.choices, tables.scale, scale), entries=entries)


def _rows_at(rows: Rows, before: int, after: int) -> Rows:
    return tuple(tuple(None if cost is None else cost * after // before for cost in costs) for costs in rows)


def _sentences(certificate: Certificate | None, other_scale: int | None) -> Iterable[str]:
    """What is to be said beside the replies."""
    if certificate is None:
        yield NO_CERTIFICATE
    if other_scale is not None:
        yield f"the ceiling is reached at scale {other_scale}"
