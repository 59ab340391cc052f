"""The best shift: the reference takes it and its certificate, and publishes the bound that the ceiling allows."""

import math
import random
import unittest
from collections.abc import Callable, Sequence
from dataclasses import replace
from fractions import Fraction
from itertools import chain
from typing import NamedTuple

from junction import certificates, lift, lines, programme, replies, rounding, solvers
from junction.block import Tables
from junction.programme import Best
from junction.solvers import NoSolver, Programme, Solution, Solver
from junction.study import Choice, Cost, Pair, Study, Train
from tests import reference

SEEDS = range(24)
# Trains, the least and the most choices of one, and pairs.
SIZES = [(3, 2, 3, 3), (8, 2, 4, 14), (16, 2, 5, 30), (24, 2, 2, 48), (24, 3, 6, 40), (24, 8, 8, 48)]
SCALES = [1, 10, 840, 1000]
# The scale at which the bound is the best one.
FINE = 840


def a_study(seed: int) -> Study:
    """A study of one of the sizes, the last one full. One in two has forbidden entries."""
    chance = random.Random(seed)
    trains, least, most, pairs = SIZES[seed % len(SIZES)]
    top, dense, forbidden = chance.choice([1, 9, 1000, 1_000_000]), chance.choice([0.5, 0.8, 0.95]), chance.choice([0, 0, 0.04, 0.1])

    def cost(share: float) -> Cost:
        paid = chance.randint(1, top) if chance.random() < share else 0
        return None if chance.random() < forbidden else paid

    sizes = [chance.randint(least, most) for _ in range(trains)]
    between = sorted(chance.sample([(i, j) for i in range(trains) for j in range(i + 1, trains)], pairs))
    return Study(
        tuple(Train(str(train), tuple(Choice(str(choice), cost(0.3)) for choice in range(size))) for train, size in enumerate(sizes)),
        tuple(Pair(i, j, tuple(tuple(cost(dense) for _ in range(sizes[j])) for _ in range(sizes[i]))) for i, j in between),
        SCALES[seed // len(SIZES) % len(SCALES)],
    )


# ---- the tables after some lines, by documents 01 and 02


def loaded(study: Study) -> Tables:
    """After a load."""
    choices = tuple(tuple(choice.cost for choice in train.choices) for train in study.trains)
    entries = tuple(pair.costs for pair in study.pairs)
    pairs = tuple((pair.first, pair.second) for pair in study.pairs)
    first, *rest = (tuple(tuple(None if cost is None else study.scale * cost for cost in row) for row in rows) for rows in (choices, *entries))
    return Tables(study.scale, 0, study.sizes, pairs, choices, entries, first, tuple(rest), tuple(range(len(study.trains))))


def tightened(tables: Tables) -> Tables:
    """After 'tighten'."""
    choices, entries = _open(tables)
    for (i, j), rows in zip(tables.pairs, entries, strict=True):
        for a, row in enumerate(rows):
            _give(choices[i], a, _take(row))
        for b in range(len(rows[0])):
            column = [row[b] for row in rows]
            _give(choices[j], b, _take(column))
            for row, cost in zip(rows, column, strict=True):
                row[b] = cost
    return _closed(tables, choices, entries, sum(map(_take, choices)))


def rounded(tables: Tables) -> Tables:
    """After a directional round."""
    choices, entries = _open(tables)
    lifted = 0
    for j in reversed(range(len(choices))):
        for (i, second), rows in zip(tables.pairs, entries, strict=True):
            if second != j:
                continue
            for row in rows:
                for b, cost in enumerate(choices[j]):
                    _give(row, b, cost or 0)
            choices[j] = [None if cost is None else 0 for cost in choices[j]]
            for a, row in enumerate(rows):
                _give(choices[i], a, _take(row))
        lifted += _take(choices[j])
    return _closed(tables, choices, entries, lifted)


def _open(tables: Tables) -> tuple[list[list[Cost]], list[list[list[Cost]]]]:
    return [list(row) for row in tables.choices], [[list(row) for row in rows] for rows in tables.entries]


def _closed(tables: Tables, choices: list[list[Cost]], entries: list[list[list[Cost]]], lifted: int) -> Tables:
    first, *rest = (tuple(tuple(row) for row in rows) for rows in (choices, *entries))
    return replace(tables, constant=tables.constant + lifted, choices=first, entries=tuple(rest))


def _take(costs: list[Cost]) -> int:
    """Takes the least off permitted entries."""
    least = min((cost for cost in costs if cost is not None), default=0)
    costs[:] = [None if cost is None else cost - least for cost in costs]
    return least


def _give(costs: list[Cost], choice: int, amount: int) -> None:
    """Adds to a permitted entry."""
    cost = costs[choice]
    if cost is not None:
        costs[choice] = cost + amount


class Step(NamedTuple):
    """A line, and what it makes of tables."""

    line: str
    after: Callable[[Tables], Tables]


TIGHTEN, ROUND = Step(lines.tighten(), tightened), Step(lines.directional_round(), rounded)
STEPS: list[list[Step]] = [[], [TIGHTEN], [ROUND], [TIGHTEN, ROUND]]


class Case:
    """A study after some lines."""

    def __init__(self, study: Study, steps: Sequence[Step] = ()) -> None:
        self.study, self._steps = study, steps
        self.lines = [lines.load(study), *(step.line for step in steps)]
        self.tables = loaded(study)
        for step in steps:
            self.tables = step.after(self.tables)

    def at_scale(self, scale: int) -> "Case":
        """The same at another scale."""
        return Case(self.study.with_scale(scale), self._steps)

    def asked(self, *more: str) -> list[str]:
        """The reference's replies to more lines. The bound before them is that of the tables."""
        said = reference.replies(*self.lines, *more)
        before = replies.decode(self.lines[-1], said[len(self.lines) - 1])
        if before != replies.Bound(self.tables.constant, self.rounded_up(Fraction(self.tables.constant))):
            raise AssertionError(f"the tables of the test are not the reference's: {before}")
        return said[len(self.lines):]

    def rounded_up(self, parts: Fraction) -> int:
        """Document 02, change 9: the least multiple of the costs' greatest common divisor, in points, that is not below."""
        costs = chain(chain.from_iterable(self.tables.loaded_choices), (cost for rows in self.tables.loaded_entries for row in rows for cost in row))
        step = math.gcd(*(cost for cost in costs if cost is not None)) or 1
        return math.ceil(parts / (step * self.tables.scale)) * step


def a_case(seed: int) -> Case:
    """A study by a seed, after tightenings and rounds."""
    return Case(a_study(seed), STEPS[random.Random(seed).randrange(len(STEPS))])


# ---- without a solver


class Given:
    """A solver whose solutions are given."""

    name = "given"

    def __init__(self, *solutions: Callable[[Programme], Solution]) -> None:
        self._solutions = iter(solutions)

    def solve(self, asked: Programme) -> Solution:
        """The next of them."""
        return next(self._solutions)(asked)


def nonsense(seed: int, most: float) -> Callable[[Programme], Solution]:
    """Any numbers at all."""
    chance = random.Random(seed)
    return lambda asked: Solution([chance.uniform(-most, most) for _ in range(asked.columns)], [chance.uniform(-1, 1) for _ in asked.rows[:-1]] + [0.0])


def nothing(asked: Programme) -> Solution:
    """All are 0."""
    return Solution([0.0] * asked.columns, [0.0] * len(asked.rows))


# The study of docs/SERVICE.md whose ceiling is half a part at scale 1, and the weights that show it.
TWO = (Choice("0", 0), Choice("1", 0))
LAST, FIRST = ((0, 0), (0, 1)), ((1, 0), (0, 0))
HALF = Study((Train("0", (Choice("0", 1), Choice("1", 0))), Train("1", TWO), Train("2", TWO)), (Pair(0, 1, LAST), Pair(0, 2, LAST), Pair(1, 2, FIRST)), 1)
HALF_WEIGHTS = (1,) * 6 + (0, 1, 1, 0) * 3


class Numbers(unittest.TestCase):
    """What holds whatever a solver says."""

    def test_programme(self) -> None:
        study = Study((Train("0", TWO), Train("1", (Choice("0", 7), Choice("1", None)))), (Pair(0, 1, ((3, None), (0, 5))),), 2)
        depth = 72_000_000_000 - 100_000
        asked = programme.programme(loaded(study))
        self.assertEqual((asked.summed, asked.columns), (2, 6))
        self.assertEqual([(list(row.terms), row.most, row.depth) for row in asked.rows], [
            ([(0, 1), (2, -1)], 0, depth),
            ([(0, 1), (3, -1)], 0, depth),
            ([(1, 1), (4, -1)], 14, depth),
            ([(2, 1), (4, 1)], 6, depth),
            ([(3, 1), (4, 1)], 0, depth),
            ([(3, 1), (5, 1)], 10, depth),
            ([(0, 1), (1, 1)], 14 + 10 + 2 + 2 + 2, None),
        ])

    def test_any_numbers(self) -> None:
        for seed in SEEDS[:len(SIZES)]:
            case = a_case(seed)
            for most in (10.0, 1e6, 1e14):
                found = programme.best(case.tables, Given(nonsense(seed, most), nonsense(seed + 1, most)))
                self.assertTrue(found.shift is None or lift.accepted(case.tables, found.shift))
                sent = [] if found.shift is None else [lines.shift(found.shift.lifts, found.shift.moves)]
                if found.weights is not None and found.full is not None:
                    sent.append(lines.certify(found.full, found.weights))
                for reply in case.asked(*sent):
                    self.assertNotEqual(reply[:2], "FF", seed)

    def test_nothing_to_send(self) -> None:
        found = programme.best(loaded(HALF), Given(nothing, nothing))
        self.assertEqual((found.shift, found.sentences), (None, ()))

    def test_near_whole(self) -> None:
        """Moves that are a little less than whole lose nothing, and neither do halves that fit together."""
        study = Study((Train("0", TWO), Train("1", TWO)), (Pair(0, 1, ((4, 4), (5, 5))),), 1)
        for moves in ([4 - 1e-9, 5 - 1e-9, 0, 0], [2.5, 3.5, 1.5, 1.5], [1.25, 2.25, 2.75, 2.75]):
            shift = rounding.whole(loaded(study), moves, 100)
            self.assertEqual(sum(shift.lifts), 4, moves)

    def test_too_much(self) -> None:
        """The lifts sum to no more than they may, where the limit allows that. A train of which anything can be lifted has what is left."""
        limit = 72_000_000_000
        tables = loaded(Study((Train("0", TWO), Train("1", TWO), Train("2", TWO)), (), 1))
        few = replace(tables, choices=((9, 10), (5, 5), (6, 8)))
        self.assertEqual(rounding.whole(few, [], 20).lifts, (9, 5, 6))
        self.assertEqual(rounding.whole(few, [], 17).lifts, (6, 5, 6))
        many = replace(tables, choices=((limit - 1, limit + 3), (5, 5), (6, 8)))
        self.assertEqual(rounding.whole(many, [], 20).lifts, (9, 5, 6))
        self.assertEqual(rounding.whole(many, [], 10).lifts, (3, 5 - 4, 6))
        empty = replace(few, choices=((9, 10), (5, None), (None, None)))
        self.assertEqual(rounding.whole(empty, [], 30).lifts, (9, 5, 16))
        self.assertEqual(rounding.whole(empty, [], 10).lifts, (5, 5, 0))

    def test_weights_as_fractions(self) -> None:
        for off in (0, 1e-10, -1e-10):
            duals = [weight / 2 + off for weight in HALF_WEIGHTS]
            self.assertEqual(certificates.of(loaded(HALF), duals), certificates.Certificate(2, HALF_WEIGHTS, True))

    def test_weights_near_duals(self) -> None:
        """No common denominator serves: the full weight is the greatest there is, and the reference takes the weights."""
        train, pair = math.sqrt(1 / 2), math.sqrt(1 / 3)
        duals = [train, 1 - train] * 3 + [pair, train - pair, train - pair, 1 - 2 * train + pair] * 3
        certificate = certificates.of(loaded(HALF), duals)
        assert certificate is not None
        self.assertEqual((certificate.full, certificate.exact), (100_000, False))
        self.assertLess(max(abs(weight - 100_000 * dual) for weight, dual in zip(certificate.weights, duals, strict=True)), 3)
        reply, = Case(HALF).asked(lines.certify(certificate.full, certificate.weights))
        self.assertEqual(reply[:2], "85")

    def test_no_weights(self) -> None:
        """Train 0 takes choice 0 and train 1 too, which is forbidden: no weights of the pair have these sums."""
        study = Study((Train("0", TWO), Train("1", TWO)), (Pair(0, 1, ((None, 0), (0, 0))),), 1)
        self.assertIsNone(certificates.near(loaded(study), [1, 0, 1, 0, 0, 0, 0, 0]))
        found = programme.best(loaded(study), Given(nothing, lambda asked: Solution([0.0] * 6, [1, 0, 1, 0, 0, 0, 0, 0])))
        self.assertEqual((found.full, found.weights), (None, None))
        self.assertIn("no certificate is sent, since no whole weights near the solver's have the right sums", found.sentences)

    def test_what_replies_say(self) -> None:
        tables = loaded(HALF)
        self.assertFalse(programme.without_plan(tables, 1 + 3))
        self.assertTrue(programme.without_plan(tables, 1 + 3 + 1))
        self.assertFalse(programme.cannot_rise(2, Fraction(5, 2)))
        self.assertTrue(programme.cannot_rise(3, Fraction(5, 2)))
        self.assertTrue(programme.cannot_rise(3, Fraction(3)))


# ---- with one


class SolverTest(unittest.TestCase):
    """A test that is skipped where there is no solver."""

    solver: Solver

    @classmethod
    def setUpClass(cls) -> None:
        try:
            cls.solver = solvers.find()
        except NoSolver as none:
            raise unittest.SkipTest(str(none)) from None


class Shifts(SolverTest):
    """24 studies."""

    def test_studies(self) -> None:
        named = plans = 0
        for seed in SEEDS:
            with self.subTest(seed=seed):
                case = a_case(seed)
                found = programme.best(case.tables, self.solver)
                plans += self.check(case, found)
                if found.scale_reached is not None and found.scale_reached != case.study.scale:
                    self.check_reached(case, found)
                    named += 1
        self.assertGreater(named, 0)
        self.assertGreater(plans, 0)
        self.assertLess(plans, len(SEEDS))

    def check(self, case: Case, found: Best) -> bool:
        """Shift and certificate are accepted at once. At the fine scale the bound is what the ceiling, by the reference, is rounded up to: nothing is lost that shows.
        Where there is no plan the bound says so, and so does a search. Whether there is a plan, as far as the programme knows."""
        bound, ceiling = self.sent(case, found)
        if ceiling is None:
            self.assertTrue(programme.without_plan(case.tables, bound.constant))
            self.assertEqual(case.asked(lines.search(10_000_000))[0][:4], "8602")
            return False
        self.assertEqual(Fraction(ceiling.E, ceiling.W), found.optimum)
        self.assertEqual(ceiling.reached, found.scale_reached == case.study.scale)
        self.assertFalse(programme.without_plan(case.tables, bound.constant))
        allowed = case.rounded_up(found.optimum)
        if case.study.scale == FINE:
            self.assertEqual(bound.bound, allowed)
        self.assertLessEqual(bound.bound, allowed)
        self.assertEqual(programme.cannot_rise(bound.bound, found.optimum / case.study.scale), bound.bound == allowed)
        return True

    def check_reached(self, case: Case, found: Best) -> None:
        """At the scale that is named the shift that is given for it reaches the ceiling, by the same certificate. So does the best shift there by glpsol; HiGHS may
        find other fractions of the same sum."""
        assert found.scale_reached is not None and found.reaching is not None and found.weights is not None and found.full is not None
        self.assertIn(f"the ceiling is reached at scale {found.scale_reached}", found.sentences)
        there = case.at_scale(found.scale_reached)
        shifts = [found.reaching]
        if self.solver.name == "glpsol":
            shifts.append(programme.best(there.tables, self.solver).shift or lift.Shift.nothing(there.tables))
        for shift in shifts:
            _, certified = there.asked(lines.shift(shift.lifts, shift.moves), lines.certify(found.full, found.weights))
            self.assertEqual(certified[:4], "8501")

    def sent(self, case: Case, found: Best) -> tuple[replies.Bound, replies.Ceiling | None]:
        """The bound and the ceiling that the reference shows for what is found."""
        bound = replies.Bound(case.tables.constant, case.rounded_up(Fraction(case.tables.constant)))
        sent = [] if found.shift is None else [lines.shift(found.shift.lifts, found.shift.moves)]
        if found.weights is not None and found.full is not None:
            sent.append(lines.certify(found.full, found.weights))
        ceiling = None
        for line, reply in zip(sent, case.asked(*sent), strict=True):
            said = replies.decode(line, reply, case.study.scale)
            bound, ceiling = (said, ceiling) if isinstance(said, replies.Bound) else (bound, said)
        assert ceiling is None or isinstance(ceiling, replies.Ceiling)
        return bound, ceiling


class ByHand(SolverTest):
    """Studies whose best bound can be seen."""

    def test_half(self) -> None:
        """The ceiling is half a part: at scale 1 nothing rises, at scale 2 the constant reaches it."""
        found = programme.best(loaded(HALF), self.solver)
        self.assertEqual((found.shift, found.optimum, found.scale_reached), (None, Fraction(1, 2), 2))
        self.assertIn("the ceiling is reached at scale 2", found.sentences)
        found = programme.best(loaded(HALF.with_scale(2)), self.solver)
        assert found.shift is not None
        self.assertEqual((sum(found.shift.lifts), found.optimum, found.scale_reached, found.sentences), (1, 1, 2, ()))

    def test_again(self) -> None:
        """A second shift would raise nothing."""
        tables = loaded(a_study(4).with_scale(FINE))
        found = programme.best(tables, self.solver)
        assert found.shift is not None
        again = programme.best(lift.apply(tables, found.shift), self.solver)
        self.assertIsNone(again.shift)
        self.assertEqual(again.optimum, found.optimum)

    def test_no_choice(self) -> None:
        """A train whose choices are all forbidden has no plan, and its lift shows it."""
        study = Study((Train("0", TWO), Train("1", tuple(Choice(name, None) for name in "01"))), (Pair(0, 1, LAST),), 10)
        found = programme.best(loaded(study), self.solver)
        assert found.shift is not None
        reply, = Case(study).asked(lines.shift(found.shift.lifts, found.shift.moves))
        said = replies.decode(lines.shift(found.shift.lifts, found.shift.moves), reply)
        assert isinstance(said, replies.Bound)
        self.assertTrue(programme.without_plan(loaded(study), said.constant))

    def test_limits(self) -> None:
        """The greatest costs at the greatest scale: every plan of the full study costs as much as the constant holds."""
        names = "01234567"
        pairs = [(i, j) for i in range(24) for j in (i + 1, i + 2) if j < 24] + [(0, 23), (0, 22), (1, 23)]
        trains = tuple(Train(str(i), tuple(Choice(name, 1_000_000) for name in names)) for i in range(24))
        study = Study(trains, tuple(Pair(i, j, ((1_000_000,) * 8,) * 8) for i, j in sorted(pairs)), 1000)
        case = Case(study)
        found = programme.best(case.tables, self.solver)
        assert found.shift is not None and found.full is not None and found.weights is not None
        reply, certified = case.asked(lines.shift(found.shift.lifts, found.shift.moves), lines.certify(found.full, found.weights))
        self.assertEqual((reply, certified[:4]), (f"83{72_000_000_000:012X}{72_000_000:012X}", "8501"))

    def test_forced(self) -> None:
        """Weights of the greatest full weight are taken too, and their ceiling is no lower."""
        for seed in (1, 2, 4, 10):
            case = a_case(seed)
            answer = programme.solved(case.tables, self.solver)
            if answer.without_plan:
                continue
            certificate = certificates.near(case.tables, answer.weights)
            assert certificate is not None
            reply, = case.asked(lines.certify(certificate.full, certificate.weights))
            self.assertEqual(reply[:2], "85", seed)
            self.assertEqual(Fraction(int(reply[4:20], 16), int(reply[20:], 16)), certificates.ceiling(case.tables, certificate))


if __name__ == "__main__":
    unittest.main()
