"""Shifts by sweeps: the reference accepts each at once, plans keep their totals, and the bound does not fall."""

import random
import unittest
from collections.abc import Iterator
from typing import NamedTuple, TypeVar

from junction import lift, lines, replies
from junction.block import Rows, Tables
from junction.errors import Refused
from junction.lift import MOST_HELD, MOST_MOVED, Shift
from junction.replies import ENDED, WITHOUT_PLAN, Bound, Ceiling, Found
from junction.study import Choice, Cost, Pair, Study, Train
from tests import reference
from tests.blocks import Block

T = TypeVar("T")

STUDIES = 60
BUDGET = 20_000
PLANS = 4
SCALES = (1, 10, 840, 1000)
# How often a choice is forbidden, and how often an entry of a pair, in per cent.
FORBIDDEN = ((0, 0), (5, 10), (0, 30), (10, 30), (20, 50))
DEAREST = (1, 10, 1000, 1_000_000)
FULL_SIZES = [8] * 24


def tables(choices: Rows, pairs: dict[tuple[int, int], Rows], constant: int = 0) -> Tables:
    """Tables with one part to a point. What was loaded is not looked at."""
    sizes = tuple(map(len, choices))
    return Tables(1, constant, sizes, tuple(pairs), (), (), choices, tuple(pairs.values()), tuple(range(len(sizes))))


def loaded(given: Tables) -> str:
    """The line that loads these tables."""
    trains = tuple(Train(str(number), tuple(Choice(str(choice), cost) for choice, cost in enumerate(row))) for number, row in enumerate(given.choices))
    return lines.load(Study(trains, tuple(Pair(i, j, rows) for (i, j), rows in zip(given.pairs, given.entries, strict=True)), given.scale))


def line(shift: Shift) -> str:
    return lines.shift(shift.lifts, shift.moves)


# The line J of document 01.
J = tables(((2, 0), (0, 0)), {(0, 1): ((1, 0), (3, 2))})


class Arithmetic(unittest.TestCase):
    def test_marked_cases_9_and_10(self) -> None:
        shift = Shift.of([2, 0], [([0, 2], [0, 0])])
        after = lift.apply(J, shift)
        self.assertEqual((after.constant, after.choices, after.entries), (2, ((0, 0), (0, 0)), (((1, 0), (1, 0)),)))
        self.assertTrue(lift.accepted(J, shift))
        without = Shift.of([2, 0], [([0, 0], [0, 0])])
        self.assertEqual(lift.apply(J, without).choices, ((0, -2), (0, 0)))
        self.assertFalse(lift.accepted(J, without))
        self.assertEqual(reference.replies(loaded(J), line(without), line(shift))[1:], ["FF0C", "83000000000002000000000002"])

    def test_moves_in_the_order_of_the_line(self) -> None:
        given = tables(((0,), (0, 0), (0, 0, 0)), {(0, 1): ((0, 0),), (0, 2): ((0, 0, 0),)})
        shift = Shift.of([1, 2, 3], [([4], [5, 6]), ([7], [8, 9, 10])])
        self.assertEqual(shift, Shift((1, 2, 3), (4, 5, 6, 7, 8, 9, 10)))
        self.assertEqual(shift.by_pair(given), [((4,), (5, 6)), ((7,), (8, 9, 10))])
        self.assertEqual(Shift.nothing(given), Shift((0, 0, 0), (0,) * 7))
        self.assertEqual(lift.apply(given, Shift.nothing(given)), given)

    def test_forbidden_entries_stay(self) -> None:
        given = tables(((None, 1), (2, 3)), {(0, 1): ((4, None), (5, 6))})
        after = lift.apply(given, Shift.of([1, 2], [([10, 0], [0, 1])]))
        self.assertEqual((after.constant, after.choices, after.entries), (3, ((None, 0), (0, 2)), (((-6, None), (5, 5)),)))
        self.assertFalse(lift.accepted(given, Shift.of([1, 2], [([10, 0], [0, 1])])))
        self.assertTrue(lift.accepted(given, Shift.of([1, 2], [([4, 0], [0, 1])])))

    def test_limits(self) -> None:
        alone = tables(((MOST_HELD, 0),), {})
        self.assertEqual((MOST_HELD, MOST_MOVED), (72_000_000_000, 10 ** 12))
        high, low = tables(((5,),), {}, MOST_HELD - 4), tables(((5,),), {}, 4)
        for given, lifted, expected in ((alone, 0, True), (alone, -1, False), (high, 4, True), (high, 5, False), (low, -4, True), (low, -5, False)):
            self.assertEqual(lift.accepted(given, Shift((lifted,), ())), expected)
        pair = tables(((None,), (None,)), {(0, 1): ((None,),)})
        for number, expected in ((MOST_MOVED, True), (-MOST_MOVED, True), (MOST_MOVED + 1, False), (-MOST_MOVED - 1, False)):
            self.assertEqual(lift.accepted(pair, Shift((number, -number), (0, 0))), expected)
            self.assertEqual(lift.accepted(pair, Shift((0, 0), (0, number))), expected)


class ByHand(unittest.TestCase):
    """Small tables of which one sees what their least plan costs. Each shift is given to the reference too."""

    def constant(self, given: Tables, sweeps: int = 6, most: int = 30) -> int:
        """The constant after a shift by sweeps, by the reference."""
        shift = lift.by_sweeps(given, sweeps=sweeps, most=most)
        reply = replies.decode(line(shift), reference.replies(loaded(given), line(shift))[1])
        assert isinstance(reply, Bound)
        self.assertEqual(lift.apply(given, shift).constant, reply.constant)
        return reply.constant

    def test_the_study_of_document_01(self) -> None:
        self.assertEqual(self.constant(J), 2)

    def test_without_sweeps_rows_columns_and_trains_give_what_they_can(self) -> None:
        # Pair 0-1: column 0 gives 1, then row 1 gives 2; the least of train 0 is 2.
        self.assertEqual(self.constant(J, sweeps=0, most=0), 2)

    def test_one_train(self) -> None:
        self.assertEqual(self.constant(tables(((7, 4, None, 9),), {})), 4)

    def test_trains_without_a_pair(self) -> None:
        self.assertEqual(self.constant(tables(((7, 4), (3,), (5, 6)), {})), 12)

    def test_a_choice_that_a_pair_leaves_without_a_partner(self) -> None:
        # Choice 1 of train 0 costs nothing, and is in no plan.
        self.assertEqual(self.constant(tables(((5, 0), (0, 0)), {(0, 1): ((0, 0), (None, None))})), 5)

    def test_a_choice_whose_partners_are_all_forbidden(self) -> None:
        self.assertEqual(self.constant(tables(((5, 0), (0, None)), {(0, 1): ((0, 0), (None, 3))})), 5)

    def test_choices_that_are_without_a_partner_one_after_the_other(self) -> None:
        # Choice 1 of train 2 has no partner in train 3, so that of train 1 has none in train 2, and that of train 0 none in train 1.
        linked: Rows = ((0, None), (None, 0))
        given = tables(((5, 0), (7, 0), (3, 0), (0,)), {(0, 1): linked, (1, 2): linked, (2, 3): ((0,), (None,))})
        self.assertEqual(self.constant(given), 15)

    def test_a_choice_in_no_plan_costs_more_than_any_plan(self) -> None:
        given = tables(((5, 0), (0, 9)), {(0, 1): ((0, 8), (None, None))})
        after = lift.apply(given, lift.by_sweeps(given))
        self.assertGreaterEqual(after.constant + (after.choices[0][1] or 0), 5 + 9 + 8)

    def test_nothing_is_moved_where_there_is_no_plan(self) -> None:
        for given in (tables(((None, None), (1, 2)), {(0, 1): ((1, 1), (1, 1))}), tables(((3, 4), (1, 2)), {(0, 1): ((None, None), (None, None))})):
            self.assertEqual(lift.by_sweeps(given), Shift.nothing(given))

    def test_a_fresh_block(self) -> None:
        self.assertEqual(lift.by_sweeps(Tables.of([0] * 6676)), Shift((), ()))

    def test_a_study_at_every_limit(self) -> None:
        # 24 trains and 48 pairs of the dearest costs at the largest scale: every plan costs L, and the constant becomes L.
        pairs = [(i, j) for i in range(24) for j in range(i + 1, min(i + 4, 24))][:48]
        dearest: Rows = ((1_000_000,) * 8,) * 8
        study = Study(tuple(Train(str(i), (Choice("0", 1_000_000),) * 8) for i in range(24)), tuple(Pair(i, j, dearest) for i, j in pairs), 1000)
        block = Block()
        block.give(lines.load(study))
        shift = lift.by_sweeps(block.tables())
        self.assertEqual(reference.replies(lines.load(study), line(shift))[1], f"83{72_000_000_000:012X}{72_000_000:012X}")

    def test_a_shift_for_which_an_entry_has_no_room_is_halved(self) -> None:
        # Choice 0 of train 0 has no partner in train 1. Their forbidden entry has given it all but 2 of what it can hold; its pair with train 2 could give 5.
        given = tables(((0, 0), (4,), (0, 0)), {(0, 1): ((None,), (0,)), (0, 2): ((5, 5), (0, 0))})
        block = Block()
        for sent in (loaded(given), line(Shift.of([0, 0, 0], [([MOST_HELD - 2, 0], [0]), ([0, 0], [0, 0])]))):
            block.give(sent)
        shift = lift.by_sweeps(block.tables())
        block.give(line(shift))
        self.assertEqual(reference.replies(*block.lines)[1:], ["83000000000000000000000000", "83000000000004000000000004"])
        self.assertEqual(lift.apply(given, shift).choices[0], (2, 0))

    def test_nothing_is_moved_where_halves_would_lower_the_constant(self) -> None:
        # Trains 0 to 2 as above. The point of train 5 goes by train 4 to train 3, which lifts it; its half would go by train 4 alone, which then lacks it.
        near: Rows = ((0, 2), (2, 0))
        given = tables(((MOST_HELD - 2, 0), (0,), (0, 0), (1, 0), (0, 0), (0, 1)),
                       {(0, 1): ((None,), (0,)), (0, 2): ((5, 5), (0, 0)), (3, 4): near, (4, 5): near}, 1)
        self.assertEqual(lift.by_sweeps(given), Shift.nothing(given))

    def test_nothing_is_moved_where_no_entry_has_room(self) -> None:
        given = tables(((1, 2), (0, 0)), {(0, 1): ((0, 0), (0, 0))}, MOST_HELD)
        self.assertEqual(lift.by_sweeps(given), Shift.nothing(given))


class Given(NamedTuple):
    """A shift by sweeps: the lines that led to the block, those that are asked before it and after it, and what the arithmetic gives."""

    seed: int
    history: list[str]
    asked: list[str]
    shift: str
    after: Tables


class Answered(NamedTuple):
    """The reference's replies: to the lines asked before the shift, to the shift, to the lines asked after it, and to a tightening in place of the shift."""

    before: list[replies.Reply | Refused]
    shift: replies.Reply | Refused
    after: list[replies.Reply | Refused]
    tightening: replies.Reply | Refused


class Seeded(unittest.TestCase):
    """Studies by seeds, each changed by other lines or not. A third of them is shifted a second time, after an addition."""

    given: list[Given]
    answers: list[Answered]

    @classmethod
    def setUpClass(cls) -> None:
        cls.given = [given for seed in range(STUDIES) for given in shifts(seed)]
        sessions = [[*given.history, *given.asked, given.shift, *given.asked, *given.history, lines.tighten()] for given in cls.given]
        found = iter(reference.replies(*(line for session in sessions for line in session)))
        decoded = [[_decoded(line, next(found)) for line in session] for session in sessions]
        cls.answers = [_answered(given, session) for given, session in zip(cls.given, decoded, strict=True)]

    def each(self) -> Iterator[tuple[Given, Answered]]:
        """Each shift with its replies."""
        return zip(self.given, self.answers, strict=True)

    def test_each_shift_is_accepted_at_once(self) -> None:
        for given, answered in self.each():
            with self.subTest(seed=given.seed):
                assert isinstance(answered.shift, Bound), answered.shift
                self.assertEqual(answered.shift.constant, given.after.constant)

    def test_plans_keep_their_totals(self) -> None:
        plans = 0
        for given, answered in self.each():
            with self.subTest(seed=given.seed):
                for before, after in zip(answered.before[:PLANS], answered.after[:PLANS], strict=True):
                    if isinstance(before, Refused):
                        self.assertEqual((before.number, str(before)), (18, str(after)))
                    else:
                        assert isinstance(before, Ceiling) and isinstance(after, Ceiling)
                        self.assertEqual((after.E, after.W), (before.E, 1))
                        plans += 1
        self.assertGreater(plans, STUDIES)

    def test_searches_end_with_the_same_cost(self) -> None:
        ended = {ENDED: 0, WITHOUT_PLAN: 0}
        for given, answered in self.each():
            with self.subTest(seed=given.seed):
                before, after = (_only(Found, found) for found in (answered.before, answered.after))
                if before.state in ended and after.state in ended:
                    self.assertEqual((before.state, before.cost), (after.state, after.cost))
                    ended[after.state] += 1
        self.assertGreater(ended[ENDED], STUDIES // 3)
        self.assertGreater(ended[WITHOUT_PLAN], 0)

    def test_the_bound_does_not_fall(self) -> None:
        raised = 0
        for given, answered in self.each():
            with self.subTest(seed=given.seed):
                before, after = (_only(Bound, found) for found in (answered.before, answered.after))
                self.assertGreaterEqual((after.bound, after.constant), (before.bound, before.constant))
                self.assertEqual(answered.shift, after)
                raised += after.bound > before.bound
        self.assertGreater(raised, STUDIES // 3)

    def test_the_constant_is_at_least_that_of_a_tightening(self) -> None:
        for given, answered in self.each():
            with self.subTest(seed=given.seed):
                assert isinstance(answered.tightening, Bound)
                if given.shift != line(Shift.nothing(given.after)):
                    self.assertGreaterEqual(given.after.constant, answered.tightening.constant)

    def test_what_the_studies_are(self) -> None:
        """Every scale, full studies, and forbidden choices and entries are among them."""
        self.assertEqual({given.after.scale for given in self.given}, set(SCALES))
        for scale in SCALES:
            of_scale = [given.after for given in self.given if given.after.scale == scale]
            full = [held for held in of_scale if list(held.sizes) == FULL_SIZES and len(held.pairs) == 48]
            forbidden = [any(None in row for row in held.choices) for held in full]
            self.assertTrue(any(forbidden) and not all(forbidden), f"scale {scale}: {len(full)} full ones")


class Paths(unittest.TestCase):
    """Where each train has a pair with the next one alone, the sweeps find what the best plan costs."""

    def test_the_constant_is_what_the_best_plan_costs(self) -> None:
        ended = 0
        for seed in range(20):
            chance = random.Random(seed)
            study = seeded(chance, seed, path=True)
            block = Block()
            block.give(lines.load(study))
            shift = lift.by_sweeps(block.tables())
            asked = [line(shift), lines.search(BUDGET)]
            bound, found = map(_decoded, asked, reference.replies(lines.load(study), *asked)[1:])
            assert isinstance(bound, Bound) and isinstance(found, Found)
            if found.state == ENDED and found.cost is not None:
                self.assertEqual(bound.constant, study.scale * found.cost)
                ended += 1
        self.assertGreater(ended, 10)


def _decoded(sent: str, reply: str) -> replies.Reply | Refused:
    try:
        return replies.decode(sent, reply)
    except Refused as refused:
        return refused


def _answered(given: Given, session: list[replies.Reply | Refused]) -> Answered:
    start, count = len(given.history), len(given.asked)
    end = start + count
    return Answered(session[start:end], session[end], session[end + 1:end + 1 + count], session[-1])


def _only(kind: type[T], found: list[replies.Reply | Refused]) -> T:
    """The one reply of this kind."""
    of_kind = [reply for reply in found if isinstance(reply, kind)]
    if len(of_kind) != 1:
        raise AssertionError(f"{len(of_kind)} replies are {kind.__name__}")
    return of_kind[0]


def shifts(seed: int) -> Iterator[Given]:
    """The shifts of a seeded study."""
    chance = random.Random(seed)
    study = seeded(chance, seed)
    block = Block()
    for sent in (lines.load(study), *changes(chance, study)):
        block.give(sent)
    yield shifted(block, seed, chance)
    if seed % 3 == 0:
        block.give(lines.add(0, 0, chance.randint(0, 5)))
        yield shifted(block, seed, chance)


def shifted(block: Block, seed: int, chance: random.Random) -> Given:
    """A shift of what a block holds, by the block's order or by any."""
    held, history = block.tables(), list(block.lines)
    order = chance.sample(range(len(held.sizes)), len(held.sizes)) if seed % 4 == 0 else None
    shift = lift.by_sweeps(held, order)
    block.give(line(shift))
    after = lift.apply(held, shift)
    if block.tables() != after:
        raise AssertionError(f"seed {seed}: the library and the arithmetic do not agree")
    return Given(seed, history, list(questions(chance, held)), line(shift), after)


def seeded(chance: random.Random, seed: int, path: bool = False) -> Study:
    """A study of any size; each third of them is a full one, with 8 choices a train. On a path each train has a pair with the next one alone."""
    sizes = FULL_SIZES if seed % 3 == 1 else [chance.randint(1, 8) for _ in range(chance.choice([1, 2, 3, 5, 8, 12, 18, 24]))]
    choices, entries = FORBIDDEN[seed // 12 % len(FORBIDDEN)]
    most = chance.choice(DEAREST)

    def cost(forbidden: int) -> Cost:
        return None if chance.randrange(100) < forbidden else chance.randint(0, most)

    trains = tuple(Train(str(i), tuple(Choice(str(a), cost(choices)) for a in range(size))) for i, size in enumerate(sizes))
    possible = [(i, j) for i in range(len(sizes)) for j in range(i + 1, i + 2 if path else len(sizes)) if j < len(sizes)]
    count = len(possible) if path else min(len(possible), chance.choice([len(sizes), 48]) if seed % 3 != 1 else 48)
    pairs = [Pair(i, j, tuple(tuple(cost(entries) for _ in range(sizes[j])) for _ in range(sizes[i]))) for i, j in sorted(chance.sample(possible, count))]
    return Study(trains, tuple(pairs), SCALES[seed % 4])


def changes(chance: random.Random, study: Study) -> Iterator[str]:
    """Lines that change the study before it is shifted: none, or tightenings, rounds, additions and another order."""
    for _ in range(chance.randint(0, 3)):
        train = chance.randrange(len(study.trains))
        order = chance.sample(range(len(study.trains)), len(study.trains))
        added = lines.add(train, chance.randrange(study.sizes[train]), chance.randint(0, 1000))
        yield chance.choice([lines.tighten(), lines.directional_round(), added, lines.order(order)])


def questions(chance: random.Random, tables: Tables) -> Iterator[str]:
    """Lines that change nothing: what some plans cost, by certificates of one plan each, and a search."""
    for _ in range(PLANS):
        plan = [chance.randrange(size) for size in tables.sizes]
        weights = [int(choice == plan[train]) for train, size in enumerate(tables.sizes) for choice in range(size)]
        for i, j in tables.pairs:
            weights += [int((a, b) == (plan[i], plan[j])) for a in range(tables.sizes[i]) for b in range(tables.sizes[j])]
        yield lines.certify(1, weights)
    yield lines.search(BUDGET)
    yield line(Shift.nothing(tables))


if __name__ == "__main__":
    unittest.main()
