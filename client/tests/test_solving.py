"""Studies that are settled: the least cost is known by trying all plans, or by toulbar2, every plan is in one part, and the reference replies the same."""

import math
import shutil
import tempfile
import unittest
from collections.abc import Callable
from contextlib import AbstractContextManager, ExitStack
from functools import cache
from pathlib import Path
from unittest import mock

from junction import lines, solvers
from junction.lengths import BY_DOCUMENT
from junction.native import Library
from junction.solving import ladder, proof
from junction.solving.proof import Part, Proof
from junction.solving.settle import Outcome, Progress, Stop, Unfit, settle
from junction.study import Choice, Cost, Pair, Plan, Study, Train
from tests import graphs, reference
from tests.blocks import LIBRARY
from tests.full import FEW_CHOICES, full, small

SMALL_STUDIES = 20
# Of so few tries that most searches of the small studies are spent.
FEW_TRIES = 12
# The least costs of full studies by kind and seed, found by toulbar2 1.1.1.
LEAST = {("forbidden", 0): 17406, ("tariff", 0): 1640, ("dense", 0): 75, ("dense", 1): 69}
LEAST_OF_REGULAR = {9: 4, 29: 5}
LEAST_OF_EASIER = {28: 2}

ENDED, WITHOUT_PLAN = "8601", "8602"


@cache
def library() -> Library:
    if not LIBRARY.exists():
        raise unittest.SkipTest(f"there is no {LIBRARY}: hosting/build makes it")
    return Library(LIBRARY, BY_DOCUMENT)


def settled(study: Study, begun: Proof | None = None, told: Callable[[Progress], None] = lambda _: None, seconds: float | None = None) -> Outcome:
    return settle(study, library(), seconds, told, begun)


def stopping_at(line: int) -> Callable[[Progress], None]:
    """What ends the settling before a line, counted from 0."""
    left = iter(range(line))

    def told(_: Progress) -> None:
        if next(left, None) is None:
            raise Stop

    return told


def tries(most: int) -> AbstractContextManager[ExitStack]:
    """Searches have so many tries at most."""
    stack = ExitStack()
    for name in ("SMALL_BUDGET", "GREAT_BUDGET"):
        stack.enter_context(mock.patch.object(ladder, name, most))
    return stack


def without_solver() -> AbstractContextManager[object]:
    return mock.patch.object(solvers, "find", side_effect=solvers.NoSolver)


def study_of(costs: list[list[Cost]], pairs: dict[tuple[int, int], list[list[Cost]]]) -> Study:
    trains = tuple(Train(str(number), tuple(Choice(str(choice), cost) for choice, cost in enumerate(row))) for number, row in enumerate(costs))
    return Study(trains, tuple(Pair(i, j, tuple(map(tuple, rows))) for (i, j), rows in pairs.items()))


def least(study: Study) -> Cost:
    """The least cost by trying all plans."""
    costs = (graphs.plan_cost(study, plan) for plan in graphs.plans(study.sizes))
    return min((cost for cost in costs if cost is not None), default=None)


def has(part: Part, plan: Plan) -> bool:
    return all(choice in choices for choice, choices in zip(plan, part, strict=True))


class Settled(unittest.TestCase):
    def setUp(self) -> None:
        library()

    def check(self, study: Study, outcome: Outcome, cost: Cost) -> None:
        self.assertEqual((outcome.cost, outcome.bound, outcome.settled), (cost, cost, True))
        self.assertEqual((outcome.proof.plan, outcome.proof.cost, outcome.proof.save), (outcome.plan, cost, lines.load(study)))
        self.assertEqual((outcome.plan is None, outcome.proof.open), (cost is None, ()))
        if outcome.plan is not None:
            self.assertEqual(graphs.plan_cost(study, tuple(outcome.plan)), cost)
        permitted = [sum(choice.cost is not None for choice in train.choices) for train in study.trains]
        self.assertEqual(sum(math.prod(map(len, part.part)) for part in outcome.proof.settled), math.prod(permitted))
        for part in outcome.proof.settled:
            self.assertTrue(self.ground(part.replies, cost), part.replies)

    @staticmethod
    def ground(replies: tuple[str, ...], cost: Cost) -> bool:
        """Whether the last reply, or a bound, settles a part: document 01's replies, with a search's cost in bytes 6 to 11, and a bound in 7 to 12."""
        if replies[-1].startswith(WITHOUT_PLAN):
            return True
        bounds = [int(reply[14:26], 16) for reply in replies if not reply.startswith("86")]
        ended = replies[-1].startswith(ENDED) and cost is not None and int(replies[-1][12:24], 16) >= cost
        return ended or (cost is not None and max(bounds) >= cost)

    def check_small(self, study: Study) -> Outcome:
        outcome = settled(study)
        self.check(study, outcome, least(study))
        for plan in graphs.plans(study.sizes):
            among = sum(has(part.part, plan) for part in outcome.proof.settled)
            self.assertEqual(among, all(train.choices[choice].cost is not None for train, choice in zip(study.trains, plan, strict=True)))
        return outcome


class Small(Settled):
    def test_the_least_cost(self) -> None:
        for seed in range(SMALL_STUDIES):
            with self.subTest(seed=seed):
                self.check_small(graphs.small(seed))

    def test_in_parts(self) -> None:
        parts = []
        with tries(FEW_TRIES), without_solver():
            for seed in range(SMALL_STUDIES):
                with self.subTest(seed=seed):
                    parts.append(len(self.check_small(small(seed)).proof.settled))
        self.assertGreater(max(parts), FEW_CHOICES)

    def test_the_replies_are_the_reference_s(self) -> None:
        with tries(FEW_TRIES), without_solver():
            for seed in range(0, SMALL_STUDIES, 3):
                for part in settled(small(seed)).proof.settled:
                    self.assertEqual(reference.replies(*part.lines), list(part.replies))

    def test_no_choice_is_permitted(self) -> None:
        self.check_small(study_of([[None, None]], {}))
        self.check_small(study_of([[0, 1], [None]], {(0, 1): [[0], [0]]}))

    def test_no_pair_of_choices_is_permitted(self) -> None:
        self.assertIsNone(self.check_small(study_of([[0, 1], [2, 3]], {(0, 1): [[None, None], [None, None]]})).cost)

    def test_three_trains_of_which_no_two_take_the_same_of_two_platforms(self) -> None:
        other: list[list[Cost]] = [[None, 0], [0, None]]
        self.assertIsNone(self.check_small(study_of([[0, 0]] * 3, {(0, 1): other, (0, 2): other, (1, 2): other})).cost)

    def test_choices_without_a_partner_are_a_part(self) -> None:
        outcome = self.check_small(study_of([[0, 5], [2, 3]], {(0, 1): [[None, None], [7, 1]]}))
        first, second = outcome.proof.settled
        self.assertEqual((outcome.cost, outcome.plan), (9, (1, 1)))
        self.assertEqual((first.part, second.part), (((0,), (0, 1)), ((1,), (0, 1))))
        self.assertEqual([line[:2] for line in first.lines], ["01", "06"])
        self.assertTrue(first.replies[-1].startswith(WITHOUT_PLAN))

    def test_the_two_trains_of_such_a_part_are_tried_first(self) -> None:
        zeros: list[list[Cost]] = [[0] * 8] * 8
        pairs = {(train, train + 1): zeros for train in range(6)}
        pairs[6, 7] = [[None] * 8, *zeros[1:]]
        first = settled(study_of([[0] * 8] * 8, pairs)).proof.settled[0]
        self.assertEqual((first.part[6], first.trains[:2]), ((0,), (6, 7)))
        # The choice of one, and beside it those of the other.
        self.assertLessEqual(int(first.replies[-1][4:12], 16), 8 + 64)

    def test_the_study_s_scale_is_kept_in_the_save_line_alone(self) -> None:
        study = graphs.small(4).with_scale(7)
        outcome = self.check_small(study)
        self.assertEqual(outcome.proof.settled[0].lines[0][:8], f"01{len(study.trains):02X}0348")


class Full(Settled):
    def test_without_a_solver(self) -> None:
        with without_solver():
            for (kind, seed), cost in LEAST.items():
                with self.subTest(kind=kind, seed=seed):
                    study = full(seed, kind)
                    self.check(study, settled(study), cost)

    @unittest.skipUnless(shutil.which("glpsol"), "glpsol is not there: Debian's package glpk-utils")
    def test_those_that_take_longest(self) -> None:
        for seed, cost in LEAST_OF_REGULAR.items():
            with self.subTest(seed=seed):
                study = full(seed, "hard", regular=True)
                self.check(study, settled(study), cost)

    @unittest.skipUnless(shutil.which("glpsol"), "glpsol is not there: Debian's package glpk-utils")
    def test_small_budgets_take_more_parts_to_the_same_cost(self) -> None:
        (seed, cost), = LEAST_OF_EASIER.items()
        study = full(seed, "hard", regular=True)
        with tries(30_000):
            self.check(study, settled(study), cost)

    def test_a_solver_that_fails_is_gone_without(self) -> None:
        failing = mock.Mock(**{"solve.side_effect": solvers.Unsolved("glpsol", "it is broken")})
        with mock.patch.object(solvers, "find", return_value=failing), tries(FEW_TRIES):
            self.check_small(small(13))
        failing.solve.assert_called()


class Ended(Settled):
    study = small(13)

    def test_ended_and_gone_on_with(self) -> None:
        cost = least(self.study)
        assert cost is not None
        with tries(FEW_TRIES), without_solver():
            told: list[Progress] = []
            self.check(self.study, settled(self.study, told=told.append), cost)
            self.assertGreater(len(told), 20)
            for line in range(0, len(told), 4):
                ended = settled(self.study, told=stopping_at(line))
                self.assertFalse(ended.settled)
                self.assertEqual((len(ended.proof.settled), len(ended.proof.open), ended.cost, ended.bound), self.figures(told[line]))
                self.assertLessEqual(ended.bound or 0, cost)
                self.check(self.study, settled(self.study, ended.proof), cost)

    def test_the_bound_is_one_that_replies_show(self) -> None:
        said: list[str] = []

        def answer(block: bytes, line: bytes) -> tuple[bytes, bytes]:
            reply, after = library().answer(block, line)
            said.append(reply.decode())
            return reply, after

        recording = mock.Mock(**{"fresh": library().fresh, "answer": answer})
        with tries(FEW_TRIES), without_solver():
            # Load, shift, round, and a search that is spent.
            ended = settle(self.study, recording, None, stopping_at(4))
        self.assertEqual([reply[:2] for reply in said], ["81", "83", "88", "86"])
        self.assertEqual(ended.bound, max(int(reply[14:26], 16) for reply in said[:3]))

    def test_the_bound_is_below_the_cost_while_parts_are_open(self) -> None:
        told: list[Progress] = []
        with tries(FEW_TRIES), without_solver():
            cost = settled(self.study, told=told.append).cost
        assert cost is not None
        bounds = [progress.bound for progress in told if progress.bound is not None]
        self.assertEqual((len(bounds), bounds), (len(told), sorted(bounds)))
        self.assertTrue(any(progress.cost == cost and progress.bound != cost for progress in told))
        self.assertLessEqual(bounds[-1], cost)

    def test_open_parts_keep_their_order(self) -> None:
        with tries(FEW_TRIES), without_solver():
            ended = settled(self.study, told=stopping_at(30))
            self.assertGreater(len(set(ended.proof.open)), 1)
            self.assertEqual(settled(self.study, ended.proof, stopping_at(0)).proof, ended.proof)

    @staticmethod
    def figures(told: Progress) -> tuple[int, int, int | None, int | None]:
        return told.settled, told.open, told.cost, told.bound

    def test_ended_and_gone_on_with_again_and_again(self) -> None:
        begun = None
        with tries(FEW_TRIES), without_solver():
            for _ in range(200):
                outcome = settled(self.study, begun, stopping_at(25))
                if outcome.settled:
                    break
                begun = outcome.proof
        self.assertIsNotNone(begun)
        self.check(self.study, outcome, least(self.study))

    def test_the_parts_that_are_open_have_the_rest_of_the_plans(self) -> None:
        with tries(FEW_TRIES), without_solver():
            ended = settled(self.study, told=stopping_at(30))
        self.assertGreater(len(ended.proof.open), 1)
        parts = [*(part.part for part in ended.proof.settled), *ended.proof.open]
        for plan in graphs.plans(self.study.sizes):
            self.assertEqual(sum(has(part, plan) for part in parts), 1)

    def test_no_time(self) -> None:
        ended = settled(self.study, seconds=0)
        self.assertEqual((ended.cost, ended.plan, ended.settled, ended.proof.settled), (None, None, False, ()))
        self.assertEqual(ended.proof.open, (tuple(tuple(range(size)) for size in self.study.sizes),))

    def test_ctrl_c(self) -> None:
        ended = settled(self.study, told=mock.Mock(side_effect=[None, None, KeyboardInterrupt]))
        self.assertEqual((ended.settled, len(ended.proof.open)), (False, 1))

    def test_gone_on_with_on_a_bound_that_a_reply_shows(self) -> None:
        cost = least(self.study)
        assert cost is not None
        begun = settled(self.study, seconds=0).proof
        told: list[Progress] = []
        self.check(self.study, settled(self.study, begun, told.append), cost)
        self.assertEqual(told[0].bound, 0)
        self.assertGreater(told[-1].bound or 0, 0)

    def test_a_settled_proof_is_done(self) -> None:
        whole = settled(self.study)
        self.assertEqual(settled(self.study, whole.proof, stopping_at(0)), whole)

    def test_what_no_study_has(self) -> None:
        begun = settled(self.study, seconds=0).proof
        plan = settled(self.study).plan
        part, count = begun.open[0], len(self.study.trains)
        for changed in (
            Proof(lines.load(self.study.with_scale(1)), (), begun.open, None, None),
            Proof(begun.save, (), (part[1:],), None, None),
            Proof(begun.save, (), (((9,), *part[1:]),), None, None),
            Proof(begun.save, (), begun.open, (9,) * count, 0),
            Proof(begun.save, (), begun.open, (0,), 0),
            Proof(begun.save, (), begun.open, plan, 0),
        ):
            with self.subTest(changed=changed), self.assertRaises(Unfit):
                settled(self.study, changed)


class Files(unittest.TestCase):
    def setUp(self) -> None:
        folder = tempfile.TemporaryDirectory()
        self.addCleanup(folder.cleanup)
        self.path = Path(folder.name, "a.proof")

    def test_it_reads_back(self) -> None:
        study = small(13)
        with tries(FEW_TRIES), without_solver():
            for outcome in (settled(study), settled(study, told=stopping_at(30)), settled(study, seconds=0)):
                outcome.proof.write(self.path)
                self.assertEqual(proof.read(self.path), outcome.proof)
        self.assertEqual([path.name for path in self.path.parent.iterdir()], [self.path.name])


if __name__ == "__main__":
    unittest.main()
