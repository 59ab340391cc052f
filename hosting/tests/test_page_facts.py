"""The facts of a study for a page: each state by lines that lead to it, figures against the reference's replies, and how much is read."""

import functools
import itertools
import json
import os
import random
import sqlite3
from collections.abc import Iterator, Sequence
from fractions import Fraction
from hashlib import sha256
from typing import Any
from unittest import mock

from hosting import records, store
from hosting.page import facts, reading
from hosting.page.following import Studies
from hosting.records import Address, Settings
from hosting.store import StudyError
from hosting.tests import support
from junction import labels, lines, replies
from junction.kinds import Facts
from junction.study import Choice, Pair, Study, Train

SEEDS = range(30)
NOBODY = 65534
TIGHTEN, ROUND, SAVE = (line.encode() for line in (lines.tighten(), lines.directional_round(), lines.save()))
# The README's study: its plans 0 0, 0 1, 1 0 and 1 1 cost 3, 2, 3 and 2 points.
WORKED = support.LOAD
ENDING, SPENDING = lines.search(10), lines.search(2)


def study_of(choices: Sequence[Sequence[int | None]], pairs: Sequence[Pair] = (), scale: int = 1) -> Study:
    """A study with numbers for names."""
    trains = tuple(Train(str(number), tuple(Choice(str(place), cost) for place, cost in enumerate(costs))) for number, costs in enumerate(choices))
    return Study(trains, tuple(pairs), scale)


def cost_of(study: Study, plan: Sequence[int]) -> int | None:
    """What a plan costs, in points; None where it has a forbidden entry."""
    costs = [train.choices[choice].cost for train, choice in zip(study.trains, plan, strict=True)]
    costs += [pair.costs[plan[pair.first]][plan[pair.second]] for pair in study.pairs]
    return None if None in costs else sum(cost for cost in costs if cost is not None)


def added(study: Study, train: int, choice: int, points: int) -> Study:
    """A study after an addition. What is forbidden stays so."""
    trains = list(study.trains)
    choices = list(trains[train].choices)
    cost = choices[choice].cost
    choices[choice] = choices[choice]._replace(cost=None if cost is None else cost + points)
    trains[train] = trains[train]._replace(choices=tuple(choices))
    return Study(tuple(trains), study.pairs, study.scale)


def certificate(study: Study, plan: Sequence[int]) -> bytes:
    """The certificate of one plan, with W = 1."""
    weights = [int(plan[number] == choice) for number, train in enumerate(study.trains) for choice in range(len(train.choices))]
    for pair in study.pairs:
        weights += [int((plan[pair.first], plan[pair.second]) == both) for both in itertools.product(*(range(study.sizes[one]) for one in pair[:2]))]
    return lines.certify(1, weights).encode()


class Lists:
    """A list of lines by a seed, and what its figures are after each line, by the reference's replies and by the costs of plans counted up here."""

    def __init__(self, seed: int) -> None:
        self.random = random.Random(seed)
        self.lines = [self._load(), *(self._line() for _ in range(self.random.randrange(6, 40)))]
        self.study = replies.decode_load(self.lines[0].decode())
        self.figures: list[tuple[int, int | None, Fraction | None]] = []
        self.plans: set[tuple[int, ...]] = set()
        self.ceiling: Fraction | None = None
        self.bound = self.load = 0
        self.ended = self.without_plan = False
        for number, (line, reply) in enumerate(zip(self.lines, support.reference(self.lines), strict=True), 1):
            self._take(number, line.decode(), reply.decode())

    def _load(self) -> bytes:
        rand = self.random
        sizes = [rand.randrange(1, 4) for _ in range(rand.randrange(2, 5))]
        most, scale = rand.choice((2, 9, 200)), rand.choice((1, 2, 6, 7))
        self.now = study_of([[self._cost(most) for _ in range(size)] for size in sizes], [
            Pair(i, j, tuple(tuple(self._cost(most) for _ in range(sizes[j])) for _ in range(sizes[i])))
            for i, j in itertools.combinations(range(len(sizes)), 2) if rand.random() < 0.7
        ], scale)
        return lines.load(self.now).encode()

    def _cost(self, most: int) -> int | None:
        return None if self.random.random() < 0.1 else self.random.randrange(most)

    def _line(self) -> bytes:
        rand = self.random
        train = rand.randrange(len(self.now.trains))
        choice = rand.randrange(self.now.sizes[train])
        made = rand.choices([
            TIGHTEN, ROUND, SAVE, lines.search(rand.randrange(1, 12)).encode(), lines.add(train, choice, rand.randrange(1, 5)).encode(),
            certificate(self.now, [rand.randrange(size) for size in self.now.sizes]), lines.explain(train, choice, 3).encode(), b"0200", b"",
        ], (3, 3, 1, 8, 3, 3, 1, 1, 1))[0]
        if rand.random() < 0.04:
            made = self._load()
        return support.by_radio(made) if made and rand.random() < 0.2 else made

    def _take(self, number: int, line: str, reply: str) -> None:
        """Takes a line with the reference's reply."""
        asked, answer = lines.read(lines.plain(line)), reply
        if reply[:2] != "FF" and asked is not None:
            decoded = replies.decode(line, answer)
            if asked.encoder is lines.load:
                self.load, self.study = number, asked.arguments[0]
                self.plans, self.figures, self.ceiling, self.ended, self.without_plan = set(), [], None, False, False
            self._follow(asked, decoded)
        self.figures.append((self.bound, self.best(), self.ceiling))

    def _follow(self, asked: lines.Asked, decoded: replies.Reply) -> None:
        if isinstance(decoded, replies.Bound):
            self.bound = decoded.bound
        if asked.encoder is lines.add:
            self.study, self.ceiling, self.ended = added(self.study, *asked.arguments), None, False
        if isinstance(decoded, replies.Found):
            self.without_plan |= decoded.state is replies.WITHOUT_PLAN
            self.ended |= decoded.state is replies.ENDED
            self.plans |= {decoded.plan} if decoded.plan else set()
        if isinstance(decoded, replies.Ceiling):
            points = Fraction(decoded.E, decoded.W * self.study.scale)
            self.ceiling = points if self.ceiling is None else min(points, self.ceiling)
            self.plans |= {plan for plan in itertools.product(*map(range, self.study.sizes)) if certificate(self.study, plan).decode() == asked.again()}

    def best(self) -> int | None:
        """What the cheapest plan so far costs now."""
        return min((cost for plan in self.plans if (cost := cost_of(self.study, plan)) is not None), default=None)

    def state(self) -> str:
        """The state after the last line."""
        best = self.best()
        if best is None:
            return "no plan" if self.without_plan else "no plan yet"
        return "publish" if best == self.bound or self.ended else "unsettled"

    def series(self) -> list[Facts]:
        """The first and the last line of each run of equal figures since the load."""
        shown, numbered = [], list(enumerate(self.figures, self.load))
        for figures, run in itertools.groupby(numbered, key=lambda one: one[1]):
            numbers = [number for number, _ in run]
            for number in sorted({numbers[0], numbers[-1]}):
                bound, best, ceiling = figures
                shown.append({"line": number, "bound": bound, "best": best, "ceiling": None if ceiling is None else str(ceiling)})
        return shown


class FactsCase(support.DataCase):
    """Tests with a study whose facts are asked for."""

    def setUp(self) -> None:
        super().setUp()
        self.add()
        self.studies = Studies(self.data, self.library)

    def facts(self, *given: bytes | str, cell: tuple[int, int] | None = None) -> Facts:
        """The facts after more lines, as they come out of JSON."""
        if given:
            self.take([line if isinstance(line, bytes) else line.encode() for line in given])
        told: Facts = json.loads(json.dumps(facts.facts(self.studies, "study", cell)))
        return told

    def says(self, told: Facts, state: str, sentence: str, ground: str | None = None, line: int | None = None) -> None:
        """The facts say this state and sentence, with this ground."""
        self.assertEqual((told["state"], told["sentence"]), (state, sentence))
        self.assertEqual(told["ground"] and (told["ground"]["kind"], told["ground"]["line"]), ground and (ground, line))
        self.assertEqual([one["command"].split()[1] for one in told["next"]], {"nothing": ["import"], "unsettled": ["lift", "solve"],
                                                                              "no plan yet": ["lift", "solve"]}.get(state, []))


class StateTest(FactsCase):
    """Each state of the sentence."""

    def test_nothing_is_loaded(self) -> None:
        self.says(self.facts(), "nothing", "Nothing loaded")
        told = self.facts(b"04")
        self.says(told, "nothing", "Nothing loaded")
        self.assertEqual((told["lines"], told["last"][0]["declined"]), (1, 4))

    def test_no_plan_yet(self) -> None:
        self.says(self.facts(WORKED, TIGHTEN), "no plan yet", "No plan yet; no plan costs less than 2 points")

    def test_publish_by_the_bound(self) -> None:
        told = self.facts(*support.LINES[:4])
        self.says(told, "publish", "Publish: no plan costs less than 2 points", "bound", 3)
        self.assertEqual(told["ground"]["words"], "the bound equals the cost (line 3)")
        self.assertEqual(told["best"], {"cost": 2, "plan": [0, 1], "line": 4, "by_train": [["0", "0"], ["1", "1"]]})
        self.assertEqual(told["ceiling"], {"points": "2", "words": "2", "E": 2, "W": 1, "line": 3, "reached": True})

    def test_publish_by_a_search_that_ended(self) -> None:
        told = self.facts(WORKED, ENDING)
        self.says(told, "publish", "Publish: no plan costs less than 2 points", "search", 2)
        self.assertEqual(told["ground"]["words"], "a search ended (line 2) and nothing was added since")

    def test_an_addition_after_a_search_that_ended(self) -> None:
        """It makes the plan dearer, and the search says nothing of the costs of now."""
        self.facts(WORKED, ENDING)
        told = self.facts(lines.add(1, 1, 3))
        self.says(told, "unsettled", "Not settled: a plan of 5 points is at hand, the bound is 0: at most 5 points could be saved")
        self.assertEqual([figures["best"] for figures in told["series"]], [None, 2, 5])

    def test_an_addition_to_another_choice(self) -> None:
        """The plan costs as much as before; whether it is the best one still the search does not say."""
        told = self.facts(WORKED, ENDING, lines.add(0, 1, 1))
        self.says(told, "unsettled", "Not settled: a plan of 2 points is at hand, the bound is 0: at most 2 points could be saved")

    def test_a_worse_later_search(self) -> None:
        told = self.facts(WORKED, ENDING, SPENDING)
        self.assertEqual(told["last"][0]["answered"], "spent after 2 tries: plan 0 0 costs 3 points")
        self.says(told, "publish", "Publish: no plan costs less than 2 points", "search", 2)
        self.assertEqual(told["best"]["plan"], [0, 1])

    def test_a_certificate_of_a_plan(self) -> None:
        """With W = 1 it shows a plan, and what this costs."""
        told = self.facts(WORKED, certificate(replies.decode_load(WORKED.decode()), [1, 0]))
        self.says(told, "unsettled", "Not settled: a plan of 3 points is at hand, the bound is 0: at most 3 points could be saved")
        self.assertEqual((told["best"]["plan"], told["best"]["line"], told["ceiling"]["points"]), ([1, 0], 2, "3"))

    def test_there_is_no_plan(self) -> None:
        closed = study_of([[0, None], [1, 2]], [Pair(0, 1, ((None, None), (0, 0)))])
        told = self.facts(lines.load(closed), ENDING, lines.add(0, 0, 4))
        self.says(told, "no plan", "There is no plan", "search", 2)
        self.assertEqual((told["best"], told["cell"]), (None, None))

    def test_forbidden_entries(self) -> None:
        told = self.facts(lines.load(study_of([[None, 3], [1, 0]], [Pair(0, 1, ((0, 0), (None, 4)))])), ENDING, cell=(0, 0))
        self.says(told, "publish", "Publish: no plan costs less than 7 points", "search", 2)
        self.assertEqual(told["best"]["plan"], [1, 1])
        self.assertEqual([(choice["words"], choice["forbidden"], choice["planned"]) for choice in told["trains"][0]["choices"]],
                         [("✕", True, False), ("3", False, True)])
        self.assertEqual(told["pairs"], [{"first": 0, "second": 1, "cost": [[0, 0], [None, 4]], "left": [[0, 0], [None, 4]]}])
        self.assertEqual((told["cell"]["ground"], told["cell"]["reason"]), ("The choice is forbidden.", "by itself"))

    def test_a_constant_between_points(self) -> None:
        """3 parts of 2 to a point are a bound of 2 points, which the plan of 2 points meets."""
        told = self.facts(lines.load(study_of([[2, 3]], scale=2)), lines.shift([3], []))
        self.says(told, "no plan yet", "No plan yet; no plan costs less than 2 points")
        told = self.facts(lines.search(1))
        self.says(told, "publish", "Publish: no plan costs less than 2 points", "bound", 3)
        self.assertEqual((told["scale"], told["constant"], told["bound"]), (2, 3, 2))
        self.assertEqual([(choice["cost"], choice["left"], choice["words"]) for choice in told["trains"][0]["choices"]], [(2, 1, "1/2"), (3, 3, "1 1/2")])

    def test_another_load(self) -> None:
        """What was found before it counts no more."""
        self.facts(WORKED, ENDING)
        self.says(self.facts(WORKED), "no plan yet", "No plan yet; no plan costs less than 0 points")

    def test_a_damaged_database(self) -> None:
        self.facts(WORKED, ENDING)
        store.database(self.data, "study").write_bytes(b"no database" * 1000)
        told = self.facts()
        self.assertEqual((told["state"], told["series"], told["bound"]), ("unreadable", [], None))
        self.assertRegex(told["sentence"], "^Study study cannot be used: ")
        self.assertEqual(facts.overview(self.studies)[0]["state"], "unreadable")

    def test_a_block_that_is_not_the_one_of_the_log(self) -> None:
        self.facts(WORKED)
        self.edit("UPDATE block SET packed = ?", records.pack(self.library.fresh()))
        self.studies = Studies(self.data, self.library)
        self.assertEqual(self.facts()["sentence"], "Study study cannot be used: the stored block is not the one after line 1")

    def test_a_study_that_is_removed_and_added_anew(self) -> None:
        self.facts(WORKED, ENDING)
        store.remove(self.data, "study")
        with self.assertRaises(StudyError):
            self.facts()
        self.add()
        self.says(self.facts(), "nothing", "Nothing loaded")
        self.facts(WORKED, ENDING)
        store.remove(self.data, "study")
        self.add()
        self.says(self.facts(WORKED, TIGHTEN, TIGHTEN), "no plan yet", "No plan yet; no plan costs less than 2 points")


class ProofTest(FactsCase):
    """A proof that is kept of these very costs, and others."""

    def setUp(self) -> None:
        super().setUp()
        self.facts(WORKED, SPENDING)
        self.unsettled = "Not settled: a plan of 3 points is at hand, the bound is 0: at most 3 points could be saved"

    def keep(self, *rows: Facts, save: str = WORKED.decode()) -> None:
        """Keeps a proof with these rows behind the one of its save line."""
        folder = store.database(self.data, "study").parent / "proofs"
        folder.mkdir(exist_ok=True)
        text = "".join(json.dumps(row) + "\n" for row in ({"save": save}, *rows))
        (folder / sha256(save.encode()).hexdigest()).write_text(text)

    def test_a_proof_of_these_costs(self) -> None:
        self.says(self.facts(), "unsettled", self.unsettled)
        self.keep({"plan": [0, 1], "cost": 2})
        told = self.facts()
        self.says(told, "publish", "Publish: no plan costs less than 2 points", "proof")
        self.assertEqual((told["best"]["plan"], told["best"]["line"]), ([0, 1], None))

    def test_a_proof_with_other_parts_a_point(self) -> None:
        self.keep({"plan": [0, 1], "cost": 2}, save=lines.with_scale(WORKED.decode(), 840))
        self.says(self.facts(), "publish", "Publish: no plan costs less than 2 points", "proof")

    def test_a_proof_of_older_costs(self) -> None:
        self.keep({"plan": [0, 1], "cost": 2})
        self.says(self.facts(lines.add(1, 1, 3)), "unsettled", self.unsettled)

    def test_proofs_that_say_nothing(self) -> None:
        end: Facts = {"plan": [0, 1], "cost": 2}
        others: list[Facts] = [{"plan": [0, 1], "cost": 1}, {"plan": [0, 7], "cost": 2}, {"plan": 3, "cost": 2}]
        kept: list[list[Facts]] = [*([other] for other in others), [{"open": [[0], [1]]}, end], [], [end, {}]]
        for rows in kept:
            with self.subTest(rows=rows):
                self.keep(*rows)
                self.says(self.facts(), "unsettled", self.unsettled)

    def test_a_proof_of_other_costs_under_this_name(self) -> None:
        self.keep({"plan": [0, 1], "cost": 2})
        (kept,) = (store.database(self.data, "study").parent / "proofs").iterdir()
        kept.write_text(kept.read_text().replace(WORKED.decode(), lines.save()))
        self.says(self.facts(), "unsettled", self.unsettled)

    def test_a_proof_that_there_is_no_plan(self) -> None:
        closed = lines.load(study_of([[0], [0]], [Pair(0, 1, ((None,),))]))
        self.says(self.facts(closed), "no plan yet", "No plan yet; no plan costs less than 0 points")
        self.keep({"plan": None, "cost": None}, save=closed)
        self.says(self.facts(), "no plan", "There is no plan", "proof")


class FigureTest(FactsCase):
    """Figures against the reference's replies, and what is shown beside them."""

    def test_lists_of_lines(self) -> None:
        for seed in SEEDS:
            with self.subTest(seed=seed):
                store.remove(self.data, "study")
                self.add()
                self._compare(Lists(seed))

    def _compare(self, by_reference: Lists) -> None:
        at = by_reference.random.randrange(len(by_reference.lines))
        for part in (by_reference.lines[:at], by_reference.lines[at:]):
            study = self.open()
            study.take_all(part)
            study.close()
            told = self.facts()
        shown = [told[name] for name in ("state", "lines", "load", "scale", "bound", "series")]
        expected = by_reference
        scale = expected.study.scale
        self.assertEqual(shown, [expected.state(), len(expected.lines), expected.load, scale, expected.bound, expected.series()])
        self.assertEqual(told["best"] and told["best"]["cost"], expected.best())
        self.assertEqual(told["ceiling"] and Fraction(told["ceiling"]["points"]), expected.ceiling)
        costs = [[choice["cost"] for choice in train["choices"]] for train in told["trains"]]
        self.assertEqual(costs, [[choice.cost for choice in train.choices] for train in expected.study.trains])
        self.assertEqual([pair["cost"] for pair in told["pairs"]], [[list(row) for row in pair.costs] for pair in expected.study.pairs])
        if told["best"]:
            self._compare_plan(told, expected)

    def _compare_plan(self, told: Facts, expected: Lists) -> None:
        """Constant and what is left in the tables come to what the plan costs; and each choice is out for the reference's reason."""
        plan, cost, scale = told["best"]["plan"], told["best"]["cost"], told["scale"]
        self.assertEqual(cost_of(expected.study, plan), cost)
        left = [train["choices"][choice]["left"] for train, choice in zip(told["trains"], plan, strict=True)]
        left += [pair["left"][plan[pair["first"]]][plan[pair["second"]]] for pair in told["pairs"]]
        self.assertEqual(told["constant"] + sum(left), scale * cost)
        cells = [(train, choice) for train, size in enumerate(expected.study.sizes) for choice in range(size)]
        asked = [lines.explain(*cell, cost) for cell in cells]
        answers = support.reference([*expected.lines, *(line.encode() for line in asked)])[-len(asked):]
        for cell, line, answer in zip(cells, asked, answers, strict=True):
            reason = replies.decode(line, answer.decode())
            assert isinstance(reason, replies.Reason)
            shown = self.facts(cell=cell)["cell"]
            self.assertEqual((shown["limit"], shown["reason"], shown["partner"]), (cost, facts.REASONS[reason.reason], reason.partner))

    def test_a_cell_that_is_not_there(self) -> None:
        self.facts(WORKED)
        for cell in ((2, 0), (0, 2), (-1, 0), (0, -1)):
            self.assertIsNone(self.facts(cell=cell)["cell"])

    def test_a_cell_with_a_partner(self) -> None:
        """Lines 19 to 21 of the README's session, at the limit of the best plan: 3 points by line 18 and two additions."""
        told = self.facts(lines.clauses(2, 1, [(1, 2, 5), (-1, 0, 2), (-2, 1, 1)]), lines.search(10), lines.add(0, 1, 1), cell=(1, 1))
        self.assertEqual((told["cell"]["limit"], told["cell"]["reason"], told["cell"]["partner"]), (2, "with partner", 0))
        self.assertIn("Every plan with this choice costs 2 points or more", told["cell"]["ground"])

    def test_names(self) -> None:
        study = replies.decode_load(WORKED.decode())
        named = labels.Labels(("<script>alert(1)</script>", "S 1"), (("a", "b"), ("c", "d"))).on(study)
        labels.keep(named, store.database(self.data, "study").parent)
        told = self.facts(WORKED, ENDING, cell=(0, 1))
        self.assertEqual(told["best"]["by_train"], [["<script>alert(1)</script>", "a"], ["S 1", "d"]])
        self.assertEqual(told["cell"]["names"], ["<script>alert(1)</script>", "b"])
        self.assertIn("S 1: d", told["last"][0]["answered"])
        self.assertIsNone(told["names_left_out"])
        told = self.facts(lines.load(study_of([[1], [2]])))
        self.assertIn("the names are left out", told["names_left_out"])

    def test_the_last_lines(self) -> None:
        told = self.facts(WORKED, *([TIGHTEN] * 25), support.by_radio(TIGHTEN), b"0200")
        self.assertEqual([line["number"] for line in told["last"]], list(range(28, 8, -1)))
        declined, by_radio = told["last"][:2]
        self.assertEqual((declined["declined"], declined["line"], declined["reply"]), (5, "0200", "FF05"))
        self.assertEqual(declined["reason"], "a field is not wholly there, or bytes are left over")
        self.assertEqual((by_radio["radio"], by_radio["asked"], by_radio["declined"]), (True, "tighten", None))

    def test_the_overview(self) -> None:
        told = self.facts(WORKED, TIGHTEN, ENDING)
        store.create(self.data, Settings("another", Address("", 0, str(self.data / "another.socket")), False))
        shown: list[dict[str, Any]] = facts.overview(self.studies)
        self.assertEqual(shown[0], {"name": "another", "state": "nothing", "sentence": "Nothing loaded", "bound": None, "best": None, "lines": 0, "time": None})
        self.assertEqual(shown[1], {**{key: told[key] for key in shown[0]}, "best": 2})


class Counting(sqlite3.Connection):
    """A connection that counts the rows of lines that are read by it."""

    rows = 0

    def execute(self, statement: str, *values: Any) -> Any:
        """Carries out a statement."""
        cursor = super().execute(statement, *values)
        return self._counted(cursor) if f"{records.LINE_COLUMNS} FROM lines" in statement else cursor

    @staticmethod
    def _counted(cursor: sqlite3.Cursor) -> Iterator[Any]:
        for row in cursor:
            Counting.rows += 1
            yield row


class ReadingTest(FactsCase):
    """How much is read, and how."""

    def rows(self) -> int:
        """How many rows of lines are read for the facts of now."""
        connect = sqlite3.connect
        Counting.rows = 0
        with mock.patch.object(sqlite3, "connect", functools.partial(connect, factory=Counting)):
            self.facts()
        return Counting.rows

    def test_each_line_is_read_once(self) -> None:
        """For an update as many rows are read as there are new lines, also with a load among them."""
        self.assertEqual(self.rows(), 0)
        lists: list[list[bytes]] = [[WORKED], [TIGHTEN] * 30, [], [lines.search(10).encode()], [TIGHTEN, WORKED, *[TIGHTEN] * 3], [b"", b"0200"]]
        for given in lists:
            self.take(given)
            self.assertEqual(self.rows(), len(given))
        self.assertEqual(self.facts()["load"], 34)

    def test_lines_before_the_load_are_shown(self) -> None:
        """The first view reads as many lines as are shown, though the load is among them."""
        self.take([WORKED, *[TIGHTEN] * 30, WORKED, TIGHTEN])
        self.assertEqual(self.rows(), 20)
        told = self.facts()
        self.assertEqual([line["number"] for line in told["last"]], list(range(33, 13, -1)))
        self.assertEqual([figures["line"] for figures in told["series"]], [32, 33])

    def test_many_lines(self) -> None:
        """The first view of a study with 100,000 lines reads those since the load."""
        self._store_refused(100_000)
        self.take([WORKED, *[TIGHTEN] * 40, ENDING.encode()])
        self.assertEqual(self.rows(), 42)
        told = self.facts()
        self.says(told, "publish", "Publish: no plan costs less than 2 points", "bound", 100_042)
        self.assertEqual((told["lines"], told["load"]), (100_042, 100_001))
        self.assertEqual(self.rows(), 0)

    def _store_refused(self, count: int) -> None:
        """Stores so many lines that were declined, on a fresh block."""
        connection = sqlite3.connect(store.database(self.data, "study"))
        fresh, library = self.library.fresh(), self.library.sha256
        row = ("2026-01-01T00:00:00.000+00:00", library, TIGHTEN, b"FF04", records.sha256(fresh))
        connection.executemany("INSERT INTO lines VALUES (?, ?, ?, ?, ?, ?)", ((number, *row) for number in range(1, count + 1)))
        connection.execute("INSERT INTO starts VALUES (1, ?, ?)", (library, records.pack(fresh)))
        connection.execute("INSERT INTO block VALUES (1, ?)", (records.pack(fresh),))
        connection.commit()
        connection.close()

    def test_a_long_series(self) -> None:
        """300 additions, each with two lines behind it that leave the best cost: of the 302 runs, 200 are drawn, the first two of which have one line each."""
        study = self.open()
        study.take_all([lines.load(study_of([[0]])).encode(), lines.search(1).encode(), *[lines.add(0, 0, 1).encode(), SAVE, SAVE] * 300])
        series = self.facts()["series"]
        self.assertEqual(len(series), 398)
        self.assertEqual(series[:2], [{"line": line, "bound": 0, "best": best, "ceiling": None} for line, best in ((1, None), (2, 0))])
        self.assertEqual(series[-2:], [{"line": line, "bound": 0, "best": 300, "ceiling": None} for line in (900, 902)])
        for first, last in zip(series[2::2], series[3::2], strict=True):
            self.assertEqual((first["best"], last["best"], last["line"]), (first["line"] // 3, first["line"] // 3, first["line"] + 2))

    def test_a_study_that_is_written_meanwhile(self) -> None:
        """A host has it open: its lines are read, and it goes on answering."""
        study = self.open()
        for line, lines_now in ((WORKED, 1), (TIGHTEN, 2)):
            study.take(line)
            self.assertEqual(self.facts()["lines"], lines_now)

    def test_a_folder_that_is_not_to_be_written(self) -> None:
        """With the host down, and with it at work."""
        self.take([WORKED, ENDING.encode()])
        self._permit_reading()
        self.assertEqual(self._read_as_nobody()["sentence"], "Publish: no plan costs less than 2 points")
        study = self.open()
        study.take(lines.add(1, 1, 3).encode())
        self._permit_reading()
        self.assertEqual(self._read_as_nobody()["best"]["cost"], 5)

    def _permit_reading(self) -> None:
        """Lets everybody read the data folder, and nobody but the owner write it."""
        for path in (self.data, *self.data.rglob("*")):
            path.chmod(0o755 if path.is_dir() else 0o644)

    def _read_as_nobody(self) -> Facts:
        """The facts, by a process that cannot write the data folder."""
        if os.geteuid() != 0:
            self.skipTest("only root can become somebody else")
        reader, writer = os.pipe()
        child = os.fork()
        if child == 0:
            try:
                os.setgid(NOBODY)
                os.setuid(NOBODY)
                os.write(writer, json.dumps(facts.facts(Studies(self.data, self.library), "study")).encode())
            finally:
                os._exit(0)
        os.close(writer)
        with open(reader, "rb") as pipe:
            told: Facts = json.loads(pipe.read())
        os.waitpid(child, 0)
        return told

    def test_reading_as_one_that_nobody_changes(self) -> None:
        """It is for a database that cannot be opened otherwise and has no log; and void where one is there afterwards."""
        self.take([WORKED])
        path = store.database(self.data, "study")
        with mock.patch.object(reading, "READING", "mode=none"):
            self.assertEqual(reading.read(path, "study", reading.last_number), 1)
            with self.assertRaises(reading.Changed):
                reading.read(path, "study", lambda _: reading.log(path).touch())
            with self.assertRaises(store.Unusable):
                reading.read(path, "study", reading.last_number)
