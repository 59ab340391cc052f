"""`solve` on a host at work: what it sends, what it finds beside the least cost by all plans, how it is ended, and that it goes on from there."""

import itertools
import json
import os
import pty
import random
import signal
import subprocess
import sys
import time
from collections.abc import Callable, Iterator
from contextlib import contextmanager
from pathlib import Path
from typing import Any
from unittest import mock

from hosting import calling, library, recheck, solving
from hosting.tests import running, support
from hosting.tests.running import Running
from hosting.tests.test_desk import CLOSED, DONE, FAILED, FOUND, TWO, DeskTest, cost_of
from junction import formats, lines
from junction.services import Service
from junction.solving import ladder
from junction.solving.settle import Progress
from junction.study import Choice, Cost, Pair, Study, Train

# Searches of so few tries end in small parts alone: a plan of nine trains with four choices takes up to 36 tries.
FEW_TRIES = 40
# How long each line of a part takes where a settling is to be ended before its end, which is some 200 lines away; and how long a whole settling may.
LINE_SECONDS, SECONDS = 0.05, 2
WITH_FEW_TRIES = f"""
import sys, time
from hosting import commands, solving
from junction.solving import ladder
solving.BUDGET = ladder.SMALL_BUDGET = ladder.GREAT_BUDGET = {FEW_TRIES}
tell = solving.Told.__call__
solving.Told.__call__ = lambda told, progress: (time.sleep({LINE_SECONDS}), tell(told, progress))
sys.exit(commands.main(sys.argv[1:]))
"""


def study(seed: int, trains: int, choices: int, costs: tuple[Cost, ...] = (0, 1), scale: int = 12) -> Study:
    """A study by a seed, in which each train has a pair with each other one."""
    chance = random.Random(seed)

    def cost() -> Cost:
        return chance.choice(costs)

    def row() -> tuple[Cost, ...]:
        return tuple(cost() for _ in range(choices))

    of_trains = tuple(Train(str(train), tuple(Choice(str(choice), cost()) for choice in range(choices))) for train in range(trains))
    pairs = tuple(Pair(i, j, tuple(row() for _ in range(choices))) for i, j in itertools.combinations(range(trains), 2))
    return Study(of_trains, pairs, scale)


def least(of: Study) -> int | None:
    """What the cheapest plan costs, train by train, by all plans but those that are too dear already; None where there is none."""
    pairs: list[list[Pair]] = [[pair for pair in of.pairs if pair.second == train] for train in range(len(of.trains))]

    def cheapest(plan: tuple[int, ...], so_far: int, best: int | None) -> int | None:
        if len(plan) == len(of.trains):
            return so_far
        for choice, (_, own) in enumerate(of.trains[len(plan)].choices):
            costs = [own, *(pair.costs[plan[pair.first]][choice] for pair in pairs[len(plan)])]
            known = [cost for cost in costs if cost is not None]
            if len(known) == len(costs) and (best is None or so_far + sum(known) < best):
                best = cheapest((*plan, choice), so_far + sum(known), best)
        return best

    return cheapest((), 0, None)


# Each entry is 0 or 1: the bounds of large parts are low, so that there are many parts where searches are short.
MANY_PARTS = study(4, 9, 4)


class SolveTest(DeskTest):
    """Tests with a file for a proof."""

    @property
    def proof(self) -> Path:
        """The file for a proof."""
        return self.host.data / f"{self.name}.proof"

    def sent(self) -> list[str]:
        """The kinds of the stored lines behind the load."""
        return [line.decode()[:2] for line, _ in self.host.stored(self.name)[1:]]

    def solved(self, status: int, *options: object) -> dict[str, Any]:
        """What solve says as JSON, when it ends with a status."""
        done = self.run_command("solve", self.name, "--json", *options)
        self.assertEqual((done.returncode, done.stderr), (status, ""), done)
        return dict(json.loads(done.stdout))

    def taken(self) -> dict[str, Any]:
        """What recheck says of the proof, which it takes."""
        done = self.run_command("recheck", self.proof, "--json")
        self.assertEqual((done.returncode, done.stderr), (DONE, ""))
        return dict(json.loads(done.stdout))


@contextmanager
def searches(tries: int, of_parts: bool = False) -> Iterator[None]:
    """Searches of the study, and of parts where these are meant too, have so many tries at most."""
    with mock.patch.object(solving, "BUDGET", tries):
        if not of_parts:
            yield
            return
        with mock.patch.multiple(ladder, SMALL_BUDGET=tries, GREAT_BUDGET=tries):
            yield


class OnTheStudy(SolveTest):
    """Where a search of the study itself ends, its own log has the ground."""

    def test_lines_that_lose_nothing(self) -> None:
        self.load(MANY_PARTS)
        facts = self.solved(DONE)
        cost = least(MANY_PARTS)
        self.assertEqual((facts["cost"], facts["bound"], facts["settled"], facts["parts"], facts["open"]), (cost, cost, True, 0, 0))
        self.assertEqual(cost_of(MANY_PARTS, tuple(facts["plan"])), cost)
        self.assertEqual((self.sent()[0], self.sent()[-1]), ("03", "06"))
        self.assertLessEqual(set(self.sent()), {"03", "0B", "06"})
        self.assertEqual(self.asked(lines.save()), [lines.load(MANY_PARTS)])
        self.verified(self.host, self.name)

    def test_nothing_is_sent_to_a_study_that_is_settled(self) -> None:
        self.load(TWO)
        words = "RE 5: platform 2\nS 1: platform 1\ncost 5 points, bound 5 points, settled: no plan costs less (line {})\n"
        printed = self.done("solve", self.name)
        sent = len(self.host.stored(self.name))
        self.assertEqual(printed, words.format(sent))
        self.assertEqual(self.done("solve", self.name), printed)
        self.assertEqual(len(self.host.stored(self.name)), sent)

    def test_no_plan(self) -> None:
        self.load(CLOSED)
        self.assertEqual(self.done("solve", self.name), f"there is no plan: settled (line {len(self.host.stored(self.name))})\n")
        facts = self.solved(DONE)
        self.assertEqual((facts["cost"], facts["bound"], facts["plan"], facts["settled"]), (None, None, None, True))

    def test_an_addition_after_the_search(self) -> None:
        self.load(TWO)
        self.done("solve", self.name)
        self.asked(lines.add(1, 0, 9))
        self.assertEqual(self.solved(DONE)["cost"], 9)

    def test_others_shift_it_meanwhile(self) -> None:
        self.load(Study((Train("0", (Choice("0", 10), Choice("1", 11))),), (), 1))
        ask = Service._decoded
        with mock.patch.object(Service, "_decoded", lambda service, line: (self.asked(lines.tighten()), ask(service, line))[1]):
            facts = self.solved(DONE)
        self.assertEqual((facts["cost"], [reply for _, reply in self.host.stored(self.name)].count(b"FF0C")), (10, 1))

    def test_nothing_is_loaded(self) -> None:
        self.assertEqual(self.said(FAILED, "solve", self.name), f"host: study {self.name}: nothing is loaded\n")


class InParts(SolveTest):
    """Where it does not end, a copy is settled in parts."""

    def test_each_proof_is_taken(self) -> None:
        """20 studies by seeds, some of them without a plan."""
        without = 0
        for seed in range(20):
            of = study(seed, 5, 3, (0, 1, 7, None) if seed % 2 else (0, 3, 4, 40, None, None), 1 + seed)
            self.load(of)
            with searches(FEW_TRIES):
                facts = self.solved(DONE, "--proof", self.proof)
            cost = least(of)
            without += cost is None
            self.assertEqual((facts["cost"], facts["bound"], facts["settled"], facts["open"]), (cost, cost, True, 0), seed)
            taken = self.taken()
            self.assertEqual((taken["cost"], taken["kept"], taken["parts"]), (cost, [self.name], facts["parts"]), seed)
            if cost is not None:
                self.assertEqual(cost_of(of, tuple(facts["plan"])), cost)
            self.refused_without_any_part()
        self.assertIn(without, range(1, 20))
        self.verified(self.host, self.name)

    def refused_without_any_part(self) -> None:
        """The proof is refused with a part dropped, and with a part twice. Only a part without plans may be missing."""
        save, *settled, end = self.proof.read_bytes().splitlines()
        for part in filter(lambda part: all(json.loads(part)["part"]), settled):
            others = [other for other in settled if other is not part]
            for changed in (others, [*settled, part]):
                with self.assertRaises(recheck.Wrong):
                    recheck.check(b"\n".join([save, *changed, end]), library.installed())

    def test_the_study_gets_the_plan(self) -> None:
        self.load(MANY_PARTS)
        with searches(FEW_TRIES):
            facts = self.solved(DONE)
        cost = least(MANY_PARTS)
        line, reply = self.host.stored(self.name)[-1]
        self.assertEqual(line.decode()[:8], "05000001")
        self.assertEqual((int(reply[4:20], 16), facts["cost"]), (12 * (cost or 0), cost))
        for command in ("plan", "show"):
            shown = self.facts(command, self.name)
            best = shown if command == "plan" else shown["best_plan"]
            self.assertEqual((best["plan"], best["cost"]), (facts["plan"], cost))

    def test_a_plan_of_a_certificate_gets_dearer(self) -> None:
        self.load(TWO)
        with searches(FEW_TRIES):
            self.assertEqual(self.solved(DONE, "--proof", self.proof)["plan"], [1, 0])
        self.asked(lines.add(0, 1, 2))
        self.assertEqual((self.facts("plan", self.name)["cost"], self.facts("plan", self.name)["plan"]), (7, [1, 0]))
        self.assertNotIn(self.name, self.taken()["kept"])

    def test_others_change_it_meanwhile(self) -> None:
        """The plan goes to the study, at what it costs there now, where it has these trains and choices; else it cannot."""
        larger = study(0, 3, 2)
        forbidden = Study(self.two().trains, (Pair(0, 1, ((0, 0), (None, None))),))
        for line, status, said, last in (
            (lines.add(0, 1, 2), DONE, "", (b"05", b"85")),
            (lines.load(larger), DONE, "", (b"01", b"81")),
            (lines.load(forbidden), FAILED, "host: the plan was not sent to study others_change_it_meanwhile: declined, 18: ", (b"05", b"FF")),
        ):
            self.load(TWO)
            with searches(FEW_TRIES), ending(lambda: self.asked(line), after=1):
                done = self.run_command("solve", self.name, "--json", "--proof", self.proof)
            self.assertEqual((done.returncode, json.loads(done.stdout)["cost"]), (status, 5))
            self.assertIn(f"host: study {self.name} has other costs by now: this holds of those it had before\n{said}", done.stderr)
            self.assertEqual(tuple(text[:2] for text in self.host.stored(self.name)[-1]), last)
            self.assertNotIn(self.name, self.taken()["kept"])

    def two(self) -> Study:
        """The study of two trains."""
        return formats.read(str(self.file("csv", TWO)), "csv", None).study

    def test_a_plan_of_a_certificate_over_train_radio(self) -> None:
        """The last of two is the better one; one with W = 2 is no plan, nor is one that was declined."""
        of = Study((Train("0", (Choice("0", 4), Choice("1", 3))), Train("1", (Choice("0", 1), Choice("1", 0)))), (Pair(0, 1, ((0, 0), (0, 9))),), 1)
        self.load(of)
        dear, cheap = [1, 0, 1, 0, 1, 0, 0, 0], [0, 1, 1, 0, 0, 0, 1, 0]
        both = [first + second for first, second in zip(dear, cheap)]
        for full, weights in ((1, dear), (1, cheap), (2, both), (1, both)):
            self.asked(lines.by_radio(lines.certify(full, weights)))
        self.assertEqual([reply[:2] for _, reply in self.host.stored(self.name)][-4:], [b"C5", b"C5", b"C5", b"FF"])
        best = self.facts("plan", self.name)
        self.assertEqual((best["plan"], best["cost"], best["line"]), ([1, 0], 4, len(self.host.stored(self.name)) - 2))

    def test_words(self) -> None:
        self.load(TWO)
        with searches(1):
            printed = self.done("solve", self.name, "--proof", self.proof)
            again = self.done("solve", self.name, "--resume", self.proof)
        plan = "RE 5: platform 2\nS 1: platform 1\n"
        self.assertRegex(printed, f"{plan}cost 5 points, bound 5 points, settled: no plan costs less \\([12] parts?\\); recheck takes {self.proof}\n")
        self.assertTrue(again.endswith("; with --proof FILE it writes what recheck takes, and keeps with the study\n"), again)

    def test_a_proof_that_cannot_be_written(self) -> None:
        self.load(TWO)
        for path in (self.host.data, self.host.data / "none" / "proof"):
            self.assertEqual(self.said(FAILED, "solve", self.name, "--proof", path), f"host: a proof cannot be written to {path}\n")
        self.assertEqual(self.sent(), [])

    def test_a_proof_of_a_study_that_its_log_settles(self) -> None:
        """The log settles it, also where the proof is not brought to its end."""
        self.load(TWO)
        self.done("solve", self.name)
        line = len(self.host.stored(self.name))
        with ending(signalled(signal.SIGINT), after=0):
            facts = self.solved(FOUND, "--proof", self.proof)
        self.assertEqual((facts["cost"], facts["bound"], facts["settled"], facts["open"], facts["line"]), (5, 5, True, 1, line))
        facts = self.solved(DONE, "--proof", self.proof)
        self.assertEqual((facts["cost"], facts["bound"], facts["open"], facts["line"]), (5, 5, 0, None))
        self.assertIn(self.name, self.taken()["kept"])


class Ended(SolveTest):
    """It is ended before its end, and goes on from there."""

    def test_by_signals_and_by_time(self) -> None:
        """Each ends it in order: what it says is true, the proof has what is open, and the next run has the least cost."""
        self.load(MANY_PARTS)
        cost = least(MANY_PARTS)
        assert cost is not None
        for does in (signalled(signal.SIGINT), signalled(signal.SIGTERM), over):
            self.proof.unlink(missing_ok=True)
            with searches(FEW_TRIES, of_parts=True), ending(does):
                facts = self.solved(FOUND, "--proof", self.proof, *(("--seconds", SECONDS) if does is over else ()))
            self.assertFalse(facts["settled"])
            self.assertGreater(facts["open"], 0)
            self.assertLessEqual(facts["bound"], cost)
            self.assertGreaterEqual(facts["cost"], cost)
            self.assertEqual(cost_of(MANY_PARTS, tuple(facts["plan"])), facts["cost"])
            self.assertIn("the part is open", self.said(FOUND, "recheck", self.proof))
            resumed = self.solved(DONE, "--resume", self.proof, "--proof", self.proof)
            self.assertEqual((resumed["cost"], resumed["bound"]), (cost, cost))
            self.assertGreaterEqual(resumed["parts"], facts["parts"])
            self.assertEqual(self.taken()["cost"], cost)
            self.assertIn(self.name, self.taken()["kept"])

    def test_the_plan_of_the_log_is_known(self) -> None:
        """What others find between two runs counts, and what is said when it is ended at once is what the study's own log has."""
        self.load(MANY_PARTS)
        with searches(FEW_TRIES), ending(signalled(signal.SIGINT), after=0):
            facts = self.solved(FOUND, "--proof", self.proof)
        self.asked(lines.search(1_000_000))
        bound = self.facts("show", self.name)["bound"]
        self.assertEqual((facts["bound"], facts["parts"], facts["open"]), (bound, 0, 1))
        self.assertGreater(facts["cost"], least(MANY_PARTS) or 0)
        with ending(signalled(signal.SIGINT), after=0):
            facts = self.solved(FOUND, "--resume", self.proof)
        self.assertEqual((facts["cost"], facts["open"], facts["line"]), (least(MANY_PARTS), 1, len(self.host.stored(self.name)) - 1))

    def test_told_elsewhere_than_on_a_terminal(self) -> None:
        self.load(MANY_PARTS)
        with searches(FEW_TRIES), mock.patch.object(solving, "WRITTEN_SECONDS", 0):
            done = self.run_command("solve", self.name)
        words = r"host: (no plan yet|best cost \d+ points?), bound \d+ points?, \d+ parts? settled, \d+ open, \d+ s"
        self.assertGreater(len(done.stderr.splitlines()), 3)
        for line in done.stderr.splitlines():
            self.assertRegex(line, f"^{words}$")

    def test_a_host_that_ends_meanwhile(self) -> None:
        host = self.running("north")
        with calling.service(host.data, "north") as service:
            service.load(MANY_PARTS)
        with searches(FEW_TRIES), ending(host.stop, after=1), mock.patch.object(calling, "WAIT_SECONDS", 0):
            done = self.run_on(host, "solve", "north", "--json")
        self.assertEqual((done.returncode, json.loads(done.stdout)["cost"]), (FAILED, least(MANY_PARTS)))
        self.assertIn("host: the plan was not sent to study north: study north is not served at ", done.stderr)

    def run_on(self, host: Running, *arguments: str) -> subprocess.CompletedProcess[str]:
        """Carries out a command in this process, on another host's data."""
        with mock.patch.object(self, "host", host):
            return self.run_command(*arguments)

    def test_a_process_on_a_terminal(self) -> None:
        self.load(MANY_PARTS)
        arguments = ["solve", self.name, "--proof", str(self.proof), "--data", str(self.host.data)]
        ours, theirs = pty.openpty()
        command = [sys.executable, "-c", WITH_FEW_TRIES, *arguments]
        with subprocess.Popen(command, stdout=subprocess.PIPE, stderr=theirs, cwd=support.ROOT, text=True) as solver:
            os.close(theirs)
            self.addCleanup(os.close, ours)
            shown = b""
            while b" open, " not in shown:
                shown += os.read(ours, 1000)
            solver.send_signal(signal.SIGINT)
            printed, _ = solver.communicate(timeout=running.PATIENCE)
        self.assertEqual(solver.returncode, FOUND)
        self.assertRegex(shown.decode(), r"\r\x1b\[K(no plan yet|best cost \d+ points?), bound \d+ points?, \d+ parts? settled, [\d,]+ open, \d+ s")
        self.assertRegex(printed, r"not settled: a plan may cost less \(\d+ parts? settled, [\d,]+ open\); solve --resume takes ")
        self.assertEqual(self.solved(DONE, "--resume", self.proof)["cost"], least(MANY_PARTS))

    def test_a_proof_that_is_not_to_be_gone_on_with(self) -> None:
        self.load(MANY_PARTS)
        with searches(FEW_TRIES, of_parts=True), ending(signalled(signal.SIGINT)):
            self.solved(FOUND, "--proof", self.proof)
        whole = self.proof.read_text()
        sent = len(self.host.stored(self.name))
        rows = whole.splitlines()
        self.proof.write_text("\n".join(row for row in rows if row != rows[-2]))
        self.assertIn(f"{self.proof} cannot be gone on with: line ", self.said(FAILED, "solve", self.name, "--resume", self.proof))
        self.proof.write_text(whole)
        self.asked(lines.add(0, 0, 1))
        self.assertIn("other costs", self.said(FAILED, "solve", self.name, "--resume", self.proof))
        self.assertEqual(len(self.host.stored(self.name)), sent + 1)


@contextmanager
def ending(does: Callable[[], object], after: int = 20) -> Iterator[None]:
    """While a study is settled something is done, before one of its lines."""
    left = itertools.count(after, -1)
    tell = solving.Told.__call__

    def telling(told: solving.Told, progress: Progress) -> None:
        if next(left) == 0:
            does()
        tell(told, progress)

    before = [signal.getsignal(each) for each in (signal.SIGINT, signal.SIGTERM)]
    with mock.patch.object(solving.Told, "__call__", telling):
        yield
    assert [signal.getsignal(each) for each in (signal.SIGINT, signal.SIGTERM)] == before


def signalled(number: signal.Signals) -> Callable[[], None]:
    """A signal comes to this process."""
    return lambda: os.kill(os.getpid(), number)


def over() -> None:
    """The time that a settling has is over."""
    time.sleep(SECONDS)
