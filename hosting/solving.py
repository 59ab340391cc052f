"""`solve`: finds a plan that no plan costs less than, or that there is none.

First on the study itself, by lines that leave every plan its cost: a shift, an order and a search. Where that search ends, the study's log has the ground. Else
on a copy, in parts; the study goes on meanwhile. In the end it gets the best plan as a certificate, whose ceiling is what the plan costs.
"""

import argparse
import os
import signal
import sys
import time
from collections.abc import Iterator
from contextlib import contextmanager
from dataclasses import replace
from pathlib import Path
from typing import NamedTuple

from hosting import asked, calling, found, recheck, stored, words
from hosting import library as libraries
from hosting.calling import NotReached
from hosting.desk import WrongUse
from hosting.lifting import TIMES, TOO_MUCH
from hosting.names import Named
from hosting.printing import DONE, FAILED, FOUND, complain, note, print_json
from hosting.store import StudyError
from junction import lift, lines, replies
from junction.errors import Failure, Refused
from junction.kinds import Facts, counted
from junction.native import Library
from junction.services import Service
from junction.solving import order, parts, proof
from junction.solving.proof import Proof
from junction.solving.settle import Outcome, Progress, Stop, settle
from junction.study import Study

BUDGET = 10_000_000
# How often the line on a terminal is written anew, and how often there is a new one elsewhere.
REWRITTEN_SECONDS, WRITTEN_SECONDS = 0.1, 10.0
CLEARED = "\r\033[K"


class Standing(NamedTuple):
    """A study with its costs of now, its names, and the best plan of its log."""

    study: Study
    named: Named
    best: Facts


class Told:
    """Tells on standard error how far it is. Once a signal has come it ends the settling in order."""

    def __init__(self) -> None:
        self.ended = False
        self._terminal = sys.stderr.isatty()
        self._since = self._last = time.monotonic()

    def __call__(self, progress: Progress) -> None:
        """Tells the progress, not too often."""
        if self.ended:
            raise Stop
        now = time.monotonic()
        if now - self._last < (REWRITTEN_SECONDS if self._terminal else WRITTEN_SECONDS):
            return
        self._last = now
        text = _progress_words(progress, self.seconds())
        if self._terminal:
            columns = os.get_terminal_size(sys.stderr.fileno()).columns or len(text) + 1
            print(f"{CLEARED}{text[:columns - 1]}", end="", file=sys.stderr, flush=True)
        else:
            note([text])

    def seconds(self) -> float:
        """How long it has been going on."""
        return time.monotonic() - self._since

    def close(self) -> None:
        """Clears the line of a terminal."""
        if self._terminal:
            print(CLEARED, end="", file=sys.stderr, flush=True)

    def end(self, *_: object) -> None:
        """Takes a signal. The next one ends the process at once."""
        self.ended = True
        for number in (signal.SIGINT, signal.SIGTERM):
            signal.signal(number, signal.SIG_DFL)


def solve(given: argparse.Namespace) -> int:
    """Finds a plan that no plan costs less than, or that there is none. Ctrl-C ends it in order, with the best plan so far."""
    installed = libraries.installed()
    _check_place(given.proof)
    begun = None if given.resume is None else _resumed(given.resume, installed)
    with _telling() as told:
        if begun is None and not _standing(given, installed).best["settled"]:
            _on_the_study(given, installed)
        now = _standing(given, installed)
        if now.best["settled"] and given.proof is None and begun is None:
            return _say(given, now, _by_log(now.best))
        left = None if given.seconds is None else max(0.0, given.seconds - told.seconds())
        outcome = settle(now.study, installed, left, told, _with_log(begun, now))
    if given.proof is not None:
        outcome.proof.write(given.proof)
    status = _say(given, now, _by_parts(outcome, now.best))
    return max(status, _send_plan(given, installed, now.study, outcome))


def _check_place(path: Path | None) -> None:
    """What is found in hours is not lost since it cannot be written."""
    if path is not None and (path.is_dir() or not os.access(path.absolute().parent, os.W_OK)):
        raise WrongUse(f"a proof cannot be written to {path}")


def _resumed(path: Path, installed: Library) -> Proof:
    """A proof that was begun. Its parts are taken for settled only where the library's replies say so."""
    try:
        recheck.check(path.read_bytes(), installed)
    except recheck.Wrong as wrong:
        raise WrongUse(f"{path} cannot be gone on with: {wrong}") from None
    return proof.read(path)


@contextmanager
def _telling() -> Iterator[Told]:
    """While it lasts, Ctrl-C and SIGTERM end the settling in order."""
    told = Told()
    before = {number: signal.signal(number, told.end) for number in (signal.SIGINT, signal.SIGTERM)}
    try:
        yield told
    finally:
        told.close()
        for number, handler in before.items():
            signal.signal(number, handler)


def _progress_words(progress: Progress, seconds: float) -> str:
    cost = "no plan yet" if progress.cost is None else f"best cost {counted(progress.cost, 'point')}"
    bound = "" if progress.bound is None else f", bound {counted(progress.bound, 'point')}"
    return f"{cost}{bound}, {counted(progress.settled, 'part')} settled, {progress.open:,} open, {seconds:.0f} s"


def _standing(given: argparse.Namespace, installed: Library) -> Standing:
    with stored.loaded(given.data, given.name, installed) as now:
        return Standing(asked.saved(now.library, now.block), now.named(), found.best(now.library, now.block, now.found()))


def _on_the_study(given: argparse.Namespace, installed: Library) -> None:
    """A shift, an order and a search, as a client sends them. Where others change the study meanwhile, so that the shift does not fit, it is found anew."""
    with calling.service(given.data, given.name, calling.shown(given.certificate, given.key)) as service:
        for _ in range(TIMES):
            try:
                _send_lines(given, installed, service)
                return
            except Refused as refused:
                if refused.number != TOO_MUCH:
                    raise


def _send_lines(given: argparse.Namespace, installed: Library, service: Service) -> None:
    """The shift of sweeps that go by the order of the search. Their last way back is in it, which a round has only by the trains' numbers."""
    with stored.loaded(given.data, given.name, installed) as now:
        held, study = asked.tables(now.block), asked.saved(now.library, now.block)
    by = order.degeneracy(held.pairs, parts.whole(study))
    shift = lift.by_sweeps(held, by)
    if any(shift.lifts) or any(shift.moves):
        service.shift(shift.lifts, shift.moves)
    if by != held.order:
        service.order(by)
    service.search(BUDGET)


def _with_log(begun: Proof | None, now: Standing) -> Proof | None:
    """What is known before anything more is settled, with the best plan of the study's log where none is known that is as good."""
    plan, cost, save = now.best["plan"], now.best["cost"], lines.load(now.study)
    if plan is None or (begun is not None and (begun.save != save or (begun.cost is not None and begun.cost <= cost))):
        return begun
    return replace(begun or Proof(save, (), (parts.whole(now.study),), None, None), plan=tuple(plan), cost=cost)


def _by_log(best: Facts) -> Facts:
    """What is said of a study that its own log settles."""
    return {"cost": best["cost"], "bound": best["cost"], "settled": True, "plan": best["plan"], "parts": 0, "open": 0, "line": best["line"]}


def _by_parts(outcome: Outcome, best: Facts) -> Facts:
    """What is said of a study that was settled in parts, or of which parts are open. What its log has holds as well: a bound, or that it is settled."""
    plan = None if outcome.plan is None else list(outcome.plan)
    by_log = best["settled"] and not outcome.settled
    bound = outcome.bound if outcome.settled else outcome.cost if by_log else max(outcome.bound or 0, best["bound"] or 0)
    counts = {"parts": len(outcome.proof.settled), "open": len(outcome.proof.open), "line": best["line"] if by_log else None}
    return {"cost": outcome.cost, "bound": bound, "settled": outcome.settled or by_log, "plan": plan, **counts}


def _say(given: argparse.Namespace, now: Standing, facts: Facts) -> int:
    """Says the best plan, and whether a plan may cost less. It was ended early where that is so, or where parts are open."""
    by_train = facts["plan"] and (now.named.study or now.study).by_train(facts["plan"])
    if given.json:
        print_json({"study": given.name, **facts, "by_train": by_train, "names_left_out": now.named.left_out})
    else:
        note(filter(None, [now.named.left_out]))
        for train, choice in by_train or []:
            print(f"{train}: {choice}" if now.named.study else f"train {train}: choice {choice}")
        print(_words(facts, given.proof))
    return DONE if facts["settled"] and not facts["open"] else FOUND


def _words(facts: Facts, written: Path | None) -> str:
    """Cost and bound, how they are known, and what takes the proof."""
    settled, where = facts["settled"], f"{counted(facts['parts'], 'part')} settled, {facts['open']:,} open"
    proved = "" if written is None else f"; {'solve --resume' if facts['open'] else 'recheck'} takes {written}"
    if facts["line"] is not None:
        where = f"line {facts['line']}"
    elif settled:
        where = counted(facts["parts"], "part")
        proved = proved or "; with --proof FILE it writes what recheck takes, and keeps with the study"
    if facts["plan"] is None and settled:
        return f"there is no plan: settled ({where}){proved}"
    cost = "no plan yet" if facts["plan"] is None else f"cost {counted(facts['cost'], 'point')}"
    bound = "" if facts["bound"] is None else f", bound {counted(facts['bound'], 'point')}"
    return f"{cost}{bound}, {words.settled(facts)} ({where}){proved}"


def _send_plan(given: argparse.Namespace, installed: Library, study: Study, outcome: Outcome) -> int:
    """Sends the study the best plan, so that its log has it. Others may have changed the study meanwhile; then that is said."""
    try:
        with stored.loaded(given.data, given.name, installed) as now:
            block, saved = now.block, asked.saved(now.library, now.block)
        if lines.load(saved) != outcome.proof.save:
            note([f"study {given.name} has other costs by now: this holds of those it had before"])
        if outcome.plan is not None and saved.sizes == study.sizes:
            line = asked.plan_line(block, outcome.plan)
            with calling.service(given.data, given.name, calling.shown(given.certificate, given.key)) as service:
                replies.decode(line, service.ask(line))
    except (Failure, StudyError, NotReached, OSError) as error:
        return complain(f"the plan was not sent to study {given.name}: {error}", FAILED)
    return DONE
