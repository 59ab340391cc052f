"""`lift`: raises a study's constant by a shift, found on the stored block and sent as a client.

A study is never loaded for it: that would undo what others added. A shift that is sent late loses nothing, since additions only leave more; where
others took something meanwhile, the service declines it under 12, and the block is read again.
"""

import argparse
from dataclasses import asdict
from typing import NamedTuple

from hosting import asked, calling, stored, words
from hosting import library as libraries
from hosting.printing import DONE, FOUND, complain, print_json
from junction import lines, programme, replies, solvers
from junction import lift as sweeps
from junction.block import Tables
from junction.errors import Refused
from junction.kinds import Facts, counted
from junction.lift import Shift
from junction.replies import Bound, Ceiling
from junction.services import Service
from junction.solvers import Solver

TIMES = 3
# The refusal of a shift that takes more than is there.
TOO_MUCH = 12


class Lifted(NamedTuple):
    """Constant and bound before and after, whether a shift was sent, the ceiling where it was asked for, and what is said beside."""

    before: Bound
    after: Bound
    sent: bool
    ceiling: Ceiling | None = None
    scale_reached: int | None = None
    sentences: tuple[str, ...] = ()


def lift(given: argparse.Namespace) -> int:
    """Raises a study's constant by the best shift that is found, and so its bound. With --ceiling a linear programme also finds what none can pass."""
    solver = solvers.find() if given.ceiling else None
    for _ in range(TIMES):
        try:
            return _say(given, _lifted(given, solver))
        except Refused as refused:
            if refused.number != TOO_MUCH:
                raise
    return complain(f"study {given.name}: others changed it meanwhile, {TIMES} times, so that no shift fitted it: lift it again", FOUND)


def _lifted(given: argparse.Namespace, solver: Solver | None) -> Lifted:
    """Finds a shift on the stored block, and sends it."""
    tables, bound = _stored(given)
    before = Bound(tables.constant, bound)
    with calling.service(given.data, given.name, calling.shown(given.certificate, given.key)) as service:
        lifted = _by_sweeps(service, tables, before) if solver is None else _by_programme(service, tables, before, solver)
    said = list(lifted.sentences)
    if programme.without_plan(_stored(given)[0], lifted.after.constant):
        said.append(programme.NO_PLAN)
    if lifted.ceiling and lifted.ceiling.points is not None and programme.cannot_rise(lifted.after.bound, lifted.ceiling.points):
        said.append(programme.NO_RISE)
    return lifted._replace(sentences=tuple(said))


def _stored(given: argparse.Namespace) -> tuple[Tables, int]:
    """The tables that are stored now, and the bound."""
    with stored.loaded(given.data, given.name, libraries.installed()) as now:
        bound = asked.bound(now.library, now.block)
        assert bound is not None
        return asked.tables(now.block), bound


def _by_sweeps(service: Service, tables: Tables, before: Bound) -> Lifted:
    shift = sweeps.by_sweeps(tables)
    if sum(shift.lifts) <= 0:
        return Lifted(before, before, False)
    return Lifted(before, _send(service, shift), True)


def _by_programme(service: Service, tables: Tables, before: Bound, solver: Solver) -> Lifted:
    best = programme.best(tables, solver)
    after = before if best.shift is None else _send(service, best.shift)
    ceiling = None
    if best.full is not None and best.weights is not None:
        line = lines.certify(best.full, best.weights)
        shown = replies.decode(line, service.ask(line), tables.scale)
        assert isinstance(shown, Ceiling)
        ceiling = shown
    return Lifted(before, after, best.shift is not None, ceiling, best.scale_reached, best.sentences)


def _send(service: Service, shift: Shift) -> Bound:
    """Sends a shift, and gives what it comes to."""
    line = lines.shift(shift.lifts, shift.moves)
    after = replies.decode(line, service.ask(line))
    assert isinstance(after, Bound)
    return after


def _say(given: argparse.Namespace, lifted: Lifted) -> int:
    """Says what was reached."""
    if given.json:
        return print_json(_facts(given.name, lifted))
    before, after, sent, ceiling, _, sentences = lifted
    said = "" if sent else "; no shift that raises it was found"
    print(f"constant  {counted(before.constant, 'part')} before, {counted(after.constant, 'part')} now{said}")
    print(f"bound     {counted(before.bound, 'point')} before, {counted(after.bound, 'point')} now")
    if ceiling is not None and ceiling.points is not None:
        print(f"ceiling   in points {words.mixed(ceiling.points)}, {'reached' if ceiling.reached else 'not reached'}")
    for sentence in sentences:
        print(sentence)
    return DONE


def _facts(name: str, lifted: Lifted) -> Facts:
    """What was reached, for JSON."""
    before, after, sent, ceiling, scale_reached, sentences = lifted
    shown = ceiling and {"E": ceiling.E, "W": ceiling.W, "points": str(ceiling.points), "reached": ceiling.reached}
    return {"study": name, "sent": sent, "before": asdict(before), "after": asdict(after), "ceiling": shown, "scale_reached": scale_reached, "said": sentences}
