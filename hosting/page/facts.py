"""What a planner sees of a study, as data: the JSON of /studies/NAME.json, and what the page of it is made from.

`facts(studies, name)` gives these keys. Figures are in points where nothing else is said; a fraction is written '7/2', and in words '3 1/2'.

name            the study's name
state           'unreadable', 'nothing', 'no plan yet', 'unsettled', 'publish' or 'no plan'
sentence        the state in one sentence, with its figures
ground          why, with 'publish' and 'no plan': {kind: 'bound', 'search' or 'proof', line: its number or null, words}; else null
next            the commands that lead on: [{command, words}, ..]; none where nothing is left to do
lines           the number of the last line, 0 before the first
time            when it was answered, null before the first
load            the number of the line that loaded the study; null where it is not stored
scale           how many parts a point has
constant        in parts
bound           null where nothing is loaded
best            {cost, plan: [choice, ..], line: the last that shows it or null, by_train: [[train's name, choice's name], ..]}, or null
ceiling         {points, words, E, W, line, reached}, or null: the lowest by certificates since the last load or addition
series          [{line, bound, best, ceiling}, ..] over the lines since the load, at most 400: first and last line of each run of equal values
trains          [{name, choices: [{name, cost, left, words, forbidden, planned}, ..]}, ..]: cost as loaded in points, left in the tables in parts,
                words what is left in points; both null and the words '✕' where it is forbidden
pairs           [{first, second, cost: [[..], ..], left: [[..], ..]}, ..]: the trains by number, rows the first one's choices
cell            where a choice was asked for: {train, choice, names, cost, left, words, limit, reason: 'not out', 'by itself', 'with partner' or null,
                partner, ground}, else null; ground is a sentence
last            the last 20 lines, the newest first: [{number, time, asked, answered, declined: number or null, reason, radio, line, reply}, ..]
names_left_out  why the names that are kept are not used, or null

With 'unreadable' and 'nothing' the keys from load on are null or empty. `overview(studies)` gives for each study name, state, sentence, bound, best (its
cost alone), lines and time. A study that is not there is a StudyError.
"""

from collections.abc import Iterator, Sequence
from fractions import Fraction
from typing import NamedTuple

from hosting import asked, names, words
from hosting.names import Named, Since
from hosting.page import judging
from hosting.page.findings import Ceiling, Run
from hosting.page.following import Seen, Studies
from hosting.page.judging import Best, Judged
from hosting.records import Stored
from hosting.store import StudyError, Unusable
from junction import kinds, lines, replies
from junction.block import Tables
from junction.errors import Failure
from junction.kinds import Facts, counted
from junction.replies import Out, Reason
from junction.study import Study

MOST_POINTS = 400
FORBIDDEN = "✕"
REASONS = {Out.NOT_OUT: "not out", Out.BY_ITSELF: "by itself", Out.WITH_PARTNER: "with partner"}

Cell = tuple[int, int]


class Shown(NamedTuple):
    """What is shown of a loaded study: its tables, its costs in points with names, and what it has come to."""

    seen: Seen
    tables: Tables
    study: Study
    named: Named
    judged: Judged

    @property
    def cost(self) -> int | None:
        """What the best plan costs."""
        return self.judged.best and self.judged.best.cost


def facts(studies: Studies, name: str, cell: Cell | None = None) -> Facts:
    """What a planner sees of a study, and of one choice of a train where it is asked for."""
    try:
        with studies.look(name) as seen:
            return _facts(seen, cell)
    except (Unusable, Failure) as error:
        return _bare(name, judging.unreadable(error))


def overview(studies: Studies) -> list[Facts]:
    """Each study in a few figures."""
    return [short for name in studies.names() if (short := _in_short(studies, name)) is not None]


def _in_short(studies: Studies, name: str) -> Facts | None:
    """A study in a few figures; nothing where it was removed meanwhile."""
    recent: tuple[Stored, ...] = ()
    try:
        with studies.look(name) as seen:
            judged, recent = judging.judge(seen), seen.recent
    except (Unusable, Failure) as error:
        judged = judging.unreadable(error)
    except StudyError:
        return None
    cost = judged.best and judged.best.cost
    return {"name": name, "state": judged.state, "sentence": judged.sentence, "bound": judged.bound, "best": cost, **_answered(recent)}


def _answered(recent: Sequence[Stored]) -> Facts:
    """The number and time of the last line."""
    return {"lines": recent[0].number if recent else 0, "time": recent[0].time if recent else None}


def _facts(seen: Seen, cell: Cell | None) -> Facts:
    if not seen.loaded:
        return {**_bare(seen.name, judging.judge(seen)), **_answered(seen.recent), "last": _last(seen, names.NOTHING)}
    study = replies.decode_load(judging.saved(seen))
    named = names.kept(study, seen.folder)
    shown = Shown(seen, asked.tables(seen.block), named.study or study, named, judging.judge(seen))
    return {**_bare(seen.name, shown.judged), **_answered(seen.recent), **_loaded(shown, cell)}


def _loaded(shown: Shown, cell: Cell | None) -> Facts:
    """The facts of a study that is loaded."""
    findings, tables, judged = shown.seen.findings, shown.tables, shown.judged
    return {
        "load": findings.load,
        "scale": tables.scale,
        "constant": tables.constant,
        "bound": judged.bound,
        "best": judged.best and _best(judged.best, shown.study),
        "ceiling": findings.ceiling and _ceiling(findings.ceiling, tables),
        "series": list(_series(findings.runs, tables.scale)),
        "trains": [_train(shown, train) for train in range(len(tables.sizes))],
        "pairs": [
            {"first": first, "second": second, "cost": tables.loaded_entries[number], "left": tables.entries[number]}
            for number, (first, second) in enumerate(tables.pairs)
        ],
        "cell": _cell(shown, *cell) if cell is not None and _is_there(cell, tables) else None,
        "last": _last(shown.seen, Since(shown.named.study, findings.load or 1)),
        "names_left_out": shown.named.left_out,
    }


def _bare(name: str, judged: Judged) -> Facts:
    """The facts of a study of which nothing but its state is known."""
    nothing: Facts = {key: None for key in ("load", "scale", "constant", "bound", "best", "ceiling", "cell", "names_left_out")}
    empty: Facts = {key: [] for key in ("series", "trains", "pairs", "last")}
    return {
        "name": name, "state": judged.state, "sentence": judged.sentence, "ground": judged.ground and judged.ground._asdict(),
        "next": list(_next(name, judged.state)), **_answered(()), **nothing, **empty,
    }


def _next(name: str, state: str) -> Iterator[Facts]:
    """The commands that lead on."""
    if state == judging.NOTHING:
        yield {"command": f"./host import {name} FILE", "words": "loads a study from a file"}
    if state in (judging.NO_PLAN_YET, judging.UNSETTLED):
        yield {"command": f"./host lift {name}", "words": "raises the bound"}
        yield {"command": f"./host solve {name}", "words": "finds the least cost"}


def _best(best: Best, study: Study) -> Facts:
    return {"cost": best.cost, "plan": list(best.plan), "line": best.line, "by_train": [list(pair) for pair in study.by_train(best.plan)]}


def _ceiling(ceiling: Ceiling, tables: Tables) -> Facts:
    points = ceiling.parts / tables.scale
    reached = ceiling.parts == tables.constant
    return {"points": str(points), "words": words.mixed(points), "E": ceiling.E, "W": ceiling.W, "line": ceiling.line, "reached": reached}


def _series(runs: Sequence[Run], scale: int) -> Iterator[Facts]:
    """The figures over the lines since the load, at the first and the last line of each run of equal values."""
    for run in _few(runs):
        bound, best, ceiling = run.figures
        for line in dict.fromkeys((run.first, run.last)):
            yield {"line": line, "bound": bound, "best": best, "ceiling": None if ceiling is None else str(ceiling / scale)}


def _few(runs: Sequence[Run]) -> Sequence[Run]:
    """As many runs as can be drawn: all, or some at even distances with the first and the last of them."""
    if sum(1 + (run.first != run.last) for run in runs) <= MOST_POINTS:
        return runs
    most = MOST_POINTS // 2
    return [runs[place * (len(runs) - 1) // (most - 1)] for place in range(most)]


def _train(shown: Shown, number: int) -> Facts:
    """A train with its choices: what each costs as loaded, and what it still costs in the tables."""
    train, plan = shown.study.trains[number], shown.judged.best and shown.judged.best.plan
    choices = [
        {"name": choice.name, **_left(shown, number, place), "planned": plan is not None and plan[number] == place}
        for place, choice in enumerate(train.choices)
    ]
    return {"name": train.name, "choices": choices}


def _left(shown: Shown, train: int, choice: int) -> Facts:
    """What a choice costs: as loaded in points, and what is left in the tables, in parts and in words."""
    cost, left = shown.tables.loaded_choices[train][choice], shown.tables.choices[train][choice]
    said = FORBIDDEN if left is None else words.mixed(Fraction(left, shown.tables.scale))
    return {"cost": cost, "left": left, "words": said, "forbidden": left is None}


def _is_there(cell: Cell, tables: Tables) -> bool:
    train, choice = cell
    return 0 <= train < len(tables.sizes) and 0 <= choice < tables.sizes[train]


def _cell(shown: Shown, train: int, choice: int) -> Facts:
    """One choice with the reason why it is out at the best cost, where there is one."""
    left, limit = _left(shown, train, choice), shown.cost
    reason = None if limit is None else _reason(shown.seen, train, choice, limit)
    of = shown.study.trains[train]
    return {
        "train": train, "choice": choice, "names": [of.name, of.choices[choice].name], **left, "limit": limit,
        "reason": reason and REASONS[reason.reason], "partner": reason and reason.partner, "ground": _why(shown, left, limit, reason),
    }


def _reason(seen: Seen, train: int, choice: int, limit: int) -> Reason | None:
    """Why a choice is out at a limit, as the library says on a copy of the block. None where it has no such kind."""
    try:
        reason = asked.reply(seen.library, seen.block, lines.explain(train, choice, limit))
    except Failure:
        return None
    return reason if isinstance(reason, Reason) else None


def _why(shown: Shown, left: Facts, limit: int | None, reason: Reason | None) -> str:
    """The ground of a choice in a sentence."""
    if left["forbidden"]:
        return "The choice is forbidden."
    numbers = f"It costs {counted(left['cost'], 'point')} as loaded, of which the tables still hold {left['words']}."
    if limit is None or reason is None:
        return numbers
    least = f"very plan with this choice costs {counted(limit, 'point')} or more"
    match reason.reason:
        case Out.BY_ITSELF:
            return f"E{least}: the constant and what the choice still costs come to that."
        case Out.WITH_PARTNER:
            partner = shown.study.trains[reason.partner or 0].name
            return f"E{least}: the constant, what the choice still costs and the least that {partner} adds come to that."
    return f"Whether e{least} is not known by the tables. {numbers}"


def _last(seen: Seen, since: Since) -> list[Facts]:
    """The newest lines in words."""
    return [_exchange(stored, since.at(stored.number)) for stored in seen.recent]


def _exchange(stored: Stored, study: Study | None) -> Facts:
    line, reply = (text.decode("ascii", "backslashreplace") for text in (stored.line, stored.reply))
    said = words.exchange(line, reply, study)
    answer, declined = said["answer"], said["answer"]["kind"] == kinds.DECLINED
    return {
        "number": stored.number, "time": stored.time, "asked": said["request"]["words"], "answered": answer["words"],
        "declined": answer["number"] if declined else None, "reason": answer["reason"] if declined else None,
        "radio": said["request"]["radio"], "line": line, "reply": reply,
    }
