"""`recheck`: whether a file proves that no plan of a study costs less than the one it gives, or that there is none.

It believes nothing of the file: every line is answered again by the installed library, from a fresh block. No solver is asked, and of what makes such files
only the encoders of lines are used. The lines behind a part's load leave every plan its cost, so that each reply holds of all plans of the part.
"""

import argparse
import json
import math
from collections.abc import Iterator
from itertools import combinations
from typing import Any, NamedTuple, cast

from hosting import library, proofs
from hosting.printing import DONE, FOUND, complain, print_json
from junction import lines
from junction.kinds import counted
from junction.native import Library
from junction.study import Choice, Cost, Pair, Study, Train

LOADED, ENDED, WITHOUT_PLAN = "81", "8601", "8602"
# Shift, tighten, search, round and order leave every plan its cost. An addition would raise the bound.
LOSE_NOTHING = ("03", "04", "06", "08", "0B")
BOUND_SHOWN = ("81", "83", "84", "88")
# Where a search's reply has the cost, and where the others have the bound.
COST, BOUND = slice(12, 24), slice(14, 26)
OPEN, SETTLED, END = {"open"}, {"part", "trains", "choices", "lines", "replies"}, {"plan", "cost"}


class Wrong(Exception):
    """What fails first in a proof."""


class Part(NamedTuple):
    """A part, by its line of the file: the plans in which each train takes one of `part`, forbidden choices left out. An open one has no lines."""

    number: int
    part: list[set[int]]
    trains: list[int]
    choices: list[list[int]]
    lines: list[str]
    replies: list[str]


class Proof(NamedTuple):
    """A study by its save line, the parts that are settled, and those that are open; the cost is None where no plan is known."""

    save: str
    settled: list[Part]
    open: list[Part]
    cost: int | None


def recheck(given: argparse.Namespace) -> int:
    """Says whether a file proves that no plan costs less than its plan, or that there is none, and keeps it with the study whose costs these are."""
    content, installed = given.file.read_bytes(), library.installed()
    try:
        proof = check(content, installed)
        if proof.open:
            raise Wrong(f"line {proof.open[0].number}: the part is open: the proof is not complete, {counted(len(proof.open), 'part')} of it being open")
    except Wrong as wrong:
        if given.json:
            print_json({"file": str(given.file), "wrong": str(wrong), "cost": None, "parts": None, "kept": []})
        return complain(f"{given.file}: {wrong}", FOUND)
    kept = [] if given.data is None else proofs.keep(given.data, proof.save, content, installed)
    if given.json:
        return print_json({"file": str(given.file), "wrong": None, "cost": proof.cost, "parts": len(proof.settled), "kept": kept})
    says = "there is no plan" if proof.cost is None else f"no plan costs less than {counted(proof.cost, 'point')}"
    print(f"{says}, by {counted(len(proof.settled), 'part')}; " + (f"kept with study {', '.join(kept)}" if kept else "no study at hand has these costs"))
    return DONE


def check(content: bytes, installed: Library) -> Proof:
    """The proof that a file is, which may have open parts. Wrong says what fails first."""
    rows = list(_rows(content))
    study = _study(rows[0]["save"], installed)
    cost = _cost(len(rows), rows[-1], study)
    parts = [_part(number, row, study) for number, row in enumerate(rows[1:-1], 2)]
    for part in parts:
        if part.lines:
            _check_part(part, study, cost, installed)
    _check_cover(len(rows), parts, study)
    return Proof(rows[0]["save"], [part for part in parts if part.lines], [part for part in parts if not part.lines], cost)


def _rows(content: bytes) -> Iterator[dict[str, Any]]:
    """The objects of a file, one a line: first the save line's, last that of plan and cost."""
    texts = content.removesuffix(b"\n").split(b"\n")
    for number, text in enumerate(texts, 1):
        try:
            row = json.loads(text.decode("ascii"))
        except (ValueError, RecursionError):
            row = None
        keys = row.keys() if isinstance(row, dict) else set()
        if (number == 1) != (keys == {"save"}):
            raise Wrong(f"line {number}: the first line, and no other, has a study's save line")
        if (number == len(texts)) != (keys == END):
            raise Wrong(f"line {number}: the last line, and no other, has a plan and its cost: the file may be cut")
        if number > 1 and keys not in (OPEN, SETTLED, END):
            raise Wrong(f"line {number}: it is no part of a proof")
        yield row


def _study(save: object, installed: Library) -> Study:
    """The study of a save line that the library accepts."""
    asked = lines.read(save) if isinstance(save, str) else None
    if asked is None or asked.encoder is not lines.load or not installed.answer(installed.fresh(), asked.again().encode("ascii"))[0].startswith(b"81"):
        raise Wrong("line 1: it has no study's save line")
    return cast(Study, asked.arguments[0])


def _list(number: int, value: object, of: type) -> list[Any]:
    """A list of values of one kind."""
    if not isinstance(value, list) or any(type(item) is not of for item in value):
        raise Wrong(f"line {number}: its lists are not those of a proof")
    return value


def _cost(number: int, row: dict[str, Any], study: Study) -> int | None:
    """What the plan of the last line costs, which has to be what that line says; None where it has no plan."""
    if row["plan"] is None and row["cost"] is None:
        return None
    plan = _list(number, row["plan"], int)
    if len(plan) != len(study.trains) or any(not 0 <= choice < size for choice, size in zip(plan, study.sizes)):
        raise Wrong(f"line {number}: its plan is not of the study's trains and choices")
    costs = [train.choices[choice].cost for train, choice in zip(study.trains, plan)]
    costs += [pair.costs[plan[pair.first]][plan[pair.second]] for pair in study.pairs]
    cost = sum(cost or 0 for cost in costs)
    if None in costs or type(row["cost"]) is not int or row["cost"] != cost:
        raise Wrong(f"line {number}: its plan " + ("is forbidden" if None in costs else f"costs {counted(cost, 'point')}, and not {row['cost']!r:.20}"))
    return cost


def _part(number: int, row: dict[str, Any], study: Study) -> Part:
    """A part of the study. A settled one is renumbered one to one."""
    given = [set(_list(number, item, int)) for item in _list(number, row["open" if row.keys() == OPEN else "part"], list)]
    if len(given) != len(study.trains) or any(not choices <= set(range(size)) for choices, size in zip(given, study.sizes)):
        raise Wrong(f"line {number}: the part is not of the study's trains and choices")
    permitted = [{choice for choice in choices if train.choices[choice].cost is not None} for choices, train in zip(given, study.trains)]
    if row.keys() == OPEN:
        return Part(number, permitted, [], [], [], [])
    trains, choices = _list(number, row["trains"], int), [_list(number, item, int) for item in _list(number, row["choices"], list)]
    if sorted(trains) != list(range(len(study.trains))) or [sorted(order) for order in choices] != [list(range(size)) for size in study.sizes]:
        raise Wrong(f"line {number}: its trains and choices are not renumbered one to one")
    part = Part(number, permitted, trains, choices, _list(number, row["lines"], str), _list(number, row["replies"], str))
    if not part.lines or len(part.lines) != len(part.replies):
        raise Wrong(f"line {number}: it does not have lines with a reply to each")
    return part


def _check_part(part: Part, study: Study, cost: int | None, installed: Library) -> None:
    """A part is of the study, its lines leave every plan its cost, their replies are the library's, and one of them settles it."""
    # How many parts a point has is the proof's to choose: a load has its costs in points.
    if lines.with_scale(part.lines[0], study.scale) != lines.load(_renumbered(part, study)):
        raise Wrong(f"line {part.number}: its load line is not the one that the save line, its choices and its renumbering give")
    for place, line in enumerate(part.lines[1:], 2):
        if not line.startswith(LOSE_NOTHING):
            raise Wrong(f"line {part.number}: its line {place} is of kind {line[:2]!r}, and only kinds {', '.join(LOSE_NOTHING)} may stand behind the load")
    block = installed.fresh()
    for place, (line, said) in enumerate(zip(part.lines, part.replies, strict=True), 1):
        answer, block = installed.answer(block, line.encode("ascii", "replace"))
        if answer != said.encode("ascii", "replace") or (place == 1 and not said.startswith(LOADED)):
            raise Wrong(f"line {part.number}: the reply to its line {place} is {answer.decode('ascii')}, and not {said!r:.80}")
    if not any(_settles(reply, cost) for reply in part.replies):
        raise Wrong(f"line {part.number}: it is not settled: no search ended at the cost or above, or without a plan, and no bound reaches the cost")


def _settles(reply: str, cost: int | None) -> bool:
    """Whether a reply says that no plan of the part costs less than this, or that it has no plan."""
    if cost is None or reply.startswith(WITHOUT_PLAN):
        return reply.startswith(WITHOUT_PLAN)
    shown = reply[COST] if reply.startswith(ENDED) else reply[BOUND] if reply.startswith(BOUND_SHOWN) else "0"
    return int(shown, 16) >= cost


def _renumbered(part: Part, study: Study) -> Study:
    """The study with the choices of a part alone, the others forbidden, its trains and choices in the part's order."""
    def cost(train: int, choice: int) -> Cost:
        return study.trains[train].choices[choice].cost if choice in part.part[train] else None

    places = {train: place for place, train in enumerate(part.trains)}
    trains = tuple(Train(str(train), tuple(Choice(str(choice), cost(train, choice)) for choice in part.choices[train])) for train in part.trains)
    pairs = []
    for first, second, costs in study.pairs:
        rows = tuple(tuple(costs[a][b] for b in part.choices[second]) for a in part.choices[first])
        turned = places[first] > places[second]
        pairs.append(Pair(places[second], places[first], tuple(zip(*rows))) if turned else Pair(places[first], places[second], rows))
    return Study(trains, tuple(sorted(pairs, key=lambda pair: (pair.first, pair.second))), study.scale)


def _check_cover(last: int, parts: list[Part], study: Study) -> None:
    """Every plan is in one part: no two parts have a plan in common, and their numbers of plans add up to all."""
    for one, other in combinations(parts, 2):
        if all(first & second for first, second in zip(one.part, other.part)):
            raise Wrong(f"line {other.number}: the part has plans in common with that of line {one.number}")
    plans = sum(math.prod(map(len, part.part)) for part in parts)
    whole = math.prod(sum(choice.cost is not None for choice in train.choices) for train in study.trains)
    if plans != whole:
        raise Wrong(f"line {last}: the parts have {counted(plans, 'plan')} of {whole:,}")
