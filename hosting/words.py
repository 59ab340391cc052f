"""Stored lines and a study's block in words, for `log` and `show`. Nothing here alters a study or answers a line."""

import json
from collections.abc import Iterable, Iterator
from fractions import Fraction

from hosting import asked, found, names
from hosting.found import Found
from hosting.kept import Kept
from hosting.names import Named
from hosting.records import Stored
from junction import kinds
from junction.kinds import Facts, Form, counted
from junction.lengths import BY_DOCUMENT, Lengths
from junction.native import Library
from junction.study import Study

# The places of the block, as document 01 gives them.
TRAINS, SCALE, PAIRS, CONSTANT = 0, 1, 2, 3
SIZES, FIRST_TRAINS, SECOND_TRAINS = 4, 28, 76
CHOICE_COSTS = slice(124, 316)
PAIR_COSTS = slice(508, 3580)
ORDER = 6652
FORBIDDEN = -1


def log(lengths: Lengths, lines: Iterable[Stored], as_json: bool = False, named: names.Since = names.NOTHING) -> Iterator[str]:
    """A line of text, or of JSON, for each stored line, in the order given."""
    for stored in lines:
        study = named.at(stored.number)
        request, answer = _request(stored.line, study), _answer(stored.line, stored.reply, lengths, study)
        if as_json:
            texts = {"line": _text(stored.line), "reply": _text(stored.reply)}
            yield json.dumps({**stored._asdict(), **texts, "request": request, "answer": answer})
        else:
            by_radio = ", by radio" if request["radio"] else ""
            yield f"{stored.number}  {stored.time}  {request['words']}{by_radio}  ->  {answer['words']}"


def exchange(line: str, reply: str, study: Study | None) -> Facts:
    """A line and its reply, with what they say."""
    asking, answering = line.encode("ascii"), reply.encode("ascii", "replace")
    return {"line": line, "reply": reply, "request": _request(asking, study), "answer": _answer(asking, answering, BY_DOCUMENT, study)}


def _text(line: bytes) -> str:
    return line.decode("ascii", "backslashreplace")


def _kind(text: bytes) -> int | None:
    """The kind of a line, where it is digits by two."""
    return kinds.Fields(text).number(kinds.KIND_WIDTH) if kinds.FRAME.fullmatch(text) else None


def _read(text: bytes, forms: dict[int, Form]) -> Facts:
    """The kind of a line or a reply, its name, its facts and its words, as far as they are known."""
    if not kinds.FRAME.fullmatch(text):
        return {"kind": None, "name": None, "words": f"not digits by two, {counted(len(text), 'character')}"}
    fields = kinds.Fields(text)
    kind = fields.number(kinds.KIND_WIDTH)
    form = forms.get(kind)
    if form is None:
        return {"kind": kind, "name": None, "words": f"kind {kind:02X}"}
    try:
        facts = form.read(fields)
    except kinds.CutShort:
        return {"kind": kind, "name": form.name, "words": f"{form.name}, cut short"}
    return {"kind": kind, "name": form.name, **facts, "words": form.words(facts)}


def _request(line: bytes, study: Study | None = None) -> Facts:
    """What a line asks, and whether it came over train radio; then its kind is that of its plain form."""
    plain = kinds.plain_line(line)
    return {**names.told(_read(plain or line, kinds.LINES), study), "radio": plain is not None}


def _answer(line: bytes, reply: bytes, lengths: Lengths, study: Study | None = None) -> Facts:
    """What a line's reply says, and whether in the form for train radio; an empty one is number 17, which writes nothing."""
    if reply == b"":
        return {**_declined(kinds.BUFFER_TOO_SMALL, lengths), "radio": False}
    asked_by = kinds.plain_line(line)
    plain = kinds.plain_reply(reply) if asked_by else None
    facts = _read(plain or reply, kinds.replies_to(_kind(asked_by or line)))
    said = _declined(facts["number"], lengths) if "number" in facts else names.told(facts, study)
    return {**said, "radio": plain is not None}


def _declined(number: int, lengths: Lengths) -> Facts:
    """A refusal with its reason, or with its number alone."""
    reason = kinds.reason(number, lengths)
    words = f"declined, {number}" + (f": {reason}" if reason else "")
    return {"kind": kinds.DECLINED, "name": "declined", "number": number, "reason": reason, "words": words}


def answers(lengths: Lengths, newest_first: Iterable[Stored]) -> Iterator[tuple[int, Facts]]:
    """What the replies to stored lines say, each with the line's number."""
    for stored in newest_first:
        answer = _answer(stored.line, stored.reply, lengths)
        yield stored.number, {**answer, "places": _places(stored.line)} if answer.get("W") == asked.ONE_PLAN else answer


def _places(certificate: bytes) -> tuple[int, ...]:
    """The places of a certificate's weights that are not 0. With W = 1 these are the choices of a plan, train by train, and behind them its pairs'."""
    fields = kinds.Fields(kinds.plain_line(certificate) or certificate)
    fields.numbers(kinds.KIND_WIDTH + kinds.WEIGHT_WIDTH, kinds.COUNT_WIDTH)
    weights = fields.numbers(fields.left(kinds.WEIGHT_WIDTH), kinds.WEIGHT_WIDTH)
    return tuple(place for place, weight in enumerate(weights) if weight)


def show(library: Library, block: bytes, newest_first: Iterable[Stored], as_json: bool = False, named: Named = names.UNNAMED,
         proof: Kept | None = None) -> str:
    """The study that a block holds, with the best plan, the last plan and the last ceiling since it was loaded, in words or as JSON."""
    facts = _study(block, library)
    if facts["loaded"]:
        facts.update(_found(library, block, newest_first, facts, named.study, proof), names=names.listed(named.study), names_left_out=named.left_out)
    if as_json:
        return json.dumps(facts)
    return "\n".join(f"{title:<10}{words}" for title, words in _rows(facts))


def _study(block: bytes, library: Library) -> Facts:
    numbers = asked.numbers(block)
    trains, pairs = numbers[TRAINS], numbers[PAIRS]
    if trains == 0:
        return {"loaded": False}
    return {
        "loaded": True,
        "trains": trains,
        "scale": numbers[SCALE],
        "sizes": list(numbers[SIZES:SIZES + trains]),
        "pairs": [[numbers[FIRST_TRAINS + pair], numbers[SECOND_TRAINS + pair]] for pair in range(pairs)],
        "forbidden_choices": numbers[CHOICE_COSTS].count(FORBIDDEN),
        "forbidden_pairs_of_choices": numbers[PAIR_COSTS].count(FORBIDDEN),
        "constant": numbers[CONSTANT],
        "order": list(numbers[ORDER:ORDER + trains]),
        "bound": asked.bound(library, block),
    }


def _found(library: Library, block: bytes, newest_first: Iterable[Stored], facts: Facts, study: Study | None, proof: Kept | None) -> Facts:
    """What was found since the load: the plan that is best now, the last plan (or that there is none) and the last ceiling."""
    findings = found.since_load(answers(library.header, newest_first))
    return {
        "best_plan": names.told(best(library, block, findings, proof), study),
        "last_plan": findings.last and names.told(findings.last, study),
        "last_ceiling": findings.ceiling and _ceiling(findings.ceiling, facts),
    }


def best(library: Library, block: bytes, findings: Found, proof: Kept | None = None) -> Facts:
    """The best plan since the load, with its words."""
    facts = found.best(library, block, findings, proof)
    return {**facts, "words": _best_words(facts)}


def _ceiling(answer: Facts, study: Facts) -> Facts:
    """A certificate's ceiling. Rewriting keeps E, so without an addition since, the constant of now tells whether it is reached now."""
    parts = Fraction(answer["E"], answer["W"])
    reached = None if answer["added_since"] is not None else parts == study["constant"]
    return {**{name: answer[name] for name in ("E", "W", "line", "added_since")}, "points": str(parts / study["scale"]), "reached": reached}


def _rows(facts: Facts) -> Iterator[tuple[str, str]]:
    """The facts of a study, each with its title."""
    if not facts["loaded"]:
        yield "study", "nothing is loaded"
        return
    yield "trains", f"{facts['trains']}, with {' '.join(map(str, facts['sizes']))} choices"
    yield "scale", f"{counted(facts['scale'], 'part')} to a point"
    pairs = " ".join(f"{i}-{j}" for i, j in facts["pairs"])
    yield "pairs", f"{len(facts['pairs'])}" + (f": {pairs}" if pairs else "")
    yield "forbidden", f"{counted(facts['forbidden_choices'], 'choice')}, {counted(facts['forbidden_pairs_of_choices'], 'pair of choices')}"
    if facts["order"] != list(range(len(facts["order"]))):
        yield "order", f"a search tries the trains in the order {' '.join(map(str, facts['order']))}"
    yield "constant", f"{counted(facts['constant'], 'part')}, in points {mixed(Fraction(facts['constant'], facts['scale']))}"
    yield "bound", "not told by the library" if facts["bound"] is None else counted(facts["bound"], "point")
    yield "best plan", facts["best_plan"]["words"]
    yield "last plan", _plan_words(facts["last_plan"])
    yield "ceiling", _ceiling_words(facts["last_ceiling"])
    if facts["names"]:
        yield "names", "; ".join(f"{train}: {', '.join(choices)}" for train, choices in facts["names"])
    if facts["names_left_out"]:
        yield "names", facts["names_left_out"]


def mixed(number: Fraction) -> str:
    """A fraction as a whole number and what is left: 2 1/2."""
    whole, left = divmod(number, 1)
    return " ".join(str(part) for part in (whole, left) if part) or "0"


def _best_words(best: Facts) -> str:
    """A plan with its cost of now, and whether anything is left to be sought."""
    if best["plan"] is None:
        return f"there is none, by {_shown(best, 'the search of line')}: settled" if best["settled"] else "none in the log"
    return f"plan {' '.join(map(str, best['plan']))} costs {counted(best['cost'], 'point')} now, {settled(best)} ({_shown(best, 'line')})"


def _shown(best: Facts, by_line: str) -> str:
    """What shows a plan, or that there is none."""
    return "a kept proof" if best["line"] is None else f"{by_line} {best['line']}"


def settled(best: Facts) -> str:
    """Whether anything is left to be sought."""
    return "settled: no plan costs less" if best["settled"] else "not settled: a plan may cost less"


def _plan_words(plan: Facts | None) -> str:
    if plan is None:
        return "none in the log"
    least = ", and no plan costs less" if plan["ended"] and plan["plan"] else ""
    return f"{plan['words']}{least} (line {plan['line']}{_since(plan, 'its cost may be higher now')})"


def _ceiling_words(ceiling: Facts | None) -> str:
    if ceiling is None:
        return "none in the log"
    reached = {True: "reached", False: "not reached", None: "of the costs before the addition"}[ceiling["reached"]]
    points = mixed(Fraction(ceiling["points"]))
    return f"{ceiling['E']:,}/{ceiling['W']:,} parts, in points {points}, {reached} (line {ceiling['line']}{_since(ceiling, 'it may be higher now')})"


def _since(result: Facts, consequence: str) -> str:
    added = result["added_since"]
    return "" if added is None else f"; line {added} added points, so {consequence}"
