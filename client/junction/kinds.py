"""The kinds of lines and replies, and the refusals, in words.

These tables say what a line and its reply were; the library alone decides what a line is answered. A kind or a refusal that
stands in no table is named by its number.
"""

import re
from collections.abc import Callable
from typing import Any, NamedTuple

from junction.lengths import BY_DOCUMENT, Lengths

Facts = dict[str, Any]

FRAME = re.compile(rb"(?:[0-9A-F]{2})+")
DECLINED = 0xFF
BUFFER_TOO_SMALL = 17
NO_PLAN = 0xFF
NO_PARTNER = 0xFF
FORBIDDEN = 0xFFFFFF

# What a line over train radio and the reply to it have more: 40, hexadecimal, in their kind, where that is not FF, and at their end a byte that
# takes the sum of all their bytes to 0, modulo 256.
RADIO_ADDED = 0x40
RADIO_SUM_WIDTH = 1

# The widths of fields in bytes, as document 01 gives them.
KIND_WIDTH = 1
COUNT_WIDTH = 1
SCALE_WIDTH = 2
CLAUSE_COUNT_WIDTH = 2
COST_WIDTH = 3
WEIGHT_WIDTH = 3
TRIES_WIDTH = 4
LIMIT_WIDTH = 4
LITERAL_WIDTH = 1
FIGURE_WIDTH = 6
MOVE_WIDTH = 6
SUM_WIDTH = 8

SPENT, ENDED, ENDED_WITHOUT_PLAN = 0, 1, 2
NOT_OUT, OUT_BY_ITSELF, OUT_BY_PARTNER = 0, 1, 2

PLURALS = {"try": "tries", "pair of choices": "pairs of choices"}


class CutShort(Exception):
    """A field of the line is not wholly there."""


class Fields:
    """The fields of a line or a reply, read from left to right; numbers are big-endian."""

    def __init__(self, text: bytes) -> None:
        self._bytes = bytes.fromhex(text.decode("ascii"))
        self._at = 0

    def number(self, width: int) -> int:
        """The number in the next `width` bytes."""
        field = self._bytes[self._at:self._at + width]
        if len(field) < width:
            raise CutShort
        self._at += width
        return int.from_bytes(field, "big")

    def signed(self, width: int) -> int:
        """The number in the next `width` bytes, in two's complement."""
        number, all_of_them = self.number(width), 1 << 8 * width
        return number - all_of_them if number >= all_of_them // 2 else number

    def numbers(self, count: int, width: int) -> list[int]:
        """So many numbers of one width."""
        return [self.number(width) for _ in range(count)]

    def left(self, width: int) -> int:
        """How many numbers of this width are left."""
        return (len(self._bytes) - self._at) // width

    def adds_up(self) -> bool:
        """Whether the sum of all bytes is 0, modulo 256."""
        return sum(self._bytes) % 256 == 0


class Form(NamedTuple):
    """How a kind is called, which facts its fields give, and these facts in words."""

    name: str
    read: Callable[[Fields], Facts]
    words: Callable[[Facts], str]


def counted(count: int, noun: str) -> str:
    """A number with its noun: 1 pair, 2 pairs, 1,000 tries."""
    if count == 1:
        return f"1 {noun}"
    return f"{count:,} {PLURALS.get(noun, noun + 's')}"


def _nothing(_: Fields) -> Facts:
    return {}


def _read_load(fields: Fields) -> Facts:
    trains = fields.number(COUNT_WIDTH)
    scale = fields.number(SCALE_WIDTH)
    sizes = fields.numbers(trains, COUNT_WIDTH)
    fields.numbers(sum(sizes), COST_WIDTH)
    pairs = []
    for _ in range(fields.number(COUNT_WIDTH)):
        i, j = fields.numbers(2, COUNT_WIDTH)
        if max(i, j) >= trains:
            break
        pairs.append([i, j])
        fields.numbers(sizes[i] * sizes[j], COST_WIDTH)
    return {"trains": trains, "scale": scale, "sizes": sizes, "pairs": pairs}


def _load_words(facts: Facts) -> str:
    sizes = " ".join(map(str, facts["sizes"]))
    return f"load {counted(facts['trains'], 'train')}, scale {facts['scale']}, sizes {sizes}, {counted(len(facts['pairs']), 'pair')}"


def _read_add(fields: Fields) -> Facts:
    train, choice = fields.numbers(2, COUNT_WIDTH)
    return {"train": train, "choice": choice, "points": fields.number(COST_WIDTH)}


def _add_words(facts: Facts) -> str:
    return f"add {counted(facts['points'], 'point')} to train {facts['train']}, choice {facts['choice']}"


def _read_shift(fields: Fields) -> Facts:
    moves = fields.numbers(fields.left(MOVE_WIDTH), MOVE_WIDTH)
    return {"moves": len(moves), "moves_not_0": sum(move != 0 for move in moves)}


def _shift_words(facts: Facts) -> str:
    return f"shift by {facts['moves']} lifts and moves, {facts['moves_not_0']} of them not 0"


def _read_certify(fields: Fields) -> Facts:
    return {"W": fields.number(WEIGHT_WIDTH), "weights": fields.left(WEIGHT_WIDTH)}


def _certify_words(facts: Facts) -> str:
    return f"certify by {counted(facts['weights'], 'weight')} with W = {facts['W']:,}"


def _read_search(fields: Fields) -> Facts:
    return {"budget": fields.number(TRIES_WIDTH)}


def _search_words(facts: Facts) -> str:
    return f"search by at most {counted(facts['budget'], 'try')}"


def _read_clauses(fields: Fields) -> Facts:
    return {"trains": fields.number(COUNT_WIDTH), "scale": fields.number(SCALE_WIDTH), "clauses": fields.number(CLAUSE_COUNT_WIDTH)}


def _clauses_words(facts: Facts) -> str:
    return f"load {counted(facts['trains'], 'train')}, scale {facts['scale']}, by {counted(facts['clauses'], 'clause')}"


def _read_explain(fields: Fields) -> Facts:
    train, choice = fields.numbers(2, COUNT_WIDTH)
    return {"train": train, "choice": choice, "limit": fields.number(LIMIT_WIDTH)}


def _explain_words(facts: Facts) -> str:
    return f"explain train {facts['train']}, choice {facts['choice']}, against {counted(facts['limit'], 'point')}"


def _read_order(fields: Fields) -> Facts:
    return {"order": fields.numbers(fields.left(COUNT_WIDTH), COUNT_WIDTH)}


def _order_words(facts: Facts) -> str:
    return " ".join(["order", *map(str, facts["order"])])


def _read_choices(fields: Fields) -> Facts:
    return {"choices": fields.numbers(fields.left(COUNT_WIDTH), COUNT_WIDTH)}


def _choices_words(facts: Facts) -> str:
    return " ".join(["choices", *map(str, facts["choices"])])


def _read_counted_choices(fields: Fields) -> Facts:
    return {"choices": fields.numbers(fields.number(COUNT_WIDTH), COUNT_WIDTH)}


# A record has no fact called plan or ended: `show` takes these for what a search found.
def _read_record(fields: Fields) -> Facts:
    return {**_read_counted_choices(fields), "bound": fields.number(FIGURE_WIDTH), "cost": fields.number(FIGURE_WIDTH)}


def _record_words(facts: Facts) -> str:
    return f"record of {_choices_words(facts)}, bound {counted(facts['bound'], 'point')}, cost {counted(facts['cost'], 'point')}"


def _read_dearest(fields: Fields) -> Facts:
    trains = fields.number(COUNT_WIDTH)
    return {"trains": trains, "sizes": fields.numbers(trains, COUNT_WIDTH)}


def _dearest_words(facts: Facts) -> str:
    return " ".join([f"dearest study of {counted(facts['trains'], 'train')}, sizes", *map(str, facts["sizes"])])


LINES: dict[int, Form] = {
    0x01: Form("load", _read_load, _load_words),
    0x02: Form("add", _read_add, _add_words),
    0x03: Form("shift", _read_shift, _shift_words),
    0x04: Form("tighten", _nothing, lambda _: "tighten"),
    0x05: Form("certify", _read_certify, _certify_words),
    0x06: Form("search", _read_search, _search_words),
    0x07: Form("save", _nothing, lambda _: "save"),
    0x08: Form("round", _nothing, lambda _: "round"),
    0x09: Form("clauses", _read_clauses, _clauses_words),
    0x0A: Form("explain", _read_explain, _explain_words),
    0x0B: Form("order", _read_order, _order_words),
    0x0C: Form("screen", _read_record, lambda facts: f"screen reads {_record_words(facts)}"),
    0x0D: Form("planner", _read_record, lambda facts: f"planner reads {_record_words(facts)}"),
    0x0E: Form("record", _read_choices, lambda facts: f"record {_choices_words(facts)}"),
    0x0F: Form("dearest", _read_dearest, _dearest_words),
}


def _read_bound(fields: Fields) -> Facts:
    return {"constant": fields.number(FIGURE_WIDTH), "bound": fields.number(FIGURE_WIDTH)}


def _bound_words(facts: Facts) -> str:
    return f"constant {counted(facts['constant'], 'part')}, bound {counted(facts['bound'], 'point')}"


def _read_ceiling(fields: Fields) -> Facts:
    return {"reached": fields.number(COUNT_WIDTH) == 1, "E": fields.number(SUM_WIDTH), "W": fields.number(WEIGHT_WIDTH)}


def _ceiling_words(facts: Facts) -> str:
    return f"ceiling {facts['E']:,}/{facts['W']:,} parts, {'reached' if facts['reached'] else 'not reached'}"


def _read_found(fields: Fields) -> Facts:
    state = fields.number(COUNT_WIDTH)
    facts: Facts = {"ended": state in (ENDED, ENDED_WITHOUT_PLAN), "tries": fields.number(TRIES_WIDTH), "cost": None, "plan": None}
    cost = fields.number(FIGURE_WIDTH)
    plan = fields.numbers(fields.left(COUNT_WIDTH), COUNT_WIDTH)
    if state == ENDED or any(choice != NO_PLAN for choice in plan):
        facts.update(cost=cost, plan=plan)
    return facts


def _found_words(facts: Facts) -> str:
    state = f"{'ended' if facts['ended'] else 'spent'} after {counted(facts['tries'], 'try')}"
    if facts["plan"] is not None:
        return f"{state}: plan {' '.join(map(str, facts['plan']))} costs {counted(facts['cost'], 'point')}"
    return f"{state}: {'there is no plan' if facts['ended'] else 'no plan found'}"


def _read_reason(fields: Fields) -> Facts:
    reason, partner = fields.numbers(2, COUNT_WIDTH)
    return {"reason": reason, "partner": partner if reason == OUT_BY_PARTNER else None}


def _reason_words(facts: Facts) -> str:
    if facts["partner"] is not None:
        return f"out, with train {facts['partner']}"
    return "out by itself" if facts["reason"] == OUT_BY_ITSELF else "not out"


def _read_declined(fields: Fields) -> Facts:
    return {"number": fields.number(COUNT_WIDTH)}


# The kinds of replies that show constant and bound, and of these the ones that set all costs anew.
LOADED = (0x81, 0x89)
ADDED = 0x82
BOUND_SHOWN = (*LOADED, ADDED, 0x83, 0x84, 0x88)

REPLIES: dict[int, Form] = {
    **{kind: Form("bound", _read_bound, _bound_words) for kind in BOUND_SHOWN},
    0x85: Form("ceiling", _read_ceiling, _ceiling_words),
    0x86: Form("found", _read_found, _found_words),
    0x8A: Form("reason", _read_reason, _reason_words),
    0x8B: Form("order", _read_order, _order_words),
    0x8C: Form("screen", _read_counted_choices, _choices_words),
    0x8D: Form("record", _read_record, _record_words),
    0x8E: Form("record", _read_record, _record_words),
    DECLINED: Form("declined", _read_declined, "declined, {number}".format_map),
}

# A reply that is a line to load, by the kind of the line that it answers.
LOAD = 0x01
LOAD_REPLIES: dict[int, Form] = {
    0x07: Form("saved", _read_load, lambda facts: f"saved, to {_load_words(facts)}"),
    0x0F: Form("dearest", _read_load, lambda facts: f"the dearest study: {_load_words(facts)}"),
}


def replies_to(kind: int | None) -> dict[int, Form]:
    """The replies to lines of this kind, None being that of a line that is not digits by two."""
    form = LOAD_REPLIES.get(kind) if kind is not None else None
    return {**REPLIES, LOAD: form} if form else REPLIES


def plain_line(line: bytes) -> bytes | None:
    """A line over train radio without its two additions, be its sum right or wrong; None where the line is in no such form."""
    if not FRAME.fullmatch(line) or Fields(line).number(KIND_WIDTH) - RADIO_ADDED not in LINES:
        return None
    return _without_additions(line, RADIO_ADDED)


def plain_reply(reply: bytes) -> bytes | None:
    """The reply to a line over train radio without its two additions. None where it has none, as with 3 and 16, by its sum."""
    if not FRAME.fullmatch(reply) or not Fields(reply).adds_up():
        return None
    kind = Fields(reply).number(KIND_WIDTH)
    return None if kind < RADIO_ADDED else _without_additions(reply, 0 if kind == DECLINED else RADIO_ADDED)


def _without_additions(text: bytes, added: int) -> bytes:
    kind, fields = text[:2 * KIND_WIDTH], text[2 * KIND_WIDTH:-2 * RADIO_SUM_WIDTH]
    return b"%02X" % (int(kind, 16) - added) + fields


# The README's table of refusals, column 'When', in ASCII. The lengths are filled in by `reason`.
REFUSALS: dict[int, str] = {
    1: "the line is empty, has an odd count of characters or one that is not 0-9 or A-F",
    2: "the line is over {lengths.line_characters:,} characters",
    3: "there is no such kind",
    4: "kinds 02 to 08 and 0A to 0E on a fresh block",
    5: "a field is not wholly there, or bytes are left over",
    6: "n, s, a size, m or the count of clauses is outside the ranges",
    7: "a cost, the points to add or a clause's weight are over 1,000,000, but for a cost of FFFFFF in a load of kind 01, which forbids",
    8: "a pair's i is not below j, j not below n, or the pair not after the last",
    9: "the train or the choice is absent",
    10: "the loaded cost would pass 1,000,000, by an addition or by the weights of clauses on the same entry",
    11: "a lift or a move is outside -10^12 to 10^12",
    12: "c0 or an entry would end below 0 or above 72,000,000,000",
    13: "W is outside 1 to 100,000",
    14: "the weights' sums disagree",
    15: "the budget is outside 1 to 10,000,000",
    16: "the block has another length or is not well formed, its order of trains included",
    17: "the reply buffer is below {lengths.reply_bytes} bytes, or shorter than the line or the record that it answers with",
    18: "a weight above 0 on a forbidden entry, after 14",
    19: "a clause has a literal of an absent train, a first literal of 0, or one train twice, of either sign",
    20: "the clauses name more than 48 pairs",
    21: "an order has not each train exactly once",
    22: "a record's n or a choice is not the block's",
    23: "a record's cost is not its plan's total in loaded costs, its bound is above that, or the plan has a forbidden entry",
    24: "the sum of the products of the first 1, 2, up to n sizes exceeds 10,000,000",
    25: "the sum of all bytes of a line over train radio, carried round at 256, is not 0",
}


def reason(number: int, lengths: Lengths = BY_DOCUMENT) -> str | None:
    """Why a line is declined under this number, or nothing where the number is not known."""
    words = REFUSALS.get(number)
    return words.format(lengths=lengths) if words else None
