"""Lines from numbers, and numbers from lines.

A line is refused here only where a number has no place in its field (NoPlace): all else the service judges, which says by number what it declines. A shift and
a certificate are given their numbers flat, in the line's order: for each pair its rows' moves and then its columns', or its weights row by row.
"""

from collections.abc import Callable, Iterable, Iterator, Sequence
from typing import Any, NamedTuple

from junction import kinds
from junction.errors import NoPlace
from junction.kinds import Fields
from junction.study import Choice, Cost, Pair, Study, Train

LOAD, ADD, SHIFT, TIGHTEN, CERTIFY, SEARCH, SAVE, ROUND = range(0x01, 0x09)
CLAUSES, EXPLAIN, ORDER, SCREEN, PLANNER, RECORD, DEAREST = range(0x09, 0x10)

# A clause: its two literals, of which the second may be 0, and its weight.
Clause = tuple[int, int, int]


def load(study: Study) -> str:
    """A new study."""
    parts = [_one(LOAD), _count(len(study.trains), "trains"), _scale(study.scale)]
    parts += [_count(size, "choices of a train") for size in study.sizes]
    parts += [_cost(choice.cost) for train in study.trains for choice in train.choices]
    parts.append(_count(len(study.pairs), "pairs"))
    for pair in study.pairs:
        parts += [_one(pair.first), _one(pair.second)]
        parts += [_cost(cost) for row in pair.costs for cost in row]
    return _text(parts)


def clauses(trains: int, scale: int, given: Sequence[Clause]) -> str:
    """A new study of weighted clauses. Literal k is train k - 1 taking choice 0, and -k is choice 1."""
    parts = [_one(CLAUSES), _count(trains, "trains"), _scale(scale), _unsigned(len(given), kinds.CLAUSE_COUNT_WIDTH, "the count of clauses")]
    for first, second, weight in given:
        parts += [_literal(first), _literal(second), _unsigned(weight, kinds.COST_WIDTH, "the weight of a clause")]
    return _text(parts)


def add(train: int, choice: int, points: int) -> str:
    """A choice gets dearer."""
    return _text([_one(ADD), _train(train), _choice(choice), _unsigned(points, kinds.COST_WIDTH, "the points to add")])


def shift(lifts: Iterable[int], moves: Iterable[int]) -> str:
    """Costs in parts go from trains to the constant, and from entries of pairs to choices."""
    signed = kinds.MOVE_WIDTH
    return _text([_one(SHIFT), *(_signed(lift, signed, "a lift") for lift in lifts), *(_signed(move, signed, "a move") for move in moves)])


def tighten() -> str:
    """Leasts are moved, pair by pair and then train by train."""
    return _text([_one(TIGHTEN)])


def certify(full: int, weights: Iterable[int]) -> str:
    """A ceiling, by weights; `full` is W, to which each train's weights sum."""
    width = kinds.WEIGHT_WIDTH
    return _text([_one(CERTIFY), _unsigned(full, width, "W"), *(_unsigned(weight, width, "a weight") for weight in weights)])


def search(budget: int) -> str:
    """Plans are tried, by so many tries at most."""
    return _text([_one(SEARCH), _unsigned(budget, kinds.TRIES_WIDTH, "the budget")])


def save() -> str:
    """Asks for the load line of the costs in points."""
    return _text([_one(SAVE)])


def directional_round() -> str:
    """One round from the last train to the first."""
    return _text([_one(ROUND)])


def explain(train: int, choice: int, limit: int) -> str:
    """Asks why a choice is out against a limit in points."""
    return _text([_one(EXPLAIN), _train(train), _choice(choice), _unsigned(limit, kinds.LIMIT_WIDTH, "the limit")])


def order(trains: Iterable[int]) -> str:
    """The order in which a search tries the trains."""
    return _text([_one(ORDER), *map(_train, trains)])


def screen(choices: Sequence[int], bound: int, cost: int) -> str:
    """A station screen reads a record."""
    return _text([_one(SCREEN), *_record(choices, bound, cost)])


def planner(choices: Sequence[int], bound: int, cost: int) -> str:
    """A planning room reads a record."""
    return _text([_one(PLANNER), *_record(choices, bound, cost)])


def record(choices: Iterable[int]) -> str:
    """Asks for the record of a plan."""
    return _text([_one(RECORD), *map(_choice, choices)])


def dearest(sizes: Sequence[int]) -> str:
    """Asks for the load line of the dearest study of these sizes."""
    return _text([_one(DEAREST), _count(len(sizes), "trains"), *(_count(size, "choices of a train") for size in sizes)])


def by_radio(line: str) -> str:
    """The form of a line for train radio. A line of no kind has none; one that is in this form already stays."""
    if is_by_radio(line):
        return line
    kind = kind_of(line)
    if kind not in kinds.LINES:
        raise NoPlace("the line has no form for train radio: it is of no kind")
    front = bytes([kind + kinds.RADIO_ADDED]) + bytes.fromhex(line)[kinds.KIND_WIDTH:]
    return _text([front, bytes([-sum(front) % 256])])


def with_scale(line: str, scale: int) -> str:
    """A plain load or line of clauses, with so many parts a point. In both the scale stands behind kind and n."""
    begins, ends = (2 * (kinds.KIND_WIDTH + kinds.COUNT_WIDTH + width) for width in (0, kinds.SCALE_WIDTH))
    return line[:begins] + _text([_scale(scale)]) + line[ends:]


def plain(line: str) -> str:
    """A line without the additions for train radio, be its sum right or wrong. One in no such form stays."""
    without = kinds.plain_line(line.encode("ascii", "replace"))
    return line if without is None else without.decode("ascii")


def has_form_by_radio(line: str) -> bool:
    """Whether a line has a form for train radio: it is of some kind, in either form."""
    return is_by_radio(line) or kind_of(line) in kinds.LINES


def is_by_radio(line: str) -> bool:
    """Whether a line is in the form for train radio."""
    kind = kind_of(line)
    return kind is not None and kind - kinds.RADIO_ADDED in kinds.LINES


def kind_of(line: str) -> int | None:
    """The first byte of a line; None where the line is not digits by two."""
    frame = line.encode("ascii", "replace")
    return Fields(frame).number(kinds.KIND_WIDTH) if kinds.FRAME.fullmatch(frame) else None


class Asked(NamedTuple):
    """What a plain line asks: the encoder of its kind, and what this is given. `again` is the line."""

    encoder: Callable[..., str]
    arguments: tuple[Any, ...]

    def again(self) -> str:
        """The line."""
        return self.encoder(*self.arguments)


def read(line: str) -> Asked | None:
    """What a plain line asks, or None where its fields are not all there, bytes are left over, or it is of no kind. Since a shift does not say where its moves
    begin, all its numbers are given as lifts."""
    kind = kind_of(line)
    if kind not in _READERS:
        return None
    encoder, reader = _READERS[kind]
    fields = Fields(line.encode("ascii"))
    fields.number(kinds.KIND_WIDTH)
    try:
        asked = Asked(encoder, reader(fields))
    except kinds.CutShort:
        return None
    return None if fields.left(kinds.COUNT_WIDTH) else asked


def _text(parts: Iterable[bytes]) -> str:
    return b"".join(parts).hex().upper()


def _unsigned(number: int, width: int, what: str) -> bytes:
    try:
        return number.to_bytes(width, "big")
    except OverflowError:
        raise NoPlace(f"{what} is 0 to {(1 << 8 * width) - 1:,} in a line, not {number:,}") from None


def _signed(number: int, width: int, what: str) -> bytes:
    try:
        return number.to_bytes(width, "big", signed=True)
    except OverflowError:
        half = 1 << 8 * width - 1
        raise NoPlace(f"{what} is {-half:,} to {half - 1:,} in a line, not {number:,}") from None


def _one(number: int) -> bytes:
    return _unsigned(number, kinds.COUNT_WIDTH, "a number")


def _train(number: int) -> bytes:
    return _unsigned(number, kinds.COUNT_WIDTH, "a train")


def _choice(number: int) -> bytes:
    return _unsigned(number, kinds.COUNT_WIDTH, "a choice")


def _count(number: int, of: str) -> bytes:
    return _unsigned(number, kinds.COUNT_WIDTH, f"the count of {of}")


def _scale(number: int) -> bytes:
    return _unsigned(number, kinds.SCALE_WIDTH, "the scale")


def _literal(number: int) -> bytes:
    return _signed(number, kinds.LITERAL_WIDTH, "a literal")


def _cost(cost: Cost) -> bytes:
    """A cost of a load. The highest number of its field says 'forbidden', so that no cost is that number."""
    if cost is not None and not 0 <= cost < kinds.FORBIDDEN:
        raise NoPlace(f"a cost is 0 to {kinds.FORBIDDEN - 1:,} in a line, not {cost:,}")
    return (kinds.FORBIDDEN if cost is None else cost).to_bytes(kinds.COST_WIDTH, "big")


def _record(choices: Sequence[int], bound: int, cost: int) -> list[bytes]:
    figures = [_unsigned(bound, kinds.FIGURE_WIDTH, "the bound of a record"), _unsigned(cost, kinds.FIGURE_WIDTH, "the cost of a record")]
    return [_count(len(choices), "choices of a record"), *map(_choice, choices), *figures]


def _read_load(fields: Fields) -> tuple[Study]:
    count, scale = fields.number(kinds.COUNT_WIDTH), fields.number(kinds.SCALE_WIDTH)
    sizes = fields.numbers(count, kinds.COUNT_WIDTH)
    trains = tuple(_read_train(fields, number, size) for number, size in enumerate(sizes))
    return (Study(trains, tuple(_read_pairs(fields, sizes)), scale),)


def _read_train(fields: Fields, number: int, size: int) -> Train:
    return Train(str(number), tuple(Choice(str(choice), _read_cost(fields)) for choice in range(size)))


def _read_pairs(fields: Fields, sizes: Sequence[int]) -> Iterator[Pair]:
    last = (-1, -1)
    for _ in range(fields.number(kinds.COUNT_WIDTH)):
        i, j = fields.number(kinds.COUNT_WIDTH), fields.number(kinds.COUNT_WIDTH)
        if not i < j < len(sizes) or (i, j) <= last:
            raise kinds.CutShort
        last = (i, j)
        yield Pair(i, j, tuple(tuple(_read_cost(fields) for _ in range(sizes[j])) for _ in range(sizes[i])))


def _read_cost(fields: Fields) -> Cost:
    cost = fields.number(kinds.COST_WIDTH)
    return None if cost == kinds.FORBIDDEN else cost


def _read_clauses(fields: Fields) -> tuple[int, int, list[Clause]]:
    trains, scale, count = fields.number(kinds.COUNT_WIDTH), fields.number(kinds.SCALE_WIDTH), fields.number(kinds.CLAUSE_COUNT_WIDTH)
    width = kinds.LITERAL_WIDTH
    return trains, scale, [(fields.signed(width), fields.signed(width), fields.number(kinds.COST_WIDTH)) for _ in range(count)]


def _read_shift(fields: Fields) -> tuple[list[int], list[int]]:
    return [fields.signed(kinds.MOVE_WIDTH) for _ in range(fields.left(kinds.MOVE_WIDTH))], []


def _read_certify(fields: Fields) -> tuple[int, list[int]]:
    full = fields.number(kinds.WEIGHT_WIDTH)
    return full, fields.numbers(fields.left(kinds.WEIGHT_WIDTH), kinds.WEIGHT_WIDTH)


def _read_choice(fields: Fields, width: int) -> tuple[int, int, int]:
    return fields.number(kinds.COUNT_WIDTH), fields.number(kinds.COUNT_WIDTH), fields.number(width)


def _read_all(fields: Fields) -> tuple[list[int]]:
    return (fields.numbers(fields.left(kinds.COUNT_WIDTH), kinds.COUNT_WIDTH),)


def _read_counted(fields: Fields) -> tuple[list[int]]:
    return (fields.numbers(fields.number(kinds.COUNT_WIDTH), kinds.COUNT_WIDTH),)


def _read_record(fields: Fields) -> tuple[list[int], int, int]:
    (choices,) = _read_counted(fields)
    return choices, fields.number(kinds.FIGURE_WIDTH), fields.number(kinds.FIGURE_WIDTH)


def _read_nothing(_: Fields) -> tuple[()]:
    return ()


_READERS: dict[int | None, tuple[Callable[..., str], Callable[[Fields], tuple[Any, ...]]]] = {
    LOAD: (load, _read_load),
    ADD: (add, lambda fields: _read_choice(fields, kinds.COST_WIDTH)),
    SHIFT: (shift, _read_shift),
    TIGHTEN: (tighten, _read_nothing),
    CERTIFY: (certify, _read_certify),
    SEARCH: (search, lambda fields: (fields.number(kinds.TRIES_WIDTH),)),
    SAVE: (save, _read_nothing),
    ROUND: (directional_round, _read_nothing),
    CLAUSES: (clauses, _read_clauses),
    EXPLAIN: (explain, lambda fields: _read_choice(fields, kinds.LIMIT_WIDTH)),
    ORDER: (order, _read_all),
    SCREEN: (screen, _read_record),
    PLANNER: (planner, _read_record),
    RECORD: (record, _read_all),
    DEAREST: (dearest, _read_counted),
}
