"""Parts of a study's plans. What is closed to a part is forbidden in the load of its lines; its costs are else those of the study."""

from collections.abc import Iterable
from typing import NamedTuple

from junction import lift
from junction.block import Row, Rows, Tables
from junction.lift import Shift
from junction.solving.proof import Part
from junction.study import Study


class Alone(NamedTuple):
    """Choices of a train that a partner leaves no permitted pair of choices."""

    train: int
    partner: int
    choices: tuple[int, ...]


def whole(study: Study) -> Part:
    """All plans: all choices that are permitted."""
    return tuple(tuple(choice for choice, of in enumerate(train.choices) if of.cost is not None) for train in study.trains)


def only(part: Part, train: int, choices: Iterable[int]) -> Part:
    """The plans of a part in which a train takes one of these choices."""
    kept = set(choices)
    return tuple(tuple(choice for choice in of if choice in kept) if number == train else of for number, of in enumerate(part))


def without(part: Part, train: int, choices: Iterable[int]) -> Part:
    """The plans of a part in which a train takes none of these choices."""
    return only(part, train, set(part[train]) - set(choices))


def split(part: Part, train: int, choices: Iterable[int]) -> list[Part]:
    """A part for each choice of a train, in the order of these choices."""
    return [only(part, train, [choice]) for choice in choices if choice in part[train]]


def alone(study: Study, part: Part) -> Alone | None:
    """The first choices of a part that are in no plan, since a partner leaves them no permitted pair of choices; None where there are none."""
    for pair in study.pairs:
        rows = pair.costs
        for train, partner, of in ((pair.first, pair.second, rows), (pair.second, pair.first, tuple(zip(*rows, strict=True)))):
            found = tuple(choice for choice in part[train] if all(of[choice][other] is None for other in part[partner]))
            if found:
                return Alone(train, partner, found)
    return None


def tables(study: Study, part: Part, begun: Shift | None = None) -> Tables:
    """The tables of a part at the study's scale, after a shift where one is given that begins it."""
    loaded = tuple(tuple(of.cost if choice in part[number] else None for choice, of in enumerate(train.choices)) for number, train in enumerate(study.trains))
    pairs = tuple((pair.first, pair.second) for pair in study.pairs)
    entries = tuple(pair.costs for pair in study.pairs)
    held = Tables(
        study.scale, 0, study.sizes, pairs, loaded, entries, _in_parts(loaded, study.scale), tuple(_in_parts(rows, study.scale) for rows in entries),
        tuple(range(len(loaded))),
    )
    return held if begun is None else lift.apply(held, begun)


def _in_parts(rows: Rows, scale: int) -> Rows:
    return tuple(_row(row, scale) for row in rows)


def _row(row: Row, scale: int) -> Row:
    return tuple(None if cost is None else cost * scale for cost in row)
