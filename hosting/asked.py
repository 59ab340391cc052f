"""What the library says of a stored block. Each line is asked on a copy of the block, and not stored: nothing of a study changes."""

import struct
from collections.abc import Iterator, Sequence

from junction import lines, replies
from junction.block import Tables
from junction.errors import Failure
from junction.lengths import NUMBER_BYTES
from junction.native import Library
from junction.replies import Bound, Ceiling
from junction.study import Study

# W of a certificate whose weights are those of one plan.
ONE_PLAN = 1


def numbers(block: bytes) -> tuple[int, ...]:
    """The numbers of a block."""
    return struct.unpack(f"<{len(block) // NUMBER_BYTES}q", block)


def tables(block: bytes) -> Tables:
    """The tables of a block."""
    return Tables.of(numbers(block))


def reply(library: Library, block: bytes, line: str) -> replies.Reply:
    """The reply to a line. Raises Refused where it is declined."""
    answer, _ = library.answer(block, line.encode("ascii"))
    return replies.decode(line, answer.decode("ascii", "backslashreplace"))


def bound(library: Library, block: bytes) -> int | None:
    """The published bound, which a shift of nothing shows."""
    held = tables(block)
    moves = sum(held.sizes[i] + held.sizes[j] for i, j in held.pairs)
    try:
        shown = reply(library, block, lines.shift([0] * len(held.sizes), [0] * moves))
    except Failure:
        return None
    return shown.bound if isinstance(shown, Bound) else None


def saved(library: Library, block: bytes) -> Study:
    """The study with its costs in points, additions included, as a save gives it; numbers are its names."""
    shown = reply(library, block, lines.save())
    assert isinstance(shown, Study)
    return shown


def cost(library: Library, block: bytes, plan: Sequence[int]) -> int | None:
    """What a plan costs, in points: the ceiling of the certificate whose weights are this plan's, with W = 1. None where the library declines it."""
    held = tables(block)
    if len(plan) != len(held.sizes):
        return None
    try:
        shown = reply(library, block, plan_line(block, plan))
    except Failure:
        return None
    assert isinstance(shown, Ceiling)
    points, left = divmod(shown.E, held.scale)
    return None if left else points


def plan_line(block: bytes, plan: Sequence[int]) -> str:
    """The certificate whose weights are those of one plan, with W = 1."""
    return lines.certify(ONE_PLAN, _weights(tables(block), plan))


def _weights(held: Tables, plan: Sequence[int]) -> Iterator[int]:
    """The weights of one plan: 1 on each choice that it takes, and on each entry of two of them."""
    for train, size in enumerate(held.sizes):
        yield from (int(choice == plan[train]) for choice in range(size))
    for i, j in held.pairs:
        for first in range(held.sizes[i]):
            yield from (int((first, second) == (plan[i], plan[j])) for second in range(held.sizes[j]))
