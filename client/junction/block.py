"""A block's numbers as tables: what a shift is sought for, and what it changes.

Loaded costs are in points, held costs and the constant in parts. A cost of None is forbidden. A fresh block is a study of no trains.
"""

from collections.abc import Sequence
from dataclasses import dataclass

from junction.study import Cost

Row = tuple[Cost, ...]
Rows = tuple[Row, ...]

# The places of the block, as document 01 gives them, and document 02 the last ones.
TRAINS, SCALE, PAIRS, CONSTANT = 0, 1, 2, 3
SIZES, FIRST_TRAINS, SECOND_TRAINS = 4, 28, 76
LOADED_CHOICES, HELD_CHOICES = 124, 316
LOADED_ENTRIES, HELD_ENTRIES = 508, 3580
ORDER = 6652
NUMBERS = 6676

# How many places of the block a train has in a table of choices, and a pair in a table of entries.
PLACES_OF_TRAIN = 8
PLACES_OF_PAIR = 64
FORBIDDEN = -1


@dataclass(frozen=True)
class Tables:
    """The trains' choices by train, and the pairs' entries by pair: entries[k][a][c] belongs to choice a of the pair's first train and c of its second."""

    scale: int
    constant: int
    sizes: tuple[int, ...]
    pairs: tuple[tuple[int, int], ...]
    loaded_choices: Rows
    loaded_entries: tuple[Rows, ...]
    choices: Rows
    entries: tuple[Rows, ...]
    order: tuple[int, ...]

    @staticmethod
    def of(numbers: Sequence[int]) -> "Tables":
        """The tables of a well-formed block."""
        if len(numbers) != NUMBERS:
            raise ValueError(f"a block has {NUMBERS} numbers, and not {len(numbers)}")
        trains, count = numbers[TRAINS], numbers[PAIRS]
        sizes = tuple(numbers[SIZES:SIZES + trains])
        firsts, seconds = numbers[FIRST_TRAINS:FIRST_TRAINS + count], numbers[SECOND_TRAINS:SECOND_TRAINS + count]
        pairs = tuple(zip(firsts, seconds, strict=True))
        return Tables(
            scale=numbers[SCALE],
            constant=numbers[CONSTANT],
            sizes=sizes,
            pairs=pairs,
            loaded_choices=_choices(numbers, LOADED_CHOICES, sizes),
            loaded_entries=_entries(numbers, LOADED_ENTRIES, sizes, pairs),
            choices=_choices(numbers, HELD_CHOICES, sizes),
            entries=_entries(numbers, HELD_ENTRIES, sizes, pairs),
            order=tuple(numbers[ORDER:ORDER + trains]),
        )


def _choices(numbers: Sequence[int], begin: int, sizes: Sequence[int]) -> Rows:
    """The table of choices that begins at a place."""
    return tuple(_row(numbers, begin + PLACES_OF_TRAIN * train, size) for train, size in enumerate(sizes))


def _entries(numbers: Sequence[int], begin: int, sizes: Sequence[int], pairs: Sequence[tuple[int, int]]) -> tuple[Rows, ...]:
    """The table of pairs that begins at a place."""
    tables: list[Rows] = []
    for pair, (first, second) in enumerate(pairs):
        place = begin + PLACES_OF_PAIR * pair
        tables.append(tuple(_row(numbers, place + PLACES_OF_TRAIN * choice, sizes[second]) for choice in range(sizes[first])))
    return tuple(tables)


def _row(numbers: Sequence[int], place: int, count: int) -> Row:
    return tuple(None if number == FORBIDDEN else number for number in numbers[place:place + count])
