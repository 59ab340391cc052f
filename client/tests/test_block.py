"""Tables of a block: each number from its place, as document 01 gives the places."""

import unittest

from junction import block
from junction.block import Tables

FULL = [(i, j) for i in range(24) for j in range(i + 1, min(i + 4, 24))][:48]


def numbers(trains: int, sizes: list[int], pairs: list[tuple[int, int]]) -> list[int]:
    """A block in which each cost and each place of the order is the number of its place."""
    block_numbers = list(range(6676))
    block_numbers[:124] = [0] * 124
    block_numbers[:4] = [trains, 840, len(pairs), 77]
    block_numbers[4:4 + trains] = sizes
    block_numbers[28:28 + len(pairs)] = [first for first, _ in pairs]
    block_numbers[76:76 + len(pairs)] = [second for _, second in pairs]
    return block_numbers


class Places(unittest.TestCase):
    def test_a_fresh_block_has_no_trains(self) -> None:
        self.assertEqual(Tables.of([0] * 6676), Tables(0, 0, (), (), (), (), (), (), ()))

    def test_the_numbers_of_a_full_block(self) -> None:
        self._check([8] * 24, FULL)

    def test_the_numbers_of_a_small_block(self) -> None:
        self._check([2, 1, 8], [(0, 2), (1, 2)])

    def _check(self, sizes: list[int], pairs: list[tuple[int, int]]) -> None:
        tables = Tables.of(numbers(len(sizes), sizes, pairs))
        self.assertEqual((tables.scale, tables.constant, tables.sizes, tables.pairs), (840, 77, tuple(sizes), tuple(pairs)))
        for begin, found in ((124, tables.loaded_choices), (316, tables.choices)):
            self.assertEqual(found, tuple(tuple(begin + 8 * train + choice for choice in range(size)) for train, size in enumerate(sizes)))
        for begin, entries in ((508, tables.loaded_entries), (3580, tables.entries)):
            expected = (tuple(tuple(begin + 64 * pair + 8 * a + b for b in range(sizes[j])) for a in range(sizes[i])) for pair, (i, j) in enumerate(pairs))
            self.assertEqual(entries, tuple(expected))
        self.assertEqual(tables.order, tuple(range(6652, 6652 + len(sizes))))

    def test_forbidden_costs(self) -> None:
        held = numbers(2, [2, 2], [(0, 1)])
        for place in (124, 316, 508 + 9, 3580 + 9):
            held[place] = -1
        tables = Tables.of(held)
        self.assertEqual((tables.loaded_choices, tables.choices), (((None, 125), (132, 133)), ((None, 317), (324, 325))))
        self.assertEqual((tables.loaded_entries, tables.entries), ((((508, 509), (516, None)),), (((3580, 3581), (3588, None)),)))

    def test_a_block_of_another_length(self) -> None:
        with self.assertRaisesRegex(ValueError, "6676 numbers, and not 6652"):
            Tables.of([0] * 6652)

    def test_the_places_are_those_of_the_service(self) -> None:
        self.assertEqual((block.NUMBERS, block.ORDER, block.HELD_ENTRIES), (6676, 6652, 3580))


if __name__ == "__main__":
    unittest.main()
