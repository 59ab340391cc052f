"""The lengths of a library: of blocks, reply buffers, lines and replies."""

from typing import NamedTuple

NUMBER_BYTES = 8


class Lengths(NamedTuple):
    """The fields bear the names of the definitions in the header junction.h, without JUNCTION_."""

    block_numbers: int
    reply_bytes: int
    line_characters: int
    longest_reply_bytes: int

    @property
    def block_bytes(self) -> int:
        """How many bytes a block has."""
        return self.block_numbers * NUMBER_BYTES


# As document 01 gives them, with the changes up to 14: for those who have no header at hand.
BY_DOCUMENT = Lengths(6_676, 74, 19_836, 19_836)
