"""Blocks for the tests of shifts: the library answers lines on them. What is expected of a reply comes from the reference."""

import os
import struct
import unittest
from pathlib import Path

from junction.block import NUMBERS, Tables
from junction.lengths import BY_DOCUMENT
from junction.native import Library

ROOT = Path(__file__).resolve().parent.parent.parent
LIBRARY = Path(os.environ.get("JUNCTION_LIBRARY", ROOT / "target/host/libjunction.so"))


class Block:
    """A block, fresh at first, and the lines that it was given."""

    def __init__(self) -> None:
        if not LIBRARY.exists():
            raise unittest.SkipTest(f"there is no {LIBRARY}: hosting/build makes it")
        self._library = Library(LIBRARY, BY_DOCUMENT)
        self._held = self._library.fresh()
        self.lines: list[str] = []

    def give(self, line: str) -> int:
        """Answers a line. Gives its number among the lines."""
        self.lines.append(line)
        self._held = self._library.answer(self._held, line.encode())[1]
        return len(self.lines) - 1

    def tables(self) -> Tables:
        """What the block holds now."""
        return Tables.of(struct.unpack(f"<{NUMBERS}q", self._held))
