"""What the tests share: the library, studies in a temporary folder, the worked session, the reference, and other libraries."""

import os
import shutil
import sqlite3
import subprocess
import tempfile
import unittest
from collections.abc import Iterator
from pathlib import Path

from hosting import checks, library, store
from hosting.config import Config
from hosting.records import Address, Settings
from hosting.store import Study
from junction.native import Library

ROOT = Path(__file__).resolve().parent.parent.parent
HOST = ROOT / "host"
REFERENCE = Path(os.environ.get("JUNCTION_REFERENCE", ROOT / "target/tests/release/reference-session"))

# The README's session up to its round; its replies come from the reference. Behind it stands another study.
SESSION_LINES = 15
LINES = (ROOT / "examples/worked.lines").read_bytes().splitlines()[:SESSION_LINES]
REPLIES = (ROOT / "examples/worked.replies").read_bytes().splitlines()[:SESSION_LINES]
LOAD, TIGHTEN, SEARCH = LINES[0], b"04", b"060000000A"
ADD = b"020000000001"

# A library that counts its lines in the block and answers each with BB.
OTHER_LIBRARY = """
#include <stddef.h>
#include <stdint.h>
#include <string.h>

size_t junction_answer(const uint8_t *line, size_t line_length, int64_t *block, size_t block_length, uint8_t *reply, size_t reply_length)
{
    const char *text = block_length != NUMBERS ? "FF10" : line_length == 0 ? "FF01" : "BB";
    block[block_length - 1] += *text == 'B';
    memcpy(reply, text, strlen(text));
    return strlen(text);
}
"""

# The library before kind 0B, for blocks of 6,652 numbers: each line is answered by a library for blocks that hold an order too, the order
# being 0 to n - 1.
LIBRARY_BEFORE = """
#include <dlfcn.h>
#include <stddef.h>
#include <stdint.h>
#include <string.h>

#define NUMBERS 6652
#define PLACES 24

typedef size_t answering(const uint8_t *, size_t, int64_t *, size_t, uint8_t *, size_t);

static size_t declined(const char *text, uint8_t *reply)
{
    memcpy(reply, text, 4);
    return 4;
}

size_t junction_answer(const uint8_t *line, size_t line_length, int64_t *block, size_t block_length, uint8_t *reply, size_t reply_length)
{
    int64_t longer[NUMBERS + PLACES] = {0};
    answering *answer = (answering *)dlsym(dlopen(ANSWERING, RTLD_NOW), "junction_answer");
    if (block_length != NUMBERS) {
        return declined("FF10", reply);
    }
    if (line_length >= 2 && memcmp(line, "0B", 2) == 0) {
        return declined("FF03", reply);
    }
    memcpy(longer, block, NUMBERS * sizeof *block);
    for (int64_t train = 0; train < PLACES && train < block[0]; train++) {
        longer[NUMBERS + train] = train;
    }
    size_t written = answer(line, line_length, longer, NUMBERS + PLACES, reply, reply_length);
    memcpy(block, longer, NUMBERS * sizeof *block);
    return written;
}
"""


def by_radio(line: bytes) -> bytes:
    """The form of a line for train radio (document 02, change 14): its kind has 40 added, hexadecimal, and at its end stands the byte that takes
    the sum of all bytes to 0, modulo 256."""
    kind, *fields = bytes.fromhex(line.decode())
    front = bytes([kind + 0x40, *fields])
    return bytes([*front, -sum(front) % 256]).hex().upper().encode()


def reference(lines: list[bytes]) -> list[bytes]:
    """The replies of the reference to lines, from a fresh block."""
    if not REFERENCE.exists():
        raise unittest.SkipTest(f"there is no {REFERENCE}: 'cargo build --release' in tests makes it")
    done = subprocess.run([REFERENCE], input=b"".join(line + b"\n" for line in lines), capture_output=True, check=True)
    return done.stdout.splitlines()


def full_load() -> bytes:
    """The load of the largest study: 24 trains with 8 choices each and 48 pairs, every cost a different one."""
    costs = iter(range(1, 1_000_000))
    pairs = [(i, j) for i in range(24) for j in range(i + 1, min(i + 4, 24))][:48]
    parts = [b"\x01\x18", (1000).to_bytes(2, "big"), b"\x08" * 24, _costs(costs, 24 * 8), bytes([len(pairs)])]
    for i, j in pairs:
        parts.append(bytes([i, j]) + _costs(costs, 64))
    return b"".join(parts).hex().upper().encode()


def _costs(costs: Iterator[int], count: int) -> bytes:
    return b"".join(next(costs).to_bytes(3, "big") for _ in range(count))


def long_search_load() -> bytes:
    """The load of a study whose search spends any budget: no plan of 24 trains costs as little as the bound."""
    return b"0118" + b"0001" + b"02" * 24 + b"000001" * 48 + b"00"


class DataCase(unittest.TestCase):
    """A test with a data folder of its own."""

    def setUp(self) -> None:
        self.data = Path(tempfile.mkdtemp(prefix="junction-"))
        self.addCleanup(shutil.rmtree, self.data)
        self.library = library.installed()
        self.config = Config()

    def add(self, name: str = "study", crlf: bool = False) -> None:
        """Adds a study, with a socket file as its address."""
        store.create(self.data, Settings(name, Address("", 0, str(self.data / f"{name}.socket")), crlf))

    def open(self, name: str = "study", answering: Library | None = None) -> Study:
        """Opens a study to be answered from."""
        study = checks.open_study(self.data, name, answering or self.library, self.config)
        self.addCleanup(study.close)
        return study

    def take(self, lines: list[bytes], answering: Library | None = None) -> list[bytes]:
        """The replies of the study to lines; it is opened before, and closed after."""
        study = checks.open_study(self.data, "study", answering or self.library, self.config)
        try:
            return [study.take(line) for line in lines]
        finally:
            study.close()

    def edit(self, statement: str, *values: object) -> None:
        """Changes the study's database by hand."""
        connection = sqlite3.connect(store.database(self.data, "study"), isolation_level=None)
        try:
            changed = connection.execute(statement, values).rowcount
        finally:
            connection.close()
        self.assertEqual(changed, 1, statement)

    def other_library(self, more_numbers: int = 0) -> Library:
        """A library that answers otherwise, and whose blocks are longer by some numbers."""
        numbers = self.library.header.block_numbers + more_numbers
        return self._made_library(f"other{more_numbers}.so", numbers, OTHER_LIBRARY, f"-DNUMBERS={numbers}")

    def library_before(self) -> Library:
        """A library for blocks of 6,652 numbers, without an order, that answers all other lines as the installed one."""
        return self._made_library("before.so", 6652, LIBRARY_BEFORE, f'-DANSWERING="{self.library.path}"', "-ldl")

    def _made_library(self, name: str, numbers: int, code: str, *options: str) -> Library:
        if shutil.which("cc") is None:
            self.skipTest("another library is made by a C compiler: there is no command 'cc' on the path")
        path = self.data / name
        subprocess.run(["cc", "-shared", "-fPIC", "-x", "c", "-", "-o", path, *options], input=code, text=True, check=True)
        return Library(path, self.library.header._replace(block_numbers=numbers))
