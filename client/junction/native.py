"""The proved library as a shared object: one line is answered on one block."""

import ctypes
import hashlib
from pathlib import Path

from junction.errors import LibraryError
from junction.lengths import NUMBER_BYTES, Lengths

NOT_WELL_FORMED = b"FF10"


class Library:
    """A loaded library. Nothing is kept between calls, so threads may share one."""

    def __init__(self, path: Path, header: Lengths) -> None:
        self.path = path.resolve()
        self.header = header
        try:
            self.content = self.path.read_bytes()
            self._answer = ctypes.CDLL(str(self.path)).junction_answer
            replaced = self.path.read_bytes() != self.content
        except (OSError, AttributeError) as error:
            raise LibraryError(f"the library {path} cannot be loaded: {error}") from error
        if replaced:
            raise LibraryError(f"the library {path} was replaced while it was loaded")
        self.sha256 = hashlib.sha256(self.content).hexdigest()
        size, pointer = ctypes.c_size_t, ctypes.c_void_p
        self._answer.argtypes = (ctypes.c_char_p, size, pointer, size, pointer, size)
        self._answer.restype = size

    def fresh(self) -> bytes:
        """The block before any line: zeros."""
        return bytes(self.header.block_bytes)

    def answer(self, block: bytes, line: bytes) -> tuple[bytes, bytes]:
        """The reply to a line, and the block afterwards. During the call other threads of Python run."""
        count = len(block) // NUMBER_BYTES
        numbers = (ctypes.c_int64 * count).from_buffer_copy(block)
        longest = self.header.longest_reply_bytes
        reply = (ctypes.c_uint8 * longest)()
        written = self._answer(line, len(line), numbers, count, reply, longest)
        if not 0 < written <= longest:
            raise LibraryError(f"the library {self.path} wrote {written} bytes into a buffer of {longest}")
        return ctypes.string_at(reply, written), bytes(numbers)

    def well_formed(self, block: bytes) -> bool:
        """Whether the library takes lines on this block: an empty line is then declined as empty, and not for the block."""
        return self.answer(block, b"")[0] != NOT_WELL_FORMED
