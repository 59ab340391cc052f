"""The sessions of docs/SERVICE.md: each reply in it is the reference's, and the library gives the same."""

import re
import unittest
from typing import NamedTuple

from hosting import library
from hosting.tests import support

DOCUMENT = support.ROOT / "docs/SERVICE.md"
SESSION = re.compile(r"^```session\n(.*?)^```$", re.MULTILINE | re.DOTALL)
# A line or a reply: its mark, and its digits with what continues them on further, indented lines.
TEXT = re.compile(r"^([><]) (.*(?:\n .*)*)\n", re.MULTILINE)
NOT_SENT = re.compile(r"#.*|\s")


class Session(NamedTuple):
    """Lines, and the replies that the document shows."""

    lines: list[bytes]
    replies: list[bytes]


def read_session(text: str) -> Session:
    """The lines and replies of a fenced block: a reply stands behind each line, and nothing else stands there."""
    found = TEXT.findall(text)
    texts = [NOT_SENT.sub("", digits).encode() for _, digits in found]
    if TEXT.sub("", text) or [mark for mark, _ in found] != [">", "<"] * (len(found) // 2):
        raise ValueError(f"not a session of lines and replies: {text}")
    return Session(texts[::2], texts[1::2])


def by_library(lines: list[bytes]) -> list[bytes]:
    """The replies of the library, from a fresh block."""
    answering = library.installed()
    block, replies = answering.fresh(), []
    for line in lines:
        reply, block = answering.answer(block, line)
        replies.append(reply)
    return replies


class Sessions(unittest.TestCase):
    SESSIONS = [read_session(text) for text in SESSION.findall(DOCUMENT.read_text(encoding="utf-8"))]

    def test_every_fenced_block_is_a_session(self) -> None:
        self.assertEqual(DOCUMENT.read_text(encoding="utf-8").count("```"), 2 * len(self.SESSIONS))
        self.assertGreaterEqual(len(self.SESSIONS), 4)

    def test_replies_of_the_library(self) -> None:
        for session in self.SESSIONS:
            self.assertEqual(by_library(session.lines), session.replies)

    def test_replies_of_the_reference(self) -> None:
        for session in self.SESSIONS:
            self.assertEqual(support.reference(session.lines), session.replies)

    def test_every_kind_is_shown(self) -> None:
        kinds = {line[:2] for session in self.SESSIONS for line in session.lines}
        self.assertLessEqual({b"%02X" % kind for kind in (*range(1, 9), *range(0x0A, 0x10), 0x41, 0x42, 0x44, 0x46, 0x47, 0x4C, 0x4E)}, kinds)

    def test_a_reply_without_its_line_is_no_session(self) -> None:
        for text in ("< 84\n", "> 04\n", "> 04\n< 84\nmore\n"):
            with self.assertRaises(ValueError):
                read_session(text)


if __name__ == "__main__":
    unittest.main()
