"""What a client sends, cut into lines, in constant memory."""
from __future__ import annotations

LINE_FEED = b"\n"
CARRIAGE_RETURN = b"\r"


class LineCutter:
    """Cuts received bytes into lines, and keeps no more of a line than is needed to decline it as too long.

    Of each line one character more than the longest line has is kept. With `crlf` one carriage return before the line feed is
    taken off.
    """

    def __init__(self, longest: int, crlf: bool) -> None:
        self._kept = longest + 1
        self._crlf = crlf
        self._received = b""
        self._at = 0
        self._piece = bytearray()
        self._cut = False

    def receive(self, data: bytes) -> None:
        """Takes bytes behind those that came before."""
        self._received = self._received[self._at:] + data
        self._at = 0

    def next(self) -> bytes | None:
        """The next complete line, without its end, or None if there is none yet."""
        feed = self._received.find(LINE_FEED, self._at)
        if feed < 0:
            self._keep(len(self._received))
            return None
        self._keep(feed)
        self._at = feed + 1
        whole = not self._cut
        line = self._line()
        if self._crlf and whole and line.endswith(CARRIAGE_RETURN):
            return line[:-1]
        return line

    def last(self) -> bytes | None:
        """The piece behind the last line feed, which is a line unless it is empty. `next` has given None before."""
        return self._line() if self._piece else None

    def _keep(self, end: int) -> None:
        room = self._kept - len(self._piece)
        self._cut = self._cut or end - self._at > room
        self._piece += self._received[self._at:min(end, self._at + room)]
        self._at = end

    def _line(self) -> bytes:
        line = bytes(self._piece)
        self._piece.clear()
        self._cut = False
        return line
