"""Ways that lines go out and replies come back: sockets, TLS, a program, the library.

While a line is sent, what comes is taken: neither side ever waits for the other to read first.
"""

import os
import select
import socket
import ssl
import subprocess
from collections import deque
from collections.abc import Callable
from pathlib import Path
from typing import Protocol

from junction.errors import LibraryError, Unreadable
from junction.lengths import BY_DOCUMENT
from junction.native import Library
from junction.secured import Secured

READ_BYTES = 64 * 1024
LINE_END, CARRIAGE_RETURN = b"\n", b"\r"
# How many seconds a program has to end once its input has ended.
LEAVE_SECONDS = 2


class Channel(Protocol):
    """Lines out, replies in, in their order."""

    why: OSError | None

    def put(self, line: bytes) -> None:
        """Takes a line to send. On an ended connection nothing is sent."""

    def reply(self) -> bytes | None:
        """The next reply, once it has come; None where the connection ends before."""

    def stray(self) -> bytes:
        """What has come and is not taken."""

    def close(self) -> None:
        """Ends the connection."""


class Wire:
    """Bytes from a file descriptor and to one, which may be the same."""

    def __init__(self, reading: int, writing: int, close: Callable[[], None]) -> None:
        self._reading, self._writing, self.close = reading, writing, close
        os.set_blocking(reading, False)
        os.set_blocking(writing, False)

    def wait(self, to_send: bool) -> None:
        """Waits until something has come, or, where something is to be sent, until there is room for it."""
        events = {self._reading: select.POLLIN}
        if to_send:
            events[self._writing] = events.get(self._writing, 0) | select.POLLOUT
        waiting = select.poll()
        for descriptor, event in events.items():
            waiting.register(descriptor, event)
        waiting.poll()

    def receive(self) -> bytes | None:
        """What has come, which may be nothing; None where nothing more comes."""
        try:
            return os.read(self._reading, READ_BYTES) or None
        except BlockingIOError:
            return b""

    def send(self, data: bytes) -> int:
        """Sends as much as there is room for, and tells how much that was."""
        try:
            return os.write(self._writing, data)
        except BlockingIOError:
            return 0


class Stream:
    """Lines and replies over a wire, plainly or by TLS. `why` is what ended it, where it was not the other side's wish."""

    def __init__(self, wire: Wire, secured: Secured | None = None) -> None:
        self._wire, self._secured = wire, secured
        self._to_send, self._received = bytearray(), bytearray()
        self._takes_lines, self._ended = True, False
        self.why: OSError | None = None
        if secured is not None:
            self._agree(secured)

    def put(self, line: bytes) -> None:
        """Takes a line to send, and sends what there is room for now."""
        if self._takes_lines and not self._ended:
            self._queue(line + LINE_END)
            self._send()

    def reply(self) -> bytes | None:
        """The next reply, without its line end. One that is longer than any is not waited for, and ends the connection."""
        while LINE_END not in self._received:
            if len(self._received) > BY_DOCUMENT.longest_reply_bytes:
                too_long = self._received.decode("ascii", "backslashreplace")
                self._received.clear()
                self.close()
                raise Unreadable(too_long)
            if self._ended:
                return None
            self._step()
        reply, _, self._received = self._received.partition(LINE_END)
        return bytes(reply).removesuffix(CARRIAGE_RETURN)

    def stray(self) -> bytes:
        """What has come and is not taken."""
        return bytes(self._received)

    def close(self) -> None:
        """Ends the connection, by TLS's word where there is TLS."""
        if self._secured is not None and not self._ended:
            self._secured.end()
            self._to_send += self._secured.to_send()
            self._send()
        self._ended = True
        self._wire.close()

    def _agree(self, secured: Secured) -> None:
        """Agrees on TLS with the other side, or ends."""
        self._take(b"")
        while not secured.established and not self._ended:
            self._step()
        if self._ended:
            self._send()
            self.close()
            raise self.why or ConnectionAbortedError("the connection ended before TLS was agreed on")

    def _queue(self, data: bytes) -> None:
        if self._secured is None:
            self._to_send += data
        else:
            self._secured.send(data)
            self._to_send += self._secured.to_send()

    def _step(self) -> None:
        """Waits, then sends and takes what there is."""
        self._wire.wait(bool(self._to_send))
        self._send()
        try:
            data = self._wire.receive()
        except OSError as why:
            self._end(why)
        else:
            self._end(None) if data is None else self._take(data)

    def _send(self) -> None:
        """Sends what there is room for. Where the other side takes no more, what it has answered may still come."""
        try:
            while self._to_send and (sent := self._wire.send(bytes(self._to_send[:READ_BYTES]))):
                del self._to_send[:sent]
        except OSError:
            self._to_send.clear()
            self._takes_lines = False

    def _take(self, data: bytes) -> None:
        if self._secured is None:
            self._received += data
            return
        try:
            self._received += self._secured.receive(data)
        except ssl.SSLError as why:
            self._end(why)
        self._to_send += self._secured.to_send()
        self._ended = self._ended or self._secured.ended

    def _end(self, why: OSError | None) -> None:
        self._ended, self.why = True, why


class Called:
    """The library, called with each line on a block that is fresh at first."""

    def __init__(self, path: Path) -> None:
        self._library = Library(path, BY_DOCUMENT)
        self._block = self._library.fresh()
        self._replies: deque[bytes] = deque()
        self.why: OSError | None = None
        if not self._library.well_formed(self._block):
            raise LibraryError(f"the library {path} takes blocks of another length")

    def put(self, line: bytes) -> None:
        """Answers a line."""
        reply, self._block = self._library.answer(self._block, line)
        self._replies.append(reply)

    def reply(self) -> bytes | None:
        """The reply to the oldest line whose reply was not taken."""
        return self._replies.popleft() if self._replies else None

    def stray(self) -> bytes:
        """Nothing: a reply is there only once its line is."""
        return b""

    def close(self) -> None:
        """Forgets the study."""
        self._block = self._library.fresh()


def to_port(host: str, port: int, context: ssl.SSLContext | None = None) -> Stream:
    """A connection to a port, by TLS where there is a context."""
    client = socket.create_connection((host, port))
    client.setsockopt(socket.IPPROTO_TCP, socket.TCP_NODELAY, 1)
    return Stream(_wire(client), None if context is None else Secured(context, host))


def to_socket(path: str) -> Stream:
    """A connection to a socket file."""
    client = socket.socket(socket.AF_UNIX)
    try:
        client.connect(path)
    except OSError:
        client.close()
        raise
    return Stream(_wire(client))


def _wire(client: socket.socket) -> Wire:
    return Wire(client.fileno(), client.fileno(), client.close)


def of_program(path: Path) -> Stream:
    """A program that answers lines of its standard input. It ends with the connection."""
    running = subprocess.Popen([path], stdin=subprocess.PIPE, stdout=subprocess.PIPE, bufsize=0)
    assert running.stdin is not None and running.stdout is not None
    return Stream(Wire(running.stdout.fileno(), running.stdin.fileno(), lambda: _leave(running)))


def _leave(running: "subprocess.Popen[bytes]") -> None:
    """Closes a program's input and output, and waits for its end. One that does not end is ended."""
    for end in (running.stdin, running.stdout):
        if end is not None:
            end.close()
    try:
        running.wait(LEAVE_SECONDS)
    except subprocess.TimeoutExpired:
        running.kill()
        running.wait()
