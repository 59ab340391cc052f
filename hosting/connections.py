"""The connections of clients to a study."""
from __future__ import annotations

import asyncio
import logging
import socket
import ssl
import struct
from typing import Callable, cast

from hosting.config import Config
from hosting.lines import CARRIAGE_RETURN, LINE_FEED, LineCutter
from hosting.workers import Worker
from junction.secured import READ_BYTES, Secured

# Above so many unsent bytes of replies no more lines are taken from a client until it reads.
UNSENT_BYTES = 64 * 1024
# How long a client may take to establish TLS.
HANDSHAKE_SECONDS = 10
# How long the host waits for a client's end once it has ended its own sending side.
CLOSING_SECONDS = 3
# The kernel's struct ucred: process, user, group.
PEER_CREDENTIALS = struct.Struct("3i")

log = logging.getLogger(__name__)


def peer_name(transport: asyncio.BaseTransport) -> str:
    """Who is at the other end: an address and port, or the process and user at the other end of a socket file."""
    sock = transport.get_extra_info("socket")
    if sock.family != socket.AF_UNIX:
        address, port = transport.get_extra_info("peername")[:2]
        return f"[{address}]:{port}" if sock.family == socket.AF_INET6 else f"{address}:{port}"
    credentials = sock.getsockopt(socket.SOL_SOCKET, socket.SO_PEERCRED, PEER_CREDENTIALS.size)
    process, user, _ = PEER_CREDENTIALS.unpack(credentials)
    return f"process {process} of user {user}"


class Clients:
    """The connections of one study, and what holds for all of them."""

    def __init__(self, study: str, crlf: bool, longest: int, config: Config, worker: Worker, everybody: set[Connection],
                 context: Callable[[], ssl.SSLContext | None]) -> None:
        self.study = study
        self.line_end = CARRIAGE_RETURN + LINE_FEED if crlf else LINE_FEED
        self.crlf = crlf
        self.longest = longest
        self.config = config
        self.worker = worker
        self.context = context
        self.connected: set[Connection] = set()
        self._everybody = everybody
        self._held = False
        self._nobody = asyncio.Event()
        self._nobody.set()

    def admit(self, connection: Connection) -> str | None:
        """Lets a connection in, or says why not."""
        if self._held:
            return "the study is no longer served"
        if len(self.connected) >= self.config.connections_per_study:
            return f"the study has {len(self.connected)} connections, which is the limit"
        if len(self._everybody) >= self.config.connections:
            return f"the host has {len(self._everybody)} connections, which is the limit"
        self.connected.add(connection)
        self._everybody.add(connection)
        self._nobody.clear()
        return None

    def leave(self, connection: Connection) -> bool:
        """Forgets a connection that has ended, and says whether it had been let in."""
        admitted = connection in self.connected
        self.connected.discard(connection)
        self._everybody.discard(connection)
        if not self.connected:
            self._nobody.set()
        return admitted

    def hold(self) -> None:
        """Takes no more lines from anybody."""
        self._held = True
        for connection in self.connected:
            connection.hold()

    async def close(self) -> None:
        """Sends what is unsent and closes every connection, within a bounded time."""
        for connection in list(self.connected):
            connection.close()
        try:
            await asyncio.wait_for(self._nobody.wait(), CLOSING_SECONDS)
        except TimeoutError:
            for connection in list(self.connected):
                connection.abort()
            await self._nobody.wait()


class Connection(asyncio.BufferedProtocol):
    """One client of a study: what it sends is cut into lines, the study's worker answers them, and each reply goes back.

    No more is read as long as so many lines are without a reply as the configuration allows, or replies are unread: what a
    connection holds is bounded. A client's end (`_ended`) is not yet the connection's: the replies that are due still go out.
    """

    def __init__(self, clients: Clients) -> None:
        self.failed = False
        self._clients = clients
        self._loop = asyncio.get_running_loop()
        self._lines = LineCutter(clients.longest, clients.crlf)
        context = clients.context()
        self._secured = Secured(context) if context else None
        self._buffer = bytearray(READ_BYTES)
        self._outstanding = 0
        self._replies = 0
        self._writable = True
        self._held = False
        self._ended = False
        self._closing = False
        self._lost = False
        self._moved = self._loop.time()
        self._timer: asyncio.TimerHandle | None = None

    # What the event loop calls.

    def connection_made(self, transport: asyncio.BaseTransport) -> None:
        self._transport = cast(asyncio.Transport, transport)
        self._peer = peer_name(transport)
        refusal = self._clients.admit(self)
        if refusal is not None:
            self._say(logging.WARNING, f"turned away: {refusal}")
            self._closing = True
            self._transport.abort()
            return
        self._say(logging.INFO, "connected")
        self._transport.set_write_buffer_limits(high=UNSENT_BYTES)
        self._watch()

    def get_buffer(self, sizehint: int) -> bytearray:
        return self._buffer

    def buffer_updated(self, count: int) -> None:
        if self._closing or self._ended:
            return
        data = bytes(memoryview(self._buffer)[:count])
        if self._secured is not None:
            data = self._unsealed(self._secured, data)
        self._lines.receive(data)
        self._go_on()

    def eof_received(self) -> bool:
        if self._closing:
            return False
        if self._secured is not None and not self._secured.established:
            self._say(logging.WARNING, "turned away: it ended before TLS was established")
            return False
        self._ended = True
        self._go_on()
        return True

    def pause_writing(self) -> None:
        self._writable = False

    def resume_writing(self) -> None:
        self._writable = True
        self._moved = self._loop.time()
        self._go_on()

    def connection_lost(self, failure: Exception | None) -> None:
        self._lost = True
        if not self._clients.leave(self):
            return
        if self._timer is not None:
            self._timer.cancel()
        if self._outstanding and not self.failed and not self._held:
            self._say(logging.WARNING, f"the client has gone; {self._outstanding} lines are answered all the same, their replies dropped")
        self._say(logging.INFO, f"closed after {self._replies} replies" + (f": {failure}" if failure else ""))

    # What the worker answers.

    def answered(self, reply: bytes) -> None:
        """The reply to the oldest line without one."""
        self._outstanding -= 1
        self._moved = self._loop.time()
        if self._lost or self._closing:
            return
        self._replies += 1
        self._send(reply + self._clients.line_end)
        self._go_on()

    def not_stored(self, reason: str) -> None:
        """The oldest line without a reply was not stored: neither it nor any line behind it is answered."""
        self._say(logging.ERROR, f"not stored, so not answered: {reason}")
        if not self._lost:
            self.close()

    # What the host asks for.

    def hold(self) -> None:
        """Takes no more lines."""
        self._held = True
        self._transport.pause_reading()

    def close(self) -> None:
        """Ends the sending side behind what is unsent. What the client goes on sending is read and dropped until it ends its side too:
        where it is left unread, the kernel resets the connection, and the client may lose replies on their way."""
        if self._closing:
            return
        self._closing = True
        if self._secured is not None:
            self._secured.end()
            self._transport.write(self._secured.to_send())
        if self._ended:
            self._transport.close()
            return
        self._transport.write_eof()
        self._transport.resume_reading()
        self._loop.call_later(CLOSING_SECONDS, self.abort)

    def abort(self) -> None:
        """Closes at once, and drops what is unsent."""
        unsent = 0 if self._lost else self._transport.get_write_buffer_size()
        if unsent:
            self._say(logging.WARNING, f"closed with {unsent} bytes of replies unread")
        self._transport.abort()

    # Lines, replies and time.

    def _go_on(self) -> None:
        """Takes the lines that are complete, as long as there is room; without room nothing more is read."""
        while self._has_room():
            line = self._next_line()
            if line is None:
                self._wait_for_client()
                return
            self._outstanding += 1
            self._moved = self._loop.time()
            self._clients.worker.ask(self, line)
        if not self._closing:
            self._transport.pause_reading()

    def _has_room(self) -> bool:
        room = self._outstanding < self._clients.config.outstanding_lines
        return room and self._writable and not (self._held or self._closing or self._lost)

    def _next_line(self) -> bytes | None:
        line = self._lines.next()
        if line is None and self._ended and (self._secured is None or self._secured.ended):
            # Without TLS's own end the last piece may have been cut on its way.
            return self._lines.last()
        return line

    def _wait_for_client(self) -> None:
        if not self._ended:
            self._transport.resume_reading()
        elif self._outstanding == 0:
            self.close()

    def _unsealed(self, secured: Secured, data: bytes) -> bytes:
        """What the bytes of the wire say in plain; nothing, and the end of the connection, where TLS fails."""
        try:
            plain = secured.receive(data)
        except ssl.SSLError as failure:
            self._say(logging.WARNING, f"{'closed' if secured.established else 'turned away'}: {failure}")
            self.close()
            return b""
        self._transport.write(secured.to_send())
        self._ended = secured.ended
        return plain

    def _send(self, data: bytes) -> None:
        if self._secured is not None:
            self._secured.send(data)
            data = self._secured.to_send()
        self._transport.write(data)

    def _watch(self) -> None:
        """Closes a client that for the idle time has sent no whole line, or has read no reply."""
        limit = self._clients.config.idle_seconds
        if self._secured is not None and not self._secured.established:
            limit = min(limit, HANDSHAKE_SECONDS)
        idle = self._loop.time() - self._moved
        unsent = self._transport.get_write_buffer_size()
        if idle >= limit and (unsent or not self._outstanding):
            self._say(logging.WARNING, f"idle: no whole line came and no reply was read for {limit} seconds")
            self.abort() if unsent else self.close()
            return
        self._timer = self._loop.call_later(limit - idle if idle < limit else limit, self._watch)

    def _say(self, level: int, text: str) -> None:
        log.log(level, "study %s, %s: %s", self._clients.study, self._peer, text)
