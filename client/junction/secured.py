"""TLS of one connection, between the bytes on the wire and the bytes of lines and replies.

It stands on memory and not on a transport, since asyncio's own TLS ends a connection as soon as the client has closed its writing side,
when replies may still be due.
"""
from __future__ import annotations

import ssl

READ_BYTES = 16 * 1024


class Secured:
    """One end of TLS: the server's, or that of a client of the server that is named. What it has to send is fetched by `to_send` after each call, also after
    one that failed."""

    def __init__(self, context: ssl.SSLContext, server: str | None = None) -> None:
        self._incoming = ssl.MemoryBIO()
        self._outgoing = ssl.MemoryBIO()
        self._object = context.wrap_bio(self._incoming, self._outgoing, server_side=server is None, server_hostname=server)
        self.established = False
        self.ended = False

    def receive(self, data: bytes) -> bytes:
        """Takes bytes of the wire, and gives what they say in plain. Raises ssl.SSLError where the other end is not to be trusted."""
        self._incoming.write(data)
        plain = bytearray()
        try:
            if not self.established:
                self._object.do_handshake()
                self.established = True
            while not self.ended:
                part = self._object.read(READ_BYTES)
                plain += part
                self.ended = not part
        except ssl.SSLWantReadError:
            pass
        return bytes(plain)

    def send(self, plain: bytes) -> None:
        """Takes bytes for the other end."""
        self._object.write(plain)

    def end(self) -> None:
        """Tells the other end that nothing more comes."""
        if self.established:
            try:
                self._object.unwrap()
            except ssl.SSLError:
                pass

    def to_send(self) -> bytes:
        """What is to go on the wire now."""
        return self._outgoing.read()
