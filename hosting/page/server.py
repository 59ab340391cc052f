"""The page by HTTP: it is read, and nothing else. GET and HEAD alone are answered, and nothing of a study is changed or sent.

What a browser is told to allow is this page's own style, script and connection. A request whose Host header is not an address of the page is refused, so that
no site elsewhere can have a planner's browser read it under a name of its own.
"""

import ipaddress
import logging
import select
import socket
import socketserver
import ssl
import threading
import time
from collections.abc import Callable, Iterator
from contextlib import contextmanager
from http import HTTPStatus
from http.server import BaseHTTPRequestHandler
from typing import Any, NamedTuple

from hosting import secured
from hosting.config import Config
from hosting.page import routes, tls_names
from hosting.page.routes import Answer, Moment, Routes

MOST_EVENTS = 64
MOST_CONNECTIONS = 256
# How long a client may take to send its request, and how long it may then be idle.
IDLE_SECONDS = 30
LOOK_SECONDS = 0.5
# A comment is sent to those who watch once in so many seconds, so that what stands between does not take the connection for dead.
ALIVE_SECONDS = 15.0
METHODS = ("GET", "HEAD")
DEFAULT_PORTS = {False: 80, True: 443}
LOCAL = "localhost"
LENGTH, CODING = "Content-Length", "Transfer-Encoding"

HEADERS = {
    "Content-Security-Policy": "default-src 'none'; style-src 'self'; script-src 'self'; connect-src 'self'; base-uri 'none'; form-action 'self'; "
                               "frame-ancestors 'none'",
    "X-Content-Type-Options": "nosniff",
    "Referrer-Policy": "no-referrer",
    "Cross-Origin-Resource-Policy": "same-origin",
    "Cache-Control": "no-store",
}

log = logging.getLogger(__name__)


class Place(NamedTuple):
    """Where the page is: an address, a port, and TLS with the names of its certificate where the configuration has it."""

    bind: str
    port: int
    context: ssl.SSLContext | None
    names: tuple[str, ...]

    @staticmethod
    def of(bind: str, port: int, config: Config) -> "Place":
        """The place that a configuration gives."""
        if not config.tls:
            return Place(bind, port, None, ())
        context = secured.server_context(config.certificate, config.key, config.client_ca)
        return Place(bind, port, context, tls_names.of(config.certificate, config.key))

    def __str__(self) -> str:
        return f"{'https' if self.context else 'http'}://{_written(self.bind)}:{self.port}/"

    def has(self, host: str, reached: str) -> bool:
        """Whether a Host header names this place, to a client that reached it at an address of this machine."""
        name, port = _split(host.lower())
        address = _plain(reached)
        if port != str(self.port) and not (port == "" and self.port == DEFAULT_PORTS[self.context is not None]):
            return False
        if name == _written(str(address)) or (name == LOCAL and address.is_loopback):
            return True
        return any(tls_names.fits(name, known) for known in self.names)


def may_show(bind: str, config: Config) -> bool:
    """Whether the page may be shown at an address: loopback always, others by TLS to clients with a certificate only."""
    return ipaddress.ip_address(bind).is_loopback or bool(config.tls and config.client_ca)


def _plain(address: str) -> ipaddress.IPv4Address | ipaddress.IPv6Address:
    """An IP address as a browser has it: one of version 4 is written within version 6 where a socket is of both."""
    read = ipaddress.ip_address(address)
    return (read.version == 6 and read.ipv4_mapped) or read


def _written(address: str) -> str:
    """An IP address as it stands before the port."""
    return f"[{address}]" if ":" in address else address


def _split(host: str) -> tuple[str, str]:
    """The name and the port of a Host header; the port is empty where it is left out."""
    name, colon, port = host.rpartition(":")
    return (name, port) if colon and port.isdecimal() else (host, "")


class PageServer(socketserver.ThreadingMixIn, socketserver.TCPServer):
    """Answers each connection by a thread of its own."""

    allow_reuse_address = True
    daemon_threads = True
    request_queue_size = 128

    def __init__(self, place: Place, answering: Routes) -> None:
        self.address_family = socket.AF_INET6 if ipaddress.ip_address(place.bind).version == 6 else socket.AF_INET
        super().__init__((place.bind, place.port), Handler)
        self.place = place._replace(port=self.server_address[1])
        self.routes = answering
        self._connections = threading.BoundedSemaphore(MOST_CONNECTIONS)
        self._events = threading.BoundedSemaphore(MOST_EVENTS)

    def process_request(self, request: Any, client_address: Any) -> None:
        """Begins the thread of a connection; beyond the most that are served at a time it is closed."""
        if not self._connections.acquire(blocking=False):
            self.shutdown_request(request)
            return
        try:
            super().process_request(request, client_address)
        except BaseException:
            self._connections.release()
            raise

    def process_request_thread(self, request: Any, client_address: Any) -> None:
        """Serves a connection to its end."""
        try:
            super().process_request_thread(request, client_address)
        finally:
            self._connections.release()

    def finish_request(self, request: Any, client_address: Any) -> None:
        """Answers the requests of a connection, by TLS where the place has it. TLS begins here, so that a slow client holds up nobody else."""
        request.settimeout(IDLE_SECONDS)
        if self.place.context is None:
            Handler(request, client_address, self)
            return
        with self.place.context.wrap_socket(request, server_side=True) as secure:
            Handler(secure, client_address, self)

    def handle_error(self, request: Any, client_address: Any) -> None:
        """A connection that ended or that is no TLS is nothing to speak of."""
        log.debug("a connection of the page ended", exc_info=True)

    @contextmanager
    def watching(self) -> Iterator[bool]:
        """A place among those who watch, or none where all are taken."""
        if not self._events.acquire(blocking=False):
            yield False
            return
        try:
            yield True
        finally:
            self._events.release()


class Handler(BaseHTTPRequestHandler):
    """Answers the requests of one connection."""

    server: PageServer
    protocol_version = "HTTP/1.1"
    timeout = IDLE_SECONDS

    def version_string(self) -> str:
        """What the Server header says."""
        return "junction"

    def log_message(self, format: str, *args: Any) -> None:  # noqa: A002
        """Nothing is said of single requests."""

    def parse_request(self) -> bool:
        """Judges a request before it is answered. One with a body is the connection's last, since the body is not read."""
        if not super().parse_request():
            return False
        if self.headers.get(LENGTH, "0") != "0" or CODING in self.headers:
            self.close_connection = True
        if self.command not in METHODS:
            return self._refuse(HTTPStatus.METHOD_NOT_ALLOWED, "This page can be read, and nothing else.", {"Allow": ", ".join(METHODS)})
        hosts: list[str] = self.headers.get_all("Host") or []
        if len(hosts) != 1 or not self.server.place.has(hosts[0], self.connection.getsockname()[0]):
            return self._refuse(HTTPStatus.BAD_REQUEST, "This is not the address of the page.", {})
        return True

    def _refuse(self, status: HTTPStatus, sentence: str, headers: dict[str, str]) -> bool:
        self.close_connection = True
        self._send(routes.failure(status, sentence)._replace(headers=headers))
        return False

    def send_error(self, code: int, message: str | None = None, explain: str | None = None) -> None:
        """A request that cannot be read."""
        self._refuse(HTTPStatus(code), "The request cannot be read.", {})

    def do_GET(self) -> None:
        """Answers a request."""
        watched = self.server.routes.watched(self.path)
        if watched is not None:
            self._watch(watched)
            return
        self._send(self.server.routes.answer(self.path))

    do_HEAD = do_GET

    def _send(self, answer: Answer) -> None:
        self._begin(answer.status, answer.kind, {LENGTH: str(len(answer.body)), **answer.headers})
        if self.command != "HEAD":
            self.wfile.write(answer.body)

    def _begin(self, status: int, kind: str, headers: dict[str, str]) -> None:
        """Sends the headers."""
        self.send_response(status)
        for name, value in {"Content-Type": kind, **HEADERS, **headers}.items():
            self.send_header(name, value)
        if self.close_connection:
            self.send_header("Connection", "close")
        self.end_headers()

    def _watch(self, name: str) -> None:
        """Sends the number of a study's last line, and again whenever there are new ones, until the client leaves or the study is taken away."""
        self.close_connection = True
        with self.server.watching() as admitted:
            if not admitted:
                busy = routes.failure(HTTPStatus.SERVICE_UNAVAILABLE, f"{MOST_EVENTS} pages are kept up to date already; this one is not.")
                self._send(busy._replace(headers={"Retry-After": "60"}))
                return
            self._begin(HTTPStatus.OK, "text/event-stream; charset=utf-8", {})
            if self.command == "HEAD":
                return
            for event in _events(lambda: self.server.routes.moment(name), self._left):
                self.wfile.write(event.encode("ascii"))

    def _left(self) -> bool:
        """Waits a moment, and says whether the client has left: it has nothing more to send."""
        poll = select.poll()
        poll.register(self.connection, select.POLLIN)
        return bool(poll.poll(round(LOOK_SECONDS * 1000)))


def _events(moment: Callable[[], Moment | None], left: Callable[[], bool]) -> Iterator[str]:
    """The events of a study: what its last line is, where that is new, or where a proof was kept."""
    shown: Moment | None = None
    said = time.monotonic()
    while True:
        now = moment()
        if now is None:
            yield "event: removed\ndata: removed\n\n"
            return
        if now != shown:
            shown, said = now, time.monotonic()
            yield f"id: {now.line}\ndata: {now.line}\n\n"
        elif time.monotonic() - said > ALIVE_SECONDS:
            said = time.monotonic()
            yield ": still here\n\n"
        if left():
            return
