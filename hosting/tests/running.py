"""A host at work, and clients of it, for the tests."""
from __future__ import annotations

import os
import signal
import socket
import subprocess
import tempfile
import time
import unittest
from pathlib import Path
from typing import Callable, Collection

from hosting import checks, library, store
from hosting.records import Address, Settings
from hosting.tests import support

LOOPBACK = "127.0.0.1"
# Long enough for a busy machine; nothing waits so long unless it fails.
PATIENCE = 120

# The session of README.md, with the replies of the reference implementation.
WORKED_LINES = b"".join(line + b"\n" for line in support.LINES)
WORKED_REPLIES = b"".join(reply + b"\n" for reply in support.REPLIES)

# A save of the largest study answers with its load, the longest line there is.
BIG_LOAD = support.full_load() + b"\n"
LONG_LOAD = support.long_search_load() + b"\n"
LOADED = b"81" + b"0" * 24 + b"\n"


def long_search(budget: int) -> tuple[bytes, bytes]:
    """The line of a search on LONG_LOAD, and the reply. By document 01 it finds the plan of all first choices, 24 points, drops every
    other one, none of which costs less, and spends its budget."""
    return b"06%08X\n" % budget, b"8600%08X%012X" % (budget, 24) + b"00" * 24 + b"\n"


def free_port(taken: Collection[int] = ()) -> int:
    """A port that nobody listens on, and none of these. The system may name a port twice, until somebody listens on it."""
    while True:
        with socket.socket() as probe:
            probe.bind((LOOPBACK, 0))
            port = probe.getsockname()[1]
        if port not in taken:
            return port


def until(holds: Callable[[], bool], what: str) -> None:
    """Waits until something holds."""
    end = time.monotonic() + PATIENCE
    while not holds():
        if time.monotonic() > end:
            raise AssertionError(f"not within {PATIENCE} seconds: {what}")
        time.sleep(0.01)


class Running:
    """A host with a data folder of its own, and studies at free ports. `close` ends it."""

    def __init__(self, *names: str, **config: object) -> None:
        self._folder = tempfile.TemporaryDirectory()
        self.data = Path(self._folder.name)
        self.ports: dict[str, int] = {}
        if config:
            self.data.joinpath("host.ini").write_text("[host]\n" + "".join(f"{name} = {value}\n" for name, value in config.items()))
        for name in names:
            self.add(name)
        self.start()
        try:
            self.wait_log("serving ")
            for name in names:
                self.wait_log(f"study {name} is served")
        except BaseException:
            self.close()
            raise

    def add(self, name: str) -> None:
        """Adds a study at a free port. One whose name begins with crlf has lines and replies that end in CR LF."""
        self.ports[name] = free_port(self.ports.values())
        store.create(self.data, Settings(name, Address(LOOPBACK, self.ports[name], ""), name.startswith("crlf")))

    def add_socket(self, path: Path) -> None:
        """Adds a study at a socket file, under the file's name."""
        store.create(self.data, Settings(path.name, Address("", 0, str(path)), False))

    def start(self) -> None:
        """Starts the host."""
        log = self.data / "standard-error"
        with open(log, "ab") as error:
            place = os.fstat(error.fileno())
            environment = {**os.environ, **self.environment(f"{place.st_dev}:{place.st_ino}")}
            self.process = subprocess.Popen([support.HOST, "serve", "--data", self.data], stderr=error, env=environment)

    def environment(self, standard_error: str) -> dict[str, str]:
        """What the host's environment has beside that of the tests."""
        return {}

    def log(self) -> str:
        """What the host has said so far."""
        return (self.data / "standard-error").read_text()

    def wait_log(self, text: str, times: int = 1) -> None:
        """Waits until the log has said something so many times."""
        try:
            until(lambda: self.log().count(text) >= times, text)
        except AssertionError as failure:
            raise AssertionError(f"{failure}; the log:\n{self.log()}") from None

    def signal(self, number: signal.Signals) -> None:
        """Sends the host a signal."""
        self.process.send_signal(number)

    def stop(self) -> int:
        """Tells the host to end, and gives its exit status."""
        self.signal(signal.SIGTERM)
        return self.process.wait(PATIENCE)

    def close(self) -> None:
        """Ends the host and removes its folder."""
        if self.process.poll() is None:
            self.process.kill()
            self.process.wait()
        self._folder.cleanup()

    def command(self, *arguments: object) -> subprocess.CompletedProcess[str]:
        """Runs another command on the data folder."""
        return subprocess.run([support.HOST, *map(str, arguments), "--data", self.data], capture_output=True, text=True, timeout=PATIENCE)

    def stored(self, name: str) -> list[tuple[bytes, bytes]]:
        """The stored lines of a study, each with its reply, in their order."""
        with store.reading(self.data, name) as study:
            return [(stored.line, stored.reply) for stored in study.lines()]

    def memory(self) -> int:
        """The most memory that the host has used so far, in bytes."""
        status = Path(f"/proc/{self.process.pid}/status").read_text()
        return int(status.split("VmHWM:")[1].split()[0]) * 1024

    def connect(self, name: str) -> socket.socket:
        """A connection to a study at a port."""
        return socket.create_connection((LOOPBACK, self.ports[name]), PATIENCE)

    def session(self, name: str, lines: bytes) -> bytes:
        """All replies to some lines of a client that then closes its writing side."""
        with self.connect(name) as client:
            return session(client, lines)


def session(client: socket.socket, lines: bytes) -> bytes:
    """Sends lines, closes the writing side, and gives all that comes back."""
    client.sendall(lines)
    client.shutdown(socket.SHUT_WR)
    return read_all(client)


def read_all(client: socket.socket) -> bytes:
    """All that comes until the other side closes."""
    received = bytearray()
    while part := client.recv(1 << 16):
        received += part
    return bytes(received)


def read_lines(client: socket.socket, count: int) -> bytes:
    """So many lines, or what there is of them when the other side closes."""
    received = bytearray()
    while received.count(b"\n") < count and (part := client.recv(1 << 16)):
        received += part
    return bytes(received)


def ask(client: socket.socket, line: bytes) -> bytes:
    """The reply to one line."""
    client.sendall(line)
    return read_lines(client, 1)


class HostTest(unittest.TestCase):
    """A test of hosts, which end with it."""

    host: Running

    def running(self, *names: str, **config: object) -> Running:
        """A host for one test."""
        host = Running(*names, **config)
        self.addCleanup(host.close)
        return host

    @classmethod
    def shared(cls, *names: str, **config: object) -> Running:
        """A host for all tests of the class."""
        host = Running(*names, **config)
        cls.addClassCleanup(host.close)
        return host

    def verified(self, host: Running, name: str) -> None:
        """`verify` finds nothing wrong: each reply is the library's to its line on the block that the lines before it left."""
        self.assertEqual(checks.verify(host.data, name, library.installed()).wrong, [])
