"""Clients that send too much, read too little, or go away."""
import re
import socket
import struct
import time
import unittest
from contextlib import ExitStack

from hosting.tests.running import (BIG_LOAD, LOADED, LONG_LOAD, WORKED_LINES, WORKED_REPLIES, HostTest, Running, ask, long_search, read_all,
                                   read_lines, session, until)

TIGHTEN = b"04\n"
SAVE = b"07\n"
NOT_LOADED = b"FF04\n"
TOO_LONG = b"FF02\n"
MEGABYTE = 1 << 20
# So many replies to saves are more than the kernel takes for a client that does not read.
SAVES = 1000
# What the host may use beside what it used before, whatever a client sends.
SPARE_MEMORY = 16 * MEGABYTE


def reset(client: socket.socket) -> None:
    """Goes away without a word: the connection is reset, and not closed."""
    client.setsockopt(socket.SOL_SOCKET, socket.SO_LINGER, struct.pack("ii", 1, 0))
    client.close()


class ClientsTest(HostTest):
    @classmethod
    def setUpClass(cls) -> None:
        cls.host = cls.shared("long", "limit", "half", "bytes", "late", "gone")

    def test_line_over_the_limit_in_constant_memory(self) -> None:
        self.assertEqual(self.host.session("long", TIGHTEN), NOT_LOADED)
        before = self.host.memory()
        with self.host.connect("long") as client:
            for _ in range(32):
                client.sendall(b"0" * MEGABYTE)
            self.assertEqual(session(client, b"\n04\n"), TOO_LONG + NOT_LOADED)
        self.assertLess(self.host.memory() - before, SPARE_MEMORY)
        self.assertLess(len(self.host.stored("long")[1][0]), 20_000)
        self.verified(self.host, "long")

    def test_longest_line_and_the_next(self) -> None:
        self.assertEqual(self.host.session("limit", b"0" * 19_836 + b"\n" + b"0" * 19_837 + b"\n"), b"FF03\n" + TOO_LONG)

    def test_half_closed(self) -> None:
        self.assertEqual(self.host.session("half", WORKED_LINES.removesuffix(b"\n")), WORKED_REPLIES)
        self.assertEqual(self.host.session("half", b""), b"")
        self.assertEqual(self.host.session("half", b"\n"), b"FF01\n")

    def test_byte_by_byte(self) -> None:
        with self.host.connect("bytes") as client:
            for k in range(len(WORKED_LINES)):
                client.sendall(WORKED_LINES[k:k + 1])
            client.shutdown(socket.SHUT_WR)
            self.assertEqual(read_all(client), WORKED_REPLIES)

    def test_client_that_reads_late(self) -> None:
        self.assertEqual(self.host.session("late", BIG_LOAD), LOADED)
        with self.host.connect("late") as client:
            client.sendall(SAVE * SAVES)
            client.shutdown(socket.SHUT_WR)
            until(self._settled, "no more lines are taken")
            self.assertLess(len(self.host.stored("late")), SAVES)
            self.assertEqual(read_all(client), BIG_LOAD * SAVES)

    def _settled(self) -> bool:
        """Whether no line was taken for a while."""
        before = len(self.host.stored("late"))
        time.sleep(0.5)
        return len(self.host.stored("late")) == before

    def test_client_that_goes_while_a_search_runs(self) -> None:
        line, reply = long_search(10_000_000)
        with self.host.connect("gone") as client:
            client.sendall(LONG_LOAD + line * 10)
            read_lines(client, 1)
            reset(client)
        self.host.wait_log("the client has gone; ")
        with self.host.connect("gone") as client:
            self.assertEqual(ask(client, line), reply)
        self.assertEqual(self.host.stored("gone")[1:], [(line.rstrip(), reply.rstrip())] * 11)
        self.verified(self.host, "gone")


class IdleTest(HostTest):
    @classmethod
    def setUpClass(cls) -> None:
        cls.host = cls.shared("idle", "deaf", idle_seconds=2)

    def test_clients_without_a_whole_line(self) -> None:
        with self.host.connect("idle") as silent, self.host.connect("idle") as slow, self.host.connect("idle") as busy:
            begin = time.monotonic()
            while time.monotonic() - begin < 3:
                slow.sendall(b"0")
                self.assertEqual(ask(busy, TIGHTEN), NOT_LOADED)
                time.sleep(0.3)
            self.assertEqual(silent.recv(1), b"")
            self.assertEqual(slow.recv(1), b"")
            self.assertEqual(ask(busy, TIGHTEN), NOT_LOADED)
        idle = re.findall("study idle, .*: idle: no whole line came and no reply was read for 2 seconds", self.host.log())
        self.assertEqual(len(idle), 2)

    def test_client_that_never_reads(self) -> None:
        self.assertEqual(self.host.session("deaf", BIG_LOAD), LOADED)
        before = self.host.memory()
        with self.host.connect("deaf") as deaf, self.host.connect("deaf") as other:
            deaf.sendall(SAVE * SAVES)
            self.assertEqual(ask(other, TIGHTEN)[:2], b"84")
            self.host.wait_log("bytes of replies unread")
        self.assertLess(len(self.host.stored("deaf")), SAVES)
        self.assertLess(self.host.memory() - before, SPARE_MEMORY)
        self.verified(self.host, "deaf")


class LimitsTest(HostTest):
    def test_two_hundred_idle_connections(self) -> None:
        host = self.running("a", "b", connections_per_study=200, connections=202)
        before = host.memory()
        with ExitStack() as stack:
            clients = [stack.enter_context(host.connect("a")) for _ in range(200)]
            for client in clients:
                client.sendall(TIGHTEN)
            self.assertEqual({read_lines(client, 1) for client in clients}, {NOT_LOADED})
            self.assertLess(host.memory() - before, SPARE_MEMORY)
            self._turned_away(host, "a")
            host.wait_log("turned away: the study has 200 connections, which is the limit")
            others = [stack.enter_context(host.connect("b")) for _ in range(2)]
            self.assertEqual({ask(client, TIGHTEN) for client in others}, {NOT_LOADED})
            self._turned_away(host, "b")
            host.wait_log("turned away: the host has 202 connections, which is the limit")
            clients[0].close()
            host.wait_log("closed after 1 replies")
            self.assertEqual(host.session("b", TIGHTEN), NOT_LOADED)

    def _turned_away(self, host: Running, name: str) -> None:
        with host.connect(name) as client:
            try:
                self.assertEqual(client.recv(1), b"")
            except ConnectionResetError:
                pass


if __name__ == "__main__":
    unittest.main()
