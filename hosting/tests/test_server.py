"""Studies served at their addresses."""
import asyncio
import signal
import socket
import stat
import unittest

from hosting import store
from hosting.records import Address, Settings
from hosting.tests import support
from hosting.tests.running import (LOADED, LONG_LOAD, LOOPBACK, WORKED_LINES, WORKED_REPLIES, HostTest, Running, ask, long_search,
                                   read_lines, session)
from hosting.tests.traffic import Client, shares

TIGHTEN = b"04\n"
NOT_LOADED = b"FF04\n"
NO_SUCH_KIND = b"00\n"
DECLINED_KIND = b"FF03\n"
LONGEST_BUDGET = 10_000_000
# A hundred searches with this budget take some seconds.
LONG_BUDGET = 4_000_000


class SessionTest(HostTest):
    @classmethod
    def setUpClass(cls) -> None:
        cls.host = cls.shared("port", "other", "crlf", "searches", "busy", "free", "writers")

    def test_sessions_of_two_studies(self) -> None:
        self.assertEqual(self.host.session("port", WORKED_LINES), WORKED_REPLIES)
        self.assertEqual(self.host.session("other", TIGHTEN), NOT_LOADED)
        self.verified(self.host, "port")

    def test_lines_and_replies_with_carriage_returns(self) -> None:
        self.assertEqual(self.host.session("crlf", WORKED_LINES.replace(b"\n", b"\r\n")), WORKED_REPLIES.replace(b"\n", b"\r\n"))
        self.assertEqual(self.host.session("crlf", b"04\r\r\n"), b"FF01\r\n")
        self.assertEqual([line for line, _ in self.host.stored("crlf")][:-1], support.LINES)

    def test_hundred_searches_then_half_close(self) -> None:
        line, reply = long_search(LONG_BUDGET)
        self.assertEqual(self.host.session("searches", LONG_LOAD + line * 100), LOADED + reply * 100)

    def test_long_searches_hold_up_no_other_study(self) -> None:
        line, _ = long_search(LONGEST_BUDGET)
        with self.host.connect("busy") as busy, self.host.connect("free") as free:
            busy.sendall(LONG_LOAD + line * 100)
            self.assertEqual(read_lines(busy, 1)[:len(LOADED)], LOADED)
            for _ in range(5):
                self.assertEqual(ask(free, TIGHTEN), NOT_LOADED)
            self.assertLess(len(self.host.stored("busy")), 101)

    def test_stored_order_explains_two_writers(self) -> None:
        self.assertEqual(self.host.session("writers", WORKED_LINES), WORKED_REPLIES)
        asked = [[line for points in range(1, 151) for line in (b"0200%02X%06X" % (choice, points), b"04")] for choice in (0, 1)]
        clients = [Client(lines, ahead=16) for lines in asked]

        async def talk() -> None:
            await asyncio.gather(*(client.talk(asyncio.open_connection(LOOPBACK, self.host.ports["writers"])) for client in clients))

        asyncio.run(talk())
        self.assertEqual([len(client.received) for client in clients], [300, 300])
        self.assertEqual(shares(self.host.stored("writers")[len(support.LINES):], clients), {(300, 300)})
        self.verified(self.host, "writers")


class RestartTest(HostTest):
    def test_study_outlives_connection_and_host(self) -> None:
        host = self.running("a")
        lines, replies = WORKED_LINES.splitlines(keepends=True), WORKED_REPLIES.splitlines(keepends=True)
        self.assertEqual(host.session("a", lines[0]), replies[0])
        self.assertEqual(host.session("a", lines[1]), replies[1])
        host.process.kill()
        host.process.wait()
        host.start()
        host.wait_log("study a is served", times=2)
        self.assertEqual(host.session("a", b"".join(lines[2:])), b"".join(replies[2:]))
        self.verified(host, "a")


class AddressTest(HostTest):
    @classmethod
    def setUpClass(cls) -> None:
        cls.host = cls.shared("a", "kept")

    def test_studies_are_added_and_removed_while_the_host_serves(self) -> None:
        self.assertEqual(self.host.session("a", WORKED_LINES), WORKED_REPLIES)
        with self.host.connect("a") as client:
            self.assertEqual(ask(client, NO_SUCH_KIND), DECLINED_KIND)
            self.assertEqual(self.host.command("remove", "a").returncode, 0)
            self.host.signal(signal.SIGHUP)
            self.assertEqual(client.recv(1), b"")
        self.host.wait_log("study a is no longer served")
        self.host.add("a")
        self.host.wait_log(f"study a is served at {LOOPBACK}:{self.host.ports['a']}")
        self.assertEqual(self.host.session("a", TIGHTEN), NOT_LOADED)

    def test_address_in_use(self) -> None:
        with socket.create_server((LOOPBACK, 0)) as taken:
            port = taken.getsockname()[1]
            store.create(self.host.data, Settings("b", Address(LOOPBACK, port, ""), False))
            self.host.wait_log("study b is not served: [Errno 98] Address already in use")
            self.assertEqual(self.host.session("kept", TIGHTEN), NOT_LOADED)
        self.host.ports["b"] = port
        self.host.signal(signal.SIGHUP)
        self.host.wait_log("study b is served")
        self.assertEqual(self.host.session("b", TIGHTEN), NOT_LOADED)

    def test_no_other_machine_without_tls(self) -> None:
        store.create(self.host.data, Settings("wide", Address("0.0.0.0", 7001, ""), False))
        self.host.wait_log("study wide is not served: without TLS the host listens on loopback addresses only")

    def test_socket_files(self) -> None:
        stale, used, other = (self.host.data / name for name in ("stale", "used", "other"))
        with socket.socket(socket.AF_UNIX) as left:
            left.bind(str(stale))
        other.write_text("kept")
        with socket.socket(socket.AF_UNIX) as listening:
            listening.bind(str(used))
            listening.listen()
            for path in (stale, used, other):
                self.host.add_socket(path)
            self.host.wait_log(f"study stale is served at {stale}")
            self.host.wait_log(f"study used is not served: another program listens at {used}")
            self.host.wait_log(f"study other is not served: {other} is there, and is no socket file")
        self.assertEqual(other.read_text(), "kept")
        self.assertTrue(used.exists())
        self.assertEqual(stat.S_IMODE(stale.stat().st_mode), 0o660)
        with socket.socket(socket.AF_UNIX) as client:
            client.connect(str(stale))
            self.assertEqual(session(client, WORKED_LINES), WORKED_REPLIES)
        self.assertEqual(self.host.command("remove", "stale").returncode, 0)
        self.host.wait_log("study stale is no longer served")
        self.assertFalse(stale.exists())

    def test_one_host_for_a_folder(self) -> None:
        second = self.host.command("serve")
        self.assertEqual(second.returncode, 2)
        self.assertEqual(second.stderr, f"host: another host serves the data folder {self.host.data}\n")
        self.assertEqual(self.host.session("kept", TIGHTEN), NOT_LOADED)


class Journaled(Running):
    """A host whose standard error is, as it is told, the system's journal."""

    def environment(self, standard_error: str) -> dict[str, str]:
        return {"JOURNAL_STREAM": standard_error}


class FailureTest(HostTest):
    def test_nothing_is_answered_that_is_not_stored(self) -> None:
        host = Journaled("a", page_limit=40)
        self.addCleanup(host.close)
        lines, replies = WORKED_LINES.splitlines(keepends=True), WORKED_REPLIES.splitlines(keepends=True)
        self.assertEqual(host.session("a", lines[0]), replies[0])
        long_line = b"00" * 5000 + b"\n"
        answered = host.session("a", long_line * 100)
        with host.connect("a") as client:
            while reply := ask(client, long_line):
                answered += reply
        self.assertEqual(answered, DECLINED_KIND * (len(answered) // len(DECLINED_KIND)))
        self.assertEqual([reply for _, reply in host.stored("a")[1:]], answered.splitlines())
        host.wait_log("not stored, so not answered: database or disk is full", times=2)
        self.assertEqual(host.command("compact", "a").returncode, 0)
        self.assertEqual(host.session("a", lines[1]), replies[1])
        self.verified(host, "a")
        self._check_journal(host.log())

    def _check_journal(self, log: str) -> None:
        """The log for the system's journal has levels and no times of its own."""
        for line in log.splitlines():
            self.assertRegex(line, r"^<[3-6]>[a-z]")


if __name__ == "__main__":
    unittest.main()
