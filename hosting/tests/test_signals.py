"""Signals that end the host."""
import signal
import time
import unittest

from hosting.tests.running import BIG_LOAD, LOADED, LONG_LOAD, PATIENCE, HostTest, ask, long_search, read_all, read_lines

TIGHTEN = b"04\n"
NOT_LOADED = b"FF04\n"


class SignalsTest(HostTest):
    def test_lines_in_hand_are_stored_and_answered(self) -> None:
        host = self.running("a", "b")
        line, reply = long_search(10_000_000)
        with host.connect("a") as first, host.connect("b") as second:
            for client in (first, second):
                client.sendall(LONG_LOAD + line * 1000)
            received = [read_lines(client, 3) for client in (first, second)]
            host.signal(signal.SIGTERM)
            received = [begun + read_all(client) for begun, client in zip(received, (first, second))]
        self.assertEqual(host.process.wait(PATIENCE), 0)
        for name, replies in zip("ab", received):
            searches = replies.count(b"\n") - 1
            self.assertEqual(replies, LOADED + reply * searches)
            self.assertLess(searches, 1000)
            self.assertEqual([stored.rstrip() for stored in replies.splitlines()], [stored for _, stored in host.stored(name)])
            self.verified(host, name)

    def test_idle_host_ends_at_once(self) -> None:
        for number in (signal.SIGTERM, signal.SIGINT):
            with self.subTest(number):
                host = self.running("a")
                with host.connect("a") as client:
                    self.assertEqual(ask(client, TIGHTEN + b"0"), NOT_LOADED)
                    host.signal(number)
                    self.assertEqual(read_all(client), b"")
                self.assertEqual(host.process.wait(PATIENCE), 0)
                self.assertEqual(len(host.stored("a")), 1)
                with self.assertRaises(ConnectionRefusedError):
                    host.connect("a")

    def test_clients_that_do_not_close_do_not_keep_the_host(self) -> None:
        host = self.running("a")
        self.assertEqual(host.session("a", BIG_LOAD), LOADED)
        with host.connect("a") as deaf, host.connect("a"):
            deaf.sendall(b"07\n" * 1000)
            self.assertEqual(read_lines(deaf, 1)[:2], b"01")
            begin = time.monotonic()
            self.assertEqual(host.stop(), 0)
            self.assertLess(time.monotonic() - begin, 10)
        self.assertLess(len(host.stored("a")), 1000)
        self.verified(host, "a")


if __name__ == "__main__":
    unittest.main()
