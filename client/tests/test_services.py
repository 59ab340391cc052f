"""Services: by a program, the library, sockets and TLS; what they do where the other side closes, answers slowly, or answers what is no reply."""

import os
import select
import socket
import ssl
import struct
import subprocess
import tempfile
import threading
import unittest
from collections.abc import Callable, Iterator
from pathlib import Path

import junction
from junction import (ENDED, SPENT, WITHOUT_PLAN, Bound, Ceiling, Choice, Choices, Disconnected, Found, Order, Pair, Reason, Record, Refused, Service, Study,
                      Train, Unreadable, lines)
from junction.errors import LibraryError, NoPlace
from junction.replies import BY_ITSELF, WITH_PARTNER
from junction.study import Absent
from tests import reference
from tests.reference import ROOT
from tests.test_lines import J
from tests.test_replies import radio_form

LIBRARY = Path(os.environ.get("JUNCTION_LIBRARY", ROOT / "target/host/libjunction.so"))
CERTIFICATES = ROOT / "hosting/tests/certificates"
WORKED, WORKED_REPLIES = ((ROOT / "examples" / f"worked.{name}").read_text().split() for name in ("lines", "replies"))
LOOPBACK = "127.0.0.1"
# Longer than anything takes that is waited for; nothing waits so long unless it fails.
PATIENCE = 60
NAMED = Study((Train("RE 5", (Choice("platform 1", 2), Choice("platform 2", 0))), Train("S 1", (Choice("platform 1", 0), Choice("platform 2", 0)))),
              (Pair(0, 1, ((1, 0), (3, 2))),), 1)


def reference_program(radio: bool = False) -> Service:
    """The reference as a service."""
    reference.replies("04")
    return junction.program(reference.PROGRAM, radio)


class Server:
    """A server of one connection, which a function talks to in a thread. `received` is all that came."""

    def __init__(self, case: unittest.TestCase, talk: Callable[[socket.socket], None], context: ssl.SSLContext | None = None) -> None:
        self._listening = socket.create_server((LOOPBACK, 0))
        self._talk, self._context = talk, context
        self.failure: BaseException | None = None
        self.address = f"{LOOPBACK}:{self._listening.getsockname()[1]}"
        self.port = self._listening.getsockname()[1]
        self._thread = threading.Thread(target=self._serve)
        self._thread.start()
        case.addCleanup(self.end)

    def _serve(self) -> None:
        try:
            client, _ = self._listening.accept()
            client.settimeout(PATIENCE)
            with client if self._context is None else self._context.wrap_socket(client, server_side=True) as connection:
                self._talk(connection)
        except (OSError, AssertionError) as failure:
            self.failure = failure

    def end(self) -> None:
        """Waits for the end of the talk."""
        self._thread.join(PATIENCE)
        self._listening.close()


def scripted(*replies: bytes) -> Callable[[socket.socket], None]:
    """Sends one of these texts for each line, then closes."""
    def talk(connection: socket.socket) -> None:
        with connection.makefile("rb") as received:
            for reply in replies:
                received.readline()
                connection.sendall(reply)
    return talk


class Sessions(unittest.TestCase):
    """The worked session, by every way to a service."""

    def session(self, service: Service) -> None:
        with service:
            self.assertEqual([service.ask(line) for line in WORKED], WORKED_REPLIES)
            self.assertEqual(list(service.ask_all(WORKED)), WORKED_REPLIES)

    def test_program(self) -> None:
        self.session(reference_program())

    def test_library(self) -> None:
        if not LIBRARY.exists():
            self.skipTest(f"there is no {LIBRARY}: hosting/build makes it")
        self.session(junction.library(LIBRARY))

    def served(self, connection: socket.socket) -> None:
        """The reference answers at a socket."""
        connection.settimeout(None)
        subprocess.run([reference.PROGRAM], stdin=connection.fileno(), stdout=connection.fileno(), check=True)

    def test_port(self) -> None:
        reference.replies("04")
        self.session(junction.connect(Server(self, self.served).address))

    def test_socket_file(self) -> None:
        reference.replies("04")
        with tempfile.TemporaryDirectory() as folder, socket.socket(socket.AF_UNIX) as listening:
            listening.bind(f"{folder}/a socket")
            listening.listen()
            service = junction.connect(f"unix:{folder}/a socket")
            client, _ = listening.accept()
            with client:
                answering = threading.Thread(target=self.served, args=(client,))
                answering.start()
                self.session(service)
                answering.join(PATIENCE)

    def test_tls(self) -> None:
        context = ssl.SSLContext(ssl.PROTOCOL_TLS_SERVER)
        context.load_cert_chain(CERTIFICATES / "server.crt", CERTIFICATES / "server.key")
        replies = [reply.encode() + b"\n" for reply in WORKED_REPLIES]
        server = Server(self, scripted(*replies, *replies), context)
        self.session(junction.connect(f"tls:localhost:{server.port}", ssl.create_default_context(cafile=CERTIFICATES / "ca.crt")))
        self.assertIsNone(server.failure)

    def test_every_line_and_reply_at_their_longest(self) -> None:
        """Nobody waits for the other to read first, though lines and replies are more than any pipe holds."""
        full = lines.load(full_study())
        self.assertEqual(len(full), 19834)
        session = [full, *["07"] * 12, *[full] * 12] * 4
        with reference_program() as service:
            replies = list(service.ask_all(session))
        self.assertEqual(replies, [full if line == "07" else "81" + "0" * 24 for line in session])


def full_study() -> Study:
    """The largest study, every cost of which is 0."""
    trains = tuple(Train(str(number), tuple(Choice(str(choice), 0) for choice in range(8))) for number in range(24))
    pairs = [(i, j) for i in range(24) for j in range(i + 1, min(i + 4, 24))][:48]
    return Study(trains, tuple(Pair(i, j, ((0,) * 8,) * 8) for i, j in pairs))


class Kinds(unittest.TestCase):
    """A method for each kind, in both forms, with the reference."""

    def test_each_kind(self) -> None:
        for radio in (False, True):
            with self.subTest(radio=radio), reference_program(radio) as service:
                self.each_kind(service)

    def each_kind(self, service: Service) -> None:
        """What documents 01 and 02 and the README's session say of J."""
        self.assertEqual(service.load(J), Bound(0, 0))
        self.assertEqual(service.tighten(), Bound(2, 2))
        self.assertEqual(service.certify([1, 0, 0, 1, 0, 1, 0, 0]), Ceiling(True, 2, 1, 1))
        self.assertEqual(service.search(10), Found(ENDED, 3, 2, (0, 1)))
        self.assertEqual(service.add(1, 1, 3), Bound(2, 2))
        self.assertEqual(service.search(2), Found(SPENT, 2, 3, (0, 0)))
        self.assertEqual(service.shift([0, 1], [0] * 4), Bound(3, 3))
        self.assertEqual(service.save(), Study((J.trains[0], Train("1", (Choice("0", 0), Choice("1", 3)))), J.pairs, 1))
        self.assertEqual(service.clauses(2, 1, [(1, 2, 5), (-1, 0, 2), (-2, 1, 1)]), Bound(0, 0))
        self.assertEqual(service.explain(0, 0, 2), Reason(BY_ITSELF, None))
        self.assertEqual(service.explain(1, 1, 2), Reason(WITH_PARTNER, 0))
        self.assertEqual(service.certify([1, 0, 1, 0, 1, 0, 0, 0]).W, 1)
        self.assertEqual(service.round(), Bound(1, 1))
        self.assertEqual(service.order([1, 0]), Order((1, 0)))
        self.assertEqual(service.record([1, 0]), Record((1, 0), 1, 1))
        self.assertEqual(service.screen([1, 0], 0, 7), Choices((1, 0)))
        self.assertEqual(service.planner([1, 0], 1, 1), Record((1, 0), 1, 1))
        self.assertEqual(service.dearest([2, 3]).sizes, (2, 3))
        self.assertEqual(service.load(service.dearest([1])), Bound(0, 0))
        forbidden = Study((Train("0", (Choice("0", None),)),), (), 1)
        self.assertEqual((service.load(forbidden), service.search(5)), (Bound(0, 0), Found(WITHOUT_PLAN, 1, None, None)))
        self.assertEqual(service.save(), forbidden)

    def test_refusals(self) -> None:
        for radio in (False, True):
            with self.subTest(radio=radio), reference_program(radio) as service:
                with self.assertRaises(Refused) as raised:
                    service.tighten()
                self.assertEqual((raised.exception.number, raised.exception.line), (4, "04"))
                service.load(J)
                with self.assertRaises(Refused) as raised:
                    service.add(7, 1, 1)
                self.assertEqual((raised.exception.number, raised.exception.line), (9, "020701000001"))
                self.assertEqual([service.ask(line) for line in ("", "é", "10", "0400", "04")], ["FF01", "FF01", "FF03", "FF05", "84000000000002000000000002"])

    def test_names(self) -> None:
        with reference_program() as service:
            service.load(NAMED)
            self.assertEqual(service.add("RE 5", "platform 2", 3), Bound(0, 0))
            self.assertEqual(service.add("RE 5", 1, 1), service.add(0, "1", 1))
            self.assertEqual(service.explain("S 1", "platform 1", 1), service.explain(1, 0, 1))
            self.assertEqual(service.order(["S 1", "RE 5"]), Order((1, 0)))
            self.assertEqual(service.record(["platform 1", "platform 2"]).choices, (0, 1))
            found = service.search(100)
            self.assertEqual((found.cost, found.by_train(NAMED)), (2, [("RE 5", "platform 1"), ("S 1", "platform 2")]))
            saved = service.save()
            self.assertEqual(saved.trains, (Train("RE 5", (Choice("platform 1", 2), Choice("platform 2", 5))), NAMED.trains[1]))
            self.assertEqual((saved.pairs, saved.scale), (NAMED.pairs, NAMED.scale))
            with self.assertRaisesRegex(Absent, "train RE 5 has no choice 'platfrom 2'"):
                service.add("RE 5", "platfrom 2", 1)
            with self.assertRaisesRegex(Absent, "there is no train S 2"):
                service.order(["S 2"])

    def test_names_are_those_of_the_study_that_is_loaded(self) -> None:
        with reference_program() as service:
            service.study = NAMED
            service.load(J)
            with self.assertRaisesRegex(Absent, "there is no train RE 5"):
                service.add("RE 5", 0, 1)
            service.study = NAMED
            for _ in service.ask_all([lines.load(J)]):
                pass
            with self.assertRaisesRegex(Absent, "'RE 5' is no number, and no study was loaded or given here"):
                service.add("RE 5", 0, 1)
            self.assertEqual(service.add("0", "1", 1), Bound(0, 0))
            with self.assertRaisesRegex(Absent, "W is to be given, since no study was loaded or given here"):
                service.certify([1, 0])
            self.assertEqual(service.certify([1, 0, 0, 1, 0, 1, 0, 0], 1), Ceiling(False, 2, 1, None))
            service.study = NAMED
            with self.assertRaises(Refused):
                service.load(J.with_scale(0))
            self.assertEqual(service.add("RE 5", "platform 1", 0), Bound(0, 0))

    def test_ceilings_in_points(self) -> None:
        with reference_program() as service:
            service.load(J.with_scale(10))
            self.assertEqual(service.certify([2, 0, 0, 2, 0, 2, 0, 0]).points, 2)
            service.clauses(1, 10, [(1, 0, 3)])
            self.assertEqual(service.certify([0, 1]).points, 3)


class Ahead(unittest.TestCase):
    """Lines ahead of replies."""

    def test_sixteen_at_most(self) -> None:
        first: list[bytes] = []

        def talk(connection: socket.socket) -> None:
            received = b""
            while received.count(b"\n") < 16:
                received += connection.recv(1 << 16)
            more = select.select([connection], [], [], 0.3)[0]
            first.append(received if not more else received + connection.recv(1 << 16))
            for _ in range(40):
                connection.sendall(b"FF04\n")
            while connection.recv(1 << 16):
                pass

        with junction.connect(Server(self, talk).address) as service:
            self.assertEqual(list(service.ask_all(["04"] * 40)), ["FF04"] * 40)
        self.assertEqual(first, [b"04\n" * 16])

    def test_lines_are_taken_as_they_are_needed(self) -> None:
        taken: list[str] = []

        def given() -> Iterator[str]:
            for _ in range(20):
                taken.append("04")
                yield "04"

        with reference_program() as service:
            replies = service.ask_all(given())
            self.assertEqual((len(taken), next(replies), len(taken)), (0, "FF04", 16))
            self.assertEqual((next(replies), len(taken)), ("FF04", 17))
            self.assertEqual(list(replies), ["FF04"] * 18)
            self.assertEqual(list(service.ask_all([])), [])

    def test_replies_go_to_those_who_asked(self) -> None:
        """Of two rows of lines at once, and of one that was left, each reply is that of its line."""
        with reference_program() as service:
            service.load(J)
            first = service.ask_all(["07", "04"] * 10)
            second = service.ask_all(["0B0100"] * 20)
            self.assertEqual((next(first), next(second), next(first), next(second)), (lines.load(J), "8B0100", "84000000000002000000000002", "8B0100"))
            self.assertEqual(service.search(10).cost, 2)
            self.assertEqual(list(first), [lines.load(J), "84000000000002000000000002"] * 9)
            del second
            self.assertEqual(service.ask("04"), "84000000000002000000000002")

    def test_a_line_has_no_line_end(self) -> None:
        with reference_program() as service:
            with self.assertRaisesRegex(NoPlace, "a line has no line end within it"):
                service.ask("04\n04")
            self.assertEqual(service.ask("04\r"), "FF01")


class Failing(unittest.TestCase):
    """The other side closes, is slow, or answers what is no reply."""

    def asked(self, *replies: bytes, radio: bool = False) -> Service:
        service = junction.connect(Server(self, scripted(*replies)).address, radio=radio)
        self.addCleanup(service.close)
        return service

    def test_closes(self) -> None:
        service = self.asked(b"84000000000002000000000002\n")
        self.assertEqual(service.tighten(), Bound(2, 2))
        with self.assertRaisesRegex(Disconnected, "^the connection ended before 1 line was answered$") as raised:
            service.search(10)
        self.assertEqual(raised.exception.unanswered, ("060000000A",))
        with self.assertRaises(Disconnected):
            service.tighten()

    def test_closes_with_lines_ahead(self) -> None:
        service = self.asked(b"FF04\n", b"FF04\nFF0")
        replies = service.ask_all([f"06{budget:08X}" for budget in range(1, 30)])
        self.assertEqual([next(replies), next(replies)], ["FF04", "FF04"])
        with self.assertRaisesRegex(Disconnected, "^the connection ended before 16 lines were answered$") as raised:
            next(replies)
        self.assertEqual(raised.exception.unanswered, tuple(f"06{budget:08X}" for budget in range(3, 19)))

    def test_nothing_is_sent_again(self) -> None:
        received: list[bytes] = []

        def talk(connection: socket.socket) -> None:
            received.append(connection.recv(1 << 16))
            connection.shutdown(socket.SHUT_WR)
            while more := connection.recv(1 << 16):
                received.append(more)

        with junction.connect(Server(self, talk).address) as service, self.assertRaises(Disconnected):
            service.add(0, 0, 5)
        self.assertEqual(received, [b"020000000005\n"])

    def test_resets(self) -> None:
        def talk(connection: socket.socket) -> None:
            connection.recv(1 << 16)
            connection.setsockopt(socket.SOL_SOCKET, socket.SO_LINGER, struct.pack("ii", 1, 0))

        with junction.connect(Server(self, talk).address) as service, self.assertRaises(Disconnected) as raised:
            service.tighten()
        self.assertIsInstance(raised.exception.__cause__, ConnectionResetError)

    def test_a_program_that_ends(self) -> None:
        with junction.program("/bin/false") as service, self.assertRaises(Disconnected) as raised:
            list(service.ask_all(["04"] * 20))
        self.assertEqual(raised.exception.unanswered, ("04",) * 16)

    def test_a_closed_service(self) -> None:
        service = reference_program()
        service.close()
        service.close()
        with self.assertRaises(Disconnected):
            service.ask("04")

    def test_is_slow(self) -> None:
        def talk(connection: socket.socket) -> None:
            connection.recv(1)
            for byte in b"84000000000002000000000002\r\n8800000000":
                connection.sendall(bytes([byte]))
                select.select([], [], [], 0.002)
            connection.sendall(b"0003000000000003\n")
            while connection.recv(1 << 16):
                pass

        with junction.connect(Server(self, talk).address) as service:
            self.assertEqual(list(service.ask_all(["04", "08"])), ["84000000000002000000000002", "88000000000003000000000003"])

    def test_what_is_no_reply(self) -> None:
        for rubbish in (b"hello\n", b"\n", b"84\n", b"88000000000003000000000003\n", b"\xff\xfe\n", b"8400000000000200000000000\n", b"FF0C00\n"):
            with self.assertRaises(Unreadable) as raised:
                self.asked(rubbish).tighten()
            self.assertEqual(raised.exception.reply, rubbish[:-1].decode("ascii", "backslashreplace"))

    def test_after_what_is_no_reply_the_next_is_the_next_line_s(self) -> None:
        service = self.asked(b"hello\n", b"88000000000003000000000003\n")
        with self.assertRaises(Unreadable):
            service.tighten()
        self.assertEqual(service.round(), Bound(3, 3))

    def test_a_reply_that_no_line_asked_for(self) -> None:
        service = self.asked(b"FF04\nFF04\n", b"FF04\n")
        self.assertEqual(service.ask("04"), "FF04")
        for _ in range(2):
            with self.assertRaises(Unreadable) as raised:
                service.ask("04")
            self.assertEqual(raised.exception.reply, "FF04\n")

    def test_a_reply_without_end(self) -> None:
        service = self.asked(b"0" * 300_000)
        with self.assertRaises(Unreadable):
            service.ask("07")
        with self.assertRaises(Disconnected):
            service.ask("07")

    def test_over_train_radio(self) -> None:
        right = radio_form("84000000000002000000000002").encode()
        self.assertEqual(self.asked(right + b"\n", radio=True).tighten(), Bound(2, 2))
        for wrong in (right[:-1] + b"9", right[:-2], b"84000000000002000000000002", b"FF04", b"FF04F", right[:9] + right[10:]):
            with self.assertRaises(Unreadable):
                self.asked(wrong + b"\n", radio=True).tighten()
            with self.assertRaises(Unreadable):
                self.asked(wrong + b"\n", radio=True).ask("04")
        for reply, number in ((b"FF19E8", 25), (b"FF01", 1), (b"FF02", 2), (b"FF03", 3), (b"FF10", 16), (b"FF04FD", 4)):
            with self.assertRaises(Refused) as raised:
                self.asked(reply + b"\n", radio=True).tighten()
            self.assertEqual((raised.exception.number, raised.exception.line), (number, "04"))

    def test_sent_over_train_radio(self) -> None:
        received: list[bytes] = []

        def talk(connection: socket.socket) -> None:
            with connection.makefile("rb") as coming:
                for reply in (b"FF04FD", b"FF04FD", b"FF03"):
                    received.append(coming.readline())
                    connection.sendall(reply + b"\n")

        with junction.connect(Server(self, talk).address, radio=True) as service:
            self.assertEqual([service.ask(line) for line in ("04", "44BC", "10")], ["FF04", "FF04", "FF03"])
        self.assertEqual(received, [b"44BC\n", b"44BC\n", b"10\n"])


class Reached(unittest.TestCase):
    """What cannot be reached, or is not to be trusted."""

    def test_addresses(self) -> None:
        for address in ("", "7001", ":7001", "host", "host:", "host:port", "tls:", "tls:7001", "host:٣"):
            with self.assertRaisesRegex(ValueError, "^an address is HOST:PORT, tls:HOST:PORT or unix:PATH, not "):
                junction.connect(address)
        for address in ("127.0.0.1:7001", "unix:socket"):
            with self.assertRaisesRegex(ValueError, "^a context is for addresses of tls:HOST:PORT, and "):
                junction.connect(address, ssl.create_default_context())

    def test_nobody_there(self) -> None:
        with socket.create_server((LOOPBACK, 0)) as taken:
            port = taken.getsockname()[1]
        with self.assertRaises(ConnectionRefusedError):
            junction.connect(f"{LOOPBACK}:{port}")
        with self.assertRaises(FileNotFoundError):
            junction.connect("unix:/nowhere/socket")
        with self.assertRaises(FileNotFoundError):
            junction.program("/nowhere/junction")

    def test_libraries(self) -> None:
        with self.assertRaisesRegex(LibraryError, "^the library /nowhere/libjunction.so cannot be loaded: "):
            junction.library("/nowhere/libjunction.so")
        with tempfile.NamedTemporaryFile(suffix=".so") as file, self.assertRaises(LibraryError):
            junction.library(file.name)

    def test_tls_by_nobody_known(self) -> None:
        context = ssl.SSLContext(ssl.PROTOCOL_TLS_SERVER)
        context.load_cert_chain(CERTIFICATES / "server.crt", CERTIFICATES / "server.key")
        for trusting in (None, ssl.create_default_context(cafile=CERTIFICATES / "foreign-ca.crt")):
            with self.assertRaises(ssl.SSLCertVerificationError):
                junction.connect(f"tls:localhost:{Server(self, scripted(b''), context).port}", trusting)

    def test_tls_with_one_who_has_none(self) -> None:
        with self.assertRaises(OSError):
            junction.connect(f"tls:localhost:{Server(self, scripted(b'')).port}")
        with self.assertRaises(ssl.SSLError):
            junction.connect(f"tls:localhost:{Server(self, lambda connection: connection.sendall(b'FF01' * 100)).port}")

    def test_tls_that_asks_for_a_certificate(self) -> None:
        context = ssl.SSLContext(ssl.PROTOCOL_TLS_SERVER)
        context.load_cert_chain(CERTIFICATES / "server.crt", CERTIFICATES / "server.key")
        context.load_verify_locations(CERTIFICATES / "ca.crt")
        context.verify_mode = ssl.CERT_REQUIRED
        own = ssl.create_default_context(cafile=CERTIFICATES / "ca.crt")
        with junction.connect(f"tls:localhost:{Server(self, scripted(b'FF04'), context).port}", own) as service, self.assertRaises(Disconnected) as raised:
            service.tighten()
        self.assertIsInstance(raised.exception.__cause__, OSError)
        own.load_cert_chain(CERTIFICATES / "client.crt", CERTIFICATES / "client.key")
        with junction.connect(f"tls:localhost:{Server(self, scripted(b'88000000000003' b'000000000003' + bytes([10])), context).port}", own) as service:
            self.assertEqual(service.round(), Bound(3, 3))


if __name__ == "__main__":
    unittest.main()
