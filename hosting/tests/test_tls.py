"""TLS by the configuration. The certificates are for tests only."""
import shutil
import signal
import socket
import ssl
import tempfile
import unittest
from pathlib import Path
from typing import Callable

from hosting.tests.running import (LOADED, LONG_LOAD, PATIENCE, WORKED_LINES, WORKED_REPLIES, HostTest, Running, ask, long_search, read_all,
                                   read_lines, until)

CERTIFICATES = Path(__file__).parent / "certificates"
SERVER = {"certificate": CERTIFICATES / "server.crt", "key": CERTIFICATES / "server.key"}
TIGHTEN = b"04\n"
NOT_LOADED = b"FF04\n"


def client_context(certificate: str | None = None) -> ssl.SSLContext:
    """A client that trusts the tests' authority, and shows a certificate."""
    context = ssl.create_default_context(cafile=CERTIFICATES / "ca.crt")
    if certificate is not None:
        context.load_cert_chain(CERTIFICATES / f"{certificate}.crt", CERTIFICATES / f"{certificate}.key")
    return context


def connect(host: Running, name: str, context: ssl.SSLContext) -> ssl.SSLSocket:
    """A TLS connection to a study."""
    return context.wrap_socket(host.connect(name), server_hostname="localhost")


class HalfClosing:
    """A TLS client that can end its own side by TLS's word and read on, which ssl.SSLSocket cannot."""

    def __init__(self, client: socket.socket) -> None:
        self._client = client
        self._incoming, self._outgoing = ssl.MemoryBIO(), ssl.MemoryBIO()
        self._object = client_context().wrap_bio(self._incoming, self._outgoing, server_hostname="localhost")
        while not self._done(self._object.do_handshake):
            self._receive()

    def send(self, data: bytes) -> None:
        self._object.write(data)
        self._client.sendall(self._outgoing.read())

    def end(self) -> None:
        """Says that nothing more comes. The socket stays open."""
        self._done(self._object.unwrap)

    def read_all(self) -> bytes:
        received = bytearray()
        while True:
            try:
                part = self._object.read(1 << 16)
            except ssl.SSLWantReadError:
                self._receive()
            except ssl.SSLZeroReturnError:
                return bytes(received)
            else:
                received += part

    def _done(self, step: Callable[[], object]) -> bool:
        try:
            step()
        except ssl.SSLWantReadError:
            return False
        finally:
            self._client.sendall(self._outgoing.read())
        return True

    def _receive(self) -> None:
        data = self._client.recv(1 << 16)
        if not data:
            raise AssertionError("closed without TLS's word")
        self._incoming.write(data)


class TlsTest(HostTest):
    @classmethod
    def setUpClass(cls) -> None:
        cls.host = cls.shared("session", "versions", "half", "cut", "plain", **SERVER)

    def test_session(self) -> None:
        with connect(self.host, "session", client_context()) as client:
            self.assertIn(client.version(), ("TLSv1.2", "TLSv1.3"))
            client.sendall(WORKED_LINES)
            self.assertEqual(read_lines(client, len(WORKED_REPLIES.splitlines())), WORKED_REPLIES)
        with connect(self.host, "session", client_context()) as client:
            self.assertEqual(ask(client, b"0" * 200_000 + b"\n"), b"FF02\n")

    def test_tls_1_2_and_not_less(self) -> None:
        context = client_context()
        context.maximum_version = ssl.TLSVersion.TLSv1_2
        with connect(self.host, "versions", context) as client:
            self.assertEqual(ask(client, TIGHTEN), NOT_LOADED)
        context.set_ciphers("ALL:@SECLEVEL=0")
        context.minimum_version = context.maximum_version = ssl.TLSVersion.TLSv1_1
        with self.assertRaises(ssl.SSLError):
            connect(self.host, "versions", context)
        self.host.wait_log("turned away: [SSL: UNSUPPORTED_PROTOCOL]")

    def test_every_reply_comes_after_the_client_has_ended_its_side(self) -> None:
        line, reply = long_search(10_000_000)
        with self.host.connect("half") as raw:
            client = HalfClosing(raw)
            client.send(LONG_LOAD + line * 20 + line.removesuffix(b"\n"))
            client.end()
            self.assertEqual(client.read_all(), LOADED + reply * 21)

    def test_last_piece_of_a_connection_that_was_cut_is_no_line(self) -> None:
        with connect(self.host, "cut", client_context()) as client:
            client.sendall(b"00\n04")
            self.assertEqual(read_lines(client, 1), b"FF03\n")
            with socket.socket(fileno=client.detach()) as raw:
                raw.settimeout(PATIENCE)
                raw.shutdown(socket.SHUT_WR)
                read_all(raw)
        self.host.wait_log("closed after 1 replies")
        self.assertEqual(self.host.stored("cut"), [(b"00", b"FF03")])

    def test_plain_text_is_turned_away(self) -> None:
        for text in (WORKED_LINES, TIGHTEN):
            with self.host.connect("plain") as client:
                client.sendall(text)
                client.shutdown(socket.SHUT_WR)
                self.assertNotIn(b"8", read_all(client))
        self.host.wait_log("turned away: [SSL: WRONG_VERSION_NUMBER]")
        self.host.wait_log("turned away: it ended before TLS was established")
        self.assertEqual(self.host.stored("plain"), [])


class ClientCertificateTest(HostTest):
    def _turned_away(self, host: Running, certificate: str | None, reason: str) -> None:
        """In TLS 1.3 a client learns only when it reads that its certificate was not taken."""
        with self.assertRaises(ssl.SSLError):
            with connect(host, "a", client_context(certificate)) as client:
                ask(client, TIGHTEN)
        host.wait_log(f"turned away: {reason}")

    def test_client_certificates(self) -> None:
        host = self.running("a", **SERVER, client_ca=CERTIFICATES / "ca.crt")
        self._turned_away(host, None, "[SSL: PEER_DID_NOT_RETURN_A_CERTIFICATE]")
        self._turned_away(host, "foreign-client", "[SSL: CERTIFICATE_VERIFY_FAILED] certificate verify failed: unable to get local issuer certificate")
        self._turned_away(host, "server", "[SSL: CERTIFICATE_VERIFY_FAILED] certificate verify failed: unsuitable certificate purpose")
        self.assertEqual(host.stored("a"), [])
        with connect(host, "a", client_context("client")) as client:
            self.assertEqual(ask(client, TIGHTEN), NOT_LOADED)


class ConfigurationTest(HostTest):
    def test_certificates_are_read_anew(self) -> None:
        folder = Path(self.enterContext(tempfile.TemporaryDirectory()))
        certificate, key = folder / "used.crt", folder / "used.key"
        shutil.copy(SERVER["certificate"], certificate)
        shutil.copy(SERVER["key"], key)
        host = self.running("a", certificate=certificate, key=key)
        self.assertIn("tests only: server", self._shown(host))
        shutil.copy(CERTIFICATES / "renewed-server.crt", certificate)
        shutil.copy(CERTIFICATES / "renewed-server.key", key)
        host.signal(signal.SIGHUP)
        until(lambda: "tests only: renewed-server" in self._shown(host), "the renewed certificate is shown")
        key.write_text("no key")
        host.signal(signal.SIGHUP)
        host.wait_log("the certificates stay as they were")
        self.assertIn("tests only: renewed-server", self._shown(host))

    def _shown(self, host: Running) -> str:
        """The certificate that the host shows."""
        with connect(host, "a", client_context()) as client:
            return str(client.getpeercert())

    def test_certificate_that_cannot_be_used(self) -> None:
        host = self.running()
        self.assertEqual(host.stop(), 0)
        host.data.joinpath("host.ini").write_text(f"[host]\ncertificate = {SERVER['certificate']}\nkey = {CERTIFICATES / 'client.key'}\n")
        done = host.command("serve")
        self.assertEqual(done.returncode, 2)
        self.assertRegex(done.stderr, "^host: certificate, key or client CA cannot be used: .*\n$")


if __name__ == "__main__":
    unittest.main()
