"""The commands as they are run: what they print, their exit status, and a line on standard error for each failure."""

import io
import json
import subprocess
from contextlib import redirect_stderr, redirect_stdout
from subprocess import CompletedProcess

from hosting import commands, config, store
from hosting.tests import support
from hosting.tests.support import LINES, SEARCH, DataCase

DONE, FOUND, FAILED = 0, 1, 2


class Commands(DataCase):
    def host(self, *arguments: object) -> CompletedProcess[str]:
        """Carries out a command in this process, which is faster than to start another."""
        given = [*map(str, arguments), "--data", str(self.data)]
        with redirect_stdout(io.StringIO()) as printed, redirect_stderr(io.StringIO()) as said:
            try:
                status = commands.main(given)
            except SystemExit as ended:
                status = ended.code
        return CompletedProcess(given, status, printed.getvalue(), said.getvalue())

    def assert_done(self, *arguments: object) -> str:
        """The command is done, says nothing on standard error, and prints what is given back."""
        done = self.host(*arguments)
        self.assertEqual((done.returncode, done.stderr), (DONE, ""))
        return done.stdout

    def assert_complains(self, done: CompletedProcess[str], status: int, reason: str) -> None:
        """The command ends with a status, and says why on standard error, in one line where it is no matter of use."""
        self.assertEqual(done.returncode, status, done.stderr)
        self.assertRegex(done.stderr, reason)
        self.assertTrue(done.stderr.startswith("usage: ") or done.stderr.count("\n") == 1, done.stderr)

    def test_a_study_from_add_to_remove(self) -> None:
        self.assertEqual(self.assert_done("add", "study", "--port", 5001, "--crlf"), "study at 127.0.0.1:5001\n")
        self.take([*LINES, SEARCH])
        self.assertEqual(self.assert_done("list"), "study  127.0.0.1:5001  crlf  16 lines\n")
        self.assertIn("16 of 16 agree", self.assert_done("verify", "study"))
        self.assertIn("bound", self.assert_done("show", "study"))
        self.assertEqual(len(self.assert_done("log", "study").splitlines()), 16)
        last = [json.loads(text) for text in self.assert_done("log", "study", "--last", 2, "--json").splitlines()]
        self.assertEqual([(row["number"], row["line"]) for row in last], [(15, "08"), (16, SEARCH.decode())])
        self.assertEqual(self.assert_done("compact", "study"), "study: 9 lines dropped, 7 kept\n")
        self.assertIn(str(self.data / "removed"), self.assert_done("remove", "study"))
        self.assertEqual(self.assert_done("list"), "")

    def test_what_verify_and_show_find(self) -> None:
        self.add()
        self.take(LINES)
        self.edit("DELETE FROM block")
        verified = self.host("verify", "study")
        self.assertEqual(verified.returncode, FOUND)
        self.assertIn("host: study study: the stored block is not the one after line 15\n", verified.stderr)
        self.assert_complains(self.host("show", "study"), FAILED, "the stored block is not the one after line 15")
        store.database(self.data, "study").write_bytes(b"")
        self.assert_complains(self.host("verify", "study"), FOUND, "study study cannot be used")
        self.assert_complains(self.host("list"), FOUND, "study study cannot be used")

    def test_wrong_use(self) -> None:
        for arguments in ((), ("dance",), ("add", "a"), ("add", "a", "--port", "0"), ("add", "a", "--port", "70000"), ("add", "a", "--port", "1", "--socket", "s"),
                          ("add", "a", "--port", "1", "--bind", "here"), ("log", "a", "--last", "-1"), ("verify",)):
            with self.subTest(arguments):
                self.assert_complains(self.host(*arguments), FAILED, "host.*: error: ")

    def test_what_cannot_be_done(self) -> None:
        self.add()
        cases = {
            ("add", "study", "--port", "5001"): "there is a study study already",
            ("add", "a/b", "--port", "5001"): "a name has",
            ("add", "a", "--port", "5001", "--bind", "0.0.0.0"): "without TLS .* loopback only, not on 0.0.0.0",
            ("add", "a", "--socket", "s" * 200): "at most 107 bytes",
            ("add", "a", "--socket", "s", "--bind", "::1"): "--bind goes with --port",
            ("remove", "b"): "there is no study b",
            ("verify", "b"): "there is no study b",
            ("show", "b"): "there is no study b",
            ("log", "b"): "there is no study b",
            ("compact", "b"): "there is no study b",
        }
        for arguments, reason in cases.items():
            with self.subTest(arguments):
                self.assert_complains(self.host(*arguments), FAILED, f"^host: .*{reason}")

    def test_failures_to_start(self) -> None:
        (self.data / config.FILE).write_text("[host]\nconnections = many\n")
        self.assert_complains(self.host("serve"), FAILED, "host.ini: connections is not a whole number")
        self.data = self.data / "none"
        self.assert_complains(self.host("serve"), FAILED, "there is no data folder .*none")
        self.data = self.data.parent


class Program(DataCase):
    """The program itself, started as a user starts it."""

    def setUp(self) -> None:
        super().setUp()
        self.add()

    def run_bash(self, command: str) -> CompletedProcess[str]:
        return subprocess.run(["bash", "-c", command, support.HOST, self.data], capture_output=True, text=True, cwd="/", timeout=60)

    def test_it_is_found_through_symbolic_links(self) -> None:
        (self.data / "first").symlink_to(support.HOST)
        (self.data / "second").symlink_to("first")
        done = self.run_bash('"$1/second" list --data "$1"')
        self.assertEqual((done.returncode, done.stderr, done.stdout), (DONE, "", f"study  {self.data}/study.socket  0 lines\n"))

    def test_a_missing_library(self) -> None:
        done = self.run_bash('JUNCTION_LIBRARY="$1/none.so" "$0" serve --data "$1"')
        self.assertEqual((done.returncode, done.stderr), (FAILED, f"host: there is no library {self.data}/none.so: hosting/build makes target/host/libjunction.so\n"))

    def test_output_that_cannot_be_written(self) -> None:
        done = self.run_bash('"$0" list --data "$1" >/dev/full')
        self.assertEqual((done.returncode, done.stderr), (FAILED, "host: [Errno 28] No space left on device\n"))
