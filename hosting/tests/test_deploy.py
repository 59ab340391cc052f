"""deploy/: what is installed where, what is refused, and that the installed host needs nothing of the checkout."""

import hashlib
import os
import shutil
import subprocess
import tempfile
import unittest
import urllib.request
from pathlib import Path

from hosting import library
from hosting.tests import running, support

SECONDS = 60
PROGRAM = "#!/bin/sh\necho program\n"


def run(*words: str | Path) -> subprocess.CompletedProcess[str]:
    environment = {name: value for name, value in os.environ.items() if not name.startswith("JUNCTION_")}
    return subprocess.run([*map(str, words)], env=environment, cwd="/", capture_output=True, text=True, timeout=SECONDS, check=False)


class Checkout:
    """A checkout with the library as built and a short script as program, and a prefix to install it to."""

    def __init__(self, folder: Path) -> None:
        self.root = folder / "checkout"
        self.prefix = folder / "prefix"
        for name in ("client", "deploy", "hosting", "include"):
            shutil.copytree(support.ROOT / name, self.root / name, ignore=shutil.ignore_patterns("__pycache__"))
        for name in ("host", "kit-version"):
            shutil.copy(support.ROOT / name, self.root)
        self.program = self.root / "target/junction"
        self.library = self.root / "target/host/libjunction.so"
        self.library.parent.mkdir(parents=True)
        shutil.copy(library.installed().path, self.library)
        self.program.write_text(PROGRAM)

    def install(self, *arguments: str | Path) -> subprocess.CompletedProcess[str]:
        return run(self.root / "deploy/install", *arguments)

    def in_use(self) -> Path:
        """The folder of the installation that is in use."""
        return (self.prefix / "lib/junction").resolve()


class Installed(unittest.TestCase):
    """One installation, made through a link; its checkout is deleted afterwards."""

    @classmethod
    def setUpClass(cls) -> None:
        folder = tempfile.TemporaryDirectory()
        cls.addClassCleanup(folder.cleanup)
        cls.folder = Path(folder.name).resolve()
        checkout = Checkout(cls.folder)
        cls.prefix = checkout.prefix
        cls.release = run(checkout.root / "deploy/release").stdout
        link = cls.folder / "install"
        link.symlink_to(checkout.root / "deploy/install")
        cls.installing = run(link, cls.prefix)
        shutil.rmtree(checkout.root)
        cls.in_use = checkout.in_use()

    def test_says_the_sums_of_what_is_installed(self) -> None:
        self.assertEqual((self.installing.returncode, self.installing.stderr), (0, ""))
        for name in ("junction", "libjunction.so"):
            self.assertIn(hashlib.sha256((self.in_use / name).read_bytes()).hexdigest(), self.release)
        self.assertTrue(self.installing.stdout.startswith(self.release))

    def test_host_and_program_need_no_checkout(self) -> None:
        host, data = self.prefix / "bin/junction-host", self.folder / "data"
        self.assertEqual(run(host, "add", "north", "--socket", self.folder / "north.sock", "--data", data).stderr, "")
        self.assertIn("nothing is loaded", run(host, "show", "north", "--data", data).stdout)
        self.assertEqual(run(self.prefix / "bin/junction").stdout, "program\n")

    def test_tests_are_not_installed(self) -> None:
        for tests in ("hosting/tests", "client/tests"):
            self.assertFalse((self.in_use / tests).exists())

    def test_all_commands_are_there(self) -> None:
        helping = run(self.prefix / "bin/junction-host", "--help")
        self.assertEqual((helping.returncode, helping.stderr), (0, ""))
        for command in ("serve", "solve", "recheck", "page"):
            self.assertRegex(helping.stdout, rf"\n +{command} ")

    def test_the_page_needs_no_checkout(self) -> None:
        host, data = self.prefix / "bin/junction-host", self.folder / "shown"
        self.assertEqual(run(host, "add", "north", "--port", str(running.free_port()), "--data", data).stderr, "")
        port, log = running.free_port(), self.folder / "page.log"
        with open(log, "wb") as error:
            page = subprocess.Popen([host, "page", "--data", data, "--port", str(port)], stderr=error)
        self.addCleanup(page.wait, SECONDS)
        self.addCleanup(page.terminate)
        running.until(lambda: f"http://127.0.0.1:{port}/" in log.read_text(), "the page is shown")
        for path, said in (("/studies/north", "Nothing loaded"), ("/style.css", "{"), ("/script.js", "EventSource")):
            with urllib.request.urlopen(f"http://127.0.0.1:{port}{path}", timeout=SECONDS) as answer:
                self.assertIn(said, answer.read().decode())

    @unittest.skipUnless(shutil.which("systemd-analyze"), "there is no command systemd-analyze")
    def test_the_units_are_verified(self) -> None:
        for name, starts in (("host", "serve --data /var/lib/junction"), ("page", "page --data /run/junction-page --port 8080")):
            unit = self.in_use / f"junction-{name}.service"
            verifying = run("systemd-analyze", "verify", "--man=no", unit)
            self.assertEqual(verifying.returncode, 0, verifying.stderr)
            self.assertNotIn(f"junction-{name}", verifying.stderr)
            self.assertIn(f"ExecStart={self.prefix}/lib/junction/host {starts}\n", unit.read_text())

    def test_the_page_reads_only(self) -> None:
        host, page = ((self.in_use / f"junction-{name}.service").read_text().splitlines() for name in ("host", "page"))
        self.assertIn("BindReadOnlyPaths=/var/lib/private/junction:/run/junction-page", page)
        for setting in ("StateDirectory", "RuntimeDirectory", "CacheDirectory", "LogsDirectory", "ReadWritePaths", "BindPaths"):
            self.assertFalse([line for line in page if line.startswith(f"{setting}=")])
        hardening = host[host.index("NoNewPrivileges=yes"):]
        self.assertEqual([line for line in hardening if line not in page], ["RestrictAddressFamilies=AF_INET AF_INET6 AF_UNIX"])
        for setting in ("DynamicUser=yes", "User=junction-host"):
            self.assertIn(setting, page)

    def test_commands_run_as_the_service_does(self) -> None:
        unit, command = (self.in_use / name for name in ("junction-host.service", "junction-host-command"))
        for setting in ("DynamicUser=yes", "User=junction-host", "StateDirectory=junction", "StateDirectoryMode=0700", "UMask=0077"):
            self.assertIn(f"\n{setting}\n", unit.read_text())
            self.assertIn(f"--property={setting} ", command.read_text())

    def test_commands_are_handed_to_the_installed_host(self) -> None:
        command, systemd = self.prefix / "bin/junction-host-command", self.folder / "systemd-run"
        systemd.write_text("#!/bin/sh\nprintf '%s\\n' \"$@\"\n")
        systemd.chmod(0o755)
        handed = run("env", f"PATH={self.folder}:{os.environ['PATH']}", command, "show", "two words").stdout.splitlines()
        self.assertEqual(handed[-5:], [f"{self.prefix}/lib/junction/host", "show", "two words", "--data", "/var/lib/junction"])
        self.assertEqual(run(command).returncode, 2)


class Installing(unittest.TestCase):
    def setUp(self) -> None:
        folder = tempfile.TemporaryDirectory()
        self.addCleanup(folder.cleanup)
        self.checkout = Checkout(Path(folder.name).resolve())
        self.prefix = self.checkout.prefix

    def assert_installs(self) -> Path:
        installing = self.checkout.install(self.prefix)
        self.assertEqual((installing.returncode, installing.stderr), (0, ""))
        return self.checkout.in_use()

    def assert_refused(self, status: int, *said: str) -> None:
        installing = self.checkout.install(self.prefix)
        self.assertEqual(installing.returncode, status, installing.stdout)
        for words in said:
            self.assertIn(words, installing.stderr)

    def test_another_program_gets_a_folder_of_its_own(self) -> None:
        first = self.assert_installs()
        self.assertEqual(self.assert_installs(), first)
        self.checkout.program.write_text("#!/bin/sh\necho second\n")
        second = self.assert_installs()
        self.assertNotEqual(second, first)
        self.assertEqual((first / "junction").read_text(), PROGRAM)
        self.assertEqual(set(first.parent.iterdir()), {first, second})

    def test_a_library_of_another_length_replaces_nothing(self) -> None:
        first = self.assert_installs()
        header = self.checkout.root / "include/junction.h"
        header.write_text(header.read_text().replace("JUNCTION_BLOCK_NUMBERS 6", "JUNCTION_BLOCK_NUMBERS 7"))
        self.assert_refused(1, "do not go together")
        self.assertEqual((self.checkout.in_use(), list(first.parent.iterdir())), (first, [first]))

    def test_says_what_is_missing_and_how_it_is_built(self) -> None:
        self.checkout.program.unlink()
        self.checkout.library.unlink()
        self.assert_refused(1, "no target/junction: './serve </dev/null' makes it", "no target/host/libjunction.so: './staticlib' and then 'hosting/build' makes it")
        self.assertFalse(self.prefix.exists())

    def test_refuses_other_arguments(self) -> None:
        for arguments in ((), ("",), (self.prefix, self.prefix)):
            installing = self.checkout.install(*arguments)
            self.assertEqual(installing.returncode, 2)
            self.assertIn("use: deploy/install PREFIX", installing.stderr)


if __name__ == "__main__":
    unittest.main()
