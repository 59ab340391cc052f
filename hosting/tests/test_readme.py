"""README.md's six commands, from a file to a settled plan, and the three that lead to its page: run as they stand they print, and show, what it says."""

import re
import shutil
import subprocess
import tempfile
import urllib.request
from pathlib import Path

from hosting.tests import running, support
from hosting.tests.running import HostTest

README = (support.ROOT / "README.md").read_text(encoding="utf-8")
SIX = re.compile(r"six commands:\n\n((?:    .*\n)+)\nThe last one prints\n\n((?:    .*\n)+)")
THREE = re.compile(r"Three commands more, .*:\n\n((?:    .*\n)+)\nAt `(.*)` a planner reads '(.*?)'")
PICTURE = re.compile(r"!\[.+\]\((docs/.*\.png)\)")
SERVE, PAGE = "./host serve --data studies &", "./host page --port 8080 --data studies &"
PORT = ":8080/"
PICTURE_BYTES = 120_000


class SixCommands(HostTest):
    def setUp(self) -> None:
        self.folder = Path(tempfile.mkdtemp(prefix="junction-"))
        self.addCleanup(shutil.rmtree, self.folder)
        for name in ("host", "examples"):
            (self.folder / name).symlink_to(support.ROOT / name)

    def test_they_print_what_is_shown(self) -> None:
        found = SIX.search(README)
        assert found is not None
        given, shown = ([line.removeprefix("    ").split("  #")[0].rstrip() for line in text.splitlines()] for text in found.groups())
        self.assertEqual((len(given), given[1]), (6, SERVE))
        printed = ""
        for command in given:
            if command == SERVE:
                self.begin(SERVE, "is served at")
            else:
                printed = self.run_shell(command)
        self.assertEqual(printed.splitlines(), shown)
        self.assert_page_is_shown()

    def assert_page_is_shown(self) -> None:
        """The commands that lead to the page, on the same studies: it says what a planner is said to read."""
        found = THREE.search(README)
        assert found is not None
        *before, page = (line.removeprefix("    ").split("  #")[0].rstrip() for line in found[1].splitlines())
        self.assertEqual((len(before), page), (2, PAGE))
        for command in before:
            self.run_shell(command)
        port = running.free_port()
        self.begin(PAGE.replace("8080", str(port)), f":{port}/")
        with urllib.request.urlopen(found[2].replace(PORT, f":{port}/"), timeout=running.PATIENCE) as answer:
            self.assertIn(found[3], answer.read().decode())

    def test_the_picture_is_there(self) -> None:
        found = PICTURE.search(README)
        assert found is not None
        picture = (support.ROOT / found[1]).read_bytes()
        self.assertEqual(picture[:8], b"\x89PNG\r\n\x1a\n")
        self.assertLess(len(picture), PICTURE_BYTES)

    def run_shell(self, command: str) -> str:
        """What a command prints."""
        command = command.replace("--port 7001", f"--port {running.free_port()}")
        done = subprocess.run(["bash", "-c", command], cwd=self.folder, capture_output=True, text=True, timeout=running.PATIENCE)
        self.assertEqual((done.returncode, done.stderr), (0, ""), command)
        return done.stdout

    def begin(self, command: str, said: str) -> None:
        """A command that goes on, until it has said that it is there. It ends with the test."""
        log = self.folder / f"log-{said.strip(':/')}"
        with open(log, "wb") as error:
            process = subprocess.Popen(command.removesuffix(" &").split(), cwd=self.folder, stderr=error)
        self.addCleanup(process.wait, running.PATIENCE)
        self.addCleanup(process.terminate)
        running.until(lambda: said in log.read_text(), f"'{said}' is said")
