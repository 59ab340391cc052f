"""./serve, over a prover that is a short script: what is built when, and what is run."""

import os
import shutil
import subprocess
import tempfile
import unittest
from pathlib import Path

ROOT = Path(__file__).resolve().parents[2]
TOOLS = "awk bash cat chmod cmp cp cut dirname env find flock ln mkdir mktemp mv readlink rm sh sha256sum sleep sort xargs".split()
SECONDS = 60

# 'Proves' the program: notes the build, makes a program that says the version of its source before each line, and runs it.
PROVER = """#!/bin/sh
set -eu
[ "$*" = run ]
echo build >>"$BUILDS"
mkdir -p out
version=$(cat src/main.rt)
echo "rt: chose --jobs 2 for junction" >&2
[ "$version" != wrong ] || { echo "not proved: wrong" >&2; exit 1; }
printf '#!/bin/sh\\nwhile read -r line; do echo "%s $line"; done\\n' "$version" >out/junction
chmod +x out/junction
out/junction
"""


class Serve(unittest.TestCase):
    """Each test has a checkout of one crate, and a folder of commands that is the whole path."""

    def setUp(self) -> None:
        folder = tempfile.TemporaryDirectory()
        self.addCleanup(folder.cleanup)
        self.folder = Path(folder.name).resolve()
        self.checkout = self.folder / "checkout"
        self.source = self.checkout / "crates/junction/src/main.rt"
        self.source.parent.mkdir(parents=True)
        self.source.write_text("one")
        (self.checkout / "crates.txt").write_text("junction:\n")
        shutil.copy(ROOT / "serve", self.checkout / "serve")
        self.commands = self.folder / "commands"
        self.commands.mkdir()
        for tool in TOOLS:
            found = shutil.which(tool)
            self.assertIsNotNone(found, tool)
            (self.commands / tool).symlink_to(str(found))
        self.add_prover()

    def add_prover(self) -> None:
        prover = self.commands / "rt"
        prover.write_text(PROVER)
        prover.chmod(0o755)

    def remove_prover(self) -> None:
        (self.commands / "rt").unlink()

    def serve(self, *arguments: str, command: Path | None = None) -> subprocess.CompletedProcess[str]:
        environment = {"PATH": str(self.commands), "BUILDS": str(self.folder / "builds")}
        words = [str(command or self.checkout / "serve"), *arguments]
        return subprocess.run(words, input="line\n", env=environment, cwd=self.folder, capture_output=True, text=True, timeout=SECONDS, check=False)

    def assert_answers(self, version: str, builds: int, command: Path | None = None) -> None:
        ran = self.serve(command=command)
        self.assertEqual((ran.returncode, ran.stdout), (0, f"{version} line\n"), ran.stderr)
        self.assertEqual((self.folder / "builds").read_text().count("build"), builds)

    def test_a_current_program_runs_without_the_prover(self) -> None:
        self.assert_answers("one", builds=1)
        self.remove_prover()
        self.assert_answers("one", builds=1)

    def test_time_stamps_do_not_count(self) -> None:
        self.assert_answers("one", builds=1)
        later = self.source.stat().st_mtime + 3600
        os.utime(self.source, (later, later))
        self.assert_answers("one", builds=1)
        self.source.write_text("two")
        os.utime(self.source, (0, 0))
        self.assert_answers("two", builds=2)

    def test_a_new_file_and_a_changed_list_of_crates_count(self) -> None:
        self.assert_answers("one", builds=1)
        (self.source.parent / "more.rt").write_text("")
        self.assert_answers("one", builds=2)
        (self.checkout / "crates.txt").write_text("# the program\njunction:\n")
        self.assert_answers("one", builds=3)

    def test_a_damaged_program_is_built_again(self) -> None:
        self.assert_answers("one", builds=1)
        (self.checkout / "target/junction").write_text("#!/bin/sh\necho damaged\n")
        self.assert_answers("one", builds=2)

    def test_works_through_links(self) -> None:
        (self.folder / "first").symlink_to("checkout/serve")
        (self.folder / "second").symlink_to(self.folder / "first")
        self.assert_answers("one", builds=1, command=self.folder / "second")
        self.assertFalse((self.folder / "target").exists())

    def test_refuses_arguments(self) -> None:
        ran = self.serve("--help")
        self.assertEqual((ran.returncode, ran.stdout), (2, ""))
        self.assertIn("without arguments", ran.stderr)
        self.assertFalse((self.folder / "builds").exists())

    def test_does_not_run_what_is_not_proved(self) -> None:
        self.assert_answers("one", builds=1)
        self.source.write_text("wrong")
        ran = self.serve()
        self.assertEqual((ran.returncode, ran.stdout), (1, ""))
        self.assertIn("not proved: wrong", ran.stderr)

    def test_does_not_run_what_writes_something_else(self) -> None:
        crate = self.checkout / "crates/junction"
        (crate / "stdin").write_text("line\n")
        (crate / "stdout").write_text("two line\n")
        ran = self.serve()
        self.assertEqual((ran.returncode, ran.stdout), (1, ""))
        self.source.write_text("two")
        self.assert_answers("two", builds=2)

    def test_says_that_the_prover_is_missing(self) -> None:
        self.assert_answers("one", builds=1)
        self.remove_prover()
        self.source.write_text("two")
        ran = self.serve()
        self.assertEqual((ran.returncode, ran.stdout), (1, ""))
        self.assertIn("no command 'rt'", ran.stderr)

    def test_builds_without_flock(self) -> None:
        (self.commands / "flock").unlink()
        self.assert_answers("one", builds=1)
        self.assert_answers("one", builds=1)
        self.assertEqual(list((self.checkout / "target").glob("serve.*/")), [])


if __name__ == "__main__":
    unittest.main()
