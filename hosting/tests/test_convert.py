"""`convert`: every format into every other, and what it says, writes and leaves alone."""

import contextlib
import io
import itertools
import json
import os
import shutil
import subprocess
import tempfile
import unittest
from pathlib import Path
from subprocess import CompletedProcess
from unittest import mock

from hosting import commands
from hosting.tests import support

DONE, FAILED = 0, 2
PATIENCE = 120

# One study in each format, written by hand: 3 trains of two choices, a choice and a pair of choices are forbidden. It is known by no names but numbers.
NORTH = {
    "csv": """train,choice,with_train,with_choice,cost
0,0,,,4
0,1,,,9
1,0,,,0
1,1,,,0
2,0,,,0
2,1,,,forbidden
0,1,1,0,12
1,0,2,0,forbidden
""",
    "json": """{"format": "junction-study", "version": 1, "scale": 840,
 "trains": [{"name": "0", "choices": [{"name": "0", "cost": 4}, {"name": "1", "cost": 9}]},
            {"name": "1", "choices": [{"name": "0", "cost": 0}, {"name": "1", "cost": 0}]},
            {"name": "2", "choices": [{"name": "0", "cost": 0}, {"name": "1", "cost": null}]}],
 "pairs": [{"trains": [0, 1], "costs": [[0, 0], [12, 0]]}, {"trains": [1, 2], "costs": [[null, 0], [0, 0]]}]}
""",
    "wcsp": """north 3 2 4 100
2 2 2
1 0 0 2
0 4
1 9
1 2 0 1
1 100
2 0 1 0 1
1 0 12
2 1 2 0 1
0 0 100
""",
    "cfn": """{"problem": {"name": "north", "mustbe": "<100"},
 "variables": {"0": ["0", "1"], "1": ["0", "1"], "2": ["0", "1"]},
 "functions": {"f0": {"scope": ["0"], "costs": [4, 9]}, "f2": {"scope": ["2"], "costs": [0, 100]},
               "f01": {"scope": ["0", "1"], "costs": [0, 0, 12, 0]}, "f12": {"scope": ["1", "2"], "costs": [100, 0, 0, 0]}}}
""",
    "wcnf": """p wcnf 3 5 100
4 -1 0
9 1 0
100 3 0
12 1 -2 0
100 -2 -3 0
""",
    "line": "01" "03" "0348" "020202" "000004000009" "000000000000" "000000FFFFFF"
            "02" "0001" "00000000000000000C000000" "0102" "FFFFFF000000000000000000" "\n",
}

# All plans but those that take what is forbidden, worked out by hand: train 2 takes 0, then train 1 takes 1, and train 0 costs 4 or 9.
LEAST = "8601" "%08X" "000000000004" "000100"

NAMED = "train,choice,with_train,with_choice,cost\nRE 5,platform 1,,,0\nRE 5,platform 2,,,3\nS 1,early,,,0\nS 1,late,,,2\nRE 5,platform 2,S 1,late,7\n"
KNOWN = "csv, json, wcsp, cfn, wcnf, line"
THREE = "it has 3 literals, and at most 2 trains cost something together"
NAMES_LEFT_OUT = "host: names of trains and choices have no place in .{} and are left out\n"


class Convert(unittest.TestCase):
    def setUp(self) -> None:
        self.folder = Path(tempfile.mkdtemp(prefix="junction-"))
        self.addCleanup(shutil.rmtree, self.folder)
        for kind, text in NORTH.items():
            self.put(f"north.{kind}", text)

    def put(self, name: str, text: str) -> None:
        """Writes a file."""
        (self.folder / name).write_text(text)

    def text(self, name: str) -> str:
        """What a file says."""
        return (self.folder / name).read_bytes().decode()

    def program(self, *arguments: str, given: str = "") -> CompletedProcess[str]:
        """Runs the program in the folder, without a data folder."""
        environment = {name: value for name, value in os.environ.items() if name != "JUNCTION_DATA"}
        command = [str(support.HOST), "convert", *arguments]
        return subprocess.run(command, cwd=self.folder, env=environment, input=given, capture_output=True, text=True, timeout=PATIENCE, check=False)

    def convert(self, *arguments: str, given: str = "") -> CompletedProcess[str]:
        """Carries out the command in this process, which is faster than to start another."""
        printed, said = io.TextIOWrapper(io.BytesIO(), write_through=True), io.StringIO()
        with (mock.patch("sys.stdin", io.TextIOWrapper(io.BytesIO(given.encode()))), contextlib.chdir(self.folder),
              contextlib.redirect_stdout(printed), contextlib.redirect_stderr(said)):
            try:
                status: object = commands.main(["convert", *arguments])
            except SystemExit as ended:
                status = ended.code
        printed.seek(0)
        assert isinstance(status, int)
        return CompletedProcess(arguments, status, printed.read(), said.getvalue())

    def done(self, *arguments: str, given: str = "", notes: str = "") -> str:
        """The command is done, says nothing but these notes on standard error, and prints what is given back."""
        done = self.convert(*arguments, given=given)
        self.assertEqual((done.returncode, done.stderr), (DONE, notes), arguments)
        return done.stdout

    def failed(self, *arguments: str, given: str = "", said: str) -> None:
        """The command fails, says this on standard error, prints nothing, and leaves the folder as it was."""
        before = {path.name: path.read_bytes() for path in self.folder.iterdir()}
        done = self.convert(*arguments, given=given)
        self.assertEqual((done.returncode, done.stderr, done.stdout), (FAILED, said, ""), arguments)
        self.assertEqual({path.name: path.read_bytes() for path in self.folder.iterdir()}, before)

    def test_every_format_into_every_format(self) -> None:
        written: dict[str, set[str]] = {kind: set() for kind in NORTH}
        for source, target in itertools.product(NORTH, NORTH):
            with self.subTest(source=source, target=target):
                done = self.program(f"north.{source}", f"to.{target}")
                self.assertEqual((done.returncode, done.stderr, done.stdout), (DONE, "", f"to.{target}: 3 trains, 2 pairs, scale 840\n"))
                written[target].add(self.text(f"to.{target}"))
        for target, texts in written.items():
            with self.subTest(target=target):
                self.assertEqual(len(texts), 1)
                self.put(f"again.{target}", texts.pop())
                self.assertEqual(self.done(f"again.{target}", "-", "--to", "line"), NORTH["line"])

    def test_the_reference_finds_the_least_cost_of_each_file(self) -> None:
        for kind in NORTH:
            with self.subTest(kind=kind):
                load = self.convert(f"north.{kind}", "-", "--to", "line").stdout.strip().encode()
                found = support.reference([load, b"06000003E8"])[1].decode()
                self.assertEqual(found, LEAST % int(found[4:12], 16))

    def test_the_program_with_standard_input_and_output(self) -> None:
        done = self.program("-", "-", "--from", "csv", "--to", "line", "--scale", "840", given=NORTH["csv"])
        self.assertEqual((done.returncode, done.stdout, done.stderr), (DONE, NORTH["line"], ""))
        done = self.program("-", "to.csv", "--from", "wcnf", given="3 1 2 3 0\nx 1 0\n")
        said = f"host: standard input, line 1: {THREE}\nhost: standard input, line 2, word 1: the weight of a clause is a whole number, not 'x'\n"
        self.assertEqual((done.returncode, done.stdout, done.stderr), (FAILED, "", said))

    def test_standard_input_and_output(self) -> None:
        self.assertEqual(self.done("-", "-", "--from", "csv", "--to", "line", given=NORTH["csv"]), NORTH["line"])
        self.assertEqual(self.done("-", "to.line", "--from", "wcnf", given=NORTH["wcnf"]), "to.line: 3 trains, 2 pairs, scale 840\n")
        self.assertEqual(self.done("to.line", "-", "--to", ".LINE"), NORTH["line"])
        self.failed("-", "-", "--to", "line", given=NORTH["csv"], said=f"host: standard input: its format is given by --from: {KNOWN}\n")
        self.failed("north.csv", "-", said=f"host: standard output: its format is given by --to: {KNOWN}\n")
        self.failed("-", "to.line", "--from", "wcnf", given="3 1 2 3 0\n", said=f"host: standard input, line 1: {THREE}\n")

    def test_formats_are_told_by_suffix_or_by_option(self) -> None:
        self.put("north.txt", NORTH["csv"])
        self.assertEqual(self.done("north.txt", "to.txt", "--from", "csv", "--to", "line"), "to.txt: 3 trains, 2 pairs, scale 840\n")
        self.assertEqual(self.text("to.txt"), NORTH["line"])
        self.failed("north.txt", "to.line", said=f"host: north.txt: the suffix '.txt' is no format's; --from gives the format: {KNOWN}\n")
        self.failed("north.csv", "line", said=f"host: line: it has no suffix; --to gives the format: {KNOWN}\n")
        self.failed("north.csv", "to.csv", "--from", "xml", said=f"host: north.csv: there is no format 'xml'; there are {KNOWN}\n")

    def test_scales(self) -> None:
        self.done("north.csv", "to.line", "--scale", "12")
        self.assertEqual(self.text("to.line"), NORTH["line"].replace("0348", "000C", 1))
        self.done("to.line", "to.json")
        self.assertEqual(json.loads(self.text("to.json"))["scale"], 12)
        self.assertEqual(self.done("to.json", "to.json", "--scale", "1000"), "to.json: 3 trains, 2 pairs, scale 1000\n")
        self.assertEqual(json.loads(self.text("to.json"))["scale"], 1000)
        self.done("to.json", "to.wcnf", notes="host: the scale, 1000, has no place in .wcnf and is left out\n")
        self.assertEqual(self.done("to.wcnf", "-", "--to", "line"), NORTH["line"])
        for scale in "0", "1001", "-1", "x", "1.5", "":
            done = self.convert("north.csv", "more.line", f"--scale={scale}")
            said = f"host convert: error: argument --scale: not a scale from 1 to 1000: {scale}"
            self.assertEqual((done.returncode, done.stderr.splitlines()[-1]), (FAILED, said))
        self.assertFalse((self.folder / "more.line").exists())

    def test_clauses_become_their_line(self) -> None:
        self.put("soft.wcnf", "7 1 -2 0\n5 2 0\n")
        self.done("soft.wcnf", "soft.line")
        self.assertEqual(self.text("soft.line"), "09" "02" "0348" "0002" "01FE000007" "0200000005" "\n")
        self.done("soft.line", "other.line", "--scale", "12")
        self.assertEqual(self.text("other.line"), "09" "02" "000C" "0002" "01FE000007" "0200000005" "\n")
        # In any other format they are the study that they stand for.
        self.done("soft.line", "soft.csv")
        load = "01" "02" "0348" "0202" "000000000000" "000000000005" "01" "0001" "000000000000000007000000" "\n"
        self.assertEqual(self.done("soft.csv", "-", "--to", "line"), load)

    def test_notes(self) -> None:
        self.put("named.csv", NAMED)
        for kind in "wcsp", "wcnf", "line":
            self.done("named.csv", f"to.{kind}", notes=NAMES_LEFT_OUT.format(kind))
        self.put("met.wcnf", "7 1 -1 0\n5 2 0\n")
        self.done("met.wcnf", "to.json", notes="host: met.wcnf, line 1: this clause is always met, and is left out\n")

    def test_names_are_kept_where_they_have_a_place(self) -> None:
        self.put("named.csv", NAMED)
        self.done("named.csv", "named.json")
        self.done("named.json", "again.csv")
        self.assertEqual(self.text("again.csv"), NAMED)

    def test_as_json(self) -> None:
        expected = {"in": "north.csv", "out": "to.wcnf", "from": "csv", "to": "wcnf", "trains": 3, "sizes": [2, 2, 2], "pairs": 2, "scale": 12}
        left_out = "the scale, 12, has no place in .wcnf and is left out"
        printed = self.done("north.csv", "to.wcnf", "--scale", "12", "--json", notes=f"host: {left_out}\n")
        self.assertEqual(json.loads(printed), {**expected, "notes": [left_out]})
        said = "host: standard output: with --json the object is printed there, so that the study needs a file of its own\n"
        self.failed("north.csv", "-", "--to", "line", "--json", said=said)

    def test_what_does_not_fit_is_told_and_nothing_is_written(self) -> None:
        self.put("to.line", "as it was\n")
        self.put("wrong.csv", NAMED + "RE 5,platfrom 2,S 1,early,1\nS 1,late,RE 5,platform 1,many\nS 1,late,RE 5,platform 2,8\n")
        self.failed("wrong.csv", "to.line", said="host: wrong.csv, row 7, column choice: train RE 5 has no choice 'platfrom 2'\n"
                    "host: wrong.csv, row 8, column cost: 'many' is no cost: costs are from 0 to 1000000, or forbidden\n"
                    "host: wrong.csv, row 9: this cost is given in row 6 too\n")
        self.put("wrong.wcnf", "3 1 2 3 0\n" * 30)
        self.failed("wrong.wcnf", "to.line", said="".join(f"host: wrong.wcnf, line {number}: {THREE}\n" for number in range(1, 21)))
        self.put("wrong.line", "04\n")
        said = "host: wrong.line, line 1, byte 1: a line of kind 04 is no load (01) and none of clauses (09), in either form\n"
        self.failed("wrong.line", "new.csv", said=said)
        self.put("wide.csv", NAMED + "S 1,never,,,2\n")
        self.failed("wide.csv", "new.wcnf", said="host: the study, train S 1: it has 3 choices, and a variable of .wcnf has two values\n")

    def test_files_that_cannot_be_read_or_written(self) -> None:
        self.failed("none.csv", "to.line", said="host: none.csv: it cannot be read: No such file or directory\n")
        done = self.convert("north.csv", "none/to.line")
        self.assertEqual((done.returncode, done.stdout), (FAILED, ""))
        self.assertRegex(done.stderr, r"^host: .*No such file or directory.*\n$")

    def test_wrong_use(self) -> None:
        for arguments in ((), ("north.csv",), ("north.csv", "to.line", "more"), ("north.csv", "to.line", "--data", ".")):
            done = self.convert(*arguments)
            self.assertEqual(done.returncode, FAILED)
            self.assertRegex(done.stderr, "^usage: host.*\n(.*\n)*host.*: error: ")
