"""Solvers: what they are given, what is read of their answers, and what is said where there is none."""

import importlib
import importlib.util
import os
import shutil
import tempfile
import unittest
from pathlib import Path
from unittest import mock

from junction import solvers
from junction.solvers import Glpsol, Highs, NoSolver, Programme, Row, Solver, Unsolved

# The sum of x and y is to be large: x is at most 5 + z and at least z - 95, y at most 4 - z, and x + y at most 8. It is 8, by the last row alone.
PROGRAMME = Programme(2, 4, [Row([(0, 1), (3, -1)], 5, 100), Row([(1, 1), (3, 1)], 4, 100), Row([(0, 1), (1, 1)], 8)])

# By hand, from the description of the format: column 2 stands in no row.
MPS = """\
NAME lift
ROWS
 N sum
 L r0
 L r1
 L r2
COLUMNS
 c0 sum -1
 c0 r0 1
 c0 r2 1
 c1 sum -1
 c1 r1 1
 c1 r2 1
 c3 r0 -1
 c3 r1 1
RHS
 most r0 5
 most r1 4
 most r2 8
RANGES
 depth r0 100
 depth r1 100
BOUNDS
 FR free c0
 FR free c1
 FR free c3
ENDATA
"""

# A solution of glpsol's, by GLPK's description of the format: c 'comment'; s 'solution'; i a row, its state, value and dual; j a column likewise.
SOLUTION = """\
c Problem:    lift
s bas 3 3 f f -8
i 1 b 4.5 0
i 2 b 3.5 0
i 3 u 8 -1
j 1 b 4.25 0
j 2 b 3.75 0
j 3 f -0.25 0
e o f
"""
WITH_SUM = SOLUTION.replace("s bas 3 3", "s bas 4 3").replace("i 3", "i 4").replace("i 2", "i 3").replace("i 1", "i 2").replace("i 2", "i 1 b -8 0\ni 2", 1)


class Files(unittest.TestCase):
    """What glpsol reads and writes."""

    def test_programme(self) -> None:
        self.assertEqual(solvers.mps(PROGRAMME), MPS)

    def test_solution(self) -> None:
        for text in (SOLUTION, WITH_SUM):
            self.assertEqual(solvers.read_solution(PROGRAMME, text), ([4.25, 3.75, 0.0, -0.25], [0.0, 0.0, 1.0]))

    def test_no_solution(self) -> None:
        cut_off = SOLUTION.replace("i 3 u 8 -1\n", "")
        for text in ("", "rubbish\n", cut_off, SOLUTION.replace("f f", "f n"), SOLUTION.replace("f f", "n f"), SOLUTION.replace("u 8 -1", "u 8"),
                     SOLUTION.replace("bas", "ipt"), SOLUTION.replace("j 3", "j 4"), SOLUTION.replace("0.25", "much")):
            with self.assertRaises((ValueError, IndexError), msg=text):
                solvers.read_solution(PROGRAMME, text)


class Found(unittest.TestCase):
    """Which solver is taken."""

    def find(self, glpsol: str | None, scipy: bool) -> Solver:
        there = object() if scipy else None
        with mock.patch.object(shutil, "which", return_value=glpsol), mock.patch.object(importlib.util, "find_spec", return_value=there):
            return solvers.find()

    def test_glpsol_first(self) -> None:
        self.assertEqual(self.find("/usr/bin/glpsol", True).name, "glpsol")

    def test_scipy_else(self) -> None:
        with mock.patch.object(importlib, "import_module"):
            self.assertEqual(self.find(None, True).name, "HiGHS")

    def test_none(self) -> None:
        with self.assertRaises(NoSolver) as raised:
            self.find(None, False)
        self.assertEqual(str(raised.exception), "there is no solver: Debian's package glpk-utils has glpsol, and scipy for this Python has HiGHS")


class Answers(unittest.TestCase):
    """What becomes of an answer."""

    def check(self, solver: Solver) -> None:
        """The optimum is 8. Where it is taken is the solver's choice, but x - z and y + z are within their rows."""
        (x, y, unused, z), duals = solver.solve(PROGRAMME)
        self.assertAlmostEqual(x + y, 8)
        self.assertTrue(-95 <= x - z <= 5 + 1e-9 and -96 <= y + z <= 4 + 1e-9)
        self.assertEqual(unused, 0)
        for dual, expected in zip(duals, (0, 0, 1), strict=True):
            self.assertAlmostEqual(dual, expected)

    def check_depth(self, solver: Solver) -> None:
        """x is at most y + 3, and at least 7 above y: there is nothing between. With 7 below 3 there is, and x + y is as large as a row lets them."""
        solution = solver.solve(Programme(1, 2, [Row([(0, 1), (1, 1)], 10), Row([(1, 1)], 9, 2)]))
        self.assertEqual([round(number, 6) for number in (*solution.values, *solution.duals)], [3, 7, 1, -1])
        with self.assertRaises(Unsolved):
            solver.solve(Programme(1, 2, [Row([(0, 1), (1, 1)], 10)]))

    def test_glpsol(self) -> None:
        command = shutil.which("glpsol")
        if command is None:
            self.skipTest("there is no glpsol: Debian's package glpk-utils has it")
        self.check(Glpsol(command))
        self.check_depth(Glpsol(command))

    def test_highs(self) -> None:
        if importlib.util.find_spec("scipy") is None:
            self.skipTest("this Python has no scipy")
        self.check(Highs())
        self.check_depth(Highs())

    def unsolved(self, script: str) -> str:
        """What is said where glpsol is this script. In it $4 is the file for the solution."""
        with tempfile.TemporaryDirectory() as folder:
            command = Path(folder, "glpsol")
            command.write_text(f"#!/bin/sh\n{script}\n", encoding="ascii")
            command.chmod(0o755)
            with self.assertRaises(Unsolved) as raised:
                Glpsol(str(command)).solve(PROGRAMME)
        return str(raised.exception)

    def test_other_answers(self) -> None:
        said = self.unsolved("echo reading; echo 'PROBLEM HAS NO FEASIBLE SOLUTION'; echo")
        self.assertEqual(said, "glpsol gave no solution: PROBLEM HAS NO FEASIBLE SOLUTION")
        self.assertEqual(self.unsolved("exit 1"), "glpsol gave no solution: it said nothing")
        not_optimal = "glpsol gave no solution: what it wrote is not optimal, or not as GLPK 4.65 and later write it"
        self.assertEqual(self.unsolved('echo "s bas 3 3 f n 0" > "$4"'), not_optimal)
        self.assertEqual(self.unsolved('printf "\\377\\376" > "$4"'), not_optimal)

    def test_no_such_command(self) -> None:
        with self.assertRaises(Unsolved) as raised:
            Glpsol(os.devnull).solve(PROGRAMME)
        self.assertRegex(str(raised.exception), "^glpsol gave no solution: .*Permission denied")


if __name__ == "__main__":
    unittest.main()
