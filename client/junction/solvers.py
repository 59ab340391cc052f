"""Solvers of linear programmes: glpsol, which is a program, and HiGHS, which is part of scipy. The first that is there is taken.

What a solver gives are floating-point numbers. Nothing rests on them: a shift and a certificate are whole numbers, and the service judges both.
"""

import importlib
import importlib.util
import shutil
import subprocess
import tempfile
from collections.abc import Iterable, Sequence
from pathlib import Path
from typing import Any, NamedTuple, Protocol

from junction.errors import Failure

# A solver takes a tenth of a second for a full study. One that takes a minute is taken for stuck.
SECONDS = 60


class NoSolver(Failure):
    """There is none."""

    def __init__(self) -> None:
        super().__init__("there is no solver: Debian's package glpk-utils has glpsol, and scipy for this Python has HiGHS")


class Unsolved(Failure):
    """A solver gave no solution."""

    def __init__(self, name: str, why: str) -> None:
        super().__init__(f"{name} gave no solution: {why}")


class Row(NamedTuple):
    """A sum of columns, each times a number: at most `most`, and, where there is a depth, at least `most` less the depth."""

    terms: Sequence[tuple[int, int]]
    most: int
    depth: int | None = None


class Programme(NamedTuple):
    """What is to be as large as possible is the sum of the first columns. All columns are free."""

    summed: int
    columns: int
    rows: Sequence[Row]


class Solution(NamedTuple):
    """The value of each column, and the dual of each row: above 0 where `most` holds the sum down, below 0 where the depth holds it up."""

    values: list[float]
    duals: list[float]


class Solver(Protocol):
    """What solves a programme."""

    name: str

    def solve(self, programme: Programme) -> Solution:
        """An optimal solution."""
        ...


def find() -> Solver:
    """glpsol, else HiGHS."""
    command = shutil.which("glpsol")
    if command is not None:
        return Glpsol(command)
    if importlib.util.find_spec("scipy") is not None:
        return Highs()
    raise NoSolver()


def used_columns(programme: Programme) -> list[int]:
    """The columns that stand in a row. What the others are does not matter: they are 0."""
    return sorted({column for row in programme.rows for column, _ in row.terms})


class Glpsol:
    """The program glpsol. It reads a programme and writes a solution as files."""

    def __init__(self, command: str) -> None:
        self.name = "glpsol"
        self._command = command

    def solve(self, programme: Programme) -> Solution:
        """An optimal solution."""
        with tempfile.TemporaryDirectory(prefix="junction-") as folder:
            asked, answered = Path(folder, "programme.mps"), Path(folder, "solution")
            asked.write_text(mps(programme), encoding="ascii")
            said = self._run(asked, answered)
            if not answered.exists():
                raise Unsolved(self.name, _last_words(said))
            return self._read(programme, answered.read_text(encoding="ascii", errors="replace"))

    def _run(self, asked: Path, answered: Path) -> str:
        """What glpsol says."""
        command = [self._command, "--freemps", str(asked), "--write", str(answered), "--tmlim", str(SECONDS)]
        try:
            done = subprocess.run(command, stdin=subprocess.DEVNULL, capture_output=True, text=True, errors="replace", timeout=2 * SECONDS, check=False)
        except subprocess.TimeoutExpired:
            raise Unsolved(self.name, f"it did not end within {2 * SECONDS} seconds") from None
        except OSError as error:
            raise Unsolved(self.name, str(error)) from None
        return done.stdout + done.stderr

    def _read(self, programme: Programme, text: str) -> Solution:
        """The solution in a file of glpsol's."""
        try:
            return read_solution(programme, text)
        except (ValueError, IndexError):
            raise Unsolved(self.name, "what it wrote is not optimal, or not as GLPK 4.65 and later write it") from None


def _last_words(said: str) -> str:
    """The last line that says something."""
    lines = [line.strip() for line in said.splitlines() if line.strip()]
    return lines[-1] if lines else "it said nothing"


def mps(programme: Programme) -> str:
    """A programme in the free MPS format, in which what is summed is to be as small as possible: so each of those columns counts -1."""
    rows = programme.rows
    deep = [(number, row.depth) for number, row in enumerate(rows) if row.depth is not None]
    columns = used_columns(programme)
    parts = [
        ["NAME lift", "ROWS", " N sum"],
        (f" L r{number}" for number in range(len(rows))),
        ["COLUMNS"],
        _column_lines(programme, columns),
        ["RHS"],
        (f" most r{number} {row.most}" for number, row in enumerate(rows)),
        ["RANGES"],
        (f" depth r{number} {depth}" for number, depth in deep),
        ["BOUNDS"],
        (f" FR free c{column}" for column in columns),
        ["ENDATA"],
    ]
    return "".join(f"{line}\n" for part in parts for line in part)


def _column_lines(programme: Programme, columns: Iterable[int]) -> list[str]:
    """Where each column stands."""
    places: dict[int, list[str]] = {column: [] for column in columns}
    for column in range(programme.summed):
        places[column].append(f" c{column} sum -1")
    for number, row in enumerate(programme.rows):
        for column, factor in row.terms:
            places[column].append(f" c{column} r{number} {factor}")
    return [line for lines in places.values() for line in lines]


def read_solution(programme: Programme, text: str) -> Solution:
    """The solution in a file of glpsol's. A ValueError or IndexError where it is none, or not optimal."""
    columns = used_columns(programme)
    values, duals, optimal = [0.0] * programme.columns, [], False
    for line in text.splitlines():
        words = line.split()
        match words[:1]:
            case ["s"]:
                optimal = words[1] == "bas" and words[4:6] == ["f", "f"]
            case ["i"]:
                duals.append(-float(words[4]))
            case ["j"]:
                values[columns[int(words[1]) - 1]] = float(words[3])
    # The sum that is to be small is a row before the others in some versions of glpsol.
    before = len(duals) - len(programme.rows)
    if not optimal or before not in (0, 1):
        raise ValueError
    return Solution(values, duals[before:])


class Highs:
    """HiGHS, by scipy."""

    def __init__(self) -> None:
        self.name = "HiGHS"
        self._optimize: Any = importlib.import_module("scipy.optimize")
        self._sparse: Any = importlib.import_module("scipy.sparse")

    def solve(self, programme: Programme) -> Solution:
        """An optimal solution."""
        rows = programme.rows
        deep = [(number, row.most - row.depth) for number, row in enumerate(rows) if row.depth is not None]
        sides = [(row.terms, 1, row.most) for row in rows] + [(rows[number].terms, -1, -least) for number, least in deep]
        places = [(side, column, sign * factor) for side, (terms, sign, _) in enumerate(sides) for column, factor in terms]
        of_side, of_column, factors = zip(*places, strict=True)
        found = self._optimize.linprog(
            [-1.0] * programme.summed + [0.0] * (programme.columns - programme.summed),
            A_ub=self._sparse.coo_matrix((factors, (of_side, of_column)), shape=(len(sides), programme.columns)).tocsr(),
            b_ub=[float(most) for _, _, most in sides],
            bounds=(None, None),
            method="highs-ds",
            options={"time_limit": SECONDS},
        )
        if found.status != 0:
            raise Unsolved(self.name, str(found.message))
        marginals = [float(marginal) for marginal in found.ineqlin.marginals]
        duals = [-marginal for marginal in marginals[:len(rows)]]
        for (number, _), marginal in zip(deep, marginals[len(rows):], strict=True):
            duals[number] += marginal
        return Solution([float(value) for value in found.x], duals)
