"""MaxSAT files: with a header `p wcnf`, and in the form of 2022, where `h` marks what is hard.

A variable is a train of two choices, and literal k is choice 0 of train k - 1, as in a line of clauses (kind 09). toulbar2 has it the other way round: its
value 0 is the literal -k. A file of soft clauses alone becomes that line where it is within its limits, else a load with what is hard forbidden.
"""

from typing import NamedTuple

from junction import clauses, lines
from junction.formats.parts import CLAUSES, COST, PAIRS, STUDY, TRAINS, Mistakes, Read
from junction.kinds import counted
from junction.study import SCALE, Cost, Study

HARD = "h"
COMMENT = "c"
HEADER = ("p", "wcnf")
HEADER_WORDS = 5
LITERALS = 2
# More digits than any number of such a file has.
LONGEST_NUMBER = 30


class Row(NamedTuple):
    """A line of the file that is no comment, as words, counted from 1."""

    line: int
    words: list[str]

    def place(self, word: int | None = None) -> str:
        """Where the line is, or one of its words."""
        return f"line {self.line}" + ("" if word is None else f", word {word}")


class Header(NamedTuple):
    """What a header says: how many variables and clauses there are, and the weight from which a clause is hard, where one is given."""

    row: Row
    variables: int
    clauses: int
    top: int | None


class Clause(NamedTuple):
    """A clause with its literals, each of them once. Without a weight it is hard."""

    row: Row
    literals: tuple[int, ...]
    weight: Cost


class Wrong(Exception):
    """A line that is not as it should be: at which word, and why."""

    def __init__(self, word: int | None, why: str) -> None:
        super().__init__(why)
        self.word, self.why = word, why


def read(text: str, path: str) -> Read:
    """The study of a file. Its scale is the usual one, since a file has none."""
    mistakes = Mistakes(path)
    rows = _rows(text)
    header = _header(rows, mistakes)
    found = _clauses(rows[1:] if header else rows, header, mistakes)
    mistakes.end()
    trains = header.variables if header else max((abs(literal) for clause in found for literal in clause.literals), default=0)
    if trains == 0:
        mistakes.add(None, None, "it names no variable, and a study has at least one train")
    mistakes.end()
    kept, notes = _kept(found)
    study = _study(trains, kept, mistakes)
    line, more = _line(trains, kept)
    return Read(study, tuple(f"{path}, {note}" for note in notes + more), line)


def write(study: Study) -> str:
    """A file with a header, whose top is above the cost of every plan. A pair whose entries are all 0 is kept by a clause of weight 0."""
    _judge(study)
    top = 1 + sum(max(choice.cost or 0 for choice in train.choices) for train in study.trains)
    top += sum(max(cost or 0 for row in pair.costs for cost in row) for pair in study.pairs)
    found = [*_choice_clauses(study), *_pair_clauses(study)]
    rows = [f"{top if weight is None else weight} {' '.join(map(str, literals))} 0\n" for literals, weight in found]
    return f"p wcnf {len(study.trains)} {len(rows)} {top}\n" + "".join(rows)


def _rows(text: str) -> list[Row]:
    """The lines with words, without the comments."""
    rows = (Row(number, line.split()) for number, line in enumerate(text.split("\n"), 1))
    return [row for row in rows if row.words and not row.words[0].startswith(COMMENT)]


def _header(rows: list[Row], mistakes: Mistakes) -> Header | None:
    """The header, where the first line is one."""
    if not rows or rows[0].words[0] != HEADER[0]:
        return None
    try:
        return _read_header(rows[0])
    except Wrong as wrong:
        # How many variables there are, and what is hard, is not known: the clauses cannot be judged.
        mistakes.add(rows[0].place(wrong.word), None, wrong.why)
        mistakes.end()
        raise


def _read_header(row: Row) -> Header:
    words = row.words
    if words[1:2] != [HEADER[1]]:
        raise Wrong(2 if words[1:] else None, f"this is a file of {words[1]}, and not of wcnf" if words[1:] else "the header ends early")
    if len(words) not in (HEADER_WORDS - 1, HEADER_WORDS):
        raise Wrong(None, "a header is 'p wcnf', the number of variables, the number of clauses and, where some are hard, the top")
    variables, count, *top = (_number(word, at, what) for at, (word, what) in enumerate(zip(words[2:], ("number of variables", "number of clauses", "top")), 3))
    if variables > TRAINS:
        raise Wrong(3, f"{variables} variables are as many trains, and {TRAINS} are the most")
    if top == [0]:
        raise Wrong(HEADER_WORDS, "with a top of 0 every clause is hard")
    return Header(row, variables, count, top[0] if top else None)


def _number(word: str, at: int, what: str) -> int:
    """A whole number that is not below 0."""
    if not (word.isascii() and word.isdecimal() and len(word) <= LONGEST_NUMBER):
        raise Wrong(at, f"the {what} is a whole number, not {word[:LONGEST_NUMBER]!r}")
    return int(word)


def _clauses(rows: list[Row], header: Header | None, mistakes: Mistakes) -> list[Clause]:
    """The clauses, a line each."""
    if header and header.clauses != len(rows):
        there = f"{'is' if len(rows) == 1 else 'are'} {counted(len(rows), 'line')}"
        mistakes.add(header.row.place(4), None, f"the header says {counted(header.clauses, 'clause')}, and behind it {there}")
    found = []
    for row in rows:
        try:
            found.append(_read_clause(row, header))
        except Wrong as wrong:
            mistakes.add(row.place(wrong.word), None, wrong.why)
    return found


def _read_clause(row: Row, header: Header | None) -> Clause:
    if row.words[0] == HEADER[0]:
        raise Wrong(None, "a header stands before all clauses, and once")
    weight = _weight(row.words[0], header)
    if len(row.words) == 1 or row.words[-1] != "0":
        raise Wrong(None, "a clause ends in 0, on its line")
    literals = tuple(dict.fromkeys(_literal(word, at, header) for at, word in enumerate(row.words[1:-1], 2)))
    if len(literals) > LITERALS:
        raise Wrong(None, f"it has {len(literals)} literals, and at most {LITERALS} trains cost something together")
    return Clause(row, literals, weight)


def _weight(word: str, header: Header | None) -> Cost:
    """What a clause costs, or nothing where it is hard."""
    if word == HARD:
        if header:
            raise Wrong(1, "where there is a header, its top says which clauses are hard, and not 'h'")
        return None
    weight = _number(word, 1, "weight of a clause")
    if header and header.top is not None and weight >= header.top:
        return None
    if weight > COST:
        raise Wrong(1, f"the weight of a clause is {weight}, and {COST} is the most")
    return weight


def _literal(word: str, at: int, header: Header | None) -> int:
    variable = _number(word.removeprefix("-"), at, "variable of a literal")
    if variable == 0:
        raise Wrong(at, "0 ends a clause, and more stands behind it")
    if header and variable > header.variables:
        raise Wrong(at, f"this is variable {variable}, and the header says {counted(header.variables, 'variable')}")
    if variable > TRAINS:
        raise Wrong(at, f"this is variable {variable}, a train each, and {TRAINS} are the most")
    return -variable if word.startswith("-") else variable


def _kept(found: list[Clause]) -> tuple[list[Clause], list[str]]:
    """The clauses as a line can have them: one that is always met is left out, and one without literals becomes two, of which each plan fails one."""
    kept: list[Clause] = []
    notes = []
    for clause in found:
        if len(clause.literals) == LITERALS and sum(clause.literals) == 0:
            notes.append(f"{clause.row.place()}: this clause is always met, and is left out")
        elif not clause.literals:
            kept += [clause._replace(literals=(1,)), clause._replace(literals=(-1,))]
        else:
            kept.append(clause)
    return kept, notes


def _study(trains: int, kept: list[Clause], mistakes: Mistakes) -> Study:
    """The study that the clauses stand for."""
    costs = clauses.Costs(trains, COST, PAIRS)
    for clause in kept:
        try:
            costs.charge(clause.literals, clause.weight)
        except clauses.Beyond as beyond:
            mistakes.add(clause.row.place(), None, str(beyond))
    mistakes.end()
    return costs.study(SCALE)


def _line(trains: int, kept: list[Clause]) -> tuple[str | None, list[str]]:
    """The line of clauses, where all are soft and there are no more than it holds."""
    soft = [_soft(clause.literals, clause.weight) for clause in kept if clause.weight is not None]
    if len(soft) < len(kept):
        return None, []
    if len(soft) > CLAUSES:
        return None, [f"{kept[CLAUSES].row.place()}: a line of clauses has at most {CLAUSES}, which end before this one, so the file becomes a load"]
    return lines.clauses(trains, SCALE, soft), []


def _soft(literals: tuple[int, ...], weight: int) -> lines.Clause:
    first, *second = literals
    return first, second[0] if second else 0, weight


def _judge(study: Study) -> None:
    """A variable has two values."""
    mistakes = Mistakes(STUDY)
    for train in study.trains:
        if len(train.choices) != clauses.SIZE:
            mistakes.add(f"train {train.name}", None, f"it has {counted(len(train.choices), 'choice')}, and a variable of .wcnf has two values")
    mistakes.end()


def _choice_clauses(study: Study) -> list[tuple[list[int], Cost]]:
    """A clause for each choice that costs something or is forbidden."""
    costs = [([clauses.literal(number, at)], choice.cost) for number, train in enumerate(study.trains) for at, choice in enumerate(train.choices)]
    return [(literals, cost) for literals, cost in costs if cost != 0]


def _pair_clauses(study: Study) -> list[tuple[list[int], Cost]]:
    """The same of pairs, and of a pair that costs nothing one clause all the same."""
    found: list[tuple[list[int], Cost]] = []
    for pair in study.pairs:
        entries = [(a, c, cost) for a, row in enumerate(pair.costs) for c, cost in enumerate(row)]
        told = [entry for entry in entries if entry[2] != 0] or entries[:1]
        found += [([clauses.literal(pair.first, a), clauses.literal(pair.second, c)], cost) for a, c, cost in told]
    return found
