"""Files of one line: a load, as a save answers it, or clauses; either in the form for train radio too.

What is read is plain. A line of clauses is kept beside the study that it stands for. Written is a load.
"""

from junction import clauses, kinds, lines
from junction.formats.parts import CHOICES, CLAUSES, COST, PAIRS, SCALE_MOST, TRAINS, Mistakes, Read
from junction.kinds import Fields, counted
from junction.study import Choice, Cost, Pair, Study, Train

DIGITS = frozenset("0123456789ABCDEF")


def read(text: str, path: str) -> Read:
    """The study of a file."""
    mistakes = Mistakes(path)
    line, place = _only_line(text, mistakes)
    plain = _plain(line, place, mistakes)
    fields = Located(plain, place, mistakes)
    kind = fields.any(kinds.KIND_WIDTH, "the kind")
    study = _load(fields) if kind == lines.LOAD else _clauses(fields)
    fields.end()
    return Read(study, (), None if kind == lines.LOAD else plain)


def write(study: Study) -> str:
    """A file with the load line of a study."""
    return lines.load(study) + "\n"


class Located:
    """The fields of a plain line from left to right, each judged as it is read. What is wrong is told with the byte at which its field begins."""

    def __init__(self, plain: str, place: str, mistakes: Mistakes) -> None:
        self._fields = Fields(plain.encode("ascii"))
        self._place, self._mistakes = place, mistakes
        self._next = self.begins = 1

    def any(self, width: int, what: str) -> int:
        """A number of any value. Nothing can be read behind one that is cut short."""
        self.begins = self._next
        self._next += width
        try:
            return self._fields.number(width)
        except kinds.CutShort:
            raise self.fail(f"the line ends before {what} is whole") from None

    def literal(self, what: str) -> int:
        """A number in two's complement."""
        width = kinds.LITERAL_WIDTH
        return int.from_bytes(self.any(width, what).to_bytes(width, "big"), "big", signed=True)

    def count(self, width: int, what: str, least: int, most: int) -> int:
        """A number that says how the line goes on, so that nothing can be read behind a wrong one."""
        number = self.any(width, what)
        if not least <= number <= most:
            raise self.fail(f"{what} is {number}, not {least} to {most}")
        return number

    def number(self, width: int, what: str, least: int, most: int) -> int:
        """Any other number."""
        number = self.any(width, what)
        if not least <= number <= most:
            self.wrong(f"{what} is {number}, not {least} to {most}")
        return number

    def cost(self, what: str) -> Cost:
        """A cost of a load."""
        cost = self.any(kinds.COST_WIDTH, what)
        if COST < cost < kinds.FORBIDDEN:
            self.wrong(f"{what} is {cost}, not 0 to {COST}")
        return None if cost == kinds.FORBIDDEN else cost

    def wrong(self, why: str, begins: int | None = None) -> None:
        """A mistake, behind which others can be found."""
        self._mistakes.add(f"{self._place}, byte {begins or self.begins}", None, why)

    def fail(self, why: str) -> AssertionError:
        """A mistake, behind which nothing can be read: this ends the reading."""
        self.wrong(why)
        self._mistakes.end()
        return AssertionError(why)

    def end(self) -> None:
        """The line ends here, and every mistake is told."""
        left = self._fields.left(1)
        if left:
            self.wrong(f"behind the last field {'1 byte is' if left == 1 else f'{left} bytes are'} left over", self._next)
        self._mistakes.end()


def _only_line(text: str, mistakes: Mistakes) -> tuple[str, str]:
    """The one line that the file has, and where it is."""
    found = [(line.strip(), f"line {number}") for number, line in enumerate(text.split("\n"), 1) if line.strip()]
    if not found:
        mistakes.add(None, None, "it has no line")
    for _, place in found[1:]:
        mistakes.add(place, None, "a file of a study has one line")
    mistakes.end()
    return found[0]


def _plain(line: str, place: str, mistakes: Mistakes) -> str:
    """The line in its plain form. It is one of digits by two, of a kind that loads, and its bytes add up where it is one for train radio."""
    wrong = next((at for at, character in enumerate(line, 1) if character not in DIGITS), None)
    if wrong:
        mistakes.add(f"{place}, character {wrong}", None, f"{line[wrong - 1]!r} is none of the digits 0-9 and A-F")
    elif len(line) % 2:
        mistakes.add(place, None, f"it has {counted(len(line), 'digit')}, and a byte has two")
    mistakes.end()
    plain = lines.plain(line)
    kind = lines.kind_of(plain)
    if kind not in (lines.LOAD, lines.CLAUSES):
        mistakes.add(f"{place}, byte 1", None, f"a line of kind {line[:2]} is no load (01) and none of clauses (09), in either form")
    elif plain != line and not Fields(line.encode("ascii")).adds_up():
        mistakes.add(place, None, "its bytes do not add up to 0, modulo 256, as those of a line for train radio do")
    mistakes.end()
    return plain


def _load(fields: Located) -> Study:
    """The study of a load."""
    count = fields.count(kinds.COUNT_WIDTH, "the number of trains", 1, TRAINS)
    scale = fields.number(kinds.SCALE_WIDTH, "the scale", 1, SCALE_MOST)
    sizes = [fields.count(kinds.COUNT_WIDTH, f"the number of choices of train {number}", 1, CHOICES) for number in range(count)]
    trains = tuple(Train(str(number), _choices(fields, number, size)) for number, size in enumerate(sizes))
    pairs: list[Pair] = []
    for number in range(fields.count(kinds.COUNT_WIDTH, "the number of pairs", 0, PAIRS)):
        pairs.append(_pair(fields, number, sizes, (pairs[-1].first, pairs[-1].second) if pairs else None))
    return Study(trains, tuple(pairs), scale)


def _choices(fields: Located, train: int, size: int) -> tuple[Choice, ...]:
    return tuple(Choice(str(number), fields.cost(f"the cost of choice {number} of train {train}")) for number in range(size))


def _pair(fields: Located, number: int, sizes: list[int], last: tuple[int, int] | None) -> Pair:
    """A pair with its entries."""
    both = first, second = fields.any(kinds.COUNT_WIDTH, f"pair {number}"), fields.any(kinds.COUNT_WIDTH, f"pair {number}")
    if first >= second:
        raise fields.fail(f"pair {number} is of trains {first} and {second}, and the lower train stands first")
    if second >= len(sizes):
        raise fields.fail(f"pair {number} is of trains {first} and {second}, and there is no train {second}")
    if last and both <= last:
        raise fields.fail(f"pair {number}, of trains {first} and {second}, stands behind that of trains {last[0]} and {last[1]}, and pairs ascend")
    rows = (tuple(_entry(fields, both, (a, c)) for c in range(sizes[second])) for a in range(sizes[first]))
    return Pair(first, second, tuple(rows))


def _entry(fields: Located, trains: tuple[int, int], choices: tuple[int, int]) -> Cost:
    return fields.cost(f"the cost of choices {choices[0]} and {choices[1]} of trains {trains[0]} and {trains[1]}")


def _clauses(fields: Located) -> Study:
    """The study of a line of clauses."""
    trains = fields.count(kinds.COUNT_WIDTH, "the number of trains", 1, TRAINS)
    scale = fields.number(kinds.SCALE_WIDTH, "the scale", 1, SCALE_MOST)
    costs = clauses.Costs(trains, COST, PAIRS)
    for number in range(fields.count(kinds.CLAUSE_COUNT_WIDTH, "the number of clauses", 0, CLAUSES)):
        _charge(fields, f"clause {number}", trains, costs)
    return costs.study(scale)


def _charge(fields: Located, clause: str, trains: int, costs: clauses.Costs) -> None:
    """A clause, which is charged where it is right."""
    first = fields.literal(clause)
    begins = fields.begins
    second = fields.literal(clause)
    why = _wrong_literals(first, second, trains)
    if why:
        fields.wrong(f"{clause} {why}", begins)
    weight = fields.number(kinds.COST_WIDTH, f"the weight of {clause}", 0, COST)
    if why or weight > COST:
        return
    try:
        costs.charge((first, second) if second else (first,), weight)
    except clauses.Beyond as beyond:
        fields.wrong(f"{clause}: {beyond}", begins)


def _wrong_literals(first: int, second: int, trains: int) -> str | None:
    """Why these are no literals of a clause, if they are none."""
    absent = [literal for literal in (first, second) if abs(literal) > trains]
    if absent:
        return f"has the literal {absent[0]}, in a study of {counted(trains, 'train')}"
    if first == 0:
        return "has 0 as its first literal"
    return f"names train {abs(first) - 1} twice" if abs(first) == abs(second) else None
