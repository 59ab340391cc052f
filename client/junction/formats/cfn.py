"""Cost function networks (.cfn): names for trains and choices, and decimal costs.

The form is JSON's, more freely: commas, colons and the quotation marks of names may be missing, braces and brackets stand for one another, tags may be left
out, and a line that begins with # is a comment. toulbar2 writes names without quotation marks, which is no JSON. What is written here is JSON, and toulbar2
reads it: it takes no name that has blanks or begins with a digit, so that such names are changed.
"""

import itertools
import json
import re
from collections.abc import Iterable, Sequence
from dataclasses import dataclass, field
from fractions import Fraction
from typing import NamedTuple

from junction.formats.parts import CHOICES, TRAINS, Read, beyond
from junction.formats.sums import TOGETHER, Choices, Faults, Function, Names, Place, Sums, Term, Wrong, greatest, shown
from junction.kinds import counted
from junction.study import Cost, Study, Train

NAME = "junction"
TOKEN = re.compile(r'"(?:[^"\\]|\\.)*"|[{}\[\]]|[^\s,:"{}\[\]]+|"')
CLOSING = {"{": "}", "[": "]"}
COMMENT = "#"
NUMBER = re.compile(r"[+-]?(?:[0-9]+\.?[0-9]*|\.[0-9]+)")
WHOLE = re.compile(r"[0-9]+")
# More characters than any number of such a file has.
LONGEST_NUMBER = 100

# What stands in no name that toulbar2 reads, and how none begins.
IN_NO_NAME = re.compile(r'[\s\x00-\x1f\x7f,:"{}\[\]/#\\]')
BEGINS_NO_NAME = re.compile(r"[0-9.+-]|$")
INSTEAD = "_"


@dataclass(frozen=True)
class Word:
    """A word, and where it stands."""

    text: str
    place: Place
    quoted: bool = False


@dataclass(frozen=True)
class Items:
    """What stands between brackets, with the places of the word before them and of the last word before their end."""

    nodes: "list[Word | Items]"
    place: Place
    last: Place


Node = Word | Items


class Reading:
    """What stands between brackets, from left to right."""

    def __init__(self, items: Items) -> None:
        self._nodes, self._at = items.nodes, 0
        self._last = items.place

    def left(self) -> Node | None:
        """What comes next; it stays the next."""
        return self._nodes[self._at] if self._at < len(self._nodes) else None

    def take(self, what: str) -> Node:
        """What comes next."""
        node = self.left()
        if node is None:
            raise Wrong(self._last, f"behind this should stand {what}")
        self._at += 1
        self._last = node.place if isinstance(node, Word) else node.last
        return node

    def tag(self, *names: str) -> str | None:
        """The tag that comes next, if it is one of these. It is then passed."""
        node = self.left()
        if not isinstance(node, Word) or node.text not in names:
            return None
        self.take(node.text)
        return node.text

    def word(self, what: str) -> Word:
        """The word that comes next."""
        node = self.take(what)
        if isinstance(node, Items):
            raise Wrong(node.place, f"behind this stand brackets, and not {what}")
        return node

    def items(self, what: str) -> Items:
        """The brackets that come next."""
        node = self.take(what)
        if isinstance(node, Word):
            raise Wrong(node.place, f"{what} stand in brackets, and not {node.text!r}")
        return node

    def end(self) -> None:
        """That nothing comes next."""
        node = self.left()
        if node is not None:
            raise Wrong(node.place, f"{node.text!r} is not known here" if isinstance(node, Word) else "these brackets are not known here")


def read(text: str, path: str) -> Read:
    """The study of a file."""
    faults = Faults(path)
    try:
        whole = Reading(_only_items(text))
        whole.tag("problem")
        top = _top(Reading(whole.items("the properties of the problem")))
        whole.tag("variables")
        sums = Sums(_variables(Reading(whole.items("the variables")), faults), faults)
        faults.end()
        whole.tag("functions")
        Functions(sums).read(Reading(whole.items("the functions")))
        whole.end()
    except Wrong as wrong:
        faults.add(wrong.place, wrong.why)
        faults.end()
    study, factor, reaches_top = sums.study(top)
    notes = []
    if factor > 1:
        notes.append(f"{path}: costs are multiplied by {factor}, so that all of them are whole")
    if reaches_top and top is not None:
        notes.append(f"{path}: plans that cost {shown(top)} or more are none there, by mustbe; this is not kept")
    return Read(study, tuple(notes))


def write(study: Study) -> str:
    """A file whose mustbe is above the cost of every plan. Where all trains have their numbers as names, they are given without names."""
    top = greatest(study) + 1
    trains = _readable(train.name for train in study.trains)
    unnamed = _numbered(train.name for train in study.trains)
    rows = [_choices_text(train) if unnamed else f"{_text(name)}: {_choices_text(train)}" for name, train in zip(trains, study.trains, strict=True)]
    scope: Sequence[int] | Sequence[str] = range(len(trains)) if unnamed else trains
    functions = [_function([number], scope, [choice.cost for choice in train.choices], top)
                 for number, train in enumerate(study.trains) if any(choice.cost != 0 for choice in train.choices)]
    functions += [_function([pair.first, pair.second], scope, list(itertools.chain(*pair.costs)), top) for pair in study.pairs]
    problem = f'{{"name": {_text(NAME)}, "mustbe": "<{top}"}}'
    variables = _between("[" if unnamed else "{", rows, "]" if unnamed else "}")
    return f'{{"problem": {problem},\n"variables": {variables},\n"functions": {_between("{", functions, "}")}}}\n'


def notes(study: Study) -> tuple[str, ...]:
    """What is said of the names that a file does not keep."""
    changed: list[tuple[str, str]] = []
    for names in [train.name for train in study.trains], *([choice.name for choice in train.choices] for train in study.trains):
        if not _numbered(names):
            changed += [(before, after) for before, after in zip(names, _readable(names), strict=True) if before != after]
    if not changed:
        return ()
    before, after = changed[0]
    told = f"{counted(len(changed), 'name')} changed, the first from {before!r} to {after!r}"
    return (f"toulbar2 reads no names in .cfn that have blanks or begin with a digit: {told}",)


def _between(opening: str, rows: list[str], closing: str) -> str:
    """Rows, a line each, between brackets."""
    return opening + ",".join(f"\n{row}" for row in rows) + f"\n{closing}"


def _text(text: str) -> str:
    return json.dumps(text, ensure_ascii=False)


def _readable(names: Iterable[str]) -> list[str]:
    """Names that toulbar2 reads, each of them different; those that it reads as they are stay so."""
    names = list(names)
    kept = {name for name in names if _plain(name) == name}
    found: list[str] = []
    for name in names:
        plain = _plain(name)
        while plain in found or plain in kept - {name}:
            plain += INSTEAD
        found.append(plain)
    return found


def _plain(name: str) -> str:
    """A name without what toulbar2 reads in none."""
    name = IN_NO_NAME.sub(INSTEAD, name)
    return INSTEAD + name if BEGINS_NO_NAME.match(name) else name


def _numbered(names: Iterable[str]) -> bool:
    """Whether all names are the numbers of what they name."""
    return all(name == str(number) for number, name in enumerate(names))


def _choices_text(train: Train) -> str:
    names = [choice.name for choice in train.choices]
    return str(len(names)) if _numbered(names) else f"[{', '.join(map(_text, _readable(names)))}]"


def _function(numbers: list[int], scope: Sequence[int] | Sequence[str], costs: list[Cost], top: int) -> str:
    name = "_".join(map(str, ["f", *numbers]))
    trains = ", ".join(json.dumps(scope[number], ensure_ascii=False) for number in numbers)
    return f'"{name}": {{"scope": [{trains}], "costs": [{", ".join(str(top if cost is None else cost) for cost in costs)}]}}'


def _only_items(text: str) -> Items:
    """The brackets that the whole file is."""
    nodes = _nodes(text)
    if not nodes:
        raise Wrong(Place(1, 1), "the file is empty")
    whole, *more = nodes
    if isinstance(whole, Word):
        raise Wrong(whole.place, f"a file begins with a bracket, and not with {whole.text!r}")
    if more:
        raise Wrong(more[0].place, "behind the last bracket stands more")
    return whole


def _nodes(text: str) -> list[Node]:
    """The words and brackets of a file."""
    place = Place(1, 1)
    nodes: list[Node] = []
    around: list[tuple[str, list[Node], Place]] = []
    for number, line in enumerate(text.split("\n"), 1):
        words = 0
        for token in TOKEN.findall("" if line.startswith(COMMENT) else line):
            if token in CLOSING:
                around.append((token, nodes, place))
                nodes = []
            elif token in CLOSING.values():
                if not around or CLOSING[around[-1][0]] != token:
                    raise Wrong(place, f"behind this stands {token!r}, which closes no bracket")
                _, outer, begin = around.pop()
                outer.append(Items(nodes, begin, place))
                nodes = outer
            else:
                words += 1
                place = Place(number, words)
                nodes.append(_word(token, place))
    if around:
        raise Wrong(place, f"the file ends here, with {counted(len(around), 'bracket')} not closed")
    return nodes


def _word(token: str, place: Place) -> Word:
    if not token.startswith('"'):
        return Word(token, place)
    try:
        return Word(str(json.loads(token, strict=False)), place, quoted=True)
    except ValueError:
        raise Wrong(place, "a quotation mark is not closed on its line, or a \\ stands before a character that needs none") from None


def _top(properties: Reading) -> Fraction | None:
    """The cost from which a file takes no plan."""
    properties.tag("name")
    properties.word("the name of the problem")
    properties.tag("mustbe")
    if properties.left() is None:
        return None
    word = properties.word("mustbe")
    properties.end()
    if word.text.startswith(">"):
        raise Wrong(word.place, "mustbe begins with >, which asks for the plan that costs most; here plans cost as little as they can")
    if not word.text.startswith("<") or not NUMBER.fullmatch(word.text[1:]) or len(word.text) > LONGEST_NUMBER:
        raise Wrong(word.place, f"mustbe is < and a number, not {word.text[:LONGEST_NUMBER]!r}")
    top = Fraction(word.text[1:])
    if top <= 0:
        raise Wrong(word.place, f"a mustbe of {word.text} forbids every cost")
    return top


def _variables(variables: Reading, faults: Faults) -> list[Names]:
    """The trains with their choices."""
    found: list[Names] = []
    while (node := variables.left()) is not None:
        if len(found) == TRAINS:
            raise Wrong(node.place, beyond("train", TRAINS))
        name = str(len(found))
        if isinstance(node, Word) and (node.quoted or not WHOLE.fullmatch(node.text.removeprefix("-"))):
            name = variables.word("the name of a train").text
            if any(name == before.train for before in found):
                faults.add(node.place, f"the name {name!r} stands twice")
        found.append(Names(name, _choices(name, variables.take(f"the choices of train {name}"), faults)))
    if not found:
        raise Wrong(Place(1, 1), "there is no train, and a study has at least one")
    return found


def _choices(train: str, node: Node, faults: Faults) -> list[str]:
    """The names of a train's choices, or their numbers where only their count is given."""
    if isinstance(node, Word):
        return [str(number) for number in range(_size(train, node, faults))]
    names: list[str] = []
    reading = Reading(node)
    while reading.left() is not None:
        word = reading.word("the name of a choice")
        if word.text in names:
            faults.add(word.place, f"the name {word.text!r} stands twice")
        if len(names) == CHOICES:
            faults.add(word.place, beyond(f"choice of train {train}", CHOICES))
        names.append(word.text)
    if not names:
        faults.add(node.place, f"train {train} has no choice")
    return names


def _size(train: str, word: Word, faults: Faults) -> int:
    if WHOLE.fullmatch(word.text) and len(word.text) < LONGEST_NUMBER and 1 <= int(word.text) <= CHOICES:
        return int(word.text)
    if WHOLE.fullmatch(word.text.removeprefix("-")):
        faults.add(word.place, f"train {train} has {word.text[:LONGEST_NUMBER]} choices, and 1 to {CHOICES} can be")
    else:
        faults.add(word.place, f"the choices of train {train} are their names in brackets or their number, not {word.text[:LONGEST_NUMBER]!r}")
    return 1


class Shared(NamedTuple):
    """A function that has the costs of another, which is named."""

    scope: tuple[int, ...]
    place: Place
    other: Word


@dataclass
class Functions:
    """The functions of a file, which are read one after the other."""

    sums: Sums
    _by_name: dict[str, Function] = field(default_factory=dict)
    _shared: list[Shared] = field(default_factory=list)

    def read(self, functions: Reading) -> None:
        """All of them. Behind a mistake in one the next is read."""
        while (node := functions.left()) is not None:
            name = functions.word("the name of a function").text if isinstance(node, Word) else None
            items = functions.items("a function's scope and costs")
            try:
                self._function(name, Reading(items))
            except Wrong as wrong:
                self.sums.faults.add(wrong.place, wrong.why)
        for shared in self._shared:
            self._add_shared(shared)

    def _function(self, name: str | None, function: Reading) -> None:
        function.tag("scope")
        scope_items = function.items("the trains of a function")
        scope = self._scope(scope_items)
        if function.tag("type") is not None:
            named = function.word("the name of a function")
            raise Wrong(named.place, f"the function {named.text!r} is named; costs have to be given by choices, one by one")
        default = None
        if function.tag("defaultcost") is not None or isinstance(function.left(), Word) and NUMBER.fullmatch(_text_of(function.left())):
            default = self._cost(function.word("the cost by default"), scope)
        function.tag("costs")
        costs = function.take("the costs of a function")
        function.end()
        if isinstance(costs, Word):
            self._shared.append(Shared(scope, scope_items.place, costs))
            return
        given = self._dense(scope, costs) if default is None else self._sparse(scope, costs)
        found = Function(scope, given, default)
        if name is not None:
            self._by_name[name] = found
        self.sums.add(found, scope_items.place)

    def _scope(self, items: Items) -> tuple[int, ...]:
        scope: list[int] = []
        reading = Reading(items)
        while reading.left() is not None:
            word = reading.word("a train of a function")
            if len(scope) == TOGETHER:
                raise Wrong(word.place, f"a function of {len(items.nodes)} trains; costs are of one train or of two")
            train = _number_of(word, [names.train for names in self.sums.names])
            if train is None:
                raise Wrong(word.place, f"there is no train {word.text!r}")
            if train in scope:
                raise Wrong(word.place, f"a function of train {self.sums.names[train].train} twice")
            scope.append(train)
        return tuple(scope)

    def _dense(self, scope: tuple[int, ...], items: Items) -> dict[Choices, Term]:
        """The costs of all choices, in their order."""
        all_choices = list(itertools.product(*(range(len(self.sums.names[train].choices)) for train in scope)))
        if len(items.nodes) != len(all_choices):
            raise Wrong(items.place, f"this function has {counted(len(items.nodes), 'cost')}, and its trains have {len(all_choices)} choices together")
        reading = Reading(items)
        return {choices: self._cost(reading.word("a cost"), scope) for choices in all_choices}

    def _sparse(self, scope: tuple[int, ...], items: Items) -> dict[Choices, Term]:
        """The costs that are given by choices."""
        given: dict[Choices, Term] = {}
        reading = Reading(items)
        while (first := reading.left()) is not None:
            choices = tuple(self._choice(train, reading.word("a choice")) for train in scope)
            cost = self._cost(reading.word("a cost"), scope)
            if choices in given and None not in choices:
                self.sums.faults.add(first.place, "the cost of these choices is given twice in this function")
            given[tuple(-1 if choice is None else choice for choice in choices)] = cost
        return given

    def _choice(self, train: int, word: Word) -> int | None:
        names = self.sums.names[train]
        choice = _number_of(word, names.choices)
        if choice is None:
            self.sums.faults.add(word.place, f"train {names.train} has no choice {word.text!r}")
        return choice

    def _cost(self, word: Word, scope: tuple[int, ...]) -> Term:
        """A cost. Only a constant, which is of no train, may be below 0."""
        if not NUMBER.fullmatch(word.text) or len(word.text) > LONGEST_NUMBER:
            raise Wrong(word.place, f"a cost is a whole or decimal number, not {word.text[:LONGEST_NUMBER]!r}")
        cost = Fraction(word.text)
        if cost < 0 and scope:
            self.sums.faults.add(word.place, f"a cost of {word.text}, and no cost is below 0")
            cost = Fraction(0)
        return Term(cost, word.place)

    def _add_shared(self, shared: Shared) -> None:
        other = self._by_name.get(shared.other.text)
        if other is None:
            self.sums.faults.add(shared.other.place, f"there is no function {shared.other.text!r} with costs of its own")
            return
        sizes, others = ([len(self.sums.names[train].choices) for train in scope] for scope in (shared.scope, other.scope))
        if sizes != others:
            self.sums.faults.add(shared.other.place, f"function {shared.other.text!r}, whose costs this one has, is of trains with other numbers of choices")
            return
        self.sums.add(Function(shared.scope, other.given, other.default), shared.place)


def _text_of(node: Node | None) -> str:
    return node.text if isinstance(node, Word) else ""


def _number_of(word: Word, names: Sequence[str]) -> int | None:
    """Which of these a word names. Without quotation marks a number stands for itself, as it does where it is no name."""
    number = int(word.text) if WHOLE.fullmatch(word.text) and len(word.text) < LONGEST_NUMBER else None
    if number is not None and number < len(names) and (not word.quoted or word.text not in names):
        return number
    return names.index(word.text) if word.text in names else None
