"""A study of a junction: trains with their choices, what each choice costs, and what the choices of two trains cost together.

Costs are in points. A cost of None is forbidden. Trains and choices have names; where a file gives none, a name is the number. Nothing here judges a study: its
limits are the service's, which says by number what it declines.
"""

from collections.abc import Sequence
from dataclasses import dataclass, field
from typing import NamedTuple

Cost = int | None
Plan = Sequence[int]

# How many parts a point has where a file does not say: with it the best shift publishes the best bound, and it costs nothing.
SCALE = 840


class Choice(NamedTuple):
    """A choice of a train, and what it costs."""

    name: str
    cost: Cost


class Train(NamedTuple):
    """A train, and what it can choose."""

    name: str
    choices: tuple[Choice, ...]


class Pair(NamedTuple):
    """Two trains by number, the lower first; costs[a][c] is what choice a of the first and choice c of the second cost together."""

    first: int
    second: int
    costs: tuple[tuple[Cost, ...], ...]


class Absent(LookupError):
    """A study has no such train, or a train no such choice."""


@dataclass(frozen=True)
class Study:
    """Trains, pairs in ascending order, and the parts of a point."""

    trains: tuple[Train, ...]
    pairs: tuple[Pair, ...] = ()
    scale: int = SCALE
    _numbers: dict[str, int] = field(init=False, repr=False, compare=False)

    def __post_init__(self) -> None:
        numbers: dict[str, int] = {}
        for number, train in enumerate(self.trains):
            numbers.setdefault(train.name, number)
        object.__setattr__(self, "_numbers", numbers)
        for pair in self.pairs:
            rows, columns = len(self.trains[pair.first].choices), len(self.trains[pair.second].choices)
            if len(pair.costs) != rows or any(len(row) != columns for row in pair.costs):
                raise ValueError(f"the costs of trains {pair.first} and {pair.second} are not {rows} rows of {columns}")

    @property
    def sizes(self) -> tuple[int, ...]:
        """How many choices each train has."""
        return tuple(len(train.choices) for train in self.trains)

    def train(self, name: str | int) -> int:
        """The number of a train, by its name, or by its number."""
        if isinstance(name, str) and name in self._numbers:
            return self._numbers[name]
        number = _number(name)
        if number is None or number >= len(self.trains):
            raise Absent(f"there is no train {name}")
        return number

    def choice(self, train: str | int, name: str | int) -> int:
        """The number of a choice of a train, by its name, or by its number."""
        of = self.trains[self.train(train)]
        for number, choice in enumerate(of.choices):
            if choice.name == name:
                return number
        number_given = _number(name)
        if number_given is None or number_given >= len(of.choices):
            raise Absent(f"train {of.name} has no choice {name!r}")
        return number_given

    def by_train(self, plan: Plan) -> list[tuple[str, str]]:
        """A plan in names: each train with its choice."""
        return [(train.name, train.choices[choice].name) for train, choice in zip(self.trains, plan, strict=True)]

    def with_scale(self, scale: int) -> "Study":
        """The same study with so many parts a point."""
        return Study(self.trains, self.pairs, scale)


def _number(name: str | int) -> int | None:
    """A number that stands for itself."""
    if isinstance(name, int):
        return name if name >= 0 else None
    return int(name) if name.isascii() and name.isdecimal() else None
