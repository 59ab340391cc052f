"""Studies by seeds, for the tests of formats."""

import random

from junction.study import SCALE, Choice, Cost, Pair, Study, Train

# Parts of names that a format may stumble over.
PARTS = ["RE 5", "platform", ",", ";", '"', "'", "Köln", "東", "0", "1", "-", "forbidden", "#", "\\", "x1", "{", "null", "=", "|", "😀"]


def study(seed: int, named: bool = True, scale: int = SCALE) -> Study:
    """A study of any size up to the full one; one in three has forbidden costs, and one in three pairs is all 0."""
    chance = random.Random(seed)
    most = 24 if seed % 5 == 0 else 6
    count = chance.randint(1, most)
    sizes = [chance.randint(1, 8) for _ in range(count)]
    names = _names(chance, count, named)
    trains = []
    for name, size in zip(names, sizes, strict=True):
        costs = [_cost(chance, seed) for _ in range(size)]
        trains.append(Train(name, tuple(map(Choice, _names(chance, size, named), costs))))
    possible = [(i, j) for i in range(count) for j in range(i + 1, count)]
    pairs = sorted(chance.sample(possible, min(len(possible), chance.randint(0, 48))))
    return Study(tuple(trains), tuple(_pair(chance, seed, i, j, sizes) for i, j in pairs), scale)


def damaged(text: str, chance: random.Random) -> str:
    """A file of which some characters are others, lost, or there twice."""
    for _ in range(chance.randint(1, 4)):
        at = chance.randrange(len(text))
        text = text[:at] + chance.choice(["", text[at] * 2, chance.choice(',;"0{}[]:\n\r\x00é-')]) + text[at + 1:]
    return text


def _pair(chance: random.Random, seed: int, i: int, j: int, sizes: list[int]) -> Pair:
    empty = chance.random() < 1 / 3
    return Pair(i, j, tuple(tuple(0 if empty else _cost(chance, seed) for _ in range(sizes[j])) for _ in range(sizes[i])))


def _cost(chance: random.Random, seed: int) -> Cost:
    if seed % 3 == 0 and chance.random() < 0.2:
        return None
    return chance.choice([0, 0, 1, 5, 999_999, 1_000_000, chance.randint(0, 1_000_000)])


def _names(chance: random.Random, count: int, named: bool) -> list[str]:
    """So many different names, or the numbers."""
    if not named:
        return [str(number) for number in range(count)]
    names: set[str] = set()
    while len(names) < count:
        names.add(" ".join(chance.choices(PARTS, k=chance.randint(1, 4))))
    return sorted(names, key=lambda _: chance.random())
