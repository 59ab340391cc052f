"""What the tests of .wcsp and .cfn share: small studies by seeds, what plans cost, and toulbar2."""

import itertools
import random
import re
import shutil
import subprocess
import unittest
from collections.abc import Iterable
from pathlib import Path

from junction import lines
from junction.study import Choice, Cost, Pair, Study, Train

from tests import reference

BUDGET = 10_000_000
SEARCH_REPLY, ENDED = "86", "01"


def small(seed: int) -> Study:
    """A study of few plans, with numbers as names. One in three has forbidden costs."""
    chance = random.Random(seed)
    sizes = [chance.randint(1, 4) for _ in range(chance.randint(1, 6))]

    def cost() -> Cost:
        return None if seed % 3 == 0 and chance.random() < 0.2 else chance.choice([0, 0, 1, 5, chance.randint(0, 50)])

    trains = [Train(str(number), tuple(Choice(str(choice), cost()) for choice in range(size))) for number, size in enumerate(sizes)]
    possible = list(itertools.combinations(range(len(sizes)), 2))
    pairs = [Pair(i, j, tuple(tuple(cost() for _ in range(sizes[j])) for _ in range(sizes[i]))) for i, j in possible if chance.random() < 0.7]
    return Study(tuple(trains), tuple(pairs))


def plans(sizes: Iterable[int]) -> list[tuple[int, ...]]:
    """All plans of trains with so many choices."""
    return list(itertools.product(*map(range, sizes)))


def plan_cost(study: Study, plan: tuple[int, ...]) -> Cost:
    """What a plan costs, None where it takes something forbidden."""
    costs = [train.choices[choice].cost for train, choice in zip(study.trains, plan, strict=True)]
    costs += [pair.costs[plan[pair.first]][plan[pair.second]] for pair in study.pairs]
    return None if None in costs else sum(cost for cost in costs if cost is not None)


def least(study: Study) -> Cost:
    """The least cost of a plan by the reference, None where there is no plan."""
    found = reference.replies(lines.load(study), lines.search(BUDGET))[1]
    # Reply 86, how it ended (01 with a plan, 02 without one), 4 bytes of tries, 6 of the cost.
    return int(found[12:24], 16) if found.startswith(SEARCH_REPLY + ENDED) else None


def toulbar2(*words: str | Path) -> str:
    """What toulbar2 says, where it is there."""
    if shutil.which("toulbar2") is None:
        raise unittest.SkipTest("toulbar2 is not there: Debian's package toulbar2")
    return subprocess.run(["toulbar2", *words], capture_output=True, text=True, check=False).stdout


def least_of_toulbar2(path: Path) -> Cost:
    """The least cost of a file by toulbar2, None where there is no plan."""
    said = toulbar2(path)
    optimum = re.search(r"Optimum: (\d+) ", said)
    if optimum is None:
        assert "No solution" in said, said
        return None
    return int(optimum[1])


def damaged(text: str, seed: int) -> str:
    """A file in which a few characters or words are lost, added or others."""
    chance = random.Random(seed)
    for _ in range(chance.randint(1, 4)):
        at, words = chance.randrange(len(text) + 1), text.split(" ")
        words[chance.randrange(len(words))] = chance.choice(["-1", "0", "9", "9" * 40, "1.5", "x", '"', "{", "]", "1e3", ""])
        fewer, more = text[:at] + text[at + chance.randint(1, 5):], text[:at] + chance.choice('09 {}[]",:#-.a\n\\') + text[at:]
        text = chance.choice([fewer, more, " ".join(words), text[:at]]) or "x"
    return text
