"""Orders of the trains of a part. A search tries the trains in the order of their numbers, and by the order it is short or long.

Trains with one choice left come first, since they are decided. They count for no other's links.
"""

from collections.abc import Sequence

from junction.solving.proof import Part

Pairs = Sequence[tuple[int, int]]


def degeneracy(pairs: Pairs, part: Part) -> tuple[int, ...]:
    """The train with least links to those that are left is taken away, again and again. What goes last comes first."""
    links = _links(pairs, part)
    decided, left = _decided(part, ())
    taken: list[int] = []
    while left:
        train = min(left, key=lambda train: (len(links[train] & left), train))
        taken.append(train)
        left.remove(train)
    return (*decided, *reversed(taken))


def by_links(pairs: Pairs, part: Part, first: Sequence[int] = ()) -> tuple[int, ...]:
    """Some trains first, and then always the one with most links to those before it."""
    links = _links(pairs, part)
    decided, left = _decided(part, first)
    before, found = set(first), [*first, *decided]
    while left:
        train = max(left, key=lambda train: (len(links[train] & before), len(links[train] & left), -train))
        found.append(train)
        left.remove(train)
        before.add(train)
    return tuple(found)


def _links(pairs: Pairs, part: Part) -> list[set[int]]:
    """The partners of each train."""
    links: list[set[int]] = [set() for _ in part]
    for first, second in pairs:
        links[first].add(second)
        links[second].add(first)
    return links


def _decided(part: Part, first: Sequence[int]) -> tuple[list[int], set[int]]:
    """The trains with one choice at most, and the others, both without the first ones."""
    others = [train for train in range(len(part)) if train not in first]
    decided = [train for train in others if len(part[train]) < 2]
    return decided, set(others) - set(decided)
