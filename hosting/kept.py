"""The proof that is kept of a study: in its folder, under the SHA-256 of the save line whose costs it is of. A study whose costs are others has none."""

import json
from collections.abc import Iterator
from hashlib import sha256
from pathlib import Path
from typing import NamedTuple

from junction import lines
from junction.study import SCALE

FOLDER = "proofs"


class Kept(NamedTuple):
    """What a kept proof says: a plan and the least cost, or that there is no plan."""

    plan: tuple[int, ...] | None
    cost: int | None


def path(folder: Path, save: str) -> Path:
    """Where the proof of these costs is kept in a study's folder, if it is."""
    return folder / FOLDER / sha256(save.encode("ascii")).hexdigest()


def proof(folder: Path, save: str) -> Kept | None:
    """What the proof of these costs says, if one is kept, whatever parts a point has in it, since costs are in points."""
    for line in dict.fromkeys((save, lines.with_scale(save, SCALE))):
        kept = _read(path(folder, line), line)
        if kept is not None:
            return kept
    return None


def _read(path: Path, save: str) -> Kept | None:
    """What a proof says. One that is of other costs, cut, or open somewhere says nothing."""
    try:
        with open(path, encoding="ascii") as file:
            first = json.loads(next(file, ""))
            last = json.loads(_last(file))
        if first != {"save": save} or last.keys() != {"plan", "cost"}:
            return None
        plan, cost = last["plan"], last["cost"]
        if plan is None and cost is None:
            return Kept(None, None)
        return Kept(tuple(map(int, plan)), int(cost))
    except (OSError, ValueError, TypeError, AttributeError):
        return None


def _last(file: Iterator[str]) -> str:
    """The last line. Where a part is open there is none."""
    last = ""
    for line in file:
        if line.startswith('{"open"'):
            return ""
        last = line
    return last
