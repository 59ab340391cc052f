"""What a study has come to, in one sentence, and why.

'Publish' stands on what holds now: the best plan since the load, whose cost the library is asked for on a copy of the block, beside the bound, or beside a
search that ended after the last addition, or beside a proof that is kept of these very costs.
"""

import os
from pathlib import Path
from typing import NamedTuple

from hosting import asked, kept
from hosting.kept import Kept
from hosting.page.findings import Findings, Plan
from hosting.page.following import Seen
from hosting.store import Unusable
from junction import lines
from junction.kinds import counted

UNREADABLE, NOTHING, NO_PLAN_YET, UNSETTLED, PUBLISH, NO_PLAN = "unreadable", "nothing", "no plan yet", "unsettled", "publish", "no plan"
BY_BOUND, BY_SEARCH, BY_PROOF = "bound", "search", "proof"
OF_THESE_COSTS = "a proof of these very costs is kept"


class Best(NamedTuple):
    """The best plan since the load, with what the library says that it costs now, and the last line that shows it."""

    plan: Plan
    cost: int
    line: int | None


class Ground(NamedTuple):
    """Why a study is settled."""

    kind: str
    line: int | None
    words: str


class Judged(NamedTuple):
    """What a study has come to."""

    state: str
    sentence: str
    bound: int | None = None
    best: Best | None = None
    ground: Ground | None = None


def saved(seen: Seen) -> str:
    """The load line of the costs in points, additions included."""
    reply, _ = seen.library.answer(seen.block, lines.save().encode("ascii"))
    return reply.decode("ascii", "backslashreplace")


def unreadable(why: Exception) -> Judged:
    """A study that cannot be read."""
    said = str(why)
    return Judged(UNREADABLE, said[:1].upper() + said[1:])


def judge(seen: Seen) -> Judged:
    """What a study has come to. It is judged once after each line, and again where other proofs are kept."""
    proofs = _proofs(seen.folder)
    if proofs not in seen.memory:
        seen.memory[proofs] = _judge(seen)
    judged: Judged = seen.memory[proofs]
    return judged


def _judge(seen: Seen) -> Judged:
    if not seen.loaded:
        return Judged(NOTHING, "Nothing loaded")
    bound = asked.bound(seen.library, seen.block)
    if bound is None:
        raise Unusable(f"study {seen.name} cannot be used: the library does not tell its bound")
    proof = kept.proof(seen.folder, saved(seen))
    best = min(filter(None, (_found(seen), _proved(seen, proof))), key=lambda one: one.cost, default=None)
    ground = _none(seen.findings, proof) if best is None else _ground(seen.findings, bound, best, proof)
    return Judged(*_sentence(bound, best, ground), bound, best, ground)


def _sentence(bound: int, best: Best | None, ground: Ground | None) -> tuple[str, str]:
    """The state, and the sentence."""
    if best is None and ground is not None:
        return NO_PLAN, "There is no plan"
    if best is None:
        return NO_PLAN_YET, f"No plan yet; no plan costs less than {counted(bound, 'point')}"
    if ground is not None:
        return PUBLISH, f"Publish: no plan costs less than {counted(best.cost, 'point')}"
    at_most = f"at most {counted(best.cost - bound, 'point')} could be saved"
    return UNSETTLED, f"Not settled: a plan of {counted(best.cost, 'point')} is at hand, the bound is {bound:,}: {at_most}"


def _found(seen: Seen) -> Best | None:
    """The best plan of the lines since the load. By the lines its cost is known already; the library has the last word on it."""
    found = seen.findings
    for plan in sorted(found.costs, key=lambda plan: (found.costs[plan], -found.plans[plan])):
        cost = asked.cost(seen.library, seen.block, plan)
        if cost is not None:
            return Best(plan, cost, found.plans[plan])
    return None


def _proved(seen: Seen, proof: Kept | None) -> Best | None:
    """The plan of the kept proof, where it costs now what the proof says."""
    if proof is None or proof.plan is None:
        return None
    cost = asked.cost(seen.library, seen.block, proof.plan)
    return None if cost is None or cost != proof.cost else Best(proof.plan, cost, None)


def _none(found: Findings, proof: Kept | None) -> Ground | None:
    """Why there is no plan, where that is known."""
    if found.without_plan is not None:
        return Ground(BY_SEARCH, found.without_plan, f"a search ended without a plan (line {found.without_plan})")
    return None if proof is None or proof.plan is not None else Ground(BY_PROOF, None, OF_THESE_COSTS)


def _ground(found: Findings, bound: int, best: Best, proof: Kept | None) -> Ground | None:
    """Why no plan costs less than the best one, where that is known."""
    if best.cost == bound:
        line = found.since(lambda figures: figures.bound == bound and figures.best == best.cost) or found.since(lambda figures: figures.bound == bound)
        return Ground(BY_BOUND, line, f"the bound equals the cost (line {line})")
    if found.ended is not None:
        return Ground(BY_SEARCH, found.ended, f"a search ended (line {found.ended}) and nothing was added since")
    return None if proof is None or proof.cost != best.cost else Ground(BY_PROOF, None, OF_THESE_COSTS)


def _proofs(folder: Path) -> frozenset[tuple[str, int, int]]:
    """The proofs that are kept: each by its name, its length and when it was changed."""
    try:
        with os.scandir(folder / kept.FOLDER) as entries:
            return frozenset((entry.name, entry.stat().st_size, entry.stat().st_mtime_ns) for entry in entries)
    except OSError:
        return frozenset()
