"""Names of trains and choices beside what stored lines and replies say by number."""

from pathlib import Path
from typing import NamedTuple

from junction import labels
from junction.kinds import Facts
from junction.study import Study


class Named(NamedTuple):
    """A study with the names that are kept for it, or why they are left out; neither where none are kept."""

    study: Study | None
    left_out: str | None


UNNAMED = Named(None, None)


def kept(study: Study, folder: Path) -> Named:
    """The names that are kept in a study's folder. Names that are all numbers say nothing, and are none."""
    named, left_out = labels.named(study, folder)
    return Named(named if listed(named) != listed(study) else None, left_out)


class Since(NamedTuple):
    """Names that hold of the lines from one number on, or why they are left out."""

    study: Study | None
    first: int
    left_out: str | None = None

    def at(self, number: int) -> Study | None:
        """The names at a line."""
        return self.study if number >= self.first else None


NOTHING = Since(None, 0)


def listed(study: Study | None) -> list[tuple[str, list[str]]] | None:
    """Each train's name with its choices' names."""
    return None if study is None else [(train.name, [choice.name for choice in train.choices]) for train in study.trains]


def told(facts: Facts, study: Study | None) -> Facts:
    """Facts with the names of the trains and choices that they tell of, also behind their words."""
    names = _names(facts, study) if study else []
    if not names:
        return facts
    said = ", ".join(": ".join(name) for name in names)
    return {**facts, "names": names, "words": f"{facts['words']} ({said})"}


def _names(facts: Facts, study: Study) -> list[list[str]]:
    """The trains that facts tell of, each with its choice where they tell of one; none where the numbers are not those of the study."""
    plan = facts.get("plan") or facts.get("choices")
    trains = facts.get("order") or [facts[name] for name in ("train", "partner") if facts.get(name) is not None]
    if plan:
        return _of_plan(plan, study)
    if "choice" in facts:
        return _of_choice(facts["train"], facts["choice"], study)
    return [[study.trains[train].name] for train in trains] if all(train < len(study.trains) for train in trains) else []


def _of_plan(plan: list[int], study: Study) -> list[list[str]]:
    fits = len(plan) == len(study.trains) and all(choice < size for choice, size in zip(plan, study.sizes, strict=True))
    return [list(pair) for pair in study.by_train(plan)] if fits else []


def _of_choice(train: int, choice: int, study: Study) -> list[list[str]]:
    fits = train < len(study.trains) and choice < study.sizes[train]
    return [[study.trains[train].name, study.trains[train].choices[choice].name]] if fits else []
