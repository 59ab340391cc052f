"""docs/PAGE.md: it names every key of the facts of a study, every state and every ground, and its sentences are those that are said."""

import re
from collections.abc import Iterator
from typing import Any

from hosting import library
from hosting.page import facts, judging
from hosting.page.following import Studies
from hosting.tests import running, support
from hosting.tests.running import HostTest

DOCUMENT = (support.ROOT / "docs/PAGE.md").read_text(encoding="utf-8")
SENTENCES = [row[0] for row in re.findall(r"^\| ((Nothing|No plan|Not settled|Publish|There|The study).*?) \|", DOCUMENT, re.MULTILINE)]
# The README's session up to its second search: a plan of 3 points at a bound of 2. Behind it an addition that a search ends after.
UNSETTLED, ADDED = 7, b"020101000001\n060000000A\n"


def keys(value: Any) -> Iterator[str]:
    """All keys of some facts, those within them among them."""
    if isinstance(value, dict):
        for key, within in value.items():
            yield key
            yield from keys(within)
    elif isinstance(value, list):
        for within in value:
            yield from keys(within)


def shape(sentence: str) -> str:
    """A sentence without its figures."""
    return re.sub(r"\d+ points?|\d+", "N", sentence)


class Document(HostTest):
    def setUp(self) -> None:
        self.host = self.running("north", "south")
        self.studies = Studies(self.host.data, library.installed())

    def test_every_key_is_named(self) -> None:
        self.host.session("north", running.WORKED_LINES)
        found = set(keys(facts.facts(self.studies, "north", (0, 1))))
        self.host.session("south", b"".join(line + b"\n" for line in support.LINES[:UNSETTLED]))
        found |= set(keys(facts.facts(self.studies, "south")))
        self.assertGreaterEqual(found, {"sentence", "ground", "by_train", "left", "declined", "command", "limit"})
        for key in found:
            self.assertIn(f"`{key}`", DOCUMENT)

    def test_every_state_and_ground_is_named(self) -> None:
        for word in (judging.UNREADABLE, judging.NOTHING, judging.NO_PLAN_YET, judging.UNSETTLED, judging.PUBLISH, judging.NO_PLAN,
                     judging.BY_BOUND, judging.BY_SEARCH, judging.BY_PROOF, *facts.REASONS.values()):
            self.assertIn(f"`{word}`", DOCUMENT)

    def test_the_sentences_are_those_that_are_said(self) -> None:
        said = [facts.facts(self.studies, "north")["sentence"]]
        for lines in (support.LINES[0] + b"\n", b"".join(line + b"\n" for line in support.LINES[1:UNSETTLED]), ADDED):
            self.host.session("north", lines)
            said.append(facts.facts(self.studies, "north")["sentence"])
        self.assertEqual(list(map(shape, said)), list(map(shape, SENTENCES[:4])))
