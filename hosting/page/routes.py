"""What is at which path of the page."""

import csv
import io
import json
import logging
from http import HTTPStatus
from pathlib import Path
from typing import NamedTuple
from urllib.parse import parse_qsl, unquote, urlsplit

from hosting import kept, store
from hosting.page import html
from hosting.page.facts import facts, overview
from hosting.page.following import Studies
from hosting.page.html import Chosen
from hosting.store import StudyError, Unusable
from junction.kinds import Facts

PAGE, JSON, CSV = "text/html; charset=utf-8", "application/json; charset=utf-8", "text/csv; charset=utf-8"
FILES = {"/style.css": "text/css; charset=utf-8", "/script.js": "text/javascript; charset=utf-8"}
FOLDER = Path(__file__).resolve().parent
STUDIES, EVENTS, PLAN, FACTS = "/studies/", "/events", "/plan.csv", ".json"
UNREADABLE = "unreadable"
# No number of a train, a choice or a pair has more digits.
DIGITS = 3

log = logging.getLogger(__name__)


class Answer(NamedTuple):
    """What a request is answered."""

    status: int
    kind: str
    body: bytes
    headers: dict[str, str] = {}


class NotThere(Exception):
    """A path at which nothing is, and why; where it is one of a study, its name."""

    def __init__(self, sentence: str, study: str | None = None) -> None:
        super().__init__(sentence)
        self.study = study


class Moment(NamedTuple):
    """What a page of a study is of: the number of the last line, or that it cannot be read, and when a proof was kept last."""

    line: str
    proofs: int


class Asked(NamedTuple):
    """A path without its escapes, and what stands behind the question mark."""

    path: str
    query: str


def failure(status: HTTPStatus, sentence: str, study: str | None = None) -> Answer:
    """A page that says why there is none, and leads to the study's where there is one."""
    return Answer(status, PAGE, html.failure(f"{status.value} {status.phrase}", sentence, study).encode())


class Routes:
    """Answers requests by what is stored of the studies."""

    def __init__(self, studies: Studies) -> None:
        self._studies = studies
        self._files = {path: (FOLDER / path[1:]).read_bytes() for path in FILES}

    def answer(self, target: str) -> Answer:
        """What is at a path."""
        try:
            return self._answer(_asked(target))
        except NotThere as why:
            return failure(HTTPStatus.NOT_FOUND, str(why), why.study)
        except Unusable as error:
            return failure(HTTPStatus.INTERNAL_SERVER_ERROR, f"{error}.")
        except StudyError as error:
            return failure(HTTPStatus.NOT_FOUND, f"{error}.")
        except OSError as error:
            return failure(HTTPStatus.INTERNAL_SERVER_ERROR, f"The data folder cannot be read: {error.strerror or error}.")
        except Exception:
            log.exception("the page of %s failed", target)
            return failure(HTTPStatus.INTERNAL_SERVER_ERROR, "This page could not be made. What failed is in the log of its server.")

    def watched(self, target: str) -> str | None:
        """The study whose events are at a path."""
        try:
            path = _asked(target).path
        except NotThere:
            return None
        name = path.removeprefix(STUDIES).removesuffix(EVENTS)
        return name if path == f"{STUDIES}{name}{EVENTS}" and name in self._studies.names() else None

    def moment(self, name: str) -> Moment | None:
        """What a page of a study would be of now; None where the study was taken away."""
        try:
            return Moment(str(self._studies.last_line(name)), self._proofs(name))
        except Unusable:
            return Moment(UNREADABLE, 0)
        except StudyError:
            return None

    def _proofs(self, name: str) -> int:
        """When a proof of a study was kept last."""
        try:
            return (store.database(self._studies.data, name).parent / kept.FOLDER).stat().st_mtime_ns
        except OSError:
            return 0

    def _answer(self, asked: Asked) -> Answer:
        path = asked.path
        if path == "/":
            return Answer(HTTPStatus.OK, PAGE, html.overview(overview(self._studies)).encode())
        if path in self._files:
            return Answer(HTTPStatus.OK, FILES[path], self._files[path])
        if not path.startswith(STUDIES):
            raise NotThere("There is nothing at this path.")
        return self._of_study(path.removeprefix(STUDIES), asked.query)

    def _of_study(self, rest: str, query: str) -> Answer:
        """What is at a path behind /studies/: the plan, the facts, or the page. A study whose name ends as that of facts does has its page with a stroke
        at the end, and without it where there is no study whose facts these would be."""
        names = self._studies.names()
        for end, shown in ((PLAN, self._plan), (FACTS, self._json)):
            if rest.endswith(end) and rest.removesuffix(end) in names:
                return shown(rest.removesuffix(end), query)
        name = rest.removesuffix("/")
        if name not in names:
            raise NotThere("There is no such study. It may have been taken away.")
        return self._page(name, query)

    def _page(self, name: str, query: str) -> Answer:
        chosen = _chosen(query)
        shown = self._facts(name, chosen)
        if shown["trains"] and chosen.pair and chosen.pair >= len(shown["pairs"]):
            raise NotThere(f"Study {name} has no such pair of trains.", name)
        return Answer(HTTPStatus.OK, PAGE, html.study(shown, chosen).encode())

    def _json(self, name: str, query: str) -> Answer:
        return Answer(HTTPStatus.OK, JSON, json.dumps(self._facts(name, _chosen(query))).encode())

    def _plan(self, name: str, query: str) -> Answer:
        shown = self._facts(name, _chosen(query))
        if shown["best"] is None:
            raise NotThere(f"Study {name} has no plan yet.", name)
        text = io.StringIO()
        csv.writer(text).writerows([("train", "choice"), *html.plan_rows(shown)])
        return Answer(HTTPStatus.OK, CSV, text.getvalue().encode(), {"Content-Disposition": f'attachment; filename="{name}.csv"'})

    def _facts(self, name: str, chosen: Chosen) -> Facts:
        cell = None if chosen.train is None or chosen.choice is None else (chosen.train, chosen.choice)
        shown = facts(self._studies, name, cell)
        if cell is not None and shown["trains"] and shown["cell"] is None:
            raise NotThere(f"Study {name} has no such choice.", name)
        return shown


def _asked(target: str) -> Asked:
    """A request's target, taken apart."""
    try:
        parts = urlsplit(target)
        if parts.scheme or parts.netloc:
            raise NotThere("There is nothing at this path.")
        return Asked(unquote(parts.path, errors="strict"), parts.query)
    except ValueError as error:
        raise NotThere("There is nothing at this path.") from error


def _chosen(query: str) -> Chosen:
    """What a reader chose, by what stands behind the question mark. What is no number is nothing that could be chosen."""
    try:
        given = dict(parse_qsl(query, keep_blank_values=True, max_num_fields=len(Chosen._fields)))
    except ValueError as error:
        raise NotThere("There is nothing at this path.") from error
    chosen: dict[str, int] = {}
    for name, value in given.items():
        if name not in Chosen._fields or not (value.isascii() and value.isdecimal() and len(value) <= DIGITS):
            raise NotThere("There is nothing at this path.")
        chosen[name] = int(value)
    if ("train" in chosen) != ("choice" in chosen):
        raise NotThere("A choice is asked for by its train and its number.")
    return Chosen(**chosen)
