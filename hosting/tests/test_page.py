"""The page by HTTP: what is at its paths, what it refuses, how it escapes, and what it leaves alone."""

import csv
import http.client
import io
import json
import re
import signal
import socket
import ssl
import subprocess
import threading
from collections.abc import Iterator
from contextlib import contextmanager
from html.parser import HTMLParser
from pathlib import Path
from typing import Any, NamedTuple

from hosting import store
from hosting.config import Config
from hosting.page import chart, server
from hosting.page.following import Studies
from hosting.page.routes import Routes
from hosting.page.server import PageServer, Place
from hosting.tests import support
from hosting.tests.running import LOOPBACK, PATIENCE, free_port, until
from hosting.tests.support import DataCase
from hosting.tests.test_tls import SERVER, client_context
from junction import labels, lines, replies
from junction.kinds import Facts
from junction.study import Choice, Pair, Study, Train

EVIL = "<script>alert(1)</script>"
LARGEST = 120_000
STYLE = (Path(server.__file__).parent / "style.css").read_text(encoding="utf-8")
LEAST_CONTRAST = 4.5

# Two trains that cannot have platform 1 together. Plans 01 and 10 cost 9 and 5 points, plan 11 costs 13.
TWO = Study(
    (
        Train(EVIL, (Choice('a "b"', 0), Choice("50 %", 4))),
        Train("S 1 & co", (Choice("platform 1", 1), Choice("platform 2", 9))),
    ),
    (Pair(0, 1, ((None, 0), (0, 0))),),
    1,
)
# Their only plan is forbidden.
CLOSED = Study((Train("0", (Choice("0", 0),)), Train("1", (Choice("0", 0),))), (Pair(0, 1, ((None,),)),), 1)


class Got(NamedTuple):
    """What came to a request."""

    status: int
    headers: http.client.HTTPMessage
    body: str


class Element(NamedTuple):
    """An element of a page."""

    tag: str
    attributes: dict[str, str]
    text: str


class Reader(HTMLParser):
    """The elements of a page, each with the text between its beginning and the next beginning or end."""

    def __init__(self, page: str) -> None:
        super().__init__()
        self.elements: list[Element] = []
        self._open = False
        self.feed(page)
        self.close()

    def handle_starttag(self, tag: str, attrs: list[tuple[str, str | None]]) -> None:
        self.elements.append(Element(tag, {name: value or "" for name, value in attrs}, ""))
        self._open = True

    def handle_endtag(self, tag: str) -> None:
        self._open = False

    def handle_data(self, data: str) -> None:
        if self._open:
            last = self.elements[-1]
            self.elements[-1] = last._replace(text=last.text + data)

    def having(self, **attributes: str) -> list[Element]:
        """The elements with these attributes."""
        wanted = {name.rstrip("_"): value for name, value in attributes.items()}
        return [element for element in self.elements if wanted.items() <= element.attributes.items()]

    def named(self, *tags: str) -> list[Element]:
        """The elements of these kinds."""
        return [element for element in self.elements if element.tag in tags]


class PageCase(DataCase):
    """A page in this process, on a data folder of its own. No host is at work, and lines are stored as one would store them."""

    def setUp(self) -> None:
        super().setUp()
        self.server = PageServer(Place(LOOPBACK, 0, None, ()), Routes(Studies(self.data, self.library)))
        thread = threading.Thread(target=self.server.serve_forever, kwargs={"poll_interval": 0.02}, daemon=True)
        thread.start()
        self.addCleanup(self.server.server_close)
        self.addCleanup(self.server.shutdown)
        self.port = self.server.place.port

    def get(self, path: str, method: str = "GET", headers: dict[str, str] | None = None) -> Got:
        """What comes to a request."""
        connection = http.client.HTTPConnection(LOOPBACK, self.port, timeout=PATIENCE)
        try:
            connection.request(method, path, headers=headers or {})
            response = connection.getresponse()
            return Got(response.status, response.headers, response.read().decode())
        finally:
            connection.close()

    def page(self, path: str = "/studies/study") -> Reader:
        """A page that is there."""
        got = self.get(path)
        self.assertEqual(got.status, 200, got.body)
        return Reader(got.body)

    def raw(self, request: bytes) -> bytes:
        """All that comes to the bytes of a request."""
        with socket.create_connection((LOOPBACK, self.port), PATIENCE) as client:
            client.sendall(request)
            client.shutdown(socket.SHUT_WR)
            return b"".join(iter(lambda: client.recv(1 << 16), b""))

    def load(self, study: Study, *asked: str) -> list[bytes]:
        """Adds a study, with its names, and stores some lines of it."""
        self.add()
        labels.keep(study, store.database(self.data, "study").parent)
        return self.take([line.encode() for line in (lines.load(study), *asked)])

    def sentence(self) -> str:
        """The sentence of the study's page."""
        (status,) = self.page().having(role="status")
        return status.text


class Sentences(PageCase):
    def test_nothing_is_loaded(self) -> None:
        self.add()
        self.assertEqual(self.sentence(), "Nothing loaded")

    def test_no_plan_yet(self) -> None:
        self.load(TWO, lines.directional_round())
        bound = json.loads(self.get("/studies/study.json").body)["bound"]
        self.assertEqual(self.sentence(), f"No plan yet; no plan costs less than {bound} points")

    def test_not_settled_names_the_next_commands(self) -> None:
        self.load(TWO, lines.search(3))
        self.assertEqual(self.sentence(), "Not settled: a plan of 9 points is at hand, the bound is 0: at most 9 points could be saved")
        commands = [element.text for element in self.page().named("code")[:2]]
        self.assertEqual(commands, ["./host lift study", "./host solve study"])

    def test_publish_and_an_addition_after_it(self) -> None:
        self.load(TWO, lines.search(100))
        self.assertEqual(self.sentence(), "Publish: no plan costs less than 5 points")
        self.take([lines.add(1, 0, 3).encode()])
        self.assertIn("Not settled: a plan of 8 points is at hand", self.sentence())

    def test_no_plan(self) -> None:
        self.load(CLOSED, lines.search(100))
        self.assertEqual(self.sentence(), "There is no plan")

    def test_a_damaged_database(self) -> None:
        self.load(TWO)
        path = store.database(self.data, "study")
        path.write_bytes(path.read_bytes()[:100] + b"\xff" * 4000)
        got = self.get("/studies/study")
        self.assertEqual(got.status, 200)
        self.assertIn("cannot be", self.sentence())
        self.assertNotIn("Traceback", got.body)
        self.assertIn("cannot be read", self.get("/").body)
        self.assertEqual(json.loads(self.get("/studies/study.json").body)["state"], "unreadable")


class Contents(PageCase):
    def test_all_studies(self) -> None:
        self.assertIn("There are no studies.", self.get("/").body)
        self.load(TWO, lines.search(100))
        self.add("second.json")
        reader = self.page("/")
        links = {element.text: element.attributes["href"] for element in reader.named("a")}
        self.assertEqual(links, {"second.json": "/studies/second.json/", "study": "/studies/study"})
        for link in links.values():
            self.page(link)
        cells = [element.text for element in reader.having(role="cell")]
        self.assertEqual([*cells[:4], *cells[4:7]], ["nothing loaded", "none", "none", "none", "publish", "0", "5"])

    def test_names_are_escaped(self) -> None:
        self.load(TWO, lines.search(100), lines.add(0, 0, 1))
        for path in ("/studies/study", "/studies/study?train=0&choice=0", "/studies/study?train=1&choice=1&pair=0"):
            body = self.get(path).body
            self.assertNotIn(EVIL, body)
            self.assertIn("&lt;script&gt;alert(1)&lt;/script&gt;", body)
            self.assertEqual([element.attributes.get("src") for element in Reader(body).named("script")], ["/script.js"])
        self.assertIn(f'{EVIL}, a "b": 1 point left', [element.attributes.get("aria-label") for element in self.page().named("a")])
        self.assertEqual(json.loads(self.get("/studies/study.json").body)["trains"][0]["name"], EVIL)

    def test_cells_of_choices(self) -> None:
        self.load(TWO, lines.search(100))
        linked = [element for element in self.page().named("a") if "train=" in element.attributes["href"]]
        self.assertEqual([element.attributes["aria-label"] for element in linked], [
            f'{EVIL}, a "b": 0 points left', f"{EVIL}, 50 %: 4 points left, in the best plan",
            "S 1 & co, platform 1: 1 point left, in the best plan", "S 1 & co, platform 2: 9 points left",
        ])
        for element in linked:
            (ground,) = self.page(f"/studies/study{element.attributes['href'].partition('#')[0]}").having(id="ground")
            self.assertEqual(ground.tag, "div")

    def test_what_has_no_name_is_called_by_its_number(self) -> None:
        self.load(CLOSED)
        labels = [element.attributes.get("aria-label") for element in self.page("/studies/study?train=1&choice=0").named("a")]
        self.assertEqual(labels[1:], ["train 0, choice 0: 0 points left", "train 1, choice 0: 0 points left"])
        self.assertEqual([element.text for element in self.page("/studies/study?train=1&choice=0").named("h3", "option")], [
            "train 1, choice 0", "train 0 with train 1",
        ])

    def test_what_is_not_whole_is_in_hundredths(self) -> None:
        """Parts of 840 a point are moved to choices that cost nothing."""
        parts = (0, 1, 8, 9, 420, 840, 841, 840_001)
        study = Study((Train("A", tuple(Choice("1", 0) for _ in parts)), Train("B", (Choice("2", 0),))), (Pair(0, 1, ((1001,),) * len(parts)),), 840)
        self.add()
        self.take([lines.load(study).encode(), lines.shift([0, 0], [*parts, 0]).encode()])
        shown = re.findall(r"</span> ([^<]+)</a>", self.get("/studies/study").body)[:len(parts)]
        self.assertEqual(shown, ["0", "&lt;&nbsp;0.01", "&lt;&nbsp;0.01", "≈&nbsp;0.01", "≈&nbsp;0.50", "1", "≈&nbsp;1.00", "≈&nbsp;1,000"])
        said = [element.attributes["aria-label"].partition(": ")[2] for element in self.page().named("a")[1:1 + len(parts)]]
        self.assertEqual(said, ["0 points left", "1/840 points left", "1/105 points left", "3/280 points left", "1/2 points left", "1 point left",
                                "1 1/840 points left", "1,000 1/840 points left"])

    def test_forbidden_and_planned_are_marked_beside_their_colours(self) -> None:
        study = Study((Train("0", (Choice("0", None), Choice("1", 3))),), (), 2)
        self.load(study, lines.search(100))
        cells = [element for element in self.page().having(role="cell") if "class" in element.attributes]
        self.assertEqual([element.attributes["class"] for element in cells], ["forbidden", "planned"])
        self.assertIn("✕", self.get("/studies/study").body)
        self.assertIn("repeating-linear-gradient", STYLE)

    def test_pairs_are_shown_one_at_a_time(self) -> None:
        trains = tuple(Train(name, (Choice("0", 0), Choice("1", 0))) for name in ("A", "B", "C"))
        study = Study(trains, (Pair(0, 1, ((1, 2), (3, 4))), Pair(1, 2, ((5, 6), (7, None)))), 1)
        self.load(study)
        for pair, shown in ((0, ["1", "2", "3", "4"]), (1, ["5", "6", "7", "forbidden"])):
            reader = self.page(f"/studies/study?pair={pair}")
            options = [(element.text, "selected" in element.attributes) for element in reader.named("option")]
            self.assertEqual(options, [("A with B", pair == 0), ("B with C", pair == 1)])
            found = re.findall(r"<td role=cell[^>]*><span>choice [01]</span> (?:<em>)?(\w+)", self.get(f"/studies/study?pair={pair}").body)
            self.assertEqual(found, shown)
        self.assertEqual(self.get("/studies/study?pair=2").status, 404)

    def test_the_plan_as_csv(self) -> None:
        self.load(TWO)
        self.assertEqual(self.get("/studies/study/plan.csv").status, 404)
        self.take([lines.search(100).encode()])
        got = self.get("/studies/study/plan.csv")
        self.assertEqual(list(csv.reader(io.StringIO(got.body))), [["train", "choice"], [EVIL, "50 %"], ["S 1 & co", "platform 1"]])
        self.assertIn("/studies/study/plan.csv", [element.attributes["href"] for element in self.page().named("a")])

    def test_refusals_with_their_reason_and_hexadecimal_in_details(self) -> None:
        self.load(TWO, "0200")
        body = self.get("/studies/study").body
        self.assertIn("declined, 5: a field is not wholly there, or bytes are left over", body)
        outside = re.sub(r"<details.*?</details>", "", body, flags=re.DOTALL)
        self.assertIn("<code>0200</code>", body)
        self.assertNotIn("<code>0200</code>", outside)

    def test_a_full_study_is_under_its_limit(self) -> None:
        study = replies.decode_load(support.full_load().decode())
        moves = sum(study.sizes[pair.first] + study.sizes[pair.second] for pair in study.pairs)
        lifts = [lines.shift([sign * 839] * 24, [0] * moves) for sign in (1, -1)]
        asked = [line for number in range(190) for line in (lifts[number % 2], lines.add(number % 24, 0, 1))]
        self.load(study.with_scale(840), lines.tighten(), lines.search(1000), *asked)
        self.assertGreater(len(json.loads(self.get("/studies/study.json").body)["series"]), 300)
        for path in ("/studies/study", "/studies/study?train=1&choice=1&pair=47"):
            got = self.get(path)
            self.assertEqual((got.status, len(Reader(got.body).having(role="cell"))), (200, 24 * 8 + 64))
            self.assertLess(len(got.body.encode()), LARGEST)

    def test_the_form_of_pages(self) -> None:
        self.load(TWO, lines.tighten(), lines.search(100))
        for path in ("/", "/studies/study", "/studies/study?train=0&choice=1", "/studies/none"):
            with self.subTest(path):
                reader = Reader(self.get(path).body)
                (html,) = reader.named("html")
                self.assertEqual(html.attributes, {"lang": "en"})
                headings = [int(element.tag[1]) for element in reader.named("h1", "h2", "h3")]
                self.assertEqual((headings[0], headings.count(1)), (1, 1))
                self.assertTrue(all(after <= before + 1 for before, after in zip(headings, headings[1:])), headings)
                ids = [element.attributes["id"] for element in reader.elements if "id" in element.attributes]
                self.assertEqual(len(ids), len(set(ids)))
                for element in reader.elements:
                    self.assertFalse([name for name in element.attributes if name == "style" or name.startswith("on")], element)
                for link in (element.attributes.get("href") or element.attributes.get("src") or "/" for element in reader.elements):
                    self.assertTrue(link.startswith(("/", "?")), link)

    def test_the_drawing_has_its_numbers_in_words_and_as_a_table(self) -> None:
        self.load(TWO, lines.tighten(), lines.search(1), lines.search(100))
        reader = self.page()
        (svg,) = reader.named("svg")
        self.assertEqual((svg.attributes["role"], svg.attributes["aria-labelledby"]), ("img", "chart-title chart-desc"))
        (title,), (words,) = reader.having(id="chart-title"), reader.having(id="chart-desc")
        self.assertEqual((title.tag, words.tag), ("title", "desc"))
        facts = json.loads(self.get("/studies/study.json").body)
        self.assertIn(f"{facts['bound']} now. Best cost: {facts['series'][2]['best'] or facts['best']['cost']} at first, 5 now", words.text)
        self.assertEqual([element.attributes["class"] for element in reader.named("path")], ["axis", "bound", "best"])

    def test_whatever_the_host_does(self) -> None:
        """No host is at work here, and the page says since when no line was answered."""
        self.load(TWO)
        with store.reading(self.data, "study") as study:
            last = study.last()
        assert last is not None
        (time, *_) = self.page().named("time")
        self.assertEqual(time.attributes["datetime"], last.time)
        self.assertIn("No line was answered since <time", self.get("/studies/study").body)

    def test_nothing_is_stored_by_it(self) -> None:
        self.load(TWO, lines.search(100))
        before = self.files()
        for path in ("/", "/studies/study", "/studies/study?train=0&choice=0", "/studies/study.json", "/studies/study/plan.csv"):
            self.assertEqual(self.get(path).status, 200)
        self.assertEqual(self.files(), before)

    def files(self) -> dict[Path, bytes]:
        """What is in the study's folder, but for what SQLite keeps beside a database while it is read."""
        folder = store.database(self.data, "study").parent
        return {path: path.read_bytes() for path in folder.iterdir() if path.suffix != ".db-shm" and (path.suffix != ".db-wal" or path.stat().st_size)}


class Drawings(DataCase):
    def test_values_at_the_ends_do_not_overlap(self) -> None:
        for figures in ((64, 64, "64"), (0, 0, "1/2"), (0, 1000, "999"), (990, 1000, "995"), (0, 5, None), (None, None, None), (0, None, None)):
            series: list[Facts] = [{"line": line, "bound": figures[0], "best": figures[1], "ceiling": figures[2]} for line in (3, 9)]
            drawn = chart.drawing(series)
            heights = [float(height) for height in re.findall(rf'<text class="\w+" x="{chart.RIGHT + 8}" y="([\d.]+)"', drawn)]
            self.assertEqual(len(heights), sum(figure is not None for figure in figures))
            self.assertTrue(all(after - before >= chart.APART for before, after in zip(heights, heights[1:])), heights)
            self.assertTrue(all(0 < height < chart.HEIGHT for height in heights))

    def test_steps_by_hand(self) -> None:
        """Two lines, so that the second begins in the middle: 24 + 238 / 2 = 143. The highest value is at 28, half of it at 28 + 212 / 2 = 134."""
        series: list[Facts] = [{"line": 1, "bound": 0, "best": None, "ceiling": "10"}, {"line": 2, "bound": 5, "best": 10, "ceiling": None}]
        drawn = chart.drawing(series)
        for key, path in (("bound", "M24 240H143V134H262"), ("best", "M143 28H262"), ("ceiling", "M24 28H143")):
            self.assertIn(f'<path class="{key}" d="{path}"/>', drawn)
        self.assertIn("Bound: 0 at first, 5 now. Best cost: 10 at first, 10 now. Ceiling: 10 at first, none now.", drawn)

    def test_contrast(self) -> None:
        """Each colour of text against each background, by the formula of WCAG 2."""
        texts = set(re.findall(r"(?:^|[ {;])(?:color|fill): (#[0-9a-f]{3,6})", STYLE))
        backgrounds = {colour for rule in re.findall(r"background: ([^;}]+)", STYLE) for colour in re.findall(r"#[0-9a-f]{3,6}", rule)}
        self.assertTrue(len(texts) > 3 and len(backgrounds) > 3)
        for colour in texts:
            for background in backgrounds:
                self.assertGreaterEqual(contrast(colour, background), LEAST_CONTRAST, (colour, background))


def contrast(one: str, other: str) -> float:
    """The contrast of two colours."""
    dark, light = sorted((luminance(one), luminance(other)))
    return (light + 0.05) / (dark + 0.05)


def luminance(colour: str) -> float:
    digits = colour[1:] if len(colour) == 7 else "".join(2 * digit for digit in colour[1:])
    parts = [int(digits[place:place + 2], 16) / 255 for place in (0, 2, 4)]
    red, green, blue = (part / 12.92 if part <= 0.03928 else ((part + 0.055) / 1.055) ** 2.4 for part in parts)
    return float(0.2126 * red + 0.7152 * green + 0.0722 * blue)


class Requests(PageCase):
    def test_wrong_paths(self) -> None:
        self.add()
        wrong = ("/studies", "/studies/", "/studies/none", "/studies/none.json", "/studies/none/events", "/studies/none/plan.csv", "/studies/../host.ini",
                 "/studies/%2e%2e/host.ini", "/studies/study/study.db", "/studies/study/events/", "/studies/%ff", "/studies/study%00", "/studies/%",
                 "http://elsewhere/studies/study", "/server.py", "/style.css/", "/studies/study?train=0", "/studies/study?train=x&choice=0",
                 "/studies/study?pair=-1", "/studies/study?pair=9999999999", "/studies/study?other=1", '/studies/"', "/studies/<b>", "//[")
        for path in wrong:
            with self.subTest(path):
                got = self.get(path, headers={"Host": f"{LOOPBACK}:{self.port}"})
                self.assertEqual(got.status, 404)
                self.assertNotIn("<b>", got.body)

    def test_choices_that_are_not_there(self) -> None:
        self.load(TWO)
        for query in ("train=2&choice=0", "train=0&choice=2", "pair=1"):
            got = self.get(f"/studies/study?{query}")
            self.assertEqual(got.status, 404)
            self.assertEqual([element.attributes["href"] for element in Reader(got.body).named("a")], ["/", "/studies/study"])

    def test_methods(self) -> None:
        self.add()
        for method in ("POST", "PUT", "DELETE", "PATCH", "OPTIONS", "TRACE", "CONNECT", "BREW"):
            for path in ("/", "/studies/study", "/studies/study/events", "/none"):
                with self.subTest(f"{method} {path}"):
                    got = self.get(path, method)
                    self.assertEqual((got.status, got.headers["Allow"]), (405, "GET, HEAD"))

    def test_head_is_get_without_a_body(self) -> None:
        self.load(TWO)
        for path in ("/", "/style.css", "/studies/study", "/studies/study.json", "/none"):
            head, got = self.get(path, "HEAD"), self.get(path)
            self.assertEqual((head.status, head.headers["Content-Length"], head.body), (got.status, str(len(got.body.encode())), ""))
        self.assertEqual(self.get("/studies/study/events", "HEAD").headers["Content-Type"], "text/event-stream; charset=utf-8")

    def test_host_headers(self) -> None:
        for host in (f"{LOOPBACK}:{self.port}", f"localhost:{self.port}", f"LOCALHOST:{self.port}"):
            self.assertEqual(self.get("/", headers={"Host": host}).status, 200, host)
        for host in ("", LOOPBACK, "localhost", f"elsewhere.example:{self.port}", f"{LOOPBACK}:{self.port + 1}", f"127.0.0.2:{self.port}",
                     f"{LOOPBACK}.elsewhere.example:{self.port}", f"{LOOPBACK}:{self.port}@elsewhere", f"[::1]:{self.port}", "<b>"):
            with self.subTest(host):
                got = self.get("/", headers={"Host": host})
                self.assertEqual(got.status, 400)
                self.assertNotIn("<b>", got.body)
        self.assertIn(b"400", self.raw(b"GET / HTTP/1.1\r\n\r\n").splitlines()[0])
        right = f"Host: {LOOPBACK}:{self.port}\r\n".encode()
        self.assertIn(b"400", self.raw(b"GET / HTTP/1.1\r\n" + right + right + b"\r\n").splitlines()[0])

    def test_version_6(self) -> None:
        try:
            other = PageServer(Place("::1", 0, None, ()), Routes(Studies(self.data, self.library)))
        except OSError as error:
            self.skipTest(f"there is no ::1 here: {error.strerror}")
        with other:
            threading.Thread(target=other.serve_forever, kwargs={"poll_interval": 0.02}, daemon=True).start()
            self.assertEqual(str(other.place), f"http://[::1]:{other.place.port}/")
            connection = http.client.HTTPConnection("::1", other.place.port, timeout=PATIENCE)
            connection.request("GET", "/")
            self.assertEqual(connection.getresponse().status, 200)
            connection.close()
            other.shutdown()

    def test_requests_that_cannot_be_read(self) -> None:
        for request in (b"\x16\x03\x01\x02\x00\x01\r\n\r\n", b"GET\r\n\r\n", b"GET / HTTP/9.9\r\n\r\n", b"GET / HTTP/1.1\r\n" + b"A: b\r\n" * 200 + b"\r\n",
                        b"GET /" + b"a" * 70_000 + b" HTTP/1.1\r\n\r\n"):
            came = self.raw(request)
            self.assertNotIn(b"Traceback", came)
            self.assertFalse(came.startswith(b"HTTP/1.1 200"), came[:80])
        self.assertEqual(self.get("/").status, 200)

    def test_a_body_is_not_taken_for_a_request(self) -> None:
        right = f"Host: {LOOPBACK}:{self.port}\r\n".encode()
        inner = b"GET /style.css HTTP/1.1\r\n" + right + b"\r\n"
        came = self.raw(b"GET / HTTP/1.1\r\n" + right + b"Content-Length: %d\r\n\r\n" % len(inner) + inner)
        self.assertEqual(came.count(b"HTTP/1.1 200"), 1)

    def test_headers(self) -> None:
        self.load(TWO)
        for path in ("/", "/studies/study", "/studies/study.json", "/style.css", "/script.js", "/none"):
            headers = self.get(path).headers
            allowed = dict(rule.split(" ", 1) for rule in headers["Content-Security-Policy"].split("; "))
            own = [allowed.pop(name) for name in ("default-src", "style-src", "script-src", "connect-src")]
            self.assertEqual(own, ["'none'", "'self'", "'self'", "'self'"])
            self.assertLessEqual(set(allowed.values()), {"'none'", "'self'"})
            self.assertNotIn("Set-Cookie", headers)
            self.assertEqual(headers["X-Content-Type-Options"], "nosniff")


class Events(PageCase):
    @contextmanager
    def watching(self) -> Iterator[http.client.HTTPResponse]:
        """Events of the study."""
        connection = http.client.HTTPConnection(LOOPBACK, self.port, timeout=PATIENCE)
        try:
            connection.request("GET", "/studies/study/events")
            with connection.getresponse() as response:
                yield response
        finally:
            connection.close()

    def next(self, response: http.client.HTTPResponse) -> list[str]:
        """The next event."""
        read = list(iter(lambda: response.readline().decode().rstrip("\n"), ""))
        return read if read and not read[0].startswith(":") else self.next(response)

    def test_the_last_lines_number(self) -> None:
        self.load(TWO)
        with self.watching() as events:
            self.assertEqual((events.status, events.headers["Content-Type"]), (200, "text/event-stream; charset=utf-8"))
            self.assertEqual(self.next(events), ["id: 1", "data: 1"])
            self.take([b"04", b"04"])
            self.assertEqual(self.next(events), ["id: 3", "data: 3"])
            self.assertEqual(self.page().having(id="main")[0].attributes["data-line"], "3")

    def test_a_proof_that_is_kept(self) -> None:
        """It changes what a page says without a line."""
        self.load(TWO)
        with self.watching() as events:
            self.next(events)
            (store.database(self.data, "study").parent / "proofs").mkdir()
            self.assertEqual(self.next(events), ["id: 1", "data: 1"])

    def test_a_study_that_is_removed_while_it_is_watched(self) -> None:
        self.load(TWO)
        with self.watching() as events:
            self.next(events)
            store.remove(self.data, "study")
            self.assertEqual(self.next(events), ["event: removed", "data: removed"])
            self.assertEqual(events.read(), b"")
        got = self.get("/studies/study")
        self.assertEqual(got.status, 404)
        self.assertEqual([element.text for element in Reader(got.body).having(role="status")], ["There is no such study. It may have been taken away."])
        self.add()
        self.assertEqual(self.sentence(), "Nothing loaded")

    def test_64_connections_and_one_more(self) -> None:
        self.load(TWO)
        held = [self.watching() for _ in range(server.MOST_EVENTS)]
        self.assertEqual(len(held), 64)
        responses = [events.__enter__() for events in held]
        for events in held:
            self.addCleanup(events.__exit__, None, None, None)
        for response in responses:
            self.assertEqual((response.status, self.next(response)), (200, ["id: 1", "data: 1"]))
        with self.watching() as refused:
            self.assertEqual((refused.status, refused.headers["Retry-After"]), (503, "60"))
        self.assertEqual(self.sentence(), "No plan yet; no plan costs less than 0 points")
        held[0].__exit__(None, None, None)
        until(self.admitted, "a place is free again")

    def admitted(self) -> bool:
        """Whether one more is kept up to date."""
        with self.watching() as events:
            return events.status == 200


class Command(DataCase):
    """The command itself, as it is started."""

    def start(self, *arguments: str) -> tuple[subprocess.Popen[str], int]:
        """The page as a process of its own, from when it says where it is."""
        port = free_port()
        process = subprocess.Popen([support.HOST, "page", "--data", self.data, "--port", str(port), *arguments], stderr=subprocess.PIPE, text=True)
        self.addCleanup(process.wait, PATIENCE)
        self.addCleanup(process.kill)
        assert process.stderr is not None
        self.addCleanup(process.stderr.close)
        said = process.stderr.readline()
        self.assertIn(f"{LOOPBACK}:{port}/", said)
        return process, port

    def test_it_ends_by_a_signal(self) -> None:
        for number in (signal.SIGTERM, signal.SIGINT):
            process, port = self.start()
            with socket.create_connection((LOOPBACK, port), PATIENCE) as idle:
                idle.sendall(b"GET / ")
                process.send_signal(number)
                self.assertEqual((process.wait(PATIENCE), process.stderr and process.stderr.read()), (0, ""))

    def test_a_port_that_is_taken(self) -> None:
        _, port = self.start()
        done = subprocess.run([support.HOST, "page", "--data", self.data, "--port", str(port)], capture_output=True, text=True, timeout=PATIENCE)
        self.assertEqual((done.returncode, done.stderr), (2, f"host: the page cannot be shown at http://{LOOPBACK}:{port}/: Address already in use\n"))

    def test_other_addresses_need_tls_and_a_client_ca(self) -> None:
        self.refused("0.0.0.0")
        self.configure(**SERVER)
        self.refused("0.0.0.0")

    def refused(self, bind: str) -> None:
        """The page is not shown at an address."""
        done = subprocess.run([support.HOST, "page", "--data", self.data, "--port", "1", "--bind", bind], capture_output=True, text=True, timeout=PATIENCE)
        self.assertEqual((done.returncode, done.stdout), (2, ""))
        self.assertIn(f"loopback addresses only, and {bind} is none", done.stderr)

    def configure(self, **settings: Path) -> None:
        self.data.joinpath("host.ini").write_text("[host]\n" + "".join(f"{name} = {value}\n" for name, value in settings.items()))

    def test_tls(self) -> None:
        self.configure(**SERVER, client_ca=SERVER["certificate"].with_name("ca.crt"))
        _, port = self.start()
        self.assertEqual(self.status(port, client_context("client"), f"localhost:{port}"), 200)
        self.assertEqual(self.status(port, client_context("client"), f"{LOOPBACK}:{port}"), 200)
        self.assertEqual(self.status(port, client_context("client"), f"elsewhere.example:{port}"), 400)
        with self.assertRaises((ssl.SSLError, OSError)):
            self.status(port, client_context(), f"localhost:{port}")

    def status(self, port: int, context: ssl.SSLContext, host: str) -> int:
        """The status of the page of all studies, by TLS."""
        connection = http.client.HTTPSConnection("localhost", port, timeout=PATIENCE, context=context)
        try:
            connection.request("GET", "/", headers={"Host": host})
            return connection.getresponse().status
        finally:
            connection.close()


class Places(DataCase):
    def test_the_names_of_a_certificate(self) -> None:
        place = Place.of("0.0.0.0", 443, Config(certificate=str(SERVER["certificate"]), key=str(SERVER["key"])))
        self.assertEqual(place.names, ("localhost", LOOPBACK))
        named = place._replace(names=("junction.example", "*.rooms.example"))
        for host in ("junction.example", "junction.example:443", "Junction.Example:443", "a.rooms.example", "10.0.0.1"):
            self.assertTrue(named.has(host, "10.0.0.1"), host)
        for host in ("a.b.rooms.example", ".rooms.example", "rooms.example", "10.0.0.2", "localhost", "junction.example:444", "xjunction.example"):
            self.assertFalse(named.has(host, "10.0.0.1"), host)
        self.assertTrue(named.has("10.0.0.1", "::ffff:10.0.0.1"))
        self.assertTrue(named.has("[2001:db8::1]:443", "2001:db8::1"))
