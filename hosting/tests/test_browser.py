"""The page as a reader has it, in a browser, where one is there (Debian's packages chromium and chromium-driver).

The figures of the worked session are README's; those of the file north.csv are README's too. Pictures of each state are left under target/page/.
"""

import hashlib
import json
import subprocess
import sys
import tempfile
import unittest
import urllib.error
import urllib.request
from pathlib import Path
from typing import NamedTuple

from hosting import store
from hosting.records import Address, Settings
from hosting.tests import support, webdriver
from hosting.tests.running import LOOPBACK, PATIENCE, Running, free_port, until
from hosting.tests.webdriver import DOWN, ENTER, TAB, Browser

PICTURES = support.ROOT / "target/page"
NARROW, WIDE, TWICE = (360, 1), (1200, 1), (1200, 2)
CONTRAST = 4.5

NORTH = "north"
DAMAGED, NAMED, FULL, WATCHED, GONE = "damaged", "named", "full", "watched", "gone"
# One train with one choice, which is forbidden, and a search.
CLOSED = [b"01010001" + b"01" + b"FFFFFF" + b"00", support.SEARCH]
# Names that would be something else on a page that took them for its own.
SCRIPT = "<script>alert(1)</script>"
QUOTED = """train,choice,with_train,with_choice,cost
<script>alert(1)</script>,"a ""quoted"" & 100 % long-name-without-any-place-to-break-it",,,1
<script>alert(1)</script>,<b>bold</b>,,,2
S 1,'platform',,,forbidden
S 1,platform 2,,,0
<script>alert(1)</script>,<b>bold</b>,S 1,platform 2,3
"""


class State(NamedTuple):
    """A state: the lines that lead to it, and what a reader then sees."""

    lines: list[bytes]
    sentence: str
    bound: str
    best: str
    ground: str


NONE = "none"
STATES = {
    "nothing": State([], "Nothing loaded", NONE, NONE, ""),
    "begun": State(support.LINES[:2], "No plan yet; no plan costs less than 2 points", "2 points", NONE, ""),
    "unsettled": State(support.LINES[:6],
                       "Not settled: a plan of 3 points is at hand, the bound is 2: at most 1 point could be saved", "2 points", "3 points", ""),
    "publish": State(support.LINES[:4], "Publish: no plan costs less than 2 points", "2 points", "2 points", "Ground: the bound equals the cost (line 3)."),
    "ended": State([support.LOAD, support.SEARCH], "Publish: no plan costs less than 2 points", "0 points", "2 points",
                   "Ground: a search ended (line 2) and nothing was added since."),
    "proved": State([support.LOAD], "Publish: no plan costs less than 2 points", "0 points", "2 points", "Ground: a proof of these very costs is kept."),
    "closed": State(CLOSED, "There is no plan", "0 points", NONE, "Ground: a search ended without a plan (line 2)."),
}

# README's lines 1, 2 and 4 settle its study in one part.
SETTLING = (0, 1, 3)
PROOF: list[dict[str, object]] = [
    {"save": support.LOAD.decode()},
    {"part": [[0, 1], [0, 1]], "trains": [0, 1], "choices": [[0, 1], [0, 1]], "lines": [support.LINES[number].decode() for number in SETTLING],
     "replies": [support.REPLIES[number].decode() for number in SETTLING]},
    {"plan": [0, 1], "cost": 2},
]
# What comes while the page of a study with the worked session's first two lines is open: a search, which finds plan 01, and 3 points added to this plan.
FOLLOWING = (
    (support.LINES[3], "3", "2 points", "Publish: no plan costs less than 2 points"),
    (support.LINES[4], "4", "5 points", "Not settled: a plan of 5 points is at hand, the bound is 2: at most 3 points could be saved"),
)

# Boxes that reach beyond the page's right edge, so that a reader would have to scroll to them.
BEYOND = """
const wide = document.documentElement.clientWidth;
const beyond = (one) => one.getBoundingClientRect().right > wide + 0.5 && getComputedStyle(one).clipPath === "none";
const out = [...document.querySelectorAll("body *")].filter(beyond);
return {scroll: Math.max(document.scrollingElement.scrollWidth, document.body.scrollWidth) - wide, out: out.map((one) => one.outerHTML.slice(0, 120))};
"""
# Texts whose contrast with what is behind them is below a ratio (WCAG 2.2, 1.4.3), by the colours as they are drawn. A hatched ground has two colours.
FAINT = """
const numbers = (colour) => colour.match(/[0-9.]+/g).map(Number);
const part = (value) => value <= 10.31475 ? value / 3294.6 : ((value / 255 + 0.055) / 1.055) ** 2.4;
const light = (colour) => { const [red, green, blue] = numbers(colour).map(part); return 0.2126 * red + 0.7152 * green + 0.0722 * blue; };
const ratio = (one, other) => { const [low, high] = [light(one), light(other)].sort((a, b) => a - b); return (high + 0.05) / (low + 0.05); };
const opaque = (colour) => numbers(colour).length === 3 || numbers(colour)[3] > 0;
function behind(element) {
  for (let at = element; at; at = at.parentElement) {
    const style = getComputedStyle(at);
    const drawn = style.backgroundImage.match(/rgb\\([^)]*\\)/g);
    if (drawn) { return drawn; }
    if (opaque(style.backgroundColor)) { return [style.backgroundColor]; }
  }
  return ["rgb(255, 255, 255)"];
}
const walker = document.createTreeWalker(document.body, NodeFilter.SHOW_TEXT);
const faint = [];
for (let node = walker.nextNode(); node; node = walker.nextNode()) {
  const element = node.parentElement;
  if (!node.data.trim() || !element.getClientRects().length || element.closest("title, desc, script")) { continue; }
  const colour = element.closest("svg") ? getComputedStyle(element).fill : getComputedStyle(element).color;
  const least = Math.min(...behind(element).map((ground) => ratio(colour, ground)));
  if (least < arguments[0]) { faint.push([node.data.trim().slice(0, 40), colour, least]); }
}
return faint;
"""
# All that a keyboard should reach, in the order of the page.
REACHED = """
const all = [...document.querySelectorAll("a[href], button, select, summary, input:not([type=hidden])")];
return all.filter((one) => one.getClientRects().length).map((one) => one.tagName + " " + one.textContent.trim());
"""
FOCUSED = """
const one = document.activeElement, style = getComputedStyle(one);
const seen = style.outlineStyle !== "none" && parseFloat(style.outlineWidth) >= 2;
return {name: one === document.body ? null : one.tagName + " " + one.textContent.trim(), seen};
"""
# Texts of a drawing whose boxes overlap.
OVERLAPPING = """
const boxes = [...document.querySelectorAll("svg text")].map((one) => [one.textContent, one.getBoundingClientRect()]);
const apart = (a, b) => a.right <= b.left || b.right <= a.left || a.bottom <= b.top + 1 || b.bottom <= a.top + 1;
return boxes.flatMap(([name, box], at) => boxes.slice(at + 1).filter((other) => !apart(box, other[1])).map((other) => [name, other[0]]));
"""
LEVELS = 'return [...document.querySelectorAll("h1, h2, h3, h4, h5, h6")].map((one) => Number(one.tagName[1]));'
LISTEN = """
window.said = [];
new EventSource(document.body.dataset.events).onmessage = (event) => window.said.push(event.data);
"""


class Shown:
    """The page of a data folder, a process of its own. `close` ends it."""

    def __init__(self, data: Path) -> None:
        self._error = tempfile.TemporaryFile()
        port = free_port()
        self.address = f"http://{LOOPBACK}:{port}"
        self._process = subprocess.Popen([support.HOST, "page", "--data", data, "--port", str(port)], stderr=self._error)
        try:
            until(self._answers, f"a page at {self.address}")
        except BaseException:
            self.close()
            raise

    def _answers(self) -> bool:
        if self._process.poll() is not None:
            self._error.seek(0)
            raise AssertionError(f"the page ended: {self._error.read().decode()}")
        try:
            with urllib.request.urlopen(self.address, timeout=PATIENCE):
                return True
        except urllib.error.URLError:
            return False

    def close(self) -> None:
        """Ends the page."""
        self._process.terminate()
        try:
            self._process.wait(PATIENCE)
        finally:
            self._process.kill()
            self._error.close()


def setUpModule() -> None:
    """A host, its page, and a browser for all tests."""
    absent = webdriver.missing()
    if absent:
        said = f"the page was not tried in a browser: there is no {' and no '.join(absent)} on the path"
        print(said, file=sys.stderr)
        raise unittest.SkipTest(said)
    PICTURES.mkdir(parents=True, exist_ok=True)
    host = Running(*STATES, NORTH, NAMED, FULL, WATCHED, GONE)
    unittest.addModuleCleanup(host.close)
    _fill(host)
    shown = Shown(host.data)
    unittest.addModuleCleanup(shown.close)
    browser = Browser()
    unittest.addModuleCleanup(browser.close)
    InBrowser.host, InBrowser.shown, InBrowser.browser = host, shown, browser


class InBrowser(unittest.TestCase):
    """A test with the host, its page, and the browser of all."""

    host: Running
    shown: Shown
    browser: Browser

    def setUp(self) -> None:
        self.browser.wide(*WIDE[:1])

    def tearDown(self) -> None:
        """Whatever was shown: the page said nothing on the console, and asked for nothing but what is at its own address."""
        self.assertEqual(self.browser.console(), [])
        self.assertEqual([address for address in self.browser.requested() if not address.startswith(self.shown.address + "/")], [])

    def open(self, path: str) -> None:
        """Shows what is at a path of the page."""
        self.browser.open(self.shown.address + path)

    def figures(self) -> dict[str, str]:
        """The figures under the sentence, as a reader sees them."""
        pairs = self.browser.script('return [...document.querySelectorAll("dl dt")].map((one) => [one.innerText, one.nextElementSibling.innerText])')
        return {name.strip(): " ".join(value.split()) for name, value in pairs}

    def picture(self, name: str) -> None:
        """Leaves a picture of the page."""
        self.browser.shot(PICTURES / f"{name}.png")

    def wait(self, script: str, returned: str) -> None:
        """Waits until a script returns something."""
        until(lambda: str(self.browser.script(script)) == returned, f"{returned}, by {script}")

    def cells(self, rows: str) -> list[list[str]]:
        """The cells of some rows, as a reader sees them."""
        return list(self.browser.script("return [...document.querySelectorAll(arguments[0])].map((row) => [...row.cells].map((one) => one.innerText))", rows))


def _fill(host: Running) -> None:
    """Leads each study to what is shown of it."""
    for name, state in STATES.items():
        if state.lines:
            host.session(name, _text(state.lines))
    host.session(FULL, _text([support.full_load(), b"08", b"0600001000"]))
    host.session(WATCHED, _text(support.LINES[:2]))
    quoted = host.data / "quoted.csv"
    quoted.write_text(QUOTED)
    commands: list[list[object]] = [["import", NORTH, support.ROOT / "examples/north.csv"], ["lift", NORTH], ["send", NORTH, "search", 1_000_000],
                                    ["import", NAMED, quoted], ["send", NAMED, "search", 1000]]
    for command in commands:
        done = host.command(*command)
        if done.returncode != 0:
            raise AssertionError(done.stderr)
    proofs = store.database(host.data, "proved").with_name("proofs")
    proofs.mkdir()
    proofs.joinpath(hashlib.sha256(support.LOAD).hexdigest()).write_text("".join(json.dumps(row) + "\n" for row in PROOF))
    store.create(host.data, Settings(DAMAGED, Address("", 0, str(host.data / "damaged.socket")), False))
    store.database(host.data, DAMAGED).write_bytes(b"no database" * 1000)


def _text(lines: list[bytes]) -> bytes:
    return b"".join(line + b"\n" for line in lines)


class Read(InBrowser):
    """What a reader sees and hears."""

    def test_each_state_in_one_sentence_with_its_figures(self) -> None:
        for name, state in STATES.items():
            with self.subTest(name):
                self.open(f"/studies/{name}")
                self.assertEqual(self.browser.said('[role="status"]')[0], "status")
                self.assertEqual(self.browser.text('[role="status"]'), state.sentence)
                self.assertEqual(self.browser.text("h1"), f"Study {name}")
                figures = self.figures()
                self.assertEqual((figures["Bound"], figures["Best cost"]), (state.bound, state.best))
                self.assertEqual(figures["Lines"], f"{len(state.lines)} answered")
                self.assertIn(state.ground, self.browser.text("main"))
                self.picture(name)

    def test_the_sentence_is_read_first(self) -> None:
        self.open(f"/studies/{NORTH}")
        top = self.browser.script('return [...document.querySelectorAll("main > *")].map((one) => one.getAttribute("role"))')
        self.assertEqual((top[0], top.count("status")), ("status", 1))
        box = self.browser.script('const box = document.querySelector("[role=status]").getBoundingClientRect(); return [box.top, box.bottom]')
        self.assertLess(0, box[0])
        self.assertLess(box[1], 300)

    def test_unsettled_has_the_next_commands(self) -> None:
        self.open("/studies/unsettled")
        said = self.browser.text("main")
        self.assertLess(said.index("./host lift unsettled"), said.index("./host solve unsettled"))
        self.open("/studies/publish")
        self.assertNotIn("./host", self.browser.text("main"))

    def test_a_damaged_study_is_said_to_be_one(self) -> None:
        self.open(f"/studies/{DAMAGED}")
        said = self.browser.text('[role="status"]')
        self.assertIn("cannot be used", said)
        self.assertNotIn("Traceback", self.browser.text("body"))
        self.picture(DAMAGED)
        self.open("/")
        self.assertIn("cannot be read", self.browser.text("main"))

    def test_all_studies(self) -> None:
        self.open("/")
        self.assertEqual(self.browser.text("h1"), "Studies")
        rows = self.cells("tbody tr")
        shown = {row[0]: row[1:] for row in rows}
        self.assertEqual(set(shown) - {GONE}, {*STATES, NORTH, NAMED, FULL, WATCHED, DAMAGED})
        self.assertEqual(shown["publish"][:3], ["publish", "2", "2"])
        self.assertEqual(shown["unsettled"][:3], ["not settled", "2", "3"])
        self.assertEqual(shown["nothing"], ["nothing loaded", NONE, NONE, NONE])
        self.picture("all")
        self.browser.click(f'a[href="/studies/{NORTH}"]')
        self.assertEqual(self.browser.text("h1"), f"Study {NORTH}")

    def test_role_and_label_of_chart_and_cells(self) -> None:
        self.open(f"/studies/{NORTH}")
        role, label = self.browser.said("svg")
        self.assertEqual(role, "image")
        self.assertRegex(label, r"^Bound, best cost and ceiling, lines 1 to \d+ ")
        for figure in ("Bound: 0 at first, 12 now.", "Best cost: 15 at first, 15 now."):
            self.assertIn(figure, label)
        cells = '[aria-label="What each choice still costs"]'
        self.assertEqual(self.browser.said(cells), ("table", "What each choice still costs"))
        self.assertEqual(self.browser.said(f"{cells} tr")[0], "row")
        self.assertEqual(self.browser.said(f"{cells} th"), ("rowheader", "RE 5"))
        self.assertEqual(self.browser.said(f"{cells} td")[0], "cell")
        for choice, planned in ((0, False), (2, True)):
            said = self.browser.said(f'{cells} a[href="?train=0&choice={choice}#ground"]')
            self.assertEqual(said[0], "link")
            self.assertRegex(said[1], "^RE 5, platform 1" + (r" \+3: .*, in the best plan$" if planned else r": .* left$"))
        forbidden = self.browser.said(f'{cells} a[href="?train=4&choice=1#ground"]')
        self.assertEqual(forbidden, ("link", "Freight 447, platform 3: forbidden"))
        self.assertIn("✕", self.browser.text(f'{cells} a[href="?train=4&choice=1#ground"]'))

    def test_trains_and_choices_without_names(self) -> None:
        # README's line 8 lifts the 1 part that train 1, choice 0 then has left, as its line 10 shows.
        self.open("/studies/unsettled")
        self.assertEqual(self.browser.said('#choices a[href="?train=1&choice=0#ground"]')[1], "train 1, choice 0: 1 point left, in the best plan")
        self.assertEqual(self.cells("#plan tbody tr")[0][:2], ["train 0", "choice 0"])

    def test_values_at_the_ends_do_not_overlap(self) -> None:
        for name in ("publish", "unsettled", "ended", NORTH, FULL):
            self.open(f"/studies/{name}")
            for width, zoom in (NARROW, WIDE):
                with self.subTest(name, width=width):
                    self.browser.wide(width, zoom=zoom)
                    self.assertEqual(self.browser.script(OVERLAPPING), [])

    def test_the_same_numbers_as_a_table(self) -> None:
        self.open("/studies/publish")
        self.assertFalse(self.browser.script('return document.querySelector("#numbers").open'))
        self.browser.click("#numbers summary")
        rows = self.cells("#numbers tbody tr")
        self.assertEqual(rows[0][:2], ["1", "0"])
        self.assertEqual(rows[-1], ["4", "2", "2", "2"])

    def test_the_plan_by_train_and_the_best_cost_of_north(self) -> None:
        self.open(f"/studies/{NORTH}")
        self.assertEqual(self.browser.text('[role="status"]'), "Publish: no plan costs less than 15 points")
        self.assertEqual((self.figures()["Bound"], self.figures()["Best cost"]), ("12 points", "15 points"))
        rows = self.cells("#plan tbody tr")
        plan = ["platform 1 +3", "platform 2", "platform 3", "platform 1", "loop"]
        self.assertEqual([row[:2] for row in rows], [list(pair) for pair in zip(["RE 5", "RB 22", "S 1", "IC 61", "Freight 447"], plan, strict=True)])
        self.picture(NORTH)

    def test_names_are_names(self) -> None:
        self.open(f"/studies/{NAMED}")
        self.assertIn(SCRIPT, self.browser.text("#plan"))
        self.assertIn('a "quoted" & 100 % long-name', self.browser.text("#choices"))
        made = 'return ["script", "main script, #choices b, #plan b"].map((selector) => document.querySelectorAll(selector).length)'
        self.assertEqual(self.browser.script(made), [1, 0])
        self.assertEqual(self.browser.said('#choices a[href="?train=1&choice=0#ground"]')[1], "S 1, 'platform': forbidden")
        self.browser.click('#choices a[href="?train=0&choice=1#ground"]')
        self.assertIn(SCRIPT, self.browser.text("#ground"))
        self.picture(NAMED)


class Shape(InBrowser):
    """How the page is laid out."""

    PATHS = ("/", f"/studies/{FULL}?train=0&choice=7&pair=47", f"/studies/{NAMED}?train=0&choice=0", f"/studies/{NORTH}?train=0&choice=0",
             *(f"/studies/{name}" for name in (DAMAGED, "nothing", "begun", "unsettled", "proved", "closed")))

    def test_each_page_can_be_read(self) -> None:
        for path in self.PATHS:
            with self.subTest(path):
                self.open(path)
                self.assertEqual(self.browser.script("return document.documentElement.lang"), "en")
                self.assertNotEqual(self.browser.script("return document.title"), "")
                levels = self.browser.script(LEVELS)
                self.assertEqual((levels[0], levels.count(1)), (1, 1))
                self.assertTrue(all(below <= level + 1 for level, below in zip(levels, levels[1:])), levels)
                self.browser.script('document.querySelectorAll("details").forEach((one) => { one.open = true; })')
                self.assertEqual(self.browser.script(FAINT, CONTRAST), [])
            for width, zoom in (NARROW, WIDE, TWICE):
                with self.subTest(path, width=width, zoom=zoom):
                    self.browser.wide(width, zoom=zoom)
                    self.assertEqual(self.browser.script(BEYOND), {"scroll": 0, "out": []})

    def test_pictures_of_a_narrow_page(self) -> None:
        self.browser.wide(*NARROW[:1])
        for name in ("unsettled", NORTH, FULL):
            self.open(f"/studies/{name}")
            self.picture(f"{name}-narrow")


class ByKeyboard(InBrowser):
    """The page without a mouse."""

    def test_all_is_reached_in_the_order_of_the_page(self) -> None:
        self.open(f"/studies/{NORTH}")
        wanted = self.browser.script(REACHED)
        reached = []
        for _ in wanted:
            self.browser.press(TAB)
            focused = self.browser.script(FOCUSED)
            self.assertTrue(focused["seen"], focused)
            reached.append(focused["name"])
        self.assertEqual(reached, wanted)

    def test_a_choice_leads_to_its_ground(self) -> None:
        self.open(f"/studies/{NORTH}")
        self.browser.script("arguments[0].focus()", {webdriver.ELEMENT: self.browser.find('a[href="?train=0&choice=0#ground"]')})
        self.browser.press(ENTER)
        self.wait("return location.search + location.hash", "?train=0&choice=0#ground")
        self.assertTrue(self.browser.text("#ground").startswith("RE 5, platform 1\n"))
        box = self.browser.script('const box = document.querySelector("#ground").getBoundingClientRect(); return [box.top >= 0, box.bottom <= innerHeight]')
        self.assertEqual(box, [True, True])
        self.assertEqual(self.browser.script('return document.querySelectorAll("#choices [aria-current=true]").length'), 1)
        self.picture("ground")

    def test_a_pair_is_chosen_from_the_list(self) -> None:
        self.open(f"/studies/{NORTH}")
        first = self.browser.script('return document.querySelector("#pairs table").getAttribute("aria-label")')
        self.assertEqual(first, "RE 5 with RB 22")
        self.browser.script("arguments[0].focus()", {webdriver.ELEMENT: self.browser.find("select")})
        self.browser.press(DOWN, TAB, ENTER)
        self.wait("return location.search + location.hash", "?pair=1#pairs")
        self.assertEqual(self.browser.said("#pairs table"), ("table", "RE 5 with S 1"))
        entry = self.browser.script('return document.querySelectorAll("#pairs table tr")[1].cells[1].innerText')
        self.assertIn("forbidden", entry)
        self.assertIn("✕", entry)

    def test_what_was_sent_is_opened_and_closed(self) -> None:
        self.open("/studies/publish")
        line = support.LINES[3].decode()
        self.assertNotIn(line, self.browser.text("#last"))
        self.browser.script("arguments[0].focus()", {webdriver.ELEMENT: self.browser.find("#line-4 summary")})
        self.browser.press(ENTER)
        self.assertIn(line, self.browser.text("#last"))
        self.browser.press(ENTER)
        self.assertNotIn(line, self.browser.text("#last"))


class Followed(InBrowser):
    """A page that stays open."""

    def test_a_line_shows_without_reloading(self) -> None:
        self.open(f"/studies/{WATCHED}")
        self.assertEqual(self.browser.text('[role="status"]'), "No plan yet; no plan costs less than 2 points")
        self.browser.click("#numbers summary")
        self.browser.script(LISTEN)
        until(lambda: self.said() == ["2"], "the events' first message")
        for line, number, best, sentence in FOLLOWING:
            self.host.session(WATCHED, line + b"\n")
            self.wait("return window.said.at(-1)", number)
            self.wait('return document.querySelector("main").dataset.line', number)
            self.assertEqual(self.figures()["Lines"], f"{number} answered")
            self.assertEqual(self.browser.text('[role="status"]'), sentence)
            self.assertEqual(self.figures()["Best cost"], best)
        self.assertEqual(self.said(), ["2", "3", "4"])
        self.assertTrue(self.browser.script('return document.querySelector("#numbers").open'))

    def test_a_study_is_taken_away(self) -> None:
        self.open(f"/studies/{GONE}")
        self.assertEqual(self.browser.text('[role="status"]'), "Nothing loaded")
        self.assertEqual(self.host.command("remove", GONE).returncode, 0)
        self.wait("""return document.querySelector('[role="status"]').innerText""", "There is no such study. It may have been taken away.")
        # That the page of the study is no longer there is for the browser to say, too.
        self.assertTrue(all("404" in said for said in self.browser.console()))

    def said(self) -> list[str]:
        """What the events have said. A page that was loaded anew would not know."""
        return list(self.browser.script("return window.said"))

    def test_whole_without_a_script(self) -> None:
        self.open(f"/studies/{NORTH}")
        with_script = self.browser.text("main")
        self.browser.devtools("Emulation.setScriptExecutionDisabled", value=True)
        try:
            self.open(f"/studies/{NORTH}")
            self.assertEqual(self.browser.text("main"), with_script)
        finally:
            self.browser.devtools("Emulation.setScriptExecutionDisabled", value=False)
