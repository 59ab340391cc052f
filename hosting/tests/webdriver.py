"""A browser, by the interface that chromedriver has over HTTP (W3C WebDriver), for tests of pages.

It runs without a window, with a profile in a temporary folder, and finds no host but this machine.
"""

import base64
import json
import os
import shutil
import signal
import subprocess
import tempfile
import urllib.error
import urllib.request
from collections.abc import Iterator
from pathlib import Path
from typing import Any

from hosting.tests.running import LOOPBACK, PATIENCE, free_port, until

COMMANDS = ("chromium", "chromedriver")
# The key under which the interface names an element.
ELEMENT = "element-6066-11e4-a52e-4f735466cecf"
OPTIONS = (
    "--headless=new", "--disable-gpu", "--no-first-run", "--disable-background-networking", "--disable-component-update", "--disable-sync",
    "--disable-dev-shm-usage", "--force-color-profile=srgb", "--lang=en", f"--host-resolver-rules=MAP * ~NOTFOUND, EXCLUDE {LOOPBACK}",
)
TAB, ENTER, DOWN = "\ue004", "\ue007", "\ue015"


def missing() -> list[str]:
    """The commands that a browser needs and that are not on the path."""
    return [command for command in COMMANDS if shutil.which(command) is None]


class Browser:
    """A browser with one page. `close` ends it."""

    def __init__(self) -> None:
        self._home = tempfile.mkdtemp(prefix="browser-")
        self._driver = f"http://{LOOPBACK}:{(port := free_port())}"
        environment = {**os.environ, **dict.fromkeys(("HOME", "TMPDIR", "XDG_CONFIG_HOME", "XDG_CACHE_HOME"), self._home)}
        command = [COMMANDS[1], f"--port={port}"]
        self._process = subprocess.Popen(command, stdout=subprocess.DEVNULL, stderr=subprocess.DEVNULL, env=environment, start_new_session=True)
        try:
            until(self._is_ready, f"a browser's driver at port {port}")
            root = ["--no-sandbox"] if os.geteuid() == 0 else []
            options = {"args": [*OPTIONS, *root, f"--user-data-dir={self._home}/profile"], "binary": shutil.which(COMMANDS[0])}
            wanted = {"goog:chromeOptions": options, "goog:loggingPrefs": {"browser": "ALL", "performance": "ALL"}}
            self._session = f"/session/{self._call('POST', '/session', {'capabilities': {'alwaysMatch': wanted}})['sessionId']}"
            # What the browser shows of itself at first is left, and forgotten.
            self.open("about:blank")
            list(self.requested())
        except BaseException:
            self._end()
            raise

    def _is_ready(self) -> bool:
        try:
            return bool(self._call("GET", "/status")["ready"])
        except urllib.error.URLError:
            return False

    def _call(self, method: str, path: str, body: object = None) -> Any:
        data = None if body is None else json.dumps(body).encode()
        request = urllib.request.Request(self._driver + path, data, {"Content-Type": "application/json"}, method=method)
        try:
            with urllib.request.urlopen(request, timeout=PATIENCE) as answer:
                return json.load(answer)["value"]
        except urllib.error.HTTPError as error:
            raise AssertionError(f"the browser declined {path}: {json.load(error)['value']['message']}") from None

    def do(self, method: str, path: str, body: object = None) -> Any:
        """A command of the interface."""
        return self._call(method, self._session + path, body)

    def devtools(self, command: str, **given: object) -> Any:
        """A command of the browser's own interface."""
        return self.do("POST", "/goog/cdp/execute", {"cmd": command, "params": given})

    def open(self, address: str) -> None:
        """Shows a page, and waits until it is loaded."""
        self.do("POST", "/url", {"url": address})

    def wide(self, pixels: int, high: int = 900, zoom: int = 1) -> None:
        """Makes the page so wide. Enlarged, so many of its pixels are one of its own."""
        self.devtools("Emulation.setDeviceMetricsOverride", width=pixels // zoom, height=high // zoom, deviceScaleFactor=zoom, mobile=False)

    def script(self, text: str, *given: object) -> Any:
        """What a script returns."""
        return self.do("POST", "/execute/sync", {"script": text, "args": list(given)})

    def find(self, selector: str) -> str:
        """An element."""
        return str(self.do("POST", "/element", {"using": "css selector", "value": selector})[ELEMENT])

    def text(self, selector: str) -> str:
        """The text of an element as a reader sees it."""
        return str(self.do("GET", f"/element/{self.find(selector)}/text"))

    def said(self, selector: str) -> tuple[str, str]:
        """Role and label of an element, as it is read out."""
        element = self.find(selector)
        role, label = (self.do("GET", f"/element/{element}/computed{what}") for what in ("role", "label"))
        return str(role), str(label)

    def click(self, selector: str) -> None:
        """A click on an element."""
        self.do("POST", f"/element/{self.find(selector)}/click", {})

    def press(self, *keys: str) -> None:
        """Presses keys, one after the other."""
        strokes = [{"type": kind, "value": key} for key in keys for kind in ("keyDown", "keyUp")]
        self.do("POST", "/actions", {"actions": [{"type": "key", "id": "keyboard", "actions": strokes}]})

    def console(self) -> list[str]:
        """What the page has said on the console since it was asked last."""
        return [entry["message"] for entry in self.do("POST", "/se/log", {"type": "browser"})]

    def requested(self) -> Iterator[str]:
        """The addresses that the page has asked for since it was asked last."""
        page = self.do("GET", "/window")
        for entry in self.do("POST", "/se/log", {"type": "performance"}):
            noted = json.loads(entry["message"])
            if noted["webview"] == page and noted["message"]["method"] == "Network.requestWillBeSent":
                yield noted["message"]["params"]["request"]["url"]

    def shot(self, path: Path) -> None:
        """Writes what the page looks like to a file: all of it, by a window so high that nothing has to be scrolled to."""
        width, zoom = self.script("return [innerWidth * devicePixelRatio, devicePixelRatio]")
        self.devtools("Emulation.setScrollbarsHidden", hidden=True)
        self.wide(width, zoom=zoom)
        self.wide(width, zoom * self.script("return document.documentElement.scrollHeight"), zoom)
        path.write_bytes(base64.b64decode(self.do("GET", "/screenshot")))
        self.devtools("Emulation.setScrollbarsHidden", hidden=False)
        self.wide(width, zoom=zoom)

    def close(self) -> None:
        """Ends the browser."""
        try:
            self.do("DELETE", "")
        finally:
            self._end()

    def _end(self) -> None:
        """Ends the driver and what it began, and takes the profile away."""
        os.killpg(self._process.pid, signal.SIGKILL)
        self._process.wait(PATIENCE)
        shutil.rmtree(self._home, ignore_errors=True)
