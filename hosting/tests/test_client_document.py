"""docs/CLIENT.md: its examples, run one after the other against a host, print what stands below them; its tables name every method, exception and format."""

import contextlib
import io
import os
import re
import shutil

import junction
from hosting import library
from hosting.tests import support
from hosting.tests.running import HostTest
from junction.formats import FORMATS
from junction.services import Service

DOCUMENT = (support.ROOT / "docs/CLIENT.md").read_text(encoding="utf-8")
EXAMPLE = re.compile(r"^```python\n(.*?)^```\n\n```text\n(.*?)^```$", re.MULTILINE | re.DOTALL)
ADDRESS = "127.0.0.1:7001"


class Examples(HostTest):
    def test_what_they_print(self) -> None:
        examples = EXAMPLE.findall(DOCUMENT)
        self.assertEqual((len(examples), DOCUMENT.count("```")), (4, 4 * len(examples)))
        self.assertIn(ADDRESS, examples[0][0])
        host = self.running("north")
        self.addCleanup(os.chdir, os.getcwd())
        os.chdir(host.data)
        shutil.copy(support.ROOT / "examples/north.csv", host.data)
        shutil.copy(library.installed().path, host.data / "libjunction.so")
        names: dict[str, object] = {}
        for code, expected in examples:
            with contextlib.redirect_stdout(io.StringIO()) as printed:
                exec(code.replace(ADDRESS, f"127.0.0.1:{host.ports['north']}"), names)
            self.assertEqual(printed.getvalue(), expected)
        self.verified(host, "north")

    def test_all_is_named(self) -> None:
        methods = [name for name in vars(Service) if not name.startswith("_") and name != "close"]
        self.assertGreaterEqual(len(methods), 17)
        for name in methods:
            self.assertIn(f"`{name}(", DOCUMENT)
        for error in (junction.Refused, junction.Disconnected, junction.FormatError, junction.Unreadable, junction.NoPlace, junction.Absent):
            self.assertIn(f"| `{error.__name__}", DOCUMENT)
        for suffix in FORMATS:
            self.assertIn(f"| `.{suffix}` |", DOCUMENT)
