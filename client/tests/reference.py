"""The reference implementation, which expected replies come from."""

import os
import subprocess
import unittest
from pathlib import Path

ROOT = Path(__file__).resolve().parent.parent.parent
PROGRAM = Path(os.environ.get("JUNCTION_REFERENCE", ROOT / "target/tests/release/reference-session"))


def replies(*lines: str) -> list[str]:
    """The replies of the reference to lines, from a fresh block."""
    if not PROGRAM.exists():
        raise unittest.SkipTest(f"there is no {PROGRAM}: 'cargo build --release' in tests makes it")
    text = "".join(f"{line}\n" for line in lines)
    return subprocess.run([PROGRAM], input=text, capture_output=True, text=True, check=True).stdout.splitlines()


def saved(*loads: str) -> list[str]:
    """What the reference saves of each study that these lines load."""
    return replies(*(line for load in loads for line in (load, "07")))[1::2]
