"""What commands print, and their exit status: 0 done; 1 a check found something, or a line was declined; 2 wrong use, or it could not be done."""

import json
import sys
from collections.abc import Iterable, Mapping

DONE, FOUND, FAILED = 0, 1, 2


def complain(text: str, status: int) -> int:
    """Says on standard error what is wrong."""
    print(f"host: {text}", file=sys.stderr)
    return status


def note(texts: Iterable[str]) -> None:
    """Says on standard error what a user should know of what was done."""
    for text in texts:
        print(f"host: {text}", file=sys.stderr)


def print_json(facts: Mapping[str, object]) -> int:
    """Prints facts as one JSON object."""
    print(json.dumps(facts))
    return DONE
