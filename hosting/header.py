"""Lengths and limits of a library, from its header junction.h. Nothing else in the host states one of them."""

import re
from pathlib import Path

from junction.lengths import Lengths

DEFINITION = re.compile(r"^#define (JUNCTION_[A-Z_]+) ([0-9]+|JUNCTION_[A-Z_]+)$", re.MULTILINE)


class HeaderError(Exception):
    """A header that does not say every length."""


def definition(field: str) -> str:
    """The name that a field has in the header."""
    return "JUNCTION_" + field.upper()


def parse(text: str) -> Lengths:
    """The lengths that a header's text says, each as a number or as the name of another length."""
    said = dict(DEFINITION.findall(text))
    values = []
    for field in Lengths._fields:
        value = said.get(definition(field), "")
        value = said.get(value, value)
        if not value.isdecimal():
            raise HeaderError(f"the header does not say {definition(field)} as a number")
        values.append(int(value))
    return Lengths(*values)


def read(path: Path) -> Lengths:
    """The lengths that a header file says."""
    try:
        return parse(path.read_text(encoding="utf-8"))
    except (OSError, ValueError, HeaderError) as error:
        raise HeaderError(f"{path}: {error}") from error


def text(header: Lengths) -> str:
    """A header that says these lengths and nothing else, kept beside the copy of a library."""
    return "".join(f"#define {definition(field)} {value}\n" for field, value in header._asdict().items())
