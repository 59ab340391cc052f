"""A client of the junction bound service, by the standard library alone."""

from junction import formats
from junction.errors import Disconnected, Failure, FormatError, LibraryError, NoPlace, Refused, Unreadable
from junction.formats import write
from junction.replies import BY_ITSELF, ENDED, NOT_OUT, SPENT, WITH_PARTNER, WITHOUT_PLAN, Bound, Ceiling, Choices, Found, Order, Reason, Record
from junction.services import Service, connect, library, program
from junction.study import SCALE, Absent, Choice, Pair, Study, Train

__all__ = [
    "BY_ITSELF", "ENDED", "NOT_OUT", "SCALE", "SPENT", "WITHOUT_PLAN", "WITH_PARTNER",
    "Absent", "Bound", "Ceiling", "Choice", "Choices", "Disconnected", "Failure", "FormatError", "Found", "LibraryError", "NoPlace", "Order", "Pair", "Reason",
    "Record", "Refused", "Service", "Study", "Train", "Unreadable",
    "connect", "library", "program", "read", "write",
]


def read(path: str, kind: str | None = None, scale: int | None = None) -> Study:
    """The study of a file, or of standard input where the path is '-'; of the kind that its suffix tells, where none is given."""
    return formats.read(path, kind, scale).study
