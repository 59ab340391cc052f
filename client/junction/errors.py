"""What can go wrong between a client and the service: one sentence each."""

from collections.abc import Sequence


class Failure(Exception):
    """Any of them."""


class Refused(Failure):
    """The service declined a line. The number is document 01's, the words say when it is given."""

    def __init__(self, number: int, words: str, line: str) -> None:
        super().__init__(f"declined, {number}: {words}")
        self.number, self.words, self.line = number, words, line


class Disconnected(Failure):
    """The connection ended before these lines were answered. Whether they were carried out is not known; nothing is sent again by itself."""

    def __init__(self, unanswered: Sequence[str]) -> None:
        count = len(unanswered)
        super().__init__(f"the connection ended before {'1 line was' if count == 1 else f'{count} lines were'} answered")
        self.unanswered = tuple(unanswered)


class FormatError(Failure):
    """A file is no study: where it is not, and why. A file that has several mistakes has them all in `all_of_them`, in the order of the file."""

    def __init__(self, path: str, row: int | str | None, column: str | None, why: str) -> None:
        where = [path]
        if row is not None:
            where.append(f"row {row}" if isinstance(row, int) else row)
        if column is not None:
            where.append(f"column {column}")
        super().__init__(f"{', '.join(where)}: {why}")
        self.path, self.row, self.column, self.why = path, row, column, why
        self.all_of_them: tuple[FormatError, ...] = (self,)

    @staticmethod
    def of(mistakes: Sequence["FormatError"]) -> "FormatError":
        """The first of several mistakes, with all of them."""
        first = mistakes[0]
        first.all_of_them = tuple(mistakes)
        return first


class Unreadable(Failure):
    """What came back is no reply to that line."""

    def __init__(self, reply: str) -> None:
        super().__init__(f"this is no reply to the line that was sent: {reply[:80]!r}")
        self.reply = reply


class LibraryError(Failure):
    """A library that cannot be loaded, or that did not answer as its header says."""


class NoPlace(Failure, ValueError):
    """A number that its field of a line cannot hold. All else the service judges."""
