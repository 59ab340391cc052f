"""What JSON files of studies and of names share: values that are judged with the path of keys to them, and lists with a line for each item."""

import json
from collections.abc import Iterable, Sequence
from typing import Any, NoReturn

from junction.formats.parts import Mistakes, unfit

SHOWN = 40


class Keys(dict[str, Any]):
    """An object of a file, and the keys that stand in it more than once."""

    def __init__(self, pairs: Sequence[tuple[str, Any]]) -> None:
        super().__init__(pairs)
        keys = [key for key, _ in pairs]
        self.twice = sorted({key for key in keys if keys.count(key) > 1})


class Reading:
    """The values of one file, with its mistakes. What a function gives where a value is wrong is of no use, since the mistakes are raised in the end."""

    def __init__(self, path: str) -> None:
        self.mistakes = Mistakes(path)

    def whole(self, text: str, form: str, version: int, keys: Sequence[str], others: Sequence[str] = ()) -> Keys:
        """The object that a file is. A file of another format or version is not read any further."""
        whole = self._parsed(text)
        if not isinstance(whole, Keys):
            self.wrong(None, "it is no object of keys and values")
            self.mistakes.end()
        for key, wanted in ("format", form), ("version", version):
            if key in whole and (type(whole[key]) is not type(wanted) or whole[key] != wanted):
                self.wrong(key, f"it is {said(whole[key])}, and not {said(wanted)}")
        self.mistakes.end()
        found = self.keys(whole, "", ("format", "version", *keys), others)
        if found is None:
            self.mistakes.end()
        assert found is not None
        return found

    def keys(self, value: Any, path: str, needed: Sequence[str], others: Sequence[str] = ()) -> Keys | None:
        """An object with these keys, of which the others may be missing."""
        if not isinstance(value, Keys):
            self.wrong(path, f"{said(value)} is no object of keys and values")
            return None
        for key in value:
            if key not in needed and key not in others:
                self.wrong(under(path, key), "there is no such key")
        for key in value.twice:
            self.wrong(under(path, key), "the key stands twice")
        missing = [key for key in needed if key not in value]
        for key in missing:
            self.wrong(under(path, key), "the key is missing")
        return None if missing else value

    def items(self, value: Any, path: str) -> list[Any]:
        """A list."""
        if isinstance(value, list):
            return value
        self.wrong(path, f"{said(value)} is no list")
        return []

    def number(self, value: Any, path: str, least: int, most: int, what: str) -> int:
        """A whole number in its range."""
        if type(value) is int and least <= value <= most:
            return value
        self.wrong(path, f"{said(value)} is no {what}")
        return least

    def name(self, value: Any, path: str, seen: dict[str, str]) -> str:
        """A name that no path seen before has."""
        why = unfit(value) if isinstance(value, str) else f"{said(value)} is no name"
        if why is None and value in seen:
            why = f"the name {value!r} stands at {seen[value]} too"
        if why is not None:
            self.wrong(path, why)
            return ""
        seen[value] = path
        return str(value)

    def wrong(self, path: str | None, why: str) -> None:
        """Another mistake."""
        self.mistakes.add(path or None, None, why)

    def _parsed(self, text: str) -> Any:
        try:
            return json.loads(text, object_pairs_hook=Keys, parse_constant=_no_constant)
        except json.JSONDecodeError as error:
            self.mistakes.add(f"line {error.lineno}", str(error.colno), f"it is no JSON: {error.msg[:1].lower()}{error.msg[1:]}")
        except (ValueError, RecursionError):
            self.wrong(None, "it is no JSON: it has a number that is none, or too many values in one another")
        self.mistakes.end()


def _no_constant(name: str) -> NoReturn:
    raise ValueError(name)


def under(path: str, key: str) -> str:
    """The path of a key."""
    shown = key if key.isprintable() else json.dumps(key)
    return f"{path}.{shown}" if path else shown


def said(value: Any) -> str:
    """A value as a file says it, cut where it is long."""
    text = json.dumps(value, ensure_ascii=False).encode(errors="backslashreplace").decode()
    return text if len(text) <= SHOWN else f"{text[:SHOWN]}.."


def listed(items: Iterable[Any]) -> str:
    """A list with a line for each item."""
    lines = ",\n".join(f"    {json.dumps(item, ensure_ascii=False)}" for item in items)
    return f"[\n{lines}\n  ]" if lines else "[]"
