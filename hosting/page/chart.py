"""Bound, best cost and ceiling over the lines since the load, as steps in one drawing.

The three differ by their dashes, and each has its name and last value written at its end, so that nobody needs colours to tell them apart.
"""

from collections.abc import Iterator, Sequence
from fractions import Fraction
from html import escape
from typing import NamedTuple

from junction.kinds import Facts

WIDTH, HEIGHT = 480, 280
LEFT, RIGHT, TOP, BOTTOM = 24, 262, 28, 240
# From one written value to the next: above the height of the largest letters in style.css.
APART = 20
UNDER = 22

NAMES = {"bound": "bound", "best": "best cost", "ceiling": "ceiling"}


class Curve(NamedTuple):
    """One of the three: where its steps begin, by line, and its values there; None where it has none."""

    key: str
    points: tuple[tuple[int, Fraction | None], ...]

    @property
    def last(self) -> Fraction | None:
        """The value at the last line."""
        return self.points[-1][1]


def drawing(series: Sequence[Facts]) -> str:
    """The drawing; nothing where no line is to be drawn."""
    curves = [curve for curve in _curves(series) if any(value is not None for _, value in curve.points)]
    if not curves:
        return ""
    highest = max(value for curve in curves for _, value in curve.points if value is not None) or Fraction(1)
    first, last = series[0]["line"], series[-1]["line"]
    paths = "".join(f'<path class="{curve.key}" d="{_steps(curve, first, last, highest)}"/>' for curve in curves)
    return (
        f'<svg viewBox="0 0 {WIDTH} {HEIGHT}" role="img" aria-labelledby="chart-title chart-desc">'
        f'<title id="chart-title">Bound, best cost and ceiling, lines {first:,} to {last:,}</title>'
        f'<desc id="chart-desc">{escape(description(series))}</desc>'
        f'<path class="axis" d="M{LEFT} {TOP}H{RIGHT}M{LEFT} {BOTTOM}H{RIGHT}"/>'
        f'<text x="{LEFT}" y="{TOP - 8}">{escape(points(highest))} {"point" if highest == 1 else "points"}</text>'
        f'<text x="{LEFT - 6}" y="{BOTTOM + 4}" text-anchor="end">0</text><text x="{LEFT}" y="{BOTTOM + UNDER}">line {first:,}</text>'
        f'<text x="{RIGHT}" y="{BOTTOM + UNDER}" text-anchor="end">line {last:,}</text>'
        f'{paths}{"".join(_labels(curves, highest))}</svg>'
    )


def description(series: Sequence[Facts]) -> str:
    """What the drawing shows, in words."""
    return ". ".join(_described(curve) for curve in _curves(series)) + "."


def _described(curve: Curve) -> str:
    name = NAMES[curve.key].capitalize()
    known = [value for _, value in curve.points if value is not None]
    if not known:
        return f"{name}: none"
    if curve.last is None:
        return f"{name}: {points(known[0])} at first, none now"
    return f"{name}: {points(known[0])} at first, {points(curve.last)} now"


def points(value: Fraction) -> str:
    """A number of points: whole, or with what is left as a fraction."""
    whole, left = divmod(value, 1)
    return f"{int(whole):,} {left}" if left and whole else str(left) if left else f"{int(whole):,}"


def _curves(series: Sequence[Facts]) -> list[Curve]:
    return [Curve(key, tuple((point["line"], _value(point[key])) for point in series)) for key in NAMES]


def _value(figure: object) -> Fraction | None:
    return None if figure is None else Fraction(str(figure))


def _height(value: Fraction, highest: Fraction) -> float:
    return round(float(BOTTOM - (BOTTOM - TOP) * value / highest), 1)


def _steps(curve: Curve, first: int, last: int, highest: Fraction) -> str:
    """A path of steps: a value holds until the next line that has another, the last one to the end."""
    width = last + 1 - first
    path, held = "", None
    for line, value in curve.points:
        at = f"{round(LEFT + (RIGHT - LEFT) * (line - first) / width, 1):g}"
        if held is not None and value != held:
            path += f"H{at}"
        if value is not None and value != held:
            path += f"{'M' + at + ' ' if held is None else 'V'}{_height(value, highest):g}"
        held = value
    return path if held is None else f"{path}H{RIGHT}"


def _labels(curves: Sequence[Curve], highest: Fraction) -> Iterator[str]:
    """The values at the ends, each under the one before it where they would overlap, and none under the drawing."""
    ends = sorted((_height(curve.last, highest), curve.key, curve.last) for curve in curves if curve.last is not None)
    lowest = BOTTOM - APART * (len(ends) - 1)
    at = float(TOP - APART)
    for number, (height, key, value) in enumerate(ends):
        at = max(at + APART, min(height, lowest + APART * number))
        yield f'<text class="{key}" x="{RIGHT + 8}" y="{at + 5:g}">{NAMES[key]} {escape(points(value))}</text>'
