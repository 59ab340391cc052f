"""Pages from facts. Every text that a study or a client gave is escaped here, and nothing here is looked up or worked out but how a number is written.

What is read first stands first, text before colour; colours and frames only repeat what is said. All of it is there without a script.
"""

from collections.abc import Iterable, Iterator, Sequence
from fractions import Fraction
from html import escape
from typing import NamedTuple
from urllib.parse import urlencode

from hosting.page import chart
from junction.kinds import Facts, counted

STATES = {
    "unreadable": "cannot be read",
    "nothing": "nothing loaded",
    "no plan yet": "no plan yet",
    "unsettled": "not settled",
    "publish": "publish",
    "no plan": "there is no plan",
}
NONE = "none"
FORBIDDEN = "✕"
# A cell's number is written in hundredths where it is not whole, and from so many points on in whole ones; its label has it exactly.
HUNDREDTH, THOUSAND = Fraction(1, 100), 1000
# So much of a line or a reply is shown; its facts (.json) have it whole.
HEXADECIMAL_CHARACTERS = 240


class Chosen(NamedTuple):
    """What a reader chose: a train's choice, whose ground is shown, and a pair, whose table is shown."""

    train: int | None = None
    choice: int | None = None
    pair: int = 0


def text(value: object) -> str:
    """A text within a page."""
    return escape(str(value), quote=True)


def page(title: str, content: str, watched: str | None = None) -> str:
    """A whole page; one that is kept up to date names where its events come from."""
    events = f' data-events="{text(watched)}"' if watched else ""
    return (
        '<!DOCTYPE html>\n<html lang="en">\n<head>\n<meta charset="utf-8">\n<meta name="viewport" content="width=device-width, initial-scale=1">\n'
        f'<title>{text(title)}</title>\n<link rel="stylesheet" href="/style.css">\n<script src="/script.js" defer></script>\n</head>\n'
        f"<body{events}>\n{content}\n</body>\n</html>\n"
    )


def failure(title: str, sentence: str, study_name: str | None = None) -> str:
    """A page that says why there is none, and leads to others."""
    links = '<a href="/">All studies</a>' + (f' <a href="{text(address(study_name))}">Study {text(study_name)}</a>' if study_name else "")
    said = f'<p id="sentence" role="status" class="state">{text(sentence)}</p>\n<p id="ground-of-it">{links}</p>'
    return page(title, f'<header><h1>{text(title)}</h1></header>\n<main id="main">{said}</main>')


def overview(studies: Sequence[Facts]) -> str:
    """All studies."""
    if not studies:
        said = '<p id="sentence" role="status" class="state">There are no studies.</p>'
        return page("Studies", f'<header><h1>Studies</h1></header>\n<main id="main">{said}</main>')
    heads = "".join(f'<th scope="col" role="columnheader">{name}</th>' for name in ("Study", "State", "Bound", "Best cost", "Last line"))
    rows = "".join(map(_overview_row, studies))
    table = f'<table role="table" class="studies"><thead role="rowgroup"><tr role="row">{heads}</tr></thead><tbody role="rowgroup">{rows}</tbody></table>'
    return page("Studies", f'<header><h1>Studies</h1></header>\n<main id="main">{table}</main>')


def address(name: str) -> str:
    """Where a study's page is. A name that ends as the name of facts does is told apart by the stroke at its end."""
    return f"/studies/{name}/" if name.endswith(".json") else f"/studies/{name}"


def _overview_row(study: Facts) -> str:
    cells = (
        ("State", text(STATES.get(study["state"], study["state"]))),
        ("Bound", text(_points(study["bound"]))),
        ("Best cost", text(_points(study["best"]))),
        ("Last line", _time(study["time"]) if study["time"] else NONE),
    )
    name = f'<th scope="row" role="rowheader"><a href="{text(address(study["name"]))}">{text(study["name"])}</a></th>'
    return f'<tr role="row">{name}{"".join(f"<td role=cell data-head={chr(34)}{head}{chr(34)}>{cell}</td>" for head, cell in cells)}</tr>'


def study(facts: Facts, chosen: Chosen) -> str:
    """The page of a study."""
    name = facts["name"]
    parts = [_sentence(facts)]
    if facts["state"] != "unreadable":
        parts.append(_figures(facts))
    if facts["series"]:
        parts.append(_course(facts["series"]))
    if facts["best"]:
        parts.append(_plan(facts))
    if facts["trains"]:
        parts += [_choices(facts, chosen), _pairs(facts, chosen)]
    if facts["last"]:
        parts.append(_last(facts["last"]))
    header = f'<header><nav aria-label="studies"><a href="/">All studies</a></nav><h1>Study {text(name)}</h1></header>'
    title = f"{STATES[facts['state']].capitalize()}: study {name}"
    return page(title, f'{header}\n<main id="main" data-line="{facts["lines"]}">\n' + "\n".join(parts) + "\n</main>", f"/studies/{name}/events")


def _train(name: object, number: int) -> str:
    """A train's name, which says what it is where it is the number alone."""
    return f"train {name}" if str(name) == str(number) else str(name)


def _choice(name: object, number: int) -> str:
    """A choice's name."""
    return f"choice {name}" if str(name) == str(number) else str(name)


def _points(figure: object) -> str:
    """A figure in points."""
    return NONE if figure is None else chart.points(Fraction(str(figure)))


def _time(moment: str) -> str:
    """A moment as it was stored, in the form that a reader takes for a time."""
    said = moment.replace("T", " ").split(".")[0].split("+")[0]
    return f'<time datetime="{text(moment)}">{text(said)} UTC</time>'


def _section(key: str, title: str, content: str) -> str:
    return f'<section id="{key}" aria-labelledby="{key}-title"><h2 id="{key}-title">{title}</h2>{content}</section>'


def _sentence(facts: Facts) -> str:
    """The one sentence, its ground, and the commands that lead on."""
    state = facts["state"].replace(" ", "-")
    said = f'<p id="sentence" role="status" class="state {text(state)}">{text(facts["sentence"])}</p>'
    ground = f'<p>Ground: {text(facts["ground"]["words"])}.</p>' if facts["ground"] else ""
    steps = "".join(f"<li><code>{text(step['command'])}</code> {text(step['words'])}</li>" for step in facts["next"] or ())
    following = f"<p>Next:</p><ol>{steps}</ol>" if steps else ""
    left_out = f'<p>{text(facts["names_left_out"])}</p>' if facts["names_left_out"] else ""
    return f'{said}\n<div id="ground-of-it">{ground}{following}{left_out}</div>'


def _figures(facts: Facts) -> str:
    """Bound, best cost, ceiling, and the number of lines."""
    ceiling = facts["ceiling"] and facts["ceiling"]["points"]
    best = facts["best"] and facts["best"]["cost"]
    figures = "".join(_figure(name, value) for name, value in (("Bound", facts["bound"]), ("Best cost", best), ("Ceiling", ceiling)))
    since = f"<p>No line was answered since {_time(facts['time'])}.</p>" if facts["time"] else ""
    lines = f"<div><dt>Lines</dt><dd><b>{facts['lines']:,}</b> answered</dd></div>"
    return f'<div id="figures"><dl class="figures">{figures}{lines}</dl>{since}</div>'


def _figure(name: str, value: object) -> str:
    unit = "" if value is None else " point" if Fraction(str(value)) == 1 else " points"
    return f"<div><dt>{name}</dt><dd><b>{text(_points(value))}</b>{unit}</dd></div>"


def _course(series: Sequence[Facts]) -> str:
    """The three as steps, and the same numbers as a table."""
    rows = "".join(
        f"<tr><th scope=row>{point['line']:,}<td>{_short(point['bound'])}<td>{_short(point['best'])}<td>{_short(point['ceiling'])}" for point in series
    )
    heads = "<tr><th scope=col>Line<th scope=col>Bound<th scope=col>Best cost<th scope=col>Ceiling"
    table = f"<table class=numbers><thead>{heads}<tbody>{rows}</table>"
    details = f'<details id="numbers"><summary>The same as numbers, in points</summary>{table}</details>'
    return _section("course", "Bound, best cost and ceiling since the load", f"{chart.drawing(series)}{details}")


def _short(figure: object) -> str:
    return "–" if figure is None else text(_points(figure))


def _plan(facts: Facts) -> str:
    """The best plan by train."""
    best, rows = facts["best"], []
    for number, (train, choice) in enumerate(best["by_train"]):
        cost = facts["trains"][number]["choices"][best["plan"][number]]["cost"]
        names = (_train(train, number), _choice(choice, best["plan"][number]))
        rows.append(f"<tr><th scope=row>{text(names[0])}<td>{text(names[1])}<td>{text(_points(cost))}")
    found = f" Line {best['line']:,} shows it." if best["line"] else ""
    words = f"<p>It costs {counted(best['cost'], 'point')}.{found} <a href=\"{text(address(facts['name']).rstrip('/'))}/plan.csv\">As CSV</a></p>"
    heads = "<tr><th scope=col>Train<th scope=col>Choice<th scope=col>Points by itself"
    return _section("plan", "The best plan by train", f"{words}<table class=plan><thead>{heads}<tbody>{''.join(rows)}</table>")


def _choices(facts: Facts, chosen: Chosen) -> str:
    """What each choice still costs, a row a train, and the ground of the one that was chosen."""
    scale, rows = facts["scale"], []
    for number, train in enumerate(facts["trains"]):
        cells = (_cell(train["name"], number, at, choice, scale, chosen) for at, choice in enumerate(train["choices"]))
        rows.append(_row(_train(train["name"], number), cells))
    legend = f"<p>In points, as the tables have it now. {FORBIDDEN} and hatched: forbidden. In a frame: taken by the best plan. Each links to its ground.</p>"
    ground = _ground(facts["cell"]) if facts["cell"] else ""
    return _section("choices", "What each choice still costs", f"{ground}{legend}{_table('What each choice still costs', rows)}")


def _row(name: object, cells: Iterable[str]) -> str:
    return f'<tr role=row><th scope=row role=rowheader>{text(name)}</th>{"".join(cells)}</tr>'


def _table(label: str, rows: Iterable[str]) -> str:
    return f'<table role=table class=cells aria-label="{text(label)}"><tbody role=rowgroup>{"".join(rows)}</tbody></table>'


def _cell(train: object, number: int, at: int, choice: Facts, scale: int, chosen: Chosen) -> str:
    """The cell of a choice."""
    left = None if choice["forbidden"] else Fraction(choice["left"], scale)
    query = {"train": number, "choice": at, **({"pair": chosen.pair} if chosen.pair else {})}
    name = _choice(choice["name"], at)
    said = _said(f"{_train(train, number)}, {name}", left, choice["planned"])
    current = ' aria-current="true"' if (number, at) == (chosen.train, chosen.choice) else ""
    link = f'<a href="?{text(urlencode(query))}#ground" aria-label="{text(said)}"{current}><span>{text(name)}</span> {_number(left)}</a>'
    return f"<td role=cell{_marks(left, choice['planned'])}>{link}</td>"


def _said(names: str, left: Fraction | None, planned: bool) -> str:
    """A cell in words, for those to whom it is read."""
    cost = "forbidden" if left is None else f"{chart.points(left)} {'point' if left == 1 else 'points'} left"
    return f"{names}: {cost}{', in the best plan' if planned else ''}"


def _marks(left: Fraction | None, planned: bool) -> str:
    marks = [name for name, holds in (("forbidden", left is None), ("planned", planned), ("nothing", left == 0)) if holds]
    return f' class="{" ".join(marks)}"' if marks else ""


def _number(left: Fraction | None) -> str:
    """What is left in a cell, in points: short enough for it."""
    if left is None:
        return FORBIDDEN
    if left.denominator == 1:
        return chart.points(left)
    if left < HUNDREDTH:
        return f"&lt;&nbsp;{float(HUNDREDTH)}"
    return f"≈&nbsp;{float(left):,.{0 if left >= THOUSAND else 2}f}"


def _ground(cell: Facts) -> str:
    """The ground of a choice."""
    names = f"{_train(cell['names'][0], cell['train'])}, {_choice(cell['names'][1], cell['choice'])}"
    out = cell["reason"] in ("by itself", "with partner")
    costs = f"<p>As loaded it costs {counted(cell['cost'], 'point')}; in points, the tables have {text(cell['words'])} left.</p>" if out else ""
    return f'<div id="ground" tabindex="-1"><h3>{text(names)}</h3><p>{text(cell["ground"])}</p>{costs}</div>'


def _pairs(facts: Facts, chosen: Chosen) -> str:
    """The table of one pair, and the list of all."""
    pairs = facts["pairs"]
    if not pairs:
        return _section("pairs", "What two trains still cost together", "<p>No two trains meet.</p>")
    options = "".join(
        f"<option value={at}{' selected' if at == chosen.pair else ''}>{text(' with '.join(_two(facts, pair)))}" for at, pair in enumerate(pairs)
    )
    kept = "".join(
        f'<input type=hidden name={name} value={value}>' for name, value in (("train", chosen.train), ("choice", chosen.choice)) if value is not None
    )
    form = f'<form action="#pairs">{kept}<label for=pair>Two trains</label> <select id=pair name=pair>{options}</select> <button id=show>Show</button></form>'
    return _section("pairs", "What two trains still cost together", form + _pair(facts, pairs[chosen.pair]))


def _two(facts: Facts, pair: Facts) -> tuple[str, str]:
    """The names of a pair's trains."""
    first, second = (_train(facts["trains"][train]["name"], train) for train in (pair["first"], pair["second"]))
    return first, second


def _pair(facts: Facts, pair: Facts) -> str:
    """The table of a pair: a row for each choice of the first train."""
    of_first, of_second = (facts["trains"][train]["choices"] for train in (pair["first"], pair["second"]))
    rows = []
    for row, lefts in enumerate(pair["left"]):
        cells = (
            _entry(_choice(of_second[column]["name"], column), left, facts["scale"], of_first[row]["planned"] and of_second[column]["planned"])
            for column, left in enumerate(lefts)
        )
        rows.append(_row(_choice(of_first[row]["name"], row), cells))
    first, second = _two(facts, pair)
    return f"<p>Rows are choices of {text(first)}, the cells those of {text(second)}, in points.</p>{_table(f'{first} with {second}', rows)}"


def _entry(name: str, left: int | None, scale: int, planned: bool) -> str:
    """The cell of two choices, under the second one's name."""
    value = None if left is None else Fraction(left, scale)
    mark = " <em>planned</em>" if planned else ""
    said = "<em>forbidden</em> " if left is None else ""
    return f"<td role=cell{_marks(value, planned)}><span>{text(name)}</span> {said}{_number(value)}{mark}</td>"


def _last(lines: Sequence[Facts]) -> str:
    """The last lines in words, the newest first."""
    return _section("last", "The last lines", f"<ol class=last>{''.join(map(_line, lines))}</ol>")


def _line(line: Facts) -> str:
    radio = ", by radio" if line["radio"] else ""
    declined = " class=declined" if line["declined"] is not None else ""
    reason = line["reason"] if line["reason"] and line["reason"] not in line["answered"] else None
    answered = text(line["answered"]) + (f": {text(reason)}" if reason else "")
    sent = "".join(f"<p>{name} <code>{cut}</code></p>" for name, cut in (("Line", _cut(line["line"])), ("Reply", _cut(line["reply"]))))
    said = f'{text(line["asked"])}{radio} <span aria-hidden="true">→</span> {answered}'
    return f"<li value={line['number']}{declined}>{_time(line['time'])} {said}<details id=line-{line['number']}><summary>As sent</summary>{sent}</details>"


def _cut(hexadecimal: str) -> str:
    """Hexadecimal digits, or as many as are shown of them."""
    more = len(hexadecimal) - HEXADECIMAL_CHARACTERS
    if more <= 0:
        return text(hexadecimal)
    return f"{text(hexadecimal[:HEXADECIMAL_CHARACTERS])}… and {more:,} more"


def plan_rows(facts: Facts) -> Iterator[tuple[str, str]]:
    """The best plan, for CSV."""
    yield from ((str(train), str(choice)) for train, choice in facts["best"]["by_train"])
