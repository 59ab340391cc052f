"""The commands of planners: studies from files and to files, the best shift, the best plan, and lines in words.

Nothing here decides anything: every bound, cost, ceiling and plan that is shown comes from a reply of the library.
"""

import argparse
import time

from hosting import asked, calling, store, stored, words
from hosting import library as libraries
from hosting.printing import DONE, FOUND, note, print_json
from junction import formats, kinds, labels, lines, replies
from junction.errors import FormatError
from junction.kinds import Facts, counted
from junction.native import Library
from junction.study import Absent, Study

WATCH_SECONDS = 0.5


class WrongUse(Exception):
    """A command that is not used as it says."""


def convert(given: argparse.Namespace) -> int:
    """Reads a study in one format and writes it in another. Where something does not fit, nothing is written."""
    read, kinds_of = _read_to_convert(given)
    notes = (*read.notes, *formats.write(read.study, given.target, given.to_kind, read.line))
    note(notes)
    if given.json:
        return print_json({"in": given.source, "out": given.target, **kinds_of, **_counts(read.study), "notes": notes})
    if given.target != formats.STANDARD:
        print(_written(given.target, read.study))
    return DONE


def _read_to_convert(given: argparse.Namespace) -> tuple[formats.Read, dict[str, str]]:
    """What is read, and from which format to which. The one that is written is judged first: without it nothing can come of the reading."""
    to_kind = formats.kind_of(given.target, given.to_kind, "--to")
    if given.json and given.target == formats.STANDARD:
        raise FormatError("standard output", None, None, "with --json the object is printed there, so that the study needs a file of its own")
    from_kind = formats.kind_of(given.source, given.from_kind, "--from")
    return formats.read(given.source, from_kind, given.scale), {"from": from_kind, "to": to_kind}


def _counts(study: Study) -> dict[str, object]:
    return {"trains": len(study.trains), "sizes": list(study.sizes), "pairs": len(study.pairs), "scale": study.scale}


def _written(path: str, study: Study) -> str:
    return f"{path}: {counted(len(study.trains), 'train')}, {counted(len(study.pairs), 'pair')}, scale {study.scale}"


def import_study(given: argparse.Namespace) -> int:
    """Reads a study from a file, and loads it. What was loaded before is replaced. Names of trains and choices are kept beside the study."""
    read = formats.read(given.file, given.kind, given.scale)
    with calling.service(given.data, given.name, calling.shown(given.certificate, given.key)) as service:
        line = read.line or lines.load(read.study)
        loaded = replies.decode(line, service.ask(line))
    labels.keep(read.study, store.database(given.data, given.name).parent)
    note(read.notes)
    assert isinstance(loaded, replies.Bound)
    if given.json:
        return print_json({"study": given.name, **_counts(read.study), "constant": loaded.constant, "bound": loaded.bound, "notes": read.notes})
    print(_written(given.name, read.study))
    return DONE


def export(given: argparse.Namespace) -> int:
    """Writes a study to a file, with its costs in points, additions included, and with its names."""
    if given.json and given.file == formats.STANDARD:
        raise WrongUse("--json and a study that is written to standard output do not go together")
    with stored.loaded(given.data, given.name, libraries.installed()) as now:
        study, left_out = labels.named(asked.saved(now.library, now.block), now.folder)
    notes = (*filter(None, [left_out]), *formats.write(study, given.file, given.kind))
    note(notes)
    if given.json:
        return print_json({"study": given.name, "file": given.file, **_counts(study), "notes": notes})
    if given.file != formats.STANDARD:
        print(_written(given.file, study))
    return DONE


def plan(given: argparse.Namespace) -> int:
    """Shows the best plan since the study was loaded, with what it costs now, and whether the study is settled."""
    with stored.loaded(given.data, given.name, libraries.installed()) as now:
        study, named, best = asked.saved(now.library, now.block), now.named(), words.best(now.library, now.block, now.found(), now.proof())
    by_train = best["plan"] and (named.study or study).by_train(best["plan"])
    if given.json:
        return print_json({"study": given.name, **best, "by_train": by_train, "names_left_out": named.left_out})
    note(filter(None, [named.left_out]))
    for train, choice in by_train or []:
        print(f"{train}: {choice}" if named.study else f"train {train}: choice {choice}")
    print(_plan_words(best))
    return DONE


def _plan_words(best: Facts) -> str:
    """What the best plan costs, beside the bound."""
    if best["plan"] is None:
        return f"plan: {best['words']}"
    return f"cost {counted(best['cost'], 'point')}, bound {counted(best['bound'], 'point')}, {words.settled(best)}"


def send(given: argparse.Namespace) -> int:
    """Sends a line, and says the reply in words. Exit status 1 where it is declined."""
    with stored.now(given.data, given.name, libraries.installed()) as now:
        study = asked.saved(now.library, now.block) if now.loaded else None
        named = now.named().study
    line = _line(given.asking, named or study)
    with calling.service(given.data, given.name, calling.shown(given.certificate, given.key)) as service:
        facts = words.exchange(line, service.ask(line), named)
    if given.json:
        print_json({"study": given.name, **facts})
    else:
        print(facts["answer"]["words"])
    return FOUND if facts["answer"]["kind"] == kinds.DECLINED else DONE


def _line(asking: list[str], study: Study | None) -> str:
    """The line that a user asks for: by a word with its numbers or names, or as it stands."""
    match asking:
        case ["tighten"]:
            return lines.tighten()
        case ["round"]:
            return lines.directional_round()
        case ["save"]:
            return lines.save()
        case ["search", budget]:
            return lines.search(_number(budget))
        case ["add", train, choice, points]:
            return _addition(train, choice, _number(points), study)
        case [line] if line.isascii() and line.isprintable() and line not in ("search", "add"):
            return line
    raise WrongUse("what is sent is: tighten, round, search N, add TRAIN CHOICE POINTS, save, or a line as it stands")


def _number(text: str) -> int:
    if not _is_number(text):
        raise WrongUse(f"not a number: {text}")
    return int(text)


def _is_number(text: str) -> bool:
    return text.isascii() and text.isdecimal()


def _addition(train: str, choice: str, points: int, study: Study | None) -> str:
    """An addition to a choice, by names where the study has them. Numbers that it has not the service judges."""
    try:
        if study is not None:
            return lines.add(study.train(train), study.choice(train, choice), points)
    except Absent:
        if not (_is_number(train) and _is_number(choice)):
            raise
    return lines.add(_number(train), _number(choice), points)


def watch(given: argparse.Namespace) -> int:
    """Prints new lines and their replies in words, until Ctrl-C."""
    installed = libraries.installed()
    with store.reading(given.data, given.name) as study:
        last = study.count()
    note([f"lines of study {given.name} after line {last}; Ctrl-C ends it"])
    try:
        while True:
            last = _print_new(given, installed, last)
            time.sleep(WATCH_SECONDS)
    except KeyboardInterrupt:
        return DONE


def _print_new(given: argparse.Namespace, installed: Library, last: int) -> int:
    """Prints the lines behind one number, and gives the last one's."""
    with store.reading(given.data, given.name) as study:
        if study.count() == last:
            return last
    named = stored.names_by_line(given.data, given.name, installed)
    with store.reading(given.data, given.name) as study:
        end = study.count()
        for text in words.log(installed.header, study.lines(last + 1, end), given.json, named):
            print(text, flush=True)
    return end
