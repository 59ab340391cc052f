"""The commands of the host. Exit status 0: done; 1: a check found something, or a line was declined; 2: wrong use, or it could not be done, as
where the host is not serving. What is wrong is said on standard error, a line each."""

import argparse
import ipaddress
import os
import sys
from collections.abc import Callable
from itertools import islice
from pathlib import Path
from typing import TypeAlias

from hosting import checks, config, desk, library, lifting, recheck, server, solving, store, stored, words
from hosting.calling import NotReached
from hosting.config import ConfigError
from hosting.desk import WrongUse
from hosting.page.command import page
from hosting.printing import DONE, FAILED, FOUND, complain, note, print_json
from hosting.records import Address, Damaged, Settings
from hosting.store import NotServed, StudyError
from junction.errors import Failure, FormatError, LibraryError, Refused
from junction.formats import FORMATS
from junction.formats.parts import SCALE_MOST
from junction.kinds import Facts
from junction.study import Absent

Command = Callable[[argparse.Namespace], int]
Commands: TypeAlias = "argparse._SubParsersAction[argparse.ArgumentParser]"

DATA = "JUNCTION_DATA"
OBJECT = "print one JSON object"
SCALE_HELP = "how many parts a point has, instead of what the file says; where it says nothing, 840"
LOOPBACK = "127.0.0.1"
PORTS = range(1, 65536)
LONGEST_SOCKET_PATH = 107


def main(arguments: list[str]) -> int:
    """Carries out a command, and gives the exit status."""
    given = _parser().parse_args(arguments)
    try:
        if given.command not in (add, desk.convert) and given.data is not None and not given.data.is_dir():
            raise StudyError(f"there is no data folder {given.data}")
        status: int = given.command(given)
        sys.stdout.flush()
        return status
    except FormatError as error:
        return max(complain(str(mistake), FAILED) for mistake in error.all_of_them)
    except Refused as refused:
        return complain(str(refused), FOUND)
    except (StudyError, NotServed, NotReached, LibraryError, ConfigError, Damaged, WrongUse, Absent, Failure) as error:
        return complain(str(error), FAILED)
    except OSError as error:
        _leave_output()
        return complain(str(error), FAILED)


def _leave_output() -> None:
    """Leaves what is not printed yet: printing may be what failed, and would fail again at the end."""
    nowhere = os.open(os.devnull, os.O_WRONLY)
    os.dup2(nowhere, sys.stdout.fileno())
    os.close(nowhere)


def serve(given: argparse.Namespace) -> int:
    """Answers all studies of the data folder until a signal ends it."""
    return server.serve(given.data, config.read(given.data))


def add(given: argparse.Namespace) -> int:
    """Adds a study with an address of its own."""
    address = _address(given)
    if not address.socket and not config.may_listen(address.bind, config.read(given.data)):
        raise StudyError(f"without TLS (certificate and key in {config.FILE}) the host listens on loopback only, not on {address.bind}")
    store.create(given.data, Settings(given.name, address, given.crlf))
    return _say(given, f"{given.name} at {address}", {"study": given.name, "address": str(address), "crlf": given.crlf})


def _address(given: argparse.Namespace) -> Address:
    if given.socket is None:
        return Address(given.bind or LOOPBACK, given.port, "")
    if given.bind is not None:
        raise StudyError("--bind goes with --port, not with --socket")
    path = str(given.socket.absolute())
    if len(path.encode()) > LONGEST_SOCKET_PATH:
        raise StudyError(f"the path of a socket file has at most {LONGEST_SOCKET_PATH} bytes: {path}")
    return Address("", 0, path)


def remove(given: argparse.Namespace) -> int:
    """Takes a study away. Its files are moved, not deleted."""
    moved = store.remove(given.data, given.name)
    return _say(given, f"{given.name} is now {moved}", {"study": given.name, "folder": str(moved)})


def _say(given: argparse.Namespace, words: str, facts: Facts) -> int:
    """Prints what was done, in words or as JSON."""
    if given.json:
        return print_json(facts)
    print(words)
    return DONE


def list_studies(given: argparse.Namespace) -> int:
    """Prints name, address and number of answered lines of every study."""
    studies = [_listed(given.data, name) for name in store.present(given.data)]
    if given.json:
        print_json({"studies": studies})
    for study in studies:
        if study["wrong"]:
            complain(study["wrong"], FOUND)
        elif not given.json:
            print(f"{study['name']}  {study['address']}{'  crlf' if study['crlf'] else ''}  {study['lines']} lines")
    return FOUND if any(study["wrong"] for study in studies) else DONE


def _listed(data: Path, name: str) -> Facts:
    """A study with its address and the number of its lines, or what is wrong with it."""
    try:
        with store.reading(data, name) as study:
            settings, count = study.settings(), study.count()
    except StudyError as error:
        return {"name": name, "address": None, "crlf": None, "lines": None, "wrong": str(error)}
    return {"name": name, "address": str(settings.address), "crlf": settings.crlf, "lines": count, "wrong": None}


def verify(given: argparse.Namespace) -> int:
    """Takes the stored lines again, and compares."""
    installed = library.installed()
    try:
        findings = checks.verify(given.data, given.name, installed)
        said, wrong = findings.said, [f"study {given.name}: {text}" for text in findings.wrong]
    except store.Unusable as error:
        said, wrong = [], [str(error)]
    if given.json:
        print_json({"study": given.name, "said": said, "wrong": wrong})
    else:
        for text in said:
            print(f"{given.name}: {text}")
    for text in wrong:
        complain(text, FOUND)
    return FOUND if wrong else DONE


def show(given: argparse.Namespace) -> int:
    """Prints a study in words."""
    with stored.now(given.data, given.name, library.installed()) as now:
        print(words.show(now.library, now.block, now.records.newest_first(), given.json, now.named(), now.proof()))
    return DONE


def log(given: argparse.Namespace) -> int:
    """Prints stored lines and replies in words."""
    installed = library.installed()
    named = stored.names_by_line(given.data, given.name, installed)
    note(filter(None, [named.left_out]))
    with store.reading(given.data, given.name) as study:
        lines = study.lines() if given.last is None else reversed(list(islice(study.newest_first(), given.last)))
        for text in words.log(installed.header, lines, given.json, named):
            print(text)
    return DONE


def compact(given: argparse.Namespace) -> int:
    """Drops stored lines that changed nothing."""
    dropped, kept = checks.compact(given.data, given.name)
    return _say(given, f"{given.name}: {dropped} lines dropped, {kept} kept", {"study": given.name, "dropped": dropped, "kept": kept})


def _parser() -> argparse.ArgumentParser:
    parser = argparse.ArgumentParser(prog="host", description="Answers the lines of many studies by the proved library, and stores every answer.")
    commands: Commands = parser.add_subparsers(required=True, metavar="COMMAND")
    _command(commands, "serve", serve, named=False, json=None)
    _add_parser(commands)
    _command(commands, "remove", remove)
    _command(commands, "list", list_studies, named=False)
    _command(commands, "verify", verify)
    _command(commands, "show", show)
    logged = _command(commands, "log", log, json="print a JSON object for each line")
    logged.add_argument("--last", type=_count, metavar="N", help="only the last N lines")
    _command(commands, "compact", compact)
    _convert_parser(commands)
    _desk_parsers(commands)
    _page_parser(commands)
    return parser


def _add_parser(commands: Commands) -> None:
    added = _command(commands, "add", add)
    where = added.add_mutually_exclusive_group(required=True)
    where.add_argument("--port", type=_port, help="a TCP port")
    where.add_argument("--socket", type=Path, metavar="PATH", help="a socket file")
    bind = f"with --port: the IP address to listen on, {LOOPBACK} unless given; other than loopback needs TLS"
    added.add_argument("--bind", type=_bind, metavar="ADDRESS", help=bind)
    added.add_argument("--crlf", action="store_true", help="lines and replies end in CR LF")


def _convert_parser(commands: Commands) -> None:
    """The command that needs no data folder."""
    parser = commands.add_parser("convert", help=desk.convert.__doc__, description=desk.convert.__doc__)
    parser.set_defaults(command=desk.convert)
    parser.add_argument("source", metavar="IN", help="the file to read, or - for standard input")
    parser.add_argument("target", metavar="OUT", help="the file to write, or - for standard output")
    for option, dest, read in (("--from", "from_kind", "IN"), ("--to", "to_kind", "OUT")):
        parser.add_argument(option, dest=dest, metavar="FORMAT", help=f"the format of {read}, by its suffix unless given: {', '.join(FORMATS)}")
    parser.add_argument("--scale", type=_scale, metavar="N", help=SCALE_HELP)
    parser.add_argument("--json", action="store_true", help=OBJECT)


def _recheck_parser(commands: Commands) -> None:
    """The command that needs no data folder: where there is one, it keeps the proof with the study."""
    parser = commands.add_parser("recheck", help=recheck.recheck.__doc__, description=recheck.recheck.__doc__)
    parser.set_defaults(command=recheck.recheck)
    where = f"the data folder with the study, by {DATA} of the environment unless given"
    parser.add_argument("--data", type=Path, default=os.environ.get(DATA) or None, metavar="DIR", help=where)
    parser.add_argument("--json", action="store_true", help=OBJECT)
    parser.add_argument("file", type=Path, metavar="FILE", help="the proof, as solve --proof writes it")


def _desk_parsers(commands: Commands) -> None:
    """The commands of planners."""
    imported = _client(_command(commands, "import", desk.import_study))
    imported.add_argument("file", metavar="FILE", help="the file, or - for standard input")
    imported.add_argument("--from", dest="kind", metavar="FORMAT", help=f"its format, where its suffix does not say it: {', '.join(FORMATS)}")
    imported.add_argument("--scale", type=_scale, metavar="N", help=SCALE_HELP)
    exported = _command(commands, "export", desk.export)
    exported.add_argument("file", metavar="FILE", help="the file, or - for standard output")
    exported.add_argument("--to", dest="kind", metavar="FORMAT", help=f"its format, where its suffix does not say it: {', '.join(FORMATS)}")
    lifted = _client(_command(commands, "lift", lifting.lift))
    lifted.add_argument("--ceiling", action="store_true", help="by a linear programme, with the ceiling that no shift can pass")
    solved = _client(_command(commands, "solve", solving.solve))
    solved.add_argument("--seconds", type=_seconds, metavar="N", help="end after so many seconds, with the best plan so far")
    solved.add_argument("--proof", type=Path, metavar="FILE", help="write what recheck takes: the lines that settle each part, and the parts that are open")
    solved.add_argument("--resume", type=Path, metavar="FILE", help="go on from what was written by --proof")
    _recheck_parser(commands)
    _command(commands, "plan", desk.plan)
    sent = _client(_command(commands, "send", desk.send))
    sent.add_argument("asking", nargs="+", metavar="WORD", help="tighten, round, search N, add TRAIN CHOICE POINTS, save, or a line as it stands")
    _command(commands, "watch", desk.watch, json="print a JSON object for each line")


def _page_parser(commands: Commands) -> None:
    """The command that shows the studies in a browser."""
    shown = _command(commands, "page", page, named=False, json=None)
    shown.add_argument("--port", type=_port, required=True, metavar="N", help="a TCP port")
    bind = f"the IP address to listen on, {LOOPBACK} unless given; other than loopback needs TLS and a client CA"
    shown.add_argument("--bind", type=_bind, metavar="ADDRESS", help=bind)


def _client(parser: argparse.ArgumentParser) -> argparse.ArgumentParser:
    """A command that connects to a study."""
    parser.add_argument("--certificate", type=Path, metavar="FILE", help="the client's certificate, where the host asks for one")
    parser.add_argument("--key", type=Path, metavar="FILE", help="its key, in the same file unless given")
    return parser


def _command(commands: Commands, name: str, function: Command, named: bool = True, json: str | None = OBJECT) -> argparse.ArgumentParser:
    """A command on a data folder."""
    parser = commands.add_parser(name, help=function.__doc__, description=function.__doc__)
    parser.set_defaults(command=function)
    data = os.environ.get(DATA) or None
    where = f"the data folder, by {DATA} of the environment unless given"
    parser.add_argument("--data", type=Path, required=data is None, default=data, metavar="DIR", help=where)
    if json:
        parser.add_argument("--json", action="store_true", help=json)
    if named:
        parser.add_argument("name", metavar="NAME", help="the name of a study")
    return parser


def _port(text: str) -> int:
    if not text.isdecimal() or int(text) not in PORTS:
        raise argparse.ArgumentTypeError(f"not a port from {PORTS[0]} to {PORTS[-1]}: {text}")
    return int(text)


def _bind(text: str) -> str:
    try:
        return str(ipaddress.ip_address(text))
    except ValueError as error:
        raise argparse.ArgumentTypeError(f"not an IP address: {text}") from error


def _scale(text: str) -> int:
    if not (text.isascii() and text.isdecimal()) or not 1 <= int(text) <= SCALE_MOST:
        raise argparse.ArgumentTypeError(f"not a scale from 1 to {SCALE_MOST}: {text}")
    return int(text)


def _seconds(text: str) -> float:
    if not (text.isascii() and text.isdecimal()) or int(text) == 0:
        raise argparse.ArgumentTypeError(f"not a number of seconds from 1: {text}")
    return float(text)


def _count(text: str) -> int:
    if not text.isdecimal():
        raise argparse.ArgumentTypeError(f"not a number of lines: {text}")
    return int(text)
