"""The commands of planners, on a host at work: what they print, send and leave alone, and their exit status."""

import io
import itertools
import json
import os
import random
import signal
import subprocess
import threading
from collections.abc import Iterator
from contextlib import contextmanager, redirect_stderr, redirect_stdout
from fractions import Fraction
from math import gcd
from pathlib import Path
from subprocess import CompletedProcess
from typing import Any
from unittest import mock

import junction
from hosting import calling, commands
from hosting.tests import running, support
from hosting.tests.running import HostTest, Running
from hosting.tests.test_tls import CERTIFICATES, SERVER
from junction import lines, replies, solvers
from junction.services import Service
from junction.study import Choice, Pair, Study, Train

DONE, FOUND, FAILED = 0, 1, 2
NORTH = support.ROOT / "examples/north.csv"

# One train whose choices cost 10 and 11 points: a lift takes 10 points, and nothing else can be gained.
ONE = Study((Train("0", (Choice("0", 10), Choice("1", 11))),), (), 1)
# Two trains that both want platform 1.
TWO = """train,choice,with_train,with_choice,cost
RE 5,platform 1,,,0
RE 5,platform 2,,,4
S 1,platform 1,,,1
S 1,platform 2,,,9
RE 5,platform 1,S 1,platform 1,forbidden
"""
CLOSED = """train,choice,with_train,with_choice,cost
RE 5,platform 1,,,0
S 1,platform 1,,,1
RE 5,platform 1,S 1,platform 1,forbidden
"""


def least(study: Study) -> int:
    """What the cheapest plan costs, by all plans."""
    costs = (cost_of(study, plan) for plan in itertools.product(*map(range, study.sizes)))
    return min(cost for cost in costs if cost is not None)


def cost_of(study: Study, plan: tuple[int, ...]) -> int | None:
    """What a plan costs; None where it has a forbidden entry."""
    costs = [train.choices[choice].cost for train, choice in zip(study.trains, plan, strict=True)]
    costs += [pair.costs[plan[pair.first]][plan[pair.second]] for pair in study.pairs]
    known = [cost for cost in costs if cost is not None]
    return sum(known) if len(known) == len(costs) else None


def heed_ctrl_c() -> None:
    """Ctrl-C ends what is started here, also where the tests run in the background of a shell, which has them ignore it."""
    signal.signal(signal.SIGINT, signal.SIG_DFL)


class DeskTest(HostTest):
    """Tests with a host for all of them, and a study for each, named by the test."""

    @classmethod
    def setUpClass(cls) -> None:
        names = [name.removeprefix("test_") for name in dir(cls) if name.startswith("test_")]
        cls.host = cls.shared(*names)

    @property
    def name(self) -> str:
        """The study of this test."""
        return self._testMethodName.removeprefix("test_")

    def run_command(self, *arguments: object) -> CompletedProcess[str]:
        """Carries out a command in this process."""
        given = [*map(str, arguments), *(["--data", str(self.host.data)] if arguments[0] != "convert" else [])]
        printed = io.TextIOWrapper(io.BytesIO(), "utf-8", newline="", write_through=True)
        with redirect_stdout(printed), redirect_stderr(io.StringIO()) as said:
            try:
                status = commands.main(given)
            except SystemExit as ended:
                assert isinstance(ended.code, int)
                status = ended.code
        printed.seek(0)
        return CompletedProcess(given, status, printed.read(), said.getvalue())

    def done(self, *arguments: object) -> str:
        """What a command prints that is done and says nothing on standard error."""
        done = self.run_command(*arguments)
        self.assertEqual((done.returncode, done.stderr), (DONE, ""), done)
        return done.stdout

    def facts(self, *arguments: object) -> dict[str, Any]:
        """What a command prints as JSON: one object, on one line."""
        facts = json.loads(self.done(*arguments, "--json"))
        self.assertIsInstance(facts, dict)
        return dict(facts)

    def said(self, status: int, *arguments: object) -> str:
        """What a command says on standard error that ends with a status and prints nothing."""
        done = self.run_command(*arguments)
        self.assertEqual((done.returncode, done.stdout), (status, ""), done)
        return done.stderr

    def file(self, name: str, text: str) -> Path:
        """A file of the test."""
        path = self.host.data / f"{self.name}.{name}"
        path.write_text(text, encoding="utf-8")
        return path

    def load(self, study: Study | str) -> None:
        """Loads a study, which has names where it is the text of a CSV file."""
        if isinstance(study, str):
            self.done("import", self.name, self.file("csv", study))
        else:
            with calling.service(self.host.data, self.name) as service:
                service.load(study)

    def asked(self, *asked: str) -> list[str]:
        """The replies to lines of another client."""
        with calling.service(self.host.data, self.name) as service:
            return list(service.ask_all(asked))


class Files(DeskTest):
    """import and export."""

    def test_import_loads_and_keeps_names(self) -> None:
        self.assertEqual(self.done("import", self.name, NORTH), f"{self.name}: 5 trains, 7 pairs, scale 840\n")
        self.assertEqual(self.host.stored(self.name)[0][0].decode(), lines.load(junction.read(str(NORTH))))
        facts = self.facts("show", self.name)
        self.assertEqual(facts["names"][0], ["RE 5", ["platform 1", "platform 2", "platform 1 +3"]])

    def test_import_says_what_it_loaded(self) -> None:
        facts = self.facts("import", self.name, self.file("csv", TWO), "--scale", 12)
        self.assertEqual(facts, {"study": self.name, "trains": 2, "sizes": [2, 2], "pairs": 1, "scale": 12, "constant": 0, "bound": 0, "notes": []})

    def test_a_wrong_file_is_not_loaded(self) -> None:
        path = self.file("csv", TWO.replace("S 1,platform 1,forbidden", "S 1,platfrom 1,forbidden").replace(",,,9", ",,,-9"))
        said = self.said(FAILED, "import", self.name, path).splitlines()
        self.assertEqual(said, [
            f"host: {path}, row 5, column cost: '-9' is no cost: costs are from 0 to 1000000, or forbidden",
            f"host: {path}, row 6, column with_choice: train S 1 has no choice 'platfrom 1'",
        ])
        self.assertEqual(self.host.stored(self.name), [])

    def test_clauses_are_loaded_as_their_line(self) -> None:
        path = self.file("wcnf", "p wcnf 2 3 100\n5 1 2 0\n2 -1 0\n1 -2 1 0\n")
        self.assertEqual(self.facts("import", self.name, path, "--scale", 1)["trains"], 2)
        self.assertEqual(self.host.stored(self.name), [(b"09020001000301020000" b"05FF00000002FE01000001", b"89" + b"0" * 24)])

    def test_export_gives_what_was_imported(self) -> None:
        self.load(TWO)
        path = self.host.data / "given.csv"
        self.assertEqual(self.done("export", self.name, path), f"{path}: 2 trains, 1 pair, scale 840\n")
        self.assertEqual(junction.read(str(path)), junction.read(str(self.file("csv", TWO))))
        self.assertEqual(self.done("export", self.name, "-", "--to", "csv"), path.read_text())

    def test_export_has_additions(self) -> None:
        self.load(TWO)
        self.done("send", self.name, "add", "S 1", "platform 2", 3)
        self.done("send", self.name, "tighten")
        path = self.host.data / "added.json"
        self.assertEqual(self.facts("export", self.name, path)["notes"], [])
        self.assertEqual(junction.read(str(path)), junction.read(str(self.file("csv", TWO.replace(",,,9", ",,,12")))))

    def test_export_says_what_is_left_out(self) -> None:
        self.load(TWO)
        path = self.host.data / "left.wcsp"
        done = self.run_command("export", self.name, path)
        self.assertEqual((done.returncode, done.stderr), (DONE, "host: names of trains and choices have no place in .wcsp and are left out\n"))

    def test_names_are_left_out_of_another_study(self) -> None:
        self.load(TWO)
        self.asked(lines.load(ONE))
        why = "the names are left out: the study has 1 train now, and they are of 2"
        self.assertEqual(self.run_command("export", self.name, "-", "--to", "line").stderr, f"host: {why}\n")
        self.assertEqual(self.run_command("plan", self.name).stderr, f"host: {why}\n")
        self.assertIn(f"names     {why}\n", self.done("show", self.name))
        logged = self.run_command("log", self.name)
        self.assertEqual((logged.returncode, logged.stderr, logged.stdout.count("\n")), (DONE, f"host: {why}\n", 2))

    def test_json_and_a_study_on_standard_output(self) -> None:
        self.load(TWO)
        self.assertIn("do not go together", self.said(FAILED, "export", self.name, "-", "--to", "csv", "--json"))


class Plans(DeskTest):
    """plan and show."""

    def test_before_any_search(self) -> None:
        self.load(TWO)
        self.assertEqual(self.done("plan", self.name), "plan: none in the log\n")
        facts = self.facts("plan", self.name)
        self.assertEqual([facts[key] for key in ("plan", "cost", "bound", "settled")], [None, None, 0, False])

    def test_a_proved_plan_is_settled(self) -> None:
        self.load(TWO)
        self.done("send", self.name, "search", 100)
        self.assertEqual(self.done("plan", self.name), "RE 5: platform 2\nS 1: platform 1\ncost 5 points, bound 0 points, settled: no plan costs less\n")
        facts = self.facts("plan", self.name)
        self.assertEqual([facts[key] for key in ("plan", "cost", "bound", "settled", "by_train", "line")],
                         [[1, 0], 5, 0, True, [["RE 5", "platform 2"], ["S 1", "platform 1"]], 2])

    def test_a_later_plan_does_not_hide_a_better_one(self) -> None:
        self.load(TWO)
        self.asked(lines.search(100), lines.order([1, 0]), lines.search(3))
        shown = self.facts("show", self.name)
        self.assertEqual((shown["best_plan"]["plan"], shown["best_plan"]["settled"]), ([1, 0], True))
        self.load(TWO)
        self.asked(lines.add(1, 0, 20), lines.search(100), lines.order([0, 1]), lines.search(2))
        shown = self.facts("show", self.name)
        self.assertEqual((shown["best_plan"]["plan"], shown["best_plan"]["cost"]), ([0, 1], 9))

    def test_the_cost_is_of_now(self) -> None:
        self.load(TWO)
        self.asked(lines.search(100), lines.add(1, 0, 3))
        facts = self.facts("plan", self.name)
        self.assertEqual((facts["plan"], facts["cost"], facts["settled"]), ([1, 0], 8, False))
        self.assertIn("cost 8 points, bound 0 points, not settled: a plan may cost less", self.done("plan", self.name))

    def test_the_best_plan_changes_with_the_costs(self) -> None:
        self.load(TWO)
        self.asked(lines.search(100), lines.add(1, 0, 7), lines.search(100), lines.add(1, 1, 9))
        facts = self.facts("plan", self.name)
        self.assertEqual((facts["plan"], facts["cost"], facts["line"]), ([1, 0], 12, 2))

    def test_a_bound_that_a_plan_costs_settles(self) -> None:
        self.load(ONE)
        self.asked(lines.search(1), lines.add(0, 1, 5), lines.tighten())
        facts = self.facts("plan", self.name)
        self.assertEqual([facts[key] for key in ("plan", "cost", "bound", "settled")], [[0], 10, 10, True])
        self.assertIn("train 0: choice 0\ncost 10 points, bound 10 points, settled", self.done("plan", self.name))

    def test_a_study_without_a_plan_is_settled(self) -> None:
        self.load(CLOSED)
        self.done("send", self.name, "search", 100)
        self.asked(lines.add(0, 0, 1))
        facts = self.facts("plan", self.name)
        self.assertEqual([facts[key] for key in ("plan", "cost", "settled", "line")], [None, None, True, 2])
        self.assertEqual(self.done("plan", self.name), "plan: there is none, by the search of line 2: settled\n")

    def test_a_load_forgets_plans(self) -> None:
        self.load(TWO)
        self.done("send", self.name, "search", 100)
        self.load(TWO)
        self.assertIsNone(self.facts("plan", self.name)["plan"])

    def test_nothing_is_stored_by_it(self) -> None:
        self.load(TWO)
        self.done("send", self.name, "search", 100)
        before = self.host.stored(self.name)
        self.done("plan", self.name)
        self.done("show", self.name)
        self.assertEqual(self.host.stored(self.name), before)

    def test_nothing_loaded(self) -> None:
        for command in (("plan",), ("lift",), ("export",)):
            arguments = [*command, self.name, *(["-", "--to", "csv"] if command == ("export",) else [])]
            self.assertEqual(self.said(FAILED, *arguments), f"host: study {self.name}: nothing is loaded\n")


class Sending(DeskTest):
    """send."""

    def test_words(self) -> None:
        self.load(TWO)
        # The round moves all that S 1 costs into the pair, whose rows have leasts of 8 and 0 points: RE 5 costs 8 and 4.
        for words, reply in ((("tighten",), "constant 840 parts, bound 1 point"), (("round",), "constant 4,200 parts, bound 5 points"),
                             (("search", 100), "ended after 5 tries: plan 1 0 costs 5 points (RE 5: platform 2, S 1: platform 1)"),
                             (("add", "S 1", "platform 2", 3), "constant 4,200 parts, bound 5 points"),
                             (("save",), "saved, to load 2 trains, scale 840, sizes 2 2, 1 pair"),
                             (("0B0001",), "order 0 1 (RE 5, S 1)"), (("44BC",), "constant 4,200 parts, bound 5 points")):
            self.assertEqual(self.done("send", self.name, *words), f"{reply}\n")
        sent = [line.decode() for line, _ in self.host.stored(self.name)][1:]
        self.assertEqual(sent, ["04", "08", "0600000064", "020101000003", "07", "0B0001", "44BC"])

    def test_names_and_numbers(self) -> None:
        self.load(TWO)
        for words in (("RE 5", "1"), ("0", "platform 2"), ("0", "1")):
            self.done("send", self.name, "add", *words, 1)
        self.assertEqual([line for line, _ in self.host.stored(self.name)][1:], [b"020001000001"] * 3)

    def test_what_is_declined(self) -> None:
        declined = self.run_command("send", self.name, "tighten")
        self.assertEqual((declined.returncode, declined.stdout), (FOUND, "declined, 4: kinds 02 to 08 and 0A to 0E on a fresh block\n"))
        self.load(TWO)
        for words, number in ((("add", 9, 9, 1), 9), (("search", 0), 15), (("0",), 1), (("FF",), 3)):
            declined = self.run_command("send", self.name, *words, "--json")
            self.assertEqual((declined.returncode, json.loads(declined.stdout)["answer"]["number"]), (FOUND, number))

    def test_json(self) -> None:
        self.load(TWO)
        facts = self.facts("send", self.name, "search", 100)
        self.assertEqual((facts["study"], facts["line"], facts["reply"]), (self.name, "0600000064", self.host.stored(self.name)[-1][1].decode()))
        self.assertEqual((facts["answer"]["plan"], facts["answer"]["cost"]), ([1, 0], 5))

    def test_wrong_use(self) -> None:
        self.load(TWO)
        for words, why in ((("search",), "what is sent is: tighten, "), (("search", "many"), "not a number: many"),
                           (("add", "S 1", "platform 2"), "what is sent is: "), (("add", "S 2", "platform 2", 1), "there is no train S 2"),
                           (("add", "S 1", "platform 3", 1), "train S 1 has no choice 'platform 3'"),
                           (("04\n04",), "what is sent is: "), (("search", 2 ** 32), "the budget is 0 to 4,294,967,295 in a line")):
            self.assertIn(why, self.said(FAILED, "send", self.name, *words))
        self.assertEqual(len(self.host.stored(self.name)), 1)


class Lifting(DeskTest):
    """lift, on studies that others change meanwhile."""

    def test_the_bound_rises_and_plans_keep_their_cost(self) -> None:
        self.load(NORTH.read_text(encoding="utf-8"))
        facts = self.facts("lift", self.name)
        self.assertEqual((facts["sent"], facts["before"], facts["ceiling"]), (True, {"constant": 0, "bound": 0}, None))
        self.assertGreater(facts["after"]["bound"], 0)
        self.assertEqual(self.host.stored(self.name)[-1][1][:2], b"83")
        self.assertEqual(self.facts("send", self.name, "search", 1000)["answer"]["cost"], least(junction.read(str(NORTH))))
        self.verified(self.host, self.name)

    def test_words(self) -> None:
        self.load(ONE)
        self.assertEqual(self.done("lift", self.name), "constant  0 parts before, 10 parts now\nbound     0 points before, 10 points now\n")
        self.assertEqual(self.done("lift", self.name),
                         "constant  10 parts before, 10 parts now; no shift that raises it was found\nbound     10 points before, 10 points now\n")
        self.assertEqual(len(self.host.stored(self.name)), 2)

    def test_a_block_that_others_changed_is_read_again(self) -> None:
        self.load(ONE)
        with self.meanwhile(lines.tighten(), times=1):
            facts = self.facts("lift", self.name)
        self.assertEqual((facts["sent"], facts["after"]), (False, {"constant": 10, "bound": 10}))
        self.assertEqual([reply for _, reply in self.host.stored(self.name)][2:], [b"FF0C"])

    def test_it_is_read_three_times_at_most(self) -> None:
        self.load(ONE)
        with self.meanwhile(lines.shift([1], []), times=9):
            said = self.said(FOUND, "lift", self.name)
        self.assertIn("3 times", said)
        self.assertEqual([reply for _, reply in self.host.stored(self.name)].count(b"FF0C"), 3)

    def test_an_addition_meanwhile_is_not_lost(self) -> None:
        self.load(ONE)
        with self.meanwhile(lines.add(0, 0, 5), times=1):
            facts = self.facts("lift", self.name)
        self.assertEqual((facts["sent"], facts["after"]), (True, {"constant": 10, "bound": 10}))
        self.assertEqual(self.asked(lines.save()), [lines.load(ONE).replace("00000A", "00000F")])

    def test_one_adds_while_another_lifts(self) -> None:
        study = junction.read(str(NORTH))
        self.load(NORTH.read_text(encoding="utf-8"))
        additions = [(train, choice) for train in range(3) for choice in range(3)] * 6
        adding = threading.Thread(target=lambda: [self.asked(lines.add(*which, 1)) for which in additions])
        adding.start()
        while adding.is_alive():
            self.assertEqual(self.run_command("lift", self.name).returncode, DONE)
        adding.join()
        self.done("lift", self.name)
        saved = replies.decode_load(self.asked(lines.save())[0])
        for train, choice in additions[:9]:
            before, after = (of.trains[train].choices[choice].cost for of in (study, saved))
            self.assertEqual(after, (before or 0) + 6)
        self.verified(self.host, self.name)

    @contextmanager
    def meanwhile(self, line: str, times: int) -> Iterator[None]:
        """Another client sends a line just before each of the first lines that a command sends."""
        left = itertools.repeat(line, times)
        ask = Service.ask

        def asking(service: Service, given: str) -> str:
            self.asked(*itertools.islice(left, 1))
            return ask(service, given)

        with mock.patch.object(Service, "ask", asking):
            yield


class Best(DeskTest):
    """lift on 24 studies of all sizes, by sweeps and by the programme."""

    def study(self, seed: int) -> Study:
        """A study of a seed. In every third some entries are forbidden, in every fourth all costs are multiples of 5."""
        chance = random.Random(seed)
        step, forbidden = 5 if seed % 4 == 0 else 1, 0.1 if seed % 3 == 0 else 0.0
        sizes = [chance.randint(2, 8) for _ in range(chance.randint(3, 24))] if seed else [8] * 24
        couples = [(i, j) for i in range(len(sizes)) for j in range(i + 1, len(sizes))]
        pairs = sorted(chance.sample(couples, min(48, len(couples))))

        def cost() -> int | None:
            return None if chance.random() < forbidden else step * chance.choice([0, 0, 1, 7, chance.randint(0, 1000)])

        trains = tuple(Train(str(train), tuple(Choice(str(choice), cost()) for choice in range(size))) for train, size in enumerate(sizes))
        return Study(trains, tuple(Pair(i, j, tuple(tuple(cost() for _ in range(sizes[j])) for _ in range(sizes[i]))) for i, j in pairs))

    def test_sweeps_are_accepted(self) -> None:
        for seed in range(24):
            self.load(self.study(seed))
            facts = self.facts("lift", self.name)
            self.assertEqual((facts["sent"], self.host.stored(self.name)[-1][1][:2]), (True, b"83"), seed)
            self.assertGreaterEqual(facts["after"]["bound"], facts["before"]["bound"])
        self.verified(self.host, self.name)

    def test_the_programme_reaches_its_optimum_rounded_up(self) -> None:
        try:
            solvers.find()
        except solvers.NoSolver as none:
            self.skipTest(str(none))
        for seed in range(24):
            study = self.study(seed)
            self.load(study)
            facts = self.facts("lift", self.name, "--ceiling")
            sent = [(line[:2], reply[:2]) for line, reply in self.host.stored(self.name)][-2:]
            if facts["ceiling"] is None:
                self.assertEqual((sent[-1], "no certificate is sent, since the solver finds no plan" in facts["said"]), ((b"03", b"83"), True), seed)
                continue
            self.assertEqual(sent, [(b"03", b"83"), (b"05", b"85")], seed)
            ceiling = Fraction(facts["ceiling"]["points"])
            step = gcd(*(cost for cost in self.costs(study) if cost is not None))
            self.assertEqual(facts["after"]["bound"], -(-ceiling // step) * step, seed)
            self.assertIn("no shift can raise the bound", facts["said"])
            self.assertEqual(facts["ceiling"]["reached"], facts["scale_reached"] == 840 or facts["after"]["constant"] == ceiling * 840)

    def costs(self, study: Study) -> Iterator[int | None]:
        """All loaded costs."""
        yield from (choice.cost for train in study.trains for choice in train.choices)
        yield from (cost for pair in study.pairs for row in pair.costs for cost in row)


class Watching(DeskTest):
    """watch, as a process of its own."""

    def test_new_lines_until_it_is_broken_off(self) -> None:
        self.load(TWO)
        self.assertEqual(self.watched([lines.search(100), lines.tighten()], "--json"), [2, 3])
        self.assertEqual(self.watched([lines.search(100)]), ["ended after 6 tries: plan 1 0 costs 5 points (RE 5: platform 2, S 1: platform 1)"])

    def watched(self, given: list[str], *options: str) -> list[object]:
        """What is printed of lines that are sent while it watches: of JSON their numbers, else what the replies say."""
        command = [str(support.HOST), "watch", self.name, "--data", str(self.host.data), *options]
        with subprocess.Popen(command, stdout=subprocess.PIPE, stderr=subprocess.PIPE, text=True, preexec_fn=heed_ctrl_c) as watching:
            assert watching.stdout is not None and watching.stderr is not None
            self.assertIn("Ctrl-C ends it", watching.stderr.readline())
            self.asked(*given)
            printed = [watching.stdout.readline() for _ in given]
            watching.send_signal(signal.SIGINT)
            self.assertEqual(watching.wait(running.PATIENCE), DONE)
            self.assertEqual((watching.stdout.read(), watching.stderr.read()), ("", ""))
        return [json.loads(text)["number"] if options else text.rstrip().split("->  ")[1] for text in printed]


class Reaching(HostTest):
    """How commands reach a study, and what they say where they do not."""

    def run_command(self, host: Running, *arguments: object) -> tuple[int, str, str]:
        done = host.command(*arguments)
        return done.returncode, done.stdout, done.stderr

    def test_every_kind_of_address(self) -> None:
        host = self.running("plain", "crlf")
        path = host.data / "file.sock"
        host.add_socket(path)
        host.signal(signal.SIGHUP)
        host.wait_log("study file.sock is served")
        for name in ("plain", "crlf", "file.sock"):
            self.assertEqual(self.run_command(host, "import", name, NORTH), (DONE, f"{name}: 5 trains, 7 pairs, scale 840\n", ""))
            self.verified(host, name)

    def test_by_tls(self) -> None:
        host = self.running("north", **SERVER)
        self.assertEqual(self.run_command(host, "import", "north", NORTH)[0], DONE)
        other = self.running("north", certificate=CERTIFICATES / "renewed-server.crt", key=CERTIFICATES / "renewed-server.key")
        host.data.joinpath("host.ini").write_text(other.data.joinpath("host.ini").read_text())
        status, _, said = self.run_command(host, "send", "north", "tighten")
        self.assertEqual((status, said.count("\n")), (FAILED, 1))
        self.assertIn("CERTIFICATE_VERIFY_FAILED", said)

    def test_by_tls_with_a_client_s_certificate(self) -> None:
        host = self.running("north", **SERVER, client_ca=CERTIFICATES / "ca.crt")
        given = ("--certificate", CERTIFICATES / "client.crt", "--key", CERTIFICATES / "client.key")
        self.assertEqual(self.run_command(host, "import", "north", NORTH, *given)[0], DONE)
        self.assertEqual(self.run_command(host, "send", "north", "tighten", *given)[0], DONE)
        status, _, said = self.run_command(host, "send", "north", "tighten")
        why = "the host asks its clients for a certificate (client_ca in host.ini): --certificate and --key name one"
        self.assertEqual((status, said), (FAILED, f"host: {why}\n"))

    def test_a_host_that_does_not_serve(self) -> None:
        host = self.running("north")
        host.stop()
        refused = f"host: study north is not served at 127.0.0.1:{host.ports['north']}: Connection refused\n"
        self.assertEqual(self.run_command(host, "import", "north", NORTH), (FAILED, "", refused))
        self.assertEqual(self.run_command(host, "send", "south", "tighten"), (FAILED, "", "host: there is no study south\n"))

    def test_the_data_folder_by_the_environment(self) -> None:
        host = self.running("north")
        for environment, status in (({"JUNCTION_DATA": str(host.data)}, DONE), ({"JUNCTION_DATA": ""}, FAILED)):
            done = subprocess.run([support.HOST, "list", "--json"], env={**os.environ, **environment}, capture_output=True, text=True, timeout=running.PATIENCE)
            self.assertEqual(done.returncode, status, done.stderr)


class AsJson(DeskTest):
    """Every command with --json prints one object, which is read back."""

    def test_every_command(self) -> None:
        path = self.host.data / "every.json"
        self.assertEqual(self.facts("import", self.name, NORTH)["trains"], 5)
        for arguments, keys in {
            ("lift", self.name): {"study", "sent", "before", "after", "ceiling", "scale_reached", "said"},
            ("send", self.name, "search", "100"): {"study", "line", "reply", "request", "answer"},
            ("plan", self.name): {"study", "plan", "by_train", "cost", "bound", "settled", "line", "words", "names_left_out"},
            ("export", self.name, path): {"study", "file", "trains", "sizes", "pairs", "scale", "notes"},
            ("convert", NORTH, path): {"in", "out", "from", "to", "trains", "sizes", "pairs", "scale", "notes"},
            ("verify", self.name): {"study", "said", "wrong"},
            ("compact", self.name): {"study", "dropped", "kept"},
            ("list",): {"studies"},
        }.items():
            with self.subTest(arguments[0]):
                self.assertLessEqual(keys, set(self.facts(*arguments)))
        self.assertEqual([row["number"] for row in map(json.loads, self.done("log", self.name, "--json").splitlines())], [1, 2, 3])

    def test_add_and_remove(self) -> None:
        added = self.facts("add", "other", "--port", running.free_port())
        self.assertEqual((added["study"], added["crlf"]), ("other", False))
        self.assertTrue(Path(str(self.facts("remove", "other")["folder"])).is_dir())

    def test_what_is_wrong(self) -> None:
        self.load(ONE)
        folder = self.host.data / "studies" / self.name
        self.host.stop()
        folder.joinpath("study.db").write_bytes(b"")
        listed = self.run_command("list", "--json")
        self.assertEqual(listed.returncode, FOUND)
        wrong = [study["wrong"] for study in json.loads(listed.stdout)["studies"] if study["wrong"]]
        self.assertEqual(len(wrong), 1)
        verified = self.run_command("verify", self.name, "--json")
        self.assertEqual((verified.returncode, json.loads(verified.stdout)["wrong"]), (FOUND, wrong))
