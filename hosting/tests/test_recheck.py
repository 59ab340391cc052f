"""`recheck` on a proof whose parts and loads are written here by hand: it takes it, and none that was changed."""

import ast
import io
import json
from collections.abc import Callable
from contextlib import redirect_stderr, redirect_stdout
from copy import deepcopy
from hashlib import sha256
from pathlib import Path
from typing import Any

from hosting import commands, recheck
from hosting.tests import support
from junction import lines
from junction.study import Choice, Cost, Pair, Study, Train

DONE, FOUND, FAILED = 0, 1, 2
Rows = list[dict[str, Any]]


def study(first: list[Cost], second: list[Cost], entries: list[list[Cost]], scale: int = 12) -> Study:
    """A study of two trains."""
    trains = (Train(str(number), tuple(Choice(str(choice), cost) for choice, cost in enumerate(costs))) for number, costs in enumerate((first, second)))
    return Study(tuple(trains), (Pair(0, 1, tuple(map(tuple, entries))),), scale)


# The plans 0 0 and 1 0 cost 4 points, 1 1 costs 5 and 0 1 costs 6. No plan takes choice 2 or 3 of train 0.
ENTRIES: list[list[Cost]] = [[4, 6], [1, 2], [None, None], [5, 5]]
SAVE = lines.load(study([0, 3, 0, None], [0, 0], ENTRIES))
AS_IT_IS = {"trains": [0, 1], "choices": [[0, 1, 2, 3], [0, 1]]}
# Train 1 comes first, with choice 1 first, and train 0 has choice 1 first.
TURNED = {"trains": [1, 0], "choices": [[1, 0, 2, 3], [1, 0]]}

ONLY_0 = lines.load(study([0, None, None, None], [0, 0], ENTRIES))
ONLY_1 = lines.load(study([0, 0], [3, None, None, None], [[2, 6, None, 5], [1, 4, None, 5]], 840))
ONLY_2 = lines.load(study([None, None, 0, None], [0, 0], ENTRIES, 1))
SEARCH = lines.search(100)


class RecheckTest(support.DataCase):
    """Tests with the proof as rows."""

    def part(self, train_0: list[int], renumbered: dict[str, Any], *given: str) -> dict[str, Any]:
        """A part by the choices of train 0, with lines and what the library replies."""
        replies, block = [], self.library.fresh()
        for line in given:
            reply, block = self.library.answer(block, line.encode())
            replies.append(reply.decode())
        return {"part": [train_0, [0, 1]], **deepcopy(renumbered), "lines": list(given), "replies": replies}

    def proof(self) -> Rows:
        """A part that a search ends, one whose bound is the cost, and one without a plan."""
        parts = [
            self.part([0], AS_IT_IS, ONLY_0, lines.order([1, 0]), SEARCH),
            self.part([1], TURNED, ONLY_1, lines.tighten(), lines.directional_round()),
            self.part([2], AS_IT_IS, ONLY_2, SEARCH),
        ]
        return [{"save": SAVE}, *parts, {"plan": [1, 0], "cost": 4}]

    def checked(self, rows: Rows) -> recheck.Proof:
        """What recheck says of these rows."""
        return recheck.check(content(rows), self.library)

    def refused(self, rows: Rows, why: str) -> None:
        """These rows are refused with this sentence."""
        with self.assertRaises(recheck.Wrong) as refused:
            self.checked(rows)
        self.assertEqual(str(refused.exception), why)


def content(rows: Rows) -> bytes:
    """The file of these rows."""
    return "".join(f"{json.dumps(row)}\n" for row in rows).encode()


class Taken(RecheckTest):
    """What it takes."""

    def test_each_ground(self) -> None:
        rows = self.proof()
        proof = self.checked(rows)
        self.assertEqual((proof.cost, len(proof.settled), proof.open), (4, 3, []))
        self.assertEqual([row["replies"][-1][:4] for row in rows[1:4]], ["8601", "8800", "8602"])
        self.assertEqual(int(rows[2]["replies"][1][14:26], 16), 4)

    def test_a_part_with_forbidden_choices(self) -> None:
        rows = self.proof()
        rows[3]["part"] = [[2, 3], [0, 1]]
        self.assertEqual(self.checked(rows).cost, 4)

    def test_no_plan(self) -> None:
        closed: list[list[Cost]] = [[None, None]] * 2
        save = lines.load(study([0, 1], [0, 0], closed))
        search = self.part([0, 1], {"trains": [0, 1], "choices": [[0, 1], [0, 1]]}, save, SEARCH)
        rows = [{"save": save}, search, {"plan": None, "cost": None}]
        self.assertIsNone(self.checked(rows).cost)
        for ground in (lines.tighten(), lines.search(1)):
            search.update(self.part([0, 1], {}, save, ground))
            self.refused(rows, UNSETTLED.format(2))

    def test_no_part_where_a_train_has_no_choice(self) -> None:
        save = lines.load(study([None, None], [0, 0], [[0, 0]] * 2))
        self.assertIsNone(self.checked([{"save": save}, {"plan": None, "cost": None}]).cost)


UNSETTLED = "line {}: it is not settled: no search ended at the cost or above, or without a plan, and no bound reaches the cost"
OTHER_LOAD = "line {}: its load line is not the one that the save line, its choices and its renumbering give"
KINDS = "line 2: its line 2 is of kind '{}', and only kinds 03, 04, 06, 08, 0B may stand behind the load"
CUT = "line {}: the last line, and no other, has a plan and its cost: the file may be cut"


class Changed(RecheckTest):
    """Twelve changes of the proof, each of which makes it say what it does not prove. Where lines are changed their replies are the library's."""

    def change(self, change: Callable[[Rows], object], why: str) -> None:
        """A changed proof is refused."""
        rows = self.proof()
        change(rows)
        self.refused(rows, why)

    def test_a_part_dropped(self) -> None:
        self.change(lambda rows: rows.pop(2), "line 4: the parts have 4 plans of 6")

    def test_a_part_twice(self) -> None:
        self.change(lambda rows: rows.insert(2, rows[1]), "line 3: the part has plans in common with that of line 2")

    def test_a_part_in_the_place_of_another(self) -> None:
        self.change(lambda rows: rows.__setitem__(2, rows[1]), "line 3: the part has plans in common with that of line 2")

    def test_an_addition_slipped_in(self) -> None:
        added = self.part([1], TURNED, ONLY_1, lines.add(0, 0, 9), lines.tighten())
        self.change(lambda rows: rows.__setitem__(2, added), KINDS.replace("line 2:", "line 3:", 1).format("02"))

    def test_a_second_load(self) -> None:
        again = self.part([0], AS_IT_IS, ONLY_0, lines.load(study([9, 9], [0, 0], [[9, 9]] * 2)), SEARCH)
        self.change(lambda rows: rows.__setitem__(1, again), KINDS.format("01"))

    def test_a_cost_in_a_reply_raised(self) -> None:
        def raised(rows: Rows) -> None:
            self.assertEqual(rows[1]["replies"][2][12:24], f"{4:012X}")
            rows[1]["replies"][2] = rows[1]["replies"][2][:12] + f"{5:012X}" + rows[1]["replies"][2][24:]

        reply = self.proof()[1]["replies"][2]
        self.change(raised, f"line 2: the reply to its line 3 is {reply}, and not '{reply[:23]}5{reply[24:]}'")

    def test_one_cost_of_a_load_changed(self) -> None:
        dearer = self.part([0], AS_IT_IS, lines.load(study([0, None, None, None], [0, 0], [[4, 7], *ENTRIES[1:]])), SEARCH)
        self.change(lambda rows: rows.__setitem__(1, dearer), OTHER_LOAD.format(2))

    def test_another_study_s_save_line(self) -> None:
        other = lines.load(study([0, 3, 0, None], [0, 0], [[4, 7], *ENTRIES[1:]]))
        self.change(lambda rows: rows.__setitem__(0, {"save": other}), OTHER_LOAD.format(2))

    def test_the_claim_lowered_by_1(self) -> None:
        self.change(lambda rows: rows[-1].update(cost=3), "line 5: its plan costs 4 points, and not 3")

    def test_the_plan_changed(self) -> None:
        self.change(lambda rows: rows[-1].update(plan=[1, 1]), "line 5: its plan costs 5 points, and not 4")

    def test_a_part_with_a_bound_one_below(self) -> None:
        below = self.part([1], TURNED, ONLY_1, lines.shift([0, 3 * 840], [0] * 6))
        self.assertEqual(int(below["replies"][1][14:26], 16), 3)
        self.change(lambda rows: rows.__setitem__(2, below), UNSETTLED.format(3))

    def test_a_part_with_a_spent_search(self) -> None:
        spent = self.part([0], AS_IT_IS, ONLY_0, lines.search(2))
        self.assertEqual(spent["replies"][1][:4], "8600")
        self.change(lambda rows: rows.__setitem__(1, spent), UNSETTLED.format(2))

    def test_the_file_cut(self) -> None:
        """Wherever it is cut, but for the end of its last line."""
        whole = content(self.proof())
        for end in range(len(whole) - 1):
            with self.assertRaises(recheck.Wrong, msg=end):
                recheck.check(whole[:end], self.library)
        self.change(lambda rows: rows.pop(), CUT.format(4))


class ChangedOtherwise(RecheckTest):
    """More changes, and files that are no proofs at all."""

    def test_a_plan_that_costs_more(self) -> None:
        rows = self.proof()
        rows[-1] = {"plan": [1, 1], "cost": 5}
        self.refused(rows, UNSETTLED.format(2))
        rows[-1] = {"plan": None, "cost": None}
        self.refused(rows, UNSETTLED.format(2))
        rows[-1] = {"plan": [2, 0], "cost": 0}
        self.refused(rows, "line 5: its plan is forbidden")

    def test_a_renumbering_that_is_none(self) -> None:
        rows = self.proof()
        for key, value in (("trains", [0, 0]), ("trains", [0]), ("choices", [[0, 1, 2, 2], [0, 1]]), ("choices", [[0, 1, 2, 3]])):
            changed = deepcopy(rows)
            changed[1][key] = value
            self.refused(changed, "line 2: its trains and choices are not renumbered one to one")
        rows[2].update(AS_IT_IS)
        self.refused(rows, OTHER_LOAD.format(3))

    def test_a_part_that_is_larger_than_its_load(self) -> None:
        rows = self.proof()
        rows[1]["part"], rows[2:4] = [[0, 1, 2], [0, 1]], []
        self.refused(rows, OTHER_LOAD.format(2))

    def test_a_load_over_train_radio_or_declined(self) -> None:
        rows = self.proof()
        rows[1] = self.part([0], AS_IT_IS, lines.by_radio(ONLY_0), lines.by_radio(SEARCH))
        self.refused(rows, OTHER_LOAD.format(2))
        rows[1] = self.part([0], AS_IT_IS, lines.with_scale(ONLY_0, 0), SEARCH)
        self.refused(rows, "line 2: the reply to its line 1 is FF06, and not 'FF06'")

    def test_a_save_line_that_is_none(self) -> None:
        for save in (SAVE + "00", SAVE.lower(), lines.with_scale(SAVE, 0), "04", "", None, 1, "\u00e9"):
            rows = self.proof()
            rows[0]["save"] = save
            self.refused(rows, "line 1: it has no study's save line")

    def test_values_of_another_kind(self) -> None:
        """Each value of the file in turn is something else: it is refused in order, or says the same."""
        rows = self.proof()
        values: tuple[Any, ...] = (None, True, -1, 1 << 70, 0.0, "", "01", [], [[]], [None], {}, float("nan"))
        for where in places(rows):
            for value in values:
                changed = deepcopy(rows)
                at: Any = changed
                for key in where[:-1]:
                    at = at[key]
                if at[where[-1]] == value and type(at[where[-1]]) is type(value):
                    continue
                at[where[-1]] = value
                with self.assertRaises(recheck.Wrong, msg=f"{where}: {value}"):
                    self.checked(changed)

    def test_files_that_are_no_proof(self) -> None:
        for text in (b"", b"\n", b"\xff", b"[]\n", b"[" * 100_000, SAVE.encode(), b"9" * 10_000, content(self.proof()) * 2, content(self.proof()[1:])):
            with self.assertRaises(recheck.Wrong):
                recheck.check(text, self.library)


def places(value: Any) -> list[list[Any]]:
    """The ways to all values within one."""
    inner = value.items() if isinstance(value, dict) else enumerate(value) if isinstance(value, list) else ()
    found = []
    for key, item in inner:
        found += [[key], *([key, *way] for way in places(item))]
    return found


class Command(RecheckTest):
    """The command: what it says, and where it keeps what it took."""

    def run_command(self, rows: Rows, *options: str) -> tuple[int, str, str]:
        self.file = self.data / "proof"
        self.file.write_bytes(content(rows))
        with redirect_stdout(io.StringIO()) as printed, redirect_stderr(io.StringIO()) as said:
            status = commands.main(["recheck", str(self.file), *options])
        return status, printed.getvalue(), said.getvalue()

    def kept(self, name: str = "study") -> Path:
        """Where the proof is kept, if it is."""
        return self.data / "studies" / name / "proofs" / sha256(SAVE.encode()).hexdigest()

    def test_it_is_kept_with_the_study_of_these_costs(self) -> None:
        self.add()
        self.add("fresh")
        self.take([lines.load(study([0, 2, 0, None], [0, 0], ENTRIES)).encode()])
        in_data = ("--data", str(self.data))
        says = "no plan costs less than 4 points, by 3 parts; {}\n"
        self.assertEqual(self.run_command(self.proof(), *in_data), (DONE, says.format("no study at hand has these costs"), ""))
        self.take([lines.add(0, 1, 1).encode()])
        self.assertEqual(self.run_command(self.proof(), *in_data), (DONE, says.format("kept with study study"), ""))
        self.assertEqual(self.kept().read_bytes(), self.file.read_bytes())
        self.assertEqual([path.name for path in self.kept().parent.iterdir()], [self.kept().name])
        self.assertFalse(self.kept("fresh").exists())
        status, printed, _ = self.run_command(self.proof(), *in_data, "--json")
        self.assertEqual(json.loads(printed), {"file": str(self.file), "wrong": None, "cost": 4, "parts": 3, "kept": ["study"]})

    def test_plan_and_show_go_by_it_until_costs_change(self) -> None:
        self.add()
        self.take([SAVE.encode()])
        self.assertEqual(self.best(), (None, None, False, None))
        rows = self.proof()
        self.run_command(rows, "--data", str(self.data))
        self.assertEqual(self.best(), (rows[-1]["plan"], 4, True, None))
        self.assertIn("costs 4 points now, settled: no plan costs less (a kept proof)\n", self.printed("show", "study"))
        self.take([lines.add(0, 1, 1).encode()])
        self.assertEqual(self.best(), (None, None, False, None))

    def best(self) -> tuple[list[int] | None, int | None, bool, int | None]:
        """What `plan` says: the plan, what it costs, whether the study is settled, and the line that shows it."""
        facts = json.loads(self.printed("plan", "study", "--json"))
        return facts["plan"], facts["cost"], facts["settled"], facts["line"]

    def printed(self, *arguments: str) -> str:
        """What a command prints."""
        with redirect_stdout(io.StringIO()) as printed:
            self.assertEqual(commands.main([*arguments, "--data", str(self.data)]), DONE)
        return printed.getvalue()

    def test_one_that_is_wrong_is_not_kept(self) -> None:
        self.add()
        self.take([SAVE.encode()])
        rows = self.proof()
        rows[-1]["cost"] = 3
        why = "line 5: its plan costs 4 points, and not 3"
        self.assertEqual(self.run_command(rows, "--data", str(self.data)), (FOUND, "", f"host: {self.file}: {why}\n"))
        status, printed, _ = self.run_command(rows, "--data", str(self.data), "--json")
        self.assertEqual((status, json.loads(printed)["wrong"]), (FOUND, why))
        self.assertFalse(self.kept().exists())

    def test_one_with_open_parts(self) -> None:
        self.add()
        self.take([SAVE.encode()])
        rows = self.proof()
        rows[2] = {"open": [[1], [0, 1]]}
        self.assertEqual(len(self.checked(rows).open), 1)
        why = "line 3: the part is open: the proof is not complete, 1 part of it being open"
        self.assertEqual(self.run_command(rows, "--data", str(self.data)), (FOUND, "", f"host: {self.file}: {why}\n"))
        self.assertFalse(self.kept().exists())
        rows[2]["open"] = [[0], [0, 1]]
        self.refused(rows, "line 3: the part has plans in common with that of line 2")

    def test_no_file(self) -> None:
        with redirect_stderr(io.StringIO()) as said:
            self.assertEqual(commands.main(["recheck", str(self.data / "none")]), FAILED)
        self.assertIn("No such file", said.getvalue())

    def test_what_it_stands_on(self) -> None:
        """Of what makes proofs it has the encoders of lines alone, and it is short enough to be read whole."""
        text = Path(recheck.__file__).read_text()
        self.assertLess(len(text.splitlines()), 200)
        imported = [node for node in ast.walk(ast.parse(text)) if isinstance(node, ast.ImportFrom) and node.module and node.module.startswith("junction")]
        names = {f"{node.module}.{name.name}" for node in imported for name in node.names}
        of_studies = {f"junction.study.{name}" for name in ("Choice", "Cost", "Pair", "Study", "Train")}
        self.assertEqual(names - of_studies, {"junction.lines", "junction.kinds.counted", "junction.native.Library"})
