"""Lines, replies and blocks in words. The replies of the worked session are the reference's."""

import json
import re
import unittest

from hosting import header, library, names, words
from hosting.records import Stored
from hosting.tests import support
from junction import kinds
from junction.study import Choice, Study, Train

HEADER = header.read(support.ROOT / "include/junction.h")
TIME = "2026-01-31T12:00:00Z"

WORKED = [
    "load 2 trains, scale 1, sizes 2 2, 1 pair  ->  constant 0 parts, bound 0 points",
    "tighten  ->  constant 2 parts, bound 2 points",
    "certify by 8 weights with W = 1  ->  ceiling 2/1 parts, reached",
    "search by at most 10 tries  ->  ended after 3 tries: plan 0 1 costs 2 points",
    "add 3 points to train 1, choice 1  ->  constant 2 parts, bound 2 points",
    "search by at most 2 tries  ->  spent after 2 tries: plan 0 0 costs 3 points",
    "certify by 8 weights with W = 1  ->  ceiling 3/1 parts, not reached",
    "shift by 6 lifts and moves, 1 of them not 0  ->  constant 3 parts, bound 3 points",
    "certify by 8 weights with W = 1  ->  ceiling 3/1 parts, reached",
    "shift by 6 lifts and moves, 1 of them not 0  ->  declined, 12: c0 or an entry would end below 0 or above 72,000,000,000",
    "add 1 point to train 2, choice 0  ->  declined, 9: the train or the choice is absent",
    "search by at most 10 tries  ->  ended after 2 tries: plan 0 0 costs 3 points",
    "save  ->  saved, to load 2 trains, scale 1, sizes 2 2, 1 pair",
    "load 2 trains, scale 1, sizes 2 2, 1 pair  ->  constant 0 parts, bound 0 points",
    "round  ->  constant 3 parts, bound 3 points",
]

# Two trains with two choices, two parts a point; their pair costs 1 point, and 3 where both take choice 1, but 0 and 1 may not be taken together.
HALVES = "01 02 0002 02 02 000000000000 000000000000 01 0001 000001FFFFFF000001000003"
CLOSED_CHOICE = "01 01 0001 02 FFFFFF000005 00"


def digits(text: str) -> bytes:
    return text.replace(" ", "").encode()


def in_words(line: str, reply: str, named: names.Since = names.NOTHING) -> str:
    """What the log says of one line and its reply."""
    text, = words.log(HEADER, [Stored(1, TIME, "", digits(line), digits(reply), "")], named=named)
    return text.removeprefix(f"1  {TIME}  ")


NAMED = Study((Train("RE 5", (Choice("early", 0), Choice("late", 0))), Train("S 1", (Choice("platform 1", 0), Choice("platform 2", 0)))))


class Names(unittest.TestCase):
    """Names stand behind the words of lines that tell of trains and choices by number."""

    def test_lines_and_replies(self) -> None:
        for line, reply, said in (
            ("02 01 01 000003", "82 000000000002 000000000002", "add 3 points to train 1, choice 1 (S 1: platform 2)  ->  constant 2 parts, bound 2 points"),
            ("06 0000000A", "86 01 00000003 000000000002 0001",
             "search by at most 10 tries  ->  ended after 3 tries: plan 0 1 costs 2 points (RE 5: early, S 1: platform 2)"),
            ("0A 01 00 00000002", "8A 02 00", "explain train 1, choice 0, against 2 points (S 1: platform 1)  ->  out, with train 0 (RE 5)"),
            ("0B 01 00", "8B 01 00", "order 1 0 (S 1, RE 5)  ->  order 1 0 (S 1, RE 5)"),
            ("0C 02 0100 000000000001 000000000001", "8C 02 0100",
             "screen reads record of choices 1 0, bound 1 point, cost 1 point (RE 5: late, S 1: platform 1)  ->  choices 1 0 (RE 5: late, S 1: platform 1)"),
            ("04", "84 000000000002 000000000002", "tighten  ->  constant 2 parts, bound 2 points"),
        ):
            self.assertEqual(in_words(line, reply, names.Since(NAMED, 1)), said)

    def test_numbers_that_the_study_has_not(self) -> None:
        for line in ("02 02 00 000001", "02 00 02 000001", "0B 00 01 02", "0E 00", "0E 00 02"):
            self.assertNotIn("(", in_words(line, "FF 63", names.Since(NAMED, 1)))

    def test_lines_before_the_load(self) -> None:
        self.assertNotIn("(", in_words("02 01 01 000003", "82 000000000002 000000000002", names.Since(NAMED, 2)))


class Log(unittest.TestCase):
    def test_worked_session(self) -> None:
        lines = [Stored(number, TIME, "", *texts, "") for number, texts in enumerate(zip(support.LINES, support.REPLIES, strict=True), 1)]
        said = list(words.log(HEADER, lines))
        self.assertEqual(said, [f"{number}  {TIME}  {text}" for number, text in enumerate(WORKED, 1)])

    def test_searches_without_a_plan(self) -> None:
        self.assertEqual(in_words("06 00000001", "86 00 00000001 FFFFFFFFFFFF FFFF").split("->  ")[1], "spent after 1 try: no plan found")
        self.assertEqual(in_words("06 00000009", "86 02 00000004 FFFFFFFFFFFF FFFF").split("->  ")[1], "ended after 4 tries: there is no plan")

    def test_clauses(self) -> None:
        said = in_words("09 02 0001 0001 0102 000005", "89 000000000000 000000000000")
        self.assertEqual(said, "load 2 trains, scale 1, by 1 clause  ->  constant 0 parts, bound 0 points")

    def test_reasons(self) -> None:
        asked = "0A 01 00 00000003"
        self.assertEqual(in_words(asked, "8A 00 FF"), "explain train 1, choice 0, against 3 points  ->  not out")
        self.assertEqual(in_words(asked, "8A 01 FF").split("->  ")[1], "out by itself")
        self.assertEqual(in_words(asked, "8A 02 00").split("->  ")[1], "out, with train 0")

    def test_orders(self) -> None:
        self.assertEqual(in_words("0B 020001", "8B 020001"), "order 2 0 1  ->  order 2 0 1")
        self.assertEqual(in_words("0B 0000", "FF 15"), "order 0 0  ->  declined, 21: an order has not each train exactly once")
        self.assertEqual(in_words("0B", "FF 05").split("  ->")[0], "order")

    def test_records(self) -> None:
        record = "02 0001 000000000002 000000000003"
        words_of = "record of choices 0 1, bound 2 points, cost 3 points"
        self.assertEqual(in_words("0E 0001", f"8E {record}"), f"record choices 0 1  ->  {words_of}")
        self.assertEqual(in_words(f"0C {record}", "8C 020001"), f"screen reads {words_of}  ->  choices 0 1")
        self.assertEqual(in_words(f"0D {record}", f"8D {record}"), f"planner reads {words_of}  ->  {words_of}")
        self.assertEqual(in_words("0C 01 00 FFFFFFFFFFFF 000000000001", "8C 0100").split("  ->")[0],
                         "screen reads record of choices 0, bound 281,474,976,710,655 points, cost 1 point")

    def test_records_that_are_declined(self) -> None:
        self.assertEqual(in_words("0E 0002", "FF 16"), f"record choices 0 2  ->  declined, 22: {kinds.REFUSALS[22]}")
        self.assertEqual(in_words("0D 00 000000000000 000000000000", "FF 16").split("  ->")[0], "planner reads record of choices, bound 0 points, cost 0 points")
        self.assertEqual(in_words("0D 01 00 000000000002 000000000001", "FF 17").split("->  ")[1], f"declined, 23: {kinds.REFUSALS[23]}")
        for line, name in (("0C", "screen"), ("0C 02", "screen"), ("0D 03 0001 000000000002 000000000003", "planner")):
            self.assertEqual(in_words(line, "FF 05"), f"{name}, cut short  ->  declined, 5: {kinds.REFUSALS[5]}")
        self.assertEqual(in_words("0E", "FF 05").split("  ->")[0], "record choices")
        self.assertIn("or the record that it answers with", in_words("0E 0001", "").split("->  ")[1])

    def test_dearest_studies(self) -> None:
        reply = "01 02 0001 0201 000000000000 000001 00"
        load = "load 2 trains, scale 1, sizes 2 1, 0 pairs"
        self.assertEqual(in_words("0F 02 0201", reply), f"dearest study of 2 trains, sizes 2 1  ->  the dearest study: {load}")
        self.assertEqual(in_words("07", reply), f"save  ->  saved, to {load}")
        self.assertEqual(in_words("0F 01 01", "01 02").split("->  ")[1], "dearest, cut short")
        self.assertEqual(in_words("0F 08 0808080808080808", "FF 18").split("->  ")[1], f"declined, 24: {kinds.REFUSALS[24]}")
        self.assertEqual(in_words("0F 00", "FF 06").split("  ->")[0], "dearest study of 0 trains, sizes")
        self.assertEqual(in_words("0F 02 02", "FF 05").split("  ->")[0], "dearest, cut short")

    def test_lines_over_train_radio(self) -> None:
        load, record = "load 2 trains, scale 1, sizes 2 2, 1 pair", "record of choices 0 1, bound 2 points, cost 2 points"
        dearest = "load 2 trains, scale 1, sizes 2 2, 0 pairs"
        loaded = "410200010202000002000000000000000000010001000001000000000003000002AE"
        for line, reply, request, answer in [
            (loaded, "C10000000000000000000000003F", load, "constant 0 parts, bound 0 points"),
            ("4200010000FAC3", "C20000000000020000000000023A", "add 250 points to train 0, choice 1", "constant 2 parts, bound 2 points"),
            ("43000000000000BD", "FF05FC", "shift by 1 lifts and moves, 0 of them not 0", f"declined, 5: {kinds.REFUSALS[5]}"),
            ("44BC", "C400000000000200000000000238", "tighten", "constant 2 parts, bound 2 points"),
            ("45000001000001000000000000000001000000000001000000000000B7", "C501000000000000000200000137", "certify by 8 weights with W = 1", "ceiling 2/1 parts, reached"),
            ("460000000AB0", "C60100000003000000000002000133", "search by at most 10 tries", "ended after 3 tries: plan 0 1 costs 2 points"),
            ("47B9", loaded, "save", f"saved, to {load}"),
            ("48B8", "C800000000000200000000000234", "round", "constant 2 parts, bound 2 points"),
            ("4902000100030102000005FF00000002FE01000001A8", "C900000000000000000000000037", "load 2 trains, scale 1, by 3 clauses", "constant 0 parts, bound 0 points"),
            ("4A000000000005B1", "CA00FF37", "explain train 0, choice 0, against 5 points", "not out"),
            ("4B0100B4", "CB010034", "order 1 0", "order 1 0"),
            ("4C020001000000000002000000000002AD", "CC02000131", f"screen reads {record}", "choices 0 1"),
            ("4D020001000000000002000000000002AC", "CD0200010000000000020000000000022C", f"planner reads {record}", record),
            ("4E0001B1", "CE0200010000000000020000000000022B", "record choices 0 1", record),
            ("4F020202AB", "41020001020200000000000000000100000100B6", "dearest study of 2 trains, sizes 2 2", f"the dearest study: {dearest}"),
        ]:
            self.assertEqual(in_words(line, reply), f"{request}, by radio  ->  {answer}")

    def test_wrong_sums(self) -> None:
        declined = f"declined, 25: {kinds.REFUSALS[25]}"
        self.assertEqual(in_words("44BD", "FF19E8"), f"tighten, by radio  ->  {declined}")
        self.assertEqual(in_words("44", "FF19E8"), f"tighten, by radio  ->  {declined}")
        self.assertEqual(in_words("46000AB1", "FF19E8"), f"search, cut short, by radio  ->  {declined}")

    def test_plain_replies_to_lines_over_train_radio(self) -> None:
        self.assertEqual(in_words("44BC", "FF03"), "tighten, by radio  ->  declined, 3: there is no such kind")
        self.assertEqual(in_words("44BC", "FF10").split("->  ")[1], f"declined, 16: {kinds.REFUSALS[16]}")
        self.assertIn("declined, 17: ", in_words("44BC", ""))
        for reply, said in (("00", "kind 00"), ("3FC1", "kind 3F"), ("C4", "kind C4"), ("C400000000000238", "kind C4"), ("C43C", "bound, cut short")):
            self.assertEqual(in_words("44BC", reply).split("->  ")[1], said)

    def test_what_is_not_over_train_radio(self) -> None:
        for line in ("40C0", "50B0", "8A76"):
            self.assertEqual(in_words(line, "FF03"), f"kind {line[:2]}  ->  declined, 3: there is no such kind")
        self.assertEqual(in_words("44bc", "FF01").split("  ->")[0], "not digits by two, 4 characters")
        self.assertEqual(in_words("04", "C43C"), "tighten  ->  kind C4")

    def test_json_says_what_came_over_train_radio(self) -> None:
        for line, reply, facts in (("44BC", "FF04FD", (4, True, True)), ("44BC", "FF03", (4, True, False)), ("44BC", "", (4, True, False)),
                                   ("04", "FF04", (4, False, False)), ("0", "FF01", (None, False, False))):
            entry = json.loads(next(words.log(HEADER, [Stored(1, TIME, "", digits(line), digits(reply), "")], as_json=True)))
            self.assertEqual((entry["request"]["kind"], entry["request"]["radio"], entry["answer"]["radio"]), facts)
            self.assertEqual((entry["line"], entry["reply"], entry["answer"]["kind"]), (line, reply, 255))

    def test_a_load_line_says_what_it_is_for_by_the_line_that_it_answers(self) -> None:
        reply = "01 01 0001 01 000001 00"
        for line in ("04", "0G", "0", ""):
            self.assertEqual(in_words(line, reply).split("->  ")[1], "kind 01")
        for line, name in (("07", "saved"), ("0F 0101", "dearest")):
            entry = json.loads(next(words.log(HEADER, [Stored(1, TIME, "", digits(line), digits(reply), "")], as_json=True)))
            self.assertEqual((entry["answer"]["name"], entry["answer"]["sizes"]), (name, [1]))

    def test_what_is_not_known_is_its_number(self) -> None:
        self.assertEqual(in_words("10 0001", "90 0001"), "kind 10  ->  kind 90")
        self.assertEqual(in_words("04", "FF 63"), "tighten  ->  declined, 99")

    def test_damaged_texts(self) -> None:
        refused = "declined, 1: the line is empty, has an odd count of characters or one that is not 0-9 or A-F"
        for line in ("", "0", "0g", "\xff\x00"):
            stored_line = Stored(1, TIME, "", line.encode("latin-1"), b"FF01", "")
            text, = words.log(HEADER, [stored_line])
            self.assertTrue(text.endswith(f"not digits by two, {kinds.counted(len(line), 'character')}  ->  {refused}"), text)
            self.assertEqual(json.loads(next(words.log(HEADER, [stored_line], as_json=True)))["answer"]["number"], 1)
        self.assertEqual(in_words("01 02", "FF 05").split("  ->")[0], "load, cut short")
        self.assertEqual(in_words("04", "FF"), "tighten  ->  declined, cut short")
        self.assertEqual(in_words("04", "8"), "tighten  ->  not digits by two, 1 character")

    def test_pairs_outside_the_study(self) -> None:
        said = in_words("01 01 0001 01 000000 01 0001", "FF 08")
        self.assertEqual(said, "load 1 train, scale 1, sizes 1, 0 pairs  ->  declined, 8: " + kinds.REFUSALS[8])

    def test_json_has_texts_and_facts(self) -> None:
        entry = json.loads(next(words.log(HEADER, [Stored(7, TIME, "ab", b"0600000002", digits("86 00 00000002 000000000003 0000"), "cd")], as_json=True)))
        self.assertEqual((entry["number"], entry["time"], entry["library"], entry["line"]), (7, TIME, "ab", "0600000002"))
        self.assertEqual((entry["request"]["name"], entry["request"]["budget"]), ("search", 2))
        self.assertEqual((entry["answer"]["ended"], entry["answer"]["cost"], entry["answer"]["plan"]), (False, 3, [0, 0]))


class Tables(unittest.TestCase):
    """The tables say what the README says."""

    README = (support.ROOT / "README.md").read_text(encoding="utf-8")

    def test_refusals(self) -> None:
        rows = re.findall(r"^\| (\d+) \| (?:`FF..(?:..)?`|none) \| ([^|]+) \|", self.README, re.MULTILINE)
        self.assertGreaterEqual(len(rows), 18)
        for number, when in rows:
            self.assertEqual(kinds.reason(int(number), HEADER), when.replace("`", "").replace("−", "-"), number)

    def test_words_are_ascii(self) -> None:
        self.assertTrue("".join(kinds.REFUSALS.values()).isascii())

    def test_kinds(self) -> None:
        rows = re.findall(r"^\| ([a-z]+) \| `(0[0-9A-F])`", self.README, re.MULTILINE)
        self.assertGreaterEqual(len(rows), 8)
        for name, kind in rows:
            self.assertEqual(kinds.LINES[int(kind, 16)].name, name)


class Show(unittest.TestCase):
    def setUp(self) -> None:
        self.library = library.installed()
        self.block = self.library.fresh()
        self.log: list[Stored] = []

    def take(self, line: str) -> None:
        reply, self.block = self.library.answer(self.block, digits(line))
        self.assertNotEqual(reply[:2], b"FF", line)
        self.log.append(Stored(len(self.log) + 1, TIME, self.library.sha256, digits(line), reply, ""))

    def facts(self) -> dict:
        return json.loads(words.show(self.library, self.block, reversed(self.log), as_json=True))

    def text(self) -> str:
        return words.show(self.library, self.block, reversed(self.log))

    def test_nothing_loaded(self) -> None:
        self.assertEqual(self.text(), "study     nothing is loaded")

    def test_study_in_words(self) -> None:
        self.take(HALVES)
        self.take("04")
        self.take("05 000002 000001000001 000001000001 000001000000000000000001")
        self.take("06 0000000A")
        self.assertEqual(self.text().splitlines(), [
            "trains    2, with 2 2 choices",
            "scale     2 parts to a point",
            "pairs     1: 0-1",
            "forbidden 0 choices, 1 pair of choices",
            "constant  2 parts, in points 1",
            "bound     1 point",
            "best plan plan 0 0 costs 1 point now, settled: no plan costs less (line 4)",
            "last plan ended after 2 tries: plan 0 0 costs 1 point, and no plan costs less (line 4)",
            "ceiling   8/2 parts, in points 2, not reached (line 3)",
        ])

    def test_an_order_is_shown_where_it_is_not_that_of_a_load(self) -> None:
        self.take(HALVES)
        self.assertEqual((self.facts()["order"], "order" in self.text()), ([0, 1], False))
        self.take("0B 01 00")
        self.assertEqual(self.facts()["order"], [1, 0])
        self.assertIn("1 pair of choices\norder     a search tries the trains in the order 1 0\nconstant", self.text())
        self.take("0B 00 01")
        self.assertNotIn("order", self.text())
        self.take("0B 01 00")
        self.take(CLOSED_CHOICE)
        self.assertEqual((self.facts()["order"], "order" in self.text()), ([0], False))

    def test_parts_of_a_point_round_up_to_the_bound(self) -> None:
        self.take("01 01 0002 01 000002 00")
        self.take("03 000000000003")
        self.assertEqual((self.facts()["constant"], self.facts()["bound"]), (3, 2))
        self.assertIn("constant  3 parts, in points 1 1/2\nbound     2 points", self.text())

    def test_reached_is_of_now(self) -> None:
        self.take("01 01 0001 01 000002 00")
        self.take("05 000001 000001")
        self.assertIs(self.facts()["last_ceiling"]["reached"], False)
        self.take("04")
        self.assertIs(self.facts()["last_ceiling"]["reached"], True)

    def test_an_addition_since_is_said(self) -> None:
        self.take("01 01 0001 01 000002 00")
        self.take("04")
        self.take("05 000001 000001")
        self.take("06 00000001")
        self.take("02 00 00 000001")
        self.assertIsNone(self.facts()["last_ceiling"]["reached"])
        self.assertIn("(line 4; line 5 added points, so its cost may be higher now)", self.text())
        self.assertIn("2/1 parts, in points 2, of the costs before the addition (line 3; line 5 added points, so it may be higher now)", self.text())

    def test_a_record_is_not_what_a_search_found(self) -> None:
        self.take("01 01 0001 02 000002 000003 00")
        for line in ("0E 01", "0C 01 01 000000000000 000000000003", "0D 01 01 000000000000 000000000003"):
            self.take(line)
        self.assertEqual((self.facts()["last_plan"], self.facts()["last_ceiling"]), (None, None))
        self.take("06 0000000A")
        self.take("0E 01")
        self.assertEqual((self.facts()["last_plan"]["line"], self.facts()["last_plan"]["plan"]), (5, [0]))

    def test_a_dearest_study_is_not_loaded_by_its_line(self) -> None:
        self.take(CLOSED_CHOICE)
        self.take("06 0000000A")
        self.take("0F 03 020304")
        self.assertEqual((self.facts()["sizes"], self.facts()["last_plan"]["line"]), ([2], 2))

    def test_lines_over_train_radio_count_as_plain_ones(self) -> None:
        for line in (HALVES, "04", "05 000002 000001000001 000001000001 000001000000000000000001", "06 0000000A", "07"):
            self.take(support.by_radio(digits(line)).decode())
        self.assertIn("plan 0 0 costs 1 point, and no plan costs less (line 4)", self.text())
        self.assertIn("8/2 parts, in points 2, not reached (line 3)", self.text())
        self.take("42 00 00 000001 BD")
        self.assertEqual((self.facts()["last_plan"]["added_since"], self.facts()["last_ceiling"]["added_since"]), (6, 6))
        self.take(support.by_radio(b"0F0202" b"02").decode())
        self.assertEqual(self.facts()["last_plan"]["line"], 4)
        self.take(support.by_radio(digits(CLOSED_CHOICE)).decode())
        self.assertEqual((self.facts()["sizes"], self.facts()["last_plan"]), ([2], None))

    def test_a_load_forgets_plan_and_ceiling(self) -> None:
        self.take("01 01 0001 01 000002 00")
        self.take("05 000001 000001")
        self.take("06 00000001")
        self.take("01 01 0001 01 000003 00")
        self.assertEqual((self.facts()["last_plan"], self.facts()["last_ceiling"]), (None, None))
        self.assertIn("last plan none in the log\nceiling   none in the log", self.text())

    def test_the_last_plan_outlives_a_search_without_one(self) -> None:
        self.take(CLOSED_CHOICE)
        self.take("06 0000000A")
        self.take("06 00000001")
        self.assertEqual((self.facts()["last_plan"]["line"], self.facts()["last_plan"]["plan"]), (2, [1]))
        self.assertEqual(self.facts()["forbidden_choices"], 1)

    def test_damaged_replies_are_passed_over(self) -> None:
        self.take("01 01 0001 01 000002 00")
        self.take("06 00000001")
        for reply in (b"85", b"86", b"FF", b"8501000000000000000A000000"):
            self.log.append(Stored(len(self.log) + 1, TIME, "", b"04", reply, ""))
        self.assertEqual((self.facts()["last_plan"]["line"], self.facts()["last_ceiling"]), (2, None))


if __name__ == "__main__":
    unittest.main()
