"""Files of one line: what they give, that what is written reads back the same, and what is said of wrong ones."""

import random
import unittest

from junction import lines
from junction.errors import FormatError
from junction.formats import line_file
from junction.study import Choice, Cost, Pair, Study, Train

from tests import reference, studies

SEEDS = range(60)

# Document 01's first line: 2 trains, a point is 1 part, 2 choices each; train 0's choice 0 costs 2; one pair.
LOAD = "010200010202000002000000000000000000010001000001000000000003000002"
# The same over train radio: the kind has 40 added, and the last byte takes the sum of all to 0.
BY_RADIO = "410200010202000002000000000000000000010001000001000000000003000002AE"


def costs(number: int, *given: Cost) -> Train:
    """A train with numbers as names."""
    return Train(str(number), tuple(Choice(str(choice), cost) for choice, cost in enumerate(given)))


STUDY = Study((costs(0, 2, 0), costs(1, 0, 0)), (Pair(0, 1, ((1, 0), (3, 2))),), 1)

# 3 trains, a point is 12 parts, 3 clauses: 1 or not 2, at 7; not 2 or 1, at 5; not 3, at 1,000,000.
CLAUSES = "0903000C0003" "01FE000007" "FE01000005" "FD000F4240"
BY_CLAUSES = Study((costs(0, 0, 0), costs(1, 0, 0), costs(2, 1_000_000, 0)), (Pair(0, 1, ((0, 0), (12, 0))),), 12)


def full() -> Study:
    """The largest study, with the highest costs and something forbidden."""
    pairs = [(i, j) for i in range(24) for j in range(i + 1, min(i + 4, 24))][:48]
    entries: list[list[Cost]] = [[1_000_000] * 8 for _ in range(8)]
    entries[7][7] = None
    return Study(tuple(costs(number, *[1_000_000] * 7, None) for number in range(24)), tuple(Pair(i, j, tuple(map(tuple, entries))) for i, j in pairs), 1_000)


class Reading(unittest.TestCase):
    """What a file gives."""

    def test_a_load(self) -> None:
        for text in LOAD, f"{LOAD}\n", f"\n  {LOAD} \r\n\n", BY_RADIO, f"{BY_RADIO}\r\n":
            with self.subTest(text=text):
                self.assertEqual(line_file.read(text, "x.line"), (STUDY, (), None))

    def test_clauses(self) -> None:
        # Its bytes by radio, worked out by hand: 49+03+0C+03 = 5B, 01+FE+07 = 106, FE+01+05 = 104, FD+0F+42+40 = 18E, in all 3F3, and F3+0D = 100.
        by_radio = "49" + CLAUSES[2:] + "0D"
        for text in CLAUSES, by_radio:
            with self.subTest(text=text):
                self.assertEqual(line_file.read(text, "x.line"), (BY_CLAUSES, (), CLAUSES))
        self.assertEqual(line_file.read("090103E80000", "x.line").study, Study((costs(0, 0, 0),), (), 1_000))

    def test_the_reference_takes_it_for_the_same_study(self) -> None:
        for line, study in (LOAD, STUDY), (CLAUSES, BY_CLAUSES):
            self.assertEqual(reference.saved(line), [line_file.write(study).strip()])

    def test_the_greatest_study(self) -> None:
        written = line_file.write(full())
        self.assertEqual(len(written), 19_834 + 1)
        self.assertEqual(line_file.read(written, "x.line").study, full())
        self.assertEqual(reference.saved(written.strip()), [written.strip()])

    def test_any_clauses(self) -> None:
        given_lines = []
        loads = []
        for seed in SEEDS:
            with self.subTest(seed=seed):
                chance = random.Random(seed)
                trains = chance.randint(2, 10)
                named = [chance.sample(range(1, trains + 1), 2) for _ in range(chance.randint(0, 500))]
                given = [(chance.choice([1, -1]) * first, chance.choice([1, -1, 0]) * second, chance.randint(0, 9_000)) for first, second in named]
                line = lines.clauses(trains, 840, given)
                read = line_file.read(line, "x.line")
                self.assertEqual(read.line, line)
                self.assertEqual(line_file.read(lines.by_radio(line), "x.line"), read)
                given_lines.append(line)
                loads.append(line_file.write(read.study).strip())
        self.assertEqual(reference.saved(*given_lines), loads)


class Writing(unittest.TestCase):
    """What is written."""

    def test_a_study(self) -> None:
        self.assertEqual(line_file.write(STUDY), f"{LOAD}\n")

    def test_what_is_written_reads_back_the_same(self) -> None:
        loads = []
        for seed in SEEDS:
            with self.subTest(seed=seed):
                study = studies.study(seed, named=False, scale=1 + seed * 16)
                written = line_file.write(study)
                self.assertEqual(line_file.read(written, "x.line").study, study)
                self.assertEqual(line_file.read(lines.by_radio(written.strip()), "x.line").study, study)
                loads.append(written.strip())
        self.assertEqual(reference.saved(*loads), loads)


class Wrong(unittest.TestCase):
    """What is said of a file that is no study."""

    def told(self, text: str, *expected: str) -> None:
        """The sentences of all mistakes of a file."""
        with self.assertRaises(FormatError) as raised:
            line_file.read(text, "north.line")
        self.assertEqual([str(mistake) for mistake in raised.exception.all_of_them], [f"north.line{sentence}" for sentence in expected])

    def test_lines(self) -> None:
        for text in "", "\n \r\n":
            self.told(text, ": it has no line")
        self.told(f"{LOAD}\n{LOAD}\n\n{LOAD}\n", ", line 2: a file of a study has one line", ", line 4: a file of a study has one line")

    def test_characters(self) -> None:
        self.told(f"\n{LOAD[:6]}x{LOAD[7:]}", ", line 2, character 7: 'x' is none of the digits 0-9 and A-F")
        self.told(LOAD.replace("0", "a", 1), ", line 1, character 1: 'a' is none of the digits 0-9 and A-F")
        self.told(f"{LOAD[:4]} {LOAD[4:]}", ", line 1, character 5: ' ' is none of the digits 0-9 and A-F")
        self.told(LOAD[:-1], ", line 1: it has 65 digits, and a byte has two")

    def test_kinds(self) -> None:
        for kind in "04", "44", "81", "FF":
            self.told(f"{kind}BC", f", line 1, byte 1: a line of kind {kind} is no load (01) and none of clauses (09), in either form")

    def test_a_damaged_line_by_radio(self) -> None:
        for line in f"{BY_RADIO[:-1]}F", BY_RADIO.replace("000003", "000004", 1), "49" + CLAUSES[2:] + "01":
            self.told(line, ", line 1: its bytes do not add up to 0, modulo 256, as those of a line for train radio do")

    def test_counts(self) -> None:
        self.told("0100", ", line 1, byte 2: the number of trains is 0, not 1 to 24")
        self.told("0119" + LOAD[4:], ", line 1, byte 2: the number of trains is 25, not 1 to 24")
        self.told(LOAD[:8] + "0900" + LOAD[12:], ", line 1, byte 5: the number of choices of train 0 is 9, not 1 to 8")
        self.told(LOAD[:10] + "00" + LOAD[12:], ", line 1, byte 6: the number of choices of train 1 is 0, not 1 to 8")
        self.told(LOAD[:36] + "31" + LOAD[38:], ", line 1, byte 19: the number of pairs is 49, not 0 to 48")
        self.told("090000010000", ", line 1, byte 2: the number of trains is 0, not 1 to 24")
        self.told("0901000101F5", ", line 1, byte 5: the number of clauses is 501, not 0 to 500")

    def test_scales(self) -> None:
        self.told(LOAD.replace("0001", "0000", 1), ", line 1, byte 3: the scale is 0, not 1 to 1000")
        self.told(LOAD.replace("0001", "03E9", 1), ", line 1, byte 3: the scale is 1001, not 1 to 1000")
        self.told("090103E90000", ", line 1, byte 3: the scale is 1001, not 1 to 1000")

    def test_costs(self) -> None:
        self.told(LOAD[:12] + "0F4241" + LOAD[18:], ", line 1, byte 7: the cost of choice 0 of train 0 is 1000001, not 0 to 1000000")
        self.told(LOAD[:30] + "FFFFFE" + LOAD[36:-6] + "0F4241", ", line 1, byte 16: the cost of choice 1 of train 1 is 16777214, not 0 to 1000000",
                  ", line 1, byte 31: the cost of choices 1 and 1 of trains 0 and 1 is 1000001, not 0 to 1000000")

    def test_pairs(self) -> None:
        one = LOAD[42:]
        self.told(LOAD[:38] + "0101" + one, ", line 1, byte 21: pair 0 is of trains 1 and 1, and the lower train stands first")
        self.told(LOAD[:38] + "0100" + one, ", line 1, byte 21: pair 0 is of trains 1 and 0, and the lower train stands first")
        self.told(LOAD[:38] + "0002" + one, ", line 1, byte 21: pair 0 is of trains 0 and 2, and there is no train 2")
        three = "010300010101010000000000000000000200020000000001000000"
        self.told(three, ", line 1, byte 24: pair 1, of trains 0 and 1, stands behind that of trains 0 and 2, and pairs ascend")

    def test_lines_that_end_early_or_late(self) -> None:
        self.told("01", ", line 1, byte 2: the line ends before the number of trains is whole")
        self.told("010200", ", line 1, byte 3: the line ends before the scale is whole")
        self.told(LOAD[:10], ", line 1, byte 6: the line ends before the number of choices of train 1 is whole")
        self.told(LOAD[:32], ", line 1, byte 16: the line ends before the cost of choice 1 of train 1 is whole")
        self.told(LOAD[:36], ", line 1, byte 19: the line ends before the number of pairs is whole")
        self.told(LOAD[:40], ", line 1, byte 21: the line ends before pair 0 is whole")
        self.told(LOAD[:-2], ", line 1, byte 31: the line ends before the cost of choices 1 and 1 of trains 0 and 1 is whole")
        self.told(LOAD + "00", ", line 1, byte 34: behind the last field 1 byte is left over")
        self.told(CLAUSES + "0000", ", line 1, byte 22: behind the last field 2 bytes are left over")
        self.told(CLAUSES[:-8], ", line 1, byte 18: the line ends before clause 2 is whole")
        self.told(CLAUSES[:-2], ", line 1, byte 19: the line ends before the weight of clause 2 is whole")

    def test_clauses(self) -> None:
        def one(text: str) -> str:
            return "090200010001" + text

        self.told(one("0300000001"), ", line 1, byte 7: clause 0 has the literal 3, in a study of 2 trains")
        self.told(one("01FD000001"), ", line 1, byte 7: clause 0 has the literal -3, in a study of 2 trains")
        self.told("0901000100018000000001", ", line 1, byte 7: clause 0 has the literal -128, in a study of 1 train")
        self.told(one("0000000001"), ", line 1, byte 7: clause 0 has 0 as its first literal")
        self.told(one("01FF000001"), ", line 1, byte 7: clause 0 names train 0 twice")
        self.told(one("0100FFFFFF"), ", line 1, byte 9: the weight of clause 0 is 16777215, not 0 to 1000000")
        self.told(one("00000F4241"), ", line 1, byte 7: clause 0 has 0 as its first literal",
                  ", line 1, byte 9: the weight of clause 0 is 1000001, not 0 to 1000000")
        self.told("090200010003" "01000F4240" "0200000005" "0100000001",
                  ", line 1, byte 17: clause 2: the clauses so far cost 1000001 at choice 1 of train 0, and 1000000 is the most")

    def test_limits_of_pairs(self) -> None:
        pairs = [(i, j) for i in range(1, 25) for j in range(i + 1, 25)][:49]
        self.told(lines.clauses(24, 1, [(i, j, 1) for i, j in pairs]),
                  f", line 1, byte {7 + 5 * 48}: clause 48: trains 2 and 6 are one pair more, and 48 are the most")

    def test_all_mistakes_up_to_20_are_told(self) -> None:
        for count in 1, 19, 20, 21:
            line = f"09010001{count:04X}" + "0000000000" * count
            self.told(line, *(f", line 1, byte {7 + 5 * number}: clause {number} has 0 as its first literal" for number in range(min(count, 20))))
