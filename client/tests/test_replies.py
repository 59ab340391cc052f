"""Replies as numbers: the worked session's, sessions with the reference by seeds, and what is no reply."""

import random
import unittest
from collections.abc import Iterator
from fractions import Fraction

from junction import kinds, lines, replies
from junction.errors import Refused, Unreadable
from junction.replies import (BY_ITSELF, ENDED, NOT_OUT, SPENT, WITH_PARTNER, WITHOUT_PLAN, Bound, Ceiling, Choices, Found, Order, Reason, Record, Reply,
                              decode, decode_load)
from junction.study import Choice, Cost, Study, Train
from tests import reference
from tests.reference import ROOT
from tests.studies import study
from tests.test_lines import J

WORKED = list(zip(*((ROOT / "examples" / f"worked.{name}").read_text().split() for name in ("lines", "replies")), strict=True))
SEEDS = range(150)
COSTS: list[list[Cost]] = [[0, 1, 2, None], [0, 0, 0, 5]]
NONE = "FF" * 6


def refused(line: str, reply: str) -> Refused:
    """The refusal that a reply is."""
    try:
        decode(line, reply)
    except Refused as refusal:
        return refusal
    raise AssertionError(f"{reply} is no refusal of {line}")


class Worked(unittest.TestCase):
    """The README's session, and both forms of what its replies say."""

    def test_the_session(self) -> None:
        said: list[Reply | int] = [
            Bound(0, 0), Bound(2, 2), Ceiling(True, 2, 1, 1), Found(ENDED, 3, 2, (0, 1)), Bound(2, 2), Found(SPENT, 2, 3, (0, 0)), Ceiling(False, 3, 1, 1),
            Bound(3, 3), Ceiling(True, 3, 1, 1), 12, 9, Found(ENDED, 2, 3, (0, 0))]
        for (line, reply), expected in zip(WORKED, said):
            self.assertEqual(refused(line, reply).number if isinstance(expected, int) else decode(line, reply, 1), expected)
        self.assertEqual([decode(line, reply) for line, reply in WORKED[18:21]], [Reason(BY_ITSELF, None), Reason(WITH_PARTNER, 0), Reason(NOT_OUT, None)])
        self.assertEqual([decode(line, reply) for line, reply in WORKED[22:23] + WORKED[25:28]],
                         [Order((1, 0)), Record((1, 0), 1, 1), Choices((1, 0)), Record((1, 0), 1, 1)])

    def test_a_refusal_in_words(self) -> None:
        refusal = refused("020200000001", "FF09")
        self.assertEqual((refusal.number, refusal.words, refusal.line), (9, "the train or the choice is absent", "020200000001"))
        self.assertEqual(str(refusal), "declined, 9: the train or the choice is absent")
        self.assertEqual(refused("0" * 20000, "FF02").words, "the line is over 19,836 characters")
        self.assertEqual(refused("44BD", "FF19E8").number, 25)
        self.assertEqual(str(refused("04", "FF63")), "declined, 99: for a reason that this client does not know")

    def test_found(self) -> None:
        self.assertEqual(decode("0600000001", f"860000000001{NONE}FFFF"), Found(SPENT, 1, None, None))
        self.assertEqual(decode("060000000A", f"860200000004{NONE}FFFF"), Found(WITHOUT_PLAN, 4, None, None))
        named = Study((Train("RE 5", (Choice("platform 1", 0), Choice("platform 2", 1))),))
        self.assertEqual(Found(ENDED, 2, 1, (1,)).by_train(named), [("RE 5", "platform 2")])
        self.assertEqual(Found(WITHOUT_PLAN, 2, None, None).by_train(named), [])
        self.assertEqual(repr(Found(ENDED, 3, 2, (0, 1))), "Found(state=ENDED, tries=3, cost=2, plan=(0, 1))")

    def test_ceilings_in_points(self) -> None:
        line, reply = lines.certify(2, [2]), "85010000000000000007000002"
        self.assertEqual(decode(line, reply, 840), Ceiling(True, 7, 2, 840))
        ceiling = decode(line, reply, 840)
        assert isinstance(ceiling, Ceiling)
        self.assertEqual((ceiling.points, Ceiling(True, 7, 2).points), (Fraction(7, 1680), None))
        self.assertEqual(repr(ceiling), "Ceiling(reached=True, E=7, W=2)")

    def test_a_load_line(self) -> None:
        self.assertEqual((decode_load(lines.load(J)), decode_load(lines.by_radio(lines.load(J)))), (J, J))
        line = lines.load(J)
        other_pairs = [line.replace("010001", pair) for pair in ("010100", "010002")]
        for wrong in ("", "04", line + "00", line[:-2], "é", lines.by_radio(line)[:-1] + "0", *other_pairs):
            with self.assertRaises(Unreadable, msg=wrong):
                decode_load(wrong)


class Session:
    """Lines by a seed, of all kinds, right and wrong, in both forms."""

    def __init__(self, seed: int) -> None:
        self._chance = random.Random(seed)
        self._study = self._one_of_all()
        self._plan: list[int] = []
        self._makers = [self._load, self._add, self._shift, lines.tighten, self._certify, self._search, lines.save, lines.directional_round, self._clauses,
                        self._explain, self._order, self._screen, self._planner, self._record, self._dearest]

    def lines(self, count: int) -> Iterator[str]:
        """So many lines. The first is a load, unless the session is one of those that begin without a study."""
        chance = self._chance
        if chance.random() < 0.9:
            yield lines.load(self._study)
        for _ in range(count):
            line = chance.choice(self._makers)()
            if chance.random() < 0.4:
                line = lines.by_radio(line)
            yield self._damaged(line) if chance.random() < 0.1 else line

    def _one_of_all(self) -> Study:
        chance = self._chance
        made = study(chance.randrange(1000), named=False, scale=chance.choice([1, 1, 10, 840, 1000]))
        if chance.random() < 0.5:
            return made
        costs = chance.choice(COSTS)
        trains = tuple(Train(train.name, tuple(Choice(choice.name, chance.choice(costs)) for choice in train.choices[:3])) for train in made.trains[:5])
        pairs = tuple(pair._replace(costs=tuple(tuple(chance.choice(costs) for _ in row[:3]) for row in pair.costs[:3]))
                      for pair in made.pairs if pair.second < 5)
        return Study(trains, pairs, made.scale)

    def _damaged(self, line: str) -> str:
        at = self._chance.randrange(len(line))
        others = [line[:at], line + "00", line[:at] + line[at + 1:], line[:at] + "g" + line[at + 1:], "FF" + line[2:], "", "0" * 19838, line[:-1] + "7", "10"]
        return self._chance.choice(others)

    def _byte(self, below: int) -> int:
        return self._chance.choice([0, below - 1, self._chance.randrange(below), self._chance.randrange(below), self._chance.choice([below, 255])])

    def _load(self) -> str:
        self._study = self._one_of_all()
        made = self._study
        wrong = self._chance.random()
        if wrong < 0.1:
            return lines.load(made.with_scale(self._chance.choice([0, 1001, 65535])))
        if wrong < 0.2:
            return lines.load(Study((Train("0", (Choice("0", self._chance.choice([1_000_000, 1_000_001, 0xFFFFFE])),)), *made.trains[1:])))
        if wrong < 0.3 and made.pairs:
            return lines.load(made).replace(f"{made.pairs[0].first:02X}{made.pairs[0].second:02X}", "0100", 1)
        return lines.load(made)

    def _add(self) -> str:
        return lines.add(self._byte(len(self._study.trains)), self._byte(2), self._chance.choice([0, 1, 5, 999_999, 1_000_000, 1_000_001]))

    def _counts(self) -> tuple[int, int]:
        """How many moves and weights the study asks for."""
        sizes = self._study.sizes
        moves = sum(sizes[pair.first] + sizes[pair.second] for pair in self._study.pairs)
        return moves, sum(sizes) + sum(sizes[pair.first] * sizes[pair.second] for pair in self._study.pairs)

    def _shift(self) -> str:
        chance, (moves, _) = self._chance, self._counts()
        sort = chance.randrange(4)
        lifts = [chance.choice([0, -1, -(10**12), 10**12, 10**12 + 1] if sort == 0 else [0, 0, -1]) for _ in self._study.trains]
        return lines.shift(lifts, [chance.choice([0, 0, 0, 1, -1, 10**12]) if sort == 1 else 0 for _ in range(moves)])

    def _certify(self) -> str:
        """The weights of one plan, W times; in some lines another number of W or one weight more."""
        chance, sizes = self._chance, self._study.sizes
        full = chance.choice([1, 1, 7, 100_000, 100_001, 0])
        plan = [chance.randrange(size) for size in sizes]
        weights = [full * (choice == taken) for size, taken in zip(sizes, plan) for choice in range(size)]
        for pair in self._study.pairs:
            weights += [full * ((a, b) == (plan[pair.first], plan[pair.second])) for a in range(sizes[pair.first]) for b in range(sizes[pair.second])]
        if chance.random() < 0.2:
            weights[chance.randrange(len(weights))] += 1
        return lines.certify(full, weights)

    def _search(self) -> str:
        return lines.search(self._chance.choice([0, 1, 2, 5, 50, 2000, 2000, 10_000_001, 2**32 - 1]))

    def _clauses(self) -> str:
        """Clauses, of few pairs or of more than there may be. From then on the study is one of two choices a train."""
        chance = self._chance
        count = chance.choice([1, 2, 5, 24, 25])
        trains = range(1, min(count, 24) + 1)
        wrong = chance.random()
        given = [(chance.choice([1, -1]) * chance.choice(trains), chance.choice([0, 1, -1]) * chance.choice(trains), chance.choice([0, 1, 7, 400_000]))
                 for _ in range(chance.choice([0, 3, 20, 200]))]
        given = [clause for clause in given if abs(clause[0]) != abs(clause[1]) or wrong < 0.1]
        if wrong > 0.9:
            given.append(chance.choice([(0, 0, 1), (1, 0, 1_000_001), (1, 0, 0xFFFFFF), (127, 0, 1), (1, -128, 1)]))
        self._study = Study(tuple(Train(str(train), (Choice("0", 0), Choice("1", 0))) for train in range(count)))
        return lines.clauses(count, chance.choice([1, 840, 1000]), given if wrong < 0.95 else (given * 600)[:600])

    def _explain(self) -> str:
        return lines.explain(self._byte(len(self._study.trains)), self._byte(2), self._chance.choice([0, 1, 2, 1000, 2**32 - 1]))

    def _order(self) -> str:
        order = list(range(len(self._study.trains)))
        self._chance.shuffle(order)
        return lines.order(self._chance.choice([order, order, order, [*order[1:], 0]]))

    def _choices(self) -> list[int]:
        self._plan = [self._chance.choice([0, 0, self._chance.randrange(size)]) for size in self._study.sizes]
        return self._plan if self._chance.random() < 0.9 else [*self._plan, 8]

    def _record(self) -> str:
        return lines.record(self._choices())

    def _screen(self) -> str:
        return lines.screen(self._choices(), self._chance.choice([0, 2**48 - 1]), self._chance.choice([0, 1]))

    def _planner(self) -> str:
        choices = self._choices()
        costs = [self._study.trains[train].choices[choice].cost or 0 for train, choice in enumerate(choices[:len(self._study.trains)]) if choice < 8]
        return lines.planner(choices, 0, self._chance.choice([sum(costs), 0, 0, 1]))

    def _dearest(self) -> str:
        return lines.dearest(self._chance.choice([self._study.sizes, [], [8] * 9, [1] * 24, [9]]))


def written(line: str, reply: Reply, characters: int) -> str:
    """The plain reply that numbers stand for, by document 01 and the changes of document 02. A search without a plan has as many characters as are told."""
    kind = f"{int(line[:2], 16) + 0x80:02X}"
    match reply:
        case Bound(constant, bound):
            return f"{kind}{constant:012X}{bound:012X}"
        case Ceiling(reached, ceiling, full):
            return f"85{reached:02X}{ceiling:016X}{full:06X}"
        case Found(state, tries, None, None):
            return f"86{state:02X}{tries:08X}".ljust(characters, "F")
        case Found(state, tries, int(cost), tuple(plan)):
            return f"86{state:02X}{tries:08X}{cost:012X}{bytes(plan).hex().upper()}"
        case Reason(reason, partner):
            return f"8A{reason:02X}{255 if partner is None else partner:02X}"
        case Order(trains):
            return f"8B{bytes(trains).hex().upper()}"
        case Choices(choices):
            return f"8C{len(choices):02X}{bytes(choices).hex().upper()}"
        case Record(choices, bound, cost):
            return f"{kind}{len(choices):02X}{bytes(choices).hex().upper()}{bound:012X}{cost:012X}"
        case Study():
            return lines.load(reply)
    raise AssertionError(reply)


class BySeeds(unittest.TestCase):
    """Sessions with the reference: every reply is read, and is what its numbers stand for."""

    def test_sessions(self) -> None:
        refusals: set[tuple[int, bool]] = set()
        accepted: set[tuple[int, bool]] = set()
        for seed in SEEDS:
            session = list(Session(seed).lines(25))
            for line, reply in zip(session, reference.replies(*session), strict=True):
                with self.subTest(seed=seed, line=line[:60], reply=reply[:60]):
                    by_radio = lines.is_by_radio(line)
                    if reply.startswith("FF"):
                        refusals.add((self.refusal(line, reply), by_radio))
                    else:
                        accepted.add((self.accepted(line, reply), by_radio))
        self.assertEqual(accepted, {(kind, by_radio) for kind in kinds.LINES for by_radio in (False, True)})
        of_fields = [*range(4, 16), *range(18, 25)]
        in_both_forms = {(number, by_radio) for number in of_fields for by_radio in (False, True)}
        self.assertLessEqual({(1, False), (2, False), (3, False), (25, True)} | in_both_forms, refusals)

    def refusal(self, line: str, reply: str) -> int:
        """The number, which stands in the reply by itself or with the sum of the second form."""
        refusal = refused(line, reply)
        self.assertEqual((refusal.number, refusal.line == line, refusal.words), (int(reply[2:4], 16), True, kinds.reason(refusal.number)))
        return refusal.number

    def accepted(self, line: str, reply: str) -> int:
        """The line's kind."""
        decoded = decode(line, reply)
        plain = lines.plain(line)
        again = written(plain, decoded, len(reply) - (4 if lines.is_by_radio(line) else 2) + 2)
        self.assertEqual(radio_form(again) if lines.is_by_radio(line) else again, reply)
        return int(plain[:2], 16)


def radio_form(reply: str) -> str:
    """A reply with the two additions of change 14."""
    kind, *fields = bytes.fromhex(reply)
    front = bytes([kind + 0x40, *fields])
    return bytes([*front, -sum(front) % 256]).hex().upper()


class NoReply(unittest.TestCase):
    """What is no reply to a line raises, whatever it is."""

    def unreadable(self, line: str, reply: str) -> None:
        with self.assertRaises(Unreadable, msg=(line, reply)) as raised:
            decode(line, reply)
        self.assertEqual(raised.exception.reply, reply)

    def test_texts(self) -> None:
        self.assertEqual(str(Unreadable("BB")), "this is no reply to the line that was sent: 'BB'")
        for reply in ("", "8", "hello", "é", "84", "FF", "FF0C00", "FF0", "84000000000000000000000g00", " 84000000000002000000000002",
                      "84000000000002000000000002\n", "C400000000000200000000000238", "44", "00", "FF0CF5", "ff0c"):
            self.unreadable("04", reply)
            self.unreadable("44BC", reply if reply not in ("C400000000000200000000000238", "FF0CF5") else reply[:-1] + "9")

    def test_over_train_radio_only_four_refusals_are_plain(self) -> None:
        for number in range(26):
            reply = f"FF{number:02X}"
            if number in (1, 2, 3, 16):
                self.assertEqual(refused("44BC", reply).number, number)
            else:
                self.unreadable("44BC", reply)

    def test_replies_to_other_lines(self) -> None:
        plain = [(line, reply) for line, reply in WORKED if not reply.startswith("FF") and not lines.is_by_radio(line)]
        for line, _ in plain:
            for other, reply in plain:
                if line[:2] != other[:2] and not other[:2] in ("07", "0F"):
                    self.unreadable(line, reply)

    def test_what_the_line_fixes_is_as_the_line_says(self) -> None:
        search, explain = lines.search(10), lines.explain(0, 0, 1)
        wrong = {
            lines.certify(2, [2]): ["85010000000000000007000001", "85020000000000000007000002"],
            lines.certify(0, [0]): ["85010000000000000007000000"],
            lines.order([1, 0]): ["8B0001", "8B01"], lines.record([1, 0]): ["8E020000000000000001000000000001"],
            lines.screen([1, 0], 1, 1): ["8C020000", "8C0101"],
            lines.planner([1, 0], 1, 1): ["8D020100000000000001000000000002", "8D020100000000000000000000000001"],
            lines.dearest([2]): ["010100010300000100000100000100"], lines.save(): ["0100000100", "0101000101000001010001000001"],
            search: ["86010000000B0000000000020001", "8601000000000000000000020001", "8600000000090000000000020001",
                     "8603000000090000000000020001", f"860100000009{NONE}FFFF", f"860200000009{NONE}", "86020000000900000000000200FF",
                     f"860100000009{NONE}0001", "8602000000090000000000020001",
                     "86010000000900000000000200FF"],
            explain: ["8A03FF", "8A02FF", "8A0101", "8A0200", "8A0001"],
            "0400": ["84000000000000000000000000"], "10": ["90"], "": ["84000000000000000000000000"]}
        for line, reply in ((line, reply) for line, given in wrong.items() for reply in given):
            self.unreadable(line, reply)

    def test_damage_by_seeds(self) -> None:
        """A character lost, or a byte, or one more, in every reply; over train radio any one byte that is another."""
        for seed in SEEDS[:40]:
            chance = random.Random(seed)
            session = list(Session(seed).lines(25))
            for line, reply in zip(session, reference.replies(*session), strict=True):
                by_radio = lines.is_by_radio(line) and reply not in replies.PLAIN_REFUSALS
                at = chance.randrange(len(reply))
                self.unreadable(line, reply[:at] + reply[at + 1:])
                if by_radio or not reply.startswith("86"):
                    self.unreadable(line, reply + "01")
                    self.unreadable(line, reply[:-2])
                if by_radio:
                    byte = at // 2 * 2
                    other = (int(reply[byte:byte + 2], 16) + chance.randrange(1, 256)) % 256
                    self.unreadable(line, f"{reply[:byte]}{other:02X}{reply[byte + 2:]}")


if __name__ == "__main__":
    unittest.main()
