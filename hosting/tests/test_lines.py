"""Lines cut out of what a client sends."""
import random
import unittest

from hosting.lines import LineCutter

LONGEST = 10


def cut(parts: list[bytes], crlf: bool = False) -> list[bytes]:
    """All lines of parts that come one after another."""
    cutter = LineCutter(LONGEST, crlf)
    lines = []
    for part in parts:
        cutter.receive(part)
        while (line := cutter.next()) is not None:
            lines.append(line)
    last = cutter.last()
    return lines if last is None else [*lines, last]


class LinesTest(unittest.TestCase):
    def test_lines_are_the_same_however_they_come(self) -> None:
        text = b"04\n\n0102030405\n010203040506\n06\r\n" + b"0" * 40 + b"\n07\n\n\n04"
        lines = [line[:LONGEST + 1] for line in text.split(b"\n")]
        chance = random.Random(1)
        for _ in range(200):
            ends = sorted(chance.choices(range(len(text) + 1), k=chance.randrange(8)))
            parts = [text[begin:end] for begin, end in zip([0, *ends], [*ends, len(text)])]
            self.assertEqual(cut(parts), lines, parts)

    def test_last_piece_is_a_line_unless_it_is_empty(self) -> None:
        self.assertEqual(cut([b"04\n06"]), [b"04", b"06"])
        self.assertEqual(cut([b"04\n"]), [b"04"])
        self.assertEqual(cut([b"\n"]), [b""])
        self.assertEqual(cut([]), [])

    def test_one_carriage_return_is_taken_off(self) -> None:
        self.assertEqual(cut([b"04\r", b"\n", b"04\r\r\n\r\n04\n0\r4\r\n04\r"], crlf=True), [b"04", b"04\r", b"", b"04", b"0\r4", b"04\r"])
        self.assertEqual(cut([b"04\r\n"]), [b"04\r"])

    def test_carriage_return_beside_the_limit(self) -> None:
        full = b"0" * LONGEST
        self.assertEqual(cut([full + b"\r\n"], crlf=True), [full])
        for too_long in (full + b"0\r\n", full + b"\r0\n", full + b"\r\r\n", full + b"0" * 9 + b"\r\n"):
            with self.subTest(too_long):
                self.assertEqual([len(line) for line in cut([too_long], crlf=True)], [LONGEST + 1])

    def test_no_more_is_kept_than_the_limit_asks_for(self) -> None:
        cutter = LineCutter(LONGEST, False)
        for _ in range(100):
            cutter.receive(b"0" * 1000)
            self.assertIsNone(cutter.next())
            self.assertLessEqual(len(cutter._piece), LONGEST + 1)
            self.assertEqual(cutter._received[cutter._at:], b"")


if __name__ == "__main__":
    unittest.main()
