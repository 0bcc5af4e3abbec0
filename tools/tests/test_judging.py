"""Tests of how the verdict of a rule is come to: runs over the bytes that are asked for, within one budget, by an engine that says
here what it is told to."""
import struct
import sys
import unittest

from font_rules import engine, judging, lending
from font_rules.engine import Ran
from font_rules.sfnt import Facts

FACTS = Facts(glyphs=0x0102, metrics=0x0304, loca_format=1, outlines=0x05060708)
TOLD_FACTS = struct.pack("<HHHI", *FACTS)
TABLE = bytes(range(251)) * 600


def halted(value, steps=10, told=bytes(64)):
    return Ran(steps, 1, "halted", 7, value, told)


def asking(lent, start, steps=10, own=b""):
    return halted(0, steps, bytes(26) + struct.pack("<HI", lent, start) + own.ljust(32, b"\0"))


class Scripted:
    """An engine that gives these answers in turn, and keeps what it was asked."""

    def __init__(self, *answers):
        self.answers = list(answers)
        self.asked = []

    def run(self, _, data, budget):
        self.asked.append((data, budget))
        return self.answers.pop(0)


class Judging(unittest.TestCase):
    def verdict(self, *answers, table=TABLE):
        self.engine = Scripted(*answers)
        return judging.verdict(self.engine, None, table, FACTS)

    def test_verdicts_of_one_run(self):
        self.assertEqual(self.verdict(halted(1)), 1)
        self.assertEqual(self.verdict(halted(65_535)), 65_535)
        self.assertEqual(self.verdict(Ran(3, 0, "faulted:6", 0x1A, 0, b"")), "fault 6 at 001A")
        self.assertEqual(self.verdict(Ran(3, 0, "running", 0, 0, b"")), "the budget is used")
        self.assertEqual(self.verdict(Ran(3, 2, "halted", 0, 1, b"")), "it halted with 2 values on the stack, not one")
        self.assertEqual(self.verdict(Ran(3, 0, "halted", 0, 0, b"")), "it halted with 0 values on the stack, not one")
        self.assertEqual(self.verdict(Ran(0, 0, "refused 21", 0, 0, b"")), "the run is refused by 21")

    def test_the_first_run(self):
        self.verdict(halted(1))
        told = b"KHX1" + struct.pack("<IIH", 150_600, 0, 65_468) + TOLD_FACTS + bytes(40)
        self.assertEqual(self.engine.asked, [(told + TABLE[:65_468], 20_000_000 - 65_468)])
        self.verdict(halted(1), table=b"")
        self.assertEqual(self.engine.asked, [(b"KHX1" + bytes(10) + TOLD_FACTS + bytes(40), 20_000_000)])

    def test_what_is_asked_for_is_lent(self):
        self.assertEqual(self.verdict(asking(9, 70_000, steps=100, own=b"kept"), halted(5)), 5)
        told = b"KHX1" + struct.pack("<IIH", 150_600, 70_000, 9) + TOLD_FACTS + bytes(8) + b"kept".ljust(32, b"\0")
        self.assertEqual(self.engine.asked[1], (told + TABLE[70_000:70_009], 20_000_000 - 65_468 - 100 - 9))

    def test_no_more_is_lent_than_a_piece_and_than_there_is(self):
        for wanted, start, lent in ((65_535, 1, 65_468), (65_535, 150_000, 600), (1, 150_600, 0), (0, 0, 0)):
            self.assertEqual(self.verdict(asking(wanted, start), halted(1)), 1)
            data = self.engine.asked[1][0]
            self.assertEqual((len(data) - 64, *struct.unpack_from("<IH", data, 8)), (lent, start, lent))

    def test_bytes_past_the_table(self):
        self.assertEqual(self.verdict(asking(1, 150_601)), "it asks for bytes from 150601 on, and the table has 150600")

    def test_all_runs_share_one_budget(self):
        most = 20_000_000 - 65_468
        self.assertEqual(self.verdict(asking(9, 0, steps=most - 9), halted(1, 0)), 1)
        self.assertEqual(self.engine.asked[1][1], 0)
        self.assertEqual(self.verdict(asking(9, 0, steps=most - 8)), "the budget is used")
        runs = 20_000_000 // 65_468
        self.assertEqual(self.verdict(*[asking(65_535, 0, steps=0)] * runs), "the budget is used")
        self.assertEqual(len(self.engine.asked), runs)


class Answers(unittest.TestCase):
    def test_what_is_read_in_an_answer(self):
        data = (b"KHX1" + bytes(60) + b"table").hex()
        self.assertEqual(engine.ran(f"ok 4 3 1 halted {data} 0003fffe".encode()), (4, 1, "halted", 3, 0xFFFE, b"KHX1" + bytes(60)))
        self.assertEqual(engine.ran(b"ok 4 3 2 halted 0102 0003fffe"), (4, 2, "halted", 3, 3, b"\1\2"))
        self.assertEqual(engine.ran(b"refused 21 3 0 running - -"), (0, 0, "refused 21", 3, 0, b""))

    def test_what_is_no_answer(self):
        for answer in (b"bad case", b"", b"yes 4 3 1 halted - 0003fffe"):
            with self.assertRaises(ValueError):
                engine.ran(answer)

    def ends(self, program, meanwhile):
        with engine.Engine([sys.executable, "-c", program]) as ending:
            self.assertEqual(ending.answer(b"# one"), b"# one")
            meanwhile(ending.process)
            with self.assertRaisesRegex(ValueError, "exit status 3"):
                ending.answer(b"# two")

    def test_an_engine_that_ends_before_a_case(self):
        self.ends("print(input()); raise SystemExit(3)", lambda process: process.wait())

    def test_an_engine_that_ends_at_a_case(self):
        self.ends("print(input(), flush=True); input(); raise SystemExit(3)", lambda process: None)


if __name__ == "__main__":
    unittest.main()
