#!/usr/bin/env python3
"""Tests of what writes the tables of the pages."""
import unittest

import gate
import speed_table

PRINTED = """run              steps microseconds  nanoseconds       faults         KB   instructions
empty                1         4100      4100000         1041       9912        1600000
steps            65536        22300          340         4175      16100       63100000
  other          65536        22400          341         4176      16101       63100001
load plain       60000        17600          293         4184      14032              -
run              steps microseconds  nanoseconds       faults         KB   instructions
empty                1         4100      4100000         1041       9912        1600000
lives             1000        19500        19500         4242      17008       64300000
"""


class Speed(unittest.TestCase):
    """The table of docs/SPEED.md."""

    def test_rows(self) -> None:
        """Each run has a row, those that are alike for any number of events one."""
        self.assertEqual(
            speed_table.rows_of(PRINTED),
            [
                "| empty script |  | 4.1 |  | 1,041 | 9,912 | 1.6 M |  |",
                "| steps | 64 | 22.3 | 340 | 4,175 | 16,100 | 63.1 M | 962 |",
                "| load plain |  | 17.6 | 293 | 4,184 | 14,032 |  |  |",
                "| lives | 256 | 19.5 | 19,500 | 4,242 | 17,008 | 64.3 M | 64,300 |",
            ],
        )

    def test_page(self) -> None:
        """The rows alone are another's."""
        page = f"a\n\n{speed_table.HEAD}| old |\n| old |\n\nb\n"
        self.assertEqual(speed_table.page_with(page, ["| new |"]), f"a\n\n{speed_table.HEAD}| new |\n\nb\n")
        self.assertRaises(ValueError, speed_table.page_with, "a\n", ["| new |"])

    def test_own_page(self) -> None:
        """The page has the table."""
        with open(speed_table.PAGE, encoding="utf-8") as it:
            self.assertIn(speed_table.HEAD, it.read())


class Gate(unittest.TestCase):
    """The page of what the gate costs."""

    def test_report(self) -> None:
        """A row for each crate, the dearest first, and the sum."""
        sums = {"a": {"proof": 1.0, "tests": 0.0, "edits": 0.0, "programs": 2.0}, "b": dict.fromkeys(gate.KINDS, 1.0)}
        lines = gate.report(sums, 10.0, 60.0, "2 passed, 0 failed").split("\n")
        self.assertEqual(lines[2], "| b | 1 | 1 | 1 | 1 | 4 | 40.0 % |")
        self.assertEqual(lines[3], "| a | 1 |  |  | 2 | 3 | 30.0 % |")
        self.assertEqual(lines[5], "| **all** | 2 | 1 | 1 | 3 | 10 | 100 % |")
        self.assertEqual(lines[-2], "Last line: 2 passed, 0 failed")


if __name__ == "__main__":
    unittest.main()
