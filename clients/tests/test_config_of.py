"""Tests config_of.py: tables become lines and come back, wrong rows are refused."""

from __future__ import annotations

import contextlib
import csv
import io
import random
import unittest

import programs
from config_of import Cause, ConfigError, lines_of_table, main, table_of_lines
from tests.common import DATA, InFolder, number
from script import configuration_of

TABLE = """memory,4
flash,2,256
event,name,dtc,confirm,lamp,count,time,dids
0,engine speed sensor,P0123-00,2,1,10 10 3 2,,0101 0103
,"window, rear left",B1A2B-11,,,,20 10,
2,,9A0111,,,,,
"""
LINES = """memory 4
flash 2 256
# engine speed sensor
event 0 dtc 012300 confirm 2 lamp 1 count 10 10 3 2
did 0 0101
did 0 0103
# window, rear left
event 1 dtc 9A2B11 time 20 10
event 2 dtc 9A0111
"""
WRONG = (
    ("", Cause.HEAD),
    ("name,prio\n", Cause.HEAD),
    ("dtc,dtc\n", Cause.HEAD),
    ("dtc,speed\n", Cause.COLUMN),
    ("dtc,,prio\n", Cause.COLUMN),
    ("dtc,prio\n012300,1,2\n", Cause.COLUMN),
    ("event,dtc\n1,012300\n", Cause.EVENT),
    ("dtc\nP0123\n", Cause.DTC),
    ("dtc,prio\n012300,high\n", Cause.NUMBER),
    ("dtc,count\n012300,1 2 3\n", Cause.NUMBER),
    ("dtc,dids\n012300,101\n", Cause.NUMBER),
    ("name,dtc\nT\u00fcr,012300\n", Cause.NAME),
)
WRONG_LINES = (
    ("cycle 0", Cause.LINE),
    ("event 1 dtc 012300", Cause.EVENT),
    ("event 0 prio 1", Cause.DTC),
    ("event 0 dtc 0123", Cause.DTC),
    ("event 0 dtc 012300 count 1 2", Cause.LINE),
    ("event 0 dtc 012300 lamp 1 lamp 1", Cause.LINE),
    ("did 0 0101", Cause.LINE),
)


class Tables(unittest.TestCase):
    """Tables and lines."""

    def test_semicolons_and_empty_columns(self) -> None:
        """A table with semicolons, and with empty cells after its columns, has the same lines."""
        rows = list(csv.reader(io.StringIO(TABLE)))
        out = io.StringIO()
        csv.writer(out, delimiter=";").writerows([*row, "", ""] for row in rows)
        self.assertEqual(programs.lines_of(lines_of_table(out.getvalue())), LINES)

    def test_a_table_becomes_lines(self) -> None:
        """And comes back with the same lines again."""
        lines = programs.lines_of(lines_of_table(TABLE))
        self.assertEqual(lines, LINES)
        for spells_hex in (False, True):
            table = table_of_lines(lines, spells_hex)
            self.assertEqual(programs.lines_of(lines_of_table(table)), LINES)
        self.assertIn("P0123-00", table_of_lines(lines))
        self.assertIn("012300", table_of_lines(lines, True))

    def test_wrong_rows_and_lines(self) -> None:
        """Each has its cause."""
        for table, cause in WRONG:
            with self.assertRaises(ConfigError) as caught:
                lines_of_table(table)
            self.assertIs(caught.exception.cause, cause, table)
        for line, cause in WRONG_LINES:
            with self.assertRaises(ConfigError) as caught:
                table_of_lines(line)
            self.assertIs(caught.exception.cause, cause, line)

    def test_each_configuration_of_the_examples(self) -> None:
        """Lines become a table and come back; pairs may change their order, no word is lost."""
        count = 0
        for file in sorted(DATA.glob("*.script")):
            lines = configuration_of(file.read_text(encoding="ascii"))
            try:
                table = table_of_lines(programs.lines_of(lines))
            except ConfigError:
                self.assertTrue(file.stem.startswith(("refused", "checked")), file)
                continue
            again = lines_of_table(table)
            ordered = [
                it for it in lines if not it.startswith("event") and not it.startswith("did")
            ]
            ordered_again = [
                it for it in again if not it.startswith("event") and not it.startswith("did")
            ]
            self.assertEqual(ordered, ordered_again)
            words = sorted(sorted(it.upper().split()) for it in lines)
            self.assertEqual(sorted(sorted(it.upper().split()) for it in again), words, file)
            count += 1
        self.assertGreater(count, 50)


class OverTheProgram(InFolder):
    """Tables by chance are taken by `check`."""

    def test_tables_by_chance(self) -> None:
        """256 events with all columns: `check` says how many there are."""
        chance = random.Random(256)
        for count in (1, *([256] * number(1, 5))):
            rows = ["event,name,dtc,prio,cycle,confirm,heal,age,lamp,needs,dids"]
            for event in range(count):
                dtc = f"{'PCBU'[event % 4]}{event % 3}{event:03X}-{chance.randrange(1, 255):02X}"
                numbers = (chance.randrange(1, 256), event % 4, chance.randrange(1, 256))
                tail = (
                    chance.randrange(1, 256),
                    chance.randrange(1, 256),
                    event % 2,
                    chance.randrange(256),
                )
                row = (event, f"part {event}", dtc, *numbers, *tail, "0101")
                rows.append(",".join(str(it) for it in row))
            file = self.folder / "car.csv"
            file.write_text("\n".join(rows) + "\n", encoding="ascii")
            with contextlib.redirect_stdout(io.StringIO()) as out:
                self.assertEqual(main([str(file)]), 0)
            checked = self.programs.run("check", out.getvalue()).text
            self.assertTrue(checked.startswith(f"ok events {count} entries 16 "), checked)
        with contextlib.redirect_stderr(io.StringIO()) as told:
            file.write_text("dtc\nP0123\n", encoding="ascii")
            self.assertEqual(main([str(file)]), 2)
        self.assertIn("row 2 dtc: 'P0123' is neither", told.getvalue())


if __name__ == "__main__":
    unittest.main()
