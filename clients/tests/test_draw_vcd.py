"""Tests of draw.py: its VCD files, parsed back."""

import glob
import os
import random
import subprocess
import tempfile
import unittest
from typing import Dict, Iterator, List, Optional, Tuple

from tests.others import tool
from tests.drawn import DATA, FAULTMEM, made, needs_faultmem, random_report
from drawing.program import Program
from drawing.report import Report, report_of
from drawing.timeline import BITS
from drawing.vcd import vcd


def changes(text: str) -> Tuple[Dict[str, str], Iterator[Dict[str, str]]]:
    """Reads a VCD file: the names of its variables, and their values after each call."""
    head, _, body = text.partition("$enddefinitions $end\n")
    names, scopes = {}, []
    for words in (line.split() for line in head.splitlines()):
        if words[0] == "$scope":
            scopes.append(words[2])
        elif words[0] == "$upscope":
            scopes.pop()
        elif words[0] == "$var":
            names[words[3]] = ".".join([*scopes[1:], words[4]])

    def values() -> Iterator[Dict[str, str]]:
        now: Dict[str, str] = {}
        for line in body.splitlines()[1:]:
            if line.startswith("#"):
                yield dict(now)
            elif not line.startswith("$"):
                value, short = line.split() if line[0] in "bs" else (line[0], line[1:])
                now[names[short]] = value

    return names, values()


def values_by_time(text: str) -> Dict[int, Dict[str, str]]:
    """Returns the values of all variables at each time, by their names with their scopes."""
    head, _, body = text.partition("$enddefinitions $end\n")
    names: Dict[str, str] = {}
    scopes: List[str] = []
    for words in (line.split() for line in head.splitlines()):
        if words[:1] == ["$scope"]:
            scopes.append(words[2])
        elif words[:1] == ["$upscope"]:
            scopes.pop()
        elif words[:1] == ["$var"]:
            names[words[3]] = ".".join([*scopes, words[4]])
    now: Dict[str, str] = {}
    found: Dict[int, Dict[str, str]] = {}
    time = 0
    for line in body.splitlines():
        if line.startswith("#"):
            time = int(line[1:])
        elif line and not line.startswith("$"):
            value, short = line.split() if line[0] in "bs" else (line[0], line[1:])
            digits = value[1:].lstrip("0") if value[0] == "b" and "x" not in value else value
            now[names[short]] = "x" if "x" in digits and value[0] == "b" else digits
        found[time] = dict(now)
    return found


def signed(value: str) -> Optional[int]:
    """Returns a number of a VCD file."""
    if "x" in value:
        return None
    number = int(value.lstrip("b"), 2)
    return number - (1 << 32) if number >> 31 else number


class Vcd(unittest.TestCase):
    """VCD files, parsed back."""

    def check(self, report: Report) -> List[Dict[str, str]]:
        """Compares a VCD file with its report."""
        names, values = changes(vcd(report))
        self.assertEqual(len(set(names)), 6 + 13 * len(report.events))
        found = list(values)
        self.assertEqual(len(found), len(report.calls))
        for call, value in zip(report.calls, found):
            lane = "" if call.lane is None else f"lane {call.lane}: "
            self.assertEqual(value["call"][1:].replace("_", " "), lane + call.text)
            self.assertEqual(value["answer"][1:].replace("_", " "), call.answer)
            self.assertEqual(signed(value["life"]), call.life)
            for event in report.events:
                scope, state = f"event_{event.number}_DTC_{event.dtc}.", call.states.get(
                    event.number
                )
                for name in ("status", "fdc", "failed", "clean", "stored"):
                    self.assertEqual(signed(value[scope + name]), state and getattr(state, name))
                for bit, (short, _, _) in enumerate(BITS):
                    self.assertEqual(
                        signed(value[f"{scope}bit{bit}_{short}"]), state and state.status >> bit & 1
                    )
        return found

    def test_any_report(self) -> None:
        for seed in range(12):
            self.check(random_report(random.Random(seed), 60, seed % 5))

    def test_gtkwave_takes_the_file(self) -> None:
        """vcd2fst of GTKWave reads a file, and what it makes of it has the same values."""
        for program in ("vcd2fst", "fst2vcd"):
            tool(program)
        for seed in range(5):
            text = vcd(random_report(random.Random(seed), 60, seed))
            with tempfile.TemporaryDirectory() as folder:
                names = [os.path.join(folder, it) for it in ("a.vcd", "a.fst", "b.vcd")]
                with open(names[0], "w", encoding="ascii") as file:
                    file.write(text)
                for command in (["vcd2fst", *names[:2]], ["fst2vcd", "-o", names[2], names[1]]):
                    ran = subprocess.run(command, capture_output=True, timeout=60, check=False)
                    self.assertEqual(ran.returncode, 0, ran.stderr)
                with open(names[2], encoding="ascii") as file:
                    back = file.read()
            self.assertEqual(values_by_time(back), values_by_time(text))

    def test_256_events(self) -> None:
        self.check(random_report(random.Random(5), 3, 256))

    @needs_faultmem
    def test_a_report_of_the_program(self) -> None:
        report = made("event 0 dtc 123456\ncycle 0\nfail 0\nsave\ntick 7\nfail 0\npower\ntick 3\n")
        found = self.check(report)
        self.assertEqual([signed(it["generation"]) for it in found], [0, 0, 0, 1, 1, 1, 1, 1])
        self.assertEqual([signed(it["ticks"]) for it in found], [0, 0, 0, 0, 7, 7, 7, 10])

    @needs_faultmem
    def test_shows_of_each_example(self) -> None:
        """Each `show` of an example outside a block is what the VCD file has at its place."""
        count = 0
        for path in sorted(glob.glob(os.path.join(DATA, "*.script"))):
            with open(path, "rb") as script, open(
                path[:-7] + ".report", encoding="latin-1"
            ) as report:
                given, lines = script.read(), report.read().splitlines()
            if (
                b"par" in given
                or not lines[0].startswith("life 1 ")
                or lines[-1].startswith("watch")
            ):
                continue
            drawn = report_of(given, "a script", Program([FAULTMEM or ""]))
            values = list(changes(vcd(drawn))[1])
            scopes = [f"event_{event.number}_DTC_{event.dtc}." for event in drawn.events]
            at = -1
            for line in lines:
                if not line.startswith("show "):
                    at += 1
                    continue
                words = line.split()
                value = {
                    name: values[at][scopes[int(words[1])] + name]
                    for name in ("status", "fdc", "stored")
                }
                if words[3] == "dark":
                    self.assertTrue(all("x" in it for it in value.values()))
                    continue
                found = (
                    f"{signed(value['status']):02X}",
                    str(signed(value["fdc"])),
                    str(signed(value["stored"])),
                )
                self.assertEqual(found, (words[4], words[6], words[12]), f"{path}: {line}")
                count += 1
        self.assertGreater(count, 70)


if __name__ == "__main__":
    unittest.main()
