"""Tests of draw.py: its colours, its timelines, and its words."""

import contextlib
import io
import math
import os
import random
import subprocess
import sys
import tempfile
import unittest
import xml.etree.ElementTree as ET
from typing import List, Sequence, Tuple
from unittest import mock

import draw
from tests.drawn import DATA, FAULTMEM, SVG, Pictures, made, needs_faultmem, random_report
from drawing import sheet
from drawing.causes import Cause, NotDrawn
from drawing.program import TOP
from drawing.report import Report, Script, State, title_of
from drawing.timeline import MOST_CALLS, bits_in_order, timeline
from drawing.vcd import vcd

LEAST_CONTRAST = 4.5


def luminance(colour: str) -> float:
    """Returns how light a colour is (WCAG 2)."""
    parts: List[float] = [int(colour[at : at + 2], 16) / 255 for at in (1, 3, 5)]
    red, green, blue = (
        it / 12.92 if it <= 0.04045 else math.pow((it + 0.055) / 1.055, 2.4) for it in parts
    )
    return 0.2126 * red + 0.7152 * green + 0.0722 * blue


def contrast(one: str, two: str) -> float:
    """Returns the contrast of two colours (WCAG 2)."""
    high, low = sorted((luminance(one), luminance(two)), reverse=True)
    return (high + 0.05) / (low + 0.05)


class Colours(unittest.TestCase):
    """The colours, by the numbers of WCAG 2."""

    def test_contrast(self) -> None:
        for dark in (0, 1):
            grounds = [sheet.PAPER[dark], *(both[dark] for both in sheet.GROUNDS.values())]
            for name, both in {**sheet.TEXTS, **sheet.LINES}.items():
                for ground in grounds:
                    self.assertGreaterEqual(
                        contrast(both[dark], ground), LEAST_CONTRAST, f"{name} on {ground}"
                    )

    def test_both_schemes_are_in_the_document(self) -> None:
        light, dark = sheet.style().split("@media (prefers-color-scheme:dark)")
        for name, both in {**sheet.TEXTS, **sheet.LINES, **sheet.GROUNDS}.items():
            self.assertIn(f".{name}{{", light)
            self.assertIn(both[0], light)
            self.assertIn(both[1], dark)

    def test_letters_can_be_read(self) -> None:
        self.assertGreaterEqual(min(sheet.SIZES.values()), 10)


class AnyReport(Pictures):
    """Reports of any calls, made here."""

    def test_places_of_texts(self) -> None:
        for seed in range(24):
            dice = random.Random(seed)
            report = random_report(dice, dice.choice((1, 2, 9, 40)), dice.choice((0, 1, 3)))
            for width in (320, 400, 880, 1280):
                with self.subTest(seed=seed, width=width):
                    self.check(timeline(report, width), width)

    def test_most_calls(self) -> None:
        report = random_report(random.Random(1), MOST_CALLS, 1)
        self.check(timeline(report, 880), 880)
        for call in report.calls:
            call.number += 65_000
        self.check(timeline(report, 400), 400)

    def test_limits(self) -> None:
        with self.assertRaises(NotDrawn) as calls:
            timeline(random_report(random.Random(1), MOST_CALLS + 1, 1), 880)
        with self.assertRaises(NotDrawn) as events:
            timeline(random_report(random.Random(1), 9, 17), 880)
        with self.assertRaises(NotDrawn) as none:
            timeline(random_report(random.Random(1), 9, 1), 880, (9, 12))
        self.assertEqual([it.exception.cause for it in (calls, events, none)], [Cause.LIMIT] * 3)
        self.assertIn("--calls", calls.exception.text)
        self.assertIn("--events", events.exception.text)

    def test_a_part(self) -> None:
        report = random_report(random.Random(3), MOST_CALLS + 100, 20)
        texts = self.check(timeline(report, 880, (490, 495), [2, 19]), 880)
        self.assertTrue({str(it) for it in range(490, 496)} <= set(texts))
        self.assertFalse({"489", "496"} & set(texts))
        self.assertEqual(
            [it for it in texts if it.startswith("DTC")],
            ["DTC 000003  event 2", "DTC 000014  event 19"],
        )

    def test_bits_in_the_order_in_which_they_rise(self) -> None:
        states = [State(status, 0, 0, 0, 0, 0) for status in (0x50, 0x40, 0x48, 0x49, 0x6B)]
        self.assertEqual(bits_in_order([None, *states]), (3, 0, 1, 5, 6, 4))
        self.assertEqual(bits_in_order([None]), ())


ODD = {
    "nothing": "",
    "no events": "post 0 01\ndrain\nget 0\nt A 19 02 FF\n",
    "an event without a call": "event 0 dtc 123456\n",
    "many lives": "event 0 dtc 123456\ncycle 0\nfail 0\nsave\n"
    + "power\ncycle 0\npass 0\nsave\n" * 60,
    "a dark life": "event 0 dtc 123456\ncycle 0\nfail 0\nsave\nmute 0 0 3\n"
    "power\nfail 0\nt A 19 02 FF\npower\nfail 0\n",
    "lanes": "event 0 dtc 123456\ncycle 0\npar\nlane\nfail 0\nshow 0\nlane\nlane\nt A 3E 00\nend\n"
    "par\nlane\nend\npass 0\npower\npar\nlane\nfail 0\nend\n",
    "long lines": "event 0 dtc 123456 prio 255 cycle 3 confirm 255 heal 255 age 255 lamp 1 "
    "needs 255 count 32767 32768 32767 32767\ncycle 3\nfail 0\npost 7"
    + " AF" * 32
    + "\nt D"
    + " FF" * 16
    + "\n",
    "a counter": "event 0 dtc 123456 count 10 10 1 1\ncycle 0\n"
    + "prefail 0\n" * 12
    + "prepass 0\n" * 25,
    "comments that say nothing": "#\n # \nevent 0 dtc 123456\n#### \ncycle 0\nfail 0\n",
    "blanks, carriage returns": "\t event\t0  dtc\tabcdef \r\n\r\n  cycle  00 \r\n fail 0000\r\n",
}


@needs_faultmem
class OfProgram(Pictures):
    """Pictures of scripts that the program makes."""

    def test_odd_scripts(self) -> None:
        for name, script in ODD.items():
            report = made(script)
            numbers = {str(call.number) for call in report.calls}
            for width in (400, 1280):
                with self.subTest(name=name, width=width):
                    texts = self.check(timeline(report, width), width)
                    self.assertTrue(numbers <= set(texts))
                    self.assertEqual("power → dark" in texts, name == "a dark life")

    def test_a_fault(self) -> None:
        report = made(
            "# One fault.\nevent 0 dtc 123456\nevent 1 dtc 123457\n"
            "cycle 0\nfail 0\nsave\nt A 19 02 08\npower\n"
        )
        texts = self.check(timeline(report, 880), 880)
        for text in (
            "One fault.",
            "cycle 0",
            "save → 1",
            "power → generation 1",
            "2F",
            "3 CDTC confirmed",
            "4 t A 19 02 08 → 59 02 FF 12 34 56 2F",
        ):
            self.assertIn(text, texts)
        self.assertIn("Without rows, as nothing that they show changes: event 1.", texts)
        self.assertFalse([it for it in texts if it.startswith(("7 WIR", "DTC 123457"))])
        self.assertEqual(
            [it for it in texts if it.startswith("occurrence") or it.startswith("×")],
            ["occurrence 1", "×1"],
        )

    def test_shows_in_as_many_runs_as_needed(self) -> None:
        script = (
            "event 0 dtc 000001\nevent 1 dtc 000002\ncycle 0\n" + "fail 0\npass 1\nshow 0\n" * 20
        )
        whole = made(script)
        with mock.patch("drawing.report.MOST_STEPS", 66):
            self.assertEqual(len(list(Script(script.encode(), "").runs())), 17)
            self.assertEqual(made(script), whole)
        states = whole.calls[-1].states
        self.assertEqual((states[0] and states[0].fdc, states[1] and states[1].fdc), (127, -128))
        self.assertTrue(all(len(call.states) == 2 for call in whole.calls))

    def test_too_many_shows(self) -> None:
        lanes = "event 0 dtc 123456\npar\nlane\nfail 0\nend\n" + "cycle 0\n" * 20
        for script, name, most in (
            (lanes, "MOST_SHOWS", 20),
            (lanes, "MOST_STEPS", 30),
            ("event 0 dtc 123456\ncycle 0\n", "MOST_STEPS", 1),
        ):
            with mock.patch(f"drawing.report.{name}", most), self.assertRaises(NotDrawn) as refused:
                made(script)
            self.assertEqual(refused.exception.cause, Cause.LIMIT)

    def test_refused(self) -> None:
        with self.assertRaises(NotDrawn) as refused:
            made("event 0 dtc 123456\nfail 1\n")
        self.assertEqual(
            (refused.exception.cause, refused.exception.text),
            (Cause.REFUSED, "script line 2 range"),
        )


class Titles(unittest.TestCase):
    """The title of a script."""

    def test_titles(self) -> None:
        rows = (
            (["event 0 dtc 123456", "# A title. And more."], "A title."),
            (["#", "# It takes", "# two lines.", "# no more"], "It takes two lines."),
            (["# One", "", "# two"], "One"),
            (["# version 1.5 of it"], "version 1.5 of it"),
            (["cycle 0 # none"], "otherwise"),
            (["# " + "long " * 90], ("long " * 40)[:199].rstrip() + "…"),
        )
        for lines, title in rows:
            self.assertEqual(title_of(lines, "otherwise"), title)

    def test_quotes_and_ampersands(self) -> None:
        script = Script(b'# "It\'s" <b>&amp;</b> ]]> & $end -->\ncycle 0\n', "otherwise")
        script.calls[0].answer = "dark"
        report = Report(script.title, script.events, script.calls)
        root = ET.fromstring(timeline(report, 880))
        title = '"It\'s" <b>&amp;</b> ]]> & $end -->'
        self.assertEqual(
            (script.title, root.get("aria-label"), root.findtext(f"{SVG}title")),
            (title, title, title),
        )
        self.assertEqual(vcd(report).splitlines()[0].count("$end"), 1)


class Words(unittest.TestCase):
    """The words of draw.py, and how it ends."""

    def ended(self, *words: str) -> Tuple[int, str]:
        """Returns the status, and what is on standard error."""
        said = io.StringIO()
        with contextlib.redirect_stderr(said), contextlib.redirect_stdout(io.StringIO()):
            try:
                return draw.main(list(words)), said.getvalue()
            except SystemExit as end:
                return int(end.code or 0), said.getvalue()

    def test_statuses(self) -> None:
        first, program = os.path.join(DATA, "first.script"), FAULTMEM or "/bin/false"
        rows: List[Tuple[int, Sequence[str]]] = [
            (0, ["--help"]),
            (1, []),
            (1, ["picture"]),
            (1, ["timeline", "--width", "5"]),
            (1, ["timeline", "--calls", "3"]),
            (1, ["timeline", "--events", "a"]),
            (3, ["timeline", "no such file"]),
            (3, ["vcd", TOP]),
            (6, ["timeline", first, "--program", "no such program"]),
            (6, ["timeline", first, "--program", "/bin/false"]),
        ]
        if FAULTMEM:
            rows += [
                (0, ["timeline", first, "--program", program, "-o", os.devnull]),
                (0, ["vcd", first, "--program", program, "-o", os.devnull]),
                (2, ["timeline", os.path.join(DATA, "refused_range.script"), "--program", program]),
                (
                    4,
                    [
                        "timeline",
                        first,
                        "--program",
                        program,
                        "-o",
                        os.path.join(TOP, "no such folder", "it"),
                    ],
                ),
                (5, ["timeline", first, "--program", program, "--calls", "900-999"]),
            ]
        for status, words in rows:
            with self.subTest(words=words):
                found, said = self.ended(*words)
                self.assertEqual(found, status, said)
                self.assertEqual(bool(said), status != 0)

    @needs_faultmem
    def test_standard_input_and_output(self) -> None:
        words = [os.path.join(TOP, "clients", "draw.py"), "timeline", "--program", FAULTMEM or ""]
        ran = subprocess.run(
            [sys.executable, *words], input=b"# It.\ncycle 0\n", capture_output=True, check=True
        )
        with tempfile.TemporaryDirectory() as folder:
            path = os.path.join(folder, "it.svg")
            subprocess.run(
                [sys.executable, *words, "-", "-o", path], input=b"# It.\ncycle 0\n", check=True
            )
            with open(path, "rb") as file:
                self.assertEqual(file.read(), ran.stdout)


if __name__ == "__main__":
    unittest.main()
