"""What the tests of draw.py share: the programs, reports of any calls, and checks of a picture."""

import math
import os
import random
import re
import unittest
import xml.etree.ElementTree as ET
from typing import List, Optional, Sequence, Tuple

from drawing import sheet
from drawing.program import TOP, Program
from drawing.report import Call, Event, Report, State, report_of

DATA = os.path.join(TOP, "crates", "examples", "data")
PICTURES = os.path.join(TOP, "docs", "pictures")
SVG = "{http://www.w3.org/2000/svg}"
Point = Tuple[float, float]


def built(crate: str) -> Optional[str]:
    """Returns the program of a crate, with its proofs or without them, where one is built."""
    paths = (os.path.join(TOP, "crates", crate, "out", name) for name in (crate, "try"))
    return next((path for path in paths if os.access(path, os.X_OK)), None)


FAULTMEM, INSPECT = built("faultmem"), built("flt_inspect")
needs_faultmem = unittest.skipUnless(FAULTMEM, "the program faultmem is not built")
needs_inspect = unittest.skipUnless(INSPECT, "the program flt_inspect is not built")


class Said(Program):
    """A program that always prints the same line."""

    def __init__(self, line: str, status: int = 0) -> None:
        super().__init__(["said"])
        self.line, self.status = line, status

    def run(self, word: str, given: bytes, statuses: Sequence[int]) -> Tuple[int, List[str]]:
        return self.status, [self.line]


def made(script: str) -> Report:
    """Returns the report of a script."""
    return report_of(script.encode("latin-1"), "a script", Program([FAULTMEM or ""]))


def random_state(dice: random.Random) -> State:
    """Returns any state that a show can give."""
    return State(
        dice.randrange(256),
        dice.randint(-128, 127),
        dice.randrange(256),
        dice.randrange(511),
        dice.choice((0, 1, 7, 255)),
        dice.randrange(2),
    )


def random_report(dice: random.Random, calls: int, events: int) -> Report:
    """Returns a report of any calls, with any states after them."""
    texts = (
        "fail 0",
        "cycle 0",
        "power",
        "save",
        "t A 19 02 FF",
        "tick 65535",
        "post 3 " + " ".join(["AF"] * 32),
        "sig 1 65535",
    )
    answers = {
        "power": ("dark", "generation 4294967295"),
        "save": ("3", "flash"),
        "t": ("59 02 FF" + " 12 34 56 2F" * 20, "silent"),
    }
    found = [Call(0, 1, "life 1", "generation 0")]
    for number in range(1, calls):
        text = dice.choice(texts)
        answer = dice.choice(answers.get(text.split()[0], ("taken", "ignored setting")))
        lane = dice.choice((None, None, 8))
        found.append(
            Call(
                number,
                found[-1].life + (text == "power"),
                text,
                answer,
                None if text == "power" else lane,
            )
        )
    shown = [
        Event(it, f"{it + 1:06X}", dice.randrange(2), "confirm 255 " * dice.randrange(9))
        for it in range(events)
    ]
    for call in found:
        call.states = {
            event.number: random_state(dice) if dice.random() < 0.9 else None for event in shown
        }
    return Report("Any calls, " * dice.randrange(1, 12) + "with & and < in it", shown, found)


class Text:
    """A text of a picture: the corners of the area that it takes."""

    def __init__(self, element: ET.Element) -> None:
        self.text = element.text or ""
        size = sheet.SIZES[element.get("class", "")]
        width, x, y = (
            len(self.text) * size * 0.605,
            float(element.get("x", 0)),
            float(element.get("y", 0)),
        )
        left = (
            x
            - {"start": 0.0, "middle": width / 2, "end": width}[element.get("text-anchor", "start")]
        )
        turn = re.match(r"rotate\((-?\d+) ", element.get("transform", ""))
        angle = math.radians(int(turn.group(1))) if turn else 0.0
        corners = (
            (left, y - 0.75 * size),
            (left + width, y - 0.75 * size),
            (left + width, y + 0.2 * size),
            (left, y + 0.2 * size),
        )
        self.corners: List[Point] = [
            (
                x + (a - x) * math.cos(angle) - (b - y) * math.sin(angle),
                y + (a - x) * math.sin(angle) + (b - y) * math.cos(angle),
            )
            for a, b in corners
        ]

    def bounds(self) -> Tuple[float, float, float, float]:
        """Returns the least and the greatest x and y."""
        return (
            min(x for x, _ in self.corners),
            max(x for x, _ in self.corners),
            min(y for _, y in self.corners),
            max(y for _, y in self.corners),
        )

    def overlaps(self, other: "Text") -> bool:
        """Whether the two areas overlap: no side of either keeps them apart."""
        for corners in (self.corners, other.corners):
            for (ax, ay), (bx, by) in zip(corners, corners[1:] + corners[:1]):
                one = [(bx - ax) * y - (by - ay) * x for x, y in self.corners]
                two = [(bx - ax) * y - (by - ay) * x for x, y in other.corners]
                if max(one) <= min(two) + 1e-6 or max(two) <= min(one) + 1e-6:
                    return False
        return True


class Pictures(unittest.TestCase):
    """What is checked of each picture."""

    def check(self, svg: str, width: int) -> List[str]:
        """Checks the form of a picture and the place of each text, and returns the texts."""
        root = ET.fromstring(svg)
        left, top, right, low = map(float, root.get("viewBox", "").split())
        self.assertEqual((left, top, right), (0, 0, width))
        self.assertEqual((root.get("width"), float(root.get("height", 0))), (str(width), low))
        texts = [Text(element) for element in root.iter(f"{SVG}text")]
        for text in texts:
            one, two, three, four = text.bounds()
            self.assertTrue(
                0 <= one and two <= right and 0 <= three and four <= low,
                f"'{text.text}' is not inside",
            )
        texts.sort(key=lambda text: text.bounds()[2])
        for at, text in enumerate(texts):
            for other in texts[at + 1 :]:
                if other.bounds()[2] > text.bounds()[3]:
                    break
                self.assertFalse(text.overlaps(other), f"'{text.text}' overlaps '{other.text}'")
        return [text.text for text in texts]
