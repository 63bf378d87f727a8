"""What the tests share: the built programs, the folder of a test, requests and steps."""

from __future__ import annotations

import os
import random
import sys
import tempfile
import unittest
from dataclasses import replace
from pathlib import Path

from programs import TOP, Programs

STAND_IN = Path(__file__).with_name("stand_in.py")
DATA = TOP / "crates" / "examples" / "data"
# With this variable the tests run in their full number; without it they take less than two minutes.
LONG = bool(os.environ.get("FAULTMEM_LONG"))
CONFIGURATION = (
    "event 0 dtc 123456 confirm 1 lamp 1",
    "event 1 dtc 123457 count 10 10 3 2",
    "event 2 dtc 0A0B0C time 10 5",
    "did 0 0101",
    "did 0 0103",
)


def number(short: int, full: int) -> int:
    """How many of something a test makes: a small number in the gate."""
    return full if LONG else short


def built_programs() -> Programs:
    """The programs that are built; skips the test where the first two are not."""
    found = Programs.built()
    if found is None:
        raise unittest.SkipTest("the programs are not built")
    return found if found.live else with_stand_in(found)


def with_stand_in(found: Programs) -> Programs:
    """These programs, with the stand-in as the live one. It takes faults of the flash too."""
    return replace(found, live=(sys.executable, str(STAND_IN), *found.first))


class InFolder(unittest.TestCase):
    """A test with a folder for its files, and with the programs."""

    programs: Programs

    @classmethod
    def setUpClass(cls) -> None:
        """Finds the programs."""
        cls.programs = built_programs()

    def setUp(self) -> None:
        """Makes the folder and a file of configuration lines."""
        folder = tempfile.TemporaryDirectory()
        self.addCleanup(folder.cleanup)
        self.folder = Path(folder.name)
        self.configuration = self.folder / "car.cfg"
        self.configuration.write_text(
            "".join(f"{line}\n" for line in CONFIGURATION), encoding="ascii"
        )


REQUESTS = (
    "19 01 {m}",
    "19 02 {m}",
    "19 03",
    "19 04 {d} FF",
    "19 04 {d} 01",
    "19 06 {d} FF",
    "19 06 {d} 03",
    "19 0A",
    "19 0B",
    "19 0C",
    "19 0D",
    "19 0E",
    "19 14",
    "10 03",
    "10 01",
    "10 83",
    "3E 00",
    "3E 80",
    "85 02",
    "85 01",
    "85 82",
    "14 {d}",
    "14 FF FF FF",
    "14 00 00 00",
    "22 F1 90",
    "19",
    "19 05",
    "27 01",
)
DTCS = ("12 34 56", "12 34 57", "0A 0B 0C", "00 00 99")


def some_request(chance: random.Random) -> bytes:
    """A request of the profile, or one that is refused."""
    form = chance.choice(REQUESTS)
    return bytes.fromhex(form.format(m=f"{chance.randrange(256):02X}", d=chance.choice(DTCS)))


def some_monitor_call(chance: random.Random) -> str:
    """A step of the car's side."""
    event = chance.randrange(3)
    return chance.choice(
        (
            f"fail {event}",
            f"fail {event}",
            f"prefail {event}",
            f"prefail {event}",
            f"pass {event}",
            f"prepass {event}",
            f"show {event}",
            f"sig {chance.randrange(8)} {chance.randrange(65536)}",
            f"tick {chance.randrange(1, 300)}",
            "cycle 0",
        )
    )
