"""Tests of the calls from Python, against a library that FAULTMEM_LIBRARY names, and against `faultmem run` where FAULTMEM_RUN is there."""

from __future__ import annotations

import os
import random
import sys
import unittest
from pathlib import Path

sys.path.insert(0, str(Path(__file__).resolve().parent))
sys.path.insert(0, str(Path(__file__).resolve().parent.parent / "tools"))

from faultmem import FAILED, Memory, Refused  # noqa: E402
from live_session import random_config, random_step, report_of  # noqa: E402

LIBRARY = os.environ.get("FAULTMEM_LIBRARY", "")
RUN = Path(os.environ.get("FAULTMEM_RUN", "none"))
TEXT = "event 0 dtc 123456\nmemory 2\nblocks 2\nflash 2 64\n"
CONFIGURATION = {"config", "memory", "blocks", "flash", "event", "did"}
STEPS = set("pass fail prepass prefail sig enable tick cycle show ask get save drain post urge t power".split())


@unittest.skipUnless(LIBRARY, "FAULTMEM_LIBRARY names no library")
class Calls(unittest.TestCase):
    """The calls of one handle."""

    def status(self, due: str, call: object, *words: object) -> None:
        """A call gives this status."""
        with self.assertRaises(Refused) as caught:
            call(*words)  # type: ignore[operator]
        self.assertEqual(caught.exception.status, due)

    def test_session(self) -> None:
        """Steps, a save, and the power that comes again over the flash."""
        flash = bytearray(b"\xff" * 4096)
        with Memory(Path(LIBRARY), TEXT, flash) as memory:
            self.assertEqual(memory.begins, "life 1 generation 0")
            self.assertEqual(memory.report(0, FAILED), "fail 0 -> ignored cycle")
            self.assertEqual(memory.cycle(0), "cycle 0 -> taken")
            self.assertEqual(memory.report(0, FAILED), "fail 0 -> taken")
            self.assertEqual(memory.request(0, bytes.fromhex("19 02 08")), bytes.fromhex("59 02 FF 12 34 56 2F"))
            self.assertIsNone(memory.request(0, bytes.fromhex("3E 80")))
            self.assertEqual(memory.save(), "save -> 1")
            self.assertEqual(memory.image(), bytes(flash))
        with Memory(Path(LIBRARY), TEXT, flash) as memory:
            self.assertEqual(memory.begins, "life 1 generation 1")
            self.assertEqual(memory.show(0), "show 0 -> status 2F fdc 0 failed 1 clean 0 stored 1 overflow 0")

    def test_blocks(self) -> None:
        """Jobs and puts of application blocks."""
        with Memory(Path(LIBRARY), TEXT) as memory:
            self.assertEqual(memory.get(0), "get 0 -> missing")
            memory.put(0, b"\x01\xaf")
            self.assertEqual(memory.get(0), "get 0 -> 01 AF")
            self.assertEqual(memory.post(False, 1, b"\x07"), "post 1 07 -> accepted")
            self.assertEqual(memory.ask(1), "ask 1 -> pending")
            self.assertEqual(memory.drain(), "drain -> written 1 failed 0")
            self.assertEqual(memory.ask(1), "ask 1 -> written")
            self.assertEqual(memory.power_up(), "life 2 generation 0")
            self.assertEqual(memory.get(1), "get 1 -> 07")

    def test_refusals(self) -> None:
        """What is refused, and by which status."""
        self.status("config", Memory, Path(LIBRARY), "nothing\n")
        self.status("config", Memory, Path(LIBRARY), TEXT + "fail 0\n")
        self.status("length", Memory, Path(LIBRARY), TEXT, bytearray(4095))
        with Memory(Path(LIBRARY), TEXT) as memory:
            self.status("range", memory.show, 1)
            self.status("range", memory.report, 0, 4)
            self.status("range", memory.tick, 0)
            self.status("range", memory.tick, 65536)
            self.status("range", memory.cycle, 4)
            self.status("range", memory.signal, 8, 0)
            self.status("range", memory.get, 2)
            self.status("range", memory.put, 2, b"\x01")
            self.status("length", memory.put, 0, b"")
            self.status("length", memory.put, 0, bytes(33))
            self.status("length", memory.request, 0, b"")
            self.status("length", memory.request, 0, bytes(17))
            self.status("range", memory.request, 4, b"\x3e")
            memory.close()
            self.status("null", memory.show, 0)

    def test_damaged(self) -> None:
        """An image that is damaged is refused, and another one runs."""
        with Memory(Path(LIBRARY), TEXT, bytearray(4096)) as memory:
            self.assertTrue(memory.begins.startswith("life 1 refused"), memory.begins)
            self.status("dark", memory.show, 0)
            self.assertEqual(memory.power_up(bytearray(b"\xff" * 4096)), "life 2 generation 0")

    def test_examples(self) -> None:
        """The example scripts that a library can make give their reports."""
        folder = Path(__file__).resolve().parent.parent / "crates" / "examples" / "data"
        made = 0
        for path in sorted(folder.glob("*.script")):
            text = path.read_text(encoding="ascii", errors="replace").splitlines()
            lines = [line for line in text if line.split() and not line.lstrip().startswith("#")]
            config = [line for line in lines if line.split()[0] in CONFIGURATION]
            steps = lines[len(config) :]
            report = path.with_suffix(".report").read_text(encoding="ascii").splitlines()
            if lines[: len(config)] != config or not all(line.split()[0] in STEPS for line in steps):
                continue
            if not report or report[0] != "life 1 generation 0":
                continue
            with Memory(Path(LIBRARY), "".join(f"{line}\n" for line in config)) as memory:
                answers = [memory.begins] + [memory.make(line) for line in steps]
            self.assertEqual(report, answers, path.name)
            made += 1
        self.assertGreater(made, 20)

    @unittest.skipUnless(RUN.exists(), "FAULTMEM_RUN names no program")
    def test_scripts(self) -> None:
        """Random scripts of one lane give the lines of `faultmem run`."""
        for seed in range(1, int(os.environ.get("FAULTMEM_SCRIPTS", "100")) + 1):
            chance = random.Random(seed)
            config = random_config(chance)
            lines = []
            for life in range(chance.randint(1, 4)):
                lines += ["power"] if life else []
                lines += [random_step(config, chance, 0.1) for _ in range(chance.randint(0, 40))]
            report = report_of(RUN, "run", config.text() + "".join(f"{line}\n" for line in lines))
            flash = bytearray(b"\xff" * (64 * config.pages)) if chance.random() < 0.5 else None
            with Memory(Path(LIBRARY), config.text(), flash) as memory:
                answers = [memory.begins] + [memory.make(line) for line in lines]
                if flash is not None:
                    self.assertEqual(memory.image(), bytes(flash))
            self.assertEqual(report, answers, f"seed {seed}")


if __name__ == "__main__":
    unittest.main()
