"""Tests live.py, over the live program where it is built, otherwise over the stand-in."""

from __future__ import annotations

import random
import sys
import unittest

import live
import programs
from live import Cause, End, Ended, Live, NoAnswer, Refused
from programs import Programs
from script import lives_of, request_line
from tests.common import (
    CONFIGURATION,
    InFolder,
    number,
    some_monitor_call,
    some_request,
    with_stand_in,
)
from words import answer_in_words, dtc_of, j2012_of, status_in_words


class OverTheMemory(InFolder):
    """What the module answers."""

    def start(self, using: Programs | None = None) -> Live:
        """Starts a program over the flash in memory."""
        memory = Live.start(self.configuration, using=using or self.programs)
        self.addCleanup(memory.close)
        return memory

    def test_steps_and_requests_are_answered(self) -> None:
        """A step gives the text after the arrow, a request its response or None."""
        with self.start() as memory:
            self.assertEqual(memory.begins, "life 1 generation 0")
            self.assertEqual(memory.step("cycle 0"), "taken")
            self.assertEqual(memory.step("fail 0"), "taken")
            self.assertEqual(
                memory.request("A", bytes.fromhex("190208")), bytes.fromhex("5902FF123456AF")
            )
            self.assertIsNone(memory.request("A", bytes.fromhex("3E80")))
            self.assertEqual(memory.step("# a comment"), "")
            self.assertEqual(memory.step(""), "")
            self.assertEqual(memory.step("save"), "1")
            self.assertEqual(memory.step("power"), "life 2 generation 1")
            self.assertFalse(memory.is_dark)

    def test_a_refused_line_changes_nothing(self) -> None:
        """Each refusal has its cause, and the program goes on."""
        rows = (("nothing", Cause.WORD), ("fail 9", Cause.RANGE), ("fail", Cause.FORM))
        with self.start() as memory:
            for line, cause in (*rows, ("par", Cause.BLOCK), ("memory 3", Cause.ORDER)):
                with self.assertRaises(Refused) as caught:
                    memory.step(line)
                self.assertIs(caught.exception.cause, cause)
            self.assertEqual(memory.step("cycle 0"), "taken")

    def test_two_lines_in_one_are_no_step(self) -> None:
        """A line feed in a step would make the answers fall behind."""
        with self.start() as memory, self.assertRaises(ValueError):
            memory.step("cycle 0\nfail 0")

    def test_a_long_request_is_its_first_16_bytes(self) -> None:
        """It is answered as the profile answers its beginning."""
        with self.start() as memory:
            long = bytes.fromhex("2E F1 90") + b"A" * 40
            self.assertEqual(memory.request("A", long), bytes.fromhex("7F2E11"))
            self.assertEqual(memory.request("A", b"\x19\x0a" + bytes(200)), bytes.fromhex("7F1913"))

    def test_a_wrong_configuration_ends_it(self) -> None:
        """The end says the status, its meaning and the line."""
        self.configuration.write_text("event 0\n", encoding="ascii")
        with self.assertRaises(Ended) as caught:
            self.start()
        self.assertEqual((caught.exception.status, caught.exception.why), (2, End.CONFIGURATION))
        self.assertEqual(caught.exception.text, "script line 1 form")

    def test_a_dark_life_is_an_end_status(self) -> None:
        """Steps of a dark life answer `dark`, and the end of the context raises its status."""
        with self.assertRaises(Ended) as caught:
            with self.start(with_stand_in(self.programs)) as memory:
                memory.step("save")
                memory.step("mute 0 0 3")
                memory.step("power")
                self.assertTrue(memory.is_dark)
                self.assertEqual(memory.step("fail 0"), "dark")
                self.assertIsNone(memory.request("A", b"\x3e\x00"))
        self.assertIs(caught.exception.why, End.DARK)

    def test_an_image_is_kept(self) -> None:
        """What was acknowledged is there at the next start."""
        image = self.folder / "car.img"
        for generation in range(2):
            with Live.start(self.configuration, image, self.programs) as memory:
                self.assertEqual(memory.begins, f"life 1 generation {generation}")
                for line in ("cycle 0", "fail 0", "save") if generation == 0 else ():
                    memory.step(line)
                shown = memory.request("A", bytes.fromhex("190208"))
                self.assertEqual(shown, bytes.fromhex("5902FF123456AF"))

    def test_a_session_is_as_run_has_it(self) -> None:
        """Steps and requests by chance have the answers of `run`."""
        chance = random.Random(62)
        lines = ["cycle 0"]
        for _ in range(number(30, 300)):
            request = request_line(chance.choice("ABCD"), some_request(chance))
            lines.append(chance.choice((request, some_monitor_call(chance), "save", "power")))
        with self.start() as memory:
            given = [memory.step(line) for line in lines]
        script = programs.lines_of([*CONFIGURATION, *lines])
        lives = lives_of(self.programs.run("run", script).text)
        due = [it for life in lives for it in [life.begins, *(call.answer for call in life.calls)]]
        self.assertEqual(["life 1 generation 0", *given], due)

    def test_the_shell_says_what_an_answer_means(self) -> None:
        """A status, a list of DTCs and a negative response are followed by words."""
        with self.start() as memory:
            memory.step("cycle 0")
            memory.step("fail 0")
            shown = live.lines_behind(memory, "show 0")
            self.assertEqual(shown[0], "status AF fdc 127 failed 1 clean 0 stored 1 overflow 0")
            self.assertIn("warningIndicatorRequested", shown[1])
            listed = live.lines_behind(memory, "t A 19 02 08")
            self.assertTrue(listed[1].strip().startswith("P1234-56 AF: testFailed, "))
            refused = live.lines_behind(memory, "t A 27 01")
            self.assertEqual(refused[1].strip(), "service 27: serviceNotSupported")
            self.assertEqual(live.lines_behind(memory, "nothing"), ["refused word"])
            self.assertEqual(live.lines_behind(memory, "# nothing"), [])
            self.assertEqual(
                live.lines_behind(memory, "bits 05"), ["bit 0 testFailed", "bit 2 pendingDTC"]
            )
            self.assertEqual(live.lines_behind(memory, "bits"), ["refused word"])


class OverOddPrograms(unittest.TestCase):
    """Programs that are none."""

    def test_no_answer_in_time(self) -> None:
        """A program that is silent is ended."""
        with self.assertRaises(NoAnswer):
            Live([sys.executable, "-c", "import sys; sys.stdin.read()"], patience=0.3)

    def test_an_end_at_once(self) -> None:
        """A program that ends without a line gives its status."""
        with self.assertRaises(Ended) as caught:
            Live([sys.executable, "-c", "raise SystemExit(7)"])
        self.assertIs(caught.exception.why, End.MEMORY)

    def test_an_end_between_two_lines(self) -> None:
        """A program that ends while a step waits gives its status, and later steps the same."""
        program = "print('life 1 generation 0', flush=True); input(); raise SystemExit(4)"
        memory = Live([sys.executable, "-c", program])
        for _ in range(2):
            with self.assertRaises(Ended) as caught:
                memory.step("cycle 0")
            self.assertIs(caught.exception.why, End.WRITING)

    def test_an_endless_line(self) -> None:
        """A line without an end is no answer."""
        program = "import sys; sys.stdout.write('x' * 200000); sys.stdout.flush(); sys.stdin.read()"
        with self.assertRaises(NoAnswer):
            Live([sys.executable, "-c", program])


class Words(unittest.TestCase):
    """The words of ISO 14229-1 and of SAE J2012."""

    def test_dtcs_are_spelled_both_ways(self) -> None:
        """Each DTC comes back from its spelling."""
        self.assertEqual(j2012_of(0x012300), "P0123-00")
        self.assertEqual(j2012_of(0xC07300), "U0073-00")
        chance = random.Random(1)
        for dtc in (0, 0xFFFFFF, *(chance.randrange(1 << 24) for _ in range(1000))):
            self.assertEqual(dtc_of(j2012_of(dtc)), dtc)
            self.assertEqual(dtc_of(j2012_of(dtc).lower()), dtc)
            self.assertEqual(dtc_of(f"{dtc:06X}"), dtc)
        for wrong in ("", "P0123", "X0123-00", "P4123-00", "12345", "0x123456", "1234567"):
            self.assertIsNone(dtc_of(wrong))

    def test_each_bit_has_its_name(self) -> None:
        """A status names its bits in their order."""
        self.assertEqual(status_in_words(0), "no bit")
        self.assertEqual(status_in_words(0x81), "testFailed, warningIndicatorRequested")

    def test_an_answer_that_speaks_for_itself(self) -> None:
        """It has no words after it."""
        for answer in ("taken", "", "54", "7E 00", "1", "life 2 generation 1", "01 AF"):
            self.assertEqual(answer_in_words(answer), [])


if __name__ == "__main__":
    unittest.main()
