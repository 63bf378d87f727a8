"""Tests trace_of.py and due.py: a change of one byte of a capture is found or named."""

from __future__ import annotations

import contextlib
import io
import json
import random
import struct
import unittest

import due
import trace_of
from capture import CaptureError, Cause, Names, exchanges_of
from due import DueError, judge
from programs import Programs
from script import Call, first_word
from tests.common import CONFIGURATION, InFolder, number
from tests.made import BEGIN, PORT, Session, as_asc, as_candump, as_pcap, can_frames, some_session
from tests.others import python_with, run_script
from trace_of import (
    Fault,
    Trace,
    TraceError,
    Where,
    make_trace,
    name_of,
    read_capture,
    read_monitors,
)

IDENTIFIERS = tuple(range(0x7E0, 0x7E4)), tuple(range(0x7E8, 0x7EC))
WHERE = Where(PORT, None, *IDENTIFIERS)
FROM_BEGIN = Where(PORT, None, *IDENTIFIERS, shift=BEGIN * 1000)
DIGITS = b"0123456789ABCDEF"
TEXT = "".join(f"{line}\n" for line in CONFIGURATION)
FORMS = (
    ("pcap", as_pcap, WHERE),
    ("pcap in pieces", lambda it: as_pcap(it, 11), WHERE),
    ("candump", as_candump, WHERE),
    ("asc", as_asc, FROM_BEGIN),
    ("asc relative", lambda it: as_asc(it, True), FROM_BEGIN),
)


def trace_with_names(
    data: bytes, session: Session, where: Where, using: Programs, ticks: bool = False
) -> tuple[Trace, Names]:
    """The trace of a capture, and the names of its bytes."""
    names = Names()
    exchanges = read_capture(data, where, names)
    monitors = read_monitors(session.monitors)
    return make_trace(TEXT, exchanges, monitors, where, ticks, using), names


class Captures(InFolder):
    """Captures of sessions by chance."""

    def verdict(self, trace: Trace) -> str:
        """What the audit says."""
        return self.programs.run("audit", trace.text()).text.strip()

    def test_a_capture_of_a_right_controller_is_right(self) -> None:
        """Each form of a session gives the same trace, and the audit says yes to it."""
        chance = random.Random(62)
        for _ in range(number(2, 40)):
            session = some_session(chance, self.programs)
            due_calls = len(session.calls)
            texts: dict[bool, set[str]] = {True: set(), False: set()}
            for name, form, where in FORMS:
                trace, _ = trace_with_names(form(session), session, where, self.programs)
                texts["pcap" in name].add(trace.text())
                self.assertEqual(
                    self.verdict(trace), f"yes {len(json.loads(trace.text())['journal'])}"
                )
            self.assertEqual([len(it) for it in texts.values()], [1, 1])
            self.assertGreater(due_calls, 20)

    def test_logs_of_python_can(self) -> None:
        """The logs of its writers, with identifiers of 11 and of 29 bits, give the same trace."""
        python_with("can")
        session = some_session(random.Random(11898), self.programs)
        expected = trace_with_names(as_candump(session), session, WHERE, self.programs)[0].text()
        for wide in (0, 0x18DA0000):
            frames = [(time, wide + it, data.hex()) for time, it, data in can_frames(session)]
            sides = [tuple(wide + it for it in side) for side in IDENTIFIERS]
            # ASC counts its times from the first frame.
            for kind, shift in (("log", 0), ("asc", frames[0][0] * 1000)):
                path = self.folder / f"frames.{kind}"
                run_script("can", "can_writers.py", [str(path)], json.dumps(frames))
                where = Where(PORT, None, *sides, shift=shift)
                made, _ = trace_with_names(path.read_bytes(), session, where, self.programs)
                self.assertEqual(made.text(), expected)

    def test_one_byte_is_changed(self) -> None:
        """The audit says no at the place of the byte's call; or the byte is named as one that
        nobody reads; or the capture is refused by its cause.
        """
        chance = random.Random(63)
        seen: dict[str, int] = {}
        for _ in range(number(1, 40)):
            session = some_session(chance, self.programs)
            for _, form, where in FORMS:
                data = form(session)
                made = trace_with_names(data, session, where, self.programs)
                for _ in range(number(8, 20)):
                    at = chance.randrange(len(data))
                    value = another_value(chance, data[at])
                    kind = self.judge_change(data, at, value, made, session, where)
                    seen[kind] = seen.get(kind, 0) + 1
        for kind in ("named", "found", "refused"):
            self.assertGreater(seen.get(kind, 0), 0, seen)

    def judge_change(
        self,
        data: bytes,
        at: int,
        value: int,
        made: tuple[Trace, Names],
        session: Session,
        where: Where,
    ) -> str:
        """Checks what becomes of a change; returns of which kind it is."""
        changed = data[:at] + bytes([value]) + data[at + 1 :]
        trace, (name, is_read, place) = made[0], name_of(at, *made)
        self.assertTrue(name)
        try:
            other, _ = trace_with_names(changed, session, where, self.programs)
        except CaptureError as error:
            # What nobody reads in a log of text must still have its form, and be digits.
            is_digit = chr(value) in "0123456789ABCDEFabcdef"
            self.assertTrue(is_read or not is_digit or error.cause is Cause.FORM, name)
            return "refused"
        if other.text() == trace.text():
            # A byte of an answer may be written in a log with a small digit as well.
            is_answer = is_read and " answer to " in name
            self.assertFalse(is_answer and chr(changed[at]).upper() != chr(data[at]).upper(), name)
            return "named"
        self.assertTrue(is_read, name)
        verdict = self.verdict(other)
        if " answer to " in name and place is not None:
            self.assertEqual(verdict, f"no {place}", name)
        elif verdict.startswith("yes "):
            # Another capture of a right controller: another request with this answer, another
            # order, or
            # a request less that has no answer.
            return "still right"
        else:
            self.assertRegex(verdict, "^no ", name)
        return "found"

    def test_each_byte_of_an_answer(self) -> None:
        """Each byte of an answer that is changed is found, and due.py says what was due."""
        chance = random.Random(64)
        session = some_session(chance, self.programs, testers="A")
        data = as_pcap(session)
        trace, names = trace_with_names(data, session, WHERE, self.programs)
        named = [name_of(at, trace, names) for at in range(len(data))]
        places = [at for at, it in enumerate(named) if " answer to " in it[0] and it[2] is not None]
        for at in chance.sample(places, min(len(places), number(3, 200))):
            changed = data[:at] + bytes([data[at] ^ chance.randrange(1, 256)]) + data[at + 1 :]
            other, _ = trace_with_names(changed, session, WHERE, self.programs)
            place = name_of(at, trace, names)[2]
            status, lines = judge(other.text().encode(), False, self.programs)
            self.assertEqual((status, lines[0]), (13, f"no {place}"))
            given, right = json.loads(other.text())["answers"], json.loads(trace.text())["answers"]
            self.assertIn(f"  given {given[place]}\n  due   {right[place]}", lines[1])

    def test_all_that_differ(self) -> None:
        """With --all each wrong answer is reported; a save's two calls are in the journal."""
        session = Session([], [])
        text = json.dumps(
            {
                "answers": ["taken", "ignored cycle", "taken", "taken", "59 0A FF", "7E 00"],
                "base": trace_of.base_of(TEXT, self.programs),
                "journal": [
                    "0 cycle 0", "3 fail 0", "0 snapshot", "0 saved 1", "0 t A 19 0A", "0 t A 3E 00"
                ],
                "script": TEXT,
            }
        ).encode()
        self.assertEqual(session.calls, [])
        status, lines = judge(text, True, self.programs)
        self.assertEqual((status, lines[0], lines[-1]), (13, "no 1", "2 of 6 answers are wrong"))
        self.assertEqual(lines[1], "place 1: 3 fail 0\n  given ignored cycle\n  due   taken")
        self.assertIn("given 59 0A FF\n  due   59 0A FF 12 34 56 AF", lines[2])
        for wrong, status in ((b"{", 11), (b"{}", 12)):
            self.assertEqual(judge(wrong, False, self.programs)[0], status)

    def test_a_base_that_cannot_be_made(self) -> None:
        """It is refused by name, and nothing is guessed."""
        base = trace_of.base_of(TEXT, self.programs)
        base[1] = "2F010000" + base[1][8:]
        object_of = {"answers": ["x"], "base": base, "journal": ["0 show 0"], "script": TEXT}
        with self.assertRaises(DueError):
            judge(json.dumps(object_of).encode(), False, self.programs)

    def test_the_traces_of_the_program(self) -> None:
        """A trace of the program is right, and what is due is found after lives with saves."""
        script = TEXT + "cycle 0\nfail 0\nsave\npower\nshow 0\nsave\nt A 19 02 08\n"
        text = self.programs.run("trace", script).printed
        self.assertEqual(judge(text, True, self.programs), (0, ["yes 4"]))
        status, lines = judge(text.replace(b"59 02 FF", b"59 02 7F"), True, self.programs)
        self.assertEqual((status, lines[0]), (13, "no 3"))
        self.assertIn("due   59 02 FF 12 34 56 AF", lines[1])

    def test_ticks_by_the_times(self) -> None:
        """With ticks put in, a session of 5 s of silence ends; without them it does not."""
        calls = [("t A 10 03", "50 03 00 32 01 F4"), ("t A 85 02", "7F 85 7F")]
        times = [BEGIN, BEGIN + 5_000_000]
        session = Session([Call(*it) for it in calls], times)
        for ticks, due_verdict in ((True, "yes 3"), (False, "no 1")):
            trace, _ = trace_with_names(as_pcap(session), session, WHERE, self.programs, ticks)
            self.assertEqual(self.verdict(trace), due_verdict)

    def test_other_services_and_long_requests(self) -> None:
        """Their answers are not judged; a request is read to its 16th byte."""
        calls = [
            ("t A 22 F1 90", "62 F1 90 41"),
            ("t A 2E" + " 41" * 40, "6E 41 41"),
            ("t A 3E 00", "7E 00"),
        ]
        session = Session([Call(*it) for it in calls], [BEGIN, BEGIN + 10, BEGIN + 20])
        trace, names = trace_with_names(as_pcap(session), session, WHERE, self.programs)
        self.assertEqual(self.verdict(trace), "yes 3")
        self.assertEqual(
            trace.notes, ["2 requests of other services: their answers are not judged"]
        )
        data = as_pcap(session)
        self.assertIn(
            "behind those that are read", name_of(data.index(b"A" * 40) + 39, trace, names)[0]
        )
        self.assertIn("does not have", name_of(data.index(b"\x62\xf1\x90A") + 3, trace, names)[0])

    def test_calls_of_the_car_within_a_request(self) -> None:
        """Their order cannot be known, and that is said."""
        rows = [("t A 3E 00", "7E 00"), ("cycle 0", "taken")]
        session = Session([Call(*it) for it in rows], [BEGIN, BEGIN + 1])
        trace, _ = trace_with_names(as_pcap(session), session, WHERE, self.programs)
        self.assertEqual(len(trace.notes), 1)

    def test_the_programs_themselves(self) -> None:
        """trace_of.py and due.py as they are typed."""
        session = some_session(random.Random(5), self.programs)
        files = {"a.pcap": as_pcap(session), "m.csv": session.monitors.encode()}
        for name, data in files.items():
            (self.folder / name).write_bytes(data)
        wrapper = self.folder / "faultmem"
        first, second = self.programs.first[0], self.programs.second[0]
        wrapper.write_text(
            f'#!/bin/sh\ncase $1 in\nrun | check) exec "{first}" "$@" ;;\n'
            f'*) exec "{second}" "$@" ;;\nesac\n'
        )
        wrapper.chmod(0o755)
        words = ["--faultmem", str(wrapper)]
        named = [str(self.configuration), *(str(self.folder / it) for it in files)]
        status, printed = captured(trace_of.main, [*words, *named])
        self.assertEqual(status, 0)
        (self.folder / "t.json").write_text(printed)
        status, printed = captured(due.main, [*words, str(self.folder / "t.json")])
        self.assertEqual((status, printed.split()[0]), (0, "yes"))
        status, printed = captured(trace_of.main, [*words, "--byte", "50", *named])
        self.assertEqual((status, printed), (0, "checksum of IP of packet 1: not read\n"))
        status, _ = captured(trace_of.main, [*words, named[0], named[2], named[2]])
        self.assertEqual(status, 2)


def another_value(chance: random.Random, value: int) -> int:
    """Another value of a byte; of a digit mostly another digit."""
    is_digit = value in DIGITS and chance.randrange(4)
    return chance.choice([it for it in (DIGITS if is_digit else range(256)) if it != value])


def captured(program: object, words: list[str]) -> tuple[int, str]:
    """The status of a program and what it prints."""
    out = io.StringIO()
    with contextlib.redirect_stdout(out), contextlib.redirect_stderr(io.StringIO()):
        status = program(words)  # type: ignore[operator]
    return status, out.getvalue()


class Refusals(unittest.TestCase):
    """Captures and tables that are refused, each by its cause."""

    def setUp(self) -> None:
        """A session without a program."""
        rows = (("t A 3E 00", "7E 00"), ("t B 19 0A", "59 0A FF" + " 12 34 56 2F" * 5))
        self.session = Session([Call(*it) for it in rows], [BEGIN, BEGIN + 1000])

    def refusal(self, data: bytes, where: Where = WHERE) -> Cause:
        """The cause for which a capture is refused."""
        with self.assertRaises(CaptureError) as caught:
            read_capture(data, where, Names())
        return caught.exception.cause

    def test_captures_that_are_none(self) -> None:
        """Files that are none, and streams with holes."""
        whole = as_pcap(self.session)
        self.assertIs(self.refusal(b"nothing"), Cause.FORM)
        self.assertIs(self.refusal(whole[:-1]), Cause.FORM)
        self.assertIs(self.refusal(whole[:20] + struct.pack("<I", 147) + whole[24:]), Cause.LINK)
        at = whole.index(b"\x02\xfd\x80\x01")
        self.assertIs(self.refusal(whole[: at + 1] + b"\xfc" + whole[at + 2 :]), Cause.HEADER)
        self.assertIs(self.refusal(whole[: at + 7] + b"\x09" + whole[at + 8 :]), Cause.SHORT)
        two = whole.replace(bytes.fromhex("0E811000"), bytes.fromhex("0E811001"))
        self.assertIs(self.refusal(two), Cause.ENTITY)
        read_capture(
            two.replace(bytes.fromhex("10000E81"), b"\x10\x01\x0e\x81"),
            Where(PORT, 0x1000),
            Names(),
        )

    def test_a_stream_with_a_hole(self) -> None:
        """A segment is missing: the rest of its stream cannot be read."""
        whole = as_pcap(self.session, 5)
        packets, at = [], 24
        while at < len(whole):
            size = struct.unpack("<I", whole[at + 8 : at + 12])[0]
            packets.append(whole[at : at + 16 + size])
            at += 16 + size
        full = [it for it in range(len(packets)) if len(packets[it]) == 16 + 40 + 5]
        chance = random.Random(8)
        for _ in range(20):
            gone = chance.choice(full)
            left = whole[:24] + b"".join(it for at, it in enumerate(packets) if at != gone)
            self.assertIn(self.refusal(left), (Cause.GAP, Cause.SHORT, Cause.HEADER))
        swapped = packets[:]
        for at in range(3, len(packets) - 1, 2):
            if packets[at][16 + 12 : 16 + 24] == packets[at + 1][16 + 12 : 16 + 24]:
                swapped[at], swapped[at + 1] = swapped[at + 1], swapped[at]
        doubled = [it for packet in swapped for it in (packet, packet)]
        given = read_capture(whole[:24] + b"".join(doubled), WHERE, Names())
        due_exchanges = read_capture(whole, WHERE, Names())
        self.assertEqual(
            [(it.request.piece.data, it.answer and it.answer.piece.data) for it in given],
            [(it.request.piece.data, it.answer and it.answer.piece.data) for it in due_exchanges],
        )

    def test_pcapng(self) -> None:
        """The same packets in a pcapng are the same messages."""
        whole, blocks, at = as_pcap(self.session), [], 24
        for kind, body in (
            (0x0A0D0D0A, struct.pack("<IHHq", 0x1A2B3C4D, 1, 0, -1)),
            (1, struct.pack("<HHIHHB3xHH", 101, 0, 0, 9, 1, 6, 0, 0)),
        ):
            blocks.append(block(kind, body))
        while at < len(whole):
            seconds, fraction, size = struct.unpack("<III", whole[at : at + 12])
            time = seconds * 10**6 + fraction
            head = struct.pack("<IIIII", 0, time >> 32, time & 0xFFFFFFFF, size, size)
            blocks.append(block(6, head + whole[at + 16 : at + 16 + size]))
            at += 16 + size
        given = read_capture(b"".join(blocks), WHERE, Names())
        self.assertEqual(
            [it.request.time for it in given], [it * 1000 for it in self.session.times]
        )

    def test_logs(self) -> None:
        """Frames out of their order, and lines that are none."""
        log = as_candump(self.session)
        self.assertIs(self.refusal(log + b"nothing\n"), Cause.FORM)
        self.assertIs(self.refusal(log.replace(b"#22", b"#23")), Cause.TRANSPORT)
        self.assertIs(self.refusal(log.replace(b"7E0#02", b"7E0#09")), Cause.TRANSPORT)
        lines = log.splitlines(keepends=True)
        self.assertIs(self.refusal(b"".join(lines[:-1])), Cause.SHORT)
        asc = as_asc(self.session)
        self.assertIs(self.refusal(asc + b"nothing\r\n"), Cause.FORM)
        self.assertIs(self.refusal(asc.replace(b"d 8 02", b"d 8 2")), Cause.SHORT)

    def test_answers_without_requests(self) -> None:
        """An answer that comes first, or twice."""
        messages = [it for it in read_capture(as_candump(self.session), WHERE, Names())]
        answer = messages[0].answer
        assert answer is not None
        for wrong in ([answer], [messages[0].request, answer, answer]):
            with self.assertRaises(CaptureError) as caught:
                exchanges_of(wrong)
            self.assertIs(caught.exception.cause, Cause.ANSWER)

    def test_monitors(self) -> None:
        """Rows of another form, and words that are no steps."""
        for row, fault in (
            ("1,cycle 0", Fault.ROW),
            ("x,cycle 0,taken", Fault.ROW),
            ("1,par,taken", Fault.CALL),
            ("1,,taken", Fault.CALL),
        ):
            with self.assertRaises(TraceError) as caught:
                read_monitors(f"time,call,answer\n{row}\n")
            self.assertIs(caught.exception.fault, fault)
        self.assertEqual(first_word(read_monitors("0.5, cycle  0 ,taken\n")[0].call), "cycle")


def block(kind: int, body: bytes) -> bytes:
    """A block of pcapng."""
    padded = body + bytes(-len(body) % 4)
    size = struct.pack("<I", len(padded) + 12)
    return struct.pack("<I", kind) + size + padded + size


if __name__ == "__main__":
    unittest.main()
