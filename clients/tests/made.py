"""Captures that the tests make: a session by chance, written in each of the forms."""

from __future__ import annotations

import io
import random
from collections.abc import Iterator
from dataclasses import dataclass

import programs
from pcap import Sessions
from programs import Programs
from script import Call, lives_of
from tests.common import CONFIGURATION, some_monitor_call, some_request
from wire import acknowledged, activation, activation_answer, Activation, diagnostic

BEGIN = 1_700_000_000_000_000
ENTITY = 0x1000
PORT = 13400


@dataclass
class Session:
    """The calls of a session with their answers, and their times in microseconds."""

    calls: list[Call]
    times: list[int]

    @property
    def monitors(self) -> str:
        """The table of the car's side."""
        rows = [
            f"{time // 10**6}.{time % 10**6:06},{it.call},{it.answer}\n"
            for it, time in zip(self.calls, self.times)
            if not it.call.startswith("t ")
        ]
        return "time,call,answer\n" + "".join(rows)

    def requests(self) -> Iterator[tuple[int, int, bytes, bytes | None]]:
        """Each request: its time, the number of its tester, its bytes, and those of the answer."""
        for it, time in zip(self.calls, self.times):
            if it.call.startswith("t "):
                _, tester, data = it.call.split(" ", 2)
                answer = None if it.answer == "silent" else bytes.fromhex(it.answer)
                yield time, "ABCD".index(tester), bytes.fromhex(data), answer


def some_session(
    chance: random.Random, using: Programs, steps: int = 25, testers: str = "ABCD"
) -> Session:
    """A session by chance with the answers of `run`; now and then with two lives."""
    lines = ["cycle 0"]
    power = chance.choice((None, steps // 2))
    for at in range(steps):
        if at == power:
            lines += ["save", "power", "cycle 0"]
        request = f"t {chance.choice(testers)} {some_request(chance).hex(' ').upper()}"
        lines.append(chance.choice((request, some_monitor_call(chance))))
    lives = lives_of(using.run("run", programs.lines_of([*CONFIGURATION, *lines])).text)
    calls = lives[0].calls
    for life in lives[1:]:
        calls += [Call("power", ""), *life.calls]
    times, now = [], BEGIN
    for _ in calls:
        now += chance.randrange(5, 50) * 1000
        times.append(now)
    return Session(calls, times)


def as_pcap(session: Session, pieces: int = 1400) -> bytes:
    """DoIP over TCP: a connection for each tester, messages in segments of this many bytes."""
    file = io.BytesIO()
    sessions = Sessions(file)
    known: set[int] = set()
    for time, tester, data, answer in session.requests():
        source, port = 0x0E80 + tester, 50_000 + tester

        def note(stamp: int, message: bytes, by_tester: bool, port: int = port) -> None:
            for at in range(0, len(message), pieces):
                sessions.note(stamp, port, PORT, message[at : at + pieces], by_tester)

        if tester not in known:
            known.add(tester)
            note(time - 2, activation(source).encoded(), True)
            note(time - 1, activation_answer(source, ENTITY, Activation.ACTIVATED).encoded(), False)
        note(time, diagnostic(source, ENTITY, data).encoded(), True)
        note(time + 1, acknowledged(ENTITY, source, None).encoded(), False)
        if answer is not None:
            note(time + 2, diagnostic(ENTITY, source, answer).encoded(), False)
    return file.getvalue()


def frames_of(data: bytes) -> Iterator[bytes]:
    """The frames of ISO-TP of a message, padded with AA."""
    if len(data) <= 7:
        yield (bytes([len(data)]) + data).ljust(8, b"\xaa")
        return
    yield bytes([0x10 | len(data) >> 8, len(data) & 0xFF]) + data[:6]
    for at, start in enumerate(range(6, len(data), 7), 1):
        yield (bytes([0x20 | at % 16]) + data[start : start + 7]).ljust(8, b"\xaa")


def can_frames(session: Session) -> Iterator[tuple[int, int, bytes]]:
    """Time, identifier and bytes of each frame, with a flow control after each first frame."""
    for time, tester, data, answer in session.requests():
        for identifier, message in ((0x7E0 + tester, data), (0x7E8 + tester, answer)):
            for frame in frames_of(message) if message is not None else ():
                yield time, identifier, frame
                time += 1
                if frame[0] >> 4 == 1:
                    yield time, identifier ^ 8, b"\x30\0\0".ljust(8, b"\xaa")
                    time += 1


def as_candump(session: Session) -> bytes:
    """candump's log."""
    rows = [
        f"({time // 10**6}.{time % 10**6:06}) can0 {identifier:03X}#{data.hex().upper()}\n"
        for time, identifier, data in can_frames(session)
    ]
    return "".join(rows).encode()


def as_asc(session: Session, is_relative: bool = False) -> bytes:
    """Vector's ASC, with times from the beginning of the measurement, or from the line before."""
    kind = "relative" if is_relative else "absolute"
    rows = [
        "date Tue Nov 14 10:13:20.000 PM 2023",
        f"base hex  timestamps {kind}",
        "internal events logged",
    ]
    rows += [
        "// version 9.0.0",
        "Begin Triggerblock Tue Nov 14 10:13:20.000 PM 2023",
        "   0.000000 Start of measurement",
    ]
    last = BEGIN
    for time, identifier, data in can_frames(session):
        shown = (time - last if is_relative else time - BEGIN) / 10**6
        last = time
        rows.append(f"{shown:11.6f} 1  {identifier:<15X} Rx   d 8 {data.hex(' ').upper()}")
    return "\r\n".join([*rows, "End TriggerBlock", ""]).encode()
