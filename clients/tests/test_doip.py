"""Tests doip.py: its messages and refusals, the clock, and a session beside `run`."""

from __future__ import annotations

import contextlib
import io
import os
import random
import signal
import socket
import struct
import time
import unittest
from dataclasses import dataclass, replace
from pathlib import Path

import ask
import doip
from capture import Names, exchanges_of
from doip_capture import DoipCapture
from ecu import Ecu, Records, Stamps, TableError, read_answers
from entity import MOST_SOCKETS, ON_UDP, Entity, Settings
from live import Ended, Live
from programs import Programs
from script import lives_of
from tests.common import (
    CONFIGURATION,
    InFolder,
    number,
    some_monitor_call,
    some_request,
    with_stand_in,
)
from tests.others import Frame, capture_of_datagrams, complaints, frames_of_capture, tool
from tests.serving import Serving
from tests.tester import ENTITY, CarSide, Connection, Running, datagram
from wire import HEADER, MOST_BODY, MOST_REQUEST, Activation, HeaderFault, Kind, Message, Nack
from wire import Stream, diagnostic, of_datagram

FREE = Settings(port=0, car_port=0, alive_seconds=0.2)
TABLE = f"""# what a workshop tester asks first
22 F1 90 -> 62 F1 90 {FREE.vin.hex(' ')}
22 F1 89 -> 62 F1 89 31 2E 30
11 01 -> 51 01 ; save ; power
"""


class Clock:
    """A clock that is set by hand."""

    def __init__(self) -> None:
        """Begins at 0."""
        self.now = 0.0

    def __call__(self) -> float:
        """The time."""
        return self.now


class OverTheEntity(InFolder):
    """Tests that talk to an entity."""

    def start(
        self,
        settings: Settings = FREE,
        answers: str = "",
        clock: Clock | None = None,
        records: Records | None = None,
        capture: io.BytesIO | None = None,
        using: Programs | None = None,
    ) -> Running:
        """Starts an entity over a new memory; both are ended after the test."""
        memory = Live.start(self.configuration, using=using or self.programs)
        self.addCleanup(memory.close)
        ecu = Ecu(memory, read_answers(answers), clock, records)
        running = Running(Entity(ecu, settings, capture))
        running.__enter__()
        self.addCleanup(running.__exit__, None, None, None)
        return running

    def connect(self, running: Running, source: int = 0x0E80, activates: bool = True) -> Connection:
        """A connection, whose routing is activated."""
        connection = Connection(running.ports[0], source)
        self.addCleanup(connection.close)
        if activates:
            self.assertIs(connection.activate(), Activation.ACTIVATED)
        return connection

    def car_of(self, running: Running) -> CarSide:
        """The car's side."""
        car = CarSide(running.ports[2])
        self.addCleanup(car.close)
        return car


class Identification(OverTheEntity):
    """The messages over UDP."""

    def test_the_vehicle_is_identified(self) -> None:
        """Each request is answered by the announcement, and another vehicle's by nothing."""
        running = self.start()
        due = FREE.announcement().encoded()
        self.assertEqual(len(due), 8 + 33)
        eid, vin = FREE.eid, FREE.vin
        for kind, body in ((1, b""), (2, eid), (3, vin)):
            for version in (2, 3, 0xFF):
                asked = HEADER.pack(version, version ^ 0xFF, kind, len(body)) + body
                self.assertEqual(datagram(running.ports[1], asked), due)
        for kind, body in (
            (Kind.IDENTIFICATION_BY_EID, eid[::-1]),
            (Kind.IDENTIFICATION_BY_VIN, vin[::-1]),
        ):
            self.assertIsNone(datagram(running.ports[1], Message(kind, body).encoded(), 0.2))

    def test_the_datagrams_are_dissected(self) -> None:
        """tshark complains of none, and finds each kind."""
        tool("tshark")
        running = self.start()
        datagrams = []
        for kind, body in ((1, b""), (2, FREE.eid), (3, FREE.vin), (0x4001, b""), (0x4003, b"")):
            asked = Message(Kind(kind), body).encoded()
            answer = datagram(running.ports[1], asked)
            assert answer is not None
            datagrams += [(True, asked), (False, answer)]
        port = running.ports[1]
        frames = frames_of_capture(capture_of_datagrams(datagrams, port), port)
        self.assertEqual(complaints(frames), [])
        due = [1, 4, 2, 4, 3, 4, 0x4001, 0x4002, 0x4003, 0x4004]
        self.assertEqual([it.kind for it in frames], due)

    def test_status_and_power_mode(self) -> None:
        """The entity says how many sockets it has, how many are activated, and that it is ready."""
        running = self.start()
        self.connect(running)
        asked = Message(Kind.STATUS, b"").encoded()
        body = struct.pack("!BBBI", 1, 4, 1, MOST_BODY)
        self.assertEqual(
            datagram(running.ports[1], asked), Message(Kind.STATUS_ANSWER, body).encoded()
        )
        asked = Message(Kind.POWER_MODE, b"").encoded()
        self.assertEqual(
            datagram(running.ports[1], asked), Message(Kind.POWER_MODE_ANSWER, b"\1").encoded()
        )

    def test_a_malformed_datagram_has_its_code(self) -> None:
        """The codes of the header."""
        running = self.start()
        rows = (
            (b"", HeaderFault.PATTERN),
            (b"\2\xfd\0", HeaderFault.PATTERN),
            (HEADER.pack(2, 0xFC, 1, 0), HeaderFault.PATTERN),
            (HEADER.pack(4, 0xFB, 1, 0), HeaderFault.PATTERN),
            (HEADER.pack(2, 0xFD, 0x8001, 0), HeaderFault.UNKNOWN_KIND),
            (HEADER.pack(2, 0xFD, 1, MOST_BODY + 1), HeaderFault.TOO_LARGE),
            (HEADER.pack(2, 0xFD, 1, 1) + b"x", HeaderFault.LENGTH),
            (HEADER.pack(2, 0xFD, 2, 6) + b"x", HeaderFault.LENGTH),
        )
        for data, fault in rows:
            if data:
                due = Message(Kind.HEADER_NACK, bytes([fault])).encoded()
                self.assertEqual(datagram(running.ports[1], data), due)
            self.assertIs(of_datagram(data, ON_UDP), fault)


class Activations(OverTheEntity):
    """Routing activation and alive checks."""

    def test_each_code(self) -> None:
        """Unknown sources and kinds are refused, the same source again is not, another one is."""
        running = self.start()
        for source, kind, code in (
            (0x0DFF, 0, Activation.UNKNOWN_SOURCE),
            (0x1000, 0, Activation.UNKNOWN_SOURCE),
            (0x0E80, 2, Activation.UNSUPPORTED_TYPE),
            (0x0E80, 0xE0, Activation.UNSUPPORTED_TYPE),
        ):
            connection = self.connect(running, source, activates=False)
            self.assertIs(connection.activate(kind), code)
            self.assertIsNone(connection.read())
        connection = self.connect(running, activates=False)
        self.assertIs(connection.activate(1), Activation.ACTIVATED)
        self.assertIs(connection.activate(), Activation.ACTIVATED)
        self.assertIs(connection.activate(source=0x0E81), Activation.OTHER_SOURCE)
        self.assertIsNone(connection.read())

    def test_a_source_that_is_alive_keeps_its_socket(self) -> None:
        """A second connection of a source is refused if the first answers the alive check."""
        running = self.start()
        first, second = self.connect(running), self.connect(running, activates=False)
        second.send(bytes.fromhex("02FD0005000000070E800000000000"))
        self.assertEqual(first.kinds(1), [Kind.ALIVE_CHECK])
        first.send(Message(Kind.ALIVE, struct.pack("!H", 0x0E80)))
        answer = second.read()
        self.assertEqual(answer and answer.body[4], Activation.SOURCE_IN_USE)
        self.assertIsNone(second.read())
        self.assertEqual(first.ask(b"\x3e\x00"), b"\x7e\x00")

    def test_a_source_that_is_silent_loses_its_socket(self) -> None:
        """Without an answer in time the first connection is closed, and the second is activated."""
        running = self.start()
        first, second = self.connect(running), self.connect(running, activates=False)
        self.assertIs(second.activate(), Activation.ACTIVATED)
        self.assertEqual(first.kinds(2), [Kind.ALIVE_CHECK, None])
        self.assertEqual(second.ask(b"\x3e\x00"), b"\x7e\x00")

    def test_an_alive_check_of_another_source_closes(self) -> None:
        """It is none of this socket's."""
        connection = self.connect(self.start())
        connection.send(Message(Kind.ALIVE, struct.pack("!H", 0x0E81)))
        self.assertIsNone(connection.read())

    def test_sockets_and_sources_are_few(self) -> None:
        """With all sockets taken a further source is refused; so is a fifth one at any time."""
        running = self.start(Settings(port=0, car_port=0, sockets=1, alive_seconds=0.2))
        first, second = self.connect(running), self.connect(running, 0x0E81, activates=False)
        second.send(bytes.fromhex("02FD0005000000070E810000000000"))
        self.assertEqual(first.kinds(1), [Kind.ALIVE_CHECK])
        first.send(Message(Kind.ALIVE, struct.pack("!H", 0x0E80)))
        answer = second.read()
        self.assertEqual(answer and answer.body[4], Activation.NO_SOCKET)
        running = self.start()
        for source in range(0x0E80, 0x0E84):
            self.connect(running, source)
        fifth = self.connect(running, 0x0E84, activates=False)
        self.assertIs(fifth.activate(), Activation.UNKNOWN_SOURCE)

    def test_named_sources_are_the_testers(self) -> None:
        """With sources named no other one is activated."""
        running = self.start(Settings(port=0, car_port=0, testers=(0x0EF0, 0x0EF1)))
        self.connect(running, 0x0EF1)
        other = self.connect(running, 0x0E80, activates=False)
        self.assertIs(other.activate(), Activation.UNKNOWN_SOURCE)

    def test_a_silent_connection_is_closed(self) -> None:
        """Without an activation after its time, with one after another."""
        settings = Settings(port=0, car_port=0, initial_seconds=0.2, idle_seconds=0.6)
        running = self.start(settings)
        began = time.monotonic()
        never, activated = self.connect(running, activates=False), self.connect(running)
        self.assertIsNone(never.read())
        self.assertGreater(time.monotonic() - began, 0.1)
        self.assertIsNone(activated.read())
        self.assertGreater(time.monotonic() - began, 0.5)

    def test_connections_beyond_the_most_are_closed(self) -> None:
        """The entity goes on with the others."""
        running = self.start()
        kept = [self.connect(running, activates=False) for _ in range(MOST_SOCKETS)]
        self.assertIsNone(self.connect(running, activates=False).read())
        self.assertIs(kept[0].activate(), Activation.ACTIVATED)


class Diagnostics(OverTheEntity):
    """Diagnostic messages."""

    def test_requests_are_acknowledged_and_answered(self) -> None:
        """A response comes after the acknowledge, positive or negative, if not suppressed."""
        running = self.start()
        car, tester = self.car_of(running), self.connect(running)
        self.assertEqual([car.ask(it) for it in ("cycle 0", "fail 0")], ["taken", "taken"])
        self.assertEqual(tester.ask(bytes.fromhex("190208")), bytes.fromhex("5902FF123456AF"))
        tester.send_request(bytes.fromhex("3E80"))
        self.assertIsNone(tester.read_acknowledge())
        self.assertEqual(tester.ask(bytes.fromhex("2701")), bytes.fromhex("7F2711"))
        self.assertEqual(tester.ask(b"\x2e\xf1\x90" + bytes(4000)), bytes.fromhex("7F2E11"))
        self.assertEqual(car.ask("nothing"), "refused word")
        self.assertEqual(car.ask("x" * 600), "refused long")
        self.assertEqual(car.ask("# nothing"), "")

    def test_each_negative_acknowledge(self) -> None:
        """Its cause is its code; an invalid source closes the connection."""
        running = self.start(using=with_stand_in(self.programs))
        tester = self.connect(running)
        tester.send(diagnostic(0x0E80, 0x1001, b"\x3e\x00"))
        self.assertIs(tester.read_acknowledge(), Nack.UNKNOWN_TARGET)
        tester.send_request(bytes(MOST_REQUEST + 1))
        self.assertIs(tester.read_acknowledge(), Nack.TOO_LARGE)
        car = self.car_of(running)
        self.assertEqual(car.ask("save"), "1")
        self.assertEqual(car.ask("mute 0 0 3"), "armed")
        self.assertEqual(car.ask("power"), "life 2 dark")
        tester.send_request(b"\x3e\x00")
        self.assertIs(tester.read_acknowledge(), Nack.UNREACHABLE)
        self.assertEqual(car.ask("power"), "life 3 generation 1")
        self.assertEqual(tester.ask(b"\x3e\x00"), b"\x7e\x00")
        never = self.connect(running, activates=False)
        for it, source in ((tester, 0x0E81), (never, 0x0E80)):
            it.source = source
            it.send_request(b"\x3e\x00")
            self.assertIs(it.read_acknowledge(), Nack.INVALID_SOURCE)
            self.assertIsNone(it.read())

    def test_malformed_headers(self) -> None:
        """Each has its code; where the end of the message is known the connection stays."""
        running = self.start()
        tester = self.connect(running)
        big = MOST_BODY + 100_000
        for data, fault in (
            (HEADER.pack(2, 0xFD, 0x1234, 3) + b"abc", HeaderFault.UNKNOWN_KIND),
            (HEADER.pack(2, 0xFD, 0x8001, big) + bytes(big), HeaderFault.TOO_LARGE),
        ):
            tester.send(data)
            answer = tester.read()
            self.assertEqual(answer, Message(Kind.HEADER_NACK, bytes([fault])))
        self.assertEqual(tester.ask(b"\x3e\x00"), b"\x7e\x00")
        for data, fault in (
            (HEADER.pack(2, 0xFC, 0x8001, 6) + bytes(6), HeaderFault.PATTERN),
            (HEADER.pack(2, 0xFD, 0x8001, 4) + bytes(4), HeaderFault.LENGTH),
        ):
            tester = self.connect(running, activates=False)
            tester.send(data + b"behind")
            self.assertEqual(tester.read(), Message(Kind.HEADER_NACK, bytes([fault])))
            self.assertIsNone(tester.read())

    def test_messages_in_pieces(self) -> None:
        """A message may come byte by byte, and two in one."""
        tester = self.connect(self.start())
        data = diagnostic(0x0E80, ENTITY, b"\x3e\x00").encoded()
        for at in range(len(data)):
            tester.send(data[at : at + 1])
        self.assertIsNone(tester.read_acknowledge())
        self.assertEqual(tester.read_response(), b"\x7e\x00")
        tester.send(data + data)
        self.assertEqual(tester.kinds(4), [Kind.ACK, Kind.DIAGNOSTIC] * 2)

    def test_a_response_comes_behind_its_pause(self) -> None:
        """The acknowledge comes at once, and another tester is served meanwhile. What is sent
        after a response stays after it, and the end of a connection waits for none.
        """
        running = self.start(replace(FREE, pause_seconds=0.4))
        tester, other = self.connect(running), self.connect(running, 0x0E81)
        began = time.monotonic()
        tester.send_request(b"\x3e\x00")
        tester.send_request(b"\x3e\x80")
        self.assertIsNone(tester.read_acknowledge())
        other.send_request(b"\x3e\x80")
        self.assertIsNone(other.read_acknowledge())
        self.assertEqual(tester.read_response(), b"\x7e\x00")
        self.assertGreaterEqual(time.monotonic() - began, 0.4)
        self.assertIsNone(tester.read_acknowledge())
        tester.send_request(b"\x3e\x00")
        tester.socket.shutdown(socket.SHUT_WR)
        self.assertEqual(tester.kinds(3), [Kind.ACK, Kind.DIAGNOSTIC, None])

    def test_four_testers_have_sessions_of_their_own(self) -> None:
        """A session and a hold belong to one source."""
        running = self.start()
        testers = [self.connect(running, 0x0E80 + it) for it in range(4)]
        self.assertEqual(testers[3].ask(b"\x10\x03"), bytes.fromhex("5003003201F4"))
        for it in testers[:3]:
            self.assertEqual(it.ask(b"\x85\x02"), bytes.fromhex("7F857F"))
        self.assertEqual(testers[3].ask(b"\x85\x02"), b"\xc5\x02")

    def test_noise_never_ends_the_entity(self) -> None:
        """Bytes by chance on all three ports, and a good request after them."""
        running = self.start()
        chance = random.Random(13400)
        for _ in range(number(6, 200)):
            data = chance.randbytes(chance.randrange(1, 60))
            if chance.randrange(2):
                data = HEADER.pack(2, 0xFD, chance.choice(list(Kind)), chance.randrange(20)) + data
            with socket.create_connection(("127.0.0.1", running.ports[0])) as noisy:
                noisy.sendall(data)
            with socket.create_connection(("127.0.0.1", running.ports[2])) as noisy:
                noisy.sendall(data.replace(b"\n", b"x"))
            datagram(running.ports[1], data, 0.001)
        time.sleep(0.3)
        self.assertEqual(self.connect(running).ask(b"\x3e\x00"), b"\x7e\x00")

    def test_the_end_of_the_memory_ends_the_entity(self) -> None:
        """A damaged image refuses the next life: the entity ends with this status."""
        running = self.start()
        car = self.car_of(running)
        car.ask("cycle 0")
        ended = Ended(6, "life 2 refused")

        def step(line: str) -> str:
            raise ended

        running.entity._ecu._memory.step = step  # type: ignore[method-assign]
        self.assertEqual(car.ask("power"), "")
        running.__exit__(None, None, None)
        self.assertIs(running.end, ended)


class TimeAndTable(OverTheEntity):
    """The clock, and the fixed answers."""

    def test_s3_runs_out_by_the_clock(self) -> None:
        """5 s of silence end a session, and 4.99 s do not."""
        clock = Clock()
        running = self.start(clock=clock)
        tester = self.connect(running)
        tester.ask(b"\x10\x03")
        clock.now += 4.99
        self.assertEqual(tester.ask(b"\x85\x02"), b"\xc5\x02")
        clock.now += 5.0
        self.assertEqual(tester.ask(b"\x85\x02"), bytes.fromhex("7F857F"))
        clock.now += 1_000.0
        self.assertEqual(tester.ask(b"\x3e\x00"), b"\x7e\x00")

    def test_other_services_by_the_table(self) -> None:
        """A fixed answer is given, and its steps are made; own services are not touched."""
        table = TABLE + "19 0A -> 59\n22 00 01 -> silent\n"
        journal = io.StringIO()
        running = self.start(answers=table, records=Records(Stamps(), "", journal))
        car, tester = self.car_of(running), self.connect(running)
        self.assertEqual(tester.ask(bytes.fromhex("22F190")), bytes.fromhex("62F190") + FREE.vin)
        self.assertEqual(tester.ask(bytes.fromhex("22F191")), bytes.fromhex("7F2211"))
        self.assertEqual(len(tester.ask(bytes.fromhex("190A"))), 3 + 4 * 3)
        tester.send_request(bytes.fromhex("220001"))
        self.assertIsNone(tester.read_acknowledge())
        car.ask("cycle 0")
        car.ask("fail 0")
        self.assertEqual(tester.ask(b"\x11\x01"), b"\x51\x01")
        self.assertTrue(car.ask("show 0").startswith("status AF fdc 0 "))
        self.assertIn("t A 11 01\nsave\npower\n", journal.getvalue())

    def test_s3_is_kept_by_other_services(self) -> None:
        """A request with a fixed answer restarts the silent time as any other does."""
        clock = Clock()
        running = self.start(answers=TABLE, clock=clock)
        tester = self.connect(running)
        tester.ask(b"\x10\x03")
        for _ in range(3):
            clock.now += 4.0
            tester.ask(bytes.fromhex("22F190"))
        self.assertEqual(tester.ask(b"\x85\x02"), b"\xc5\x02")

    def test_a_wrong_table_is_refused(self) -> None:
        """Each fault names its line."""
        for line in ("22 F1 90", "-> 62", "22 F1 -> 6", "2 -> 62", "22 -> ", "22 -> 62\n22 -> 63"):
            with self.assertRaises(TableError):
                read_answers(f"# a table\n\n{line}\n")


@dataclass
class Played:
    """A session: the calls with their answers, its journal, its capture and the entity's port."""

    given: list[tuple[str, str]]
    script: str
    capture: bytes
    port: int


class BesideRun(OverTheEntity):
    """A session by chance is, byte for byte, what `run` gives for the same calls."""

    def play(self, requests: int) -> Played:
        """Plays a session of this many requests of four testers, with steps of the car between."""
        chance = random.Random(14229)
        journal, capture, clock = io.StringIO(), io.BytesIO(), Clock()
        text = "".join(f"{line}\n" for line in CONFIGURATION)
        running = self.start(clock=clock, records=Records(Stamps(), text, journal), capture=capture)
        car = self.car_of(running)
        testers = [self.connect(running, 0x0E80 + it) for it in range(4)]
        given: list[tuple[str, str]] = []
        frames = 0
        while frames < requests:
            clock.now += chance.choice((0.0, 0.01, 0.5, 4.0))
            if chance.randrange(2):
                line = chance.choice((some_monitor_call(chance), "save", "power"))
                given.append((line, car.ask(line)))
            else:
                at, request = chance.randrange(4), some_request(chance)
                given.append(self.asked(testers[at], "ABCD"[at], request))
                frames += 1
        return Played(given, journal.getvalue(), capture.getvalue(), running.ports[0])

    def test_a_session(self) -> None:
        """The journal of the entity is run, and each answer compared with that of the report."""
        requests = number(180, 500)
        played = self.play(requests)
        self.assertGreater(played.capture.count(HEADER.pack(2, 0xFD, 0, 0)[:2]), 500)
        report = self.programs.run("run", played.script)
        due = [
            row
            for life in lives_of(report.text)
            for row in [("power", life.begins), *((it.call, it.answer) for it in life.calls)]
        ][1:]
        made = [row for row in due if not row[0].startswith("tick ")]
        self.assertEqual([row for row in played.given if not row[0].startswith("tick ")], made)
        self.assertEqual(played.script.count("\nt "), requests)

    def test_a_session_is_dissected(self) -> None:
        """tshark complains of no frame, and finds each message and each service."""
        tool("tshark")
        played = self.play(number(60, 500))
        self.check_dissected(played.capture, played.port)

    def test_each_kind_of_message_is_dissected(self) -> None:
        """The same of alive checks, refusals, messages of several segments, and a port again."""
        tool("tshark")
        capture, settings = io.BytesIO(), replace(FREE, alive_seconds=0.1)
        running = self.start(settings, capture=capture)
        first, second = self.connect(running), self.connect(running, activates=False)
        self.assertIs(second.activate(), Activation.ACTIVATED)
        self.assertEqual(first.kinds(2), [Kind.ALIVE_CHECK, None])
        second.send(diagnostic(0x0E80, ENTITY + 1, b"\x3e\x00"))
        self.assertIs(second.read_acknowledge(), Nack.UNKNOWN_TARGET)
        self.assertEqual(second.ask(b"\x2e\xf1\x90" + bytes(4000)), bytes.fromhex("7F2E11"))
        second.send(HEADER.pack(2, 0xFD, 0x1234, 3) + b"abc")
        self.assertEqual(second.kinds(1), [Kind.HEADER_NACK])
        second.send(Message(Kind.ALIVE, struct.pack("!H", 0x0E80)))
        port = 0
        for _ in range(3):
            again = socket.socket()
            # The end of a connection from this side is a reset, so that its port is free at once.
            again.setsockopt(socket.SOL_SOCKET, socket.SO_LINGER, struct.pack("ii", 1, 0))
            again.bind(("127.0.0.1", port))
            again.connect(("127.0.0.1", running.ports[0]))
            port = again.getsockname()[1]
            tester = Connection.of_socket(again, 0x0E81)
            self.assertIs(tester.activate(), Activation.ACTIVATED)
            self.assertEqual(tester.ask(b"\x3e\x00"), b"\x7e\x00")
            tester.close()
        running.__exit__(None, None, None)
        frames = self.check_dissected(capture.getvalue(), running.ports[0])
        kinds = {Kind.HEADER_NACK, Kind.ACTIVATION, Kind.ACTIVATION_ANSWER, Kind.ALIVE_CHECK}
        kinds |= {Kind.ALIVE, Kind.DIAGNOSTIC, Kind.ACK, Kind.NACK}
        self.assertEqual({it.kind for it in frames if it.kind is not None}, kinds)

    def check_dissected(self, capture: bytes, port: int) -> list[Frame]:
        """Checks what tshark makes of a capture; returns the frames."""
        frames = frames_of_capture(capture, port)
        self.assertEqual(complaints(frames), [])
        with_data = [it for it in frames if it.payload]
        self.assertTrue(with_data)
        for it in with_data:
            # The first segments of a long message are full, and the last one has the whole.
            self.assertTrue("doip" in it.protocols or len(it.payload) == 1400, it)
        found = [it for it in frames if it.kind == Kind.DIAGNOSTIC]
        sent = exchanges_of(DoipCapture(Names(), port, ENTITY).messages(capture))
        for it in found:
            self.assertIn("uds", it.protocols, it)
        asked = [it.sid for it in found if it.target == ENTITY]
        self.assertEqual(asked, [it.request.piece.data[0] & 0xBF for it in sent])
        answered = [it.sid for it in found if not it.by_tester]
        due = [it.answer.piece.data[0] & 0xBF for it in sent if it.answer]
        self.assertEqual(sorted(answered), sorted(due))
        return frames

    def asked(self, tester: Connection, letter: str, request: bytes) -> tuple[str, str]:
        """Sends a request; returns it as a step, with its answer as a report has it."""
        tester.send_request(request)
        self.assertIsNone(tester.read_acknowledge())
        is_silent = len(request) == 2 and request[1] & 0x80 and self.is_silent(tester)
        answer = "silent" if is_silent else tester.read_response().hex(" ").upper()
        return f"t {letter} {request.hex(' ').upper()}", answer

    def is_silent(self, tester: Connection) -> bool:
        """Whether nothing comes before the answer to a routing activation asked after it."""
        tester.send(bytes.fromhex("02FD000500000007") + struct.pack("!H", tester.source) + bytes(5))
        answer = tester.read()
        assert answer is not None
        if answer.kind == Kind.ACTIVATION_ANSWER:
            return True
        tester._got.insert(0, answer)
        second = tester._got.pop(0), tester.read()
        assert second[1] is not None and second[1].kind == Kind.ACTIVATION_ANSWER
        tester._got.insert(0, second[0])
        return False


class SmallTester(OverTheEntity):
    """ask.py against the entity."""

    def asked(self, *words: str) -> tuple[int, list[str]]:
        """The status of ask.py and the lines that it prints."""
        with contextlib.redirect_stdout(io.StringIO()) as out:
            with contextlib.redirect_stderr(io.StringIO()):
                status = ask.main(words)
        return status, out.getvalue().splitlines()

    def test_it_asks_and_is_refused(self) -> None:
        """Requests, steps of the car, words, and what the entity refuses."""
        running = self.start()
        ports = ("--port", str(running.ports[0]), "--car-port", str(running.ports[2]))
        status, lines = self.asked(*ports, "--car", "cycle 0", "nothing")
        self.assertEqual((status, lines), (0, ["cycle 0 -> taken", "nothing -> refused word"]))
        status, lines = self.asked(*ports, "--words", "--wait", "0.2", "3e00", "3E 80", "27 01")
        self.assertEqual(lines[:3], ["3E 00 -> 7E 00", "3E 80 -> silent", "27 01 -> 7F 27 11"])
        self.assertEqual((status, lines[3].strip()), (0, "service 27: serviceNotSupported"))
        self.assertEqual(self.asked(*ports, "3E 0"), (2, []))
        self.assertEqual(self.asked(*ports, "--source", "1234", "3E 00"), (69, []))


class Program(Serving):
    """The program itself."""

    def test_it_serves_and_ends(self) -> None:
        """A session with files, and an end by a signal with status 0."""
        names = ("journal.script", "monitors.csv", "session.pcap")
        files = [str(self.folder / name) for name in names]
        words = [it for pair in zip(("--journal", "--monitors", "--capture"), files) for it in pair]
        process, ports = self.start(*words)
        tester, car = Connection(ports[0]), CarSide(ports[2])
        self.assertIs(tester.activate(), Activation.ACTIVATED)
        self.assertEqual(car.ask("cycle 0"), "taken")
        self.assertEqual(tester.ask(b"\x3e\x00"), b"\x7e\x00")
        tester.close()
        car.close()
        self.end(process)
        self.assertEqual(process.returncode, 0)
        self.assertIn("cycle 0\n", Path(files[0]).read_text(encoding="ascii"))
        self.assertIn(",cycle 0,taken\n", Path(files[1]).read_text(encoding="ascii"))
        self.assertGreater(Path(files[2]).stat().st_size, 500)


    def test_an_interrupt_of_a_terminal_ends_it(self) -> None:
        """A signal to all processes of its group ends it with status 0, behind a last answer."""
        process, ports = self.start()
        car = CarSide(ports[2])
        self.assertEqual(car.ask("cycle 0"), "taken")
        os.killpg(process.pid, signal.SIGINT)
        self.assertEqual(process.wait(20), 0)
        car.close()

    def test_words_that_are_refused(self) -> None:
        """Ports and addresses that are none, and files that are not there."""
        name = str(self.configuration)
        for words, status in (
            ((), 2),
            ((name, "--port", "65536"), 2),
            ((name, "--car-port", "-1"), 2),
            ((name, "--pause", "x"), 2),
            ((name, "--vin", "1"), 2),
            ((name, "--testers", "10"), 2),
            ((name, "--testers", "E80", "E80"), 2),
            ((f"{name}.none",), 69),
            ((name, "--answers", f"{name}.none"), 69),
            ((name, "--faultmem", f"{name}.none"), 69),
        ):
            with contextlib.redirect_stderr(io.StringIO()):
                try:
                    found: object = doip.main(words)
                except SystemExit as end:
                    found = end.code
            self.assertEqual(found, status, words)


class Streams(unittest.TestCase):
    """The messages of a stream, without sockets."""

    def test_a_stream_keeps_little(self) -> None:
        """However long a refused message is, its bytes are not kept."""
        stream = Stream(frozenset(Kind), 100)
        self.assertEqual(
            list(stream.feed(HEADER.pack(2, 0xFD, 0x8001, 1 << 31))), [HeaderFault.TOO_LARGE]
        )
        for _ in range(50):
            self.assertEqual(list(stream.feed(bytes(10_000))), [])
            self.assertEqual(len(stream._kept), 0)

    def test_any_cut_of_a_stream(self) -> None:
        """Messages are the same wherever the bytes are cut."""
        chance = random.Random(3)
        messages = [diagnostic(1, 2, chance.randbytes(chance.randrange(1, 40))) for _ in range(30)]
        data = b"".join(it.encoded() for it in messages)
        for _ in range(30):
            stream, got, at = Stream(frozenset(Kind)), [], 0
            while at < len(data):
                size = chance.randrange(1, 30)
                got += list(stream.feed(data[at : at + size]))
                at += size
            self.assertEqual(got, messages)


if __name__ == "__main__":
    unittest.main()
