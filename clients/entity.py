"""A DoIP entity (ISO 13400-2): one loop over its sockets on loopback, in front of a controller."""

from __future__ import annotations

import math
import selectors
import socket
import struct
import time
from collections import deque
from collections.abc import Callable
from dataclasses import dataclass, field
from typing import BinaryIO

from ecu import Ecu
from live import Refused
from pcap import Sessions
from script import LINE, TESTERS
from wire import (
    MOST_BODY,
    MOST_REQUEST,
    PORT,
    Activation,
    HeaderFault,
    Kind,
    Message,
    Nack,
    Stream,
    acknowledged,
    activation_answer,
    addresses,
    diagnostic,
    header_nack,
    of_datagram,
)

HOST = "127.0.0.1"
ON_TCP = frozenset((Kind.HEADER_NACK, Kind.ACTIVATION, Kind.ALIVE, Kind.DIAGNOSTIC))
ON_UDP = frozenset(
    (
        Kind.IDENTIFICATION,
        Kind.IDENTIFICATION_BY_EID,
        Kind.IDENTIFICATION_BY_VIN,
        Kind.STATUS,
        Kind.POWER_MODE,
    )
)
# Source addresses of testers, and the kinds of activation that are known: the default one and that
# of WWH-OBD.
TESTER_ADDRESSES = range(0x0E00, 0x1000)
ACTIVATION_KINDS = (0x00, 0x01)
# The most sockets of each side, and the most bytes that wait for a peer that does not read: more
# than the responses to all requests of one read.
MOST_SOCKETS = 8
MOST_WAITING = 1 << 20


@dataclass(frozen=True)
class Settings:
    """What the entity says of itself, and its times in seconds (ISO 13400-2, table of timing)."""

    address: int = 0x1000
    vin: bytes = b"FAULTMEM000000001"
    eid: bytes = bytes.fromhex("02 00 00 00 00 01")
    testers: tuple[int, ...] = ()
    sockets: int = len(TESTERS)
    port: int = PORT
    car_port: int = PORT + 1
    # Between the acknowledge of a request and its response, as a controller takes to answer.
    pause_seconds: float = 0.0
    alive_seconds: float = 0.5
    initial_seconds: float = 2.0
    idle_seconds: float = 300.0

    def announcement(self) -> Message:
        """The vehicle announcement, which is the answer to an identification request too."""
        tail = bytes([0x00, 0x00])  # no further action; VIN and group identifier are synchronized
        address = struct.pack("!H", self.address)
        return Message(Kind.ANNOUNCEMENT, self.vin + address + self.eid + self.eid + tail)


@dataclass(eq=False)
class Peer:
    """A connection: its socket, the bytes that wait for it, and when it was last heard of."""

    socket: socket.socket
    port: int
    heard: float
    waiting: bytearray = field(default_factory=bytearray)
    closes: bool = False

    def release(self, now: float) -> None:
        """Has what was held until now wait to be written; nothing is held here."""

    @property
    def size(self) -> int:
        """How many bytes are not written yet."""
        return len(self.waiting)


@dataclass(eq=False)
class Tester(Peer):
    """A connection of a tester; its source address once routing is activated.

    Responses are held until their time, and what is sent after them with them.
    """

    stream: Stream = field(default_factory=lambda: Stream(ON_TCP, MOST_BODY))
    source: int | None = None
    held: deque[tuple[float, bytes]] = field(default_factory=deque)

    def release(self, now: float) -> None:
        """Has what was held until now wait to be written."""
        while self.held and self.held[0][0] <= now:
            self.waiting += self.held.popleft()[1]

    @property
    def size(self) -> int:
        """How many bytes are not written yet."""
        return len(self.waiting) + sum(len(data) for _, data in self.held)


@dataclass(eq=False)
class Car(Peer):
    """A connection of the car's side."""

    kept: bytearray = field(default_factory=bytearray)


@dataclass(eq=False)
class Waiting:
    """A routing activation that waits for the alive checks of other sockets."""

    tester: Tester
    source: int
    kind: int
    code: Activation
    checked: list[Tester]
    until: float


class Entity:
    """The entity: one loop over its sockets, without threads. Any thread may call `stop`."""

    def __init__(
        self,
        ecu: Ecu,
        settings: Settings = Settings(),
        capture: BinaryIO | None = None,
        clock: Callable[[], float] = time.monotonic,
    ) -> None:
        """Opens the ports on loopback."""
        self._ecu = ecu
        self._settings = settings
        self._clock = clock
        self._sessions = Sessions(capture) if capture else None
        self._letters = dict(zip(settings.testers, TESTERS))
        self._waiting: list[Waiting] = []
        self._peers: list[Peer] = []
        self._selector = selectors.DefaultSelector()
        self._wake, self._woken = socket.socketpair()
        self._tcp = socket.create_server((HOST, settings.port))
        self._car = socket.create_server((HOST, settings.car_port))
        self._udp = socket.socket(socket.AF_INET, socket.SOCK_DGRAM)
        self._udp.bind((HOST, settings.port))
        for it in (self._tcp, self._car, self._udp, self._woken):
            it.setblocking(False)
            self._selector.register(it, selectors.EVENT_READ, None)

    @property
    def ports(self) -> tuple[int, int, int]:
        """The ports of TCP, of UDP and of the car's side."""
        tcp, udp, car = (it.getsockname()[1] for it in (self._tcp, self._udp, self._car))
        return tcp, udp, car

    def stop(self) -> None:
        """Ends the loop."""
        try:
            self._wake.send(b".")
        except OSError:
            pass

    def run(self) -> None:
        """Serves until `stop`, or until the fault memory ends, which raises Ended."""
        try:
            while self._turn():
                pass
        finally:
            self._close_all()

    # ---- The loop.

    def _turn(self) -> bool:
        """Waits for the sockets and serves what came; false once it is to stop."""
        for key, _ in self._selector.select(self._seconds_to_wait()):
            if key.fileobj is self._woken:
                return False
            if key.fileobj is self._tcp or key.fileobj is self._car:
                self._accept(key.fileobj is self._car)
            elif key.fileobj is self._udp:
                self._read_datagram()
            elif key.data in self._peers:
                self._serve(key.data)
        self._settle()
        for peer in list(self._peers):
            self._write(peer)
        return True

    def _seconds_to_wait(self) -> float | None:
        """Until the next time at which something is due without a byte from outside."""
        now = self._clock()
        due = [it.until for it in self._waiting]
        due += [it.heard + self._limit(it) for it in self._limited()]
        due += [it.held[0][0] for it in self._testers() if it.held]
        return max(0.0, min(due) - now) if due else None

    def _limited(self) -> list[Tester]:
        """The testers that may not be silent for long: none whose activation waits."""
        asked = [it.tester for it in self._waiting]
        return [it for it in self._testers() if it not in asked]

    def _limit(self, tester: Tester) -> float:
        """How long this connection may be silent."""
        settings = self._settings
        return settings.initial_seconds if tester.source is None else settings.idle_seconds

    def _accept(self, is_car: bool) -> None:
        """Takes a connection; one too many is closed at once."""
        try:
            taken, (_, port) = (self._car if is_car else self._tcp).accept()
        except OSError:
            return
        kind = Car if is_car else Tester
        if sum(isinstance(peer, kind) for peer in self._peers) >= MOST_SOCKETS:
            taken.close()
            return
        taken.setblocking(False)
        taken.setsockopt(socket.IPPROTO_TCP, socket.TCP_NODELAY, 1)
        peer = kind(taken, port, self._clock())
        self._peers.append(peer)
        self._selector.register(taken, selectors.EVENT_READ, peer)

    def _serve(self, peer: Peer) -> None:
        """Reads what came from a peer and answers it."""
        try:
            data = peer.socket.recv(MOST_BODY)
        except (BlockingIOError, InterruptedError):
            return
        except OSError:
            data = b""
        if not data:
            peer.release(math.inf)
            peer.closes = True
            self._write(peer)
            self._drop(peer)
            return
        peer.heard = self._clock()
        if peer.closes:
            return
        if isinstance(peer, Car):
            self._serve_car(peer, data)
        elif isinstance(peer, Tester):
            self._serve_tester(peer, data)

    def _write(self, peer: Peer) -> None:
        """Writes what waits for a peer; one that does not read, or is to be closed, is dropped."""
        peer.release(self._clock())
        try:
            if peer.waiting:
                del peer.waiting[: peer.socket.send(peer.waiting)]
        except (BlockingIOError, InterruptedError):
            pass
        except OSError:
            self._drop(peer)
            return
        if peer.size > MOST_WAITING or (peer.closes and not peer.size):
            self._drop(peer)
            return
        events = selectors.EVENT_READ | (selectors.EVENT_WRITE if peer.waiting else 0)
        self._selector.modify(peer.socket, events, peer)

    def _drop(self, peer: Peer) -> None:
        """Closes a connection, and forgets an activation that waits on it."""
        if peer not in self._peers:
            return
        self._peers.remove(peer)
        self._selector.unregister(peer.socket)
        peer.socket.close()
        self._waiting = [it for it in self._waiting if it.tester is not peer]
        if self._sessions and isinstance(peer, Tester):
            self._sessions.close(self._ecu.stamp(), peer.port, self.ports[0])

    def _close_all(self) -> None:
        """Closes each socket."""
        for peer in list(self._peers):
            self._drop(peer)
        self._selector.close()
        for it in (self._tcp, self._car, self._udp, self._wake, self._woken):
            it.close()

    # ---- The car's side.

    def _serve_car(self, car: Car, data: bytes) -> None:
        """Answers each whole line; of a line that is too long no more is kept than shows this."""
        car.kept += data
        while b"\n" in car.kept:
            line, _, rest = bytes(car.kept).partition(b"\n")
            car.kept = bytearray(rest)
            car.waiting += f"{self._answer_car(line)}\n".encode("ascii", "replace")
        del car.kept[LINE + 1 :]

    def _answer_car(self, line: bytes) -> str:
        """The answer to a line of the car's side."""
        text = line.rstrip(b"\r").decode("ascii", "replace")
        if len(text) > LINE:
            return "refused long"
        try:
            return self._ecu.step(text)
        except Refused as refusal:
            return f"refused {refusal.cause.value}"

    # ---- Identification.

    def _read_datagram(self) -> None:
        """Answers a datagram, if it has an answer."""
        try:
            data, sender = self._udp.recvfrom(1 << 16)
        except OSError:
            return
        answer = self._answer_datagram(of_datagram(data, ON_UDP))
        if answer is not None:
            try:
                self._udp.sendto(answer.encoded(), sender)
            except OSError:
                pass

    def _answer_datagram(self, asked: Message | HeaderFault) -> Message | None:
        """The answer to a datagram; none where it asks for another vehicle."""
        settings = self._settings
        if isinstance(asked, HeaderFault):
            return header_nack(asked)
        if asked.kind == Kind.STATUS:
            active = len(self._activated())
            body = struct.pack("!BBBI", 0x01, settings.sockets, active, MOST_BODY)
            return Message(Kind.STATUS_ANSWER, body)
        if asked.kind == Kind.POWER_MODE:
            return Message(Kind.POWER_MODE_ANSWER, b"\x01")
        is_other_eid = asked.kind == Kind.IDENTIFICATION_BY_EID and asked.body != settings.eid
        is_other_vin = asked.kind == Kind.IDENTIFICATION_BY_VIN and asked.body != settings.vin
        return None if is_other_eid or is_other_vin else settings.announcement()

    # ---- Testers.

    def _serve_tester(self, tester: Tester, data: bytes) -> None:
        """Answers each whole message."""
        for it in tester.stream.feed(data):
            if tester.closes or tester not in self._peers:
                return
            self._ecu.advance()
            if isinstance(it, HeaderFault):
                self._send(tester, header_nack(it))
                tester.closes = it.closes
                continue
            self._note(tester, it, by_tester=True)
            if it.kind == Kind.ACTIVATION:
                self._activate(tester, it.body)
            elif it.kind == Kind.ALIVE:
                self._take_alive(tester, it.body)
            elif it.kind == Kind.DIAGNOSTIC:
                self._answer(tester, it.body)

    def _note(self, tester: Tester, message: Message, by_tester: bool) -> None:
        """Notes a message in the capture."""
        if self._sessions:
            ports = (tester.port, self.ports[0])
            self._sessions.note(self._ecu.stamp(), *ports, message.encoded(), by_tester)

    def _send(self, tester: Tester, message: Message, pause: float = 0.0) -> None:
        """Has a message wait for the tester; it goes after this pause, and after what is held."""
        self._note(tester, message, by_tester=False)
        due = self._clock() + pause if pause else -math.inf
        if tester.held:
            due = max(due, tester.held[-1][0])
        tester.held.append((due, message.encoded()))

    def _testers(self) -> list[Tester]:
        """The connections of testers."""
        return [it for it in self._peers if isinstance(it, Tester)]

    def _activated(self) -> list[Tester]:
        """The connections whose routing is activated."""
        return [it for it in self._testers() if it.source is not None]

    def _activate(self, tester: Tester, body: bytes) -> None:
        """Answers a routing activation, or has it wait for alive checks."""
        (source,), kind = struct.unpack("!H", body[:2]), body[2]
        code, checked = self._judged(tester, source, kind)
        if not checked:
            self._answer_activation(tester, source, code)
            return
        for other in checked:
            self._send(other, Message(Kind.ALIVE_CHECK, b""))
        until = self._clock() + self._settings.alive_seconds
        self._waiting.append(Waiting(tester, source, kind, code, checked, until))

    def _judged(self, tester: Tester, source: int, kind: int) -> tuple[Activation, list[Tester]]:
        """The code of an activation, and the sockets that are to be checked before it is given."""
        is_known = source in self._letters or not self._settings.testers
        if source not in TESTER_ADDRESSES or not is_known:
            return Activation.UNKNOWN_SOURCE, []
        if kind not in ACTIVATION_KINDS:
            return Activation.UNSUPPORTED_TYPE, []
        if tester.source is not None:
            same = tester.source == source
            return Activation.ACTIVATED if same else Activation.OTHER_SOURCE, []
        if source not in self._letters and len(self._letters) == len(TESTERS):
            return Activation.UNKNOWN_SOURCE, []
        active = self._activated()
        holders = [it for it in active if it.source == source]
        if holders:
            return Activation.SOURCE_IN_USE, holders
        if len(active) >= self._settings.sockets:
            return Activation.NO_SOCKET, active
        return Activation.ACTIVATED, []

    def _answer_activation(self, tester: Tester, source: int, code: Activation) -> None:
        """Gives the code; each but an activation closes the connection."""
        if code == Activation.ACTIVATED:
            tester.source = source
            self._letters.setdefault(source, TESTERS[len(self._letters) % len(TESTERS)])
        else:
            tester.closes = True
        self._send(tester, activation_answer(source, self._settings.address, code))

    def _take_alive(self, tester: Tester, body: bytes) -> None:
        """Takes the answer to an alive check; another source address closes the connection."""
        if struct.unpack("!H", body)[0] != tester.source:
            tester.closes = True
            return
        for it in self._waiting:
            it.checked = [other for other in it.checked if other is not tester]

    def _settle(self) -> None:
        """Decides the activations that wait, and drops connections that were silent too long."""
        now = self._clock()
        for it in list(self._waiting):
            if now >= it.until:
                for other in it.checked:
                    self._drop(other)
            is_free = any(other not in self._peers for other in it.checked)
            if it in self._waiting and (is_free or not it.checked):
                self._waiting.remove(it)
                code = self._judged(it.tester, it.source, it.kind)[0] if is_free else it.code
                self._answer_activation(it.tester, it.source, code)
        for tester in self._limited():
            if now >= tester.heard + self._limit(tester):
                self._drop(tester)

    def _answer(self, tester: Tester, body: bytes) -> None:
        """Answers a diagnostic message: the acknowledge, and then the response, if there is one."""
        source, target = addresses(body)
        code, data = self._refusal(tester, source, target, body[4:]), body[4:]
        if code is not None:
            self._send(tester, acknowledged(target, source, code))
            tester.closes = code == Nack.INVALID_SOURCE
            return
        response = self._ecu.request(self._letters[source], data)
        self._send(tester, acknowledged(target, source, None))
        if response is not None:
            message = diagnostic(target, source, response)
            self._send(tester, message, self._settings.pause_seconds)

    def _refusal(self, tester: Tester, source: int, target: int, data: bytes) -> Nack | None:
        """Why a diagnostic message is not passed on; none if it is."""
        if tester.source is None or source != tester.source:
            return Nack.INVALID_SOURCE
        if target != self._settings.address:
            return Nack.UNKNOWN_TARGET
        if len(data) > MOST_REQUEST:
            return Nack.TOO_LARGE
        return Nack.UNREACHABLE if self._ecu.is_dark else None
