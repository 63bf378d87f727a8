"""Captures: pcap and pcapng are read down to the streams of TCP, and pcap is written. No library is
needed.

Each byte that is read is known by its place in the file, so that a change of one byte can be reported
by name.
"""

from __future__ import annotations

import struct
from collections.abc import Iterator
from dataclasses import dataclass, field
from typing import BinaryIO

from capture import CaptureError, Cause, Names, Piece

MICROSECONDS = 0xA1B2C3D4
NANOSECONDS = 0xA1B23C4D
SECTION = 0x0A0D0D0A
BYTE_ORDER = 0x1A2B3C4D
RAW_IP = 101
# The bytes in front of the IP header, by the type of the link; Ethernet may have tags.
ETHERNET = 1
LINKS = {0: 4, RAW_IP: 0, 12: 0, 113: 16, 228: 0, 229: 0, 276: 20}
# The most bytes of a stream that may wait for some that are missing.
MOST_WAITING = 1 << 20
SYN, FIN, ACK, PUSH = 0x02, 0x01, 0x10, 0x08
# What lies between the first sequence numbers of connections that are written.
FIRST_STEP = 1 << 24


@dataclass(frozen=True)
class Packet:
    """A packet: its time in nanoseconds, its type of link, its bytes and their place."""

    number: int
    time: int
    link: int
    data: bytes
    place: int
    is_whole: bool


# ---- Reading files.


class Reader:
    """The packets of a file, and the names of the bytes around them."""

    def __init__(self, data: bytes, names: Names) -> None:
        """Takes the bytes of a file, whose names are noted there."""
        self._data = data
        self.names = names

    def packets(self) -> Iterator[Packet]:
        """The packets in their order."""
        data = self._data
        for order in "<>":
            if len(data) < 24:
                break
            magic = struct.unpack(f"{order}I", data[:4])[0]
            if magic in (MICROSECONDS, NANOSECONDS):
                return self._of_pcap(order, 1000 if magic == MICROSECONDS else 1)
            if magic == SECTION and struct.unpack(f"{order}I", data[8:12])[0] == BYTE_ORDER:
                return self._of_pcapng(order)
        raise CaptureError(Cause.FORM, 0, "it is neither pcap nor pcapng")

    def _of_pcap(self, order: str, unit: int) -> Iterator[Packet]:
        """The packets of a pcap; a fraction of a second counts these units of nanoseconds."""
        data, at = self._data, self.names.name(0, 4, "magic number", is_read=True)
        for size, name in ((4, "version"), (12, "zone, accuracy and length of packets")):
            at = self.names.name(at, size, f"{name} of the file")
        link = struct.unpack(f"{order}I", data[20:24])[0] & 0x0FFFFFFF
        at = self.names.name(at, 4, "type of the link", is_read=True)
        number = 0
        while at < len(data):
            if at + 16 > len(data):
                raise CaptureError(Cause.FORM, at, "the file ends in the head of a packet")
            number += 1
            seconds, fraction, size, whole = struct.unpack(f"{order}IIII", data[at : at + 16])
            start = self._head(at, number)
            if start + size > len(data):
                raise CaptureError(Cause.FORM, at, "the file ends in a packet")
            time = seconds * 10**9 + fraction * unit
            yield Packet(number, time, link, data[start : start + size], start, size >= whole)
            at = start + size

    def _head(self, at: int, number: int) -> int:
        """Names the head of a packet of a pcap."""
        at = self.names.name(
            at, 8, f"time of packet {number}, which decides the order alone", is_read=True
        )
        at = self.names.name(at, 4, f"captured length of packet {number}", is_read=True)
        return self.names.name(at, 4, f"length of packet {number} on the wire", is_read=True)

    def _of_pcapng(self, order: str) -> Iterator[Packet]:
        """The packets of a pcapng: those of enhanced packet blocks."""
        data, at, number = self._data, 0, 0
        interfaces: list[tuple[int, int]] = []
        while at < len(data):
            if at + 12 > len(data):
                raise CaptureError(Cause.FORM, at, "the file ends in the head of a block")
            kind, size = struct.unpack(f"{order}II", data[at : at + 8])
            if size < 12 or size % 4 or at + size > len(data):
                raise CaptureError(Cause.FORM, at, "a block has a wrong length")
            body = data[at + 8 : at + size - 4]
            self.names.name(at, size, "pcapng block", is_read=True)
            if kind == SECTION:
                interfaces = []
            elif kind == 1 and len(body) >= 8:
                link = struct.unpack(f"{order}H", body[:2])[0]
                interfaces.append((link, resolution(body[8:], order)))
            elif kind == 6 and len(body) >= 20:
                number += 1
                yield self._enhanced(order, body, at + 8, number, interfaces)
            at += size

    def _enhanced(
        self, order: str, body: bytes, at: int, number: int, interfaces: list[tuple[int, int]]
    ) -> Packet:
        """The packet of an enhanced packet block."""
        which, high, low, size, whole = struct.unpack(f"{order}IIIII", body[:20])
        if which >= len(interfaces) or 20 + size > len(body):
            raise CaptureError(
                Cause.FORM, at, "a packet has no interface, or is too long for its block"
            )
        link, unit = interfaces[which]
        time = (high << 32 | low) * 10**9 // unit
        return Packet(number, time, link, body[20 : 20 + size], at + 20, size >= whole)


def resolution(options: bytes, order: str) -> int:
    """Units of time a second, by the options of an interface; a million without one."""
    at = 0
    while at + 4 <= len(options):
        code, size = struct.unpack(f"{order}HH", options[at : at + 4])
        if code == 9 and size == 1:
            value = options[at + 4]
            return int(2 ** (value & 0x7F)) if value & 0x80 else int(10**value)
        if code == 0:
            break
        at += 4 + (size + 3) // 4 * 4
    return 1_000_000


# ---- Streams of TCP.


@dataclass(frozen=True)
class Segment:
    """A segment of TCP with its data and the place of these in the file."""

    packet: Packet
    source: tuple[bytes, int]
    target: tuple[bytes, int]
    sequence: int
    flags: int
    data: bytes
    place: int


def segment_of(packet: Packet, names: Names) -> Segment | None:
    """The segment of a packet, whose bytes are named; none if it has another protocol."""
    start = link_size(packet)
    data = packet.data
    names.name(packet.place, start, f"link header of packet {packet.number}", is_read=True)
    version = data[start] >> 4 if len(data) > start else 0
    if version == 4 and len(data) >= start + 20:
        found = of_ipv4(packet, start, names)
    elif version == 6 and len(data) >= start + 40:
        found = of_ipv6(packet, start, names)
    else:
        found = None
    if found is None:
        names.name(packet.place + start, len(data) - start, "another protocol")
        return None
    source, target, at, end = found
    return of_tcp(packet, (source, target), at, end, names)


def link_size(packet: Packet) -> int:
    """How many bytes are in front of the IP header."""
    if packet.link == ETHERNET:
        at = 12
        while packet.data[at : at + 2] in (b"\x81\x00", b"\x88\xa8"):
            at += 4
        return at + 2
    if packet.link not in LINKS:
        raise CaptureError(
            Cause.LINK, packet.place, f"the type {packet.link} of the link is not known"
        )
    return LINKS[packet.link]


def of_ipv4(packet: Packet, start: int, names: Names) -> tuple[bytes, bytes, int, int] | None:
    """The addresses of an IPv4 packet and the range of its TCP; none if it has another protocol."""
    data, at = packet.data, packet.place + start
    size = (data[start] & 15) * 4
    whole = struct.unpack("!H", data[start + 2 : start + 4])[0]
    if data[start + 9] != 6 or size < 20 or whole < size:
        return None
    if struct.unpack("!H", data[start + 6 : start + 8])[0] & 0x3FFF:
        raise CaptureError(Cause.FRAGMENT, at, "a packet of IP is in fragments")
    if not packet.is_whole or start + whole > len(data):
        raise CaptureError(Cause.SHORT, at, "a packet was not captured whole")
    number = packet.number
    rows = (
        (1, "version and length", True),
        (1, "class of service", False),
        (2, "whole length", True),
        (2, "identification", False),
        (2, "fragment", True),
        (1, "time to live", False),
        (1, "protocol", True),
        (2, "checksum of IP", False),
        (8, "addresses", True),
        (size - 20, "options", False),
    )
    for length, name, is_read in rows:
        at = names.name(at, length, f"{name} of packet {number}", is_read)
    return data[start + 12 : start + 16], data[start + 16 : start + 20], start + size, start + whole


def of_ipv6(packet: Packet, start: int, names: Names) -> tuple[bytes, bytes, int, int] | None:
    """The same of an IPv6 packet without extension headers."""
    data = packet.data
    size = struct.unpack("!H", data[start + 4 : start + 6])[0]
    if data[start + 6] != 6:
        return None
    if not packet.is_whole or start + 40 + size > len(data):
        raise CaptureError(Cause.SHORT, packet.place + start, "a packet was not captured whole")
    names.name(packet.place + start, 40, f"header of IPv6 of packet {packet.number}", is_read=True)
    ends = (data[start + 8 : start + 24], data[start + 24 : start + 40])
    return *ends, start + 40, start + 40 + size


def of_tcp(
    packet: Packet, ends: tuple[bytes, bytes], at: int, end: int, names: Names
) -> Segment | None:
    """The segment in this range of a packet; none if it is too short to be one."""
    data, number = packet.data, packet.number
    if end - at < 20:
        return None
    ports = struct.unpack("!HH", data[at : at + 4])
    sequence = struct.unpack("!I", data[at + 4 : at + 8])[0]
    size = (data[at + 12] >> 4) * 4
    if size < 20 or at + size > end:
        raise CaptureError(
            Cause.HEADER, packet.place + at + 12, "a header of TCP has a wrong length"
        )
    place = packet.place + at
    rows = (
        (4, "ports", True),
        (4, "sequence number", True),
        (4, "acknowledgement number", False),
        (2, "length and flags of TCP", True),
        (2, "window", False),
        (2, "checksum of TCP", False),
        (2, "urgent pointer", False),
        (size - 20, "options of TCP", False),
    )
    for length, name, is_read in rows:
        place = names.name(place, length, f"{name} of packet {number}", is_read)
    names.name(packet.place + end, len(data) - end, f"padding of packet {number}")
    source, target = (ends[0], ports[0]), (ends[1], ports[1])
    return Segment(packet, source, target, sequence, data[at + 13], data[at + size : end], place)


@dataclass
class Flow:
    """One direction of a connection: its bytes in order, and segments that came too early."""

    expected: int | None = None
    chunks: list[tuple[int, bytes]] = field(default_factory=list)
    early: list[Segment] = field(default_factory=list)
    held: int = 0

    @property
    def size(self) -> int:
        """How many bytes are there in order."""
        return sum(len(data) for _, data in self.chunks)

    def add(self, segment: Segment, names: Names) -> None:
        """Takes a segment, and those that waited for it."""
        if segment.flags & SYN:
            self.expected = segment.sequence + 1 & 0xFFFFFFFF
            self.chunks, self.early, self.held = [], [], 0
            return
        if not segment.data:
            return
        if self.expected is None:
            self.expected = segment.sequence
        self._put(segment, names)
        waits = True
        while waits:
            ready = [it for it in self.early if self._ahead(it) <= 0]
            self.early = [it for it in self.early if self._ahead(it) > 0]
            waits = bool(ready)
            for it in ready:
                self.held -= len(it.data)
                self._put(it, names)

    def _ahead(self, segment: Segment) -> int:
        """How many bytes are missing in front of a segment; negative where it repeats some."""
        assert self.expected is not None
        difference = segment.sequence - self.expected & 0xFFFFFFFF
        return difference - (1 << 32) if difference >> 31 else difference

    def _put(self, segment: Segment, names: Names) -> None:
        """Appends what is new of a segment, or keeps it for later."""
        ahead = self._ahead(segment)
        if ahead > 0:
            self.held += len(segment.data)
            if self.held > MOST_WAITING:
                raise CaptureError(Cause.GAP, segment.place, "bytes are missing in a stream of TCP")
            self.early.append(segment)
            return
        known = min(-ahead, len(segment.data))
        names.name(segment.place, known, f"bytes of packet {segment.packet.number}, sent before")
        fresh = segment.data[known:]
        if fresh:
            self.chunks.append((segment.place + known, fresh))
            self.expected = (segment.sequence + len(segment.data)) & 0xFFFFFFFF

    def peek(self, size: int) -> bytes:
        """The next bytes, which stay."""
        return b"".join(data for _, data in self.chunks)[:size]

    def take(self, size: int) -> Piece:
        """Takes this many bytes from the front; they are there."""
        data, places = b"", []
        while len(data) < size:
            place, chunk = self.chunks.pop(0)
            used = chunk[: size - len(data)]
            data += used
            places.append((place, len(used)))
            if len(used) < len(chunk):
                self.chunks.insert(0, (place + len(used), chunk[len(used) :]))
        return Piece(data, tuple(places))


# ---- Writing.


def checksum(data: bytes) -> int:
    """The checksum of IP and TCP."""
    padded = data + b"\0" * (len(data) % 2)
    total = sum(struct.unpack(f"!{len(padded) // 2}H", padded))
    while total >> 16:
        total = (total & 0xFFFF) + (total >> 16)
    return total ^ 0xFFFF


class Sessions:
    """Writes connections of testers to one entity as a pcap of raw IP, with their handshakes."""

    ENTITY = bytes((192, 0, 2, 1))
    TESTER = bytes((192, 0, 2, 2))

    def __init__(self, file: BinaryIO) -> None:
        """Begins the file."""
        self._file = file
        self._next: dict[tuple[int, bool], int] = {}
        self._first = 0
        file.write(struct.pack("<IHHiIII", MICROSECONDS, 2, 4, 0, 0, 1 << 18, RAW_IP))

    def note(self, stamp: int, tester_port: int, port: int, data: bytes, by_tester: bool) -> None:
        """Writes data of one direction, at this time in microseconds."""
        if (tester_port, True) not in self._next:
            self._open(stamp, tester_port, port)
        for at in range(0, len(data), 1400):
            self._segment(stamp, tester_port, port, data[at : at + 1400], by_tester, PUSH | ACK)
        self._file.flush()

    def close(self, stamp: int, tester_port: int, port: int) -> None:
        """Writes the end of a connection, if anything was noted of it. Its port may come again."""
        if (tester_port, True) not in self._next:
            return
        self._segment(stamp, tester_port, port, b"", True, FIN | ACK)
        self._segment(stamp, tester_port, port, b"", False, FIN | ACK)
        self._segment(stamp, tester_port, port, b"", True, ACK)
        self._file.flush()
        for by_tester in (True, False):
            del self._next[tester_port, by_tester]

    def _open(self, stamp: int, tester_port: int, port: int) -> None:
        """Writes the handshake.

        Each connection begins with other numbers, so none is taken for another one of its port.
        """
        for by_tester in (True, False):
            self._next[tester_port, by_tester] = self._first
        self._first = (self._first + FIRST_STEP) & 0xFFFFFFFF
        self._segment(stamp, tester_port, port, b"", True, SYN)
        self._segment(stamp, tester_port, port, b"", False, SYN | ACK)
        self._segment(stamp, tester_port, port, b"", True, ACK)

    def _segment(
        self, stamp: int, tester_port: int, port: int, data: bytes, by_tester: bool, flags: int
    ) -> None:
        """Writes one segment."""
        ends = (self.TESTER, self.ENTITY) if by_tester else (self.ENTITY, self.TESTER)
        ports = (tester_port, port) if by_tester else (port, tester_port)
        sequence, other = self._next[tester_port, by_tester], self._next[tester_port, not by_tester]
        size = len(data) + bool(flags & (SYN | FIN))
        self._next[tester_port, by_tester] = (sequence + size) & 0xFFFFFFFF
        acknowledged = other if flags & ACK else 0
        head = struct.pack("!HHIIBBHHH", *ports, sequence, acknowledged, 0x50, flags, 0xFFFF, 0, 0)
        pseudo = ends[0] + ends[1] + struct.pack("!HH", 6, len(head) + len(data))
        head = head[:16] + struct.pack("!H", checksum(pseudo + head + data)) + head[18:]
        whole = 20 + len(head) + len(data)
        outer = struct.pack("!BBHHHBBH", 0x45, 0, whole, 0, 0x4000, 64, 6, 0) + ends[0] + ends[1]
        outer = outer[:10] + struct.pack("!H", checksum(outer)) + outer[12:]
        self._file.write(struct.pack("<IIII", *divmod(stamp, 1_000_000), whole, whole))
        self._file.write(outer + head + data)
