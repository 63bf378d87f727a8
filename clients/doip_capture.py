"""Requests and answers out of a capture of DoIP over TCP, pcap or pcapng."""

from __future__ import annotations

from collections.abc import Iterator
from dataclasses import dataclass

from capture import CaptureError, Cause, Names, Piece, Uds
from pcap import Flow, Packet, Reader, Segment, segment_of
from script import TESTERS
from wire import HEADER, PORT, VERSIONS, Kind, addresses

KINDS = frozenset(Kind)


@dataclass(frozen=True)
class Diagnostic:
    """A diagnostic message: its time, its packet, its direction and its body."""

    time: int
    packet: int
    is_request: bool
    body: Piece

    @property
    def tester(self) -> int:
        """The address of the tester."""
        return addresses(self.body.data)[0 if self.is_request else 1]

    @property
    def entity(self) -> int:
        """The address of the entity."""
        return addresses(self.body.data)[1 if self.is_request else 0]


class DoipCapture:
    """The messages of one entity in a capture."""

    def __init__(self, names: Names, port: int = PORT, entity: int | None = None) -> None:
        """Looks for this port and address; without an address there must be one entity alone."""
        self._names = names
        self._port = port
        self._entity = entity
        self._takes_one = entity is None
        self._testers: dict[int, str] = {}
        self._flows: dict[tuple[tuple[bytes, int], tuple[bytes, int]], Flow] = {}

    def messages(self, data: bytes) -> list[Uds]:
        """The requests and answers, in the order of their times."""
        reader = Reader(data, self._names)
        found = [it for packet in reader.packets() for it in self._of_packet(packet)]
        for flow in self._flows.values():
            if flow.early:
                place = flow.early[0].place
                raise CaptureError(Cause.GAP, place, "bytes are missing in a stream of TCP")
            if flow.size:
                place = flow.chunks[0][0]
                raise CaptureError(Cause.SHORT, place, "the capture ends in a message")
        found.sort(key=lambda it: it.time)
        return [
            Uds(it.time, self._letter_of(it), it.is_request, it.body.from_byte(4))
            for it in found
            if self._is_of_entity(it)
        ]

    def _of_packet(self, packet: Packet) -> Iterator[Diagnostic]:
        """What a packet completes."""
        segment = segment_of(packet, self._names)
        if segment is None:
            return
        if self._port not in (segment.source[1], segment.target[1]):
            name = f"bytes of packet {packet.number}, of another port"
            self._names.name(segment.place, len(segment.data), name)
            return
        flow = self._flows.setdefault((segment.source, segment.target), Flow())
        flow.add(segment, self._names)
        while flow.size >= HEADER.size:
            size = self._size_of_next(flow, segment)
            if flow.size < size:
                return
            yield from self._of_message(flow.take(size), segment)

    def _size_of_next(self, flow: Flow, segment: Segment) -> int:
        """The size of the next message with its header, which is checked."""
        version, inverse, kind, length = HEADER.unpack(flow.peek(HEADER.size))
        if version ^ inverse != 0xFF or version not in VERSIONS or kind not in KINDS:
            what = f"packet {segment.packet.number} has no header of DoIP"
            raise CaptureError(Cause.HEADER, flow.chunks[0][0], what)
        return HEADER.size + int(length)

    def _of_message(self, piece: Piece, segment: Segment) -> Iterator[Diagnostic]:
        """The diagnostic message that this is, if it is one."""
        number = segment.packet.number
        kind, body = Kind(HEADER.unpack(piece.data[:8])[2]), piece.from_byte(8)
        self._name(piece, f"header of a message of DoIP in packet {number}", True)
        if kind != Kind.DIAGNOSTIC or len(body.data) < 5:
            self._name(body, f"body of a message of the kind {kind.name} in packet {number}", False)
            return
        self._name(body, f"addresses of a diagnostic message in packet {number}", True)
        is_request = segment.target[1] == self._port
        yield Diagnostic(segment.packet.time, number, is_request, body)

    def _name(self, piece: Piece, name: str, is_read: bool) -> None:
        """Names the bytes of a piece."""
        for place, size in piece.places:
            self._names.name(place, size, name, is_read)

    def _is_of_entity(self, it: Diagnostic) -> bool:
        """Whether a message is of the entity; if none is named, there must be one alone."""
        if self._entity is None:
            self._entity = it.entity
        if it.entity == self._entity:
            return True
        if self._takes_one:
            what = f"there are two entities, {self._entity:04X} and {it.entity:04X}; name one"
            raise CaptureError(Cause.ENTITY, it.body.places[0][0], what)
        self._name(it.body, f"a message of another entity in packet {it.packet}", False)
        return False

    def _letter_of(self, it: Diagnostic) -> str:
        """The letter of a message's tester: that of the first request is A."""
        place = it.body.places[0][0]
        if it.tester not in self._testers:
            if not it.is_request:
                raise CaptureError(Cause.ANSWER, place, "an answer has no request before it")
            if len(self._testers) == len(TESTERS):
                raise CaptureError(Cause.TESTERS, place, "there are more than four testers")
            self._testers[it.tester] = TESTERS[len(self._testers)]
        return self._testers[it.tester]
