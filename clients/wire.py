"""The messages of DoIP (ISO 13400-2): headers, their checks, and the streams in which they come."""

from __future__ import annotations

import os
import struct
from collections.abc import Iterator
from dataclasses import dataclass
from enum import IntEnum

VERSION = 0x02
# Versions that are taken: of 2010, of 2012, of 2019, and the default one of identification
# requests.
VERSIONS = (0x01, 0x02, 0x03, 0xFF)
HEADER = struct.Struct("!BBHI")
PORT = 13400
# Another port where none is given.
VARIABLE = "DOIP_PORT"
# The longest body that is read, and the longest request in one; a longer message is refused and
# skipped.
MOST_BODY = 8192
MOST_REQUEST = 4095


class Kind(IntEnum):
    """Payload types."""

    HEADER_NACK = 0x0000
    IDENTIFICATION = 0x0001
    IDENTIFICATION_BY_EID = 0x0002
    IDENTIFICATION_BY_VIN = 0x0003
    ANNOUNCEMENT = 0x0004
    ACTIVATION = 0x0005
    ACTIVATION_ANSWER = 0x0006
    ALIVE_CHECK = 0x0007
    ALIVE = 0x0008
    STATUS = 0x4001
    STATUS_ANSWER = 0x4002
    POWER_MODE = 0x4003
    POWER_MODE_ANSWER = 0x4004
    DIAGNOSTIC = 0x8001
    ACK = 0x8002
    NACK = 0x8003


class HeaderFault(IntEnum):
    """Codes of the generic negative acknowledge of a header."""

    PATTERN = 0x00
    UNKNOWN_KIND = 0x01
    TOO_LARGE = 0x02
    MEMORY = 0x03
    LENGTH = 0x04

    @property
    def closes(self) -> bool:
        """Whether the connection is closed after it: what follows cannot be told from noise."""
        return self in (HeaderFault.PATTERN, HeaderFault.LENGTH)


class Activation(IntEnum):
    """Codes of the answer to a routing activation."""

    UNKNOWN_SOURCE = 0x00
    NO_SOCKET = 0x01
    OTHER_SOURCE = 0x02
    SOURCE_IN_USE = 0x03
    AUTHENTICATION = 0x04
    CONFIRMATION = 0x05
    UNSUPPORTED_TYPE = 0x06
    ACTIVATED = 0x10


class Nack(IntEnum):
    """Codes of the negative acknowledge of a diagnostic message."""

    INVALID_SOURCE = 0x02
    UNKNOWN_TARGET = 0x03
    TOO_LARGE = 0x04
    MEMORY = 0x05
    UNREACHABLE = 0x06
    UNKNOWN_NETWORK = 0x07
    TRANSPORT = 0x08


# The lengths of a body by its kind; a diagnostic message has at least one byte of data.
LENGTHS: dict[Kind, range | tuple[int, ...]] = {
    Kind.HEADER_NACK: (1,),
    Kind.IDENTIFICATION: (0,),
    Kind.IDENTIFICATION_BY_EID: (6,),
    Kind.IDENTIFICATION_BY_VIN: (17,),
    Kind.ANNOUNCEMENT: (32, 33),
    Kind.ACTIVATION: (7, 11),
    Kind.ACTIVATION_ANSWER: (9, 13),
    Kind.ALIVE_CHECK: (0,),
    Kind.ALIVE: (2,),
    Kind.STATUS: (0,),
    Kind.STATUS_ANSWER: (3, 7),
    Kind.POWER_MODE: (0,),
    Kind.POWER_MODE_ANSWER: (1,),
    Kind.DIAGNOSTIC: range(5, 1 << 32),
    Kind.ACK: range(5, 1 << 32),
    Kind.NACK: range(5, 1 << 32),
}


@dataclass(frozen=True)
class Message:
    """A message: its kind and its body."""

    kind: Kind
    body: bytes

    def encoded(self, version: int = VERSION) -> bytes:
        """The bytes of the message."""
        return HEADER.pack(version, version ^ 0xFF, self.kind, len(self.body)) + self.body


def default_port() -> int:
    """The port where none is given: that of the standard, or that of the environment."""
    given = os.environ.get(VARIABLE, "")
    return int(given) if given.isdecimal() and int(given) < 65_535 else PORT


def port_number(text: str) -> int:
    """A port of an argument."""
    value = int(text)
    if not 0 <= value <= 65_535:
        raise ValueError
    return value


def logical_address(text: str) -> int:
    """A logical address of an argument: four hexadecimal digits at most."""
    value = int(text, 16)
    if not 0 <= value <= 0xFFFF:
        raise ValueError
    return value


def diagnostic(source: int, target: int, data: bytes) -> Message:
    """A diagnostic message."""
    return Message(Kind.DIAGNOSTIC, struct.pack("!HH", source, target) + data)


def acknowledged(source: int, target: int, code: Nack | None) -> Message:
    """The acknowledge of a diagnostic message: positive, or negative with its code."""
    kind = Kind.ACK if code is None else Kind.NACK
    return Message(kind, struct.pack("!HHB", source, target, 0 if code is None else code))


def activation(source: int, kind: int = 0) -> Message:
    """A routing activation."""
    return Message(Kind.ACTIVATION, struct.pack("!HB4x", source, kind))


def activation_answer(tester: int, entity: int, code: Activation) -> Message:
    """The answer to a routing activation."""
    return Message(Kind.ACTIVATION_ANSWER, struct.pack("!HHB4x", tester, entity, code))


def header_nack(fault: HeaderFault) -> Message:
    """The generic negative acknowledge."""
    return Message(Kind.HEADER_NACK, bytes([fault]))


def addresses(body: bytes) -> tuple[int, int]:
    """The source and the target of a diagnostic message or of an acknowledge."""
    source, target = struct.unpack("!HH", body[:4])
    return source, target


def header_fault(
    header: bytes, taken: frozenset[Kind], most: int = MOST_BODY
) -> HeaderFault | None:
    """The first fault of a header, in the order of the standard; none if it has none."""
    version, inverse, kind, length = HEADER.unpack(header)
    if version ^ inverse != 0xFF or version not in VERSIONS:
        return HeaderFault.PATTERN
    if kind not in taken:
        return HeaderFault.UNKNOWN_KIND
    if length > most:
        return HeaderFault.TOO_LARGE
    return None if length in LENGTHS[Kind(kind)] else HeaderFault.LENGTH


class Stream:
    """Messages out of the bytes of a connection; one message at most is kept."""

    def __init__(self, taken: frozenset[Kind], most: int = MOST_BODY) -> None:
        """Takes messages of these kinds, with bodies of this many bytes at most."""
        self._taken = taken
        self._most = most
        self._kept = bytearray()
        self._skip = 0

    def feed(self, data: bytes) -> Iterator[Message | HeaderFault]:
        """The messages and faults that these bytes complete; the last may be one that closes."""
        self._kept += data
        while True:
            skipped = min(self._skip, len(self._kept))
            del self._kept[:skipped]
            self._skip -= skipped
            if self._skip or len(self._kept) < HEADER.size:
                return
            header = bytes(self._kept[: HEADER.size])
            length = HEADER.unpack(header)[3]
            fault = header_fault(header, self._taken, self._most)
            if fault is not None:
                self._skip = HEADER.size + length
                yield fault
                if fault.closes:
                    return
            elif len(self._kept) < HEADER.size + length:
                return
            else:
                body = bytes(self._kept[HEADER.size : HEADER.size + length])
                del self._kept[: HEADER.size + length]
                yield Message(Kind(HEADER.unpack(header)[2]), body)


def of_datagram(data: bytes, taken: frozenset[Kind]) -> Message | HeaderFault:
    """The message of a datagram, or its fault."""
    if len(data) < HEADER.size:
        return HeaderFault.PATTERN
    fault = header_fault(data[: HEADER.size], taken)
    if fault is not None:
        return fault
    kind, length = HEADER.unpack(data[: HEADER.size])[2:]
    if length != len(data) - HEADER.size:
        return HeaderFault.LENGTH
    return Message(Kind(kind), data[HEADER.size :])
