"""Requests and answers out of a log of CAN with ISO-TP (ISO 15765-2), candump's or Vector's."""

from __future__ import annotations

import re
from collections.abc import Iterator, Sequence
from dataclasses import dataclass
from decimal import Decimal

from capture import CaptureError, Cause, Names, Piece, Uds
from script import TESTERS

# `(1700000000.000000) can0 7E0#023E00AAAAAAAAAA`, with ## and a digit of flags for CAN FD.
CANDUMP = re.compile(
    rb"\((?P<time>\d+\.\d+)\) +(?P<channel>\S+) +(?P<id>[0-9A-Fa-f]{3}|[0-9A-Fa-f]{8})"
    rb"#(?:#(?P<flags>[0-9A-Fa-f]))?(?P<data>(?:[0-9A-Fa-f]{2})*)(?: [RT])?"
)
REMOTE = re.compile(rb"\(\d+\.\d+\) +\S+ +[0-9A-Fa-f]+#R\d?(?: [RT])?")
# ` 0.015991 1  7E0             Rx   d 8 02 3E 00 AA AA AA AA AA`, and what may follow it.
ASC = re.compile(
    rb"\s*(?P<time>\d+\.\d+)\s+(?P<channel>\d+)\s+(?P<id>[0-9A-Fa-f]+)(?P<wide>x?)\s+[RT]x\s+d\s+"
    rb"(?P<size>[0-9A-Fa-f]+)(?P<data>(?:\s+[0-9A-Fa-f]+)*)(?P<rest>\s+[A-Za-z]+ = .*)?\s*"
)
ASC_OTHER = re.compile(
    rb"\s*|(?:date|base|internal|no internal|//|Begin|End|begin|end).*|\s*\d+\.\d+\s+(?:\d+\s+)?"
    rb"(?:Start of|Statistic|Status|ErrorFrame|[0-9A-Fa-f]+x?\s+[RT]x\s+r\b|SV:|Log).*",
    re.IGNORECASE,
)
MOST_MESSAGE = 1 << 20
SECOND = 10**9


@dataclass(frozen=True)
class CanFrame:
    """A frame: its time in nanoseconds, its identifier and its data with their places."""

    time: int
    identifier: int
    piece: Piece


def lines_with_places(data: bytes, names: Names) -> Iterator[tuple[int, bytes]]:
    """Each line with the place of its first byte; the bytes of its end are named."""
    at = 0
    for line in data.split(b"\n"):
        text = line.rstrip(b"\r")
        names.name(at + len(text), len(line) - len(text) + 1, "end of a line of the log", True)
        yield at, text
        at += len(line) + 1


def name_groups(names: Names, match: re.Match[bytes], at: int) -> None:
    """Names the parts of a line; what is between them decides its form."""
    names.name(at, len(match.group()), "form of a line of the log", True)
    for group, start in match.groupdict().items():
        if start is not None:
            is_read = group not in ("channel", "flags", "rest")
            name = "time of a frame, which decides the order alone" if group == "time" else group
            names.name(at + match.start(group), len(start), f"{name} of a line of the log", is_read)


def of_candump(data: bytes, names: Names) -> Iterator[CanFrame]:
    """The frames of candump's log."""
    for at, line in lines_with_places(data, names):
        match = CANDUMP.fullmatch(line)
        if match is None:
            if line.strip() and not REMOTE.fullmatch(line):
                raise CaptureError(Cause.FORM, at, "a line is none of candump's log")
            continue
        name_groups(names, match, at)
        digits = match.group("data")
        places = ((at + match.start("data"), len(digits)),)
        piece = Piece(bytes.fromhex(digits.decode()), places, 2)
        time = int(Decimal(match.group("time").decode()) * SECOND)
        yield CanFrame(time, int(match.group("id"), 16), piece)


def of_asc(data: bytes, names: Names) -> Iterator[CanFrame]:
    """The frames of Vector's ASC. Its times count from the beginning of the measurement."""
    base, is_relative, now = 16, False, Decimal(0)
    for at, line in lines_with_places(data, names):
        match = ASC.fullmatch(line)
        if match is None:
            if not ASC_OTHER.fullmatch(line):
                raise CaptureError(Cause.FORM, at, "a line is none of ASC's that are known")
            words = line.lower().split()
            if words[:1] == [b"base"]:
                names.name(at, len(line), "base of numbers and kind of times of the log", True)
                base = 10 if b"dec" in words else 16
                is_relative = b"relative" in words
            else:
                names.name(at, len(line), "a line of the log without a frame")
            continue
        name_groups(names, match, at)
        time = Decimal(match.group("time").decode())
        now = now + time if is_relative else time
        yield of_asc_line(match, at, base, int(now * SECOND))


def of_asc_line(match: re.Match[bytes], at: int, base: int, time: int) -> CanFrame:
    """The frame of a line."""
    try:
        size = int(match.group("size"), 16)
        identifier = int(match.group("id"), base)
        tokens = [it for it in re.finditer(rb"\S+", match.group("data"))][:size]
        data = bytes(int(token.group(), base) for token in tokens)
    except ValueError:
        raise CaptureError(Cause.FORM, at, "a number of the log is none") from None
    if len(data) < size or (base == 16 and any(len(token.group()) != 2 for token in tokens)):
        raise CaptureError(Cause.SHORT, at, "a frame of the log has too few bytes")
    start = at + match.start("data")
    places = tuple((start + token.start(), len(token.group())) for token in tokens)
    return CanFrame(time, identifier, Piece(data, places, 2))


class Assembly:
    """The frames of one identifier, put together to messages."""

    def __init__(self) -> None:
        """Begins without a message."""
        self._parts: list[Piece] = []
        self._size = 0
        self._next = 0

    @property
    def is_open(self) -> bool:
        """Whether a message is not complete."""
        return bool(self._parts)

    @property
    def place(self) -> int:
        """Where the message that is not complete begins."""
        return self._parts[0].places[0][0]

    def add(self, piece: Piece) -> Piece | None:
        """Takes a frame; returns the message that it completes."""
        data = piece.data
        kind = data[0] >> 4 if data else 15
        if kind == 3:
            return None
        if kind == 2:
            return self._add_next(piece)
        if self.is_open:
            raise refused(piece, "a message begins before the last one is complete")
        if kind == 0:
            start = 2 if data[0] == 0 and len(data) > 8 else 1
            size = data[start - 1]
            if size == 0 or start + size > len(data):
                raise refused(piece, "a single frame has a wrong length")
            return cut(piece.from_byte(start), size)
        if kind == 1 and len(data) >= 8:
            self._begin(piece)
            return None
        raise refused(piece, "a frame is none of ISO-TP")

    def _begin(self, piece: Piece) -> None:
        """Takes a first frame."""
        size, start = (piece.data[0] & 15) << 8 | piece.data[1], 2
        if size == 0:
            size, start = int.from_bytes(piece.data[2:6], "big"), 6
        if not len(piece.data) - start < size <= MOST_MESSAGE:
            raise refused(piece, "a first frame has a wrong length")
        self._parts, self._size, self._next = [piece.from_byte(start)], size, 1

    def _add_next(self, piece: Piece) -> Piece | None:
        """Takes a consecutive frame."""
        if not self.is_open or piece.data[0] & 15 != self._next:
            raise refused(piece, "a consecutive frame is not the next one")
        self._next = (self._next + 1) % 16
        self._parts.append(piece.from_byte(1))
        data = b"".join(part.data for part in self._parts)
        if len(data) < self._size:
            return None
        places = tuple(place for part in self._parts for place in part.places)
        self._parts = []
        return cut(Piece(data, places, piece.width), self._size)


def refused(piece: Piece, what: str) -> CaptureError:
    """The error of a frame that is none of ISO-TP."""
    return CaptureError(Cause.TRANSPORT, piece.places[0][0] if piece.places else 0, what)


def cut(piece: Piece, size: int) -> Piece:
    """The first bytes of a piece; the padding after them is dropped."""
    left, places = size * piece.width, []
    for place, length in piece.places:
        used = min(left, length)
        left -= used
        if used:
            places.append((place, used))
    return Piece(piece.data[:size], tuple(places), piece.width)


def messages_of(
    frames: Iterator[CanFrame], requests: Sequence[int], responses: Sequence[int], names: Names
) -> list[Uds]:
    """The requests and answers; the identifiers of tester A are the first of each, and so on."""
    sides = {it: (TESTERS[at], True) for at, it in enumerate(requests)}
    sides |= {it: (TESTERS[at], False) for at, it in enumerate(responses)}
    assemblies = {it: Assembly() for it in sides}
    found: list[Uds] = []
    for frame in frames:
        if frame.identifier not in sides:
            continue
        tester, is_request = sides[frame.identifier]
        for place, size in frame.piece.places:
            names.name(place, size, "padding or flow control of a frame", False)
        for place, size in cut(frame.piece, 2).places:
            names.name(place, size, "head of a frame of ISO-TP", True)
        whole = assemblies[frame.identifier].add(frame.piece)
        if whole is not None:
            found.append(Uds(frame.time, tester, is_request, whole))
    for it in assemblies.values():
        if it.is_open:
            raise CaptureError(Cause.SHORT, it.place, "the log ends in a message")
    return sorted(found, key=lambda it: it.time)
