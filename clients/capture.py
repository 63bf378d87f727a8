"""What the readers of captures share: why a capture is refused, and the names of its bytes.

Each byte of a capture has a name, so that a change of one can be reported: it is a byte of a request or
of an answer, one that decides how these are found, or one on which no trace depends.
"""

from __future__ import annotations

from collections.abc import Iterable
from dataclasses import dataclass, field
from enum import Enum


class Cause(Enum):
    """Why a capture is refused."""

    FORM = "form"
    LINK = "link"
    SHORT = "short"
    FRAGMENT = "fragment"
    GAP = "gap"
    HEADER = "header"
    TRANSPORT = "transport"
    TESTERS = "testers"
    ENTITY = "entity"
    ANSWER = "answer"


class CaptureError(Exception):
    """A capture that cannot be read; `place` is a byte of the file, near the fault."""

    def __init__(self, cause: Cause, place: int, what: str) -> None:
        """Keeps the cause and the place."""
        super().__init__(f"capture {cause.value} at byte {place}: {what}")
        self.cause = cause
        self.place = place


@dataclass(frozen=True)
class Span:
    """Some bytes of a file with their name; `is_read` says whether a trace can depend on them."""

    start: int
    end: int
    name: str
    is_read: bool


@dataclass
class Names:
    """The names of the bytes of a file."""

    spans: list[Span] = field(default_factory=list)

    def name(self, start: int, size: int, name: str, is_read: bool = False) -> int:
        """Names some bytes, and returns the place after them."""
        if size > 0:
            self.spans.append(Span(start, start + size, name, is_read))
        return start + size

    def at(self, place: int) -> Span | None:
        """The name of a byte: the one that was given last."""
        for span in reversed(self.spans):
            if span.start <= place < span.end:
                return span
        return None


@dataclass(frozen=True)
class Piece:
    """Bytes of a message, and where they are in the file: places and lengths, in their order.

    A byte takes `width` bytes of the file: 1, or the two digits of a log of text.
    """

    data: bytes
    places: tuple[tuple[int, int], ...]
    width: int = 1

    def from_byte(self, start: int) -> Piece:
        """The bytes from this one on."""
        left, places = start * self.width, []
        for place, size in self.places:
            used = min(left, size)
            left -= used
            if used < size:
                places.append((place + used, size - used))
        return Piece(self.data[start:], tuple(places), self.width)

    def index_of(self, place: int) -> int | None:
        """Which byte of the message is at this place of the file."""
        before = 0
        for start, size in self.places:
            if start <= place < start + size:
                return (before + place - start) // self.width
            before += size
        return None


@dataclass(frozen=True)
class Uds:
    """A request of a tester, or an answer to one: time in nanoseconds, letter and bytes."""

    time: int
    tester: str
    is_request: bool
    piece: Piece


@dataclass
class Exchange:
    """A request, and its answer where there is one."""

    request: Uds
    answer: Uds | None = None


def exchanges_of(messages: Iterable[Uds]) -> list[Exchange]:
    """The requests in their order, each with its answer.

    An answer belongs to the last request of its tester. Response pending (7F SID 78) is no answer
    yet.
    """
    exchanges: list[Exchange] = []
    last: dict[str, Exchange] = {}
    for it in messages:
        if it.is_request:
            last[it.tester] = Exchange(it)
            exchanges.append(last[it.tester])
            continue
        data = it.piece.data
        if len(data) == 3 and data[0] == 0x7F and data[2] == 0x78:
            continue
        place = it.piece.places[0][0]
        if it.tester not in last:
            raise CaptureError(Cause.ANSWER, place, "an answer has no request before it")
        if last[it.tester].answer is not None:
            raise CaptureError(Cause.ANSWER, place, "a request has two answers")
        last[it.tester].answer = it
    return exchanges
