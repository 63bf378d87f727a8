"""A controller around the live fault memory: clock, table of other services, records."""

from __future__ import annotations

import csv
import time
from collections.abc import Callable
from dataclasses import dataclass
from pathlib import Path
from typing import TextIO

from live import Live
from script import request_line

# A tick has 10 ms; one step takes at most this many.
TICKS_A_SECOND = 100
MOST_TICKS = 65_535
MOST_ANSWERS = 1024
NOT_SUPPORTED = 0x11


class TableError(Exception):
    """A line of the table of fixed answers that cannot be read."""


@dataclass(frozen=True)
class Fixed:
    """A fixed answer, none for silence, and the steps of the car that are made after it."""

    answer: bytes | None
    steps: tuple[str, ...]


def read_answers(text: str) -> dict[bytes, Fixed]:
    """The table of lines `REQUEST -> ANSWER ; STEP ; ..`; ANSWER is bytes or `silent`."""
    table: dict[bytes, Fixed] = {}
    for at, line in enumerate(text.splitlines(), 1):
        if not line.strip() or line.lstrip().startswith("#"):
            continue
        request, arrow, rest = line.partition("->")
        answer, *steps = (part.strip() for part in rest.split(";"))
        try:
            asked = bytes.fromhex(request)
            given = None if answer == "silent" else bytes.fromhex(answer)
        except ValueError:
            raise TableError(f"answers line {at}: bytes have two hexadecimal digits each") from None
        if not arrow or not asked or given == b"":
            raise TableError(f"answers line {at}: it is no REQUEST -> ANSWER")
        if asked in table or len(table) == MOST_ANSWERS:
            raise TableError(
                f"answers line {at}: the request stands there twice, or the table is full"
            )
        table[asked] = Fixed(given, tuple(steps))
    return table


class Stamps:
    """Times of the day in microseconds, each later than the one before."""

    def __init__(self, now: Callable[[], int] = time.time_ns) -> None:
        """Takes the times of this clock, which counts nanoseconds."""
        self._now = now
        self._last = 0

    def next(self) -> int:
        """The time, or the one after the last where the clock did not move."""
        self._last = max(self._now() // 1000, self._last + 1)
        return self._last


class Records:
    """What was done, in files: a script of all lines, and a table of those of the car's side."""

    def __init__(
        self,
        stamps: Stamps,
        configuration: str = "",
        journal: TextIO | None = None,
        monitors: TextIO | None = None,
    ) -> None:
        """Begins the files."""
        self.stamps = stamps
        self._journal = journal
        self._table = csv.writer(monitors, lineterminator="\n") if monitors else None
        self._files = [file for file in (journal, monitors) if file]
        if journal:
            journal.write(configuration if configuration.endswith("\n") else f"{configuration}\n")
        if self._table:
            self._table.writerow(("time", "call", "answer"))

    def taken(self, line: str, answer: str, by_car: bool) -> None:
        """Notes a line that was taken; one of the car's side is in the table too."""
        if self._journal:
            self._journal.write(f"{line}\n")
        if self._table and by_car:
            stamp = self.stamps.next()
            self._table.writerow((f"{stamp // 1_000_000}.{stamp % 1_000_000:06}", line, answer))
        for file in self._files:
            file.flush()


class Ecu:
    """The controller: what testers send and what happens in the car, on one fault memory."""

    def __init__(
        self,
        memory: Live,
        answers: dict[bytes, Fixed] | None = None,
        clock: Callable[[], float] | None = time.monotonic,
        records: Records | None = None,
    ) -> None:
        """Takes a running memory; without a clock time passes by the car's own ticks alone."""
        self._memory = memory
        self._answers = answers or {}
        self._clock = clock
        self._records = records or Records(Stamps())
        self._began = clock() if clock else 0.0
        self._ticked = 0

    @property
    def is_dark(self) -> bool:
        """Whether the life is dark: its start-up failed."""
        return self._memory.is_dark

    def stamp(self) -> int:
        """The time of the next record."""
        return self._records.stamps.next()

    def advance(self) -> None:
        """Makes the ticks that are due by the clock."""
        if self._clock is None:
            return
        due = int((self._clock() - self._began) * TICKS_A_SECOND) - self._ticked
        while due > 0:
            ticks = min(due, MOST_TICKS)
            self._make(f"tick {ticks}", by_car=True)
            self._ticked += ticks
            due -= ticks

    def step(self, line: str) -> str:
        """Makes a step of the car's side and returns its answer."""
        self.advance()
        return self._make(line, by_car=True)

    def request(self, tester: str, data: bytes) -> bytes | None:
        """Sends a tester's request and returns the answer; none where it is silent.

        The ticks that are due are made before, by `advance`: none comes between the time at which a
        request is in a capture and the request. The fault memory is asked first, so its own
        services and S3 are never touched by the table. A fixed answer is given where it refuses the
        service.
        """
        answer = self._make(request_line(tester, data), by_car=False)
        response = None if answer in ("silent", "dark") else bytes.fromhex(answer)
        fixed = self._answers.get(data)
        if fixed is None or response != bytes([0x7F, data[0], NOT_SUPPORTED]):
            return response
        for line in fixed.steps:
            self._make(line, by_car=True)
        return fixed.answer

    def _make(self, line: str, by_car: bool) -> str:
        """Makes a line and notes it."""
        answer = self._memory.step(line)
        words = " ".join(line.split())
        if words and not words.startswith("#"):
            self._records.taken(words, answer, by_car)
        return answer


def read_table(path: str | Path | None) -> dict[bytes, Fixed]:
    """The table of fixed answers in this file; empty without a file."""
    if path is None:
        return {}
    return read_answers(Path(path).read_text(encoding="ascii", errors="replace"))
