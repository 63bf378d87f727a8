"""A script as a timing diagram: from left to right, folded into the parts that its width needs."""

import math
from dataclasses import dataclass
from typing import Callable, Dict, List, Optional, Sequence, Tuple, TypeVar

from drawing.causes import Cause, NotDrawn
from drawing.report import Call, Event, Report, State
from drawing.sheet import MARGIN, Sheet, cut, number, width_of

MOST_CALLS = 400
MOST_EVENTS = 16
# The bits of a status byte (ISO 14229-1, annex D): short name, long name, colour.
BITS = (
    ("TF", "test failed", "red"),
    ("TFTOC", "failed this cycle", "amber"),
    ("PDTC", "pending", "amber"),
    ("CDTC", "confirmed", "red"),
    ("TNCSLC", "not tested since clear", "grey"),
    ("TFSLC", "failed since clear", "amber"),
    ("TNCTOC", "not tested this cycle", "grey"),
    ("WIR", "warning indicator", "red"),
)
# The order of bits that rise at the same call, and of those that never do.
USUAL = (0, 1, 2, 3, 7, 5, 6, 4)
WIDE = 720
LEAST_COLUMN, MOST_COLUMN = 22.0, 46.0
TURN = 60
ROW = 17.0
COUNTER = 46.0
LETTERS = 26

Value = TypeVar("Value")


@dataclass(frozen=True)
class Rows:
    """Which rows an event has."""

    event: Event
    bits: Tuple[int, ...]
    counter: bool
    entry: bool


def bits_in_order(states: Sequence[Optional[State]]) -> Tuple[int, ...]:
    """Returns the bits that are ever set, in the order in which they rise; the last never do."""
    known = [state.status for state in states if state]
    never = len(known)

    def rises(bit: int) -> int:
        pairs = enumerate(zip(known, known[1:]))
        return next(
            (at for at, (one, two) in pairs if not one >> bit & 1 and two >> bit & 1), never
        )

    is_set = [bit for bit in USUAL if any(status >> bit & 1 for status in known)]
    return tuple(sorted(is_set, key=rises))


def rows_of(event: Event, calls: Sequence[Call]) -> Optional[Rows]:
    """Returns the rows of an event, or nothing if none of what it shows changes."""
    states = [call.states.get(event.number) for call in calls]
    known = [state for state in states if state]
    if not any(
        (it.status, it.fdc, it.stored) != (known[0].status, known[0].fdc, known[0].stored)
        for it in known
    ):
        return None
    counter, entry = any(state.fdc for state in known), any(state.stored for state in known)
    return Rows(event, bits_in_order(states), counter, entry)


def spans(values: Sequence[Value]) -> List[Tuple[int, int, Value]]:
    """Returns the runs of equal values: where each begins, where it ends, and its value."""
    found: List[Tuple[int, int, Value]] = []
    for at, value in enumerate(values):
        if found and found[-1][2] == value:
            found[-1] = (found[-1][0], at + 1, value)
        else:
            found.append((at, at + 1, value))
    return found


def cycles_of(calls: Sequence[Call], kind: int) -> List[int]:
    """Returns which operation cycle of this kind goes on after each call, from 1; 0 for none."""
    count, at, found = 0, 0, []
    for call in calls:
        if call.word in ("life", "power"):
            at = 0
        elif call.text == f"cycle {kind}" and call.answer == "taken":
            count += 1
            at = count
        found.append(at)
    return found


def is_listed(call: Call) -> bool:
    """Whether a call is shown with its whole answer below the rows."""
    return call.word == "t" or len(head_of(call)) > LETTERS


def head_of(call: Call) -> str:
    """Returns what is written over the column of a call."""
    lane = f"lane {call.lane}: " if call.lane is not None else ""
    if call.word == "t" or (
        call.answer in ("taken", "armed", "accepted", "dark") and call.word != "power"
    ):
        return lane + call.text
    return f"{lane}{call.text} → {call.answer}"


class Timeline:
    """A timeline under way: what is drawn of a report, and on which sheet."""

    def __init__(
        self, report: Report, calls: Sequence[Call], bands: Sequence[Rows], width: int
    ) -> None:
        self.report, self.calls, self.bands = report, calls, bands
        self.sheet = Sheet(width)
        self.is_wide = width >= WIDE
        self.left = (
            MARGIN
            + width_of("4 TNCSLC not tested since clear" if self.is_wide else "4 TNCSLC")
            + 34
        )
        self.cycles = {
            rows.event.cycle: cycles_of(report.calls, rows.event.cycle) for rows in bands
        }
        self.heads = [cut(head_of(call), width_of("m" * LETTERS)) for call in calls]
        self.per_part, self.column = self._columns()

    def _columns(self) -> Tuple[int, float]:
        """Returns how many columns a part has room for, with their heads, and how wide they are."""
        right = self.sheet.width - MARGIN
        least = max(LEAST_COLUMN, width_of(f"{self.calls[-1].number}  ", "fine"))
        leans = [6 + math.cos(math.radians(TURN)) * width_of(head) for head in self.heads]
        for parts in range(1, len(leans)):
            per = -(-len(leans) // parts)
            places = ((at % per, lean) for at, lean in enumerate(leans))
            room = min(
                [
                    (right - self.left) / per,
                    *((right - self.left - lean) / at for at, lean in places if at),
                ]
            )
            if room >= least:
                return per, min(room, MOST_COLUMN)
        return 1, MOST_COLUMN

    def x_of(self, at: int) -> float:
        """Returns where the column with this place in its part begins."""
        return self.left + self.column * at

    def draw(self) -> str:
        """Draws all, and returns the document."""
        self.sheet.paragraph(self.report.title, "title")
        self.sheet.paragraph(self._about(), "soft")
        for at in range(0, len(self.calls), self.per_part):
            self._draw_part(
                self.calls[at : at + self.per_part], self.heads[at : at + self.per_part]
            )
        self.sheet.y += 6
        for note in self._notes():
            self.sheet.paragraph(note, "soft", 0, 12)
        return self.sheet.document(self.report.title, self._about())

    def _about(self) -> str:
        calls = sum(1 for call in self.calls if call.word != "life")
        lives = len({call.life for call in self.calls})
        part = (
            ""
            if len(self.calls) == len(self.report.calls)
            else f" of {self.report.calls[-1].number}"
        )
        count = f"{calls}{part} calls in {lives} {'life' if lives == 1 else 'lives'}."
        return f"{count} What a call changes is drawn to the right of its text."

    def _notes(self) -> List[str]:
        words = {call.word for call in self.calls if self.bands}
        saves = {
            call.answer.isdigit()
            for call in self.calls
            if call.word in words and call.word == "save"
        }
        unknown = any(
            call.states.get(rows.event.number) is None for call in self.calls for rows in self.bands
        )
        said = (
            ("cycle" in words, "Shaded: the operation cycles of an event, in two tints by turns."),
            ("power" in words, "Red dashed line: the power was lost."),
            (True in saves, "Green line: a save that was acknowledged, with its generation."),
            (False in saves, "Amber dotted line: a save that failed."),
            (unknown, "Grey: not known, since lanes go on at the same time or the life is dark."),
        )
        notes = [note for is_so, note in said if is_so]
        idle = [
            str(it.number)
            for it in self.report.events
            if it.number not in {rows.event.number for rows in self.bands}
        ]
        if idle:
            names = ", ".join(idle[:12]) + (f" and {len(idle) - 12} more" if len(idle) > 12 else "")
            notes.append(
                f"Without rows, as nothing that they show changes: "
                f"event{'s' if len(idle) > 1 else ''} {names}."
            )
        if self.report.ended:
            notes.append(f"The run ends here: {self.report.ended}.")
        return notes

    def _draw_part(self, calls: Sequence[Call], heads: Sequence[str]) -> None:
        self._draw_heads(calls, heads)
        top = self.sheet.y
        for rows in self.bands:
            self._draw_band(rows, calls)
        if self.bands:
            self._draw_lines(calls, top, self.sheet.y)
        self.sheet.y += 4
        for call in calls:
            if is_listed(call):
                lane = f"lane {call.lane}: " if call.lane is not None else ""
                self.sheet.paragraph(
                    f"{call.number} {lane}{call.text} → {call.answer}", "text", 0, 24
                )

    def _draw_heads(self, calls: Sequence[Call], heads: Sequence[str]) -> None:
        sheet = self.sheet
        sheet.y += 18 + math.sin(math.radians(TURN)) * max(width_of(head) for head in heads)
        for at, (call, head) in enumerate(zip(calls, heads)):
            sheet.text(self.x_of(at) + 6, sheet.y, head, "text", turn=TURN)
            sheet.text(self.x_of(at), sheet.y + 14, str(call.number), "fine")
        sheet.y += 20

    def _draw_band(self, rows: Rows, calls: Sequence[Call]) -> None:
        sheet, event = self.sheet, rows.event
        states = [call.states.get(event.number) for call in calls]
        sheet.y += 10
        head = f"DTC {event.dtc}  event {event.number}"
        sheet.text(MARGIN, sheet.y + 9, cut(head, sheet.room, "head"), "head")
        sheet.text(
            MARGIN + width_of(head + "  ", "head"), sheet.y + 9, self._pairs(event, head), "soft"
        )
        sheet.y += 15
        top = sheet.y
        self._draw_status(calls, states)
        for bit in rows.bits:
            self._draw_bit(bit, states)
        if rows.counter:
            self._draw_counter(states)
        if rows.entry:
            self._draw_entry(calls, states)
        self._shade(rows, calls, states, top)

    def _pairs(self, event: Event, head: str) -> str:
        return cut(event.pairs, max(self.sheet.room - width_of(head + "  ", "head"), 0), "soft")

    def _label(self, y: float, long: str, short: str) -> None:
        self.sheet.text(MARGIN, y, long if self.is_wide else short, "soft")

    def _draw_status(self, calls: Sequence[Call], states: Sequence[Optional[State]]) -> None:
        sheet, y = self.sheet, self.sheet.y
        self._label(y + 12, "status byte", "status")
        for begin, end, (_, status) in spans(
            [(call.life, state and state.status) for call, state in zip(calls, states)]
        ):
            if status is None:
                continue
            one, two, middle, low = self.x_of(begin), self.x_of(end), y + 8, y + 15
            corners = [
                (one, middle),
                (one + 3, y + 1),
                (two - 3, y + 1),
                (two, middle),
                (two - 3, low),
                (one + 3, low),
            ]
            sheet.path(
                "M" + "L".join(f"{number(x)} {number(at)}" for x, at in corners) + "Z",
                "on-blue blue",
            )
            sheet.text((one + two) / 2, y + 12, f"{status:02X}", "text", "middle")
        sheet.y += ROW + 1

    def _steps(self, states: Sequence[Optional[State]], height_of: Callable[[State], float]) -> str:
        """Returns the outline of a value over the columns, with gaps where it is not known."""
        data, is_down = [], False
        for at, state in enumerate(states):
            if state is not None:
                y = number(height_of(state))
                data.append(
                    (f"V{y}" if is_down else f"M{number(self.x_of(at))} {y}")
                    + f"H{number(self.x_of(at + 1))}"
                )
            is_down = state is not None
        return "".join(data)

    def _draw_bit(self, bit: int, states: Sequence[Optional[State]]) -> None:
        sheet, y = self.sheet, self.sheet.y
        short, long, colour = BITS[bit]
        self._label(y + 12, f"{bit} {short} {long}", f"{bit} {short}")
        for begin, end, is_set in spans(
            [state is not None and bool(state.status >> bit & 1) for state in states]
        ):
            if is_set:
                sheet.fill(
                    self.x_of(begin), y + 3, self.x_of(end) - self.x_of(begin), 11, f"on-{colour}"
                )
        sheet.path(
            self._steps(states, lambda state: y + (3 if state.status >> bit & 1 else 14)),
            f"wave {colour}",
        )
        sheet.y += ROW

    def _draw_counter(self, states: Sequence[Optional[State]]) -> None:
        sheet, y = self.sheet, self.sheet.y + 7
        self._label(y + COUNTER / 2 + 4, "fault detection counter", "FDC")

        def height(value: int) -> float:
            return y + (127 - value) * COUNTER / 255

        for value in (127, 0, -128):
            sheet.text(self.left - 5, height(value) + 4, str(value), "fine", "end")
            sheet.path(
                f"M{number(self.left)} {number(height(value))}H{number(self.x_of(len(states)))}",
                "grey thin dotted",
            )
        sheet.path(self._steps(states, lambda state: height(state.fdc)), "wave blue")
        sheet.y = y + COUNTER + 7

    def _draw_entry(self, calls: Sequence[Call], states: Sequence[Optional[State]]) -> None:
        sheet, y = self.sheet, self.sheet.y
        self._label(y + 12, "entry in the fault memory", "entry")
        for begin, end, (_, stored) in spans(
            [(call.life, state.stored if state else 0) for call, state in zip(calls, states)]
        ):
            if stored:
                one, width = self.x_of(begin), self.x_of(end) - self.x_of(begin)
                sheet.path(
                    f"M{number(one)} {number(y + 1)}h{number(width)}v15h{number(-width)}z",
                    "on-green green",
                )
                texts = [f"occurrence {stored}", f"×{stored}", str(stored)]
                fits = [text for text in texts if width_of(text) + 4 <= width]
                if fits:
                    sheet.text(one + width / 2, y + 12, fits[0], "text", "middle")
        sheet.y += ROW + 3

    def _shade(
        self, rows: Rows, calls: Sequence[Call], states: Sequence[Optional[State]], top: float
    ) -> None:
        height = self.sheet.y - top
        first = self.report.calls.index(calls[0])
        cycles = self.cycles[rows.event.cycle][first : first + len(calls)]
        for begin, end, cycle in spans(cycles):
            if cycle:
                width = self.x_of(end) - self.x_of(begin)
                self.sheet.ground(
                    self.x_of(begin), top, width, height, "cycle-a" if cycle % 2 else "cycle-b"
                )
                if begin or calls[0].word == "cycle":
                    self.sheet.rule(
                        f"M{number(self.x_of(begin))} {number(top)}v{number(height)}", "grey thin"
                    )
        for begin, end, is_known in spans([state is not None for state in states]):
            if not is_known:
                self.sheet.ground(
                    self.x_of(begin), top, self.x_of(end) - self.x_of(begin), height, "unknown"
                )

    def _draw_lines(self, calls: Sequence[Call], top: float, bottom: float) -> None:
        for at, call in enumerate(calls):
            if call.word == "power":
                name = "red dashed"
            elif call.word == "save":
                name = "green" if call.answer.isdigit() else "amber dotted"
            else:
                continue
            self.sheet.rule(
                f"M{number(self.x_of(at))} {number(top - 2)}V{number(bottom + 2)}", name
            )


def part_of(report: Report, columns: Optional[Tuple[int, int]]) -> List[Call]:
    """Returns the calls from one number to another, or all."""
    if columns is None:
        return report.calls
    found = [call for call in report.calls if columns[0] <= call.number <= columns[1]]
    if not found:
        raise NotDrawn(
            Cause.LIMIT,
            f"the calls have the numbers 0 to {report.calls[-1].number}; none is drawn of "
            f"{columns[0]} to {columns[1]}",
        )
    return found


def timeline(
    report: Report,
    width: int,
    columns: Optional[Tuple[int, int]] = None,
    events: Sequence[int] = (),
) -> str:
    """Returns the timeline of a report as SVG."""
    calls = part_of(report, columns)
    if len(calls) > MOST_CALLS:
        text = (
            f"{len(calls)} calls are more than the {MOST_CALLS} that can be read; "
            "--calls FIRST-LAST draws a part of them, and vcd takes all"
        )
        raise NotDrawn(Cause.LIMIT, text)
    asked = [event for event in report.events if not events or event.number in events]
    bands = [rows for rows in (rows_of(event, calls) for event in asked) if rows]
    if len(bands) > MOST_EVENTS:
        text = (
            f"{len(bands)} events change, more than the {MOST_EVENTS} that can be read; "
            "--events N,N.. draws some of them, and vcd takes all"
        )
        raise NotDrawn(Cause.LIMIT, text)
    return Timeline(report, calls, bands, width).draw()
