"""A script as a VCD file (IEEE 1364, value change dump), which GTKWave and its like show.

A unit of time is a call. The calls and their answers are texts, a kind of variable that GTKWave
added; a blank in them is written as `_`.
"""

from typing import Dict, Iterator, List, Optional, Tuple

from drawing.report import Call, Event, Report, State
from drawing.timeline import BITS

# The values of an event: name, kind, bits.
VALUES = (
    ("status", "reg", 8),
    *((f"bit{bit}_{short}", "wire", 1) for bit, (short, _, _) in enumerate(BITS)),
    ("fdc", "integer", 32),
    ("failed", "integer", 32),
    ("clean", "integer", 32),
    ("stored", "integer", 32),
)


def identifier(number: int) -> str:
    """Returns the short name of a variable: the visible characters are its digits."""
    digits = ""
    while True:
        digits += chr(33 + number % 94)
        number //= 94
        if number == 0:
            return digits


def bits_of(value: Optional[int], width: int) -> str:
    """Returns a value as it is written before its variable; one that is not known is x."""
    if width == 1:
        return "x" if value is None else str(value)
    return "bx " if value is None else f"b{value % (1 << width):b} "


def text_of(text: str) -> str:
    """Returns a text as one word."""
    return "s" + (text.replace(" ", "_") or "-") + " "


def values_of(state: Optional[State]) -> List[Optional[int]]:
    """Returns the values of an event, in the order of their names."""
    if state is None:
        return [None] * len(VALUES)
    bits: List[Optional[int]] = [state.status >> bit & 1 for bit in range(8)]
    return [state.status, *bits, state.fdc, state.failed, state.clean, state.stored]


def generation_of(call: Call, before: Optional[int]) -> Optional[int]:
    """Returns the generation that is acknowledged after a call."""
    if call.word in ("life", "power"):
        words = call.answer.split()
        return int(words[1]) if words[0] == "generation" else None
    return int(call.answer) if call.word == "save" and call.answer.isdigit() else before


def overflow_of(call: Call) -> Optional[int]:
    """Returns whether the fault memory overflowed; each event shows it."""
    known = [state.overflow for state in call.states.values() if state]
    return known[0] if known else None


def ticks_of(call: Call, before: int) -> int:
    """Returns how many ticks of 10 ms passed since the first life began."""
    return (
        before + int(call.text.split()[1])
        if call.word == "tick" and call.answer == "taken"
        else before
    )


class Names:
    """Hands out the short names of variables, and declares them."""

    def __init__(self) -> None:
        self.count = 0
        self.lines: List[str] = []

    def declare(self, name: str, kind: str, width: int) -> str:
        """Declares a variable, and returns its short name."""
        short = identifier(self.count)
        self.count += 1
        bits = f" [{width - 1}:0]" if kind == "reg" else ""
        self.lines.append(f"$var {kind} {width} {short} {name}{bits} $end")
        return short


def declared(names: Names, events: List[Event]) -> Tuple[Dict[str, str], Dict[int, List[str]]]:
    """Declares all variables: those of the whole, and those of each event."""
    names.lines.append("$scope module faultmem $end")
    kinds = (
        ("call", "string", 1),
        ("answer", "string", 1),
        ("life", "integer", 32),
        ("generation", "integer", 32),
    )
    whole = {
        name: names.declare(name, kind, bits)
        for name, kind, bits in (*kinds, ("overflow", "wire", 1), ("ticks", "integer", 32))
    }
    each = {}
    for event in events:
        names.lines.append(f"$scope module event_{event.number}_DTC_{event.dtc} $end")
        each[event.number] = [names.declare(*value) for value in VALUES]
        names.lines.append("$upscope $end")
    names.lines.append("$upscope $end")
    return whole, each


def values(
    report: Report, whole: Dict[str, str], each: Dict[int, List[str]]
) -> Iterator[Dict[str, str]]:
    """Yields for each call the text of each variable's value after it."""
    generation: Optional[int] = None
    ticks = 0
    for call in report.calls:
        generation, ticks = generation_of(call, generation), ticks_of(call, ticks)
        lane = f"lane {call.lane}: " if call.lane is not None else ""
        found = {whole["call"]: text_of(lane + call.text), whole["answer"]: text_of(call.answer)}
        found[whole["life"]], found[whole["generation"]] = bits_of(call.life, 32), bits_of(
            generation, 32
        )
        found[whole["overflow"]], found[whole["ticks"]] = bits_of(overflow_of(call), 1), bits_of(
            ticks, 32
        )
        for event, shorts in each.items():
            for short, value, (_, _, width) in zip(
                shorts, values_of(call.states.get(event)), VALUES
            ):
                found[short] = bits_of(value, width)
        yield found


def vcd(report: Report) -> str:
    """Returns a report as the text of a VCD file."""
    names = Names()
    whole, each = declared(names, report.events)
    title = " ".join(it for it in report.title.split() if it != "$end")
    lines = [
        f"$comment {title} $end",
        "$comment a unit of time is a call $end",
        "$timescale 1 us $end",
    ]
    lines += [*names.lines, "$enddefinitions $end"]
    before: Dict[str, str] = {}
    for at, found in enumerate(values(report, whole, each)):
        changed = [
            f"{value}{short}" for short, value in found.items() if before.get(short) != value
        ]
        lines += [f"#{at}", "$dumpvars", *changed, "$end"] if at == 0 else [f"#{at}", *changed]
        before = found
    lines.append(f"#{len(report.calls)}")
    return "\n".join(lines) + "\n"
