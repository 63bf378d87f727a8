#!/usr/bin/env python3
"""Makes the trace of a life out of a capture and a table of the monitors' calls; `./faultmem audit`
judges it.

    trace_of.py CONFIG CAPTURE MONITORS > trace.json
    ./faultmem audit trace.json

CAPTURE is DoIP over TCP (pcap, pcapng), candump's log, or Vector's ASC. MONITORS is a table with
the columns time, call, answer: what happened in the car. docs/USE.md has an example.
"""

from __future__ import annotations

import argparse
import csv
import io
import json
import sys
from collections.abc import Sequence
from dataclasses import dataclass, field
from decimal import Decimal, InvalidOperation
from enum import Enum
from pathlib import Path

import programs
from can_capture import messages_of, of_asc, of_candump
from capture import CaptureError, Exchange, Names, exchanges_of
from doip_capture import DoipCapture
from programs import ProgramError, Programs
from script import MOST_STEPS, REQUEST, TESTERS, configuration_of, first_word, request_line
from wire import PORT, default_port, port_number
from words import hex_of

SECOND = 10**9
TICK = 10**7
MOST_TICKS = 65_535
# The services of the fault memory. Another service is refused by it, whatever the controller
# answers.
SERVICES = (0x10, 0x14, 0x19, 0x3E, 0x85)
# Steps that call the status machine, and steps of the store, which are in no journal.
CALLS = ("pass", "fail", "prepass", "prefail", "show", "cycle", "tick", "sig", "enable", "t")
OF_STORE = ("post", "urge", "drain", "get", "ask", "cut", "fault", "mute")
# Answers of a life that is dark are none of the status machine.
DARK = "dark"


class Fault(Enum):
    """Why a trace cannot be made of what was given."""

    ROW = "row"
    CALL = "call"
    CONFIGURATION = "configuration"
    DARK = "dark"
    MANY = "many"


class TraceError(Exception):
    """What was given makes no trace."""

    def __init__(self, fault: Fault, what: str) -> None:
        """Keeps the fault."""
        super().__init__(f"trace {fault.value}: {what}")
        self.fault = fault


@dataclass
class Item:
    """A call with its answer, its time in nanoseconds, and the exchange of a request."""

    time: int
    call: str
    answer: str
    exchange: Exchange | None = None


@dataclass
class Trace:
    """The trace of the last life, the calls before it, and what a reader should know."""

    items: list[Item]
    before: list[Item]
    base: list[str]
    script: str
    notes: list[str] = field(default_factory=list)

    def text(self) -> str:
        """The JSON object, as `./faultmem trace` prints one."""
        calls = [it for item in self.items for it in calls_of(item)]
        object_of = {
            "answers": [answer for _, answer in calls],
            "base": self.base,
            "journal": [f"0 {call}" for call, _ in calls],
            "script": self.script,
        }
        return json.dumps(object_of, separators=(",", ":"))

    def place_of(self, item: Item) -> int:
        """The place of the item's first call in the journal."""
        before = self.items[: self.items.index(item)]
        return sum(len(calls_of(it)) for it in before)


def calls_of(item: Item) -> list[tuple[str, str]]:
    """The calls of a journal that a step makes: a save makes two, or one if it fails."""
    word = first_word(item.call)
    if word == "save":
        saved = [(f"saved {item.answer}", "taken")] if item.answer.isdigit() else []
        return [("snapshot", "taken"), *saved]
    return [(item.call, item.answer)] if word in CALLS else []


# ---- What is read.


def read_monitors(text: str) -> list[Item]:
    """The table of the monitors' calls; a row is a time in seconds, a step, and its answer."""
    items = []
    for at, row in enumerate(csv.reader(io.StringIO(text)), 1):
        if not row or (at == 1 and row[0].strip() == "time") or row[0].startswith("#"):
            continue
        if len(row) != 3:
            raise TraceError(Fault.ROW, f"row {at} of the monitors has not three columns")
        try:
            time = int(Decimal(row[0].strip()) * SECOND)
        except (InvalidOperation, ValueError, OverflowError):
            raise TraceError(Fault.ROW, f"row {at} of the monitors has no time") from None
        call = " ".join(row[1].split())
        if first_word(call) not in (*CALLS, *OF_STORE, "save", "power"):
            raise TraceError(Fault.CALL, f"row {at} of the monitors has no step: '{call[:60]}'")
        items.append(Item(time, call, row[2].strip()))
    return items


@dataclass(frozen=True)
class Where:
    """Where testers are in a capture: port and entity, or identifiers of CAN; its clock."""

    port: int = PORT
    entity: int | None = None
    requests: tuple[int, ...] = (0x7E0,)
    responses: tuple[int, ...] = (0x7E8,)
    shift: int = 0


def read_capture(data: bytes, where: Where, names: Names) -> list[Exchange]:
    """The requests of a capture with their answers."""
    beginning = data[:512].lstrip()
    if beginning.startswith(b"("):
        messages = messages_of(of_candump(data, names), where.requests, where.responses, names)
    elif beginning.lower().startswith((b"date", b"base", b"//")):
        messages = messages_of(of_asc(data, names), where.requests, where.responses, names)
    else:
        messages = DoipCapture(names, where.port, where.entity).messages(data)
    return exchanges_of(messages)


def items_of(exchanges: list[Exchange], shift: int, notes: list[str]) -> list[Item]:
    """The exchanges as calls; one of another service is answered as the fault memory does."""
    items, others = [], 0
    for it in exchanges:
        data = it.request.piece.data
        answer = hex_of(it.answer.piece.data) if it.answer else "silent"
        if data[0] not in SERVICES:
            others += 1
            answer = hex_of(bytes([0x7F, data[0], 0x11]))
        call = request_line(it.request.tester, data)
        items.append(Item(it.request.time + shift, call, answer, it))
    if others:
        notes.append(f"{others} requests of other services: their answers are not judged")
    return items


# ---- What is made.


def with_ticks(items: list[Item]) -> list[Item]:
    """The items with the ticks of 10 ms that pass between them by their times."""
    made: list[Item] = []
    ticked = 0
    for item in items:
        due = (item.time - items[0].time) // TICK - ticked
        while due > 0:
            ticks = min(due, MOST_TICKS)
            made.append(Item(item.time, f"tick {ticks}", "taken"))
            ticked += ticks
            due -= ticks
        made.append(item)
    return made


def note_overlaps(items: list[Item], shift: int, notes: list[str]) -> None:
    """Notes calls of the car's side while a request waited: their order is not known."""
    waits = [
        (it.time, it.exchange.answer.time + shift)
        for it in items
        if it.exchange and it.exchange.answer
    ]
    cars = [it.time for it in items if it.exchange is None]
    count, at = 0, 0
    for begin, end in waits:
        while at < len(cars) and cars[at] <= begin:
            at += 1
        later = at
        while later < len(cars) and cars[later] < end:
            later += 1
        count += later - at
    if count:
        what = "calls of the car lie between a request and its answer; they count as behind it"
        notes.append(f"{count} {what}")


def base_of(script: str, using: Programs) -> list[str]:
    """The state with which the last life of a script begins."""
    ran = using.run("trace", script)
    if ran.status != 0:
        refused = using.run("check", script).text.strip()
        raise TraceError(
            Fault.CONFIGURATION, f"the lives before are not made (status {ran.status}): {refused}"
        )
    base: list[str] = json.loads(ran.text)["base"]
    return base


def make_trace(
    configuration: str, exchanges: list[Exchange], monitors: list[
        Item
    ], where: Where, ticks: bool, using: Programs
) -> Trace:
    """The trace of the last life. Those before it are made, to find what it began with."""
    notes: list[str] = []
    items = sorted(
        monitors + items_of(exchanges, where.shift, notes), key=lambda it: (
            it.time, it.exchange is not None
        )
    )
    note_overlaps(items, where.shift, notes)
    if ticks:
        items = with_ticks(items)
    powers = [at for at, it in enumerate(items) if it.call == "power"]
    begin = powers[-1] + 1 if powers else 0
    before, life = items[:begin], items[begin:]
    if len(items) > MOST_STEPS:
        raise TraceError(Fault.MANY, f"there are more than {MOST_STEPS} calls")
    if any(it.answer == DARK for it in life):
        raise TraceError(Fault.DARK, "the last life is dark")
    lines = [*configuration_of(configuration), *(it.call for it in before)]
    script = programs.lines_of(lines)
    return Trace(life, before, base_of(script, using), script, notes)


# ---- Names of bytes.


def name_in(item: Item, place: int) -> tuple[str, bool, bool] | None:
    """A byte in an exchange: its name, whether it is read, whether it is an answer's."""
    it = item.exchange
    if it is None:
        return None
    at = it.request.piece.index_of(place)
    if at is not None:
        what = f"byte {at} of the request {item.call}"
        return (what, True, False) if at < REQUEST else (
            f"{what}, behind those that are read", False, False
        )
    at = it.answer.piece.index_of(place) if it.answer else None
    if at is None:
        return None
    what = f"byte {at} of the answer to {item.call}"
    if it.request.piece.data[0] in SERVICES:
        return what, True, True
    return f"{what}, a service that the fault memory does not have", False, True


def name_of(place: int, trace: Trace, names: Names) -> tuple[str, bool, int | None]:
    """What a byte of the capture is, whether it is read, and its call's place."""
    for item in trace.items:
        found = name_in(item, place)
        if found:
            return found[0], found[1], trace.place_of(item)
    for item in trace.before:
        found = name_in(item, place)
        if found:
            what, is_read, is_answer = found
            return f"{what}, in a life before the last", is_read and not is_answer, None
    span = names.at(place)
    return (span.name, span.is_read, None) if span else (
        "a byte that no reader looks at", False, None
    )


# ---- The program.


def seconds(text: str) -> int:
    """Seconds in nanoseconds."""
    return int(Decimal(text) * SECOND)


def hexadecimal(text: str) -> int:
    """A number in hexadecimal digits."""
    return int(text, 16)


def arguments_of(given: Sequence[str] | None) -> argparse.Namespace:
    """Reads the arguments."""
    parser = argparse.ArgumentParser(
        description="Makes a trace for './faultmem audit' out of a capture.",
        epilog="Exit status: 0 done, 2 a file cannot be taken, 69 a program cannot be run.",
    )
    add = parser.add_argument
    add("config", metavar="CONFIG", help="a file of configuration lines")
    add("capture", metavar="CAPTURE", help="pcap or pcapng of DoIP, candump's log, or ASC")
    add("monitors", metavar="MONITORS", help="a table with the columns time, call, answer")
    add("--port", type=port_number, default=default_port(), help="the entity's port")
    add("--entity", type=hexadecimal, help="its logical address, where there are several")
    add(
        "--request",
        type=hexadecimal,
        nargs="+",
        default=[0x7E0],
        help="identifiers of testers A to D",
    )
    add("--response", type=hexadecimal, nargs="+", default=[0x7E8], help="of the answers to them")
    add(
        "--shift",
        type=seconds,
        default=0,
        metavar="SECONDS",
        help="is added to the capture's times",
    )
    add("--ticks", action="store_true", help="put in the ticks of 10 ms, by the times")
    add("--byte", type=int, metavar="PLACE", help="say instead what this byte of the capture is")
    programs.add_option(parser)
    found = parser.parse_args(given)
    if not 1 <= len(found.request) == len(found.response) <= len(TESTERS):
        parser.error("--request and --response take as many identifiers, at most four")
    return found


def main(arguments: Sequence[str] | None = None) -> int:
    """Prints the trace, and on standard error what is to be known of it."""
    given = arguments_of(arguments)
    names = Names()
    where = Where(
        given.port, given.entity, tuple(given.request), tuple(given.response), given.shift
    )
    try:
        exchanges = read_capture(Path(given.capture).read_bytes(), where, names)
        monitors = read_monitors(programs.read_text(given.monitors))
        configuration = programs.read_text(given.config)
        using = Programs.named(given.faultmem)
        trace = make_trace(configuration, exchanges, monitors, where, given.ticks, using)
    except (CaptureError, TraceError, OSError) as error:
        print(f"trace_of.py: {error}", file=sys.stderr)
        return 2
    except ProgramError as error:
        print(f"trace_of.py: {error}", file=sys.stderr)
        return 69
    if given.byte is not None:
        what, is_read, place = name_of(given.byte, trace, names)
        where_to = "" if place is None else f", place {place} of the journal"
        print(f"{what}{where_to}: {'read' if is_read else 'not read'}")
        return 0
    for note in trace.notes:
        print(f"trace_of.py: {note}", file=sys.stderr)
    print(trace.text())
    return 0


if __name__ == "__main__":
    sys.exit(main())
