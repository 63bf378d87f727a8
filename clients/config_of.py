#!/usr/bin/env python3
"""Makes configuration lines out of a table, and the table out of the lines.

    config_of.py car.csv > car.cfg
    config_of.py --back car.cfg > car.csv

The table is a CSV, with commas or semicolons, with a row for each event. A DTC is written as
P0123-00 (SAE J2012) or as 012300.
The column `name` becomes a comment. Rows above the head may be `config,7`, `memory,4`, `blocks,0`
and `flash,2,256`.
"""

from __future__ import annotations

import argparse
import csv
import io
import re
import sys
from collections.abc import Sequence
from enum import Enum

import programs
from words import dtc_of, j2012_of

WHOLE = ("config", "memory", "blocks", "flash")
# The pairs of an event line: how many numbers follow each word. `dtc` and `dids` are apart.
PAIRS = {
    "prio": 1,
    "cycle": 1,
    "confirm": 1,
    "heal": 1,
    "age": 1,
    "lamp": 1,
    "needs": 1,
    "count": 4,
    "jumpup": 1,
    "jumpdown": 1,
    "time": 2,
}
COLUMNS = ("event", "name", "dtc", *PAIRS, "dids")
NUMBER = re.compile(r"-?[0-9]{1,10}")
DID = re.compile(r"[0-9A-Fa-f]{4}")
VISIBLE = re.compile(r"[ -~]*")


class Cause(Enum):
    """Why a table, or a configuration, is refused."""

    HEAD = "head"
    COLUMN = "column"
    EVENT = "event"
    DTC = "dtc"
    NUMBER = "number"
    NAME = "name"
    LINE = "line"


class ConfigError(Exception):
    """A row or a line that is refused."""

    def __init__(self, cause: Cause, row: int, what: str) -> None:
        """Keeps the cause and the row, or the line."""
        super().__init__(f"row {row} {cause.value}: {what}")
        self.cause = cause
        self.row = row


# ---- From a table.


def lines_of_table(text: str) -> list[str]:
    """The configuration lines of a table."""
    lines: list[str] = []
    head: list[str] | None = None
    events = 0
    delimiter = ";" if text.count(";") > text.count(",") else ","
    for row, cells in enumerate(csv.reader(io.StringIO(text), delimiter=delimiter), 1):
        cells = [cell.strip() for cell in cells]
        if not any(cells) or cells[0].startswith("#"):
            continue
        if head is not None:
            if any(cells[len(head) :]):
                raise ConfigError(Cause.COLUMN, row, "there are more cells than columns")
            lines += lines_of_row(row, dict(zip(head, cells)), events)
            events += 1
        elif cells[0] in WHOLE:
            lines.append(" ".join(cell for cell in cells if cell))
        else:
            head = checked_head(row, cells)
    if head is None:
        raise ConfigError(Cause.HEAD, 0, "there is no row of the columns' names")
    return lines


def checked_head(row: int, cells: list[str]) -> list[str]:
    """The names of the columns."""
    while not cells[-1]:
        cells.pop()
    for cell in cells:
        if cell not in COLUMNS:
            raise ConfigError(Cause.COLUMN, row, f"'{cell}' is none of {', '.join(COLUMNS)}")
    if "dtc" not in cells or len(set(cells)) != len(cells):
        raise ConfigError(
            Cause.HEAD, row, "the column dtc is missing, or a name stands there twice"
        )
    return cells


def lines_of_row(row: int, cells: dict[str, str], event: int) -> list[str]:
    """The lines of an event: its name, its event line, its data identifiers."""
    if cells.get("event") not in (None, "", str(event)):
        raise ConfigError(Cause.EVENT, row, f"this is event {event}, as events are numbered from 0")
    name = cells.get("name", "")
    if not VISIBLE.fullmatch(name):
        raise ConfigError(
            Cause.NAME, row, "a name has visible characters of ASCII alone, as scripts have"
        )
    dtc = dtc_of(cells.get("dtc", ""))
    if dtc is None:
        raise ConfigError(
            Cause.DTC, row, f"'{cells.get('dtc', '')}' is neither as P0123-00 nor as 012300"
        )
    words = [f"event {event} dtc {dtc:06X}"]
    words += [pair_of(row, word, cells[word]) for word in PAIRS if cells.get(word)]
    dids = cells.get("dids", "").split()
    if not all(DID.fullmatch(it) for it in dids):
        raise ConfigError(Cause.NUMBER, row, "a data identifier has four hexadecimal digits")
    named = [f"# {name}"] if name else []
    return [*named, " ".join(words), *(f"did {event} {it.upper()}" for it in dids)]


def pair_of(row: int, word: str, cell: str) -> str:
    """A pair of an event line."""
    numbers = cell.split()
    if len(numbers) != PAIRS[word] or not all(NUMBER.fullmatch(it) for it in numbers):
        raise ConfigError(
            Cause.NUMBER, row, f"{word} takes {PAIRS[word]} numbers, and not '{cell}'"
        )
    return f"{word} {' '.join(numbers)}"


# ---- Back.


def table_of_lines(text: str, spells_hex: bool = False) -> str:
    """The table of these lines. A comment above an event line is its name; others are let go."""
    whole: list[list[str]] = []
    rows: list[dict[str, str]] = []
    comment = ""
    for at, line in enumerate(text.splitlines(), 1):
        words = line.split()
        if not words or words[0].startswith("#"):
            comment = line.strip().lstrip("#").strip()
            continue
        if words[0] in WHOLE:
            whole.append(words)
        elif words[0] == "event":
            rows.append(row_of_event(at, words, comment, spells_hex, len(rows)))
        elif words[0] == "did":
            add_did(at, words, rows)
        else:
            raise ConfigError(Cause.LINE, at, f"'{words[0]}' begins no configuration line")
        comment = ""
    out = io.StringIO()
    plain = csv.writer(out, lineterminator="\n")
    plain.writerows(whole)
    used = [
        it for it in COLUMNS if it in ("event", "name", "dtc") or any(row.get(it) for row in rows)
    ]
    plain.writerow(used)
    plain.writerows([[row.get(it, "") for it in used] for row in rows])
    return out.getvalue()


def row_of_event(
    at: int, words: list[str], name: str, spells_hex: bool, event: int
) -> dict[str, str]:
    """The row of an event line."""
    if words[1:2] != [str(event)]:
        raise ConfigError(Cause.EVENT, at, f"the next event is {event}")
    row = {"event": words[1], "name": name}
    left = words[2:]
    while left:
        word, size = left[0], 1 if left[0] == "dtc" else PAIRS.get(left[0], 0)
        if not size or len(left) <= size or word in row:
            raise ConfigError(
                Cause.LINE, at, f"'{word}' is no pair of an event line, or stands there twice"
            )
        row[word] = " ".join(left[1 : size + 1])
        left = left[size + 1 :]
    dtc = dtc_of(row.get("dtc", ""))
    if dtc is None:
        raise ConfigError(Cause.DTC, at, "an event has a DTC of six hexadecimal digits")
    row["dtc"] = f"{dtc:06X}" if spells_hex else j2012_of(dtc)
    return row


def add_did(at: int, words: list[str], rows: list[dict[str, str]]) -> None:
    """Adds a data identifier to its event's row."""
    if len(words) != 3 or not words[1].isdigit() or int(words[1]) >= len(rows):
        raise ConfigError(
            Cause.LINE, at, "a did line has an event that stands above it, and an identifier"
        )
    row = rows[int(words[1])]
    row["dids"] = f"{row.get('dids', '')} {words[2].upper()}".strip()


# ---- The program.


def main(arguments: Sequence[str] | None = None) -> int:
    """Prints the lines, or the table."""
    parser = argparse.ArgumentParser(
        description="A table of events to configuration lines, and back.",
        epilog="Exit status: 0 done, 2 a row is refused. './faultmem check' checks the ranges.",
    )
    parser.add_argument(
        "file", metavar="FILE", help="the table, or with --back the lines; -: standard input"
    )
    parser.add_argument("--back", action="store_true", help="a table out of configuration lines")
    parser.add_argument(
        "--hex", action="store_true", help="with --back: DTCs as 012300, not as P0123-00"
    )
    given = parser.parse_args(arguments)
    try:
        if given.file == "-":
            text = sys.stdin.read()
        else:
            with open(given.file, encoding="utf-8-sig", newline="") as file:
                text = file.read()
        if given.back:
            sys.stdout.write(table_of_lines(text, given.hex))
        else:
            sys.stdout.write(programs.lines_of(lines_of_table(text)))
    except (ConfigError, OSError, UnicodeDecodeError, csv.Error) as error:
        print(f"config_of.py: {error}", file=sys.stderr)
        return 2
    return 0


if __name__ == "__main__":
    sys.exit(main())
