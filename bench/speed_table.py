#!/usr/bin/env python3
"""The table of docs/SPEED.md, from what bench/run.sh prints.

    { bench/run.sh; bench/run.sh 256; } | bench/speed_table.py [--write]

Each table of bench/run.sh that comes is of 64 and then of 256 events. The rows go to standard output; with --write they take the place of
those in docs/SPEED.md. Rows that do not depend on the events are taken of the first table alone, and so are those of other programs.
"""
import os
import re
import sys

EVENTS = (64, 256)
ALWAYS = ("empty", "comments", "load plain", "load lanes")
NAMES = {"empty": "empty script", "lives": "lives"}
HEAD = (
    "| Run | Events | Milliseconds | Nanoseconds a step | Page faults | Peak memory, KB | Instructions | a step |\n"
    "|---|---:|---:|---:|---:|---:|---:|---:|\n"
)
PAGE = os.path.join(os.path.dirname(os.path.dirname(os.path.abspath(__file__))), "docs", "SPEED.md")
ROW = re.compile(r"(\w[\w ]*?) +(\d+) +(\d+) +(\d+) +(\d+) +(\d+) +(\d+|-)")


def rows_of(text: str) -> list[str]:
    """Returns the rows of the table for what bench/run.sh printed, once or twice."""
    rows, table = [], -1
    for line in text.split("\n"):
        if line.startswith("run "):
            table += 1
        found = ROW.fullmatch(line.strip())
        if found is None or line.startswith(" ") or not 0 <= table < len(EVENTS) or (table and found[1] in ALWAYS):
            continue
        name, steps = found[1], int(found[2])
        took, nanoseconds, faults, peak = (int(it) for it in found.groups()[2:6])
        # A run of lives is over 16 events where their number is not given.
        events = "" if name in ALWAYS else "16" if name == "lives" and not table else str(EVENTS[table])
        counted = found[7] != "-"
        cells = [
            NAMES.get(name, name),
            events,
            f"{took / 1000:.1f}",
            f"{nanoseconds:,}" if steps > 1 else "",
            f"{faults:,}",
            f"{peak:,}",
            f"{int(found[7]) / 1e6:.1f} M" if counted else "",
            f"{int(found[7]) // steps:,}" if counted and steps > 1 else "",
        ]
        rows.append(f"| {' | '.join(cells)} |")
    return rows


def page_with(page: str, rows: list[str]) -> str:
    """Returns the page with these rows in its table."""
    before, head, rest = page.partition(HEAD)
    if not head:
        raise ValueError("the page has no such table")
    behind = re.sub(r"\A(?:\|.*\n)*", "", rest)
    return before + head + "".join(f"{row}\n" for row in rows) + behind


def main(words: list[str]) -> int:
    """Prints the rows, or writes them."""
    if words not in ([], ["--write"]):
        print(__doc__)
        return 0 if words in (["--help"], ["-h"]) else 1
    rows = rows_of(sys.stdin.read())
    if not rows:
        sys.exit("speed_table.py: there is no row of bench/run.sh in the input")
    print(HEAD + "\n".join(rows))
    if words:
        with open(PAGE, encoding="utf-8") as it:
            page = page_with(it.read(), rows)
        with open(PAGE, "w", encoding="utf-8") as it:
            it.write(page)
    return 0


if __name__ == "__main__":
    sys.exit(main(sys.argv[1:]))
