#!/usr/bin/env python3
"""Measures how many audits one processor makes a second, with the built program of dumps and traces.

Each audit is a process of its own, as `xargs` starts them; its processor time is counted, user and system.
"""
from __future__ import annotations

import argparse
import resource
import subprocess
import sys
from pathlib import Path

PROGRAM = Path(__file__).resolve().parent.parent / "crates" / "flt_inspect" / "out" / "flt_inspect"
LINES = ("fail 0", "t A 19 02 08", "tick 10", "show 0", "pass 0", "t B 19 0A", "prefail 1", "cycle 0", "t A 3E 00", "prepass 1")


def script_of(calls: int) -> bytes:
    """A script of one life with this many calls."""
    lines = ["event 0 dtc 123456", "event 1 dtc 123457 count 10 10 3 2", "cycle 0"]
    lines += [LINES[at % len(LINES)] for at in range(calls - 1)]
    return "".join(f"{line}\n" for line in lines).encode()


def processor_seconds() -> float:
    """The processor time of the processes so far."""
    used = resource.getrusage(resource.RUSAGE_CHILDREN)
    return used.ru_utime + used.ru_stime


def main() -> int:
    """Prints a row for each number of calls."""
    parser = argparse.ArgumentParser(description=__doc__, formatter_class=argparse.RawDescriptionHelpFormatter)
    parser.add_argument("--program", default=str(PROGRAM), help="the built flt_inspect")
    parser.add_argument("--count", type=int, default=200, help="how many traces of 10 calls are audited; of longer ones fewer")
    given = parser.parse_args()
    program, count = given.program, given.count
    print("| Calls of a trace | Bytes | Audits a second of one processor |\n|---:|---:|---:|")
    for calls in (10, 100, 1_000, 10_000):
        trace = subprocess.run([program, "trace"], input=script_of(calls), capture_output=True, check=True).stdout
        begin, some = processor_seconds(), max(3, count * 10 // calls)
        for _ in range(some):
            ran = subprocess.run([program, "audit"], input=trace, capture_output=True, check=True)
            assert ran.stdout == b"yes %d\n" % calls, ran.stdout
        print(f"| {calls:,} | {len(trace):,} | {some / (processor_seconds() - begin):,.0f} |")
    return 0


if __name__ == "__main__":
    sys.exit(main())
