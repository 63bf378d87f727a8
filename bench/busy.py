#!/usr/bin/env python3
"""What a load in four lanes takes on the clock while other processes keep the processors busy.

    busy.py [--busy COUNT] [--runs COUNT] PROGRAM [OTHER]

COUNT processes (4) count without an end, and are killed when it is over. Beside them `load 60000 lanes` is run this many times (20), in turn by
PROGRAM and, if it is named, by OTHER. For each program a line is printed: the median, the shortest and the longest run in milliseconds on the
clock; and with OTHER the first median as a share of the second."""

import argparse
import os
import statistics
import subprocess
import sys
import time
from typing import List

COUNTING = "while True: pass"

# No run may take longer, in seconds.
LIMIT = 300


def took(program: str) -> float:
    """Returns how many milliseconds a run of the program takes."""
    start = time.monotonic()
    words = [program, "load", "60000", "lanes"]
    try:
        ended = subprocess.run(words, stdout=subprocess.DEVNULL, stdin=subprocess.DEVNULL, check=False, timeout=LIMIT)
    except subprocess.TimeoutExpired:
        sys.exit(f"{program}: more than {LIMIT} seconds")
    if ended.returncode != 0:
        sys.exit(f"{program}: status {ended.returncode}")
    return (time.monotonic() - start) * 1000


def main() -> None:
    """Runs the programs in turn beside the busy processes, and prints a line for each."""
    parser = argparse.ArgumentParser(description=__doc__, formatter_class=argparse.RawDescriptionHelpFormatter)
    parser.add_argument("--busy", metavar="COUNT", type=int, default=4, help="how many processes are busy; 4 if not given")
    parser.add_argument("--runs", metavar="COUNT", type=int, default=20, help="how often each program is run; 20 if not given")
    parser.add_argument("program", metavar="PROGRAM", help="the path of a program")
    parser.add_argument("other", metavar="OTHER", nargs="?", help="the path of another one")
    given = parser.parse_args()
    programs: List[str] = [os.path.abspath(it) for it in (given.program, given.other) if it]
    busy = [subprocess.Popen([sys.executable, "-c", COUNTING]) for _ in range(given.busy)]
    try:
        runs = [[took(program) for program in programs] for _ in range(given.runs)]
    finally:
        for it in busy:
            it.kill()
            it.wait()
    medians = [statistics.median(its) for its in zip(*runs)]
    for program, median, its in zip(programs, medians, zip(*runs)):
        print(f"{os.path.basename(program)}: {median:.1f} ms, {min(its):.1f} to {max(its):.1f}")
    if given.other:
        print(f"share: {medians[0] / medians[1]:.2f}")


if __name__ == "__main__":
    main()
