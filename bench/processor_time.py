#!/usr/bin/env python3
"""What runs of a program cost, and of a second one beside it.

    processor_time.py INPUT PROGRAM[,OTHER] WORDS..

Each program is run fifteen times, or as often as RUNS says, on these words, with the file INPUT as its standard input; what it prints is let go. Two programs take
turns, so that other work on the machine meets both. For each program a line is printed: the processor time (user and system) of the
shortest run in microseconds, the fewest page faults, and, of as many runs more, the most memory in KB. Another exit status than 0 ends it.

User and system time are added: many kernels know their sum exactly, and share it out by samples that miss a short run."""

import argparse
import os
import sys
from typing import List, Tuple

RUNS = int(os.environ.get("RUNS", "15"))


def started(source: str, command: List[str]) -> int:
    """Starts a run, and returns its process. A fork would copy pages of this process, and they would be counted."""
    streams = [
        (os.POSIX_SPAWN_OPEN, 0, source, os.O_RDONLY, 0),
        (os.POSIX_SPAWN_OPEN, 1, os.devnull, os.O_WRONLY, 0),
    ]
    return os.posix_spawn(command[0], command, os.environ, file_actions=streams)


def cost(source: str, command: List[str]) -> Tuple[int, int]:
    """Returns the microseconds and the page faults of one run."""
    _, status, used = os.wait4(started(source, command), 0)
    if status != 0:
        sys.exit(f"{' '.join(command)} < {source}: wait status {status}")
    return round((used.ru_utime + used.ru_stime) * 1_000_000), used.ru_minflt + used.ru_majflt


def peak(source: str, command: List[str]) -> int:
    """Returns the most memory of one run in KB: the mark that the kernel keeps of it, read until it ends."""
    child = started(source, command)
    found = 0
    while True:
        with open(f"/proc/{child}/status", encoding="ascii") as it:
            marks = [line.split()[1] for line in it if line.startswith("VmHWM:")]
        if not marks:
            break
        found = int(marks[0])
    os.waitpid(child, 0)
    return found


def main() -> None:
    """Runs the programs in turn, and prints a line for each."""
    parser = argparse.ArgumentParser(description=__doc__, formatter_class=argparse.RawDescriptionHelpFormatter)
    parser.add_argument("input", metavar="INPUT", help="the file that is the standard input of each run")
    parser.add_argument("programs", metavar="PROGRAM[,OTHER]", help="the path of a program, or of two")
    parser.add_argument("words", metavar="WORDS", nargs=argparse.REMAINDER, help="the words of each run")
    given = parser.parse_args()
    commands = [[program, *given.words] for program in given.programs.split(",")]
    runs = [[cost(given.input, command) for command in commands] for _ in range(RUNS)]
    for command, its in zip(commands, zip(*runs)):
        print(*(min(it) for it in zip(*its)), max(peak(given.input, command) for _ in range(RUNS)))


if __name__ == "__main__":
    main()
