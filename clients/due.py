#!/usr/bin/env python3
"""Judges a trace as `./faultmem audit` does, and says of a wrong answer what was given and what was
due.

    due.py trace.json          the first answer that is wrong
    due.py --all trace.json    each answer that is wrong

What was due is the answer of `./faultmem run` to the same calls. The life must begin as that of a
new controller, or as the lives before the last one in the trace's script leave it.
"""

from __future__ import annotations

import argparse
import json
import sys
from collections.abc import Sequence
from dataclasses import dataclass
from pathlib import Path
from typing import Any

import programs
from programs import ProgramError, Programs
from script import MOST_STEPS, configuration_of, first_word, lives_of

# Calls of a save, which are no steps; they are answered so, and change no other answer.
OF_SAVE = ("snapshot", "saved")
TAKEN = "taken"


class DueError(Exception):
    """What was due cannot be said."""


@dataclass(frozen=True)
class Difference:
    """A place of the journal where another answer was due."""

    place: int
    call: str
    given: str
    due: str

    def text(self) -> str:
        """The lines for a reader."""
        return f"place {self.place}: {self.call}\n  given {self.given}\n  due   {self.due}"


def lives_before(script: str) -> str:
    """The script up to its last `power`, or its configuration lines where it has one life alone."""
    lines = script.splitlines()
    powers = [at for at, line in enumerate(lines) if line.split() == ["power"]]
    return programs.lines_of(lines[: powers[-1] + 1] if powers else configuration_of(script))


def beginning_of(script: str, base: list[str], using: Programs) -> str:
    """Lines of a script after which a life begins with this base."""
    for it in (lives_before(script), programs.lines_of(configuration_of(script))):
        ran = using.run("trace", it)
        if ran.status == 0 and json.loads(ran.text)["base"] == base:
            return it
    raise DueError(
        "the base is neither that of a new controller, nor what the lives before the last leave"
    )


def due_answers(calls: list[str], beginning: str, using: Programs) -> list[str]:
    """The answers of `run` to these calls of a journal."""
    steps = [it.partition(" ")[2] for it in calls]
    made = [it for it in steps if first_word(it) not in OF_SAVE]
    if len(made) + beginning.count("\n") > MOST_STEPS:
        raise DueError(f"there are more than {MOST_STEPS} calls")
    ran = using.run("run", beginning + programs.lines_of(made))
    lives = lives_of(ran.text)
    if ran.status != 0 or len(lives[-1].calls) != len(made):
        raise DueError(f"the calls cannot be made again: {ran.text.splitlines()[-1:]}")
    answers = iter(call.answer for call in lives[-1].calls)
    return [TAKEN if first_word(it) in OF_SAVE else next(answers) for it in steps]


def differences(trace: dict[str, Any], count: int | None, using: Programs) -> list[Difference]:
    """The places among the first calls, or all, where another answer was due."""
    calls, given = trace["journal"][:count], trace["answers"][:count]
    beginning = beginning_of(trace["script"], trace["base"], using)
    due = due_answers(calls, beginning, using)
    rows = enumerate(zip(calls, given, due))
    return [Difference(at, *row) for at, row in rows if row[1] != row[2]]


def judge(text: bytes, wants_all: bool, using: Programs) -> tuple[int, list[str]]:
    """The status of the audit, and the lines to print."""
    ran = using.run("audit", text)
    verdict = ran.text.strip()
    words = verdict.split()
    if words[:1] != ["no"]:
        return ran.status, [verdict]
    place = int(words[1])
    found = differences(json.loads(text), None if wants_all else place + 1, using)
    if not found or found[0].place != place:
        raise DueError(f"the audit says '{verdict}', and the calls made again differ elsewhere")
    lines = [verdict, *(it.text() for it in found)]
    if wants_all:
        count = len(json.loads(text)["journal"])
        lines.append(f"{len(found)} of {count} answers are wrong")
    return ran.status, lines


def main(arguments: Sequence[str] | None = None) -> int:
    """Prints the verdict, and what was due; the exit status is that of the audit."""
    parser = argparse.ArgumentParser(
        description="Judges a trace, and says what was due where an answer is wrong.",
        epilog="Exit status: that of './faultmem audit'; 69 if TRACE cannot be read or a program"
        " cannot be run, 70 if what was due cannot be said.",
    )
    parser.add_argument(
        "trace", metavar="TRACE", nargs="?", default="-", help="a file; none or -: standard input"
    )
    parser.add_argument(
        "--all", action="store_true", help="tell each answer that is wrong, not only the first"
    )
    programs.add_option(parser)
    given = parser.parse_args(arguments)
    try:
        text = sys.stdin.buffer.read() if given.trace == "-" else Path(given.trace).read_bytes()
        status, lines = judge(text, given.all, Programs.named(given.faultmem))
    except (ProgramError, OSError) as error:
        print(f"due.py: {error}", file=sys.stderr)
        return 69
    except DueError as error:
        print(f"due.py: {error}", file=sys.stderr)
        return 70
    print("\n".join(lines))
    return status


if __name__ == "__main__":
    sys.exit(main())
