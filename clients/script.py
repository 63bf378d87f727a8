"""The lines of a script and of its report, as docs/SCRIPT.md has them."""

from __future__ import annotations

import re
from dataclasses import dataclass, field

CONFIGURATION = ("config", "memory", "blocks", "flash", "event", "did")
ARROW = " -> "
# The most steps of a script, bytes of a line, and bytes of a request.
MOST_STEPS = 65_536
LINE = 512
REQUEST = 16
TESTERS = "ABCD"


def first_word(line: str) -> str:
    """The first word of a line, or nothing; a comment has none."""
    words = line.split(maxsplit=1)
    return "" if not words or words[0].startswith("#") else words[0]


def configuration_of(script: str) -> list[str]:
    """The configuration lines of a script, each with single blanks."""
    return [
        " ".join(line.split()) for line in script.splitlines() if first_word(line) in CONFIGURATION
    ]


def title_of(script: str) -> str:
    """The text of the script's first comment, or nothing."""
    for line in script.splitlines():
        if line.lstrip().startswith("#"):
            return line.strip().lstrip("#").strip()
        if line.strip():
            break
    return ""


def request_line(tester: str, data: bytes) -> str:
    """The step of a tester's request.

    A longer request is cut to 16 bytes. That changes no answer: no request of the profile is longer
    than six bytes, so it is refused by its service, its sub-function or its length, whatever comes
    behind.
    """
    return f"t {tester} {data[:REQUEST].hex(' ').upper()}"


@dataclass(frozen=True)
class Call:
    """A step with its answer."""

    call: str
    answer: str


# The lanes of a block, each with its steps.
Lanes = list[list[Call]]


@dataclass
class Life:
    """The line that begins a life, and its parts as printed: steps, and blocks of lanes."""

    begins: str
    parts: list[Call | Lanes] = field(default_factory=list)

    @property
    def calls(self) -> list[Call]:
        """The steps in the order in which they are printed."""
        found: list[Call] = []
        for part in self.parts:
            found += [part] if isinstance(part, Call) else [it for lane in part for it in lane]
        return found


def lives_of(report: str) -> list[Life]:
    """The lives of a report of `run`, `ea` or `watch`; none if it is of something else."""
    lives: list[Life] = []
    lanes: Lanes | None = None
    for line in report.splitlines():
        if re.match(r"life [0-9]+ ", line):
            lives.append(Life(line))
        elif not lives:
            continue
        elif line == "par":
            lanes = []
            lives[-1].parts.append(lanes)
        elif line == "end":
            lanes = None
        elif lanes is not None and re.fullmatch(r"lane [0-9]+", line):
            lanes.append([])
        elif ARROW in line:
            call, _, answer = line.partition(ARROW)
            made = Call(call, answer)
            if lanes is None:
                lives[-1].parts.append(made)
            else:
                lanes[-1].append(made)
    return lives
