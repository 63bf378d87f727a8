#!/usr/bin/env python3
"""In place of the live program, in tests alone: keeps the lines so far, and makes them all again by
`run`.

`stand_in.py PROGRAM live CONFIG [IMAGE]`: PROGRAM is the first program. It answers as `live` does:
runs are deterministic, so what the last line adds to the report is its answer. IMAGE is no image
here, but the lines so far: the next start goes on behind them, as behind a loss of power.
"""

from __future__ import annotations

import os
import re
import subprocess
import sys

BLOCKS = ("par", "lane", "end")
CONFIGURATION = ("config", "memory", "blocks", "flash", "event", "did")


class StandIn:
    """The lines so far, and the program that makes them."""

    def __init__(self, program: str, lines: list[str], image: str | None) -> None:
        """Goes on behind the lines of the image."""
        self._program = program
        self._image = image
        self._lines = lines
        if image and os.path.exists(image):
            with open(image, encoding="ascii") as file:
                self._lines += file.read().splitlines()
            self._lines.append("power")
        self._lives = self._lines.count("power")

    def run(self, *more: str) -> tuple[int, list[str]]:
        """The exit status of a run of the lines and these, and the report."""
        given = "".join(f"{line}\n" for line in (*self._lines, *more)).encode()
        ran = subprocess.run(
            [self._program, "run"], input=given, stdout=subprocess.PIPE, check=False
        )
        return ran.returncode, ran.stdout.decode().splitlines()

    def shown(self, line: str) -> str:
        """A line of the report; lives are counted from this start on."""
        match = re.match(r"life (\d+) (.*)", line)
        return f"life {int(match[1]) - self._lives} {match[2]}" if match else line

    def answer(self, line: str) -> str:
        """The answer to a line, which is kept if it is taken."""
        word = (line.split() or [""])[0]
        if not word or word.startswith("#"):
            return ""
        if word in BLOCKS:
            return "refused block"
        status, report = self.run(line)
        if status == 2:
            return f"refused {report[0].split()[3]}"
        if word in CONFIGURATION:
            return "refused order"
        self._lines.append(line)
        if self._image:
            with open(self._image, "a", encoding="ascii") as file:
                file.write(f"{line}\n")
        return self.shown(report[-1])


def main() -> int:
    """Answers line by line; the exit status is that of the last run."""
    program, _, configuration = sys.argv[1:4]
    with open(configuration, encoding="ascii") as file:
        lines = file.read().splitlines()
    it = StandIn(program, lines, sys.argv[4] if len(sys.argv) > 4 else None)
    status, report = it.run()
    print(it.shown(report[-1]) if report else "", flush=True)
    if status != 0:
        return status
    for line in sys.stdin:
        out = it.answer(line.rstrip("\r\n"))
        print(out, flush=True)
        if out.startswith("life ") and " refused " in out:
            break
    return it.run()[0]


if __name__ == "__main__":
    sys.exit(main())
