#!/usr/bin/env python3
"""Talks to the live fault memory: one line in, one answer out.

As a module:

    with Live.start("car.cfg", "car.img") as memory:
        memory.step("cycle 0")                           # 'taken'
        memory.request("A", bytes.fromhex("19 02 08"))   # the response, or None if it is silent

As a program it is a small shell for people: `live.py car.cfg car.img`. Behind each answer it says
in words what a status byte, a list of DTCs or a negative response means.
"""

from __future__ import annotations

import argparse
import os
import select
import subprocess
import sys
import time
from collections.abc import Iterable, Sequence
from enum import Enum
from pathlib import Path
from types import TracebackType

import programs
from programs import ProgramError, Programs
from script import ARROW, request_line
from words import BITS, answer_in_words, status_in_words

# A bound of the longest line out: a response has 1,040 bytes.
LINE_OUT = 65_536
PATIENCE = 60.0


class Cause(Enum):
    """Why a line is refused: the causes of scripts, and two of the live program's own."""

    LARGE = "large"
    LONG = "long"
    BYTE = "byte"
    WORD = "word"
    FORM = "form"
    ORDER = "order"
    RANGE = "range"
    MANY = "many"
    BLOCK = "block"
    DID = "did"
    ARM = "arm"
    OTHER = "other"


class End(Enum):
    """Why the live program ended, by its exit status."""

    DONE = 0
    WORDS = 1
    CONFIGURATION = 2
    READING = 3
    WRITING = 4
    DARK = 5
    IMAGE = 6
    MEMORY = 7
    SEQUENCE = 8
    IMAGE_SIZE = 14
    IMAGE_IN_USE = 15
    IMAGE_UNOPENED = 16
    OTHERWISE = -1


class LiveError(Exception):
    """What a call on the live program cannot answer."""


class Refused(LiveError):
    """A line that is refused. It changed nothing, and the program goes on."""

    def __init__(self, line: str, cause: Cause) -> None:
        """Keeps the line and its cause."""
        super().__init__(f"refused {cause.value}: {line}")
        self.line = line
        self.cause = cause


class Ended(LiveError):
    """The program ended; `why` says what its status means, `text` is its last line."""

    def __init__(self, status: int, text: str) -> None:
        """Keeps the status and the last line."""
        self.status = status
        self.text = text
        self.why = End(status) if status in {end.value for end in End} else End.OTHERWISE
        super().__init__(f"the live program ended with {status} ({self.why.name.lower()}): {text}")


class NoAnswer(LiveError):
    """No answer came in time, or one that is none."""


class Live:
    """A running live program. A context manager: at its end the program is ended and waited for."""

    def __init__(self, command: Sequence[str], patience: float = PATIENCE) -> None:
        """Starts the program by this command and waits for the first line of life 1."""
        self._patience = patience
        self._left = b""
        self._status: int | None = None
        # In a session of its own: what a terminal sends to all is for this program alone, which
        # ends the live one by the end of its input.
        self._process = subprocess.Popen(
            command, stdin=subprocess.PIPE, stdout=subprocess.PIPE, start_new_session=True
        )
        self.text = ""
        try:
            self.begins = self._begin(self._read_line())
        except BaseException:
            self.close()
            raise

    @classmethod
    def start(
        cls,
        configuration: str | Path,
        image: str | Path | None = None,
        using: Programs | None = None,
        patience: float = PATIENCE,
    ) -> Live:
        """Starts `live CONFIG [IMAGE]`; without an image the flash is in memory."""
        files = [str(configuration)] if image is None else [str(configuration), str(image)]
        return cls([*(using or Programs.named()).command(programs.LIVE), *files], patience)

    @property
    def is_dark(self) -> bool:
        """Whether the start-up of this life failed, so that each step answers `dark`."""
        return self.begins.endswith(" dark")

    def step(self, line: str) -> str:
        """Makes one line and returns its answer: the text after the arrow, or the first line of
        the next life.

        A comment and an empty line answer nothing. Raises Refused, Ended or NoAnswer.
        """
        if "\n" in line:
            raise ValueError("a step is one line")
        out = self._ask(line)
        if out.startswith("refused "):
            raise Refused(line, cause_of(out))
        if out.startswith("life "):
            self.begins = self._begin(out)
            return out
        return out.partition(ARROW)[2]

    def request(self, tester: str, data: bytes) -> bytes | None:
        """Sends a request and returns the response; None if it is suppressed, or the life dark."""
        answer = self.step(request_line(tester, data))
        return None if answer in ("silent", "dark") else bytes.fromhex(answer)

    def close(self) -> int:
        """Ends the input, waits for the program, and returns its exit status."""
        if self._status is None:
            self._status = self._end()
        return self._status

    def __enter__(self) -> Live:
        """Returns the running program."""
        return self

    def __exit__(
        self,
        kind: type[BaseException] | None,
        error: BaseException | None,
        trace: TracebackType | None,
    ) -> None:
        """Ends the program; a status other than 0 is raised, unless an error is on its way."""
        status = self.close()
        if status != 0 and error is None:
            raise Ended(status, self.text)

    def _begin(self, line: str) -> str:
        """Takes the first line of a life; a refused life ends the program."""
        if " refused " in line or not line.startswith("life "):
            raise Ended(self.close(), line)
        return line

    def _ask(self, line: str) -> str:
        """Writes a line and returns the one that answers it."""
        if self._status is not None or self._process.stdin is None:
            raise Ended(self.close(), self.text)
        try:
            self._process.stdin.write(line.encode("ascii", "replace") + b"\n")
            self._process.stdin.flush()
        except BrokenPipeError:
            raise Ended(self.close(), self.text) from None
        return self._read_line()

    def _read_line(self) -> str:
        """Reads a line; raises Ended where there is none, NoAnswer where it comes too late."""
        assert self._process.stdout is not None
        descriptor = self._process.stdout.fileno()
        until = time.monotonic() + self._patience
        while b"\n" not in self._left:
            left = until - time.monotonic()
            if left <= 0 or not select.select([descriptor], [], [], left)[0]:
                raise NoAnswer(f"no answer in {self._patience} seconds")
            got = os.read(descriptor, LINE_OUT)
            if not got:
                raise Ended(self.close(), self.text)
            self._left += got
            if len(self._left) > LINE_OUT:
                raise NoAnswer("the answer is too long to be one")
        line, _, self._left = self._left.partition(b"\n")
        self.text = line.decode("ascii", "replace")
        return self.text

    def _end(self) -> int:
        """Closes the input and waits; a program that does not end in time is ended."""
        process = self._process
        try:
            if process.stdin is not None:
                process.stdin.close()
        except BrokenPipeError:
            pass
        if process.stdout is not None:
            process.stdout.close()
        try:
            return process.wait(self._patience)
        except subprocess.TimeoutExpired:
            process.terminate()
        try:
            return process.wait(self._patience)
        except subprocess.TimeoutExpired:
            process.kill()
            return process.wait()


def cause_of(line: str) -> Cause:
    """The cause of a line `refused CAUSE`."""
    word = line.split()[1]
    if word not in {cause.value for cause in Cause}:
        raise NoAnswer(f"'{line}' is no answer")
    return Cause(word)


# ---- The shell for people.

HELP = """A line of a script is made at once: cycle 0, fail 0, show 0, t A 19 02 08, save, power.
docs/SCRIPT.md has them all. The shell has three words of its own:
  bits HH   what this status byte means
  help      this
  quit      ends the program, as the end of the input does"""


def shell_word(line: str) -> list[str] | None:
    """The answer to a word of the shell; none if the line is a step."""
    words = line.split()
    if words == ["help"]:
        return HELP.splitlines()
    if len(words) == 2 and words[0] == "bits":
        try:
            status = bytes.fromhex(words[1])
        except ValueError:
            status = b""
        if len(status) != 1:
            return ["bits takes a byte of two hexadecimal digits"]
        return [f"bit {bit} {name}" for bit, name in enumerate(BITS) if status[0] >> bit & 1] or [
            status_in_words(0)
        ]
    return None


def lines_behind(live: Live, line: str) -> list[str]:
    """What the shell prints for a line: its answer, and what this means."""
    own = shell_word(line)
    if own is not None:
        return own
    try:
        answer = live.step(line)
    except Refused as refusal:
        return [f"refused {refusal.cause.value}"]
    return [answer, *(f"    {it}" for it in answer_in_words(answer))] if answer else []


def typed_lines(prompt: str) -> Iterable[str]:
    """The lines that are typed, with a history; or those of an input that is no terminal."""
    if not sys.stdin.isatty():
        for line in sys.stdin:
            yield line.rstrip("\r\n")
        return
    try:
        import readline  # noqa: F401 - it gives input() its history
    except ImportError:
        pass
    while True:
        try:
            yield input(prompt)
        except EOFError:
            return
        except KeyboardInterrupt:
            print()


def run_shell(live: Live, lines: Iterable[str]) -> None:
    """Prints the first life's line, and then what follows each line."""
    print(live.begins, flush=True)
    for line in lines:
        if line.split() == ["quit"]:
            return
        for out in lines_behind(live, line):
            print(out, flush=True)


def main(arguments: Sequence[str] | None = None) -> int:
    """Runs the shell; the exit status is that of the live program."""
    parser = argparse.ArgumentParser(
        description="A small shell to the live fault memory.",
        epilog="The exit status is that of the live program; 69 if it cannot be started.",
    )
    parser.add_argument("config", metavar="CONFIG", help="a file of configuration lines")
    parser.add_argument(
        "image", metavar="IMAGE", nargs="?", help="the file of the flash; none: in memory"
    )
    programs.add_option(parser)
    given = parser.parse_args(arguments)
    try:
        with Live.start(given.config, given.image, Programs.named(given.faultmem)) as live:
            run_shell(live, typed_lines("faultmem> "))
    except Ended as end:
        print(end.text if end.text else end, file=sys.stderr)
        return end.status if end.status >= 0 else 70
    except (LiveError, ProgramError, OSError) as error:
        print(f"live.py: {error}", file=sys.stderr)
        return 69
    return 0


if __name__ == "__main__":
    sys.exit(main())
