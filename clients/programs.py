"""How the clients find and run the programs of this repository.

A command is that of the wrapper `./faultmem`, unless another one is given, or named by the variable
FAULTMEM of the environment: `FAULTMEM="./faultmem try"` runs the programs without their proofs.
"""

from __future__ import annotations

import argparse
import os
import shlex
import subprocess
from collections.abc import Iterable
from dataclasses import dataclass
from pathlib import Path

TOP = Path(__file__).resolve().parent.parent
VARIABLE = "FAULTMEM"
# The words of the second program and of the live program; all others are of the first.
OF_INSPECT = ("inspect", "trace", "audit")
LIVE = "live"
SECONDS = 600.0


class ProgramError(Exception):
    """A program that cannot be run, or that does not end."""


@dataclass(frozen=True)
class Ran:
    """What a program printed, and its exit status."""

    status: int
    printed: bytes

    @property
    def text(self) -> str:
        """The printed bytes as text; the programs print ASCII alone."""
        return self.printed.decode("ascii", "replace")


@dataclass(frozen=True)
class Programs:
    """How the commands of the first program, the second one and the live one begin."""

    first: tuple[str, ...]
    second: tuple[str, ...]
    live: tuple[str, ...]
    environment: tuple[tuple[str, str], ...] | None = None

    @staticmethod
    def named(given: str | None = None) -> Programs:
        """The programs behind one wrapper: the one given, the one of the environment, or ours."""
        words = tuple(shlex.split(given or os.environ.get(VARIABLE, ""))) or (
            str(TOP / "faultmem"),
        )
        return Programs(words, words, words)

    @staticmethod
    def built() -> Programs | None:
        """The programs as they lie in crates/*/out, without the wrapper; none if one is not built.

        The live program is taken where it is built; a call on it fails where it is not.
        """
        found = [built_program(crate) for crate in ("faultmem", "flt_inspect")]
        if None in found:
            return None
        live = built_program("faultmem_live")
        first, second = (str(path) for path in found)
        quiet = (("ASAN_OPTIONS", "abort_on_error=1"),)
        return Programs((first,), (second,), (str(live),) if live else (), quiet)

    def command(self, word: str) -> list[str]:
        """The command that runs this word."""
        if word == LIVE:
            begins = self.live
        else:
            begins = self.second if word in OF_INSPECT else self.first
        if not begins:
            raise ProgramError(f"there is no program for the word {word}")
        return [*begins, word]

    def run(self, word: str, text: bytes | str) -> Ran:
        """Runs a word with this text as its standard input; its standard error is not shown."""
        command = self.command(word)
        given = text.encode("ascii") if isinstance(text, str) else text
        environment = None if self.environment is None else dict(self.environment)
        try:
            ran = subprocess.run(
                command,
                input=given,
                capture_output=True,
                timeout=SECONDS,
                env=environment,
                check=False,
            )
        except (OSError, subprocess.TimeoutExpired) as error:
            raise ProgramError(f"{shlex.join(command)}: {error}") from error
        if ran.returncode in (69, 70, 73, 126, 127) or ran.returncode < 0:
            told = ran.stderr.decode("utf-8", "replace").strip()
            raise ProgramError(f"{shlex.join(command)} ended with {ran.returncode}: {told}")
        return Ran(ran.returncode, ran.stdout)


def built_program(crate: str) -> Path | None:
    """The program of this crate: the proved one, or the one without proofs, or none."""
    for name in (crate, "try"):
        path = TOP / "crates" / crate / "out" / name
        if os.access(path, os.X_OK):
            return path
    return None


def add_option(parser: argparse.ArgumentParser) -> None:
    """Adds the option that names the wrapper."""
    parser.add_argument(
        "--faultmem",
        metavar="COMMAND",
        help="the wrapper that runs the programs, perhaps './faultmem try'; without it the"
        f" variable {VARIABLE}, or ./faultmem of this repository",
    )


def read_text(path: str | Path) -> str:
    """Reads a file of ASCII text; another byte becomes a question mark."""
    return Path(path).read_bytes().decode("ascii", "replace").replace("\ufffd", "?")


def lines_of(texts: Iterable[str]) -> str:
    """Joins lines, each with its line feed."""
    return "".join(f"{text}\n" for text in texts)
