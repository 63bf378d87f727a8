#!/usr/bin/env python3
"""Draws a script as a timing diagram or as a VCD file, and the sectors of a flash.

    clients/draw.py timeline SCRIPT -o picture.svg
    clients/draw.py vcd SCRIPT -o waves.vcd
    clients/draw.py sectors DUMP -o flash.svg
    clients/draw.py sectors CONFIG IMAGE -o flash.svg

docs/PICTURES.md says what they show, which limits they have, and what each exit status means.
"""

import argparse
import os
import re
import sys
from typing import List, NoReturn, Optional, Tuple

sys.path.insert(0, os.path.dirname(os.path.abspath(__file__)))

# pylint: disable=wrong-import-position
from drawing.causes import Cause, NotDrawn  # noqa: E402
from drawing.program import WRAPPER, Program  # noqa: E402
from drawing.report import report_of  # noqa: E402
from drawing.sectors import sectors  # noqa: E402
from drawing.sheet import LEAST_WIDTH, MOST_WIDTH  # noqa: E402
from drawing.timeline import timeline  # noqa: E402
from drawing.vcd import vcd  # noqa: E402


# One byte more than an input of the programs may have.
MOST_INPUT = 16_777_217


class Parser(argparse.ArgumentParser):
    """A parser of the words that ends with the status of wrong words."""

    def error(self, message: str) -> NoReturn:
        """Tells what is wrong, and ends."""
        self.print_usage(sys.stderr)
        self.exit(Cause.USAGE.value, f"draw.py: {message}\n")


def width(word: str) -> int:
    """Returns the width of a picture, if it is one."""
    if not word.isdigit() or not LEAST_WIDTH <= int(word) <= MOST_WIDTH:
        raise argparse.ArgumentTypeError(f"a width is a number of {LEAST_WIDTH} to {MOST_WIDTH}")
    return int(word)


def calls(word: str) -> Tuple[int, int]:
    """Returns the first and the last number of a part of the calls."""
    found = re.fullmatch(r"(\d{1,9})-(\d{1,9})", word)
    if not found:
        raise argparse.ArgumentTypeError("a part of the calls is FIRST-LAST, two numbers")
    return int(found.group(1)), int(found.group(2))


def events(word: str) -> List[int]:
    """Returns the numbers of events."""
    if not re.fullmatch(r"\d{1,3}(,\d{1,3})*", word):
        raise argparse.ArgumentTypeError("events are numbers with commas between them")
    return [int(it) for it in word.split(",")]


def common() -> Parser:
    """Returns the options of each command."""
    found = Parser(add_help=False)
    add = found.add_argument
    add("-o", "--output", metavar="FILE", help="where it goes; standard output if it is left out")
    told = "what is run with the words run, check and inspect; ./faultmem if it is left out"
    add("--program", default=WRAPPER, metavar="PATH", help=told)
    told = "run PATH try .., which proves nothing first"
    add("--try", action="store_true", dest="unproved", help=told)
    return found


def sized() -> Parser:
    """Returns the options of a picture."""
    found = Parser(add_help=False)
    told = "the width of the picture (880)"
    found.add_argument("--width", type=width, default=880, metavar="PIXELS", help=told)
    return found


def scripted() -> Parser:
    """Returns the argument of a command that makes a script."""
    found = Parser(add_help=False)
    told = "a script; standard input if it is left out, or -"
    found.add_argument("script", nargs="?", default="-", metavar="SCRIPT", help=told)
    return found


def parser() -> argparse.ArgumentParser:
    """Returns the parser of the words."""
    first = (__doc__ or "").split("\n", maxsplit=1)[0]
    last = "Limits and exit statuses: docs/PICTURES.md"
    top = Parser(prog="draw.py", description=first, epilog=last)
    words = top.add_subparsers(dest="word", required=True, metavar="timeline | vcd | sectors")
    told = "a script as a timing diagram, in SVG"
    line = words.add_parser("timeline", parents=[common(), sized(), scripted()], help=told)
    told = "draw these calls alone, by the numbers in the picture"
    line.add_argument("--calls", type=calls, metavar="FIRST-LAST", help=told)
    told = "draw these events alone"
    line.add_argument("--events", type=events, default=[], metavar="N,N..", help=told)
    told = "a script as a VCD file, for GTKWave and its like"
    words.add_parser("vcd", parents=[common(), scripted()], help=told)
    told = "the two sectors of a flash, in SVG"
    flash = words.add_parser("sectors", parents=[common(), sized()], help=told)
    told = "a dump, as ./faultmem inspect reads it, or the lines of a configuration"
    flash.add_argument("dump", metavar="DUMP|CONFIG", help=told)
    told = "the bytes of the flash, behind a CONFIG"
    flash.add_argument("image", nargs="?", metavar="IMAGE", help=told)
    return top


def bytes_of(path: str) -> bytes:
    """Returns what a file has, or standard input; of more bytes than are ever taken, the first."""
    try:
        if path == "-":
            return sys.stdin.buffer.read(MOST_INPUT)
        with open(path, "rb") as file:
            return file.read(MOST_INPUT)
    except OSError as fault:
        raise NotDrawn(Cause.READ, f"{path} cannot be read: {fault.strerror}") from fault


def name_of(path: str) -> str:
    """Returns the name of a file as a title: its letters have the width of those of ASCII."""
    name = os.path.basename(path)
    return "".join(it if it.isprintable() and ord(it) < 0x250 else "?" for it in name)


def drawn(words: argparse.Namespace) -> str:
    """Returns what these words ask for."""
    program = Program([words.program, "try"] if words.unproved else [words.program])
    if words.word == "sectors":
        image = None if words.image is None else bytes_of(words.image)
        name = name_of(words.image or words.dump)
        return sectors(bytes_of(words.dump), image, name, program, words.width)
    name = "a script of standard input" if words.script == "-" else name_of(words.script)
    report = report_of(bytes_of(words.script), name, program)
    if words.word == "vcd":
        return vcd(report)
    return timeline(report, words.width, words.calls, words.events)


def write(text: str, path: Optional[str]) -> None:
    """Writes the picture."""
    try:
        if path is None:
            sys.stdout.buffer.write(text.encode())
            sys.stdout.buffer.flush()
        else:
            with open(path, "wb") as file:
                file.write(text.encode())
    except OSError as fault:
        if path is None:
            # What is left goes nowhere, so that the flush at the end does not fail once more.
            os.dup2(os.open(os.devnull, os.O_WRONLY), sys.stdout.fileno())
        text = f"{path or 'standard output'} cannot be written: {fault.strerror}"
        raise NotDrawn(Cause.WRITE, text) from fault


def main(arguments: Optional[List[str]] = None) -> int:
    """Draws what the words ask for, and returns the exit status."""
    words = parser().parse_args(arguments)
    try:
        write(drawn(words), words.output)
    except NotDrawn as fault:
        print(f"draw.py: {fault.text}", file=sys.stderr)
        return fault.cause.value
    return 0


if __name__ == "__main__":
    sys.exit(main())
