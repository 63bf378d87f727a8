#!/usr/bin/env python3
"""Packs vectors into the files that the program `examples` runs, and unpacks them.

A vector is a script, the word under which a program is run on it, and the exit status and the report that are due. Its kind is its name up to
the first underscore.

In a folder, the file INDEX has a line `NAME WORD STATUS` for each vector, and NAME.script and NAME.report are its script and its report.

A pack has the vectors of one kind, one after the other. Each is a line `NAME WORD STATUS SCRIPT_BYTES REPORT_BYTES`, then the script in
that number of bytes and a line feed, then the report in that number of bytes and a line feed. A script may hold any byte, so only the two
lengths say where it ends; the line feed after it is there for readers.
"""
from __future__ import annotations

import argparse
import re
import sys
from collections.abc import Iterable, Iterator
from dataclasses import dataclass
from pathlib import Path
from typing import BinaryIO

INDEX = "INDEX"
WORDS = ("run", "ea", "watch", "check", "inspect", "audit", "trace")
NAME = re.compile(r"[a-z0-9]+(?:_[a-z0-9]+)+")
HEADER = re.compile(rb"(?P<name>[a-z0-9_]+) (?P<word>[a-z]+) (?P<status>[0-9]{1,3}) (?P<script>[0-9]{1,9}) (?P<report>[0-9]{1,9})\n")


class VectorError(Exception):
    """A vector, or a pack of vectors, that cannot be read."""


@dataclass(frozen=True)
class Vector:
    """A script with its word, and with the exit status and the report that are due."""

    name: str
    word: str
    status: int
    script: bytes
    report: bytes

    def __post_init__(self) -> None:
        """Refuses what the program `examples` has no place for."""
        if not NAME.fullmatch(self.name):
            raise VectorError(f"'{self.name}' is no name: it has a kind, an underscore and more, all in small letters and digits")
        if self.word not in WORDS:
            raise VectorError(f"{self.name}: '{self.word}' is none of the words {', '.join(WORDS)}")
        if not 0 <= self.status < 256:
            raise VectorError(f"{self.name}: {self.status} is no exit status")

    @property
    def kind(self) -> str:
        """The name up to the first underscore."""
        return self.name.split("_")[0]

    @property
    def index_line(self) -> str:
        """The line of the vector in the index of a folder."""
        return f"{self.name} {self.word} {self.status}\n"

    @property
    def packed(self) -> bytes:
        """The vector as it is in a pack."""
        header = f"{self.name} {self.word} {self.status} {len(self.script)} {len(self.report)}"
        return b"\n".join((header.encode(), self.script, self.report, b""))


def read_piece(stream: BinaryIO, count: int) -> bytes:
    """Reads `count` bytes and a line feed, and returns the bytes."""
    piece = stream.read(count + 1)
    if len(piece) <= count or not piece.endswith(b"\n"):
        raise VectorError(f"no line feed stands {count} bytes behind byte {stream.tell() - len(piece)}")
    return piece[:-1]


def read_pack(stream: BinaryIO) -> Iterator[Vector]:
    """Yields the vectors of a pack."""
    while line := stream.readline():
        header = HEADER.fullmatch(line)
        if not header:
            raise VectorError(f"no vector begins at byte {stream.tell() - len(line)}, with the line {line!r}")
        script = read_piece(stream, int(header["script"]))
        report = read_piece(stream, int(header["report"]))
        yield Vector(header["name"].decode(), header["word"].decode(), int(header["status"]), script, report)


def read_folder(folder: Path) -> Iterator[Vector]:
    """Yields the vectors of a folder, in the order of its index."""
    for line in (folder / INDEX).read_text(encoding="utf-8").splitlines():
        words = line.split()
        if len(words) != 3 or not words[2].isdecimal():
            raise VectorError(f"{folder / INDEX}: the line '{line}' is not a name, a word and an exit status")
        name, word, status = words
        script = (folder / f"{name}.script").read_bytes()
        report = (folder / f"{name}.report").read_bytes()
        yield Vector(name, word, int(status), script, report)


def checked(vectors: Iterable[Vector]) -> list[Vector]:
    """Returns the vectors, each of which has a name of its own."""
    found: dict[str, Vector] = {}
    for vector in vectors:
        if found.setdefault(vector.name, vector) is not vector:
            raise VectorError(f"{vector.name} comes twice")
    return list(found.values())


def pack(folder: Path, out: Path) -> None:
    """Writes a pack vectors_KIND to the folder `out` for each kind of vector in `folder`."""
    packs: dict[str, list[Vector]] = {}
    for vector in checked(read_folder(folder)):
        packs.setdefault(vector.kind, []).append(vector)
    out.mkdir(parents=True, exist_ok=True)
    for kind, vectors in packs.items():
        (out / f"vectors_{kind}").write_bytes(b"".join(vector.packed for vector in vectors))
        print(f"{out}/vectors_{kind}: {len(vectors)} vectors")


def read_packs(files: Iterable[Path]) -> Iterator[Vector]:
    """Yields the vectors of these packs."""
    for file in files:
        try:
            with file.open("rb") as stream:
                yield from read_pack(stream)
        except VectorError as error:
            raise VectorError(f"{file}: {error}") from error


def unpack(files: Iterable[Path], folder: Path) -> None:
    """Writes the vectors of these packs to a folder that is empty, or not there yet."""
    vectors = checked(read_packs(files))
    folder.mkdir(parents=True, exist_ok=True)
    if any(folder.iterdir()):
        raise VectorError(f"the folder {folder} is not empty")
    for vector in vectors:
        (folder / f"{vector.name}.script").write_bytes(vector.script)
        (folder / f"{vector.name}.report").write_bytes(vector.report)
    (folder / INDEX).write_text("".join(vector.index_line for vector in vectors), encoding="utf-8")
    print(f"{folder}: {len(vectors)} vectors")


def parser() -> argparse.ArgumentParser:
    """Returns the parser of the command line."""
    description, *format_of = (__doc__ or "").split("\n\n")
    words = argparse.ArgumentParser(description=description, epilog="\n\n".join(format_of), formatter_class=argparse.RawDescriptionHelpFormatter)
    commands = words.add_subparsers(dest="command", required=True)
    packing = commands.add_parser("pack", help="write a pack for each kind of vector in a folder")
    packing.add_argument("folder", type=Path, metavar="FOLDER", help="has the vectors")
    packing.add_argument("out", type=Path, metavar="OUT", help="the folder that the packs are written to")
    unpacking = commands.add_parser("unpack", help="write the vectors of packs to a folder")
    unpacking.add_argument("files", type=Path, nargs="+", metavar="FILE", help="a pack")
    unpacking.add_argument("folder", type=Path, metavar="FOLDER", help="is empty, or not there yet")
    return words


def main(arguments: list[str] | None = None) -> int:
    """Packs or unpacks, and returns the exit status."""
    words = parser().parse_args(arguments)
    try:
        if words.command == "pack":
            pack(words.folder, words.out)
        else:
            unpack(words.files, words.folder)
    except (VectorError, OSError) as error:
        print(f"pack_vectors.py: {error}", file=sys.stderr)
        return 1
    return 0


if __name__ == "__main__":
    sys.exit(main())
