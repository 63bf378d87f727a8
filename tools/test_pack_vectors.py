#!/usr/bin/env python3
"""Tests pack_vectors.py: what is packed is found in the packs by its name, and comes back as it was."""
from __future__ import annotations

import contextlib
import io
import tempfile
import unittest
from pathlib import Path

from pack_vectors import Vector, VectorError, main, read_folder, read_pack

DATA = Path(__file__).resolve().parent.parent / "crates" / "examples" / "data"
VECTORS = (
    Vector("plain_1", "run", 0, b"cycle 0\n", b"cycle 0 -> taken\n"),
    Vector("plain_2", "ea", 0, b"", b""),
    Vector("broken_1", "run", 2, b"no line feed", b"script line 1 step\n"),
    Vector("broken_2", "run", 2, b"\0\xff\r\n\n\nplain_1 run 0 8 17\n", b"script line 1 byte\n"),
    Vector("trace_1", "trace", 255, b"\n", b"{}\n"),
)


def quietly(*arguments: str | Path) -> int:
    """Returns the exit status of the tool, whose lines are let go."""
    with contextlib.redirect_stdout(io.StringIO()), contextlib.redirect_stderr(io.StringIO()):
        return main([str(argument) for argument in arguments])


def write_folder(folder: Path, vectors: tuple[Vector, ...]) -> None:
    """Writes these vectors to a new folder."""
    folder.mkdir()
    (folder / "INDEX").write_text("".join(vector.index_line for vector in vectors), encoding="utf-8")
    for vector in vectors:
        (folder / f"{vector.name}.script").write_bytes(vector.script)
        (folder / f"{vector.name}.report").write_bytes(vector.report)


def files_of(folder: Path) -> dict[str, bytes]:
    """Returns the files of a folder, each by its name."""
    return {file.name: file.read_bytes() for file in folder.iterdir()}


class PackVectors(unittest.TestCase):
    """Packs folders and unpacks them."""

    def setUp(self) -> None:
        """Makes a folder for the files of a test."""
        folder = tempfile.TemporaryDirectory()
        self.addCleanup(folder.cleanup)
        self.top = Path(folder.name)

    def test_what_is_packed_comes_back(self) -> None:
        """A folder that is packed and unpacked has the same files again, and its packs are named by the kinds."""
        write_folder(self.top / "made", VECTORS)
        self.assertEqual(quietly("pack", self.top / "made", self.top / "packs"), 0)
        packs = [self.top / "packs" / f"vectors_{kind}" for kind in ("plain", "broken", "trace")]
        self.assertEqual({pack.name for pack in packs}, set(files_of(self.top / "packs")))
        self.assertEqual(quietly("unpack", *packs, self.top / "again"), 0)
        self.assertEqual(files_of(self.top / "again"), files_of(self.top / "made"))
        self.assertEqual(tuple(read_folder(self.top / "again")), VECTORS)

    def test_the_packs_of_the_repository_come_back(self) -> None:
        """The packs that the program runs are unpacked, and packed to the same bytes again."""
        packs = sorted(DATA.glob("vectors_*"))
        self.assertNotEqual(packs, [])
        self.assertEqual(quietly("unpack", *packs, self.top / "vectors"), 0)
        self.assertEqual(quietly("pack", self.top / "vectors", self.top / "packs"), 0)
        self.assertEqual(files_of(self.top / "packs"), {pack.name: pack.read_bytes() for pack in packs})

    def test_a_vector_is_found_by_its_name(self) -> None:
        """A line of the pack begins with the name, and the script and the report follow it as they are."""
        self.assertEqual(VECTORS[0].packed, b"plain_1 run 0 8 17\ncycle 0\n\ncycle 0 -> taken\n\n")

    def test_a_pack_that_is_cut_short_is_refused(self) -> None:
        """Of the fronts of a pack only those are read that end after a vector."""
        packed = [vector.packed for vector in VECTORS]
        ends = {len(b"".join(packed[:count])): count for count in range(len(packed) + 1)}
        whole = b"".join(packed)
        for length in range(len(whole) + 1):
            stream = io.BytesIO(whole[:length])
            if length in ends:
                self.assertEqual(tuple(read_pack(stream)), VECTORS[: ends[length]])
            else:
                self.assertRaises(VectorError, list, read_pack(stream))

    def test_a_wrong_header_is_refused(self) -> None:
        """A header with a name, a word, a status or a length that is none is refused, and so is a length that does not fit."""
        for header in (
            b"",
            b"plain_1 run 0 8",
            b"plain_1 run 0 8 17 1",
            b"plain_1  run 0 8 17",
            b"../plain_1 run 0 8 17",
            b"plain run 0 8 17",
            b"plain_1 load 0 8 17",
            b"plain_1 run 256 8 17",
            b"plain_1 run 0 -8 17",
            b"plain_1 run 0 7 17",
            b"plain_1 run 0 8 18",
        ):
            pack = header + VECTORS[0].packed[len(b"plain_1 run 0 8 17") :]
            self.assertRaises(VectorError, list, read_pack(io.BytesIO(pack)))

    def test_a_wrong_folder_is_refused(self) -> None:
        """A name that comes twice, a file that is not there and a folder that is not empty end with the status 1."""
        write_folder(self.top / "twice", (VECTORS[0], VECTORS[0]))
        self.assertEqual(quietly("pack", self.top / "twice", self.top / "packs"), 1)
        write_folder(self.top / "made", VECTORS)
        self.assertEqual(quietly("pack", self.top / "made", self.top / "packs"), 0)
        self.assertEqual(quietly("unpack", self.top / "packs" / "vectors_plain", self.top / "made"), 1)
        (self.top / "made" / "plain_2.report").unlink()
        self.assertEqual(quietly("pack", self.top / "made", self.top / "packs"), 1)


if __name__ == "__main__":
    unittest.main()
