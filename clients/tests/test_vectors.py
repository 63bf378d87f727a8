"""Tests vectors.py: its JSON has the whole report, its pcap the requests and responses."""

from __future__ import annotations

import contextlib
import io
import json
import tempfile
import unittest
from pathlib import Path

import vectors
from capture import Names, exchanges_of
from doip_capture import DoipCapture
from script import lives_of
from tests.common import number
from tests.others import complaints, frames_of_capture, tool
from vectors import example_vectors, json_object, packed_vectors, pcap_of, report_of


class Vectors(unittest.TestCase):
    """All examples, and the packs."""

    def test_the_report_comes_back(self) -> None:
        """The JSON of each vector has its report, byte for byte."""
        count = 0
        for vector in (*example_vectors(), *packed_vectors()):
            made = json.loads(json.dumps(json_object(vector)))
            self.assertEqual(report_of(made), vector.report, vector.name)
            count += 1
        self.assertGreater(count, 300)

    def test_each_script_is_listed(self) -> None:
        """Each script of the folder is a vector, with a page for each of its calls."""
        names = {it.name for it in example_vectors()}
        self.assertEqual(names, {it.stem for it in vectors.DATA.glob("*.script")})
        for page in (*vectors.PAGES, vectors.PAGE_OF_REFUSALS):
            self.assertTrue((vectors.TOP / page).exists(), page)

    def test_the_capture_has_the_requests(self) -> None:
        """Requests and responses are read back from the pcap, in their order."""
        for vector in example_vectors():
            capture = pcap_of(vector)
            calls = [it for life in lives_of(vector.report) for it in life.calls]
            due = [(it.call[4:], it.answer) for it in calls if it.call.startswith("t ")]
            if capture is None:
                self.assertEqual(due, [])
                continue
            found = exchanges_of(DoipCapture(Names()).messages(capture))
            shown = [
                (
                    it.request.piece.data.hex(" ").upper(),
                    it.answer.piece.data.hex(" ").upper() if it.answer else "",
                )
                for it in found
            ]
            self.assertEqual(
                shown, [(it, "" if answer in ("silent", "dark") else answer) for it, answer in due]
            )

    def test_the_captures_are_dissected(self) -> None:
        """tshark complains of no frame, and finds each request and each response."""
        tool("tshark")
        captures = [(it, pcap_of(it)) for it in example_vectors()]
        for vector, capture in [it for it in captures if it[1]][: number(4, 100)]:
            assert capture is not None
            frames = frames_of_capture(capture)
            self.assertEqual(complaints(frames), [], vector.name)
            found = [it.sid for it in frames if "uds" in it.protocols]
            calls = [it for life in lives_of(vector.report) for it in life.calls]
            due = [
                int(text[:2], 16) & 0xBF
                for it in calls
                if it.call.startswith("t ")
                for text in (it.call[4:], it.answer)
                if text not in ("silent", "dark")
            ]
            self.assertEqual(found, due, vector.name)

    def test_the_files(self) -> None:
        """A file for each, and an index; an unknown name is refused."""
        with tempfile.TemporaryDirectory() as name, contextlib.redirect_stdout(
            io.StringIO()
        ) as out:
            self.assertEqual(vectors.main([f"{name}/made", "first", "testers"]), 0)
            made = {it.name for it in Path(name, "made").iterdir()}
            with contextlib.redirect_stderr(io.StringIO()):
                self.assertEqual(vectors.main([name, "nothing"]), 2)
        self.assertEqual(made, {"first.json", "testers.json", "testers.pcap", "index.json"})
        self.assertTrue(out.getvalue().endswith("made: 2 vectors\n"))


if __name__ == "__main__":
    unittest.main()
