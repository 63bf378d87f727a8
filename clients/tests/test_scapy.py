"""Tests doip.py by clients that others wrote: scapy's socket of DoIP, and its scanner."""

from __future__ import annotations

import contextlib
import io
import json
import unittest

import trace_of
from script import lives_of
from tests.others import complaints, frames_of_capture, python_with, run_script, tool
from tests.serving import Serving
from tests.tester import CarSide

UDS_DOIP = "scapy.contrib.automotive.doip"
UDS_SCAN = "scapy.contrib.automotive.uds_scan"
# scapy takes an acknowledge and a response for one message if both are there when it looks. On a
# machine with much else to do it looks late.
PAUSE = ("--pause", "30")
TABLE = """22 F1 90 -> 62 F1 90 46 41 55 4C 54
11 01 -> 51 01 ; save ; power
"""


class Scapy(Serving):
    """Clients made of scapy; skipped where no Python has it."""

    def client(self, module: str, word: str, port: int, given: str = "") -> object:
        """What the client prints."""
        return json.loads(run_script(module, "scapy_client.py", [word, str(port)], given))

    def test_the_socket(self) -> None:
        """Each answer to UDS_DoIPSocket is the one that is due; its capture is judged right."""
        python_with(UDS_DOIP)
        table, capture, journal = (self.folder / it for it in ("c.csv", "c.pcap", "j.script"))
        process, ports = self.start(
            *PAUSE, "--monitors", str(table), "--capture", str(capture), "--journal", str(journal)
        )
        car = CarSide(ports[2])
        self.assertEqual([car.ask("cycle 0"), car.ask("fail 0")], ["taken", "taken"])
        car.close()
        asked = "1902ff 1901ff 1004 1003 8502 3e00 2701 19 14ffffff 1902ff".split()
        found = self.client(UDS_DOIP, "ask", ports[0], "".join(f"{it}\n" for it in asked))
        self.end(process)
        report = self.programs.run("run", journal.read_text(encoding="ascii")).text
        calls = [it for it in lives_of(report)[0].calls if it.call.startswith("t ")]
        self.assertEqual(
            [it.call for it in calls], [f"t A {bytes.fromhex(it).hex(' ').upper()}" for it in asked]
        )
        self.assertEqual(found, [it.answer.replace(" ", "").lower() for it in calls])
        trace = self.trace_of(ports[0], str(capture), str(table))
        verdict = self.programs.run("audit", trace).text.split()
        self.assertEqual(verdict[0], "yes")
        self.assertGreaterEqual(int(verdict[1]), len(asked))

    def trace_of(self, port: int, capture: str, table: str) -> str:
        """The trace of a capture, of which only other services are to be told."""
        words = [str(self.configuration), capture, table, "--port", str(port)]
        with contextlib.redirect_stdout(io.StringIO()) as out:
            with contextlib.redirect_stderr(io.StringIO()) as told:
                self.assertEqual(trace_of.main([*words, "--faultmem", self.wrapper()]), 0)
        told_of = "1 requests of other services: their answers are not judged"
        self.assertEqual(told.getvalue(), f"trace_of.py: {told_of}\n")
        return out.getvalue()

    def wrapper(self) -> str:
        """A wrapper of the programs."""
        path = self.folder / "wrapper"
        first, second = self.programs.first[0], self.programs.second[0]
        path.write_text(
            f'#!/bin/sh\ncase $1 in\nrun | check) exec "{first}" "$@" ;;\n'
            f'*) exec "{second}" "$@" ;;\nesac\n',
            encoding="ascii",
        )
        path.chmod(0o755)
        return str(path)

    def test_the_scanner(self) -> None:
        """UDS_Scanner finds services, sessions and an identifier; each answer is the one due."""
        python_with(UDS_SCAN)
        found, journal, capture, port = self.scanned("30")
        for pause in ("100", "300"):
            # None is the answer where scapy lost it.
            if all(answer is not None for case in found.values() for _, _, answer in case):
                break
            found, journal, capture, port = self.scanned(pause)
        states = {state for state, _, _ in found["UDS_ServiceEnumerator"]}
        self.assertEqual(states, {"session1", "session3tp1"})
        for state in states:
            rows = {name: [it[1:] for it in case if it[0] == state] for name, case in found.items()}
            services = [
                it for it, answer in rows["UDS_ServiceEnumerator"] if answer != f"7f{it}11"
            ]
            self.assertEqual(services, ["10", "14", "19", "3e", "85"])
            sessions = [it for it, answer in rows["UDS_DSCEnumerator"] if answer[:2] == "50"]
            self.assertEqual(sessions, ["1003"])
            read = [it for it in rows["UDS_RDBIEnumerator"] if it[1][:2] == "62"]
            self.assertEqual(read, [["22f190", "62f1904641554c54"]])
        self.check_answers(found, journal)
        with contextlib.suppress(unittest.SkipTest):
            tool("tshark")
            self.assertEqual(complaints(frames_of_capture(capture, port)), [])

    def scanned(self, pause: str) -> tuple[dict[str, list[list[str]]], str, bytes, int]:
        """What the scanner found of an entity with this pause; its journal, capture and port."""
        table, journal = self.folder / "answers", self.folder / f"j{pause}.script"
        capture = self.folder / f"c{pause}.pcap"
        table.write_text(TABLE, encoding="ascii")
        words = ["--answers", str(table), "--journal", str(journal), "--capture", str(capture)]
        process, ports = self.start("--pause", pause, *words)
        scanned = self.client(UDS_SCAN, "scan", ports[0])
        self.end(process)
        assert isinstance(scanned, dict)
        self.assertTrue(scanned["completed"])
        found = scanned["found"]
        assert isinstance(found, dict)
        return found, journal.read_text(encoding="ascii"), capture.read_bytes(), ports[0]

    def check_answers(self, found: dict[str, list[list[str]]], journal: str) -> None:
        """Compares each answer that the scanner got with those of `run` to the same calls."""
        report = self.programs.run("run", journal).text
        due: set[tuple[str, str]] = set()
        for life in lives_of(report):
            for it in life.calls:
                if it.call.startswith("t A "):
                    digits = (text.replace(" ", "").lower() for text in (it.call[4:], it.answer))
                    due.add((next(digits), next(digits)))
        for case in found.values():
            for _, request, answer in case:
                if answer != "62f1904641554c54":
                    self.assertIn((request, answer), due)


if __name__ == "__main__":
    unittest.main()
