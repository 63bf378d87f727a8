#!/usr/bin/env python3
"""Counts how often a watch calls the functions of its subscribers: once for each change of a status byte.

A function here has no effect but its answer, so no clause can tell whether it is called again and that answer dropped. Callgrind can.
It is left out where valgrind, or the program, is not there.
"""
import os
import re
import shutil
import subprocess
import tempfile
import unittest

TOP = os.path.dirname(os.path.dirname(os.path.abspath(__file__)))
PROGRAM = f"{TOP}/crates/faultmem/out/faultmem"
SCRIPT = f"{TOP}/crates/examples/data/watched.script"
# What the watch of that script prints as the value of kind 0.
CHANGES = 7
CALLED = re.compile(r"^cfn=\((\d+)\)(?: (.*))?$")
NAMED = re.compile(r"^c?fn=\((\d+)\) (.+)$")


def calls_of(profile: str) -> dict[str, int]:
    """How often each function is called, by its name, in a profile of callgrind."""
    lines = profile.split("\n")
    names = dict(match.groups() for line in lines if (match := NAMED.match(line)))
    calls: dict[str, int] = {}
    for line, after in zip(lines, lines[1:]):
        called = CALLED.match(line)
        # The line `calls=` follows `cfn=`, or the file of it.
        if called and after.startswith("calls="):
            name = names[called.group(1)]
            calls[name] = calls.get(name, 0) + int(after[6:].split(" ")[0])
    return calls


class Subscribers(unittest.TestCase):
    """The subscribers of the kinds 0, 1 and 2."""

    def test_profile(self) -> None:
        """The calls of a function are added up over its callers."""
        profile = "fn=(1) main\n1 2\ncfn=(2) note\ncalls=3 0\n1 9\nfn=(4) step\ncfn=(2)\ncalls=4 0\n1 9\ncfn=(4)\ncalls=1 0\n"
        self.assertEqual(calls_of(profile), {"note": 7, "step": 1})

    @unittest.skipUnless(shutil.which("valgrind") and os.access(PROGRAM, os.X_OK), "needs valgrind and the built program")
    def test_called_once(self) -> None:
        """Each function is called once for each change."""
        with tempfile.TemporaryDirectory() as folder, open(SCRIPT, "rb") as script:
            out = f"{folder}/profile"
            command = ["valgrind", "--tool=callgrind", f"--callgrind-out-file={out}", PROGRAM, "watch"]
            told = subprocess.run(command, stdin=script, stdout=subprocess.PIPE, stderr=subprocess.DEVNULL, timeout=300, check=True).stdout.decode()
            self.assertIn(f"watch 0 value {CHANGES}\n", told)
            with open(out, encoding="utf-8", errors="replace") as profile:
                calls = calls_of(profile.read())
        for kind in range(3):
            counted = [count for name, count in calls.items() if re.search(rf"\bnote_{kind}\b", name) or f"note_{kind}" in name]
            self.assertEqual(counted, [CHANGES], f"note_{kind}")


if __name__ == "__main__":
    unittest.main()
