"""doip.py as a process, for tests."""

from __future__ import annotations

import signal
import subprocess
import sys
from pathlib import Path

import doip
from tests.common import InFolder


class Serving(InFolder):
    """A test that starts doip.py."""

    def start(self, *words: str) -> tuple[subprocess.Popen[str], list[int]]:
        """Starts doip.py over the stand-in; returns the process and the ports."""
        live = self.folder / "live"
        live.write_text(
            f"#!/bin/sh\nexec {' '.join(self.programs.live)} \"$@\"\n", encoding="ascii"
        )
        live.chmod(0o755)
        process = subprocess.Popen(
            [sys.executable, str(Path(doip.__file__)), "--port", "0", "--car-port", "0"]
            + ["--faultmem", str(live), *words, str(self.configuration)],
            stdout=subprocess.PIPE,
            text=True,
            start_new_session=True,
        )
        self.addCleanup(self.end, process)
        assert process.stdout is not None
        ready = process.stdout.readline().split()
        self.assertEqual([ready[0], *ready[7:]], ["ready", "life", "1", "generation", "0"])
        return process, [int(ready[at]) for at in (2, 4, 6)]

    def end(self, process: subprocess.Popen[str]) -> None:
        """Ends the process by its id."""
        if process.poll() is None:
            process.send_signal(signal.SIGTERM)
        process.wait(20)
        if process.stdout:
            process.stdout.close()
