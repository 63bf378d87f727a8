"""The programs that draw.py runs: the one that makes a script, and the one that reads a dump."""

import os
import subprocess
from typing import List, Sequence, Tuple

from drawing.causes import Cause, NotDrawn

TOP = os.path.dirname(os.path.dirname(os.path.dirname(os.path.abspath(__file__))))
WRAPPER = os.path.join(TOP, "faultmem")


class Program:
    """A command line that takes a word of the wrapper, and its input on standard input.

    What it says on standard error goes to that of draw.py: a build takes its time, and says so.
    """

    def __init__(self, words: Sequence[str]) -> None:
        self.words: List[str] = list(words)

    def run(self, word: str, given: bytes, statuses: Sequence[int]) -> Tuple[int, List[str]]:
        """Returns the status and the printed lines; a status that is not one of these raises."""
        words = [*self.words, word]
        try:
            ran = subprocess.run(words, input=given, stdout=subprocess.PIPE, check=False)
        except OSError as fault:
            text = f"{self.words[0]} cannot be run: {fault.strerror}"
            raise NotDrawn(Cause.PROGRAM, text) from fault
        lines = ran.stdout.decode("latin-1").splitlines()
        if ran.returncode not in statuses:
            text = f"'{' '.join(words)}' ended with {ran.returncode}"
            raise NotDrawn(Cause.PROGRAM, ": ".join([text, *lines[:1]]))
        return ran.returncode, lines
