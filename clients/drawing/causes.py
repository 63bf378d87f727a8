"""Why no picture is drawn: one cause each, with the exit status of draw.py."""

from enum import Enum


class Cause(Enum):
    """Why nothing was drawn. The value is the exit status."""

    USAGE = 1
    REFUSED = 2
    READ = 3
    WRITE = 4
    LIMIT = 5
    PROGRAM = 6


class NotDrawn(Exception):
    """No picture was drawn, for this cause."""

    def __init__(self, cause: Cause, text: str) -> None:
        super().__init__(text)
        self.cause = cause
        self.text = text
