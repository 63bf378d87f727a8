#!/usr/bin/env python3
"""Writes frames of standard input, a list of JSON, into a log by a writer of python-can.

    can_writers.py FILE.log      by CanutilsLogWriter
    can_writers.py FILE.asc      by ASCWriter

A frame is its time in microseconds, its identifier, and its bytes in hexadecimal digits.
"""

from __future__ import annotations

import json
import sys

import can

WRITERS = {"log": can.CanutilsLogWriter, "asc": can.ASCWriter}


def main(path: str) -> None:
    """Writes the log."""
    writer = WRITERS[path.rpartition(".")[2]](path)
    for at, (time, identifier, digits) in enumerate(json.load(sys.stdin)):
        data = bytes.fromhex(digits)
        is_wide = identifier > 0x7FF
        writer.on_message_received(
            can.Message(
                timestamp=time / 1e6,
                arbitration_id=identifier,
                is_extended_id=is_wide,
                data=data,
                is_rx=at % 2 == 0,
                channel=0,
            )
        )
    writer.stop()


if __name__ == "__main__":
    main(sys.argv[1])
