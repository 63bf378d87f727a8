"""Programs of others in tests: tshark, those of GTKWave, and a Python that has scapy or python-can.

A test that needs one is skipped where it is not installed, and where FAULTMEM_ALONE is in the
environment.
"""

from __future__ import annotations

import functools
import os
import shutil
import struct
import subprocess
import sys
import unittest
from dataclasses import dataclass
from pathlib import Path

from pcap import MICROSECONDS, RAW_IP, Sessions, checksum
from wire import PORT

ALONE = "FAULTMEM_ALONE"
# Modules may be there for the system's Python alone.
PYTHONS = (sys.executable, "/usr/bin/python3")
SECONDS = 120.0
# Of an expert information of tshark: a warning, or an error.
WARNING = 0x600000
DIAGNOSTIC = 0x8001
NEGATIVE = 0x3F


def tool(name: str) -> str:
    """The path of a program; skips the test where it is not installed."""
    path = None if os.environ.get(ALONE) else shutil.which(name)
    if path is None:
        raise unittest.SkipTest(f"{name} is not installed")
    return path


def python_with(module: str) -> str:
    """A Python that has this module; skips the test where none has it."""
    path = None if os.environ.get(ALONE) else found_python(module)
    if path is None:
        raise unittest.SkipTest(f"{module} is not installed")
    return path


@functools.lru_cache(maxsize=None)
def found_python(module: str) -> str | None:
    """The first Python that has this module."""
    for path in PYTHONS:
        command = [path, "-c", f"import {module}"]
        try:
            ran = subprocess.run(command, capture_output=True, timeout=SECONDS, check=False)
        except OSError:
            continue
        if ran.returncode == 0:
            return path
    return None


def run_script(module: str, name: str, words: list[str], given: str) -> str:
    """What a script beside this file prints; a Python that has the module runs it."""
    command = [python_with(module), str(Path(__file__).with_name(name)), *words]
    ran = subprocess.run(
        command, input=given, capture_output=True, text=True, timeout=SECONDS, check=False
    )
    assert ran.returncode == 0, ran.stderr
    return ran.stdout


# ---- tshark.


@dataclass(frozen=True)
class Frame:
    """A frame as tshark dissects it; `sid` is the service of a request or of a response."""

    number: int
    stream: str
    by_tester: bool
    protocols: tuple[str, ...]
    kind: int | None
    target: int | None
    sid: int | None
    worst: int
    is_malformed: bool
    payload: bytes


FIELDS = ("frame.number", "tcp.stream", "tcp.dstport", "udp.dstport", "frame.protocols")
FIELDS += ("doip.type", "doip.target_address", "uds.sid", "_ws.expert.severity", "_ws.malformed")
FIELDS += ("tcp.payload", "udp.payload")


def frames_of_capture(capture: bytes, port: int = PORT) -> list[Frame]:
    """The frames of a capture, dissected, with all checksums checked."""
    command = [tool("tshark"), "-n", "-r", "-", "-T", "fields"]
    for field in FIELDS:
        command += ["-e", field]
    for kind in ("tcp", "udp"):
        command += ["-o", f"{kind}.check_checksum:TRUE", "-d", f"{kind}.port=={port},doip"]
    command += ["-o", "ip.check_checksum:TRUE"]
    ran = subprocess.run(
        command, input=capture, capture_output=True, timeout=SECONDS, check=False
    )
    assert ran.returncode == 0, ran.stderr
    return [frame_of(row, port) for row in ran.stdout.decode().splitlines()]


def frame_of(row: str, port: int) -> Frame:
    """A frame of the row of its fields."""
    number, stream, tcp, udp, protocols, *fields, severity, malformed, tcp_data, udp_data = (
        row.split("\t")
    )
    kind, target, sid = (int(it, 0) if it else None for it in fields)
    return Frame(
        int(number),
        stream,
        str(port) in (tcp, udp),
        tuple(protocols.split(":")),
        kind,
        target,
        sid,
        max((int(it) for it in severity.split(",") if it), default=0),
        bool(malformed),
        bytes.fromhex(tcp_data + udp_data),
    )


def complaints(frames: list[Frame]) -> list[Frame]:
    """The frames of which tshark complains.

    A request that is too short for its service is none of them if its answer is negative: the
    tester sent it so.
    """
    found = []
    for at, it in enumerate(frames):
        answer = next(
            (
                other
                for other in frames[at + 1 :]
                if other.stream == it.stream and other.kind == DIAGNOSTIC and not other.by_tester
            ),
            None,
        )
        is_short = it.by_tester and it.kind == DIAGNOSTIC and answer and answer.sid == NEGATIVE
        if (it.is_malformed or it.worst >= WARNING) and not is_short:
            found.append(it)
    return found


def capture_of_datagrams(datagrams: list[tuple[bool, bytes]], port: int) -> bytes:
    """A pcap of datagrams between a tester and an entity; of each, whether the tester sent it."""
    made = struct.pack("<IHHiIII", MICROSECONDS, 2, 4, 0, 0, 1 << 18, RAW_IP)
    for at, (by_tester, data) in enumerate(datagrams):
        ends = (Sessions.TESTER, Sessions.ENTITY)[:: 1 if by_tester else -1]
        ports = (50_000, port)[:: 1 if by_tester else -1]
        pseudo = ends[0] + ends[1] + struct.pack("!HH", 17, 8 + len(data))
        head = struct.pack("!HHH", *ports, 8 + len(data))
        head += struct.pack("!H", checksum(pseudo + head + bytes(2) + data))
        size = 28 + len(data)
        outer = struct.pack("!BBHHHBBH", 0x45, 0, size, 0, 0x4000, 64, 17, 0) + ends[0] + ends[1]
        outer = outer[:10] + struct.pack("!H", checksum(outer)) + outer[12:]
        made += struct.pack("<IIII", 1_700_000_000, at, size, size) + outer + head + data
    return made
