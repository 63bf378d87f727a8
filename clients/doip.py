#!/usr/bin/env python3
"""A DoIP entity (ISO 13400-2) on loopback, whose controller is the live fault memory.

    doip.py CONFIG [IMAGE]

Testers connect to port 13400: vehicle identification over UDP; routing activation, diagnostic
messages and alive checks over TCP. The first four source addresses are the testers A to D. Port
13401 is the car's side: a line is a step (monitors, cycles, saves, power), and is answered by a
line. docs/LIVE.md has the whole.
"""

from __future__ import annotations

import argparse
import signal
import sys
import time
from collections.abc import Sequence
from contextlib import ExitStack
from typing import IO, Any

import programs
from ecu import Ecu, Records, Stamps, TableError, read_table
from entity import TESTER_ADDRESSES, Entity, Settings
from live import Ended, Live, LiveError
from programs import ProgramError, Programs
from script import TESTERS
from wire import default_port, logical_address, port_number


def milliseconds(text: str) -> float:
    """A pause of at most 5 s, in seconds."""
    value = int(text)
    if not 0 <= value <= 5000:
        raise ValueError
    return value / 1000


def arguments_of(given: Sequence[str] | None) -> argparse.Namespace:
    """Reads the arguments."""
    parser = argparse.ArgumentParser(
        description="A DoIP entity on loopback in front of the live fault memory.",
        epilog="The exit status is that of the live program, 70 if a signal ended it; 69 if"
        " something cannot be started.",
    )
    add = parser.add_argument
    add("config", metavar="CONFIG", help="a file of configuration lines")
    add("image", metavar="IMAGE", nargs="?", help="the file of the flash; none: in memory")
    add(
        "--port",
        type=port_number,
        default=default_port(),
        help="of TCP and UDP; 0: any that is free",
    )
    add(
        "--car-port",
        type=port_number,
        default=default_port() + 1,
        help="of the car's side; 0: any that is free",
    )
    add(
        "--address",
        type=logical_address,
        default=0x1000,
        help="the entity's logical address, hexadecimal",
    )
    add(
        "--testers",
        type=logical_address,
        nargs="+",
        default=[],
        metavar="ADDRESS",
        help="of A to D, at most four",
    )
    add(
        "--pause",
        type=milliseconds,
        default=0.01,
        metavar="MS",
        help="from the acknowledge of a request to its response; 10 ms if not given",
    )
    add("--vin", default="FAULTMEM000000001", help="17 letters and digits")
    add("--answers", metavar="FILE", help="fixed answers for other services")
    add("--no-clock", action="store_true", help="let no time pass but that of the car's ticks")
    add("--journal", metavar="FILE", help="write a script of all that was done")
    add("--monitors", metavar="FILE", help="write a table of the car's side, for trace_of.py")
    add("--capture", metavar="FILE", help="write the testers' messages as pcap")
    programs.add_option(parser)
    found = parser.parse_args(given)
    if len(found.vin) != 17 or not found.vin.isascii() or not found.vin.isalnum():
        parser.error("a VIN has 17 letters and digits")
    if len(found.testers) > len(TESTERS) or len(set(found.testers)) != len(found.testers):
        parser.error("--testers takes four addresses at most, and none twice")
    if any(it not in TESTER_ADDRESSES for it in found.testers):
        parser.error("the addresses of testers are 0E00 to 0FFF")
    return found


def serve(given: argparse.Namespace, stack: ExitStack) -> None:
    """Starts the memory and the entity, and serves until a signal comes."""

    def opened(name: str | None, mode: str) -> IO[Any] | None:
        return None if name is None else stack.enter_context(open(name, mode))

    answers = read_table(given.answers)
    configuration = programs.read_text(given.config)
    records = Records(
        Stamps(), configuration, opened(given.journal, "w"), opened(given.monitors, "w")
    )
    memory = stack.enter_context(
        Live.start(given.config, given.image, Programs.named(given.faultmem))
    )
    ecu = Ecu(memory, answers, None if given.no_clock else time.monotonic, records)
    settings = Settings(
        address=given.address,
        vin=given.vin.encode(),
        testers=tuple(given.testers),
        pause_seconds=given.pause,
        port=given.port,
        car_port=given.car_port,
    )
    entity = Entity(ecu, settings, opened(given.capture, "wb"))
    for number in (signal.SIGINT, signal.SIGTERM):
        signal.signal(number, lambda *_: entity.stop())
    tcp, udp, car = entity.ports
    print(f"ready tcp {tcp} udp {udp} car {car} {memory.begins}", flush=True)
    entity.run()


def main(arguments: Sequence[str] | None = None) -> int:
    """Runs the entity; the exit status is that of the live program."""
    given = arguments_of(arguments)
    try:
        with ExitStack() as stack:
            serve(given, stack)
    except Ended as end:
        print(f"doip.py: {end}", file=sys.stderr)
        return end.status if end.status >= 0 else 70
    except (LiveError, ProgramError, TableError, OSError) as error:
        print(f"doip.py: {error}", file=sys.stderr)
        return 69
    return 0


if __name__ == "__main__":
    sys.exit(main())
