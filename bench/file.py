#!/usr/bin/env python3
"""bench/file.py [FOLDER [SECONDS]]: how many programs and erases a second a device in a file makes in this folder (that of temporary files
if none is named), each with its sync, and without one.

It makes the system's calls of `FileBytes` of flt_file, a write at its place and a sync of the data, since these take nearly all of the time:
a program writes 32 bytes, an erase of a sector of 256 pages 8,192. The sync is that of the folder's disk; one in memory syncs nothing.
"""
import argparse
import os
import tempfile
import time

PAGES = 256
PAGE = 32


def rate(file, size, does_sync, seconds):
    """returns how often a second this many bytes were written, each time at the next place of the file that has room for them."""
    ring = 2 * PAGES * PAGE // size
    bytes_written = b"\xff" * size
    start = time.monotonic()
    made = 0
    while time.monotonic() - start < seconds:
        os.pwrite(file, bytes_written, made % ring * size)
        if does_sync:
            os.fdatasync(file)
        made += 1
    return made / (time.monotonic() - start)


def main():
    parser = argparse.ArgumentParser(description=__doc__, formatter_class=argparse.RawDescriptionHelpFormatter)
    parser.add_argument("folder", metavar="FOLDER", nargs="?", default=tempfile.gettempdir(), help="where the file is made")
    parser.add_argument("seconds", metavar="SECONDS", nargs="?", type=float, default=2.0, help="how long each rate is measured; 2 if not given")
    given = parser.parse_args()
    seconds = given.seconds
    with tempfile.NamedTemporaryFile(dir=given.folder) as image:
        file = image.fileno()
        os.pwrite(file, b"\xff" * (2 * PAGES * PAGE), 0)
        os.fsync(file)
        print(f"{'call':8} {'with sync':>12} {'without':>12}")
        for call, size in (("program", PAGE), ("erase", PAGES * PAGE)):
            print(f"{call:8} {rate(file, size, True, seconds):12.0f} {rate(file, size, False, seconds):12.0f}")


if __name__ == "__main__":
    main()
