#!/usr/bin/env python3
"""bench/slowest.py [COUNT]: the functions whose proofs took longest, of all crates that were checked here with one job, with what of each took
how long.

It reads no log: a check keeps each part of a proof in a file of its own below the crate's out/incremental, and the time of the file is when
that part was done. One job makes the parts one after the other, so what lies between two files is what the later one took. Before it:
`rm -rf crates/NAME/out/incremental` and, in crates/NAME, `rt check --jobs 1`. A part of a lemma file counts for the file.
"""
import argparse
import glob
import os
import re

# The parts of a function's proof: its steps as read from the code, the goals, the answers, and the proof put together.
PARTS = ("Lts", "Tie", "Given", "Reads", "Layout", "Kinds", "Goals", "Answers", "Invariants", "Proof")
# What lies between two runs is no work.
LONGEST = 150


def seconds_of(folder, crate):
    """Returns for each function and lemma file of the crate how long each of its parts took."""
    start, done, took = f"Rattle-{crate}-proofs.", [], {}
    for file in os.scandir(folder):
        if file.name.endswith(".oantt"):
            done.append((file.stat().st_mtime, file.name[: -len(".oantt")]))
    done.sort()
    for (before, _), (after, name) in zip(done, done[1:]):
        if not name.startswith(start) or after - before > LONGEST:
            continue
        name = re.sub(r"\.Lts\.\w+$", ".Lts", name[len(start) :])
        function, _, part = name.rpartition(".")
        if part not in PARTS:
            function, part = name, "lemmas"
        parts = took.setdefault(function, {})
        parts[part] = parts.get(part, 0.0) + after - before
    return took


def main():
    parser = argparse.ArgumentParser(description=__doc__, formatter_class=argparse.RawDescriptionHelpFormatter)
    parser.add_argument("count", metavar="COUNT", nargs="?", type=int, default=30, help="how many are printed; 30 if not given")
    count = parser.parse_args().count
    os.chdir(os.path.dirname(os.path.dirname(os.path.realpath(__file__))))
    rows = []
    for folder in glob.glob("crates/*/out/incremental/*/"):
        crate = folder.split("/")[1]
        for function, parts in seconds_of(folder, crate).items():
            rows.append((sum(parts.values()), f"{crate}::{function.replace('.', '::')}", parts))
    print("| Seconds | Function | Most of it |")
    print("|---:|---|---|")
    for seconds, name, parts in sorted(rows, key=lambda row: -row[0])[:count]:
        most = sorted(parts, key=lambda part: -parts[part])[:2]
        print(f"| {seconds:.0f} | {name} | {', '.join(f'{part} {parts[part]:.0f}' for part in most)} |")


if __name__ == "__main__":
    main()
