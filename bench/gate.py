#!/usr/bin/env python3
"""What the gate costs: runs a command at the top of the repository and adds up the processor seconds of what it starts, by crate and kind.

    bench/gate.py [--every SECONDS] [--write] [COMMAND ..]      the command is rt ci where none is given; a cd goes into sh -c '..'

It looks at /proc once a second. The command's own lines go to standard error, and the table, in Markdown, to standard output. With
--write, which takes no command, docs/gate-table.md is written anew with it, if the gate passed.
A processor second is one of user or system time. The kinds are: the proof of a crate; its tests, which are a second check of the crate and
their build; its must-fail edits; and programs, which is what compiles, links and runs. The last second of a process is seen in part
alone, so the row `not seen` has what the system counted beyond the samples.
"""
import argparse
import ctypes
import os
import re
import resource
import subprocess
import sys
import threading
import time

KINDS = ("proof", "tests", "edits", "programs")
OTHERS = "rt and others"
SUBREAPER = 36
PAGE = "docs/gate-table.md"
TICKS = os.sysconf("SC_CLK_TCK")


def text_of(path):
    try:
        with open(path, "rb") as it:
            return it.read().decode(errors="replace")
    except OSError:
        return ""


def link_of(path):
    try:
        return os.readlink(path)
    except OSError:
        return ""


class Process:
    """A process as it was seen last."""

    def __init__(self, pid):
        self.pid = pid
        stat = text_of(f"/proc/{pid}/stat")
        # The name, in parentheses, may hold spaces and parentheses.
        fields = stat[stat.rfind(")") + 1 :].split()
        self.is_there = len(fields) > 19
        if self.is_there:
            self.parent, self.started = int(fields[1]), fields[19]
            self.seconds = (int(fields[11]) + int(fields[12])) / TICKS

    def words(self):
        """Returns the command line, none of a process that has ended and is still listed."""
        return text_of(f"/proc/{self.pid}/cmdline").split("\0")[:-1]

    def folder(self):
        return link_of(f"/proc/{self.pid}/cwd")


def own_place(process):
    """Returns the crate and the kind that the command line and the folder of a process give, or None."""
    words, folder = process.words(), process.folder()
    if "--crate-name" in words[:-1]:
        crate = words[words.index("--crate-name") + 1]
        if "--crate-checked" in words:
            return crate, "programs"
        if os.path.basename(folder).startswith("rt-edit-"):
            return crate, "edits"
        return crate, "tests" if "--test" in words else "proof"
    ran = next((it for it in words if re.search(r"/rt-run-\w+/bin/", it)), "")
    if ran:
        return re.sub(r"(_tests)?(\.by-rattle)?$", "", os.path.basename(ran)), "programs"
    inside = re.search(r"/crates/(\w+)", folder)
    return (inside[1], "programs") if inside else None


def place_of(process, alive, places):
    """Returns the place of a process: its own, or that of what started it, of which no tool that was called is the proof."""
    is_tool = False
    while process:
        place = own_place(process) or places.get((process.pid, process.started))
        if place:
            return (place[0], "programs") if is_tool else place
        process, is_tool = alive.get(process.parent), True
    return OTHERS, "programs"


class Samples:
    """The seconds of each process, forked workers too, by its crate and kind."""

    def __init__(self):
        self.seconds, self.places = {}, {}

    def take(self, root):
        alive = {int(it): Process(int(it)) for it in os.listdir("/proc") if it.isdigit()}
        alive = {pid: it for pid, it in alive.items() if it.is_there}
        below = {root}
        is_more = True
        while is_more:
            found = {pid for pid, it in alive.items() if it.parent in below} - below
            below |= found
            is_more = bool(found)
        for pid in below - {root}:
            process = alive[pid]
            key = pid, process.started
            # (what has ended has no command line, and stays what it was)
            if process.words() or key not in self.places:
                self.places[key] = place_of(process, alive, self.places)
            self.seconds[key] = process.seconds

    def sums(self):
        sums = {}
        for key, seconds in self.seconds.items():
            crate, kind = self.places[key]
            row = sums.setdefault(crate, dict.fromkeys(KINDS, 0.0))
            row[kind] += seconds
        return sums


def libraries():
    """Returns the crates that each crate of crates.txt names."""
    lines = [it.partition("#")[0].strip() for it in text_of("crates.txt").split("\n")]
    named = {it.split()[0].rstrip(":"): it.partition(":")[2].split() for it in lines if it}
    return {name: [it for it in below if it in named] for name, below in named.items()}


def longest_chain(sums):
    """Returns the crates, lowest first, of the chain whose proofs take the most seconds, and those seconds."""
    below, made = libraries(), {}

    def chain(name):
        if name not in made:
            most = max((chain(it) for it in below[name]), key=lambda it: it[1], default=([], 0.0))
            made[name] = [*most[0], name], most[1] + sums.get(name, {}).get("proof", 0.0)
        return made[name]

    return max((chain(it) for it in below), key=lambda it: it[1], default=([], 0.0))


def report(sums: dict[str, dict[str, float]], counted: float, wall: float, last: str) -> str:
    """Returns the table, and the lines of what all of it came to."""
    totals = {name: sum(row.values()) for name, row in sums.items()}
    lines = ["| Crate | Proof | Tests | Edits | Programs | Seconds | Share |", "|---|---:|---:|---:|---:|---:|---:|"]
    whole = max(counted, sum(totals.values()))
    for name in sorted(sums, key=lambda it: -totals[it]):
        cells = [f"{sums[name][kind]:.0f}" if sums[name][kind] else "" for kind in KINDS]
        lines.append(f"| {name} | {' | '.join(cells)} | {totals[name]:.0f} | {100 * totals[name] / whole:.1f} % |")
    missed = whole - sum(totals.values())
    lines.append(f"| not seen | | | | | {missed:.0f} | {100 * missed / whole:.1f} % |")
    kinds = {kind: sum(row[kind] for row in sums.values()) for kind in KINDS}
    lines.append(f"| **all** | {' | '.join(f'{kinds[kind]:.0f}' for kind in KINDS)} | {whole:.0f} | 100 % |")
    chain, seconds = longest_chain(sums)
    processors = len(os.sched_getaffinity(0))
    lines += [
        "",
        f"User and system: {whole / 60:.1f} processor minutes. Wall: {wall / 60:.1f} minutes, on {processors} processors.",
        f"The longest chain of proofs takes {seconds / 60:.1f} processor minutes: {', '.join(chain)}.",
        f"Last line: {last}",
    ]
    return "".join(f"{line}\n" for line in lines)


def page_of(table: str) -> str:
    """Returns the page of the table."""
    begin, _, _ = text_of(PAGE).partition("\n\n| ")
    head = "\n\n".join(begin.split("\n\n")[:2])
    return f"{head}\n\n{table}"


def main():
    parser = argparse.ArgumentParser(description=__doc__, formatter_class=argparse.RawDescriptionHelpFormatter)
    parser.add_argument("--every", metavar="SECONDS", type=float, default=1.0, help="how long it waits between two looks; 1 if not given")
    parser.add_argument("--write", action="store_true", help="write docs/gate-table.md anew, if the gate passed")
    parser.add_argument("command", metavar="COMMAND", nargs=argparse.REMAINDER, help="what is run, with its words; rt ci if not given")
    given = parser.parse_args()
    every, words = given.every, given.command[given.command[:1] == ["--"] :]
    if given.write and words:
        parser.error("--write takes no command, since the page is of the whole gate")
    os.chdir(os.path.dirname(os.path.dirname(os.path.realpath(__file__))))
    # What outlives its parent stays below this process.
    ctypes.CDLL(None).prctl(SUBREAPER, 1, 0, 0, 0)
    samples, has_ended, began = Samples(), threading.Event(), time.monotonic()
    how = {"stdin": subprocess.DEVNULL, "stdout": subprocess.PIPE, "stderr": subprocess.STDOUT, "errors": "replace"}
    command = subprocess.Popen(words or ["rt", "ci"], **how)

    def watch():
        while not has_ended.wait(every):
            samples.take(os.getpid())

    watcher = threading.Thread(target=watch)
    watcher.start()
    last = ""
    for line in command.stdout:
        print(line, end="", file=sys.stderr, flush=True)
        last = line.strip() or last
    status = command.wait()
    has_ended.set()
    watcher.join()
    spent = resource.getrusage(resource.RUSAGE_CHILDREN)
    table = report(samples.sums(), spent.ru_utime + spent.ru_stime, time.monotonic() - began, last)
    print(table, end="")
    if given.write and status == 0:
        page = page_of(table)
        with open(PAGE, "w", encoding="utf-8") as it:
            it.write(page)
    return status


if __name__ == "__main__":
    sys.exit(main())
