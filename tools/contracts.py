#!/usr/bin/env python3
"""Lists the contracts that are too long to be read aloud, and the words that two crates define.

A contract is what lies between the signature of a function and its body: its clauses, each a `requires` or an `ensures`, with the comments
among them. A function is listed if it has more than 10 clauses, or more than 900 characters from the first clause to the last, comments
included, with one space in place of each indentation. A word is listed if two or more crates define it, each for itself, with the reason
why both may have it.

With `--most FUNCTIONS WORDS` it ends with 1 if more of them are listed than this, or if a word has no reason, so that no change adds one.
"""
import argparse
import collections
import dataclasses
import glob
import os
import re
import sys

TOP = os.path.dirname(os.path.dirname(os.path.abspath(__file__)))
MOST_CLAUSES = 10
MOST_CHARACTERS = 900
# Why two or more crates may define a word: it says the same of both, and they know nothing of each other or one is the other's case.
REASONS = {
    "AnswersBy": "by which answers a driver refuses a record: of the flash, and of the EEPROM",
    "Calls": "what a call on a lock returns: on any lock, and on those of the status machine and of the queue",
    "CallsInto": "the same of a call that writes beside its answer: on the lock of the status machine, and on that of the queue",
    "History": "the calls so far: of the status machine, and of the queue",
    "IsCall": "what a call that was made returns: on any lock, and on those of the status machine and of the queue",
    "IsMounted": "what a driver knows once it has mounted: that of the flash, and that of the EEPROM",
    "IsSeatOf": "the lock made the seat: any lock, and that of the status machine",
    "Seat": "what is known of a seat: of the lock of the status machine, and of that of the queue",
    "reply_after": "the reply after these calls: of the status machine, under its lock and in a life, and of the queue",
    "state_by": "a driver by what it keeps and by its device: that of the flash, and that of the EEPROM",
    "uncounted_of": "a driver but for its counts: that of the flash, and that of the EEPROM",
    "whole": "a kind of answer with what was written beside it: on any lock, and on those of the status machine and of the queue",
}
FUNCTION = re.compile(r"^\s*(?:pub(?:\([a-z]+\))? )?fn ([a-z_0-9]+)", re.M)
CLAUSE = re.compile(r"^\s*(?P<keyword>requires|ensures)\b[^{\n]*\{", re.M)
BODY = re.compile(r"^\s*\{|;\s*$|\{\}\s*$", re.M)
DEFINED = re.compile(r"^(?:abbrev |unfoldable )?pub (?:record |data )?([A-Za-z_][A-Za-z_0-9]*)\b[^\n]*:", re.M)


@dataclasses.dataclass
class Contract:
    """A function with how many clauses it has, and how many characters from the first to the last."""

    crate: str
    path: str
    name: str
    clauses: int
    characters: int

    def is_long(self) -> bool:
        """Whether it is listed."""
        return self.clauses > MOST_CLAUSES or self.characters > MOST_CHARACTERS


def closed(text: str, begin: int) -> int:
    """Returns where the brace that opens at `begin` is closed, after it."""
    depth = 0
    for at in range(begin, len(text)):
        depth += {"{": 1, "}": -1}.get(text[at], 0)
        if depth == 0:
            return at + 1
    return len(text)


def clauses_from(text: str, begin: int, end: int) -> tuple[int, int]:
    """Returns how many clauses a function has whose signature begins here, and how many characters from the first to the last."""
    count, first, at = 0, None, begin
    while True:
        clause = CLAUSE.search(text, at, end)
        body = BODY.search(text, at, end)
        if clause is None or (body is not None and body.start() < clause.start()):
            return count, 0 if first is None else len(" ".join(text[first:at].split()))
        count += 1
        first = clause.start("keyword") if first is None else first
        at = closed(text, clause.end() - 1)


def contracts_of(crate: str, path: str) -> list[Contract]:
    """Returns the contracts of a file."""
    with open(path, encoding="utf-8") as it:
        text = it.read()
    begins = [match for match in FUNCTION.finditer(text)]
    ends = [match.start() for match in begins[1:]] + [len(text)]
    return [Contract(crate, path, match[1], *clauses_from(text, match.end(), end)) for match, end in zip(begins, ends)]


def crates() -> list[str]:
    """Returns the names of the crates, in their order."""
    return sorted(os.path.basename(path) for path in glob.glob(f"{TOP}/crates/*") if os.path.isdir(path))


def all_contracts() -> list[Contract]:
    """Returns the contracts of all crates."""
    return [it for crate in crates() for path in sorted(glob.glob(f"{TOP}/crates/{crate}/src/**/*.rt", recursive=True)) for it in contracts_of(crate, path)]


def homonyms() -> dict[str, list[str]]:
    """Returns the words that two or more crates define, each with its crates."""
    found: dict[str, set[str]] = collections.defaultdict(set)
    for crate in crates():
        for path in glob.glob(f"{TOP}/crates/{crate}/specs/**/*.antt", recursive=True):
            with open(path, encoding="utf-8") as it:
                for match in DEFINED.finditer(it.read()):
                    found[match[1]].add(crate)
    return {word: sorted(where) for word, where in sorted(found.items()) if len(where) > 1}


def main() -> int:
    """Prints the lists, and returns the exit status."""
    words = argparse.ArgumentParser(description=__doc__, formatter_class=argparse.RawDescriptionHelpFormatter)
    words.add_argument("--most", nargs=2, type=int, metavar=("FUNCTIONS", "WORDS"), help="how many of each may be listed")
    words.add_argument("--quiet", action="store_true", help="print only the numbers")
    asked = words.parse_args()
    long = sorted((it for it in all_contracts() if it.is_long()), key=lambda it: -it.characters)
    same = homonyms()
    if not asked.quiet:
        for it in long:
            print(f"{it.characters:5} characters {it.clauses:3} clauses  {it.crate}::{it.name}  {os.path.relpath(it.path, TOP)}")
        for word, where in same.items():
            print(f"{word}: {', '.join(where)}: {REASONS.get(word, 'no reason')}")
    print(f"{len(long)} long contracts, {len(same)} words of two or more crates")
    unreasoned = [word for word in same if word not in REASONS]
    return int(asked.most is not None and (len(long) > asked.most[0] or len(same) > asked.most[1] or unreasoned != []))


if __name__ == "__main__":
    sys.exit(main())
