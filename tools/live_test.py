#!/usr/bin/env python3
"""Compares a live program with `faultmem run`: random scripts of one lane must give the same lines.

A line that is refused must be answered by its cause, and change nothing: some are put between the steps.
"""

from __future__ import annotations

import argparse
import random
import sys
import tempfile
from pathlib import Path

from live_session import Config, Session, random_config, random_step, report_of

# Lines that are no steps, each with its answer.
OTHERS = [
    ("", ""),
    ("   ", ""),
    ("# fail 0", ""),
    ("fail 999", "refused range"),
    ("tick 0", "refused range"),
    ("nothing", "refused word"),
    ("show", "refused form"),
    ("event 7", "refused form"),
    ("memory 3", "refused order"),
    ("did 0 0101", "refused order"),
    ("event 0 dtc 123456", "refused order"),
    ("par", "refused block"),
    ("lane", "refused block"),
    ("end", "refused block"),
    ("power off", "refused form"),
    ("cut 1 none", "refused arm"),
    ("fault 1 all", "refused arm"),
    ("mute 0 1 1", "refused arm"),
    ("show 0 " + "x" * 600, "refused long"),
    ("show\x0b0", "refused byte"),
]


def random_lines(config: Config, chance: random.Random) -> list[str]:
    """The steps of some lives, with a `power` between two of them."""
    lines = []
    for life in range(chance.randint(1, 4)):
        if life:
            lines.append("power")
        for _ in range(chance.randint(0, 40)):
            lines.append(random_step(config, chance, 0.1))
    return lines


def compare(live: Path, run: Path, folder: Path, chance: random.Random) -> str | None:
    """Makes a script by both programs, and returns the first difference."""
    config = random_config(chance)
    lines = random_lines(config, chance)
    report = report_of(run, "run", config.text() + "".join(f"{line}\n" for line in lines))
    path = folder / "config"
    path.write_text(config.text())
    image = folder / "image"
    image.unlink(missing_ok=True)
    session = Session(live, path, image if chance.random() < 0.3 else None)
    try:
        answers = [session.receive()]
        for line in lines:
            if chance.random() < 0.1:
                other, due = chance.choice(OTHERS)
                got = session.ask(other)
                if got != due:
                    return f"{other!r} is answered by {got!r}, and {due!r} was due"
            answers.append(session.ask(line))
        status = session.close()
    finally:
        session.kill()
    if status != 0:
        return f"the status is {status}"
    for due, got in zip(report, answers):
        if due != got:
            return f"{got!r} in place of {due!r}"
    if len(report) != len(answers):
        return f"{len(answers)} lines in place of {len(report)}"
    return None


def main() -> int:
    """Compares as many scripts as the words say."""
    parser = argparse.ArgumentParser(description=__doc__)
    parser.add_argument("scripts", type=int, help="how many scripts are made")
    parser.add_argument("--live", type=Path, required=True, help="the live program")
    parser.add_argument("--run", type=Path, required=True, help="the program faultmem")
    parser.add_argument("--seed", type=int, default=1, help="the seed of the first script")
    words = parser.parse_args()
    for number in range(words.scripts):
        seed = words.seed + number
        with tempfile.TemporaryDirectory() as folder:
            wrong = compare(words.live, words.run, Path(folder), random.Random(seed))
        if wrong is not None:
            print(f"live_test: seed {seed}: {wrong}")
            return 1
    print(f"live_test: {words.scripts} scripts gave the same lines")
    return 0


if __name__ == "__main__":
    sys.exit(main())
