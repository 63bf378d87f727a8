#!/usr/bin/env python3
"""Kills a live program at random moments, and checks what the next start finds.

Random steps and saves are made over a file. At a random moment the program is killed by `kill -9`, or every write behind a random
place of the file fails from then on. The next start must restore the last acknowledged generation, or a later one that was asked
for, and the state must be that of `faultmem run` on the lines up to that save.
"""

from __future__ import annotations

import argparse
import random
import resource
import sys
import tempfile
import threading
from dataclasses import dataclass, field
from pathlib import Path

from live_session import Config, Ended, Session, random_call, random_config, random_job, report_of

# After this many lives a blank file and another configuration are taken: a script has at most 256 lives.
LIVES = 24


class Lost(Exception):
    """What was acknowledged is not there, or the state is another."""


@dataclass
class Past:
    """What is known of an image: how its generation came about, and what its application blocks may hold."""

    # The lines of a script that ends with the save of this generation.
    lines: list[str] = field(default_factory=list)
    generation: int = 0
    lives: int = 1
    blocks: dict[int, set[str]] = field(default_factory=dict)


@dataclass
class Life:
    """The lines of a life so far, and what it asked for."""

    lines: list[str] = field(default_factory=list)
    # How many lines there are up to a save, by its generation. The last may not be acknowledged.
    saves: dict[int, int] = field(default_factory=dict)
    acknowledged: int = 0
    # The bytes of jobs that are not known to be done, by block.
    jobs: dict[int, str] = field(default_factory=dict)


@dataclass
class Counts:
    """What was done in all."""

    kills: int = 0
    failures: int = 0
    steps: int = 0
    saves: int = 0
    later: int = 0


def probes(config: Config) -> list[str]:
    """The lines whose answers give the state, and change nothing that is saved."""
    lines = [f"show {event}" for event in range(config.events)]
    lines += ["t A 19 02 FF", "t A 19 0A", "t A 19 03", "t A 19 01 FF"]
    for event in range(min(config.events, 4)):
        dtc = 0x100001 + event
        number = f"{dtc >> 16:02X} {dtc >> 8 & 255:02X} {dtc & 255:02X}"
        lines += [f"t A 19 04 {number} FF", f"t A 19 06 {number} FF"]
    return lines


def check_state(run: Path, config: Config, past: Past, session: Session) -> list[str]:
    """Asks for the state, and compares it with that of `faultmem run`. It gives the lines that were asked."""
    asked = probes(config)
    script = "".join(f"{line}\n" for line in [*config.lines, *past.lines, "power", *asked])
    report = report_of(run, "run", script)
    due = report[-len(asked) :]
    begun = f"life {past.lives + 1} generation {past.generation}"
    if report[-len(asked) - 1] != begun:
        raise Lost(f"the run has {report[-len(asked) - 1]!r}, and {begun!r} was due")
    for line, answer in zip(asked, due):
        got = session.ask(line)
        if got != answer:
            raise Lost(f"generation {past.generation}: {got!r} in place of {answer!r}")
    return asked


def check_blocks(config: Config, past: Past, session: Session) -> None:
    """Asks for the application blocks: each holds one of the values that it may hold."""
    for block in range(config.blocks):
        got = session.ask(f"get {block}").split(" -> ")[1]
        allowed = past.blocks.get(block, {"missing"})
        if got not in allowed:
            raise Lost(f"block {block} holds {got!r}, and may hold {sorted(allowed)!r}")
        past.blocks[block] = {got}


def note_job(line: str, answer: str, past: Past, life: Life) -> None:
    """Notes what an answered job or drain says of the application blocks."""
    words = line.split()
    if words[0] in ("post", "urge") and answer == "accepted":
        life.jobs[int(words[1])] = " ".join(words[2:])
    elif words[0] == "drain":
        all_written = answer.endswith("failed 0")
        for block, written in life.jobs.items():
            before = set() if all_written else past.blocks.get(block, {"missing"})
            past.blocks[block] = before | {written}
        life.jobs = {}


def note(line: str, answer: str, past: Past, life: Life, counts: Counts) -> None:
    """Notes an answered line."""
    counts.steps += 1
    if line.split()[0] in ("post", "urge", "drain"):
        note_job(line, answer, past, life)
    elif line == "save":
        if answer.isdigit():
            if int(answer) not in life.saves:
                raise Lost(f"a save is answered by {answer}, which was not the next number")
            life.acknowledged = int(answer)
            counts.saves += 1
        elif answer != "flash":
            raise Lost(f"a save is answered by {answer!r}")


def next_line(config: Config, chance: random.Random) -> str:
    """A step that is made before the kill."""
    if chance.random() < 0.3:
        return "save"
    if config.blocks and chance.random() < 0.3:
        return random_job(config, chance)
    return random_call(config, chance)


def live_on(
    config: Config,
    past: Past,
    life: Life,
    session: Session,
    chance: random.Random,
    counts: Counts,
) -> None:
    """Makes steps until the program ends, or a write failed."""
    while True:
        line = next_line(config, chance)
        life.lines.append(line)
        if line == "save":
            # The first save after the last acknowledged one may be found; after a write that failed nothing is written.
            number = (life.acknowledged or past.generation) + 1
            life.saves.setdefault(number, len(life.lines))
        if line == "drain":
            for block, written in life.jobs.items():
                past.blocks.setdefault(block, {"missing"}).add(written)
        answer = session.ask(line).split(" -> ")[1]
        note(line, answer, past, life, counts)
        if answer == "flash" or (line == "drain" and not answer.endswith("failed 0")):
            counts.failures += 1
            return


def let_writes_fail(session: Session, place: int) -> None:
    """Lets each write fail that goes beyond this place of a file."""
    _, hard = resource.prlimit(session.child.pid, resource.RLIMIT_FSIZE)
    resource.prlimit(session.child.pid, resource.RLIMIT_FSIZE, (place, hard))


def follow(past: Past, life: Life, generation: int) -> Past:
    """What is known of the image once this generation was restored."""
    acknowledged = life.acknowledged or past.generation
    if generation == past.generation and not life.acknowledged:
        # Nothing of the life is left.
        return Past(past.lines, past.generation, past.lives, past.blocks)
    if generation < acknowledged:
        raise Lost(f"generation {generation} was restored, and {acknowledged} was acknowledged")
    if generation not in life.saves:
        raise Lost(f"generation {generation} was restored, and was never asked for")
    lines = [*past.lines, "power", *life.lines[: life.saves[generation]]]
    if not past.lines:
        lines = life.lines[: life.saves[generation]]
    return Past(lines, generation, past.lives + bool(past.lines), past.blocks)


def begin(live: Path, path: Path, image: Path) -> tuple[Session, int]:
    """Starts the program, and gives the generation that it restored."""
    session = Session(live, path, image)
    first = session.receive()
    if not first.startswith("life 1 generation "):
        session.kill()
        raise Lost(f"it begins by {first!r}")
    return session, int(first.split()[-1])


def end_early(session: Session, fails: bool, size: int, chance: random.Random) -> threading.Timer:
    """Has the program killed at a random moment, or its writes fail from then on."""
    moment = chance.uniform(0.0, 0.25)
    if fails:
        act, words = let_writes_fail, (session, chance.randrange(size))
        timer = threading.Timer(moment, act, words)
    else:
        timer = threading.Timer(moment, session.child.kill)
    timer.start()
    return timer


def live_and_end(
    session: Session,
    config: Config,
    past: Past,
    chance: random.Random,
    counts: Counts,
    fails: bool,
) -> Life:
    """A life that is ended early."""
    life = Life()
    timer = end_early(session, fails, 64 * config.pages, chance)
    try:
        live_on(config, past, life, session, chance, counts)
    except Ended:
        pass
    timer.cancel()
    timer.join()
    session.kill()
    counts.kills += 1
    return life


def kill_one_image(
    live: Path, run: Path, folder: Path, chance: random.Random, counts: Counts, kills: int
) -> None:
    """Makes lives over one image, each of which is ended early, and checks what the next one finds."""
    config = random_config(chance)
    path, image = folder / "config", folder / "image"
    path.write_text(config.text())
    past, life = Past(), Life()
    for _ in range(kills + 1):
        session, generation = begin(live, path, image)
        try:
            counts.later += generation > (life.acknowledged or past.generation)
            past = follow(past, life, generation)
            life = Life()
            asked = check_state(run, config, past, session)
            check_blocks(config, past, session)
            last = _ == kills
            if not last:
                life = live_and_end(session, config, past, chance, counts, chance.random() < 0.2)
                life.lines = [*asked, *life.lines]
                life.saves = {number: at + len(asked) for number, at in life.saves.items()}
        finally:
            session.kill()


def main() -> int:
    """Kills as often as the words say."""
    parser = argparse.ArgumentParser(description=__doc__)
    parser.add_argument("kills", type=int, help="how many lives are ended early")
    parser.add_argument("--live", type=Path, required=True, help="the live program")
    parser.add_argument("--run", type=Path, required=True, help="the program faultmem")
    parser.add_argument("--seed", type=int, default=1, help="the seed of the first image")
    words = parser.parse_args()
    counts, seed = Counts(), words.seed
    while counts.kills < words.kills:
        kills = min(LIVES, words.kills - counts.kills)
        with tempfile.TemporaryDirectory() as folder:
            chance = random.Random(seed)
            try:
                kill_one_image(words.live, words.run, Path(folder), chance, counts, kills)
            except Lost as lost:
                print(f"kill_test: seed {seed}: {lost}")
                return 1
        seed += 1
    print(
        f"kill_test: {counts.kills} lives ended early, {counts.failures} of them by a write that failed;"
        f" {counts.steps} steps, {counts.saves} acknowledged saves, none lost;"
        f" {counts.later} starts found a later save that was not acknowledged"
    )
    return 0


if __name__ == "__main__":
    sys.exit(main())
