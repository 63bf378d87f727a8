"""A session of a live program, and random scripts for it: what the tests of the live program share."""

from __future__ import annotations

import os
import random
import select
import subprocess
import time
from dataclasses import dataclass, field
from pathlib import Path

# No line takes longer than this, in seconds.
PATIENCE = 60.0


class Ended(Exception):
    """The program ended before it wrote the line that was due."""


class Session:
    """A running live program: a line is sent, and the line that answers it is read."""

    def __init__(self, program: Path, config: Path, image: Path | None) -> None:
        words = [str(program), "live", str(config)]
        if image is not None:
            words.append(str(image))
        # A signal that Python ignores, that of a file which became too large, stays ignored.
        self.child = subprocess.Popen(
            words,
            stdin=subprocess.PIPE,
            stdout=subprocess.PIPE,
            bufsize=0,
            restore_signals=False,
            env={},
        )
        self.read = b""

    def send(self, line: str) -> None:
        """Sends a line."""
        assert self.child.stdin is not None
        try:
            self.child.stdin.write(line.encode() + b"\n")
        except (BrokenPipeError, ConnectionResetError):
            raise Ended(line) from None

    def receive(self) -> str:
        """The next line, without its end."""
        assert self.child.stdout is not None
        end = time.monotonic() + PATIENCE
        while b"\n" not in self.read:
            ready, _, _ = select.select([self.child.stdout], [], [], end - time.monotonic())
            if not ready:
                raise TimeoutError("no line came")
            piece = os.read(self.child.stdout.fileno(), 65536)
            if not piece:
                raise Ended(self.read.decode())
            self.read += piece
        line, self.read = self.read.split(b"\n", 1)
        return line.decode()

    def ask(self, line: str) -> str:
        """Sends a line, and gives the line that answers it."""
        self.send(line)
        return self.receive()

    def close(self) -> int:
        """Ends standard input, and gives the exit status."""
        assert self.child.stdin is not None and self.child.stdout is not None
        self.child.stdin.close()
        status = self.child.wait(PATIENCE)
        self.child.stdout.close()
        return status

    def kill(self) -> None:
        """Kills the program, and waits for its end."""
        assert self.child.stdin is not None and self.child.stdout is not None
        self.child.kill()
        self.child.wait(PATIENCE)
        self.child.stdout.close()
        self.child.stdin.close()


@dataclass(frozen=True)
class Config:
    """A configuration: its lines, and how many events and application blocks it has."""

    lines: list[str] = field(hash=False)
    events: int
    blocks: int
    pages: int

    def text(self) -> str:
        """The text of its file."""
        return "".join(f"{line}\n" for line in self.lines)


def pages_needed(events: int, memory: int, blocks: int) -> int:
    """How many pages the records of a configuration take."""
    return 22 + 8 * ((events + 15) // 16) + 10 * memory + 3 * blocks


def random_config(chance: random.Random) -> Config:
    """A random configuration. Most have as few pages as they need, so that the sectors switch often."""
    events = chance.choice([1, 2, 3, 5, 17])
    memory = chance.choice([1, 1, 2, 4])
    blocks = chance.choice([0, 1, 3, 8])
    pages = max(64, pages_needed(events, memory, blocks))
    pages += chance.choice([0, 0, 0, 3, 40])
    lines = [f"config {chance.randrange(65536)}", f"memory {memory}", f"blocks {blocks}"]
    lines.append(f"flash 2 {pages}")
    for event in range(events):
        pairs = [f"event {event} dtc {0x100001 + event:06X}"]
        if chance.random() < 0.4:
            pairs.append(f"prio {chance.randint(1, 9)}")
        if chance.random() < 0.4:
            pairs.append(f"confirm {chance.randint(1, 2)}")
        if chance.random() < 0.3:
            pairs.append(f"age {chance.randint(1, 3)}")
        if chance.random() < 0.3:
            pairs.append("count 4 4 2 1")
        elif chance.random() < 0.3:
            pairs.append("time 5 5")
        if chance.random() < 0.3:
            pairs.append("lamp 1")
        lines.append(" ".join(pairs))
        if chance.random() < 0.6:
            lines.append(f"did {event} 0101")
    return Config(lines, events, blocks, pages)


REQUESTS = [
    "19 02 FF",
    "19 02 08",
    "19 01 0D",
    "19 0A",
    "19 03",
    "3E 00",
    "3E 80",
    "10 03",
    "85 02",
    "85 01",
    "14 FF FF FF",
    "19 04 10 00 01 FF",
    "19 06 10 00 01 FF",
    "22 F1 90",
]


def random_call(config: Config, chance: random.Random) -> str:
    """A step that calls the status machine."""
    event = chance.randrange(config.events)
    steps = [f"{word} {event}" for word in ("fail", "fail", "pass", "prefail", "prepass", "show")]
    steps += ["cycle 0", f"cycle {chance.randrange(4)}", f"tick {chance.randint(1, 8)}"]
    steps += [f"sig {chance.randrange(8)} {chance.randrange(65536)}"]
    steps += [f"enable {chance.randrange(8)} {chance.choice([0, 1, 1])}"]
    steps += [f"t {chance.choice('ABCD')} {chance.choice(REQUESTS)}"]
    return chance.choice(steps)


def random_bytes(chance: random.Random) -> str:
    """The bytes of a job."""
    return " ".join(f"{chance.randrange(256):02X}" for _ in range(chance.randint(1, 32)))


def random_job(config: Config, chance: random.Random) -> str:
    """A step of the queue of write jobs, or one that reads an application block."""
    block = chance.randrange(config.blocks)
    post = f"{chance.choice(['post', 'urge'])} {block} {random_bytes(chance)}"
    return chance.choice([post, post, f"ask {block}", "drain", f"get {block}"])


def random_step(config: Config, chance: random.Random, saves: float) -> str:
    """A step that arms nothing. It is a save with this chance."""
    if chance.random() < saves:
        return "save"
    if config.blocks and chance.random() < 0.3:
        return random_job(config, chance)
    return random_call(config, chance)


def report_of(program: Path, word: str, script: str) -> list[str]:
    """The lines that a program prints for a script."""
    made = subprocess.run(
        [str(program), word], input=script.encode(), stdout=subprocess.PIPE, check=False, env={}
    )
    return made.stdout.decode().splitlines()
