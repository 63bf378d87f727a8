#!/usr/bin/env python3
"""Writes the scripts of crates/examples/data as test vectors for other fault memories: JSON and
pcap.

    vectors.py FOLDER            all scripts that have a file of their own
    vectors.py FOLDER first cut  these alone
    vectors.py --packs FOLDER    the vectors of the packs too

NAME.json has the configuration, the calls with the answers that are due, and for each the page of
its rule. NAME.pcap has the testers' requests and responses as DoIP, where there are any. No program
is needed.
"""

from __future__ import annotations

import argparse
import io
import json
import re
import sys
from collections.abc import Iterable, Iterator, Sequence
from dataclasses import dataclass
from pathlib import Path
from typing import Any

from pcap import Sessions
from programs import TOP
from script import TESTERS, Call, Life, configuration_of, first_word, lives_of, title_of
from wire import PORT, Activation, activation, activation_answer, diagnostic

DATA = TOP / "crates" / "examples" / "data"
LISTED = TOP / "crates" / "examples" / "src" / "listed.rt"
EXAMPLE = re.compile(r'\("(?P<name>[a-z_0-9]+)", Words::(?P<words>[A-Za-z]+), (?P<status>[0-9]+)\)')
WORDS = {"Run": "run", "Both": "run", "Check": "check", "Watch": "watch"}
# The page that has the rule of a step, by its first word.
PAGES = {
    "docs/MODEL.md": (
        "pass", "fail", "prepass", "prefail", "show", "cycle", "tick", "sig", "enable"
    ),
    "docs/UDS.md": ("t",),
    "docs/STORE.md": ("save", "post", "urge", "drain", "get", "ask"),
    "docs/FLASH.md": ("cut", "fault", "mute"),
}
PAGE_OF = {word: page for page, words in PAGES.items() for word in words}
PAGE_OF_REFUSALS = "docs/SCRIPT.md"
PAGE_OF_WATCHES = "docs/SCRIPT.md"
# Times of a pcap, which a script has none of: a step, and a tick, in microseconds.
BEGIN = 1_700_000_000_000_000
STEP, TICK, LIFE = 1_000, 10_000, 60_000_000
ENTITY, FIRST_TESTER, FIRST_PORT = 0x1000, 0x0E80, 50_000


@dataclass(frozen=True)
class Vector:
    """A script, the word under which it is run, and the exit status and the report that are due."""

    name: str
    word: str
    status: int
    script: str
    report: str


# ---- What is read.


def example_vectors() -> Iterator[Vector]:
    """The scripts with files of their own, by the table of the program that runs them."""
    for match in EXAMPLE.finditer(LISTED.read_text(encoding="utf-8")):
        name = match["name"]
        texts = (
            (DATA / f"{name}.{kind}").read_text(encoding="ascii") for kind in ("script", "report")
        )
        yield Vector(name, WORDS[match["words"]], int(match["status"]), *texts)


def packed_vectors() -> Iterator[Vector]:
    """The vectors of the packs that are scripts of text."""
    sys.path.insert(0, str(TOP / "tools"))
    import pack_vectors

    for it in pack_vectors.read_packs(sorted(DATA.glob("vectors_*"))):
        if it.word in ("run", "ea", "watch", "check") and it.script.isascii():
            yield Vector(it.name, it.word, it.status, it.script.decode(), it.report.decode())


# ---- JSON.


def call_object(call: Call) -> dict[str, str]:
    """A call with its answer and the page of its rule."""
    return {"call": call.call, "answer": call.answer, "page": PAGE_OF[first_word(call.call)]}


def life_object(life: Life) -> dict[str, Any]:
    """A life: its first line, and its parts."""
    parts: list[dict[str, Any]] = []
    for part in life.parts:
        if isinstance(part, Call):
            parts.append(call_object(part))
        else:
            parts.append({"lanes": [[call_object(it) for it in lane] for lane in part]})
    return {"begins": life.begins, "parts": parts}


def json_object(vector: Vector) -> dict[str, Any]:
    """A vector as an object of JSON."""
    made: dict[str, Any] = {
        "name": vector.name,
        "title": title_of(vector.script),
        "word": vector.word,
        "status": vector.status,
    }
    lives = lives_of(vector.report)
    if not lives:
        return made | {"script": vector.script, "report": vector.report, "page": PAGE_OF_REFUSALS}
    made["configuration"] = configuration_of(vector.script)
    made["lives"] = [life_object(life) for life in lives]
    watches = [line for line in vector.report.splitlines() if line.startswith("watch ")]
    return made | ({"watches": watches, "page": PAGE_OF_WATCHES} if watches else {})


def report_of(vector: dict[str, Any]) -> str:
    """The report again, of the object of a vector: what a reader of the JSON is to compare with."""
    if "report" in vector:
        return str(vector["report"])
    lines: list[str] = []
    for life in vector["lives"]:
        lines.append(life["begins"])
        lane = 0
        for part in life["parts"]:
            if "lanes" not in part:
                lines.append(f"{part['call']} -> {part['answer']}")
                continue
            lines.append("par")
            for calls in part["lanes"]:
                lane += 1
                lines += [f"lane {lane}", *(f"{it['call']} -> {it['answer']}" for it in calls)]
            lines.append("end")
    return "".join(f"{line}\n" for line in [*lines, *vector.get("watches", [])])


# ---- pcap.


def pcap_of(vector: Vector) -> bytes | None:
    """The requests and responses of a vector as DoIP; none if it has no request.

    A step takes a millisecond, a tick ten, and a life begins a minute after the last.
    """
    file = io.BytesIO()
    sessions = Sessions(file)
    known: set[int] = set()
    now = BEGIN
    for life in lives_of(vector.report):
        for it in life.calls:
            words = it.call.split()
            now += STEP + (int(words[1]) * TICK if words[0] == "tick" else 0)
            if words[0] == "t":
                note_request(
                    sessions,
                    known,
                    now,
                    TESTERS.index(words[1]),
                    bytes.fromhex("".join(words[2:])),
                    it.answer,
                )
        now += LIFE
    return file.getvalue() if known else None


def note_request(
    sessions: Sessions, known: set[int], now: int, tester: int, data: bytes, answer: str
) -> None:
    """Writes a request and its response, and before the first one a routing activation."""
    source, port = FIRST_TESTER + tester, FIRST_PORT + tester
    if tester not in known:
        known.add(tester)
        sessions.note(now - 400, port, PORT, activation(source).encoded(), True)
        answered = activation_answer(source, ENTITY, Activation.ACTIVATED)
        sessions.note(now - 300, port, PORT, answered.encoded(), False)
    sessions.note(now, port, PORT, diagnostic(source, ENTITY, data).encoded(), True)
    if answer not in ("silent", "dark"):
        response = diagnostic(ENTITY, source, bytes.fromhex(answer))
        sessions.note(now + 300, port, PORT, response.encoded(), False)


# ---- The program.


def write(vectors: Iterable[Vector], folder: Path) -> int:
    """Writes the vectors and an index, and returns how many there are."""
    folder.mkdir(parents=True, exist_ok=True)
    index = []
    for vector in vectors:
        made = json_object(vector)
        (folder / f"{vector.name}.json").write_text(
            json.dumps(made, indent=1) + "\n", encoding="ascii"
        )
        capture = pcap_of(vector)
        if capture is not None:
            (folder / f"{vector.name}.pcap").write_bytes(capture)
        index.append({key: made[key] for key in ("name", "title", "word", "status")})
    (folder / "index.json").write_text(json.dumps(index, indent=1) + "\n", encoding="ascii")
    return len(index)


def main(arguments: Sequence[str] | None = None) -> int:
    """Writes the files."""
    parser = argparse.ArgumentParser(
        description="Writes the examples as test vectors, JSON and pcap.",
        epilog="Exit status: 0 done, 2 there is no vector of a name, 4 a file cannot be written.",
    )
    parser.add_argument("folder", metavar="FOLDER", type=Path, help="for the files; it is made")
    parser.add_argument("names", metavar="NAME", nargs="*", help="these alone")
    parser.add_argument("--packs", action="store_true", help="the vectors of the packs too")
    given = parser.parse_args(arguments)
    vectors = [*example_vectors(), *(packed_vectors() if given.packs else ())]
    unknown = set(given.names) - {it.name for it in vectors}
    if unknown:
        print(f"vectors.py: there is no vector {', '.join(sorted(unknown))}", file=sys.stderr)
        return 2
    chosen = [it for it in vectors if not given.names or it.name in given.names]
    try:
        count = write(chosen, given.folder)
    except OSError as error:
        print(f"vectors.py: {error}", file=sys.stderr)
        return 4
    print(f"{given.folder}: {count} vectors")
    return 0


if __name__ == "__main__":
    sys.exit(main())
