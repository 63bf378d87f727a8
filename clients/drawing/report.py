"""A script and what became of it: each call with its answer, and what each event shows after it.

The `show`s are put into the script here, and the program makes the script with them. A `show`
changes nothing, so every other answer is as it would be without them. No rule of the fault memory
is repeated here: each state is the program's answer.
"""

import re
from dataclasses import dataclass, field
from typing import Dict, Iterator, List, Optional, Sequence, Tuple

from drawing.causes import Cause, NotDrawn
from drawing.program import Program

CONFIGURATION = ("config", "memory", "blocks", "flash", "event", "did")
MOST_STEPS = 65_536
MOST_BYTES = 1_048_576
MOST_SHOWS = 1_000_000
MOST_TITLE = 200
SHOWN = re.compile(
    r"status ([0-9A-F]{2}) fdc (-?\d+) failed (\d+) clean (\d+) stored (\d+) overflow (\d+)"
)


@dataclass(frozen=True)
class State:
    """What a `show` says about an event."""

    status: int
    fdc: int
    failed: int
    clean: int
    stored: int
    overflow: int


@dataclass(frozen=True)
class Event:
    """An event as it is configured."""

    number: int
    dtc: str
    cycle: int
    pairs: str


@dataclass
class Call:
    """A call, or the beginning of a life: its text, its answer, and the state of each event.

    The states are those after the call, and nothing where they are not known.
    """

    number: int
    life: int
    text: str
    answer: str = ""
    lane: Optional[int] = None
    states: Dict[int, Optional[State]] = field(default_factory=dict)

    @property
    def word(self) -> str:
        """The first word of the call."""
        return self.text.split()[0]


@dataclass
class Report:
    """A script as it was made."""

    title: str
    events: List[Event]
    calls: List[Call]
    ended: str = ""


@dataclass(frozen=True)
class Item:
    """A line of the script that is made: its text, and the call or the event of its answer."""

    text: str
    call: Optional[int] = None
    shown: Optional[int] = None


def title_of(lines: Sequence[str], otherwise: str) -> str:
    """Returns the first sentence of the first comment, which may take several lines."""
    said: List[str] = []
    for line in (it.strip() for it in lines):
        if line.startswith("#") and line.strip("# \t"):
            said.append(line.lstrip("#").strip())
        elif said:
            break
    sentence = re.match(r".*?[.!?](?=\s|$)|.*", " ".join(said))
    found = sentence.group(0).strip() if sentence else ""
    found = found or otherwise
    return found if len(found) <= MOST_TITLE else found[: MOST_TITLE - 1].rstrip() + "…"


def lines_of(given: bytes) -> List[str]:
    """Returns the lines of a script, without their endings."""
    return [line.rstrip("\r") for line in given.decode("latin-1").split("\n")]


def event_of(words: Sequence[str]) -> Event:
    """Returns the event of its line."""
    at = words.index("dtc")
    cycle = int(words[words.index("cycle") + 1]) if "cycle" in words else 0
    rest = [*words[2:at], *words[at + 2 :]]
    return Event(int(words[1]), words[at + 1].upper(), cycle, " ".join(rest))


class Script:
    """The lines of a script: its configuration, its calls, and the places where shows go.

    Such a place is after a call, and nothing else goes on there.
    """

    def __init__(self, given: bytes, otherwise: str) -> None:
        lines = lines_of(given)
        self.title = title_of(lines, otherwise)
        self.configuration: List[str] = []
        self.body: List[Item] = [Item("life")]
        self.calls: List[Call] = [Call(0, 1, "life 1")]
        # The index in the body of the last line before each place, with the number of its call.
        self.places: List[Tuple[int, int]] = [(0, 0)]
        self.lane: Optional[int] = None
        self.lanes = 0
        self.has_block = False
        kept = [
            words
            for words in (line.split() for line in lines)
            if words and not words[0].startswith("#")
        ]
        for words in kept:
            if words[0] in CONFIGURATION:
                self.configuration.append(" ".join(words))
            else:
                self._add(words)
        self.events = [event_of(words) for words in kept if words[0] == "event"]

    def _add(self, words: Sequence[str]) -> None:
        text = " ".join(words)
        if words[0] in ("par", "lane", "end"):
            self._add_of_block(words[0])
            return
        if words[0] == "show":
            self.body.append(Item(text))
            return
        life = self.calls[-1].life + (1 if text == "power" else 0)
        self.lanes = 0 if text == "power" else self.lanes
        call = Call(len(self.calls), life, text, lane=self.lane)
        self.calls.append(call)
        self.body.append(Item(text, call.number))
        if self.lane is None:
            self.places.append((len(self.body) - 1, call.number))

    def _add_of_block(self, word: str) -> None:
        self.body.append(Item(word))
        if word == "par":
            self.has_block = True
        elif word == "lane":
            self.lanes += 1
            self.lane = self.lanes
        else:
            if self.calls[-1].lane is not None:
                self.places.append((len(self.body) - 1, self.calls[-1].number))
            self.lane = None

    def runs(self) -> Iterator[List[Item]]:
        """Yields the lines of each run: the body, with as many shows as a script has room for."""
        wanted = [
            (place, call, event.number) for place, call in self.places for event in self.events
        ]
        steps = sum(
            1 for item in self.body if item.text not in ("life", "power", "par", "lane", "end")
        )
        size = sum(len(line) + 1 for line in self.configuration) + sum(
            len(item.text) + 1 for item in self.body
        )
        room = min(MOST_STEPS - steps, (MOST_BYTES - size) // len("show 255\n"))
        if len(wanted) > MOST_SHOWS or (wanted and room < 1):
            text = (
                f"{len(self.places)} places times {len(self.events)} events are more than the "
                f"{MOST_SHOWS} shows that are made"
            )
            raise NotDrawn(
                Cause.LIMIT, text if room > 0 else "the script has no room for a single show"
            )
        if self.has_block and len(wanted) > room:
            raise NotDrawn(
                Cause.LIMIT,
                f"a script with lanes is made once, and has room for {room} shows; "
                f"{len(wanted)} are needed",
            )
        for at in range(0, max(len(wanted), 1), max(room, 1)):
            yield self._run_of(wanted[at : at + room])

    def _run_of(self, wanted: Sequence[Tuple[int, int, int]]) -> List[Item]:
        behind: Dict[int, List[Item]] = {}
        for place, call, event in wanted:
            behind.setdefault(place, []).append(Item(f"show {event}", call, event))
        return [it for at, item in enumerate(self.body) for it in [item, *behind.get(at, [])]]


def state_of(answer: str) -> Optional[State]:
    """Returns what a show says, or nothing if its life is dark."""
    found = SHOWN.fullmatch(answer)
    if not found:
        return None
    status, *counts = found.groups()
    return State(int(status, 16), *map(int, counts))


def take_lines(items: Sequence[Item], lines: Sequence[str], calls: List[Call]) -> int:
    """Gives each call its answer, and each state to its call. Returns how many lines there were."""
    for count, (item, line) in enumerate(zip(items, lines)):
        text, _, answer = line.partition(" -> ")
        if item.text in ("life", "power"):
            life = calls[item.call or 0]
            life.answer = line.split(" ", 2)[2]
        elif item.shown is not None and item.call is not None:
            calls[item.call].states[item.shown] = state_of(answer)
        elif item.call is not None:
            calls[item.call].text, calls[item.call].answer = text, answer
        elif item.text not in ("par", "lane", "end") and not answer:
            raise NotDrawn(
                Cause.PROGRAM, f"line {count + 1} of the report is not the answer of a step: {line}"
            )
    return min(len(items), len(lines))


def report_of(given: bytes, otherwise: str, program: Program) -> Report:
    """Makes a script with a show of each event after each call."""
    status, said = program.run("check", given, (0, 2))
    if status != 0:
        raise NotDrawn(Cause.REFUSED, "\n".join(said))
    script = Script(given, otherwise)
    made, ended = 0, ""
    for items in script.runs():
        sent = [*script.configuration, *(item.text for item in items[1:])]
        _, lines = program.run("run", ("\n".join(sent) + "\n").encode("latin-1"), (0, 5, 6, 8))
        count = take_lines(items, lines, script.calls)
        made = max([made, *(item.call or 0 for item in items[:count])])
        if count < len(items):
            ended = lines[-1]
    return Report(script.title, script.events, script.calls[: made + 1], ended)
