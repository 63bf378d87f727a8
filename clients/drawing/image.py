"""The image of a flash: the pages of its two sectors, their records, and what the commit names.

The formats are those of docs/FLASH.md and docs/STORE.md. A picture shows each page, also those of a
sector that is not the current one. What the image holds is not judged here: that is the answer of
`inspect`, which the picture has in its heading.
"""

from dataclasses import dataclass, field
from typing import Dict, List, Optional, Tuple

from drawing.causes import Cause, NotDrawn
from drawing.report import CONFIGURATION, lines_of, title_of

PAGE = 32
LEAST_PAGES, MOST_PAGES = 64, 1024
BLANK = b"\xff" * PAGE
COMMITS = (16, 17)
APPLICATIONS = 64
PARTS = (3, 36)


@dataclass(frozen=True)
class Record:
    """Pages that belong together: a record, a gate, a torn head, or one blank page."""

    page: int
    pages: int
    kind: str
    block: int = 0
    data: Optional[bytes] = None


@dataclass
class Sector:
    """A sector: its records in their order, and its sequence number if both its gates name it."""

    records: List[Record]
    sequence: Optional[int] = None


@dataclass
class Image:
    """A dump: its configuration, as far as a picture needs it, and its two sectors."""

    title: str
    pages: int
    events: int
    memory: int
    lines: List[str]
    image: bytes
    sectors: List[Sector] = field(default_factory=list)
    current: Optional[int] = None


def word_of(page: bytes) -> Optional[bytes]:
    """Returns the sixteen bytes of a code page, or nothing if it is none."""
    word, behind = page[:16], page[16:]
    return word if bytes(it ^ 255 for it in word) == behind else None


def is_valid(word: Optional[bytes], begins: bytes, length: int) -> bool:
    """Whether a word begins so, and has nothing after its length."""
    return word is not None and word.startswith(begins) and not any(word[length:])


def big(data: bytes) -> int:
    """Returns a number."""
    return int.from_bytes(data, "big")


def record_at(pages: List[bytes], at: int) -> Record:
    """Returns what begins at a page of the log."""
    if pages[at] == BLANK:
        return Record(at, 1, "blank")
    word = word_of(pages[at])
    if word is None or not is_valid(word, b"H", 8) or word[1] not in (1, 2) or big(word[6:8]) != at:
        return Record(at, 1, "torn")
    block, length = big(word[2:4]), big(word[4:6])
    count = 2 + -(-length // PAGE)
    if at + count > len(pages):
        return Record(at, 1, "torn")
    gate = word_of(pages[at + count - 1])
    if not is_valid(gate, b"G\x01" + word[2:4] + word[6:8], 6):
        return Record(at, count, "incomplete", block)
    data = b"".join(pages[at + 1 : at + count - 1])[:length]
    return Record(
        at, count, "complete" if word[1] == 1 else "invalid", block, data if word[1] == 1 else None
    )


def gates_of(pages: List[bytes]) -> Tuple[List[Record], Optional[int]]:
    """Returns the two gates of a sector, and the sequence number that both name."""
    start, active = word_of(pages[0]), word_of(pages[1])
    starts = is_valid(start, b"S\x01", 8) and start is not None and big(start[6:8]) == len(pages)
    acts = is_valid(active, b"A\x01", 6)
    found = [
        Record(at, 1, name if is_right else "blank" if pages[at] == BLANK else "torn")
        for at, (name, is_right) in enumerate((("Start", starts), ("Active", acts)))
    ]
    if not (starts and acts and start and active and start[2:6] == active[2:6]):
        return found, None
    return found, big(start[2:6])


def sector_of(pages: List[bytes]) -> Sector:
    """Returns what the pages of a sector hold."""
    records, sequence = gates_of(pages)
    at = 2
    while at < len(pages):
        records.append(record_at(pages, at))
        at += records[-1].pages
    return Sector(records, sequence)


def newest_of(sector: Sector) -> Dict[int, Record]:
    """Returns the last complete record of each block in the log, up to the first blank page."""
    found = {}
    for record in sector.records[2:]:
        if record.kind == "blank":
            break
        if record.kind in ("complete", "invalid"):
            found[record.block] = record
    return found


def generation_in(data: Optional[bytes]) -> Optional[int]:
    """Returns the generation that the bytes of a commit name, or nothing if they are none."""
    if data and (data[0], len(data)) in ((2, 10), (1, 26)):
        return big(data[1:5])
    return None


def named_by(image: Image, newest: Dict[int, Record]) -> List[int]:
    """Returns the numbers of the blocks that the commit names, by the first copy with bytes."""
    copies = [newest[it].data for it in COMMITS if it in newest and newest[it].data]
    commit = copies[0] if copies else None
    if commit is None or generation_in(commit) is None:
        return []
    groups = -(-image.events // 16)
    states = [4 + it if it < 4 else 20 + it for it in range(groups)]
    named = []
    for block in (3, *states, *range(8, 8 + image.memory)):
        at = block - PARTS[0]
        index = (
            commit[5 + at // 8] >> at % 8 & 1
            if commit[0] == 2
            else commit[5 + at]
            if at < 21
            else 255
        )
        if index in (0, 1):
            named.append(8 * block + index)
    return named


def name_of(number: int) -> str:
    """Returns the name of a block, by the driver's number."""
    block, index = divmod(number, 8)
    if block == 1:
        return "mark"
    if number in COMMITS:
        return f"commit {index + 1}"
    if block == 3:
        return f"summary/{index}"
    if 8 <= block < 24:
        return f"entry {block - 8}/{index}"
    if PARTS[0] <= block < PARTS[1]:
        first = 16 * (block - 4 if block < 8 else block - 20)
        return f"states {first}-{first + 15}/{index}"
    if APPLICATIONS <= block < APPLICATIONS + 40 and index == 0:
        return f"block {block - APPLICATIONS}"
    return f"number {number}"


def bytes_of_lines(lines: List[str], first: int) -> bytes:
    """Returns the bytes of the pages of a dump."""
    data = b""
    for at, line in enumerate(lines):
        try:
            page = bytes.fromhex(line) if len(line) == 2 * PAGE else b""
        except ValueError:
            page = b""
        if not page:
            raise NotDrawn(
                Cause.REFUSED,
                f"line {first + at} of the dump is no page of {2 * PAGE} hexadecimal digits",
            )
        data += page
    return data


def parts_of(given: bytes, data: Optional[bytes]) -> Tuple[List[str], bytes]:
    """Returns the lines of the configuration and the bytes of the image."""
    lines = lines_of(given)
    at = next((at for at, line in enumerate(lines) if line.strip() == "image"), None)
    if data is None and at is None:
        text = "no line of the dump is 'image'; behind a CONFIG goes an IMAGE"
        raise NotDrawn(Cause.REFUSED, text)
    if data is not None and at is not None:
        text = "the CONFIG has a line 'image': it is a dump, and no IMAGE goes behind it"
        raise NotDrawn(Cause.REFUSED, text)
    if data is not None or at is None:
        return lines, data or b""
    behind = lines[at + 1 :]
    return lines[:at], bytes_of_lines(behind[:-1] if behind and not behind[-1] else behind, at + 2)


def image_of(given: bytes, data: Optional[bytes], otherwise: str) -> Image:
    """Reads a dump, or the lines of a configuration with the bytes of an image."""
    lines, image = parts_of(given, data)
    kept = [words for words in map(str.split, lines) if words and words[0] in CONFIGURATION]
    counted = [words for words in kept if words[0] in ("flash", "memory") and words[-1].isdigit()]
    numbers = {words[0]: int(words[-1][-10:]) for words in counted}
    events = sum(1 for words in kept if words[0] == "event")
    pages = numbers.get("flash", 512)
    wanted = 2 * pages * PAGE
    if not LEAST_PAGES <= pages <= MOST_PAGES or len(image) != wanted:
        text = f"the image has {len(image)} bytes; two sectors of {pages} pages have {wanted}"
        raise NotDrawn(Cause.REFUSED, text)
    memory = numbers.get("memory", 16)
    found = Image(title_of(lines, otherwise), pages, events, memory, lines, image)
    cells = [image[at : at + PAGE] for at in range(0, len(image), PAGE)]
    found.sectors = [sector_of(cells[:pages]), sector_of(cells[pages:])]
    sequences = [sector.sequence for sector in found.sectors]
    valid = [(it, at) for at, it in enumerate(sequences) if it is not None]
    found.current = max(valid)[1] if valid else None
    return found
