"""The two sectors of a flash, a cell a page: gates, records, and which of them the commit names."""

from typing import Dict, List, Optional, Tuple

from drawing.causes import Cause, NotDrawn
from drawing.image import (
    COMMITS,
    PAGE,
    Image,
    Record,
    Sector,
    generation_in,
    image_of,
    name_of,
    named_by,
    newest_of,
)
from drawing.program import Program
from drawing.sheet import MARGIN, Sheet, cut, number, width_of

CELL = 36.0
HEIGHT = 24.0
FOLDED = 16.0
COLOURS = {
    "named": ("green", "named by the commit"),
    "own": (
        "blue",
        "counts by its own gate: a gate of the sector, the mark, the commit, an application block",
    ),
    "old": ("grey", "older, of another sector, or not named"),
    "torn": ("red", "torn, or without its gate"),
}


def told_of(image: Image, program: Program) -> str:
    """Returns what `inspect` says first about a dump: the generation, or why there is none."""
    pages = (image.image[at : at + PAGE].hex().upper() for at in range(0, len(image.image), PAGE))
    dump = "\n".join([*(line for line in image.lines if line.strip()), "image", *pages]) + "\n"
    status, lines = program.run("inspect", dump.encode("latin-1"), (0, 2, 6, 10))
    if status in (2, 10):
        raise NotDrawn(Cause.REFUSED, "\n".join(lines[:1]))
    return lines[0]


def look_of(record: Record, newest: Dict[int, Record], named: List[int]) -> str:
    """Returns which look a record has; `newest` is empty in a sector that is not current."""
    if record.kind in ("torn", "incomplete"):
        return "torn"
    if record.kind in ("Start", "Active"):
        return "own" if newest else "old"
    if newest.get(record.block) is not record:
        return "old"
    if record.block in named:
        return "named"
    return "own" if record.block == 8 or record.block in COMMITS or record.block >= 512 else "old"


def label_of(record: Record) -> List[str]:
    """Returns what is in a record, the longest text first."""
    if record.kind in ("Start", "Active", "torn"):
        return [record.kind, record.kind[0]]
    name = name_of(record.block)
    generation = generation_in(record.data) if record.block in COMMITS else None
    if generation is not None:
        return [
            f"{name}: generation {generation}",
            f"{name}: {generation}",
            f"c{record.block % 8 + 1}: {generation}",
            str(generation),
        ]
    short = (
        name.replace("summary", "sum")
        .replace("states ", "st")
        .replace("entry ", "e")
        .replace("block ", "b")
    )
    extra = {"incomplete": " incomplete", "invalid": " invalid"}.get(record.kind, "")
    return [name + extra, name, short]


class Sectors:
    """The picture under way."""

    def __init__(self, image: Image, told: str, width: int) -> None:
        self.image, self.told = image, told
        self.sheet = Sheet(width)
        self.left = MARGIN + width_of("1024 ", "fine")
        fits = int((width - MARGIN - self.left) / CELL)
        self.per_row = 16 if fits >= 16 else 8 if fits >= 8 else 4
        self.cell = min((width - MARGIN - self.left) / self.per_row, 2 * CELL)
        self.looks: List[str] = []

    def draw(self) -> str:
        """Draws all, and returns the document."""
        sheet, image = self.sheet, self.image
        head = (
            f"The flash holds {self.told}"
            if self.told.startswith("generation")
            else f"The flash is refused: {self.told}"
        )
        sheet.paragraph(head, "title")
        about = (
            f"Two sectors of {image.pages} pages of {PAGE} bytes; "
            f"events {image.events}, entries {image.memory}."
        )
        sheet.paragraph(image.title, "soft")
        sheet.paragraph(about, "soft")
        newest = newest_of(image.sectors[image.current]) if image.current is not None else {}
        named = named_by(image, newest)
        for at, sector in enumerate(image.sectors):
            is_current = at == image.current
            self._draw_sector(at, sector, newest if is_current else {}, named)
        sheet.y += 10
        self._draw_legend()
        return sheet.document(head, about)

    def _draw_legend(self) -> None:
        for look, (colour, text) in COLOURS.items():
            if look in self.looks:
                self.sheet.path(
                    f"M{number(MARGIN)} {number(self.sheet.y + 2)}h14v10h-14z",
                    f"on-{colour} {colour}",
                )
                self.sheet.paragraph(text, "soft", 22)
        if any(
            "/" in label_of(record)[0]
            for sector in self.image.sectors
            for record in sector.records
            if record.kind != "blank"
        ):
            self.sheet.paragraph(
                "/0, /1: the index, of the two that a block of the state has", "soft"
            )

    def _draw_sector(
        self, at: int, sector: Sector, newest: Dict[int, Record], named: List[int]
    ) -> None:
        sheet = self.sheet
        age = "current" if at == self.image.current else "older"
        sheet.y += 12
        sheet.paragraph(
            f"Sector {at}: "
            + ("not valid" if sector.sequence is None else f"{age}, sequence {sector.sequence}"),
            "head",
        )
        sheet.y += 4
        rows = self._rows_of(sector)
        blank: Optional[int] = None
        for row, records in enumerate(rows):
            if not any(record.kind != "blank" for record, _, _ in records):
                blank = row if blank is None else blank
                continue
            self._draw_blank(blank, row)
            blank = None
            self._draw_row(row, records, newest, named)
        self._draw_blank(blank, len(rows))

    def _rows_of(self, sector: Sector) -> List[List[Tuple[Record, int, int]]]:
        """Returns the parts of records in each row, with the first and the end of their pages."""
        rows: List[List[Tuple[Record, int, int]]] = [
            [] for _ in range(-(-self.image.pages // self.per_row))
        ]
        for record in sector.records:
            at, end = record.page, record.page + record.pages
            while at < end:
                row = at // self.per_row
                until = min(end, (row + 1) * self.per_row)
                rows[row].append((record, at, until))
                at = until
        return rows

    def _draw_blank(self, first: Optional[int], end: int) -> None:
        """Draws one low row for all blank rows that follow each other."""
        if first is None:
            return
        sheet, one, last = (
            self.sheet,
            first * self.per_row,
            min(end * self.per_row, self.image.pages) - 1,
        )
        sheet.box(self.left, sheet.y + 1, self.cell * self.per_row, FOLDED - 3, "blank")
        sheet.text(self.left - 5, sheet.y + 11, str(one), "fine", "end")
        sheet.text(self.left + 6, sheet.y + 11, f"pages {one} to {last}: blank", "fine")
        sheet.y += FOLDED

    def _draw_row(
        self,
        row: int,
        parts: List[Tuple[Record, int, int]],
        newest: Dict[int, Record],
        named: List[int],
    ) -> None:
        sheet = self.sheet
        sheet.text(self.left - 5, sheet.y + 16, str(row * self.per_row), "fine", "end")
        for record, at, end in parts:
            x, width = self.left + self.cell * (at % self.per_row), self.cell * (end - at)
            if record.kind == "blank":
                sheet.box(x, sheet.y + 1, width, HEIGHT - 3, "blank")
                continue
            look = look_of(record, newest, named)
            self.looks.append(look)
            self._draw_record(record, (at, end), (x + 1, width - 2), COLOURS[look][0])
        sheet.y += HEIGHT

    def _draw_record(
        self, record: Record, pages: Tuple[int, int], place: Tuple[float, float], colour: str
    ) -> None:
        """Draws the part of a record in one row, with its name where the greatest part of it is."""
        sheet, (at, end), (x, width), y = self.sheet, pages, place, self.sheet.y
        sheet.path(
            f"M{number(x)} {number(y + 1)}h{number(width)}v{number(HEIGHT - 4)}h{number(-width)}z",
            f"on-{colour} {colour}",
        )
        for inner in range(1, end - at):
            sheet.path(
                f"M{number(x - 1 + self.cell * inner)} {number(y + HEIGHT - 6)}v3", f"{colour} thin"
            )
        first = min(record.pages, self.per_row - record.page % self.per_row)
        is_first, is_greater = at == record.page, 2 * first >= record.pages
        if end - at == record.pages or is_first == is_greater:
            fits = [text for text in label_of(record) if width_of(text, "fine") + 4 <= width]
            label = fits[0] if fits else cut(label_of(record)[-1], width - 4, "fine")
        else:
            label = "…"
        sheet.text(x + width / 2, y + 14.5, label, "fine", "middle")


def sectors(given: bytes, data: Optional[bytes], name: str, program: Program, width: int) -> str:
    """Returns the picture of a dump, or of a configuration and the bytes of an image, as SVG."""
    image = image_of(given, data, name)
    return Sectors(image, told_of(image, program), width).draw()
