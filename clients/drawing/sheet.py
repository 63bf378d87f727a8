"""A sheet of SVG: texts whose width is known, colours for light and dark, and the whole document.

Every letter is of a fixed width, so each text is placed by its length, and stays inside the sheet
in any browser.
"""

import textwrap
from typing import Dict, List, Tuple
from xml.sax.saxutils import escape, quoteattr

FONT = (
    "ui-monospace, SFMono-Regular, Menlo, Consolas, 'DejaVu Sans Mono', 'Liberation Mono', "
    "monospace"
)
# The width of a letter, in parts of the size of its font: 0.602 in the widest of these fonts.
LETTER = 0.61
SIZES = {"title": 15.0, "head": 12.0, "text": 11.0, "soft": 11.0, "fine": 10.0}
MARGIN = 12.0
LEAST_WIDTH = 320
MOST_WIDTH = 4000

# Each class with its colour in light and in dark: what it paints, and how much of it.
PAPER = ("#ffffff", "#0d1117")
TEXTS: Dict[str, Tuple[str, str]] = {
    "title": ("#1f2328", "#f0f6fc"),
    "head": ("#1f2328", "#f0f6fc"),
    "text": ("#1f2328", "#e6edf3"),
    "soft": ("#4f5762", "#a6b0bb"),
    "fine": ("#4f5762", "#a6b0bb"),
}
LINES: Dict[str, Tuple[str, str]] = {
    "red": ("#b42318", "#ff8a80"),
    "amber": ("#855000", "#e3b341"),
    "blue": ("#0b5cad", "#79c0ff"),
    "grey": ("#4f5762", "#a6b0bb"),
    "green": ("#116329", "#56d364"),
}
GROUNDS: Dict[str, Tuple[str, str]] = {
    "cycle-a": ("#e8edf3", "#1c2530"),
    "cycle-b": ("#f4f6f9", "#141b24"),
    "unknown": ("#e4e4e4", "#2b2b2b"),
    "blank": ("#f4f6f9", "#141b24"),
    "on-red": ("#fbe3e0", "#3d1a18"),
    "on-amber": ("#faeccf", "#35290f"),
    "on-blue": ("#dfecf9", "#12283f"),
    "on-grey": ("#e8eaed", "#262c34"),
    "on-green": ("#daf2df", "#12331c"),
}


def style() -> str:
    """Returns the rules of the document: those of light, and after them what is other in dark."""

    def colours(which: int) -> str:
        rules = [f".paper{{fill:{PAPER[which]}}}"]
        rules += [f".{name}{{fill:{both[which]}}}" for name, both in {**TEXTS, **GROUNDS}.items()]
        rules += [f"path.{name}{{fill:{both[which]}}}" for name, both in GROUNDS.items()]
        rules += [f".{name}{{stroke:{both[which]}}}" for name, both in LINES.items()]
        return "".join(rules)

    sizes = "".join(f".{name}{{font-size:{size:g}px}}" for name, size in SIZES.items())
    plain = (
        "path{fill:none}.title,.head{font-weight:bold}.thin{stroke-width:.7}.wave{stroke-width:1.6}"
    )
    dashes = ".dashed{stroke-dasharray:6 4}.dotted{stroke-dasharray:2 3}"
    return f"{plain}{dashes}{sizes}{colours(0)}@media (prefers-color-scheme:dark){{{colours(1)}}}"


def width_of(text: str, name: str = "text") -> float:
    """Returns how wide a text of this class is."""
    return len(text) * SIZES[name] * LETTER


def number(value: float) -> str:
    """Returns a number as it is written in an attribute."""
    return f"{value:.2f}".rstrip("0").rstrip(".") or "0"


def cut(text: str, room: float, name: str = "text") -> str:
    """Returns a text, or the part of it that has room."""
    letters = int(room / (SIZES[name] * LETTER))
    return text if len(text) <= letters else text[: max(letters - 1, 0)] + "…"


class Sheet:
    """A document under way: what is drawn, and how far down it goes."""

    def __init__(self, width: int) -> None:
        self.width = width
        self.y = MARGIN
        self.grounds: List[str] = []
        self.fills: List[str] = []
        self.rules: List[str] = []
        self.marks: List[str] = []

    @property
    def room(self) -> float:
        """The width between the margins."""
        return self.width - 2 * MARGIN

    def text(
        self,
        x: float,
        y: float,
        text: str,
        name: str = "text",
        anchor: str = "start",
        turn: int = 0,
    ) -> None:
        """Writes a text, whose base line begins (or ends, or has its middle) at x and y."""
        more = "" if anchor == "start" else f' text-anchor="{anchor}"'
        more += f' transform="rotate({-turn} {number(x)} {number(y)})"' if turn else ""
        self.marks.append(
            f'<text class="{name}" x="{number(x)}" y="{number(y)}"{more}>{escape(text)}</text>'
        )

    def paragraph(self, text: str, name: str = "text", left: float = 0, hanging: float = 0) -> None:
        """Writes lines of a text, moved in by `left`; those after the first by `hanging` too."""
        letters = int((self.room - left - hanging) / (SIZES[name] * LETTER))
        for at, line in enumerate(textwrap.wrap(text, letters, break_on_hyphens=False)):
            self.y += SIZES[name] + 4
            self.text(MARGIN + left + (hanging if at else 0), self.y - 4, line, name)

    def ground(self, x: float, y: float, width: float, height: float, name: str) -> None:
        """Paints an area that lies below all others."""
        self.grounds.append(self._area(x, y, width, height, name))

    def fill(self, x: float, y: float, width: float, height: float, name: str) -> None:
        """Paints an area that lies below all lines."""
        self.fills.append(self._area(x, y, width, height, name))

    def rule(self, data: str, name: str) -> None:
        """Draws a line that lies below all marks."""
        self.rules.append(f'<path class="{name}" d="{data}"/>')

    def box(self, x: float, y: float, width: float, height: float, name: str) -> None:
        """Paints an area."""
        self.marks.append(self._area(x, y, width, height, name))

    @staticmethod
    def _area(x: float, y: float, width: float, height: float, name: str) -> str:
        size = f'width="{number(width)}" height="{number(height)}"'
        return f'<rect class="{name}" x="{number(x)}" y="{number(y)}" {size}/>'

    def path(self, data: str, name: str) -> None:
        """Draws a line."""
        self.marks.append(f'<path class="{name}" d="{data}"/>')

    def document(self, title: str, about: str) -> str:
        """Returns the whole document."""
        height = number(self.y + MARGIN)
        size = f'width="{self.width}" height="{height}" viewBox="0 0 {self.width} {height}"'
        parts = [
            f'<svg xmlns="http://www.w3.org/2000/svg" role="img" aria-label={quoteattr(title)} '
            f'{size} font-family="{FONT}">',
            f"<title>{escape(title)}</title>",
            f"<desc>{escape(about)}</desc>",
            f"<style>{style()}</style>",
            f'<rect class="paper" width="{self.width}" height="{height}"/>',
            *self.grounds,
            *self.fills,
            *self.rules,
            *self.marks,
            "</svg>",
        ]
        return "\n".join(parts) + "\n"
