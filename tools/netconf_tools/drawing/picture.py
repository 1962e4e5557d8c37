"""Elements of an SVG picture: text, boxes, bands, lines and breaks, with a title and a legend."""

import math
import re
from collections.abc import Iterable
from xml.sax.saxutils import escape

from netconf_tools.text import shortened

MONO = "DejaVu Sans Mono, Menlo, Consolas, monospace"
SANS = "DejaVu Sans, Verdana, sans-serif"
LETTER = 6.7
"""The width of a letter of 11 pixels in the font of addresses."""
LEAST = 16
"""The least height of a row, which holds one line of text."""
LINE = 14
"""The height of a line of text."""
HOLE = 28
"""The height of a hole."""
MARGIN = 24
"""The room round a picture."""
TITLE = 2000
"""The longest text that is shown when the pointer rests on a row."""
DARK = "<style>@media (prefers-color-scheme: dark) { svg:root { filter: invert(0.92) hue-rotate(180deg); } }</style>\n"
"""What makes a picture light on dark where the reader's desktop is dark: each colour keeps its hue, and turns its
lightness round."""

GREY = "#555555"
"""The colour of what explains."""


def height_of(size: int) -> float:
    """The height of a row of so many bytes, in pixels: 2.4 more for each doubling above 32."""
    return LEAST + 2.4 * max(0.0, math.log2(size) - 5)


def anchor_of(agent: str) -> str:
    """What links to the map of an agent call it: letters, digits, and others by their numbers."""
    return "map-" + re.sub(r"[^A-Za-z0-9]", lambda hit: f"_{ord(hit.group()):x}", shortened(agent, 200))


class Picture:
    """Elements of an SVG picture."""

    def __init__(self) -> None:
        self.elements: list[str] = []
        self.widths: set[int] = set()

    def text(self, x: float, y: float, words: str, anchor: str = "start", size: int = 11, font: str = SANS,
             colour: str = "#000000", weight: str = "normal") -> None:
        """A line of text whose base line is at `y`."""
        self.elements.append(f'<text x="{x:.1f}" y="{y:.1f}" text-anchor="{anchor}" font-size="{size}" '
                             f'font-family="{font}" font-weight="{weight}" fill="{colour}">{escape(words)}</text>')

    def text_along(self, x: float, y: float, words: str) -> None:
        """A line of text that runs upwards, with its middle at a place."""
        self.elements.append(f'<text x="{x:.1f}" y="{y:.1f}" text-anchor="middle" font-size="11" font-family="{SANS}" '
                             f'transform="rotate(-90 {x:.1f} {y:.1f})">{escape(words)}</text>')

    def box(self, x: float, y: float, width: float, height: float, colour: str, line: str = "#444444") -> None:
        """A filled box."""
        self.elements.append(f'<rect x="{x:.1f}" y="{y:.1f}" width="{width:.1f}" height="{height:.1f}" '
                             f'fill="{colour}" stroke="{line}" stroke-width="0.8"/>')

    def band(self, corners: Iterable[tuple[float, float]], colour: str, opacity: float = 0.35,
             dashes: str = "") -> None:
        """A filled shape through corners, through which what is below it is seen."""
        points = " ".join(f"{x:.1f},{y:.1f}" for x, y in corners)
        dashed = f' stroke-dasharray="{dashes}"' if dashes else ""
        self.elements.append(f'<polygon points="{points}" fill="{colour}" fill-opacity="{opacity}" stroke="{colour}" '
                             f'stroke-width="1.1"{dashed}/>')

    def line(self, x: float, y: float, to_x: float, to_y: float, colour: str, dashes: str = "") -> None:
        """A straight line, dashed by lengths of strokes and gaps."""
        dashed = f' stroke-dasharray="{dashes}"' if dashes else ""
        self.elements.append(f'<line x1="{x:.1f}" y1="{y:.1f}" x2="{to_x:.1f}" y2="{to_y:.1f}" stroke="{colour}" '
                             f'stroke-width="1.1"{dashed}/>')

    def teeth(self, x: float, y: float, width: int) -> None:
        """A line with teeth: the edge of a break. Lines of one width are one shape, used again."""
        self.widths.add(width)
        self.elements.append(f'<use href="#teeth{width}" x="{x:.1f}" y="{y:.1f}"/>')

    def shapes(self) -> str:
        """The lines with teeth that are used."""
        lines = []
        for width in sorted(self.widths):
            teeth = round(width / 7)
            points = " ".join(f"{i * width / teeth:.1f},{2.5 if i % 2 else -2.5}" for i in range(teeth + 1))
            lines.append(f'<polyline id="teeth{width}" points="{points}" fill="none" stroke="#999999" '
                         'stroke-width="0.8"/>')
        return "<defs>\n" + "\n".join(lines) + "\n</defs>\n"

    def anchor(self, name: str) -> None:
        """An empty group to which links lead by the name of an agent."""
        self.elements.append(f'<g id="{anchor_of(name)}"/>')

    def group(self, title: str) -> None:
        """Opens a group with a text that is shown when the pointer rests on it."""
        self.elements.append(f"<g><title>{escape(title)}</title>")

    def end(self) -> None:
        """Closes the open group."""
        self.elements.append("</g>")

    def svg(self, width: float, height: float) -> str:
        """The picture as a text."""
        head = (f'<svg xmlns="http://www.w3.org/2000/svg" width="{width:.0f}" height="{height:.0f}" '
                f'viewBox="0 0 {width:.0f} {height:.0f}">\n{DARK}<rect width="100%" height="100%" fill="#ffffff"/>\n')
        body = self.shapes() + "\n".join(self.elements)
        return f'<?xml version="1.0" encoding="UTF-8"?>\n{head}{body}\n</svg>\n'

    def heading(self, title: str, lines: Iterable[str] = ()) -> float:
        """The title of the picture, and lines that explain it below; returns where what follows can begin."""
        y = MARGIN + 14.0
        self.text(MARGIN, y, shortened(title, 90), "start", 15, SANS, "#000000", "bold")
        for line in lines:
            y += 18
            self.text(MARGIN, y, line, "start", 11, SANS, GREY)
        return y + 14

    def legend(self, x: float, y: float, rows: Iterable[tuple[str, str]]) -> float:
        """The legend: for each colour a box and words, in columns of four; returns where it ends."""
        listed = list(rows)
        width = max([7.0 * len(words) + 50 for _, words in listed] + [0.0])
        for number, (colour, words) in enumerate(listed):
            left, top = x + width * (number // 4), y + 20 * (number % 4)
            self.box(left, top, 22, 13, colour)
            self.text(left + 30, top + 11, words)
        return y + 20 * min(len(listed), 4)
