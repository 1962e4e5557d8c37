"""Two agents on one scale of addresses, in SVG: what both see is shaded in both columns, with a ribbon between.

The same height is the same address on both sides, and the scale has the ends of what both see among its marks, so that
the shading is to scale. A row says where it is for reading or for writing alone, and a ribbon is drawn by what both
agents may do there."""

import bisect
import itertools
from collections.abc import Iterator
from typing import NamedTuple

from netconf_tools.drawing.colours import KINDS, SHARED, colour_of, kind_of
from netconf_tools.drawing.picture import GREY, HOLE, LETTER, LINE, MARGIN, MONO, SANS, TITLE, Picture, height_of
from netconf_tools.rows import Pieces
from netconf_tools.source import TOP
from netconf_tools.text import Piece, row_at, shortened, size_text
from netconf_tools.views import Board

BOX = 300
"""The width of a row's box."""
BAND = 52
"""The width of the shaded part of a box."""
MIDDLE = 330
"""The room between the two columns, for the ribbons and their names."""
NAMES = 8
"""How many names of one row are written out."""
ROWS = 600
"""How many rows a comparison may have to be looked at."""
LEGEND = 96
"""The room for the legend: four lines, and what separates them from the columns."""
RIBBONS = 2000
"""How many ribbons are drawn at most."""
BOTH, READ, WRITE = ("read", "write"), ("read",), ("write",)
STYLES: dict[tuple[str, ...], tuple[str, str, str]] = {
    BOTH: ("#d55e00", "", "both read and write there"),
    READ: ("#0072b2", "7 4", "both read there, and not both write"),
    WRITE: ("#e69f00", "2 4", "both write there, and not both read"),
    (): ("#7a7a7a", "9 3 2 3", "one reads there, and the other writes"),
}
"""The colour of a ribbon, how its edge is dashed, and what it says, by what both agents may do at its ends."""


class Meeting(NamedTuple):
    """What both agents see: the first and the last address on the left and on the right, the node with the first and
    the last of its addresses, and what both may do there."""
    left: tuple[int, int]
    right: tuple[int, int]
    node: str
    first: int
    last: int
    common: tuple[str, ...]

    def text(self) -> str:
        """The addresses of the node, and their number."""
        return f"{self.node}@{self.first:#x}-{self.last:#x} ({size_text(self.last - self.first + 1)})"


class Seen(NamedTuple):
    """Adjacent addresses of an agent that come to the same names: each a node, an address for `lo`, and its
    accesses."""
    lo: int
    hi: int
    names: tuple[tuple[str, int, tuple[str, ...]], ...]

    def texts(self) -> list[str]:
        """The names as lines, with the access where there is one alone."""
        texts = [f"{node}@{at:#x}" + ("" if allowed == BOTH else f" ({allowed[0]})")
                 for node, at, allowed in self.names]
        return texts if len(texts) <= NAMES else texts[:NAMES] + [f"and {len(texts) - NAMES} more"]


def seen_by(board: Board, agent: str) -> list[Seen]:
    """The rows of an agent for reading and writing together."""
    views = board.views([agent])
    sides = [[row_at(line) for line in views[agent, access]] for access in BOTH]
    cuts = sorted({place for rows in sides for row in rows for place in (row.lo, row.hi + 1)})
    found: list[Seen] = []
    at = [0, 0]
    for low, end in zip(cuts, cuts[1:]):
        names: dict[tuple[str, int], list[str]] = {}
        for side, rows in enumerate(sides):
            while at[side] < len(rows) and rows[at[side]].hi < low:
                at[side] += 1
            if at[side] < len(rows) and rows[at[side]].lo <= low:
                for node, first in rows[at[side]].names:
                    names.setdefault((node, first + low - rows[at[side]].lo), []).append(BOTH[side])
        here = Seen(low, end - 1, tuple((node, first, tuple(allowed)) for (node, first), allowed in names.items()))
        if names and found and goes_on(found[-1], here):
            found[-1] = found[-1]._replace(hi=here.hi)
        elif names:
            found.append(here)
    return found


def goes_on(before: Seen, after: Seen) -> bool:
    """Whether the second row only goes on with the first."""
    moved = tuple((node, at + after.lo - before.lo, allowed) for node, at, allowed in before.names)
    return before.hi + 1 == after.lo and moved == after.names


class Scale:
    """The heights of addresses, the same for both columns: more for what one of them has, little for what none has."""

    def __init__(self, columns: list[list[Seen]], met: list[Meeting]) -> None:
        ends = {place for rows in columns for row in rows for place in (row.lo, row.hi + 1)}
        ends |= {place for meeting in met for first, last in (meeting.left, meeting.right)
                 for place in (first, last + 1)}
        self.cuts = sorted(ends | {0, TOP + 1})
        heights: list[float] = []
        for low, end in zip(self.cuts, self.cuts[1:]):
            heights.append(height_of(end - low) if self.is_seen(columns, low) else HOLE)
        for rows in columns:
            for row in rows:
                first, last = bisect.bisect_left(self.cuts, row.lo), bisect.bisect_left(self.cuts, row.hi + 1)
                heights[last - 1] += max(0, LINE * len(row.texts()) + 2 - sum(heights[first:last]))
        self.tops = [0.0]
        for height in heights:
            self.tops.append(self.tops[-1] + height)

    @staticmethod
    def is_seen(columns: list[list[Seen]], address: int) -> bool:
        """Whether a row of some column has an address."""
        for rows in columns:
            at = bisect.bisect_right(rows, address, key=lambda row: row.lo)
            if at and rows[at - 1].hi >= address:
                return True
        return False

    def y(self, address: int) -> float:
        """The height of an address; between two cuts by its part of the way."""
        at = bisect.bisect_right(self.cuts, address) - 1
        if at + 1 >= len(self.cuts):
            return self.tops[-1]
        part = (address - self.cuts[at]) / (self.cuts[at + 1] - self.cuts[at])
        return self.tops[at] + part * (self.tops[at + 1] - self.tops[at])


def meetings(left: list[Seen], right: list[Seen]) -> Iterator[Meeting]:
    """Where rows of both come to the same."""
    places: dict[str, list[Piece]] = {}
    for row in right:
        for node, at, _ in row.names:
            places.setdefault(node, []).append(Piece(row.lo, row.hi, node, at))
    found = {node: Pieces(pieces) for node, pieces in places.items()}
    for row in left:
        for node, at, allowed in row.names:
            for part in found[node].seen(at, at + row.hi - row.lo) if node in found else ():
                common = tuple(access for access in allowed if access in accesses_at(right, part))
                here = row.lo + part.at - at
                yield Meeting((here, here + part.hi - part.lo), (part.lo, part.hi), node, part.at, part.at_last, common)


def accesses_at(rows: list[Seen], part: Piece) -> tuple[str, ...]:
    """What the row of a part may do there."""
    row = rows[bisect.bisect_right(rows, part.lo, key=lambda row: row.lo) - 1]
    first = part.at - (part.lo - row.lo)
    return next(allowed for node, at, allowed in row.names if (node, at) == (part.node, first))


def gutters_of(columns: list[list[Seen]]) -> list[float]:
    """The room beside each of two columns, for the addresses of its rows."""
    return [LETTER * max([len(f"{row.lo:#x}-{row.hi:#x}") for row in rows] + [8]) + 12 for rows in columns]


class Columns:
    """Two columns of rows on one scale: the picture, the board of each column, the rows, and the kinds of nodes that
    are met."""

    def __init__(self, picture: Picture, boards: tuple[Board, Board], rows: list[list[Seen]],
                 met: list[Meeting]) -> None:
        """`met` has places whose ends are marks of the scale."""
        self.picture, self.boards, self.rows = picture, boards, rows
        self.scale = Scale(rows, met)
        self.kinds: dict[str, None] = {}

    def draw(self, left: float, right: float, y: float) -> None:
        """Both columns, at these places and below a height."""
        for board, rows, x, anchor in zip(self.boards, self.rows, (left, right), ("end", "start")):
            self.draw_breaks(rows, x, y)
            self.draw_column(board, rows, x, y, anchor)

    def colour(self, board: Board, name: str) -> str:
        """The colour of a node, which the legend then has."""
        node = board.statement(name)
        if node is None:
            return KINDS["none"][1]
        self.kinds[kind_of(node)] = None
        return colour_of(node)

    def draw_column(self, board: Board, rows: list[Seen], x: float, y: float, anchor: str) -> None:
        """The rows of one agent; their addresses stand outside."""
        for row in rows:
            top, bottom = y + self.scale.y(row.lo), y + self.scale.y(row.hi + 1)
            span = f"{row.lo:#x}-{row.hi:#x}"
            self.picture.group(shortened(f"{span} {', '.join(row.texts())} ({size_text(row.hi - row.lo + 1)})", TITLE))
            for number, (node, _at, _allowed) in enumerate(row.names):
                width = BOX / len(row.names)
                self.picture.box(x + number * width, top, width, bottom - top, self.colour(board, node), "none")
            self.picture.box(x, top, BOX, bottom - top, "none")
            texts = row.texts()
            base = (top + bottom) / 2 - LINE * len(texts) / 2 + 11
            middle = x + (BOX - BAND if anchor == "end" else BOX + BAND) / 2
            for number, text in enumerate(texts):
                self.picture.text(middle, base + LINE * number, shortened(text, 34), "middle")
            self.picture.text(x - 6 if anchor == "end" else x + BOX + 6, (top + bottom) / 2 + 4, span, anchor, 11, MONO)
            self.picture.end()

    def draw_breaks(self, rows: list[Seen], x: float, y: float) -> None:
        """Breaks where neither sees anything, between the first row of a column and its last."""
        for low, end in zip(self.scale.cuts, self.scale.cuts[1:]):
            if rows and rows[0].lo < low < rows[-1].hi and not self.scale.is_seen(self.rows, low):
                self.picture.teeth(x, y + self.scale.y(low) + 5, BOX)
                self.picture.teeth(x, y + self.scale.y(end) - 5, BOX)


class Comparison(Columns):
    """A picture of two agents of a board, and what both see."""

    def __init__(self, board: Board, agents: tuple[str, str]) -> None:
        rows = [seen_by(board, agent) for agent in agents]
        met = list(itertools.islice(meetings(*rows), RIBBONS + 1))
        self.met, self.is_all = met[:RIBBONS], len(met) <= RIBBONS
        super().__init__(Picture(), (board, board), rows, self.met)

    def draw_ribbon(self, meeting: Meeting, left: float, right: float, y: float) -> None:
        """What both see: its part of both boxes shaded, and a ribbon between; `left` and `right` are the inner ends of
        the columns."""
        colour, dashes, words = STYLES[meeting.common]
        here, there = ([y + self.scale.y(first), y + self.scale.y(last + 1)]
                       for first, last in (meeting.left, meeting.right))
        self.picture.group(f"{shortened(meeting.text(), 200)}: {words}")
        self.picture.band([(left - BAND, here[0]), (left, here[0]), (right, there[0]), (right + BAND, there[0]),
                           (right + BAND, there[1]), (right, there[1]), (left, here[1]), (left - BAND, here[1])],
                          colour, dashes=dashes)
        self.picture.end()

    def draw_label(self, meeting: Meeting, middle: float, y: float) -> None:
        """The addresses of a ribbon, over all ribbons."""
        text = shortened(meeting.text(), 44)
        width = 6.4 * len(text) + 8
        self.picture.box(middle - width / 2, y - 12, width, 16, "#ffffff", STYLES[meeting.common][0])
        self.picture.text(middle, y, text, "middle", 11, SANS, SHARED)

    def draw_legend(self, y: float) -> float:
        """What the colours of ribbons and boxes say, of those that are drawn; returns where it ends."""
        used = {meeting.common for meeting in self.met}
        rows = [(colour, words) for common, (colour, _, words) in STYLES.items() if common in used]
        rows += [(colour, words) for kind, (words, colour) in KINDS.items() if kind in self.kinds]
        return self.picture.legend(MARGIN, y, rows)

    def labels(self, left: float, right: float, y: float) -> list[float]:
        """The heights of the names of ribbons: in the middle of each, and one below the other where they would
        touch."""
        heights: list[float] = []
        for meeting in self.met:
            ends = [self.scale.y(place) for first, last in (meeting.left, meeting.right) for place in (first, last + 1)]
            heights.append(y + sum(ends) / 4 + 4)
        order = sorted(range(len(heights)), key=lambda number: heights[number])
        for before, after in zip(order, order[1:]):
            heights[after] = max(heights[after], heights[before] + 19)
        return heights


def comparison(name: str, board: Board, one: str, other: str) -> tuple[str, str]:
    """The picture of two agents of the description of a name, and what is to be said where it has too many rows to be
    looked at, or nothing."""
    made = Comparison(board, (one, other))
    picture, columns = made.picture, made.rows
    gutters = gutters_of(columns)
    left = MARGIN + gutters[0]
    right = left + BOX + MIDDLE
    top = picture.heading(f"What {shortened(one, 30)} and {shortened(other, 30)} see in {name}",
                          ["The same height is the same address on both sides. Shaded: what both see."])
    y = top + LEGEND
    for agent, rows, x in ((one, columns[0], left), (other, columns[1], right)):
        picture.text(x, y + 14, shortened(agent, 34), "start", 13, SANS, "#000000", "bold")
        picture.text(x, y + 31, f"{len(rows)} row" + "s" * (len(rows) != 1), "start", 11, SANS, GREY)
    y += 42
    made.draw(left, right, y)
    labels = made.labels(left + BOX, right, y)
    for meeting in made.met:
        made.draw_ribbon(meeting, left + BOX, right, y)
    for meeting, label in zip(made.met, labels):
        made.draw_label(meeting, left + BOX + MIDDLE / 2, label)
    if not made.met:
        picture.text(left + BOX + MIDDLE / 2, y + 20, "they share nothing", "middle", 11, SANS, GREY)
    made.draw_legend(top)
    count, notes = sum(map(len, columns)), []
    if count > ROWS:
        notes.append(f"the comparison has {count} rows, too many to look at")
    if not made.is_all:
        notes.append(f"both see more than {RIBBONS:,} spans, of which these are the first")
    note = "; ".join([*notes, "netconf-query who and where answer for single addresses"]) if notes else ""
    bottom = max([y + made.scale.tops[-1], *labels])
    return picture.svg(right + BOX + gutters[1] + MARGIN, bottom + MARGIN), note
