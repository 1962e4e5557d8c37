"""The views of agents as memory maps in SVG.

A row of a view is a box as wide as all others; its height grows with the logarithm of its size, so that a register
block of 4 KiB stands readable beside 4 GiB of memory. Addresses that come to nothing are breaks of one height. A node
that goes on through several rows, such as a bus whose registers cover its window, is a bar beside them. A row in which
buffers or vectors were granted names them. Agents that see the same share one map."""

import itertools
import math
from collections.abc import Iterable
from dataclasses import dataclass

from netconf_tools.audit import Spans
from netconf_tools.drawing.colours import KINDS, SHARED, Guests, kind_of
from netconf_tools.drawing.picture import GREY, HOLE, LETTER, LINE, MARGIN, MONO, SANS, TITLE, Picture, height_of
from netconf_tools.source import TOP, Node
from netconf_tools.text import Row, shortened, size_text

HEADING_LETTER = 9.3
"""The width of a letter of a map's title: 13 pixels, bold, mostly digits."""
BOX = 290
"""The width of a row's box."""
BAR = 22
"""The width of the bar of a node that goes on through several rows."""
BEHIND = 96
"""The room behind a box, for its size."""
COLUMN = 1300
"""The height from which on a map goes on in a column beside it."""
PAGE = 2500
"""The width from which on maps stand below one another."""
ROWS = 600
"""How many rows the maps of a picture may have to be looked at."""
NAMES = 8
"""How many names of one row are written out."""
EDGE = 5
"""The width of a mark at the edge of a row."""
LEGEND = 96
"""The room for the legend: four lines, and what separates them from the maps."""
SCALE = (16, 1 << 12, 1 << 20, 1 << 26, 1 << 32)
"""The sizes that the key of the scale shows."""

Bar = tuple[str, int]
"""A node that goes on through several rows, and the address that it would have at 0."""

Granted = tuple[int, int, str]
"""What was granted: its first address and its last, and its id."""


@dataclass
class Piece:
    """A row of a view with the ids of what was granted there, or a hole where the view has no row.

    `bar` is the node that goes on through this row and the next, with the address that it would have at 0; or
    nothing."""
    lo: int
    hi: int
    row: Row | None = None
    granted: tuple[str, ...] = ()
    bar: Bar | None = None

    def names(self) -> list[tuple[str, int]]:
        """The names of the row that no bar has."""
        names = self.row.names if self.row else ()
        return [(node, at) for node, at in names if (node, at - self.lo) != self.bar]

    def texts(self) -> list[str]:
        """The names of the row as lines, but for that of its bar, and the grants."""
        texts = [f"{node}@{at:#x}" for node, at in self.names()]
        texts = texts if len(texts) <= NAMES else texts[:NAMES] + [f"and {len(texts) - NAMES} more"]
        return texts + ([f"granted: {', '.join(self.granted)}"] if self.granted else [])

    def height(self) -> float:
        """Its height in the picture."""
        if self.row is None:
            return HOLE
        return max(height_of(self.hi - self.lo + 1), LINE * len(self.texts()) + 2)

    def addresses(self) -> str:
        """Its addresses as text."""
        return f"{self.lo:#x}-{self.hi:#x}"


@dataclass
class Map:
    """The map of agents that see the same: its pieces in columns, the width of the addresses in each, title and
    size."""
    columns: list[list[Piece]]
    gutters: list[float]
    title: list[str]
    width: float
    height: float


def bars_of(rows: list[Row]) -> list[Bar | None]:
    """For each row the node that goes on through it and its neighbours, with the address that it would have at 0; or
    nothing.

    Rows are the fewest that say a view, so where a node goes on from one row to the next, another name begins or
    ends."""
    runs: list[tuple[int, int, int, Bar]] = []
    start: dict[Bar, int] = {}
    for number in range(len(rows) + 1):
        row = rows[number] if number < len(rows) else None
        goes_on = number > 0 and row is not None and rows[number - 1].hi + 1 == row.lo
        here = {(node, at - row.lo) for node, at in row.names} if row else set()
        runs += [(first - number, first, number, key) for key, first in start.items() if not goes_on or key not in here]
        start = {key: start.get(key, number) if goes_on else number for key in here}
    bars: list[Bar | None] = [None] * len(rows)
    for _length, first, end, key in sorted(runs):
        if end - first > 1 and not any(bars[first:end]):
            bars[first:end] = [key] * (end - first)
    return bars


def pieces_of(rows: list[Row], grants: list[Granted]) -> list[Piece]:
    """The rows of a view with the holes between them; `grants` has of each grant its addresses and its id."""
    pieces: list[Piece] = []
    free = 0
    for row, bar in zip(rows, bars_of(rows)):
        if row.lo > free:
            pieces.append(Piece(free, row.lo - 1))
        granted = tuple(title for lo, hi, title in grants if lo <= row.hi and row.lo <= hi)
        pieces.append(Piece(row.lo, row.hi, row, granted, bar))
        free = row.hi + 1
    return pieces + ([Piece(free, TOP)] if free <= TOP else [])


def columns_of(pieces: list[Piece]) -> list[list[Piece]]:
    """The pieces in columns of about the same height; a long view has taller columns."""
    total = sum(piece.height() for piece in pieces)
    limit = max(COLUMN, math.sqrt(total * 600 / 1.5))
    wanted, filled = total / math.ceil(total / limit), 0.0
    columns: list[list[Piece]] = [[]]
    for piece in pieces:
        if filled + piece.height() / 2 > wanted and columns[-1]:
            columns.append([])
            filled = 0.0
        columns[-1].append(piece)
        filled += piece.height()
    return columns


def title_lines(agents: list[str], rows: int, width: float, access: str) -> list[str]:
    """The title of a map: the names of its agents in lines of the map's width, and the number of rows, for an
    access."""
    lines, limit = [""], max(24, int(width / HEADING_LETTER))
    for number, agent in enumerate(agents):
        word = shortened(agent, limit - 2) + ("," if number + 1 < len(agents) else "")
        if lines[-1] and len(lines[-1]) + len(word) + 1 > limit:
            lines.append("")
        lines[-1] = f"{lines[-1]} {word}".strip()
    return lines + [f"{rows} row" + ("" if rows == 1 else "s") + (f" for {access}" if access else "")]


def map_of(agents: list[str], rows: list[Row], grants: list[Granted], access: str) -> Map:
    """The map of agents that see the same rows."""
    columns = columns_of(pieces_of(rows, grants))
    gutters = [LETTER * max(len(piece.addresses()) for piece in column) + 8 for column in columns]
    width = sum(gutters) + len(columns) * (BOX + BEHIND)
    title = title_lines(agents, len(rows), width, access)
    height = 18 * len(title) + 12 + max(sum(piece.height() for piece in column) for column in columns)
    return Map(columns, gutters, title, width, height)


class Shared:
    """The addresses of nodes that several maps of a picture have."""

    def __init__(self, views: Iterable[list[Row]]) -> None:
        """`views` has the rows of each map."""
        spans: dict[str, list[tuple[int, int]]] = {}
        for rows in views:
            own: dict[str, list[tuple[int, int]]] = {}
            for row in rows:
                for node, at in row.names:
                    own.setdefault(node, []).append((at, at + row.hi - row.lo))
            for node, seen in own.items():
                found = Spans(seen)
                spans.setdefault(node, []).extend(zip(found.firsts, found.lasts))
        self._spans = {node: Spans(doubled(seen)) for node, seen in spans.items()}

    def has(self, node: str, first: int, last: int) -> bool:
        """Whether several maps have one of these addresses."""
        return node in self._spans and self._spans[node].meets(first, last)


def doubled(spans: Iterable[tuple[int, int]]) -> list[tuple[int, int]]:
    """The addresses that lie in two or more of the spans."""
    found: list[tuple[int, int]] = []
    reached = -1
    for first, last in sorted(spans):
        if first <= reached:
            found.append((first, min(last, reached)))
        reached = max(reached, last)
    return found


class Maps:
    """A picture of maps: what is drawn, the nodes of the net by their names, and what several maps have."""

    def __init__(self, nodes: dict[str, Node], views: Iterable[list[Row]]) -> None:
        self.picture = Picture()
        self.nodes = nodes
        self.guests = Guests()
        self.kinds: dict[str, None] = {}
        self.shared = Shared(views)
        self.is_shared = False

    def colour(self, name: str) -> str:
        """The colour of a node, which the legend then has."""
        node = self.nodes.get(name)
        kind = kind_of(node) if node else "none"
        self.kinds[kind] = None
        return KINDS[kind][1]

    def draw_row(self, piece: Piece, x: float, y: float) -> None:
        """The box of a row: a stripe for each name, and the names; beside the bar that it has."""
        names, height, width = piece.names(), piece.height(), BOX - (BAR if piece.bar else 0)
        x += BOX - width
        size = piece.hi - piece.lo
        for number, (node, at) in enumerate(names):
            left, stripe = x + number * width / len(names), width / len(names)
            self.picture.box(left, y, stripe, height, self.colour(node), "none")
            guest = self.guests.colour(node)
            if guest:
                self.picture.box(left, y, EDGE, height, guest, "none")
            if self.shared.has(node, at, at + size):
                self.is_shared = True
                self.picture.box(left + stripe - EDGE, y, EDGE, height, SHARED, "none")
        self.picture.box(x, y, width, height, "none")
        texts = piece.texts()
        base = y + height / 2 - LINE * len(texts) / 2 + 11
        for number, text in enumerate(texts):
            self.picture.text(x + width / 2, base + LINE * number, shortened(text, 38 if piece.bar else 42), "middle")

    def draw_bars(self, column: list[Piece], x: float, y: float) -> None:
        """The bars beside the rows of a column, each with its name along it."""
        top = y
        for bar, group in itertools.groupby(column, key=lambda piece: (piece.bar, piece.row is None)):
            pieces = list(group)
            height = sum(piece.height() for piece in pieces)
            if bar[0]:
                node, by = bar[0]
                name = f"{node}@{pieces[0].lo + by:#x}"
                self.picture.group(f"{pieces[0].lo:#x}-{pieces[-1].hi:#x} {name}")
                self.picture.box(x, top, BAR, height, self.colour(node))
                letters = max(1, int(height / LETTER) - 1)
                self.picture.text_along(x + BAR / 2 + 4, top + height / 2, shortened(name, letters))
                self.picture.end()
            top += height

    def draw_piece(self, piece: Piece, x: float, y: float, gutter: float) -> None:
        """A row or a hole, with its addresses before it and its size after it."""
        size, middle = size_text(piece.hi - piece.lo + 1), y + piece.height() / 2 + 4
        colour = "#000000" if piece.row else "#777777"
        words = shortened(piece.row.text(), TITLE) if piece.row else "nothing"
        picture = self.picture
        picture.group(f"{piece.addresses()} {words} ({size})")
        picture.text(x + gutter - 6, middle, piece.addresses(), "end", 11, MONO, colour)
        if piece.row:
            self.draw_row(piece, x + gutter, y)
        else:
            picture.teeth(x + gutter, y + 5, BOX)
            picture.teeth(x + gutter, y + HOLE - 5, BOX)
            picture.text(x + gutter + BOX / 2, middle - 1, "nothing", "middle", 9, SANS, colour)
        picture.text(x + gutter + BOX + 6, middle, size, "start", 11, SANS, colour)
        picture.end()

    def draw_title(self, made: Map, x: float, y: float) -> None:
        """The title of a map, after a mark in the colour of the module of its first agent."""
        guest = self.guests.colour(made.title[0])
        if guest:
            self.picture.box(x, y + 3, EDGE, 18 * (len(made.title) - 1) - 4, guest, "none")
        for number, line in enumerate(made.title):
            last = number == len(made.title) - 1
            self.picture.text(x + (EDGE + 5 if guest else 0), y + 14 + 18 * number, line, "start", 11 if last else 13,
                              SANS,
                              GREY if last else "#000000", "normal" if last else "bold")

    def draw_map(self, made: Map, x: float, y: float) -> None:
        """A map with its title, at a place."""
        self.draw_title(made, x, y)
        left = x
        for column, gutter in zip(made.columns, made.gutters):
            top = y + 18 * len(made.title) + 6
            self.draw_bars(column, left + gutter, top)
            for piece in column:
                self.draw_piece(piece, left, top, gutter)
                top += piece.height()
            left += gutter + BOX + BEHIND

    def draw_legend(self, y: float) -> float:
        """What the colours and marks say, of those that are drawn; returns where it ends."""
        rows = [(colour, words) for kind, (words, colour) in KINDS.items() if kind in self.kinds]
        rows += [(colour, f"edge: {shortened(guest, 30)}.*") for guest, colour in self.guests.met().items()]
        rows += [(SHARED, "edge: another map of this picture has some of it")] * self.is_shared
        return self.picture.legend(MARGIN, y, rows)


def draw_scale(picture: Picture, x: float, y: float) -> float:
    """How high a row of some sizes is, and what else a map is made of; returns where it ends."""
    tall = height_of(SCALE[-1])
    for number, size in enumerate(SCALE):
        left = x + number * 62
        picture.box(left, y + tall - height_of(size), 48, height_of(size), "#f4f4f4")
        picture.text(left + 24, y + 14 + tall, size_text(size), "middle", 10)
    left = x + len(SCALE) * 62 + 20
    picture.text(left, y + 11, "Heights grow with the logarithm of the size.", "start", 11, SANS, GREY)
    picture.text(left, y + 29, "Side by side in one row: its addresses come to several names at once.", "start", 11,
                 SANS, GREY)
    picture.text(left, y + 47,
                 "Between teeth: these addresses come to nothing. Rest the pointer on a row to read it whole.",
                 "start", 11, SANS, GREY)
    return y + max(tall + 22, 54)


Alike = tuple[list[str], list[Row], list[Granted]]
"""Agents that share a map, their rows, and what was granted to them."""


def maps_of(views: dict[str, list[Row]], grants: dict[str, list[Granted]]) -> list[Alike]:
    """The agents of each map: those that have the same rows and grants."""
    alike: dict[tuple[tuple[Row, ...], tuple[Granted, ...]], Alike] = {}
    for agent, rows in views.items():
        granted = grants.get(agent, [])
        alike.setdefault((tuple(rows), tuple(granted)), ([], rows, granted))[0].append(agent)
    return list(alike.values())


def svg_of(name: str, nodes: dict[str, Node], views: dict[str, list[Row]],
           grants: dict[str, list[Granted]] | None = None,
           access: str = "") -> str:
    """The picture of views: for each agent its rows, with its grants, of the description of a name. Agents with the
    same rows and grants share a map."""
    alike = maps_of(views, grants or {})
    maps = Maps(nodes, [rows for _, rows, _ in alike])
    picture = maps.picture
    top = picture.heading(f"What agents see in {name}" + (f", for {access}" if access else ""))
    top = draw_scale(picture, MARGIN, top) + 12
    made = [map_of(agents, rows, granted, access) for agents, rows, granted in alike]
    # The legend stands above the maps, and has what they turn out to need: they are drawn first, at a guess of its
    # height.
    x, y, wide, tall = float(MARGIN), top + LEGEND, 0.0, 0.0
    for (agents, _, _), one in zip(alike, made):
        if x > MARGIN and x + one.width > PAGE:
            x, y, tall = MARGIN, y + tall + 2 * MARGIN, 0.0
        for agent in agents:
            picture.anchor(agent)
        maps.draw_map(one, x, y)
        x += one.width + MARGIN
        wide, tall = max(wide, x), max(tall, one.height)
    maps.draw_legend(top)
    return picture.svg(max(wide, 980), y + tall + MARGIN)


def size_note_of_maps(views: dict[str, list[Row]]) -> str:
    """What is to be said of maps that have too many rows to be looked at, or nothing."""
    rows = sum(len(rows) for rows in {id(rows): rows for rows in views.values()}.values())
    if rows <= ROWS:
        return ""
    return (f"the maps have {rows} rows, too many to look at; --agent NAME draws the map of one agent, "
            "and netconf-query who and where answer for single addresses")
