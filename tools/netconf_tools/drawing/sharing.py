"""Who shares what under an image, in SVG: the spans of each node that two or more agents see, with a column for the
agents that see the same.

The height of a row grows with the logarithm of its size, as in memory maps. A cell says what its agents may do there,
and at which of their own addresses they have it."""

import itertools
from collections.abc import Collection, Iterator
from typing import NamedTuple

from netconf_tools.audit import ACCESSES, Report, Shared, Spans, places
from netconf_tools.drawing.colours import ACCESSES as COLOURS
from netconf_tools.drawing.colours import SHARED
from netconf_tools.drawing.picture import HOLE, LETTER, LINE, MARGIN, MONO, SANS, TITLE, Picture, height_of
from netconf_tools.text import shortened, size_text

CELL = 112
"""The width of a column."""
NAMED = 5
"""How many names of agents stand above a column at most."""
TURNED = 6.6
"""The height of a letter in a name that runs upwards."""
LONGEST = 30
"""How many letters of an agent's name stand above its column."""
LISTED = 12
"""How many slots that are shut out a picture lists, and of how many columns it names all agents."""
SAID = 8
"""Of how many agents the text of a row says where they have it."""
CELLS = 20000
"""How many cells are drawn: the rows after these are left out."""
ROWS = 600
"""How many rows a picture may have to be looked at."""


class Wanted(NamedTuple):
    """Which rows are drawn: those that one of the agents has, or any where none is named; and whether only what is
    shared by records alone."""
    agents: Collection[str] = ()
    by_records: bool = False

    def has(self, cells: "tuple[Cell, ...]") -> bool:
        """Whether a row with these cells is drawn."""
        seen = [cell for cell in cells if cell.accesses]
        if self.by_records and not any(cell.is_by_record for cell in seen):
            return False
        return not self.agents or any(cell.agent in self.agents for cell in seen)


class Cell(NamedTuple):
    """What an agent may do at the addresses of a row, and whether it shares them by records."""
    agent: str
    accesses: tuple[str, ...]
    is_by_record: bool


class Part(NamedTuple):
    """Addresses of a row of a report, all through with the same cells."""
    row: Shared
    lo: int
    hi: int
    cells: tuple[Cell, ...]


def parts_of(report: Report, by_records: list[list[Shared]]) -> Iterator[Part]:
    """The shared rows of a report, cut where what is said of an agent changes."""
    for row, shared in zip(report.shared, by_records):
        seen = {(agent, access): report.spans(agent, [access], row) for agent in row.agents for access in ACCESSES}
        framed = {agent: Spans((other.lo, other.hi) for other in shared if agent in other.agents)
                  for agent in row.agents}
        cuts = {row.lo, row.hi + 1}.union(*(spans.cuts() for spans in [*seen.values(), *framed.values()]))
        parts: list[Part] = []
        for lo, end in itertools.pairwise(sorted(cuts)):
            cells = tuple(Cell(agent, tuple(access for access in ACCESSES if lo in seen[agent, access]),
                               lo in framed[agent])
                          for agent in row.agents)
            if parts and parts[-1].cells == cells:
                parts[-1] = parts[-1]._replace(hi=end - 1)
            else:
                parts.append(Part(row, lo, end - 1, cells))
        yield from parts


def drawn_parts(report: Report, by_records: list[list[Shared]], wanted: Wanted) -> tuple[list[Part], bool]:
    """The rows that are drawn, as many as have few enough cells; and whether these are all."""
    parts: list[Part] = []
    cells = 0
    for part in parts_of(report, by_records):
        if not wanted.has(part.cells):
            continue
        cells += len(part.cells)
        if cells > CELLS:
            return parts, False
        parts.append(part)
    return parts, True


def columns_of(report: Report, parts: list[Part]) -> list[list[str]]:
    """The agents of each column: those that have the same cells in all rows, in the order of the report."""
    cells: dict[str, list[tuple[int, tuple[str, ...], bool]]] = {}
    for number, part in enumerate(parts):
        for cell in part.cells:
            if cell.accesses:
                cells.setdefault(cell.agent, []).append((number, cell.accesses, cell.is_by_record))
    alike: dict[tuple[tuple[int, tuple[str, ...], bool], ...], list[str]] = {}
    for agent in dict.fromkeys(agent for agent, _ in report.views):
        if agent in cells:
            alike.setdefault(tuple(cells[agent]), []).append(agent)
    return list(alike.values())


class Sharing:
    """A picture of who shares what: what is drawn, the report, and the agents of each column."""

    def __init__(self, report: Report, parts: list[Part]) -> None:
        self.report, self.parts = report, parts
        self.columns = columns_of(report, parts)
        self.picture = Picture()
        self.gutter = LETTER * max([len(f"{part.lo:#x}-{part.hi:#x}") for part in parts] + [8]) + 12
        self.left = MARGIN + self.gutter

    def address_of(self, part: Part, agents: list[str]) -> str:
        """Where all agents of a column have the addresses of a row, if that is one place for all of them."""
        found = set()
        for agent in agents:
            for access in ACCESSES:
                seen = self.report.seen(agent, access, part.row.node, part.lo, part.hi)
                found |= {piece.lo - piece.at for piece in seen}
        return f"at {part.lo + found.pop():#x}" if len(found) == 1 else "at several places" if found else ""

    def draw_cell(self, part: Part, cell: Cell, agents: list[str], x: float, y: float, height: float) -> None:
        """The cell of a column."""
        self.picture.box(x, y, CELL, height, COLOURS[cell.accesses][1])
        if cell.is_by_record:
            for inner in (1.5, 3.5):
                self.picture.box(x + inner, y + inner, CELL - 2 * inner, height - 2 * inner, "none", SHARED)
        self.picture.text(x + CELL / 2, y + height / 2 - 3, ", ".join(cell.accesses), "middle", 10)
        self.picture.text(x + CELL / 2, y + height / 2 + 10, self.address_of(part, agents), "middle", 9, MONO)

    def draw_part(self, part: Part, y: float) -> float:
        """A row with its addresses before it, its cells, and its size after it; returns its height."""
        height, span = max(height_of(part.hi - part.lo + 1), 2 * LINE + 6), f"{part.lo:#x}-{part.hi:#x}"
        size = size_text(part.hi - part.lo + 1)
        here = part.row._replace(lo=part.lo, hi=part.hi)
        words = "; ".join(f"{cell.agent} at {', '.join(places(self.report, here, cell.agent))}"
                          for cell in part.cells[:SAID])
        words += f"; and {len(part.cells) - SAID} more" if len(part.cells) > SAID else ""
        self.picture.group(shortened(f"{part.row.node} {span} ({size}): {words}", TITLE))
        self.picture.text(self.left - 6, y + height / 2 + 4, span, "end", 11, MONO)
        cells = {cell.agent: cell for cell in part.cells if cell.accesses}
        for number, agents in enumerate(self.columns):
            if agents[0] in cells:
                self.draw_cell(part, cells[agents[0]], agents, self.left + CELL * number, y, height)
        self.picture.text(self.left + CELL * len(self.columns) + 6, y + height / 2 + 4, size, "start")
        self.picture.end()
        return height

    def draw_node(self, parts: list[Part], y: float) -> float:
        """The shared rows of a node, with a break where addresses between them are not drawn; returns where they
        end."""
        self.picture.text(self.left, y + 14, shortened(parts[0].row.node, 60), "start", 13, SANS, "#000000", "bold")
        y += 22
        for before, part in zip([None, *parts], parts):
            if before and before.hi + 1 < part.lo:
                self.picture.teeth(self.left, y + HOLE / 2, CELL * len(self.columns))
                y += HOLE
            y += self.draw_part(part, y)
        return y + MARGIN

    def draw_names(self, y: float) -> float:
        """The names of agents above their columns; returns where they end."""
        shown = [[shortened(agent, LONGEST) for agent in agents[:NAMED]] for agents in self.columns]
        for names, agents in zip(shown, self.columns):
            if len(agents) > NAMED:
                names[-1] = f"and {len(agents) - NAMED + 1} more"
        y += TURNED * max([len(name) for names in shown for name in names] + [0])
        for number, names in enumerate(shown):
            for place, name in enumerate(names):
                x = self.left + CELL * number + CELL / 2 + 18 * (place - (len(names) - 1) / 2) + 4
                self.picture.text_along(x, y - TURNED * len(name) / 2, name)
        return y + 10

    def draw_legend(self, y: float) -> float:
        """What the colours of cells say, of those that are drawn; returns where it ends."""
        cells = [cell for part in self.parts for cell in part.cells]
        used = {cell.accesses for cell in cells}
        rows = [(colour, f"the agent {words}") for accesses, (words, colour) in COLOURS.items() if accesses in used]
        rows += [(SHARED, "a frame: two or more agents share it by records alone")] * any(cell.is_by_record
                                                                                          for cell in cells)
        return self.picture.legend(MARGIN, y, rows) + 12


def full_columns(columns: list[list[str]]) -> list[str]:
    """The agents of those columns whose names do not all stand above them, as lines."""
    return [f"Column {number + 1}: {shortened(', '.join(agents), 160)}" for number, agents in enumerate(columns)
            if len(agents) > NAMED][:LISTED]


def sharing(name: str, report: Report, by_records: list[list[Shared]], shut: list[str],
            wanted: Wanted = Wanted()) -> tuple[str, str]:
    """The picture of who shares what under an image of a name, and what is to be said where it has too many rows to be
    looked at, or nothing. `shut` has a line for each slot that is shut out."""
    parts, are_all = drawn_parts(report, by_records, wanted)
    made = Sharing(report, parts)
    lines = [f"The image has {report.bytes} bytes and {report.records} record{'s' * (report.records != 1)}.",
             *(f"Shut out: {line}" for line in shut[:LISTED])]
    lines += [f"Shut out: {len(shut) - LISTED} more slots"] * (len(shut) > LISTED)
    picture = made.picture
    y = picture.heading(f"What two or more agents see under {name}", [*lines, *full_columns(made.columns)])
    y = made.draw_names(made.draw_legend(y))
    for _, group in itertools.groupby(parts, key=lambda part: part.row.node):
        y = made.draw_node(list(group), y)
    if not parts:
        picture.text(MARGIN, y + 14, "No two agents see the same address of a node." if wanted == Wanted()
                     else "No two agents share what is asked for.", "start", 13)
        y += 30
    note = (f"{len(report.shared)} spans are shared, too many to look at, and the picture has the first {len(parts)} "
            "rows; netconf-lint --audit lists what is shared by records")
    width = max(made.left + CELL * len(made.columns) + 110, 760)
    return picture.svg(width, y + MARGIN), "" if are_all and len(parts) <= ROWS else note
