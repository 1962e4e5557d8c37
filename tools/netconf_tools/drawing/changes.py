"""What agents gain and lose from one description to the next, in SVG and to scale.

The left column is what an agent saw, the right one what it sees. The same height is the same address on both sides.
What is lost is marked on the left, what is new on the right, and a ribbon leads from what stood elsewhere to its new
place. Agents that differ alike share their columns."""

from collections.abc import Iterable, Iterator

from netconf_tools.differences import Difference, compared
from netconf_tools.drawing.colours import KINDS
from netconf_tools.drawing.comparison import BAND, BOTH, BOX, MIDDLE, Columns, Meeting, gutters_of, seen_by
from netconf_tools.drawing.picture import GREY, MARGIN, SANS, Picture
from netconf_tools.text import Trouble, shortened, size_text
from netconf_tools.views import Board

LEGEND = 96
"""The room for the legend."""

MOST_AGENTS, MOST_MARKS = 16, 2000
"""How many columns and how many marks are drawn at most."""

STYLES = {
    "-": ("#d55e00", "lost"),
    "+": ("#0072b2", "new"),
    "~": ("#cc79a7", "at another address"),
}
"""The colour of a difference and what it says, by the mark with which netconf-query prints it."""


def mark_of(difference: Difference) -> str:
    """The mark of a difference."""
    return difference.text()[0]


def words_of(difference: Difference) -> str:
    """What a difference is about, in one line."""
    access = f" for {difference.access}" if difference.access else ""
    size = size_text(difference.last - difference.first + 1)
    return f"{mark_of(difference)} {difference.node}@{difference.first:#x}-{difference.last:#x} ({size}){access}"


def alike(differences: Iterable[Difference]) -> dict[tuple[str, ...], list[Difference]]:
    """The differences by the agents that share them."""
    found: dict[tuple[str, ...], list[Difference]] = {}
    for difference in differences:
        found.setdefault(difference.agents, []).append(difference)
    return found


def spans_of(difference: Difference) -> Iterator[tuple[int, int]]:
    """The agent's addresses at which a difference was, and at which it is."""
    for first in (difference.old, difference.new):
        if first is not None:
            yield first, first + difference.last - difference.first


class Changes:
    """The columns of some agents that differ alike, and the marks in them."""

    def __init__(self, picture: Picture, boards: tuple[Board, Board], agents: tuple[str, ...],
                 differences: list[Difference]) -> None:
        self.picture, self.agents, self.differences = picture, agents, differences
        places = [Meeting(spans[0], spans[-1], difference.node, difference.first, difference.last, BOTH)
                  for difference in differences for spans in [list(spans_of(difference))]]
        self.columns = Columns(picture, boards, [seen_by(board, agents[0]) for board in boards], places)

    def draw(self, left: float, y: float) -> float:
        """Draws the columns and the marks below a height; returns where they end."""
        names = ", ".join(shortened(agent, 40) for agent in self.agents[:8])
        more = f" and {len(self.agents) - 8} more" if len(self.agents) > 8 else ""
        self.picture.text(MARGIN, y + 14, names + more, "start", 13, SANS, "#000000", "bold")
        right = left + BOX + MIDDLE
        for x, words in ((left, "before"), (right, "after")):
            self.picture.text(x, y + 34, words, "start", 11, SANS, GREY)
        y += 44
        self.columns.draw(left, right, y)
        for difference in self.differences:
            self.draw_mark(difference, left + BOX, right, y)
        bottom = y
        for difference in self.differences:
            middles = [sum(ends) / 2 for ends in self.heights(difference, y)]
            bottom = max(sum(middles) / len(middles) + 4, bottom + 19)
            shown = shortened(words_of(difference), 44)
            width, middle = 6.4 * len(shown) + 8, left + BOX + MIDDLE / 2
            self.picture.box(middle - width / 2, bottom - 12, width, 16, "#ffffff", STYLES[mark_of(difference)][0])
            self.picture.text(middle, bottom, shown, "middle")
        return max(bottom, y + self.columns.scale.tops[-1])

    def heights(self, difference: Difference, y: float) -> list[tuple[float, float]]:
        """Where a difference begins and ends in each column in which it is."""
        scale = self.columns.scale
        return [(y + scale.y(first), y + scale.y(end + 1)) for first, end in spans_of(difference)]

    def draw_mark(self, difference: Difference, left: float, right: float, y: float) -> None:
        """Marks a difference in the columns, which end and begin at two places."""
        colour, words = STYLES[mark_of(difference)]
        heights = self.heights(difference, y)
        self.picture.group(f"{shortened(words_of(difference), 200)}: {words}")
        if difference.old is not None and difference.new is not None:
            (top, bottom), (to_top, to_bottom) = heights
            self.picture.band([(left - BAND, top), (left, top), (right, to_top), (right + BAND, to_top),
                               (right + BAND, to_bottom), (right, to_bottom), (left, bottom), (left - BAND, bottom)],
                              colour)
        else:
            x, (top, bottom) = left - BAND if difference.new is None else right, heights[0]
            self.picture.band([(x, top), (x + BAND, top), (x + BAND, bottom), (x, bottom)], colour, 0.6)
        self.picture.end()


def changes_picture(names: tuple[str, str], boards: tuple[Board, Board], agents: list[str]) -> tuple[str, str]:
    """The picture of what agents gain and lose from the first board to the second, of all or of some; and what is to
    be said where it leaves something out, or nothing."""
    for agent in agents:
        for name, board in zip(names, boards):
            if agent not in board.agent_set:
                raise Trouble(f"{name}: {shortened(agent, 60)} is not an agent")
    differences = [found for found in compared(*boards) if not agents or set(found.agents) & set(agents)]
    groups = alike(differences[:MOST_MARKS])
    old, new = boards
    lines = ["The same height is the same address on both sides."]
    for board, other, words in ((old, new, "only before"), (new, old, "only after")):
        alone = [agent for agent in board.agents if agent not in other.agent_set]
        if alone:
            lines.append(f"Agents {words}: {shortened(', '.join(alone), 110)}")
    picture = Picture()
    top = picture.heading(f"From {shortened(names[0], 34)} to {shortened(names[1], 34)}", lines)
    parts = [Changes(picture, boards, *group) for group in list(groups.items())[:MOST_AGENTS]]
    gutters = [max([gutters_of(part.columns.rows)[side] for part in parts] + [80.0]) for side in (0, 1)]
    left, y = MARGIN + gutters[0], top + LEGEND
    for part in parts:
        y = part.draw(left, y) + 34
    if not parts:
        picture.text(MARGIN, y, "No agent sees anything else.", "start", 13)
        y += 34
    used = {mark_of(difference) for difference in differences}
    kinds = {kind for part in parts for kind in part.columns.kinds}
    rows = [(colour, words) for mark, (colour, words) in STYLES.items() if mark in used]
    picture.legend(MARGIN, top, [*rows, *((colour, words) for kind, (words, colour) in KINDS.items() if kind in kinds)])
    left_out = len(groups) > MOST_AGENTS or len(differences) > MOST_MARKS
    note = "there are more differences than are drawn: netconf-query diff lists them, or --agent" if left_out else ""
    return picture.svg(left + 2 * BOX + MIDDLE + gutters[1] + MARGIN, y), note
