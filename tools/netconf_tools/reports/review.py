"""What a review of a platform has: its sources, verdicts, findings, views, what agents share by records, and
pictures.

The pages that are made of it, in Markdown and in HTML, say the same."""

import functools
import hashlib
import re
from collections.abc import Callable, Iterable, Iterator
from dataclasses import dataclass
from typing import NamedTuple

from netconf_tools.audit import Report, Shared, audited, by_records, places, shut_lines
from netconf_tools.claims import Verdict
from netconf_tools.cli.draw import grants_of, links_of, svg_of_dot, title_of
from netconf_tools.differences import Difference, compared
from netconf_tools.drawing.graph import dot_of
from netconf_tools.drawing.map import svg_of
from netconf_tools.drawing.sharing import LISTED, sharing
from netconf_tools.findings import Finding
from netconf_tools.source import Unreadable, nodes_of
from netconf_tools.text import Refusal, Row, Trouble, row_of
from netconf_tools.views import ACCESSES, Board, ImageBoard

MOST_ROWS = 20000
"""How many rows of views a page has at most."""

MOST_DRAWN = 2000
"""How many rows of views are drawn at most."""

MOST_BOXES = 400
"""How many nodes a graph in a page has at most."""


class Source(NamedTuple):
    """A file on which a review rests: what it is, its name, and its bytes."""
    what: str
    name: str
    data: bytes

    @property
    def digest(self) -> str:
        """The SHA-256 of its bytes."""
        return hashlib.sha256(self.data).hexdigest()


class ViewRow(NamedTuple):
    """A row of a view, and what the agent may do there."""
    row: Row
    accesses: tuple[str, ...]


class View(NamedTuple):
    """What agents see that see the same: the rows for reading and for writing, each once, in the order of
    addresses."""
    agents: tuple[str, ...]
    rows: tuple[ViewRow, ...]


class SharedSpan(NamedTuple):
    """Addresses of a node that two or more agents see by records, and where each of them has them."""
    span: str
    agents: tuple[tuple[str, tuple[str, ...]], ...]


class Drawn(NamedTuple):
    """A picture as SVG with its title; or, if there is none, why."""
    title: str
    svg: str
    missing: str = ""


@dataclass
class Review:
    """What a review has. `left` is how many rows of views are left out of it. `differences` are those between what the
    commands of the description make and the image, if the views are those under an image."""
    title: str
    sources: list[Source]
    board: Board
    verdicts: list[Verdict]
    findings: list[Finding]
    views: list[View]
    left: int
    shared: list[SharedSpan]
    shared_missing: str
    differences: list[Difference]
    pictures: list[Drawn]

    @property
    def failed(self) -> int:
        """How many claims do not hold."""
        return sum(not verdict.holds for verdict in self.verdicts)

    @property
    def is_image(self) -> bool:
        """Whether the views are those under an image, and not those after the commands."""
        return isinstance(self.board, ImageBoard)


def rows_of(board: Board, agent: str) -> tuple[ViewRow, ...]:
    """The rows of an agent's view for reading and for writing, each once."""
    views = board.views([agent])
    accesses: dict[str, list[str]] = {}
    for access in ACCESSES:
        for line in views[agent, access]:
            accesses.setdefault(line, []).append(access)
    rows = [ViewRow(row_of(line), tuple(allowed)) for line, allowed in accesses.items()]
    return tuple(sorted(rows, key=lambda found: (found.row.lo, found.row.hi, found.accesses)))


def views_of(board: Board) -> tuple[list[View], int]:
    """The views of all agents, those that see the same together; and how many rows are left out of them."""
    alike: dict[tuple[int, int], list[str]] = {}
    for agent in board.agents:
        read, write = (board.rows(agent, access) for access in ACCESSES)
        alike.setdefault((id(read), id(write)), []).append(agent)
    found, count, left = [], 0, 0
    for agents in alike.values():
        rows = rows_of(board, agents[0])
        kept = rows[:max(MOST_ROWS - count, 0)]
        found.append(View(tuple(agents), kept))
        count, left = count + len(kept), left + len(rows) - len(kept)
    return found, left


def report_of(board: Board) -> Report:
    """What the program says of the description and the image of its tables."""
    if isinstance(board, ImageBoard):
        return board.report
    report = audited(board.text, board.image)
    if isinstance(report, Refusal):
        raise Trouble(f"netconf audit refuses the image: {report.rule} {report.detail[:80]}")
    return report


def shared_of(board: Board, report: Report) -> tuple[list[SharedSpan], list[list[Shared]]]:
    """What agents share by records, and the same as the program's spans."""
    spans = by_records(board.text, board.image, report)
    found = [SharedSpan(span.text(), tuple((agent, tuple(places(report, span, agent))) for agent in span.agents))
             for some in spans for span in some]
    return found, spans


def drawn(title: str, draw: Callable[[], str]) -> Drawn:
    """A picture, or why there is none."""
    try:
        return Drawn(title, draw())
    except (Trouble, Unreadable) as cause:
        return Drawn(title, "", str(cause))


def graph_of(board: Board) -> str:
    """The graph of the net."""
    nodes = nodes_of(board.net)
    if len(nodes) > MOST_BOXES:
        raise Trouble(f"the net has {len(nodes)} nodes, too many to look at")
    links = {name: link.removeprefix("page") for name, link in (links_of(nodes, "page") or {}).items()}
    return svg_of_dot(dot_of(title_of(board.name), nodes, links))


def maps_of(board: Board, access: str) -> str:
    """The maps of what the agents may read or write."""
    lines = {agent: board.views([agent])[agent, access] for agent in board.agents}
    count = sum(len(rows) for rows in {id(rows): rows for rows in lines.values()}.values())
    if count > MOST_DRAWN:
        raise Trouble(f"the views have {count} rows, too many to look at")
    known = {id(rows): [row_of(line) for line in rows] for rows in lines.values()}
    grants = {} if isinstance(board, ImageBoard) else grants_of(board.name, board.text)[1]
    views = {agent: known[id(rows)] for agent, rows in lines.items()}
    return svg_of(title_of(board.name), nodes_of(board.net), views, grants, "writing" if access == "write" else "")


def renamed(svg: str, name: str) -> str:
    """A picture whose identifiers, and what refers to them, have a name before them: in a page each may stand once."""
    own = set(re.findall(r'\bid="([^"]+)"', svg))
    return re.sub(r'(\bid="|\bhref="#|\burl\(#)([^")]+)',
                  lambda hit: f"{hit[1]}{name}-{hit[2]}" if hit[2] in own else hit.group(), svg)


def sharing_of(board: Board, report: Report, spans: list[list[Shared]]) -> str:
    """Who shares what."""
    name = title_of(board.image_name) if isinstance(board, ImageBoard) else f"the grants of {title_of(board.name)}"
    shut = shut_lines(nodes_of(board.net), board.image, report, LISTED)
    return renamed(sharing(name, report, spans, shut)[0], "sharing")


def pictures_of(board: Board, report: Report | None, spans: list[list[Shared]]) -> Iterator[Drawn]:
    """The pictures of a review."""
    yield drawn("The net", functools.partial(graph_of, board))
    yield drawn("What each agent may read", functools.partial(maps_of, board, "read"))
    if any(board.rows(agent, "read") is not board.rows(agent, "write") for agent in board.agents):
        yield drawn("What each agent may write", lambda: renamed(maps_of(board, "write"), "write"))
    if report is not None:
        yield drawn("Who shares what", functools.partial(sharing_of, board, report, spans))


def review_of(title: str, sources: Iterable[Source], board: Board, verdicts: list[Verdict],
              findings: list[Finding]) -> Review:
    """A review of a board with verdicts and findings. What cannot be said of what is shared is said with its
    cause."""
    views, left = views_of(board)
    report, missing = None, ""
    shared: list[SharedSpan] = []
    spans: list[list[Shared]] = []
    try:
        report = report_of(board)
        shared, spans = shared_of(board, report)
    except Trouble as cause:
        missing = str(cause)
    differences: list[Difference] = []
    if isinstance(board, ImageBoard):
        meant = Board(board.name, description=board.description)
        differences, findings = list(compared(meant, board)), [*findings, *meant.refused_findings("warning")]
    return Review(title, list(sources), board, verdicts, findings, views, left, shared, missing, differences,
                  list(pictures_of(board, report, spans)))
