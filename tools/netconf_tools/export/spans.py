"""What an agent sees, by addresses of the host: the spans that its tables say."""

import functools
import heapq
import re
from bisect import bisect_right
from dataclasses import dataclass
from typing import Iterator, NamedTuple, Sequence

from netconf_tools.grants import changes_of, replies_to
from netconf_tools.rows import Pieces
from netconf_tools.source import Command
from netconf_tools.text import Piece, pieces_of, row_at
from netconf_tools.views import Board


class Span(NamedTuple):
    """Addresses ``first`` to ``last`` of an agent, and the host's address of the first. ``is_device`` says that they
    are registers of a device, and no memory."""
    first: int
    last: int
    host: int
    may_read: bool
    may_write: bool
    is_device: bool = False

    def at(self, address: int) -> int:
        """Returns the host's address of an address of the agent."""
        return self.host + address - self.first

    def text(self) -> str:
        """Returns the span as a row: addresses, the host's address, and the accesses."""
        accesses = " and ".join(word for word, may in (("read", self.may_read), ("write", self.may_write)) if may)
        return f"{self.first:#x}-{self.last:#x} at {self.host:#x} for {accesses}"

    def goes_on(self, other: "Span") -> bool:
        """Returns whether another span is this one going on."""
        return other.first == self.last + 1 and other.host == self.at(other.first) and other[3:] == self[3:]


@dataclass(frozen=True)
class Reason:
    """Why addresses of an agent cannot be put into tables."""
    agent: str
    first: int
    last: int
    why: str


class Half(NamedTuple):
    """Addresses that may be accessed one way, and the host's address of the first."""
    first: int
    last: int
    host: int
    is_device: bool


class Segment(NamedTuple):
    """Addresses ``first`` to ``last`` of a node, and what is added to one of them to get the host's address."""
    first: int
    last: int
    offset: int


def segments_of(pieces: list[Piece]) -> list[Segment]:
    """Returns where a viewer has the addresses of one node, as segments that do not overlap, in ascending order. Of
    several places it is the one at the lowest address."""
    found: list[Segment] = []
    cuts = sorted({cut for piece in pieces for cut in (piece.at, piece.at_last + 1)})
    pieces, number, waiting = sorted(pieces, key=lambda piece: piece.at), 0, list[tuple[int, int]]()
    for first, end in zip(cuts, cuts[1:]):
        while number < len(pieces) and pieces[number].at <= first:
            heapq.heappush(waiting, (pieces[number].lo - pieces[number].at, pieces[number].at_last))
            number += 1
        while waiting and waiting[0][1] < first:
            heapq.heappop(waiting)
        if waiting:
            found.append(Segment(first, end - 1, waiting[0][0]))
    return found


class Host:
    """The agent by whose addresses the tables say where memory is, and the nodes whose rows are registers of
    devices."""

    def __init__(self, board: Board, name: str, devices: frozenset[str] = frozenset()) -> None:
        board.want_agent(name)
        self.name, self.devices = name, devices
        known: dict[str, set[Piece]] = {}
        for lines in board.views([name]).values():
            for line in lines:
                for piece in pieces_of(line):
                    known.setdefault(piece.node, set()).add(piece)
        self.pieces = {node: list(pieces) for node, pieces in known.items()}
        self._segments = {node: segments_of(pieces) for node, pieces in self.pieces.items()}
        self._firsts = {node: [segment.first for segment in segments] for node, segments in self._segments.items()}

    @functools.cached_property
    def by_node(self) -> dict[str, Pieces]:
        """What the host has of each node, at all its places, in an order in which it is found fast."""
        return {node: Pieces(pieces) for node, pieces in self.pieces.items()}

    def parts(self, piece: Piece) -> Iterator[tuple[int, int, int | None]]:
        """Yields the parts of a piece in their order, each its first and last address and the host's address of the
        first, the lowest if the host has several; or None if it has none."""
        segments, at = self._segments.get(piece.node, []), piece.at
        number = max(bisect_right(self._firsts.get(piece.node, []), at) - 1, 0)
        while at <= piece.at_last:
            while number < len(segments) and segments[number].last < at:
                number += 1
            segment = segments[number] if number < len(segments) else None
            has_it = segment is not None and segment.first <= at
            end = piece.at_last if segment is None else segment.last if has_it else segment.first - 1
            last, lo = min(piece.at_last, end), piece.lo + at - piece.at
            yield lo, lo + last - at, at + segment.offset if segment and has_it else None
            at = last + 1


def halves_of(agent: str, lines: Sequence[str], host: Host, reasons: list[Reason]) -> list[Half]:
    """Returns what the rows of a view come to by the host's addresses, in ascending order. What they cannot say is
    added to the reasons."""
    found: list[Half] = []
    for line in lines:
        row = row_at(line)
        if len(row.names) > 1:
            reasons.append(Reason(agent, row.lo, row.hi,
                                  f"an entry has one address, and this comes to {len(row.names)} names at once"))
            continue
        piece = pieces_of(line)[0]
        for lo, hi, address in host.parts(piece):
            if address is None:
                reasons.append(Reason(agent, lo, hi,
                                      f"{host.name} has no address for {piece.node}@{piece.at + lo - piece.lo:#x}"))
            else:
                found.append(Half(lo, hi, address, piece.node in host.devices))
    return found


def joined(agent: str, reads: list[Half], writes: list[Half], reasons: list[Reason]) -> list[Span]:
    """Returns spans with both accesses from what may be read and what may be written. Addresses that lead elsewhere for
    writing than for reading are added to the reasons."""
    cuts = sorted({cut for half in (*reads, *writes) for cut in (half.first, half.last + 1)})
    found: list[Span] = []
    place = {"r": 0, "w": 0}
    for first, end in zip(cuts, cuts[1:]):
        read, write = (_at(halves, place, key, first) for key, halves in (("r", reads), ("w", writes)))
        if read and write and read.host + first - read.first != write.host + first - write.first:
            reasons.append(Reason(agent, first, end - 1,
                                  "an entry has one address, and writes lead elsewhere than reads"))
            continue
        half = read or write
        if half:
            _add(found, Span(first, end - 1, half.host + first - half.first, read is not None, write is not None,
                             half.is_device))
    return found


def _at(halves: list[Half], place: dict[str, int], key: str, address: int) -> Half | None:
    """Returns the half that has an address, or None; addresses are asked in ascending order."""
    while place[key] < len(halves) and halves[place[key]].last < address:
        place[key] += 1
    half = halves[place[key]] if place[key] < len(halves) else None
    return half if half and half.first <= address else None


def _add(spans: list[Span], span: Span) -> None:
    """Adds a span to those before it, as a part of the last one if it goes on there."""
    if spans and spans[-1].goes_on(span):
        spans[-1] = spans[-1]._replace(last=span.last)
    else:
        spans.append(span)


def merged(spans: list[Span]) -> list[Span]:
    """Returns spans in ascending order with those that go on as one."""
    found: list[Span] = []
    for span in spans:
        _add(found, span)
    return found


def spans_of(board: Board, agent: str, host: Host, reasons: list[Reason]) -> list[Span]:
    """Returns what an agent sees for reading and for writing, by the host's addresses. What no entry can say is added
    to the reasons."""
    views = board.views([agent])
    reads, writes = (halves_of(agent, views[agent, access], host, reasons) for access in ("read", "write"))
    return joined(agent, reads, writes, reasons)


class Grant(NamedTuple):
    """A live grant, or a piece of a ``gather``: its line, its id, and the addresses of the agent at which it stands."""
    line: int
    id: str
    agent: str
    first: int
    last: int


AT = re.compile(r"at (0x[0-9a-f]+)(?: pieces \d+)?")
"""The reply to a grant and to a ``gather``."""


def live_grants(board: Board) -> list[Grant]:
    """Returns the grants of a description that live at its end, with the addresses that the program gave."""
    source = board.text.decode("latin-1")
    commands = changes_of(source)
    live: dict[str, Grant] = {}
    for command, reply in zip(commands, replies_to(source, commands)):
        hit = AT.fullmatch(reply)
        if command.word == "revoke" and not reply.startswith("refused"):
            live.pop(command.id, None)
        elif hit and command.word in ("grant", "gather"):
            _keep(live, command, int(hit[1], 16))
    return list(live.values())


def _keep(live: dict[str, Grant], command: Command, at: int) -> None:
    """Adds the grant of a command that was given an address, or its pieces."""
    agent = command.names[0]
    for part in command.parts:
        size = part.numbers[1]
        live[part.id] = Grant(part.line, part.id, agent, at, at + size - 1)
        at += size
