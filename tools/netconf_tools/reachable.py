"""What agents could reach whatever some of the units hold.

Such a unit is read as if each input of its slots led to each address below its reach, of each of its ports. The other
units hold what they hold. Everything is asked of the program: the views are those of the same net in which each such
unit stands as a memory that accepts the inputs of its slots, so that a row that comes to this memory is a way into
the unit."""

import functools
import itertools
from collections.abc import Iterator
from typing import NamedTuple

from netconf_tools.audit import audited
from netconf_tools.dump import MARK, tables_of
from netconf_tools.limits import LAST_ADDRESS, MAX_AGENTS, MAX_PARTS
from netconf_tools.rows import Rows
from netconf_tools.source import Node, nodes_of
from netconf_tools.text import Piece, Refusal, Trouble
from netconf_tools.views import ACCESSES, Board

VERSION = 2
"""The version of the image of a net in which no unit keeps its records."""


class Source(NamedTuple):
    """A node from which addresses go on: an agent, or a port of a unit, of which only the addresses up to `last` are
    meant. `unit` names the unit, and is empty of an agent."""
    node: str
    last: int
    unit: str = ""


def last_input(unit: Node) -> int:
    """The last input of a unit that lies in one of its slots."""
    return min((unit.shape.slots << unit.shape.page) - 1, LAST_ADDRESS)


class Reachable:
    """What the agents of a board could reach whatever the units hold that are in `free`."""

    def __init__(self, board: Board, free: frozenset[str]) -> None:
        self.board, self.free = board, free
        self.nodes = nodes_of(board.net)
        self.numbers = {name: f"n{number}" for number, name in enumerate(self.nodes)}
        self.units = [name for name in self.nodes if name in free]
        self._rows: dict[tuple[str, str], Rows] = {}
        parts = sum(len(node.accepts) + len(node.entries) + bool(node.over) for node in self.nodes.values())
        if parts + len(free) > MAX_PARTS:
            raise Trouble(f"{board.name}: the net has {parts} parts, and with each of the {len(free)} units as a "
                          f"memory it passes the limit of {MAX_PARTS}")

    def line_of(self, node: Node, is_viewed: bool) -> str:
        """The statement of a node, in which each node is called `n` and its number, so that it is short whatever the
        names are."""
        name, numbers = self.numbers[node.name], self.numbers
        if node.role == "unit" and node.name not in self.free:
            kind, page, slots, reach = node.shape
            ports = ", ".join(numbers[port] for port in node.ports)
            return f"unit {name} kind {kind} page {page} slots {slots} reach {reach} to {ports};\n"
        accepts = [f"0x0-{last_input(node):#x}"] if node.role == "unit" else [str(block) for block in node.accepts]
        entries = []
        for entry in node.entries:
            ends = [f"{numbers[to]} at {at:#x}" for to, at in entry.destinations]
            entries.append(f"{entry.lo:#x}-{entry.hi:#x} to {' and '.join(ends)}")
        role = "agent " if is_viewed else "vectors " if node.role == "vectors" else ""
        parts = [f"accept [{', '.join(accepts)}]"] if accepts else []
        parts += [f"map [{', '.join(entries)}]"] if entries else []
        parts += [f"over {numbers[node.over]}"] if node.over else []
        return " ".join([f"{role}{name} is", *parts]) + ";\n"

    @functools.cached_property
    def image(self) -> bytes:
        """The image of the units that keep their records."""
        if len(self.free) == len(self.board.units):
            return MARK + VERSION.to_bytes(2, "little") + bytes(2)
        version, tables = tables_of(self.board.image)
        kept = [table for unit, table in zip(self.board.units, tables) if unit not in self.free]
        parts = [MARK, version.to_bytes(2, "little"), len(kept).to_bytes(2, "little")]
        for table in kept:
            parts += [table.node.to_bytes(2, "little"), bytes((table.words, 0)), table.slots.to_bytes(4, "little")]
            parts.append(table.bytes)
        return b"".join(parts)

    def ask(self, wanted: list[str]) -> None:
        """Asks for the views of nodes that are not known yet."""
        left = [name for name in wanted if (name, "read") not in self._rows and not self.accepts_alone(name)]
        while left:
            now, left = left[:MAX_AGENTS], left[MAX_AGENTS:]
            text = "".join(self.line_of(node, name in now) for name, node in self.nodes.items())
            report = audited(text.encode("latin-1"), self.image)
            if isinstance(report, Refusal):
                fault = f"{report.rule} {report.detail[:80]}"
                raise Trouble(f"{self.board.name}: with units as memories it is refused: {fault}")
            for name, access in itertools.product(now, ACCESSES):
                self._rows[name, access] = report.views[self.numbers[name], access]

    def accepts_alone(self, name: str) -> bool:
        """Whether a node has interrupt vectors, or is a unit whose records are free: either accepts, and leads
        nowhere."""
        return self.nodes[name].role == "vectors" or name in self.free

    def rows(self, name: str, access: str) -> Rows:
        """The rows of a node, in which each node is called by its number."""
        if (name, access) not in self._rows and self.accepts_alone(name):
            node = self.nodes[name]
            blocks = [(0, last_input(node))] if node.role == "unit" else zip(*self.board.accepts(name))
            self._rows[name, access] = Rows([f"{lo:#x}-{hi:#x} {self.numbers[name]}@{lo:#x}" for lo, hi in blocks])
        self.ask([name])
        return self._rows[name, access]

    def entered(self, source: Source, access: str) -> list[str]:
        """The free units into which addresses of a source lead for an access."""
        rows = self.rows(source.node, access)
        return [unit for unit in self.units
                if any(piece.lo <= source.last for piece in rows.pieces(self.numbers[unit]).pieces)]

    @functools.lru_cache(maxsize=None)
    def sources(self, agent: str, access: str) -> tuple[Source, ...]:
        """The agent, and each port of the free units that it can enter for an access, also one after the other."""
        found, left, seen = [], [Source(agent, LAST_ADDRESS)], set()
        while left:
            found += left
            self.ask([source.node for source in left])
            units = [unit for source in left for unit in self.entered(source, access) if unit not in seen]
            left = []
            for unit in dict.fromkeys(units):
                seen.add(unit)
                last = min((1 << self.nodes[unit].shape.reach) - 1, LAST_ADDRESS)
                left += [Source(port, last, unit) for port in self.nodes[unit].ports]
        return tuple(found)

    def seen(self, agent: str, access: str, node: str, first: int, last: int) -> Iterator[str]:
        """Where the agent could see addresses of a node, as texts."""
        for source in self.sources(agent, access):
            for piece in self.rows(source.node, access).pieces(self.numbers[node]).seen(first, last):
                if piece.lo <= source.last:
                    hi = min(piece.hi, source.last)
                    text = Piece(piece.lo, hi, node, piece.at).text()
                    yield f"through {source.unit}, {source.node} {text}" if source.unit else text
