"""Nets and what their names come to, by the words of docs/model.md ("The net").

A name is a pair of a node's number and an address. All searches are plain: they look at each address below the edge of
a net, so that nets are to be small."""

from collections.abc import Callable, Iterable
from typing import Any

TOP = (1 << 56) - 1
STEPS = 65

Name = tuple[int, int]
"""The number of a node and an address; or the first and the last address of a block."""

Block = tuple[int, int, int]
"""The first and the last address of a window, and where the first is sent."""

Entry = tuple[int, int, list[Name]]
"""An entry of a map: its first and its last address, and the names to which the first is sent."""


class Unit:
    """What a unit is: its kind, the exponent of its page, its slots, the bits of its outputs, and its ports by
    number."""

    def __init__(self, kind: str, page: int, slots: int, reach: int, ports: list[int]) -> None:
        self.kind, self.page, self.slots, self.reach, self.ports = kind, page, slots, reach, list(ports)


class Node:
    """A node: accept blocks (first, last), map entries (first, last, [(node, address)]), and the number of `over`."""

    def __init__(self, name: str, role: str = "plain", accepts: Iterable[Name] = (), entries: Iterable[Entry] = (),
                 over: int | None = None, unit: Unit | None = None) -> None:
        self.name, self.role, self.over = name, role, over
        self.unit: Any = unit
        # Whoever asks for more than whether there is one has looked at the role.
        self.accepts, self.entries = list(accepts), list(entries)


class Net:
    """A list of nodes, with what was found of their names before."""

    def __init__(self, nodes: list[Node]) -> None:
        self.nodes = nodes
        self.edge = edge_of(nodes)
        self.known: dict[tuple[str, Name], Any] = {}

    def once(self, what: str, name: Name, find: Callable[..., Any]) -> Any:
        """What was found of a name before, or what is found now."""
        key = what, name
        if key not in self.known:
            self.known[key] = find(self, name)
        return self.known[key]

    def units(self) -> list[int]:
        """The numbers of the units, ascending."""
        return [number for number, node in enumerate(self.nodes) if node.unit]

    def agents(self) -> list[int]:
        """The numbers of the agents, ascending."""
        return [number for number, node in enumerate(self.nodes) if node.role == "agent"]

    def number(self, name: str) -> Any:
        """The number of the node of this name, or None."""
        return next((number for number, node in enumerate(self.nodes) if node.name == name), None)


def edge_of(nodes: list[Node]) -> int:
    """An address past all blocks, all that blocks are sent to, and all slots: from it on an address goes by `over`
    alone."""
    last = 0
    for node in nodes:
        last = max([last] + [hi for _, hi in node.accepts] + [hi for _, hi, _ in node.entries])
        for lo, hi, dests in node.entries:
            last = max([last] + [addr + hi - lo for _, addr in dests])
        if node.unit and node.unit.page <= 40:
            last = max(last, (node.unit.slots << node.unit.page) - 1)
    return min(last, TOP) + 1


def is_accepted(net: Net, name: Name) -> bool:
    """The address is at most the top, and lies in an accept block of the node."""
    number, addr = name
    return addr <= TOP and any(lo <= addr <= hi for lo, hi in net.nodes[number].accepts)


def is_stop(net: Net, name: Name) -> bool:
    """The address is at most the top, and the node is a unit."""
    number, addr = name
    return addr <= TOP and net.nodes[number].unit is not None


def decode(net: Net, name: Name) -> tuple[list[Name], int]:
    """The destinations of the entry that covers a name, or the `over` node at 0, and by how much their addresses are
    raised."""
    number, addr = name
    node = net.nodes[number]
    if addr > TOP or is_accepted(net, name):
        return [], 0
    for lo, hi, dests in node.entries:
        if lo <= addr <= hi:
            return dests, addr - lo
    return ([(node.over, 0)], addr) if node.over is not None else ([], 0)


def find_steps(net: Net, name: Name) -> list[Name]:
    """The names to which a name decodes."""
    dests, raised = decode(net, name)
    return [(number, addr + raised) for number, addr in dests]


def steps(net: Net, name: Name) -> list[Name]:
    """The names one step on from a name."""
    found: list[Name] = net.once("steps", name, find_steps)
    return found


def ends(net: Net, passes: Callable[..., Any], name: Name) -> frozenset[Name]:
    """The names that pass a test and end a chain of at most 65 steps."""
    found: set[Name] = set()
    level, count = {name}, 0
    while level and count <= STEPS:
        found.update(each for each in level if passes(net, each))
        level, count = {on for each in level for on in steps(net, each)}, count + 1
    return frozenset(found)


def find_resolved(net: Net, name: Name) -> frozenset[Name]:
    """The accepted names that end a chain from a name."""
    return ends(net, is_accepted, name)


def resolved(net: Net, name: Name) -> frozenset[Name]:
    """The accepted names to which a name resolves in the net."""
    found: frozenset[Name] = net.once("resolved", name, find_resolved)
    return found


def find_stops(net: Net, name: Name) -> frozenset[Name]:
    """The stops that end a chain from a name."""
    return ends(net, is_stop, name)


def stops(net: Net, name: Name) -> frozenset[Name]:
    """The stops of a name."""
    found: frozenset[Name] = net.once("stops", name, find_stops)
    return found


def names_of(net: Net, numbers: range | list[int]) -> list[Name]:
    """The names of nodes up to the edge of the net and at it, which stands for all behind it."""
    return [(number, addr) for number in numbers for addr in range(min(net.edge, TOP) + 1)]
