"""From the flat views of QEMU's monitor (``info mtree -f``) to a description, for machines that have no device tree.

A flat view has the rows that the address spaces above it see: at each address one region, with an offset in it. Each
flat view becomes a node that maps, each address space an agent over it, and each region a node that accepts. Memory of
one name is one node, wherever it is seen. Of other regions one name may stand for several devices: rows whose region
begins at the same address are one device, and others differ in where they begin.
"""
import re
from collections.abc import Iterable
from dataclasses import dataclass, field

from netconf_tools.devicetree.fault import Fault
from netconf_tools.devicetree.naming import Names, word
from netconf_tools.devicetree.net import Claim, Entry, NetNode
from netconf_tools.devicetree.platform import MAX_AGENTS, MAX_NODES, MAX_PARTS
from netconf_tools.devicetree.spans import TOP, text, union
from netconf_tools.devicetree.tree import Note, read_bytes

VIEW = re.compile(r"^FlatView #([0-9]{1,9})$")
SPACE = re.compile(r'^ AS "(.*)", root: (.*)$')
ROW = re.compile(r"^  ([0-9a-f]{16})-([0-9a-f]{16}) \(prio (-?\d+), ([^)]+)\): (.*?)(?: @([0-9a-f]{16}))?(?: KVM)?$")
MEMORY = ("ram", "rom", "romd", "ramd", "nv-ram", "nv-rom", "nv-romd")
"""The sorts of regions that are memory, of which rows with one name are one."""


@dataclass
class FlatView:
    """A flat view: its number, the names of its address spaces, and its rows (first, last, sort, name, offset)."""

    number: int
    spaces: list[str] = field(default_factory=list)
    rows: list[tuple[int, int, str, str, int]] = field(default_factory=list)


def flat_views(data: bytes, path: str) -> list[FlatView]:
    """The flat views of a text; lines that are none of theirs are passed over."""
    views: list[FlatView] = []
    for line in map(str.rstrip, data.decode("utf-8", "replace").replace("\r", "").split("\n")):
        view, space, row = VIEW.match(line), SPACE.match(line), ROW.match(line)
        if view:
            views.append(FlatView(int(view[1])))
        elif views and space:
            views[-1].spaces.append(space[1])
        elif views and row:
            views[-1].rows.append((int(row[1], 16), int(row[2], 16), row[4], row[5], int(row[6] or "0", 16)))
            if len(views[-1].rows) > MAX_PARTS:
                raise Fault(f"{path}: FlatView #{views[-1].number} has more than {MAX_PARTS} rows")
    if not any(view.rows for view in views):
        raise Fault(f"{path}: no flat view: the text of `info mtree -f` of QEMU's monitor is wanted")
    return views


class Machine:
    """What a description has of flat views: regions, views and agents, and what is left out."""

    def __init__(self, views: Iterable[FlatView]):
        self.regions: dict[tuple[str, int | None], NetNode] = {}
        self.maps: list[NetNode] = []
        self.agents: list[NetNode] = []
        self.notes: list[str] = []
        self.left_out: list[Note] = []
        self.remarks: list[str] = []
        self.names = Names()
        for view in views:
            if view.rows:
                self._read(view)
            elif view.spaces:
                self.notes.append(f"FlatView #{view.number}: nothing is in it: {', '.join(view.spaces)}")
        self._name_regions()
        self._check_limits()

    def _read(self, view: FlatView) -> None:
        """Makes the nodes of a flat view and the agents over it."""
        node = NetNode(None, "", f"FlatView #{view.number}")
        node.name = self.names.free(f"view_{view.number}")
        for first, last, sort, name, offset in view.rows:
            if first > TOP or offset + last - first > TOP:
                self.notes.append(f"FlatView #{view.number}: {text(first, last)} {name} has addresses past {TOP:#x}")
                continue
            last = min(last, TOP)
            region = self._region(sort, name, first - offset)
            region.accept.append((offset, offset + last - first))
            node.entries.append(Entry(first, last, (Claim(first, last, region, offset, f"{name}, {sort}"),)))
        self.maps.append(node)
        for space in view.spaces:
            if len(self.agents) == MAX_AGENTS:
                self.notes.append(f"address space {space}: the description has all the agents that it may have")
                continue
            agent = NetNode(None, "", f'address space "{space}"', over=node, agent=True)
            agent.name = self.names.free(word(space))
            self.agents.append(agent)

    def _region(self, sort: str, name: str, base: int) -> NetNode:
        """The node of a region: one for memory of a name, else one for each address at which it begins."""
        key = (name, None if sort in MEMORY else base)
        if key not in self.regions:
            self.regions[key] = NetNode(None, "", f"{name}, {sort}")
        return self.regions[key]

    def _name_regions(self) -> None:
        """Names the regions: those that share a name by where they begin."""
        count: dict[str, int] = {}
        for name, _base in self.regions:
            count[name] = count.get(name, 0) + 1
        for (name, base), node in self.regions.items():
            place = f"_{base:x}" if count[name] > 1 and base is not None and base >= 0 else ""
            node.name = self.names.free(word(name) + place)
            node.accept = union(node.accept)

    def _check_limits(self) -> None:
        """Refuses what needs more than the language allows."""
        nodes = [*self.regions.values(), *self.maps, *self.agents]
        parts = sum(len(node.accept) + len(node.entries) + (node.over is not None) for node in nodes)
        for needed, limit, what in ((len(nodes), MAX_NODES, "nodes"), (parts, MAX_PARTS, "parts")):
            if needed > limit:
                raise Fault(f"the machine needs {needed} {what}, and a description has at most {limit}")

    def statements(self) -> list[NetNode]:
        """The nodes in the order of the text."""
        return [*self.regions.values(), *self.maps, *self.agents]

    def agent(self, called: str) -> NetNode:
        """The agent of a name."""
        for agent in self.agents:
            if called in (agent.name, agent.source[len('address space "'):-1]):
                return agent
        raise Fault(f"no agent {called}; the agents are: {', '.join(agent.name for agent in self.agents) or 'none'}")


def read_machine(path: str) -> Machine:
    """The machine whose flat views stand in a file, or on standard input where the path is ``-``."""
    views = flat_views(read_bytes(path), path)
    try:
        return Machine(views)
    except Fault as fault:
        raise Fault(f"{path}: {fault}") from None
