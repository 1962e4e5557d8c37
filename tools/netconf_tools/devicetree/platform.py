"""The whole of one tree: its buses, devices, processors and masters as nodes of a description."""
from collections.abc import Callable, Iterator
from typing import NamedTuple

from netconf_tools.devicetree import naming, phandles, units
from netconf_tools.devicetree.buses import Bus, Device, Reader, is_memory
from netconf_tools.devicetree.fault import Fault
from netconf_tools.devicetree.interrupts import Interrupts, doorbell
from netconf_tools.devicetree.masters import Ways, is_master
from netconf_tools.devicetree.net import Entry, NetNode
from netconf_tools.devicetree.options import Options
from netconf_tools.devicetree.spans import TOP, Span, text, union
from netconf_tools.devicetree.tree import Tree, TreeNode

MAX_NODES = 1024
MAX_AGENTS = 64
MAX_UNITS = 64
MAX_PARTS = 16384
NO_MEMORY = "no memory in the tree, since firmware fills it in: give it by --memory FIRST-LAST, or import " \
    "/sys/firmware/fdt of the running board"
"""The note on a tree without memory."""


class Reserved(NamedTuple):
    """Reserved memory: what reserves it, its addresses if it has any yet, and where these are in nodes."""

    path: str
    span: Span | None
    places: list[tuple[NetNode, Span]]


class Platform:
    """What a description has of a tree.

    ``root`` is the root bus, with all others in it; ``processors`` and ``masters`` are the agents; ``ways`` are the
    nodes over which masters go, and ``units`` the tables of IOMMUs. ``lines`` are what ``interrupts`` asks for:
    vectors, lines of devices, and ``senders``, the agents that send messages. ``notes`` have what is left out or is
    there in part, ``left_out`` the masters that are no agents, ``reserved`` the reserved memory, and ``remarks`` more
    lines on what the description does not have."""

    def __init__(self, tree: Tree, options: Options = Options()):
        self.tree = tree
        keeps = _keeper(tree, options.only)
        reader = Reader(tree, keeps, options.memory)
        for cycle in phandles.cycles(tree):
            reader.note(tree.root, cycle)
        self.root = reader.read()
        self.system = self.root.nodes[""]
        self.processors = _processors(tree, self.system, options.each_core)
        ways = Ways(tree, reader, self.system, options)
        room = MAX_AGENTS - len(self.processors)
        ways.read(room, MAX_UNITS, f"no agent is left: a description has at most {MAX_AGENTS}, of which processors are "
                                   f"{len(self.processors)}" + " (--cores one)" * (len(self.processors) > 1))
        self.ways, self.units, self.masters = ways.buses, ways.units, ways.agents
        self.left_out = ways.left_out
        self.senders: list[NetNode] = []
        self.lines: list[NetNode] = []
        said: set[TreeNode] = set()
        if options.interrupts:
            found = Interrupts(tree, reader, MAX_AGENTS - len(self.agents()), MAX_UNITS - len(self.units))
            self.lines, self.senders, said = found.nodes + found.agents, found.agents, found.said
        self.remarks = self._messages(keeps, said)
        if not self._memory() and (options.only is None or self.masters):
            reader.note(tree.root, NO_MEMORY)
        self.notes = reader.notes
        self.reserved = [Reserved(path, span, self._places(span) if span else []) for path, span in reader.reserved]
        self._check_limits()
        naming.assign(tree, self.net_nodes())
        self.remarks += self._doorbells(ways, options.interrupts)

    def buses(self) -> Iterator[Bus]:
        """All buses with something in them, from the root inwards, in the order of the tree."""
        pending = [self.root]
        while pending:
            bus = pending.pop()
            yield bus
            pending.extend(reversed(bus.buses))

    def devices(self) -> Iterator[Device]:
        """The windows of all devices, bus by bus."""
        for bus in self.buses():
            yield from bus.devices

    def agents(self) -> list[NetNode]:
        """The processors, then the masters, and then the devices that send messages."""
        return self.processors + self.masters + self.senders

    def net_nodes(self) -> list[NetNode]:
        """All nodes of the description, in its order."""
        nodes: list[NetNode] = []
        for bus in self.buses():
            nodes += bus.nodes.values()
            nodes += [device.net_node for device in bus.devices]
        return nodes + self.processors + self.ways + self.units + self.masters + self.lines

    def agent(self, called: str) -> NetNode:
        """The agent of a name, or of a node of the tree that is given by its path, its alias or its label."""
        place = self.tree.find(called)
        for agent in self.agents():
            if called == agent.name or place is not None and (place is agent.tree_node or place in agent.others):
                return agent
        names = ", ".join(agent.name for agent in self.agents()) or "none"
        raise Fault(f"no agent {called}; the agents are: {names}")

    def conflicts(self) -> Iterator[tuple[str, Entry]]:
        """The spans that two or more claim: the path of the bus, and the entry that has them."""
        for bus in self.buses():
            for node in bus.nodes.values():
                for entry in node.entries:
                    if len(entry.ways) > 1:
                        yield bus.tree_node.path, entry

    def buffer(self, first: int, size: int) -> tuple[NetNode, int]:
        """The node that a processor has at some addresses, and the first address there; all of them must be of one
        node."""
        last = first + size - 1
        if not size or last > TOP:
            raise Fault(f"a buffer has at least one byte, and ends at or below {TOP:#x}")
        rows = list(self.system.rows(first, last))
        for low, high, node, address in rows:
            if (low, high) == (first, last):
                return node, address
        shown = ", ".join(f"{node.name} at {text(low, high)}" for low, high, node, _address in rows) or "nothing"
        raise Fault(f"no one thing is at {text(first, last)} for a processor; there is {shown}")

    def _places(self, span: Span) -> list[tuple[NetNode, Span]]:
        """Where addresses of the root are in the nodes of the memory."""
        return [(node, (address, address + high - low)) for low, high, node, address in self.system.rows(*span)
                if node.tree_node is not None and is_memory(node.tree_node)] if span[0] <= TOP else []

    def _memory(self) -> list[Span]:
        """The addresses of the root at which memory is."""
        return union(device.register.span for device in self.root.devices if is_memory(device.tree_node))

    def _messages(self, keeps: Callable[[TreeNode], bool], said: set[TreeNode]) -> list[str]:
        """The lines on message-signalled interrupts that the description does not have."""
        lines = []
        for node in self.tree.root.walk():
            if keeps(node) and node not in said and node.is_enabled():
                try:
                    lines += units.message_lines(self.tree, node)
                except Fault as fault:
                    lines.append(f"messages of {node.path} are not known: {fault}")
        head = "messages that are not described (--interrupts describes those to an ITS of Arm):"
        return [head] * bool(lines) + lines

    def _doorbells(self, ways: Ways, grants: bool) -> list[str]:
        """The lines on messages that an IOMMU translates, each with the grant that lets them through."""
        lines: list[str] = []
        number = 0
        for agent, masters in ways.behind.items():
            kind = units.kind_of(masters[0].iommu)
            for controller, offset in doorbell(self.tree, masters) if kind and kind.translates_messages else ():
                page = next((device for device in self.devices() if device.tree_node is controller), None)
                lines.append(f"messages of {agent.name} are writes to {controller.path} that {masters[0].iommu.path} "
                             "translates, so that its table needs the page of the doorbell"
                             + " (--interrupts has the grant)" * (not grants))
                if grants and page:
                    number += 1
                    buffer = f"{page.net_node.name} {offset:#x} 0x1000"
                    lines.append(f"grant doorbell_{number} {agent.name} {buffer} for write;")
        return lines

    def _check_limits(self) -> None:
        """Refuses a tree that needs more than the language allows."""
        nodes = self.net_nodes()
        parts = sum(len(node.accept) + len(node.entries) + (node.over is not None) for node in nodes)
        found = sum(node.unit is not None for node in nodes)
        for needed, limit, what in ((len(nodes), MAX_NODES, "nodes"), (len(self.agents()), MAX_AGENTS, "agents"),
                                    (found, MAX_UNITS, "units"), (parts, MAX_PARTS, "parts")):
            if needed > limit:
                instead = "make one agent of all processors with --cores one" if what == "agents" else \
                    "take a part of it with --only"
                raise Fault(f"the tree needs {needed} {what}, and a description has at most {limit}; {instead}")


def _processors(tree: Tree, system: NetNode, each: bool) -> list[NetNode]:
    """The agents of the processors: one for all, since a tree shows the same to each, or one for each.

    A processor that is "disabled" waits to be started, and counts; one that failed does not."""
    holder = tree.by_path.get("/cpus")
    nodes = [node for node in (holder.children if holder else ())
             if (node.string("device_type") == "cpu" or node.base == "cpu") and not node.status().startswith("fail")]
    if each or len(nodes) < 2:
        return [NetNode(node, "", node.path, over=system, agent=True) for node in nodes]
    source = ", with ".join(node.path for node in nodes) + f", {len(nodes)} processors that see the same"
    return [NetNode(nodes[0], "", source, over=system, agent=True, others=nodes[1:])]


def _keeper(tree: Tree, only: str | None) -> Callable[[TreeNode], bool]:
    """The test of what is wanted: all, or one part of the tree and what leads to it.

    The memory is kept where a master is in that part, since it is what masters see."""
    if only is None:
        return lambda node: True
    place = tree.find(only)
    if place is None:
        raise Fault(f"no node {only} in the tree")
    inside = set(place.walk())
    wanted = inside | set(place.above())
    if any(is_master(node) for node in inside):
        wanted |= {node for node in tree.root.children if is_memory(node)}
    return wanted.__contains__
