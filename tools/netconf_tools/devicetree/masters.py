"""The way of each master's own accesses, by ``dma-ranges`` and by IOMMUs.

A tree does not tell which devices access memory by themselves. A device counts as a master where one of its properties
is a sign of it (``MASTER_PROPERTIES``), or where it has one of the generic names of such devices (``MASTER_NAMES``) on
a bus whose windows have sizes: on others (I2C, SPI, USB) the controller accesses memory for it. It is an agent of its
own: behind a unit, where an IOMMU translates for it; else over the bus whose ``dma-ranges`` are its window
(``window``); else, as in Linux, over the root, 1:1. A PCI host bridge is one for the functions behind it. Each master
that is not an agent is left out with a reason. """
from collections.abc import Iterator

from netconf_tools.devicetree import cells, units
from netconf_tools.devicetree.buses import Reader
from netconf_tools.devicetree.fault import Fault
from netconf_tools.devicetree.net import Claim, Entry, NetNode, Unit
from netconf_tools.devicetree.options import Options
from netconf_tools.devicetree.spans import text
from netconf_tools.devicetree.tree import Note, Tree, TreeNode

MASTER_PROPERTIES = ("iommus", "iommu-map", "dma-coherent", "dma-noncoherent", "#dma-cells", "memory-region")
MASTER_NAMES = frozenset(("dma", "dma-controller", "ethernet", "gpu", "mmc", "pci", "pcie", "sata", "usb"))
MAX_BUSES = 64
"""How many buses may be on the way of a master to the root."""
ONE_TO_ONE = "no window in the tree: 1:1 as in Linux"
"""The remark on an agent whose addresses are those of the root, since no ``dma-ranges`` is its window."""


def dma_bus(tree: Tree, node: TreeNode) -> TreeNode:
    """The bus that a device's accesses go over: its parent, or the interconnect that is named as "dma-mem"."""
    if node not in tree.dma_buses:
        names = node.strings("interconnect-names")
        place = names.index("dma-mem") if "dma-mem" in names else -1
        found = interconnects(tree, node) if place >= 0 else []
        tree.dma_buses[node] = found[place] if 0 <= place < len(found) else node.parent
    return tree.dma_buses[node] or tree.root


def interconnects(tree: Tree, node: TreeNode) -> list[TreeNode]:
    """The nodes that ``interconnects`` names, each once for its specifier; it ends at one that is not there."""
    words, at = node.words("interconnects"), 0
    found: list[TreeNode] = []
    while at < len(words):
        target = tree.by_phandle.get(words[at])
        if target is None:
            break
        found.append(target)
        at += 1 + target.cell("#interconnect-cells")
    return found


def dma_chain(tree: Tree, bus: TreeNode) -> list[TreeNode]:
    """A bus and those outside of it by which its accesses go to the root, which ends the list."""
    chain = [bus]
    while chain[-1].parent is not None:
        outside = dma_bus(tree, chain[-1])
        if outside in chain:
            shown = " -> ".join(place.path for place in [*chain[chain.index(outside):], outside])
            raise Fault(f"a cycle of dma-mem: {shown}")
        if len(chain) == MAX_BUSES:
            raise Fault(f"{bus.path} has more than {MAX_BUSES} buses on its way to the root")
        chain.append(outside)
    return chain


def window(tree: Tree, bus: TreeNode) -> tuple[TreeNode | None, str]:
    """The first bus, from ``bus`` outwards, whose ``dma-ranges`` are the window of the masters on it; or None, and why.

    This is Linux's loop (``of_dma_get_range``): a first bus without ``dma-ranges`` is passed, one that has them empty
    is passed too, and after the first bus one without ends the search. Where all that was passed are 1:1 up to the
    root, Linux has no window; here it is the root, since the tree says that addresses stay as they are."""
    chain = dma_chain(tree, bus)
    for number, place in enumerate(chain[:-1]):
        if place.properties.get("dma-ranges"):
            return place, ""
        if number and not place.has("dma-ranges"):
            return None, f"{place.path}, outside of {bus.path}, has no dma-ranges"
    if any(place.has("dma-ranges") for place in chain[:-1]):
        return chain[-1], ""
    return None, "no bus outside of it has dma-ranges"


def is_master(node: TreeNode) -> bool:
    """Whether a device accesses memory by itself, as far as its node tells."""
    if cells.kind(node) == "pci":
        return True
    if any(node.has(name) for name in MASTER_PROPERTIES):
        return True
    if node.base not in MASTER_NAMES or node.has("ranges") or not node.has("compatible") or not node.has("reg"):
        return False
    return node.parent is not None and cells.has_sizes(node.parent)


class Ways:
    """The ways of a tree's masters to the root, each bus with ``dma-ranges`` a node that maps outwards.

    ``buses``, ``units`` and ``agents`` are nodes of the description. ``left_out`` has the masters that are no agents,
    with the reason, and ``behind`` the masters of each agent that comes to a unit."""

    def __init__(self, tree: Tree, reader: Reader, system: NetNode, options: Options):
        self.tree = tree
        self.reader = reader
        self.options = options
        self.ways = {tree.root: system}
        self.buses: list[NetNode] = []
        self.units: list[NetNode] = []
        self.agents: list[NetNode] = []
        self.left_out: list[Note] = []
        self.behind: dict[NetNode, list[units.Master]] = {}
        self.room = ""
        self.most_agents = 0
        self.more_masters = [self._named(path) for path in options.masters]
        self.functions = self._functions()

    def _named(self, called: str) -> TreeNode:
        """The node of a device that the options name."""
        node = self.tree.find(called)
        if node is None or node.parent is None:
            raise Fault(f"no device {called} in the tree")
        if not node.is_enabled():
            raise Fault(f"{node.path} is not enabled, so that it accesses nothing")
        return node

    def _functions(self) -> dict[TreeNode, list[int]]:
        """The PCI functions that the options name, by their host bridges."""
        hosts = [node for node in self.tree.root.walk() if self._is_host(node)]
        found: dict[TreeNode, list[int]] = {}
        for called, requester in self.options.functions:
            own = [node for node in hosts if not called or node is self.tree.find(called)]
            if len(own) != 1:
                why = f"no PCI host bridge {called}" if called else "--function needs a bridge, as in PATH,0:3.0"
                raise Fault(f"{why}; the bridges are: {', '.join(node.path for node in hosts) or 'none'}")
            if requester not in found.setdefault(own[0], []):
                found[own[0]].append(requester)
        return found

    def _is_host(self, node: TreeNode) -> bool:
        """Whether a node is an enabled PCI host bridge."""
        return node.parent is not None and cells.kind(node) == "pci" and node.is_enabled() \
            and cells.kind(dma_bus(self.tree, node)) != "pci"

    def read(self, most_agents: int, most_units: int, room: str) -> None:
        """Makes the agents of all masters that are wanted, and the units of those that an IOMMU translates for.

        They are made while there are at most so many agents and units; ``room`` says in words why there are no more."""
        self.most_agents, self.room = most_agents, room
        masters: list[units.Master] = []
        for node in self.tree.root.walk():
            if self._is_wanted(node):
                masters += self._read_master(node)
        for group in units.groups(masters):
            self._read_group(group, most_units)
        self._note_without_sign()

    def _is_wanted(self, node: TreeNode) -> bool:
        """Whether a node is an enabled master in the part of the tree that is taken; one outside of it is left out."""
        if node.parent is None or not (is_master(node) or node in self.more_masters) or not node.is_enabled():
            return False
        if not self.reader.keeps(node):
            if cells.kind(node.parent) != "pci":
                self.left_out.append(Note(node.path, "outside of the part that --only takes"))
            return False
        return True

    def _read_master(self, node: TreeNode) -> list[units.Master]:
        """Makes the agents of one master that no unit translates for, and returns the masters for which units do."""
        try:
            bus = dma_bus(self.tree, node)
            if cells.kind(bus) != "pci":
                host = cells.kind(node) == "pci"
                found = self._translation(node, node if host else bus)
                return self._read_host(node, found) if host or node.has("iommu-map") else self._read_device(node, found)
        except Fault as fault:
            self._leave_out(node, str(fault))
            return []
        if cells.kind(node) != "pci":
            self.reader.note(node, "no agent of its own: a PCI function, whose accesses are those of its host bridge "
                                   "(--function)")
        return []

    def _translation(self, node: TreeNode, bus: TreeNode) -> units.Translation:
        """What IOMMUs translate for a master; none, with a reason, where its node is broken there."""
        try:
            return units.translation_of(self.tree, node, bus, self.options.slots)
        except Fault as fault:
            return units.Translation([], [f"shown as if no IOMMU were there: {fault}"], True)

    def _read_device(self, node: TreeNode, found: units.Translation) -> list[units.Master]:
        """Makes the agent of a device, where no unit translates for it."""
        for reason in found.reasons:
            self.reader.note(node, reason)
        if found.passes:
            self._read_untranslated(node, "dma", [])
        return found.masters

    def _read_host(self, node: TreeNode, found: units.Translation) -> list[units.Master]:
        """Makes the agents of what is behind a PCI host bridge and no unit translates for: of each function that the
        options name, and of all others together."""
        for reason in found.reasons:
            self.reader.note(node, reason)
        masters: list[units.Master] = []
        for requester in self.functions.get(node, []):
            own = [one for one in (self._function(master, requester) for master in found.masters) if one]
            masters += own[:1]
            if not own:
                suffix = function_suffix("function", requester)
                self._read_untranslated(node, suffix, [f"pci {units.function_text(requester)}"])
        for master in found.masters:
            rest = units.apart_from(master, [one for one in masters if one.iommu is master.iommu]) \
                if node.has("iommu-map") else master
            masters += [rest] if rest else []
        if found.passes and not found.masters:
            self._read_untranslated(node, "dma", ["for what is behind it"])
        elif found.passes:
            self._read_untranslated(node, "untranslated", ["requesters that no IOMMU translates for"])
        return masters

    def _function(self, master: units.Master, requester: int) -> units.Master | None:
        """The master that a function of a bridge is."""
        if master.tree_node.has("iommu-map"):
            return units.of_function(self.tree, master, requester)
        return master._replace(function=requester)

    def _leave_out(self, node: TreeNode, reason: str) -> None:
        """Leaves out a master, which is then no agent."""
        self.left_out.append(Note(node.path, reason))

    def _read_untranslated(self, node: TreeNode, suffix: str, parts: list[str]) -> None:
        """Makes an agent of a master that no unit translates for."""
        host = cells.kind(node) == "pci"
        place, reason = window(self.tree, node if host else dma_bus(self.tree, node))
        if place is None and self.options.said:
            return self._leave_out(node, reason)
        if len(self.agents) >= self.most_agents:
            return self._leave_out(node, self.room)
        source = ", ".join([node.path, *parts] + [ONE_TO_ONE] * (place is None))
        if place is node and suffix == "dma":
            way = self._way(node)
            way.agent = True
            way.source = source
            self.buses.remove(way)
            self.agents.append(way)
        else:
            self.agents.append(NetNode(node, suffix, source, over=self._way(place or self.tree.root), agent=True))

    def _read_group(self, group: list[units.Master], most_units: int) -> None:
        """Makes the unit of masters that share a table, and their agents; without units where none is left."""
        needed = len(group) if self.options.each_master else 1
        if len(self.agents) + needed <= self.most_agents and len(self.units) < most_units:
            self._read_translated(group)
            return
        for master in group:
            node = master.tree_node
            if len(self.units) >= most_units:
                self.reader.note(node, f"shown as if {master.iommu.path} passed its accesses on: a description has at "
                                       f"most {most_units} units")
                self._read_untranslated(node, _suffix("dma", "function", master), master.parts()[1:])
            else:
                self._leave_out(node, self.room)

    def _read_translated(self, group: list[units.Master]) -> None:
        """Makes the unit of masters that share a table, and one agent for all of them, or one for each."""
        first, iommu = group[0], group[0].iommu
        kind = units.kind_of(iommu)
        assert kind is not None
        shape = Unit(units.PAGE, self.options.slots, kind.bits, self.ways[self.tree.root])
        source = ", ".join([iommu.path] + [f"for {', '.join(master.parts())}" for master in group])
        unit = NetNode(first.tree_node, _suffix("iommu", "iommu", first), source, unit=shape)
        self.units.append(unit)
        last = (self.options.slots << units.PAGE) - 1
        for members in [[master] for master in group] if self.options.each_master else [group]:
            named = members[0]
            source = ", with ".join(", ".join(master.parts()) for master in members)
            entry = Entry(0, last, (Claim(0, last, unit, 0, f"{iommu.path} translates"),))
            agent = NetNode(named.tree_node, _suffix("dma", "function", named), source, entries=[entry], agent=True,
                            others=[master.tree_node for master in members[1:]])
            self.agents.append(agent)
            self.behind[agent] = members

    def _way(self, bus: TreeNode) -> NetNode:
        """The node over which the masters on a bus go; 1:1 where ``dma-ranges`` says nothing."""
        if bus not in self.ways:
            outside = self._way(dma_bus(self.tree, bus))
            if bus.properties.get("dma-ranges"):
                outside = self._mapped(bus, outside)
                self.buses.append(outside)
            self.ways[bus] = outside
        return self.ways[bus]

    def _mapped(self, bus: TreeNode, outside: NetNode) -> NetNode:
        """The node that maps by the ``dma-ranges`` of a bus."""
        node = NetNode(bus, "dma", f"{bus.path} dma-ranges")
        found = cells.pieces(cells.ranges(bus, "dma-ranges"),
                             lambda index, why: self.reader.note(bus, f"dma-ranges {index} {why}"))
        for piece in sorted(found, key=lambda piece: piece.first):
            if piece.space not in ("", "memory") or piece.outer_space not in ("", "memory"):
                place = text(piece.first, piece.last)
                self.reader.note(bus, f"dma-ranges {piece.number}, {place}, is not in the space of memory")
                continue
            claim = Claim(piece.first, piece.last, outside, piece.outer, f"{bus.path} dma-ranges {piece.number}")
            node.entries.append(Entry(piece.first, piece.last, (claim,)))
        return node

    def _note_without_sign(self) -> None:
        """One note for each bus with ``dma-ranges`` round it, with the devices on it that have no sign of a master."""
        for bus in self.tree.root.walk():
            named = [child.name for child in self._without_sign(bus)]
            if named:
                self.reader.note(bus, f"{len(named)} on it have a window by dma-ranges and no sign of a master, and "
                                      "are not agents (--master makes one): " + ", ".join(named))

    def _without_sign(self, bus: TreeNode) -> Iterator[TreeNode]:
        """The devices on a bus that have a window for accesses of their own, and no sign that they use it."""
        try:
            if not bus.children or not bus.is_enabled() or not cells.has_sizes(bus) or cells.kind(bus) == "pci" \
                    or not window(self.tree, bus)[0]:
                return
        except Fault:
            return
        for child in bus.children:
            if child.has("reg") and child.has("compatible") and child.status() == "okay" and self.reader.keeps(child) \
                    and not is_master(child) and child not in self.more_masters:
                yield child


def function_suffix(word: str, requester: int) -> str:
    """A word and a PCI function as the end of a name, as ``function_0_3_0``."""
    return f"{word}_{requester >> 8:x}_{requester >> 3 & 31:x}_{requester & 7}"


def _suffix(word: str, of_function: str, master: units.Master) -> str:
    """The end of a name: a word, or of a PCI function that is known another one with its number."""
    return word if master.function is None else function_suffix(of_function, master.function)
