"""The interrupt lines of devices at an interrupt controller of Arm (GIC), and the messages of devices at its ITS.

The shared lines of a GIC (SPIs) are a node of interrupt vectors, called as the GIC and ``.spi``; its addresses are the
numbers that a core reads (INTIDs): 32 and up, and from 4,096 on those of the extended range. Each device with such
lines has a node called as the device and ``.irq``, whose address N leads to the vector of its line N. A PCI host bridge
with an ``interrupt-map`` has a node ``.intx``: at 8 times the number of a device, and the number of its pin, 1 to 4.

An ITS makes of a message an LPI, by a table that software fills. It is a unit of the kind ``vectors``, called as the
ITS and ``.table``, before the first ``LPIS`` LPIs, which are vectors called as the GIC and ``.lpi``. Each device that
sends messages there is an agent, ``.msi``, with ``EVENTS`` lines; a PCI host bridge is one for one function behind it.

What goes by another controller on the way is said where that passes the numbers on as they are (``PASSED``).
"""
from collections.abc import Iterable, Iterator

from netconf_tools.devicetree.buses import Reader
from netconf_tools.devicetree.fault import Fault
from netconf_tools.devicetree.net import Claim, Entry, NetNode, Unit
from netconf_tools.devicetree.phandles import mapped, references
from netconf_tools.devicetree.spans import Span
from netconf_tools.devicetree.tree import Tree, TreeNode
from netconf_tools.devicetree.units import Master

GICS = frozenset((
    "arm,gic-v3", "arm,gic-400", "arm,cortex-a15-gic", "arm,cortex-a9-gic", "arm,cortex-a7-gic", "arm,cortex-a5-gic",
    "arm,pl390", "arm,eb11mp-gic", "arm,tc11mp-gic", "arm,arm1176jzf-devchip-gic", "qcom,msm-qgic2",
    "qcom,msm-8660-qgic", "nvidia,tegra210-agic", "marvell,armada-8k-gic"))
"""The ``compatible`` of GICs, whose cells are a sort of line, its number and its trigger."""
PASSED = frozenset((
    "mediatek,mt6577-sysirq", "fsl,imx6q-gpc", "fsl,imx7d-gpc", "fsl,imx8mq-gpc", "fsl,imx8mm-gpc", "fsl,imx8mn-gpc",
    "fsl,imx8mp-gpc", "nvidia,tegra20-ictlr", "nvidia,tegra30-ictlr", "nvidia,tegra114-ictlr", "nvidia,tegra124-ictlr",
    "nvidia,tegra210-ictlr", "ti,omap4-wugen-mpu", "ti,omap5-wugen-mpu", "allwinner,sun50i-h6-r-intc"))
"""The controllers that stand before a GIC with its own cells, and pass each line on by its number."""
OWN_MAPS = frozenset(("fsl,ls1021a-extirq", "fsl,ls1043a-extirq", "fsl,ls1088a-extirq", "renesas,rza1-irqc"))
"""The controllers whose ``interrupt-map`` is for their drivers alone, as in Linux."""
ITS = "arm,gic-v3-its"
DOORBELLS = {ITS: 0x10000, "arm,gic-v2m-frame": 0}
"""The offset of the page of 4 KiB that messages are written to, by the controller: ``GITS_TRANSLATER`` is at 0x10040 of
an ITS, and ``MSI_SETSPI_NS`` at 0x40 of a frame of a GICv2m."""
SHARED, PRIVATE, EXTENDED = 0, 1, 2
FIRST_SHARED, LAST_SHARED = 32, 1019
FIRST_EXTENDED, LAST_EXTENDED = 4096, 5119
FIRST_LPI, LPIS, LPI_BITS = 8192, 4096, 14
EVENTS = 32
"""How many messages one device may send: as many as MSI has at most."""
MAX_STEPS = 64
MAX_LINES = 8192
"""How many lines are followed."""


def _kind_of(node: TreeNode) -> frozenset[str]:
    """The names of what a node is compatible with, as a set."""
    return frozenset(node.strings("compatible"))


def _cells(node: TreeNode, name: str) -> int:
    """A number of cells, 0 where it is not there; at most 16."""
    count = node.cell(name)
    if count > 16:
        raise Fault(f"{name} of {node.path} is {count}; an address or a line has at most 16 cells")
    return count


def _parent_of(tree: Tree, node: TreeNode) -> TreeNode | None:
    """The controller of a node's lines: that of the nearest node with ``interrupt-parent``, from the node upwards."""
    for place in [node, *node.above()]:
        if place.has("interrupt-parent"):
            return tree.by_phandle.get(place.cell("interrupt-parent"))
    return None


Vector = tuple[NetNode, int]
"""Vectors, and the number of one of them."""
Line = tuple[TreeNode | None, list[int], list[int]]
"""A line: its controller, its address there, and its cells."""
MapEntry = tuple[list[int], list[int], TreeNode, list[int], list[int]]
"""An entry of an ``interrupt-map``: the address and the line here, the controller, and the address and line there."""


def _entries(tree: Tree, nexus: TreeNode) -> Iterator[MapEntry]:
    """The entries of an ``interrupt-map``: the address and the line here, the controller, and the address and line
    there."""
    words, own, width = nexus.words("interrupt-map"), _cells(nexus, "#address-cells"), _cells(nexus, "#interrupt-cells")
    at = 0
    while at + own + width < len(words):
        target = tree.by_phandle.get(words[at + own + width])
        if target is None:
            return
        address, line = words[at:at + own], words[at + own:at + own + width]
        at += own + width + 1
        outer, outer_width = _cells(target, "#address-cells"), _cells(target, "#interrupt-cells")
        if at + outer + outer_width > len(words):
            raise Fault(f"interrupt-map of {nexus.path} ends inside an entry")
        yield address, line, target, words[at:at + outer], words[at + outer:at + outer + outer_width]
        at += outer + outer_width


class TooMany(Fault):
    """More lines than are followed, which ends the import."""


class Interrupts:
    """The nodes of the interrupts of a tree, and what of them is left out.

    ``nodes`` has the vectors, the units, and the lines of devices; ``agents`` those that send messages; ``said`` the
    nodes of the tree that do."""

    def __init__(self, tree: Tree, reader: Reader, most_agents: int, most_units: int):
        self.tree = tree
        self.reader = reader
        self.nodes: list[NetNode] = []
        self.agents: list[NetNode] = []
        self.said: set[TreeNode] = set()
        self.vectors: dict[tuple[TreeNode, str], NetNode] = {}
        self.maps: dict[TreeNode, list[MapEntry]] = {}
        self.lines = 0
        for node in tree.root.walk():
            if self._is_wanted(node):
                self._read(node)
        self._read_messages(most_agents, most_units)

    def _read(self, node: TreeNode) -> None:
        """Makes the nodes of the lines of a device; a note where its interrupts cannot be read."""
        try:
            self._read_lines(node)
            if node.has("interrupt-map") and node.string("device_type") == "pci":
                self._read_pins(node)
        except TooMany:
            raise
        except Fault as fault:
            self.reader.note(node, f"its interrupts are left out: {fault}")

    def _is_wanted(self, node: TreeNode) -> bool:
        """Whether a node is an enabled one, in an enabled part of the tree that is wanted."""
        return node.parent is not None and self.reader.keeps(node) and node.is_enabled()

    def _vectors(self, gic: TreeNode, suffix: str, spans: list[Span], words: str) -> NetNode:
        """The node of vectors of a GIC, made when it is asked for first."""
        if (gic, suffix) not in self.vectors:
            node = NetNode(gic, suffix, f"{gic.path}, {words}", accept=spans, vectors=True)
            self.vectors[gic, suffix] = node
            self.nodes.append(node)
        return self.vectors[gic, suffix]

    def _destination(self, controller: TreeNode | None, address: list[int], line: list[int]) -> Vector | str:
        """The vectors to which a line at a controller leads, and the number there; or in words why there are none."""
        for _step in range(MAX_STEPS):
            if controller is None:
                return "of a controller that is not there"
            kinds = _kind_of(controller)
            if controller.has("interrupt-map") and not kinds & OWN_MAPS:
                controller, address, line = self._mapped(controller, address, line)
            elif kinds & GICS:
                return self._at_gic(controller, line)
            elif kinds & PASSED:
                controller = _parent_of(self.tree, controller)
            else:
                return f"of {controller.path}, which is not a GIC"
        return "that go by too many controllers"

    def _mapped(self, nexus: TreeNode, address: list[int], line: list[int]) -> Line:
        """Where an ``interrupt-map`` sends a line."""
        if nexus not in self.maps:
            self.maps[nexus] = list(_entries(self.tree, nexus))
        mask = nexus.words("interrupt-map-mask")
        asked = [*address, *line]
        for first, second, target, outer, there in self.maps[nexus]:
            own = [*first, *second]
            masks = mask + [0xffffffff] * (len(own) - len(mask))
            if len(own) == len(asked) and not any((one ^ two) & bits for one, two, bits in zip(own, asked, masks)):
                return target, outer, there
        return None, [], []

    def _at_gic(self, gic: TreeNode, line: list[int]) -> Vector | str:
        """The vector of a line of a GIC."""
        sort, number = (line + [0, 0])[:2]
        vector = number + (FIRST_EXTENDED if sort == EXTENDED else FIRST_SHARED)
        if len(line) < 3 or sort not in (SHARED, PRIVATE, EXTENDED):
            return f"of {gic.path} that are not lines of a GIC"
        if sort == PRIVATE:
            return "that each core has of its own"
        if vector > (LAST_EXTENDED if sort == EXTENDED else LAST_SHARED):
            return f"past the last of {gic.path}"
        spans = [(FIRST_SHARED, LAST_SHARED)] + [(FIRST_EXTENDED, LAST_EXTENDED)] * ("arm,gic-v3" in _kind_of(gic))
        return self._vectors(gic, "spi", spans, "shared lines by their numbers"), vector

    def _lines_of(self, node: TreeNode) -> Iterator[Line]:
        """The lines of a device: each its controller, its address there and its cells."""
        if node.has("interrupts-extended"):
            for target, line in references(self.tree, node, "interrupts-extended", "#interrupt-cells"):
                yield target, [], line
            return
        parent = _parent_of(self.tree, node)
        width = _cells(parent, "#interrupt-cells") if parent else 0
        words = node.words("interrupts")
        if parent and words and width:
            own = _cells(parent, "#address-cells") if parent.has("interrupt-map") else 0
            address = (node.words("reg") + [0] * own)[:own]
            for at in range(0, len(words) - width + 1, width):
                yield parent, address, words[at:at + width]

    def _read_lines(self, node: TreeNode) -> None:
        """Makes the node of a device's lines, where some lead to vectors; notes the others."""
        entries: list[Entry] = []
        reasons: dict[str, list[str]] = {}
        for index, (controller, address, line) in enumerate(self._lines_of(node)):
            self._count(1)
            found = self._destination(controller, address, line)
            if isinstance(found, str):
                reasons.setdefault(found, []).append(str(index))
            else:
                entries.append(_entry(index, *found, f"{node.path} interrupts {index}"))
        self._add(node, "irq", entries, reasons)

    def _read_pins(self, node: TreeNode) -> None:
        """Makes the node of the pins of what is behind a PCI host bridge."""
        entries: dict[int, Entry] = {}
        reasons: dict[str, list[str]] = {}
        for address, line, target, outer, there in _entries(self.tree, node):
            self._count(1)
            place = ((address[0] >> 11 & 31) * 8 if address else 0) + (line[0] & 7 if line else 0)
            found = self._destination(target, outer, there)
            if isinstance(found, str):
                reasons.setdefault(found, []).append(f"{place:#x}")
            else:
                source = f"{node.path} interrupt-map, device {place // 8} pin {place % 8}"
                entries.setdefault(place, _entry(place, *found, source))
        self._add(node, "intx", [entries[place] for place in sorted(entries)], reasons)

    def _count(self, more: int) -> None:
        """Refuses a tree with too many lines before all are followed."""
        self.lines += more
        if self.lines > MAX_LINES:
            raise TooMany(f"the tree has more than {MAX_LINES} interrupt lines; take a part of it with --only")

    def _add(self, node: TreeNode, suffix: str, entries: list[Entry], reasons: dict[str, list[str]]) -> None:
        """Adds the node of some lines, and a note for each reason why others have none."""
        if entries:
            self.nodes.append(NetNode(node, suffix, f"{node.path} interrupts", entries=entries))
        for reason, indices in reasons.items():
            listed = ", ".join(indices[:8]) + (f" and {len(indices) - 8} more" if len(indices) > 8 else "")
            self.reader.note(node, f"{suffix} {listed}: lines {reason}")

    def _read_messages(self, most_agents: int, most_units: int) -> None:
        """Makes a unit of each ITS to which some device sends messages, and the agents of these."""
        senders: dict[TreeNode, list[TreeNode]] = {}
        for node in self.tree.root.walk():
            if self._is_wanted(node):
                for its in controllers(self.tree, node):
                    if self._is_wanted(its) and ITS in _kind_of(its):
                        senders.setdefault(its, []).append(node)
        for its, nodes in senders.items():
            if most_units and len(self.agents) + len(nodes) <= most_agents:
                most_units -= 1
                self._read_its(its, nodes)
            else:
                what = "agents" if most_units else "units"
                self.reader.note(its, f"messages of {len(nodes)} devices to it are left out: no room for more {what}")

    def _read_its(self, its: TreeNode, nodes: list[TreeNode]) -> None:
        """Makes the unit of an ITS, and the agents that come to it."""
        last = FIRST_LPI + LPIS - 1
        lpis = self._vectors(its.parent or its, "lpi", [(FIRST_LPI, last)], f"its first {LPIS} LPIs")
        unit = NetNode(its, "table", f"{its.path}, for {len(nodes)} senders",
                       unit=Unit(0, EVENTS * len(nodes), LPI_BITS, lpis, "vectors"))
        self.nodes.append(unit)
        for number, node in enumerate(nodes):
            slot = EVENTS * number
            entry = Entry(0, EVENTS - 1, (Claim(0, EVENTS - 1, unit, slot, f"messages to {its.path}"),))
            source = f"{node.path}, messages" + " of a function behind it" * node.has("msi-map")
            self.agents.append(NetNode(node, "msi", source, entries=[entry], agent=True))
            self.said.add(node)


def controllers(tree: Tree, node: TreeNode) -> list[TreeNode]:
    """The controllers of the messages that a device sends; none where they cannot be read."""
    try:
        targets = [target for target, _line in references(tree, node, "msi-parent", "#msi-cells")]
        targets += [entry.target for entry in mapped(tree, node, "msi-map")]
    except Fault:
        return []
    return list(dict.fromkeys(target for target in targets if target is not None))


def doorbell(tree: Tree, masters: Iterable[Master]) -> Iterator[tuple[TreeNode, int]]:
    """The controllers that masters write their messages to, each with the offset of the page that they write to."""
    for its in dict.fromkeys(its for master in masters for its in controllers(tree, master.tree_node)):
        for name, offset in DOORBELLS.items():
            if its.is_enabled() and name in _kind_of(its):
                yield its, offset


def _entry(index: int, vectors: NetNode, place: int, source: str) -> Entry:
    """One line and the vector to which it leads."""
    return Entry(index, index, (Claim(index, index, vectors, place, source),))
