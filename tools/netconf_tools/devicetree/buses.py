"""What each bus of a tree decodes, from the root inwards, and what of the tree is left out.

A bus is the root, or a node with ``ranges`` on a bus. The addresses of its registers and windows are cut to what can
be reached from the root. What is left out is kept as notes, each with its reason.
"""
from collections.abc import Callable, Sequence
from dataclasses import dataclass, field

from netconf_tools.devicetree import cells
from netconf_tools.devicetree.fault import Fault
from netconf_tools.devicetree.naming import register_suffixes
from netconf_tools.devicetree.net import Claim, NetNode, settle
from netconf_tools.devicetree.spans import TOP, Span, meet, shifted, text, union, without
from netconf_tools.devicetree.tree import Note, Tree, TreeNode

ROOT_SPACES = {"": [(0, TOP)]}
MAX_WINDOWS = 16384
"""How many windows of registers are read; a description has far fewer nodes."""


def is_memory(node: TreeNode) -> bool:
    """Whether a node is one of the memory."""
    return node.string("device_type") == "memory" or node.base == "memory"


def why_unmapped(bus: TreeNode) -> str:
    """Why the devices on a bus have no addresses of the machine."""
    if not cells.has_sizes(bus):
        return "numbers and no sizes"
    return "behind a bus that is not mapped" if bus.has("ranges") else "no ranges"


@dataclass(eq=False)
class Device:
    """One window of a device's registers: where it is on its bus, and its node in the description."""

    tree_node: TreeNode
    register: cells.Register
    bus: "Bus"
    net_node: NetNode


@dataclass(eq=False)
class Bus:
    """A bus: its node in the tree, its node in the description for each of its spaces, and its devices.

    ``reach`` has, for each space, the addresses to which something outside of the bus can come."""

    tree_node: TreeNode
    outer: "Bus | None"
    reach: dict[str, list[Span]]
    pieces: list[cells.Piece]
    nodes: dict[str, NetNode] = field(default_factory=dict)
    claims: dict[str, list[Claim]] = field(default_factory=dict)
    identities: dict[str, list[Claim]] = field(default_factory=dict)
    devices: list[Device] = field(default_factory=list)
    buses: "list[Bus]" = field(default_factory=list)

    @property
    def one_to_one(self) -> bool:
        """Whether ``ranges`` is empty, so that addresses are the same inside and outside."""
        return self.outer is not None and not self.tree_node.properties["ranges"]

    def is_host(self) -> bool:
        """Whether this is a PCI bus below one that is none: what is in its windows is found at run time."""
        return cells.kind(self.tree_node) == "pci" and self.outer is not None \
            and cells.kind(self.outer.tree_node) != "pci"


class Reader:
    """Reads the buses of one tree.

    ``keeps`` tells of a node of the tree whether it is wanted at all. ``memory`` are the spans of the memory, where
    these are given and not those of the tree."""

    def __init__(self, tree: Tree, keeps: Callable[[TreeNode], bool], memory: Sequence[Span] = ()):
        self.tree = tree
        self.keeps = keeps
        self.memory = memory
        self.notes = [note for note in tree.notes if keeps(tree.by_path[note.path])]
        self.reserved: list[tuple[str, Span | None]] = []
        self.windows = 0

    def note(self, node: TreeNode, reason: str) -> None:
        """Keeps what is left out of a node, where the node is wanted."""
        if self.keeps(node):
            self.notes.append(Note(node.path, reason))

    def read(self) -> Bus:
        """The root bus, with all buses in it."""
        root = Bus(self.tree.root, None, ROOT_SPACES, [])
        for first, size in self.tree.reserved:
            self.reserved.append(("/memreserve/", (first, first + size - 1) if size else None))
        self._fill(root)
        return root

    def _fill(self, bus: Bus) -> None:
        """Reads what is on a bus, and settles who answers each of its addresses."""
        disabled = []
        for child in bus.tree_node.children:
            if not self.keeps(child):
                continue
            if child.status() != "okay":
                disabled.append(child)
            elif bus.outer is None and child.name == "reserved-memory":
                self._reserve(child)
            elif bus.outer is None and self.memory and is_memory(child):
                self.note(child, "not taken, since --memory gives the memory")
            elif not (bus.outer is None and child.name == "cpus"):
                self._read_child(bus, child)
        if bus.outer is None:
            self._add_memory(bus)
        self._note_disabled(bus.tree_node, disabled)
        self._settle(bus)

    def _add_memory(self, root: Bus) -> None:
        """Adds the memory that is given to the root bus, as if the tree had a node for each of its spans."""
        for first, last in self.memory:
            child = TreeNode(f"memory@{first:x}", None)
            child.path = f"/memory@{first:x}"
            register = cells.Register(0, "", first, last - first + 1)
            node = NetNode(child, "", f"{child.path} of --memory")
            node.accept = [(0, last - first)]
            self._claim_register(root, register, node)
            root.devices.append(Device(child, register, root, node))

    def _note_disabled(self, bus: TreeNode, children: list[TreeNode]) -> None:
        """One note for all the children of a bus that are not enabled."""
        named = [child.name for child in children if child.has("reg") or child.has("ranges") or child.has("compatible")]
        if named:
            self.note(bus, f"{len(named)} on it not enabled: " + ", ".join(named))

    def _reserve(self, holder: TreeNode) -> None:
        """Keeps reserved memory apart: it decodes nothing, it is a part of the memory."""
        for child in holder.children:
            if not self.keeps(child) or child.status() != "okay":
                continue
            found = self._registers(child)
            for register in found:
                span = (register.first, register.first + register.size - 1) if register.size else None
                self.reserved.append((child.path, span))
            if not found:
                self.reserved.append((child.path, None))

    def _registers(self, node: TreeNode) -> list[cells.Register]:
        """The windows of a device; none, with a note, where they cannot be read."""
        try:
            return cells.registers(node)
        except Fault as fault:
            self.note(node, f"not mapped: {fault}")
            return []

    def _read_child(self, bus: Bus, child: TreeNode) -> None:
        """Reads the registers of a child of a bus, and the bus that the child is."""
        name = cells.windows_property(bus.tree_node)
        if child.has(name) and cells.has_sizes(bus.tree_node):
            self._read_registers(bus, child)
        elif child.has("reg"):
            self.note(child, "not mapped: a PCI function, whose registers are found at run time" if name != "reg" else
                      "not mapped: its bus has numbers and no sizes")
        inner = self._inner(bus, child) if child.has("ranges") else None
        if inner:
            self._fill(inner)
            self._attach(bus, inner)
        else:
            self._note_unmapped(child)

    def _note_unmapped(self, node: TreeNode) -> None:
        """One note for each enabled bus at or below a node that is not mapped, with the devices on it."""
        pending = [node]
        while pending:
            bus = pending.pop()
            enabled = [child for child in bus.children if self.keeps(child) and child.status() == "okay"]
            named = [child.name for child in enabled if child.has("reg") and child.has("compatible")]
            if named:
                self.note(bus, f"{len(named)} on it not mapped ({why_unmapped(bus)}): " + ", ".join(named))
            pending.extend(reversed(enabled))

    def _read_registers(self, bus: Bus, child: TreeNode) -> None:
        """Makes a node of each window of a device that can be reached, and claims its span of the bus."""
        found = self._registers(child)
        name = cells.windows_property(bus.tree_node)
        self.windows += len(found)
        if self.windows > MAX_WINDOWS:
            raise Fault(f"the tree has more than {MAX_WINDOWS} windows of registers; take a part of it with --only")
        suffixes = register_suffixes(child, len(found))
        for register in found:
            suffix = suffixes[register.number]
            node = NetNode(child, suffix, f"{child.path} {name} {register.number}")
            if self._reachable(bus, child, register):
                node.accept = [(0, min(register.size - 1, TOP))]
                self._claim_register(bus, register, node)
                bus.devices.append(Device(child, register, bus, node))

    def _reachable(self, bus: Bus, child: TreeNode, register: cells.Register) -> bool:
        """Whether anything of a window can be reached from the root; notes what cannot."""
        name = f"{cells.windows_property(bus.tree_node)} {register.number}"
        if not register.size:
            self.note(child, f"{name} has size 0")
            return False
        first, last = register.first, register.first + register.size - 1
        high = cells.whole(register.space, 0)
        place = f"{name}, {text(first + high, last + high)},"
        inside = meet([(first, last)], bus.reach.get(register.space, []))
        if last > TOP or high and bus.outer is None:
            self.note(child, f"{place} has addresses past {TOP:#x}")
        elif not inside and any(piece.space == register.space and piece.first <= first <= piece.last
                                and cells.whole(piece.outer_space, 0) for piece in bus.pieces):
            self.note(child, f"{place} is past {TOP:#x} outside of its bus")
        elif not inside:
            self.note(child, f"{place} is outside of the ranges of its bus")
        elif inside != [(first, last)]:
            kept = ", ".join(text(low + high, end + high) for low, end in inside)
            self.note(child, f"{place} leaves the ranges of its bus; kept is {kept}")
        return bool(inside)

    @staticmethod
    def _claim_register(bus: Bus, register: cells.Register, node: NetNode) -> None:
        """Claims what of a window can be reached."""
        first, last = register.first, register.first + register.size - 1
        claims = bus.claims.setdefault(register.space, [])
        for low, high in meet([(first, last)], bus.reach.get(register.space, [])):
            claims.append(Claim(low, high, node, low - first, node.source))

    def _inner(self, bus: Bus, child: TreeNode) -> Bus | None:
        """The bus that a child with ``ranges`` is, with what can be reached of it and nothing on it yet.

        Where these cannot be read there is none, with a note."""
        if not child.properties["ranges"]:
            same = cells.kind(bus.tree_node) == cells.kind(child)
            if not same:
                self.note(child, "empty ranges between two forms of addresses cannot be said")
            return Bus(child, bus, bus.reach if same else {}, [])
        try:
            entries = cells.ranges(child)
        except Fault as fault:
            self.note(child, f"what is on it is not mapped: {fault}")
            return None
        found = cells.pieces(entries, lambda index, why: self.note(child, f"ranges {index} {why}"))
        reach: dict[str, list[Span]] = {}
        for piece in found:
            outside = meet([(piece.outer, piece.outer_last)], bus.reach.get(piece.outer_space, []))
            if outside != [(piece.outer, piece.outer_last)]:
                self._note_leaving(bus, child, piece)
            reach.setdefault(piece.space, []).extend(shifted(outside, piece.first - piece.outer))
        return Bus(child, bus, {space: union(spans) for space, spans in reach.items()}, found)

    def _note_leaving(self, bus: Bus, child: TreeNode, piece: cells.Piece) -> None:
        """Notes that a window of a bus leads where nothing from the root comes."""
        high = cells.whole(piece.outer_space, 0)
        if high and piece.outer_space not in bus.reach:
            self.note(child, f"ranges {piece.number} has addresses past {TOP:#x}")
        else:
            outside = text(piece.outer + high, piece.outer_last + high)
            self.note(child, f"ranges {piece.number}, {outside} outside of the bus, leaves what can be reached")

    def _attach(self, bus: Bus, inner: Bus) -> None:
        """Makes the windows of an inner bus claims on the bus round it, where something is in it."""
        full = {space: node for space, node in inner.nodes.items() if node.decoded()}
        inner.nodes = full
        if not full:
            return
        bus.buses.append(inner)
        if inner.one_to_one:
            for space, node in full.items():
                bus.identities.setdefault(space, []).append(Claim(0, TOP, node, 0, f"{inner.tree_node.path} ranges"))
        for piece in inner.pieces:
            if piece.space in full:
                claims = bus.claims.setdefault(piece.outer_space, [])
                source = f"{inner.tree_node.path} ranges {piece.number}"
                for low, high in meet([(piece.outer, piece.outer_last)], bus.reach.get(piece.outer_space, [])):
                    first = piece.first + low - piece.outer
                    claims.append(Claim(low, high, full[piece.space], first, source))

    def _settle(self, bus: Bus) -> None:
        """Makes the nodes of a bus, one for each space that has something in it."""
        spaces = list(bus.claims) + list(bus.identities) + (list(bus.reach) if bus.is_host() else [])
        for space in dict.fromkeys([""] + spaces if bus.outer is None else spaces):
            path = bus.tree_node.path
            on_bus = bus.outer.devices if bus.outer else []
            has_registers = any(device.tree_node is bus.tree_node for device in on_bus)
            node = NetNode(bus.tree_node, space or ("bus" if has_registers else ""), path)
            claims, identities = bus.claims.get(space, []), bus.identities.get(space, [])
            where = path + (f" ({space})" if space else "")
            node.entries, node.over = settle(claims, identities, self._teller(bus.tree_node, where))
            if bus.is_host():
                taken = union([(entry.first, entry.last) for entry in node.entries]
                              + (node.over.decoded() if node.over else []))
                node.accept = without(bus.reach.get(space, []), taken)
                node.source = f"{path} {space} windows"
            bus.nodes[space] = node

    def _teller(self, node: TreeNode, where: str) -> Callable[[str], None]:
        """A function that keeps notes on the addresses of a bus, each once."""
        told = set()

        def tell(reason: str) -> None:
            """Keeps a note on the addresses, if it is new."""
            if reason not in told:
                told.add(reason)
                self.note(node, reason + (f" (on {where})" if where != node.path else ""))
        return tell
