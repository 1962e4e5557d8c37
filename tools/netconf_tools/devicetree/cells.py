"""The numbers of ``reg``, ``ranges`` and ``dma-ranges``, by the widths that the buses give.

An address has a space and a number in it. Most buses have one space, written as the empty text. A PCI bus has three:
the first of the three cells of its addresses says which (the two codes for memory are one space, as in Linux). An ISA
bus has two, by the lowest bit of its first cell. On a Marvell MBUS, and on any other bus with three cells, the first
cell is a tag (of a target, as a memory or a bus); tags that are not 0 are spaces of their own. Addresses from 2^56 on
are a space of their own too, one for each value of the bits above the 56th: the highest cell is then most often the
number of a chip select, and a window of the bus translates it to an address of the machine.
"""
from collections.abc import Callable, Iterator
from typing import NamedTuple

from netconf_tools.devicetree.fault import Fault
from netconf_tools.devicetree.spans import TOP, Span, Taken
from netconf_tools.devicetree.tree import TreeNode

HIGH = "high_"
"""How the name of a space of addresses from 2^56 on begins, after the tag of its bus if there is one."""
TOP_BITS = 56
"""How many bits an address of a description has."""
PCI_TYPES = ("pci", "pciex", "vci", "ht")
"""The ``device_type`` of PCI buses, as in Linux (``of_bus_pci_match`` in drivers/of/address.c)."""
PCI_SPACES = ("config", "io", "memory", "memory")
MAX_CELLS = 4
MAX_ENTRIES = 16384
"""How many entries a property may have: as many as the parts of a description."""


class Register(NamedTuple):
    """One window of ``reg``, in the addresses of the bus that the device is on."""

    number: int
    space: str
    first: int
    size: int

    @property
    def span(self) -> Span:
        """The first and the last address of a window that is not of size 0."""
        return self.first, self.first + self.size - 1


class Range(NamedTuple):
    """One entry of ``ranges``: ``size`` addresses of the bus, and where they are on the bus outside of it."""

    number: int
    space: str
    first: int
    outer_space: str
    outer: int
    size: int


class Piece(NamedTuple):
    """A part of an entry of ``ranges`` that really translates: not shadowed by an earlier one, not past the top."""

    number: int
    space: str
    first: int
    last: int
    outer_space: str
    outer: int

    @property
    def outer_last(self) -> int:
        """The last address outside."""
        return self.outer + self.last - self.first


def kind(bus: TreeNode) -> str:
    """Which form the addresses of a bus have: "pci", "isa", "tagged", or "" for plain numbers."""
    if bus.has("#address-cells"):
        cells = bus.cell("#address-cells")
        if cells == 3 and (bus.string("device_type") in PCI_TYPES or bus.base == "pcie"):
            return "pci"
        if cells == 2 and bus.base == "isa":
            return "isa"
        if cells == 3 or cells == 2 and any(name.endswith("-mbus") for name in bus.strings("compatible")):
            return "tagged"
    return ""


def width(bus: TreeNode, name: str, why: str) -> int:
    """The width of a bus's addresses or sizes in cells; ``why`` is what needs it.

    A bus without one has that of the nearest node above it that has one, as in Linux (``of_n_addr_cells`` and
    ``of_n_size_cells`` in drivers/of/base.c)."""
    place: TreeNode | None = bus
    while place is not None and not place.has(name):
        place = place.parent
    if place is None:
        raise Fault(f"no {name} on {bus.path}, nor above it, which {why} needs")
    cells = place.word(name)
    if cells is None or cells > MAX_CELLS:
        raise Fault(f"{name} of {place.path} is {cells}; an address or a size has at most {MAX_CELLS} cells")
    return cells


def _number(cells: list[int]) -> int:
    """One number of several cells, the highest first."""
    value = 0
    for cell in cells:
        value = value << 32 | cell
    return value


def _address(form: str, cells: list[int]) -> tuple[str, int]:
    """The space and the number of an address on a bus of this form."""
    if form == "pci":
        return PCI_SPACES[cells[0] >> 24 & 3], _number(cells[1:])
    if form == "isa":
        return "io" if cells[0] & 1 else "memory", _number(cells[1:])
    if form == "tagged":
        return _split(f"space_{cells[0]:x}" if cells[0] else "", _number(cells[1:]))
    return _split("", _number(cells))


def _split(space: str, number: int) -> tuple[str, int]:
    """An address that may lie past 2^56 - 1 as one below: the bits above are a part of the space."""
    high = number >> TOP_BITS
    return (f"{space}{'_' * bool(space)}{HIGH}{high:x}", number & TOP) if high else (space, number)


def whole(space: str, number: int) -> int:
    """The address as the tree has it, with the bits above the 56th that are a part of its space."""
    high = space.rpartition(HIGH)[2] if HIGH in space else "0"
    return int(high, 16) << TOP_BITS | number


def _groups(node: TreeNode, name: str, widths: tuple[int, ...]) -> Iterator[list[list[int]]]:
    """The cells of a property in groups of the given widths, each group a list of lists."""
    words, total = node.words(name), sum(widths)
    if words and (total == 0 or len(words) % total):
        sums = " + ".join(str(part) for part in widths)
        raise Fault(f"{name} has {len(words)} cells, no multiple of {total} ({sums})")
    if words and len(words) // total > MAX_ENTRIES:
        raise Fault(f"{name} has {len(words) // total} entries, and at most {MAX_ENTRIES} are read")
    for start in range(0, len(words), total or 1):
        group, at = [], start
        for part in widths:
            group.append(words[at:at + part])
            at += part
        yield group


def has_sizes(bus: TreeNode) -> bool:
    """Whether windows on a bus have a size at all; i2c and spi devices have a number alone."""
    return bus.cell("#size-cells", 1) > 0


def windows_property(bus: TreeNode) -> str:
    """The property that has the windows of what is on a bus.

    On a PCI bus ``reg`` has the configuration address of a function and its base address registers, and
    ``assigned-addresses`` where these stand, as in Linux (``of_busses`` in drivers/of/address.c)."""
    return "assigned-addresses" if kind(bus) == "pci" else "reg"


def registers(node: TreeNode) -> list[Register]:
    """The windows of a device, in order."""
    bus = node.parent
    if bus is None:
        return []
    name = windows_property(bus)
    why = f"{name} of {node.path}"
    widths = (width(bus, "#address-cells", why), width(bus, "#size-cells", why))
    found = []
    for index, (address, extent) in enumerate(_groups(node, name, widths)):
        space, first = _address(kind(bus), address)
        found.append(Register(index, space, first, _number(extent)))
    return found


def ranges(node: TreeNode, name: str = "ranges") -> list[Range]:
    """The entries of ``ranges`` or ``dma-ranges``, in order; an empty property has none."""
    if not node.properties.get(name):
        return []
    why = f"{name} of {node.path}"
    if node.parent is None:
        raise Fault(f"{name} on the root, which has no bus outside of it")
    widths = (width(node, "#address-cells", why), width(node.parent, "#address-cells", why),
              width(node, "#size-cells", why))
    found = []
    for index, (inner, outer, extent) in enumerate(_groups(node, name, widths)):
        found.append(Range(index, *_address(kind(node), inner), *_address(kind(node.parent), outer), _number(extent)))
    return found


def pieces(entries: list[Range], say: Callable[[int, str], None]) -> list[Piece]:
    """What of the entries really translates: of two that overlap the first counts.

    ``say`` is given the index of an entry, and in words what of it does not count."""
    found: list[Piece] = []
    taken: dict[str, Taken] = {}
    for entry in entries:
        if not entry.size:
            say(entry.number, "has size 0")
            continue
        span: Span = (entry.first, entry.first + entry.size - 1)
        free = taken.setdefault(entry.space, Taken()).take(*span)
        if free != [span]:
            say(entry.number, "is shadowed by an earlier entry" + (" in part" if free else ""))
        for first, last in free:
            outer = entry.outer + first - entry.first
            highest = min(last, TOP, TOP - outer + first)
            if highest < last:
                say(entry.number, f"has addresses past {TOP:#x}")
            if highest >= first:
                found.append(Piece(entry.number, entry.space, first, highest, entry.outer_space, outer))
    return found
