"""What of a tree are units of the language: the tables of IOMMUs, and the masters that share one.

An IOMMU translates by tables that software fills. One of Arm's architecture (SMMU) has a table for each stream of
accesses, and one of RISC-V for each device. The streams of one master share a table, as in Linux, and so do masters
that have a stream in common. Others have one table for all masters that name them, whatever the number after the name
is of a port or a TLB. So each such group of masters has a unit. How large a table is, a tree does not say: a unit has
slots of 4 KiB for the first addresses that its masters use. What it sends out are addresses of the root, with as many
bits as an entry of a table holds. """
from collections.abc import Iterable
from typing import NamedTuple

from netconf_tools.devicetree import cells
from netconf_tools.devicetree.fault import Fault
from netconf_tools.devicetree.phandles import Mapped, mapped, references
from netconf_tools.devicetree.spans import meet, text, union, without
from netconf_tools.devicetree.tree import Tree, TreeNode


class Kind(NamedTuple):
    """A kind of IOMMU: the bits of an address in an entry for a page of 4 KiB, whether it has one table for all, and
    whether it translates the writes that are messages too, as an SMMU does."""

    bits: int
    one_table: bool
    translates_messages: bool = False


STREAMS_40, STREAMS_48 = Kind(40, False, True), Kind(48, False, True)
"""A table for each stream: the cell is its number; of ``qcom,msm-iommu-v1`` that of a context bank, which has a
table."""
DEVICES_56 = Kind(56, False)
"""A table for each device of RISC-V, whose number is the cell: 44 bits of a page, and 12 in it."""
TABLE_32, TABLE_33, TABLE_35, TABLE_40 = (Kind(bits, True) for bits in (32, 33, 35, 40))
"""One table: no cell, or one that is a port (MediaTek), a micro-TLB (Renesas) or a master's number (Allwinner)."""

KINDS: dict[str, Kind] = {
    "arm,smmu-v1": STREAMS_40, "arm,mmu-400": STREAMS_40, "arm,mmu-401": STREAMS_40, "arm,smmu-v2": STREAMS_48,
    "arm,mmu-500": STREAMS_48, "cavium,smmu-v2": STREAMS_48, "nvidia,smmu-500": STREAMS_48, "qcom,smmu-v2": STREAMS_48,
    "arm,smmu-v3": STREAMS_48, "qcom,msm-iommu-v1": STREAMS_40,
    "riscv,iommu": DEVICES_56, "riscv,pci-iommu": DEVICES_56,
    "rockchip,iommu": TABLE_32, "rockchip,rk3568-iommu": TABLE_40, "samsung,exynos-sysmmu": TABLE_32,
    "ti,omap2-iommu": TABLE_32, "ti,omap4-iommu": TABLE_32, "ti,dra7-iommu": TABLE_32, "ti,dra7-dsp-iommu": TABLE_32,
    "allwinner,sun50i-h6-iommu": TABLE_32, "mediatek,mt2701-m4u": TABLE_32, "mediatek,mt2712-m4u": TABLE_33,
    "mediatek,mt6795-m4u": TABLE_33, "mediatek,mt8173-m4u": TABLE_33, "mediatek,mt6779-m4u": TABLE_35,
    "mediatek,mt8167-m4u": TABLE_35, "mediatek,mt8183-m4u": TABLE_35, "mediatek,mt8186-iommu-mm": TABLE_35,
    "mediatek,mt8188-iommu-vdo": TABLE_35, "mediatek,mt8188-iommu-vpp": TABLE_35, "mediatek,mt8192-m4u": TABLE_35,
    "mediatek,mt8195-iommu-vdo": TABLE_35, "mediatek,mt8195-iommu-vpp": TABLE_35,
}
"""The kinds of IOMMUs that are known, by ``compatible``. The bits are those that the drivers of Linux write."""
RENESAS = "renesas,ipmmu-"
"""The first letters of the IPMMUs of Renesas, of which each chip has a name of its own; they have one table as in
Linux."""

PAGE = 12
REQUESTERS = 65536
"""How many requesters a PCI bus can have: its functions, by bus, device and function."""
MAX_STREAMS = 1024
"""How many streams of masters are compared at most: each with each other one."""


def agrees(first: int, last: int, number: int, loose: int) -> bool:
    """Whether some number from ``first`` to ``last`` is ``number`` but for the bits of ``loose``."""
    number &= ~loose
    if first == last:
        return first & ~loose == number
    high = 1 << (first ^ last).bit_length() - 1
    low = high - 1
    if (first ^ number) & ~loose & ~(high | low):
        return False
    below = not number & high and first & low <= (number | loose) & low
    above = (number | loose) & high and number & low <= last & low
    return bool(below or above)


class Streams(NamedTuple):
    """The streams from ``first`` to ``last``; or the one stream ``first``, where the bits of ``mask`` do not count."""

    first: int
    last: int
    mask: int

    def meets(self, other: "Streams") -> bool:
        """Whether some stream is among both."""
        if self.mask:
            return agrees(other.first, other.last, self.first, self.mask | other.mask)
        if other.mask:
            return agrees(self.first, self.last, other.first, other.mask)
        return self.first <= other.last and other.first <= self.last

    def text(self) -> str:
        """The streams as a part of a note: of a span, the master has one of them."""
        if self.first != self.last:
            return f"streams {text(self.first, self.last)}"
        return f"stream {self.first:#x}" + (f" mask {self.mask:#x}" if self.mask else "")


class Master(NamedTuple):
    """A master that an IOMMU translates for: its node, that of the IOMMU, and its streams there.

    ``function`` is the requester, where the master is one function behind a PCI host bridge that is known."""

    tree_node: TreeNode
    iommu: TreeNode
    streams: tuple[Streams, ...]
    function: int | None = None

    def shares(self, other: "Master") -> bool:
        """Whether two masters have a stream in common."""
        return self.iommu is other.iommu and any(one.meets(two) for one in self.streams for two in other.streams)

    def parts(self) -> list[str]:
        """The parts of the note on the master: its path, its function, and its streams."""
        kind = kind_of(self.iommu)
        named = [self.tree_node.path] + ([] if self.function is None else [f"pci {function_text(self.function)}"])
        if self.function is None and self.tree_node.has("iommu-map"):
            named.append("a function behind it")
        return named + ([] if kind is None or kind.one_table else [part.text() for part in self.streams])


class Translation(NamedTuple):
    """What IOMMUs translate for a master: the masters with tables that it is, why of other accesses none is known, and
    whether some of its accesses are shown as if no IOMMU were there."""

    masters: list[Master]
    reasons: list[str]
    passes: bool


def function_text(requester: int) -> str:
    """A PCI function by its bus, device and function, as ``0:3.0``."""
    return f"{requester >> 8:x}:{requester >> 3 & 31:x}.{requester & 7}"


def kind_of(iommu: TreeNode) -> Kind | None:
    """The kind of an IOMMU, or None where it is not known."""
    names = iommu.strings("compatible")
    if any(name.startswith(RENESAS) for name in names):
        return TABLE_40
    return next((KINDS[name] for name in names if name in KINDS), None)


def translation_of(tree: Tree, node: TreeNode, bus: TreeNode, slots: int) -> Translation:
    """What IOMMUs translate for a master; ``bus`` is the bus that its accesses come out on."""
    named = references(tree, node, "iommus", "#iommu-cells")
    entries = list(mapped(tree, node, "iommu-map"))
    if not named:
        return _behind(node, bus, entries, slots) if entries else Translation([], [], True)
    iommus = {target for target, _numbers in named} | {entry.target for entry in entries}
    if len(iommus) > 1 or entries:
        shown = ", ".join(_named_text(*one) for one in named)
        return Translation([], [f"shown as if its IOMMUs passed its accesses on, since the tree does not show which "
                                f"access goes by which: {shown}"], True)
    iommu = named[0][0]
    why = _why_unknown(iommu, bus, slots)
    if iommu is None or why:
        return Translation([], [f"shown as if {why}: {', '.join(_named_text(*one) for one in named)}"], True)
    streams = tuple(_named_streams(iommu, numbers) for _target, numbers in named)
    return Translation([Master(node, iommu, _counted(iommu, streams))], [], False)


def _behind(node: TreeNode, bus: TreeNode, entries: list[Mapped], slots: int) -> Translation:
    """What IOMMUs translate for the functions behind a PCI host bridge, by its ``iommu-map``."""
    masters, reasons, known = [], [], []
    for iommu in dict.fromkeys(entry.target for entry in entries if entry.length):
        own = [entry for entry in entries if entry.target is iommu and entry.length]
        why = _why_unknown(iommu, bus, slots)
        if iommu is None or why:
            shown = " and ".join(text(entry.first, entry.first + entry.length - 1) for entry in own)
            reasons.append(f"shown as if {why}: {iommu.path if iommu else 'none'} for requesters {shown}")
            continue
        streams = tuple(Streams(entry.number, entry.number + entry.length - 1, 0) for entry in own)
        masters.append(Master(node, iommu, _counted(iommu, streams)))
        known += own
    if not any(entry.length for entry in entries):
        reasons.append("shown as if no IOMMU were there: its iommu-map has length 0, for firmware to fill")
    return Translation(masters, reasons, not _has_all_requesters(node, known))


def _counted(iommu: TreeNode, streams: tuple[Streams, ...]) -> tuple[Streams, ...]:
    """The streams that tell the tables of an IOMMU apart: one for all where it has one table."""
    kind = kind_of(iommu)
    return (Streams(0, 0, 0),) if kind and kind.one_table else streams


def of_function(tree: Tree, master: Master, requester: int) -> Master | None:
    """The master that one function behind a bridge is, or None where its accesses are not those of ``master``."""
    node = master.tree_node
    masked = requester & node.cell("iommu-map-mask", REQUESTERS - 1)
    for entry in mapped(tree, node, "iommu-map"):
        if entry.first <= masked < entry.first + entry.length:
            number = entry.number + masked - entry.first
            streams = _counted(master.iommu, (Streams(number, number, 0),))
            return Master(node, master.iommu, streams, requester) if entry.target is master.iommu else None
    return None


def apart_from(master: Master, functions: list[Master]) -> Master | None:
    """The master that any other function behind a bridge is: without the streams of those that are named; or None."""
    kind = kind_of(master.iommu)
    if kind and kind.one_table:
        return None if functions else master
    own = union([(streams.first, streams.last) for streams in master.streams])
    taken = union([(streams.first, streams.last) for one in functions for streams in one.streams])
    left = without(own, taken) if functions else [(streams.first, streams.last) for streams in master.streams]
    return master._replace(streams=tuple(Streams(*span, 0) for span in left)) if left else None


def _named_text(iommu: TreeNode | None, numbers: list[int]) -> str:
    """An entry of ``iommus`` in words."""
    if iommu is None:
        return "an IOMMU that the tree does not have"
    return iommu.path + (" stream " + " ".join(f"{number:#x}" for number in numbers) if numbers else "")


def _why_unknown(iommu: TreeNode | None, bus: TreeNode, slots: int) -> str:
    """Why no unit has the tables of an IOMMU, as the end of "shown as if"; or nothing."""
    if iommu is None:
        return "the IOMMU passed its accesses on, which the tree does not have"
    if not iommu.is_enabled():
        return "the IOMMU passed its accesses on, which is not enabled"
    if kind_of(iommu) is None:
        kind = iommu.string("compatible") or "of no kind"
        return f"the IOMMU passed its accesses on, whose tables are not known here ({kind})"
    if not _is_passed_on(bus, slots):
        return "the IOMMU passed its accesses on, since the bus before it moves some of the first addresses"
    return ""


def _named_streams(iommu: TreeNode, numbers: list[int]) -> Streams:
    """What an entry of ``iommus`` names: a stream, with a mask that stands after it or is the IOMMU's own.

    An IOMMU without numbers has one stream."""
    mask = numbers[1] if len(numbers) > 1 else iommu.cell("stream-match-mask")
    number = numbers[0] if numbers else 0
    return Streams(number, number, mask)


def _has_all_requesters(node: TreeNode, entries: list[Mapped]) -> bool:
    """Whether the entries of ``iommu-map`` have each requester of a bus."""
    mask = node.cell("iommu-map-mask", REQUESTERS - 1)
    said = union([(entry.first, entry.first + entry.length - 1) for entry in entries])
    return not any(agrees(first, last, 0, mask) for first, last in without([(0, REQUESTERS - 1)], said))


def _is_passed_on(bus: TreeNode, slots: int) -> bool:
    """Whether the first addresses of a bus are the same at the root, by each ``dma-ranges`` on the way."""
    window = [(0, (slots << PAGE) - 1)]
    for place in [bus, *bus.above()]:
        if place.parent is None or not place.properties.get("dma-ranges"):
            continue
        pieces = cells.pieces(cells.ranges(place, "dma-ranges"), lambda index, why: None)
        same = [(piece.first, piece.last) for piece in pieces if piece.first == piece.outer
                and piece.space in ("", "memory") and piece.outer_space in ("", "memory")]
        if meet(window, union(same)) != window:
            return False
    return True


def groups(masters: Iterable[Master]) -> list[list[Master]]:
    """The masters in groups: in each group every master has a stream in common with another one of it, or it is
    alone."""
    masters = list(masters)
    found: list[list[Master]] = []
    count = sum(len(master.streams) for master in masters)
    if count > MAX_STREAMS:
        raise Fault(f"the tree names {count} streams at IOMMUs, and at most {MAX_STREAMS} are compared; "
                    "take a part of it with --only")
    for master in masters:
        joined = [group for group in found if any(master.shares(other) for other in group)]
        home = joined[0] if joined else []
        for group in joined[1:]:
            home += group
            found.remove(group)
        home.append(master)
        if not joined:
            found.append(home)
    return found


def message_lines(tree: Tree, node: TreeNode) -> list[str]:
    """Where the message-signalled interrupts of a device go, in words."""
    lines = []
    for target, _numbers in references(tree, node, "msi-parent", "#msi-cells"):
        lines.append(f"messages of {node.path} go to {target.path if target else 'a controller that is not there'}")
    for entry in mapped(tree, node, "msi-map"):
        where = entry.target.path if entry.target else "a controller that is not there"
        span = text(entry.first, entry.first + entry.length - 1) if entry.length else f"none from {entry.first:#x}"
        lines.append(f"messages of {node.path}, requesters {span}, go to {where} as devices from {entry.number:#x}")
    return lines
