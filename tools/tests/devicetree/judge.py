"""Computes by plain arithmetic what a processor and a master see, from a blob alone.

This is the judge of the importer, and shares no code with it: it reads the blob over libfdt, and follows ``reg``,
``ranges`` and ``dma-ranges`` address by address, from a device outwards, as Linux does (the first entry that fits).
Which bus has the window of a master is written from the text of Linux (``of_dma_get_range`` and ``__of_get_dma_parent``
in drivers/of/address.c, 6.1), and so is what holds where there is none: the addresses are those of the root
(``of_dma_configure_id`` in drivers/of/device.c with ``force_dma``, as ``platform_dma_configure`` in
drivers/base/platform.c and ``pci_dma_configure`` in drivers/pci/pci-driver.c call it). Each master is an agent. It
knows a node of the description only by the comment after its statement.

For the masters that an IOMMU translates for it computes which these are, and which of them share a table. All come to
nothing, and each table can be granted a page.
"""
import itertools
import re
from collections.abc import Callable, Iterable, Iterator, Sequence

import libfdt

QUIET = (libfdt.NOTFOUND,)
TOP = (1 << 56) - 1
NAMED = re.compile(r"^(agent )?(\S+) is(?: .*?)?\s//@? (/.*)$")
REPLY = re.compile(r"^(\S+)@(0x[0-9a-f]+): (.*)$")
BEHIND = re.compile(r"^agent (\S+) is map \[\s+//@ (/.*)\n    0x0-0xfffffff to (\S+) at 0x0 ", re.M)
UNIT = re.compile(r"^unit (\S+) kind pages page 12 slots 65536 reach (\d+) to (\S+); //@ ", re.M)
PASSING = "requesters that no IOMMU translates for"
STREAMS = re.compile(rb"(?:arm,(?:smmu-v[123]|mmu-(?:400|401|500))|(?:cavium|qcom),smmu-v2|nvidia,smmu-500"
                     rb"|qcom,msm-iommu-v1|riscv,(?:pci-)?iommu)\0")
ONE_TABLE = re.compile(rb"(?:rockchip,(?:rk3568-)?iommu|samsung,exynos-sysmmu|ti,(?:omap[24]|dra7(?:-dsp)?)-iommu"
                       rb"|allwinner,sun50i-h6-iommu|mediatek,mt(?:2701|2712|6779|6795|8167|8173|8183|8192)-m4u"
                       rb"|mediatek,mt(?:8186-iommu-mm|81(?:88|95)-iommu-v(?:do|pp)))\0|renesas,ipmmu-")
LEFT_OUT = re.compile(r"^//- (/\S*): ", re.M)
SIGNS = ("iommus", "iommu-map", "dma-coherent", "dma-noncoherent", "#dma-cells", "memory-region")
NAMES = ("dma", "dma-controller", "ethernet", "gpu", "mmc", "pci", "pcie", "sata", "usb")
INPUTS = 1 << 28
MOST_AGENTS = 64


Span = tuple[int, int]
"""A first address and a last."""

Entry = tuple[str, int, str, int, int]
"""An entry of `ranges`: space and first address inside, space and first address outside, size."""

Row = tuple[int, int, str, int]
"""What is at the root: the first address and the last, the source, and the address there."""

Streams = tuple[int, set[int], bool]
"""An IOMMU, the streams of a master there, and whether the master has accesses that none translates."""

Behind = dict[str, tuple[str, str]]
"""For each master behind a unit its agent and the unit."""

Question = tuple[str, set[str]]
"""A command, and the set of names that are due."""


class Blob:
    """A blob, with its nodes in the order of the tree."""

    def __init__(self, data: bytes) -> None:
        self.fdt = libfdt.FdtRo(data)
        self.parent: dict[int, int | None] = {}
        self.path: dict[int, str] = {}
        self.order: list[int] = []
        self.properties: dict[int, dict[str, bytes]] = {}
        self.found: dict[tuple[int, str], list[Entry]] = {}
        offset, depth = 0, 0
        above: list[int] = []
        while offset >= 0 and depth >= 0:
            above = above[:depth]
            self.parent[offset] = above[-1] if above else None
            name = self.fdt.get_name(offset)
            self.path[offset] = "/" if not above else (self.path[above[-1]] + "/" + name).replace("//", "/")
            self.order.append(offset)
            self.properties[offset] = self._properties(offset)
            above.append(offset)
            offset, depth = self.fdt.next_node(offset, depth, QUIET)
        self.at = {path: offset for offset, path in self.path.items()}
        self.handles = {handle: node for node in reversed(self.order) for name in ("linux,phandle", "phandle")
                        for handle in self.cells(node, name)}

    def _properties(self, node: int) -> dict[str, bytes]:
        """All properties of a node. (To ask libfdt for one that is not there ends the interpreter after some times.)"""
        found, at = {}, self.fdt.first_property_offset(node, QUIET)
        while at >= 0:
            value = self.fdt.get_property_by_offset(at)
            found[value.name] = bytes(value)
            at = self.fdt.next_property_offset(at, QUIET)
        return found

    def bus(self, node: int) -> int:
        """The node above one that is not the root."""
        above = self.parent[node]
        if above is None:
            raise ValueError("the root has no bus")
        return above

    def at_phandle(self, handle: int) -> int | None:
        """The node of a phandle, or None."""
        return self.handles.get(handle)

    def value(self, node: int, name: str) -> bytes | None:
        """The bytes of a property, or None."""
        return self.properties[node].get(name)

    def cells(self, node: int, name: str) -> list[int]:
        """The cells of a property."""
        data = self.value(node, name) or b""
        return [int.from_bytes(data[i:i + 4], "big") for i in range(0, len(data), 4)]

    def enabled(self, node: int | None) -> bool:
        """Whether a node and all above it are enabled."""
        while node is not None:
            if self.value(node, "status") not in (None, b"okay\0", b"ok\0"):
                return False
            node = self.parent[node]
        return True

    def base(self, node: int) -> str:
        """A node's name without its unit address."""
        return self.path[node].rsplit("/", 1)[1].split("@")[0]

    def is_pci(self, bus: int) -> bool:
        """Whether a bus has the three-cell addresses of PCI."""
        return self.cells(bus, "#address-cells") == [3] and (
            self.value(bus, "device_type") in (b"pci\0", b"pciex\0", b"vci\0", b"ht\0") or self.base(bus) == "pcie")

    def address(self, bus: int, cells: list[int]) -> tuple[str, int]:
        """An address of a bus as a pair: the space that it is in, and its number. A third cell is a tag, and the first
        on an MBUS."""
        space = "plain"
        if self.is_pci(bus):
            space, cells = ("config", "io", "memory", "memory")[(cells[0] >> 24) & 3], cells[1:]
        elif len(cells) == 3 or b"-mbus\0" in (self.value(bus, "compatible") or b"") and len(cells) == 2:
            space, cells = f"tag {cells[0]}", cells[1:]
        number = 0
        for cell in cells:
            number = number * 2**32 + cell
        return space, number

    def entries(self, bus: int, name: str) -> list[Entry]:
        """The entries of ``ranges``: space and first address inside, space and first address outside, size."""
        if (bus, name) not in self.found:
            self.found[bus, name] = list(self._entries(bus, name))
        return self.found[bus, name]

    def _entries(self, bus: int, name: str) -> Iterator[Entry]:
        """The entries, read anew."""
        inner = self.cells(bus, "#address-cells")[0]
        outer = self.cells(self.bus(bus), "#address-cells")[0]
        size = self.cells(bus, "#size-cells")[0]
        words = self.cells(bus, name)
        for i in range(0, len(words), inner + outer + size):
            line = words[i:i + inner + outer + size]
            number = 0
            for cell in line[inner + outer:]:
                number = number * 2**32 + cell
            yield (*self.address(bus, line[:inner]),
                   *self.address(self.bus(bus), line[inner:inner + outer]), number)


def outward(blob: Blob, bus: int, name: str, space: str, first: int, last: int) -> list[tuple[int, int, str, int]]:
    """Where the addresses of a bus are outside of it, as ``(first, last, space, first outside)``: first match wins."""
    if not blob.value(bus, name):
        leaves_pci = name == "dma-ranges" and blob.is_pci(bus) and not blob.is_pci(blob.bus(bus))
        return [(first, last, "plain" if leaves_pci else space, first)]
    found, waiting = [], [(first, last)]
    for inside, low, outside, to, size in blob.entries(bus, name):
        rest = []
        for a, b in waiting:
            lo, hi = max(a, low), min(b, low + size - 1)
            if inside != space or lo > hi:
                rest.append((a, b))
                continue
            found.append((lo, hi, outside, to + lo - low))
            rest += [part for part in ((a, lo - 1), (hi + 1, b)) if part[0] <= part[1]]
        waiting = rest
    return found


def at_root(blob: Blob, bus: int, name: str, space: str, first: int, last: int) -> list[tuple[int, int, int]]:
    """Where the addresses of a bus are at the root: ``(first on the bus, first at the root, how many)``."""
    if blob.parent[bus] is None:
        return [(first, first, last - first + 1)]
    found = []
    outer = dma_parent(blob, bus) if name == "dma-ranges" else blob.bus(bus)
    for low, high, outside, to in outward(blob, bus, name, space, first, last):
        for start, root, count in at_root(blob, outer, name, outside, to, to + high - low):
            found.append((low + start - to, root, count))
    return found


def mapped(blob: Blob, node: int) -> bool:
    """Whether a node is a bus that is reached from the root by ``ranges`` alone."""
    above = blob.parent[node]
    while above is not None:
        if blob.value(node, "ranges") is None or blob.path[node] == "/reserved-memory":
            return False
        node, above = above, blob.parent[above]
    return True


def seen(blob: Blob, memory: Sequence[Span] = ()) -> list[Row]:
    """What is at the root: ``(first, last, source, address there)``, the source as comments name it.

    ``memory`` are spans of memory that are given in place of those of the tree."""
    found = [(first, last, f"/memory@{first:x} of --memory", 0) for first, last in memory]
    for node in blob.order:
        bus = blob.parent[node]
        if bus is None or not blob.enabled(node) or not mapped(blob, bus):
            continue
        if blob.cells(bus, "#size-cells") == [0]:
            continue
        if memory and blob.parent[bus] is None and is_memory(blob, node):
            continue
        name = "assigned-addresses" if blob.is_pci(bus) else "reg"
        for index, (space, first, size) in enumerate(registers(blob, node, bus, name)):
            for start, root, count in at_root(blob, bus, "ranges", space, first, first + size - 1) if size else ():
                if root <= TOP:
                    found.append((root, min(root + count - 1, TOP), f"{blob.path[node]} {name} {index}", start - first))
    return found + windows(blob, found)


def registers(blob: Blob, node: int, bus: int, name: str) -> Iterator[tuple[str, int, int]]:
    """The windows of a device, of which ``name`` is the property: space, first address, size.

    Linux takes ``assigned-addresses`` on a PCI bus and ``reg`` on others (``of_busses`` in drivers/of/address.c)."""
    if blob.value(node, name) is None:
        return
    width, sizes = blob.cells(bus, "#address-cells")[0], blob.cells(bus, "#size-cells")[0]
    words = blob.cells(node, name)
    for i in range(0, len(words), width + sizes):
        yield (*blob.address(bus, words[i:i + width]),
               int("0" + "".join(f"{cell:08x}" for cell in words[i + width:i + width + sizes]), 16))


def windows(blob: Blob, devices: list[Row]) -> list[Row]:
    """The windows of the PCI host bridges, where no device of the tree is in them."""
    found = []
    for node in blob.order:
        bus = blob.parent[node]
        if bus is None or not blob.is_pci(node) or blob.is_pci(bus) or not blob.value(node, "ranges"):
            continue
        if not blob.enabled(node) or not mapped(blob, node):
            continue
        under = [(a, b) for a, b, source, _at in devices if source.startswith(blob.path[node] + "/")]
        for space, low, _outside, _to, size in blob.entries(node, "ranges"):
            for start, root, count in at_root(blob, node, "ranges", space, low, low + size - 1) if size else ():
                for a, b in minus(root, min(root + count - 1, TOP), under):
                    row = (a, b, f"{blob.path[node]} {space} windows", start + a - root)
                    if row not in found:
                        found.append(row)
    return found


def minus(first: int, last: int, taken: Iterable[Span]) -> Iterator[Span]:
    """The parts of a span that are in none of the others."""
    for a, b in sorted(taken):
        if a > last or b < first:
            continue
        if first < a:
            yield first, a - 1
        first = b + 1
    if first <= last:
        yield first, last


def has_memory(data: bytes) -> bool:
    """Whether a blob has memory of any size."""
    blob = Blob(data)
    return any(size for node in blob.order[1:] if blob.parent[node] == blob.order[0] and blob.enabled(node)
               and is_memory(blob, node) for _space, _first, size in registers(blob, node, blob.order[0], "reg"))


def is_memory(blob: Blob, node: int) -> bool:
    """Whether a node is one of the memory."""
    return blob.value(node, "device_type") == b"memory\0" or blob.base(node) == "memory"


def statements(description: str) -> tuple[dict[str, str], dict[str, str]]:
    """The names of the description by what their comments say, and the agents: name to path."""
    names, agents = {}, {}
    for line in description.splitlines():
        hit = NAMED.match(line)
        if hit and hit.group(1):
            agents[hit.group(2)] = hit.group(3)
        elif hit:
            names[hit.group(3)] = hit.group(2)
    return names, agents


def expected(rows: list[Row], names: dict[str, str], address: int) -> set[str]:
    """The names to which an address of the root comes, as `resolve` writes them."""
    return {f"{names.get(source, source)}@{start + address - first:#x}"
            for first, last, source, start in rows if first <= address <= last}


def edges(spans: Iterable[Span]) -> list[int]:
    """The first and last addresses of spans, and those just outside."""
    near = {place for first, last in spans for place in (first - 1, first, last, last + 1)}
    return sorted(place for place in near if 0 <= place <= TOP)


def dma_parent(blob: Blob, node: int) -> int:
    """The bus over which the accesses of a node go, as `__of_get_dma_parent` finds it."""
    names = (blob.value(node, "interconnect-names") or b"").split(b"\0")
    if b"dma-mem" in names:
        words, at = blob.cells(node, "interconnects"), 0
        for _skipped in range(names.index(b"dma-mem")):
            target = blob.at_phandle(words[at]) if at < len(words) else None
            at += 1 + ((blob.cells(target, "#interconnect-cells") or [0])[0] if target is not None else 0)
        target = blob.at_phandle(words[at]) if at < len(words) else None
        if target is not None:
            return target
    return blob.bus(node)


def window_bus(blob: Blob, master: int) -> int | None:
    """The bus whose `dma-ranges` Linux takes for a master; the root where all are 1:1; or None where there is no
    window.

    `of_dma_get_range`, begun at a host bridge for what is behind it, and else at the bus of the device. Where no bus
    has more than an empty `dma-ranges`, Linux has no window, and the addresses are those of the root."""
    node, found, one_to_one = master if blob.is_pci(master) else dma_parent(blob, master), False, False
    while True:
        ranges = blob.value(node, "dma-ranges")
        if ranges:
            return node
        if found and ranges is None:
            return node if one_to_one and blob.parent[node] is None else None
        one_to_one = one_to_one or ranges is not None
        if blob.parent[node] is None:
            return None
        found, node = True, dma_parent(blob, node)


def is_master(blob: Blob, node: int) -> bool:
    """Whether a node is an enabled one that accesses memory by itself, by the signs of the manual page."""
    if blob.parent[node] is None or not blob.enabled(node):
        return False
    if blob.is_pci(node):
        return not blob.is_pci(blob.bus(node))
    properties = blob.properties[node]
    named = blob.base(node) in NAMES and blob.cells(blob.bus(node), "#size-cells") != [0]
    named = named and "ranges" not in properties and "compatible" in properties and "reg" in properties
    return named or any(sign in properties for sign in SIGNS)


def masters_in(note: str) -> list[str]:
    """The paths of the masters that an agent is, by the note on it."""
    return [part.removeprefix("with ") for part in note.split(", ") if part.startswith(("/", "with /"))]


def wrong_masters(blob: Blob, agents: dict[str, str], left_out: set[str]) -> Iterator[str]:
    """What is wrong with who is an agent of its own accesses, and who is left out."""
    shown = {path for note in agents.values() for path in masters_in(note)}
    for node in blob.order:
        path = blob.path[node]
        if not is_master(blob, node) or blob.is_pci(dma_parent(blob, node)):
            continue
        if (path in shown) == (path in left_out):
            yield f"{path} has {'both an agent and a line' if path in shown else 'no agent and no line'}"
        elif path in left_out and len(agents) < MOST_AGENTS:
            yield f"{path} is left out"


def master_questions(blob: Blob, node: int) -> Iterator[tuple[int, int | None]]:
    """Addresses of a master and where each is at the root, or None where it is nowhere."""
    bus = window_bus(blob, node)
    bus = blob.order[0] if bus is None else bus
    space = "memory" if blob.is_pci(bus) else "plain"
    spans = [(0, TOP)]
    if blob.parent[bus] is not None:
        spans = [(low, low + size - 1) for _in, low, _out, _to, size in blob.entries(bus, "dma-ranges") if size]
    asked = set(edges(spans)) | {(first + last) // 2 for first, last in spans} | {0x80000000, 0x1000}
    for address in sorted(asked):
        found = at_root(blob, bus, "dma-ranges", space, address, address)
        yield address, found[0][1] if found and found[0][1] <= TOP else None


def named(blob: Blob, node: int) -> Iterator[tuple[int | None, Sequence[int]]]:
    """The IOMMUs that a node names, each with the streams there: of a device by their numbers, of a bus by
    requester."""
    words, at = blob.cells(node, "iommus"), 0
    while at < len(words):
        iommu = blob.at_phandle(words[at])
        count = blob.cells(iommu, "#iommu-cells")[0] if iommu is not None else len(words)
        yield iommu, words[at + 1:at + 1 + count]
        at += 1 + count
    words = blob.cells(node, "iommu-map")
    for at in range(0, len(words), 4):
        for requester in range(words[at], words[at] + words[at + 3]):
            yield blob.at_phandle(words[at + 1]), (words[at + 2] + requester - words[at],)


def streams_of(blob: Blob, node: int) -> Streams | None:
    """The IOMMU that translates for a master, the set of its streams there, and whether it has other accesses that none
    translates, where a unit is due; or None."""
    found = list(named(blob, node))
    iommu = found[0][0] if len({iommu for iommu, _numbers in found}) == 1 else None
    if iommu is None:
        return None
    compatible = blob.value(iommu, "compatible") or b""
    if not blob.enabled(iommu) or not STREAMS.search(compatible) and not ONE_TABLE.search(compatible):
        return None
    words, passing = blob.cells(node, "iommu-map"), False
    if words:
        mask = (blob.cells(node, "iommu-map-mask") or [0xffff])[0]
        in_map = {number for at in range(0, len(words), 4) for number in range(words[at], words[at] + words[at + 3])}
        passing = bool({number & mask for number in range(0x10000)} - in_map)
        if blob.value(node, "iommus"):
            return None
    bus = node if blob.is_pci(node) else dma_parent(blob, node)
    space = "memory" if blob.is_pci(bus) else "plain"
    passed = at_root(blob, bus, "dma-ranges", space, 0, INPUTS - 1)
    if any(first != root for first, root, _count in passed) or sum(count for *_ends, count in passed) != INPUTS:
        return None
    if ONE_TABLE.search(compatible):
        return iommu, {0}, passing
    streams = set()
    for _iommu, numbers in found:
        mask = numbers[1] if len(numbers) > 1 else (blob.cells(iommu, "stream-match-mask") or [0])[0]
        bits = [1 << bit for bit in range(32) if mask >> bit & 1]
        streams |= {(numbers[0] & ~mask) + sum(part) for count in range(len(bits) + 1)
                    for part in itertools.combinations(bits, count)}
    return iommu, streams, passing


def wrong_units(blob: Blob, agents: dict[str, str], behind: Behind) -> Iterator[str]:
    """What is wrong with who is behind a unit, and who shares one."""
    due = {}
    for node in blob.order:
        streams = streams_of(blob, node) if blob.enabled(node) and blob.parent[node] is not None \
            and not blob.is_pci(blob.bus(node)) else None
        if streams:
            due[blob.path[node]] = streams
    unsaid = set(due) - set(behind)
    if set(behind) - set(due) or unsaid and len(agents) + len(unsaid) <= MOST_AGENTS:
        yield f"behind units are {sorted(behind)}, and {sorted(due)} are due"
        return
    shown = {path for note in agents.values() if PASSING in note.split(", ") for path in masters_in(note)}
    if shown != {path for path in behind if due[path][2]}:
        yield f"some accesses of {sorted(shown)} pass by"
    found = {path: {path} for path in behind}
    for one, two in itertools.combinations(behind, 2):
        if due[one][0] == due[two][0] and due[one][1] & due[two][1]:
            joined = found[one] | found[two]
            for path in joined:
                found[path] = joined
    for one, two in itertools.combinations(behind, 2):
        if (behind[one][1] == behind[two][1]) != (two in found[one]):
            yield f"{one} and {two} are behind {behind[one][1]} and {behind[two][1]}"


def pages(rows: list[Row], names: dict[str, str]) -> Iterator[tuple[str, int]]:
    """A page of the root that one thing alone answers: its node, and the address there."""
    for first, last, source, start in sorted(rows):
        end = first + 0xfff
        if first % 0x1000 == 0 and end <= last and first < 1 << 39 and source in names \
                and sum(low <= end and first <= high for low, high, _source, _start in rows) == 1:
            yield names[source], start


def unit_questions(rows: list[Row], names: dict[str, str], behind: Behind) -> Iterator[Question]:
    """Questions to the agents that are behind units: nothing at first, and then a page that is granted and taken
    back."""
    for number, (agent, _unit) in enumerate(dict.fromkeys(behind.values())):
        for address in (0, 0xfffffff, 0x10000000, 0x80000000):
            yield f"resolve {agent} {address:#x};", set()
        for node, start in list(pages(rows, names))[:1]:
            yield f"grant g{number} {agent} {node} {start:#x} 0x1000;", {f"g{number} at 0x0"}
            yield f"resolve {agent} 0x10;", {f"{node}@{start + 0x10:#x}"}
            yield f"revoke g{number};", {f"g{number} revoked"}


def questions(blob: Blob, description: str, behind: Behind, memory: Sequence[Span]) -> Iterator[Question]:
    """The questions to `netconf` over a description: ``(command, set of names that are due)``."""
    names, agents = statements(description)
    rows = seen(blob, memory)
    processors = [name for name, path in agents.items() if path.startswith("/cpus/")]
    spans = [(first, last) for first, last, _source, _start in rows]
    if processors:
        for address in edges(spans):
            yield f"resolve {processors[0]} {address:#x};", expected(rows, names, address)
    yield from unit_questions(rows, names, behind)
    translated = {agent for agent, _unit in behind.values()}
    for name, path in agents.items():
        if not path.startswith("/cpus/") and name not in translated:
            node = blob.at[masters_in(path)[0]]
            for address, root in master_questions(blob, node):
                due = expected(rows, names, root) if root is not None else set()
                yield f"resolve {name} {address:#x};", due


def answers(output: str) -> Iterator[set[str]]:
    """The sets of names in what `netconf run` printed, in order."""
    for line in output.splitlines():
        hit = REPLY.match(line)
        yield set(hit.group(3).split(", ")) - {"nothing"} if hit else {line}


def wrong(data: bytes, description: str, run: Callable[[str], str], memory: Sequence[Span] = ()) -> list[str]:
    """What is wrong with a description of a blob: lines, none where all is right. ``run`` gives the program's output,
    and ``memory`` are the spans that were given as the memory."""
    blob, shapes = Blob(data), {name: reach for name, reach, _port in UNIT.findall(description)}
    behind = {path: (agent, unit) for agent, note, unit in BEHIND.findall(description) if unit in shapes
              for path in masters_in(note)}
    agents = statements(description)[1]
    lines = list(wrong_units(blob, agents, behind))
    lines += wrong_masters(blob, agents, set(LEFT_OUT.findall(description)))
    if lines or len(shapes) != len({unit for _agent, unit in behind.values()}):
        return lines or [f"units are {sorted(shapes)}"]
    asked = list(questions(blob, description, behind, memory))
    output = run(description + "\nbegin;\n" + "\n".join(command for command, _due in asked) + "\n")
    found = list(answers(output))
    if len(found) != len(asked):
        return [f"{len(asked)} questions, {len(found)} answers: {output[:200]}"]
    return [f"{command} is {sorted(answer)}, and {sorted(due)} is due"
            for (command, due), answer in zip(asked, found) if answer != due]
