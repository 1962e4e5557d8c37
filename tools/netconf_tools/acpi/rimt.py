"""RIMT: which requesters become which devices of which IOMMU of RISC-V, by the RISC-V I/O mapping table, 0.99."""
from collections.abc import Iterator
from typing import NamedTuple

from netconf_tools.acpi.fields import number
from netconf_tools.acpi.translation import LAST, SEGMENT, Mapping, Translator, Translators, function_text
from netconf_tools.devicetree.fault import Fault
from netconf_tools.devicetree.spans import Taken, text

IOMMU, ROOT_COMPLEX, PLATFORM_DEVICE = 0, 1, 2
IS_FUNCTION = 1
"""The flag of an IOMMU that is itself a function of PCI: its registers are where a base address register puts them."""
REGISTER_BYTES = 0x1000
"""How many bytes the registers of an IOMMU have."""
BITS = 56
"""How many bits an address that is put out has: 44 of a page, and 12 in it."""
MOST_NODES = 4096
MAPPING_BYTES = 20


class Mapped(NamedTuple):
    """An entry of a node's mappings: the first number, the last, the first number there, and the node there by its
    place."""

    first: int
    last: int
    output: int
    target: int


def translators_of(rimt: bytes) -> Translators:
    """The IOMMUs of a RIMT, with the requesters of root complexes that each translates."""
    found = Translators()
    units: dict[int, Translator] = {}
    nodes = dict(_nodes(rimt))
    for at, node in nodes.items():
        if node[0] == IOMMU:
            units[at] = _unit(found, node, len(units))
    for node in nodes.values():
        if node[0] == ROOT_COMPLEX:
            _add_requesters(found, units, node)
        elif node[0] == PLATFORM_DEVICE:
            _note_device(found, units, node)
        elif node[0] != IOMMU:
            found.notes.append(f"RIMT: a node of the type {node[0]}, which is not known")
    found.units = list(units.values())
    return found


def _nodes(rimt: bytes) -> Iterator[tuple[int, bytes]]:
    """The nodes of a RIMT: the place of each in the table, and its bytes."""
    count, at = number(rimt, 36, 4), number(rimt, 40, 4)
    if count > MOST_NODES:
        raise Fault(f"{count} nodes, and at most {MOST_NODES} are read")
    for _node in range(count):
        length = number(rimt, at + 2, 2)
        if length < 12 or at + length > len(rimt):
            raise Fault(f"a node at byte {at} has length {length}, and {len(rimt) - at} bytes are left")
        yield at, rimt[at:at + length]
        at += length


def _unit(found: Translators, node: bytes, count: int) -> Translator:
    """The IOMMU that a node is. Where it is a function of PCI, it has no registers at a place that the table knows."""
    name = f"riscv_{count}"
    if number(node, 24, 4) & IS_FUNCTION:
        function = function_text(number(node, 32, 2) << SEGMENT | number(node, 34, 2))
        found.notes.append(f"{name} is the function {function}: where its registers are stands in no table")
        return Translator(name, 0, 0, BITS, has_streams=True)
    return Translator(name, number(node, 16, 8), REGISTER_BYTES, BITS, has_streams=True)


def _mappings(node: bytes, at: int, count: int) -> Iterator[Mapped]:
    """The mappings of a node from a place in it on. The number of a mapping's ids is one less than there are, as
    Linux reads it (``rimt_id_map`` in drivers/acpi/riscv/rimt.c)."""
    if at + count * MAPPING_BYTES > len(node):
        raise Fault(f"{count} mappings from byte {at} of a node of {len(node)}")
    for place in range(at, at + count * MAPPING_BYTES, MAPPING_BYTES):
        first, more, output, target = (number(node, place + 4 * part, 4) for part in range(4))
        yield Mapped(first, first + more, output, target)


def _add_requesters(found: Translators, units: dict[int, Translator], node: bytes) -> None:
    """Adds the requesters of a root complex to the IOMMUs that they come to. Of several mappings of one requester the
    first counts, as in Linux; those of none go by no IOMMU."""
    segment, taken = number(node, 14, 2), Taken()
    for mapped in _mappings(node, number(node, 16, 2), number(node, 18, 2)):
        last = min(mapped.last, LAST)
        if mapped.target not in units:
            found.notes.append(f"RIMT: no IOMMU stands at byte {mapped.target}, to which requesters "
                               f"{text(mapped.first, mapped.last)} of segment {segment:x} go")
        elif mapped.first <= last:
            for low, high in taken.take(mapped.first, last):
                units[mapped.target].mappings.append(Mapping(segment << SEGMENT | low, segment << SEGMENT | high,
                                                             mapped.output + low - mapped.first))


def _note_device(found: Translators, units: dict[int, Translator], node: bytes) -> None:
    """Notes a device of ACPI with device ids: where its registers are stands in no table that is read."""
    name = node[12:].split(b"\0")[0].decode("latin-1")
    streams = [f"stream {mapped.output:#x} of {units[mapped.target].name}"
               for mapped in _mappings(node, number(node, 8, 2), number(node, 10, 2)) if mapped.target in units]
    found.notes.append(f"the device {name} of ACPI accesses memory and is not an agent: "
                       f"{', '.join(streams) or 'no IOMMU'}")
