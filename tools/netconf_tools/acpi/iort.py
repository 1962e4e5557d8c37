"""IORT: which requesters become which streams of which SMMU, by Arm's I/O remapping table, DEN 0049 E.d."""
from collections.abc import Iterator
from typing import NamedTuple

from netconf_tools.acpi.fields import number
from netconf_tools.acpi.translation import SEGMENT, Mapping, ReservedMemory, Translator, Translators
from netconf_tools.devicetree.fault import Fault
from netconf_tools.devicetree.spans import text

NAMED_COMPONENT, ROOT_COMPLEX, SMMU, SMMU_V3, RESERVED = 1, 2, 3, 4, 6
SMMU_V3_BYTES = 0x20000
"""How many bytes the registers of an SMMUv3 have."""
BITS, OLD_BITS = 48, 40
"""How many bits an address that is put out has: of an SMMUv2 or SMMUv3, and of an SMMUv1."""
SINGLE = 1
MOST_NODES = 4096


class Mapped(NamedTuple):
    """An entry of a node's mappings: the first number, the last, the first number there, the node there, its flags."""

    first: int
    last: int
    output: int
    target: int
    flags: int


def translators_of(iort: bytes) -> Translators:
    """The SMMUs of an IORT, with the requesters of root complexes that each translates."""
    found = Translators()
    units: dict[int, Translator] = {}
    nodes = dict(_nodes(iort))
    for at, node in nodes.items():
        if node[0] in (SMMU, SMMU_V3):
            units[at] = _unit(node, len(units))
    for at, node in nodes.items():
        if node[0] == ROOT_COMPLEX:
            _add_requesters(found, units, node)
        elif node[0] == NAMED_COMPONENT:
            _note_component(found, units, node)
        elif node[0] == RESERVED:
            _add_reserved(found, node)
    found.units = list(units.values())
    return found


def _nodes(iort: bytes) -> Iterator[tuple[int, bytes]]:
    """The nodes of an IORT: the place of each in the table, and its bytes."""
    count, at = number(iort, 36, 4), number(iort, 40, 4)
    if count > MOST_NODES:
        raise Fault(f"{count} nodes, and at most {MOST_NODES} are read")
    for _node in range(count):
        length = number(iort, at + 1, 2)
        if length < 16 or at + length > len(iort):
            raise Fault(f"a node at byte {at} has length {length}, and {len(iort) - at} bytes are left")
        yield at, iort[at:at + length]
        at += length


def _mappings(node: bytes) -> Iterator[Mapped]:
    """The mappings of a node."""
    count, at = number(node, 8, 4), number(node, 12, 4)
    if count * 20 + at > len(node):
        raise Fault(f"{count} mappings from byte {at} of a node of {len(node)}")
    for place in range(at, at + 20 * count, 20):
        first, more, output, target, flags = (number(node, place + 4 * part, 4) for part in range(5))
        yield Mapped(first, first + more, output, target, flags)


def _unit(node: bytes, count: int) -> Translator:
    """The SMMU that a node is."""
    if node[0] == SMMU_V3:
        size, bits = SMMU_V3_BYTES, BITS
    else:
        size, bits = number(node, 24, 8), BITS if number(node, 32, 4) in (1, 3, 5) else OLD_BITS
    return Translator(f"smmu_{count}", number(node, 16, 8), size, bits, translates_messages=True, has_streams=True)


def _add_requesters(found: Translators, units: dict[int, Translator], node: bytes) -> None:
    """Adds the requesters of a root complex to the SMMUs that they come to; others go by no SMMU."""
    segment = number(node, 28, 4)
    for mapping in _mappings(node):
        if mapping.target in units and not mapping.flags & SINGLE:
            first, last = (segment << SEGMENT | min(place, 0xffff) for place in (mapping.first, mapping.last))
            units[mapping.target].mappings.append(Mapping(first, last, mapping.output))
    limit = number(node, 32, 1) if len(node) > 32 else 0
    if 0 < limit < 64:
        found.notes.append(f"segment {segment:x}: its functions put out addresses of {limit} bits")


def _note_component(found: Translators, units: dict[int, Translator], node: bytes) -> None:
    """Notes a device of ACPI with streams: where its registers are stands in no table that is read."""
    name = node[29:].split(b"\0")[0].decode("latin-1")
    streams = [f"stream {mapping.output:#x} of {units[mapping.target].name}" for mapping in _mappings(node)
               if mapping.target in units]
    found.notes.append(f"the device {name} of ACPI accesses memory and is not an agent: "
                       f"{', '.join(streams) or 'no SMMU'}")


def _add_reserved(found: Translators, node: bytes) -> None:
    """Adds the memory of an RMR."""
    count, at = number(node, 20, 4), number(node, 24, 4)
    who = ", ".join(f"stream {mapping.output:#x}" if mapping.first == mapping.last else
                    f"streams {text(mapping.output, mapping.output + mapping.last - mapping.first)}"
                    for mapping in _mappings(node)) or "no stream"
    for place in range(at, at + 20 * min(count, len(node) // 20), 20):
        first, size = number(node, place, 8), number(node, place + 8, 8)
        if size:
            found.reserved.append(ReservedMemory((first, first + size - 1), who, "RMR"))
