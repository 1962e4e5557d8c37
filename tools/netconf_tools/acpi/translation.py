"""What the tables of IOMMUs have in common: which requesters of PCI each translates, and the memory that is reserved.

A requester is a function of PCI by its segment, bus, device and function, as one number: the segment from bit 16 on."""
from dataclasses import dataclass, field
from typing import NamedTuple

from netconf_tools.devicetree.spans import Span

SEGMENT = 16
"""The first bit of the segment in a requester."""
LAST = 0xffff
"""The last requester of a segment, without the segment."""


class Mapping(NamedTuple):
    """Some requesters that an IOMMU translates: the first and the last, and the stream of the first."""

    first: int
    last: int
    stream: int


class ReservedMemory(NamedTuple):
    """Memory that some requesters have to see at its own addresses: its span, who, and in which table that stands."""

    span: Span
    who: str
    table: str


@dataclass
class Translator:
    """An IOMMU: its name, its registers, how many bits an address has that it puts out, and what it translates.

    ``rest`` are segments of which it translates all functions that no other one does. ``shared`` has requesters, from a
    first to a last, whose accesses come with the number of another one: the IOMMU cannot tell the two apart.
    ``has_streams`` says that the IOMMU knows its requesters by other numbers than their own."""

    name: str
    first: int
    size: int
    bits: int
    mappings: list[Mapping] = field(default_factory=list)
    rest: list[int] = field(default_factory=list)
    shared: list[tuple[int, int, int]] = field(default_factory=list)
    translates_messages: bool = False
    has_streams: bool = False

    def stream_of(self, requester: int) -> int | None:
        """The number by which the IOMMU knows a requester, or None where it does not translate it by name."""
        requester = next((source for first, last, source in self.shared if first <= requester <= last), requester)
        for mapping in self.mappings:
            if mapping.first <= requester <= mapping.last:
                return mapping.stream + requester - mapping.first
        return None


@dataclass
class Translators:
    """The IOMMUs of a machine, the memory that is reserved for requesters, and what of the tables is left out."""

    units: list[Translator] = field(default_factory=list)
    reserved: list[ReservedMemory] = field(default_factory=list)
    notes: list[str] = field(default_factory=list)

    def of(self, requester: int) -> tuple[Translator, int] | None:
        """The IOMMU that translates a requester, and the requester's number there; or None where none does."""
        for unit in self.units:
            stream = unit.stream_of(requester)
            if stream is not None:
                return unit, stream
        for unit in self.units:
            if requester >> SEGMENT in unit.rest:
                return unit, requester & LAST
        return None


def function_text(requester: int) -> str:
    """A requester as the part of a note: ``pci 0:3.0``, with its segment after it where that is not 0."""
    segment, low = requester >> SEGMENT, requester & LAST
    return f"pci {low >> 8:x}:{low >> 3 & 31:x}.{low & 7}" + (f", segment {segment:x}" if segment else "")


def function_name(requester: int) -> str:
    """A requester as a name, as ``pci_0_3_0``; with its segment before the bus where that is not 0."""
    segment, low = requester >> SEGMENT, requester & LAST
    return f"pci_{f'{segment:x}_' if segment else ''}{low >> 8:x}_{low >> 3 & 31:x}_{low & 7}"
