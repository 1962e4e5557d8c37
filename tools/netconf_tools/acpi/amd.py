"""IVRS: the IOMMUs of AMD, by the specification of AMD I/O virtualization technology 3.08, chapter 5."""
from collections.abc import Iterator

from netconf_tools.acpi.fields import number
from netconf_tools.acpi.translation import (LAST, SEGMENT, Mapping, ReservedMemory, Translator, Translators,
                                            function_text)
from netconf_tools.devicetree.fault import Fault

HARDWARE = {0x10: 24, 0x11: 40, 0x40: 40}
"""The blocks that define an IOMMU, each with the byte at which its devices begin."""
MEMORY_ALL, MEMORY_ONE, MEMORY_RANGE = 0x20, 0x21, 0x22
ALL, SELECT, START, END = 1, 2, 3, 4
ALIAS_SELECT, ALIAS_START, EXTENDED_SELECT, EXTENDED_START, SPECIAL, NAMED = 0x42, 0x43, 0x46, 0x47, 0x48, 0xf0
REGISTER_BYTES = 0x4000
BITS = 52
"""How many bits an address in an entry of a table has."""


def translators_of(ivrs: bytes) -> Translators:
    """The IOMMUs of an IVRS. Of the blocks on one IOMMU the one of the highest type counts, as in Linux."""
    found = Translators()
    best: dict[int, tuple[int, bytes]] = {}
    for kind, data in _blocks(ivrs):
        if kind in HARDWARE:
            where = number(data, 16, 2) << SEGMENT | number(data, 4, 2)
            if where not in best or best[where][0] < kind:
                best[where] = kind, data
        elif kind in (MEMORY_ALL, MEMORY_ONE, MEMORY_RANGE):
            _add_reserved(found, kind, data)
    for kind, data in best.values():
        unit = Translator(f"amd_{len(found.units)}", number(data, 8, 8), REGISTER_BYTES, BITS)
        _add_devices(unit, data, HARDWARE[kind], number(data, 16, 2))
        found.notes += _other_devices(data, HARDWARE[kind])
        found.units.append(unit)
    return found


def _blocks(ivrs: bytes) -> Iterator[tuple[int, bytes]]:
    """The blocks of an IVRS: a type of one byte, flags, and a length of two."""
    at = 48
    while at < len(ivrs):
        kind, length = number(ivrs, at, 1), number(ivrs, at + 2, 2)
        if length < HARDWARE.get(kind, 4) or at + length > len(ivrs):
            raise Fault(f"a block at byte {at} has length {length}, and {len(ivrs) - at} bytes are left")
        yield kind, ivrs[at:at + length]
        at += length


def _add_reserved(found: Translators, kind: int, data: bytes) -> None:
    """Adds the memory of an IVMD."""
    first, size = number(data, 16, 8), number(data, 24, 8)
    device, last = number(data, 4, 2), number(data, 6, 2)
    who = {MEMORY_ALL: "all functions", MEMORY_ONE: function_text(device),
           MEMORY_RANGE: f"{function_text(device)} to {function_text(last)}"}[kind]
    if size:
        found.reserved.append(ReservedMemory((first, first + size - 1), who, "IVMD"))


def _add_devices(unit: Translator, data: bytes, at: int, segment: int) -> None:
    """Adds the devices of a block to its IOMMU. A range is two entries, its start and its end."""
    start: tuple[int, int | None] | None = None
    for kind, entry in _entries(data, at):
        device = segment << SEGMENT | number(entry, 1, 2)
        source = segment << SEGMENT | number(entry, 5, 2) if kind in (ALIAS_SELECT, ALIAS_START) else None
        if kind == ALL:
            unit.mappings.append(Mapping(segment << SEGMENT, segment << SEGMENT | LAST, 0))
        elif kind in (SELECT, EXTENDED_SELECT, ALIAS_SELECT):
            _add_range(unit, device, device, source)
        elif kind in (START, EXTENDED_START, ALIAS_START):
            start = device, source
        elif kind == END and start:
            _add_range(unit, start[0], device, start[1])
            start = None


def _other_devices(data: bytes, at: int) -> Iterator[str]:
    """A note on each device of a block that is no function of PCI: an interrupt controller or a timer by its number,
    and a device by the name that it has in ACPI."""
    for kind, entry in _entries(data, at):
        if kind == SPECIAL:
            what = {1: "the I/O APIC", 2: "the timer HPET"}.get(entry[7], "a device")
            yield f"IVRS: {what} {entry[4]}, which sends as {function_text(number(entry, 5, 2))}: it is not an agent"
        elif kind == NAMED:
            name = entry[4:12].rstrip(b"\0").decode("ascii", "replace")
            yield f"IVRS: the device {name}, which sends as {function_text(number(entry, 1, 2))}: it is not an agent"


def _add_range(unit: Translator, first: int, last: int, source: int | None) -> None:
    """Adds a range of requesters; ``source`` is the one whose number their accesses come with, if it is another."""
    if first > last:
        raise Fault(f"a range of devices from {first:#x} to {last:#x}")
    unit.mappings.append(Mapping(first, last, first & LAST))
    if source is not None:
        unit.mappings.append(Mapping(source, source, source & LAST))
        unit.shared.append((first, last, source))


def _entries(data: bytes, at: int) -> Iterator[tuple[int, bytes]]:
    """The entries of a block: types below 0x40 have 4 bytes, those below 0x80 have 8, and 0xf0 has a length of its
    own."""
    while at < len(data):
        kind = data[at]
        size = 4 if kind < 0x40 else 8 if kind < 0x80 else 22 + number(data, at + 21, 1) if kind == NAMED else 0
        if not size or at + size > len(data):
            raise Fault(f"an entry of the type {kind:#x} at byte {at} of a block of {len(data)}")
        yield kind, data[at:at + size]
        at += size
