"""What stands in MADT, SRAT and MCFG: processors, interrupt controllers, memory, and the configuration addresses of
PCI.

The layouts are those of the ACPI specification 6.5 (5.2.12 and 5.2.16) and of the PCI firmware specification 3.3
(4.1.2).
"""
from dataclasses import dataclass, field
from typing import NamedTuple

from netconf_tools.acpi.fields import number, records
from netconf_tools.devicetree.spans import Span

LOCAL_APIC, IO_APIC, X2_APIC, GICC, GICD, GIC_FRAME, GICR, GIC_ITS, RINTC = 0, 1, 9, 11, 12, 13, 14, 15, 24
PAGE = 0x1000
ENABLED, ONLINE_CAPABLE, GICC_ONLINE_CAPABLE = 1, 2, 8
MEMORY_AFFINITY = 1


class Registers(NamedTuple):
    """Registers of a part of the machine: its name, its first address, and how many bytes there are."""

    name: str
    first: int
    size: int


@dataclass
class Controllers:
    """What a MADT has: the numbers of processors, the registers of controllers, and the doorbells of messages, each the
    first address of a page."""

    processors: list[int] = field(default_factory=list)
    registers: list[Registers] = field(default_factory=list)
    doorbells: list[int] = field(default_factory=list)


def controllers_of(madt: bytes) -> Controllers:
    """The processors and interrupt controllers of a MADT. A processor counts where it is enabled or can be started."""
    found = Controllers()
    local = number(madt, 36, 4)
    for kind, data in records(madt, 44, 1):
        if kind == LOCAL_APIC and number(data, 4, 4) & (ENABLED | ONLINE_CAPABLE):
            found.processors.append(number(data, 3, 1))
        elif kind == X2_APIC and number(data, 8, 4) & (ENABLED | ONLINE_CAPABLE):
            found.processors.append(number(data, 4, 4))
        elif kind == GICC and number(data, 12, 4) & (ENABLED | GICC_ONLINE_CAPABLE):
            found.processors.append(number(data, 8, 4))
        elif kind == RINTC and number(data, 4, 4) & (ENABLED | ONLINE_CAPABLE):
            found.processors.append(number(data, 8, 8))
        _add_registers(found, kind, data)
        if kind in (LOCAL_APIC, X2_APIC) and local and not any(one.name == "local_apic" for one in found.registers):
            found.registers.append(Registers("local_apic", local, PAGE))
    return found


def _add_registers(found: Controllers, kind: int, data: bytes) -> None:
    """Adds the registers that a record of a MADT has."""
    if kind == IO_APIC:
        found.registers.append(Registers("io_apic", number(data, 4, 4), PAGE))
    elif kind == GICD:
        version = number(data, 20, 1)
        found.registers.append(Registers("gic_distributor", number(data, 8, 8), 0x10000 if version >= 3 else PAGE))
    elif kind == GIC_FRAME:
        found.registers.append(Registers("gic_msi_frame", number(data, 8, 8), PAGE))
        found.doorbells.append(number(data, 8, 8))
    elif kind == GICR:
        found.registers.append(Registers("gic_redistributors", number(data, 4, 8), number(data, 12, 4)))
    elif kind == GIC_ITS:
        found.registers.append(Registers("gic_its", number(data, 8, 8), 0x20000))
        found.doorbells.append(number(data, 8, 8) + 0x10000)


def memory_of(srat: bytes) -> list[Span]:
    """The memory of a SRAT that is there at the start, in order."""
    found = []
    for kind, data in records(srat, 48, 1):
        if kind == MEMORY_AFFINITY and number(data, 28, 4) & ENABLED:
            first, size = number(data, 8, 8), number(data, 16, 8)
            if size:
                found.append((first, first + size - 1))
    return sorted(found)


def configuration_of(mcfg: bytes) -> list[Registers]:
    """The configuration addresses of PCI of a MCFG: 1 MiB for each bus of a segment."""
    found = []
    for at in range(44, len(mcfg) - 15, 16):
        first, segment, low, high = number(mcfg, at, 8), number(mcfg, at + 8, 2), mcfg[at + 10], mcfg[at + 11]
        if low <= high:
            found.append(Registers(f"pci_{segment:x}_configuration", first + (low << 20), high - low + 1 << 20))
    return found
