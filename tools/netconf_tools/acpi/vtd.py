"""DMAR: the IOMMUs of Intel, by the VT-d specification 4.1, chapter 8."""
from collections.abc import Iterator

from netconf_tools.acpi.fields import number, records
from netconf_tools.acpi.translation import SEGMENT, Mapping, ReservedMemory, Translator, Translators, function_text
from netconf_tools.devicetree.fault import Fault

UNIT, RESERVED = 0, 1
INCLUDE_ALL = 1
ENDPOINT, BRIDGE, IO_APIC, HPET, NAMESPACE = 1, 2, 3, 4, 5
MOST_BITS = 52
"""How many bits an address in an entry of a second-level table has at most."""


def translators_of(dmar: bytes) -> Translators:
    """The IOMMUs of a DMAR."""
    found = Translators()
    bits = min(number(dmar, 36, 1) + 1, MOST_BITS)
    for kind, data in records(dmar, 48, 2):
        if kind == UNIT:
            _add_unit(found, data, bits)
        elif kind == RESERVED:
            segment, first, last = number(data, 6, 2), number(data, 8, 8), number(data, 16, 8)
            who = [_who(segment, scope) for scope in _scopes(data, 24)]
            if first <= last:
                found.reserved.append(ReservedMemory((first, last), " and ".join(who) or "no function", "RMRR"))
    return found


def _add_unit(found: Translators, data: bytes, bits: int) -> None:
    """Adds the IOMMU of a DRHD."""
    segment = number(data, 6, 2)
    unit = Translator(f"vtd_{len(found.units)}", number(data, 8, 8), 0x1000 << (data[5] & 15), bits)
    if data[4] & INCLUDE_ALL:
        unit.rest.append(segment)
    for scope in _scopes(data, 16):
        requester = _requester(segment, scope)
        if requester is None:
            found.notes.append(f"{unit.name} translates {_who(segment, scope)}, which is no one function that is known")
        elif scope[0] == BRIDGE:
            found.notes.append(f"{unit.name} translates what is behind the bridge {function_text(requester)}, whose "
                               "buses are not known from the tables")
        elif scope[0] == ENDPOINT:
            unit.mappings.append(Mapping(requester, requester, requester & 0xffff))
    found.units.append(unit)


def _scopes(data: bytes, at: int) -> Iterator[bytes]:
    """The device scopes of a record: a type, a length, the first bus at byte 5, and pairs of a device and a
    function."""
    for _kind, scope in records(data, at, 1):
        if len(scope) < 8 or len(scope) % 2:
            raise Fault(f"a device scope of {len(scope)} bytes")
        yield scope


def _requester(segment: int, scope: bytes) -> int | None:
    """The requester of a device scope; None where the path goes through a bridge, whose bus is not known, and where the
    scope is no function of PCI."""
    if scope[0] not in (ENDPOINT, BRIDGE) or len(scope) != 8:
        return None
    return segment << SEGMENT | scope[5] << 8 | (scope[6] & 31) << 3 | scope[7] & 7


def _who(segment: int, scope: bytes) -> str:
    """A device scope in words."""
    kinds = {ENDPOINT: "", BRIDGE: "behind ", IO_APIC: "an I/O APIC at ", HPET: "a timer at ",
             NAMESPACE: "a device of ACPI at "}
    path = ", then ".join(f"{scope[at] & 31:x}.{scope[at + 1] & 7}" for at in range(6, len(scope), 2))
    return f"{kinds.get(scope[0], 'a device at ')}pci {scope[5]:x}:{path}" + (f", segment {segment:x}" if segment
                                                                              else "")
