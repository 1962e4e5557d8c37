"""The functions of PCI of a machine: by the text of ``lspci -vmmn``, or by what the running Linux has of them."""
import re
from collections.abc import Iterator
from pathlib import Path
from typing import NamedTuple

from netconf_tools.acpi.translation import SEGMENT
from netconf_tools.devicetree.fault import Fault
from netconf_tools.devicetree.tree import read_bytes

SLOT = re.compile(r"(?:(?P<segment>[0-9a-f]{4,8}):)?(?P<bus>[0-9a-f]{2}):(?P<device>[01][0-9a-f])\.(?P<function>[0-7])",
                  re.I)
BRIDGE_CLASS = 0x06
"""The base class of bridges, which pass on what functions behind them access."""
MOST_FUNCTIONS = 4096
"""How many functions are read; a large server has some 500."""


class Function(NamedTuple):
    """A function of PCI: its requester, its class of four digits, its vendor and device, and the group of functions
    that the IOMMU cannot tell apart, if that is known."""

    requester: int
    kind: int
    name: str
    group: int | None

    @property
    def is_bridge(self) -> bool:
        """Whether the function is a bridge."""
        return self.kind >> 8 == BRIDGE_CLASS


def requester_of(slot: str) -> int:
    """The requester of a slot, as ``00:02.0`` or ``0000:00:02.0``."""
    hit = SLOT.fullmatch(slot)
    if not hit:
        raise Fault(f"{slot!r} is not a slot of PCI, such as 00:02.0")
    low = int(hit["bus"], 16) << 8 | int(hit["device"], 16) << 3 | int(hit["function"])
    return int(hit["segment"] or "0", 16) << SEGMENT | low


def functions_in(path: str) -> list[Function]:
    """The functions of the text of ``lspci -vmmn``: records of lines with a name, a colon, a tab and a value."""
    text = read_bytes(path).decode("latin-1")
    found = []
    for record in re.split(r"\n[ \t]*\n", text.replace("\r", "")):
        fields = dict(part for line in record.splitlines() if len(part := re.split(r":[ \t]+", line, maxsplit=1)) == 2)
        if "Slot" in fields:
            try:
                found.append(_function(fields))
            except (Fault, ValueError) as error:
                raise Fault(f"{path}: a record of lspci that cannot be read: {error}") from None
    if not found:
        raise Fault(f"{path}: no function of PCI: the text of `lspci -vmmn` is wanted")
    if len(found) > MOST_FUNCTIONS:
        raise Fault(f"{path}: {len(found)} functions, and at most {MOST_FUNCTIONS} are read")
    return found


def _function(fields: dict[str, str]) -> Function:
    """The function of a record."""
    group = fields.get("IOMMUGroup", "").strip()
    return Function(requester_of(fields["Slot"].strip()), int(fields.get("Class", "0").strip(), 16),
                    f"{fields.get('Vendor', '?').strip()}:{fields.get('Device', '?').strip()}",
                    int(group) if group else None)


def functions_of_linux(folder: str = "/sys/bus/pci/devices") -> list[Function]:
    """The functions that the running Linux has, with their groups; none where it has no PCI."""
    return list(_of_linux(Path(folder))) if Path(folder).is_dir() else []


def _of_linux(folder: Path) -> Iterator[Function]:
    """The functions of a folder of sysfs."""
    for path in sorted(folder.iterdir()):
        try:
            values = [(path / name).read_text("ascii").strip() for name in ("class", "vendor", "device")]
            group = path / "iommu_group"
            number = int(group.resolve().name) if group.exists() else None
            yield Function(requester_of(path.name), int(values[0], 16) >> 8, ":".join(part[2:] for part in values[1:]),
                           number)
        except (OSError, ValueError) as error:
            raise Fault(f"{path}: {error}") from None
