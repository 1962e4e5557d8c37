"""The memory of a machine and the windows of PCI, by the text of ``/proc/iomem``."""
import re
from dataclasses import dataclass, field

from netconf_tools.devicetree.fault import Fault
from netconf_tools.devicetree.spans import TOP, Span
from netconf_tools.devicetree.tree import read_bytes

LINE = re.compile(r"(?P<blanks> *)(?P<first>[0-9a-f]{1,16})-(?P<last>[0-9a-f]{1,16}) : (?P<name>.*)")
MEMORY = ("System RAM", "Persistent Memory")
MOST_LINES = 65536


@dataclass
class Iomem:
    """What ``/proc/iomem`` has: the memory, the windows of PCI by their names, and the reserved parts of the memory."""

    memory: list[Span] = field(default_factory=list)
    windows: list[tuple[str, Span]] = field(default_factory=list)
    reserved: list[Span] = field(default_factory=list)


def read_iomem(path: str) -> Iomem:
    """What stands in a file with the text of ``/proc/iomem``."""
    lines = read_bytes(path).decode("latin-1").splitlines()
    if len(lines) > MOST_LINES:
        raise Fault(f"{path}: {len(lines)} lines, and at most {MOST_LINES} are read")
    found, in_memory, highest = Iomem(), False, 0
    for line in lines:
        hit = LINE.fullmatch(line)
        if not hit:
            continue
        span = int(hit["first"], 16), int(hit["last"], 16)
        if span[0] > span[1] or span[1] > TOP:
            raise Fault(f"{path}: {line.strip()[:80]!r} is not a span of addresses up to {TOP:#x}")
        highest = max(highest, span[1])
        if not hit["blanks"]:
            in_memory = hit["name"] in MEMORY
            _add(found, hit["name"], span)
        elif in_memory and hit["name"].lower() == "reserved":
            found.reserved.append(span)
    if not highest:
        raise Fault(f"{path}: no addresses that are not 0: the text of /proc/iomem is wanted, as root reads it")
    return found


def _add(found: Iomem, name: str, span: Span) -> None:
    """Adds an outermost line."""
    if name in MEMORY:
        found.memory.append(span)
    elif name.startswith("PCI Bus "):
        found.windows.append((name, span))
