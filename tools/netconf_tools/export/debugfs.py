"""Reads what Linux shows of VT-d's tables: the file ``domain_translation_struct`` of debugfs, in intel/iommu.

Linux 6.1 writes it in drivers/iommu/intel/debugfs.c: for each device a line ``Device 0000:00:14.0 @0x..`` with the root
of its tables, and then a line for each entry that leads to memory, with the first address divided by 4,096 and the
entries that lead to it. Of devices that share their tables (a group) it writes the first alone. Later kernels name a
PASID in the line, and leave out the columns of levels that are not there."""

import re

from netconf_tools.export.formats import Fault, Leaf, Table, size_of
from netconf_tools.export.reading import MOST_SPANS, Found
from netconf_tools.export.spans import Span, merged
from netconf_tools.export.vtd import Vtd
from netconf_tools.text import Trouble

DEVICE = re.compile(r"Device (?P<segment>[0-9a-f]{4,}):(?P<bus>[0-9a-f]{2}):(?P<device>[0-9a-f]{2})"
                    r"\.(?P<function>[0-7])\b(?P<rest>.*)")
ROW = re.compile(r"(?P<page>0x[0-9a-f]+) \|(?P<entries>(?:\s+0x[0-9a-f]{1,16}){3,5})\s*")
LEVELS = 5
"""The first column of entries is that of level 5 of the manual."""


def streams_in(text: str, name: str) -> list[Found]:
    """Returns what the tables of each device say, in the order of the functions. Raises Trouble for lines of another
    form."""
    found: dict[int, Found] = {}
    now: Found | None = None
    for number, line in enumerate(text.split("\n"), 1):
        device, row = DEVICE.match(line), ROW.fullmatch(line)
        if device:
            now = found.setdefault(function_of(device, f"{name}:{number}"), Found(0, []))
        elif row and now is not None:
            add(now, row, f"{name}:{number}")
        elif line.strip() and not line.startswith("IOVA_PFN") or row:
            raise Trouble(f"{name}:{number}: this is not a line of domain_translation_struct: {line[:60]!r}")
    if not found:
        raise Trouble(f"{name}: there is no line `Device ..` of domain_translation_struct")
    return [Found(number, merged(sorted(now.spans)), now.faults) for number, now in sorted(found.items())]


def function_of(hit: "re.Match[str]", place: str) -> int:
    """Returns the number of a function. Raises Trouble for one of another segment, and for tables of a process."""
    if int(hit["segment"], 16):
        raise Trouble(f"{place}: functions of segment {hit['segment']} are not read here: take them out, and read them "
                      "by themselves")
    pasid = re.search(r"pasid (\w+)", hit["rest"])
    if pasid and int(pasid[1], 16):
        raise Trouble(f"{place}: the tables of PASID {pasid[1]} are not read here: take them out")
    return int(hit["bus"], 16) << 8 | int(hit["device"], 16) << 3 | int(hit["function"])


def add(found: Found, row: "re.Match[str]", place: str) -> None:
    """Adds an entry that leads to memory, with the rights that all entries on the way allow."""
    entries = [int(word, 16) for word in row["entries"].split()]
    first, may_read, may_write = int(row["page"], 16) << 12, True, True
    for column, word in enumerate(entries):
        level = LEVELS - 1 - column
        entry = Vtd().entry(word, level, first) if word else None
        if isinstance(entry, Fault):
            found.faults.append(f"{first:#x}: the entry {word:#x}: {entry.why}")
            return
        if isinstance(entry, Leaf):
            rights = may_read and entry.may_read, may_write and entry.may_write
            if len(found.spans) >= MOST_SPANS:
                raise Trouble(f"{place}: one set of tables has more than {MOST_SPANS:,} entries, and no more are read")
            if any(rights):
                found.spans.append(Span(first, first + size_of(level) - 1, entry.host, *rights))
            return
        if isinstance(entry, Table):
            may_read, may_write = may_read and entry.may_read, may_write and entry.may_write
    raise Trouble(f"{place}: no entry of this line leads to memory")
