"""What `netconf audit` says of a description and an image that somebody else made, and where to look in both.

What each agent sees, which records are malformed and what agents share comes from the program. Why a record is shut out
is read off its words, and by which records agents share comes of a second audit, of the same image with all words 0."""

import itertools
import re
from bisect import bisect_right
from collections.abc import Iterable, Iterator
from dataclasses import dataclass, field
from typing import NamedTuple

from netconf_tools.dump import DUMP, MARK, empty_image, image_in, tables_of
from netconf_tools.rows import Rows
from netconf_tools.source import Node
from netconf_tools.text import Piece, Refusal, Trouble, printed, read, refusal_of, shortened

MOST_BYTES = 1 << 28
"""How many bytes of an image are read, or of an output with a dump: the dump of the largest image that is audited has
half of it."""

ACCESSES = ("read", "write")
HEADING = re.compile(r"audit bytes (\d+) records (\d+) shut (\d+) shared (\d+)")
VIEW = re.compile(r"view (?P<agent>\S+) for (?P<access>read|write) rows (?P<rows>\d+)")
SHUT = re.compile(r"shut (?P<unit>\S+) (?P<slot>\d+)")
SHARED = re.compile(r"shared (?P<node>\S+) (?P<lo>0x[0-9a-f]+)-(?P<hi>0x[0-9a-f]+) (?P<agents>.+)")

FAULTS = {
    "InputLength": "description and image have more than 67,108,863 bytes together",
    "Short": "the image ends at this byte, inside a field",
    "Header": "another field stands at this byte: 0 is the mark DNIM, 4 the version, 6 the number of units",
    "Shape": "the head of this unit, counted from 0, is not that of the description's unit",
    "Trailing": "from this byte on more follows than an image of this net has",
}
"""What each refusal of an image says, in a few words."""

FIRST_OUTPUT_BIT = {"pages": 8, "remap": 8, "radix": 12, "vectors": 64}
"""The bit of the gate word at which the output page begins, by the kind; of `vectors` it stands in a word of its
own."""

ZERO_BITS = {"pages": (1, 2, 3, 6, 7), "remap": (6, 7), "radix": (*range(6, 12), *range(56, 64)),
             "vectors": tuple(range(6, 64))}
"""The bits of the gate word that must be 0, by the kind."""


Slot = tuple[str, int]
"""A slot: the name of its unit, and its number."""


class Shared(NamedTuple):
    """Addresses of a node that the same agents see, two or more."""
    node: str
    lo: int
    hi: int
    agents: tuple[str, ...]

    def text(self) -> str:
        """The node and its addresses."""
        return f"{self.node} {self.lo:#x}-{self.hi:#x}"


class Spans:
    """Addresses, as sorted spans that do not touch."""

    def __init__(self, spans: Iterable[tuple[int, int]]) -> None:
        self.firsts: list[int] = []
        self.lasts: list[int] = []
        for first, last in sorted(spans):
            if self.lasts and first <= self.lasts[-1] + 1:
                self.lasts[-1] = max(self.lasts[-1], last)
            else:
                self.firsts.append(first)
                self.lasts.append(last)

    def __contains__(self, address: int) -> bool:
        at = bisect_right(self.firsts, address) - 1
        return at >= 0 and self.lasts[at] >= address

    def meets(self, first: int, last: int) -> bool:
        """Whether one of the addresses from `first` to `last` lies in a span."""
        at = bisect_right(self.firsts, last) - 1
        return at >= 0 and self.lasts[at] >= first

    def cuts(self) -> set[int]:
        """Where a span begins, and where one has ended."""
        return {*self.firsts, *(last + 1 for last in self.lasts)}


@dataclass
class Report:
    """What an audit found: the rows of each agent for each access, the slots that are shut out, and what is shared."""
    bytes: int
    records: int
    views: dict[tuple[str, str], Rows] = field(default_factory=dict)
    shut: list[Slot] = field(default_factory=list)
    shared: list[Shared] = field(default_factory=list)

    def seen(self, agent: str, access: str, node: str, lo: int, hi: int) -> list[Piece]:
        """Where an agent sees addresses of a node: the parts of its pieces, in the order of the node's addresses."""
        return list(self.views[agent, access].pieces(node).seen(lo, hi))

    def spans(self, agent: str, accesses: Iterable[str], row: Shared) -> Spans:
        """The addresses of a row that an agent sees for one of the accesses."""
        return Spans((part.at, part.at_last) for access in accesses
                     for part in self.seen(agent, access, row.node, row.lo, row.hi))


def image_of(name: str) -> bytes:
    """The image in a file: its bytes as they are, or those of the last dump where it is an output of `netconf run`."""
    data = read(name, MOST_BYTES)
    if len(data) > MOST_BYTES:
        raise Trouble(f"{name}: more than {MOST_BYTES:,} bytes, and no more are read")
    if data.startswith(MARK) or not DUMP.search(data):
        return data
    try:
        return image_in(data)
    except Trouble as trouble:
        raise Trouble(f"{name}: {trouble}") from trouble


def audited(text: bytes, image: bytes) -> Report | Refusal:
    """What the program says of a description and an image, both as bytes: a report, or the refusal."""
    status, output, is_whole = printed("audit", text + b"\0" + image)
    if status == 4:
        return refusal_of(output.decode("latin-1"))
    if not is_whole:
        raise Trouble("netconf audit prints more than is read: ask `netconf audit` itself")
    return report_of(output.decode("latin-1").splitlines())


def report_of(lines: list[str]) -> Report:
    """The report that lines say."""
    heading = HEADING.fullmatch(lines[0]) if lines else None
    if heading is None:
        raise Trouble(f"netconf printed no audit, but {shortened(''.join(lines[:1]), 60)!r}")
    report, at = Report(int(heading[1]), int(heading[2])), 1
    known: dict[tuple[str, ...], Rows] = {}
    while at < len(lines) and (view := VIEW.fullmatch(lines[at])):
        count = int(view["rows"])
        rows = tuple(lines[at + 1:at + 1 + count])
        report.views[view["agent"], view["access"]] = known.setdefault(rows, Rows(rows))
        at += 1 + count
    for line in lines[at:]:
        shut, shared = SHUT.fullmatch(line), SHARED.fullmatch(line)
        if shut:
            report.shut.append((shut["unit"], int(shut["slot"])))
        elif shared:
            report.shared.append(Shared(shared["node"], int(shared["lo"], 16), int(shared["hi"], 16),
                                        tuple(shared["agents"].split(" "))))
        else:
            raise Trouble(f"netconf printed a line that is of no audit: {shortened(line, 60)!r}")
    if (len(report.shut), len(report.shared)) != (int(heading[3]), int(heading[4])):
        raise Trouble("netconf printed another number of lines than the first line says")
    return report


def why_shut(unit: Node, words: list[int], version: int) -> str:
    """Why the words of a slot whose gate is open are no record of a unit; `unit` is its node."""
    kind, page, _, reach = unit.shape
    gate = words[-1]
    if kind not in ZERO_BITS:
        return "its kind is not known here"
    for bit in ZERO_BITS[kind]:
        if gate >> bit & 1:
            return f"bit {bit} of its gate word must be 0"
    if gate >> 4 & 3 == 3:
        return "it allows neither reading nor writing"
    if gate >> 1 & 7 >= len(unit.ports):
        return f"there is no port {gate >> 1 & 7}"
    output = words[0] << page if kind == "vectors" else gate >> FIRST_OUTPUT_BIT[kind] << page
    if output >> reach:
        return f"its output {output:#x} is not below 2^{reach}"
    if version == 1 and gate >> 4 & 3:
        return "an image of version 1 has no records for one access alone"
    return "its words are not a record"


def words_of_slots(image: bytes, nodes: dict[str, Node], slots: Iterable[Slot]) -> tuple[list[list[int]], int]:
    """The words of slots, each a unit and a number, in an image that the program took, and the version of the image."""
    version, tables = tables_of(image)
    units = [node.name for node in nodes.values() if node.role == "unit"]
    by_unit = dict(zip(units, tables))
    found = []
    for unit, slot in slots:
        table = by_unit[unit]
        data = table.bytes[8 * table.words * slot:8 * table.words * (slot + 1)]
        found.append([int.from_bytes(data[at:at + 8], "little") for at in range(0, len(data), 8)])
    return found, version


def shut_lines(nodes: dict[str, Node], image: bytes, report: Report, most: int) -> list[str]:
    """A line for each slot that is shut out, with the reason for the first `most`."""
    slots = report.shut[:most]
    found, version = words_of_slots(image, nodes, slots)
    lines = [f"{shortened(unit, 60)} slot {slot}: {why_shut(nodes[unit], words, version)}"
             for (unit, slot), words in zip(slots, found)]
    return [*lines, *(f"{shortened(unit, 60)} slot {slot}" for unit, slot in report.shut[most:])]


def by_records(text: bytes, image: bytes, report: Report) -> list[list[Shared]]:
    """What two or more agents share by records alone, for each shared row of a report a list: parts of the row, each
    with those of its agents that see its addresses under the image, and see none of them where all words are 0."""
    fixed = audited(text, empty_image(image))
    if isinstance(fixed, Refusal):
        raise Trouble(f"netconf takes the image, and refuses it with all words 0: {fixed.rule}")
    return [list(parts_by_records(fixed, row)) for row in report.shared]


def parts_by_records(fixed: Report, row: Shared) -> Iterator[Shared]:
    """The parts of a row that two or more agents share by records alone; `fixed` is the report where all words are
    0."""
    spans = {agent: fixed.spans(agent, ACCESSES, row) for agent in row.agents}
    cuts = {row.lo, row.hi + 1}.union(*(each.cuts() for each in spans.values()))
    for lo, end in itertools.pairwise(sorted(cuts)):
        agents = tuple(agent for agent in row.agents if lo not in spans[agent])
        if len(agents) > 1:
            yield Shared(row.node, lo, end - 1, agents)


def places(report: Report, row: Shared, agent: str) -> list[str]:
    """At which of its addresses an agent sees the addresses of a row, as texts, each with what it may do there."""
    found: dict[tuple[int, int, int], list[str]] = {}
    for access in ACCESSES:
        for part in report.seen(agent, access, row.node, row.lo, row.hi):
            found.setdefault((part.lo, part.hi, part.at), []).append(access)
    return [f"{lo:#x}-{hi:#x} for {' and '.join(accesses)}" for (lo, hi, _), accesses in sorted(found.items())]
