"""Writes the image of a description's units from tables that were read, so that ``netconf audit`` answers of them."""

from bisect import bisect_right
from dataclasses import dataclass, field

from netconf_tools.export.memory import bytes_of, empty_words
from netconf_tools.export.reading import Found
from netconf_tools.export.spans import Host, Span
from netconf_tools.export.streams import Master
from netconf_tools.layout import Layout, Unit, Viewer, Window
from netconf_tools.rows import Pieces
from netconf_tools.text import Piece

MOST_LOSSES = 20
"""How many things that an image cannot say are listed."""


@dataclass
class Losses:
    """What tables say and an image cannot: how many, and the first of them."""
    count: int = 0
    lines: list[str] = field(default_factory=list)

    def add(self, line: str) -> None:
        """Counts one, and keeps it if it is among the first."""
        self.count += 1
        if len(self.lines) < MOST_LOSSES:
            self.lines.append(line)


class Ports:
    """By which ports of a unit, and at which of its outputs, the host's addresses are reached."""

    def __init__(self, unit: Unit, host: Host) -> None:
        self.unit = unit
        self.ports = [Pieces(outputs_of(port, host)) for port in unit.ports]
        self.blocks = [blocks_of(port) for port in unit.ports]

    def record(self, first: int, last: int, offset: int, spans: list[Span]) -> tuple[int, int] | None:
        """Returns a port and the output of a slot whose addresses from ``first`` to ``last``, after the first
        ``offset`` of the slot, lead through it where spans say, and nowhere else; or None if there is none."""
        page, head = 1 << self.unit.page, spans[0]
        for number, pieces in enumerate(self.ports):
            size = head.last - head.first + 1
            for part in pieces.seen(head.host, head.host + size - 1):
                output = part.lo - (head.first - first) - offset
                is_there = part.at == head.host and part.at_last == head.host + size - 1
                if not is_there or output < 0 or output % page or output + page > 1 << self.unit.reach:
                    continue
                begins = output + offset
                if self._leads(number, begins - first, spans) and self._length(number, begins, begins + last - first) \
                        == sum(span.last - span.first + 1 for span in spans):
                    return number, output
        return None

    def _leads(self, number: int, shift: int, spans: list[Span]) -> bool:
        """Returns whether a port has each span where its addresses and ``shift`` say."""
        return all(any(part.lo == span.first + shift and part.at_last == span.at(span.last)
                       for part in self.ports[number].seen(span.host, span.at(span.last))) for span in spans)

    def _length(self, number: int, first: int, last: int) -> int:
        """Returns how many of a port's addresses from ``first`` to ``last`` lead anywhere."""
        blocks, length = self.blocks[number], 0
        for low, high in blocks[max(bisect_right(blocks, (first, first)) - 1, 0):]:
            if low > last:
                break
            length += max(min(high, last) - max(low, first) + 1, 0)
        return length


def blocks_of(port: Viewer) -> list[tuple[int, int]]:
    """Returns the addresses of a port that lead anywhere, as blocks that do not overlap, in ascending order."""
    parts = [(place.address, place.address + place.last - place.first) for place in port.places]
    found: list[tuple[int, int]] = []
    for low, high in sorted([*parts, *((window.first, window.last) for window in port.windows)]):
        if found and low <= found[-1][1]:
            found[-1] = found[-1][0], max(found[-1][1], high)
        else:
            found.append((low, high))
    return found


def outputs_of(port: Viewer, host: Host) -> list[Piece]:
    """Returns at which addresses of a port the host's addresses are: pieces from the port's addresses to the host's."""
    names = host.by_node
    found: dict[int, list[Piece]] = {}
    for place in port.places:
        for part in names[place.name].seen(place.first, place.last) if place.name in names else ():
            lo = place.address + part.at - place.first
            found.setdefault(lo - part.lo, []).append(Piece(lo, lo + part.hi - part.lo, "", part.lo))
    return [piece for pieces in found.values() for piece in side_by_side(sorted(pieces))]


def side_by_side(pieces: list[Piece]) -> list[Piece]:
    """Returns pieces with one offset, in ascending order, with those that touch as one."""
    found: list[Piece] = []
    for piece in pieces:
        if found and piece.lo <= found[-1].hi + 1:
            found[-1] = found[-1]._replace(hi=max(found[-1].hi, piece.hi))
        else:
            found.append(piece)
    return found


def record_of(unit: Unit, port: int, output: int, may_read: bool, may_write: bool) -> int:
    """Returns the word of a record, as the kind of the unit spells it."""
    word = 1 | port << 1 | (not may_read) << 4 | (not may_write) << 5
    return word | (output if unit.kind == "radix" else output >> unit.page << 8)


class Image:
    """The words of all units of a layout, into which the tables of agents are put."""

    def __init__(self, layout: Layout, host: Host) -> None:
        self.layout, self.host = layout, host
        self._seen: dict[str, Pieces] = {}
        self.words = [empty_words(unit.slots * unit.words) for unit in layout.units]
        self.by: list[dict[int, str]] = [{} for _ in layout.units]
        self.ports = [Ports(unit, host) for unit in layout.units]
        self.losses = Losses()

    def put(self, agent: Viewer, found: Found) -> None:
        """Puts what the tables of an agent say into the units to which it comes."""
        windows = sorted(agent.windows, key=lambda window: window.first)
        for fault in found.faults:
            self.losses.add(f"{agent.name}: {fault}")
        for span in found.spans:
            at = span.first
            for window in windows:
                if window.last < at or window.first > span.last:
                    continue
                if at < window.first:
                    self._outside(agent, span, at, window.first - 1)
                at = window.last + 1
            if at <= span.last:
                self._outside(agent, span, at, span.last)
        for window in windows:
            self._window(agent, window, found.spans)

    def _outside(self, agent: Viewer, span: Span, first: int, last: int) -> None:
        """Counts addresses that come to no unit, unless the agent sees the same there without one."""
        around = any(part.at == span.at(first) and part.lo == first and part.hi == last
                     for part in self._around(agent).seen(span.at(first), span.at(last)))
        if not around:
            self.losses.add(f"{agent.name} {first:#x}-{last:#x}: it comes to no unit of the description with these "
                            "addresses")

    def _around(self, agent: Viewer) -> Pieces:
        """Returns what an agent sees without a unit: pieces from its addresses to the host's."""
        if agent.name not in self._seen:
            self._seen[agent.name] = Pieces(outputs_of(agent, self.host))
        return self._seen[agent.name]

    def _window(self, agent: Viewer, window: Window, spans: list[Span]) -> None:
        """Puts what the tables say of the addresses of a window into the slots of its unit."""
        unit = self.layout.units[window.unit]
        if unit.kind == "vectors":
            return
        slot = window.input >> unit.page
        end = min(window.input + window.last - window.first >> unit.page, unit.slots - 1)
        firsts, lasts = [span.first for span in spans], [span.last for span in spans]
        while slot <= end:
            first = max((slot << unit.page) - window.input + window.first, window.first)
            last = min((slot + 1 << unit.page) - 1 - window.input + window.first, window.last)
            number = bisect_right(lasts, first - 1)
            if number == len(spans):
                break
            if spans[number].first > last:
                slot = max(slot + 1, spans[number].first - window.first + window.input >> unit.page)
                continue
            end_of = bisect_right(firsts, last)
            inside = [span._replace(first=max(span.first, first), last=min(span.last, last),
                                    host=span.at(max(span.first, first))) for span in spans[number:end_of]]
            self._slot(agent, window, slot, (first, last), inside)
            slot += 1

    def _slot(self, agent: Viewer, window: Window, slot: int, ends: tuple[int, int], spans: list[Span]) -> None:
        """Puts a record into a slot whose addresses the agent has from the first to the last of ``ends``, of which
        spans say something."""
        place, unit, (first, last) = window.unit, self.layout.units[window.unit], ends
        what = f"{agent.name} {first:#x}-{last:#x}, slot {slot} of {unit.name}"
        if len({span[3:5] for span in spans}) > 1:
            self.losses.add(f"{what}: a record has the same rights for the whole slot, and the tables do not")
            return
        offset = first - window.first + window.input & (1 << unit.page) - 1
        output = self.ports[place].record(first, last, offset, spans)
        if output is None:
            self.losses.add(f"{what}: no record of the unit leads where the tables do, to {spans[0].host:#x} of the "
                            "host, and nowhere else")
            return
        word = record_of(unit, *output, spans[0].may_read, spans[0].may_write)
        if self.words[place][slot] not in (0, word):
            self.losses.add(f"{what}: the tables of {self.by[place][slot]} say otherwise of this slot")
            return
        self.words[place][slot] = word
        self.by[place][slot] = agent.name

    def bytes(self) -> bytes:
        """Returns the image, in version 2."""
        parts = [b"DNIM", (2).to_bytes(2, "little"), len(self.layout.units).to_bytes(2, "little")]
        for unit, words in zip(self.layout.units, self.words):
            parts += [unit.node.to_bytes(2, "little"), bytes([unit.words, 0]), unit.slots.to_bytes(4, "little"),
                      bytes_of(words)]
        return b"".join(parts)


def image_of(layout: Layout, host: Host, masters: list[Master], streams: list[Found]) -> tuple[bytes, Losses,
                                                                                               list[str]]:
    """Returns the image that says what the tables of streams say, what it cannot say, and what was left out and says
    nothing."""
    image, notes = Image(layout, host), []
    known = {number: master for master in masters for number in master.numbers}
    agents = {agent.name: agent for agent in layout.agents}
    seen: dict[str, Found] = {}
    for found in streams:
        master = known.get(found.number)
        if master is None:
            if found.spans or found.faults:
                image.losses.add(f"number {found.number:#x}: no agent has it, and its tables have {len(found.spans)} "
                                 "rows")
            continue
        if master.agent in seen and seen[master.agent].spans != found.spans:
            image.losses.add(f"{master.agent}: the tables of its numbers {seen[master.agent].number:#x} and "
                             f"{found.number:#x} differ")
        elif master.agent not in seen:
            seen[master.agent] = found
            image.put(agents[master.agent], found)
    for master in masters:
        if master.agent not in seen:
            notes.append(f"{master.agent}: no tables: {master.why_none or 'its entry does not count'}")
    return image.bytes(), image.losses, notes
