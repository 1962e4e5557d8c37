"""Why a grant, a buffer in pieces or a route has no placement: what stands in the way on each way from the agent.

The program says that there is no placement. What is said here are facts that each close a way: a reach that ends too
early, a port that has no address for the buffer, too few slots, slots in use, and other agents that would see the
same. Windows and places come from the program's views (layout.py), and which slots are in use from an image of the
tables at that moment. What closes no way for certain is not said; then the notes tell where to look."""

from collections.abc import Iterable, Iterator
from typing import NamedTuple

from netconf_tools.dump import Table, tables_of
from netconf_tools.layout import Layout, Place, Unit, Viewer, Window
from netconf_tools.source import Command, Node, Piece

MOST_UNITS = 3
"""How many units a buffer passes at most."""

MOST_SPANS = 4
"""How many spans a note lists at most."""

Note = tuple[int, str]
"""A note: its place in the text, and what it says."""


class Span(NamedTuple):
    """Inputs `first` to `last` of a unit, and the viewer's address at which the first stands."""

    first: int
    last: int
    address: int


class Way(NamedTuple):
    """A way onto a unit: the unit, whose outputs or addresses lead there, the inputs that they reach, and the unit
    before, if there is one."""

    unit: Unit
    viewer: Viewer
    spans: list[Span]
    before: Unit | None


class Buffer(NamedTuple):
    """Addresses `first` to `last` of a node."""

    node: str
    first: int
    last: int

    @property
    def size(self) -> int:
        """How many addresses there are."""
        return self.last - self.first + 1

    def text(self) -> str:
        """The node and its addresses."""
        return f"{self.node} {self.first:#x}-{self.last:#x}"


class Other(NamedTuple):
    """Slots of a unit from `first` up to `end` that an agent reaches, and the span by which it does."""

    first: int
    end: int
    viewer: Viewer
    span: Span


Part = tuple[int, int, int]
"""A part of a buffer that a port has: the first and the last address in the node, and the port's address of the
first."""


def spans_onto(windows: Iterable[Window], unit: int, limit: int) -> list[Span]:
    """The inputs of a unit to which windows below a limit lead. Windows that follow one another in the viewer and in
    the unit are one span."""
    spans: list[Span] = []
    for window in sorted(
        (window for window in windows if window.unit == unit and window.first < limit), key=lambda window: window.first
    ):
        last = min(window.last, limit - 1)
        span = Span(window.input, window.input + last - window.first, window.first)
        before = spans[-1] if spans else None
        if before and before.address + span.first - before.first == span.address and before.last + 1 == span.first:
            spans[-1] = Span(before.first, span.last, before.address)
        else:
            spans.append(span)
    return spans


def slots_in(span: Span, unit: Unit) -> tuple[int, int]:
    """The first slot of a unit of which a part lies in a span, and the one after the last."""
    return span.first >> unit.page, min((span.last >> unit.page) + 1, unit.slots)


def ways_from(agent: Viewer, layout: Layout) -> list[Way]:
    """The ways from an agent onto units, through at most two others."""
    found: dict[tuple[int, int, int], Way] = {}
    level: list[tuple[Viewer, Unit | None]] = [(agent, None)]
    for _ in range(MOST_UNITS):
        after: list[tuple[Viewer, Unit | None]] = []
        for viewer, before in level:
            limit = 1 << (before.reach if before else 56)
            for number in sorted({window.unit for window in viewer.windows}):
                key = (viewer.node, number, before.node if before else -1)
                spans = spans_onto(viewer.windows, number, limit) if key not in found else []
                if spans:
                    found[key] = Way(layout.units[number], viewer, spans, before)
                    after += [(port, layout.units[number]) for port in layout.units[number].ports]
        level = after
    return list(found.values())


def pieces_of(port: Viewer, buffer: Buffer) -> list[Part]:
    """The parts of a buffer that a port has. Parts that follow one another in node and port are one."""
    found: list[Part] = []
    for place in sorted((place for place in port.places if place.name == buffer.node), key=lambda place: place.address):
        first, last = max(place.first, buffer.first), min(place.last, buffer.last)
        if first > last:
            continue
        address = place.address + first - place.first
        if found and found[-1][1] + 1 == first and found[-1][2] + first - found[-1][0] == address:
            found[-1] = found[-1][0], last, found[-1][2]
        else:
            found.append((first, last, address))
    return found


class Causes:
    """What stands in the way of a command. `nodes` have the places of declarations, and `tables` the words of the
    units at that moment, if they are known."""

    def __init__(self, layout: Layout, nodes: dict[str, Node], tables: list[Table] | None) -> None:
        self.layout, self.nodes, self.tables = layout, nodes, tables

    def of(self, command: Command) -> Iterator[Note]:
        """The notes on a command without a placement; none if no cause is certain."""
        agent = next((viewer for viewer in self.layout.agents if viewer.name == command.names[0]), None)
        ways = ways_from(agent, self.layout) if agent else []
        if agent is None or not ways:
            yield self.nodes[command.names[0]].at, f"{command.names[0]} reaches no slot of a unit"
        elif command.word == "route":
            yield from self.of_route(command, agent, ways)
        else:
            for part in command.parts:
                yield from self.of_part(
                    part, agent, ways if command.word == "grant" else [way for way in ways if not way.before]
                )

    def of_part(self, part: Command | Piece, agent: Viewer, ways: list[Way]) -> Iterator[Note]:
        """The notes on a buffer, or on a piece of one; none if a way may be open."""
        buffer = Buffer(part.names[1], part.numbers[0], part.numbers[0] + part.numbers[1] - 1)
        pieces = {port.node: pieces_of(port, buffer) for way in ways for port in way.unit.ports}
        distant: list[Note] = []
        near: list[Note] = []
        for way in ways:
            for port in way.unit.ports:
                if not pieces[port.node]:
                    what = f"{port.name} has no address for {buffer.node}@{buffer.first:#x}{self.has_of(port, buffer)}"
                    distant += [(self.nodes[port.name].at, what), *self.cut_off(way.unit, port)]
                    continue
                closed = list(self.closed(part, buffer, agent, way, port, pieces[port.node]))
                if not closed:
                    return
                near += closed
        yield from dict.fromkeys(near or distant)

    def closed(
        self, part: Command | Piece, buffer: Buffer, agent: Viewer, way: Way, port: Viewer, pieces: list[Part]
    ) -> Iterator[Note]:
        """What closes a way through a port that has some parts of a buffer: the first of its causes, or nothing."""
        whole = [address for first, last, address in pieces if (first, last) == (buffer.first, buffer.last)]
        unit = way.unit
        if not whole:
            yield self.nodes[port.name].at, self.in_pieces(port, buffer, pieces)
        elif all(address + buffer.size > 1 << unit.reach for address in whole):
            where = f"{port.name} has {buffer.node}@{buffer.first:#x} at {whole[0]:#x}"
            yield self.nodes[unit.name].at, f"the outputs of {unit.name} end at {(1 << unit.reach) - 1:#x}, and {where}"
        else:
            yield from self.no_slots(part, buffer, agent, way, port, whole)

    def cut_off(self, unit: Unit, port: Viewer) -> Iterator[Note]:
        """The units to which a port leads, but only past the reach of the unit before it."""
        end = (1 << unit.reach) - 1
        for number in sorted({window.unit for window in port.windows}):
            first = min(window.first for window in port.windows if window.unit == number)
            if first > end:
                where = f"{port.name} leads to {self.layout.units[number].name} from {first:#x} on"
                yield self.nodes[unit.name].at, f"the outputs of {unit.name} end at {end:#x}, and {where}"

    def has_of(self, port: Viewer, buffer: Buffer) -> str:
        """What of the node of a buffer a port has."""
        places = [place for place in port.places if place.name == buffer.node]
        return f", it has {listed(places)} of it" if places else ""

    def in_pieces(self, port: Viewer, buffer: Buffer, pieces: list[Part]) -> str:
        """How a port has a buffer, if not whole and in one piece."""
        spans = ", ".join(f"{first:#x}-{last:#x} at {address:#x}" for first, last, address in pieces[:MOST_SPANS])
        more = f" and {len(pieces) - MOST_SPANS} more" if len(pieces) > MOST_SPANS else ""
        if sum(last - first + 1 for first, last, _ in pieces) < buffer.size:
            return f"{port.name} has a part of {buffer.text()} alone: {spans}{more}"
        return f"{port.name} has {buffer.text()} in pieces: {spans}{more}"

    def no_slots(
        self, part: Command | Piece, buffer: Buffer, agent: Viewer, way: Way, port: Viewer, whole: list[int]
    ) -> Iterator[Note]:
        """What closes a way if the port has the buffer: too few slots, pages, slots in use, and other agents."""
        unit = way.unit
        count = min((address + buffer.size - 1 >> unit.page) - (address >> unit.page) + 1 for address in whole)
        most = max(end - first for first, end in (slots_in(span, unit) for span in way.spans))
        if count > most:
            seen = f"{way.viewer.name} reaches {max(most, 0):#x} slots of it in a row"
            yield self.nodes[unit.name].at, f"{buffer.text()} takes {count:#x} pages of {unit.name}, and {seen}"
        elif way.before is None and all(shows_more(address, buffer.size, way, port) for address in whole):
            where = f", at {whole[0]:#x} of {port.name}," if whole[0] != buffer.first else "," * isinstance(part, Piece)
            name = f"piece {part.id}, " if isinstance(part, Piece) else ""
            what = f"{name}{buffer.first:#x}-{buffer.last:#x}{where} is not a whole number of pages"
            yield part.at, f"{what}: a page of {unit.name} has {1 << unit.page:#x}"
        elif way.before is None:
            yield from self.no_room(buffer, agent, way, count)

    def no_room(self, buffer: Buffer, agent: Viewer, way: Way, count: int) -> Iterator[Note]:
        """That no slots side by side are free, or none that the agent alone sees, and once."""
        used = self.used(way.unit)
        if used is None:
            return
        runs = free_runs(way, used)
        longest = max((end - first for first, end, _ in runs), default=0)
        if longest < count:
            reached = sum(max(end - first, 0) for first, end in (slots_in(span, way.unit) for span in way.spans))
            free = sum(end - first for first, end, _ in runs)
            yield self.nodes[way.unit.name].at, (
                f"{buffer.text()} takes {counted(count)} of {way.unit.name} side by side; of the {reached:,} that "
                f"{agent.name} reaches {free:,} are free, at most {longest:,} side by side"
            )
            return
        others = self.seen_by_others(agent, way.unit)
        taken = [(low, high) for low, high, _, _ in others]
        if all(end - first < count for run in runs for first, end in without(run[0], run[1], taken)):
            run = next(run for run in runs if run[1] - run[0] >= count)
            yield from self.shared(buffer, way.unit, run[0], count, others)

    def used(self, unit: Unit) -> list[int] | None:
        """The slots of a unit that hold a record or another word, in order; None if they are not known."""
        table = next((table for table in self.tables or () if table.node == unit.node), None)
        if table is None:
            return None
        size = 8 * table.words
        return [slot for slot in range(table.slots) if any(table.bytes[slot * size:(slot + 1) * size])]

    def seen_by_others(self, agent: Viewer, unit: Unit) -> list[Other]:
        """The slots of a unit that other agents reach by the description alone, and those that the agent reaches a
        second time."""
        number = self.layout.units.index(unit)
        mine = spans_onto(agent.windows, number, 1 << 56)
        found = []
        for viewer in self.layout.agents:
            for span in mine if viewer is agent else spans_onto(viewer.windows, number, 1 << 56):
                twice = any(
                    other is not span and other.first <= span.last and span.first <= other.last for other in mine
                )
                if viewer is not agent or twice:
                    found.append(Other(*slots_in(span, unit), viewer, span))
        return found

    def shared(self, buffer: Buffer, unit: Unit, first: int, count: int, others: list[Other]) -> Iterator[Note]:
        """Which agents would see which bytes of a buffer in some slots from the first one on."""
        page = 1 << unit.page
        for low, high, viewer, span in others:
            begin, end = max(low, first), min(high, first + count)
            if begin >= end:
                continue
            lo, hi = max(begin * page, span.first), min(end * page - 1, span.last)
            base = buffer.first + lo - first * page
            last = min(base + hi - lo, buffer.last)
            seen = f"{buffer.node} {base:#x}-{last:#x} at {span.address + lo - span.first:#x}"
            yield self.nodes[viewer.name].at, f"{viewer.name} reaches these slots of {unit.name}: it would see {seen}"

    def of_route(self, command: Command, agent: Viewer, ways: list[Way]) -> Iterator[Note]:
        """The notes on a route."""
        line, node = command.numbers[0], command.names[1]
        window = next((window for window in agent.windows if window.first <= line <= window.last), None)
        if window is None:
            yield self.nodes[agent.name].at, f"{agent.name}@{line:#x} leads to no slot of a unit"
            return
        unit, place = self.layout.units[window.unit], window.input + line - window.first
        for viewer, address in self.leading_to(window.unit, place):
            if (viewer, address) != (agent, line):
                yield self.nodes[viewer.name].at, f"{viewer.name}@{address:#x} leads to the same slot of {unit.name}"
        if not any(place.name == node for way in ways for port in way.unit.ports for place in port.places):
            yield self.nodes[unit.name].at, f"no unit that {agent.name} reaches sends to {node}"
        elif len(ways) == 1:
            yield from self.past_reach(unit, node)

    def leading_to(self, unit: int, place: int) -> Iterator[tuple[Viewer, int]]:
        """The addresses of agents that lead to an input of a unit."""
        for viewer in self.layout.agents:
            for window in viewer.windows:
                if window.unit == unit and window.input <= place <= window.input + window.last - window.first:
                    yield viewer, window.first + place - window.input

    def past_reach(self, unit: Unit, node: str) -> Iterator[Note]:
        """That all vectors of a node are past the reach of a unit."""
        places = [place for port in unit.ports for place in port.places if place.name == node]
        lowest = min(place.address for place in places)
        if lowest >= 1 << unit.reach:
            where = f"the vectors of {node} begin at {lowest:#x}"
            yield self.nodes[unit.name].at, f"the outputs of {unit.name} end at {(1 << unit.reach) - 1:#x}, and {where}"


def shows_more(address: int, size: int, way: Way, port: Viewer) -> bool:
    """Whether the pages of a buffer at an address of a port show more than the buffer, wherever they are mapped:
    something lies in the rest of the first page or of the last, and each span of the way has whole slots alone."""
    page = 1 << way.unit.page
    if any(span.first % page or (span.last + 1) % page for span in way.spans):
        return False
    end = address + size
    rests = [(address & -page, address - 1), (end, (end - 1 | page - 1))]
    seen = [(place.address, place.address + place.last - place.first) for place in port.places]
    seen += [(window.first, window.last) for window in port.windows]
    return any(first <= last and low <= last and first <= high for first, last in rests for low, high in seen)


def listed(places: list[Place]) -> str:
    """The addresses of some places in their node, of many the first."""
    shown = ", ".join(f"{place.first:#x}-{place.last:#x}" for place in places[:MOST_SPANS])
    return shown + (f" and {len(places) - MOST_SPANS} more" if len(places) > MOST_SPANS else "")


def counted(count: int) -> str:
    """A number of slots in words."""
    return f"{count:,} slot{'s' if count > 1 else ''}"


def free_runs(way: Way, used: list[int]) -> list[tuple[int, int, int]]:
    """The free slots of a unit that a way leads to, side by side: the first, the one after the last, and the
    viewer's address of the first; in the order of the slots."""
    found = []
    for span in way.spans:
        first, end = slots_in(span, way.unit)
        for low, high in without(first, end, [(slot, slot + 1) for slot in used]):
            found.append((low, high, span.address + (low << way.unit.page) - span.first))
    return sorted(found)


def without(first: int, end: int, spans: Iterable[tuple[int, int]]) -> list[tuple[int, int]]:
    """What is left of the numbers from `first` up to `end` without those in some spans, each a first number and one
    after the last."""
    left = []
    for low, high in sorted(spans):
        if high <= first or low >= end:
            continue
        if low > first:
            left.append((first, low))
        first = max(first, high)
    return left + ([(first, end)] if first < end else [])


def tables_in(image: bytes | None) -> list[Table] | None:
    """The tables of an image, if there is one."""
    return None if image is None else tables_of(image)[1]
