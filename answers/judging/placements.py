"""Placements, by the words of docs/model.md ("Placements"): every one of a request is tried, and of those that are
admissible the first is taken. Additions ("Grants and routes") are tried likewise."""

import itertools
import typing
from collections.abc import Iterator
from typing import Any

from judging import nets, units


class Request(typing.NamedTuple):
    """An agent is to see so many addresses of a node from a base on, for the accesses of rights."""

    agent: int
    node: int
    base: int
    size: int
    rights: frozenset[str]


class Hop(typing.NamedTuple):
    """A unit, a port, the first input and the first output."""

    unit: int
    port: int
    x: int
    y: int


class Placement(typing.NamedTuple):
    """An address of the agent, one to three hops from the agent's end, and which of them is its own."""

    v: int
    hops: tuple[Hop, ...]
    own: int


class Slots:
    """The slots of units as live grants leave them: what they hold, how many grants use each, and which are owned."""

    def __init__(self, held: dict[nets.Name, units.Record], uses: dict[nets.Name, int], owned: set[nets.Name]) -> None:
        self.held, self.uses, self.owned = held, uses, owned

    def is_free(self, slot: nets.Name) -> bool:
        """No live grant uses the slot."""
        return not self.uses.get(slot)

    def has_owner(self, slot: nets.Name) -> bool:
        """The slot is one of a live grant's own hop."""
        return slot in self.owned


def name_on(name: nets.Name, by: int) -> nets.Name:
    """The name so many addresses on."""
    return name[0], name[1] + by


def slots_of(net: nets.Net, size: int, hop: Hop) -> range:
    """The slots that a hop takes for so many addresses, ascending."""
    page = net.nodes[hop.unit].unit.page
    return range(hop.x >> page, ((hop.x + size - 1) >> page) + 1)


def slot_record(net: nets.Net, hop: Hop, rights: frozenset[str], slot: int) -> units.Record:
    """The record that a hop puts into a slot: its port, and one page after the other."""
    page = net.nodes[hop.unit].unit.page
    return units.Record(hop.port, (hop.y >> page) + slot - (hop.x >> page), rights)


def placed_records(net: nets.Net, request: Request, placement: Placement) -> dict[nets.Name, units.Record]:
    """The records of a placement: with the rights of the request in the own hop and both in every other."""
    records: dict[Any, Any] = {}
    for place, hop in enumerate(placement.hops):
        rights = request.rights if place == placement.own else units.BOTH
        for slot in slots_of(net, request.size, hop):
            records.setdefault((hop.unit, slot), slot_record(net, hop, rights, slot))
    return records


def meets_buffer(net: nets.Net, request: Request, name: nets.Name) -> bool:
    """From a name on, the names resolve to exactly the buffer and reach no stop."""
    return all(nets.resolved(net, name_on(name, by)) == {(request.node, request.base + by)}
               and not nets.stops(net, name_on(name, by)) for by in range(request.size))


def meets_hop(net: nets.Net, request: Request, name: nets.Name, stop: nets.Name) -> bool:
    """From a name on, each reaches the stop of the hop that begins at this one."""
    return all(name_on(stop, by) in nets.stops(net, name_on(name, by)) for by in range(request.size))


def is_usable(net: nets.Net, slots: Slots, hop: Hop, slot: int) -> bool:
    """The slot is free; or it holds just the record, with both rights, and has no owner."""
    place = hop.unit, slot
    return slots.is_free(place) or (
        slots.held.get(place) == slot_record(net, hop, units.BOTH, slot) and not slots.has_owner(place))


def fits(net: nets.Net, slots: Slots, request: Request, hop: Hop) -> bool:
    """Input and output agree within the page, both fit the unit, and each slot is usable."""
    unit = net.nodes[hop.unit].unit
    agree = (hop.x - hop.y) % (1 << unit.page) == 0
    within = hop.x + request.size <= unit.slots << unit.page and hop.y + request.size <= 1 << unit.reach
    return agree and within and all(is_usable(net, slots, hop, slot) for slot in slots_of(net, request.size, hop))


def hops_from(net: nets.Net, slots: Slots, request: Request, name: nets.Name) -> Iterator[Hop]:
    """All hops that a name meets and that fit: of each stop of it, through each port, to each output below the edge
    that agrees with it within the page."""
    for unit, x in nets.stops(net, name):
        if meets_hop(net, request, name, (unit, x)):
            part = net.nodes[unit].unit
            outputs = range(x % (1 << part.page), min(1 << part.reach, net.edge), 1 << part.page)
            for port, y in itertools.product(range(len(part.ports)), outputs):
                hop = Hop(unit, port, x, y)
                if fits(net, slots, request, hop):
                    yield hop


def ways(net: nets.Net, slots: Slots, request: Request, name: nets.Name, most: int = 3,
         known: dict[tuple[nets.Name, int], list[tuple[Hop, ...]]] | None = None) -> list[tuple[Hop, ...]]:
    """All rows of one to so many hops from a name to the buffer. What was found from other names is known."""
    known = {} if known is None else known
    if (name, most) not in known:
        found = known[name, most] = []
        for hop in hops_from(net, slots, request, name):
            output = net.nodes[hop.unit].unit.ports[hop.port], hop.y
            if meets_buffer(net, request, output):
                found.append((hop,))
            if most > 1:
                found += [(hop, *rest) for rest in ways(net, slots, request, output, most - 1, known)]
    return known[name, most]


def is_free_hop(net: nets.Net, slots: Slots, request: Request, hop: Hop) -> bool:
    """Every slot that the hop takes is free."""
    return all(slots.is_free((hop.unit, slot)) for slot in slots_of(net, request.size, hop))


def placements(net: nets.Net, slots: Slots, request: Request, at: int | None = None) -> Iterator[Placement]:
    """All placements of a request, at the agent's address that is asked for, or at any."""
    known: dict[Any, Any] = {}
    for v in range(net.edge) if at is None else [at]:
        if request.size >= 1 and v + request.size <= nets.TOP + 1:
            for hops in ways(net, slots, request, (request.agent, v), 3, known):
                for own, hop in enumerate(hops):
                    if is_free_hop(net, slots, request, hop):
                        yield Placement(v, hops, own)


def key_of(net: nets.Net, placement: Placement) -> list[int]:
    """The numbers by which placements are ordered."""
    key = [len(placement.hops)]
    for hop in reversed(placement.hops):
        key += [hop.unit, hop.port, hop.y, hop.x]
    own = placement.hops[placement.own]
    return key + [placement.v, net.nodes[own.unit].unit.page, len(placement.hops) - placement.own]


def asked_names(net: nets.Net) -> Any:
    """The names of agents that reach a unit: what others resolve to is the same under any records."""
    key = "asked", (0, 0)
    if key not in net.known:
        names = [(agent, addr) for agent in net.agents() for addr in range(net.edge)]
        net.known[key] = [name for name in names if nets.stops(net, name)]
    return net.known[key]


def seen(net: nets.Net, held: dict[nets.Name, units.Record]) -> dict[tuple[str, nets.Name], frozenset[nets.Name]]:
    """What each name of an agent that reaches a unit resolves to under records, for each access."""
    return {(access, name): units.resolved_under(net, held, access, name)
            for access in units.ACCESSES for name in asked_names(net)}


def added_name(request: Request, v: int, access: str, name: nets.Name) -> frozenset[Any] | set[nets.Name]:
    """The name of the buffer that is added at a name for an access where the buffer stands at an address, as a set."""
    by = name[1] - v
    is_there = name[0] == request.agent and 0 <= by < request.size and access in request.rights
    return {(request.node, request.base + by)} if is_there else frozenset()


def gives(net: nets.Net, before: dict[tuple[str, nets.Name], frozenset[nets.Name]], held: dict[nets.Name, units.Record],
          request: Request, v: int) -> bool:
    """Under records each agent resolves each address for each access as before, but that the buffer is added."""
    return all(units.resolved_under(net, held, access, name) == names | added_name(request, v, access, name)
               for (access, name), names in before.items())


def first(net: nets.Net, slots: Slots, request: Request, at: int | None = None) -> Placement | None:
    """The first admissible placement of a request, or None."""
    before = None
    for placement in sorted(placements(net, slots, request, at), key=lambda each: key_of(net, each)):
        before = before or seen(net, slots.held)
        held = units.joined(slots.held, placed_records(net, request, placement))
        if gives(net, before, held, request, placement.v):
            return placement
    return None


def holdable(net: nets.Net, slots: Slots) -> list[tuple[nets.Name, list[units.Record]]]:
    """Each free slot with every record for both accesses that it can hold."""
    found = []
    for number in net.units():
        unit = net.nodes[number].unit
        records = [units.Record(port, page, units.BOTH)
                   for port in range(len(unit.ports)) for page in range(1 << (unit.reach - unit.page))]
        found += [((number, slot), records) for slot in range(unit.slots) if slots.is_free((number, slot))]
    return found


def additions(net: nets.Net, slots: Slots, rights: frozenset[str],
              most: int) -> Iterator[dict[nets.Name, units.Record]]:
    """All additions for rights of at most so many records in free slots: one has the rights and every other both."""
    free = holdable(net, slots)
    for count in range(1, min(most, len(free)) + 1):
        for chosen in itertools.combinations(free, count):
            for records in itertools.product(*(each for _, each in chosen)):
                added = {slot: record for (slot, _), record in zip(chosen, records)}
                for own in added if rights != units.BOTH else list(added)[:1]:
                    yield {**added, own: added[own]._replace(rights=rights)}


def passes_owned(net: nets.Net, slots: Slots, held: dict[nets.Name, units.Record], name: nets.Name,
                 end: nets.Name) -> bool:
    """Some chain from a name to an accepted one passes a slot that a live grant owns. All records held have both
    rights."""
    for stop in nets.stops(net, name):
        output = units.sent(net, held, units.READ, stop)
        if output is not None and end in units.resolved_under(net, held, units.READ, output):
            if slots.has_owner(units.slot_of(net, stop)) or passes_owned(net, slots, held, output, end):
                return True
    return False


def given_by(net: nets.Net, slots: Slots, before: dict[tuple[str, nets.Name], frozenset[nets.Name]],
             added: dict[nets.Name, units.Record], rights: frozenset[str]) -> tuple[nets.Name, nets.Name] | None:
    """The agent's name and the name that records give it exactly, for the accesses of rights and no other; or None."""
    held = units.joined(slots.held, added)
    given: dict[Any, Any] = {}
    for (access, name), names in before.items():
        more = units.resolved_under(net, held, access, name) - names
        if more:
            if access not in rights or len(more) > 1:
                return None
            given.setdefault((name, *more), set()).add(access)
            if len(given) > 1:
                return None
    every = {slot: record._replace(rights=units.BOTH) for slot, record in held.items()}
    for (name, end), accesses in given.items():
        if accesses == rights and not passes_owned(net, slots, every, name, end):
            return name, end
    return None


def all_given(net: nets.Net, slots: Slots, rights: frozenset[str], most: int) -> set[tuple[nets.Name, nets.Name]]:
    """What additions of at most so many records give exactly: pairs of an agent's name and the name that it is
    given."""
    before = seen(net, slots.held)
    found = (given_by(net, slots, before, added, rights) for added in additions(net, slots, rights, most))
    return {pair for pair in found if pair is not None}
