"""Buffers in pieces, by the words of docs/model.md ("Scattered placements"): every scattered placement is tried, in
order, and of those that are admissible the first is taken.

A piece is a tuple of its id, its node by its name, its base and its size."""

import functools
import itertools
import typing
from collections.abc import Iterator
from typing import Any

from judging import books, nets, placements, units


class Scatter(typing.NamedTuple):
    """The unit, the agent's address of the first piece, and a hop for each piece."""

    unit: int
    v: int
    hops: tuple[placements.Hop, ...]


def requests_of(net: nets.Net, agent: int, pieces: tuple[tuple[str, str, int, int], ...],
                rights: frozenset[str]) -> list[placements.Request]:
    """What the agent is to see of each piece."""
    return [placements.Request(agent, net.number(node), base, size, rights) for _, node, base, size in pieces]


def starts_of(requests: list[placements.Request], v: int) -> list[int]:
    """The agent's address of each piece, one after the other from an address on."""
    return list(itertools.accumulate((request.size for request in requests[:-1]), initial=v))


def lone_hops(net: nets.Net, slots: placements.Slots, request: placements.Request, v: int) -> list[placements.Hop]:
    """The hops by which one alone leads from an address of the agent to the buffer, through free slots; by port, output
    and input."""
    if v + request.size > nets.TOP + 1:
        return []
    found = (hop for hop, in placements.ways(net, slots, request, (request.agent, v), 1))
    return sorted((hop for hop in found if placements.is_free_hop(net, slots, request, hop)),
                  key=lambda hop: (hop.port, hop.y, hop.x))


def stands(net: nets.Net, slots: placements.Slots, request: placements.Request, v: int) -> bool:
    """The buffer alone has an admissible placement by one hop at an address of the agent."""
    before = placements.seen(net, slots.held)
    records = (placements.placed_records(net, request, placements.Placement(v, (hop,), 0))
               for hop in lone_hops(net, slots, request, v))
    return any(placements.gives(net, before, units.joined(slots.held, each), request, v) for each in records)


def are_apart(net: nets.Net, requests: list[placements.Request], hops: tuple[placements.Hop, ...]) -> bool:
    """No slot is one of two pieces."""
    taken = [slot for request, hop in zip(requests, hops) for slot in placements.slots_of(net, request.size, hop)]
    return len(taken) == len(set(taken))


def all_or_none(choices: Iterator[Any]) -> list[list[placements.Hop]]:
    """Lists to choose from; as soon as one is empty, it alone, since there is no choice."""
    found = []
    for each in choices:
        found.append(each)
        if not each:
            return [each]
    return found


def scatters(net: nets.Net, slots: placements.Slots, requests: list[placements.Request]) -> Iterator[Scatter]:
    """All scattered placements, by unit, by the agent's address, and then piece by piece by port, output and input."""
    known = functools.cache(lambda request, at: lone_hops(net, slots, request, at))
    for unit, v in itertools.product(net.units(), range(net.edge)):
        choices = ([hop for hop in known(request, at) if hop.unit == unit]
                   for request, at in zip(requests, starts_of(requests, v)))
        for hops in itertools.product(*all_or_none(choices)):
            if are_apart(net, requests, hops):
                yield Scatter(unit, v, hops)


def grants_of(requests: list[placements.Request],
              scatter: Scatter) -> list[tuple[placements.Request, placements.Placement]]:
    """For each piece its request and its placement."""
    ends = zip(requests, starts_of(requests, scatter.v), scatter.hops)
    return [(request, placements.Placement(v, (hop,), 0)) for request, v, hop in ends]


def scattered_records(net: nets.Net, requests: list[placements.Request],
                      scatter: Scatter) -> dict[nets.Name, units.Record]:
    """The records of all pieces."""
    records = {}
    for request, placement in grants_of(requests, scatter):
        records.update(placements.placed_records(net, request, placement))
    return records


def gives_all(net: nets.Net, before: dict[tuple[str, nets.Name], frozenset[nets.Name]],
              held: dict[nets.Name, units.Record], requests: list[placements.Request], scatter: Scatter) -> bool:
    """Under records each agent resolves each address for each access as before, but that each piece is added at its
    addresses."""
    def added(access: str, name: nets.Name) -> frozenset[nets.Name]:
        return frozenset().union(*(placements.added_name(request, placement.v, access, name)
                                   for request, placement in grants_of(requests, scatter)))
    return all(units.resolved_under(net, held, access, name) == names | added(access, name)
               for (access, name), names in before.items())


def first(net: nets.Net, slots: placements.Slots, requests: list[placements.Request]) -> Scatter | None:
    """The first admissible scattered placement, or None."""
    before = placements.seen(net, slots.held)
    for scatter in scatters(net, slots, requests):
        held = units.joined(slots.held, scattered_records(net, requests, scatter))
        if gives_all(net, before, held, requests, scatter):
            return scatter
    return None


def numbered(tests: Iterator[Any], refusal: str) -> str | None:
    """The refusal with the number of the first piece that fails its test, or None."""
    place = next((place for place, holds in enumerate(tests) if not holds), None)
    return None if place is None else f"{refusal} {place}"


def not_accepted(net: nets.Net,
                 pieces: tuple[tuple[str, str, int, int], ...] | list[tuple[str, str, int, int]]) -> str | None:
    """The first piece that is not accepted whole, with its first address that is not, or None."""
    for place, (_, node, base, size) in enumerate(pieces):
        addr = books.first_not_accepted(net, net.number(node), base, size)
        if addr is not None:
            return f"NotAccepted {place} {addr:#x}"
    return None


def refusal(book: books.Book, agent: int | None,
            pieces: list[tuple[str, str, int, int]] | tuple[tuple[str, str, int, int], ...]) -> str | None:
    """The first refusal that needs no search, or None. Each is asked of all pieces before the next one."""
    net, ids = book.net, [id for id, *_ in pieces]
    numbers = [net.number(node) for _, node, *_ in pieces]
    used = numbered((not book.live(id) and id not in ids[:place] for place, id in enumerate(ids)), "IdUsed")
    if used:
        return used
    if not books.is_agent(net, agent):
        return "NoAgent"
    none = numbered((number is not None and not books.has_vectors(net, number) for number in numbers), "NoTarget")
    if none:
        return none
    return not_accepted(net, pieces) or ("BookFull" if len(book.grants) + len(pieces) > books.MOST_GRANTS else None)


def gathered(book: books.Book, agent_name: str, pieces: tuple[tuple[str, str, int, int], ...],
             access: str | None) -> str:
    """The turn of `gather`: its reply; where the pieces are granted the book has a grant for each at its end."""
    agent = book.net.number(agent_name)
    refused = refusal(book, agent, pieces)
    if refused:
        return f"gather refused: {refused}"
    requests = requests_of(book.net, agent, pieces, books.rights_of(access))
    found = first(book.net, book.slots(), requests)
    if found is None:
        return "gather refused: NoPlacement"
    for (id, *_), (request, placement) in zip(pieces, grants_of(requests, found)):
        book.grants.append(books.Grant(id, request, placement))
    return f"gather at {found.v:#x} pieces {len(pieces)}"
