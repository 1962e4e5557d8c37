"""Books of live grants, and the turns of commands that change them, by the words of docs/model.md ("Books", "Grants and
routes").

A command is a tuple of its word and what follows it, nodes by their names; an access that is not said is None."""

import typing

from judging import nets, placements, units

MOST_GRANTS = 4096


class Grant(typing.NamedTuple):
    """A live grant: its id, what was asked for, and where it stands."""

    id: str
    request: placements.Request
    placement: placements.Placement


class Book:
    """The live grants over a net, in the order in which they were granted."""

    def __init__(self, net: nets.Net) -> None:
        self.net = net
        self.grants: list[Grant] = []

    def live(self, id: str) -> Grant | None:
        """The live grant of an id, or None."""
        return next((grant for grant in self.grants if grant.id == id), None)

    def slots(self) -> placements.Slots:
        """The slots as the live grants leave them: each holds the record of the first grant that has one there."""
        held: dict[nets.Name, units.Record] = {}
        uses: dict[nets.Name, int] = {}
        owned: set[nets.Name] = set()
        for grant in self.grants:
            for slot, record in placements.placed_records(self.net, grant.request, grant.placement).items():
                held.setdefault(slot, record)
                uses[slot] = uses.get(slot, 0) + 1
            own = grant.placement.hops[grant.placement.own]
            owned |= {(own.unit, slot) for slot in placements.slots_of(self.net, grant.request.size, own)}
        return placements.Slots(held, uses, owned)

    def owed(self, access: str, name: nets.Name) -> frozenset[nets.Name]:
        """The names owed to a name for an access: what it resolves to in the net, and what the live grants give
        there."""
        names = nets.resolved(self.net, name)
        for grant in self.grants:
            names = names | placements.added_name(grant.request, grant.placement.v, access, name)
        return names


def rights_of(access: str | None) -> frozenset[str]:
    """The rights that a command says: one access, or both where it says none."""
    return units.BOTH if access is None else frozenset([access])


def first_not_accepted(net: nets.Net, node: int, base: int, size: int) -> int | None:
    """The first address of a buffer that a node does not accept, and the base where it is empty; or None."""
    if size == 0:
        return base
    edge = max(base, net.edge)
    return next((addr for addr in range(base, min(base + size, edge + 1)) if not nets.is_accepted(net, (node, addr))),
                None)


def is_agent(net: nets.Net, node: int | None) -> bool:
    """The node is there, and is an agent."""
    return node is not None and net.nodes[node].role == "agent"


def has_vectors(net: nets.Net, node: int | None) -> bool:
    """The node is there, and has interrupt vectors."""
    return node is not None and net.nodes[node].role == "vectors"


def grant_refusal(book: Book, id: str, agent: int, node: int, base: int, size: int) -> str | None:
    """The first refusal of a grant that needs no search, or None."""
    net = book.net
    if book.live(id):
        return "IdUsed"
    if not is_agent(net, agent):
        return "NoAgent"
    if node is None or has_vectors(net, node):
        return "NoTarget"
    addr = first_not_accepted(net, node, base, size)
    if addr is not None:
        return f"NotAccepted {addr:#x}"
    return "BookFull" if len(book.grants) >= MOST_GRANTS else None


def granted(book: Book, id: str, agent_name: str, node_name: str, base: int, size: int, access: str | None) -> str:
    """The turn of `grant`: its reply; where the buffer is granted the book has the grant at its end."""
    agent, node = book.net.number(agent_name), book.net.number(node_name)
    refusal = grant_refusal(book, id, agent, node, base, size)
    if refusal:
        return f"{id} refused: {refusal}"
    request = placements.Request(agent, node, base, size, rights_of(access))
    found = placements.first(book.net, book.slots(), request)
    if found is None:
        return f"{id} refused: NoPlacement"
    book.grants.append(Grant(id, request, found))
    return f"{id} at {found.v:#x}"


def route_refusal(book: Book, id: str, agent: int, node: int | None) -> str | None:
    """The first refusal of a route that needs no search, or None."""
    if book.live(id):
        return "IdUsed"
    if not is_agent(book.net, agent):
        return "NoAgent"
    if not has_vectors(book.net, node):
        return "NoTarget"
    return "BookFull" if len(book.grants) >= MOST_GRANTS else None


def free_vectors(book: Book, node: int) -> list[int]:
    """The vectors that a node accepts and that no live grant of it has, ascending."""
    taken = {grant.request.base for grant in book.grants if grant.request.node == node}
    return [addr for addr in range(book.net.edge) if nets.is_accepted(book.net, (node, addr)) and addr not in taken]


def routed(book: Book, id: str, agent_name: str, line: int, node_name: str) -> str:
    """The turn of `route`: the least free vector that has an admissible placement at the line."""
    agent, node = book.net.number(agent_name), book.net.number(node_name)
    refusal = route_refusal(book, id, agent, node)
    if refusal:
        return f"{id} refused: {refusal}"
    slots = book.slots()
    for vector in free_vectors(book, node):
        request = placements.Request(agent, node, vector, 1, units.BOTH)
        found = placements.first(book.net, slots, request, line)
        if found is not None:
            book.grants.append(Grant(id, request, found))
            return f"{id} vector {vector:#x}"
    return f"{id} refused: NoPlacement"


def revoked(book: Book, id: str) -> str:
    """The turn of `revoke`: the book is without the grant of the id."""
    if not book.live(id):
        return f"{id} refused: NoGrant"
    book.grants = [grant for grant in book.grants if grant.id != id]
    return f"{id} revoked"
