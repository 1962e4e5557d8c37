"""Wrong answers, planted one at a time: each must be found by some case, or the judge is blind to it.

A wrong definition takes the place of a right one, and what the judge then says of the commands of a case stands for
what a wrong program would answer. A wrong text is what the program would print with something changed."""

import contextlib
import re
from typing import Any

from judging import books, gathers, nets, placements, replies, rules, units

RIGHT = {module: dict(vars(module)) for module in (books, gathers, placements, replies, rules, units)}
OWED, SLOTS = books.Book.owed, books.Book.slots


def right(module: Any, name: Any) -> Any:
    """The right definition of a name."""
    return RIGHT[module][name]


def key_with(change: Any) -> Any:
    """The order of placements with a change of the numbers of hops and what stands behind them."""
    def key_of(net: nets.Net, placement: placements.Placement) -> Any:
        hops = [[hop.unit, hop.port, hop.y, hop.x] for hop in reversed(placement.hops)]
        page = net.nodes[placement.hops[placement.own].unit].unit.page
        return [len(hops)] + change(hops, placement.v, page, len(hops) - placement.own)
    return key_of


def flat(hops: Any) -> Any:
    """The numbers of all hops."""
    return [number for hop in hops for number in hop]


def second(net: nets.Net, slots: placements.Slots, request: placements.Request, at: Any = None) -> Any:
    """The second admissible placement, where there is one."""
    found = right(placements, "first")(net, slots, request, at)
    wide = right(placements, "placements")
    if found is None:
        return None
    rest = [each for each in wide(net, slots, request, at) if placements.key_of(net, each) > placements.key_of(net,
                                                                                                               found)]
    before = placements.seen(net, slots.held)
    for each in sorted(rest, key=lambda each: placements.key_of(net, each)):
        held = units.joined(slots.held, placements.placed_records(net, request, each))
        if placements.gives(net, before, held, request, each.v):
            return each
    return found


def gives_where(test: Any) -> Any:
    """What is looked at of a placement is what passes a test of an access, a name and a request."""
    def gives(net: nets.Net, before: Any, held: Any, request: placements.Request, v: int) -> Any:
        kept = {(access, name): names for (access, name), names in before.items() if test(access, name, request, v)}
        return right(placements, "gives")(net, kept, held, request, v)
    return gives


def fits_where(change: Any) -> Any:
    """What a hop must fit, with a change of the slots, the request or the hop that is looked at."""
    def fits(net: nets.Net, slots: placements.Slots, request: placements.Request, hop: placements.Hop) -> Any:
        return change(right(placements, "fits"), net, slots, request, hop)
    return fits


def below_reach(fits: Any, net: nets.Net, slots: placements.Slots, request: placements.Request,
                hop: placements.Hop) -> Any:
    """The last output is left out."""
    return hop.y + request.size < 1 << net.nodes[hop.unit].unit.reach and fits(net, slots, request, hop)


def but_last_slot(fits: Any, net: nets.Net, slots: placements.Slots, request: placements.Request,
                  hop: placements.Hop) -> Any:
    """The last slot of a unit serves nothing."""
    unit = net.nodes[hop.unit].unit
    return hop.x + request.size <= unit.slots - 1 << unit.page and fits(net, slots, request, hop)


def first_port(fits: Any, net: nets.Net, slots: placements.Slots, request: placements.Request,
               hop: placements.Hop) -> Any:
    """Records go through the first port alone."""
    return hop.port == 0 and fits(net, slots, request, hop)


def three_ports(fits: Any, net: nets.Net, slots: placements.Slots, request: placements.Request,
                hop: placements.Hop) -> Any:
    """Records go through the first three ports alone."""
    return hop.port < 3 and fits(net, slots, request, hop)


def from_page(fits: Any, net: nets.Net, slots: placements.Slots, request: placements.Request,
              hop: placements.Hop) -> Any:
    """A hop begins where a slot begins."""
    return hop.x % (1 << net.nodes[hop.unit].unit.page) == 0 and fits(net, slots, request, hop)


def to_page(fits: Any, net: nets.Net, slots: placements.Slots, request: placements.Request, hop: placements.Hop) -> Any:
    """A hop ends where a slot ends."""
    return (hop.x + request.size) % (1 << net.nodes[hop.unit].unit.page) == 0 and fits(net, slots, request, hop)


def end_owned(net: nets.Net, slots: placements.Slots, request: placements.Request, at: Any = None) -> Any:
    """Of three hops the middle one is never the own one."""
    found = right(placements, "placements")(net, slots, request, at)
    return (placement for placement in found if len(placement.hops) < 3 or placement.own != 1)


def two_records(net: nets.Net, held: Any, access: str, name: Any, most: Any = 2) -> Any:
    """Records are followed in two units at most."""
    names = nets.resolved(net, name)
    for stop in nets.stops(net, name) if most else []:
        output = units.sent(net, held, access, stop)
        if output is not None:
            names = names | two_records(net, held, access, output, most - 1)
    return names


def ever_used(book: books.Book) -> Any:
    """Slots stay in use when their buffer is taken back."""
    slots = SLOTS(book)
    ever = book.__dict__.setdefault("ever", {})
    ever.update(dict.fromkeys(slots.uses, 1))
    return placements.Slots(slots.held, {**ever, **slots.uses}, slots.owned)


def given_beside(net: nets.Net, slots: placements.Slots, before: Any, added: Any, rights: Any) -> Any:
    """The first name that records give, whatever else they show."""
    for name in (name for access, name in before if access in rights):
        found = right(placements, "given_by")(net, slots, {key: before[key] for key in before if key[1] == name}, added,
                                              rights)
        if found:
            return found
    return None


def rights_everywhere(net: nets.Net, request: placements.Request, placement: placements.Placement) -> Any:
    """Records of all hops have the rights of the request."""
    records = right(placements, "placed_records")(net, request, placement)
    return {slot: record._replace(rights=request.rights) for slot, record in records.items()}


def never_shared(net: nets.Net, slots: placements.Slots, hop: placements.Hop, slot: Any) -> Any:
    """A slot that another grant uses serves nothing."""
    return slots.is_free((hop.unit, slot))


def shared_with_owners(net: nets.Net, slots: placements.Slots, hop: placements.Hop, slot: Any) -> Any:
    """A slot that another grant owns is shared."""
    place = hop.unit, slot
    return slots.is_free(place) or slots.held.get(place) == placements.slot_record(net, hop, units.BOTH, slot)


def any_record(net: nets.Net, slots: placements.Slots, hop: placements.Hop, slot: Any) -> Any:
    """A slot that holds another record is shared."""
    return not slots.has_owner((hop.unit, slot))


def two_hops(net: nets.Net, slots: placements.Slots, request: placements.Request, name: Any, most: Any = 3,
             known: Any = None) -> Any:
    """No placement has three hops."""
    return right(placements, "ways")(net, slots, request, name, min(most, 2), known)


def shared_too(book: books.Book, id: str) -> Any:
    """A revoke clears what other grants share, too."""
    gone = book.live(id)
    reply = right(books, "revoked")(book, id)
    slots = gone and set(placements.placed_records(book.net, gone.request, gone.placement))
    book.grants = [grant for grant in book.grants
                   if not slots or slots.isdisjoint(placements.placed_records(book.net, grant.request,
                                                                              grant.placement))]
    return reply


def last_revoked(book: books.Book, id: str) -> Any:
    """A revoke takes back the last grant, whatever its id."""
    if not book.live(id):
        return f"{id} refused: NoGrant"
    book.grants.pop()
    return f"{id} revoked"


def any_vector(book: books.Book, node: Any) -> Any:
    """Vectors that live routes have are free."""
    return [addr for addr in range(book.net.edge) if nets.is_accepted(book.net, (node, addr))]


def last_vector(book: books.Book, node: Any) -> Any:
    """The greatest vector that is free comes first."""
    return right(books, "free_vectors")(book, node)[::-1]


def vectors_of_all(book: books.Book, node: Any) -> Any:
    """A vector that a route to another core has is not free."""
    taken = {grant.request.base for grant in book.grants}
    return [addr for addr in right(books, "free_vectors")(book, node) if addr not in taken]


def target_before_agent(book: books.Book, id: str, agent: int, node: Any, base: int, size: int) -> Any:
    """`NoTarget` comes before `NoAgent`."""
    refusal = right(books, "grant_refusal")(book, id, agent, node, base, size)
    is_none = node is None or books.has_vectors(book.net, node)
    return "NoTarget" if refusal == "NoAgent" and is_none else refusal


def agent_before_id(book: books.Book, id: str, agent: int, node: Any, base: int, size: int) -> Any:
    """`IdUsed` comes after `NoAgent`."""
    refusal = right(books, "grant_refusal")(book, id, agent, node, base, size)
    return "NoAgent" if refusal == "IdUsed" and not books.is_agent(book.net, agent) else refusal


def last_not_accepted(net: nets.Net, node: Any, base: int, size: int) -> Any:
    """`NotAccepted` tells the base, whichever address is not accepted."""
    return base if right(books, "first_not_accepted")(net, node, base, size) is not None else None


def second_scatter(net: nets.Net, slots: placements.Slots, requests: Any) -> Any:
    """The second admissible scattered placement, where there is one."""
    found, before = right(gathers, "first")(net, slots, requests), placements.seen(net, slots.held)
    good = (each for each in gathers.scatters(net, slots, requests) if gathers.gives_all(
        net, before, units.joined(slots.held, gathers.scattered_records(net, requests, each)), requests, each))
    return next((each for each in good if each != found), found)


def scatters_by(key: Any) -> Any:
    """Scattered placements in another order."""
    return lambda net, slots, requests: sorted(right(gathers, "scatters")(net, slots, requests), key=key)


def first_start(net: nets.Net, slots: placements.Slots, requests: Any) -> Any:
    """Scattered placements at the first unit and address at which there is one."""
    found = list(right(gathers, "scatters")(net, slots, requests))
    return [each for each in found if each[:2] == found[0][:2]]


def some_compared(kept: Any) -> Any:
    """What is compared is what some of the pieces add."""
    def gives_all(net: nets.Net, before: Any, held: Any, requests: Any, scatter: Any) -> Any:
        grants = gathers.grants_of(requests, scatter)[kept]
        return all(placements.gives(net, {each: names for each, names in before.items() if each[1][0] != request.agent
                                          or placement.v <= each[1][1] < placement.v + request.size}, held, request,
                                    placement.v)
                   for request, placement in grants)
    return gives_all


def live_ids(book: books.Book, agent: int, pieces: Any) -> Any:
    """An id of an earlier piece may come again."""
    parts = [(f"{place}{piece[0]}" if not book.live(piece[0]) else piece[0], *piece[1:])
             for place, piece in enumerate(pieces)]
    return right(gathers, "refusal")(book, agent, parts)


def piece_by_piece(book: books.Book, agent: int, pieces: Any) -> Any:
    """All refusals are asked of a piece before the next one."""
    found = ((place, right(gathers, "refusal")(book, agent, [piece])) for place, piece in enumerate(pieces))
    place, refused = next(((place, each) for place, each in found if each), (0, None))
    first = right(gathers, "refusal")(book, agent, pieces)
    return re.sub(r" 0\b", f" {place}", refused, count=1) if refused else first


def owed_for_reading(book: books.Book, access: str, name: Any) -> Any:
    """What is owed for writing is what is owed for reading."""
    return OWED(book, units.READ, name)


def owed_by_net(book: books.Book, access: str, name: Any) -> Any:
    """What the live grants give is not owed."""
    return nets.resolved(book.net, name)


def joined_rows(book: books.Book, agent: int, access: str) -> Any:
    """Rows that are adjacent and have one name each are one."""
    rows: list[Any] = []
    for lo, hi, names in right(replies, "rows_of")(book, agent, access):
        last = rows[-1] if rows else None
        if last and last[1] == lo - 1 and len(names) == len(last[2]) == 1 and last[2] <= names | last[2]:
            rows[-1] = rows[-1][0], hi, rows[-1][2]
        else:
            rows.append((lo, hi, names))
    return rows


def last_overlap(node: Any) -> Any:
    """`Overlap` tells the last address at which a block begins that overlaps."""
    firsts = [lo for lo, _ in node.accepts] + [lo for lo, _, _ in node.entries]
    return max((addr for addr in firsts if rules.overlaps(node, addr)), default=None)


def last_node(net: nets.Net) -> Any:
    """Nodes are asked from the last to the first."""
    return right(rules, "node_fault")(nets.Net(net.nodes[::-1]))


def greatest_unit(net: nets.Net) -> Any:
    """`Fork` tells the greatest unit that is reached."""
    return right(rules, "fork_fault")(net) and next(
        f"Fork {rules.shown(net, name)} {net.nodes[max(nets.stops(net, name))[0]].name}"
        for name in nets.names_of(net, range(len(net.nodes))) if len(nets.steps(net, name)) > 1
        and nets.stops(net, name))


def rows_of_three(net: nets.Net, count: Any) -> Any:
    """Three units in a row are too many."""
    return right(rules, "unit_rows")(net, min(count, 3))


def swapped_rights(kind: str, record: units.Record) -> Any:
    """The bits of reading and writing change their places."""
    swapped = frozenset({units.READ: units.WRITE, units.WRITE: units.READ}[access] for access in record.rights)
    return right(units, "words_of")(kind, record._replace(rights=swapped))


def without_port(kind: str, record: units.Record) -> Any:
    """The words do not say the port."""
    return right(units, "words_of")(kind, record._replace(port=0))


def whatever_access(net: nets.Net, held: Any, access: str, stop: Any) -> Any:
    """A record sends for both accesses, whatever its rights."""
    outputs = (right(units, "sent")(net, held, each, stop) for each in (access, *units.ACCESSES))
    return next((output for output in outputs if output is not None), None)


def at_page(net: nets.Net, held: Any, access: str, stop: Any) -> Any:
    """A record sends to the beginning of its page."""
    output = right(units, "sent")(net, held, access, stop)
    page = net.nodes[stop[0]].unit.page
    return output and (output[0], output[1] >> page << page)


# Wrong definitions: what is wrong, where, and what takes the right one's place.
DEFINITIONS = [
    ("the input is compared before the output", placements, "key_of",
     key_with(lambda hops, v, page, far: flat([[unit, port, x, y] for unit, port, y, x in hops]) + [v, page, far])),
    ("the port is compared last", placements, "key_of",
     key_with(lambda hops, v, page, far: flat([[unit, y, x, port] for unit, port, y, x in hops]) + [v, page, far])),
    ("hops are compared from the agent's end", placements, "key_of",
     key_with(lambda hops, v, page, far: flat(hops[::-1]) + [v, page, far])),
    ("the agent's address is compared first", placements, "key_of",
     key_with(lambda hops, v, page, far: [v] + flat(hops) + [page, far])),
    ("the larger page is the own one", placements, "key_of",
     key_with(lambda hops, v, page, far: flat(hops) + [v, -page, far])),
    ("of equal pages the one nearest the agent is the own one", placements, "key_of",
     key_with(lambda hops, v, page, far: flat(hops) + [v, page, -far])),
    ("the own one is nearest memory, whatever its page", placements, "key_of",
     key_with(lambda hops, v, page, far: flat(hops) + [v, far])),
    ("the second admissible placement is taken", placements, "first", second),
    ("nothing is admissible", placements, "first", lambda net, slots, request, at=None: None),
    ("every placement is admissible", placements, "gives", lambda net, before, held, request, v: True),
    ("other agents are not looked at", placements, "gives",
     gives_where(lambda access, name, request, v: name[0] == request.agent)),
    ("other addresses of the agent are not looked at", placements, "gives",
     gives_where(lambda access, name, request, v: name[0] != request.agent or v <= name[1] < v + request.size)),
    ("writing is not looked at", placements, "gives", gives_where(lambda access, name, request,
                                                                  v: access == units.READ)),
    ("accesses that are not asked for are not looked at", placements, "gives",
     gives_where(lambda access, name, request, v: access in request.rights)),
    ("no slot is shared", placements, "is_usable", never_shared),
    ("slots that are owned are shared", placements, "is_usable", shared_with_owners),
    ("slots with another record are shared", placements, "is_usable", any_record),
    ("the last output is left out", placements, "fits", fits_where(below_reach)),
    ("the last slot is left out", placements, "fits", fits_where(but_last_slot)),
    ("the first port alone is tried", placements, "fits", fits_where(first_port)),
    ("the first three ports alone are tried", placements, "fits", fits_where(three_ports)),
    ("a hop begins where a slot begins", placements, "fits", fits_where(from_page)),
    ("a hop ends where a slot ends", placements, "fits", fits_where(to_page)),
    ("the middle one of three hops is never the own one", placements, "placements", end_owned),
    ("slots stay in use when their buffer is taken back", books.Book, "slots", ever_used),
    ("records are followed in two units at most", units, "resolved_under", two_records),
    ("three units are too many", placements, "ways", two_hops),
    ("records of all hops have the rights of the request", placements, "placed_records", rights_everywhere),
    ("a revoke clears shared slots", books, "revoked", shared_too),
    ("a revoke takes back the last grant", books, "revoked", last_revoked),
    ("vectors that are taken are given again", books, "free_vectors", any_vector),
    ("the greatest free vector is taken", books, "free_vectors", last_vector),
    ("vectors of another core are taken", books, "free_vectors", vectors_of_all),
    ("the target is asked before the agent", books, "grant_refusal", target_before_agent),
    ("the agent is asked before the id", books, "grant_refusal", agent_before_id),
    ("the base is told as the address that is not accepted", books, "first_not_accepted", last_not_accepted),
    ("pieces share a slot", gathers, "are_apart", lambda net, requests, hops: True),
    ("the second admissible scattered placement is taken", gathers, "first", second_scatter),
    ("nothing in pieces is admissible", gathers, "first", lambda net, slots, requests: None),
    ("of scattered placements the address is compared first", gathers, "scatters",
     scatters_by(lambda each: (each.v, each.unit, each.hops))),
    ("of scattered placements the outputs are compared before the ports", gathers, "scatters",
     scatters_by(lambda each: (each.unit, each.v, [(hop.y, hop.port) for hop in each.hops]))),
    ("pieces are tried at the first address alone", gathers, "scatters", first_start),
    ("of each piece the first output alone is tried", gathers, "lone_hops",
     lambda net, slots, request, v: right(gathers, "lone_hops")(net, slots, request, v)[:1]),
    ("every scattered placement is admissible", gathers, "gives_all", lambda net, before, held, requests,
     scatter: True),
    ("the last piece is not looked at", gathers, "gives_all", some_compared(slice(-1))),
    ("the first piece alone is looked at", gathers, "gives_all", some_compared(slice(1))),
    ("an id of an earlier piece is taken again", gathers, "refusal", live_ids),
    ("all refusals are asked of a piece before the next", gathers, "refusal", piece_by_piece),
    ("what is owed for reading is owed for writing", books.Book, "owed", owed_for_reading),
    ("what the live grants give is not owed", books.Book, "owed", owed_by_net),
    ("adjacent rows are one", replies, "rows_of", joined_rows),
    ("the bits of the rights are swapped", units, "words_of", swapped_rights),
    ("the words have no port", units, "words_of", without_port),
    ("records send for both accesses", units, "sent", whatever_access),
    ("records send to the beginning of the page", units, "sent", at_page),
    ("`Overlap` tells the last address", rules, "least_overlap", last_overlap),
    ("nodes are asked from the last to the first", rules, "node_fault", last_node),
    ("`Fork` tells the greatest unit", rules, "fork_fault", greatest_unit),
    ("a chain of 64 steps is too long", nets, "STEPS", 64),
    ("names that fork are not looked for", rules, "fork_fault", lambda net: None),
    ("cycles are not looked for", rules, "endless_fault", lambda net: None),
    ("three units in a row are too many", rules, "unit_rows", rows_of_three),
    ("any shape fits a unit", rules, "fits_shape", lambda unit: True),
]


def changed(pattern: Any, replacement: Any) -> Any:
    """A text in which the first place of a form is changed."""
    return lambda output: re.sub(pattern, replacement, output, count=1)


# Wrong texts: what is wrong, and what makes it of a right one.
TEXTS = [
    ("an address is one more", changed(rb"at 0x(\d)\n", lambda found: b"at 0x%d\n" % (int(found[1]) + 1))),
    ("a piece is not counted", changed(rb"at (0x\w+) pieces (\d)",
                                       lambda found: b"at %b pieces %d" % (found[1], int(found[2]) - 1))),
    ("the number of a piece is dropped", changed(rb"(IdUsed|NoTarget|NotAccepted) \d", rb"\1")),
    ("a row is dropped", changed(rb"\n0x[^\n]*", b"")),
    ("a name is dropped", changed(rb", [a-z]+@0x[0-9a-f]+", b"")),
    ("two names are swapped", changed(rb" (\w+@\w+), (\w+@\w+)\n", rb" \2, \1\n")),
    ("`NoPlacement` in place of an address", changed(rb" at 0x\w+\n", b" refused: NoPlacement\n")),
    ("`NoPlacement` in place of a vector", changed(rb" vector 0x\w+\n", b" refused: NoPlacement\n")),
    ("a vector in place of `NoPlacement`", changed(rb" refused: NoPlacement\n", b" vector 0x1\n")),
    ("reading in place of writing", changed(rb"for write", b"for read")),
    ("a bit of the tables is turned", changed(rb"\n([0-9a-f]{20})0([0-9a-f]*1)", rb"\n\g<1>1\2")),
    ("the last line is lost", changed(rb"[^\n]*\n\Z", b"")),
]


@contextlib.contextmanager
def planted(place: Any, name: Any, wrong: Any) -> Any:
    """A wrong definition in the place of the right one, as long as it is asked for."""
    kept = getattr(place, name)
    setattr(place, name, wrong)
    try:
        yield
    finally:
        setattr(place, name, kept)


def answer(case: Any, with_rules: Any) -> Any:
    """What is answered to a case by the definitions that stand: its refusal, or the replies to its commands.

    The rules on nets are asked of a case with commands only where they are to be."""
    fault = rules.fault(case.net) if with_rules or not case.commands else None
    return replies.answer(case.net, case.commands) if fault is None else f"refused: {fault}\n".encode()


def finds(cases: Any, plant: Any) -> Any:
    """Some case has another answer by a wrong definition, or with a change of its text."""
    if len(plant) == 2:
        return any(plant[1](case.due[1]) != case.due[1] for case in cases)
    _, place, name, wrong = plant
    asks_rules = place in (rules, nets)
    # A wrong rule is found soonest by what a rule refuses.
    with_nets = sorted((case for case in cases if case.net), key=lambda case: asks_rules and bool(case.commands))
    if place is gathers:
        with_nets = [case for case in with_nets if any(command[0] == "gather" for command in case.commands)]
    with planted(place, name, wrong):
        return any(answer(case, asks_rules) != case.due[1] for case in with_nets)


def is_incomplete(calls: Any, plant: Any) -> Any:
    """With a wrong definition some call says that refusals are not complete."""
    _, place, name, wrong = plant
    with planted(place, name, wrong):
        return not all(call() for call in calls)


PLANTS = DEFINITIONS + TEXTS
COMPLETE = {
    "nothing is admissible",
    "every placement is admissible",
    "no slot is shared",
    "the last output is left out",
    "the last slot is left out",
    "the first three ports alone are tried",
    "three units are too many",
}
# Searches that refuse what some addition gives exactly, or grant what none does; and other additions.
INCOMPLETE = [plant for plant in DEFINITIONS if plant[0] in COMPLETE] + [
    ("additions have one record", placements, "additions",
     lambda net, slots, rights, most: right(placements, "additions")(net, slots, rights, 1)),
    ("ways through slots that are owned count", placements, "passes_owned", lambda net, slots, held, name, end: False),
    ("what is seen beside is not looked at", placements, "given_by", given_beside),
]
