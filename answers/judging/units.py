"""Units under records, by the words of docs/model.md ("Units under records") and docs/image.md.

Rights are a set of accesses. Records stand in a dictionary from a slot, (unit, number), to the record that it holds."""

import typing

from judging import nets

READ, WRITE = "read", "write"
ACCESSES = (READ, WRITE)
BOTH = frozenset(ACCESSES)
WORDS = {"pages": 1, "remap": 1, "vectors": 2, "radix": 1}


class Record(typing.NamedTuple):
    """What a slot holds: the place of a port among those of its unit, a page of the port's node, and rights."""

    port: int
    page: int
    rights: frozenset[str]


def slot_of(net: nets.Net, name: nets.Name) -> nets.Name:
    """The slot of a name in a unit."""
    number, addr = name
    return number, addr >> net.nodes[number].unit.page


def sent(net: nets.Net, held: dict[nets.Name, Record], access: str, stop: nets.Name) -> nets.Name | None:
    """Where the record of its slot sends a name in a unit for an access, or None."""
    record = held.get(slot_of(net, stop))
    if record is None or access not in record.rights:
        return None
    unit = net.nodes[stop[0]].unit
    return unit.ports[record.port], (record.page << unit.page) + (stop[1] & ((1 << unit.page) - 1))


def resolved_under(net: nets.Net, held: dict[nets.Name, Record], access: str, name: nets.Name) -> frozenset[nets.Name]:
    """What a name resolves to under records: what it resolves to in the net, and what its stops come to by their
    records."""
    names = nets.resolved(net, name)
    for stop in nets.stops(net, name):
        output = sent(net, held, access, stop)
        if output is not None:
            names = names | resolved_under(net, held, access, output)
    return names


def joined(held: dict[nets.Name, Record], added: dict[nets.Name, Record]) -> dict[nets.Name, Record]:
    """Records, and in slots that hold none those that are added."""
    return {**added, **held}


def words_of(kind: str, record: Record) -> list[int]:
    """The words that spell a record of a kind."""
    shut = (READ not in record.rights) << 4 | (WRITE not in record.rights) << 5
    gate = 1 | record.port << 1 | shut
    return [record.page, gate] if kind == "vectors" else [record.page << (12 if kind == "radix" else 8) | gate]


def image_of(net: nets.Net, held: dict[nets.Name, Record]) -> bytes:
    """The bytes of the image of tables that hold these records and no others."""
    parts = [b"DNIM", (2).to_bytes(2, "little"), len(net.units()).to_bytes(2, "little")]
    for number in net.units():
        unit = net.nodes[number].unit
        width = WORDS[unit.kind]
        parts += [number.to_bytes(2, "little"), bytes([width, 0]), unit.slots.to_bytes(4, "little")]
        for slot in range(unit.slots):
            record = held.get((number, slot))
            words = [0] * width if record is None else words_of(unit.kind, record)
            parts += [word.to_bytes(8, "little") for word in words]
    return b"".join(parts)
