"""A second reader of images, in the words of docs/image.md: faults, records and lookups. It shares no code with the
tools but the types of a layout."""

from collections.abc import Iterator, Sequence
from typing import Any, Protocol

from netconf_tools.layout import Layout

LAST = (1 << 56) - 1
KEPT: list[Any] = [None, []]

Record = tuple[int, int, int, int]
"""A record: its port, its output, and whether it may be read and written."""

Fault = tuple[str, int]
"""A fault and its place, or `fine`."""


class AnyUnit(Protocol):
    """The shape of a unit, of a layout or of a printed net."""
    node: int
    kind: str
    page: int
    slots: int
    reach: int

    @property
    def ports(self) -> Sequence[object]:
        """What the unit sends to."""


class AnyLayout(Protocol):
    """The units of a layout, or of a printed net."""

    @property
    def units(self) -> Sequence[AnyUnit]:
        """The units."""


def words_of(unit: AnyUnit) -> int:
    """How many words a record of a unit has."""
    return 2 if unit.kind == "vectors" else 1


def fields(layout: AnyLayout) -> Iterator[tuple[bytes | None, int, Fault | None]]:
    """The fields of an image: for each its bytes where they are told, how many there are, and the answer where they
    differ."""
    yield b"DNIM", 4, ("Header", 0)
    yield None, 2, ("Header", 4)
    yield len(layout.units).to_bytes(2, "little"), 2, ("Header", 6)
    for place, unit in enumerate(layout.units):
        head = unit.node.to_bytes(2, "little") + bytes([words_of(unit), 0]) + unit.slots.to_bytes(4, "little")
        yield head, 8, ("Shape", place)
        yield b"", 8 * words_of(unit) * unit.slots, None


def fault_of(layout: AnyLayout, data: bytes) -> Fault:
    """The first field that is not as in an image of the net, as the answer and what it carries; or `fine`."""
    at = 0
    for due, size, fault in fields(layout):
        if len(data) < at + size:
            return "Short", len(data)
        field = data[at:at + size]
        if fault and (due is None and field not in (b"\x01\x00", b"\x02\x00") or due and field != due):
            return fault
        at += size
    return ("Trailing", at) if at < len(data) else ("fine", 0)


def starts_of(layout: Layout) -> list[int]:
    """The byte of an image at which the words of each unit begin; those of the last layout are kept."""
    if KEPT[0] is not layout:
        ends = [8]
        for unit in layout.units:
            ends.append(ends[-1] + 8 + 8 * words_of(unit) * unit.slots)
        KEPT[:] = layout, [end + 8 for end in ends]
    starts: list[int] = KEPT[1]
    return starts


def word(layout: Layout, data: bytes, place: int, number: int) -> int:
    """A word of a unit."""
    at = starts_of(layout)[place] + 8 * number
    return int.from_bytes(data[at:at + 8], "little")


def record(layout: Layout, data: bytes, place: int, slot: int) -> Record | None:
    """The record of a slot as (port, output, whether it may be read, whether it may be written), or nothing."""
    unit, count = layout.units[place], words_of(layout.units[place])
    words = [word(layout, data, place, slot * count + number) for number in range(count)]
    return record_of(unit, words, data[4])


def record_of(unit: AnyUnit, words: list[int], version: int) -> Record | None:
    """The record that words spell in a unit."""
    gate = words[-1]
    bits = [gate >> bit & 1 for bit in range(64)]
    zeros: dict[str, Sequence[int]] = {"pages": (1, 2, 3, 6, 7), "remap": (6, 7), "vectors": range(6, 64),
                                       "radix": (*range(6, 12), *range(56, 64))}
    if not bits[0] or any(bits[bit] for bit in zeros[unit.kind]):
        return None
    port = bits[1] + 2 * bits[2] + 4 * bits[3]
    first = {"vectors": 64, "radix": 12}.get(unit.kind, 8)
    page = sum(bits[bit] << (bit - first) for bit in range(first, 64))
    output = words[0] if unit.kind == "vectors" else page << unit.page
    may_read, may_write = not bits[4], not bits[5]
    if not may_read and not may_write or port >= len(unit.ports) or output >= 2 ** unit.reach:
        return None
    if version == 1 and not (may_read and may_write):
        return None
    return port, output, int(may_read), int(may_write)


def look(layout: Layout, data: bytes, agent: int, address: int, is_write: bool) -> Any:
    """What an agent's address comes to: `nothing`, `fixed`, or ("out", unit, port, output)."""
    if address > LAST:
        return "nothing"
    view, at = layout.agents[agent], address
    out: Any = "fixed"
    while True:
        window = next((window for window in view.windows if window.first <= at <= window.last), None)
        if window is None:
            return out
        unit = layout.units[window.unit]
        slot, within = divmod(window.input + at - window.first, 2 ** unit.page)
        found = record(layout, data, window.unit, slot) if slot < unit.slots else None
        if found is None or not found[3 if is_write else 2]:
            return "nothing"
        view, at = unit.ports[found[0]], found[1] + within
        out = ("out", window.unit, found[0], at)


def names(layout: Layout, agent: int, address: int, answer: Any) -> str:
    """The names to which an answer comes, as the program prints them."""
    if answer == "nothing":
        return "nothing"
    view, at = layout.agents[agent], address
    if answer != "fixed":
        view, at = layout.units[answer[1]].ports[answer[2]], answer[3]
    found = sorted((place.node, place.first + at - place.address, place.name) for place in view.places
                   if place.address <= at <= place.address + place.last - place.first)
    return ", ".join(f"{name}@{there:#x}" for _, there, name in dict.fromkeys(found)) or "nothing"
