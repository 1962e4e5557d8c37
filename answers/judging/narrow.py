"""Small nets in which a search has more to get wrong: windows that begin or end within a page, two ways to one place,
units with many ports, and rows of three units. They are made by dice, as those of shapes.py are."""

from judging.shapes import Draft, agents, bus, memory
from typing import Any

from judging import nets
from judging.dice import Dice


def crooked(dice: Dice, dests: list[tuple[str, int]], most: int,
            ends: int = 9) -> list[tuple[int, int, list[tuple[str, int]]]]:
    """One to so many map entries, apart and in any order: each from any address of a destination on, and of any length;
    once in a while one that has addresses of another entry again.

    A destination is a name and how many addresses it has."""
    entries: list[Any] = []
    at = dice.roll(2)
    for _ in range(dice.between(1, most)):
        if entries and dice.once_in(3):
            lo, hi, [(name, addr)] = dice.one_of(entries)
            addr, room = addr + dice.roll(hi - lo + 1), addr + hi - lo + 1
        else:
            name, room = dice.one_of(dests)
            addr = dice.roll(room)
        length = min(dice.between(1, room - addr), ends - at)
        if length < 1:
            break
        entries.append((at, at + length - 1, [(name, addr)]))
        at += length + dice.roll(2)
    return dice.mixed(entries)


def way(draft: Draft, name: str, dests: list[tuple[str, int]], outputs: int) -> None:
    """A node on the way from a unit: all of the first destination from an address on, or crooked windows, or no
    window."""
    dice = draft.dice
    if dice.once_in(10):
        draft.node(name, over=dests[0][0])
    elif dice.once_in(2):
        draft.node(name, entries=crooked(dice, dests, 3, outputs), over=dests[-1][0] if dice.once_in(8) else None)
    else:
        bus(draft, name, dests, outputs, 6)


def callers(draft: Draft, names: list[str], doors: list[tuple[str, int, int]], direct: str) -> None:
    """Agents before units: with crooked windows, or as other shapes have them, or with the windows of the agent before.

    A door is a unit, its slots and the exponent of its page."""
    dice, kept = draft.dice, None
    for name in names:
        if kept and dice.once_in(4):
            draft.node(name, "agent", entries=kept)
            continue
        if dice.once_in(3):
            agents(draft, [name], [dice.one_of(doors)], direct, 3)
            continue
        dests = [(unit, slots << page) for unit, slots, page in doors]
        kept = crooked(dice, dests + [(direct, 2)] * dice.once_in(4), 3)
        draft.node(name, "agent", entries=kept)


def ports(dice: Dice) -> nets.Net:
    """A unit with three to eight ports, several of which lead to one memory: at other addresses, in part, or in two
    ways."""
    draft = Draft(dice)
    last = dice.between(3, 7)
    memory(draft, "ram", last)
    memory(draft, "rom", dice.between(1, 3))
    page, slots = dice.roll(3), dice.between(1, 5)
    reach = min(page + dice.between(1, 3), 4)
    names = [f"way{number}" for number in range(dice.between(3, 8))]
    ram, rom = ("ram", last + 1), ("rom", 2)
    for name in names:
        way(draft, name, dice.one_of([[ram], [ram, rom], [rom, ram]]), 1 << reach)
    if dice.once_in(3):
        names[dice.roll(len(names))] = "ram"
    doors = [("fan", slots, page)]
    if dice.once_in(3):
        doors.append(("behind", dice.between(1, 2), dice.roll(2)))
        draft.unit("behind", "remap", doors[1][2], doors[1][1], doors[1][2] + 2,
                   dice.mixed(["ram", "rom"])[: dice.between(1, 2)])
        names[dice.roll(len(names))] = "behind"
    draft.unit("fan", "remap", page, slots, reach, names)
    callers(draft, ["a", "b", "c"][: dice.between(1, 3)], doors[: dice.between(1, 2)], "ram")
    return draft.net()


def inner_ports(draft: Any, name: Any, inner: Any, others: Any, outputs: Any) -> Any:
    """The ports of a unit before another one: nodes on the way to that one, it itself, or others."""
    dice, found = draft.dice, []
    for number in range(dice.between(1, 2)):
        if dice.once_in(4):
            found.append(inner[0])
        else:
            found.append(f"{name}_to_{number}")
            way(draft, found[-1], [inner] + [(other, 2) for other in others[: dice.roll(2)]], outputs)
    return list(dict.fromkeys(found + others[: dice.once_in(3)]))


def rows(dice: Any) -> Any:
    """Three units in a row with crooked windows between them, each with one to three ports; agents come in at each of
    them."""
    draft = Draft(dice)
    last = dice.between(2, 5)
    memory(draft, "ram", last)
    pages = [dice.one_of([0, 0, 1, 1, 2]) for _ in range(3)]
    slots = [dice.between(1, 4 if page < 2 else 2) for page in pages]
    reaches = [min(page + dice.between(1, 2), 3) for page in pages]
    way(draft, "third_to_ram", [("ram", last + 1)], 1 << reaches[2])
    draft.unit("third", "remap", pages[2], slots[2], reaches[2],
               dice.mixed(["ram", "third_to_ram"])[: dice.between(1, 2)])
    inner = "third", slots[2] << pages[2]
    draft.unit("second", "remap", pages[1], slots[1], reaches[1],
               inner_ports(draft, "second", inner, ["ram"], 1 << reaches[1]))
    inner = "second", slots[1] << pages[1]
    others = dice.mixed(["ram", "third"])
    draft.unit("first", "remap", pages[0], slots[0], reaches[0],
               inner_ports(draft, "first", inner, others, 1 << reaches[0]))
    doors = list(zip(["first", "second", "third"], slots, pages))
    callers(draft, ["a"], doors[:1], "ram")
    for name, door in zip("bc", doors[1:]):
        if dice.once_in(2):
            callers(draft, [name], [door], "ram")
    return draft.net()


def aliases(dice: Dice) -> nets.Net:
    """Agents that share inputs, agents with two windows onto the same inputs, and a bus that has a memory twice."""
    draft = Draft(dice)
    last = dice.between(3, 7)
    memory(draft, "ram", last)
    page, slots = dice.roll(3), dice.between(2, 5)
    reach = min(page + dice.between(1, 2), 4)
    half = dice.between(1, last)
    draft.node("bus", entries=[(0, last, [("ram", 0)]), (last + 1, last + half, [("ram", dice.roll(last + 2 - half))])])
    draft.unit("unit1", "remap", page, slots, reach, dice.mixed(["bus", "ram"])[: dice.between(1, 2)])
    doors = [("unit1", slots, page)]
    if dice.once_in(2):
        small, count = dice.roll(page + 1), dice.between(2, 4)
        way(draft, "before", [("unit1", slots << page)], 8)
        draft.unit("outer", "remap", small, count, min(small + 2, 3),
                   dice.mixed(["before", "unit1"])[: dice.between(1, 2)])
        doors.append(("outer", count, small))
    shared = crooked(dice, [(unit, count << size) for unit, count, size in doors[-1:]], 2, 8)
    draft.node("a", "agent", entries=shared)
    lo, hi, [(unit, addr)] = dice.one_of(shared)
    size = hi - lo + 1
    twice = [(0, size - 1, [(unit, addr)]), (size, 2 * size - 1, [(unit, addr)])]
    draft.node("b", "agent", entries=twice[: dice.between(1, 2)])
    if dice.once_in(2):
        callers(draft, ["c"], doors[:1], "ram")
    return draft.net()


def full(dice: Dice) -> nets.Net:
    """Few slots of large pages near memory, which fill up, and many of small ones before them, which lead on to
    these."""
    draft = Draft(dice)
    last = dice.between(3, 7)
    memory(draft, "ram", last)
    memory(draft, "rom", 1)
    page = dice.between(1, 2)
    count, reach = dice.between(1, 3), min(page + dice.between(1, 2), 3)
    draft.unit("near", "remap", page, count, reach, ["ram"] + (["rom"] if dice.once_in(3) else []))
    inner, doors = ("near", count << page), []
    if dice.once_in(3):
        size, slots = dice.roll(page + 1), dice.between(1, 3)
        way(draft, "before_near", [inner], 8)
        draft.unit("between", "remap", size, slots, min(size + 2, 3),
                   dice.mixed(["near", "before_near"])[: dice.between(1, 2)])
        inner = "between", slots << size
    for name, unit in [("a", "left"), ("b", "right")][: dice.between(1, 2)]:
        size, slots = dice.roll(page), dice.between(2, 6)
        way(draft, f"{unit}_to", [inner], 8)
        draft.unit(unit, "remap", size, slots, min(size + 3, 3),
                   dice.mixed([inner[0], f"{unit}_to"])[: dice.between(1, 2)])
        doors.append((unit, slots, size))
        callers(draft, [name], doors[-1:], "ram")
    if dice.once_in(3):
        callers(draft, ["c"], [("near", count, page)] + doors, "rom")
    return draft.net()


def remappers(dice: Any) -> Any:
    """Lines that come to the vectors of two to four cores through one to three remappers, some with many ports."""
    draft = Draft(dice)
    cores = [f"core{number}" for number in range(dice.between(2, 4))]
    for core in cores:
        low = dice.between(0, 3)
        draft.node(core, "vectors", accepts=[(low, low + dice.between(0, 2))])
    page = dice.roll(4) // 3
    slots = [dice.between(1, 4) for _ in range(3)]
    ends = list(cores)
    for number in range(dice.roll(4)):
        ends.append(f"way{number}")
        way(draft, ends[-1], [(dice.one_of(cores), 4), (dice.one_of(cores), 4)], 8)
    kind = "remap" if page else "vectors"
    draft.unit("near", kind, page, slots[0], page + dice.between(2, 3) - (page == 1),
               dice.mixed(ends)[: dice.between(1, 6)])
    doors = [("near", slots[0], page)]
    for number, name in enumerate(["middle", "far"][: dice.roll(3)], 1):
        inner = doors[-1][0], doors[-1][1] << doors[-1][2]
        other = dice.one_of(cores)
        draft.unit(name, "vectors", 0, slots[number], dice.between(2, 3), inner_ports(draft, name, inner, [other], 6))
        doors.append((name, slots[number], 0))
    callers(draft, ["nic"], doors[-1:], cores[0])
    callers(draft, ["disk", "card"][: dice.roll(3)], doors, cores[0])
    return draft.net()


def split_windows(dice: Dice, slots: dict[str, int],
                  doors: list[tuple[str, int]]) -> tuple[list[tuple[int, int, list[tuple[str, int]]]], dict[str, int]]:
    """One to three windows one after the other, each onto some of the slots of a unit; mostly from where a slot begins,
    and mostly onto slots that no window before had.

    A door is a unit and the exponent of its page."""
    entries: list[Any] = []
    used: dict[str, int] = {}
    at = dice.roll(2)
    for _ in range(dice.between(1, 3)):
        unit, page = dice.one_of(doors)
        first, count = used.get(unit, dice.roll(2)), dice.between(1, 4)
        if first + count > slots[unit]:
            continue
        length = (count << page) - (dice.roll(1 << page) if dice.once_in(4) else 0)
        entries.append((at, at + length - 1, [(unit, (first << page)
                                               + (dice.roll(1 << page) if dice.once_in(6) else 0))]))
        used[unit] = first + count + dice.roll(2) - dice.once_in(8)
        at += length + dice.once_in(4)
    return dice.mixed(entries), used


def lists(dice: Dice) -> nets.Net:
    """One or two units with some ports and many slots, and agents with windows onto different slots: room for buffers
    in pieces."""
    draft, doors, slots = Draft(dice), [], {}
    last = dice.between(5, 9)
    memory(draft, "ram", last)
    memory(draft, "rom", dice.between(1, 3))
    for name in ["list0", "list1"][: 1 + dice.once_in(2)]:
        page = dice.one_of([0, 0, 1, 1, 2])
        ways = [f"{name}_way{number}" for number in range(2)]
        slots[name], ports = dice.between(4, 9 - 2 * page), dice.mixed(["ram", *ways, "rom"])[: dice.between(1, 4)]
        for each in (each for each in ways if each in ports):
            way(draft, each, [("ram", last + 1), ("rom", 2)], 1 << page + 2)
        draft.unit(name, "remap", page, slots[name], min(page + dice.between(1, 3), 4), ports)
        doors.append((name, page))
    entries, used = split_windows(dice, slots, doors)
    draft.node("a", "agent", entries=entries)
    if dice.once_in(2):
        left = {name: slots[name] - used.get(name, 0) for name, _ in doors}
        beside = [(at, at + (left[name] << page) - 1, [(name, used.get(name, 0) << page)])
                  for at, (name, page) in enumerate(doors[:1])
                  if left[name] > 0]
        draft.node("b", "agent", entries=beside if dice.roll(4) else entries)
    return draft.net()


SHAPES = (ports, rows, aliases, full, remappers, lists)


def eight_ports(dice: Dice) -> nets.Net:
    """A unit with eight ports: to a memory whole, twice; from another page or within a page on; in single addresses;
    beside another memory; by `over`; and in part. Two agents have parts of its slots."""
    draft = Draft(dice)
    draft.node("ram", accepts=[(0, 5)])
    draft.node("rom", accepts=[(0, 1)])
    windows: list[list[nets.Block]] = [
        [(0, 5, 0)], [(0, 5, 0)], [(2, 7, 0)], [(1, 4, 2)], [(0, 0, 5), (3, 3, 0)], [(2, 3, 4)], [], [(0, 1, 3)]]
    for number, parts in enumerate(windows):
        entries = [(lo, hi, [("ram", addr)]) for lo, hi, addr in parts] + [(0, 1, [("rom", 0)])] * (number == 5)
        draft.node(f"way{number}", entries=entries, over=None if parts else "ram")
    draft.unit("fan", "remap", 1, 3, 3, [f"way{number}" for number in range(8)])
    draft.node("a", "agent", entries=[(0, 3, [("fan", 0)]), (4, 4, [("fan", 5)])])
    draft.node("b", "agent", entries=[(1, 2, [("fan", 3)])])
    return draft.net(False)


def crooked_row(dice: Dice) -> nets.Net:
    """Three units in a row with windows between them that begin and end within pages, and two ways to one input; agents
    have an input of the first unit twice, and inputs of the others."""
    draft = Draft(dice)
    draft.node("ram", accepts=[(0, 3)])
    draft.unit("first", "remap", 1, 2, 2, ["before_second", "second"])
    draft.node("before_second", entries=[(0, 1, [("second", 1)]), (3, 3, [("second", 1)])])
    draft.unit("second", "remap", 0, 3, 2, ["before_third", "ram"])
    draft.node("before_third", entries=[(1, 3, [("third", 0)])])
    draft.unit("third", "pages", 1, 2, 2, ["ram"])
    draft.node("a", "agent", entries=[(0, 2, [("first", 1)]), (4, 5, [("first", 0)])])
    draft.node("b", "agent", entries=[(0, 0, [("second", 2)])])
    draft.node("c", "agent", entries=[(2, 3, [("third", 2)])])
    return draft.net(False)


def row_of_remappers(dice: Dice) -> nets.Net:
    """Three remappers in a row before the vectors of three cores, with a line that comes to an input of another line
    again."""
    draft = Draft(dice)
    for core, low in [("core0", 0), ("core1", 1), ("core2", 2)]:
        draft.node(core, "vectors", accepts=[(low, low + 1)])
    draft.node("both", entries=[(0, 1, [("core0", 0)]), (2, 3, [("core1", 1)])])
    draft.unit("near", "vectors", 0, 2, 2, ["core2", "both"])
    draft.node("before_near", entries=[(1, 2, [("near", 0)])])
    draft.unit("middle", "vectors", 0, 2, 2, ["before_near"])
    draft.unit("far", "vectors", 0, 2, 1, ["middle", "core1"])
    draft.node("nic", "agent", entries=[(0, 1, [("far", 0)]), (3, 3, [("far", 1)])])
    draft.node("disk", "agent", entries=[(2, 3, [("near", 0)])])
    return draft.net(False)


FIXED = (eight_ports, crooked_row, row_of_remappers)
