"""Small nets, made by dice: each shape is a sort of machine. Few break a rule, and the judge tells that line too."""

from typing import Any

from judging import nets
from judging.dice import Dice


class Draft:
    """Nodes by their names, which come in an order of the dice."""

    def __init__(self, dice: Dice) -> None:
        self.dice = dice
        self.nodes: list[Any] = []

    def node(self, name: str, role: str = "plain", accepts: list[nets.Name] | tuple[()] = (),
             entries: tuple[()] | list[tuple[int, int, list[tuple[str, int]]]] = (), over: str | None = None) -> None:
        """A node; entries are (first, last, [(name, address)])."""
        self.nodes.append((name, role, list(accepts), list(entries), over, None))

    def unit(self, name: str, kind: str, page: int, slots: int, reach: int, ports: list[str]) -> None:
        """A unit."""
        self.nodes.append((name, "plain", [], [], None, (kind, page, slots, reach, ports)))

    def net(self, mixed: bool = True) -> nets.Net:
        """The net of the nodes."""
        drafts = self.dice.mixed(self.nodes) if mixed else self.nodes
        number = {draft[0]: place for place, draft in enumerate(drafts)}
        made = []
        for name, role, accepts, entries, over, unit in drafts:
            numbered = [(lo, hi, [(number[to], addr) for to, addr in dests]) for lo, hi, dests in entries]
            part = nets.Unit(unit[0], unit[1], unit[2], unit[3], [number[port] for port in unit[4]]) if unit else None
            made.append(nets.Node(name, role, accepts, numbered, None if over is None else number[over], part))
        return nets.Net(made)


def memory(draft: Draft, name: str, last: int) -> None:
    """A memory with addresses up to the last, in one block, or in two that touch or have a hole between them."""
    dice = draft.dice
    if last and dice.once_in(5):
        cut = dice.between(1, last)
        draft.node(name, accepts=dice.mixed([(0, cut - 1), (min(cut + dice.roll(2), last), last)]))
    else:
        draft.node(name, accepts=[(0, last)])


def windows(dice: Dice, dests: list[tuple[str, int]], most: int,
            ends: int = 8) -> list[tuple[int, int, list[tuple[str, int]]]]:
    """One to so many map entries, apart and in any order: each to an address of one of the destinations, once in a
    while to two.

    A destination is a name and how many of its addresses an entry should stay within."""
    entries, at = [], dice.roll(3)
    for _ in range(dice.between(1, most)):
        if at >= ends:
            break
        name, room = dice.one_of(dests)
        addr = dice.roll(max(room - 1, 1))
        length = dice.between(1, max(min(room - addr, ends - at), 1))
        to = [(name, addr)]
        if dice.once_in(7) and len(dests) > 1:
            other, room = dice.one_of(dests)
            if other != name:
                to.append((other, dice.roll(room)))
        entries.append((at, at + length - 1, to))
        at += length + dice.roll(3)
    return dice.mixed(entries)


def bus(draft: Draft, name: str, dests: list[tuple[str, int]], outputs: int, wild: int = 3) -> None:
    """A bus: mostly one that has all of the first destination, from an address on that is no multiple of a page once in
    a while.

    Once in so many times its windows are any."""
    dice = draft.dice
    whole, room = dests[0]
    if dice.once_in(wild):
        draft.node(name, entries=windows(dice, dests, 3, outputs))
        return
    at = dice.one_of([0, 0, 0, 1, 2, 4])
    entries = [(at, at + room - 1, [(whole, 0)])]
    if len(dests) > 1 and dice.once_in(3):
        other, room = dests[1]
        entries.append((at + dests[0][1], at + dests[0][1] + room - 1, [(other, 0)]))
    draft.node(name, entries=entries, over=dice.one_of(dests)[0] if dice.once_in(8) else None)


def agents(draft: Draft, names: list[str], doors: list[tuple[str, int, int]], direct: str, wild: int = 4) -> None:
    """Agents before units, each with some of a unit's inputs: mostly its own, once in a while those of another too.

    A door is a unit, its slots and the exponent of its page. Once in so many times the windows of an agent are any."""
    dice = draft.dice
    unit, slots, page = dice.one_of(doors)
    for place, name in enumerate(names):
        if place and dice.once_in(3):
            unit, slots, page = dice.one_of(doors)
        first = min(place * slots // len(names), slots - 1)
        last = max((place + 1) * slots // len(names), first + 1)
        entries = [(0, ((last - first) << page) - 1, [(unit, first << page)])]
        if dice.once_in(wild):
            entries = windows(dice, [(unit, slots << page)], 2, 9)
        elif dice.once_in(wild):
            shift, at = dice.roll(4), dice.roll(1 << page)
            entries = [(shift, shift + max((slots << page) - at, 1) - 1, [(unit, at)])]
        end = max(hi for _, hi, _ in entries) + 1
        if dice.once_in(2 * wild):
            entries.append((end, end + dice.roll(3), [(unit, dice.roll(slots << page))]))
        elif dice.once_in(wild):
            entries.append((end, end + dice.roll(3), [(direct, dice.roll(3))]))
        draft.node(name, "agent", entries=entries, over=direct if dice.once_in(12) else None)


def one_unit(dice: Dice) -> nets.Net:
    """Agents before one unit, whose ports lead to memories or to a bus that has them at other addresses."""
    draft = Draft(dice)
    last = dice.between(3, 11)
    memory(draft, "ram", last)
    memory(draft, "rom", dice.between(1, 5))
    page, slots = dice.roll(3), dice.between(1, 6)
    reach = min(page + dice.between(1, 3), 4)
    bus(draft, "bus", [("ram", last + 1), ("rom", 4)], 1 << reach)
    ports = dice.mixed(["bus", "ram", "rom"])[: dice.between(1, 3)]
    draft.unit("unit1", dice.one_of(["pages", "remap"]) if len(ports) == 1 else "remap", page, slots, reach, ports)
    agents(draft, ["a", "b", "c"][: dice.between(1, 3)], [("unit1", slots, page)], "ram")
    return draft.net()


def two_units(dice: Dice) -> nets.Net:
    """Two units in a row with a node between them, or none; another agent may come in at the inner one."""
    draft = Draft(dice)
    last = dice.between(3, 9)
    memory(draft, "ram", last)
    pages = dice.roll(3), dice.roll(5) // 2
    inner, outer = dice.between(1, 4), dice.between(2, 4)
    reach = min(pages[0] + dice.between(1, 2), 4)
    bus(draft, "bus", [("ram", last + 1)], 1 << reach)
    draft.unit("inner", "remap", pages[0], inner, reach, dice.mixed(["bus", "ram"])[: dice.between(1, 2)])
    bus(draft, "between", [("inner", inner << pages[0]), ("ram", 3)], 8)
    ports = [dice.one_of(["between", "between", "inner"])] + (["ram"] if dice.once_in(5) else [])
    draft.unit("outer", "remap", pages[1], outer, min(pages[1] + dice.between(1, 3), 4), ports)
    doors = [("outer", outer, pages[1])]
    agents(draft, ["a"], doors, "ram")
    if dice.roll(3):
        agents(draft, ["b"], doors + [("inner", inner, pages[0])], "ram")
    return draft.net()


def three_units(dice: Dice) -> nets.Net:
    """Three units in a row, with nodes between them; other agents may come in behind the first."""
    draft = Draft(dice)
    memory(draft, "ram", dice.between(1, 5))
    pages = [dice.roll(2) for _ in range(3)]
    slots = [dice.between(1, 3) for _ in range(3)]
    reaches = [page + dice.between(1, 2) for page in pages]
    draft.unit("first", "remap", pages[0], slots[0], reaches[0], ["before_second"])
    bus(draft, "before_second", [("second", slots[1] << pages[1])], 1 << reaches[0], 6)
    draft.unit("second", dice.one_of(["pages", "remap"]), pages[1], slots[1], reaches[1], ["before_third"])
    bus(draft, "before_third", [("third", slots[2] << pages[2]), ("ram", 2)], 1 << reaches[1], 6)
    draft.unit("third", "pages", pages[2], slots[2], reaches[2], ["ram"])
    doors = list(zip(["first", "second", "third"], slots, pages))
    agents(draft, ["a"], doors[:1], "ram", 6)
    for name, door in zip("bc", doors[1:]):
        if dice.once_in(4):
            agents(draft, [name], [door], "ram", 6)
    return draft.net()


def fan(dice: Dice) -> nets.Net:
    """A unit with ports to two or three others; or two units of two agents before a shared one."""
    draft = Draft(dice)
    memory(draft, "ram", dice.between(3, 7))
    memory(draft, "rom", dice.between(1, 3))
    if dice.once_in(2):
        names = ["x", "y", "z"][: dice.between(2, 3)]
        page, slots = dice.roll(2), dice.between(2, 4)
        draft.unit("wide", "remap", page, slots, min(page + 2, 3),
                   dice.mixed(names + (["ram"] if dice.once_in(3) else [])))
        doors = [("wide", slots, page)]
        for name in names:
            doors.append((name, dice.between(1, 3), dice.roll(2)))
            reach, ports = dice.between(2, 3), dice.mixed(["ram", "rom"])[: dice.between(1, 2)]
            draft.unit(name, "remap", doors[-1][2], doors[-1][1], reach, ports)
        agents(draft, ["a"] if dice.roll(3) else ["a", "c"], doors[:1], "ram")
        if dice.once_in(2):
            agents(draft, ["b"], doors, "rom")
        return draft.net()
    page, slots = dice.between(1, 2), dice.between(1, 4)
    draft.unit("shared", "remap", page, slots, min(page + dice.between(1, 2), 4),
               ["ram"] + (["rom"] if dice.once_in(2) else []))
    for name, unit in [("a", "left"), ("b", "right")]:
        small, inputs = dice.roll(page + dice.roll(2)), dice.between(1, 4)
        draft.unit(unit, "remap", small, inputs, min(small + dice.between(2, 3), 4), ["shared"])
        agents(draft, [name], [(unit, inputs, small)], "ram", 8)
    if dice.once_in(4):
        agents(draft, ["c"], [("shared", slots, page)], "rom")
    return draft.net()


def lines(dice: Dice) -> nets.Net:
    """Agents whose lines come to interrupt remappers, one or two in a row, and the vectors of two cores."""
    draft = Draft(dice)
    for core in ("core0", "core1"):
        low = dice.between(0, 3)
        blocks = [(low, low + dice.between(0, 2))]
        if dice.once_in(3):
            blocks.append((low + dice.between(3, 4), low + dice.between(4, 5)))
        draft.node(core, "vectors", accepts=blocks)
    page = dice.roll(4) // 3
    near, far = dice.between(2, 4), dice.between(2, 4)
    draft.unit("near", "remap" if page else "vectors", page, near, page + dice.between(2, 3),
               dice.mixed(["core0", "core1"])[: dice.between(1, 2)])
    bus(draft, "before", [("near", near << page), ("core1", 4)], 6)
    reach, ports = dice.between(2, 3), [dice.one_of(["before", "near"])] + (["core1"] if dice.once_in(2) else [])
    draft.unit("far", "vectors", 0, far, reach, dice.mixed(ports))
    doors = [("far", far, 0), ("near", near, page)]
    if dice.once_in(2):
        agents(draft, ["nic", "disk"], [dice.one_of(doors)], "core0")
    else:
        agents(draft, ["nic"], doors[:1], "before")
        agents(draft, ["disk"], doors[1:], "core0")
    return draft.net()


def registers(dice: Dice) -> nets.Net:
    """Small devices that a bus has at several places within pages, and units through which parts of a page are seen
    alone."""
    draft = Draft(dice)
    devices = ["timer", "uart", "gpio"][: dice.between(2, 3)]
    for name in devices:
        draft.node(name, accepts=[(0, dice.roll(3))])
    entries, at = [], dice.roll(3)
    for _ in range(dice.between(2, 5)):
        length = dice.between(1, 2)
        entries.append((at, at + length - 1, [(dice.one_of(devices), 0)]))
        at += length + dice.roll(4)
    draft.node("bus", entries=dice.mixed(entries))
    page, slots = dice.between(1, 2), dice.between(1, 4)
    draft.unit("unit1", "remap", page, slots, 4, dice.mixed(["bus"] + devices[: dice.roll(2)]))
    doors = [("unit1", slots, page)]
    if dice.once_in(3):
        draft.unit("outer", "pages", dice.roll(3), 3, 4, ["unit1"])
        doors.append(("outer", 3, draft.nodes[-1][5][1]))
    agents(draft, ["a", "b"][: dice.between(1, 2)], doors, "timer")
    return draft.net()


def bridges(dice: Dice) -> nets.Net:
    """Buses with several windows and several destinations, seen through one another, and perhaps a unit beside them."""
    draft = Draft(dice)
    memories = [("ram", dice.between(3, 11)), ("rom", dice.between(1, 7)), ("port", dice.between(0, 3))]
    for name, last in memories:
        memory(draft, name, max(last, 1))
    dests = [(name, last + 1) for name, last in memories]
    draft.node("bus1", entries=windows(dice, dests, 4, 14), over="ram" if dice.once_in(3) else None)
    draft.node("bus2", accepts=[(9, 9)] if dice.once_in(4) else [], entries=windows(dice, dests + [("bus1", 12)], 4, 9),
               over="bus1" if dice.once_in(3) else None)
    both = [("bus1", 12), ("bus2", 12)]
    if dice.once_in(2):
        draft.unit("unit1", "pages", dice.roll(3), dice.between(1, 4), 4, [dice.one_of(["bus1", "bus2"])])
        both.append(("unit1", 6))
    for name in ("a", "b"):
        accepts = [(20, 21)] if dice.once_in(4) else []
        entries = [] if dice.once_in(3) else windows(dice, both + dests, 4, 16)
        draft.node(name, "agent", accepts, entries, dice.one_of(["bus1", "bus2", None]))
    return draft.net()


def ruin_unit(dice: Any, unit: Any, number: Any) -> Any:
    """Changes a part of a unit; a port may become the node of a number."""
    change = dice.roll(5)
    if change == 0:
        unit.ports.append(dice.one_of(unit.ports + [number]))
    elif change == 1:
        unit.slots = dice.one_of([0, 262145])
    elif change == 2:
        unit.page = dice.one_of([unit.reach + 1, 41, 0])
    elif change == 3:
        unit.reach = dice.one_of([unit.reach + 1, 6])
    else:
        unit.ports[0] = number


def ruin_node(dice: Any, net: Any, node: Any, number: Any) -> Any:
    """Changes a part of a node, which may lead to the node of a number, to units, or to itself."""
    some_units = net.units()[:3]
    if some_units and dice.once_in(8):
        node.entries = [(0, 3, [(unit, 0) for unit in some_units])]
    elif dice.once_in(12):
        node.entries = [(0, dice.between(62, 66), [(net.nodes.index(node), 1)])]
    elif dice.once_in(2):
        node.over = number
    elif node.entries and dice.roll(3):
        lo, hi, dests = entry = dice.one_of(node.entries)
        node.entries.remove(entry)
        node.entries.append(dice.one_of([
            (lo, hi, dests + [dice.one_of(dests)]),
            (lo, hi, dests + [(number, lo)]),
            (lo, hi, [(number, dice.roll(4))]),
            (lo, hi + 3, dests),
            (hi + 1, lo, dests),
        ]))
    else:
        node.accepts.append((dice.roll(6), dice.roll(8)))


def ruined(dice: Any) -> Any:
    """A net of another shape in which something is changed, so that it may break a rule."""
    net = dice.one_of([one_unit, two_units, fan, registers, lines, bridges])(dice)
    for _ in range(dice.between(1, 2)):
        node, number = dice.one_of(net.nodes), dice.roll(len(net.nodes))
        if node.unit:
            ruin_unit(dice, node.unit, number)
        else:
            ruin_node(dice, net, node, number)
    return nets.Net(net.nodes)


SHAPES = (one_unit, two_units, three_units, fan, registers, lines, bridges, ruined)


def ports_of_two(dice: Dice) -> nets.Net:
    """Two memories, and a unit of 4 pages of two addresses with a port to each; two agents share its last page."""
    draft = Draft(dice)
    draft.node("ram", accepts=[(0, 7)])
    draft.node("rom", accepts=[(0, 3)])
    draft.unit("u", "remap", 1, 4, 3, ["ram", "rom"])
    draft.node("a", "agent", entries=[(0, 7, [("u", 0)]), (8, 9, [("ram", 2)])])
    draft.node("b", "agent", entries=[(0, 1, [("u", 6)]), (2, 2, [("ram", 0), ("rom", 0)])])
    return draft.net(False)


def row_of_two(dice: Dice) -> nets.Net:
    """Two units in a row; the node between them has the last two addresses of the memory too."""
    draft = Draft(dice)
    draft.node("ram", accepts=[(0, 5)])
    draft.unit("outer", "remap", 1, 3, 3, ["between"])
    draft.node("between", entries=[(0, 3, [("inner", 0)]), (4, 5, [("ram", 4)])])
    draft.unit("inner", "pages", 0, 4, 2, ["ram"])
    draft.node("a", "agent", entries=[(0, 5, [("outer", 0)])])
    draft.node("b", "agent", entries=[(0, 0, [("inner", 3)])])
    return draft.net(False)


def row_of_three(dice: Dice) -> nets.Net:
    """Three units in a row, and agents that have the last page of the second and of the third."""
    draft = Draft(dice)
    draft.node("ram", accepts=[(0, 3)])
    draft.unit("first", "pages", 1, 2, 2, ["before_second"])
    draft.unit("second", "pages", 0, 3, 2, ["before_third"])
    draft.unit("third", "pages", 0, 3, 2, ["ram"])
    draft.node("a", "agent", entries=[(0, 3, [("first", 0)])])
    draft.node("b", "agent", entries=[(0, 0, [("second", 2)])])
    draft.node("c", "agent", entries=[(0, 0, [("third", 2)])])
    draft.node("before_second", entries=[(0, 2, [("second", 0)])])
    draft.node("before_third", entries=[(0, 2, [("third", 0)])])
    return draft.net(False)


def two_remappers(dice: Dice) -> nets.Net:
    """Two remappers of interrupts, one before the other, and the vectors of two cores."""
    draft = Draft(dice)
    draft.node("core0", "vectors", accepts=[(1, 3)])
    draft.node("core1", "vectors", accepts=[(2, 3)])
    draft.unit("near", "vectors", 0, 3, 2, ["core0"])
    draft.node("before_near", entries=[(0, 1, [("near", 1)])])
    draft.unit("far", "vectors", 0, 3, 2, ["before_near", "core1"])
    draft.node("nic", "agent", entries=[(0, 2, [("far", 0)])])
    draft.node("disk", "agent", entries=[(0, 1, [("near", 0)])])
    return draft.net(False)


def neighbours(dice: Dice) -> nets.Net:
    """Blocks that overlap and touch, two ways to one name, neighbours that go on and that break: an agent sees each
    node."""
    draft = Draft(dice)
    draft.node("a", accepts=[(8, 20), (0, 3), (4, 10)])
    draft.node("b", entries=[(0, 9, [("a", 0)]), (10, 19, [("a", 10)]), (20, 29, [("a", 10)])])
    draft.node("c", accepts=[(15, 16)], entries=[(0, 9, [("a", 2)])])
    draft.node("d", accepts=[(0, 0)], entries=[(2, 11, [("b", 0), ("c", 0)]), (12, 15, [("b", 16)])])
    draft.node("e", entries=[(5, 9, [("d", 8)])], over="d")
    for name in "abcde":
        draft.node(f"sees_{name}", "agent", over=name)
    return draft.net(False)


FIXED = (ports_of_two, row_of_two, row_of_three, two_remappers)
