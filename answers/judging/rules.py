"""The rules on nets, by the words of docs/model.md ("The node rules", "The rules on walks"), for small nets: the line
of the first one that is broken. `Wide` is left out: a net of a judge has few walks."""

from typing import Any

from judging import nets

SLOTS_LIMIT = 1048576
VECTORS_LIMIT = 4096


def shown(net: nets.Net, name: nets.Name) -> str:
    """A name as it is printed."""
    return f"{net.nodes[name[0]].name}@{name[1]:#x}"


def is_in_range(node: nets.Node) -> bool:
    """Each block runs upwards, at or below the top, and so do the addresses to which it is sent."""
    blocks = node.accepts + [(lo, hi) for lo, hi, _ in node.entries]
    sent = [addr + hi - lo for lo, hi, dests in node.entries for _, addr in dests]
    return all(lo <= hi <= nets.TOP for lo, hi in blocks) and all(last <= nets.TOP for last in sent)


def overlaps(node: nets.Node, addr: int) -> bool:
    """The address lies in two map blocks, or in a map block and an accept block."""
    mapped = sum(lo <= addr <= hi for lo, hi, _ in node.entries)
    return mapped > 1 or mapped == 1 and any(lo <= addr <= hi for lo, hi in node.accepts)


def least_overlap(node: nets.Node) -> Any:
    """The least address that overlaps, or None: where one does, the first address of a block is the least."""
    firsts = [lo for lo, _ in node.accepts] + [lo for lo, _, _ in node.entries]
    return min((addr for addr in firsts if overlaps(node, addr)), default=None)


def repeats(node: nets.Node) -> bool:
    """An entry has two equal destinations, or a unit names a port twice."""
    lists = [dests for _, _, dests in node.entries] + ([node.unit.ports] if node.unit else [])
    return any(len(set(each)) < len(each) for each in lists)


def passes_vector_space(node: nets.Node) -> bool:
    """A `vectors` node has no map and no `over`, and accepts at most 4,096 different addresses."""
    if node.role != "vectors":
        return True
    accepted = set().union(*(range(lo, hi + 1) for lo, hi in node.accepts))
    return not node.entries and node.over is None and len(accepted) <= VECTORS_LIMIT


def node_fault(net: nets.Net) -> str | None:
    """The line of the first node rule that is broken, node by node."""
    for node in net.nodes:
        if not is_in_range(node):
            return f"Range {node.name}"
        least = least_overlap(node)
        if least is not None:
            return f"Overlap {node.name}@{least:#x}"
        if repeats(node):
            return f"Repeat {node.name}"
        if not passes_vector_space(node):
            return f"VectorSpace {node.name}"
    return None


def fits_shape(unit: nets.Unit) -> bool:
    """The shape of a unit is plain, and its kind fits it."""
    plain = (unit.page <= 40 and 1 <= unit.slots <= 262144 and unit.page <= unit.reach <= 56
             and 1 <= len(unit.ports) <= 8)
    pages = {"vectors": 0, "radix": 12}
    return plain and (unit.kind != "pages" or len(unit.ports) == 1) and unit.page == pages.get(unit.kind, unit.page)


def shape_fault(net: nets.Net) -> str | None:
    """The line of the first unit whose shape is none."""
    return next((f"UnitShape {node.name}" for node in net.nodes if node.unit and not fits_shape(node.unit)), None)


def after_steps(net: nets.Net, count: int, name: nets.Name) -> set[Any]:
    """The names that so many steps lead to from a name."""
    level = {name}
    while level and count:
        level, count = {on for each in level for on in nets.steps(net, each)}, count - 1
    return level


def goes_on(net: nets.Net, count: int, name: nets.Name) -> bool:
    """So many steps can be taken from a name."""
    return bool(after_steps(net, count, name))


def comes_to(net: Any, other: Any, count: Any, name: Any) -> Any:
    """So many steps can lead from a name to another."""
    return other in after_steps(net, count, name)


def way(net: Any, leads: Any, count: Any, name: Any) -> Any:
    """The names behind a name: at each place the least step from which the rest can be taken."""
    names = []
    for left in reversed(range(count)):
        name = min(on for on in nets.steps(net, name) if leads(left, on))
        names.append(name)
    return names


def endless_fault(net: nets.Net) -> str | None:
    """The line of `Loop` or `Deep`, or None. A name that comes to itself goes on for as many steps as may be."""
    names = [name for name in nets.names_of(net, range(len(net.nodes))) if goes_on(net, nets.STEPS, name)]
    if not names:
        return None
    for count in range(1, nets.STEPS):
        first = next((name for name in names if comes_to(net, name, count, name)), None)
        if first is not None:
            cycle = [first] + way(net, lambda left, on: comes_to(net, first, left, on), count, first)
            return "Loop " + " -> ".join(shown(net, name) for name in cycle)
    path = [names[0]] + way(net, lambda left, on: goes_on(net, left, on), nets.STEPS, names[0])
    return "Deep " + " -> ".join(shown(net, name) for name in path)


def fork_fault(net: nets.Net) -> str | None:
    """The line of the least name with two or more destinations that reaches a unit, or None."""
    for name in nets.names_of(net, range(len(net.nodes))):
        if len(nets.steps(net, name)) > 1 and nets.stops(net, name):
            return f"Fork {shown(net, name)} {net.nodes[min(nets.stops(net, name))[0]].name}"
    return None


def find_leads(net: nets.Net, pair: nets.Name) -> bool:
    """For some port of a unit and some address below 2 to its reach the name of that address reaches the other unit."""
    one, other = pair
    unit = net.nodes[one].unit
    names = [name for name in nets.names_of(net, unit.ports) if name[1] < 1 << unit.reach]
    return any(stop[0] == other for name in names for stop in nets.stops(net, name))


def leads_to(net: nets.Net, one: int, other: int) -> Any:
    """A unit leads to another."""
    return net.once("leads", (one, other), find_leads)


def unit_rows(net: nets.Net, count: int) -> list[list[int]]:
    """The rows of so many units, each of which leads to the next, in order of their numbers."""
    rows = [[number] for number in net.units()]
    for _ in range(count - 1):
        rows = [row + [on] for row in rows for on in net.units() if leads_to(net, row[-1], on)]
    return rows


def is_large(net: nets.Net, row: list[int]) -> bool:
    """The slots of the units of a row multiply to more than the limit."""
    product = 1
    for number in row:
        product *= net.nodes[number].unit.slots
    return product > SLOTS_LIMIT


def chain_fault(net: nets.Net) -> str | None:
    """The line of the first row of four units; or of the first row of one, two or three with too many slots; or
    None."""
    rows = unit_rows(net, 4) or next(
        filter(None, ([row for row in unit_rows(net, count) if is_large(net, row)] for count in (1, 2, 3))), [])
    return "Chain " + " ".join(net.nodes[number].name for number in rows[0]) if rows else None


def fault(net: nets.Net) -> str | None:
    """The line of the first rule that the net breaks, or None where it is legal."""
    for rule in (node_fault, shape_fault, endless_fault, fork_fault, chain_fault):
        line = rule(net)
        if line is not None:
            return line
    return None
