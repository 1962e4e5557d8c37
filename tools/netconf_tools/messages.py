"""What a refusal of a text means: its place, what stands there and what was expected, and notes on where to look.

The program decides that a text is refused, by which rule and in which line. A place that is found here counts only
if it has that rule and that line; if it has not, the message has what the program says alone."""

from collections.abc import Iterable, Iterator

from netconf_tools.expand import Description
from netconf_tools.expansion import Expansion, Faulty, PlacedBlock, PlacedNode, Unfollowed, expansion_fault, uses_of
from netconf_tools.faults import Fault, fault_on
from netconf_tools.findings import Finding
from netconf_tools.limits import LAST_ADDRESS, MAX_PAGE, MAX_REACH, MAX_SLOTS
from netconf_tools.text import Refusal, name_of

RULES = {
    "Length": "a description has at most 4,194,304 bytes",
    "Token": "this is not a token",
    "Statement": "no statement goes on like this",
    "Block": "a block is not closed or not open, or a statement stands on the wrong side of `begin`",
    "Nesting": "at most 16 blocks and 32 parentheses are open at once",
    "Duplicate": "this name is already declared",
    "Unknown": "a variable, module, kind or node that is referred to does not exist",
    "Arguments": "the arguments do not fit the parameters of the module, by their number or their sorts",
    "Value": "a sum, product or difference is not from 0 to 2^64 - 1, or a number of a unit is too large",
    "TooMany": "there are more steps, modules, nodes, agents, units or parts than this limit",
    "Range": "a block runs downwards, or it or a destination of it passes 2^56 - 1",
    "Overlap": "this address lies in two blocks of the node",
    "Repeat": "an entry has two equal destinations, or a unit has one port twice",
    "VectorSpace": "a vectors node has no map and no `over`, and accepts at most 4,096 different addresses",
    "UnitShape": "no unit has this shape, or no unit of its kind",
    "Wide": "there are more live walks than this limit: too many entries with several destinations follow one another",
    "Loop": "an address leads back to itself",
    "Deep": "an address can be followed for 65 steps",
    "Fork": "an address with several destinations reaches a unit",
    "Chain": "at most three units stand in a row, and their slots multiply to at most 1,048,576",
}
"""What each rule demands, in a few words."""

GRAMMAR = ("Token", "Statement", "Block", "Nesting")
EXPANDED = ("Duplicate", "Unknown", "Arguments", "Value", "TooMany")
"""The rules whose place is found by the grammar alone, and those whose place is found by expanding the text."""

NOTES = 12
"""How many notes of one sort stand below a finding at most."""

Notes = Iterator[tuple[int, str]]


def explained(description: Description, refusal: Refusal) -> Finding:
    """The finding of a text that the program refuses."""
    detail = f" {refusal.detail}" if refusal.detail else ""
    fault = fault_of(description, refusal)
    if fault is None:
        place = description.place_of_line(refusal.line or 1)
        what = RULES.get(refusal.rule, "a rule of a later netconf")
        return Finding(place.file, place.line, "error", refusal.rule, f"{refusal.rule}{detail}: {what}")
    return description.finding(fault, f"{refusal.rule}{detail}: {fault.message}")


def fault_of(description: Description, refusal: Refusal) -> Fault | None:
    """The place and the notes of a refusal, or None if they are not found."""
    source = description.source
    try:
        if refusal.rule in GRAMMAR:
            fault = fault_on(source, refusal.rule, refusal.line)
        elif refusal.rule in EXPANDED:
            fault = expansion_fault(source, refusal.line)
        else:
            return None if refusal.rule in ("Length", "Wide") else node_fault(Expansion(source, 0), refusal)
    except (Unfollowed, RecursionError):
        return None
    return fault if fault and (fault.rule, fault.line(source)) == (refusal.rule, refusal.line) else None


def names_of(refusal: Refusal) -> list[str]:
    """The names and nodes that a refusal shows: those of a loop stand between arrows, others between blanks."""
    return refusal.detail.replace(" -> ", " ").split(" ")


def node_fault(expansion: Expansion, refusal: Refusal) -> Fault | None:
    """The place and the notes of a refusal that names a node."""
    try:
        expansion.run()
    except Faulty:
        return None
    node = expansion.nodes.get(names_of(refusal)[0].split("@")[0])
    if node is None or refusal.rule not in RULES:
        return None
    notes = list(dict.fromkeys(notes_of(refusal, expansion.nodes, node)))[:NOTES] + uses_of(node)[:NOTES]
    return Fault(refusal.rule, node.at, node.width, RULES[refusal.rule], tuple(notes))


def notes_of(refusal: Refusal, nodes: dict[str, PlacedNode], node: PlacedNode) -> Notes:
    """The notes below a refusal that names a node."""
    names = names_of(refusal)
    if refusal.rule == "Range":
        yield from notes_of_range(node)
    elif refusal.rule in ("Overlap", "Fork"):
        yield from notes_of_blocks(node, name_of(names[0])[1], refusal.rule == "Overlap")
    elif refusal.rule == "Repeat":
        yield from notes_of_repeat(node)
    elif refusal.rule == "VectorSpace":
        yield from notes_of_vectors(node)
    elif refusal.rule == "UnitShape":
        yield from notes_of_shape(node)
    elif refusal.rule in ("Loop", "Deep"):
        yield from notes_of_steps(nodes, names)
    elif refusal.rule == "Chain":
        yield from ((nodes[unit].at, sent_on(nodes[unit])) for unit in dict.fromkeys(names))


def notes_of_range(node: PlacedNode) -> Notes:
    """The blocks of a node that run downwards, or that pass the last address, themselves or where they are sent."""
    parts: list[tuple[PlacedBlock, list[tuple[str, int]]]] = [(block, []) for block in node.accepts]
    for block, destinations in parts + [(entry, entry.destinations) for entry in node.entries]:
        span = PlacedBlock.__str__(block)
        if block.lo > block.hi:
            yield block.at, f"{span} runs downwards"
        elif block.hi > LAST_ADDRESS:
            yield block.at, f"{span} ends above {LAST_ADDRESS:#x}"
        for name, at in destinations:
            if block.lo <= block.hi and at + block.hi - block.lo > LAST_ADDRESS:
                yield block.at, f"{span} is sent to {name} at {at:#x}, past {LAST_ADDRESS:#x}"


def notes_of_blocks(node: PlacedNode, address: int, has_accepts: bool) -> Notes:
    """The entries of a node that hold an address, and before them the blocks that it accepts if they are asked for."""
    for block in node.accepts if has_accepts else ():
        if block.holds(address):
            yield block.at, f"{node.name} accepts {block}"
    for entry in node.entries:
        if entry.holds(address):
            yield entry.at, f"{node.name} maps {entry}"


def notes_of_repeat(node: PlacedNode) -> Notes:
    """The entries of a node that have two equal destinations, and the ports of a unit that names one twice."""
    for entry in node.entries:
        if len(set(entry.destinations)) < len(entry.destinations):
            yield entry.at, f"{node.name} maps {entry}"
    if node.ports:
        yield node.at, sent_on(node)


def sent_on(unit: PlacedNode) -> str:
    """Where a unit sends."""
    return f"{unit.name} sends to {', '.join(unit.ports)}"


def notes_of_vectors(node: PlacedNode) -> Notes:
    """The map of a `vectors` node, its `over`, and the blocks that pass the limit."""
    for entry in node.entries:
        yield entry.at, f"{node.name} maps {entry}"
    if node.over:
        yield node.over_at, f"{node.name} is over {node.over}"
    if not node.entries and not node.over:
        for block in node.accepts:
            yield block.at, f"{node.name} accepts {block}, {block.hi - block.lo + 1} addresses"


def notes_of_shape(node: PlacedNode) -> Notes:
    """The numbers of a unit that no unit has."""
    kind, page, slots, reach = node.shape
    assert isinstance(page, int) and isinstance(slots, int) and isinstance(reach, int)
    for is_wrong, what in (
        (page > MAX_PAGE, f"the page is {page}, and at most {MAX_PAGE}"),
        (slots == 0, "there is no slot"),
        (slots > MAX_SLOTS, f"there are {slots:,} slots, and at most {MAX_SLOTS:,}"),
        (reach < page, f"the reach {reach} is less than the page {page}"),
        (reach > MAX_REACH, f"the reach is {reach}, and at most {MAX_REACH}"),
        (kind == "pages" and len(node.ports) > 1, f"`pages` has one port, and this unit has {len(node.ports)}"),
        (kind == "vectors" and page != 0, f"`vectors` has page 0, and this unit has {page}"),
        (kind == "radix" and page != 12, f"`radix` has page 12, and this unit has {page}"),
    ):
        if is_wrong:
            yield node.at, what


def notes_of_steps(nodes: dict[str, PlacedNode], names: Iterable[str]) -> Notes:
    """For each step from a name to the next, the part of the node that sends it on; each part once."""
    shown = set()
    names = list(names)
    for here, there in zip(names, names[1:]):
        node = nodes.get(here.rsplit("@", 1)[0]) if "@" in here else None
        if node is None:
            continue
        entry = next((entry for entry in node.entries if entry.holds(name_of(here)[1])), None)
        if (node.name, entry.at if entry else -1) not in shown:
            shown.add((node.name, entry.at if entry else -1))
            what = f"maps {entry}" if entry else f"is over {node.over}"
            yield entry.at if entry else node.over_at, f"{here} goes to {there}: {node.name} {what}"
