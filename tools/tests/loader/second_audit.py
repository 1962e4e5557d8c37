"""A second audit of images, in the words of docs/audit.md. It shares no code with the program or the tools: it has the
net as `netconf check` prints it, goes over spans of addresses, and takes records by the second reader beside this
file."""

import re
from collections.abc import Callable, Iterable, Iterator

from tests.loader.second_reader import LAST, Record, fault_of, record_of, words_of

MOST = 67108864
"""How many bytes an input has at most."""
NODE = re.compile(r"(?:(?P<role>agent|vectors) )?(?P<name>\S+) is(?: accept \[(?P<accepts>[^]]*)\])?(?: map "
                  r"\[(?P<entries>[^]]*)\])?"
                  r"(?: over (?P<over>\S+))?;")
INDEXED = re.compile(r"\[(\d+)\]")
UNIT = re.compile(r"unit (?P<name>\S+) kind (?P<kind>\w+) page (?P<page>\d+) slots (?P<slots>\d+) reach (?P<reach>\d+) "
                  r"to (?P<ports>.*);")
CLEAR = re.compile(rb"[^\0]")

Entry = tuple[int, int, list[tuple[str, int]]]
"""A block, and its destinations, each the name of a node and an address."""

Held = dict[tuple[str, int], Record]
"""The records, by the unit and the slot."""

Row = tuple[int, int, list[tuple[int, int]]]
"""A row: its first address and its last, and the names of the first, each a node and an address."""


class Node:
    """A node of a printed net; of a unit its shape and its ports as well."""

    def __init__(self, line: str, number: int) -> None:
        # The index of a name stands in braces here, so that brackets are those of lists.
        line = INDEXED.sub(r"{\1}", line)
        self.node, self.kind, self.page, self.slots, self.reach = number, "", 0, 0, 0
        self.accepts: list[tuple[int, int]] = []
        self.entries: list[Entry] = []
        self.ports: list[str] = []
        self.over: str | None = None
        found = UNIT.fullmatch(line)
        if found:
            self.role, self.kind, self.ports = "unit", found["kind"], found["ports"].split(", ")
            self.page, self.slots, self.reach = (int(found[part]) for part in ("page", "slots", "reach"))
        else:
            found = NODE.fullmatch(line)
            if found is None:
                raise ValueError(f"no line of a net: {line}")
            self.role, self.over = found["role"] or "", found["over"]
            self.accepts = [block(part) for part in (found["accepts"] or "").split(", ") if part]
            self.entries = [entry(part) for part in (found["entries"] or "").split(", ") if part]
        self.name = found["name"]

    def title(self) -> str:
        """The name as it is printed."""
        return self.name.replace("{", "[").replace("}", "]")


def block(text: str) -> tuple[int, int]:
    """The first and the last address of a block."""
    first, last = text.split("-")
    return int(first, 16), int(last, 16)


def entry(text: str) -> Entry:
    """A block and its destinations, each the name of a node and an address."""
    span, dests = text.split(" to ")
    return *block(span), [(dest.split(" at ")[0], int(dest.split(" at ")[1], 16)) for dest in dests.split(" and ")]


class Net:
    """A printed net."""

    def __init__(self, text: str) -> None:
        self.nodes = [Node(line, number) for number, line in enumerate(text.splitlines())]
        self.numbers = {node.name: node for node in self.nodes}
        self.units = [node for node in self.nodes if node.role == "unit"]
        self.agents = [node for node in self.nodes if node.role == "agent"]


def tables_of(net: Net, image: bytes) -> tuple[Held, list[tuple[Node, int]]]:
    """The records of each slot that has one, by unit and slot; and the slots with a record that is shut out, in their
    order."""
    held: Held = {}
    shut: list[tuple[Node, int]] = []
    at = 8
    for unit in net.units:
        count = words_of(unit)
        size, begin = 8 * count, at + 8
        at = begin + size * unit.slots
        for slot in sorted({(hit.start() - begin) // size for hit in CLEAR.finditer(image, begin, at)}):
            data = image[begin + slot * size:begin + (slot + 1) * size]
            words = [int.from_bytes(data[word:word + 8], "little") for word in range(0, size, 8)]
            record = record_of(unit, words, image[4])
            if record:
                held[unit.name, slot] = record
            elif words[-1] % 2:
                shut.append((unit, slot))
    return held, shut


def ends(net: Net, held: Held, access: int, node: Node, lo: int, hi: int,
         start: int) -> Iterator[tuple[int, int, int, int]]:
    """Where addresses `lo` to `hi` of a node end: accepted spans as (first, last, node, address), where `first` and
    `last` count from `start`, which stands for `lo`."""
    hi = min(hi, LAST)
    if lo > hi:
        return
    if node.role == "unit":
        for slot in range(lo >> node.page, min(hi >> node.page, node.slots - 1) + 1):
            record = held.get((node.name, slot))
            if record and record[2 + access]:
                first, last = max(lo, slot << node.page), min(hi, ((slot + 1) << node.page) - 1)
                output = record[1] + first - (slot << node.page)
                yield from ends(net, held, access, net.numbers[node.ports[record[0]]], output, output + last - first,
                                start + first - lo)
        return
    blocks = [*node.accepts, *((first, last) for first, last, _ in node.entries)]
    places = {place for first, last in blocks for place in (first, last + 1) if lo < place <= hi}
    cuts = sorted(places | {lo, hi + 1})
    for first, end in zip(cuts, cuts[1:]):
        if any(low <= first <= high for low, high in node.accepts):
            yield start + first - lo, start + end - 1 - lo, node.node, first
            continue
        inside = [(dests, first - low) for low, high, dests in node.entries if low <= first <= high]
        dests, raised = inside[0] if inside else ([(node.over, 0)] if node.over else [], first)
        for name, address in dests:
            yield from ends(net, held, access, net.numbers[name], address + raised, address + raised + end - 1 - first,
                            start + first - lo)


def view(net: Net, held: Held, access: int, agent: Node) -> list[Row]:
    """The normal rows of an agent for an access, as (first, last, names of the first): 0 is reading and 1 is
    writing."""
    found = list(ends(net, held, access, agent, 0, LAST, 0))
    turns: dict[int, tuple[list[int], list[int]]] = {}
    for number, (first, last, *_) in enumerate(found):
        turns.setdefault(first, ([], []))[0].append(number)
        turns.setdefault(last + 1, ([], []))[1].append(number)
    rows: list[Row] = []
    live: set[int] = set()
    places = sorted(turns)
    for first, end in zip(places, places[1:]):
        live = (live | set(turns[first][0])) - set(turns[first][1])
        names = sorted({(found[number][2], found[number][3] + first - found[number][0]) for number in live})
        if names and rows and rows[-1][1] + 1 == first and [(node, at + first - rows[-1][0])
                                                            for node, at in rows[-1][2]] == names:
            rows[-1] = rows[-1][0], end - 1, rows[-1][2]
        elif names:
            rows.append((first, end - 1, names))
    return rows


def shared(views: Iterable[tuple[int, list[Row]]]) -> list[tuple[int, int, int, list[int]]]:
    """What two or more agents see, as (node, first, last, agents), from their rows by the agents' numbers."""
    claims: dict[int, list[tuple[int, int, int]]] = {}
    for agent, rows in views:
        for lo, hi, names in rows:
            for node, at in names:
                claims.setdefault(node, []).append((at, at + hi - lo, agent))
    found: list[tuple[int, int, int, list[int]]] = []
    for node in sorted(claims):
        places = sorted({place for first, last, _ in claims[node] for place in (first, last + 1)})
        opened: dict[int, list[int]] = {}
        closed: dict[int, list[int]] = {}
        for first, last, agent in claims[node]:
            opened.setdefault(first, []).append(agent)
            closed.setdefault(last + 1, []).append(agent)
        live: dict[int, int] = {}
        for first, end in zip(places, places[1:]):
            for agent in opened.get(first, ()):
                live[agent] = live.get(agent, 0) + 1
            for agent in closed.get(first, ()):
                live[agent] -= 1
            agents = sorted(agent for agent, count in live.items() if count)
            before = found[-1] if found else None
            if len(agents) > 1 and before and (before[0], before[2] + 1, before[3]) == (node, first, agents):
                found[-1] = node, found[-1][1], end - 1, agents
            elif len(agents) > 1:
                found.append((node, first, end - 1, agents))
    return found


def report(net: Net, image: bytes) -> str:
    """The text of an audit."""
    held, shut = tables_of(net, image)
    title = {node.node: node.title() for node in net.nodes}
    views = [(agent, access, view(net, held, access, agent)) for agent in net.agents for access in (0, 1)]
    both = shared([(agent.node, rows) for agent, _, rows in views])
    lines = [f"audit bytes {len(image)} records {len(held)} shut {len(shut)} shared {len(both)}"]
    for agent, access, rows in views:
        lines.append(f"view {agent.title()} for {('read', 'write')[access]} rows {len(rows)}")
        lines += [f"{lo:#x}-{hi:#x} " + ", ".join(f"{title[node]}@{at:#x}" for node, at in names)
                  for lo, hi, names in rows]
    lines += [f"shut {unit.title()} {slot}" for unit, slot in shut]
    lines += [f"shared {title[node]} {lo:#x}-{hi:#x} " + " ".join(title[agent] for agent in agents)
              for node, lo, hi, agents in both]
    return "".join(line + "\n" for line in lines)


def audit(data: bytes, check: Callable[[bytes], tuple[int, str]]) -> tuple[int, str]:
    """The status and the text that are due of an input; `check` gives the status and the output of `netconf check` over
    a text."""
    if len(data) > MOST:
        return 4, "refused: InputLength\n"
    text, zero, image = data.partition(b"\0")
    status, printed = check(text)
    if status:
        return status, printed
    if not zero:
        return 4, "refused: NoImage\n"
    net = Net(printed)
    fault, place = fault_of(net, image)
    return (0, report(net, image)) if fault == "fine" else (4, f"refused: image {fault} {place}\n")
