"""What an image of tables leaves out: the units of a net with their shapes, the windows onto them, and where memory is.

Everything is asked of the program: the net is that of `netconf check`, and the windows are rows of views of the same
net in which each unit stands as a memory that accepts the inputs of its slots. So a row that comes to such a memory is
a window onto the unit, and where it comes to in the memory is the unit's input."""

from collections.abc import Collection, Iterable, Sequence
from dataclasses import dataclass, field

from netconf_tools.limits import MAX_AGENTS, MAX_PARTS
from netconf_tools.source import TOP, Node, Unreadable, nodes_of, noted_nodes_of
from netconf_tools.text import Row, Trouble, run, shortened, views_of

WORDS = {"pages": 1, "remap": 1, "vectors": 2, "radix": 1}
"""How many words a record of each kind has."""


@dataclass
class Window:
    """Addresses `first` to `last` that come to a unit, the first of them at its input `input`. `unit` is the place of
    the unit among the units, counted from 0."""
    first: int
    last: int
    unit: int
    input: int


@dataclass
class Place:
    """Addresses `first` to `last` of a node that accepts them, and the viewer's address at which the first stands."""
    node: int
    name: str
    first: int
    last: int
    address: int


@dataclass
class Viewer:
    """A node with what it sees where no table is written: an agent, or a node to which a unit sends."""
    node: int
    name: str
    notes: list[str]
    windows: list[Window] = field(default_factory=list)
    places: list[Place] = field(default_factory=list)


@dataclass
class Unit:
    """A unit: its node's number, its shape, its ports in their order, and the byte of an image at which its words
    begin."""
    node: int
    name: str
    notes: list[str]
    kind: str
    page: int
    slots: int
    reach: int
    words: int
    begins: int
    ports: list[Viewer] = field(default_factory=list)


@dataclass
class Layout:
    """The units and agents of a net in the order of their nodes, the number of nodes, and the bytes of an image."""
    nodes: int
    bytes: int
    units: list[Unit]
    agents: list[Viewer]


def checked_nodes(text: bytes) -> list[Node]:
    """The nodes of a description as `netconf check` prints them, each with the notes on it in the description."""
    status, output = run("check", text)
    if status:
        raise Trouble(f"{shortened(output.strip(), 300)} (netconf-lint shows the place)")
    try:
        nodes = nodes_of(output)
        noted, lost = noted_nodes_of(text.decode("latin-1"))
    except Unreadable as error:
        raise Trouble(f"what netconf check takes is not read here: {error}") from error
    if lost:
        raise Trouble(f"line {lost[0][0]}: no node has this note: {read_note(lost[0][1])}")
    if list(nodes) != list(noted):
        raise Trouble("the nodes of the description are not found in what netconf check prints")
    for name, node in noted.items():
        nodes[name].notes = [read_note(note) for note in node.notes]
    return list(nodes.values())


def read_note(note: str) -> str:
    """The text of a note, whose bytes are given as letters of Latin-1: in UTF-8, or else in Latin-1."""
    try:
        return note.encode("latin-1").decode("utf-8")
    except UnicodeDecodeError:
        return note


def units_as_memories(nodes: Sequence[Node], viewed: Collection[int]) -> str:
    """The text of a net in which each unit accepts the inputs of its slots, with the viewed nodes, and no others, as
    agents.

    Each node is called `n` and its number, so that the text is short whatever the names are."""
    numbers = {node.name: f"n{number}" for number, node in enumerate(nodes)}
    lines = []
    for number, node in enumerate(nodes):
        line = ("agent " if number in viewed else "") + f"n{number} is"
        accepts = [str(block) for block in node.accepts]
        if node.role == "unit":
            _, page, slots, _ = node.shape
            accepts = [f"0x0-{min((slots << page) - 1, TOP):#x}"]
        line += f" accept [{', '.join(accepts)}]" if accepts else ""
        entries = [f"{entry.lo:#x}-{entry.hi:#x} to " + " and ".join(f"{numbers[name]} at {at:#x}"
                                                                     for name, at in entry.destinations)
                   for entry in node.entries]
        line += f" map [{', '.join(entries)}]" if entries else ""
        lines.append(line + (f" over {numbers[node.over]}" if node.over else "") + ";\n")
    return "".join(lines)


def rows_of(nodes: Sequence[Node], wanted: Iterable[int]) -> dict[int, list[Row]]:
    """The rows that each of the wanted nodes sees in the net in which units stand as memories, by the nodes'
    numbers."""
    parts = sum(len(node.accepts) + len(node.entries) + bool(node.over) for node in nodes)
    units = sum(node.role == "unit" for node in nodes)
    if parts + units > MAX_PARTS:
        raise Trouble(f"the net has {parts} parts, and with each of its {units} units as a memory it passes the limit "
                      f"of {MAX_PARTS}")
    rows: dict[int, list[Row]] = {}
    left = sorted(wanted)
    while left:
        now, left = left[:MAX_AGENTS], left[MAX_AGENTS:]
        text = units_as_memories(nodes, set(now)) + "begin;\n" + "".join(f"view n{number};\n" for number in now)
        status, output = run("run", text.encode())
        if status:
            raise Trouble(f"the net with its units as memories is refused: {output.strip()[:80]}")
        views = views_of(output)
        rows.update({number: views[f"n{number}"] for number in now})
    return rows


def seen_in(rows: Iterable[Row], name: str, nodes: Sequence[Node],
            units: dict[int, int]) -> tuple[list[Window], list[Place]]:
    """The windows and the places in the rows of a node: rows that come to a unit are windows, and each name of any
    other row is a place."""
    windows: list[Window] = []
    places: list[Place] = []
    for row in rows:
        named = [(int(other[1:]), at) for other, at in row.names]
        if any(other in units for other, _ in named):
            if len(named) > 1:
                raise Trouble(f"{name}@{row.lo:#x} comes to a unit and to other names too")
            windows.append(Window(row.lo, row.hi, units[named[0][0]], named[0][1]))
        else:
            places += [Place(other, nodes[other].name, at, at + row.hi - row.lo, row.lo) for other, at in named]
    places.sort(key=lambda place: (place.node, place.first, place.address))
    return windows, places


def viewers_in(nodes: Sequence[Node], wanted: Iterable[int], units: dict[int, int]) -> dict[int, Viewer]:
    """Each of the wanted nodes as a viewer, by its number. Those that see the same share their windows and places."""
    viewers: dict[int, Viewer] = {}
    known: dict[int, tuple[list[Row], tuple[list[Window], list[Place]]]] = {}
    for number, rows in rows_of(nodes, wanted).items():
        node = nodes[number]
        if id(rows) not in known:
            known[id(rows)] = rows, seen_in(rows, node.name, nodes, units)
        viewers[number] = Viewer(number, node.name, node.notes, *known[id(rows)][1])
    return viewers


def layout_of(text: bytes) -> Layout:
    """The layout of a description, which is given as bytes."""
    return layout_from(checked_nodes(text))


def layout_from(nodes: Sequence[Node]) -> Layout:
    """The layout of a net that is not refused, of which the nodes are given in their order."""
    numbers = {node.name: number for number, node in enumerate(nodes)}
    units = [number for number, node in enumerate(nodes) if node.role == "unit"]
    agents = [number for number, node in enumerate(nodes) if node.role == "agent"]
    ports = {numbers[port] for number in units for port in nodes[number].ports}
    places = {number: place for place, number in enumerate(units)}
    viewers = viewers_in(nodes, ports | set(agents), places)
    found: list[Unit] = []
    at = 8
    for number in units:
        node = nodes[number]
        kind, page, slots, reach = node.shape
        if kind not in WORDS:
            raise Trouble(f"{node.name} has the kind {kind}, which is not known here")
        found.append(Unit(number, node.name, node.notes, kind, page, slots, reach, WORDS[kind], at + 8,
                          [viewers[numbers[port]] for port in node.ports]))
        at += 8 + 8 * slots * WORDS[kind]
    return Layout(len(nodes), at, found, [viewers[number] for number in agents])
