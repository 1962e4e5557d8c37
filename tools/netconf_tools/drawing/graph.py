"""The net of a description as a graph in the language of Graphviz.

Nodes are boxes by their role, windows are labels of edges. What would make the picture of a real board unreadable is
drawn together: the windows from one node to another share an edge, the devices that one bus alone maps share a table,
and so do the agents that are over one bus and have nothing else."""

import zlib
from collections.abc import Collection, Iterable
from dataclasses import dataclass
from xml.sax.saxutils import escape

from netconf_tools.drawing.colours import KINDS, Guests, kind_of
from netconf_tools.nodes import covered
from netconf_tools.source import Block, Entry, Node
from netconf_tools.text import shortened, size_text

FORMS = {"agent": "rounded,filled", "none": "filled,dashed", "unit": "filled,bold"}
"""The style of a box where it is not `filled`, by the kind of its node."""

FONT = "DejaVu Sans"
"""The font by which Graphviz measures; the picture names fonts of the same widths beside it."""

WIDTH = 30
"""The longest line of a name, in characters."""
LINES = 6
"""The most lines of a name."""
KEY = 400
"""The longest identifier of a box, in characters."""
BOXES, EDGES = 160, 400
"""How many boxes and edges a graph may have to be looked at."""
WINDOWS = 4
"""How many windows an edge shows at most."""
TOGETHER = 6
"""From how many on devices of one bus, or agents over one bus, are drawn as one table."""
CLUSTERS = 4
"""How many boxes of modules stand within one another at most."""
GAP = 8
"""The room between the addresses of a window and the name, in a table."""
TABLE = 96
"""The most rows of one table."""
MONO = 'FACE="DejaVu Sans Mono" POINT-SIZE="9"'
"""The font of addresses."""


EdgeWindow = tuple[Entry, int]
"""A window of an edge: the entry, and the address to which it is sent."""


@dataclass
class Table:
    """Nodes that are drawn as one box: `title`, and for each node its name, what stands before it, and its kind.

    `from_0` says that each window leads to address 0 of its device, so that this is said once."""
    key: str
    title: str
    rows: list[tuple[str, list[str], str]]
    from_0: bool = False


def quoted(text: str) -> str:
    """A text as an identifier of Graphviz, which has a limit on their lengths."""
    if len(text) > KEY:
        text = f"{text[:KEY // 2]} {len(text)} {zlib.crc32(text.encode()):x}"
    return '"' + text.replace("\\", "\\\\").replace('"', '\\"') + '"'


def wrapped(name: str) -> list[str]:
    """A name in lines of at most `WIDTH` characters, broken behind a dot or an underscore where there is one.

    Of a very long name the middle is left out."""
    name = shortened(name, LINES * WIDTH)
    lines: list[str] = []
    while len(name) > WIDTH:
        cut = max(name.rfind(sign, WIDTH // 3, WIDTH) for sign in "._") + 1 or WIDTH
        lines.append(name[:cut])
        name = name[cut:]
    return lines + [name]


def windows_of(node: Node) -> dict[str, list[EdgeWindow]]:
    """For each node to which a node sends addresses, its windows: the entries, each with the address it is sent to."""
    windows: dict[str, list[EdgeWindow]] = {}
    for entry in node.entries:
        for name, at in entry.destinations:
            windows.setdefault(name, []).append((entry, at))
    return windows


def window_text(entry: Entry, at: int, from_0: bool = False) -> str:
    """A window as a line: its addresses, and where they are sent unless they stay as they are, or it is said that all
    are at 0."""
    copies = "" if len(entry.destinations) == 1 else f" (copied to {len(entry.destinations)})"
    return Block.__str__(entry) + (f" at {at:#x}" if at != entry.lo and not from_0 else "") + copies


def lines_of(windows: Iterable[EdgeWindow], most: int = WINDOWS, from_0: bool = False) -> list[str]:
    """The windows of an edge as lines: all, or the first and how many more there are."""
    texts = [window_text(entry, at, from_0) for entry, at in sorted(windows, key=lambda w: w[0].lo)]
    return texts if len(texts) <= most else texts[:most - 1] + [f"and {len(texts) - most + 1} more windows"]


def font(lines: Iterable[str], extra: str = "") -> str:
    """Lines as the inside of a label, in the font of addresses."""
    end = '<BR ALIGN="LEFT"/>'
    return f"<FONT {MONO}{extra}>{end.join(escape(line) for line in lines)}{end}</FONT>"


def sources_of(nodes: dict[str, Node]) -> dict[str, set[str]]:
    """For each node the names of those that lead to it."""
    sources: dict[str, set[str]] = {name: set() for name in nodes}
    for name, node in nodes.items():
        for other in list(windows_of(node)) + ([node.over] if node.over else []) + node.ports:
            sources[other].add(name)
    return sources


def device_tables(nodes: dict[str, Node]) -> list[Table]:
    """The tables of devices: of each bus that alone maps many nodes which lead nowhere themselves."""
    sources = sources_of(nodes)
    tables: list[Table] = []
    for name, node in nodes.items():
        windows = windows_of(node)
        leaves = [n for n in windows if sources[n] == {name} and kind_of(nodes[n]) in ("memory", "registers", "none",
                                                                                       "vectors")
                  and n != node.over]
        if len(leaves) < TOGETHER:
            continue
        leaves.sort(key=lambda n: min(entry.lo for entry, _ in windows[n]))
        parts = [leaves[i:i + TABLE] for i in range(0, len(leaves), TABLE)]
        for number, part in enumerate(parts):
            place = f", part {number + 1} of {len(parts)}" if len(parts) > 1 else ""
            from_0 = all(at == 0 for n in part for _entry, at in windows[n])
            rows = [(n, lines_of(windows[n], 2, from_0), kind_of(nodes[n])) for n in part]
            title = f"{len(part)} devices of {shortened(name, 2 * WIDTH)}{place}"
            tables.append(Table(f"devices {number} of {name}", title, rows, from_0))
    return tables


def agent_tables(nodes: dict[str, Node]) -> list[Table]:
    """The tables of agents: of those that are over one node and have no other part."""
    alike: dict[str, list[str]] = {}
    tables: list[Table] = []
    sources = sources_of(nodes)
    for name, node in nodes.items():
        if node.role == "agent" and node.over and not node.accepts and not node.entries and not sources[name]:
            alike.setdefault(node.over, []).append(name)
    for over, names in alike.items():
        if len(names) >= TOGETHER:
            title = f"{len(names)} agents over {shortened(over, 2 * WIDTH)}"
            tables.append(Table(f"agents over {over}", title, [(n, [], "agent") for n in names]))
    return tables


def table_text(table: Table, links: dict[str, str] | None = None) -> str:
    """A table as a box: one, two or three columns of rows. `links` has for agents where their names lead."""
    count = len(table.rows)
    columns = 1 if count <= 24 else 2 if count <= 60 else 3
    height = -(-count // columns)
    lines = [f'<TR><TD COLSPAN="{4 * columns - 1}"><B>{escape(table.title)}  </B></TD></TR>']
    if table.from_0:
        lines.append(f'<TR><TD COLSPAN="{4 * columns - 1}"><FONT POINT-SIZE="9">each window leads to the device from '
                     'its 0x0 on</FONT></TD></TR>')
    for row in range(height):
        cells: list[str] = []
        for name, windows, kind in table.rows[row::height]:
            cells += ['<TD WIDTH="12"></TD>'] if cells else []
            cells.append(f'<TD ALIGN="LEFT" BALIGN="LEFT">{font(windows) if windows else ""}</TD>')
            cells.append(f'<TD WIDTH="{GAP if windows else 0}"></TD>')
            link = f' HREF="{escape(links[name])}"' if links and name in links else ""
            text = "<BR/>".join(escape(line) + "  " for line in wrapped(name))
            cells.append(f'<TD ALIGN="LEFT" BALIGN="LEFT" BGCOLOR="{KINDS[kind][1]}"{link}>{text}</TD>')
        lines.append("<TR>" + "".join(cells) + "</TR>")
    body = "\n".join(lines)
    return (f'{quoted(table.key)} [shape=plain, label=<<TABLE BORDER="1" CELLBORDER="0" CELLSPACING="0" '
            'CELLPADDING="4" '
            f'BGCOLOR="#ffffff">\n{body}\n</TABLE>>];')


def shape_texts(unit: Node) -> list[str]:
    """The shape of a unit as lines: its kind, its slots with the size of each, and where its outputs end."""
    kind, page, slots, reach = unit.shape
    size = size_text(1 << page) if page else "an address"
    return [f"{kind}: {slots} slot{'s' * (slots != 1)} of {size},", f"outputs below {1 << reach:#x}"]


def node_text(name: str, node: Node, links: dict[str, str] | None = None) -> str:
    """A node as a box with its name; the number of bytes that it accepts, or the shape of a unit; and a link, if it has
    one."""
    kind = kind_of(node)
    colour, style = KINDS[kind][1], FORMS.get(kind, "filled")
    lines = ["<B>" + escape(line) + "</B>" for line in wrapped(name)]
    count = covered(node.accepts)
    small = [f"{count} vectors" if node.role == "vectors" else size_text(count)] if node.accepts else []
    small += shape_texts(node) if node.shape.kind else []
    lines += [f'<FONT POINT-SIZE="9">{escape(line)}</FONT>' for line in small]
    link = f", URL={quoted(links[name])}" if links and name in links else ""
    return f'{quoted(name)} [label=<{"<BR/>".join(lines)}>, fillcolor="{colour}", style="{style}"{link}];'


def edge_texts(name: str, node: Node, box: dict[str, str]) -> list[str]:
    """The edges of a node; `box` gives the box in which a node is drawn."""
    here = box.get(name, name)
    edges: list[str] = []
    tables: dict[str, list[EdgeWindow]] = {}
    for other, windows in windows_of(node).items():
        if other in box:
            tables.setdefault(box[other], []).extend(windows)
        else:
            edges.append(f"{quoted(here)} -> {quoted(other)} [label=<{font(lines_of(windows))}>];")
    for table, windows in tables.items():
        blocks = [entry for entry, _ in windows]
        span = Block(min(b.lo for b in blocks), max(b.hi for b in blocks), 0)
        edges.append(f"{quoted(here)} -> {quoted(table)} [label=<{font([f'{len(blocks)} windows in', str(span)])}>];")
    if node.over and here == name:
        edges.append(f'{quoted(name)} -> {quoted(box.get(node.over, node.over))} [style=dashed, label="over"];')
    labels = ["port"] if len(node.ports) == 1 else [f"port {number}" for number in range(len(node.ports))]
    return edges + [f'{quoted(name)} -> {quoted(box.get(port, port))} [style=bold, label="{label}"];'
                    for port, label in zip(node.ports, labels)]


def legend_text(kinds: Collection[str]) -> str:
    """The legend: the kinds that are drawn, and what the edges mean."""
    rows = [f'<TR><TD BGCOLOR="{colour}" BORDER="1" WIDTH="24"></TD><TD ALIGN="LEFT">{escape(words)}  </TD></TR>'
            for kind, (words, colour) in KINDS.items() if kind in kinds]
    notes = ["thin: a window, and where it is sent", "dashed: every other address"]
    notes += ["bold: a port of a unit"] if "unit" in kinds else []
    rows += [f'<TR><TD COLSPAN="2" ALIGN="LEFT">{escape(note)}  </TD></TR>' for note in notes]
    return ('legend [shape=plain, label=<<TABLE BORDER="1" COLOR="#999999" CELLBORDER="0" CELLSPACING="2" '
            'CELLPADDING="2">\n'
            + "\n".join(rows) + "\n</TABLE>>];")


def clusters(names: Iterable[str], prefix: str, guests: Guests, depth: int = CLUSTERS) -> list[str]:
    """The boxes of modules: for each use of a module with two nodes or more a cluster of its nodes, within one another
    up to a depth."""
    inside: dict[str, list[str]] = {}
    for name in names:
        word, dot, _ = name[len(prefix):].partition(".")
        if dot:
            inside.setdefault(prefix + word, []).append(name)
    lines: list[str] = []
    for use, members in inside.items():
        if len(members) < 2:
            continue
        colour = guests.colour(use + ".")
        inner = clusters(members, use + ".", guests, depth - 1) if depth > 1 else []
        # Each node stands in the line of one cluster: that of the innermost.
        held = set(inner)
        lines += [f"subgraph {quoted(f'cluster {use}')} {{",
                  f'label=<<B>{escape(shortened(use, WIDTH))}</B>>; labeljust=l; style="rounded"; penwidth=2; '
                  f'color="{colour}"; fontname="{FONT}"; fontsize=11;',
                  *(line for line in map(member, members) if line not in held), *inner, "}"]
    return lines


def member(name: str) -> str:
    """The line by which a node stands in a cluster; it does not begin as the line of a box does."""
    return f"  {quoted(name)};"


def size_note(dot: str) -> str:
    """What is to be said of a graph that has too many boxes or edges to be looked at, or nothing."""
    lines = dot.split("\n")
    edges = sum('" -> "' in line for line in lines)
    boxes = sum(line.startswith('"') for line in lines) - edges
    if boxes <= BOXES and edges <= EDGES:
        return ""
    return (f"the graph has {boxes} boxes and {edges} edges, too many to look at; --agent NAME draws what one agent "
            "leads to, and netconf-query who says who sees an address")


def dot_of(name: str, nodes: dict[str, Node], links: dict[str, str] | None = None) -> str:
    """The graph of a net, of the description of a name. `links` has for agents where their boxes lead."""
    tables = device_tables(nodes) + agent_tables(nodes)
    box = {other: table.key for table in tables for other, _, _ in table.rows}
    lines = ["digraph net {", "rankdir=LR; nodesep=0.2; ranksep=0.9;",
             f'label=<<B>The net of {escape(shortened(name, 90))}</B>>; labelloc=t; labeljust=l; fontname="{FONT}"; '
             'fontsize=15;',
             f'node [shape=box, fontname="{FONT}", fontsize=11, margin="0.16,0.07"];',
             f'edge [fontname="{FONT}", fontsize=9, color="#555555", arrowsize=0.7];',
             legend_text({kind_of(node) for node in nodes.values()})]
    lines += [table_text(table, links) for table in tables]
    lines += [node_text(other, node, links) for other, node in nodes.items() if other not in box]
    lines += clusters([other for other in nodes if other not in box], "", Guests())
    for other, node in nodes.items():
        lines += edge_texts(other, node, box)
    for table in tables:
        if table.rows[0][2] == "agent":
            over = nodes[table.rows[0][0]].over or ""
            lines.append(f'{quoted(table.key)} -> {quoted(box.get(over, over))} [style=dashed, label="over"];')
    return "\n".join(lines) + "\n}\n"
