"""Prints a layout: as a table, as JSON, and as a header in C for the loader."""

import collections
import json
import re
from collections.abc import Callable, Iterable
from typing import TypeVar

from netconf_tools.ending import plain
from netconf_tools.layout import Layout, Place, Unit, Viewer, Window

Item = TypeVar("Item")

LINE = 100
"""About how long a line of the header is at most."""


def table(layout: Layout) -> str:
    """A layout as a table: a part each for units, ports, agents, windows and places."""
    parts = [f"nodes {layout.nodes}, image of {layout.bytes} bytes\n"]
    viewers = [(agent.name, agent) for agent in layout.agents]
    viewers += [(f"{unit.name} port {number}", port) for unit in layout.units for number, port in enumerate(unit.ports)]
    parts += columns(["unit", "node", "kind", "page", "slots", "reach", "words", "from byte", "note"],
                     [[unit.name, unit.node, unit.kind, unit.page, unit.slots, unit.reach, unit.words, unit.begins,
                       note_of(unit)]
                      for unit in layout.units])
    parts += columns(["port", "number", "to", "node", "note"],
                     [[unit.name, number, port.name, port.node, note_of(port)] for unit in layout.units
                      for number, port in enumerate(unit.ports)])
    parts += columns(["agent", "node", "note"], [[agent.name, agent.node, note_of(agent)] for agent in layout.agents])
    parts += grouped(["window of", "addresses", "unit", "input"], [(name, viewer.windows) for name, viewer in viewers],
                     lambda window: (span(window), layout.units[window.unit].name, f"{window.input:#x}"))
    parts += grouped(["place of", "node", "its addresses", "at"], [(name, viewer.places) for name, viewer in viewers],
                     lambda place: (place.name, span(place), f"{place.address:#x}"))
    return "".join(parts)


def note_of(node: Viewer | Unit) -> str:
    """The notes on a node in one line, without what a terminal would obey."""
    return plain(", ".join(node.notes))


def span(block: Window | Place) -> str:
    """The first and last address of a window or a place."""
    return f"{block.first:#x}-{block.last:#x}"


def columns(titles: list[str], rows: list[list[object]]) -> list[str]:
    """Rows under their titles, each column as wide as it needs; nothing where there is no row."""
    if not rows:
        return []
    texts = [titles, *([str(cell) for cell in row] for row in rows)]
    widths = [max(len(row[column]) for row in texts) for column in range(len(titles))]
    return ["\n", *("  ".join(cell.ljust(width) for cell, width in zip(row, widths)).rstrip() + "\n" for row in texts)]


def grouped(titles: list[str], groups: list[tuple[str, list[Item]]], cells_of: Callable[[Item],
            tuple[str, ...]]) -> list[str]:
    """A table whose rows are the items of lists, each after the name of its list. A list that stands under several
    names is made text once."""
    known: dict[int, list[tuple[str, ...]]] = {id(items): [cells_of(item) for item in items] for _, items in groups}
    named = [(name, id(items)) for name, items in groups if items]
    if not named:
        return []
    first = max(len(name) for name in [titles[0], *(name for name, _ in named)])
    cells = [cells for rows in known.values() for cells in rows]
    widths = [max(len(cell) for cell in column) for column in zip(titles[1:], *cells)]
    form = "  ".join(f"{{:<{width}}}" for width in widths)
    lines = {key: [form.format(*cells).rstrip() + "\n" for cells in rows] for key, rows in known.items()}
    return ["\n", f"{titles[0]:<{first}}  {form.format(*titles[1:]).rstrip()}\n",
            *(f"{name:<{first}}  {line}" for name, key in named for line in lines[key])]


def as_json(layout: Layout) -> str:
    """A layout as JSON, with a line for each window and place. Addresses are texts in hexadecimal, as the program
    prints them; other numbers are numbers."""
    known: dict[int, str] = {}
    units = [inner({"name": unit.name, "node": unit.node, "notes": unit.notes, "kind": unit.kind, "page": unit.page,
                    "slots": unit.slots,
                    "reach": unit.reach, "words": unit.words, "from_byte": unit.begins},
                   ports=listed([viewed(port, layout, known) for port in unit.ports])) for unit in layout.units]
    agents = [viewed(agent, layout, known) for agent in layout.agents]
    return inner({"nodes": layout.nodes, "bytes": layout.bytes}, units=listed(units), agents=listed(agents)) + "\n"


def inner(head: dict[str, object], **lists: str) -> str:
    """An object as JSON, with lists whose texts are given after its other members."""
    return json.dumps(head)[:-1] + "".join(f', "{name}": {text}' for name, text in lists.items()) + "}"


def listed(texts: Iterable[str]) -> str:
    """A list as JSON, with a line for each of its texts."""
    return "[" + "".join(f"{',' * bool(place)}\n{text}" for place, text in enumerate(texts)) + "]"


def viewed(viewer: Viewer, layout: Layout, known: dict[int, str]) -> str:
    """An agent or a port as JSON has it; `known` keeps the texts of lists, which viewers may share."""
    if id(viewer.windows) not in known:
        known[id(viewer.windows)] = listed([
            f'{{"first": "{window.first:#x}", "last": "{window.last:#x}", "unit": "{layout.units[window.unit].name}", '
            f'"input": "{window.input:#x}"}}' for window in viewer.windows])
    if id(viewer.places) not in known:
        known[id(viewer.places)] = listed([
            f'{{"node": {place.node}, "name": "{place.name}", "first": "{place.first:#x}", "last": "{place.last:#x}", '
            f'"address": "{place.address:#x}"}}' for place in viewer.places])
    return inner({"name": viewer.name, "node": viewer.node, "notes": viewer.notes}, windows=known[id(viewer.windows)],
                 places=known[id(viewer.places)])


def header(layout: Layout, prefix: str) -> str:
    """A layout as a header in C, with a constant `PREFIX` of the type `struct netconf_layout`."""
    lines = ["/* The layout of a net's tables. Made by netconf-layout of the description: change that one. */",
             f"#ifndef NETCONF_LAYOUT_{prefix.upper()}_H", f"#define NETCONF_LAYOUT_{prefix.upper()}_H", "",
             '#include "netconf_image.h"', ""]
    lines += numbered(prefix, "unit", [(unit.name, unit.node, place) for place, unit in enumerate(layout.units)])
    lines += numbered(prefix, "agent", [(agent.name, agent.node, place) for place, agent in enumerate(layout.agents)])
    named = {place.node: place.name for viewer in viewers_of(layout) for place in viewer.places}
    lines += numbered(prefix, "node", [(named[node], node, node) for node in sorted(named)])
    known: dict[int, list[str]] = {}
    for viewer in viewers_of(layout):
        if id(viewer.windows) not in known:
            known[id(viewer.windows)] = [f"{number(w.first)}, {number(w.last)}, {number(w.input)}, {w.unit}"
                                         for w in viewer.windows]
        if id(viewer.places) not in known:
            known[id(viewer.places)] = [f"{number(p.first)}, {number(p.last)}, {number(p.address)}, {p.node}"
                                        for p in viewer.places]
        lines += array("netconf_window", f"{prefix}_windows_{viewer.node}", known[id(viewer.windows)])
        lines += array("netconf_place", f"{prefix}_places_{viewer.node}", known[id(viewer.places)])
    for place, unit in enumerate(layout.units):
        lines += array("netconf_view", f"{prefix}_ports_{place}", [view(prefix, port) for port in unit.ports])
    lines += array("netconf_unit", f"{prefix}_units",
                   [f"{quoted(unit.name)}, {quoted_notes(unit)}, {prefix}_ports_{place}, "
                    f"NETCONF_KIND_{unit.kind.upper()}, {unit.slots}, {unit.node}, {unit.page}, {unit.reach}, "
                    f"{len(unit.ports)}"
                    for place, unit in enumerate(layout.units)])
    lines += array("netconf_view", f"{prefix}_agents", [view(prefix, agent) for agent in layout.agents])
    units, agents = (f"{prefix}_{what}" if some else "NULL" for what, some in (("units", layout.units),
                                                                               ("agents", layout.agents)))
    lines += [f"static const struct netconf_layout {prefix} = {{{units}, {agents}, {len(layout.units)}, "
              f"{len(layout.agents)}}};", "",
              "#endif"]
    return "\n".join(lines) + "\n"


def viewers_of(layout: Layout) -> list[Viewer]:
    """Each agent and each port once, by the number of its node."""
    viewers = {viewer.node: viewer for viewer in layout.agents + [port for unit in layout.units for port in unit.ports]}
    return [viewers[node] for node in sorted(viewers)]


def numbered(prefix: str, what: str, items: list[tuple[str, int, int]]) -> list[str]:
    """An enumeration of names with their numbers; a name that another has too is followed by the node's number."""
    words = [re.sub(r"\W+", "_", name).strip("_") for name, _, _ in items]
    count = collections.Counter(words)
    words = [word if count[word] == 1 else f"{word}_node_{node}" for word, (_, node, _) in zip(words, items)]
    if not items:
        return []
    return [f"enum {prefix}_{what} {{",
            *(f"    {prefix}_{what}_{word} = {value}," for word, (_, _, value) in zip(words[:-1], items)),
            f"    {prefix}_{what}_{words[-1]} = {items[-1][2]}", "};", ""]


def array(kind: str, name: str, items: list[str]) -> list[str]:
    """A constant array of structs; nothing where it has none."""
    if not items:
        return []
    return [f"static const struct {kind} {name}[] = {{", *(f"    {{{item}}}," for item in items[:-1]),
            f"    {{{items[-1]}}}", "};", ""]


def view(prefix: str, viewer: Viewer) -> str:
    """An agent or a port as an initializer."""
    windows, places = (f"{prefix}_{what}_{viewer.node}" if some else "NULL"
                       for what, some in (("windows", viewer.windows), ("places", viewer.places)))
    return (f"{quoted(viewer.name)}, {quoted_notes(viewer)}, {windows}, {places}, {len(viewer.windows)}, "
            f"{len(viewer.places)}, {viewer.node}")


def number(value: int) -> str:
    """An address as a constant of 64 bits."""
    return f"UINT64_C({value:#x})"


def quoted_notes(node: Viewer | Unit) -> str:
    """The notes on a node as a string in C."""
    return quoted(", ".join(node.notes))


def quoted(text: str) -> str:
    """A text as a string in C, whose bytes are in UTF-8."""
    letters = "".join(chr(byte) if 32 <= byte <= 126 and byte not in b'"\\?' else f"\\{byte:03o}"
                      for byte in text.encode("utf-8"))
    return f'"{letters}"'
