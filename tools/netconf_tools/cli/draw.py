"""Draws a description: its net as a graph, or what its agents see as memory maps."""

import argparse
import os
import re
import subprocess
import sys

from netconf_tools.audit import FAULTS, audited, by_records, image_of, shut_lines
from netconf_tools.drawing.changes import changes_picture
from netconf_tools.drawing.comparison import comparison
from netconf_tools.drawing.graph import dot_of, size_note
from netconf_tools.drawing.map import Granted, size_note_of_maps, svg_of
from netconf_tools.drawing.picture import DARK, MONO, SANS, anchor_of
from netconf_tools.drawing.sharing import LISTED, Wanted, sharing
from netconf_tools.ending import ended, tell
from netconf_tools.expand import read_plain
from netconf_tools.grants import changes_of, replies_to
from netconf_tools.nodes import reached
from netconf_tools.source import Command, Node, Unreadable, nodes_of, script_of
from netconf_tools.text import Refusal, Trouble, run, shortened, views_of
from netconf_tools.version import add_version
from netconf_tools.views import Board, with_questions

AGENTS = 12
"""How many agents an error lists."""


def net_of(name: str, text: bytes) -> dict[str, Node]:
    """The nodes of the printed net of a description."""
    status, output = run("check", text)
    if status != 0:
        raise Trouble(f"{name}: {shortened(output.strip(), 300)} (netconf-lint shows the place)")
    try:
        return nodes_of(output)
    except Unreadable as error:
        raise Trouble(f"{name}: netconf printed no net: {error}") from error


def grants_of(name: str, text: bytes) -> tuple[list[Command], dict[str, list[Granted]]]:
    """The commands of a description that change tables; and for each agent what then lives: its addresses, and its
    id."""
    try:
        changes = changes_of(text.decode("latin-1"))
    except Unreadable as error:
        raise Trouble(f"{name}: the commands are not found: {error}") from error
    live: dict[str, tuple[str, Granted]] = {}
    for change, reply in zip(changes, replies_to(text.decode("latin-1"), changes) if changes else []):
        if reply == "revoked":
            live.pop(change.id)
        elif reply.startswith("at "):
            first = int(reply.split(" ")[1], 16)
            for part in change.parts:
                live[part.id] = part.names[0], (first, first + part.numbers[1] - 1, part.id)
                first += part.numbers[1]
        elif reply.startswith("vector "):
            live[change.id] = change.names[0], (change.numbers[0], change.numbers[0], change.id)
    grants: dict[str, list[Granted]] = {}
    for agent, place in live.values():
        grants.setdefault(agent, []).append(place)
    return changes, grants


def agents_of(nodes: dict[str, Node], wanted: list[str], name: str) -> list[str]:
    """The agents that are wanted, or all."""
    agents = [node.name for node in nodes.values() if node.role == "agent"]
    for agent in wanted:
        if agent not in agents:
            listed = ", ".join(shortened(other, 60) for other in agents[:AGENTS])
            more = f" and {len(agents) - AGENTS} more" if len(agents) > AGENTS else ""
            raise Trouble(f"{name}: {shortened(agent, 60)} is not an agent; the agents are: {listed or 'none'}{more}")
    return wanted or agents


def svg_of_dot(dot: str) -> str:
    """The picture that Graphviz makes of a graph."""
    try:
        done = subprocess.run(["dot", "-Tsvg"], input=dot, capture_output=True, text=True, check=False)
    except FileNotFoundError as error:
        raise Trouble("the program dot is missing: install graphviz, or leave out --svg") from error
    if done.returncode != 0:
        raise Trouble(f"dot: {shortened(done.stderr.strip(), 300)}")
    # Graphviz measures by one font; where that is missing, others of its widths stand in for it.
    dark = re.sub(r"(<svg\b[^>]*>\n)", lambda hit: hit[1] + DARK, done.stdout, count=1)
    mono = dark.replace('font-family="DejaVu Sans Mono"', f'font-family="{MONO}"')
    return mono.replace('font-family="DejaVu Sans"', f'font-family="{SANS}"')


def title_of(name: str) -> str:
    """What a title calls a file."""
    return "standard input" if name == "-" else os.path.basename(name)


def links_of(nodes: dict[str, Node], page: str | None) -> dict[str, str] | None:
    """For each agent where its box leads: its map in the picture of a file."""
    return {name: f"{page}#{anchor_of(name)}" for name, node in nodes.items() if node.role == "agent"} if page else None


def draw_graph(options: argparse.Namespace, nodes: dict[str, Node], agents: list[str]) -> tuple[str, str]:
    """The graph, and a note where it is too large."""
    name = title_of(options.file)
    dot = dot_of(name, reached(nodes, agents) if options.agent else nodes, links_of(nodes, options.maps))
    return svg_of_dot(dot) if options.svg else dot, size_note(dot)


def draw_audit(options: argparse.Namespace, source: bytes) -> tuple[str, str]:
    """The picture of who shares what under an image."""
    if b"\0" in source:
        raise Trouble(f"{options.file}: there is a byte 0x00 in it, which ends the description of an audit")
    image = image_of(options.image)
    report = audited(source, image)
    if isinstance(report, Refusal):
        rule = report.detail.split(" ")[0] if report.rule == "image" else report.rule
        name = options.image if rule in FAULTS else options.file
        line = f"line {report.line} " if report.line else ""
        raise Trouble(f"{name}: refused: {line}{shortened(f'{report.rule} {report.detail}'.strip(), 300)} "
                      "(netconf-lint --audit shows the place)")
    nodes = net_of(options.file, source)
    wanted = Wanted(agents_of(nodes, options.agent, options.file) if options.agent else (), options.by_records)
    shared = by_records(source, image, report)
    return sharing(title_of(options.image), report, shared, shut_lines(nodes, image, report, LISTED), wanted)


def draw(options: argparse.Namespace) -> tuple[str, str]:
    """The picture that the options ask for, as text, and a note on it or nothing."""
    source = read_plain(options.file)
    if options.audit:
        return draw_audit(options, source)
    if options.diff is not None:
        boards = Board(options.diff), Board(options.file, source)
        return changes_picture((title_of(options.diff), title_of(options.file)), boards, options.agent)
    nodes = net_of(options.file, source)
    agents = agents_of(nodes, [*options.agent, *(options.compare or [])], options.file)
    if options.compare:
        return comparison(title_of(options.file), Board(options.file, source), *options.compare)
    if not options.views:
        return draw_graph(options, nodes, agents)
    if not agents:
        raise Trouble(f"{options.file}: there is no agent, so no view")
    changes, grants = grants_of(options.file, source)
    access = " for write" if options.write else ""
    script = script_of(source.decode("latin-1"), [change.source for change in changes])
    views = views_of(with_questions(options.file, script, [f"view {agent}{access};" for agent in agents]))
    if list(views) != list(dict.fromkeys(agents)):
        raise Trouble(f"{options.file}: netconf gave no view of "
                      f"{next(agent for agent in agents if agent not in views)[:60]}")
    picture = svg_of(title_of(options.file), nodes, views, grants, "writing" if options.write else "")
    return picture, size_note_of_maps(views)


def words() -> argparse.ArgumentParser:
    """The reader of the program's words."""
    parser = argparse.ArgumentParser(
        prog="netconf-draw",
        description="Draws the net of a description as a graph for Graphviz, or the views of its agents as memory "
                    "maps, as they are after the grants and routes of the description; or what agents share under an "
                    "image of tables.")
    add_version(parser)
    parser.add_argument("--svg", action="store_true", help="draw the graph with dot, as SVG")
    parser.add_argument("--views", action="store_true", help="draw what the agents see, as SVG")
    parser.add_argument("--write", action="store_true",
                        help="draw what the agents may write, and not what they may read")
    parser.add_argument("--agent", metavar="NAME", action="append", default=[],
                        help="only what this agent sees, leads to or shares; may be given several times")
    parser.add_argument("--compare", metavar=("A", "B"), nargs=2,
                        help="draw two agents on one scale of addresses, with lines "
                        "between rows that come to the same names, as SVG")
    parser.add_argument("--diff", metavar="OLD",
                        help="draw what agents see in FILE and did not in OLD, an older description, and the other way "
                        "round, to scale, as SVG")
    parser.add_argument("--maps", metavar="PAGE",
                        help="have the box of each agent in the graph lead to its map in PAGE, a "
                        "picture that --views made")
    parser.add_argument("--audit", action="store_true",
                        help="draw what two or more agents see under an image of the tables, as SVG")
    parser.add_argument("--by-records", action="store_true",
                        help="with --audit, draw only what two or more agents share by records alone")
    parser.add_argument("file", metavar="FILE", help="a description; - is standard input")
    parser.add_argument("image", metavar="IMAGE", nargs="?",
                        help="the image for --audit, or an output of `netconf run` with a dump")
    return parser


def write(arguments: list[str] | None) -> int:
    """Writes the picture to standard output; status 2 where there is none."""
    reader = words()
    options = reader.parse_args(arguments)
    if options.audit != (options.image is not None):
        reader.error("--audit takes a description and an image, and nothing else takes an image")
    if options.by_records and not options.audit:
        reader.error("--by-records goes with --audit")
    picture, note = draw(options)
    sys.stdout.buffer.write(picture.encode())
    sys.stdout.flush()
    if note:
        tell("netconf-draw", f"{options.file}: {note}")
    return 0


def main(arguments: list[str] | None = None) -> int:
    """Runs the tool over its words, those of the command line if none are given, and returns its status."""
    return ended("netconf-draw", lambda: write(arguments), 2, Trouble)
