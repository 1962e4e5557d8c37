"""What the grants, buffers in pieces, routes, revokes and trees of a description are answered, and what may be behind a
refusal.

The program answers them; the notes on a refusal are read off the description, and say where to look."""

import functools
import re
from collections.abc import Callable, Container, Iterable, Iterator, Mapping, Sequence
from typing import NamedTuple

from netconf_tools.causes import Causes, tables_in
from netconf_tools.dump import image_in
from netconf_tools.expansion import Expansion, Faulty, Unfollowed
from netconf_tools.grammar import CommandPlaces, Expression, Name, NodePlaces, Reader, Source, TooLong
from netconf_tools.hints import meant, quoted
from netconf_tools.layout import WORDS, Layout, layout_from
from netconf_tools.limits import MAX_TEXT
from netconf_tools.nodes import covered, reached
from netconf_tools.source import Command, CommandRows, Node, Piece, commands_of, nodes_of, script_of
from netconf_tools.text import Trouble, run

CHANGES = ("grant", "gather", "route", "revoke")
"""The commands that change tables. The reply to each is one line, which begins with its id; that to `gather` with
this word."""

ASKED = (*CHANGES, "radix")
"""The commands whose refusals are looked for. A tree of pages is asked for with a pool of none, since then its reply
is one line: how many pages it has, or that its node is no unit."""

TREE = re.compile(r"radix\s+(?P<name>\w+(?:\s*\[[^]]*\])?(?:\s*\.\s*\w+(?:\s*\[[^]]*\])?)*)", re.A)
"""The command for a tree, up to its pool."""

PAGE_WORDS = 512
"""How many words, or entries, a page of a tree has."""

MOST_EXPLAINED = 8
"""Of how many commands without a placement the causes are looked for."""

MOST_IMAGES = 1 << 24
"""How many bytes the images of tables have together that are looked at for causes."""

MOST_ROWS = 1 << 19
"""How many rows the views of agents and ports may have together in which causes are looked for, by the parts of the
net."""

MOST_HINTS = 100
"""Of how many names that do not exist the nearest one is looked for."""

UNPLACED_REPLY = "refused: NoPlacement"

SHOWN = 8
"""How many ids a note shows at most."""

UNPLACED = {
    "grant": "no placement gives the agent exactly this, and nobody anything else",
    "route": "no placement gives the agent exactly this, and nobody anything else",
    "gather": "no unit gives the agent exactly the pieces, one after the other, and nobody anything else",
}
"""What `NoPlacement` means, by the command."""


CommandRow = tuple[str, str, str]
"""A command as it stands in the text, its word, and the word after it."""

Note = tuple[int, str]
"""A note: its place in the text, and what it says."""

Live = dict[str, Command | Piece]
"""The grants and routes that live, by their ids."""


class Refused(NamedTuple):
    """A command that is refused: its place and how many bytes are marked, the command, its fault, what is wrong, and
    the notes on it."""
    at: int
    width: int
    command: Command
    fault: str
    what: str
    notes: list[Note]

    @property
    def rule(self) -> str:
        """The first word of the fault."""
        return self.fault.split(" ")[0]

    def text(self) -> str:
        """What is refused and why, in one line."""
        title = self.command.id or self.command.names[0]
        return f"{self.command.word} {title}: {self.fault}: {self.what}"


def changes_of(text: str) -> list[Command]:
    """The commands of a description that change tables."""
    return commands_of(text, CHANGES)


def replies_to(text: str, commands: list[Command]) -> list[str]:
    """What the program replies to commands that change tables, over the declarations of a description."""
    return replied(text, [(command.source, command.word, command.title) for command in commands])


def replied(text: str, rows: Sequence[CommandRow]) -> list[str]:
    """The same, of commands as (source, word, id)."""
    if not rows:
        return []
    _, output = run("run", script_of(text, [source for source, _, _ in rows]).encode("latin-1"))
    replies, titles = output.split("\n")[:-1], [title + " " for _, _, title in rows]
    if not all(map(str.startswith, replies, titles)):
        source, reply = next((row[0], reply) for row, reply in zip(rows, replies) if not reply.startswith(row[2] + " "))
        raise Trouble(f"netconf printed no reply to {source[:60]}, but {reply[:60]!r}")
    if len(replies) != len(rows):
        raise Trouble(f"netconf replied to {len(replies)} of {len(rows)} commands")
    return [reply[len(title):] for reply, title in zip(replies, titles)]


def tree_of(source: str) -> re.Match[str]:
    """What of a command for a tree stands before its pool."""
    hit = TREE.match(source)
    if hit is None:
        raise Trouble(f"no unit is found in {source[:60]!r}")
    return hit


def question(row: CommandRow) -> CommandRow:
    """The row of a command as it is asked: one for a tree with a pool of none. It is no longer than the command."""
    source, word, _ = row
    if word == "gather":
        return source, word, word
    if word != "radix":
        return row
    name = tree_of(source)["name"]
    return f"radix {name}{'' if name.endswith(']') else ' '}0;", word, word


def fault_in(row: CommandRow, reply: str, command: Callable[[], Command]) -> str | None:
    """The fault that a reply says, or nothing; `command` gives the command of the row, of which the pool of a tree
    is asked."""
    source, word, _ = row
    if word != "radix":
        return reply.removeprefix("refused: ") if reply.startswith("refused: ") else None
    fault = reply.rsplit(" refused: ", 1)[1]
    if not fault.startswith("Pool "):
        return fault
    pool = source[tree_of(source).end():-1].strip()
    room = int(pool) if pool.isdecimal() else command().numbers[0]
    return None if room >= int(fault.removeprefix("Pool ")) else fault


class Net:
    """The nodes of a description by their names, with their places, and for each agent the units to which it can
    come."""

    def __init__(self, text: str) -> None:
        self.source = Source(text)
        self._units: dict[str, list[Node]] = {}
        self._hints = 0

    @functools.cached_property
    def nodes(self) -> dict[str, Node]:
        """The nodes by their names."""
        return nodes_of(self.source.text)

    @functools.cached_property
    def names(self) -> Mapping[str, object]:
        """The names of the nodes, which are known without all that the nodes hold."""
        try:
            expansion = Expansion(self.source, 0)
            expansion.run()
        except (Faulty, Unfollowed, RecursionError):
            return self.nodes
        return expansion.nodes

    def units_from(self, agent: str) -> list[Node]:
        """The units to which an agent can come, also behind one another."""
        if agent not in self._units:
            self._units[agent] = [node for node in reached(self.nodes, [agent]).values() if node.role == "unit"]
        return self._units[agent]

    def meant(self, name: str, names: Iterable[str]) -> str:
        """The end of a message that names the one of some names that is most like a name, or nothing; of many names
        that do not exist it is looked for of the first ones."""
        self._hints += 1
        return meant(name, names) if self._hints <= MOST_HINTS else ""

    def command(self, at: int) -> CommandPlaces:
        """The command that begins at a place; of one that is too long to be read its word alone."""
        reader = Reader(self.source, at)
        try:
            found = reader.statement()
        except TooLong:
            return CommandPlaces(reader.first, [], [])
        assert isinstance(found, CommandPlaces)
        return found

    def id_place(self, part: Command | Piece) -> int:
        """The place of the id of a command or of a piece."""
        return next((word.at for word in self.command(part.at).ids if word.text == part.id), part.at)

    def blocks(self, node: Node) -> list[int]:
        """The places of the blocks that a node accepts."""
        try:
            found = Reader(self.source, node.at).statement()
        except TooLong:
            return [node.at] * len(node.accepts)
        return [block.first.at for block in found.accepts] if isinstance(found, NodePlaces) else []


class Follower:
    """Follows the replies to the commands of a description: which grants and routes live, and what is refused."""

    def __init__(self, text: str, commands: CommandRows) -> None:
        self.text, self.commands = text, commands
        self.live: Live = {}
        self.explained: list[int] = []
        """The numbers of the commands without a placement whose causes are looked for."""

    @functools.cached_property
    def net(self) -> Net:
        """The net of the description, made when something is refused."""
        return Net(self.text)

    @functools.cached_property
    def layout(self) -> Layout | None:
        """The windows and places of the net, if it is not too large for them."""
        nodes = list(self.net.nodes.values())
        viewers = sum(node.role == "agent" for node in nodes) + len({port for node in nodes for port in node.ports})
        if viewers * sum(len(node.accepts) + len(node.entries) for node in nodes) > MOST_ROWS:
            return None
        try:
            return layout_from(nodes)
        except Trouble:
            return None

    @functools.cached_property
    def images(self) -> dict[int, bytes]:
        """The image of the tables after each of the commands whose causes are looked for, unless they are too large."""
        if not self.explained or self.layout is None or self.layout.bytes * len(self.explained) > MOST_IMAGES:
            return {}
        script = []
        for index, (source, word, _) in enumerate(self.commands.rows[:self.explained[-1] + 1]):
            script += [source] * (word in CHANGES) + ["dump;"] * (index in self.explained)
        if len(script_of(self.text, script)) > MAX_TEXT:
            return {}
        output = run("run", script_of(self.text, script).encode("latin-1"))[1].encode("latin-1")
        return {index: image_in(output, number) for number, index in enumerate(self.explained, 1)}

    def causes(self, index: int, command: Command) -> list[Note]:
        """What stands in the way of a command without a placement, if it is known for certain on each way."""
        if index not in self.explained or self.layout is None:
            return []
        return list(Causes(self.layout, self.net.nodes, tables_in(self.images.get(index))).of(command))

    def done(self, index: int) -> None:
        """Takes a command that was not refused."""
        _, word, title = self.commands.rows[index]
        if word == "revoke":
            self.live.pop(title, None)
        elif word in CHANGES:
            self.live.update((part.id, part) for part in self.commands.command(index).parts)

    def refused(self, index: int, fault: str) -> Refused:
        """A command that was refused, with the notes on it."""
        command, rule = self.commands.command(index), fault.split(" ")[0]
        part = part_of(command, fault)
        at, width = place_of(self.net.command(command.at), rule, int(fault.split(" ")[1]) if part is not command else 0)
        what = what_of(part, fault, self.net, self.live)
        notes = self.causes(index, command) if rule == "NoPlacement" else []
        if any(" are free" in note for _, note in notes):
            notes += notes_on_live(command, {command.names[0]: True}, self.live)
        return Refused(at, width, command, fault, what, notes or list(notes_of(part, rule, self.net, self.live)))


def refused_in(follower: Follower, most: int) -> Iterator[Refused | int]:
    """Each command of a description that is refused, with its fault and the notes on it. The follower has those
    commands of the description that are asked.

    After the first `most` commands that are refused comes how many more there are."""
    commands, found = follower.commands, 0
    replies = replied(follower.text, list(map(question, commands.rows)))
    follower.explained = [index for index, reply in enumerate(replies) if reply == UNPLACED_REPLY][:MOST_EXPLAINED]
    for index, reply in enumerate(replies):
        fault = fault_in(commands.rows[index], reply, functools.partial(commands.command, index))
        if fault is None:
            follower.done(index)
            continue
        found += 1
        if found <= most:
            yield follower.refused(index, fault)
    if found > most:
        yield found - most


def place_of(command: CommandPlaces, rule: str, piece: int) -> tuple[int, int]:
    """The part of a command that a refusal is about: its place and its width. `piece` is the number of a piece, from
    0."""
    ids, members = command.ids, command.members
    first = 1 + 3 * piece if command.word.text == "gather" else 1
    part: Name | Expression | None = None
    if members and rule in ("NoAgent", "NoUnit"):
        part = members[0]
    elif members and rule == "NoTarget":
        part = members[-1] if command.word.text == "route" else members[first]
    elif members and rule == "NotAccepted":
        part = members[first + 1]
    elif members and rule == "Pool":
        part = members[1]
    if part is not None:
        return part.at, part.end - part.at
    word = ids[min(piece, len(ids) - 1)] if rule in ("IdUsed", "NoGrant") and ids else command.word
    return word.at, len(word.text)


def part_of(command: Command, fault: str) -> Command | Piece:
    """The piece whose number a refusal of a `gather` has; of any other command the command itself."""
    words = fault.split(" ")
    return command.parts[int(words[1])] if command.word == "gather" and len(words) > 1 else command


def what_of(part: Command | Piece, fault: str, net: Net, live: Live) -> str:
    """What is wrong with a command, or with a piece of one, in a few words."""
    rule, *words = fault.split(" ")
    if rule == "IdUsed":
        is_live = part.id in live
        return f"the id {quoted(part.id)} is in use" if is_live else f"an earlier piece has the id {quoted(part.id)}"
    if rule == "NoGrant":
        return f"no grant and no route with the id {quoted(part.id)} is live{net.meant(part.id, live)}"
    if rule == "NoAgent":
        return named(net, part.names[0], "is not an agent")
    if rule == "NoUnit":
        return named(net, part.names[0], "is not a unit")
    if rule == "NoTarget":
        is_route = part.word == "route"
        what = "has no interrupt vectors: use `grant`" if is_route else "has interrupt vectors: use `route`"
        return named(net, part.names[1], what)
    if rule == "NotAccepted":
        return f"{quoted(part.names[1])} does not accept {words[-1]}" if part.numbers[1] else "the size is 0"
    if rule == "BookFull":
        return "there would be more than 4,096 live grants and routes"
    if rule == "Pool":
        return f"the tree has more pages than the pool, which has {part.numbers[0]:,}"
    return UNPLACED.get(part.word, "a refusal of a later netconf")


def named(net: Net, name: str, what: str) -> str:
    """That a node does not exist, or what it is."""
    if name in net.names:
        return f"{quoted(name)} {what}"
    return f"there is no node {quoted(name)}{net.meant(name, net.names)}"


def notes_of(part: Command | Piece, rule: str, net: Net, live: Live) -> Iterator[Note]:
    """The notes on a refusal; `live` has the grants and routes that live, by their ids."""
    if rule == "IdUsed" and part.id in live:
        yield net.id_place(live[part.id]), f"{part.id} is granted here"
    elif rule in ("NoAgent", "NoUnit", "NoTarget"):
        node = net.nodes.get(part.names[rule == "NoTarget"])
        if node:
            yield node.at, f"{node.name} is declared here"
    elif rule == "Pool":
        yield notes_on_tree(net.nodes[part.names[0]])
    elif rule == "NotAccepted" and part.numbers[1]:
        yield from notes_on_accepts(net.nodes[part.names[1]], net)
    elif rule == "NoPlacement":
        yield from notes_on_units(part, net)
        if part.word == "route":
            yield from notes_on_vectors(part, net.nodes, live)
        else:
            for piece in part.parts:
                yield from notes_on_pages(piece, net)
        yield from notes_on_others(part, net, live)


def notes_on_tree(unit: Node) -> Note:
    """How many pages the tree of a unit has at most."""
    slots = unit.shape[2]
    below = -(-slots * WORDS[unit.shape[0]] // PAGE_WORDS)
    pages = below
    while below > 1:
        below = -(-below // PAGE_WORDS)
        pages += below
    count = f"{pages} page{'s' * (pages > 1)}"
    return unit.at, f"{unit.name} has {slots} slots: if all hold records its tree has {count}"


def notes_on_accepts(node: Node, net: Net) -> Iterator[Note]:
    """What a node accepts, if it does not accept a buffer."""
    for at, block in zip(net.blocks(node), node.accepts):
        yield at, f"{node.name} accepts {block}"
    if not node.accepts:
        yield node.at, f"{node.name} accepts nothing: name the node after it that does"


def notes_on_units(command: Command | Piece, net: Net) -> Iterator[Note]:
    """The units on the ways of the agent."""
    agent = command.names[0]
    for unit in net.units_from(agent):
        _, page, slots, _ = unit.shape
        yield unit.at, f"{agent} can reach {unit.name}, {slots} slots of {1 << page:#x} addresses"
    if not net.units_from(agent):
        yield net.nodes[agent].at, f"{agent} reaches no unit"


def notes_on_pages(command: Command | Piece, net: Net) -> Iterator[Note]:
    """Whether a buffer is no whole pages of any unit on its way."""
    base, size = command.numbers
    units = net.units_from(command.names[0])
    page = min((1 << unit.shape[1] for unit in units), default=1)
    if (base | size) % page:
        span = f"{base:#x}-{base + size - 1:#x}"
        what = span if command.word == "grant" else f"{command.id}, {span},"
        yield command.at, f"{what} is not a whole number of pages: the smallest on the way has {page:#x}"


def notes_on_vectors(command: Command | Piece, nodes: dict[str, Node], live: Live) -> Iterator[Note]:
    """The route that the line has, and whether all vectors are taken."""
    agent, node = command.names
    routes = [other for other in live.values() if other.word == "route"]
    for other in routes:
        if other.names[0] == agent and other.numbers == command.numbers:
            yield other.at, f"line {command.numbers[0]:#x} of {agent} has the route {other.id}"
    if sum(other.names[1] == node for other in routes) == covered(nodes[node].accepts):
        yield nodes[node].at, f"each vector of {node} has a route"


def notes_on_others(command: Command | Piece, net: Net, live: Live) -> Iterator[Note]:
    """Other agents that come to the same units, and what is granted behind these."""
    agent = command.names[0]
    mine = {unit.name for unit in net.units_from(agent)}
    near = {agent: sorted(mine)}
    for node in net.nodes.values():
        shared = [unit.name for unit in net.units_from(node.name) if unit.name in mine] if node.role == "agent" else []
        if node.name != agent and shared:
            near[node.name] = shared
            yield node.at, f"{node.name} reaches {', '.join(shared)} too"
    yield from notes_on_live(command, near, live)


def notes_on_live(command: Command | Piece, near: Container[str], live: Live) -> Iterator[Note]:
    """What is granted to some agents."""
    granted = [other.id for other in live.values() if other.names[0] in near]
    if granted:
        more = f" and {len(granted) - SHOWN} more" if len(granted) > SHOWN else ""
        yield command.at, f"these units have slots of {', '.join(granted[:SHOWN])}{more}"
