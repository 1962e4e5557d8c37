"""What the agents of a description see for reading and for writing, as the program's views say it: after its
commands, or under an image of tables that somebody else made.

The program is asked once for the views of all agents that are wanted. A row is read from its line when it is looked
at; agents that see the same share their rows."""

import functools
import itertools
import re
from bisect import bisect_right
from collections.abc import Iterable, Iterator, Mapping, Sequence
from typing import NamedTuple

from netconf_tools.audit import FAULTS, Report, Slot, audited, image_of
from netconf_tools.dump import image_in
from netconf_tools.expand import Description, Refused, described
from netconf_tools.findings import Finding, Severity, lines_of
from netconf_tools.grants import changes_of
from netconf_tools.limits import LAST_ADDRESS, MAX_AGENTS, MAX_TEXT
from netconf_tools.rows import Rows
from netconf_tools.source import Block, Command, Node, Unreadable, nodes_of, script_of
from netconf_tools.text import VIEW, Piece, Refusal, Trouble, pieces_of, read, run, shortened

ACCESSES = ("read", "write")
AGENT = re.compile(r"^agent (\S+) is", re.M)
UNIT = re.compile(r"^unit (\S+) kind", re.M)
NAME = re.compile(r"^(?:(?:agent|vectors|unit) )?(\S+) (?:is|kind)\b", re.M)
"""The name of a node at the beginning of its line in a printed net."""

LEFT_OUT = re.compile(rb"//-[ \t]*(?P<path>/\S*|pci \S+?)(?::[ \t]+(?P<reason>[^\r\n]*)|[ \t\r]*$)", re.M)
"""A comment that names a master which the description leaves out, and says why."""

MOST_ROWS = 1000
"""How many rows that break a claim are looked for."""

SHOWN = 12
"""How many names an error lists."""


class Master(NamedTuple):
    """A bus master that a description leaves out: the file and the line that say so, its path in a device tree or its
    number on a bus, and the reason."""
    file: str
    line: int
    path: str
    reason: str


class RefusedCommand(NamedTuple):
    """A command that is refused: its file, its line, its word, its id or the name of its agent, and the fault."""
    file: str
    line: int
    word: str
    title: str
    fault: str


class Board:
    """A description of a file: its printed net, its agents, and what they see after its commands."""

    def __init__(self, name: str, text: bytes | None = None, sets: Mapping[str, int] | None = None,
                 description: Description | None = None) -> None:
        """Reads a description from its file, or takes its text or what was made of it; `sets` are constants from
        outside."""
        self.name = name
        try:
            self.description = description or described([(name, read(name) if text is None else text)], sets)
        except Refused as wrong:
            raise Trouble(next(lines_of(wrong.findings[0]))) from wrong
        self.text = self.description.text
        status, self.net = run("check", self.text)
        if status != 0:
            raise Trouble(f"{name}: {shortened(self.net.strip(), 300)} (netconf-lint shows the place)")
        self.agents = AGENT.findall(self.net)
        self._views: dict[tuple[str, str], Sequence[str]] = {}
        self._known: dict[tuple[str, ...], Sequence[str]] = {}
        self._rows: dict[int, Rows] = {}
        self._refused: list[RefusedCommand] = []

    @functools.cached_property
    def names(self) -> list[str]:
        """The full names of the nodes, in their order."""
        return list(self._places)

    @functools.cached_property
    def units(self) -> list[str]:
        """The full names of the units, in the order of the nodes."""
        return UNIT.findall(self.net)

    @functools.cached_property
    def agent_set(self) -> frozenset[str]:
        """The full names of the agents."""
        return frozenset(self.agents)

    @functools.cached_property
    def unit_set(self) -> frozenset[str]:
        """The full names of the units."""
        return frozenset(self.units)

    def has(self, name: str) -> bool:
        """Whether there is a node of this full name."""
        return name in self._places

    @functools.cached_property
    def left_out(self) -> list[Master]:
        """The masters that the description says it leaves out, by its comments `//-`."""
        found = []
        for hit in LEFT_OUT.finditer(self.text) if b"//-" in self.text else ():
            if self.text.find(b"//", self.text.rfind(b"\n", 0, hit.start()) + 1) < hit.start():
                continue
            place = self.description.place(hit.start())
            path, reason = (part.decode("utf-8", "replace") for part in (hit["path"], hit["reason"] or b""))
            found.append(Master(place.file, place.line, path.rstrip(":"), reason.strip()))
        return found

    @functools.cached_property
    def script(self) -> tuple[bytes, list[Command]]:
        """The declarations with the commands that change tables, as bytes, and these commands."""
        source = self.text.decode("latin-1")
        try:
            changes = changes_of(source)
            script = script_of(source, [change.source for change in changes])
        except Unreadable as error:
            raise Trouble(f"{self.name}: the commands are not found: {error}") from error
        return script.encode("latin-1"), changes

    @functools.cached_property
    def image(self) -> bytes:
        """The image of the tables after the commands."""
        return image_in(with_questions(self.name, self.script[0].decode("latin-1"), ["dump;"]).encode("latin-1"))

    @functools.cached_property
    def shut(self) -> list[Slot]:
        """The slots whose record is shut out: none, since the tables are those of the description's commands."""
        return []

    @functools.cached_property
    def refused(self) -> list[RefusedCommand]:
        """The commands of the description that are refused; known after views."""
        self.views(self.agents[:1])
        return self._refused

    def refused_findings(self, severity: Severity) -> list[Finding]:
        """A finding for each command of the description that is refused."""
        return [Finding(file, line, severity, fault.split(" ")[0], f"{word} {title} is refused: {fault}")
                for file, line, word, title, fault in self.refused]

    @functools.cached_property
    def _places(self) -> dict[str, int]:
        """The place in the printed net at which the line of each node begins, by the nodes' names."""
        return {hit[1]: hit.start() for hit in NAME.finditer(self.net)}

    @functools.lru_cache(maxsize=None)
    def statement(self, name: str) -> Node | None:
        """The printed statement of a node as it is read, or nothing where there is no such node."""
        place = self._places.get(name)
        return None if place is None else nodes_of(self.net[place:self.net.index("\n", place)])[name]

    @functools.lru_cache(maxsize=None)
    def accepts(self, name: str) -> tuple[list[int], list[int]]:
        """The addresses that a node accepts, as sorted spans that do not touch: their first addresses and their
        last."""
        statement = self.statement(name)
        firsts: list[int] = []
        lasts: list[int] = []
        for block in merged(statement.accepts if statement else []):
            if lasts and block.lo <= lasts[-1] + 1:
                lasts[-1] = block.hi
            else:
                firsts.append(block.lo)
                lasts.append(block.hi)
        return firsts, lasts

    def first_not_accepted(self, node: str, first: int, last: int) -> int | None:
        """The first of the addresses from `first` to `last` that a node does not accept, or None if it accepts
        all."""
        firsts, lasts = self.accepts(node)
        at = bisect_right(firsts, first) - 1
        free = first if at < 0 or lasts[at] < first else lasts[at] + 1
        return free if free <= last else None

    def want_agent(self, name: str) -> None:
        """Refuses a name that is not an agent's."""
        if name not in self.agents:
            listed = ", ".join(map(shown, self.agents[:SHOWN]))
            listed += f" and {len(self.agents) - SHOWN} more" if len(self.agents) > SHOWN else ""
            raise Trouble(f"{self.name}: {shown(name)} is not an agent; the agents are: {listed or 'none'}")

    def views(self, agents: Iterable[str]) -> dict[tuple[str, str], Sequence[str]]:
        """The views of agents: for each and each access the lines of its rows."""
        agents = list(agents)
        missing = [agent for agent in agents if (agent, "read") not in self._views]
        if missing:
            self._ask(missing)
        return {(agent, access): self._views[agent, access] for agent in agents for access in ACCESSES}

    def _ask(self, agents: list[str]) -> None:
        """Asks for the views of agents. If the net has no unit no right is kept anywhere, and what is read can be
        written."""
        accesses = ACCESSES if self.units else ACCESSES[:1]
        script, changes = self.script
        questions = [f"view {agent} for {access};" for agent in agents for access in accesses]
        output = with_questions(self.name, script.decode("latin-1"), questions)
        self._read(output.split("\n"), changes, agents, accesses)

    def _read(self, lines: list[str], changes: list[Command], agents: list[str], accesses: Iterable[str]) -> None:
        """Takes the replies to the commands, and then those to the questions for views."""
        self._refused = []
        for change, line in zip(changes, lines):
            if line.startswith(f"{change.title} refused: "):
                place = self.description.place(change.at)
                title, fault = change.id or change.names[0], line.split(" ", 2)[2]
                self._refused.append(RefusedCommand(place.file, place.line, change.word, title, fault))
        at = len(changes)
        for agent in agents:
            for access in accesses:
                hit = VIEW.fullmatch(lines[at]) if at < len(lines) else None
                if hit is None or hit["agent"] != agent:
                    line = shortened("".join(lines[at:at + 1]), 60)
                    raise Trouble(f"{self.name}: netconf gave no view of {shown(agent)}: {line!r}")
                count = int(hit["rows"])
                rows = lines[at + 1:at + 1 + count]
                self._views[agent, access] = self._known.setdefault(tuple(rows), rows)
                at += 1 + count
            self._views.setdefault((agent, "write"), self._views[agent, "read"])

    def rows(self, agent: str, access: str) -> Rows:
        """The rows of an agent's view in an order in which they are found without going over all of them."""
        lines = self.views([agent])[agent, access]
        if id(lines) not in self._rows:
            self._rows[id(lines)] = Rows(lines)
        return self._rows[id(lines)]

    @functools.lru_cache(maxsize=None)
    def differing(self, one: str, other: str, access: str) -> list[tuple[str, str, str]]:
        """The rows that one of two agents has and the other has not, each with its agent and the access; of each at
        most one more than are looked for."""
        mine, its = self.rows(one, access), self.rows(other, access)
        rows: list[tuple[str, str, str]] = []
        for agent, here, there in ((one, mine, its), (other, its, mine)) if mine is not its else ():
            others = ((agent, access, line) for line in here.lines if line not in there.members)
            rows += itertools.islice(others, MOST_ROWS + 1)
        return rows

    def pieces(self, agent: str, access: str, node: str) -> Iterator[Piece]:
        """The pieces of an agent's view that come to a node."""
        mark = f" {node}@"
        for line in self.views([agent])[agent, access]:
            if mark in line:
                yield from (piece for piece in pieces_of(line) if piece.node == node)

    def seen(self, agent: str, access: str, node: str, first: int, last: int) -> list[Piece]:
        """Where an agent sees addresses `first` to `last` of a node: the parts of its pieces."""
        return list(filter(None, (piece.within(first, last) for piece in self.pieces(agent, access, node))))

    def targets(self, node: str, first: int, last: int) -> list[tuple[str, int, int]]:
        """The accepted names to which addresses of a node come, each a node and its first and last address.

        They are the addresses themselves where the node accepts them all; those of an agent by its view; and those of
        any other node by the net as it is without what units hold."""
        statement = self.statement(node)
        if statement is None:
            raise Trouble(f"{self.name}: there is no node {shown(node)}")
        inside = sum(min(block.hi, last) - max(block.lo, first) + 1 for block in merged(statement.accepts)
                     if block.lo <= last and first <= block.hi)
        if inside == last - first + 1:
            return [(node, first, last)]
        lines = self._lines_of(node)
        found = []
        for line in lines:
            for piece in pieces_of(line):
                low, high = max(piece.lo, first), min(piece.hi, last)
                if low <= high:
                    found.append((piece.node, piece.at + low - piece.lo, piece.at + high - piece.lo))
        if not found:
            raise Trouble(f"{self.name}: {shown(node)}@{first:#x}-{last:#x} comes to nothing that accepts it")
        return list(dict.fromkeys(found))

    def _lines_of(self, node: str) -> list[str]:
        """The rows of what the addresses of a node come to: of an agent by its views, of another by the view that it
        has as an agent. Where the net has all the agents that it may have, its first is none in what is asked."""
        if node in self.agents:
            views = self.views([node])
            return [*views[node, "read"], *views[node, "write"]]
        statement = self.statement(node)
        if statement is None or statement.role:
            return []
        place, net = self._places[node], self.net
        first = self._places[self.agents[0]] if len(self.agents) >= MAX_AGENTS else None
        for at in sorted((at for at in (place, first) if at is not None), reverse=True):
            net = net[:at] + (f"agent {net[at:]}" if at == place else net[at:].removeprefix("agent "))
        output = with_questions(self.name, net + "begin;", [f"view {node};"])
        if not output.startswith(f"view {node} "):
            raise Trouble(f"{self.name}: {shown(node)} does not accept these addresses; name the node that does, or an "
                          "agent")
        return output.splitlines()[1:]


class ImageBoard(Board):
    """A description with an image of its tables, from any source: what the agents see under the image. The commands of
    the description are read, and none is run."""

    def __init__(self, name: str, image_name: str, sets: Mapping[str, int] | None = None) -> None:
        super().__init__(name, None, sets)
        self.image_name = image_name
        if b"\0" in self.text:
            raise Trouble(f"{name}: there is a byte 0x00 in it, which ends the description of an audit")

    @functools.cached_property
    def image(self) -> bytes:
        """The image."""
        return image_of(self.image_name)

    @functools.cached_property
    def report(self) -> Report:
        """What the program says of the description and the image."""
        report = audited(self.text, self.image)
        if isinstance(report, Refusal):
            rule = report.detail.split(" ")[0] if report.rule == "image" else report.rule
            what = f": {FAULTS[rule]}" if rule in FAULTS else ""
            fault = shortened(f"{report.rule} {report.detail}".strip(), 300)
            raise Trouble(f"{self.image_name}: refused: {fault}{what}")
        return report

    @functools.cached_property
    def shut(self) -> list[Slot]:
        """The slots whose gate is open and whose words are no record."""
        return self.report.shut

    def _ask(self, agents: list[str]) -> None:
        """Takes the views of all agents from the audit."""
        for (agent, access), rows in self.report.views.items():
            self._views[agent, access] = rows.lines
            self._rows[id(rows.lines)] = rows


def with_questions(name: str, script: str, questions: Iterable[str]) -> str:
    """What `netconf run` prints of a script and then of questions for views; `name` is what an error calls the
    script."""
    text = (script + "".join(questions)).encode("latin-1")
    if len(text) > MAX_TEXT:
        raise Trouble(f"{name}: with the questions for views it is longer than a text may be, {MAX_TEXT:,} bytes")
    return run("run", text)[1]


def merged(blocks: Iterable[Block]) -> list[Block]:
    """Blocks without those parts that lie in others."""
    found: list[Block] = []
    for block in sorted(blocks, key=lambda block: block.lo):
        if found and block.lo <= found[-1].hi:
            found[-1] = Block(found[-1].lo, max(found[-1].hi, block.hi), found[-1].line)
        else:
            found.append(block)
    return found


def shown(name: str, most: int = 60) -> str:
    """A name, with its middle left out where it is very long."""
    return name if len(name) <= most else f"{shortened(name, most)} ({len(name)} letters)"


def number(word: str, what: str) -> int:
    """A number as the language spells it, at most the last address."""
    hit = re.fullmatch(r"0x[0-9a-fA-F]{1,20}|[0-9]{1,24}", word)
    value = (int(word, 16) if word.startswith("0x") else int(word)) if hit else LAST_ADDRESS + 1
    if value > LAST_ADDRESS:
        raise Trouble(f"{word[:40]!r} is no {what}: a number from 0 to {LAST_ADDRESS:#x}, in decimal or with 0x before "
                      "it")
    return value


def span(word: str, what: str = "address") -> tuple[int, int]:
    """One address, or two with a hyphen between them: the first and the last."""
    first, hyphen, last = word.partition("-")
    low = number(first, what)
    high = number(last, what) if hyphen else low
    if high < low:
        raise Trouble(f"{word[:40]!r} runs downwards")
    return low, high
