"""Whether claims on what agents see hold.

`claim_text` has the forms of claims, and `claim_lines` says where they stand. Without an access a claim is one on
reading and on writing: none for either, and all for both. Each address of a claim must be one that the node accepts:
of others nobody sees any, so that a claim on them would say nothing."""

import difflib
import functools
import itertools
from collections import ChainMap
from collections.abc import Iterable, Iterator
from dataclasses import dataclass, field
from typing import NamedTuple

from netconf_tools.audit import Spans
from netconf_tools.claim_lines import Line
from netconf_tools.claim_text import Claim, Constant, Group, LeftOut, Misread, Name, Reader, Span, fits
from netconf_tools.findings import Finding, Note
from netconf_tools.limits import LAST_ADDRESS
from netconf_tools.reachable import Reachable
from netconf_tools.rows import Pieces, Rows
from netconf_tools.source import Scope
from netconf_tools.text import pieces_of
from netconf_tools.views import ACCESSES, MOST_ROWS, Board, Master, shown

ROWS = 8
"""How many rows are shown of what breaks a claim."""

LISTED = 12
"""How many names an error lists."""

LONGEST, MOST_LOOKED = 80, 20
"""How long names are among which one is looked for that may be meant, and how often that is done."""

WHY = "a claim is on addresses that a node accepts"
"""Why a claim on other addresses is refused."""


class Row(NamedTuple):
    """What breaks a claim: an agent, an access, and what the agent sees for it or does not see."""
    agent: str
    access: str
    text: str


class Meant(NamedTuple):
    """A claim with the agents, nodes and units for which its names stand."""
    claim: Claim
    agents: tuple[str, ...]
    others: tuple[str, ...]
    nodes: tuple[str, ...]


class Verdict(NamedTuple):
    """Whether the claim of a line holds, and the rows that break it. `kind` is the first word of the claim, or `at`.
    Of very many rows they are the first ones, and `is_all` says that they are all."""
    line: Line
    kind: str
    holds: bool
    rows: tuple[Row, ...]
    is_all: bool

    @property
    def text(self) -> str:
        """The claim in one line, with the use and the turn for which it is one."""
        return self.line.words + (f" ({self.line.where})" if self.line.where else "")

    def finding(self) -> Finding:
        """What is reported of a claim that does not hold."""
        notes = [f"{row.agent} for {row.access}: {row.text}" for row in self.rows[:ROWS]]
        if len(self.rows) > ROWS:
            notes.append(f"and {'' if self.is_all else 'more than '}{len(self.rows) - ROWS} more rows")
        if self.kind == "left_out":
            notes = ["the description leaves out no master of this name"]
        file, line = self.line.file, self.line.line
        return Finding(file, line, "error", f"claim-{self.kind}", f"does not hold: {self.text}", self.line.column,
                       len(self.line.words), tuple(Note(file, line, note) for note in notes))


@dataclass
class Names:
    """The names of a board, and the groups of them that were defined.

    `twofold` has the names that mean a full name, and would mean one of the module with a dot before them: that
    one."""
    board: Board
    groups: dict[str, tuple[str, ...]] = field(default_factory=dict)
    known: dict[tuple[Name, str, str], tuple[str, ...]] = field(default_factory=dict)
    twofold: list[tuple[Name, str]] = field(default_factory=list)
    looked: int = 0

    def candidates(self, name: Name, scope: Scope) -> list[str]:
        """What a name may mean, in the order in which it is looked for: a full name; then one of the module, by the
        rule by which a statement of the module refers to a node."""
        own = scope.nodes.get(name.text, scope.prefix + name.text)
        return [own] if name.is_own else list(dict.fromkeys([name.text, own]))

    def named(self, text: str) -> tuple[str, ...]:
        """The nodes that a full name, a pattern or a group stands for."""
        if text in self.groups:
            return self.groups[text]
        if "*" in text:
            return tuple(node for node in self.board.names if fits(text, node))
        return (text,) if self.board.has(text) else ()

    def nodes(self, name: Name, scope: Scope, what: str) -> tuple[str, ...]:
        """The nodes for which a name, a pattern or a group stands; `what` says which are wanted."""
        found = [(text, nodes) for text in self.candidates(name, scope) if (nodes := self.named(text))]
        if len(found) > 1:
            self.twofold.append((name, found[1][0]))
        if found:
            return found[0][1]
        listed = self.board.agents if what == "agent" else self.board.names
        raise Misread(name.column, self.unknown(name, what, listed), len(name.text))

    def unknown(self, name: Name, what: str, listed: Iterable[str]) -> str:
        """What is said of a name that stands for nothing."""
        names = list(listed)
        near = self.near(name.text, names)
        text = shown(f".{name.text}" if name.is_own else name.text)
        article = "an" if what == "agent" else "a"
        message = f"{text} fits no name" if name.is_pattern else f"{text} is not {article} {what}"
        message += f" (is {shown(near[0])} meant?)" if near else ""
        if what != "agent":
            return message
        more = f" and {len(names) - LISTED} more" if len(names) > LISTED else ""
        return f"{message}; the agents are: {', '.join(map(shown, names[:LISTED])) or 'none'}{more}"

    def near(self, text: str, names: list[str]) -> list[str]:
        """The name that is most like a text that names nothing, or none. It is looked for a few times alone, and among
        short names."""
        if self.board.has(text) or len(text) > LONGEST or self.looked == MOST_LOOKED:
            return []
        self.looked += 1
        return difflib.get_close_matches(text, [other for other in [*names, *self.groups] if len(other) <= LONGEST], 1)

    def of(self, name: Name, scope: Scope, what: str) -> tuple[str, ...]:
        """The agents, the nodes that accept addresses, or the units for which a name stands; at least one."""
        key = name._replace(column=0), scope.prefix, what
        if key not in self.known:
            found = self.nodes(name, scope, what)
            wanted = tuple(node for node in found if self.is_wanted(what, node))
            is_one = len(found) == 1 and not name.is_pattern
            if not wanted and what == "agent":
                raise Misread(name.column, self.unknown(name, what, self.board.agents), len(name.text))
            if not wanted and not (is_one and what == "node"):
                sort = "unit" if what == "unit" else "node that accepts"
                message = f"{shown(name.text)} {'is not a' if is_one else 'has no'} {sort}"
                raise Misread(name.column, message, len(name.text))
            self.known[key] = wanted or found
        return self.known[key]

    def is_wanted(self, what: str, node: str) -> bool:
        """Whether a node is an agent, a unit, or one that accepts addresses."""
        if what == "agent":
            return node in self.board.agent_set
        if what == "unit":
            return node in self.board.unit_set
        return bool(self.board.accepts(node)[0])

    def define(self, group: Group, scope: Scope) -> None:
        """Keeps a group, in a module under the name of the use and a dot before its own."""
        text = scope.prefix + group.name.text
        if self.board.has(text) or text in self.groups:
            sort = "group" if text in self.groups else "node"
            raise Misread(group.name.column, f"there is a {sort} {shown(text)} already")
        members = itertools.chain.from_iterable(self.nodes(member, scope, "node") for member in group.members)
        self.groups[text] = tuple(dict.fromkeys(members))


Found = Iterator[Row]


def seen_there(board: Board, accesses: Iterable[str], agent: str, node: str, first: int, last: int) -> Found:
    """`never`: where the agent sees some of the addresses."""
    for access in accesses:
        for piece in board.rows(agent, access).pieces(node).seen(first, last):
            yield Row(agent, access, piece.text())


def seen_elsewhere(board: Board, accesses: Iterable[str], agent: str, node: str, first: int, last: int) -> Found:
    """`only`: where the agent sees other addresses of the node."""
    if first:
        yield from seen_there(board, accesses, agent, node, 0, first - 1)
    if last < LAST_ADDRESS:
        yield from seen_there(board, accesses, agent, node, last + 1, LAST_ADDRESS)


def unseen(board: Board, accesses: Iterable[str], agent: str, node: str, first: int, last: int) -> Found:
    """`all`: the addresses that the agent does not see."""
    for access in accesses:
        for low, high in board.rows(agent, access).pieces(node).gaps(first, last):
            yield Row(agent, access, f"nothing is {node}@{low:#x}-{high:#x}")


OF_ONE = {"never": seen_there, "only": seen_elsewhere, "all": unseen}
"""The claims that are one of each agent and each node by itself."""


def against_each(judge: "Judge", meant: Meant, span: Span) -> Found:
    """`never`, `only` and `all`."""
    for agent in meant.agents:
        for node in meant.nodes:
            yield from OF_ONE[meant.claim.kind](judge.board, meant.claim.accesses, agent, node, span.first, span.last)


def seen_by_others(judge: "Judge", meant: Meant, span: Span) -> Found:
    """`alone`: where an agent that is none of those of the claim sees some of the addresses."""
    judge.board.views(judge.board.agents)
    inside = set(meant.agents)
    for agent in judge.board.agents:
        for node in meant.nodes if agent not in inside else ():
            yield from seen_there(judge.board, meant.claim.accesses, agent, node, span.first, span.last)


def within_reach(judge: "Judge", meant: Meant, span: Span) -> Found:
    """`never_ever`: where an agent could see some of the addresses."""
    reachable = judge.reachable(frozenset(meant.others or judge.board.units))
    for agent in meant.agents:
        for node in meant.nodes:
            for access in meant.claim.accesses:
                for text in reachable.seen(agent, access, node, span.first, span.last):
                    yield Row(agent, access, text)


def seen_instead(rows: Rows, address: int, node: str, span: Span) -> Iterator[str]:
    """What an agent sees from an address of its own on, row by row, where that is not the addresses of a node, one
    after the other."""
    end = address + span.last - span.first + 1
    while address < end:
        line = rows.at(address)
        pieces = pieces_of(line) if line else []
        last = min(pieces[0].hi if pieces else rows.next_after(address) - 1, end - 1)
        if not any(piece.node == node and piece.at + address - piece.lo == span.first for piece in pieces):
            here = f"{address:#x}" if address == last else f"{address:#x}-{last:#x}"
            yield line or f"{here} comes to nothing"
        span, address = span._replace(first=span.first + last + 1 - address), last + 1


def misplaced(judge: "Judge", meant: Meant, span: Span) -> Found:
    """`at`: what the agent sees instead at those of its addresses that do not come where they are meant to."""
    address = meant.claim.address or 0
    for agent in meant.agents:
        for node in meant.nodes:
            for access in meant.claim.accesses:
                for text in seen_instead(judge.board.rows(agent, access), address, node, span):
                    yield Row(agent, access, text)


def different(judge: "Judge", meant: Meant, _: Span) -> Found:
    """`same`: the rows that one of two agents has and the other has not."""
    for access in meant.claim.accesses:
        for agent in meant.agents:
            for other in meant.others:
                yield from (Row(*row) for row in judge.board.differing(agent, other, access))


def in_both(one: list[Pieces], other: list[Pieces], span: Span) -> Iterator[tuple[int, int]]:
    """The addresses of a span to which pieces of both sides come, as first and last addresses."""
    sides = [Spans(pair for pieces in side for pair in zip(pieces.begins, pieces.ends)) for side in (one, other)]
    at = [0, 0]
    while all(place < len(side.firsts) for place, side in zip(at, sides)):
        first = max(span.first, *(side.firsts[place] for place, side in zip(at, sides)))
        lasts = [side.lasts[place] for place, side in zip(at, sides)]
        if first <= min(span.last, *lasts):
            yield first, min(span.last, *lasts)
        at[lasts[0] > lasts[1]] += 1


def seen_by_both(judge: "Judge", meant: Meant, span: Span) -> Found:
    """`disjoint`: what agents of both sides see, with where each of them sees it."""
    board, accesses = judge.board, meant.claim.accesses
    for node in meant.nodes or judge.seen_nodes(meant.agents):
        one, other = ([board.rows(agent, access).pieces(node) for agent in side for access in accesses]
                      for side in (meant.agents, meant.others))
        for first, last in in_both(one, other, span):
            for agent in (*meant.agents, *meant.others):
                yield from seen_there(board, accesses, agent, node, first, last)


AGAINST = {**dict.fromkeys(OF_ONE, against_each), "alone": seen_by_others, "never_ever": within_reach, "at": misplaced,
           "same": different, "disjoint": seen_by_both}
"""What looks for the rows that break a claim, by its kind."""


class Judge:
    """Judges claims over the views of a board."""

    def __init__(self, board: Board) -> None:
        self.board, self.names = board, Names(board)
        self._reachable: dict[frozenset[str], Reachable] = {}

    def reachable(self, free: frozenset[str]) -> Reachable:
        """What agents could reach whatever some units hold."""
        if free not in self._reachable:
            self._reachable[free] = Reachable(self.board, free)
        return self._reachable[free]

    def seen_nodes(self, agents: Iterable[str]) -> list[str]:
        """The nodes that some of the agents see, in the order of the description."""
        found = {node for agent in agents for access in ACCESSES for node in self.board.rows(agent, access).nodes}
        return [node for node in self.board.names if node in found]

    def meant(self, claim: Claim, scope: Scope) -> Meant:
        """A claim with the agents, nodes and units for which its names stand."""
        agents = self.names.of(claim.agents, scope, "agent")
        what = "unit" if claim.kind == "never_ever" else "agent"
        others = self.names.of(claim.others, scope, what) if claim.others else ()
        nodes = self.names.of(claim.node, scope, "node") if claim.node else ()
        both = set(agents) & set(others)
        if claim.kind == "disjoint" and claim.others and both:
            raise Misread(claim.others.column, f"{shown(min(both))} is on both sides of the claim")
        for node in nodes:
            self.want_accepted(node, claim)
        return Meant(claim, agents, others, nodes)

    def want_accepted(self, node: str, claim: Claim) -> None:
        """Refuses a claim on addresses that a node does not accept, or on a node that accepts none."""
        if claim.span:
            free = self.board.first_not_accepted(node, claim.span.first, claim.span.last)
            if free is not None:
                raise Misread(claim.span.column, f"{shown(node)} does not accept {free:#x}: {WHY}")
        elif claim.node and not self.board.accepts(node)[0]:
            raise Misread(claim.node.column, f"{shown(node)} accepts no address: {WHY}", len(claim.node.text))

    def verdict(self, line: Line, meant: Meant) -> Verdict:
        """The verdict on a claim on what agents see."""
        span, kind = meant.claim.span or Span(0, LAST_ADDRESS, 0), meant.claim.kind
        rows = tuple(itertools.islice(AGAINST[kind](self, meant, span), MOST_ROWS + 1))
        return Verdict(line, kind, not rows, rows[:MOST_ROWS], len(rows) <= MOST_ROWS)


class Claims:
    """The claims of lines, read over a board.

    `errors` reports each line that is not a claim, or whose names stand for nothing; the claims of the others can be
    judged."""

    def __init__(self, board: Board, lines: Iterable[Line]) -> None:
        self.judge = Judge(board)
        self.claims: list[tuple[Line, Meant | LeftOut]] = []
        self.errors: list[Finding] = []
        self.notes: list[Finding] = []
        self.constants = dict(board.description.constants)
        self.places: dict[str, Line] = {}
        for line in lines:
            try:
                self.read(line)
            except Misread as error:
                message = f"{error} ({line.where})" if line.where else str(error)
                self.errors.append(Finding(line.file, line.line, "error", "claim", message, error.column, error.width))

    def read(self, line: Line) -> None:
        """Reads a line, and keeps what it is."""
        found = Reader(line.text, line.at, ChainMap(line.scope.numbers, self.constants)).line()
        if isinstance(found, Constant):
            self.define(found, line)
        elif isinstance(found, Group):
            self.judge.names.define(found, line.scope)
        else:
            self.claims.append((line, found if isinstance(found, LeftOut) else self.judge.meant(found, line.scope)))
        for name, own in self.judge.names.twofold:
            text = shown(name.text)
            message = f"{text} means the name outside of the module; .{text} would mean {shown(own)}"
            self.notes.append(Finding(line.file, line.line, "note", "claim", message, name.column, len(name.text)))
        self.judge.names.twofold.clear()

    def define(self, constant: Constant, line: Line) -> None:
        """Keeps a number that is given a word, for the claims of the lines after it."""
        if constant.word in self.constants:
            before = self.places.get(constant.word)
            where = f"at {before.file}:{before.line}" if before else "in the description"
            raise Misread(constant.column, f"{constant.word[:40]!r} is defined already, {where}", len(constant.word))
        self.constants[constant.word], self.places[constant.word] = constant.value, line

    def verdicts(self) -> Iterator[Verdict]:
        """The verdict on each claim, one after the other."""
        board = self.judge.board
        agents = {agent for _, claim in self.claims if isinstance(claim, Meant)
                  for agent in (*claim.agents, *claim.others)}
        board.views([agent for agent in board.agents if agent in agents])
        for line, claim in self.claims:
            if isinstance(claim, LeftOut):
                yield Verdict(line, "left_out", bool(self.accepted[claim.path]), (), True)
            else:
                yield self.judge.verdict(line, claim)

    @functools.cached_property
    def accepted(self) -> dict[str, set[str]]:
        """The paths of masters that are left out, by the text after `left_out` that accepts them."""
        texts = dict.fromkeys(claim.path for _, claim in self.claims if isinstance(claim, LeftOut))
        paths = {master.path for master in self.judge.board.left_out}
        return {text: {path for path in paths if fits(text, path)} if "*" in text else paths & {text} for text in texts}

    @property
    def accepted_paths(self) -> set[str]:
        """The paths of masters that are left out, and that a claim accepts."""
        return set().union(*self.accepted.values())

    def not_accepted(self) -> list[Master]:
        """The masters that the description leaves out, and that no claim `left_out` accepts."""
        accepted = self.accepted_paths
        return [master for master in self.judge.board.left_out if master.path not in accepted]


def syntax_errors(lines: Iterable[Line]) -> Iterator[Finding]:
    """The lines that are no claims whatever their names stand for."""
    for line in lines:
        try:
            Reader(line.text, line.at, None).line()
        except Misread as error:
            yield Finding(line.file, line.line, "error", "claim", str(error), error.column, error.width)
