"""The nodes of a description, and how the claims on the addresses of a bus become its entries."""
from collections.abc import Callable, Iterator
from dataclasses import dataclass, field
from typing import NamedTuple

from netconf_tools.devicetree.spans import Span, meet, shifted, text, union, without
from netconf_tools.devicetree.tree import TreeNode

MAX_DESTINATIONS = 8
"""How many destinations an entry of the language may have."""
MAX_CLAIMS = 64
"""How many windows that claim one address of a bus are compared, also where nothing is in most of them."""


class Unit(NamedTuple):
    """The shape of a unit: slots of 2^page addresses, sent to addresses of a node below 2^reach."""

    page: int
    slots: int
    reach: int
    port: "NetNode"
    kind: str = "pages"


@dataclass(eq=False)
class NetNode:
    """A node of the description: what it accepts, where it sends the rest, and where in the tree it comes from.

    ``suffix`` tells apart the nodes that come of one node of the tree; ``source`` is what comments call it. ``unit`` is
    the shape of a unit, whose tables are empty: nothing that comes to it goes on. ``others`` are more nodes of the tree
    that the same agent stands for."""

    tree_node: TreeNode | None
    suffix: str | int
    source: str
    accept: list[Span] = field(default_factory=list)
    entries: "list[Entry]" = field(default_factory=list)
    over: "NetNode | None" = None
    agent: bool = False
    vectors: bool = False
    unit: Unit | None = None
    others: list[TreeNode] = field(default_factory=list)
    name: str = ""
    _decoded: list[Span] | None = None

    def decoded(self) -> list[Span]:
        """The addresses that come to something that accepts; asked only of a node that is whole."""
        if self._decoded is None:
            spans = list(self.accept)
            for entry in self.entries:
                for way in entry.ways:
                    spans += way.decoded_in(entry.first, entry.last)
            if self.over:
                spans += self.over.decoded()
            self._decoded = union(spans)
        return self._decoded

    def rows(self, first: int, last: int) -> "Iterator[Row]":
        """What the addresses of a span come to: ``(first, last, node, address)``, all that accept, in order of ways."""
        for low, high in meet([(first, last)], self.accept):
            yield low, high, self, low
        for entry in self.entries:
            for low, high in meet([(first, last)], [(entry.first, entry.last)]):
                for way in entry.ways:
                    yield from way.rows(low, high)
        if self.over:
            gaps = [(first, last)]
            taken = union([(entry.first, entry.last) for entry in self.entries] + self.accept)
            for low, high in without(gaps, taken):
                yield from self.over.rows(low, high)


class Claim(NamedTuple):
    """Who claims a span of a bus: a node, at ``at`` for the first address."""

    first: int
    last: int
    target: NetNode
    at: int
    source: str

    def place(self, address: int) -> int:
        """Where an address of the claim is in its target."""
        return self.at + address - self.first

    def decoded_in(self, first: int, last: int) -> list[Span]:
        """Which of the addresses from ``first`` to ``last``, on the bus, come to something."""
        inside = meet([(self.place(first), self.place(last))], self.target.decoded())
        return shifted(inside, self.first - self.at)

    def rows(self, first: int, last: int) -> "Iterator[Row]":
        """What these addresses of the bus come to, as ``NetNode.rows``, by their addresses on the bus."""
        by = self.first - self.at
        for low, high, node, address in self.target.rows(self.place(first), self.place(last)):
            yield low + by, high + by, node, address


class Entry(NamedTuple):
    """An entry of a map: a span, and the claims that hold there."""

    first: int
    last: int
    ways: tuple[Claim, ...]

    def destinations(self) -> list[tuple[NetNode, int]]:
        """The nodes and addresses to which the first address goes."""
        return [(way.target, way.place(self.first)) for way in self.ways]

    def sources(self) -> list[str]:
        """Who accepts in this span, for each claim; a bus is named by what is in it."""
        named = []
        for way in self.ways:
            inside = list(dict.fromkeys(row[2].source for row in way.rows(self.first, self.last)))
            named.append(", ".join(inside) if inside else way.source)
        return named


Row = tuple[int, int, NetNode, int]
"""Some addresses and what they come to: the first, the last, the node that accepts, and the first address there."""


def settle(claims: list[Claim], identities: list[Claim],
           say: Callable[[str], None]) -> tuple[list[Entry], NetNode | None]:
    """The entries of a bus, and the node for its ``over``, of the claims on it and the buses in it that are 1:1.

    One of the 1:1 buses can be the ``over``; the others are written out span by span. An address that two or more
    claim goes to all of them; a bus counts there only where something in it answers. ``say`` is given in words which
    claims are left out, since an entry has no more destinations."""
    over = max(identities, key=lambda claim: len(claim.target.decoded()), default=None)
    written = list(claims)
    for claim in identities:
        for first, last in claim.target.decoded():
            written.append(Claim(first, last, claim.target, first, claim.source))
    entries = []
    for first, last, ways in _segments(written, say):
        if len(ways) > MAX_DESTINATIONS:
            say(f"{text(first, last)} has {len(ways)} claimants, and an entry at most {MAX_DESTINATIONS} destinations; "
                f"left out there: {_sources(ways[MAX_DESTINATIONS:])}")
            ways = ways[:MAX_DESTINATIONS]
        if over and all(way.target is over.target and way.place(first) == first for way in ways):
            continue
        entries.append(Entry(first, last, ways))
    return _joined(entries), over.target if over else None


def _joined(entries: list[Entry]) -> list[Entry]:
    """The entries, with those joined that go on with one another."""
    joined: list[Entry] = []
    for entry in entries:
        if joined and joined[-1].last + 1 == entry.first and _goes_on(joined[-1], entry):
            joined[-1] = joined[-1]._replace(last=entry.last)
        else:
            joined.append(entry)
    return joined


def _goes_on(before: Entry, after: Entry) -> bool:
    """Whether the second entry only goes on with the first."""
    return [(way.target, way.place(after.first)) for way in before.ways] == after.destinations()


def _sources(claims: tuple[Claim, ...]) -> str:
    """Whose claims these are; of many the first ones."""
    shown = [claim.source for claim in claims[:2 * MAX_DESTINATIONS]]
    more = len(claims) - len(shown)
    return ", ".join(shown) + (f" and {more} more" if more else "")


def _segments(claims: list[Claim], say: Callable[[str], None]) -> Iterator[tuple[int, int, tuple[Claim, ...]]]:
    """The spans of a bus with the claims that hold in each, in order."""
    order = {id(claim): number for number, claim in enumerate(claims)}
    waiting = sorted(claims, key=lambda claim: (claim.first, order[id(claim)]), reverse=True)
    cuts = sorted({claim.first for claim in claims} | {claim.last + 1 for claim in claims})
    active: list[Claim] = []
    left: list[Claim] = []
    for first, end in zip(cuts, cuts[1:]):
        active = [claim for claim in active if claim.last >= first]
        while waiting and waiting[-1].first <= first:
            (active if len(active) < MAX_CLAIMS else left).append(waiting.pop())
        active.sort(key=lambda claim: order[id(claim)])
        if len(active) == 1:
            yield first, end - 1, tuple(active)
        elif active:
            yield from _contested(first, end - 1, active)
    if left:
        say(f"{len(left)} claims are left out, since {MAX_CLAIMS} others hold at their first addresses, and no more "
            f"are compared: {_sources(tuple(left))}")


def _contested(first: int, last: int, claims: list[Claim]) -> Iterator[tuple[int, int, tuple[Claim, ...]]]:
    """A span with several claims, cut into spans in which the same of them come to something."""
    answers = [(claim, claim.decoded_in(first, last)) for claim in claims]
    cuts = {first, last + 1}
    for _claim, spans in answers:
        for low, high in spans:
            cuts |= {low, high + 1}
    ordered = sorted(cuts)
    for low, end in zip(ordered, ordered[1:]):
        holding: dict[tuple[int, int], Claim] = {}
        for claim, spans in answers:
            if meet([(low, low)], spans):
                holding.setdefault((id(claim.target), claim.place(low)), claim)
        if holding:
            yield low, end - 1, tuple(holding.values())
