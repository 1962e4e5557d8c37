"""What agents see in one description and not in another, or at another place."""

from bisect import bisect_right
from collections import defaultdict
from collections.abc import Iterable, Iterator
from typing import NamedTuple

from netconf_tools.text import Piece, Trouble, pieces_of
from netconf_tools.views import ACCESSES, Board

MOST_CHANGES = 1 << 18
"""How many differences between two views are listed at most."""


class Difference(NamedTuple):
    """Addresses of a node that agents see otherwise: where each begins in the old and in the new, or None where it is
    not.

    `access` is `read` or `write`, or empty if it is so for both."""
    agents: tuple[str, ...]
    access: str
    node: str
    first: int
    last: int
    old: int | None
    new: int | None

    def text(self) -> str:
        """The difference in one line: after `-` what is lost, after `+` what is new, after `~` what is elsewhere."""
        name = f"{self.node}@{self.first:#x}-{self.last:#x}"
        suffix = f", for {self.access}" if self.access else ""
        if self.new is None:
            return f"- {name} at {self.old:#x}{suffix}"
        if self.old is None:
            return f"+ {name} at {self.new:#x}{suffix}"
        return f"~ {name} at {self.old:#x}, and now at {self.new:#x}{suffix}"


class Change(NamedTuple):
    """Addresses of a node, and where a view had them and has them, or None."""
    node: str
    first: int
    last: int
    old: int | None
    new: int | None


class Cover(NamedTuple):
    """Pieces of one node without what of a piece lies in pieces before it: in the order of the node's addresses, and
    no address twice."""
    firsts: list[int]
    pieces: list[Piece]

    def within(self, first: int, last: int) -> Iterator[Piece]:
        """The parts that come to addresses `first` to `last`, in their order."""
        at = max(bisect_right(self.firsts, first) - 1, 0)
        while at < len(self.pieces) and self.firsts[at] <= last:
            if part := self.pieces[at].within(first, last):
                yield part
            at += 1


def compared(old: Board, new: Board) -> Iterator[Difference]:
    """The differences of the agents that both boards have; agents that differ alike share theirs."""
    common = [agent for agent in old.agents if agent in new.agent_set]
    before, after = old.views(common), new.views(common)
    alike: dict[tuple[tuple[Change, ...], ...], list[str]] = defaultdict(list)
    known: dict[tuple[tuple[str, ...], tuple[str, ...]], tuple[Change, ...]] = {}
    for agent in common:
        sides = []
        for access in ACCESSES:
            key = tuple(before[agent, access]), tuple(after[agent, access])
            if key not in known:
                known[key] = tuple(changes_between(*key)) if key[0] != key[1] else ()
            sides.append(known[key])
        alike[tuple(sides)].append(agent)
    for (read, write), agents in alike.items():
        for access, changes in (("", read),) if read == write else (("read", read), ("write", write)):
            for change in changes:
                yield Difference(tuple(agents), access, *change)


def changes_between(before: Iterable[str], after: Iterable[str]) -> list[Change]:
    """What changed between the rows of two views, in the order of the agent's addresses."""
    before, after = list(before), list(after)
    old_lines, new_lines = set(before), set(after)
    old = [piece for line in before if line not in new_lines for piece in pieces_of(line)]
    new = [piece for line in after if line not in old_lines for piece in pieces_of(line)]
    lost, gained = without(old, new), without(new, old)
    arrived, found = covers_of(gained), []
    taken: list[Piece] = []
    for piece in lost:
        at = piece.at
        for there in arrived[piece.node].within(piece.at, piece.at_last) if piece.node in arrived else ():
            if there.at > at:
                found.append(Change(piece.node, at, there.at - 1, piece.lo + at - piece.at, None))
            found.append(Change(piece.node, there.at, there.at_last, piece.lo + there.at - piece.at, there.lo))
            taken.append(there)
            at = there.at_last + 1
        if at <= piece.at_last:
            found.append(Change(piece.node, at, piece.at_last, piece.lo + at - piece.at, None))
        if len(found) > MOST_CHANGES:
            raise Trouble(f"an agent sees more than {MOST_CHANGES:,} spans at another place, and no more are listed")
    found += [Change(piece.node, piece.at, piece.at_last, None, piece.lo) for piece in without(gained, taken)]
    return sorted(found, key=place_of)


def place_of(change: Change) -> tuple[int, str, int]:
    """What orders changes: the agent's address, and then the name."""
    return change.old if change.old is not None else change.new or 0, change.node, change.first


def covers_of(pieces: Iterable[Piece]) -> dict[str, Cover]:
    """A cover of each node to which pieces come."""
    covers: dict[str, Cover] = {}
    for piece in sorted(pieces, key=lambda piece: (piece.node, piece.at, piece.lo)):
        cover = covers.setdefault(piece.node, Cover([], []))
        free = cover.pieces[-1].at_last + 1 if cover.pieces else piece.at
        if part := piece.within(max(free, piece.at), piece.at_last):
            cover.firsts.append(part.at)
            cover.pieces.append(part)
    return covers


def without(pieces: Iterable[Piece], others: Iterable[Piece]) -> list[Piece]:
    """The parts of pieces at whose addresses the others do not come to the same address of the same node."""
    same: dict[tuple[str, int], list[Piece]] = defaultdict(list)
    for other in sorted(others):
        same[other.node, other.at - other.lo].append(other)
    passed: dict[tuple[str, int], int] = defaultdict(int)
    found = []
    for piece in sorted(pieces):
        key = piece.node, piece.at - piece.lo
        free, near = piece.lo, same.get(key, [])
        while passed[key] < len(near) and near[passed[key]].hi < piece.lo:
            passed[key] += 1
        for at in range(passed[key], len(near)):
            other = near[at]
            if other.lo > piece.hi:
                break
            if other.lo > free:
                found.append(Piece(free, other.lo - 1, piece.node, piece.at + free - piece.lo))
            free = max(free, other.hi + 1)
        if free <= piece.hi:
            found.append(Piece(free, piece.hi, piece.node, piece.at + free - piece.lo))
    return joined(found)


def joined(pieces: Iterable[Piece]) -> list[Piece]:
    """The pieces, with those joined that go on with one another."""
    found: list[Piece] = []
    for piece in sorted(pieces, key=lambda piece: (piece.node, piece.at - piece.lo, piece.lo)):
        last = found[-1] if found else None
        if last and last.node == piece.node and last.hi + 1 == piece.lo and last.at_last + 1 == piece.at:
            found[-1] = last._replace(hi=piece.hi)
        else:
            found.append(piece)
    return sorted(found)
