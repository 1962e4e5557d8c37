"""The rows of one view, found by the agent's addresses and by those of the nodes to which they come.

A description may have 16,384 rows and tens of thousands of claims on them, so no claim goes over all rows."""

import collections
import functools
from bisect import bisect_right
from collections.abc import Iterable, Iterator, Sequence

from netconf_tools.limits import LAST_ADDRESS
from netconf_tools.text import Piece, pieces_of


class Pieces:
    """Pieces that come to one node, in the order of its addresses.

    `tops[n][i]` is the greatest last address among the pieces from the one of number i * 2^n on, 2^n of them: a search
    passes by those that end before what is looked for."""

    def __init__(self, pieces: Iterable[Piece]) -> None:
        self.pieces = sorted(pieces, key=lambda piece: (piece.at, piece.lo))
        self.firsts = [piece.at for piece in self.pieces]
        self.tops = [[piece.at_last for piece in self.pieces]]
        while len(self.tops[-1]) > 1:
            below = self.tops[-1]
            self.tops.append([max(below[at:at + 2]) for at in range(0, len(below), 2)])
        self.begins: list[int] = []
        self.ends: list[int] = []
        for piece in self.pieces:
            if self.ends and piece.at <= self.ends[-1] + 1:
                self.ends[-1] = max(self.ends[-1], piece.at_last)
            else:
                self.begins.append(piece.at)
                self.ends.append(piece.at_last)

    def seen(self, first: int, last: int) -> Iterator[Piece]:
        """The parts of the pieces that come to addresses `first` to `last`, in the order of the addresses."""
        end = bisect_right(self.firsts, last)
        waiting = [(len(self.tops) - 1, 0)]
        while waiting:
            level, at = waiting.pop()
            if at << level >= end or self.tops[level][at] < first:
                continue
            if level == 0:
                if part := self.pieces[at].within(first, last):
                    yield part
            else:
                waiting += [(level - 1, below) for below in (2 * at + 1, 2 * at) if below < len(self.tops[level - 1])]

    def gaps(self, first: int, last: int) -> Iterator[tuple[int, int]]:
        """The addresses from `first` to `last` to which no piece comes, as spans."""
        at = max(bisect_right(self.begins, first) - 1, 0)
        while first <= last:
            if at == len(self.begins) or self.begins[at] > last:
                yield first, last
                return
            if self.begins[at] > first:
                yield first, self.begins[at] - 1
            first, at = max(first, self.ends[at] + 1), at + 1


class Rows:
    """The rows of a view as lines, each for addresses above those of the one before."""

    def __init__(self, lines: Sequence[str]) -> None:
        self.lines = lines

    @functools.cached_property
    def members(self) -> set[str]:
        """The lines as a set."""
        return set(self.lines)

    @functools.cached_property
    def _firsts(self) -> list[int]:
        """The first address of each row."""
        return [int(line.split("-", 1)[0], 16) for line in self.lines]

    @functools.cached_property
    def _nodes(self) -> dict[str, Pieces]:
        """The pieces of the rows by their nodes."""
        found = collections.defaultdict(list)
        for line in self.lines:
            for piece in pieces_of(line):
                found[piece.node].append(piece)
        return {node: Pieces(pieces) for node, pieces in found.items()}

    def at(self, address: int) -> str | None:
        """The row that has an address of the agent, or nothing."""
        place = bisect_right(self._firsts, address) - 1
        line = self.lines[place] if place >= 0 else None
        return line if line and any(piece.hi >= address for piece in pieces_of(line)) else None

    def next_after(self, address: int) -> int:
        """The first address after one that a row has, or the first that no node has."""
        place = bisect_right(self._firsts, address)
        return self._firsts[place] if place < len(self._firsts) else LAST_ADDRESS + 1

    @property
    def nodes(self) -> Iterable[str]:
        """The nodes to which the rows come."""
        return self._nodes.keys()

    def pieces(self, node: str) -> Pieces:
        """The pieces that come to a node."""
        return self._nodes.get(node) or NONE


NONE = Pieces([])
"""No pieces."""
