"""Which grants meet reserved memory: the notes on it that `netconf-import` writes, and the buffers that lie in it.

A note `//@ NODE is reserved FIRST-LAST, WHAT` reserves addresses of a node: for firmware, for another processor, or for
a frame that is shown. The program knows nothing of it, and grants them as any others."""

import re
from bisect import bisect_left
from collections.abc import Iterable, Iterator
from typing import NamedTuple

from netconf_tools.source import Command, Node, commands_of, nodes_of

NOTE = re.compile(r"reserved (0x[0-9a-f]{1,16})-(0x[0-9a-f]{1,16})(?:, (.*))?")
"""A note on a node, of which the name is not a part: the first and the last address, and what reserves them."""


class Reserved(NamedTuple):
    """Reserved addresses of a node: the first, the last, and what reserves them."""

    first: int
    last: int
    what: str


def reserved_of(node: Node) -> list[Reserved]:
    """The reserved addresses of a node by the notes on it, in order; those that overlap are one."""
    spans = sorted(Reserved(int(hit[1], 16), int(hit[2], 16), hit[3] or "a note")
                   for hit in map(NOTE.fullmatch, node.notes) if hit)
    joined: list[Reserved] = []
    for span in spans:
        if joined and span.first <= joined[-1].last:
            last = max(joined[-1].last, span.last)
            joined[-1] = Reserved(joined[-1].first, last, f"{joined[-1].what} and {span.what}")
        elif span.first <= span.last:
            joined.append(span)
    return joined


def buffers_of(command: Command) -> Iterator[tuple[str, int, int]]:
    """The buffers that a grant or a gather asks for: the node, the first address and the last."""
    numbers = command.numbers
    for node, base, size in zip(command.names[1:], numbers[::2], numbers[1::2]):
        if size:
            yield node, base, base + size - 1


def grants_in_reserved(text: str) -> Iterator[tuple[Command, str]]:
    """The grants and gathers of a description whose buffers meet reserved memory, each with what it meets in words."""
    if " is reserved " not in text:
        return
    reserved = {name: found for name, node in nodes_of(text).items() if (found := reserved_of(node))}
    ends = {name: [span.last for span in spans] for name, spans in reserved.items()}
    for command in commands_of(text, ("grant", "gather")) if reserved else ():
        met = list(_met(command, reserved, ends))
        if met:
            yield command, "; ".join(met)


def _met(command: Command, reserved: dict[str, list[Reserved]], ends: dict[str, list[int]]) -> Iterable[str]:
    """What the buffers of a command meet, in words: of each the first."""
    for node, first, last in buffers_of(command):
        place = bisect_left(ends.get(node, []), first)
        if place < len(ends.get(node, [])) and reserved[node][place].first <= last:
            span = reserved[node][place]
            yield f"{node}@{max(first, span.first):#x}-{min(last, span.last):#x} is reserved, by {span.what}"
