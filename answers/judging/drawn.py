"""Nets and scripts that are drawn out: each address of a small net becomes a stretch of so many, a power of two.

An address keeps its place in its stretch on every way, so a buffer of whole stretches stands where the small one
stands, and all answers are those of the small net, drawn out likewise: so what is due over many addresses needs no
search among them. What stands behind the edge of a net is behind that of the drawn one."""

import re
from typing import Any

from judging import nets

NUMBERS = re.compile(rb"0x([0-9a-f]+)(?:-0x([0-9a-f]+))?")


class Drawing:
    """Addresses become stretches of two to so many bits; the last one of all, and what is past it, stay as they are."""

    def __init__(self, net: nets.Net, bits: int) -> None:
        self.net, self.bits = net, bits

    def first(self, addr: int) -> int:
        """The first address of the stretch that an address becomes."""
        return addr << self.bits if addr <= nets.TOP >> self.bits else addr

    def last(self, addr: int) -> int:
        """The last address of that stretch."""
        return (addr + 1 << self.bits) - 1

    def node(self, node: nets.Node) -> nets.Node:
        """A node whose blocks are drawn out; the slots of a unit are as many as before, and its page and outputs
        larger."""
        accepts = [(self.first(lo), self.last(hi)) for lo, hi in node.accepts]
        entries = [(self.first(lo), self.last(hi), [(number, self.first(addr)) for number, addr in dests])
                   for lo, hi, dests in node.entries]
        unit = node.unit and nets.Unit(
            node.unit.kind, node.unit.page + self.bits, node.unit.slots, node.unit.reach + self.bits, node.unit.ports)
        return nets.Node(node.name, node.role, accepts, entries, node.over, unit)

    def command(self, command: tuple[Any, ...]) -> tuple[Any, ...]:
        """A command over the drawn net: addresses and sizes are drawn out."""
        if command[0] == "grant":
            word, id, agent, node, base, size, access = command
            return word, id, agent, node, self.first(base), size << self.bits, access
        if command[0] == "gather":
            word, agent, pieces, access = command
            return word, agent, tuple((id, node, self.first(base), size << self.bits)
                                      for id, node, base, size in pieces), access
        return tuple(self.first(part) if isinstance(part, int) else part for part in command)

    def output(self, output: bytes) -> bytes:
        """What is printed, drawn out: the last address of a row is the last of its stretch."""
        def number(found: re.Match[bytes]) -> bytes:
            if found[2] is None:
                return b"%#x" % self.first(int(found[1], 16))
            return b"%#x-%#x" % (self.first(int(found[1], 16)), self.last(int(found[2], 16)))
        return NUMBERS.sub(number, output)

    def drawn(self) -> nets.Net:
        """The net that is drawn out."""
        return nets.Net([self.node(node) for node in self.net.nodes])


def most_bits(net: nets.Net) -> Any:
    """By how many bits a net can be drawn out, so that its edge is at most the last address; by none where it has
    vectors, whose units have pages of one address."""
    parts = [node.unit for node in net.nodes if node.unit]
    if any(node.role == "vectors" for node in net.nodes) or any(unit.kind == "vectors" for unit in parts):
        return 0
    return min([56 - net.edge.bit_length()] + [min(40 - unit.page, 56 - unit.reach) for unit in parts])
