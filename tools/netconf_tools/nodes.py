"""What the nodes of a net accept, and which of them lead where."""

from collections.abc import Iterable

from netconf_tools.source import Block, Node


def covered(blocks: Iterable[Block]) -> int:
    """How many addresses lie in some of the blocks."""
    total, end = 0, -1
    for block in sorted(blocks, key=lambda block: block.lo):
        total += max(0, block.hi - max(block.lo, end + 1) + 1)
        end = max(end, block.hi)
    return total


def reached(nodes: dict[str, Node], starts: Iterable[str]) -> dict[str, Node]:
    """The nodes that some way from the starts passes, in their order."""
    left = list(starts)
    found = set(left)
    while left:
        node = nodes[left.pop()]
        for name in [n for e in node.entries for n, _ in e.destinations] + ([node.over] if node.over
                                                                            else []) + node.ports:
            if name not in found:
                found.add(name)
                left.append(name)
    return {name: node for name, node in nodes.items() if name in found}
