"""References from one node of a tree to another by phandle: to IOMMUs and to the controllers of messages.

Here stands also the search for cycles among such references.
"""
from collections.abc import Iterator
from typing import NamedTuple

from netconf_tools.devicetree.fault import Fault
from netconf_tools.devicetree.tree import Tree, TreeNode

Reference = tuple[TreeNode | None, list[int]]
"""A target and the cells after it; a target that is not there is None."""


class Mapped(NamedTuple):
    """An entry of ``iommu-map`` or ``msi-map``: the first requester, the target, the first number there, how many."""

    first: int
    target: TreeNode | None
    number: int
    length: int


def references(tree: Tree, node: TreeNode, name: str, cells_name: str) -> list[Reference]:
    """The references of a property, each a target and its cells; a target that is not there ends them."""
    words, at = node.words(name), 0
    found: list[Reference] = []
    while at < len(words):
        target = tree.by_phandle.get(words[at])
        if target is None:
            found.append((None, [words[at]]))
            break
        count = target.cell(cells_name)
        if at + 1 + count > len(words):
            raise Fault(f"{name} ends inside a reference to {target.path}, which has {count} cells")
        found.append((target, words[at + 1:at + 1 + count]))
        at += 1 + count
    return found


def mapped(tree: Tree, node: TreeNode, name: str) -> Iterator[Mapped]:
    """The entries of ``iommu-map`` or ``msi-map``."""
    words = node.words(name)
    if len(words) % 4:
        raise Fault(f"{name} has {len(words)} cells, no multiple of 4")
    for at in range(0, len(words), 4):
        first, handle, number, length = words[at:at + 4]
        yield Mapped(first, tree.by_phandle.get(handle), number, length)


def cycles(tree: Tree) -> Iterator[str]:
    """The cycles in which ``interrupt-parent`` or ``iommus`` lead from a node back to it, in words.

    A controller that is its own ``interrupt-parent`` is the last one, and no cycle."""
    handlers = {}
    for node in tree.root.walk():
        parent = tree.by_phandle.get(node.cell("interrupt-parent")) if node.has("interrupt-parent") else None
        handlers[node] = [parent] if parent not in (None, node) else []
    yield from _cycles(handlers, "interrupt-parent")
    yield from _cycles({node: _iommus(tree, node) for node in tree.root.walk()}, "iommus")


def _iommus(tree: Tree, node: TreeNode) -> list[TreeNode | None]:
    """The IOMMUs that a node names; none where they cannot be read."""
    try:
        return [target for target, _cells in references(tree, node, "iommus", "#iommu-cells") if target]
    except Fault:
        return []


def _cycles(following: dict[TreeNode, list[TreeNode | None]], name: str) -> Iterator[str]:
    """The cycles of a graph of nodes, each shown once."""
    clean: set[TreeNode] = set()
    for start in following:
        way, ahead, open_nodes = [start], [iter(following[start])], {start}
        while way and start not in clean:
            target = next(ahead[-1], None)
            if target is None:
                clean.add(way[-1])
                open_nodes.discard(way.pop())
                ahead.pop()
            elif target in open_nodes:
                yield f"a cycle of {name}: " + " -> ".join(place.path for place in way[way.index(target):] + [target])
            elif target not in clean:
                way.append(target)
                open_nodes.add(target)
                ahead.append(iter(following[target]))
