"""A readable name for each node of the description, from the labels and the paths of the tree.

A node of the tree is called by its label where the tree keeps labels, and else by its name with its unit address, as
``serial_7e201000``. Where two would have one name, the names of the nodes above are put before it until they differ.
"""
import re
from collections.abc import Iterable, Sequence

from netconf_tools.devicetree.net import NetNode
from netconf_tools.devicetree.tree import Tree, TreeNode

RESERVED = frozenset(
    "agent vectors unit module use for in end begin is accept map to and at over kind page slots reach as num node "
    "resolve lookup view grant route revoke dump split absorb".split())

PARTS = frozenset(("bus", "dma", "iommu", "untranslated"))
"""What else may follow the name of a node of the tree and a dot: the bus that a device is, the way of its accesses, and
the unit that translates them."""

ROOT_NAME = "system"


def word(text: str) -> str:
    """A text as a word of the language that is not reserved."""
    plain = re.sub(r"[^A-Za-z0-9_]", "_", text) or "_"
    if plain[0].isdigit():
        plain = "_" + plain
    return plain + "_" if plain in RESERVED else plain


class Names:
    """Names that are given out, each once: where one is taken a number follows it, from 2 on."""

    def __init__(self) -> None:
        self.taken: set[str] = set()
        self._next: dict[str, int] = {}

    def free(self, wanted: str) -> str:
        """A name that nothing else has. Numbers that were tried for a name are not tried again."""
        name = wanted
        if name in self.taken:
            number = self._next.get(wanted, 2)
            while (name := f"{wanted}_{number}") in self.taken:
                number += 1
            self._next[wanted] = number + 1
        self.taken.add(name)
        return name


def register_suffixes(node: TreeNode, count: int) -> Sequence[str | int]:
    """What tells apart the ``count`` windows of a node: nothing for one, else their names, or their numbers."""
    if count == 1:
        return [""]
    names = node.strings("reg-names")
    words = {word(name) for name in names}
    if len(names) == count == len(words) and not words & PARTS:
        return names
    return list(range(count))


def assign(tree: Tree, net_nodes: list[NetNode]) -> None:
    """Gives each node of the description its name; all names differ."""
    tree_nodes = list(dict.fromkeys(node.tree_node for node in net_nodes if node.tree_node is not None))
    bases = _bases(tree, tree_nodes)
    names = Names()
    for node in net_nodes:
        if node.tree_node is not None:
            node.name = names.free(bases[node.tree_node] + _after(node.suffix))


def _after(suffix: str | int) -> str:
    """What follows the name of the node of the tree."""
    if suffix == "":
        return ""
    return f"[{suffix}]" if isinstance(suffix, int) else "." + word(suffix)


def _bases(tree: Tree, tree_nodes: Iterable[TreeNode]) -> dict[TreeNode, str]:
    """A name for each node of the tree, each another one."""
    bases, depth = {tree.root: ROOT_NAME}, 0
    waiting = [node for node in tree_nodes if node is not tree.root]
    while waiting:
        groups: dict[str, list[TreeNode]] = {}
        for node in waiting:
            groups.setdefault(_base(tree, node, depth), []).append(node)
        used, waiting = set(bases.values()), []
        for name, group in groups.items():
            if len(group) == 1 and name not in used:
                bases[group[0]] = name
                used.add(name)
            elif depth < max(len(list(node.above())) for node in group):
                waiting += group
            else:
                _number(group, name, bases, used)
        depth += 1
    return bases


def _base(tree: Tree, node: TreeNode, depth: int) -> str:
    """The name of a node with the names of up to ``depth`` nodes above it."""
    if node.path in tree.labels:
        return word(tree.labels[node.path])
    above = [place.name for place in node.above() if place.parent is not None][:depth]
    return word("_".join(reversed([node.name] + above)))


def _number(group: list[TreeNode], name: str, bases: dict[TreeNode, str], used: set[str]) -> None:
    """Names that nothing else tells apart, by numbers."""
    number = 1
    for node in group:
        while f"{name}_{number}" in used:
            number += 1
        bases[node] = f"{name}_{number}"
        used.add(bases[node])
        number += 1
