"""The colours of pictures: what a node is, whose it is, and what an agent may do there.

They are the palette of Okabe and Ito, and tints of it, so that those who see fewer hues can tell them apart; black text
stands on each tint. A test looks at both. What a colour says is said by a word or a form too."""

from netconf_tools.nodes import covered
from netconf_tools.source import Node

LARGE = 1 << 20
"""From how many bytes on what a node accepts is drawn as memory; below it is drawn as registers."""

KINDS = {
    "agent": ("agent", "#a6d4f2"),
    "memory": ("memory: 1 MiB or more is accepted", "#6cc3a0"),
    "registers": ("registers: less than 1 MiB is accepted", "#fbf6cf"),
    "both": ("it accepts and maps", "#dd8a66"),
    "bus": ("bus or bridge: it maps", "#d0d0d0"),
    "vectors": ("interrupt vectors", "#f2c94c"),
    "unit": ("unit of translation", "#c79bc9"),
    "none": ("node without a part", "#ffffff"),
}
"""For each kind of node its words in a legend, and its colour."""

GUESTS = ("#0072b2", "#d55e00", "#009e73", "#cc79a7", "#000000", "#e69f00")
"""The colours of modules, in their order; of more modules than there are colours some share one."""

ACCESSES = {("read", "write"): ("reads and writes", "#8fb8de"), ("read",): ("reads only", "#d4e6b5"),
            ("write",): ("writes only", "#f2a65a")}
"""For each set of accesses its words in a legend, and its colour."""

SHARED = "#1a1a1a"
"""The colour of what marks addresses that several see."""


def kind_of(node: Node) -> str:
    """The kind of a node, as in `KINDS`."""
    if node.role:
        return node.role
    maps = bool(node.entries or node.over)
    if not node.accepts:
        return "bus" if maps else "none"
    if maps:
        return "both"
    return "memory" if covered(node.accepts) >= LARGE else "registers"


def colour_of(node: Node) -> str:
    """The colour of a node."""
    return KINDS[kind_of(node)][1]


def guest_of(name: str) -> str:
    """The use of a module that a node's full name begins with, the outermost; empty where there is none."""
    return name.partition(".")[0] if "." in name else ""


class Guests:
    """The colour of each use of a module that names begin with, in the order in which they are met."""

    def __init__(self) -> None:
        self._colours: dict[str, str] = {}

    def colour(self, name: str) -> str | None:
        """The colour of the use that a name begins with, or nothing where there is none."""
        guest = guest_of(name)
        if not guest:
            return None
        return self._colours.setdefault(guest, GUESTS[len(self._colours) % len(GUESTS)])

    def met(self) -> dict[str, str]:
        """The uses that were met, each with its colour."""
        return self._colours
