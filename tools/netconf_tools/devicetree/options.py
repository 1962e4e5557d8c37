"""What is asked of an importer of device trees."""
from dataclasses import dataclass

from netconf_tools.devicetree.spans import Span

SLOTS = 65536
"""How many slots a unit has where nothing else is asked for: 256 MiB in pages of 4 KiB."""
MOST_SLOTS = 262144
"""How many slots a unit of the language has at most."""


@dataclass(frozen=True)
class Options:
    """How a tree is read.

    ``only`` is the part that is taken, or None for all; ``interrupts`` asks for the interrupts too. ``said`` leaves out
    the masters whose window is not in the tree. ``each_core`` and ``each_master`` make an agent of each processor, and
    of each master that shares its table. ``slots`` is the size of the units; ``masters`` are the paths of more masters,
    ``functions`` PCI functions (the bridge or an empty text, and the requester), and ``memory`` the spans of the memory
    where they are given."""

    only: str | None = None
    interrupts: bool = False
    said: bool = False
    each_core: bool = False
    each_master: bool = False
    slots: int = SLOTS
    masters: tuple[str, ...] = ()
    functions: tuple[tuple[str, int], ...] = ()
    memory: tuple[Span, ...] = ()
