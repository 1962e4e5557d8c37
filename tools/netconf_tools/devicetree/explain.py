"""Where a processor sees each device, step by step through the ``ranges`` of the buses."""
from collections.abc import Iterator

from netconf_tools.devicetree.buses import Bus
from netconf_tools.devicetree.cells import Piece, whole
from netconf_tools.devicetree.platform import Platform
from netconf_tools.devicetree.spans import meet, text
from netconf_tools.ending import plain


def explained(platform: Platform) -> str:
    """For each window of a device: its name in the description, and its addresses from its bus out to the root."""
    lines = []
    for device in platform.devices():
        register = device.register
        lines.append(plain(f"{device.net_node.source} ({device.net_node.name}), {register.size:#x} bytes"))
        for steps in outward(device.bus, register.space, register.first, register.first + register.size - 1):
            lines.append("    " + plain(", ".join(steps)))
    return "\n".join(lines) + "\n" if lines else ""


def outward(bus: Bus, space: str, first: int, last: int) -> Iterator[list[str]]:
    """The ways of a span from its bus out to the root: for each part, the steps in words."""
    here = f"{text(whole(space, first), whole(space, last))} on {bus.tree_node.path}"
    if bus.outer is None:
        if bus.reach:
            for low, high in meet([(first, last)], bus.reach.get(space, [])):
                yield [f"a processor sees it at {text(low, high)}"]
    elif bus.one_to_one:
        for steps in outward(bus.outer, space, first, last):
            yield [f"{here} by empty ranges"] + steps
    else:
        for piece in bus.pieces:
            if piece.space == space:
                yield from _through(bus, piece, first, last)


def _through(bus: Bus, piece: Piece, first: int, last: int) -> Iterator[list[str]]:
    """The ways of a span through one entry of ``ranges``."""
    if bus.outer is None:
        return
    for low, high in meet([(first, last)], [(piece.first, piece.last)]):
        by = piece.outer - piece.first
        here = text(whole(piece.space, low), whole(piece.space, high))
        for steps in outward(bus.outer, piece.outer_space, low + by, high + by):
            yield [f"{here} on {bus.tree_node.path} by ranges {piece.number}"] + steps
