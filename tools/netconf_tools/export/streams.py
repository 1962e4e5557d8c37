"""The stream and function numbers of agents, from the notes on them."""

import re
from dataclasses import dataclass
from typing import Iterator

from netconf_tools.export.formats import Format
from netconf_tools.layout import Layout, Viewer
from netconf_tools.text import Trouble

STREAM = re.compile(r"stream (?P<number>0x[0-9a-fA-F]+|\d+)(?: mask (?P<mask>0x[0-9a-fA-F]+|\d+))?")
"""A note with a stream's number; the bits of the mask do not count, so that it is several streams."""

STREAMS = re.compile(r"streams (?P<first>0x[0-9a-fA-F]+|\d+)-(?P<last>0x[0-9a-fA-F]+|\d+)")
"""A note on a function of a bus whose stream is one of these, and is not known."""

FUNCTION = re.compile(r"pci (?P<bus>[0-9a-fA-F]{1,2}):(?P<device>[0-9a-fA-F]{1,2})\.(?P<function>[0-7])")
"""A note with a function of PCI: its bus, its device and its function, in hexadecimal."""

MOST_MASKED = 1 << 16
"""How many streams a note with a mask may be."""

HARDWARE = re.compile(r"/\S*")
"""A path of a device tree."""


@dataclass(frozen=True)
class Master:
    """An agent that comes to units: its name, the units, the hardware that these are, and its stream or function
    numbers."""
    agent: str
    units: tuple[int, ...]
    hardware: str
    numbers: tuple[int, ...]
    why_none: str = ""


def parts_of(notes: list[str]) -> Iterator[str]:
    """Yields the parts of notes, which commas and blanks divide."""
    for note in notes:
        yield from (part.strip() for part in note.split(", "))


def streams_in(notes: list[str]) -> list[int]:
    """Returns the streams that notes say."""
    numbers: list[int] = []
    for part in parts_of(notes):
        hit = STREAM.fullmatch(part)
        if hit:
            numbers += masked(int(hit["number"], 0), int(hit["mask"] or "0", 0))
    return sorted(set(numbers))


def masked(number: int, mask: int) -> list[int]:
    """Returns the streams that are the same as a number but for the bits of a mask."""
    if 1 << mask.bit_count() > MOST_MASKED:
        raise Trouble(f"stream {number:#x} mask {mask:#x} is more than {MOST_MASKED:,} streams")
    found, part = [number & ~mask], mask
    while part:
        found.append(number & ~mask | part)
        part = part - 1 & mask
    return found


def functions_in(notes: list[str]) -> list[int]:
    """Returns the functions of PCI that notes say, each 256 times its bus, 8 times its device, and its function."""
    hits = [FUNCTION.fullmatch(part) for part in parts_of(notes)]
    return sorted({int(hit["bus"], 16) << 8 | int(hit["device"], 16) << 3 | int(hit["function"]) for hit in hits
                   if hit and int(hit["device"], 16) < 32})


def hardware_of(layout: Layout, agent: Viewer) -> str:
    """Returns the path of the hardware that an agent's first unit is, as the first note on the unit has it; or
    nothing."""
    if not agent.windows:
        return ""
    notes = list(parts_of(layout.units[agent.windows[0].unit].notes))
    return notes[0].split(" ")[0] if notes and HARDWARE.match(notes[0]) else ""


def masters_of(layout: Layout, form: Format, chosen: list[str]) -> tuple[list[Master], list[str]]:
    """Returns the agents whose tables are made, and a line for each that comes to a unit and is left out. ``chosen``
    are names of agents; if it is empty, all that come to units with pages are."""
    masters, left = [], []
    for agent in layout.agents:
        units = tuple(sorted({window.unit for window in agent.windows}))
        lines = [layout.units[unit].name for unit in units if layout.units[unit].kind == "vectors"]
        if chosen and agent.name not in chosen or not chosen and not units:
            continue
        if lines and not chosen:
            left.append(f"{agent.name} is left out: {lines[0]} has records of messages, and no pages")
            continue
        masters.append(master_of(layout, form, agent, units))
    return masters, left


def master_of(layout: Layout, form: Format, agent: Viewer, units: tuple[int, ...]) -> Master:
    """Returns an agent with its numbers. Those on the unit count if the agent has none, and comes to it alone."""
    notes, hardware = list(agent.notes), hardware_of(layout, agent)
    numbers = numbers_in(form, notes)
    if not numbers and units and is_alone(layout, agent, units[0]):
        notes += layout.units[units[0]].notes
        numbers = numbers_in(form, notes)
    why = "" if numbers else f"no note says its number: `//@ {'pci 0:3.0' if form.note == 'pci' else 'stream 0x10'}`"
    several = [part for part in parts_of(notes) if STREAMS.fullmatch(part)]
    if not numbers and form.note == "stream" and several:
        why = f"its stream is one of {several[0].removeprefix('streams ')}, and no note says which"
    return Master(agent.name, units, hardware, tuple(numbers), why)


def numbers_in(form: Format, notes: list[str]) -> list[int]:
    """Returns the numbers of the sort that a format has."""
    return functions_in(notes) if form.note == "pci" else streams_in(notes)


def is_alone(layout: Layout, agent: Viewer, unit: int) -> bool:
    """Returns whether no other agent comes to a unit."""
    return all(other is agent or all(window.unit != unit for window in other.windows) for other in layout.agents)
