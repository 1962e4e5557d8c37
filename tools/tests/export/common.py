"""What the tests of exported tables share: tables made in memory, and walks over them."""

import os
from typing import Callable

from netconf_tools.cli.export import FORMATS
from netconf_tools.export.memory import Memory, Plan, bytes_of
from netconf_tools.export.tables import Choice, Unit, Wanted, made_tables, wanted_of
from netconf_tools.layout import Layout, layout_of
from netconf_tools.views import Board
from tests.export.walkers import WALKERS

AT = 0x800000000
"""Where the tables stand in the tests: a multiple of all that an SMMU wants, past 4 GiB."""

MADE = int(os.environ.get("MADE", "50"))
"""How many descriptions are made, of 20 nets each."""

PAGE = 0x1000


def choice(host: str = "core", bits: int = 0, pages_only: bool = False, context_bytes: int = 64,
           agents: list[str] | None = None, devices: list[str] | None = None, room: int = 1) -> Choice:
    """Returns what a user chooses who says nothing, with some of it other."""
    return Choice(host, agents or [], devices or [], bits, room, pages_only, context_bytes)


def wanted_for(name: str, text: str, chosen: Choice, layout: Layout | None = None,
               board: Board | None = None) -> Wanted:
    """Returns what tables a description asks for in a format."""
    board = board or Board("made.net", text.encode())
    return wanted_of(board, layout or layout_of(board.text), FORMATS[name], AT, chosen)


def tables_for(wanted: Wanted) -> Plan:
    """Returns tables that are made, in memory."""
    plan = made_tables(wanted)
    plan.carry_out()
    return plan


def reader(memory: Memory) -> Callable[[int], int]:
    """Returns what reads one word of memory; outside of it there is none."""
    words, base = memory.words, memory.base

    def word(address: int) -> int:
        place = address - base >> 3
        assert 0 <= place < len(words) and address % 8 == 0, f"a walk leads to {address:#x}"
        return words[place]

    return word


def registers_of(unit: Unit) -> dict[str, int]:
    """Returns the registers that lead to the tables of a unit."""
    return {register.name: register.value for register in unit.head.registers()}


def walk(name: str, memory: Memory, registers: dict[str, int], number: int, address: int, is_write: bool) -> int | None:
    """Returns where an access arrives by the walk of a format."""
    return WALKERS[name](reader(memory), registers, number, address, is_write)


def copy_of(memory: Memory) -> Memory:
    """Returns other memory with the same words."""
    return Memory(memory.base, bytes_of(memory.words))


def pages_near(first: int, last: int, most: int = 24) -> list[int]:
    """Returns the pages of a window and one below and above it; of a large one those at its ends, and some between."""
    pages = list(range(max((first & -PAGE) - PAGE, 0), last + 2 * PAGE, PAGE))
    if len(pages) <= most:
        return pages
    step = len(pages) // 8
    return sorted({*pages[:6], *pages[-6:], *pages[::step], *(page - PAGE for page in pages[step::step])})
