"""Packs what agents see into tables in the formats of real IOMMUs, says how tables become those of the next
description, and reads tables back."""

import argparse
import re

from netconf_tools.cli.dump2bin import write
from netconf_tools.cli.layout import prefix_of
from netconf_tools.ending import ended, tell
from netconf_tools.export.amd import Amd
from netconf_tools.export.debugfs import streams_in
from netconf_tools.export.description import description_of
from netconf_tools.export.formats import Format
from netconf_tools.export.image import MOST_LOSSES, image_of
from netconf_tools.export.memory import PAGE, FileMemory, Plan, bytes_of
from netconf_tools.export.reading import Found, read_streams
from netconf_tools.export.report import as_header, as_json, as_text, changes_json, changes_text, number_text, warnings
from netconf_tools.export.riscv import Riscv
from netconf_tools.export.smmuv3_s1 import SmmuStage1
from netconf_tools.export.smmuv3_s2 import SmmuStage2
from netconf_tools.export.spans import Host
from netconf_tools.export.streams import masters_of, parts_of
from netconf_tools.export.tables import Choice, Refused, Wanted, changed_tables, made_tables, wanted_of
from netconf_tools.export.vtd import Vtd
from netconf_tools.layout import Layout, layout_of
from netconf_tools.text import Trouble, read
from netconf_tools.version import add_version
from netconf_tools.views import Board

FORMATS: dict[str, Format] = {form.name: form for form in (Vtd(), SmmuStage1(), SmmuStage2(), Riscv(), Amd())}

MOST_TABLES = 1 << 30
"""How many bytes of tables that stand already are read."""

MOST_TEXT = 1 << 28
"""How many bytes of what Linux shows are read."""

TOOL = "netconf-export"


def number(word: str) -> int:
    """Returns a number in decimal or, with 0x before it, in hexadecimal, below 2^64."""
    if not re.fullmatch(r"0x[0-9a-fA-F]{1,16}|[0-9]{1,19}", word, re.A):
        raise argparse.ArgumentTypeError(f"{word!r} is not a number, in decimal or with 0x before it")
    return int(word, 0)


def address(word: str) -> int:
    """Returns the address of a page."""
    value = number(word)
    if value % PAGE or value >> 52:
        raise argparse.ArgumentTypeError(f"{word} is not a multiple of {PAGE:#x} below 2^52")
    return value


def parser() -> argparse.ArgumentParser:
    """Returns the reader of the words."""
    words = argparse.ArgumentParser(
        prog=TOOL,
        description="Packs what agents see into tables in the format of a real IOMMU; with --changes says how tables "
                    "become those of the description; with --import reads tables back.",
        epilog="Status: 0 done; 1 the description asks for what the format cannot say, or the tables say what the "
               "image cannot; 2 there is no answer: wrong words, a file that cannot be read or is not what the tool "
               "takes, or netconf is missing.")
    add_version(words)
    words.add_argument("--format", choices=FORMATS, required=True, help="the format of the tables")
    words.add_argument("--at", type=address, metavar="ADDRESS",
                       help="where the tables will stand; with --import, the address of the "
                       "first byte of the file of memory (default there: 0)")
    words.add_argument("--host", metavar="AGENT",
                       help="the agent by whose addresses the tables say where memory is (default: the one "
                       "with the note `processor`, or with the path of a processor)")
    words.add_argument("--agent", action="append", default=[], metavar="AGENT",
                       help="make tables for this agent, in place of all that "
                       "come to units with pages; may be repeated")
    words.add_argument("--device", action="append", default=[], metavar="NODE",
                       help="the node has registers, and no memory, such as "
                       "the page of a doorbell; may be repeated")
    words.add_argument("--bits", type=int, default=0, metavar="N",
                       help="how many bits of an address the tables translate")
    words.add_argument("--pages", action="store_true",
                       help="use pages of 4 KiB alone, and no blocks of 2 MiB and 1 GiB")
    words.add_argument("--room", type=number, default=1, metavar="N",
                       help="have room for stream or function numbers below N")
    words.add_argument("--context-bytes", type=int, choices=(32, 64), default=64,
                       help="how many bytes a device context of RISC-V has: "
                       "32 if the unit does not translate messages")
    words.add_argument("--output", metavar="FILE", help="write the tables, or the image of --import, to this file")
    form = words.add_mutually_exclusive_group()
    form.add_argument("--json", action="store_true", help="print JSON in place of a text")
    form.add_argument("--c", action="store_true", help="print a header in C")
    words.add_argument("--prefix", type=prefix_of, default="tables", metavar="NAME",
                       help="with --c: the beginning of every name there "
                       "(default: tables)")
    words.add_argument("--changes", metavar="OLD",
                       help="print how tables become those of FILE: OLD is a description, or the file of "
                       "tables that stand")
    words.add_argument("--import", dest="source", metavar="MEMORY",
                       help="read tables out of a file of memory, and write the image that "
                       "netconf audit reads with the description FILE; or, if there is no FILE, print a description of "
                       "what they map")
    words.add_argument("--root", type=number, metavar="VALUE",
                       help="with --import: the register that leads to the tables: RTADDR_REG, "
                       "SMMU_STRTAB_BASE, ddtp or Device Table Base Address")
    words.add_argument("--config", type=number, metavar="VALUE", help="with --import: SMMU_STRTAB_BASE_CFG")
    words.add_argument("--debugfs", action="store_true",
                       help="with --import: MEMORY is what Linux shows of VT-d's tables, the file "
                       "domain_translation_struct")
    words.add_argument("--number", action="append", default=[], type=number, metavar="N",
                       help="with --import: read the tables of this "
                       "stream or function alone; may be repeated")
    words.add_argument("--partial", action="store_true",
                       help="with --import: write the image though the tables say more than it can")
    words.add_argument("file", nargs="?", metavar="FILE", help="a description; - is standard input")
    return words


def default_host(board: Board, layout: Layout) -> str:
    """Returns the one agent with a note that says that it is a processor. Raises Trouble if there is none, or more."""
    found = [agent.name for agent in layout.agents
             if any(part == "processor" or part.startswith("/cpus/") for part in parts_of(agent.notes))]
    if len(found) != 1:
        raise Trouble(f"{board.name}: --host has to name the processor by whose addresses the tables say where memory "
                      "is"
                      + (f": {', '.join(found[:4])} are noted as such" if found else ""))
    return found[0]


def wanted_in(options: argparse.Namespace, name: str) -> Wanted:
    """Returns what tables a description asks for."""
    board = Board(name)
    layout = layout_of(board.text)
    host = options.host or default_host(board, layout)
    choice = Choice(host, options.agent, options.device, options.bits, options.room, options.pages,
                    options.context_bytes)
    return wanted_of(board, layout, FORMATS[options.format], options.at, choice)


def tell_warnings(options: argparse.Namespace, wanted: Wanted) -> None:
    """Says on standard error what is left out."""
    for line in warnings(wanted):
        tell(TOOL, f"{options.file}: {line}")


def tables_bytes(plan: Plan) -> bytes:
    """Returns the bytes of tables whose plan is carried out."""
    return bytes_of(plan.memory.words)


def export(options: argparse.Namespace) -> int:
    """Makes the tables of a description, and says what is where."""
    wanted = wanted_in(options, options.file)
    tell_warnings(options, wanted)
    plan = made_tables(wanted)
    plan.carry_out()
    if options.output:
        write(options.output, [tables_bytes(plan)])
    text = as_header(wanted, plan, options.prefix) if options.c else as_json(wanted,
                                                                             plan) if options.json else as_text(wanted,
                                                                                                                plan)
    if options.output != "-":
        print(text, end="")
    return 0


def old_tables(options: argparse.Namespace) -> bytes:
    """Returns the tables that stand: the bytes of the file, or the tables of the description that it is."""
    data = read(options.changes, MOST_TABLES)
    if b"\0" in data:
        return data
    wanted = wanted_in(options, options.changes)
    plan = made_tables(wanted)
    plan.carry_out()
    return tables_bytes(plan)


def changes(options: argparse.Namespace) -> int:
    """Says how tables become those of a description, and writes what they are then."""
    old = old_tables(options)
    wanted = wanted_in(options, options.file)
    tell_warnings(options, wanted)
    try:
        change = changed_tables(wanted, old)
    except Trouble as trouble:
        raise Trouble(f"{options.changes}: no such tables at {options.at:#x}: {trouble}") from trouble
    text = changes_json(change) if options.json else changes_text(change)
    change.plan.carry_out()
    if options.output:
        write(options.output, [tables_bytes(change.plan)])
    if options.output != "-":
        print(text, end="")
    return 0


def found_streams(options: argparse.Namespace) -> list[Found]:
    """Returns what tables say of each stream, or of those that are chosen."""
    form = FORMATS[options.format]
    if options.debugfs:
        if form.name != "vtd":
            raise Trouble("what Linux shows in debugfs is read in the format vtd alone")
        streams = streams_in(read(options.source, MOST_TEXT).decode("latin-1"), options.source)
    else:
        if options.root is None:
            raise Trouble("--import needs the register that leads to the tables: --root")
        try:
            with open(options.source, "rb") as file:
                memory = FileMemory(file, options.at or 0, options.source)
                streams = read_streams(memory, form.found_head(memory, options.root, options.config))
        except OSError as error:
            raise Trouble(f"{options.source}: {error.strerror}") from error
    missing = set(options.number) - {found.number for found in streams}
    if missing:
        raise Trouble(f"{options.source}: {number_text(form.note, min(missing))} has no tables there")
    return [found for found in streams if not options.number or found.number in options.number]


def import_tables(options: argparse.Namespace) -> int:
    """Reads tables, and writes an image or a description of what they say."""
    form, streams = FORMATS[options.format], found_streams(options)
    if options.file is None:
        notes = {found.number: number_text(form.note, found.number) for found in streams}
        write(options.output or "-", [description_of(form.name, form.note, streams, notes).encode("ascii")])
        return 0
    board = Board(options.file)
    layout = layout_of(board.text)
    masters, left = masters_of(layout, form, options.agent)
    host = Host(board, options.host or default_host(board, layout))
    image, losses, notes_on = image_of(layout, host, masters, streams)
    for line in (*left, *notes_on):
        tell(TOOL, f"{options.file}: {line}")
    lines = [f"{options.source}: not in the image: {line}" for line in losses.lines]
    if losses.count > MOST_LOSSES:
        lines.append(f"{options.source}: and {losses.count - MOST_LOSSES} more")
    if losses.count and not options.partial:
        raise Refused([*lines, f"{options.source}: the tables say what the image of {options.file} cannot: change the "
                       "description, or take --partial"])
    for line in lines:
        tell(TOOL, line)
    write(options.output or "-", [image])
    return 0


def chosen(options: argparse.Namespace, words: argparse.ArgumentParser) -> int:
    """Does what the words ask for."""
    if options.source is not None:
        if options.changes is not None or options.json or options.c:
            words.error("--import goes with none of --changes, --json and --c")
        return import_tables(options)
    if options.file is None:
        words.error("the description is missing: FILE")
    if options.at is None:
        words.error("the address at which the tables will stand is missing: --at")
    if options.changes is not None and options.c:
        words.error("--changes goes with --json, and not with --c")
    return changes(options) if options.changes is not None else export(options)


def run(arguments: list[str] | None) -> int:
    """Reads the words, and does what they ask for. What a format or an image cannot say is a line each on standard
    error, and status 1."""
    words = parser()
    try:
        return chosen(words.parse_args(arguments), words)
    except Refused as refused:
        for line in refused.lines:
            tell(TOOL, line)
        return 1


def main(arguments: list[str] | None = None) -> int:
    """Runs the tool over its words, those of the command line if none are given, and returns its status."""
    return ended(TOOL, lambda: run(arguments), 2, Trouble)
