"""Reads the words of netconf-import, and writes the description that they ask for."""
import argparse
import os
import re
import sys
from collections.abc import Iterable
from typing import NoReturn

from netconf_tools.acpi.iomem import read_iomem
from netconf_tools.acpi.machine import AcpiMachine, Sources
from netconf_tools.acpi.pci import functions_in, functions_of_linux
from netconf_tools.acpi.tables import read_tables
from netconf_tools.devicetree.explain import explained
from netconf_tools.devicetree.fault import Fault
from netconf_tools.devicetree.mtree import read_machine
from netconf_tools.devicetree.options import MOST_SLOTS, SLOTS, Options
from netconf_tools.devicetree.platform import Platform
from netconf_tools.devicetree.spans import TOP, Span, text
from netconf_tools.devicetree.tree import read_tree
from netconf_tools.devicetree.writing import Asked, Machine, described, machine_described
from netconf_tools.ending import ended, tell
from netconf_tools.version import add_version

DESCRIPTION = "Writes a description for netconf from a flattened device tree (.dtb) or its source (.dts)."
EPILOG = "What is left out is listed on standard error. Status: 0; 1 if --strict refuses the tree; 2 if there is no " \
    "description."
FUNCTION = re.compile(
    r"(?:(?P<bridge>.+),)?(?P<bus>[0-9a-fA-F]{1,2}):(?P<device>[01]?[0-9a-fA-F])\.(?P<function>[0-7])")
"""A PCI function: its bridge if one is named, and its bus, device and function, as lspci writes them."""


RUNNING_TREE = "/sys/firmware/fdt"
RUNNING_TABLES = "/sys/firmware/acpi/tables"
TREE_ALONE = ("only", "explain", "strict", "interrupts", "master", "function", "grant")
"""The options that are for device trees alone."""


class Contested(Fault):
    """A tree that --strict refuses, since addresses of it are claimed twice."""


class Words(argparse.ArgumentParser):
    """The reader of the words, whose errors are one line like all others."""

    def error(self, message: str) -> NoReturn:
        """Refuses the words."""
        raise Fault(f"{message} (netconf-import --help says more)")


def number(word: str) -> int:
    """A number of the command line, decimal or hexadecimal."""
    if not re.fullmatch(r"0x[0-9a-fA-F]{1,16}|[0-9]{1,20}", word):
        raise argparse.ArgumentTypeError(f"{word!r} is not a number, such as 4096 or 0x1000")
    return int(word, 0 if word.startswith("0x") else 10)


def span(word: str) -> Span:
    """The first and the last address of a span of the command line."""
    first, hyphen, last = word.partition("-")
    if not hyphen or number(first) > number(last) or number(last) > TOP:
        raise argparse.ArgumentTypeError(f"{word!r} is not a span of addresses up to {TOP:#x}, such as 0x0-0xfff")
    return number(first), number(last)


def function(word: str) -> tuple[str, int]:
    """The bridge of a PCI function, if one is named, and the requester that the function is."""
    hit = FUNCTION.fullmatch(word)
    if not hit:
        raise argparse.ArgumentTypeError(f"{word!r} is not a PCI function, such as 0:3.0 or /pcie@40000000,0:3.0")
    requester = int(hit["bus"], 16) << 8 | int(hit["device"], 16) << 3 | int(hit["function"])
    return hit["bridge"] or "", requester


def slots(word: str) -> int:
    """How many slots a unit has."""
    if not 1 <= number(word) <= MOST_SLOTS:
        raise argparse.ArgumentTypeError(f"a unit has 1 to {MOST_SLOTS} slots, not {word}")
    return number(word)


def words() -> argparse.ArgumentParser:
    """The reader of the program's words."""
    parser = Words(prog="netconf-import", description=DESCRIPTION, epilog=EPILOG, allow_abbrev=False)
    parser.add_argument("tree", metavar="TREE", nargs="?",
                        help="a .dtb, or a .dts (read through dtc); - is standard input")
    add_questions(parser)
    add_readings(parser)
    add_version(parser)
    return parser


def add_questions(parser: argparse.ArgumentParser) -> None:
    """Adds the options on what is written."""
    parser.add_argument("--agent", metavar="AGENT", help="ask where one agent sees each thing; AGENT is its name in "
                        "the description, or its path, alias or label in the tree")
    parser.add_argument("--explain", action="store_true",
                        help="write instead where a processor sees each device, step by step")
    parser.add_argument("--grant", nargs=3, action="append", default=[], metavar=("AGENT", "ADDRESS", "SIZE"),
                        help="grant an agent a buffer that a processor has at ADDRESS")
    parser.add_argument("--strict", action="store_true", help="refuse a tree in which two devices claim one address")
    parser.add_argument("--views", action="store_true",
                        help="ask for the view of each agent, or of the one that --agent names")


def add_readings(parser: argparse.ArgumentParser) -> None:
    """Adds the options on how a tree is read."""
    parser.add_argument("--acpi", action="store_true",
                        help="read no device tree, but tables of ACPI: TREE is a folder such "
                        "as /sys/firmware/acpi/tables, or a file with the text of acpidump")
    parser.add_argument("--cores", choices=("one", "all"), default="one",
                        help="one agent for the processors that see the same, or one for each (default: %(default)s)")
    parser.add_argument("--dma", choices=("linux", "said"), default="linux",
                        help="masters without a window in the tree: 1:1, as in Linux, or none (default: %(default)s)")
    parser.add_argument("--function", type=function, action="append", default=[], metavar="[PATH,]BUS:DEVICE.FUNCTION",
                        help="an agent of its own for a PCI function; PATH is that of its host bridge")
    parser.add_argument("--interrupts", action="store_true", help="describe also to which vectors of a GIC the "
                        "interrupt lines of devices lead, and who sends messages to its ITS")
    parser.add_argument("--iomem", metavar="FILE",
                        help="with --acpi: the memory and the windows of PCI, by the text of "
                        "/proc/iomem as root reads it")
    parser.add_argument("--master", action="append", default=[], metavar="PATH",
                        help="an agent for the accesses of this device")
    parser.add_argument("--memory", type=span, action="append", default=[], metavar="FIRST-LAST",
                        help="memory at these addresses, in place of that of the tree")
    parser.add_argument("--mtree", action="store_true",
                        help="read no device tree, but the text of `info mtree -f` of QEMU's monitor")
    parser.add_argument("--only", metavar="PATH", help="take one part of the tree, and what leads to it")
    parser.add_argument("--pci", metavar="FILE", help="with --acpi: the functions of PCI, by the text of lspci -vmmn")
    parser.add_argument("--shared-tables", choices=("one", "each"), default="one", help="one agent for the masters "
                        "that share a table of an IOMMU, or one for each (default: %(default)s)")
    parser.add_argument("--this-machine", action="store_true", help="read what the running Linux has of its machine: a "
                        "device tree, or tables of ACPI, /proc/iomem and the functions of PCI")
    parser.add_argument("--slots", type=slots, default=SLOTS, metavar="N", help="how many pages of 4 KiB a unit of an "
                        f"IOMMU has, at most {MOST_SLOTS} (default: %(default)s)")


def options_of(arguments: argparse.Namespace) -> Options:
    """How the words ask for a tree to be read."""
    memory = sorted(arguments.memory)
    for before, after in zip(memory, memory[1:]):
        if before[1] >= after[0]:
            raise Fault(f"--memory {text(*before)} and {text(*after)} overlap")
    return Options(only=arguments.only, interrupts=arguments.interrupts, said=arguments.dma == "said",
                   each_core=arguments.cores == "all", each_master=arguments.shared_tables == "each",
                   slots=arguments.slots, masters=tuple(arguments.master), functions=tuple(arguments.function),
                   memory=tuple(memory))


def asked_of(arguments: argparse.Namespace) -> Asked:
    """What the words ask of the description."""
    try:
        buffers = tuple((agent, number(first), number(size)) for agent, first, size in arguments.grant)
    except argparse.ArgumentTypeError as error:
        raise Fault(f"argument --grant: {error} (netconf-import --help says more)") from None
    return Asked(arguments.views, arguments.agent, buffers)


def refuse_conflicts(platform: Platform) -> None:
    """Refuses a platform in which two or more claim one address, with a line for each such span."""
    shown = []
    for bus, entry in platform.conflicts():
        sides = " and by ".join(entry.sources())
        shown.append(f"{text(entry.first, entry.last)} on {bus} is claimed by {sides}")
    if shown:
        raise Contested(*shown)


def source_of(arguments: argparse.Namespace) -> str:
    """What the description calls the file that it comes from."""
    return "standard input" if arguments.tree == "-" else os.path.basename(str(arguments.tree))


def refuse_options(arguments: argparse.Namespace, options: Iterable[str], reader: str) -> None:
    """Refuses options that are for device trees alone."""
    for option in options:
        if getattr(arguments, option):
            raise Fault(f"--{option} is for device trees, and {reader} reads none")


def written(machine: Machine, title: str, arguments: argparse.Namespace) -> tuple[str, list[str]]:
    """The description of a machine without a tree, and the lines on what is left out."""
    try:
        output = machine_described(machine, title, source_of(arguments), asked_of(arguments))
    except Fault as fault:
        raise Fault(f"{arguments.tree}: {fault}") from None
    lines = [f"{arguments.tree}: {note}" for note in machine.notes]
    return output, lines + [f"{arguments.tree}: {note.path}: no agent: {note.reason}" for note in machine.left_out]


def run_mtree(arguments: argparse.Namespace) -> tuple[str, list[str]]:
    """The description of a machine of QEMU, and the lines on what is left out."""
    refuse_options(arguments, (*TREE_ALONE, "memory", "pci", "iomem"), "--mtree")
    return written(read_machine(arguments.tree), "A machine of QEMU", arguments)


def run_acpi(arguments: argparse.Namespace) -> tuple[str, list[str]]:
    """The description of a machine by its tables of ACPI, and the lines on what is left out."""
    refuse_options(arguments, TREE_ALONE, "--acpi")
    sources = Sources(read_tables(arguments.tree), functions_in(arguments.pci) if arguments.pci else None,
                      read_iomem(arguments.iomem) if arguments.iomem else None, options_of(arguments).memory)
    machine = AcpiMachine(sources, arguments.cores == "all", arguments.slots)
    return written(machine, "A machine by its tables of ACPI", arguments)


def run_this_machine(arguments: argparse.Namespace) -> tuple[str, list[str]]:
    """The description of the machine that this runs on, by what its Linux has: a device tree, or tables of ACPI."""
    if os.path.exists(RUNNING_TREE):
        arguments.tree = RUNNING_TREE
        return run_tree(arguments)
    refuse_options(arguments, (*TREE_ALONE, "pci", "iomem"), "--this-machine, which finds no device tree,")
    arguments.tree = RUNNING_TABLES
    memory = options_of(arguments).memory
    sources = Sources(read_tables(RUNNING_TABLES), functions_of_linux(), None if memory else read_iomem("/proc/iomem"),
                      memory)
    machine = AcpiMachine(sources, arguments.cores == "all", arguments.slots)
    return written(machine, "The machine that netconf-import ran on", arguments)


def run(arguments: argparse.Namespace) -> tuple[str, list[str]]:
    """What is to be written to standard output, and the lines on what is left out."""
    if (arguments.tree is None) != arguments.this_machine:
        raise Fault("either a TREE or --this-machine is needed (netconf-import --help says more)")
    if arguments.mtree + arguments.acpi + arguments.this_machine > 1:
        raise Fault("--mtree, --acpi and --this-machine are three readers: only one of them")
    if arguments.this_machine:
        return run_this_machine(arguments)
    if arguments.acpi:
        return run_acpi(arguments)
    return run_mtree(arguments) if arguments.mtree else run_tree(arguments)


def run_tree(arguments: argparse.Namespace) -> tuple[str, list[str]]:
    """The description of a device tree, and the lines on what is left out."""
    refuse_options_of_tables(arguments)
    options, asked = options_of(arguments), asked_of(arguments)
    tree = read_tree(arguments.tree)
    try:
        platform = Platform(tree, options)
        if arguments.strict:
            refuse_conflicts(platform)
        output = explained(platform) if arguments.explain else described(platform, source_of(arguments), asked)
    except Fault as fault:
        raise type(fault)(*(f"{arguments.tree}: {line}" for line in fault.args)) from None
    return output, [f"{arguments.tree}: {line}" for line in lines_on(platform)]


def refuse_options_of_tables(arguments: argparse.Namespace) -> None:
    """Refuses options that are for tables of ACPI alone."""
    for option in ("pci", "iomem"):
        if getattr(arguments, option):
            raise Fault(f"--{option} goes with --acpi")


def lines_on(platform: Platform) -> list[str]:
    """The lines on what of a tree is left out."""
    lines = [f"{note.path}: {note.reason}" for note in platform.notes]
    shown = [note for note in platform.left_out if not note.reason.startswith("outside of")]
    lines += [f"{note.path}: no agent for its own accesses: {note.reason}" for note in shown]
    outside = len(platform.left_out) - len(shown)
    others = f"/: masters outside of the part that --only takes, which are not agents: {outside}"
    return lines + [others] * bool(outside)


def say(lines: Iterable[str]) -> None:
    """Writes lines to standard error, each with the program's name."""
    for line in lines:
        tell("netconf-import", line)


def convert(given: list[str] | None) -> int:
    """Writes what the words ask for, and gives the status."""
    if hasattr(sys.stdout, "reconfigure"):
        sys.stdout.reconfigure(errors="backslashreplace")
    try:
        output, notes = run(words().parse_args(given))
    except Fault as fault:
        say(map(str, fault.args))
        return 1 if isinstance(fault, Contested) else 2
    except RecursionError:
        say(["the tree is nested too deep"])
        return 2
    say(notes)
    sys.stdout.write(output)
    return 0


def main(arguments: list[str] | None = None) -> int:
    """Runs the tool over its words, those of the command line if none are given, and returns its status."""
    return ended("netconf-import", lambda: convert(arguments), 2, Fault)
