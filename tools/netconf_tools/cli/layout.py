"""Prints what an image of tables leaves out: the shapes of units, the windows of agents and ports onto them, and where
each has which memory; as a table, as JSON, or as a header in C for tools/loader/netconf_image.h."""

import argparse
import re

from netconf_tools.ending import ended
from netconf_tools.expand import read_plain
from netconf_tools.layout import layout_of
from netconf_tools.layout_text import as_json, header, table
from netconf_tools.text import Trouble
from netconf_tools.version import add_version


def prefix_of(word: str) -> str:
    """The prefix of the names in a header: a word of C."""
    if not re.fullmatch(r"[A-Za-z]\w*", word, re.A):
        raise argparse.ArgumentTypeError(f"{word!r} is not a name in C that begins with a letter")
    return word


def show(arguments: list[str] | None) -> int:
    """Prints the layout of one description."""
    parser = argparse.ArgumentParser(
        prog="netconf-layout",
        description="Prints of a description what an image of its tables leaves out: units, ports, windows and places.",
        epilog="Status: 0 the layout was printed, 2 there is none: wrong words, a description that is refused or "
               "cannot be read, or no netconf.")
    add_version(parser)
    form = parser.add_mutually_exclusive_group()
    form.add_argument("--json", action="store_true", help="print JSON in place of a table")
    form.add_argument("--c", action="store_true", help="print a header in C")
    parser.add_argument("--prefix", type=prefix_of, default="layout", metavar="NAME",
                        help="the name of the layout in the header, and the beginning of every other name there "
                             "(default: layout)")
    parser.add_argument("file", metavar="FILE", help="a description; - is standard input")
    options = parser.parse_args(arguments)
    text = read_plain(options.file)
    try:
        layout = layout_of(text)
    except Trouble as trouble:
        raise Trouble(f"{options.file}: {trouble}") from trouble
    print(as_json(layout) if options.json else header(layout, options.prefix) if options.c else table(layout), end="")
    return 0


def main(arguments: list[str] | None = None) -> int:
    """Runs the tool over its words, those of the command line if none are given, and returns its status."""
    return ended("netconf-layout", lambda: show(arguments), 2, Trouble)
