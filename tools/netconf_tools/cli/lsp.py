"""Serves editors by the Language Server Protocol: what is wrong with a description, what an agent sees at a place,
where a name is declared, and which words may follow."""

import argparse
import sys
from collections.abc import Iterable

from netconf_tools.cli.lint import warnings_of
from netconf_tools.ending import ended
from netconf_tools.expand import Description
from netconf_tools.findings import Finding
from netconf_tools.language_server import serve
from netconf_tools.messages import explained
from netconf_tools.text import Trouble, checked
from netconf_tools.version import add_version


def findings_of(description: Description) -> Iterable[Finding]:
    """What netconf-lint finds in a description."""
    refusal, net = checked(description.text)
    return [explained(description, refusal)] if refusal else warnings_of(description, net)


def run(arguments: list[str] | None) -> int:
    """Reads the words, and serves until the editor ends the server."""
    parser = argparse.ArgumentParser(
        prog="netconf-lsp",
        description="Serves an editor by the Language Server Protocol over standard input and output: diagnostics, "
        "hover, go to definition and completion.",
        epilog="Status: 0 the editor ended the server, 1 the editor went away, 2 the words are wrong or the output "
        "cannot be written.",
    )
    add_version(parser)
    parser.add_argument("--stdio", action="store_true", help="is what the tool does anyway; some editors give it")
    parser.parse_args(arguments)
    # Python locks its own standard input when it ends, and a thread may wait in it.
    with open(sys.stdin.fileno(), "rb", closefd=False) as source:
        return serve(source, sys.stdout.buffer, findings_of)


def main(arguments: list[str] | None = None) -> int:
    """Runs the tool over its words, those of the command line if none are given, and returns its status."""
    return ended("netconf-lsp", lambda: run(arguments), 2, Trouble)
