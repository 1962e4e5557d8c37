"""The version of the tools, which stands in the file VERSION, and the option that prints it."""

import argparse
import os
import pathlib
import sys

HERE = pathlib.Path(__file__).resolve().parent


def version() -> str:
    """The version: of the file beside the package, as Debian has it, of the one at the top of the tree, or of the
    package that pip installed."""
    for path in (HERE.parent / "VERSION", HERE.parent.parent / "VERSION"):
        try:
            return path.read_text(encoding="ascii").strip()
        except OSError:
            continue
    # Only here, since it takes longer to import than all that a tool does for --version.
    import importlib.metadata
    try:
        return importlib.metadata.version("netconf-tools")
    except importlib.metadata.PackageNotFoundError:
        return "of no known version: the file VERSION is missing"


class PrintVersion(argparse.Action):
    """Prints the name of the tool and its version, and stops; status 2 where standard output takes no line."""

    def __call__(self, parser: argparse.ArgumentParser, namespace: argparse.Namespace, values: object,
                 option_string: str | None = None) -> None:
        try:
            print(parser.prog, version(), flush=True)
        except OSError as error:
            # Python writes what is left once more when it ends, and that must not fail again.
            os.dup2(os.open(os.devnull, os.O_WRONLY), sys.stdout.fileno())
            parser.exit(2, f"{parser.prog}: standard output: {error.strerror}\n")
        parser.exit()


def add_version(parser: argparse.ArgumentParser) -> None:
    """Gives a reader of words the option --version."""
    parser.add_argument("--version", action=PrintVersion, nargs=0, help="print the version, and stop")
