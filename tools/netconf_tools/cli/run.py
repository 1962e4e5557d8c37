"""Runs descriptions as people and builds want it: several files as one text, constants and includes, replies on
standard output, and each refusal on standard error with its file, line and column."""

import argparse
import mmap
import os
import re
import subprocess
import sys
import tempfile
from collections.abc import Iterable
from typing import IO

from netconf_tools.audit import image_of
from netconf_tools.ending import ended, plain
from netconf_tools.expand import Description, Refused, read_described, sets_of
from netconf_tools.findings import Finding, lines_of
from netconf_tools.image_findings import audited_text, refused_image
from netconf_tools.limits import MAX_AGENTS
from netconf_tools.messages import explained
from netconf_tools.replies import findings_in
from netconf_tools.terminal import Painter, at_work
from netconf_tools.text import Trouble, ending_text, program, refusal_of
from netconf_tools.version import add_version

MOST_SHOWN = 500
"""How many commands that are refused are shown."""

CHUNK = 1 << 16
"""How many bytes of the program's output are passed on at once."""

EPILOG = """The program itself has four commands, each over one text on standard input:
  netconf run < FILE     answers the commands of a description   (netconf-run FILE ..)
  netconf check < FILE   prints the net of a description         (netconf-run --check FILE ..)
  netconf audit < FILE   prints what agents see under an image   (netconf-run --audit IMAGE FILE ..)
  netconf demo N         goes through a description that it makes (netconf-run --demo N)
Status: 0 each command was answered, 1 the text or a command was refused, 2 a file cannot be read, the output cannot be
written, or netconf is missing or ended without an answer."""


def words() -> argparse.ArgumentParser:
    """The reader of the tool's words."""
    parser = argparse.ArgumentParser(
        prog="netconf-run",
        formatter_class=argparse.RawDescriptionHelpFormatter,
        epilog=EPILOG,
        description="Runs a description, which may stand in several files. The replies are printed as netconf prints\n"
        "them. Each refusal is also a line FILE:LINE:COLUMN: error: .. on standard error.",
    )
    add_version(parser)
    parser.add_argument(
        "--set",
        action="append",
        default=[],
        metavar="NAME=VALUE",
        help="a number for NAME in expressions, before any `//! let NAME = ..`; may be repeated",
    )
    parser.add_argument("--keep-going", action="store_true", help="status 0 also where a command is refused")
    what = parser.add_mutually_exclusive_group()
    what.add_argument(
        "--expand",
        action="store_true",
        help="print the text that the program reads, with includes and constants replaced",
    )
    what.add_argument("--check", action="store_true", help="print the net")
    what.add_argument(
        "--audit",
        metavar="IMAGE",
        help="print what agents see under an image of tables, or under the last dump in an output",
    )
    what.add_argument(
        "--demo", metavar="N", help="go through a description with N agents that the program makes; takes no file"
    )
    parser.add_argument("files", metavar="FILE", nargs="*", help="a description or a part of one; - is standard input")
    return parser


def show(findings: Iterable[Finding], description: Description | None) -> bool:
    """Prints findings to standard error; returns whether one is an error."""
    paint, is_wrong = Painter(sys.stderr), False
    for finding in findings:
        is_wrong = is_wrong or finding.severity == "error"
        for line in lines_of(finding, description.line_text if description else None, paint):
            print(line if paint.is_on else plain(line), file=sys.stderr)
    return is_wrong


def passed_on(command: list[str], text: bytes, kept: IO[bytes]) -> int:
    """Runs a command over a text, passes its output on to standard output while it comes, and keeps it; returns its
    status."""
    with tempfile.TemporaryFile() as source:
        source.write(text)
        source.seek(0)
        try:
            process = subprocess.Popen(command, stdin=source, stdout=subprocess.PIPE, stderr=subprocess.DEVNULL)
        except OSError as error:
            raise Trouble(f"netconf does not start: {error.strerror}") from error
    with process, at_work(f"netconf {command[1]}"):
        assert process.stdout is not None
        try:
            while part := os.read(process.stdout.fileno(), CHUNK):
                sys.stdout.buffer.write(part)
                sys.stdout.buffer.flush()
                kept.write(part)
        except BaseException:
            process.kill()
            raise
        return process.wait()


def answered(word: str, text: bytes, description: Description, image_name: str = "") -> tuple[bool, bool]:
    """Runs `netconf WORD` over a text, and shows what is refused; returns whether the text or the image is refused,
    and whether a command is."""
    with tempfile.TemporaryFile() as kept:
        status = passed_on([program(), word], text, kept)
        if status not in (0, 4):
            raise Trouble(ending_text(word, status))
        if kept.tell() == 0:
            return False, False
        kept.flush()
        with mmap.mmap(kept.fileno(), 0, access=mmap.ACCESS_READ) as output:
            if status == 4:
                return show([refused(description, output[:].decode("latin-1"), image_name)], description), False
            return False, word == "run" and show(findings_in(description, output, MOST_SHOWN), description)


def refused(description: Description, output: str, image_name: str) -> Finding:
    """The finding of a text, or of an image, that is refused."""
    refusal = refusal_of(output)
    if refusal.rule in ("image", "InputLength"):
        return refused_image(description, image_name, image_of(image_name), refusal)
    return explained(description, refusal)


def run(arguments: list[str] | None) -> int:
    """Does what the words ask, and returns the status."""
    parser = words()
    options = parser.parse_args(arguments)
    if options.demo is not None:
        if options.files:
            parser.error("--demo takes no file")
        if not re.fullmatch("[1-9][0-9]?", options.demo) or int(options.demo) > MAX_AGENTS:
            parser.error(f"--demo takes a number from 1 to {MAX_AGENTS}")
        return demo(options.demo)
    if not options.files:
        parser.error("a FILE is wanted; - is standard input")
    try:
        description = read_described(options.files, sets_of(options.set))
    except Refused as wrong:
        show(wrong.findings, None)
        return 1
    if options.expand:
        sys.stdout.buffer.write(description.text)
        return 0
    word, text = "check" if options.check else "run", description.text
    if options.audit is not None:
        word, text = "audit", audited_text(description) + b"\0" + image_of(options.audit)
    is_text_refused, is_command_refused = answered(word, text, description, options.audit or "")
    return 1 if is_text_refused or is_command_refused and not options.keep_going else 0


def demo(count: str) -> int:
    """Has the program go through a description that it makes."""
    with tempfile.TemporaryFile() as kept:
        status = passed_on([program(), "demo", count], b"", kept)
    if status:
        raise Trouble(ending_text("demo", status))
    return 0


def main(arguments: list[str] | None = None) -> int:
    """Runs the tool over its words, those of the command line if none are given, and returns its status."""
    return ended("netconf-run", lambda: run(arguments), 2, Trouble)
