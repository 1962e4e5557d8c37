"""Checks descriptions for editors and build systems: each refusal with its file, line and column, in the form of
compilers."""

import argparse
import functools
import gc
import sys
from collections.abc import Callable, Iterable, Iterator, Mapping

from netconf_tools.ending import ended, tell
from netconf_tools.expand import Description, Refused, read_described, sets_of
from netconf_tools.findings import Finding, Source, lines_of
from netconf_tools.grants import ASKED, refused_in
from netconf_tools.messages import explained
from netconf_tools.replies import QUESTIONS, Reporter, missing_names
from netconf_tools.reports.forms import add_forms, findings_text
from netconf_tools.reserved import grants_in_reserved
from netconf_tools.source import Unreadable
from netconf_tools.terminal import Painter
from netconf_tools.text import Trouble, checked
from netconf_tools.version import add_version

MOST_SHOWN = 500
"""How many commands that are refused, and how many questions that name no node, are shown."""

TOOL = "netconf-lint"

Found = tuple[list[Finding], Source | None]
"""Findings, and what returns the lines of the files that they are about."""


def findings_of(name: str, sets: Mapping[str, int], image: str | None = None) -> Found:
    """The findings on a description, or on it and an image of its tables."""
    try:
        description = read_described([name], sets)
    except Refused as wrong:
        return wrong.findings, None
    refusal, net = checked(description.text)
    if refusal:
        return [explained(description, refusal)], description.line_text
    if image is None:
        return list(warnings_of(description, net)), description.line_text
    # Only here, since most calls look at no image.
    from netconf_tools.image_findings import audit_findings
    return list(audit_findings(description, image)), description.line_text


def warnings_of(description: Description, net: str | None) -> Iterator[Finding]:
    """A warning for each command that is refused, for each question that names no node, and for each grant that meets
    reserved memory, in their order; of very many the first. `net` is the printed net, if it is known."""
    try:
        found, count = refused_commands(description)
        questions = Reporter(description, QUESTIONS)
        missing = missing_names(questions.commands, net, description.source.text)
        found += [(questions.commands.command(index).at, questions.missing(index)) for index in missing[:MOST_SHOWN]]
        reserved = list(reserved_grants(description))
        found += reserved[:MOST_SHOWN]
        count += len(missing) + len(reserved)
    except Unreadable as error:
        raise Trouble(f"{description.names[0]}: the commands are not found: {error}") from error
    yield from (finding for _, finding in sorted(found, key=lambda pair: pair[0])[:MOST_SHOWN])
    if count > MOST_SHOWN:
        yield questions.more(count - MOST_SHOWN, "warning")


def reserved_grants(description: Description) -> Iterator[tuple[int, Finding]]:
    """The findings on the grants whose buffers meet reserved memory, each with its place."""
    for command, words in grants_in_reserved(description.source.text):
        place = description.place(command.at)
        message = f"{command.word} {command.title}: {words}"
        yield command.at, Finding(place.file, place.line, "warning", "Reserved", message, place.column,
                                  len(command.word))


def refused_commands(description: Description) -> tuple[list[tuple[int, Finding]], int]:
    """The findings on the commands that are refused, each with its place, of very many the first; and how many there
    are."""
    reporter, found, count = Reporter(description, ASKED), [], 0
    for refused in refused_in(reporter.follower, MOST_SHOWN):
        if isinstance(refused, int):
            count += refused
        else:
            found.append((refused.command.at, reporter.refused(refused, "warning")))
            count += 1
    return found, count


def is_wrong(finding: Finding, is_strict: bool) -> bool:
    """Whether a finding is an error, or a warning if that is as bad."""
    return finding.severity == "error" or is_strict and finding.severity == "warning"


def show(found: Found) -> None:
    """Prints findings for people and compilers' readers."""
    paint = Painter(sys.stdout)
    for finding in found[0]:
        for line in lines_of(finding, found[1], paint):
            print(line)


def check(calls: Iterable[tuple[str, Callable[[], Found]]], is_strict: bool, form: str | None = None) -> int:
    """Makes the call of each file, and prints its findings, or writes those of all files in a form: status 1 if a file
    is refused, 2 if one cannot be read or the program is missing."""
    status, files, findings = 0, [], []
    for name, call in calls:
        try:
            found = call()
            status = max(status, any(is_wrong(finding, is_strict) for finding in found[0]))
            files.append(name)
            findings += found[0]
            if form is None:
                show(found)
        except Trouble as trouble:
            sys.stdout.flush()
            tell(TOOL, str(trouble))
            status = 2
    if form is not None:
        print(findings_text(form, TOOL, files, findings), end="")
    return status


def words() -> argparse.ArgumentParser:
    """The reader of the tool's words."""
    parser = argparse.ArgumentParser(
        prog=TOOL,
        description="Checks descriptions, and prints FILE:LINE:COLUMN: error: before each refusal, and "
        "FILE:LINE:COLUMN: warning: before each command that is refused and each question that names no node. With "
        "--audit, checks a description and an image of its tables, and reports which records are malformed and what "
        "agents share by records.",
        epilog="Status: 0 no file is refused, 1 a file is refused or --strict and one has a warning, 2 a file cannot "
        "be read, the output cannot be written or netconf is missing.",
    )
    add_version(parser)
    parser.add_argument("--strict", action="store_true", help="take warnings as errors: status 1 where there is one")
    parser.add_argument(
        "--set",
        action="append",
        default=[],
        metavar="NAME=VALUE",
        help="a number for NAME in expressions, before any `//! let NAME = ..`; may be repeated",
    )
    parser.add_argument(
        "--audit",
        action="store_true",
        help="take two files: a description, and an image of its tables or an output " "of `netconf run` with a dump",
    )
    add_forms(parser)
    parser.add_argument("files", metavar="FILE", nargs="+", help="a description; - is standard input")
    return parser


def lint(arguments: list[str] | None) -> int:
    """Checks what the words ask for, and returns the status."""
    parser = words()
    options = parser.parse_args(arguments)
    sets = sets_of(options.set)
    calls = [(name, functools.partial(findings_of, name, sets)) for name in options.files]
    if options.audit:
        if len(options.files) != 2:
            parser.error("--audit takes a description and an image")
        calls = [(options.files[0], functools.partial(findings_of, options.files[0], sets, options.files[1]))]
    return check(calls, options.strict, options.form)


def main(arguments: list[str] | None = None) -> int:
    """Runs the tool over its words, those of the command line if none are given, and returns its status."""
    # Half a million commands are made once and are in no cycle: the collector would go over them again and again.
    gc.disable()
    return ended(TOOL, lambda: lint(arguments), 2, Trouble)
