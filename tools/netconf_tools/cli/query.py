"""Asks a description who sees what: who can reach an address, where an agent has it, what differs, which claims
hold."""

import argparse
import json
import sys
from collections.abc import Callable, Iterable, Sequence
from dataclasses import replace
from typing import Any

from netconf_tools.claim_lines import Line, lines_of_description, lines_of_file
from netconf_tools.claims import ROWS, Claims, Verdict, syntax_errors
from netconf_tools.differences import compared
from netconf_tools.ending import ended, plain, tell
from netconf_tools.expand import sets_of
from netconf_tools.findings import Finding, Severity, lines_of
from netconf_tools.image_findings import shut_slots
from netconf_tools.limits import LAST_ADDRESS, MAX_TEXT
from netconf_tools.reports.answers import diff_answer, test_answer, where_answer, who_answer
from netconf_tools.reports.junit import junit_of_claims
from netconf_tools.reports.sarif import sarif_of
from netconf_tools.text import Piece, Trouble, read
from netconf_tools.version import add_version
from netconf_tools.views import ACCESSES, Board, ImageBoard, number, span

WORDS = {("read", "write"): "read and write", ("read",): "read", ("write",): "write"}
"""How the accesses are called that a row allows."""

TOOL = "netconf-query"

UNUSED = "this claim is not tested: its module is never used, or its loop has no turn"
"""What is said of a claim that is one of no use and no turn."""

MOST_ERRORS = 100
"""How many errors and notes on the form of claims are shown."""

Found = tuple[str, Piece, tuple[str, ...]]
"""An agent, a piece of its view, and the accesses for which it has the piece."""


def board_of(options: argparse.Namespace, name: str, image: str | None) -> Board:
    """The board of a description: after its commands, or under an image if one is named."""
    sets = sets_of(options.set)
    return ImageBoard(name, image, sets) if image is not None else Board(name, None, sets)


def access_of(words: list[str]) -> tuple[tuple[str, ...], list[str]]:
    """The accesses that `for read` or `for write` at the end of the words asks for, and the words before it."""
    if len(words) >= 2 and words[-2] == "for":
        if words[-1] not in ACCESSES:
            raise Trouble(f"after `for` comes `read` or `write`, not {words[-1][:40]!r}")
        return (words[-1],), words[:-2]
    return ACCESSES, words


def warn(board: Board) -> None:
    """Reports on standard error what no answer has: commands that are refused, masters that are left out of the
    description, and slots of an image that hold no record although their gate is open."""
    for file, line, word, title, fault in board.refused[:ROWS]:
        tell(TOOL, f"{file}:{line}: {word} {title} is refused ({fault}), and is no part of the answer")
    if len(board.refused) > ROWS:
        tell(TOOL, f"{board.name}: {len(board.refused) - ROWS} more commands are refused")
    if count := len(board.left_out):
        masters = "1 master is" if count == 1 else f"{count} masters are"
        tell(TOOL, f"{board.name}: {masters} left out of the description, and of the answer "
             f"({board.left_out[0].path[:80]}{', ..' if count > 1 else ''})")
    if isinstance(board, ImageBoard) and (count := len(board.shut)):
        slots = "1 slot has a record that is" if count == 1 else f"{count} slots have records that are"
        tell(TOOL, f"{board.image_name}: {slots} malformed, and nothing passes there (netconf-lint --audit shows why)")


def written(options: argparse.Namespace, answer: dict[str, Any], lines: Iterable[str]) -> None:
    """Prints an answer: as JSON if that is asked for, else as lines."""
    if options.json:
        print(json.dumps(answer, indent=1))
    else:
        print("".join(line + "\n" for line in lines), end="")


def joined_accesses(found: Iterable[tuple[str, str, Piece]]) -> list[Found]:
    """Pieces with the accesses for which each was found, in order of agents and addresses."""
    order: dict[tuple[str, Piece], list[str]] = {}
    for agent, access, piece in found:
        order.setdefault((agent, piece), []).append(access)
    return [(agent, piece, tuple(accesses)) for (agent, piece), accesses in order.items()]


def suffix_of(accesses: Sequence[str]) -> str:
    """What is said of an access that a question names."""
    return f" for {accesses[0]}" if len(accesses) == 1 else ""


def who(options: argparse.Namespace) -> int:
    """Every agent that sees some of a span, and at which of its own addresses."""
    accesses, rest = access_of(options.words)
    if len(rest) > 1:
        words = " ".join(rest)[:60]
        raise Trouble(f"after the address come at most a size and `for read` or `for write`, not {words!r}")
    first, last = span(options.address)
    if rest:
        last = first + number(rest[0], "size") - 1
        if first > last or last > LAST_ADDRESS or "-" in options.address:
            raise Trouble(f"a size is at least 1, comes after one address, and ends at or below {LAST_ADDRESS:#x}")
    board = board_of(options, options.file, options.image)
    board.views(board.agents)
    targets = board.targets(options.node, first, last)
    rows = joined_accesses((agent, access, piece) for agent in board.agents for node, low, high in targets
                           for access in accesses for piece in board.seen(agent, access, node, low, high))
    asked = ", ".join(f"{node}@{low:#x}-{high:#x}" for node, low, high in targets)
    lines = [f"{agent} {piece.text()} {WORDS[allowed]}" for agent, piece, allowed in rows]
    lines = lines or [f"no agent sees {asked}{suffix_of(accesses)}"]
    written(options, who_answer(board, targets, accesses, rows), lines)
    warn(board)
    return 0


def where(options: argparse.Namespace) -> int:
    """All of an agent's addresses that come to a name; or, without NODE, the names to which one of its addresses
    comes."""
    accesses, rest = access_of(options.words)
    if len(rest) not in (1, 2):
        words = " ".join(rest)[:60]
        raise Trouble(f"after the agent come a node, an address and `for read` or `for write`, not {words!r}")
    node, address = rest[0] if len(rest) == 2 else options.agent, number(rest[-1], "address")
    board = board_of(options, options.file, options.image)
    if len(rest) == 2:
        board.want_agent(options.agent)
    targets = [(name, at) for name, at, _ in board.targets(node, address, address)]
    heads = [f"{node}@{address:#x} is {name}@{at:#x}" for name, at in targets if (name, at) != (node, address)]
    rows = joined_accesses((name, access, piece) for name, at in targets if len(rest) == 2 for access in accesses
                           for piece in board.seen(options.agent, access, name, at, at))
    lines = [f"{options.agent} has {name}@{piece.at:#x} at {piece.lo:#x} {WORDS[allowed]}"
             for name, piece, allowed in rows]
    missing = [(name, at) for name, at in targets if len(rest) == 2 and not any(row[0] == name for row in rows)]
    lines += [f"{options.agent} does not have {name}@{at:#x}{suffix_of(accesses)}" for name, at in missing]
    written(options, where_answer(board, options.agent, (node, address), targets, rows), [*heads, *lines])
    warn(board)
    return 0


def diff(options: argparse.Namespace) -> int:
    """What each agent sees in one description or under one image, and not in the other, or at another place. Without
    NEW both sides are OLD, with another image. Status 1 if anything differs."""
    if options.new is None and options.old_image == options.image:
        raise Trouble("both sides are the same: name a second description, or an image by --image")
    old = board_of(options, options.old, options.old_image)
    new = board_of(options, options.old if options.new is None else options.new, options.image)
    gone = [agent for agent in old.agents if agent not in new.agent_set]
    come = [agent for agent in new.agents if agent not in old.agent_set]
    changes = list(compared(old, new))
    lines = [f"- agent {agent}" for agent in gone] + [f"+ agent {agent}" for agent in come]
    before = None
    for change in changes:
        if change.agents != before:
            lines.append(", ".join(change.agents) + ":")
        before = change.agents
        lines.append(f"  {change.text()}")
    written(options, diff_answer((old, new), gone, come, changes), lines)
    for board in (old, new):
        warn(board)
    return 1 if lines else 0


def lines_of_claims(options: argparse.Namespace, board: Board) -> tuple[list[Line], list[Line]]:
    """The claims of a description and of files of their own, and those of the description that are claims of
    nothing."""
    lines, unused = lines_of_description(board.description)
    options.texts = [read(name) for name in options.claims]
    for name, text in zip(options.claims, options.texts):
        if len(text) > MAX_TEXT:
            raise Trouble(f"{name}: a file of claims has at most {MAX_TEXT:,} bytes")
        lines += lines_of_file(name, text.decode("latin-1"))
    if not lines and not unused and options.call is test:
        raise Trouble(f"{options.file}: there is no claim: a comment that begins with //!, or a line of a second file")
    return lines, unused


def sources_of(lines: Iterable[Line]) -> Callable[[str, int], str | None]:
    """What gives the text of the lines that have claims."""
    texts = {(line.file, line.line): line.text for line in lines}
    return lambda file, line: texts.get((file, line))


def missing_findings(board: Board, claims: Claims, unused: list[Line], severity: Severity) -> list[Finding]:
    """What the verdicts do not rest on, since it is left out, refused or used by nothing."""
    found = [Finding(file, line, severity, "left-out", f"a master is left out: {path}: {reason or 'no reason'}")
             for file, line, path, reason in claims.not_accepted()]
    found += board.refused_findings(severity)
    found += [Finding(line.file, line.line, severity, "claim-unused", f"{UNUSED}: {line.words}", line.column)
              for line in unused]
    if isinstance(board, ImageBoard):
        shut = shut_slots(board.description, board.image, board.report)
        found += [replace(finding, severity=severity) for finding in shut]
    return found


def warn_unused(unused: list[Line]) -> None:
    """Reports on standard error the claims that are claims of nothing."""
    for line in unused[:ROWS]:
        tell(TOOL, f"{line.file}:{line.line}: {UNUSED}")
    if len(unused) > ROWS:
        tell(TOOL, f"{len(unused) - ROWS} more claims are not tested")


def print_verdicts(options: argparse.Namespace, claims: Claims, verdicts: list[Verdict], others: list[Finding]) -> None:
    """Prints the verdicts in the form that is asked for, and other findings."""
    findings = [verdict.finding() for verdict in verdicts if not verdict.holds] + others
    if options.sarif:
        print(json.dumps(sarif_of(TOOL, findings), indent=1))
    elif options.junit:
        print(junit_of_claims(options.file, verdicts, others), end="")
    else:
        failed = sum(not verdict.holds for verdict in verdicts)
        counts = f"claims that hold: {len(verdicts) - failed}, that do not: {failed}"
        lines = [line for finding in findings for line in lines_of(finding)]
        written(options, test_answer(claims, verdicts, others), [*lines, counts])


def print_errors(errors: list[Finding], lines: Iterable[Line]) -> None:
    """Prints on standard error what is to be said of the form of claims, with the line and a mark below the place; of
    very many the first."""
    source = sources_of(lines)
    for finding in errors[:MOST_ERRORS]:
        for line in lines_of(finding, source):
            print(plain(line), file=sys.stderr)
    if len(errors) > MOST_ERRORS:
        tell(TOOL, f"{len(errors) - MOST_ERRORS} more of these are not shown")


def test(options: argparse.Namespace) -> int:
    """Whether the claims hold that stand in a description, and in files of their own. Status 1 if one does not."""
    board = board_of(options, options.file, options.image)
    lines, unused = lines_of_claims(options, board)
    claims = Claims(board, lines)
    errors = [*claims.errors, *syntax_errors(unused)]
    verdicts = [] if errors else list(claims.verdicts())
    others = errors or (missing_findings(board, claims, unused, "error") if options.strict else [])
    if errors and not (options.json or options.sarif or options.junit):
        print_errors(errors, [*lines, *unused])
        return 2
    print_verdicts(options, claims, verdicts, others)
    print_errors(claims.notes, lines)
    warn(board)
    warn_unused(unused)
    return 2 if errors else 1 if others or not all(verdict.holds for verdict in verdicts) else 0


def report(options: argparse.Namespace) -> int:
    """A page for a review: the claims and their verdicts, what else was found, what agents share by records, all views,
    and pictures. Status 1 if a claim does not hold."""
    # The other commands start in half of the time without these.
    from netconf_tools.reports.markdown import markdown_of
    from netconf_tools.reports.page import Page
    from netconf_tools.reports.review import Source, review_of
    board = board_of(options, options.file, options.image)
    lines, unused = lines_of_claims(options, board)
    claims = Claims(board, lines)
    errors = [*claims.errors, *syntax_errors(unused)]
    verdicts = list(claims.verdicts())
    others = missing_findings(board, claims, unused, "error" if options.strict else "warning")
    texts = zip(board.description.names, board.description.sources)
    sources = [Source("description", name, source.text.encode("latin-1")) for name, source in texts]
    sources += [Source("image", options.image, board.image)] if options.image is not None else []
    sources += [Source("claims", name, text) for name, text in zip(options.claims, options.texts)]
    title = options.title if options.title is not None else f"What agents see: {options.file}"
    review = review_of(title, sources, board, verdicts, [*errors, *others])
    print(markdown_of(review) if options.markdown else Page(review).html(), end="")
    warn(board)
    warn_unused(unused)
    return 2 if errors else 1 if review.failed or options.strict and others else 0


USAGES: dict[Callable[[argparse.Namespace], int], str] = {
    who: "[--json] [--set NAME=VALUE] [--image IMAGE] FILE NODE ADDRESS [SIZE] [for read|write]",
    where: "[--json] [--set NAME=VALUE] [--image IMAGE] FILE AGENT [NODE] ADDRESS [for read|write]",
    diff: "[--json] [--set NAME=VALUE] [--old-image IMAGE] [--image IMAGE] OLD [NEW]",
    test: "[--json|--sarif|--junit] [--strict] [--set NAME=VALUE] [--image IMAGE] FILE [CLAIMS ...]",
    report: "[--html|--markdown] [--title TITLE] [--strict] [--set NAME=VALUE] [--image IMAGE] FILE [CLAIMS ...]"}
"""What comes after each command."""

SUMMARIES: dict[Callable[[argparse.Namespace], int], str] = {
    who: "every agent that sees an address of a node, and where",
    where: "at which addresses an agent has an address of a node",
    diff: "what agents see otherwise in another description or under another image",
    test: "whether claims hold",
    report: "a page for a review, with claims, views and pictures"}
"""What each command answers, in a few words."""


def add_positions(command: argparse.ArgumentParser, call: Callable[[argparse.Namespace], int]) -> None:
    """Gives the reader of a command the words that have places."""
    file_help = "a description; - is standard input"
    if call is diff:
        command.add_argument("old", metavar="OLD", help=file_help)
        command.add_argument("new", metavar="NEW", nargs="?", help="a second description; without it OLD is both")
        return
    command.add_argument("file", metavar="FILE", help=file_help)
    node_help = "a node that accepts the address, or an agent or a bus from which it is reached"
    access_help = "`for read` or `for write`, without which both are meant"
    if call is who:
        command.add_argument("node", metavar="NODE", help=node_help)
        address_help = "a number, or the first and the last with a hyphen between"
        command.add_argument("address", metavar="ADDRESS", help=address_help)
        command.add_argument("words", metavar="WORD", nargs="*", help=f"a number of addresses; {access_help}")
    elif call is where:
        command.add_argument("agent", metavar="AGENT", help="an agent of the description")
        command.add_argument("words", metavar="WORD", nargs="+", help=f"{node_help}; the address; {access_help}")
    else:
        command.add_argument("claims", metavar="CLAIMS", nargs="*", help="files with a claim on each line")


def add_options(command: argparse.ArgumentParser, call: Callable[[argparse.Namespace], int]) -> None:
    """Gives the reader of a command its options."""
    forms = command.add_mutually_exclusive_group()
    if call is report:
        forms.add_argument("--html", action="store_true", help="write one page of HTML (default)")
        forms.add_argument("--markdown", action="store_true", help="write Markdown, without pictures")
        command.add_argument("--title", metavar="TITLE", help="the title of the page")
    else:
        forms.add_argument("--json", action="store_true", help="write the answer as JSON")
    image_help = ("ask what agents see under an image of the tables, or under the last dump in an output of "
                  "`netconf run`; no command of the description is run")
    side = "of the new side: " if call is diff else ""
    command.add_argument("--image", metavar="IMAGE", help=side + image_help)
    command.add_argument("--set", action="append", default=[], metavar="NAME=VALUE",
                         help="a number for NAME in expressions, before any `//! let NAME = ..`; may be repeated")
    if call is diff:
        command.add_argument("--old-image", metavar="IMAGE", help="the same of the old side")
    if call is test:
        forms.add_argument("--sarif", action="store_true", help="write what fails as SARIF 2.1.0")
        forms.add_argument("--junit", action="store_true", help="write the verdicts as XML in the form of JUnit")
    if call in (test, report):
        command.add_argument("--strict", action="store_true", help="fail too where a master is left out, a command is "
                             "refused, a record is malformed, or a claim is not tested")


def words() -> argparse.ArgumentParser:
    """The reader of the program's words."""
    parser = argparse.ArgumentParser(
        prog=TOOL, description="Asks a description who sees what, after its commands or under an image of its tables. "
        "Each answer comes from the program's views.",
        epilog="Status: 0, or with diff, test and report 1 where something differs or a claim does not hold; 2 where "
        "nothing can be answered.")
    add_version(parser)
    commands = parser.add_subparsers(dest="command", required=True, metavar="COMMAND")
    for call, usage in USAGES.items():
        name = call.__name__
        command = commands.add_parser(name, help=SUMMARIES[call], description=call.__doc__,
                                      usage=f"{TOOL} {name} {usage}")
        command.set_defaults(call=call)
        add_options(command, call)
        add_positions(command, call)
    return parser


def answer(arguments: list[str] | None) -> int:
    """Answers what the words ask, and returns the status."""
    options = words().parse_args(arguments)
    call: Callable[[argparse.Namespace], int] = options.call
    return call(options)


def main(arguments: list[str] | None = None) -> int:
    """Runs the tool over its words, those of the command line if none are given, and returns its status."""
    return ended(TOOL, lambda: answer(arguments), 2, Trouble)
