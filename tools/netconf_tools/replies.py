"""The replies in an output of `netconf run`, each with its command, and which of them refuse it."""

import mmap
import re
from collections.abc import Iterator
from dataclasses import replace

from netconf_tools.expand import Description
from netconf_tools.faults import Fault
from netconf_tools.findings import Finding, Severity
from netconf_tools.grammar import COMMANDS
from netconf_tools.grants import ASKED, MOST_EXPLAINED, UNPLACED_REPLY, Follower, Refused
from netconf_tools.hints import quoted
from netconf_tools.source import CommandRows, nodes_of

COUNT = re.compile(
    rb"(?:view \S+(?: for \w+)? rows|dump bytes|radix \S+ pages|split nodes|absorb nodes) (?P<count>\d+)"
)
"""The first line of a reply that has more lines."""

LINE_BYTES, PAGE_LINES = 32, 128
"""How many bytes a line of a dump has, and how many lines a page of a tree."""

MISSING = (b": no such node", b": no such agent")
"""How the reply to a question ends that names no node, or no agent."""

QUESTIONS = ("resolve", "lookup", "view", "absorb")
"""The questions whose node is looked up here. That of `radix` is asked of the program."""

NODE = re.compile(r"^(?:(agent|vectors|unit) )?(\S+) (?:is|kind)\b", re.M)
"""A node in a printed net: the word before its name, or nothing, and its name."""

PLAIN_NAME = re.compile(
    r"\s*(?P<name>[A-Za-z_]\w*(?:\s*\[\s*(?:0|[1-9][0-9]{0,18})\s*\])?"
    r"(?:\s*\.\s*[A-Za-z_]\w*(?:\s*\[\s*(?:0|[1-9][0-9]{0,18})\s*\])?)*)(?!\s*[\[.]|\w)", re.A
)
"""A name in a command whose indices are numbers."""

Output = bytes | mmap.mmap


def first_lines(commands: CommandRows, output: Output) -> Iterator[bytes]:
    """The first line of the reply to each command, in order; fewer if the output ends before."""
    at = 0
    for _, word, _ in commands.rows:
        end = output.find(b"\n", at)
        if end < 0:
            return
        line = output[at:end]
        yield line
        at = after(output, end + 1, word, line)


def after(output: Output, at: int, word: str, line: bytes) -> int:
    """The place after a reply whose first line ends before a place."""
    hit = COUNT.fullmatch(line)
    if hit is None or word in ("grant", "gather", "route", "revoke", "resolve", "lookup"):
        return at
    count = int(hit["count"])
    if word == "dump":
        return at + 2 * count + -(-count // LINE_BYTES)
    if word == "radix":
        return at + count * PAGE_LINES * (2 * LINE_BYTES + 1)
    for _ in range(count):
        at = output.find(b"\n", at) + 1
        if not at:
            return len(output)
    return at


class Reporter:
    """Makes the findings on the commands of a description, which are given by their numbers among its commands of
    some words."""

    def __init__(self, description: Description, words: tuple[str, ...]) -> None:
        self.description = description
        self.commands = CommandRows(description.source.text, words)
        self.follower = Follower(description.source.text, self.commands)

    def refused(self, refused: Refused, severity: Severity) -> Finding:
        """The finding on a command that changes tables, or asks for a tree, and is refused."""
        fault = Fault(refused.rule, refused.at, refused.width, "", tuple(refused.notes))
        return replace(self.description.finding(fault, refused.text()), severity=severity)

    def other(self, index: int, fault: str) -> Finding:
        """The finding on a `view`, `split` or `absorb` that is refused."""
        command = self.commands.command(index)
        places = self.follower.net.command(command.at)
        part = places.members[0] if places.members else None
        at, width = (part.at, part.end - part.at) if part else (command.at, len(command.word))
        message = f"{' '.join([command.word, *command.names])}: {fault}{why(fault)}"
        return self.description.finding(Fault(fault.split(" ")[0], at, width, ""), message)

    def missing(self, index: int, severity: Severity = "warning") -> Finding:
        """The finding on a question whose node does not exist, or is not an agent where one is asked."""
        command, net = self.commands.command(index), self.follower.net
        places, name = net.command(command.at), command.names[0]
        part = places.members[0] if places.members else None
        at, width = (part.at, part.end - part.at) if part else (command.at, len(command.word))
        if name in net.names:
            rule, what = "NoAgent", f"{quoted(name)} is not an agent"
        else:
            rule, what = "NoNode", f"there is no node {quoted(name)}{net.meant(name, net.names)}"
        finding = self.description.finding(Fault(rule, at, width, ""), f"{command.word} {name}: {what}")
        return replace(finding, severity=severity)

    def more(self, count: int, severity: Severity) -> Finding:
        """The finding that says how many more commands there are than are shown."""
        place = self.description.place(len(self.description.source.text))
        return Finding(place.file, place.line, severity, "more", f"{count} more commands have a warning")


def missing_names(commands: CommandRows, net: str | None, text: str) -> list[int]:
    """The numbers of the questions that name no node, or no agent where one is asked. `net` is the printed net of
    the text, if it is known."""
    if not commands.rows:
        return []
    if net is None:
        nodes = nodes_of(text)
        names, agents = set(nodes), {name for name, node in nodes.items() if node.role == "agent"}
    else:
        found = NODE.findall(net)
        names, agents = {name for _, name in found}, {name for role, name in found if role == "agent"}
    known = {word: agents if word in ("lookup", "view") else names for word in QUESTIONS}
    return [
        index
        for index, (source, word, _) in enumerate(commands.rows)
        if (name_in(source, len(word)) or commands.command(index).names[0]) not in known[word]
    ]


def name_in(source: str, at: int) -> str:
    """The full name that stands at a place of a command, or nothing if one of its indices is no plain number."""
    hit = PLAIN_NAME.match(source, at)
    return "".join(hit["name"].split()) if hit else ""


def findings_in(description: Description, output: Output, most: int) -> Iterator[Finding]:
    """The findings on what an output of `netconf run` refuses: errors, and warnings of questions that name no node.

    Of very many the first `most` are made, and the last finding says how many more there are."""
    if output.find(b"refused: ") < 0 and all(output.find(end + b"\n") < 0 for end in MISSING):
        return
    reporter, found = Reporter(description, COMMANDS), 0
    if output.find(UNPLACED_REPLY.encode()) >= 0:
        unplaced = [
            index
            for index, line in enumerate(first_lines(reporter.commands, output))
            if line.endswith(UNPLACED_REPLY.encode()) and reporter.commands.rows[index][1] in ASKED
        ]
        reporter.follower.explained = unplaced[:MOST_EXPLAINED]
    for index, line in enumerate(first_lines(reporter.commands, output)):
        finding = finding_of(reporter, index, line, found < most)
        if finding is not None:
            found += 1
            if found <= most:
                yield finding
    if found > most:
        yield reporter.more(found - most, "error")


def finding_of(reporter: Reporter, index: int, line: bytes, is_wanted: bool) -> Finding | None:
    """The finding on a reply, or None if it refuses nothing; any finding serves if it is not wanted."""
    _, word, _ = reporter.commands.rows[index]
    if line.endswith(MISSING) and word in QUESTIONS:
        return reporter.missing(index, "error" if word == "absorb" else "warning") if is_wanted else UNSHOWN
    if b"refused: " not in line:
        reporter.follower.done(index)
        return None
    if not is_wanted:
        return UNSHOWN
    fault = line.rsplit(b"refused: ", 1)[1].decode("latin-1")
    return (
        reporter.refused(reporter.follower.refused(index, fault), "error")
        if word in ASKED
        else reporter.other(index, fault)
    )


UNSHOWN = Finding("", 0, "error", "", "")
"""A finding that is counted and not shown."""


def why(fault: str) -> str:
    """What the refusal of `view`, `split` or `absorb` says, in a few words."""
    rule, *words = fault.split(" ")
    if rule == "NoAgent":
        return ": the node does not exist, or is not an agent"
    if rule == "TooMany":
        return ": the new net would have more nodes, parts or destinations of an entry than this limit"
    what = REASONS.get(words[0] if words else "")
    return f": the node {what}" if what else ""


REASONS = {
    "accepts": "accepts an address, or is a `vectors` node",
    "agent": "is an agent",
    "unit": "is a unit",
    "port": "is a port of a unit",
    "self": "leads to itself",
}
"""Why a node cannot be absorbed, by the word of the reply."""
