"""Says by plain reading what QEMU's flat views have at an address, and compares it with the answers of the program.

It shares no code with the importer: a row is read by its blanks and signs, and a node of the description is known by
the comment behind its statement."""
import re
from collections.abc import Callable, Iterator

Row = tuple[int, int, str, int]
"""A row: its first address and its last, the region, and the offset there."""

TOP = (1 << 56) - 1
REGION = re.compile(r"^(\S+) is accept \[.*\];\s+// (.*), ([^,]+)$", re.M)
AGENT = re.compile(r'^agent (\S+) is over \S+;\s+//@ address space "(.*)"$', re.M)


def views(text: str) -> Iterator[tuple[str, list[Row]]]:
    """For each address space of a flat view that has rows its name and the rows: first, last, region, offset."""
    spaces: list[str] = []
    rows: list[Row] = []
    for line in text.replace("\r", "").split("\n") + ["FlatView #"]:
        if line.startswith("FlatView #"):
            for space in spaces if rows else ():
                yield space, rows
            spaces, rows = [], []
        elif line.startswith(' AS "'):
            spaces.append(line[5:line.index('", root: ')])
        elif line.startswith("  ") and " (prio " in line:
            span, rest = line[2:].split(" (prio ", 1)
            region = rest.split("): ", 1)[1].strip().removesuffix(" KVM")
            region, _, offset = region.partition(" @0")
            first, last = (int(part, 16) for part in span.split("-"))
            rows.append((first, last, region, int("0" + offset, 16)))


def wrong(text: str, description: str, run: Callable[[str], str]) -> list[str]:
    """What is wrong with the description of flat views: lines, none where all is right."""
    regions = {name: region for name, region, _sort in REGION.findall(description)}
    agents = AGENT.findall(description)
    spaces = list(views(text))
    if [name for _agent, name in agents] != [name for name, _rows in spaces][:len(agents)] or not agents:
        return [f"agents are {agents}"]
    asked = []
    for (agent, _name), (_space, rows) in zip(agents, spaces):
        for first, last, _region, _offset in rows:
            for address in (first - 1, first, (first + last) // 2, last, last + 1):
                if 0 <= address <= TOP:
                    due = [(region, offset + address - low) for low, high, region, offset in rows
                           if low <= address <= high]
                    asked.append((f"resolve {agent} {address:#x};", due))
    output = run(description + "\nbegin;\n" + "\n".join(command for command, _due in asked) + "\n").splitlines()
    if len(output) != len(asked):
        return [f"{len(asked)} questions, {len(output)} answers: {output[:1]}"]
    found = []
    for (command, due), line in zip(asked, output):
        answer = line.split(": ", 1)[1]
        seen: list[list[str]] = [] if answer == "nothing" else [name.split("@") for name in answer.split(", ")]
        names = [(regions[name], int(at, 16)) for name, at in seen]
        if names != due:
            found.append(f"{command} is {answer}, and {due} is due")
    return found
