"""The text of a description.

Comments of three forms are read by tools: ``//@`` is a note on an agent or a unit, or on the node that it names;
``//-`` is a master that the description leaves out.
"""
from collections.abc import Iterable, Sequence
from dataclasses import dataclass
from typing import Protocol

from netconf_tools.devicetree.fault import Fault
from netconf_tools.devicetree.net import Entry, NetNode
from netconf_tools.devicetree.platform import Platform, Reserved
from netconf_tools.devicetree.spans import TOP, text
from netconf_tools.devicetree.tree import Note

MAX_BYTES = 4194304
"""How many bytes a description may have."""
COMMENT_COLUMN = 64
"""The column in which comments begin, where the code before is short enough."""


@dataclass(frozen=True)
class Asked:
    """What is asked of a description: the view of each agent, or of ``agent``; where ``agent`` sees each thing; and
    buffers, each its agent, its first address for a processor, and its size."""

    views: bool = False
    agent: str | None = None
    buffers: tuple[tuple[str, int, int], ...] = ()


class Machine(Protocol):
    """What a machine without a tree has for its description: its agents, what is left out of it, the masters that are
    no agents, and whole lines of comments."""

    agents: list[NetNode]
    notes: list[str]
    left_out: list[Note]
    remarks: list[str]

    def statements(self) -> list[NetNode]:
        """The nodes in the order of the text."""

    def agent(self, called: str) -> NetNode:
        """The agent of a name."""


def described(platform: Platform, source: str, asked: Asked = Asked()) -> str:
    """The description of a platform, with what is asked of it; ``source`` is the name of the file that the tree came
    from."""
    return _whole(_head(platform, source) + _body(platform) + _remarks(platform) + _questions(platform, asked))


def machine_described(machine: Machine, title: str, source: str, asked: Asked = Asked()) -> str:
    """The description of a machine without a tree, with what is asked of it; ``title`` says what it is."""
    lines = [f"// {title}", f"// from {_clean(source)} by netconf-import", ""]
    for node in machine.statements():
        lines += statement(node)
    remarks = [_clean(line) for line in machine.remarks]
    remarks += [f"// left out: {_clean(note)}" for note in machine.notes] + left_out(machine.left_out)
    lines += [""] * bool(remarks) + remarks
    viewers = [machine.agent(asked.agent)] if asked.agent else machine.agents
    lines += ["", "begin;", *(f"view {node.name};" for node in viewers)] if asked.views or asked.agent else []
    return _whole(lines)


def _whole(lines: Iterable[str]) -> str:
    """The text of some lines, which must not be longer than a description may be."""
    whole = "\n".join(lines) + "\n"
    size = len(whole.encode("utf-8", "backslashreplace"))
    if size > MAX_BYTES:
        raise Fault(f"the description has {size} bytes, and a text has at most {MAX_BYTES}")
    return whole


def _clean(line: str) -> str:
    """A text of the tree on one line."""
    if line.isprintable():
        return line
    return "".join(letter if letter.isprintable() else "?" for letter in line)


def _commented(code: str, comment: str, mark: str = "//") -> str:
    """A line of code with a comment at its end."""
    return f"{code:<{COMMENT_COLUMN - 1}} {mark} {_clean(comment)}"


def _head(platform: Platform, source: str) -> list[str]:
    """The first lines: which machine this is, and where the text comes from."""
    model = platform.tree.root.string("model") or "A machine without a model"
    return [f"// {_clean(model)}", f"// from {_clean(source)} by netconf-import"]


def _body(platform: Platform) -> list[str]:
    """The statements: each bus with the devices on it, and then the agents."""
    lines: list[str] = []
    for bus in platform.buses():
        lines.append("")
        for node in bus.nodes.values():
            lines += statement(node)
        for device in bus.devices:
            lines += statement(device.net_node)
    agents = platform.processors + platform.ways + platform.units + platform.masters
    if agents:
        lines.append("")
    for node in agents:
        lines += statement(node)
    lines += [""] if platform.lines else []
    for node in platform.lines:
        lines += statement(node)
    return lines


def statement(node: NetNode) -> list[str]:
    """The lines of one statement, with the path in the tree as a comment: as a note on an agent and on a unit."""
    if node.unit:
        shape = node.unit
        words = f"kind {shape.kind} page {shape.page} slots {shape.slots} reach {shape.reach} to {shape.port.name}"
        return [_commented(f"unit {node.name} {words};", node.source, "//@")]
    mark = "//@" if node.agent else "//"
    head = ("agent " if node.agent else "vectors " if node.vectors else "") + f"{node.name} is"
    if node.accept:
        head += " accept [" + ", ".join(text(*span) for span in node.accept) + "]"
    tail = f" over {node.over.name};" if node.over else ";"
    if not node.entries:
        return [_commented(head + tail, node.source, mark)]
    lines = [_commented(head + " map [", node.source, mark)]
    for number, entry in enumerate(node.entries):
        ways = " and ".join(f"{target.name} at {at:#x}" for target, at in entry.destinations())
        comma = "," if number + 1 < len(node.entries) else ""
        lines.append(_commented(f"    {text(entry.first, entry.last)} to {ways}{comma}", _claimants(entry)))
    return lines + ["]" + tail]


def _claimants(entry: Entry) -> str:
    """What a comment says of an entry: whose it is, or who claims it."""
    if len(entry.ways) == 1:
        return entry.ways[0].source
    return "claimed by " + " and by ".join(entry.sources())


def _remarks(platform: Platform) -> list[str]:
    """The comments on what the statements do not have."""
    lines = [line for reserved in platform.reserved for line in _reserved(reserved)]
    lines += [f"// {_clean(line)}" for line in platform.remarks]
    lines += [f"// left out: {_clean(note.path)}: {_clean(note.reason)}" for note in platform.notes]
    lines += left_out(platform.left_out)
    return [""] + lines if lines else []


def left_out(masters: Sequence[Note]) -> list[str]:
    """The comments on the masters that a description leaves out, which tools count."""
    if not masters:
        return []
    return [f"// Masters that are left out: {len(masters)}. What they access stands in no view."] \
        + [f"//- {_clean(note.path)}: {_clean(note.reason)}" for note in masters]


def _reserved(reserved: Reserved) -> list[str]:
    """The comments on reserved memory: a note on each node that has a part of it."""
    if reserved.span is None:
        return [f"// reserved memory: {_clean(reserved.path)}, no address yet"]
    if not reserved.places:
        return [f"// reserved memory: {_clean(reserved.path)}, {text(*reserved.span)}"]
    return [f"//@ {node.name} is reserved {text(*span)}, {_clean(reserved.path)}" for node, span in reserved.places]


def _questions(platform: Platform, asked: Asked) -> list[str]:
    """The commands, where any are asked for."""
    lines = _grants(platform, asked.buffers)
    agent = platform.agent(asked.agent) if asked.agent else None
    if agent:
        for address, sources in _seen(agent):
            lines.append(_commented(f"resolve {agent.name} {address:#x};", " and ".join(sources)))
    if asked.views:
        lines += [f"view {viewer.name};" for viewer in ([agent] if agent else platform.agents())]
    return ["", "begin;"] + lines if lines else []


def _grants(platform: Platform, buffers: Iterable[tuple[str, int, int]]) -> list[str]:
    """The commands that grant buffers, which are given by the addresses of a processor. An agent that has a buffer
    without a table is asked where."""
    lines = []
    for number, (called, first, size) in enumerate(buffers, 1):
        agent = platform.agent(called)
        node, at = platform.buffer(first, size)
        what = f"{text(first, first + size - 1)} for a processor, {node.source}"
        own = _own_address(agent, node, at, size)
        if own is None:
            lines.append(_commented(f"grant buffer_{number} {agent.name} {node.name} {at:#x} {size:#x};", what))
        else:
            lines.append(_commented(f"resolve {agent.name} {own:#x};", f"{what}: no grant, it has all of it already"))
    return lines


def _own_address(agent: NetNode, node: NetNode, at: int, size: int) -> int | None:
    """The address at which an agent has a buffer without a table; None where it does not have all of it in one row."""
    for low, high, found, address in agent.rows(0, TOP):
        if found is node and address <= at and at + size - 1 <= address + high - low:
            return low + at - address
    return None


def _seen(agent: NetNode) -> list[tuple[int, list[str]]]:
    """The first address of each thing that an agent sees, with who accepts there."""
    found: dict[int, list[str]] = {}
    for first, _last, node, _address in agent.rows(0, TOP):
        found.setdefault(first, []).append(node.source)
    return sorted(found.items())
