"""Writes a description of what tables map: an agent for each stream, or two if it writes other addresses than it
reads."""

from netconf_tools.export.reading import Found
from netconf_tools.export.spans import Span
from netconf_tools.limits import MAX_AGENTS, MAX_PARTS, MAX_TEXT
from netconf_tools.text import Trouble

HEAD = """// What tables of the format {format} map, as netconf-export --import read them.
// `host` has the addresses to which they lead. A stream that may read other addresses than it may write has two agents.
"""


def name_of(note: str, number: int) -> str:
    """Returns the name of a stream or a function."""
    if note == "pci":
        return f"pci_{number >> 8:02x}_{number >> 3 & 31:02x}_{number & 7}"
    return f"stream_{number:x}"


def halves_of(found: Found) -> list[tuple[str, list[Span]]]:
    """Returns the agents of a stream, each what is added to its name and what it sees."""
    reads, writes = [span for span in found.spans if span.may_read], [span for span in found.spans if span.may_write]
    return [("", reads)] if reads == writes else [(".read", reads), (".write", writes)]


def accepted(streams: list[Found]) -> list[tuple[int, int]]:
    """Returns the addresses of the host to which some stream comes, as blocks that do not touch."""
    blocks: list[tuple[int, int]] = []
    for first, last in sorted({(span.host, span.at(span.last)) for found in streams for span in found.spans}):
        if blocks and first <= blocks[-1][1] + 1:
            blocks[-1] = blocks[-1][0], max(blocks[-1][1], last)
        else:
            blocks.append((first, last))
    return blocks


def statement(name: str, spans: list[Span], note: str) -> str:
    """Returns the statement of an agent."""
    entries = ", ".join(f"{span.first:#x}-{span.last:#x} to host at {span.host:#x}" for span in spans)
    return f"agent {name} is{f' map [{entries}]' if entries else ''};  //@ {note}\n"


def description_of(form_name: str, note: str, streams: list[Found], notes: dict[int, str]) -> str:
    """Returns the description; ``notes`` has the note on each number. Raises Trouble if it would pass a limit of the
    language."""
    blocks = accepted(streams)
    lines = [HEAD.format(format=form_name)]
    lines += [f"// {notes[found.number]}: {fault}\n" for found in streams for fault in found.faults]
    listed = ", ".join(f"{first:#x}-{last:#x}" for first, last in blocks)
    lines.append(f"host is accept [{listed}];\n" if blocks else "host is;\n")
    agents = [(name_of(note, found.number) + more, spans, notes[found.number]) for found in streams
              for more, spans in halves_of(found)]
    lines += [statement(*agent) for agent in agents]
    parts, text = len(blocks) + sum(len(spans) for _, spans, _ in agents), "".join(lines)
    for what, count, most in (("agents", len(agents), MAX_AGENTS), ("parts", parts, MAX_PARTS),
                              ("bytes", len(text), MAX_TEXT)):
        if count > most:
            raise Trouble(f"the description would have {count:,} {what}, and may have {most:,}: --number chooses "
                          "streams")
    return text
