"""The findings on an image of tables: why it is refused, which records are malformed, and what agents share by
records."""

from collections.abc import Iterator

from netconf_tools.audit import FAULTS, Report, audited, by_records, image_of, places, why_shut, words_of_slots
from netconf_tools.expand import Description
from netconf_tools.findings import Finding, Note
from netconf_tools.layout import WORDS
from netconf_tools.source import Node, Unreadable, nodes_of
from netconf_tools.text import Refusal, Trouble

MOST_NOTES = 12
"""How many notes of one sort stand below a finding at most."""

MOST_SHOWN = 500
"""How many slots are shown, and how many rows that agents share."""


def audited_text(description: Description) -> bytes:
    """The text of a description as an audit reads it: a byte 0x00 ends it there, so that none may stand in it."""
    text = description.text
    if b"\0" in text:
        place = description.place(text.index(b"\0"))
        raise Trouble(
            f"{place.file}:{place.line}:{place.column}: there is a byte 0x00, which ends the description of an audit"
        )
    return text


def audit_findings(description: Description, image_name: str) -> Iterator[Finding]:
    """The findings on an image of the tables of a description that is not refused."""
    text, image = audited_text(description), image_of(image_name)
    found = audited(text, image)
    try:
        if isinstance(found, Refusal):
            yield refused_image(description, image_name, image, found)
        else:
            yield from shut_slots(description, image, found)
            yield from shared_rows(description, image, found)
    except Unreadable as error:
        raise Trouble(f"{description.names[0]}: what netconf takes is not read here: {error}") from error


def refused_image(description: Description, image_name: str, image: bytes, refusal: Refusal) -> Finding:
    """The finding of an image that is refused, with what the description says of it."""
    rule = refusal.detail.split(" ")[0] if refusal.rule == "image" else refusal.rule
    shown = f"{refusal.rule} {refusal.detail}".strip()
    message = f"{shown}: {FAULTS.get(rule, 'a refusal of a later netconf')}"
    notes = tuple(notes_of_image(description, image_name, image, refusal)) if refusal.rule == "image" else ()
    return Finding(image_name, 1, "error", rule, message, notes=notes)


def notes_of_image(description: Description, image_name: str, image: bytes, refusal: Refusal) -> Iterator[Note]:
    """What the description says of an image that is refused, and what the image says in its place."""
    nodes = nodes_of(description.source.text)
    units = [node for node in nodes.values() if node.role == "unit"]
    rule, place = refusal.detail.split(" ")
    sizes = [8 + 8 * WORDS[unit.shape.kind] * unit.shape.slots for unit in units]
    if rule != "Shape":
        file = description.place(0).file
        yield Note(file, 1, f"an image of this net has {len(units)} units and {8 + sum(sizes)} bytes")
        return
    unit, at = units[int(place)], 8 + sum(sizes[: int(place)])
    due = head_text(list(nodes).index(unit.name), WORDS[unit.shape.kind], unit.shape.slots)
    yield description.note(unit.at, f"{unit.name} is {due}")
    node, words, slots = (
        int.from_bytes(image[at + first:at + last], "little") for first, last in ((0, 2), (2, 3), (4, 8))
    )
    yield Note(image_name, 1, f"the head at byte {at} says {head_text(node, words, slots)}")


def head_text(node: int, words: int, slots: int) -> str:
    """What the head of a unit says."""
    return f"node {node}, words of a record {words}, slots {slots}"


def shut_slots(description: Description, image: bytes, report: Report) -> Iterator[Finding]:
    """A warning for each record that is shut out, of very many for the first."""
    nodes, slots = nodes_of(description.source.text), report.shut[:MOST_SHOWN]
    found, version = words_of_slots(image, nodes, slots)
    for (unit, slot), words in zip(slots, found):
        node, shown = nodes[unit], " ".join(f"{word:#x}" for word in words)
        yield warning(
            description, node, "shut",
            f"{unit} slot {slot}: malformed record: {shown}: {why_shut(node, words, version)}"
        )
    yield from more(description, len(report.shut), "slots have malformed records")


def shared_rows(description: Description, image: bytes, report: Report) -> Iterator[Finding]:
    """A warning for what two or more agents share by records alone, of very much for the first."""
    nodes = nodes_of(description.source.text)
    shared = [row for rows in by_records(description.text, image, report) for row in rows]
    for row in shared[:MOST_SHOWN]:
        notes = tuple(
            description.note(nodes[agent].at, f"{agent} sees it at {place}")
            for agent in row.agents[:MOST_NOTES]
            for place in places(report, row, agent)[:MOST_NOTES]
        )
        message = f"{row.text()}: shared by records: {', '.join(row.agents)}"
        yield warning(description, nodes[row.node], "shared", message, notes)
    yield from more(description, len(shared), "spans are shared by records")


def warning(description: Description, node: Node, rule: str, message: str, notes: tuple[Note, ...] = ()) -> Finding:
    """A warning at the declaration of a node."""
    place = description.place(node.at)
    return Finding(place.file, place.line, "warning", rule, message, place.column, 1, notes)


def more(description: Description, count: int, what: str) -> Iterator[Finding]:
    """The warning that says how many more there are than are shown, if there are more."""
    if count > MOST_SHOWN:
        yield Finding(description.place(0).file, 1, "warning", "more", f"{count - MOST_SHOWN} more {what}")
