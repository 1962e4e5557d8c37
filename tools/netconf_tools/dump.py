"""Reads images of tables, as bytes or as `dump` prints them, and trees of pages as `radix` prints them; and says by
which writes one image becomes the next."""

import re
from collections.abc import Iterable, Iterator
from dataclasses import dataclass

from netconf_tools.limits import MAX_RECORD_WORDS
from netconf_tools.text import Trouble, shortened

DUMP = re.compile(rb"^dump bytes (?P<count>\d+)(?P<end>\r?\n)", re.M)
TREE = re.compile(rb"^radix (?P<node>\S+) pages (?P<count>\d+)(?P<end>\r?\n)", re.M)
REFUSED = re.compile(
    rb"^\S+ refused: (?:IdUsed|NoAgent|NoTarget|NotAccepted|BookFull|NoPlacement|NoGrant)\b.*$", re.M)
"""The reply to a command that changes tables and is refused."""

MARK = b"DNIM"
PAGE = 4096
"""How many bytes a page of a tree has."""

NO_DIGITS = re.compile(rb"dump|radix")
"""The words that begin the next dump or tree."""

STEP = 65536
"""How many lines of a dump are read at once."""

MOST_BYTES = 1 << 30
"""How many bytes are read of an image or of an output: the largest image has 256 MiB, and its dump somewhat more than
twice as many."""

MOST_DIGITS = 10
"""How many digits a number of bytes has at most that is looked at."""


class Refused(Trouble):
    """A text or a command was refused, so that there is no image of what was meant."""


@dataclass
class Table:
    """The words of a unit in an image: the number of its node, the words of a record, its slots, and the bytes of its
    words."""
    node: int
    words: int
    slots: int
    bytes: memoryview


def image_in(data: bytes, number: int = 0) -> bytes:
    """The image that data is, or the dump of this number in it, counted from 1; 0 is the last."""
    if len(data) > MOST_BYTES:
        raise Trouble(f"more than {MOST_BYTES:,} bytes, and no more are read")
    if data.startswith(MARK):
        if number:
            raise Trouble("this is an image, and holds no dumps to choose from")
        return data
    return dumped(data, dump_heading(data, number), "dump", 1)


def dump_heading(data: bytes, number: int = 0) -> re.Match[bytes]:
    """The heading of the dump of this number in an output, counted from 1; 0 is the last."""
    headings = list(DUMP.finditer(data))
    if not headings and data.startswith(b"refused: "):
        line = data.split(b"\n", 1)[0].decode("latin-1")
        raise Refused(f"the text was {shortened(line, 200)} (netconf-lint shows the place)")
    if not headings:
        raise Trouble("there is no image here, and no dump")
    if number > len(headings):
        raise Trouble(f"there is no dump {number}: the last is {len(headings)}")
    return headings[number - 1 if number else -1]


def tree_in(data: bytes, node: str, number: int = 0) -> bytes:
    """The bytes of the tree of a unit of this number, counted from 1 among the trees of the unit; 0 is the last."""
    if len(data) > MOST_BYTES:
        raise Trouble(f"more than {MOST_BYTES:,} bytes, and no more are read")
    return dumped(data, tree_heading(data, node, number), "tree", PAGE)


def tree_heading(data: bytes, node: str, number: int = 0) -> re.Match[bytes]:
    """The heading of the tree of a unit of this number in an output, counted from 1; 0 is the last."""
    name = node.encode("utf-8", "surrogateescape")
    headings = [heading for heading in TREE.finditer(data) if heading["node"] == name]
    if not headings:
        raise Trouble(f"there is no tree of {shortened(node, 60)} here")
    if number > len(headings):
        raise Trouble(f"there is no tree {number} of {shortened(node, 60)}: the last is {len(headings)}")
    return headings[number - 1 if number else -1]


def refusals_before(data: bytes, heading: re.Match[bytes]) -> list[tuple[int, str]]:
    """The refusals of commands that change tables in an output before a dump or a tree, each its line and its text."""
    if data.find(b" refused: ", 0, heading.start()) < 0:
        return []
    found, line, seen = [], 1, 0
    for hit in REFUSED.finditer(data, 0, heading.start()):
        line, seen = line + data.count(b"\n", seen, hit.start()), hit.start()
        found.append((line, hit.group().rstrip(b"\r").decode("latin-1")))
    return found


def dumped(data: bytes, heading: re.Match[bytes], what: str, unit: int) -> bytes:
    """The bytes that the heading of a dump or a tree begins, of which it says the number in so many bytes: 32 in each
    line of hexadecimal, and fewer in the last."""
    line = data.count(b"\n", 0, heading.start()) + 1
    if len(heading["count"]) > MOST_DIGITS:
        raise Trouble(f"the {what} of line {line} says a number of {'bytes' if unit == 1 else 'pages'} of "
                      f"{len(heading['count']):,} digits")
    size, found = unit * int(heading["count"]), bytearray()
    at, width = heading.end(), 64 + len(heading["end"])
    while len(found) < size:
        rows = min(-(-(size - len(found)) // 32), STEP)
        part = NO_DIGITS.split(data[at:at + rows * width])[0]
        try:
            found += bytes.fromhex(part[:2 * (size - len(found)) + rows * len(heading["end"])].decode("ascii"))
        except ValueError as error:
            raise Trouble(f"the {what} of line {line} has a line that is not hexadecimal") from error
        at += rows * width
        if not part:
            break
    if len(found) != size:
        raise Trouble(f"the {what} of line {line} says {size} bytes and has {len(found)}")
    return bytes(found)


def tables_of(image: bytes) -> tuple[int, list[Table]]:
    """The version of an image, and the tables of its units. The net is not known here, so that heads are taken as they
    are."""
    if len(image) < 8 or image[:4] != MARK:
        raise Trouble("this is not an image: it does not begin with DNIM and eight bytes of head")
    version, count = int.from_bytes(image[4:6], "little"), int.from_bytes(image[6:8], "little")
    if version not in (1, 2):
        raise Trouble(f"the image has the version {version}; 1 and 2 are known")
    tables, at, view = [], 8, memoryview(image)
    for unit in range(count):
        node, words, zero, slots = (int.from_bytes(image[at + first:at + last], "little")
                                    for first, last in ((0, 2), (2, 3), (3, 4), (4, 8)))
        end = at + 8 + 8 * words * slots
        if len(image) < at + 8 or not 1 <= words <= MAX_RECORD_WORDS or zero:
            raise Trouble(f"byte {at} is not the head of a unit (unit {unit} of {count})")
        if len(image) < end:
            raise Trouble(f"the image ends at byte {len(image)}, within the words of node {node}")
        tables.append(Table(node, words, slots, view[at + 8:end]))
        at = end
    if at < len(image):
        raise Trouble(f"bytes follow the last unit, from byte {at} on")
    return version, tables


def slots_that_differ(before: Table, after: Table) -> Iterator[tuple[int, list[int], list[int]]]:
    """The slots of a unit whose words are not the same in two tables of one shape, each with its words in both."""
    size, step = 8 * after.words, 8 * after.words * 256
    for start in range(0, len(after.bytes), step):
        if before.bytes[start:start + step] == after.bytes[start:start + step]:
            continue
        for at in range(start, min(start + step, len(after.bytes)), size):
            old, new = before.bytes[at:at + size], after.bytes[at:at + size]
            if old != new:
                yield at // size, words_of(old), words_of(new)


def words_of(data: bytes | memoryview) -> list[int]:
    """The words that bytes spell."""
    return [int.from_bytes(data[at:at + 8], "little") for at in range(0, len(data), 8)]


def empty_like(tables: Iterable[Table]) -> list[Table]:
    """Tables of the same shapes whose words are all 0."""
    return [Table(table.node, table.words, table.slots, memoryview(bytes(len(table.bytes)))) for table in tables]


def empty_image(image: bytes) -> bytes:
    """An image of the same shape whose words are all 0."""
    data, at = bytearray(image), 8
    for table in tables_of(image)[1]:
        data[at + 8:at + 8 + len(table.bytes)] = bytes(len(table.bytes))
        at += 8 + len(table.bytes)
    return bytes(data)


def changes(before: bytes | None, after: bytes) -> Iterator[str]:
    """The writes and fences, one a line, by which a machine that has one image gets the next: first each slot that
    differs and is not empty is cleared, its gate word first; then comes a fence, where any was; then what is new is
    written, the gate word last. `before` is None where the words of the machine are 0."""
    version, tables = tables_of(after)
    if before is None:
        olds = empty_like(tables)
    else:
        old_version, olds = tables_of(before)
        if old_version != version:
            raise Trouble(f"the images have the versions {old_version} and {version}: their words do not mean the same")
    if [(old.node, old.words, old.slots) for old in olds] != [(new.node, new.words, new.slots) for new in tables]:
        raise Trouble("the images are of two nets: their units are not the same")
    return writes_between(olds, tables)


def writes_between(olds: list[Table], tables: list[Table]) -> Iterator[str]:
    """The writes and fences between tables of the same shapes."""
    cleared = False
    for old, table in zip(olds, tables):
        for slot, was, _ in slots_that_differ(old, table):
            if any(was):
                cleared = True
                yield from (line_of(table, slot, word, 0) for word in [table.words - 1, *range(table.words - 1)])
    if cleared:
        yield "fence"
    for old, table in zip(olds, tables):
        for slot, _, now in slots_that_differ(old, table):
            if any(now):
                yield from (line_of(table, slot, word, value) for word, value in enumerate(now))


def line_of(table: Table, slot: int, word: int, value: int) -> str:
    """A write as a line."""
    return f"write node {table.node} slot {slot} word {word} value {value:#x}"
