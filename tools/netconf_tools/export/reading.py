"""Reads tables back: what each stream sees, by the host's addresses."""

from dataclasses import dataclass, field

from netconf_tools.export.formats import Context, Fault, Format, Head, Leaf, Table, size_of
from netconf_tools.export.memory import ENTRIES, PAGE, Words
from netconf_tools.export.spans import Span, merged
from netconf_tools.text import Trouble

MOST_SPANS = 1 << 20
"""How many entries that lead to memory are read of one set of tables: one table may be led to from all places."""


@dataclass
class Found:
    """What the tables of a stream say: its spans, and the entries that the hardware refuses, each with why."""
    number: int
    spans: list[Span]
    faults: list[str] = field(default_factory=list)


class Walk:
    """Reads one set of tables from its root on, in the order of the addresses."""

    def __init__(self, memory: Words, form: Format, limit: int) -> None:
        self.memory, self.form, self.limit = memory, form, limit
        self.spans: list[Span] = []
        self.faults: list[str] = []
        self.tables: dict[int, int] = {}
        self._empty: set[tuple[int, int]] = set()

    def table(self, address: int, level: int, first: int, count: int, may_read: bool, may_write: bool) -> bool:
        """Reads a table and those below it, as far as rights reach; returns whether any entry leads to memory."""
        self.tables[address] = self.tables.get(address, 0) + 1
        if (address, level) in self._empty:
            return False
        found = False
        for place, word in enumerate(self.memory.block(address, count)):
            if word and first + place * size_of(level) < self.limit:
                found |= self._entry(word, level, first + place * size_of(level), may_read, may_write)
        if not found:
            self._empty.add((address, level))
        return found

    def _entry(self, word: int, level: int, first: int, may_read: bool, may_write: bool) -> bool:
        """Reads an entry; returns whether it leads to memory, or is refused."""
        entry = self.form.entry(word, level, first)
        if isinstance(entry, Fault):
            self.faults.append(f"{first:#x}: the entry {word:#x}: {entry.why}")
            return True
        if isinstance(entry, Table):
            return self.table(entry.address, entry.level, first, ENTRIES, may_read and entry.may_read,
                              may_write and entry.may_write)
        if entry is None or not (may_read and entry.may_read or may_write and entry.may_write):
            return False
        if len(self.spans) >= MOST_SPANS:
            raise Trouble(f"one set of tables has more than {MOST_SPANS:,} entries that lead to memory, and no more "
                          "are read")
        self.spans.append(self._span(entry, level, first, may_read, may_write))
        return True

    @staticmethod
    def _span(leaf: Leaf, level: int, first: int, may_read: bool, may_write: bool) -> Span:
        """Returns an entry that leads to memory as a span."""
        return Span(first, first + size_of(level) - 1, leaf.host, may_read and leaf.may_read,
                    may_write and leaf.may_write)


def walked(memory: Words, form: Format, context: Context) -> Walk:
    """Returns the walk over the tables of a context."""
    walk = Walk(memory, form, min(form.limit(context.bits), 1 << 56))
    assert context.root is not None
    walk.table(context.root, context.levels - 1, 0, ENTRIES * context.root_pages, context.may_read, context.may_write)
    walk.spans = merged(sorted(walk.spans))
    return walk


def read_stream(memory: Words, head: Head, number: int) -> Found:
    """Returns what the tables of a stream say."""
    context = head.context(memory, number)
    if context.root is None:
        bits = min(context.bits, 56)
        rights = context.may_read, context.may_write
        return Found(number, [Span(0, (1 << bits) - 1, 0, *rights)] if any(rights) else [])
    walk = walked(memory, head.form, context)
    return Found(number, walk.spans, walk.faults)


def read_streams(memory: Words, head: Head) -> list[Found]:
    """Returns what the tables of each stream say, in the order of the numbers. Streams with the same tables share their
    spans."""
    known: dict[tuple[int | None, int], Found] = {}
    found = []
    for number in head.numbers(memory):
        context = head.context(memory, number)
        key = context.root, context.bits
        if context.root is None or key not in known:
            known[key] = read_stream(memory, head, number)
        found.append(Found(number, known[key].spans, known[key].faults))
    return found


def pages_of(walk: Walk, context: Context) -> set[int]:
    """Returns the pages that hold the tables of a walk. Raises Trouble if one of them is led to from two places."""
    twice = [address for address, times in walk.tables.items() if times > 1]
    if twice:
        raise Trouble(f"two entries lead to the table at {min(twice):#x}")
    assert context.root is not None
    roots = range(context.root, context.root + PAGE * context.root_pages, PAGE)
    return set(walk.tables) | set(roots)
