"""Faults that are planted in exported tables while a machine runs, to see that the trial finds each."""

from array import array
from dataclasses import dataclass
from typing import Callable, Iterator

from machine.tables import Running, TablesTrial
from machine.trial import PAGE, Probe
from netconf_tools.export.formats import Leaf, Table, size_of
from netconf_tools.export.memory import ENTRIES, WORD
from netconf_tools.text import Trouble


@dataclass(frozen=True)
class Found:
    """An entry that leads to memory or to a table: its address, its level, the first address that comes to it, its
    word."""
    address: int
    level: int
    first: int
    word: int


class Tables:
    """The tables of the first two cards of a running machine, whose entries are changed one at a time."""

    def __init__(self, running: Running) -> None:
        self.form, self.memory = running.wanted.form, running.memory
        self.unit = running.wanted.units[0]
        first, second = self.unit.members[:2]
        self.entries, self.others = list(self.walk(first.root)), list(self.walk(second.root))
        self.number, self.other_number = first.master.numbers[0], second.master.numbers[0]

    def walk(self, root: int) -> Iterator[Found]:
        """Yields the entries of the tables at a root, from the highest level on."""
        bits = self.unit.head.options.bits
        waiting = [(root, self.form.levels(bits) - 1, 0, ENTRIES * self.form.root_pages(bits))]
        while waiting:
            table, level, base, count = waiting.pop(0)
            for place, word in enumerate(self.memory.block(table, count)):
                first = base + place * size_of(level)
                entry = self.form.entry(word, level, first) if word else None
                if isinstance(entry, (Leaf, Table)):
                    yield Found(table + WORD * place, level, first, word)
                if isinstance(entry, Table):
                    waiting.append((entry.address, entry.level, first, ENTRIES))

    def leaf(self, may_read: bool = True, may_write: bool = True) -> tuple[Found, Leaf]:
        """The first page of the first card with these rights."""
        for found in self.entries:
            entry = self.form.entry(found.word, found.level, found.first)
            if isinstance(entry, Leaf) and (entry.may_read, entry.may_write) == (may_read, may_write):
                return found, entry
        raise LookupError("no page of the first card has these rights")

    def table(self, entries: list[Found]) -> Found:
        """The first entry of tables that leads to a table of the last level."""
        return next(found for found in entries if found.level == 1)

    def packed(self, leaf: Leaf, level: int = 0) -> int:
        """The entry of a page or a block."""
        return self.form.leaf(level, leaf.host, leaf.may_read, leaf.may_write, False)

    def context(self) -> int:
        """The address of the entry of the first card above its tables."""
        place = self.unit.head.place(self.memory, self.number)
        assert place is not None
        return place

    def context_words(self, number: int) -> "array[int]":
        """The words of the entry of a card above its tables, as many as the format has."""
        first, second = (self.unit.head.place(self.memory, at) for at in (number, number + 1))
        assert first is not None and second is not None
        return self.memory.block(first, (second - first) // WORD)


Words = list[tuple[int, int]]
"""Words by their addresses."""


def more_rights(tables: Tables) -> Words:
    """Gives a page for reading writing too."""
    found, leaf = tables.leaf(True, False)
    return [(found.address, tables.packed(leaf._replace(may_write=True)))]


def fewer_rights(tables: Tables) -> Words:
    """Takes writing from a page."""
    found, leaf = tables.leaf()
    return [(found.address, tables.packed(leaf._replace(may_write=False)))]


def other_page(tables: Tables) -> Words:
    """Has an entry lead one page further."""
    found, leaf = tables.leaf()
    return [(found.address, tables.packed(leaf._replace(host=leaf.host + PAGE)))]


def high_bit(tables: Tables) -> Words:
    """Turns a high bit of the address of an entry."""
    found, leaf = tables.leaf()
    return [(found.address, tables.packed(leaf._replace(host=leaf.host ^ 1 << 24)))]


def next_entry(tables: Tables) -> Words:
    """Puts an entry one place too high."""
    found, _ = tables.leaf()
    return [(found.address, 0), (found.address + WORD, found.word)]


def lost_entry(tables: Tables) -> Words:
    """Leaves an entry out."""
    found, _ = tables.leaf(True, False)
    return [(found.address, 0)]


def extra_entry(tables: Tables) -> Words:
    """Writes a copy of an entry into one that is empty."""
    last = max(found.address for found in tables.entries if found.level == 0)
    return [(last + WORD, tables.leaf()[0].word)]


def table_as_block(tables: Tables) -> Words:
    """Has an entry of level 1 be a block in place of a table."""
    found = tables.table(tables.entries)
    host = tables.leaf()[1].host & -size_of(1)
    return [(found.address, tables.packed(Leaf(host, True, True), 1))]


def other_table(tables: Tables) -> Words:
    """Has an entry of level 1 lead to a table of another card."""
    return [(tables.table(tables.entries).address, tables.table(tables.others).word)]


def skipped_level(tables: Tables) -> Words:
    """Has the highest entry lead past a level."""
    top = tables.entries[0]
    below = tables.form.entry(tables.table(tables.entries).word, 1, 0)
    assert isinstance(below, Table)
    return [(top.address, tables.form.table(below.address, top.level - 1))]


def other_root(tables: Tables) -> Words:
    """Gives the first card what the second has above its tables."""
    return [(tables.context() + WORD * place, word)
            for place, word in enumerate(tables.context_words(tables.other_number))]


def other_number(tables: Tables) -> Words:
    """Puts what stands above the tables one number too high."""
    words = tables.context_words(tables.number)
    return [(tables.context(), tables.unit.head.empty), *((tables.context() + WORD * (len(words) + place), word)
                                                          for place, word in enumerate(words))]


WORD_PLANTS: dict[str, tuple[str, Callable[[Tables], Words]]] = {
    "more-rights": ("writing is allowed where reading is", more_rights),
    "fewer-rights": ("writing is taken from a page", fewer_rights),
    "page": ("an entry leads one page further", other_page),
    "high": ("a high bit of an entry's address", high_bit),
    "index": ("an entry stands one place too high", next_entry),
    "lost": ("an entry is missing", lost_entry),
    "extra": ("an entry too many", extra_entry),
    "block": ("an entry is a block in place of a table", table_as_block),
    "table": ("an entry leads to a table of another card", other_table),
    "level": ("an entry leads past a level", skipped_level),
    "root": ("a card has the tables of another", other_root),
    "number": ("the tables stand under the next number", other_number),
}
"""Faults in words, which are tried at the first dump with the first card."""

FENCE, CLEARS = "fence", "clears"
STEP_PLANTS = {FENCE: "nothing is forgotten at the fence", CLEARS: "what is revoked is not cleared"}
"""Faults in a change, which are tried at the fence between the first dump and the second."""


def planted(trial: TablesTrial) -> Iterator[tuple[str, str, str | None]]:
    """Plants each fault in turn: yields its name, what it is, and the first failure, or None if nothing failed. All is
    put right after each. Raises Trouble if it is not found right at the end."""
    with trial.running() as running:
        running.step()
        first = trial.asked.agents[0]
        running.try_state(lambda probe: probe.agent == first)
        for name, (what, plant) in WORD_PLANTS.items():
            words = plant(Tables(running))
            yield name, what, tried_with(running, words, first)
        again = tried_with(running, [], first)
        if again:
            raise Trouble(f"the machine is not right after what was planted is taken away: {again}")
        for name, what in STEP_PLANTS.items():
            yield name, what, step_with(running, name != CLEARS, name != FENCE)


def step_with(running: Running, is_cleared: bool, is_fenced: bool) -> str | None:
    """Tries the fence of a change whose words are not cleared, or nothing of which is forgotten, after all that changes
    was accessed; returns the first failure, or None. All is put right then."""
    before, after = (running.asked.answers[running.state + more] for more in (0, 1))

    def is_other(probe: Probe) -> bool:
        key = probe.agent, probe.address, probe.is_write
        return before[key] != after[key]

    change = running.next()
    running.try_state(is_other)
    running.clear(change, is_cleared, is_fenced)
    line = failure_of(running, running.try_fence)
    running.cards.compare()
    put(running, [(write.address, running.memory.block(write.address, 1)[0]) for write in change.plan.clears])
    running.forget_all()
    return line if failure_of(running, lambda: running.try_state(is_other)) is None else None


def put(running: Running, words: Words) -> None:
    """Writes words into the memory of the machine."""
    running.qemu.ask(*(f"writeq {address:#x} {word:#x}" for address, word in words))


def tried_with(running: Running, words: Words, agent: int) -> str | None:
    """Tries one card with words in its tables that are put right then; returns the first failure, or None."""
    old = [(address, running.memory.block(address, 1)[0]) for address, _ in words]
    put(running, words)
    running.forget_all()

    def is_tried(probe: Probe) -> bool:
        return probe.agent == agent

    line = failure_of(running, lambda: running.try_state(is_tried))
    put(running, old)
    running.forget_all()
    return line


def failure_of(running: Running, trial: Callable[[], None]) -> str | None:
    """Returns the first failure of a trial, or None; it counts for nothing else."""
    outcome = running.outcome
    failed, lines = outcome.failed, outcome.lines
    outcome.lines = []
    trial()
    found = outcome.lines[0] if outcome.failed > failed else None
    outcome.failed, outcome.lines = failed, lines
    return found
