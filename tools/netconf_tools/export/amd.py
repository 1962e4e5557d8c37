"""Host tables of AMD's IOMMU, with a device table.

The manual is AMD I/O Virtualization Technology (IOMMU) Specification, publication 48882, revision 3.07 or later:
the sections on the device table entry, on I/O page tables for host translations, on commands and on registers."""

from array import array
from typing import Iterable, Iterator

from netconf_tools.export.formats import (Command, Context, Entry, Fault, Format, Head, Leaf, Options, Part, Register,
                                          Table,
                                          size_of)
from netconf_tools.export.memory import PAGE, WORD, Memory, Plan, Words
from netconf_tools.export.vtd import function_text
from netconf_tools.text import Trouble

PRESENT, READ, WRITE = 1 << 0, 1 << 61, 1 << 62
ADDRESS = (1 << 52) - PAGE
VALID, TRANSLATES = 1 << 0, 1 << 1
CLOSED = VALID | TRANSLATES
"""The first word of a device table entry that lets nothing through. One of 0 would let all through as it is."""

ENTRY = 4 * WORD
"""How many bytes a device table entry has."""

SIZED = 7
"""The next level of an entry that leads to memory of a size of its own, which its address says."""

DONE = 1
"""What the command to wait writes when all before it is done."""


class AmdHead(Head):
    """A device table, and a word that the command to wait writes."""
    empty = CLOSED

    def __init__(self, form: Format, options: Options) -> None:
        super().__init__(form, options)
        self.table_pages = -(-options.room * ENTRY // PAGE)
        self.pages = self.table_pages + 1

    @property
    def done(self) -> int:
        """The address of the word that the command to wait writes."""
        return self.address + self.table_pages * PAGE

    def registers(self) -> list[Register]:
        """Returns the device table base, with its size."""
        return [Register("Device Table Base Address", 0x0, self.address | self.table_pages - 1)]

    def parts(self) -> list[Part]:
        """Returns the device table and the page with the word that is written."""
        return [Part("device table", self.address, self.table_pages * PAGE),
                Part("word that a wait writes", self.done, WORD)]

    def start(self, memory: Memory) -> None:
        """Writes entries that let nothing through."""
        entries = self.table_pages * PAGE // ENTRY
        memory.write(self.address, array("Q", (CLOSED, 0, 0, 0) * entries))

    def place(self, memory: Words, number: int) -> int | None:
        """Returns the address of the entry of a function, or None if the table is too short for it."""
        return self.address + ENTRY * number if number < self.table_pages * PAGE // ENTRY else None

    def _entry(self, number: int) -> int:
        """Returns the address of the entry of a function that the table is long enough for."""
        return self.address + ENTRY * number

    def make_place(self, plan: Plan, number: int) -> int:
        """Returns the address of the entry of a function."""
        return self._entry(number)

    def write(self, plan: Plan, number: int, root: int, domain: int) -> bool:
        """Plans the entry of a function."""
        levels = self.form.levels(self.options.bits)
        words = (CLOSED | levels << 9 | root | READ | WRITE, domain, 0, 0)
        return plan.entry(self.make_place(plan, number), array("Q", words), CLOSED)

    def remove(self, plan: Plan, number: int) -> bool:
        """Plans that the entry of a function lets nothing through."""
        address = self.make_place(plan, number)
        if plan.memory.block(address, 1)[0] == CLOSED:
            return False
        plan.clear(address, CLOSED)
        return True

    def numbers(self, memory: Words) -> Iterator[int]:
        """Yields the functions whose entries let something through."""
        for number in range(self.table_pages * PAGE // ENTRY):
            word = memory.block(self.address + ENTRY * number, 1)[0]
            if not word & VALID or not word & TRANSLATES or word & (READ | WRITE):
                yield number

    def used(self, memory: Words) -> Iterable[int]:
        """Returns none: all entries stand in the first pages."""
        return []

    def context(self, memory: Words, number: int) -> Context:
        """Returns what the entry of a function says."""
        low, high, _, _ = memory.block(self._entry(number), 4)
        levels, rights = low >> 9 & 7, (bool(low & READ), bool(low & WRITE))
        if low & 1 << 55 and low & VALID:
            raise Trouble(f"the entry of function {number:#x} has tables of a guest, which are not read here")
        if not low & VALID or not low & TRANSLATES:
            return Context(None, 52, 0, 1, high & 0xffff)
        if not levels:
            return Context(None, 52, 0, 1, high & 0xffff, *rights)
        if levels > 6:
            raise Trouble(f"the entry of function {number:#x} has {levels} levels, which no unit has")
        return Context(low & ADDRESS, 12 + 9 * levels, levels, 1, high & 0xffff, *rights)


class Amd(Format):
    """Host tables: an entry says the level of what it leads to, and allows reading by bit 61 and writing by bit 62."""
    name = "amd"
    manual = "AMD I/O Virtualization Technology Specification (48882), page tables for host translations"
    note = "pci"
    widths = (39, 48, 57)
    usual = 48
    most_numbers = 1 << 16
    output_bits = 52
    writes_alone = True
    keeps_empty = "where the capability has NpCache"

    def leaf(self, level: int, host: int, may_read: bool, may_write: bool, is_device: bool) -> int:
        """Returns the entry of a page or a block: its next level is 0."""
        return host | PRESENT | may_read * READ | may_write * WRITE

    def step(self, level: int) -> int:
        """Returns the size of a page or a block: an entry has the address as it is."""
        return size_of(level)

    def table(self, address: int, level: int) -> int:
        """Returns the entry of a table, which allows both. Its levels are counted from 1."""
        return address | PRESENT | level + 1 << 9 | READ | WRITE

    def entry(self, word: int, level: int, first: int) -> Entry:
        """Returns what an entry says."""
        rights = bool(word & READ), bool(word & WRITE)
        following, address = word >> 9 & 7, word & ADDRESS
        if not word & PRESENT or not any(rights):
            return None
        if following == SIZED:
            return sized(address, level, first, rights)
        if following == 0:
            return Leaf(address & -size_of(level), *rights)
        if following > level:
            return Fault(f"its next level is {following}")
        return Table(address, following - 1, *rights)

    def head(self, options: Options) -> Head:
        """Returns a device table."""
        return AmdHead(self, options)

    def found_head(self, memory: Words, root: int, config: int | None) -> Head:
        """Returns the device table to which the register leads."""
        head = AmdHead(self, Options(48, room=((root & 0x1ff) + 1) * PAGE // ENTRY))
        head.address = root & ADDRESS
        return head

    def _waited(self, head: Head, commands: list[Command]) -> list[Command]:
        """Returns commands with one after them that writes a word when all before it is done."""
        assert isinstance(head, AmdHead)
        wait = Command((1 << 60 | head.done | 1, DONE), f"COMPLETION_WAIT: writes {DONE} at {head.done:#x}")
        return [*commands, wait]

    def forget_all(self, head: Head) -> list[Command]:
        """Returns commands that have all entries and all translations forgotten."""
        return self._waited(head, [Command((8 << 60, 0), "INVALIDATE_IOMMU_ALL")])

    def forget(self, head: Head, streams: list[int], domains: list[int], is_directory: bool) -> list[Command]:
        """Returns commands that have the entries of functions and the translations of domains forgotten."""
        commands = [Command((2 << 60 | stream, 0), f"INVALIDATE_DEVTAB_ENTRY {function_text(stream)}")
                    for stream in streams]
        commands += [Command((3 << 60 | domain << 32, 0x7ffffffffffff003),
                             f"INVALIDATE_IOMMU_PAGES all of domain {domain}")
                     for domain in domains]
        return self._waited(head, commands)


def sized(address: int, level: int, first: int, rights: tuple[bool, bool]) -> Entry:
    """Returns what an entry says that leads to memory of a size of its own: its address has a 0 below the bits that are
    one less than the size, and the same entry stands at each place of that memory."""
    bit = PAGE
    while address & bit:
        bit <<= 1
    size = 2 * bit
    if size <= size_of(level) and level or size > size_of(level + 1):
        return Fault("the size that its address says is none of its level")
    return Leaf((address & -size) + (first & size - 1 & -size_of(level)), *rights)
