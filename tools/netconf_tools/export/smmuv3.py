"""What both stages of an SMMUv3 have in common: the stream table, the entries of a table, and the commands.

The manual is Arm System Memory Management Unit Architecture Specification, SMMU architecture version 3, IHI 0070: 5.2
stream table entry, 5.4 context descriptor, and the sections on the level 1 stream table descriptor, commands and
registers. The tables themselves are those of the Arm Architecture Reference Manual, DDI 0487, chapter D8, with a
granule of 4 KiB."""

from abc import abstractmethod
from array import array
from typing import Iterable, Iterator

from netconf_tools.export.formats import (LEVEL_BITS, PAGE_BITS, Command, Context, Entry, Fault, Format, Head, Leaf,
                                          Options, Part,
                                          Register, Table, size_of)
from netconf_tools.export.memory import ENTRIES, PAGE, WORD, Plan, Words
from netconf_tools.text import Trouble

VALID, IS_TABLE, IS_PAGE = 1 << 0, 1 << 1, 1 << 1
INNER_SHAREABLE, ACCESSED = 3 << 8, 1 << 10
ADDRESS = (1 << 48) - PAGE
ENTRY = 8 * WORD
"""How many bytes a stream table entry has, and a context descriptor."""

SPLIT = 8
"""A table of the second level has 2^8 stream table entries; up to so many streams there is one level."""

STREAMS_PER_TABLE = 1 << SPLIT
LINEAR, TWO_LEVELS = 0, 1
LEVELS = 4
"""How many levels the tables of 48 bits have."""


class SmmuHead(Head):
    """A stream table of one level, or of two where there are more than 256 streams. ``room`` is a power of two."""
    extra_pages = 0
    """How many pages stand after the stream table, for the words that its entries lead to."""

    def __init__(self, form: Format, options: Options) -> None:
        super().__init__(form, options)
        self.log2size = (options.room - 1).bit_length()
        self.is_linear = self.log2size <= SPLIT
        self.split = SPLIT
        self.made: dict[int, int] = {}
        size = ENTRY << self.log2size if self.is_linear else WORD << self.log2size - SPLIT
        self.table_pages = self.align = -(-size // PAGE)
        self.pages = self.table_pages + self.extra_pages

    def registers(self) -> list[Register]:
        """Returns the base of the stream table and its shape."""
        config = self.log2size if self.is_linear else self.log2size | self.split << 6 | TWO_LEVELS << 16
        return [Register("SMMU_STRTAB_BASE", 0x80, self.address), Register("SMMU_STRTAB_BASE_CFG", 0x88, config)]

    def parts(self) -> list[Part]:
        """Returns the stream table."""
        what = "stream table" if self.is_linear else "stream table of level 1"
        return [Part(what, self.address, self.table_pages * PAGE)]

    def _second(self, memory: Words, place: int) -> tuple[int, int] | None:
        """Returns the table to which a descriptor of level 1 leads and how many entries it has, or None."""
        word = memory.block(self.address + WORD * place, 1)[0]
        span = word & 0x1f
        return (word & (1 << 52) - (1 << 6), 1 << span - 1) if span else None

    def place(self, memory: Words, number: int) -> int | None:
        """Returns the address of the entry of a stream, or None if nothing leads to one."""
        if number >> self.log2size:
            return None
        if self.is_linear:
            return self.address + ENTRY * number
        second = self._second(memory, number >> self.split)
        within = number & (1 << self.split) - 1
        return second[0] + ENTRY * within if second and within < second[1] else None

    def make_place(self, plan: Plan, number: int) -> int:
        """Returns the address of the entry of a stream, and plans a table of the second level if there is none."""
        place = number >> SPLIT
        if place in self.made and not self.is_linear:
            return self.made[place] + ENTRY * (number % STREAMS_PER_TABLE)
        found = self.place(plan.memory, number)
        if found is not None:
            return found
        pages = ENTRY * STREAMS_PER_TABLE // PAGE
        table = self.made[place] = plan.allocate(pages, pages)
        plan.make(table, array("Q", bytes(pages * PAGE)))
        plan.make(self.address + WORD * place, array("Q", (table | SPLIT + 1,)))
        return table + ENTRY * (number % STREAMS_PER_TABLE)

    def remove(self, plan: Plan, number: int) -> bool:
        """Plans that a stream's entry does not count, so that its accesses are ended."""
        address = self.place(plan.memory, number)
        if address is None or not plan.memory.block(address, 1)[0] & VALID:
            return False
        plan.clear(address)
        return True

    def numbers(self, memory: Words) -> Iterator[int]:
        """Yields the streams whose entries count."""
        if self.is_linear:
            yield from self._valid(memory, self.address, 0, 1 << self.log2size)
            return
        for place in range(1 << self.log2size - self.split):
            second = self._second(memory, place)
            if second:
                yield from self._valid(memory, second[0], place << self.split, min(second[1], 1 << self.split))

    @staticmethod
    def _valid(memory: Words, table: int, first: int, count: int) -> Iterator[int]:
        """Yields the streams of a table whose entries count."""
        for place in range(count):
            if memory.block(table + ENTRY * place, 1)[0] & VALID:
                yield first + place

    def used(self, memory: Words) -> Iterable[int]:
        """Returns the addresses of the pages that hold entries at the second level."""
        if self.is_linear:
            return []
        seconds = [self._second(memory, place) for place in range(1 << self.log2size - self.split)]
        return [page for second in seconds if second for page in range(second[0] & -PAGE, second[0] + ENTRY * second[1],
                                                                       PAGE)]

    def want_config(self, memory: Words, number: int, config: int) -> "array[int]":
        """Returns the words of a stream's entry. Raises Trouble if it chooses another translation than ``config``."""
        address = self.place(memory, number)
        words = memory.block(address, ENTRY // WORD) if address is not None else array("Q", bytes(ENTRY))
        found = words[0] >> 1 & 7
        if found != config and found not in (0, 4):
            raise Trouble(f"stream {number:#x} has the configuration {found}, and {self.form.name} is {config}: "
                          "read it with the other format")
        return words


class Smmu(Format):
    """Tables with a granule of 4 KiB, as the processors of Arm have them."""
    note = "stream"
    widths = (32, 36, 39, 40, 42, 44, 48)
    usual = 39
    most_numbers = 1 << 24
    output_bits = 48
    keeps_empty = ""

    def leaf(self, level: int, host: int, may_read: bool, may_write: bool, is_device: bool) -> int:
        """Returns the descriptor of a page or a block."""
        word = host | VALID | ACCESSED | INNER_SHAREABLE | self.attributes(may_read, may_write, is_device)
        return word | IS_PAGE if level == 0 else word

    @abstractmethod
    def attributes(self, may_read: bool, may_write: bool, is_device: bool) -> int:
        """Returns the bits of a descriptor for what it allows and for the sort of memory."""

    @abstractmethod
    def rights(self, word: int) -> tuple[bool, bool]:
        """Returns whether a descriptor of a page or a block allows reading and writing."""

    @abstractmethod
    def table_rights(self, word: int) -> tuple[bool, bool]:
        """Returns what a descriptor of a table allows of what the table does."""

    def step(self, level: int) -> int:
        """Returns the size of a page or a block: a descriptor has the address as it is."""
        return size_of(level)

    def table(self, address: int, level: int) -> int:
        """Returns the descriptor of a table."""
        return address | VALID | IS_TABLE

    def entry(self, word: int, level: int, first: int) -> Entry:
        """Returns what a descriptor says."""
        if not word & VALID:
            return None
        if level and word & IS_TABLE:
            return Table(word & ADDRESS, level - 1, *self.table_rights(word))
        if level > 2 or not level and not word & IS_PAGE:
            return Fault("a block where the format has none")
        rights = self.rights(word)
        return Leaf(word & ADDRESS & -size_of(level), *rights) if any(rights) else None

    def found_head(self, memory: Words, root: int, config: int | None) -> Head:
        """Returns the stream table to which the registers lead."""
        if config is None:
            raise Trouble(f"{self.name} needs the value of SMMU_STRTAB_BASE_CFG too: --config says it")
        log2size, split, shape = config & 0x3f, config >> 6 & 0x1f, config >> 16 & 3
        if shape not in (LINEAR, TWO_LEVELS) or log2size > 32 or shape == TWO_LEVELS and split not in (6, 8, 10):
            raise Trouble(f"SMMU_STRTAB_BASE_CFG {config:#x} has a shape that is not read here")
        head = self.head(Options(48, room=1 << log2size))
        assert isinstance(head, SmmuHead)
        head.address, head.split = root & (1 << 52) - (1 << 6), split
        head.is_linear = shape == LINEAR or log2size <= split
        return head

    def forget_all(self, head: Head) -> list[Command]:
        """Returns commands that have all entries and all translations forgotten."""
        return [Command((0x4, 31), "CMD_CFGI_ALL"), Command((0x30, 0), "CMD_TLBI_NSNH_ALL"), SYNC]

    def forget(self, head: Head, streams: list[int], domains: list[int], is_directory: bool) -> list[Command]:
        """Returns commands that have the entries of streams and the translations of domains forgotten."""
        commands = [Command((0x3 | stream << 32, int(not is_directory)), f"CMD_CFGI_STE stream {stream:#x}")
                    for stream in streams]
        return [*commands, *(self.forget_domain(domain) for domain in domains), SYNC]

    @abstractmethod
    def forget_domain(self, domain: int) -> Command:
        """Returns the command that has the translations of one set of tables forgotten."""


SYNC = Command((0x46, 0), "CMD_SYNC: done when the queue has passed it")


def start_level(bits: int) -> int:
    """Returns the level of the manual, 0 to 2, at which the tables of a width begin: the last has pages and is level
    3."""
    return LEVELS - -(-(bits - PAGE_BITS) // LEVEL_BITS)


def context_of(root: int, size: int, start: int, domain: int) -> Context:
    """Returns a context with tables for 64 - ``size`` bits that begin at a level of the manual."""
    bits = 64 - size
    levels = LEVELS - start
    if not 1 <= levels <= LEVELS or not 16 <= size <= 39:
        raise Trouble(f"tables for {bits} bits that begin at level {start} are not read here")
    above = bits - PAGE_BITS - LEVEL_BITS * levels
    if above > 4:
        raise Trouble(f"tables for {bits} bits cannot begin at level {start}")
    return Context(root, bits, levels, 1 << max(above, 0), domain)


__all__ = ["ADDRESS", "ENTRIES", "ENTRY", "Smmu", "SmmuHead", "context_of", "start_level"]
