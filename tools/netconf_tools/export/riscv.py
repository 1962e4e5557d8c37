"""First-stage tables of RISC-V's IOMMU, with a device directory.

The manual is RISC-V IOMMU Architecture Specification, version 1.0: 2.1 (device directory table and device context), 3.1
(commands), and the chapter on registers. The tables are Sv39, Sv48 and Sv57 of The RISC-V Instruction Set Manual,
volume II."""

from array import array
from typing import Iterable, Iterator

from netconf_tools.export.formats import (BLOCK_LEVELS, Command, Context, Entry, Fault, Format, Head, Leaf, Options,
                                          Part, Register,
                                          Table, size_of)
from netconf_tools.export.memory import PAGE, WORD, Plan, Words
from netconf_tools.text import Trouble

VALID, READ, WRITE, EXECUTE, USER, ACCESSED, DIRTY = 1 << 0, 1 << 1, 1 << 2, 1 << 3, 1 << 4, 1 << 6, 1 << 7
NUMBER = (1 << 44) - 1
"""The bits of a page's number."""

NUMBER_AT = 10
"""The bit of an entry, and of an entry of the directory, at which the page's number begins."""

IO, GROUPED = 2 << 61, 1 << 63
"""Bits of extensions: the page is of registers, strongly ordered (Svpbmt); and the entry is one of a group
(Svnapot)."""

MODES = {39: 8, 48: 9, 57: 10}
"""The modes of first-stage tables by their widths."""

DIRECTORY_MODES = {1: 2, 2: 3, 3: 4}
"""The modes of the directory by its levels."""

BARE = 1


class RiscvHead(Head):
    """A device directory of one to three levels, whose last has device contexts of 64 bytes, or of 32 without
    translation of messages."""
    pages = 1

    def __init__(self, form: Format, options: Options) -> None:
        super().__init__(form, options)
        self.context_bytes = options.context_bytes
        self.lowest = (PAGE // self.context_bytes).bit_length() - 1
        most = options.room - 1
        self.levels = 1 + (most >> self.lowest > 0) + (most >> self.lowest + 9 > 0)
        self.made: dict[tuple[int, int], int] = {}

    def registers(self) -> list[Register]:
        """Returns the pointer to the directory, with its mode."""
        return [Register("ddtp", 0x10, DIRECTORY_MODES[self.levels] | self.address >> 12 << NUMBER_AT)]

    def parts(self) -> list[Part]:
        """Returns the first page of the directory."""
        return [Part("device directory", self.address, PAGE)]

    def _index(self, number: int, level: int) -> int:
        """Returns the place of the entry for a device at a level; that of contexts is level 0."""
        below = self.lowest + 9 * (level - 1) if level else 0
        return number >> below & (1 << (9 if level else self.lowest)) - 1

    def _down(self, memory: Words, table: int, number: int, level: int) -> int | None:
        """Returns the page to which the entry for a device leads, or None."""
        word = memory.block(table + WORD * self._index(number, level), 1)[0]
        return (word >> NUMBER_AT & NUMBER) << 12 if word & VALID else None

    def place(self, memory: Words, number: int) -> int | None:
        """Returns the address of the context of a device, or None if nothing leads to it."""
        table: int | None = self.address
        if number >> self.lowest + 9 * (self.levels - 1):
            return None
        for level in range(self.levels - 1, 0, -1):
            table = self._down(memory, table, number, level) if table is not None else None
        return None if table is None else table + self.context_bytes * self._index(number, 0)

    def make_place(self, plan: Plan, number: int) -> int:
        """Returns the address of the context of a device, and plans the pages that lead to it if they are not there."""
        table, is_new = self.address, False
        for level in range(self.levels - 1, 0, -1):
            key = level, number >> self.lowest + 9 * (level - 1)
            known = self.made.get(key)
            found = known or (None if is_new else self._down(plan.memory, table, number, level))
            if found is None:
                found = self.made[key] = plan.allocate()
                plan.make(found, array("Q", bytes(PAGE)))
                plan.make(table + WORD * self._index(number, level), array("Q", (found >> 12 << NUMBER_AT | VALID,)))
            is_new = key in self.made
            table = found
        return table + self.context_bytes * self._index(number, 0)

    def write(self, plan: Plan, number: int, root: int, domain: int) -> bool:
        """Plans the context of a device."""
        words = [VALID, 0, domain << 12, MODES[self.options.bits] << 60 | root >> 12, 0, 0, 0,
                 0][:self.context_bytes // WORD]
        return plan.entry(self.make_place(plan, number), array("Q", words))

    def remove(self, plan: Plan, number: int) -> bool:
        """Plans that a device has no context."""
        address = self.place(plan.memory, number)
        if address is None or not plan.memory.block(address, 1)[0] & VALID:
            return False
        plan.clear(address)
        return True

    def _pages(self, memory: Words) -> Iterator[tuple[int, int, int]]:
        """Yields the pages of the directory, each its address, its level, and the first device that comes to it."""
        waiting = [(self.address, self.levels - 1, 0)]
        while waiting:
            table, level, first = waiting.pop()
            yield table, level, first
            for place, word in enumerate(memory.block(table, PAGE // WORD) if level else ()):
                if word & VALID:
                    waiting.append(((word >> NUMBER_AT & NUMBER) << 12, level - 1,
                                    first | place << self.lowest + 9 * (level - 1)))

    def numbers(self, memory: Words) -> Iterator[int]:
        """Yields the devices whose contexts are valid."""
        found = []
        for table, level, first in self._pages(memory):
            words = memory.block(table, PAGE // WORD) if level == 0 else array("Q")
            step = self.context_bytes // WORD
            found += [first | place for place in range(len(words) // step) if words[place * step] & VALID]
        yield from sorted(found)

    def used(self, memory: Words) -> Iterable[int]:
        """Returns the addresses of the pages of the directory after the first."""
        return [table for table, _, _ in self._pages(memory) if table != self.address]

    def context(self, memory: Words, number: int) -> Context:
        """Returns what the context of a device says."""
        address = self.place(memory, number)
        control, second, attributes, first = memory.block(address, 4) if address is not None else (0, 0, 0, 0)
        mode, domain = first >> 60, attributes >> 12 & 0xfffff
        if control >> 5 & 1 or second >> 60:
            raise Trouble(f"device {number:#x} has tables for processes or of a second stage, which are not read here")
        if mode == 0:
            return Context(None, 56, 0, 1, domain)
        bits = {value: key for key, value in MODES.items()}.get(mode)
        if bits is None:
            raise Trouble(f"device {number:#x} has first-stage tables of the mode {mode}, which is not read here")
        return Context((first & NUMBER) << 12, bits, -(-(bits - 12) // 9), 1, domain)


class Riscv(Format):
    """First-stage tables. An entry that allows writing has to allow reading."""
    name = "riscv"
    manual = "RISC-V IOMMU 1.0, first stage; RISC-V Privileged Architecture, Sv39, Sv48 and Sv57"
    note = "stream"
    widths = (39, 48, 57)
    usual = 39
    most_numbers = 1 << 24
    output_bits = 56
    writes_alone = False
    keeps_empty = "where the unit may keep entries that are not valid"

    def limit(self, bits: int) -> int:
        """Returns the first address of the upper half: an address above has all upper bits as its highest."""
        return 1 << bits - 1

    def leaf(self, level: int, host: int, may_read: bool, may_write: bool, is_device: bool) -> int:
        """Returns the entry of a page or a block."""
        return host >> 12 << NUMBER_AT | VALID | USER | ACCESSED | may_read * READ | may_write * (WRITE | DIRTY)

    def step(self, level: int) -> int:
        """Returns what the page's number adds to an entry from one to the next."""
        return size_of(level) >> 12 << NUMBER_AT

    def table(self, address: int, level: int) -> int:
        """Returns the entry of a table: it allows nothing itself."""
        return address >> 12 << NUMBER_AT | VALID

    def entry(self, word: int, level: int, first: int) -> Entry:
        """Returns what an entry says. A page that was not accessed or written yet counts like one that was, since a
        unit may note it by itself."""
        if not word & VALID:
            return None
        address = (word >> NUMBER_AT & NUMBER) << 12
        if not word & (READ | WRITE | EXECUTE):
            return Table(address, level - 1) if level else Fault("an entry of a table at the last level")
        if word & WRITE and not word & READ:
            return Fault("writing without reading")
        if word & GROUPED:
            if level or address >> 12 & 0xf != 8:
                return Fault("a group of another size than 64 KiB")
            address = address & -0x10000 | first & 0xf000
        if address % size_of(level):
            return Fault("bits below the address of a block are set")
        return Leaf(address, bool(word & READ), bool(word & WRITE)) if word & USER and word & READ else None

    def head(self, options: Options) -> Head:
        """Returns a device directory."""
        return RiscvHead(self, options)

    def found_head(self, memory: Words, root: int, config: int | None) -> Head:
        """Returns the directory to which the register leads; ``config`` is the bytes of a device context, 64 if it is
        None."""
        levels = {mode: levels for levels, mode in DIRECTORY_MODES.items()}.get(root & 0xf)
        if levels is None:
            raise Trouble(f"ddtp {root:#x} has the mode {root & 0xf}, which has no directory")
        if config not in (None, 32, 64):
            raise Trouble(f"a device context has 64 bytes, or 32, and not {config}")
        head = RiscvHead(self, Options(39, context_bytes=config or 64))
        head.address, head.levels = (root >> NUMBER_AT & NUMBER) << 12, levels
        return head

    def forget_all(self, head: Head) -> list[Command]:
        """Returns commands that have all contexts and all translations forgotten."""
        return [Command((0x3, 0), "IODIR.INVAL_DDT all"), Command((0x1, 0), "IOTINVAL.VMA all"), FENCE]

    def forget(self, head: Head, streams: list[int], domains: list[int], is_directory: bool) -> list[Command]:
        """Returns commands that have the contexts of devices and the translations of domains forgotten."""
        commands = [Command((0x3 | 1 << 33 | stream << 40, 0), f"IODIR.INVAL_DDT device {stream:#x}")
                    for stream in streams]
        commands += [Command((0x1 | domain << 12 | 1 << 32, 0), f"IOTINVAL.VMA pscid {domain}") for domain in domains]
        return [*commands, FENCE]


FENCE = Command((0x2 | 1 << 12 | 1 << 13, 0), "IOFENCE.C: done when the queue has passed it")
__all__ = ["BLOCK_LEVELS", "Riscv"]
