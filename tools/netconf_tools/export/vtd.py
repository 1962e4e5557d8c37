"""Second-level tables of Intel's VT-d, with a root table and contexts in the legacy mode.

The manual is Intel Virtualization Technology for Directed I/O, Architecture Specification, revision 3.3 or later: 9.3
context entry, the sections beside it on the root entry and on second-stage paging entries, 6.5.2 queue of
invalidations, 11.4 registers."""

from array import array
from typing import Iterable, Iterator

from netconf_tools.export.formats import (Command, Context, Entry, Fault, Format, Head, Leaf, Options, Part, Register,
                                          Table,
                                          size_of)
from netconf_tools.export.memory import ENTRIES, PAGE, WORD, Plan, Words
from netconf_tools.text import Trouble

READ, WRITE, BLOCK = 1 << 0, 1 << 1, 1 << 7
PRESENT = 1 << 0
ADDRESS = (1 << 52) - PAGE
ENTRY = 2 * WORD
"""How many bytes a root entry and a context entry have."""

TRANSLATED, WITH_DEVICE_TLB, PASSED = 0, 1, 2
"""The types of translation that a context may say, in bits 2 and 3."""

DONE = 1
"""What the command to wait writes when all before it is done."""


class VtdHead(Head):
    """A root table, a context table for each bus, and a word that the command to wait writes."""
    pages = 2

    def __init__(self, form: Format, options: Options) -> None:
        super().__init__(form, options)
        self.made: dict[int, int] = {}

    @property
    def done(self) -> int:
        """The address of the word that the command to wait writes."""
        return self.address + PAGE

    def registers(self) -> list[Register]:
        """Returns the root table address, which chooses the legacy mode."""
        return [Register("RTADDR_REG", 0x20, self.address)]

    def parts(self) -> list[Part]:
        """Returns the root table and the page with the word that is written."""
        return [Part("root table", self.address, PAGE), Part("word that a wait writes", self.done, WORD)]

    def _contexts(self, memory: Words, bus: int) -> int | None:
        """Returns the address of the context table of a bus, or None."""
        low, _ = memory.block(self.address + ENTRY * bus, 2)
        return low & ADDRESS if low & PRESENT else None

    def place(self, memory: Words, number: int) -> int | None:
        """Returns the address of the context of a function, or None if its bus has no context table."""
        contexts = self._contexts(memory, number >> 8)
        return None if contexts is None else contexts + ENTRY * (number & 0xff)

    def make_place(self, plan: Plan, number: int) -> int:
        """Returns the address of the context of a function, and plans a context table for its bus if there is none."""
        bus = number >> 8
        contexts = self.made.get(bus) or self._contexts(plan.memory, bus)
        if contexts is None:
            contexts = self.made[bus] = plan.allocate()
            plan.make(contexts, array("Q", bytes(PAGE)))
            plan.make(self.address + ENTRY * bus, array("Q", (contexts | PRESENT,)))
        return contexts + ENTRY * (number & 0xff)

    def write(self, plan: Plan, number: int, root: int, domain: int) -> bool:
        """Plans the context of a function."""
        words = (root | TRANSLATED << 2 | PRESENT, self.form.levels(self.options.bits) - 2 | domain << 8)
        return plan.entry(self.make_place(plan, number), array("Q", words))

    def remove(self, plan: Plan, number: int) -> bool:
        """Plans that a context is not present."""
        address = self.place(plan.memory, number)
        if address is None or not plan.memory.block(address, 1)[0] & PRESENT:
            return False
        plan.clear(address)
        return True

    def numbers(self, memory: Words) -> Iterator[int]:
        """Yields the functions whose contexts are present."""
        for bus in range(256):
            contexts = self._contexts(memory, bus)
            words = memory.block(contexts, ENTRIES) if contexts is not None else array("Q")
            yield from (bus << 8 | place for place in range(len(words) // 2) if words[2 * place] & PRESENT)

    def used(self, memory: Words) -> Iterable[int]:
        """Returns the addresses of the context tables."""
        return [contexts for bus in range(256) if (contexts := self._contexts(memory, bus)) is not None]

    def context(self, memory: Words, number: int) -> Context:
        """Returns what the context of a function says."""
        address = self.place(memory, number)
        low, high = memory.block(address, 2) if address is not None else (0, 0)
        levels = (high & 7) + 2
        kind = low >> 2 & 3
        if kind == PASSED:
            return Context(None, 52, 0, 1, high >> 8 & 0xffff)
        if kind not in (TRANSLATED, WITH_DEVICE_TLB) or not 3 <= levels <= 5:
            raise Trouble(f"the context of function {number:#x} has the translation type {kind} and the width "
                          f"{high & 7}, which are not read here")
        return Context(low & ADDRESS, 12 + 9 * levels, levels, 1, high >> 8 & 0xffff)


class Vtd(Format):
    """Second-level tables: an entry allows reading by bit 0 and writing by bit 1, and bit 7 is a block."""
    name = "vtd"
    manual = "Intel VT-d Architecture Specification, second-stage paging entries, legacy mode"
    note = "pci"
    widths = (39, 48, 57)
    usual = 48
    most_numbers = 1 << 16
    output_bits = 52
    writes_alone = True
    keeps_empty = "where CAP_REG has caching mode (bit 7)"

    def leaf(self, level: int, host: int, may_read: bool, may_write: bool, is_device: bool) -> int:
        """Returns the entry of a page or a block."""
        return host | may_read * READ | may_write * WRITE | bool(level) * BLOCK

    def step(self, level: int) -> int:
        """Returns the size of a page or a block: an entry has the address as it is."""
        return size_of(level)

    def table(self, address: int, level: int) -> int:
        """Returns the entry of a table, which allows both."""
        return address | READ | WRITE

    def entry(self, word: int, level: int, first: int) -> Entry:
        """Returns what an entry says. It says nothing where it allows neither."""
        rights = bool(word & READ), bool(word & WRITE)
        if not any(rights):
            return None
        address = word & ADDRESS
        if level and not word & BLOCK:
            return Table(address, level - 1, *rights)
        if level > 2 or address % size_of(level):
            return Fault("a block of this level" if level > 2 else "bits below the address of a block are set")
        return Leaf(address, *rights)

    def head(self, options: Options) -> Head:
        """Returns a root table."""
        return VtdHead(self, options)

    def found_head(self, memory: Words, root: int, config: int | None) -> Head:
        """Returns the root table to which the register leads."""
        if root >> 10 & 3:
            raise Trouble(f"the root table address {root:#x} chooses the scalable mode, which is not read here")
        head = VtdHead(self, Options(48))
        head.address = root & ADDRESS
        return head

    def _waited(self, head: Head, commands: list[Command]) -> list[Command]:
        """Returns commands with one after them that writes a word when all before it is done."""
        assert isinstance(head, VtdHead)
        wait = Command((0x5 | 1 << 5 | DONE << 32, head.done),
                       f"wait: writes {DONE} at {head.done:#x} when all before it is done")
        return [*commands, wait]

    def forget_all(self, head: Head) -> list[Command]:
        """Returns commands that have all contexts and all translations forgotten."""
        return self._waited(head, [Command((0x1 | 1 << 4, 0), "contexts: forget all"),
                                   Command((0x2 | 1 << 4 | 1 << 6 | 1 << 7, 0), "translations: forget all")])

    def forget(self, head: Head, streams: list[int], domains: list[int], is_directory: bool) -> list[Command]:
        """Returns commands that have the contexts of functions and the translations of domains forgotten."""
        commands = [Command((0x1 | 3 << 4 | stream << 32, 0), f"context of {function_text(stream)}: forget")
                    for stream in streams]
        commands += [Command((0x2 | 2 << 4 | 1 << 6 | 1 << 7 | domain << 16, 0),
                             f"translations of domain {domain}: forget")
                     for domain in domains]
        return self._waited(head, commands)


def function_text(number: int) -> str:
    """Returns a function as text: its bus, device and function."""
    return f"pci {number >> 8:x}:{number >> 3 & 31:x}.{number & 7}"
