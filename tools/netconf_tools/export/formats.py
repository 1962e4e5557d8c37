"""What a format of tables has to say: its entries, the words above its tables, its registers and its commands."""

from abc import ABC, abstractmethod
from dataclasses import dataclass
from typing import ClassVar, Iterable, Iterator, NamedTuple

from netconf_tools.export.memory import Memory, Plan, Words
from netconf_tools.text import Trouble

PAGE_BITS = 12
"""A page of tables, and the smallest that an entry leads to, has 2^12 bytes."""

LEVEL_BITS = 9
"""How many bits of an address choose the entry in a table."""

BLOCK_LEVELS = 2
"""The highest level whose entries may lead to memory: 0 is a page of 4 KiB, 1 is 2 MiB, 2 is 1 GiB."""


def size_of(level: int) -> int:
    """Returns how many addresses an entry of a level has; 0 is the level of pages."""
    return 1 << PAGE_BITS + LEVEL_BITS * level


class Leaf(NamedTuple):
    """An entry that leads to memory: the host's address of its first address, and what it allows."""
    host: int
    may_read: bool
    may_write: bool


class Table(NamedTuple):
    """An entry that leads to a table: its address, its level, and what it allows of what the table does."""
    address: int
    level: int
    may_read: bool = True
    may_write: bool = True


class Fault(NamedTuple):
    """An entry that the hardware refuses: no access goes through it."""
    why: str


Entry = Leaf | Table | Fault | None
"""What an entry says; None is an entry that says nothing."""


class Context(NamedTuple):
    """What the words above the tables say of a stream: the root of its tables, how many bits of an address they
    translate, the levels, and the number by which caches tell tables apart. ``root`` is None if all addresses go
    through as they are.

    ``may_read`` and ``may_write`` are what the context itself allows of what the tables do."""
    root: int | None
    bits: int
    levels: int
    root_pages: int
    domain: int
    may_read: bool = True
    may_write: bool = True


class Register(NamedTuple):
    """A register of the unit: its name in the manual, where it stands from the first register on, and its value."""
    name: str
    offset: int
    value: int


class Command(NamedTuple):
    """A command for the unit's queue: its words, and what it does."""
    words: tuple[int, ...]
    what: str


class Part(NamedTuple):
    """A part of the words above the tables: what it is, its address, and its size in bytes."""
    what: str
    address: int
    size: int


@dataclass(frozen=True)
class Options:
    """What is chosen of a format: how many bits of an address its tables translate, whether pages of 4 KiB alone are
    used, how many stream or function numbers the words above have room for, and how many bytes a device context of
    RISC-V has."""
    bits: int
    pages_only: bool = False
    room: int = 1
    context_bytes: int = 64


class Head(ABC):
    """The words above the tables of one unit of hardware, at an address that is a multiple of ``align`` pages."""
    pages: int
    """How many pages they have at first."""

    align: int = 1

    empty = 0
    """The first word of the entry of a stream that has no tables."""

    def __init__(self, form: "Format", options: Options) -> None:
        self.form, self.options = form, options
        self.address = 0

    @abstractmethod
    def registers(self) -> list[Register]:
        """Returns the registers that lead to the tables, with their values."""

    @abstractmethod
    def parts(self) -> list[Part]:
        """Returns the parts that stand from ``address`` on."""

    @abstractmethod
    def place(self, memory: Words, number: int) -> int | None:
        """Returns the address of the entry of a stream, or None if nothing leads to one."""

    @abstractmethod
    def make_place(self, plan: Plan, number: int) -> int:
        """Returns the address of the entry of a stream, and plans the words that lead to it if there are none."""

    @abstractmethod
    def write(self, plan: Plan, number: int, root: int, domain: int) -> bool:
        """Plans the entry of a stream; returns whether any word changes."""

    @abstractmethod
    def remove(self, plan: Plan, number: int) -> bool:
        """Plans that a stream has no tables; returns whether any word changes."""

    @abstractmethod
    def numbers(self, memory: Words) -> Iterator[int]:
        """Yields the stream numbers whose entries count."""

    @abstractmethod
    def context(self, memory: Words, number: int) -> Context:
        """Returns what the entry of a stream says. Raises Trouble if it says what is not read here."""

    @abstractmethod
    def used(self, memory: Words) -> Iterable[int]:
        """Returns the addresses of the pages that lead to entries and do not stand in the first ``pages``."""

    def start(self, memory: Memory) -> None:
        """Writes the words that are no 0 where no stream has tables, into memory whose words are 0."""

    def forget(self, streams: list[int], domains: list[int], is_directory: bool) -> list[Command]:
        """Returns the commands after which the unit has forgotten entries of streams and the translations of domains,
        and after which no access that began before is in flight. ``is_directory`` says that words that lead to entries
        changed too."""
        return self.form.forget(self, streams, domains, is_directory)


class Format(ABC):
    """A format of tables, with the manual that defines it."""
    name: ClassVar[str]
    manual: ClassVar[str]
    note: ClassVar[str]
    """The note that has the number of an agent: ``stream`` or ``pci``."""

    widths: ClassVar[tuple[int, ...]]
    """How many bits of an address the tables may translate."""

    usual: ClassVar[int]
    """The least width that is taken if none is asked for."""

    most_numbers: ClassVar[int]
    """How many stream or function numbers a unit can tell apart."""

    output_bits: ClassVar[int]
    """Host addresses are below 2^output_bits."""

    writes_alone: ClassVar[bool]
    """Whether an entry can allow writing without reading."""

    keeps_empty: ClassVar[str]
    """When a unit of this format may keep that an entry was empty, so that it has to forget it after one is written; or
    empty."""

    def limit(self, bits: int) -> int:
        """Returns the address after the last that tables of a width translate."""
        return 1 << bits

    def levels(self, bits: int) -> int:
        """Returns how many levels tables of a width have."""
        return -(-(bits - PAGE_BITS) // LEVEL_BITS)

    def root_pages(self, bits: int) -> int:
        """Returns how many pages side by side the table of the highest level has."""
        return 1

    @abstractmethod
    def leaf(self, level: int, host: int, may_read: bool, may_write: bool, is_device: bool) -> int:
        """Returns the entry of a level that leads to memory."""

    @abstractmethod
    def step(self, level: int) -> int:
        """Returns what an entry that leads to memory has more than the one before it, where the memory goes on."""

    @abstractmethod
    def table(self, address: int, level: int) -> int:
        """Returns the entry that leads to a table of a level."""

    @abstractmethod
    def entry(self, word: int, level: int, first: int) -> Entry:
        """Returns what an entry of a level says; ``first`` is the first address that comes to it. Raises Trouble for
        what is not read here."""

    @abstractmethod
    def head(self, options: Options) -> Head:
        """Returns the words above the tables, which stand nowhere yet."""

    @abstractmethod
    def found_head(self, memory: Words, root: int, config: int | None) -> Head:
        """Returns the words above the tables to which the registers of a unit lead. Raises Trouble for what is not read
        here."""

    @abstractmethod
    def forget_all(self, head: Head) -> list[Command]:
        """Returns the commands after which the unit has forgotten all."""

    @abstractmethod
    def forget(self, head: Head, streams: list[int], domains: list[int], is_directory: bool) -> list[Command]:
        """Returns the commands after which the unit has forgotten entries of streams and the translations of
        domains."""


def want_number(form: Format, number: int) -> None:
    """Raises Trouble if a unit cannot tell a stream of this number from others."""
    if number >= form.most_numbers:
        raise Trouble(f"{form.name} has no number {number:#x}: the last is {form.most_numbers - 1:#x}")
