"""Words of memory at addresses, and the plan by which they become others while a unit may be walking them."""

import functools
import sys
from array import array
from dataclasses import dataclass, field
from typing import BinaryIO, Protocol

from netconf_tools.text import Trouble

PAGE = 0x1000
"""How many bytes a page of tables has."""

WORD = 8
"""How many bytes a word has."""

ENTRIES = PAGE // WORD
"""How many words a page has."""


class Words(Protocol):
    """Memory whose words can be read."""

    def block(self, address: int, count: int) -> "array[int]":
        """Returns ``count`` words from an address on, which is a multiple of 8. Raises Trouble if they are not all
        there."""


def words_of(data: bytes) -> "array[int]":
    """Returns the words of 64 bits that bytes have, which are little-endian; the last bytes of a part of a word are
    left out."""
    words = array("Q", data[:len(data) & -WORD])
    if sys.byteorder == "big":
        words.byteswap()
    return words


def bytes_of(words: "array[int]") -> bytes:
    """Returns the bytes of words, little-endian."""
    if sys.byteorder == "big":
        words = words[:]
        words.byteswap()
    return words.tobytes()


def empty_words(count: int) -> "array[int]":
    """Returns so many words of 0."""
    return array("Q", bytes(WORD * count))


class Memory:
    """Words that can be read and written, at consecutive addresses from ``base`` on, a multiple of 4,096."""

    def __init__(self, base: int, data: bytes = b"") -> None:
        self.base = base
        self.words = words_of(data)

    @property
    def end(self) -> int:
        """The address after the last word."""
        return self.base + WORD * len(self.words)

    def block(self, address: int, count: int) -> "array[int]":
        """Returns ``count`` words from an address on. Raises Trouble if they are not all there."""
        place = (address - self.base) // WORD
        if place < 0 or place + count > len(self.words) or address % WORD:
            raise Trouble(f"the tables lead to {address:#x}, which is outside of {self.base:#x}-{self.end - 1:#x}")
        return self.words[place:place + count]

    def write(self, address: int, words: "array[int]") -> None:
        """Writes words from an address on, which has to lie in the memory."""
        place = (address - self.base) // WORD
        self.words[place:place + len(words)] = words

    def grow(self, end: int) -> None:
        """Adds words of 0 up to the address ``end``."""
        self.words.extend(empty_words(max(end - self.end, 0) // WORD))


class FileMemory:
    """Memory that a file holds, whose first byte stands at the address ``base``."""

    def __init__(self, file: BinaryIO, base: int, name: str) -> None:
        self._file, self._base, self._name = file, base, name
        self._read = functools.lru_cache(maxsize=1 << 12)(self._words)

    def block(self, address: int, count: int) -> "array[int]":
        """Returns ``count`` words from an address on. Raises Trouble if the file does not have them."""
        return self._read(address, count)

    def _words(self, address: int, count: int) -> "array[int]":
        try:
            if address < self._base:
                raise ValueError
            self._file.seek(address - self._base)
            data = self._file.read(count * WORD)
        except OSError as error:
            raise Trouble(f"{self._name}: {error.strerror}") from error
        except (ValueError, OverflowError):
            data = b""
        if len(data) < count * WORD:
            raise Trouble(f"{self._name}: the tables lead to {address:#x}, which the file does not have (it begins at "
                          f"{self._base:#x})")
        return words_of(data)


@dataclass(frozen=True)
class Write:
    """Words that are written from an address on, in ascending order."""
    address: int
    words: "array[int]"


@dataclass
class Plan:
    """How the words of a memory become others: what is cleared first, and what is written after a fence, each in its
    order.

    Pages that nothing leads to are ``free``, and taken before the memory grows. What the plan clears stays as it is
    until the plan is carried out, so no page is used twice in one plan. ``taken`` are the pages that it gives out: what
    they had before does not count."""
    memory: Memory
    clears: list[Write] = field(default_factory=list)
    makes: list[Write] = field(default_factory=list)
    free: list[int] = field(default_factory=list)
    end: int = 0
    taken: set[int] = field(default_factory=set)

    def __post_init__(self) -> None:
        self.end = max(self.end, self.memory.end)

    def allocate(self, pages: int = 1, align: int = 1) -> int:
        """Returns the address of pages that nothing leads to, at a multiple of ``align`` pages."""
        if pages == 1 == align and self.free:
            address = self.free.pop()
        else:
            address = -(-self.end // (align * PAGE)) * align * PAGE
            self.free += range(address - PAGE, self.end - PAGE, -PAGE)
            self.end = address + pages * PAGE
        self.taken |= set(range(address, address + pages * PAGE, PAGE))
        return address

    def clear(self, address: int, word: int = 0) -> None:
        """Has one word cleared, or replaced by the word that stands for nothing there."""
        self.clears.append(Write(address, array("Q", (word,))))

    def make(self, address: int, words: "array[int]") -> None:
        """Has words written."""
        self.makes.append(Write(address, words))

    def entry(self, address: int, words: "array[int]", empty: int = 0) -> bool:
        """Has an entry of several words written, whose first word says that it counts, and which is ``empty`` where it
        does not.

        The first word is cleared before the others are written, and is written last. Returns whether anything
        changes."""
        is_new = address & -PAGE in self.taken
        old = empty_words(len(words)) if is_new else self.memory.block(address, len(words))
        if old == words:
            return False
        if old[0] not in (0, empty):
            self.clear(address, empty)
        if len(words) > 1:
            self.make(address + WORD, words[1:])
        if words[0] != empty or old[0] != empty:
            self.make(address, words[:1])
        return True

    def carry_out(self) -> None:
        """Writes to the memory what is planned, in its order."""
        self.memory.grow(self.end)
        for write in (*self.clears, *self.makes):
            self.memory.write(write.address, write.words)
