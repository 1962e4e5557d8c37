"""Numbers that look random and are the same on every machine and with every Python."""

from collections.abc import Iterable, Sequence
from typing import TypeVar

Item = TypeVar("Item")

MASK = (1 << 64) - 1


class Dice:
    """Numbers that begin with a seed."""

    def __init__(self, seed: int) -> None:
        self.state = seed & MASK

    def roll(self, sides: int) -> int:
        """The next number, below so many (the generator splitmix64)."""
        self.state = (self.state + 0x9E3779B97F4A7C15) & MASK
        mixed = self.state
        mixed = ((mixed ^ mixed >> 30) * 0xBF58476D1CE4E5B9) & MASK
        mixed = ((mixed ^ mixed >> 27) * 0x94D049BB133111EB) & MASK
        return (mixed ^ mixed >> 31) % sides

    def between(self, low: int, high: int) -> int:
        """A number from one to another, both included."""
        return low + self.roll(high - low + 1)

    def once_in(self, count: int) -> bool:
        """True once in so many times."""
        return self.roll(count) == 0

    def one_of(self, items: Sequence[Item]) -> Item:
        """One of a list."""
        return items[self.roll(len(items))]

    def mixed(self, items: Iterable[Item]) -> list[Item]:
        """The items in another order."""
        left, order = list(items), []
        while left:
            order.append(left.pop(self.roll(len(left))))
        return order
