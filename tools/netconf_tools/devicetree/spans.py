"""Sets of addresses, as sorted lists of spans ``(first, last)`` with both ends included."""

from bisect import bisect_left, bisect_right
from collections.abc import Iterable

TOP = 2**56 - 1
"""The last address of a description."""

Span = tuple[int, int]
"""The first and the last of some addresses."""


class Taken:
    """Addresses that are taken span by span: sorted spans that do not touch, in two lists of their ends."""

    def __init__(self) -> None:
        self.firsts: list[int] = []
        self.lasts: list[int] = []

    def take(self, first: int, last: int) -> list[Span]:
        """Takes a span, and returns which parts of it were free."""
        low, high = bisect_left(self.lasts, first - 1), bisect_right(self.firsts, last + 1)
        free = without([(first, last)], list(zip(self.firsts[low:high], self.lasts[low:high])))
        if low < high:
            first, last = min(first, self.firsts[low]), max(last, self.lasts[high - 1])
        self.firsts[low:high], self.lasts[low:high] = [first], [last]
        return free


def union(spans: Iterable[Span]) -> list[Span]:
    """The fewest sorted spans with the addresses of ``spans``; spans that touch become one."""
    joined: list[Span] = []
    for first, last in sorted(spans):
        if joined and first <= joined[-1][1] + 1:
            joined[-1] = (joined[-1][0], max(joined[-1][1], last))
        else:
            joined.append((first, last))
    return joined


def meet(left: list[Span], right: list[Span]) -> list[Span]:
    """The addresses that two sorted lists share."""
    shared, one, other = [], 0, 0
    while one < len(left) and other < len(right):
        first = max(left[one][0], right[other][0])
        last = min(left[one][1], right[other][1])
        if first <= last:
            shared.append((first, last))
        if left[one][1] < right[other][1]:
            one += 1
        else:
            other += 1
    return shared


def without(spans: list[Span], taken: list[Span]) -> list[Span]:
    """The addresses of ``spans`` that are not in ``taken``; both are sorted lists."""
    left = []
    for first, last in spans:
        for low, high in meet([(first, last)], taken):
            if first < low:
                left.append((first, low - 1))
            first = high + 1
        if first <= last:
            left.append((first, last))
    return left


def shifted(spans: Iterable[Span], by: int) -> list[Span]:
    """The spans, each moved by ``by``."""
    return [(first + by, last + by) for first, last in spans]


def text(first: int, last: int) -> str:
    """A span as the language writes it."""
    return f"{first:#x}-{last:#x}"
