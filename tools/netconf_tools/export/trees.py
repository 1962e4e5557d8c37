"""Plans the tables of one set of spans: new ones, or what of tables that stand already becomes other."""

from array import array
from bisect import bisect_left, bisect_right

from netconf_tools.export.formats import BLOCK_LEVELS, PAGE_BITS, Format, Options, Table, size_of
from netconf_tools.export.memory import ENTRIES, PAGE, WORD, Plan, empty_words
from netconf_tools.export.spans import Reason, Span


def reasons_against(form: Format, options: Options, agent: str, spans: list[Span]) -> list[Reason]:
    """Returns why the tables of a format cannot say spans; none if they can."""
    return [Reason(agent, span.first, span.last, why) for span in spans for why in _whys(form, options, span)][:1 << 12]


def _whys(form: Format, options: Options, span: Span) -> list[str]:
    """Returns what of a span a format cannot say."""
    whys, mask = [], PAGE - 1
    if span.may_write and not span.may_read and not form.writes_alone:
        whys.append(f"{form.name} has no writing without reading: grant it for both, or take a format that has it")
    if span.first & mask or span.last + 1 & mask or span.host & mask:
        whys.append(f"it is not a whole number of pages of {PAGE:#x}: {span.text()}")
    if span.last >= form.limit(options.bits):
        wider = [bits for bits in form.widths if span.last < form.limit(bits)]
        more = f": --bits {wider[0]} translates it" if wider else ""
        whys.append(f"tables of {options.bits} bits end at {form.limit(options.bits) - 1:#x}{more}")
    if span.at(span.last) >> form.output_bits:
        whys.append(f"an entry leads to addresses below 2^{form.output_bits}, and {span.at(span.last):#x} is none")
    return whys


class Tree:
    """Plans tables with one root by spans that a format can say.

    A table that stands already stays, with its pages where a block would do as well: so what is the same before and
    after is never interrupted."""

    def __init__(self, plan: Plan, form: Format, options: Options, spans: list[Span]) -> None:
        self.plan, self.form, self.options, self.spans = plan, form, options, spans
        self.firsts = [span.first for span in spans]
        self.lasts = [span.last for span in spans]
        self.levels = form.levels(options.bits)
        self.blocks = 0 if options.pages_only else BLOCK_LEVELS

    def make(self) -> int:
        """Plans new tables, and returns the address of their root."""
        pages = self.form.root_pages(self.options.bits)
        root = self.plan.allocate(pages, pages)
        self.plan.make(root, self._words(self.levels - 1, 0, empty_words(pages * ENTRIES)))
        return root

    def change(self, root: int) -> None:
        """Plans what becomes other of the tables at a root that stands already."""
        self._change(root, self.levels - 1, 0, self.form.root_pages(self.options.bits) * ENTRIES)

    def _change(self, address: int, level: int, base: int, count: int) -> None:
        """Plans what becomes other of one table and of those below it: entries to clear, and entries to write."""
        old = self.plan.memory.block(address, count)
        new = self._words(level, base, old)
        if old == new:
            return
        differing = [place for place in range(count) if old[place] != new[place]]
        for place in differing:
            if old[place]:
                self.plan.clear(address + WORD * place)
        for first, end in runs_of([place for place in differing if new[place]]):
            self.plan.make(address + WORD * first, new[first:end])

    def _words(self, level: int, base: int, old: "array[int]") -> "array[int]":
        """Returns the words of a table whose first entry has the address ``base``, and plans the tables below it."""
        count, size = len(old), size_of(level)
        new, done = empty_words(count), -1
        low, high = bisect_left(self.lasts, base), bisect_right(self.firsts, base + size * count - 1)
        for number in range(low, high):
            span = self.spans[number]
            first = max(span.first - base >> PAGE_BITS + 9 * level, 0)
            last = min(span.last - base >> PAGE_BITS + 9 * level, count - 1)
            if level == 0:
                new[first:last + 1] = self._leaves(span, base + first * size, last + 1 - first, 0)
                continue
            for place in range(max(first, done + 1), last + 1):
                new[place] = self._entry(level, base + place * size, old[place], span)
                done = place
        return new

    def _leaves(self, span: Span, address: int, count: int, level: int) -> "array[int]":
        """Returns entries side by side that lead to memory, from an address of the agent on."""
        word = self.form.leaf(level, span.at(address), span.may_read, span.may_write, span.is_device)
        step = self.form.step(level)
        return array("Q", range(word, word + count * step, step))

    def _entry(self, level: int, base: int, old: int, span: Span) -> int:
        """Returns the entry of a level for addresses from ``base`` on, of which a span has the first that any has."""
        below = self.form.entry(old, level, base) if old else None
        size = size_of(level)
        if isinstance(below, Table):
            self._change(below.address, level - 1, base, ENTRIES)
            return old
        is_whole = span.first <= base and base + size - 1 <= span.last and span.at(base) % size == 0
        if is_whole and level <= self.blocks:
            return self._leaves(span, base, 1, level)[0]
        table = self.plan.allocate()
        self.plan.make(table, self._words(level - 1, base, empty_words(ENTRIES)))
        return self.form.table(table, level - 1)


def runs_of(places: list[int]) -> list[tuple[int, int]]:
    """Returns numbers in ascending order as runs, each its first and the one after its last."""
    runs: list[tuple[int, int]] = []
    for place in places:
        if runs and runs[-1][1] == place:
            runs[-1] = runs[-1][0], place + 1
        else:
            runs.append((place, place + 1))
    return runs
