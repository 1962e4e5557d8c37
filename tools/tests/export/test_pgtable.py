"""The self tests of Linux's page tables for IOMMUs, as cases over the tables of an SMMUv3.

Linux has them in drivers/iommu/io-pgtable-arm.c (6.1, arm_lpae_run_tests), for each page size and each width of input
addresses. Its sizes of 16 KiB, 32 MiB, 64 KiB and 512 MiB are of granules that netconf-export does not have. That a
mapping over another one is refused is no case here: a description cannot ask for two buffers at one address. Where
Linux maps for writing alone, stage 1 of Linux allows both, and netconf-export refuses; so these cases map for both
there."""

from netconf_tools.cli.export import FORMATS
from netconf_tools.export.formats import Options
from netconf_tools.export.memory import Memory, Plan
from netconf_tools.export.spans import Span
from netconf_tools.export.trees import Tree, reasons_against
from tests.case import Case
from tests.export.common import AT
from tests.export.walkers import lpae

GIGABYTE = 1 << 30
SIZES = (1 << 12, 1 << 21, 1 << 30)
"""The page and the blocks of a granule of 4 KiB."""

WIDTHS = (32, 36, 40, 42, 44, 48)
"""The widths of input addresses that Linux tests."""

STAGES = ("smmuv3-s1", "smmuv3-s2")


class Tables:
    """The tables of one stage and width, whose spans are changed."""

    def __init__(self, name: str, bits: int) -> None:
        self.form, self.options = FORMATS[name], Options(bits)
        self.memory, self.root = Memory(AT), 0
        plan = Plan(self.memory)
        self.root = Tree(plan, self.form, self.options, []).make()
        plan.carry_out()

    def map(self, spans: list[Span]) -> None:
        """Has the tables say spans, in place of those before."""
        assert reasons_against(self.form, self.options, "card", spans) == []
        plan = Plan(self.memory)
        Tree(plan, self.form, self.options, spans).change(self.root)
        plan.carry_out()

    def where(self, address: int, is_write: bool = False) -> int | None:
        """Returns where an access arrives."""
        bits = self.options.bits
        start = 4 - self.form.levels(bits) if self.form.name == "smmuv3-s2" else None
        return lpae(lambda at: self.memory.block(at, 1)[0], self.root, bits, start, address, is_write)

    def words(self) -> int:
        """Returns how many entries lead to memory or to tables."""
        return sum(word != 0 for word in self.memory.words)


def identity(size: int, at: int, may_write: bool = True) -> Span:
    """Returns a span that leads to its own addresses."""
    return Span(at, at + size - 1, at, True, may_write)


class TestPgtable(Case):
    """The cases, each for both stages and each width."""

    def each(self) -> list[Tables]:
        """Returns empty tables of each sort."""
        return [Tables(name, bits) for name in STAGES for bits in WIDTHS]

    def test_empty(self) -> None:
        """Empty tables translate nothing."""
        for tables in self.each():
            for address in (42, GIGABYTE + 42, 2 * GIGABYTE + 42):
                self.assertIsNone(tables.where(address))

    def test_sizes(self) -> None:
        """Each size is mapped at an address of its own, and by one entry of its level."""
        for tables in self.each():
            tables.map([identity(size, place * GIGABYTE) for place, size in enumerate(SIZES)])
            for place, size in enumerate(SIZES):
                for address in (place * GIGABYTE + 42, place * GIGABYTE + size - 1):
                    self.assertEqual((tables.where(address), tables.where(address, True)), (address, address))
                if size < GIGABYTE:
                    self.assertIsNone(tables.where(place * GIGABYTE + size))
            leaves = [word for word in tables.memory.words if word & 1 << 10]
            self.assertEqual(len(leaves), len(SIZES), "a page, a block of 2 MiB and one of 1 GiB")

    def test_partial_unmap(self) -> None:
        """A page is unmapped within a block, and mapped again elsewhere and for reading alone."""
        page, block = SIZES[:2]
        for tables in self.each():
            tables.map([identity(block, GIGABYTE)])
            rest = [identity(page, GIGABYTE), identity(block - 2 * page, GIGABYTE + 2 * page)]
            tables.map(rest)
            self.assertIsNone(tables.where(GIGABYTE + page + 42))
            self.assertEqual(tables.where(GIGABYTE + 42), GIGABYTE + 42)
            self.assertEqual(tables.where(GIGABYTE + 2 * page, True), GIGABYTE + 2 * page)
            self.assertEqual(tables.where(GIGABYTE + block - 1), GIGABYTE + block - 1)
            again = Span(GIGABYTE + page, GIGABYTE + 2 * page - 1, page, True, False)
            tables.map([rest[0], again, rest[1]])
            self.assertEqual(tables.where(GIGABYTE + page + 42), page + 42)
            self.assertIsNone(tables.where(GIGABYTE + page + 42, True))

    def test_full_unmap(self) -> None:
        """Each size is unmapped whole, and mapped again for writing: alone in stage 2, and for both in stage 1."""
        for tables in self.each():
            spans = [identity(size, place * GIGABYTE) for place, size in enumerate(SIZES)]
            tables.map(spans)
            for place, span in enumerate(spans):
                tables.map([*spans[:place], *spans[place + 1:]])
                self.assertIsNone(tables.where(span.first + 42))
                spans[place] = span._replace(may_read=tables.form.name == "smmuv3-s1")
                tables.map(spans)
                self.assertEqual(tables.where(span.first + 42, True), span.first + 42)
                self.assertEqual(tables.where(span.first + 42) is None, tables.form.name == "smmuv3-s2")

    def test_last_address(self) -> None:
        """The last page of each width is mapped, and one past it is refused."""
        for tables in self.each():
            last = (1 << tables.options.bits) - SIZES[0]
            tables.map([Span(last, last + SIZES[0] - 1, 0x9000, True, True)])
            self.assertEqual(tables.where(last + 8), 0x9008)
            reasons = reasons_against(tables.form, tables.options, "card", [identity(SIZES[0], last + SIZES[0])])
            self.assertTrue(reasons)

    def test_nothing_left(self) -> None:
        """Where all is unmapped no entry is left in the root."""
        for tables in self.each():
            tables.map([identity(size, place * GIGABYTE) for place, size in enumerate(SIZES)])
            tables.map([])
            pages = tables.form.root_pages(tables.options.bits)
            self.assertFalse(any(tables.memory.block(tables.root, 512 * pages)))
