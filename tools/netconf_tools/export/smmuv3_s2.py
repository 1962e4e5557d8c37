"""Stage 2 of an SMMUv3: one set of tables for each stream table entry, with reading and writing each by a bit."""

from array import array

from netconf_tools.export.formats import Command, Context, Head, Options
from netconf_tools.export.memory import Plan, Words
from netconf_tools.export.smmuv3 import VALID, Smmu, SmmuHead, context_of, start_level

CONFIG = 6
"""The configuration of a stream table entry that has stage 2 alone."""

READ, WRITE = 1 << 6, 1 << 7
NORMAL, DEVICE = 0xf << 2, 0x1 << 2
"""The sorts of memory: normal, written back; and device, without gathering and reordering (nGnRE)."""

MOST_CONCATENATED = 4
"""Up to 2^4 tables of the highest level stand side by side, in place of one more level."""

INCOMING = 1 << 44
"""Shareability is that of the access."""

WALKS = 1 << 8 | 1 << 10 | 3 << 12
"""Tables are read as normal memory, written back and inner shareable: S2IR0, S2OR0 and S2SH0."""

OUTPUT = 5
"""S2PS of 48 bits. A unit with fewer takes as many as it has."""


class Stage2Head(SmmuHead):
    """A stream table whose entries have the tables of stage 2."""

    def write(self, plan: Plan, number: int, root: int, domain: int) -> bool:
        """Plans the entry of a stream."""
        form, bits = self.form, self.options.bits
        start = 4 - form.levels(bits)
        size_and_walks = 64 - bits | (2 - start) << 6 | WALKS | OUTPUT << 16
        flags = 1 << 51 | 1 << 54 | 1 << 58
        words = (VALID | CONFIG << 1, INCOMING, domain | size_and_walks << 32 | flags, root, 0, 0, 0, 0)
        return plan.entry(self.make_place(plan, number), array("Q", words))

    def context(self, memory: Words, number: int) -> Context:
        """Returns what the entry of a stream says."""
        words = self.want_config(memory, number, CONFIG)
        if words[0] >> 1 & 7 in (0, 4):
            return passed(words[0])
        control = words[2] >> 32
        if control >> 14 & 3 or not words[2] >> 51 & 1:
            return unread_granule(number)
        return context_of(words[3] & (1 << 52) - (1 << 4), control & 0x3f, 2 - (control >> 6 & 3), words[2] & 0xffff)


def passed(word: int) -> Context:
    """Returns the context of an entry that lets all through, or nothing."""
    may = bool(word >> 1 & 4)
    return Context(None, 52, 0, 1, 0, may, may)


def unread_granule(number: int) -> Context:
    """Raises Trouble for tables that are not of 64-bit descriptors and pages of 4 KiB."""
    from netconf_tools.text import Trouble
    raise Trouble(f"the tables of stream {number:#x} have another granule than 4 KiB, or descriptors of 32 bits")


class SmmuStage2(Smmu):
    """Stage 2: S2AP has a bit for reading and one for writing."""
    name = "smmuv3-s2"
    manual = "Arm SMMUv3 (IHI 0070), stage 2; DDI 0487 D8, stage 2 descriptors, 4 KiB granule"
    writes_alone = True

    def levels(self, bits: int) -> int:
        """Returns how many levels there are: one less where up to 16 tables stand side by side in its place."""
        levels = 4 - start_level(bits)
        return levels - 1 if levels == 4 and bits - 39 <= MOST_CONCATENATED else levels

    def root_pages(self, bits: int) -> int:
        """Returns how many tables of the highest level stand side by side."""
        return 1 << max(bits - 12 - 9 * self.levels(bits), 0)

    def attributes(self, may_read: bool, may_write: bool, is_device: bool) -> int:
        """Returns MemAttr and S2AP."""
        return (DEVICE if is_device else NORMAL) | may_read * READ | may_write * WRITE

    def rights(self, word: int) -> tuple[bool, bool]:
        """Returns what S2AP allows."""
        return bool(word & READ), bool(word & WRITE)

    def table_rights(self, word: int) -> tuple[bool, bool]:
        """Returns both: a table of stage 2 takes no right away."""
        return True, True

    def head(self, options: Options) -> Head:
        """Returns a stream table."""
        return Stage2Head(self, options)

    def forget_domain(self, domain: int) -> Command:
        """Returns the command for the translations of a virtual machine's number."""
        return Command((0x28 | domain << 32, 0), f"CMD_TLBI_S12_VMALL vmid {domain}")
