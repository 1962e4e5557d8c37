"""Stage 1 of an SMMUv3: a context descriptor for each set of tables, to which stream table entries lead."""

from array import array

from netconf_tools.export.formats import Command, Context, Head, Options, Part
from netconf_tools.export.memory import PAGE, WORD, Plan, Words
from netconf_tools.export.smmuv3 import ENTRY, VALID, Smmu, SmmuHead, context_of, start_level
from netconf_tools.export.smmuv3_s2 import INCOMING, passed, unread_granule
from netconf_tools.text import Trouble

CONFIG = 5
"""The configuration of a stream table entry that has stage 1 alone."""

UNPRIVILEGED, READ_ONLY, NOT_GLOBAL = 1 << 6, 1 << 7, 1 << 11
DEVICE = 1 << 2
"""AttrIndx 1."""

ATTRIBUTES = 0xff | 0x04 << 8
"""MAIR: attribute 0 is normal memory, written back; attribute 1 is a device, without gathering and reordering
(nGnRE)."""

WALKS = 1 << 8 | 1 << 10 | 3 << 12
"""Tables are read as normal memory, written back and inner shareable: IR0, OR0 and SH0."""

CONTEXT_WALKS = 1 << 2 | 1 << 4 | 3 << 6
"""Context descriptors are read so too: S1CIR, S1COR and S1CSH."""

OUTPUT = 5
"""IPS of 48 bits. A unit with fewer takes as many as it has."""

NO_UPPER = 1 << 30
"""EPD1: there are no tables for the upper half of 64 bits."""

MOST_CONTEXTS = PAGE // ENTRY
"""How many context descriptors stand after the stream table: one for each number of a set of tables, from 1 on."""


class Stage1Head(SmmuHead):
    """A stream table, and a page with a context descriptor for each set of tables."""
    extra_pages = 1

    @property
    def contexts(self) -> int:
        """The address of the first context descriptor."""
        return self.address + self.table_pages * PAGE

    def parts(self) -> list[Part]:
        """Returns the stream table and the context descriptors."""
        return [*super().parts(), Part("context descriptors", self.contexts, PAGE)]

    def write(self, plan: Plan, number: int, root: int, domain: int) -> bool:
        """Plans the entry of a stream, and the context descriptor to which it leads."""
        if domain > MOST_CONTEXTS:
            raise Trouble(f"there is room for {MOST_CONTEXTS} sets of tables, with those that end: load the tables "
                          "anew")
        place = self.contexts + ENTRY * (domain - 1)
        size = 64 - self.options.bits | WALKS | NO_UPPER
        context = (size | 1 << 31 | OUTPUT << 32 | 1 << 41 | 1 << 45 | 1 << 46 | domain << 48, root, 0, ATTRIBUTES, 0,
                   0, 0, 0)
        is_other = place not in self.planned and plan.entry(place, array("Q", context))
        self.planned.add(place)
        words = (VALID | CONFIG << 1 | place, CONTEXT_WALKS | INCOMING, 0, 0, 0, 0, 0, 0)
        return plan.entry(self.make_place(plan, number), array("Q", words)) or is_other

    def __init__(self, form: Smmu, options: Options) -> None:
        super().__init__(form, options)
        self.planned: set[int] = set()

    def context(self, memory: Words, number: int) -> Context:
        """Returns what the entry of a stream and its context descriptor say."""
        words = self.want_config(memory, number, CONFIG)
        if words[0] >> 1 & 7 in (0, 4):
            return passed(words[0])
        if words[0] >> 59:
            raise Trouble(f"stream {number:#x} has a table of context descriptors for substreams, which is not read "
                          "here")
        low, root, _, _ = memory.block(words[0] & (1 << 52) - (1 << 6), ENTRY // WORD)[:4]
        if not low >> 31 & 1 or low >> 14 & 1:
            return passed(0)
        if low >> 6 & 3 or not low >> 41 & 1:
            return unread_granule(number)
        size = low & 0x3f
        return context_of(root & (1 << 52) - (1 << 4), size, start_level(64 - size), low >> 48)


class SmmuStage1(Smmu):
    """Stage 1: AP says whether writing is allowed, and reading always is."""
    name = "smmuv3-s1"
    manual = "Arm SMMUv3 (IHI 0070), stage 1; DDI 0487 D8, stage 1 descriptors, 4 KiB granule"
    writes_alone = False

    def attributes(self, may_read: bool, may_write: bool, is_device: bool) -> int:
        """Returns AttrIndx and AP."""
        return is_device * DEVICE | UNPRIVILEGED | NOT_GLOBAL | (not may_write) * READ_ONLY

    def rights(self, word: int) -> tuple[bool, bool]:
        """Returns what AP allows an access without privilege."""
        may = bool(word & UNPRIVILEGED)
        return may, may and not word & READ_ONLY

    def table_rights(self, word: int) -> tuple[bool, bool]:
        """Returns what APTable leaves to an access without privilege."""
        may = not word >> 61 & 1
        return may, may and not word >> 62 & 1

    def head(self, options: Options) -> Head:
        """Returns a stream table with context descriptors."""
        return Stage1Head(self, options)

    def forget(self, head: Head, streams: list[int], domains: list[int], is_directory: bool) -> list[Command]:
        """Returns commands that have the entries and contexts of streams and the translations of domains forgotten."""
        contexts = [Command((0x5 | stream << 32, 1), f"CMD_CFGI_CD stream {stream:#x}") for stream in streams]
        return [*contexts, *super().forget(head, streams, domains, is_directory)]

    def forget_domain(self, domain: int) -> Command:
        """Returns the command for the translations of an address space's number."""
        return Command((0x11 | domain << 48, 0), f"CMD_TLBI_NH_ASID asid {domain}")
