"""Why a grant, a buffer in pieces or a route has no placement: each cause in a worked text, and that the command is
granted once the cause is taken away."""

import pathlib
import re
import unittest
from typing import NamedTuple

from tests.case import TOOLS, Case, outcome

LINT = TOOLS / "netconf-lint"

MEMORY = "dram is accept [0x0-0x3fffffff];\nbus is map [0x80000000-0xbfffffff to dram at 0x0];\n"
CARD = "agent card is map [0x0-0xffff to smmu at 0x0];\n"
SMMU = "unit smmu kind pages page 12 slots 16 reach 32 to bus;\n"
VECTORS = "vectors cpu0 is accept [0x20-0x21];\nvectors cpu1 is accept [0x100-0x10f];\n"
IRT = "unit irt kind vectors page 0 slots 3 reach 8 to cpu0, cpu1;\n"


class Worked(NamedTuple):
    """A text whose last command has no placement, the notes on it without their places, and a replacement that lets
    it be granted."""

    text: str
    notes: list[str]
    old: str
    new: str


TEXTS = {
    "the reach ends too early": Worked(
        MEMORY + CARD + SMMU.replace("reach 32", "reach 31") + "begin; grant a card dram 0x9000 0x1000;",
        ["the outputs of smmu end at 0x7fffffff, and bus has dram@0x9000 at 0x80009000"],
        "reach 31",
        "reach 32",
    ),
    "the buffer ends past the reach": Worked(
        MEMORY.replace("0x80000000-0xbfffffff", "0x7fff0000-0xbffeffff")
        + CARD
        + SMMU.replace("reach 32", "reach 31")
        + "begin; grant a card dram 0xf000 0x2000;",
        ["the outputs of smmu end at 0x7fffffff, and bus has dram@0xf000 at 0x7ffff000"],
        "dram 0xf000",
        "dram 0xe000",
    ),
    "no way leads to the memory": Worked(
        "dram is accept [0x0-0x3fffffff];\nb.ipa is map [0x40000000-0x4000ffff to dram at 0x0];\n"
        "agent b.nic is map [0x0-0xffff to b.iommu at 0x0];\n"
        "unit b.iommu kind pages page 12 slots 16 reach 32 to b.ipa;\n"
        "begin; grant a b.nic dram 0x100000 0x1000;",
        ["b.ipa has no address for dram@0x100000, it has 0x0-0xffff of it"],
        "dram 0x100000",
        "dram 0xf000",
    ),
    "no way leads to the node": Worked(
        MEMORY + "sram is accept [0x0-0xffff];\n" + CARD + SMMU + "begin; grant a card sram 0x0 0x1000;",
        ["bus has no address for sram@0x0"],
        "to dram at 0x0]",
        "to dram at 0x0, 0x0-0xffff to sram]",
    ),
    "a part of the buffer alone": Worked(
        MEMORY.replace("0xbfffffff", "0x8000ffff") + CARD + SMMU + "begin; grant a card dram 0xf000 0x2000;",
        ["bus has a part of dram 0xf000-0x10fff alone: 0xf000-0xffff at 0x8000f000"],
        "0x8000ffff",
        "0xbfffffff",
    ),
    "the buffer in pieces of another order": Worked(
        MEMORY.replace(
            "0x80000000-0xbfffffff to dram at 0x0", "0x0-0xfff to dram at 0x1000, 0x1000-0x1fff to dram at 0x0"
        )
        + CARD
        + SMMU
        + "begin; grant a card dram 0x0 0x2000;",
        ["bus has dram 0x0-0x1fff in pieces: 0x1000-0x1fff at 0x0, 0x0-0xfff at 0x1000"],
        "0x0 0x2000",
        "0x0 0x1000",
    ),
    "more pages than slots": Worked(
        MEMORY + CARD + SMMU + "begin; grant a card dram 0x0 0x11000;",
        ["dram 0x0-0x10fff takes 0x11 pages of smmu, and card reaches 0x10 slots of it in a row"],
        "0x11000",
        "0x10000",
    ),
    "more pages than slots that the agent reaches": Worked(
        MEMORY + CARD.replace("0xffff", "0x2fff") + SMMU + "begin; grant a card dram 0x0 0x4000;",
        ["dram 0x0-0x3fff takes 0x4 pages of smmu, and card reaches 0x3 slots of it in a row"],
        "0x4000",
        "0x3000",
    ),
    "no whole pages": Worked(
        MEMORY + CARD + SMMU + "begin; grant a card dram 0x4100 0x100;",
        ["0x4100-0x41ff, at 0x80004100 of bus, is not a whole number of pages: a page of smmu has 0x1000"],
        "0x4100 0x100",
        "0x4000 0x1000",
    ),
    "slots in use": Worked(
        MEMORY + CARD + SMMU + "begin; grant a card dram 0x0 0x6000; grant b card dram 0x8000 0x4000;\n"
        "grant c card dram 0x10000 0x4000; revoke b; grant d card dram 0x20000 0x5000;",
        [
            "dram 0x20000-0x24fff takes 5 slots of smmu side by side; of the 16 that card reaches 6 are free, at most "
            "4 side by side",
            "these units have slots of a, c",
        ],
        "0x20000 0x5000",
        "0x20000 0x4000",
    ),
    "another agent reaches the slots": Worked(
        MEMORY
        + "agent disk is map [0x0-0x3fff to smmu at 0x0];\n"
        + CARD.replace("0x0-0xffff", "0x10000-0x13fff").replace("at 0x0", "at 0x2000")
        + SMMU
        + "begin; grant a disk dram 0x9000 0x3000;",
        ["card reaches these slots of smmu: it would see dram 0xb000-0xbfff at 0x10000"],
        "0x9000 0x3000",
        "0x9000 0x2000",
    ),
    "the agent reaches the slots twice": Worked(
        MEMORY
        + "agent disk is map [0x0-0x1fff to smmu at 0x0, 0x8000-0x9fff to smmu at 0x0];\n"
        + SMMU
        + "begin; grant a disk dram 0x9000 0x1000;",
        [
            "disk reaches these slots of smmu: it would see dram 0x9000-0x9fff at 0x0",
            "disk reaches these slots of smmu: it would see dram 0x9000-0x9fff at 0x8000",
        ],
        ", 0x8000-0x9fff to smmu at 0x0",
        "",
    ),
    "no unit on the way": Worked(
        MEMORY + "agent core is over bus;\n" + SMMU + "begin; grant a core dram 0x9000 0x1000;",
        ["core reaches no slot of a unit"],
        "over bus",
        "map [0x0-0xffff to smmu at 0x0]",
    ),
    "a unit past the reach of the one before": Worked(
        MEMORY + "host is map [0x10000-0x1ffff to smmu at 0x0];\nagent card is map [0x0-0x3ffff to bridge at 0x0];\n"
        "unit bridge kind remap page 14 slots 4 reach 16 to host;\n" + SMMU + "begin; grant a card dram 0x9000 0x1000;",
        [
            "host has no address for dram@0x9000",
            "the outputs of bridge end at 0xffff, and host leads to smmu from 0x10000 on",
        ],
        "reach 16",
        "reach 17",
    ),
    "a piece that no way leads to": Worked(
        MEMORY.replace("0xbfffffff", "0x8000ffff")
        + CARD
        + SMMU
        + "begin; gather card a dram 0x0 0x1000 and b dram 0x10000 0x1000;",
        ["bus has no address for dram@0x10000, it has 0x0-0xffff of it"],
        "b dram 0x10000",
        "b dram 0x8000",
    ),
    "a piece of no whole pages": Worked(
        MEMORY + CARD + SMMU + "begin; gather card a dram 0x0 0x1000 and b dram 0x10000 0x800;",
        ["piece b, 0x10000-0x107ff, at 0x80010000 of bus, is not a whole number of pages: a page of smmu has 0x1000"],
        "0x10000 0x800",
        "0x10000 0x1000",
    ),
    "a line that leads nowhere": Worked(
        VECTORS + "agent nic is map [0x0-0x2 to irt at 0x0];\n" + IRT + "begin; route a nic 7 cpu0;",
        ["nic@0x7 leads to no slot of a unit"],
        "nic 7",
        "nic 2",
    ),
    "another agent leads to the slot of the line": Worked(
        VECTORS
        + "agent nic is map [0x0-0x2 to irt at 0x0];\nagent disk is map [0x0 to irt at 0x2];\n"
        + IRT
        + "begin; route a nic 2 cpu0;",
        ["disk@0x0 leads to the same slot of irt"],
        "nic 2",
        "nic 1",
    ),
    "vectors past the reach": Worked(
        VECTORS + "agent nic is map [0x0-0x2 to irt at 0x0];\n" + IRT + "begin; route a nic 0 cpu1;",
        ["the outputs of irt end at 0xff, and the vectors of cpu1 begin at 0x100"],
        "reach 8",
        "reach 9",
    ),
    "a core to which no unit sends": Worked(
        VECTORS.replace("0x100-0x10f", "0x30")
        + "agent nic is map [0x0-0x2 to irt at 0x0];\n"
        + IRT.replace(", cpu1", "")
        + "begin; route a nic 0 cpu1;",
        ["no unit that nic reaches sends to cpu1"],
        "to cpu0;\n",
        "to cpu1;\n",
    ),
}
"""Each cause with a text of its own."""


class TestCauses(Case):
    """The causes of `NoPlacement`."""

    def warnings(self, text: str) -> list[str]:
        """The warnings and notes of netconf-lint over a text, without their places."""
        path = pathlib.Path(self.folder, "board.net")
        path.write_text(text)
        status, output, errors = outcome(LINT, path)
        self.assertEqual((status, errors), (0, ""))
        return re.findall(r"^\S+ ((?:warning|note): .*)$", output, re.M)

    def test_each_cause(self) -> None:
        """Each text has its notes and no others, and without the cause the program grants what is asked."""
        for title, worked in TEXTS.items():
            with self.subTest(title):
                warning, *notes = self.warnings(worked.text)
                self.assertRegex(warning, r"^warning: (grant|gather|route) \w+: NoPlacement: ")
                self.assertEqual(notes, [f"note: {note}" for note in worked.notes])
                self.assertEqual(self.warnings(worked.text.replace(worked.old, worked.new)), [])

    def test_what_is_not_certain(self) -> None:
        """Where no fact closes each way, the notes tell where to look."""
        text = (
            MEMORY
            + CARD
            + "agent disk is map [0x0-0xffff to bridge at 0x0];\n"
            + SMMU
            + (
                "unit bridge kind pages page 12 slots 16 reach 16 to front;\n"
                "front is map [0x0-0xffff to smmu at 0x0];\nbegin; grant a card dram 0x0 0x10000; revoke a;\n"
                "grant b disk dram 0x0 0x10000; grant c card dram 0x0 0x1000;"
            )
        )
        notes = self.warnings(text)
        self.assertEqual(
            notes[1:],
            [
                "note: disk can reach smmu, 16 slots of 0x1000 addresses",
                "note: disk can reach bridge, 16 slots of 0x1000 addresses",
                "note: card reaches smmu too",
            ],
        )

    def test_many(self) -> None:
        """The causes of the first eight commands without a placement are looked for, and of the others the notes
        tell where to look."""
        text = MEMORY + CARD + SMMU + "begin;\n" + "".join(f"grant g{n} card dram 0x0 0x11000;\n" for n in range(10))
        notes = [note for note in self.warnings(text) if note.startswith("note")]
        self.assertEqual([("takes 0x11 pages" in note) for note in notes], [True] * 8 + [False] * 2)


if __name__ == "__main__":
    unittest.main()
