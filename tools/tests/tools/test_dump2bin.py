"""netconf-dump2bin after commands that were refused: nothing is written, unless that is allowed."""

import os
import pathlib
import unittest

from tests.case import TOOLS, Case, outcome

DUMP2BIN = TOOLS / "netconf-dump2bin"

BOARD = """dram is accept [0x0-0xffff];
agent dma is map [0x0-0x3fff to smmu at 0x0];
unit smmu kind pages page 12 slots 4 reach 16 to dram;
begin;
grant a dma dram 0x4000 0x1000;
view dram; radix dma 1; radix smmu 0;
dump; radix smmu 1;
grant b dma dram 0x4100 0x100;
gather dma a dram 0x0 0x1000;
revoke c;
dump; radix smmu 1;
"""

REFUSALS = """netconf-dump2bin: -:137: b refused: NoPlacement
netconf-dump2bin: -:138: gather refused: IdUsed 0
netconf-dump2bin: -:139: c refused: NoGrant
"""

FAILED = "netconf-dump2bin: -: a command before it was refused, so nothing is written; --keep-going writes it\n"


class TestRefusals(Case):
    """Refusals before the dump that is taken."""

    def setUp(self) -> None:
        """Has the program answer the board."""
        self.answers = outcome(os.environ["NETCONF"], "run", text=BOARD)[1]
        self.path = pathlib.Path(self.folder, "tables")

    def convert(self, *words: str, text: str | None = None) -> tuple[int, str]:
        """The status and the errors of the tool over an output; what it writes goes to a file."""
        status, output, errors = outcome(DUMP2BIN, "--output", self.path, *words,
                                         text=self.answers if text is None else text)
        self.assertEqual(output, "")
        return status, errors

    def test_refused(self) -> None:
        """Each command that changes tables and was refused is reported, and what stood there stays."""
        self.path.write_text("as it was")
        for words in ("", "--dump 2", "--tree smmu", "--changes"):
            self.assertEqual(self.convert(*words.split()), (1, REFUSALS + FAILED))
        self.assertEqual(self.path.read_text(), "as it was")

    def test_allowed(self) -> None:
        """With --keep-going they are reported, and the image is written."""
        for words in ("", "--dump 2", "--tree smmu", "--changes"):
            self.path.unlink(missing_ok=True)
            self.assertEqual(self.convert("--keep-going", *words.split()), (0, REFUSALS))
            self.assertGreater(self.path.stat().st_size, 0)

    def test_before(self) -> None:
        """A refusal after what is taken, or of a question, is none of it."""
        for words in ("--dump 1", "--dump 1 --tree smmu", "--dump 1 --changes"):
            self.assertEqual(self.convert(*words.split()), (0, ""))

    def test_many(self) -> None:
        """Of very many refusals the first twenty are shown, and how many follow."""
        status, errors = self.convert(text="x refused: NoPlacement\n" * 100 + self.answers)
        lines = errors.splitlines()
        self.assertEqual((status, len(lines), lines[20]), (1, 22, "netconf-dump2bin: -: 83 more commands were refused"))

    def test_refused_text(self) -> None:
        """Of a text that was refused the line is repeated."""
        for line in ("refused: line 1 Token", "refused: Overlap bus@0x1800"):
            wanted = f"netconf-dump2bin: -: the text was {line} (netconf-lint shows the place)\n"
            self.assertEqual(self.convert(text=line + "\n"), (1, wanted))


if __name__ == "__main__":
    unittest.main()
