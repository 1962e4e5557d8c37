"""netconf-lint over a table with each refusal, over the table of the language's page, over a table of commands that
are refused, over images of tables, and over what it cannot read."""

import os
import pathlib
import re
import unittest
from collections.abc import Iterator

from tests.case import EXAMPLES, TOOLS, TOP, Case, outcome

LINT = TOOLS / "netconf-lint"
ROW = re.compile(r"\| (?P<text>.+?) \| `refused: (?:line (?P<line>\d+) )?(?P<rule>[A-Z]\w+).*?` \|")

SOURCE = re.compile(r"^  .*\n", re.M)
"""A line of source, or a caret, below a message."""


def cases(table: str) -> Iterator[tuple[str, str, str]]:
    """The cases of a table: title, description, output."""
    for case in (pathlib.Path(__file__).parent / table).read_text().split("\n== ")[1:]:
        title, rest = case.split("\n", 1)
        text, output = rest.split("\n--\n")
        yield title, text + "\n", output.rstrip("\n") + "\n"


def texts_of_page() -> Iterator[tuple[str, str, str]]:
    """The rows of the language's page: the rule, the line or nothing, and a text that meets it."""
    for row in map(ROW.match, (TOP / "docs/language.md").read_text().splitlines()):
        if row:
            text = re.fullmatch("`([^`]+)`( seventeen times)?", row["text"])
            whole = text[1] * (17 if text[2] else 1) if text else " " * 4194305
            yield row["rule"], row["line"] or "", whole


def rules_of_page() -> set[str]:
    """The rules that the language's page has texts for."""
    return {rule for rule, _, _ in texts_of_page()}


BOARD = """dram is accept [0x0-0xffffff];
vectors cpu is accept [0x20-0x3f];
agent core is over dram;
agent disk is map [0x0-0x7fff to mmu at 0x0, 0x10000 to irt at 0x0];
agent card is map [0x0-0x7fff to mmu at 0x0];
unit mmu kind radix page 12 slots 8
    reach 24 to dram, cpu;
unit irt kind vectors page 0 slots 2 reach 8 to cpu;
"""
"""A board on which two engines come to the same slots."""

WORDS = (0x1001, 0x2011, 0x3031, 0x4041, 0x5005, 0x1000001, 0x6002, 0x7021, 0x120, 0x1, 0x20, 0x21)
"""The words of its units: what is shut out are slots 2 to 5 of the first, and slot 0 of the second."""

SHUT = """board.net:6:1: warning: mmu slot 2: malformed record: 0x3031: it allows neither reading nor writing
board.net:6:1: warning: mmu slot 3: malformed record: 0x4041: bit 6 of its gate word must be 0
board.net:6:1: warning: mmu slot 4: malformed record: 0x5005: there is no port 2
board.net:6:1: warning: mmu slot 5: malformed record: 0x1000001: its output 0x1000000 is not below 2^24
board.net:8:1: warning: irt slot 0: malformed record: 0x120 0x1: its output 0x120 is not below 2^8
"""

SHARED = """board.net:1:1: warning: dram 0x1000-0x2fff: shared by records: disk, card
board.net:4:1: note: disk sees it at 0x0-0xfff for read
board.net:4:1: note: disk sees it at 0x0-0x1fff for write
board.net:5:1: note: card sees it at 0x0-0xfff for read
board.net:5:1: note: card sees it at 0x0-0x1fff for write
board.net:1:1: warning: dram 0x7000-0x7fff: shared by records: disk, card
board.net:4:1: note: disk sees it at 0x7000-0x7fff for read
board.net:5:1: note: card sees it at 0x7000-0x7fff for read
"""

SHARED_BY_VERSION_1 = """board.net:1:1: warning: dram 0x1000-0x1fff: shared by records: disk, card
board.net:4:1: note: disk sees it at 0x0-0xfff for read and write
board.net:5:1: note: card sees it at 0x0-0xfff for read and write
"""

OF_VERSION_1 = "an image of version 1 has no records for one access alone"

SIZES = "board.net:1: note: an image of this net has 2 units and 120 bytes\n"


def image_of_board(version: int = 2) -> bytes:
    """The image of the board with these words."""
    words = b"".join(word.to_bytes(8, "little") for word in WORDS)
    heads = [
        node.to_bytes(2, "little") + bytes([count, 0]) + slots.to_bytes(4, "little")
        for node, count, slots in ((5, 1, 8), (6, 2, 2))
    ]
    return b"DNIM" + bytes([version, 0, 2, 0]) + heads[0] + words[:64] + heads[1] + words[64:]


IMAGE = image_of_board()

REFUSED_IMAGES = {
    "cut": (IMAGE[:-1], "image Short 119: the image ends at this byte, inside a field\n" + SIZES),
    "empty": (b"", "image Short 0: the image ends at this byte, inside a field\n" + SIZES),
    "of version 3": (
        IMAGE[:4] + b"\3" + IMAGE[5:],
        "image Header 4: another field stands at this byte: 0 is the mark DNIM, "
        "4 the version, 6 the number of units\n" + SIZES,
    ),
    "with another unit": (
        IMAGE[:82] + b"\1" + IMAGE[83:],
        "image Shape 1: the head of this unit, counted from 0, is not that of "
        "the description's unit\nboard.net:8:1: note: irt is node 6, words of a record 2, slots 2\n"
        "tables:1: note: the head at byte 80 says node 6, words of a record 1, slots 2\n",
    ),
    "with bytes after it": (
        IMAGE + b"\0",
        "image Trailing 120: from this byte on more follows than an image of this net has\n" + SIZES,
    ),
    "too long": (
        IMAGE.ljust(1 << 26, b"\0"),
        "InputLength: description and image have more than 67,108,863 bytes together\n",
    ),
}
"""Images that are refused, with what is printed after `tables:1: error: `."""


class LintCase(Case):
    """A test that runs netconf-lint in a folder of its own."""

    def lint(self, text: str, *words: str) -> tuple[int, str, str]:
        """The status, the output and the errors over a text in a file."""
        pathlib.Path(self.folder, "board.net").write_bytes(text.encode("latin-1"))
        return outcome(LINT, *words, "board.net", folder=self.folder)

    def messages(self, text: str, *words: str) -> tuple[int, str, str]:
        """The same, without lines of source and carets."""
        status, output, errors = self.lint(text, *words)
        return status, SOURCE.sub("", output), errors


class TestRefusals(LintCase):
    """Descriptions that are refused."""

    def test_table(self) -> None:
        """Each case of the table, with the lines of source; its rules are those of the language's page."""
        met = set()
        for title, text, output in cases("lint.table"):
            with self.subTest(title=title):
                self.assertEqual(self.lint(text), (1, output, ""))
            met.add(output.split(": ")[2].split()[0])
        self.assertEqual(sorted(rules_of_page() - met - {"Length", "Deep"}), [])

    def test_page(self) -> None:
        """Each row of the language's page has its rule and its line."""
        self.assertGreaterEqual(len(rules_of_page()), 17)
        for rule, line, text in texts_of_page():
            with self.subTest(rule=rule, text=text[:200]):
                status, output, errors = self.lint(text)
                self.assertEqual((status, errors), (1, ""))
                self.assertRegex(output, rf"^board\.net:{line or 1}(:\d+)?: error: {rule}\b")

    def test_deep(self) -> None:
        """`Deep`, with its 66 names, and `Length`."""
        way = " -> ".join(f"a@{n:#x}" for n in range(66))
        output = (
            f"board.net:2:1: error: Deep {way}: an address can be followed for 65 steps\n"
            "board.net:3:1: note: a@0x0 goes to a@0x1: a maps 0x0-0xff to a at 0x1\n"
        )
        self.assertEqual(self.messages("b is;\na is map [0x200 to b,\n0x0-0xff to a at 0x1];\n"), (1, output, ""))
        output = "board.net:1: error: Length: a description has at most 4,194,304 bytes\n"
        self.assertEqual(self.lint(" " * 4194305), (1, output, ""))

    def test_long_lines(self) -> None:
        """Of a line that is long the part around the column is shown."""
        text = "a is; " * 2000 + "\tb is\x07; " + "c is; " * 2000
        _, output, _ = self.lint(text)
        lines = output.splitlines()
        self.assertEqual(lines[0], "board.net:1:12006: error: Token: the byte 0x07 begins no token")
        self.assertEqual((len(lines[1]), lines[1][lines[2].index("^")]), (104, "?"))


class TestWarnings(LintCase):
    """Descriptions that are taken."""

    def test_table(self) -> None:
        """Each case of the table of warnings; the refusals of grants and routes that it meets are those of the
        language's page."""
        met = set()
        for title, text, output in cases("lint_warnings.table"):
            with self.subTest(title=title):
                wanted = output.replace("none\n", "")
                self.assertEqual(self.messages(text), (0, wanted, ""))
                self.assertEqual(self.messages(text, "--strict"), (int(bool(wanted)), wanted, ""))
            met |= set(re.findall(r": warning: \S+ \S+: (\w+)", output))
        rules = set(re.findall(r"^\| `[br]1 refused: (\w+)", (TOP / "docs/language.md").read_text(), re.M))
        self.assertEqual(len(rules), 7)
        self.assertEqual(sorted(rules - met - {"BookFull"}), [])

    def test_very_many(self) -> None:
        """Of very many warnings the first 500 are shown, in the order of the text, and how many follow."""
        text = "a is;\nagent b is;\nbegin;\n" + "grant g a a 0 1;\nview c;\n" * 400
        status, output, _ = self.messages(text)
        lines = [line for line in output.splitlines() if ": warning: " in line]
        self.assertEqual(
            (status, len(lines), lines[-1]),
            (0, 501, "board.net:804: warning: 300 more commands have a warning"),
        )
        self.assertEqual([int(line.split(":")[1]) for line in lines[:500]], list(range(4, 504)))

    def test_long_statements(self) -> None:
        """Of a statement of very many tokens the place of its first word is shown, and what the program says of it."""
        long = "+0" * 60000
        text = f"a is;\nbegin;\ngrant g a a 0 1{long};\nview b;\nresolve b 0{long};\n"
        status, output, errors = self.messages(text)
        self.assertEqual((status, errors), (0, ""))
        self.assertEqual(re.findall(r"^(board.*?): warning: (\w+ \w+)", output, re.M),
                         [("board.net:3:1", "grant g"), ("board.net:4:6", "view b"), ("board.net:5:1", "resolve b")])
        output = "board.net:2:1: error: Unknown: a variable, module, kind or node that is referred to does not exist\n"
        self.assertEqual(self.messages(f"a is;\nb is accept [0{long}+c];\n"), (1, output.replace(":2:1:", ":2:"), ""))

    def test_constants(self) -> None:
        """A description with constants is checked as netconf-run runs it, and its places are those of the file."""
        text = "//! let R = 4K\na is accept [R size R]; begin;\nresolve a R; resolve b R;\n"
        self.assertEqual(
            self.messages(text),
            (
                0,
                "board.net:3:22: warning: resolve b: there is no node `b`; did you mean `a`?\n".replace(
                    "; did you mean `a`?", ""
                ),
                "",
            ),
        )
        self.assertEqual(
            self.messages(text, "--set", "R=0-1")[::2],
            (2, "netconf-lint: --set R=0-1: unexpected `-` in the value of a constant\n"),
        )
        self.assertEqual(
            self.messages("//! let R = \na is;\n"),
            (1, "board.net:1:13: error: let: unexpected the end of the line in the value of a constant\n", ""),
        )


class TestImages(LintCase):
    """Images of tables."""

    def lint_image(self, image: bytes, text: str = BOARD) -> tuple[int, str, str]:
        """The status, the output without lines of source, and the errors over a description and an image."""
        pathlib.Path(self.folder, "board.net").write_bytes(text.encode("latin-1"))
        pathlib.Path(self.folder, "tables").write_bytes(image)
        status, output, errors = outcome(LINT, "--audit", "board.net", "tables", folder=self.folder)
        return status, SOURCE.sub("", output), errors

    def test_warnings(self) -> None:
        """Why a record is shut out, and what is shared by records; a core that sees all is not named."""
        self.assertEqual(self.lint_image(IMAGE), (0, SHUT + SHARED, ""))
        self.assertEqual(
            self.lint_image(b"DNIM\2\0\0\0", "m is accept [0x0]; agent a is over m; agent b is over m;"), (0, "", "")
        )

    def test_version_1(self) -> None:
        """An image of version 1 has no record for one access alone."""
        shut = SHUT.splitlines(keepends=True)
        ones = [
            f"board.net:6:1: warning: mmu slot {slot}: malformed record: {WORDS[slot]:#x}: {OF_VERSION_1}\n"
            for slot in (1, 7)
        ]
        last = f"board.net:8:1: warning: irt slot 1: malformed record: 0x20 0x21: {OF_VERSION_1}\n"
        wanted = "".join([ones[0], *shut[:4], ones[1], shut[4], last, SHARED_BY_VERSION_1])
        self.assertEqual(self.lint_image(image_of_board(1)), (0, wanted, ""))

    def test_output_of_run(self) -> None:
        """The dump of an output of `netconf run` is taken."""
        text = (EXAMPLES / "dma_buffers.net").read_text()
        answers = outcome(os.environ["NETCONF"], "run", text=text)[1]
        self.assertEqual(self.lint_image(answers.encode(), text), (0, "", ""))

    def test_refused(self) -> None:
        """Images that are refused, with what the description says of them."""
        for what, (data, wanted) in REFUSED_IMAGES.items():
            with self.subTest(what=what):
                self.assertEqual(self.lint_image(data), (1, f"tables:1: error: {wanted}", ""))

    def test_what_cannot_be_audited(self) -> None:
        """A description that is refused or has a byte 0x00, an image that is missing, and a dump that is none."""
        output = (
            "board.net:2:1: error: Duplicate: `a` is already declared\nboard.net:1:1: note: a is declared here first\n"
        )
        self.assertEqual(self.lint_image(IMAGE, "a is;\na is;\n"), (1, output, ""))
        wanted = (2, "", "netconf-lint: board.net:9:4: there is a byte 0x00, which ends the description of an audit\n")
        self.assertEqual(self.lint_image(IMAGE, BOARD + "// \0"), wanted)
        self.assertEqual(outcome(LINT, "--audit", "board.net", "none", folder=self.folder), wanted)
        wanted = (2, "", "netconf-lint: tables: the dump of line 1 has a line that is not hexadecimal\n")
        self.assertEqual(self.lint_image(b"dump bytes 9\nzz\n"), wanted)
        wanted = (2, "", "netconf-lint: none: No such file or directory\n")
        self.assertEqual(outcome(LINT, "--audit", "board.net", "none", folder=self.folder), wanted)
        for words in (["--audit", "board.net"], ["--audit", "board.net", "tables", "tables"]):
            self.assertEqual(outcome(LINT, *words, folder=self.folder)[0], 2)


class TestStatuses(LintCase):
    """Files that cannot be read, and a program that is missing or fails."""

    def test_taken(self) -> None:
        """A description that is taken."""
        self.assertEqual(self.lint("a is; // \xe9\n"), (0, "", ""))
        self.assertEqual(self.lint("a is; // \xe9\n", "--strict"), (0, "", ""))

    def test_standard_input(self) -> None:
        """Standard input."""
        source = "  a is;\n  ^\n"
        note = f"-:1:1: note: a is declared here first\n{source}"
        output = f"-:2:1: error: Duplicate: `a` is already declared\n{source}{note}"
        self.assertEqual(outcome(LINT, "-", text="a is;\na is;\n")[:2], (1, output))

    def test_missing_files(self) -> None:
        """A file that is missing, and the files round it."""
        self.lint("a is;\n")
        wanted = (2, "", "netconf-lint: none.net: No such file or directory\n")
        self.assertEqual(outcome(LINT, "none.net", "board.net", folder=self.folder), wanted)
        pathlib.Path(self.folder, "twice.net").write_text("a is;\na is;\n")
        status, output, errors = outcome(LINT, "twice.net", "none.net", "twice.net", folder=self.folder)
        self.assertEqual((status, output.count("error"), errors.count("\n")), (2, 2, 1))
        self.assertEqual(outcome(LINT)[0], 2)

    def test_program(self) -> None:
        """A program that is missing, and one that fails."""
        self.lint("a is;\n")
        status, output, errors = outcome(
            LINT, "board.net", folder=self.folder, NETCONF=os.path.join(self.folder, "none")
        )
        self.assertEqual((status, output, errors.count("\n")), (2, "", 1))
        wanted = (
            2,
            "",
            "netconf-lint: netconf check ended with status 1: it does not know these words\n",
        )
        self.assertEqual(outcome(LINT, "board.net", folder=self.folder, NETCONF="false"), wanted)


if __name__ == "__main__":
    unittest.main()
