"""docs/machine.md: its commands are run in their order, its code is compiled, and what it says comes of them is seen;
and what other pages show of netconf-layout and netconf-dump2bin."""

import os
import pathlib
import re
import shutil
import subprocess

from tests.case import TOOLS, TOP, Case, found, outcome
from tests.loader.builds import LOADER, WARNINGS, built

PAGE = TOP / "docs/machine.md"


def blocks(word: str) -> list[str]:
    """The blocks of the page that are written in a language."""
    steps = PAGE.read_text().split("## Ten steps for an Arm board")[0]
    return re.findall(rf"^```{word}\n(.*?)^```", steps, re.S | re.M)


def has_machine() -> bool:
    """Whether the trial can be run here."""
    return shutil.which("qemu-system-x86_64") is not None and shutil.which("gcc") is not None


def run_block(folder: pathlib.Path, text: str) -> tuple[int, str]:
    """What the commands of a block print, with what they say of errors; and whether each succeeded."""
    done = subprocess.run(["bash", "-e", "-c", 'netconf=$NETCONF\n' + text], capture_output=True, text=True, cwd=folder,
                          check=False)
    return done.returncode, done.stdout + done.stderr


class TestPage(Case):
    """The page on a machine: its commands run, its code compiles, and what it shows is what is printed."""

    def test_shown(self) -> None:
        """What docs/tools.md and the manual pages show of netconf-layout and netconf-dump2bin is what they print."""
        page = (TOP / "docs/tools.md").read_text()
        wanted = found(r"^\$ tools/netconf-layout (\S+)\n(.*?)^```", page, re.S | re.M)
        self.assertEqual(outcome(TOOLS / "netconf-layout", wanted[1]), (0, wanted[2], ""),
                         "docs/tools.md: what netconf-layout prints")
        wanted = found(r"^\$ \S+ run < (\S+) \| tools/netconf-dump2bin > tables.bin\n\$ "
                       r"tools/netconf-dump2bin --changes tables.bin\n(.*?)^```",
                       page, re.S | re.M)
        answers = outcome(os.environ["NETCONF"], "run", text=(TOP / wanted[1]).read_text())[1]
        self.assertEqual(outcome(TOOLS / "netconf-dump2bin", "--changes", text=answers), (0, wanted[2], ""),
                         "docs/tools.md: what netconf-dump2bin prints")
        manual = (TOP / "docs/netconf-layout.1").read_text()
        text, shown = found(r"^\$ cat card.net\n(.*?)^\$ netconf-layout card.net\n(.*?)^\.Ed", manual,
                            re.S | re.M).groups()
        (self.folder / "card.net").write_text(text)
        self.assertEqual(outcome(TOOLS / "netconf-layout", self.folder / "card.net"), (0, shown, ""),
                         "what netconf-layout prints")

    def link_tree(self) -> None:
        """Makes the folders of the tree to be seen in the folder of the test."""
        for name in ("tools", "docs", "examples"):
            (self.folder / name).symlink_to(TOP / name)

    def test_commands(self) -> None:
        """The commands of the page run, and print what it says."""
        self.link_tree()
        commands = blocks("sh")
        self.assertEqual(len(commands), 6, "how many blocks of commands it has")
        printed = []
        for text in commands:
            if "tools/machine/run" not in text or has_machine():
                status, output = run_block(self.folder, text)
                self.assertEqual(status, 0, f"its commands run:\n{text}{output}")
                printed += output.splitlines()
        said = re.findall(r"`(nic_log at \w+|dump 1: nic writes [^`]+)`", PAGE.read_text())
        self.assertEqual(len(said), 2, "what it says of the second buffer")
        self.assertIn(said[0], printed)
        if not has_machine():
            self.skipTest("the last commands of docs/machine.md: QEMU or gcc is missing; tools/install-needs installs "
                          "them")
        self.assertIn(said[1], printed)

    def test_statements(self) -> None:
        """The statements that the page shows are those of the description."""
        description = (TOP / "tools/machine/q35.net").read_text()
        self.assertIn(next(block for block in PAGE.read_text().split("```\n") if block.startswith("agent nic")),
                      description)

    def test_code(self) -> None:
        """The code of the page compiles."""
        self.link_tree()
        for text in blocks("sh"):
            run_block(self.folder, text)
            if "netconf-layout --c" in text:
                break
        for compiler in ("gcc", "clang"):
            with self.subTest(compiler):
                self.need(compiler, compiler)
                source = self.folder / "page.c"
                source.write_text("".join(blocks("c")))
                options = [option for option in WARNINGS if option not in ("-Wshadow", "-Wconversion")]
                command = [compiler, "-std=c99", *options, f"-I{self.folder}", f"-I{LOADER}", "-c", source, "-o",
                           os.devnull]
                self.assertEqual(built(command), "")
