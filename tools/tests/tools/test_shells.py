"""Completion of names in bash, and the completion of zsh and of fish: what is offered after words."""

import os
import unittest

from tests.case import TOOLS, Case, outcome
from tests.tools.test_completion import ASK, COMPLETION

BOARD = "dram is accept [0x0-0xfff];\nagent card is over dram;\nagent core is over dram;\n"

CASES = {
    "netconf ": ["audit", "check", "demo", "run"],
    "netconf-lint --s": ["--sarif", "--set", "--strict"],
    "netconf-query ": ["diff", "report", "test", "where", "who"],
    "netconf-query who board.net ": ["card", "core", "dram"],
    "netconf-query where board.net ": ["card", "core"],
    "netconf-query where board.net card d": ["dram"],
}
"""Command lines, and what is offered at their ends."""

ZSH = r"""
compadd() { print -rl -- ${@:#--} }
_files() { }
ask() { source "$file" }
file=$1
shift
words=("$@")
CURRENT=$#
service=$1
ask
"""
"""Has the function for zsh complete words, with a stand-in for what takes its offers."""


class TestShells(Case):
    """What is offered."""

    def setUp(self) -> None:
        """Writes a board, and puts the tools on the path."""
        (self.folder / "board.net").write_text(BOARD)
        self.path = f"{TOOLS}:{os.environ['PATH']}"

    def test_bash(self) -> None:
        """What bash offers: names of nodes and of agents, of the description among the words."""
        cases = {line: wanted for line, wanted in CASES.items() if "board.net" in line} | {
            "netconf-draw --agent c board.net": ["card", "core"],
            "netconf-draw board.net --compare card co": ["core"],
        }
        for line, wanted in cases.items():
            words = line.split(" ")
            if line.endswith(" board.net"):
                # The word that is completed stands last for the test.
                words = [words[0], words[3], *words[1:3]]
            with self.subTest(line):
                seen = outcome("bash", "-c", ASK, "ask", COMPLETION, *words, folder=self.folder, PATH=self.path)
                self.assertEqual((seen[0], seen[1].split(), seen[2]), (0, wanted, ""))

    def test_fish(self) -> None:
        """What fish offers."""
        self.need("fish", "fish")
        for line, wanted in CASES.items():
            with self.subTest(line):
                script = f"source {TOOLS}/completion/netconf.fish; complete -C '{line}'"
                status, output, errors = outcome(
                    "fish", "--no-config", "-c", script, folder=self.folder, PATH=self.path, HOME=str(self.folder)
                )
                self.assertEqual(
                    (status, sorted(word.split("\t")[0] for word in output.splitlines()), errors), (0, wanted, "")
                )

    def test_zsh(self) -> None:
        """What zsh offers, and that the file is one that zsh takes for the completion of each tool."""
        self.need("zsh", "zsh")
        path = TOOLS / "completion/_netconf"
        self.assertEqual(
            path.read_text().splitlines()[0].split(),
            ["#compdef", "netconf", *sorted(tool.name for tool in TOOLS.glob("netconf-*"))],
        )
        for line, wanted in CASES.items():
            with self.subTest(line):
                words = line.split(" ")
                status, output, errors = outcome(
                    "zsh", "-f", "-c", ZSH, "ask", path, *words, folder=self.folder, PATH=self.path
                )
                offered = sorted(word for word in output.split() if word.startswith(words[-1]))
                self.assertEqual((status, offered, errors), (0, wanted, ""))


if __name__ == "__main__":
    unittest.main()
