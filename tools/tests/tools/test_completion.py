"""The completion of bash: sourced in a shell, and asked for the words that it would offer."""

import re

from tests.case import TOOLS, Case, outcome

ASK = r"""
source "$1"
shift
COMP_WORDS=("$@")
COMP_CWORD=$(($# - 1))
words=($(complete -p "$1"))
"${words[2]}" "$1" "${COMP_WORDS[COMP_CWORD]}" "${COMP_WORDS[COMP_CWORD - 1]}"
printf '%s\n' "${COMPREPLY[@]}" | sort
"""
COMPLETION = TOOLS / "completion/netconf"
IMPORT = ["--acpi", "--agent", "--cores", "--dma", "--explain", "--function", "--grant", "--help", "--interrupts",
          "--iomem", "--master", "--memory", "--mtree", "--only", "--pci", "--shared-tables", "--slots", "--strict",
          "--this-machine", "--version", "--views"]
CASES = [
    (["netconf", ""], ["audit", "check", "demo", "run"]),
    (["netconf", "a"], ["audit"]),
    (["netconf", "r"], ["run"]),
    (["netconf", "x"], []),
    (["netconf", "run", ""], []),
    (["netconf", "demo", ""], []),
    (["netconf", "run", "<", ""], ["boards", "four.net"]),
    (["netconf", "run", "<", "fo"], ["four.net"]),
    (["netconf", "run", "<", "four.net", ">", "o"], ["old.txt"]),
    (["netconf-draw", "-"], ["--agent", "--audit", "--by-records", "--compare", "--diff", "--help", "--maps", "--svg",
                             "--version",
                             "--views", "--write"]),
    (["netconf-draw", "--vi"], ["--views"]),
    (["netconf-draw", "--agent", ""], []),
    (["netconf-draw", "--svg", ""], ["boards", "four.net"]),
    (["netconf-draw", "--svg", "four.net", ">", ""], ["board.claims", "board.dtb", "board.dts", "boards", "four.net",
                                                      "old.txt"]),
    (["netconf-lint", "--"], ["--audit", "--help", "--json", "--junit", "--sarif", "--set", "--strict", "--version"]),
    (["netconf-run", "--"],
     ["--audit", "--check", "--demo", "--expand", "--help", "--keep-going", "--set", "--version"]),
    (["netconf-run", "--audit", "o"], ["old.txt"]),
    (["netconf-run", "--audit", "old.txt", ""], ["boards", "four.net"]),
    (["netconf-run", "--set", ""], []),
    (["netconf-run", "--demo", ""], []),
    (["netconf-run", "four.net", "f"], ["four.net"]),
    (["netconf-lint", "--audit", "four.net", "b"], ["board.claims", "board.dtb", "board.dts", "boards"]),
    (["netconf-draw", "--audit", "four.net", "o"], ["old.txt"]),
    (["netconf-lint", "four.net", ""], ["boards", "four.net"]),
    (["netconf-export", "--c"], ["--c", "--changes", "--config", "--context-bytes"]),
    (["netconf-export", "--format", "s"], ["smmuv3-s1", "smmuv3-s2"]),
    (["netconf-export", "--at", ""], []),
    (["netconf-export", "--pages", ""], ["boards", "four.net"]),
    (["netconf-layout", "-"], ["--c", "--help", "--json", "--prefix", "--version"]),
    (["netconf-layout", "--c", "--prefix", ""], []),
    (["netconf-layout", "--c", ""], ["boards", "four.net"]),
    (["netconf-dump2bin", "--changes", "o"], ["old.txt"]),
    (["netconf-dump2bin", "--output", "o"], ["old.txt"]),
    (["netconf-dump2bin", "--dump", ""], []),
    (["netconf-dump2bin", "--tree", ""], []),
    (["netconf-import", "-"], IMPORT),
    (["netconf-import", "--only", "/soc"], []),
    (["netconf-import", "--views", "b"], ["board.dtb", "board.dts", "boards"]),
    (["netconf-query", ""], ["--help", "--version", "diff", "report", "test", "where", "who"]),
    (["netconf-query", "wh"], ["where", "who"]),
    (["netconf-query", "who", ""], ["boards", "four.net"]),
    (["netconf-query", "who", "--json", "f"], ["four.net"]),
    (["netconf-query", "who", "four.net", ""], []),
    (["netconf-query", "who", "four.net", "dram", "0", "for", ""], ["read", "write"]),
    (["netconf-query", "diff", "four.net", ""], ["boards", "four.net"]),
    (["netconf-query", "diff", "four.net", "four.net", ""], []),
    (["netconf-query", "test", "four.net", ""], ["board.claims", "boards", "four.net"]),
    (["netconf-query", "test", "-"], ["--help", "--image", "--json", "--junit", "--sarif", "--set", "--strict"]),
    (["netconf-query", "report", "-"], ["--help", "--html", "--image", "--markdown", "--set", "--strict", "--title"]),
    (["netconf-query", "report", "--title", "x", ""], ["board.claims", "boards", "four.net"]),
    (["netconf-query", "diff", "-"], ["--help", "--image", "--json", "--old-image", "--set"]),
    (["netconf-query", "who", "--i"], ["--image"]),
    (["netconf-query", "who", "--image", "o"], ["old.txt"]),
    (["netconf-query", "who", "--image", "old.txt", ""], ["boards", "four.net"]),
]
"""The words of a command line, the last one being completed, and what is offered."""


class TestCompletion(Case):
    """What is offered after words, and that the options are those of each tool's help."""

    def test_words(self) -> None:
        """What is offered after words is what may come there."""
        for name in ("four.net", "old.txt", "board.dtb", "board.dts", "board.claims"):
            (self.folder / name).touch()
        (self.folder / "boards").mkdir()
        for words, wanted in CASES:
            with self.subTest(" ".join(words)):
                status, output, errors = outcome("bash", "-c", ASK, "ask", COMPLETION, *words, folder=self.folder)
                self.assertEqual((status, output.split(), errors), (0, wanted, ""))

    def test_options(self) -> None:
        """The options that are offered for a tool are those of its help."""
        for tool in ("draw", "lint", "layout", "dump2bin", "lsp", "run"):
            with self.subTest(tool):
                ask = f'source "$1"; declare -f _netconf_{tool}'
                options = outcome("bash", "-c", ask, "ask", COMPLETION)[1]
                help_text = outcome(TOOLS / f"netconf-{tool}", "--help")[1]
                words = options.replace("'", " ").split()
                offered = {word for word in words if re.fullmatch("--[a-z0-9-]+", word)}
                named = {word for word in re.sub(r"[][,;]", " ", help_text).split() if word.startswith("--")}
                self.assertEqual(sorted(offered), sorted(named))
