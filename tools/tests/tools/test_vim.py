"""The files of the editor vim: their keywords are those of the language, and vim colours a description by them."""

import pathlib
import re

from tests.case import TOOLS, TOP, Case, found, outcome

TEXT = """// 0x10 words
agent cpu[3].core is accept [0x1F-007] map [0x8 to node_b at i*2] over bus;
resolve a 0xg;
view read for write;
dump; radix smmu 0x10; radix is over radix;
gather nic p m 1 2; gather is over gather; gather.x is;
"""
PLACES = {(1, 4): "netconfComment", (2, 1): "netconfDeclaration", (2, 7): "netconfIndexed", (2, 11): "netconfNumber",
          (2, 20): "netconfPart", (2, 31): "netconfNumber", (2, 36): "netconfNumber", (2, 53): "",
          (2, 63): "netconfOperator",
          (3, 1): "netconfCommand", (3, 9): "", (3, 11): "netconfBadNumber", (4, 6): "", (4, 11): "netconfDeclaration",
          (4, 15): "netconfAccess",
          (5, 7): "netconfCommand", (5, 13): "", (5, 18): "netconfNumber", (5, 24): "", (5, 38): "",
          (6, 1): "netconfCommand", (6, 8): "", (6, 16): "netconfNumber", (6, 21): "", (6, 36): "", (6, 44): ""}
"""Lines and columns of the text, and the group by which each is coloured."""


def keywords() -> tuple[list[str], list[str], list[str]]:
    """The keywords in the syntax file, in the language's page, and in the source of the program."""
    syntax = (TOOLS / "vim/syntax/netconf.vim").read_text()
    lines = re.findall(r"^syntax keyword netconf(?:Declaration|Part|Sort|Command) (.*)$", syntax, re.M)
    page = (TOP / "docs/language.md").read_text()
    reserved = found(r"^These words are reserved, and no node, .* has such a name: (.*)$", page, re.M)[1]
    source = (TOP / "crates/dn_token/src/keyword.rt").read_text()
    of_source = re.findall(r'^\s*"(\w+)" =>', source, re.M)
    return sorted(" ".join(lines).split()), sorted(re.findall(r"`(\w+)`", reserved)), sorted(of_source)


def places(folder: pathlib.Path) -> list[str]:
    """The groups that vim gives to the places of the text, and the type and settings of the file."""
    path, seen = pathlib.Path(folder, "board.net"), pathlib.Path(folder, "seen")
    path.write_text(TEXT)
    lines = ["let seen = [&filetype, &commentstring, &makeprg]"]
    lines += [f"call add(seen, synIDattr(synID({line}, {column}, 1), 'name'))" for line, column in PLACES]
    script = pathlib.Path(folder, "ask.vim")
    script.write_text(f"set nocompatible\nset runtimepath^={TOOLS}/vim\nfiletype plugin on\nsyntax on\nedit {path}\n"
                      + "\n".join(lines) + f"\ncall writefile(seen, '{seen}')\nqall!\n")
    outcome("vim", "-e", "-s", "-n", "-N", "-u", "NONE", "-i", "NONE", "-S", script)
    return seen.read_text().split("\n")[:-1] if seen.exists() else []


def errors_of_lint(folder: pathlib.Path, text: str) -> list[str]:
    """What vim lists behind `:make` over a description, as file:line:column:text."""
    path, seen = pathlib.Path(folder, "twice.net"), pathlib.Path(folder, "errors")
    path.write_text(text)
    script = pathlib.Path(folder, "make.vim")
    script.write_text(f"set nocompatible\nset runtimepath^={TOOLS}/vim\nfiletype plugin on\ncd {folder}\nedit "
                      f"twice.net\nlet $PATH = '{TOOLS}:' . $PATH\nsilent make!\n"
                      "let seen = map(getqflist(), {_, e -> join([bufname(e.bufnr), e.lnum, e.col, e.text], ':')})\n"
                      f"call writefile(seen, '{seen}')\nqall!\n")
    outcome("vim", "-e", "-s", "-n", "-N", "-u", "NONE", "-i", "NONE", "-S", script)
    return seen.read_text().split("\n")[:-1] if seen.exists() else []


class TestVim(Case):
    """The files for vim."""

    def test_keywords(self) -> None:
        """The keywords of the syntax file are those of the language's page and of the program's source."""
        syntax, page, source = keywords()
        self.assertEqual(syntax, page)
        self.assertEqual(syntax, source)

    def test_places(self) -> None:
        """The type of a file, and the groups of its places."""
        self.need("vim", "vim")
        wanted = ["netconf", "// %s", "netconf-lint %:S", *PLACES.values()]
        self.assertEqual(places(self.folder), wanted)

    def test_make(self) -> None:
        """What `:make` lists of a refusal, and of a grant that is refused."""
        self.need("vim", "vim")
        wanted = ["twice.net:2:1:Duplicate: `a` is already declared", "twice.net:1:1:a is declared here first"]
        self.assertEqual(errors_of_lint(self.folder, "a is;\na is;\n"), wanted)
        wanted = ["twice.net:3:9:grant b: NoAgent: `a` is not an agent", "twice.net:1:1:a is declared here"]
        self.assertEqual(errors_of_lint(self.folder, "a is;\nbegin;\ngrant b a a 0 1;\n"), wanted)
