"""The TextMate grammar, which Visual Studio Code and others read: its words and the scopes of the parts of a text."""

import json
import re
import unittest
from collections.abc import Iterator

from netconf_tools.grammar import RESERVED
from tests.case import TOOLS, Case

GRAMMAR = json.loads((TOOLS / "textmate/netconf.tmLanguage.json").read_text())

TEXT = """agent a is map [0x0-4K to b at 0y1]; //@ pci
begin; //! never a b
grant read a b 1*2 1 for write; gather a x b 0 1; // all
"""

SCOPES = [
    ("agent", "keyword.declaration"),
    ("is", "keyword.other"),
    ("map", "keyword.other"),
    ("0x0", "constant.numeric"),
    ("4K", "constant.numeric"),
    ("to", "keyword.other"),
    ("at", "keyword.other"),
    ("0y1", "invalid.illegal.number"),
    ("//@ pci", "comment.line.double-slash.note"),
    ("begin", "keyword.declaration"),
    ("//! never a b", "comment.line.double-slash.claim"),
    ("grant", "support.function"),
    ("1", "constant.numeric"),
    ("*", "keyword.operator"),
    ("2", "constant.numeric"),
    ("1", "constant.numeric"),
    ("for", "keyword.declaration"),
    ("write", "keyword.other.access"),
    ("gather", "support.function"),
    ("0", "constant.numeric"),
    ("1", "constant.numeric"),
    ("// all", "comment.line.double-slash"),
]
"""The parts of the text that have a scope, in order, each with its scope."""


def rules(patterns: list[dict[str, str]]) -> Iterator[tuple[str, re.Pattern[str]]]:
    """The scope and the form of each rule, in order."""
    for pattern in patterns:
        if "include" in pattern:
            part = GRAMMAR["repository"][pattern["include"].removeprefix("#")]
            yield from rules(part.get("patterns", [part]))
        else:
            yield pattern["name"].removesuffix(".netconf"), re.compile(pattern["match"], re.A)


def scoped(line: str) -> Iterator[tuple[str, str]]:
    """The parts of a line with a scope: at each place the first rule that fits there."""
    at, known = 0, list(rules(GRAMMAR["patterns"]))
    while at < len(line):
        hits = [
            (hit.start(), number, hit[0], name)
            for number, (name, form) in enumerate(known)
            for hit in [form.search(line, at)]
            if hit and hit[0]
        ]
        if not hits:
            return
        begin, _, part, name = min(hits)
        yield part.strip(), name
        at = begin + len(part)


class TestGrammar(Case):
    """The grammar."""

    def test_words(self) -> None:
        """The words of the grammar are the reserved ones, and those of commands and accesses that are not reserved."""
        words = {
            word
            for _, form in rules(GRAMMAR["patterns"])
            for group in re.findall(r"\(\?:([a-z|]+)\)", form.pattern)
            for word in group.split("|")
        }
        self.assertEqual(words, RESERVED | {"radix", "gather", "read", "write"})

    def test_scopes(self) -> None:
        """Each part of a text has its scope."""
        self.assertEqual([pair for line in TEXT.splitlines() for pair in scoped(line)], SCOPES)


if __name__ == "__main__":
    unittest.main()
