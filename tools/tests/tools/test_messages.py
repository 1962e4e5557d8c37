"""What the tools report of refused texts: it never contradicts the program, and what is expected is exactly what may
stand there."""

import concurrent.futures
import os
import random
import re
import subprocess
import unittest
from collections.abc import Iterator

from netconf_tools.expand import Description, described
from netconf_tools.faults import fault_on
from netconf_tools.grammar import ANY_WORD, NAME, NUMBER, RESERVED, Reader, Source, Unexpected
from netconf_tools.messages import explained, fault_of
from netconf_tools.text import Refusal, program, refusal_of
from tests.case import EXAMPLES, TOP

TEXTS = 600
"""How many mutated texts are tried."""

SIGNS = (";", ",", "[", "]", "(", ")", "-", "+", "*", ".", "..")
VOCABULARY = (*SIGNS, *sorted(RESERVED), "word", "7", "read", "write", "radix", "gather")
OTHERS = 6
"""How many tokens that are not expected are tried at each place."""

LINED = ("Token", "Statement", "Block", "Nesting", "Duplicate", "Unknown", "Arguments", "Value", "TooMany")
"""The rules that the program prints with a line."""

STATEMENTS = (
    "dram is accept [ 0x0 - 0x3fff , 7 ] map [ 0x8000 to b [ 1 ] and c . d at ( 7 - 1 ) * 2 + 1 ] over bus ;",
    "agent core0 is over bus ;",
    "vectors cpu is accept [ 0x20 ] ;",
    "unit u kind pages page 12 slots 4 reach 32 to a , b . c ;",
    "module m ( num x , node y ) ;",
    "module n ( ) ;",
    "use m ( 7 , node a ) as c [ 1 ] ;",
    "for i in 0 .. 7 ;",
    "end ;",
    "begin ;",
    "radix is ;",
    "gather . x is ;",
)
COMMANDS = (
    "resolve a 0x10 for read ;",
    "view a ;",
    "grant g a b 0x1000 0x1000 for write ;",
    "gather a g b 0 1 and h c 2 3 for read ;",
    "route r a 0 v ;",
    "revoke r ;",
    "dump ;",
    "radix u 4 ;",
    "absorb a ;",
)


def checked(text: str) -> Refusal | None:
    """The refusal of a text, or None."""
    done = subprocess.run([program(), "check"], input=text.encode("latin-1"), capture_output=True, check=False)
    return refusal_of(done.stdout.decode("latin-1")) if done.returncode == 4 else None


def description_of(text: str) -> Description:
    """A description of one file, as it stands: nothing in it is replaced."""
    return described([("board.net", text.encode("latin-1"))])


def samples() -> list[str]:
    """Texts of the examples and of the worked answers, which are short."""
    texts = [path.read_text("latin-1") for path in sorted(EXAMPLES.glob("*.net"))]
    for path in sorted((TOP / "answers").glob("*/*.txt")):
        head, mark, text = path.read_text("latin-1").partition("\n---\n")
        if mark and head.startswith("netconf run"):
            texts.append(text)
    return [text for text in texts if len(text) < 3000 and "//!" not in text]


class Mutator:
    """Makes texts with one to three tokens that are left out, put in, replaced or swapped."""

    def __init__(self, seed: int) -> None:
        self.random = random.Random(seed)
        self.samples = samples()
        self.words = (
            *VOCABULARY,
            "0x",
            "0x1g",
            "/",
            "//\n",
            "18446744073709551616",
            "\xef\xbb\xbf",
            "300",
            "i",
            "a",
            "{",
        )

    def text(self) -> str:
        """The next text. In every second one each token stands on a line of its own, so that its line is its place."""
        tokens = re.findall(r"\w+|\s+|//[^\n]*|.", self.random.choice(self.samples), re.A | re.S) or [";"]
        for _ in range(self.random.choice((1, 1, 2, 3))):
            self.change(tokens)
        text = "".join(tokens)
        if self.random.random() < 0.5:
            return text
        return "\n".join(re.findall(r"//[^\n]*|\w+|\.\.|\S", text, re.A)) + self.random.choice(("", "\n"))

    def change(self, tokens: list[str]) -> None:
        """Changes one token."""
        at, other = self.random.randrange(len(tokens)), self.random.randrange(len(tokens))
        how = self.random.randrange(5)
        if how == 0 and len(tokens) > 1:
            del tokens[at]
        elif how == 1:
            tokens.insert(at, self.random.choice(self.words))
        elif how == 2:
            tokens[at], tokens[other] = tokens[other], tokens[at]
        elif how == 3:
            del tokens[max(at, 1):]
        else:
            tokens[at] = self.random.choice(self.words)


def expected_at(prefix: list[str]) -> set[str]:
    """The tokens of the vocabulary that the reader expects after some tokens."""
    try:
        Reader(Source("\n".join(prefix)), 0).statement()
    except Unexpected as wrong:
        found = set(wrong.expected)
        words = {word for word in VOCABULARY if word.isalpha() and word not in RESERVED}
        found |= words if NAME in found else set()
        found |= set(RESERVED) | words if ANY_WORD in found else set()
        return (found | {"7"} if NUMBER in found else found) & set(VOCABULARY)
    raise AssertionError(f"{prefix} is whole")


def places() -> Iterator[tuple[str, list[str]]]:
    """Each place of a statement: what stands before the statement, and its tokens up to there."""
    for before, statements in (("", STATEMENTS), ("begin;", COMMANDS)):
        for statement in statements:
            tokens = statement.split(" ")
            for count in range(len(tokens)):
                yield before, tokens[:count]


def is_allowed(before: str, prefix: list[str], token: str) -> bool:
    """Whether the program takes a token after others: it refuses the text at a later place, if at all."""
    refusal = checked("\n".join([before, *prefix, token, ""]))
    return refusal is None or (refusal.rule, refusal.line) != ("Statement", len(prefix) + 2)


class TestAgreement(unittest.TestCase):
    """The program decides, and the reader explains."""

    def test_mutated_texts(self) -> None:
        """Of each refusal the reader finds the rule and the line of the program, and of a text that is taken no
        fault."""
        mutator = Mutator(1)
        texts = [mutator.text() for _ in range(TEXTS)]
        with concurrent.futures.ThreadPoolExecutor(os.cpu_count()) as pool:
            refusals = list(pool.map(checked, texts))
        self.assertGreater(len({refusal.rule for refusal in refusals if refusal}), 9)
        for text, refusal in zip(texts, refusals):
            with self.subTest(text=text):
                self.explain(text, refusal)

    def explain(self, text: str, refusal: Refusal | None) -> None:
        """Compares what is explained with what the program says."""
        if refusal is None:
            source = Source(text)
            self.assertEqual(
                [
                    fault_on(source, rule, line)
                    for rule in ("Token", "Statement", "Block")
                    for line in range(1, source.last_line + 1)
                ],
                [None] * 3 * source.last_line,
            )
            return
        description = description_of(text)
        fault = fault_of(description, refusal)
        finding = explained(description, refusal)
        self.assertIn(refusal.rule, finding.message)
        self.assertLessEqual(finding.line, description.source.last_line)
        if refusal.rule in LINED:
            self.assertIsNotNone(fault)
        if refusal.rule in LINED and fault and fault.line_at is None:
            self.assertEqual(finding.line, refusal.line)

    def test_what_is_expected(self) -> None:
        """After each beginning of a statement the program takes each token that the reader expects, and no other
        that is tried."""
        chosen, tries = random.Random(2), []
        for before, prefix in places():
            expected = expected_at(prefix)
            if not prefix:
                expected -= {"end", "begin"}
            others = sorted(set(VOCABULARY) - expected - ({"end", "begin"} if not prefix else set()))
            tries += [
                (before, prefix, token, token in expected)
                for token in (*sorted(expected), *chosen.sample(others, min(OTHERS, len(others))))
            ]
        with concurrent.futures.ThreadPoolExecutor(os.cpu_count()) as pool:
            taken = list(pool.map(lambda one: is_allowed(*one[:3]), tries))
        wrong = [one for one, is_taken in zip(tries, taken) if one[3] != is_taken]
        self.assertEqual(wrong, [])


MESSAGES = {
    "a is accept 0x0;": "Statement: unexpected `0x0`, expected `[`",
    "view is accept [0x0];": "Statement: unexpected `is`, expected a name; `view` is a reserved word and names nothing",
    "a is over page;": "Statement: unexpected `page`, expected a name; `page` is a reserved word and names nothing",
    "a is acept [0x0];":
        "Statement: unexpected `acept`, expected `accept`, `map`, `over` or `;`; did you mean `accept`?",
    "a is accept [0x8-0x4-0x1];":
        "Statement: unexpected `-`, expected `,`, `]`, `*` or `+`; a difference stands in parentheses",
    "a is": "Statement: the text ends here, expected `accept`, `map`, `over` or `;`",
    ";": "Statement: unexpected `;`, expected a statement",
    "begin; resolve a 0x0 for x;": "Statement: unexpected `x`, expected `read` or `write`",
    "a is map [0 to b and b and b and b and b and b and b and b and b];":
        "Statement: unexpected `and`, expected `at`, `,`, `]`, `[` or `.`; at most 8 stand in this list",
    "unit u kind pages page 1 slot 2":
        "Statement: unexpected `slot`, expected `slots`, `*` or `+`; did you mean `slots`?",
    "a is; view a;": "Block: `view` is a command, and commands stand after `begin;`",
    "begin; a is;": "Block: after `begin` stand commands alone",
    "end;": "Block: `end` closes nothing: no `module` and no `for` is open",
    "for i in 0..1; begin;": "Block: `begin` stands in an open block: an `end;` is missing before it",
    "for i in 0..1;": "Block: the text ends, and a `for` has no `end;`",
    "\xef\xbb\xbfa is;": "Token: the text begins with a byte order mark: save it as UTF-8 without one",
    "\xff\xfea\0": "Token: the text is UTF-16: save it as UTF-8 without a byte order mark",
    "a is /* b */;": "Token: `/*` begins no comment: a comment runs from // to the end of its line",
    "a is accept [1 / 2];": "Token: a single `/`: a comment begins with //, and there is no division",
    "a is accept [4KB];": "Token: `4KB` is not a number: write 4K for netconf-run, or 0x1000",
    "a is accept [0X1F];": "Token: `0X1F` is not a number: the x is a small letter, write 0x1F",
    "a is accept [0x];": "Token: `0x` is not a number: the digits after 0x are missing",
    "a is accept [0x1g];": "Token: `0x1g` is not a number: `g` is not a hexadecimal digit",
    "a is accept [1_000];": "Token: `1_000` is not a number: a number has no _, write 1000",
    "a is accept [0x10UL];": "Token: `0x10UL` is not a number: a number has no suffix, write 0x10",
    "a is accept [8f];": "Token: `8f` is not a number: a hexadecimal number begins with 0x, write 0x8f",
    "a is accept [0b11];": "Token: `0b11` is not a number: a number is decimal or hexadecimal, write 0x3",
    "a is accept [0x10000000000000000];":
        "Token: `0x10000000000000000` is not a number: it is more than 0xffffffffffffffff",
    "a is accept [1 \xe2\x80\x93 2];": "Token: the character U+2013 (EN DASH) begins no token: write -",
    "a is accept [1\xc2\xa0];": "Token: the character U+00A0 (NO-BREAK SPACE) begins no token: write a blank",
    "a is \xff;": "Token: the byte 0xff begins no token, and is not UTF-8",
    "a is {": "Token: `{` begins no token: a list stands in [ ], and a block of statements ends with `end;`",
    "a is over bsu; bus is;": "Unknown: the node `bsu` does not exist; did you mean `bus`?",
    "a is accept [b]; b is;": "Unknown: `b` is neither a loop variable nor a number parameter",
    "b is; a is accept [b];": "Unknown: `b` is a node, and an expression has numbers and variables alone",
    "a is; begin; resolve a x;": "Unknown: `x` is not a number, and a command sees no variables",
    "for index in 0..1; a[idnex] is; end;":
        "Unknown: `idnex` is neither a loop variable nor a number parameter, the variables here are index; did "
        "you mean `index`?",
    "unit u kind page page 12 slots 1 reach 12 to u;":
        "Unknown: the kind `page` does not exist, the kinds are pages, remap, vectors, radix; did you mean `pages`?",
    "use m() as a; module m(); end;": "Unknown: the module `m` is declared later than it is used",
    "module core(); end; use cor() as a;": "Unknown: the module `cor` does not exist; did you mean `core`?",
    "b is; module m(); a is over b; end; use m() as c;":
        "Unknown: the node `c.b` does not exist; the `b` outside of the module is seen in its body as a node "
        "parameter alone",
    "module m(num x); end; use m() as a;": "Arguments: `m` has 1 parameter, and this use gives no arguments",
    "module m(node x); end; a is; use m(1) as b;": "Arguments: `x` is a node: write `node NAME`",
    "a is; a is;": "Duplicate: `a` is already declared",
    "module m(num x, node x); end;": "Duplicate: the parameter `x` is already declared",
    "for i in 0..1; a[i] is accept [(i - 1)]; end;": "Value: the difference of 0x0 and 0x1 is below 0, with i = 0x0",
    "a is accept [0xffffffffffffffff+1];": "Value: this sum is more than 0xffffffffffffffff",
    "a is; unit u kind pages page 300 slots 1 reach 32 to a;": "Value: `page` is 300 here, and at most 255",
    "for i in 0..1024; n[i] is; end;": "TooMany 1024: there are more than 1,024 nodes from `n[1024]` on",
}
"""Texts with the message on each."""


class TestMessages(unittest.TestCase):
    """The words of a message, each worked out by hand."""

    def test_messages(self) -> None:
        """Each text of the table is refused, with its message at a place of its own."""
        for text, wanted in MESSAGES.items():
            with self.subTest(text=text):
                refusal = checked(text)
                assert refusal is not None
                finding = explained(description_of(text), refusal)
                self.assertEqual(finding.message, wanted)
                self.assertGreater(finding.column, 0)

    def test_a_place_that_the_program_denies(self) -> None:
        """Where the reader does not find the rule in the line, the message has what the program says alone."""
        description = description_of("a is accept 0x0;\nb is;\n")
        for refusal in (
            Refusal(2, "Statement", ""),
            Refusal(1, "Block", ""),
            Refusal(2, "Unknown", ""),
            Refusal(1, "Later", "x"),
        ):
            finding = explained(description, refusal)
            self.assertEqual((finding.line, finding.column, finding.notes), (refusal.line, 0, ()))


if __name__ == "__main__":
    unittest.main()
