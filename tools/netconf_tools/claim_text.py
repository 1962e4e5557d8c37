"""Reads the text of a claim: its kind, its names, its addresses and its access.

    never AGENTS NODES ADDRESSES [for ACCESS]
    only AGENTS NODES ADDRESSES [for ACCESS]
    all AGENTS NODES ADDRESSES [for ACCESS]
    alone AGENTS NODES ADDRESSES [for ACCESS]
    never_ever AGENTS NODES ADDRESSES [whatever UNITS] [for ACCESS]
    disjoint AGENTS AGENTS [NODES [ADDRESSES]] [for ACCESS]
    same AGENTS AGENTS [for ACCESS]
    AGENTS NODE[@ADDRESS] at ADDRESS [for ACCESS]
    at AGENTS ADDRESS NODE ADDRESS [size] SIZE [for ACCESS]
    left_out PATH
    group NAME = NAMES {, NAMES}
    let WORD = EXPRESSION

AGENTS, NODES, UNITS and NAMES are a name, a pattern with `*`, or a group. ADDRESSES are one expression; the first and
the last address with a hyphen between them; or the first, `size` and how many there are. An expression has `+` and
`*`, and a difference in parentheses, as in a description. PATH is the rest of the line."""

import re
from collections.abc import Callable, Mapping
from typing import NamedTuple

from netconf_tools.limits import LAST_ADDRESS, LAST_NUMBER
from netconf_tools.views import ACCESSES

SPANS = ("never", "only", "all", "alone")
"""The claims on a span of a node, which have one form."""

KINDS = (*SPANS, "never_ever", "disjoint", "same", "at")
"""The words with which a claim begins. One that begins with none of them is AGENTS NODE at ADDRESS."""

MOST_OPEN = 32
"""How many parentheses may be open at once."""

SUFFIXES = {"": 1, "K": 1 << 10, "M": 1 << 20, "G": 1 << 30, "T": 1 << 40}
"""By how much a number is multiplied, by the letter after it."""

BLANKS = re.compile(r"[ \t\r]*")
NAME_PART = re.compile(r"[A-Za-z_*][A-Za-z0-9_*]*")
WORD = re.compile(r"[A-Za-z_][A-Za-z0-9_]*")
DIGITS = re.compile(r"[0-9][A-Za-z0-9_]*")
NUMBER = re.compile(r"(?P<digits>0x[0-9a-fA-F]{1,20}|[0-9]{1,24})(?P<suffix>[KMGT]?)")
OTHER = re.compile(r"[A-Za-z0-9_.\[\]*]+|\S")
"""What an error shows of a text that fits nothing: a run of letters and digits, or one sign."""


def fits(pattern: str, text: str) -> bool:
    """Whether a text is one of a pattern, in which each `*` stands for any letters or none."""
    first, *rest = pattern.split("*")
    if not rest:
        return text == first
    *middle, last = rest
    at, end = len(first), len(text) - len(last)
    if at > end or not text.startswith(first) or not text.endswith(last):
        return False
    for part in middle:
        found = text.find(part, at, end)
        if found < 0:
            return False
        at = found + len(part)
    return True


class Misread(Exception):
    """A text that is not a claim: at which column of the line, counted from 1, and how many letters are meant."""

    def __init__(self, column: int, message: str, width: int = 1) -> None:
        super().__init__(message)
        self.column, self.width = column, width


class Name(NamedTuple):
    """A name, a pattern or a group as it is written, with the values of its indices, and its column in the line.

    `is_own` says that a dot stands before it: it is a name of the module in which the claim stands."""
    text: str
    column: int
    is_own: bool = False

    @property
    def is_pattern(self) -> bool:
        """Whether it may stand for several names."""
        return "*" in self.text


class Span(NamedTuple):
    """Addresses from `first` to `last`, both included, and the column at which they stand."""
    first: int
    last: int
    column: int


class Group(NamedTuple):
    """A group that is defined: its name, and what it stands for."""
    name: Name
    members: tuple[Name, ...]


class Constant(NamedTuple):
    """A number that is given a word."""
    word: str
    value: int
    column: int


class LeftOut(NamedTuple):
    """A master that the description may leave out: its path, or a pattern of paths with `*`."""
    path: str


class Claim(NamedTuple):
    """A claim as it is written, with the values of its expressions.

    `others` are the second agents of `same` and `disjoint`, and the units after `whatever`. `span` has the addresses
    of the node. `address` is the address of the agent in the two claims with `at`."""
    kind: str
    agents: Name
    others: Name | None
    node: Name | None
    span: Span | None
    address: int | None
    accesses: tuple[str, ...]


class Reader:
    """Reads one line of a claim, of which `text` is the whole line and `at` the place at which the claim begins.

    `numbers` has the values of the words that stand for numbers; without it each word is taken for 0, so that only
    the form of a claim is looked at."""

    def __init__(self, text: str, at: int, numbers: Mapping[str, int] | None) -> None:
        self.text, self.at, self.numbers = text, at, numbers
        self.open = 0

    def skip(self) -> None:
        """Passes over blanks."""
        hit = BLANKS.match(self.text, self.at)
        self.at = hit.end() if hit else self.at

    def misread(self, expected: str) -> Misread:
        """The error for what stands here, where something else was expected."""
        self.skip()
        hit = OTHER.match(self.text, self.at)
        found = f"unexpected {hit.group()[:40]!r}" if hit else "the claim ends here"
        return Misread(self.at + 1, f"{found}, expected {expected}", len(hit.group()) if hit else 1)

    def peek(self, pattern: re.Pattern[str]) -> str:
        """What of a pattern stands after the blanks, or nothing."""
        self.skip()
        hit = pattern.match(self.text, self.at)
        return hit.group() if hit else ""

    def has(self, spelling: str) -> bool:
        """Takes a word or a sign if it stands here, and says whether it did."""
        is_here = self.peek(WORD) == spelling if spelling[0].isalpha() else self.peek(OTHER)[:1] == spelling
        if is_here:
            self.at += len(spelling)
        return is_here

    def want(self, spelling: str) -> None:
        """Takes a word or a sign, which has to stand here."""
        if not self.has(spelling):
            raise self.misread(repr(spelling))

    def is_done(self) -> bool:
        """Whether nothing follows."""
        self.skip()
        return self.at == len(self.text)

    def name(self, expected: str) -> Name:
        """A name, a pattern or a group."""
        self.skip()
        start = self.at
        is_own = self.text.startswith(".", self.at)
        self.at += is_own
        parts = []
        while True:
            hit = NAME_PART.match(self.text, self.at)
            if hit is None or hit.group() in ("for", "at"):
                raise self.misread(expected)
            self.at = hit.end()
            parts.append(hit.group() + self.index())
            if not self.text.startswith(".", self.at):
                return Name(".".join(parts), start + 1, is_own)
            self.at += 1

    def index(self) -> str:
        """The index that follows a word at once, or nothing."""
        if not self.text.startswith("[", self.at):
            return ""
        self.at += 1
        if self.text.startswith("*]", self.at):
            self.at += 2
            return "[*]"
        value = self.expression("an index")
        self.want("]")
        return f"[{value}]"

    def expression(self, expected: str) -> int:
        """The value of a sum of products."""
        self.skip()
        start, total = self.at, self.term(expected)
        while self.has("+"):
            total = self.bounded(total + self.term("a number"), start)
        return total

    def term(self, expected: str) -> int:
        """The value of a product."""
        self.skip()
        start, product = self.at, self.factor(expected)
        while self.has("*"):
            product = self.bounded(product * self.factor("a number"), start)
        return product

    def factor(self, expected: str) -> int:
        """The value of a number, of a word that stands for one, or of a sum or a difference in parentheses."""
        if digits := self.peek(DIGITS):
            return self.number(digits)
        if word := self.peek(WORD):
            return self.value_of(word, expected)
        if not self.has("("):
            raise self.misread(expected)
        self.open += 1
        if self.open > MOST_OPEN:
            raise Misread(self.at, f"more than {MOST_OPEN} parentheses are open")
        start, value = self.at - 1, self.expression("a number")
        if self.has("-"):
            value = self.bounded(value - self.expression("a number"), start)
        self.want(")")
        self.open -= 1
        return value

    def number(self, digits: str) -> int:
        """The value of a number, which is taken."""
        hit = NUMBER.fullmatch(digits)
        if hit is None:
            hint = ": hexadecimal digits stand after a lower-case 0x" if digits.startswith("0X") else ""
            raise Misread(self.at + 1, f"{digits[:40]!r} is not a number{hint}", len(digits))
        value = int(hit["digits"], 16 if digits.startswith("0x") else 10)
        self.at += len(digits)
        return self.bounded(value * SUFFIXES[hit["suffix"]], self.at - len(digits))

    def value_of(self, word: str, expected: str) -> int:
        """The value for which a word stands, which is taken."""
        if word in ("for", "at"):
            raise self.misread(expected)
        if self.numbers is not None and word not in self.numbers:
            hint = f"`let {word[:40]} = ..` before it defines one"
            raise Misread(self.at + 1, f"{word[:40]!r} stands for no number: {hint}", len(word))
        self.at += len(word)
        return 0 if self.numbers is None else self.numbers[word]

    def bounded(self, value: int, start: int) -> int:
        """The value of an expression that begins at a place; it has to be one that an expression may have."""
        if not 0 <= value <= LAST_NUMBER and self.numbers is not None:
            raise Misread(start + 1, "the value is not from 0 to 2^64 - 1", self.at - start)
        return value if self.numbers is not None else 0

    def address(self, expected: str = "an address") -> int:
        """An address: an expression of at most the last address."""
        self.skip()
        start = self.at
        value = self.expression(expected)
        if value > LAST_ADDRESS:
            raise Misread(start + 1, f"{value:#x} is not an address: the last one is {LAST_ADDRESS:#x}")
        return value

    def span(self) -> Span:
        """One address; the first and the last; or the first and how many there are."""
        self.skip()
        start = self.at
        first = self.address()
        last = first
        if self.has("-"):
            last = self.address("the last address")
        elif self.has("size"):
            last = first + self.size(first) - 1
        if last < first:
            raise Misread(start + 1, f"{first:#x}-{last:#x} runs downwards")
        return Span(first, last, start + 1)

    def size(self, first: int) -> int:
        """How many addresses there are from `first` on, at least one."""
        self.skip()
        start, size = self.at, self.expression("a size")
        if size == 0 and self.numbers is not None:
            raise Misread(start + 1, "the size is 0")
        size = max(size, 1)
        if first + size - 1 > LAST_ADDRESS:
            last = first + size - 1
            raise Misread(start + 1, f"with this size it ends at {last:#x}, and the last address is {LAST_ADDRESS:#x}")
        return size

    def access(self) -> tuple[str, ...]:
        """The accesses of the claim, with which it ends."""
        accesses: tuple[str, ...] = ACCESSES
        if self.has("for"):
            word = next((access for access in ACCESSES if self.has(access)), None)
            if word is None:
                raise self.misread("'read' or 'write'")
            accesses = (word,)
            expected = "the end of the claim"
        else:
            expected = "'for' or the end of the claim"
        if not self.is_done():
            raise self.misread(expected)
        return accesses

    def line(self) -> Claim | Group | Constant | LeftOut:
        """What the line is: a claim, a group or a number that is given a word."""
        word, is_old_form = self.peek(WORD), self.text[self.at:].split()[2:3] == ["at"]
        if not is_old_form and not self.text.startswith(".", self.at + len(word)):
            readers: dict[str, Callable[[], Claim | Group | Constant | LeftOut]] = {
                "group": self.group, "let": self.constant, "left_out": self.left_out, "never_ever": self.never_ever,
                "disjoint": self.disjoint, "same": self.same, "at": self.placed}
            if word in readers or word in SPANS:
                self.at += len(word)
                return readers[word]() if word in readers else self.spanned(word)
        return self.old_form()

    def left_out(self) -> LeftOut:
        """The rest of `left_out`."""
        path = self.text[self.at:].strip()
        if not path:
            raise self.misread("the path of a master")
        self.at = len(self.text)
        return LeftOut(path)

    def group(self) -> Group:
        """The definition of a group, after its first word."""
        name = self.name("the name of the group")
        if name.is_pattern or name.is_own:
            raise Misread(name.column, "a group has a plain name")
        self.want("=")
        members = [self.name("a name, a pattern or a group")]
        while self.has(","):
            members.append(self.name("a name, a pattern or a group"))
        if not self.is_done():
            raise self.misread("',' or the end of the line")
        return Group(name, tuple(members))

    def constant(self) -> Constant:
        """The definition of a word that stands for a number, after its first word."""
        word = self.peek(WORD)
        if not word:
            raise self.misread("a word")
        column = self.at + 1
        self.at += len(word)
        self.want("=")
        value = self.expression("a number")
        if not self.is_done():
            raise self.misread("the end of the line")
        return Constant(word, value, column)

    def spanned(self, kind: str) -> Claim:
        """The rest of a claim on a span of a node."""
        agents, node = self.name("an agent"), self.name("a node")
        span = self.span()
        return Claim(kind, agents, None, node, span, None, self.access())

    def never_ever(self) -> Claim:
        """The rest of `never_ever`."""
        agents, node = self.name("an agent"), self.name("a node")
        span = self.span()
        units = self.name("a unit") if self.has("whatever") else None
        return Claim("never_ever", agents, units, node, span, None, self.access())

    def disjoint(self) -> Claim:
        """The rest of `disjoint`."""
        agents, others = self.name("an agent"), self.name("a second agent")
        node = span = None
        if not self.is_done() and self.peek(WORD) != "for":
            node = self.name("a node, 'for' or the end of the claim")
            if not self.is_done() and self.peek(WORD) != "for":
                span = self.span()
        return Claim("disjoint", agents, others, node, span, None, self.access())

    def same(self) -> Claim:
        """The rest of `same`."""
        agents, others = self.name("an agent"), self.name("a second agent")
        return Claim("same", agents, others, None, None, None, self.access())

    def placed(self) -> Claim:
        """The rest of a claim that begins with `at`."""
        agents, address = self.name("an agent"), self.address("an address of the agent")
        node = self.name("a node")
        self.skip()
        start = self.at
        base = self.address("an address of the node")
        if self.numbers is None or "size" not in self.numbers:
            self.has("size")
        size = self.size(max(base, address))
        return Claim("at", agents, None, node, Span(base, base + size - 1, start + 1), address, self.access())

    def old_form(self) -> Claim:
        """AGENTS NODE at ADDRESS."""
        kinds = ", ".join(KINDS)
        agents = self.name(f"a claim: one of {kinds}, or AGENT NODE at ADDRESS")
        node = self.name("a node, as in AGENT NODE at ADDRESS")
        first = self.address("an address of the node") if self.has("@") else 0
        if not self.has("at"):
            raise self.misread("'at', as in AGENT NODE at ADDRESS")
        address = self.address("an address of the agent")
        return Claim("at", agents, None, node, Span(first, first, node.column), address, self.access())
