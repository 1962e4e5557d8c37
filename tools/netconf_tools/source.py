"""Reads a description whose tokens, statements and blocks are right, and expands its modules and loops.

netconf itself judges a text. What is here is for the tools beside it, which want to know from which line each node,
block, window and command comes. So it reads both a description and the net that `netconf check` prints, which is one.

A text may have four million bytes, most of which nobody asks for: a body that is never used, commands that only ask.
So it is cut into statements at their semicolons, a statement is read when it is expanded for the first time, and an
expression is kept as its tokens until its value is wanted."""

import bisect
import collections
import functools
import itertools
import re
from collections.abc import Callable, Iterable, Iterator, Sequence
from dataclasses import dataclass, field
from typing import Any, NamedTuple, TypeVar

from netconf_tools.grammar import comments_with, without_comments
from netconf_tools.limits import LAST_ADDRESS

TOP = LAST_ADDRESS
"""The last address of a node."""

COMMENT = re.compile(r"//[^\n]*")

NOTE = re.compile(r"//@[ \t]*([^\r\n]*)\r?")
"""A comment that says something of a node, such as the name that hardware has for it."""

NAMED = re.compile(r"(?P<name>[A-Za-z_][\w.\[\]]*) is (?P<note>.+)", re.A)
"""A note that names its node by the full name."""

BLANKS = re.compile(r"[ \t\r]*")
BEGIN = re.compile(r"begin\b", re.A)
"""The word `begin`, or the end of a longer word: a pattern that begins with letters is found ten times as fast."""

STATEMENT = re.compile(r"[ \t\r\n]*(?P<whole>(?P<word>[A-Za-z_]\w*)?[^;]*;)", re.A)
TOKENS = re.compile(r"[A-Za-z_]\w*|[0-9]\w*|\.\.|[][;,()+*.\n-]", re.A)
"""The tokens without the blanks between them; the end of a line is one, so that lines can be counted."""

OTHER_ENDS = re.compile("[^\t\n -~]")
"""What Python may take for the end of a line, and the language does not."""

KINDS = frozenset(("agent", "vectors", "unit", "module", "use", "for"))
"""The words that begin a statement which is no plain node."""

LONG = 1 << 15
"""From how many characters on sums and products of numbers in a statement are replaced by their values before it is
read."""
INNER = re.compile(r"\(\s*[0-9]\w*(?:\s*[-+*]\s*[0-9]\w*)*\s*\)", re.A)
SUM = re.compile(r"[0-9]\w*(?:\s*[+*]\s*[0-9]\w*){31,}", re.A)
"""What is replaced: parentheses with numbers alone, and long sums of products of numbers."""

SIGNS = frozenset(("+", "*"))

LARGE = 1 << 80
"""A value past all that is allowed: products are not followed further."""

COMMANDS = {"resolve": (False, 1, 1, 0), "lookup": (False, 1, 1, 0), "view": (False, 1, 0, 0), "grant": (True, 2, 2, 0),
            "route": (True, 1, 1, 1), "revoke": (True, 0, 0, 0), "dump": (False, 0, 0, 0), "radix": (False, 1, 1, 0),
            "split": (False, 0, 0, 0), "absorb": (False, 1, 0, 0), "gather": (False, 1, 0, 0)}
"""For each command whether an id follows it, and how many names, expressions, and names again; pieces of a `gather`
follow."""


class Unreadable(Exception):
    """The text is no description that netconf would expand."""


@dataclass
class Block:
    """The addresses from `lo` to `hi`, both included, as they stand in a line of the text."""
    lo: int
    hi: int
    line: int

    def holds(self, address: int) -> bool:
        """Whether an address lies in the block."""
        return self.lo <= address <= self.hi

    def __str__(self) -> str:
        return f"{self.lo:#x}-{self.hi:#x}"


@dataclass
class Entry(Block):
    """A block of a map with its destinations: the names of nodes, each with the address to which `lo` is sent."""
    destinations: list[tuple[str, int]] = field(default_factory=list)

    def __str__(self) -> str:
        return f"{super().__str__()} to " + " and ".join(f"{name} at {at:#x}" for name, at in self.destinations)


class Use(NamedTuple):
    """A `use` of a module: its line, the name of the module, and the full name that it gives."""
    line: int
    module: str
    name: str


class Shape(NamedTuple):
    """The shape of a unit: the word of its kind, the power of two of its page, its slots, and the power of two of its
    reach."""
    kind: str
    page: int
    slots: int
    reach: int


@dataclass
class Node:
    """A node with its full name, its parts, and the place that declares it.

    `role` is the word before the name (`agent`, `vectors`, `unit`), or empty. `uses` has the uses of modules round the
    declaration, the outermost first. The kind of `shape` is empty if the node is no unit. `notes` are the texts of the
    comments `//@` on it. `at` is the place of the first token of its declaration."""
    name: str
    role: str
    line: int
    uses: tuple[Use, ...] = ()
    accepts: list[Block] = field(default_factory=list)
    entries: list[Entry] = field(default_factory=list)
    over: str | None = None
    over_line: int = 0
    shape: Shape = Shape("", 0, 0, 0)
    ports: list[str] = field(default_factory=list)
    notes: list[str] = field(default_factory=list)
    at: int = 0


Item = TypeVar("Item")

Expression = str | list[str]
"""An expression: its one token, or its tokens."""

Name = list[tuple[str, Expression | None]]
"""A name in the text: its parts, each a word and the expression of its index, or nothing."""

Parts = dict[str, Any]
"""What a statement says, by the names of its parts, which depend on its kind."""

CommandParts = tuple[list[Name], list[Expression], str, list[tuple[int, str]]]
"""What a command says: names, expressions, its access, and the line and the id of each piece of a `gather`."""

NotePlace = tuple[int, int, str]
"""A comment `//@`: its line, its place, and what it says."""


def is_in_word(text: str, at: int) -> bool:
    """Whether the character before a place belongs to a word."""
    return at > 0 and (text[at - 1].isascii() and text[at - 1].isalnum() or text[at - 1] == "_")


class Text:
    """A text with blanks in place of its comments, so that each place in it is one of the text. Its declarations end at
    `end`, and its commands begin at `commands`."""

    def __init__(self, text: str) -> None:
        self.plain = without_comments(text)
        begin = next((hit for hit in BEGIN.finditer(self.plain) if not is_in_word(self.plain, hit.start())), None)
        self.end = begin.start() if begin else len(self.plain)
        after = self.plain.find(";", begin.end()) + 1 if begin else 0
        self.commands = after or len(self.plain)

    @functools.cached_property
    def _ends(self) -> list[int]:
        """The places behind the ends of the lines."""
        if OTHER_ENDS.search(self.plain):
            return [hit.end() for hit in re.finditer("\n", self.plain)]
        return list(itertools.accumulate(map(len, self.plain.splitlines(keepends=True))))

    def line(self, place: int) -> int:
        """The line of a place, counted from 1."""
        return bisect.bisect_right(self._ends, place) + 1

    def after_blanks(self, place: int) -> int:
        """The place of the first character from a place on that is no blank, on the same line."""
        hit = BLANKS.match(self.plain, place)
        return hit.end() if hit else place


class Statement:
    """A statement with its kind (`agent`, `module` and so on, or empty); `body` holds those of a module or a loop, and
    `notes` the texts of the comments `//@` on it. `close` is, of a module or a loop, the place after its `end;`, or
    else 0."""

    def __init__(self, kind: str, text: Text, start: int, end: int) -> None:
        self.kind, self.text, self.start, self.end = kind, text, start, end
        self.body: list[Statement] = []
        self.notes: list[str] = []
        self.close = 0

    @functools.cached_property
    def line(self) -> int:
        """The line of the first token."""
        return self.text.line(self.start)

    @functools.cached_property
    def parts(self) -> Parts:
        """What the statement says, read when it is asked for."""
        return Reader(self.text, self.start, self.end, self.kind in ("use", "module")).statement(self.kind)


def statements_of(text: Text) -> list[Statement]:
    """The statements of the declarations, those of modules and loops in their bodies."""
    whole: list[Statement] = []
    open_bodies: list[list[Statement]] = []
    body, at = whole, 0
    for hit in STATEMENT.finditer(text.plain, 0, text.plain.rfind(";", 0, text.end) + 1):
        at, word = hit.end(), hit["word"]
        if word == "end":
            if not open_bodies:
                raise Unreadable("`end` closes no block")
            body = open_bodies.pop()
            body[-1].close = at
            continue
        statement = Statement(word if word in KINDS else "", text, hit.start("whole"), at)
        body.append(statement)
        if word in ("module", "for"):
            open_bodies.append(body)
            body = statement.body
    if open_bodies:
        raise Unreadable("a block is open at the end of the declarations")
    if text.plain[at:text.end].strip():
        raise Unreadable("the text ends inside a statement")
    return whole


def noted_statements(body: list[Statement]) -> Iterator[Statement]:
    """The statements that can have notes, in the order of the text: all but those of modules and loops."""
    for statement in body:
        if statement.kind in ("module", "for"):
            yield from noted_statements(statement.body)
        else:
            yield statement


def notes_in(text: str) -> list[NotePlace]:
    """The comments `//@` of a text."""
    found: list[NotePlace] = []
    line, seen = 1, 0
    for hit in comments_with("//@", text):
        note = NOTE.fullmatch(hit.group())
        if note:
            line, seen = line + text.count("\n", seen, hit.start()), hit.start()
            found.append((line, hit.start(), note[1].rstrip(" \t")))
    return found


def give_notes(notes: list[NotePlace], body: list[Statement], text: Text) -> list[NotePlace]:
    """Gives each statement its notes, and returns those that no statement has: a statement has the notes in it and
    before it that no earlier one has, and those after it on the same line."""
    left = notes[::-1]
    for statement in noted_statements(body) if left else ():
        while left and left[-1][1] < max(statement.end, text.after_blanks(statement.end) + 1):
            statement.notes.append(left.pop()[2])
    return left[::-1]


@dataclass
class Module:
    """A module that was declared: its parameters as (sort, word), its body, and how many modules were there before
    it."""
    parameters: list[tuple[str, str]]
    body: list[Statement]
    number: int


@dataclass
class Scope:
    """What stands for the words of a body: the prefix of its names, numbers, nodes, the modules that it sees."""
    prefix: str
    numbers: dict[str, int]
    nodes: dict[str, str]
    modules: int
    uses: tuple[Use, ...]
    notes: tuple[str, ...] = ()


@dataclass
class Piece:
    """A piece of a `gather`: its line, its id, the full names of the agent and of its node, its base and size, and the
    place of its command."""
    line: int
    id: str
    names: list[str]
    numbers: list[int]
    at: int
    word: str = "gather"

    @property
    def parts(self) -> "list[Piece]":
        """It alone."""
        return [self]


class Command:
    """A command: its word, its line, its id (or empty), the full names of its nodes, its numbers, and its access.

    `source` is the command as it stands in the text, with blanks for comments. All but it, the word and the id are read
    when they are asked for. The access is `read`, `write` or empty. Of a `gather` the names are the agent and the node
    of each piece, and the numbers the base and the size of each; it has its ids in its parts."""

    def __init__(self, text: Text, word: str, title: str, source: str, start: int) -> None:
        self.word, self.id, self.source = word, title, source
        self._text, self._start = text, start

    @functools.cached_property
    def line(self) -> int:
        """The line of the first token."""
        return self._text.line(self._start)

    @property
    def at(self) -> int:
        """The place of the first token."""
        return self._start

    @functools.cached_property
    def _parts(self) -> CommandParts:
        """Names, expressions and access."""
        return Reader(self._text, self._start, self._start + len(self.source)).command()

    @property
    def names(self) -> list[str]:
        """The full names of the nodes, in the order of the command."""
        return [spelled(name, OUTSIDE) for name in self._parts[0]]

    @property
    def numbers(self) -> list[int]:
        """The values of the expressions."""
        return [value(expression, OUTSIDE) for expression in self._parts[1]]

    @property
    def access(self) -> str:
        """The access that it says."""
        return self._parts[2]

    @property
    def title(self) -> str:
        """What the reply to a command that changes tables begins with."""
        return self.id or self.word

    @property
    def parts(self) -> "Sequence[Command | Piece]":
        """The pieces of a `gather`; of any other command it alone."""
        if self.word != "gather":
            return [self]
        agent, *nodes = self.names
        rows = zip(self._parts[3], nodes, self.numbers[::2], self.numbers[1::2])
        return [Piece(line, title, [agent, node], [base, size], self.at) for (line, title), node, base, size in rows]

    def __str__(self) -> str:
        names, numbers = self.names, [f"{number:#x}" for number in self.numbers]
        if self.word == "gather":
            pieces = [f"{part.id} {part.names[1]} {part.numbers[0]:#x} {part.numbers[1]:#x}" for part in self.parts]
            names, numbers = [names[0], " and ".join(pieces)], []
        behind = [names[0], *numbers, names[1]] if self.word == "route" else names + numbers
        access = ["for", self.access] if self.access else []
        return " ".join([self.word, *([self.id] if self.id else []), *behind, *access]) + ";"


class Reader:
    """Reads the tokens of one statement or command."""

    def __init__(self, text: Text, start: int, end: int, has_lists: bool = False) -> None:
        """`has_lists` says that parentheses may hold a list, as those of a use do."""
        is_long = end - start > LONG and not has_lists
        self.tokens: list[str] = (TOKENS.findall(condensed(text.plain[start:end])) if is_long
                                  else TOKENS.findall(text.plain, start, end))
        self.at = 0
        self.line = text.line(start)

    def peek(self) -> str:
        """The spelling of the next token, empty at the end."""
        while self.at < len(self.tokens) and self.tokens[self.at] == "\n":
            self.line += 1
            self.at += 1
        return self.tokens[self.at] if self.at < len(self.tokens) else ""

    def take(self) -> str:
        """The next token's spelling, which is taken."""
        spelling = self.peek()
        if not spelling:
            raise Unreadable("the text ends inside a statement")
        self.at += 1
        return spelling

    def want(self, *spellings: str) -> str:
        """Takes the next token, which must be one of these."""
        spelling = self.take()
        if spelling not in spellings:
            raise Unreadable(f"line {self.line}: {spelling!r} where {' or '.join(spellings)} is wanted")
        return spelling

    def has(self, spelling: str) -> bool:
        """Takes the next token where it is spelled so, and says whether it was."""
        if self.peek() == spelling:
            self.at += 1
            return True
        return False

    def list_of(self, item: Callable[[], Item], separator: str = ",") -> list[Item]:
        """One or more items with a separator between them."""
        items = [item()]
        while self.has(separator):
            items.append(item())
        return items

    def statement(self, kind: str) -> Parts:
        """What one statement says."""
        if kind:
            self.take()
        parts: Parts = getattr(self, f"read_{kind or 'node'}", self.read_node)()
        self.want(";")
        return parts

    def command(self) -> CommandParts:
        """The names of a command, its expressions, its access, and the line and the id of each of its pieces."""
        word = self.want(*COMMANDS)
        has_id, count, expression_count, last_count = COMMANDS[word]
        if has_id:
            self.take()
        names = [self.name() for _ in range(count)]
        expressions = [self.expression() for _ in range(expression_count)]
        names += [self.name() for _ in range(last_count)]
        pieces = self.list_of(self.piece, "and") if word == "gather" else []
        names += [name for _, name, _, _ in pieces]
        expressions += [expression for *_, base, size in pieces for expression in (base, size)]
        access = self.want("read", "write") if self.has("for") else ""
        self.want(";")
        return names, expressions, access, [place for place, *_ in pieces]

    def piece(self) -> tuple[tuple[int, str], Name, Expression, Expression]:
        """A piece of a `gather`: its line and id, its name, and its two expressions."""
        self.peek()
        place = self.line, self.take()
        return place, self.name(), self.expression(), self.expression()

    def read_node(self) -> Parts:
        """What stands behind the role of a node."""
        parts: Parts = {"name": self.name(), "accepts": [], "entries": [], "over": None, "over_line": 0}
        self.want("is")
        if self.has("accept"):
            self.want("[")
            parts["accepts"] = self.list_of(self.block)
            self.want("]")
        if self.has("map"):
            self.want("[")
            parts["entries"] = self.list_of(self.entry)
            self.want("]")
        if self.has("over"):
            self.peek()
            parts["over_line"], parts["over"] = self.line, self.name()
        return parts

    def block(self) -> tuple[int, Expression, Expression]:
        """The line of a block and its two expressions; the second is the first where it is left out."""
        self.peek()
        line, lo = self.line, self.expression()
        return line, lo, self.expression() if self.has("-") else lo

    def entry(self) -> tuple[tuple[int, Expression, Expression], list[tuple[Name, Expression | None]]]:
        """A block, `to` and the destinations, each a name and an expression or nothing."""
        block = self.block()
        self.want("to")
        return block, self.list_of(lambda: (self.name(), self.expression() if self.has("at") else None), "and")

    def read_unit(self) -> Parts:
        """What stands behind `unit`."""
        name = self.name()
        shape: list[Expression] = []
        for word in ("kind", "page", "slots", "reach"):
            self.want(word)
            shape.append(self.take() if word == "kind" else self.expression())
        self.want("to")
        return {"name": name, "shape": shape, "ports": self.list_of(self.name)}

    def read_module(self) -> Parts:
        """What stands behind `module`."""
        word = self.take()
        return {"word": word, "parameters": self.in_parentheses(lambda: (self.want("num", "node"), self.take()))}

    def read_use(self) -> Parts:
        """What stands behind `use`."""
        word = self.take()
        arguments = self.in_parentheses(lambda: ("node", self.name()) if self.has("node")
                                        else ("num", self.expression()))
        self.want("as")
        return {"word": word, "arguments": arguments, "name": self.name()}

    def read_for(self) -> Parts:
        """What stands behind `for`."""
        word = self.take()
        self.want("in")
        first = self.expression()
        self.want("..")
        return {"word": word, "first": first, "last": self.expression()}

    def in_parentheses(self, item: Callable[[], Item]) -> list[Item]:
        """A list in parentheses, which may be empty."""
        self.want("(")
        items = [] if self.peek() == ")" else self.list_of(item)
        self.want(")")
        return items

    def name(self) -> Name:
        """A name: a list of parts, each a word and the expression of its index or nothing."""
        return self.list_of(self.part, ".")

    def part(self) -> tuple[str, Expression | None]:
        """A word with its index."""
        word = self.take()
        index: Expression | None = None
        if self.has("["):
            index = self.expression()
            self.want("]")
        return word, index

    def expression(self) -> Expression:
        """A sum of products: its one token, or the list of its tokens."""
        first = self.take()
        return self._longer(first) if first == "(" or self.peek() in ("+", "*") else first

    def _longer(self, first: str) -> list[str]:
        """The tokens of an expression that has more than one, of which the first is taken."""
        start, depth, operand = self.at - 1, int(first == "("), first != "("
        for at in range(self.at, len(self.tokens)):
            token = self.tokens[at]
            if token in SIGNS:
                operand = False
            elif token == "(":
                if not depth and operand:
                    break
                depth += 1
            elif token == ")":
                if not depth:
                    break
                depth -= 1
                operand = True
            elif token != "\n":
                if not depth and (operand or token == "-"):
                    break
                operand = token != "-"
        else:
            raise Unreadable("the text ends inside an expression")
        found = self.tokens[start:at]
        ends = found.count("\n")
        self.at, self.line = at, self.line + ends
        return [token for token in found if token != "\n"] if ends else found


def condensed(text: str) -> str:
    """A statement with its sums and products of numbers replaced by their values; the ends of lines stay."""
    known: dict[str, str] = {}

    def value_of(words: str) -> str:
        if words not in known:
            known[words] = f" {value(TOKENS.findall(words.replace(chr(10), ' ')), OUTSIDE)} " + "\n" * words.count("\n")
        return known[words]

    def sum_of(hit: re.Match[str]) -> str:
        before, after = text[:hit.start()].rstrip()[-1:], text[hit.end():hit.end() + 64].lstrip()[:1]
        return hit.group() if "*" in (before, after) else sum_text(hit.group())

    if "(" in text:
        text = INNER.sub(lambda hit: value_of(hit.group()), text)
    return SUM.sub(sum_of, text)


def sum_text(words: str) -> str:
    """The value of a sum of products of numbers, as a text with the ends of its lines."""
    total = 0
    for term, count in collections.Counter(words.split("+")).items():
        total += value([part.strip() for part in re.split(r"(\*)", term)], OUTSIDE) * count
    return f" {total} " + "\n" * words.count("\n")


def number_of(token: str, scope: Scope) -> int:
    """The value of a token: a number, or a variable."""
    if token[0].isdigit():
        return int(token, 16) if token[:2] == "0x" else int(token)
    if token not in scope.numbers:
        raise Unreadable(f"{token} is not a variable here")
    return scope.numbers[token]


def value(expression: Expression, scope: Scope) -> int:
    """The value of an expression. A value that is past what is allowed may be any such value."""
    if isinstance(expression, str):
        return number_of(expression, scope)
    counts = collections.Counter(expression)
    numbers = {token: number_of(token, scope) for token in counts if token not in "+*()-"}
    if counts.keys().isdisjoint("*(-"):
        return sum(numbers[token] * count for token, count in counts.items() if token != "+")
    total, product = 0, 1
    left: int | None = None
    outside: list[tuple[int, int, int | None]] = []
    for token in expression:
        if token in numbers:
            product *= numbers[token]
            if product > LARGE:
                product = LARGE
        elif token == "+":
            total, product = total + product, 1
        elif token == "(":
            outside.append((total, product, left))
            total, product, left = 0, 1, None
        elif token == "-":
            total, product, left = 0, 1, total + product
        elif token == ")":
            inner = total + product if left is None else left - total - product
            total, product, left = outside.pop()
            product = min(product * inner, LARGE)
    return total + product


def spelled(name: Name, scope: Scope) -> str:
    """A name as a text, with the values of its indices."""
    return ".".join(word if index is None else f"{word}[{value(index, scope)}]" for word, index in name)


def declared(name: Name, scope: Scope) -> str:
    """The full name that a declaration gives."""
    return scope.prefix + spelled(name, scope)


def referred(name: Name, scope: Scope) -> str:
    """The full name of the node to which a reference leads: that of an argument, or one of the same body."""
    if len(name) == 1 and name[0][1] is None and name[0][0] in scope.nodes:
        return scope.nodes[name[0][0]]
    return declared(name, scope)


class Expansion:
    """Replaces modules and loops by what they stand for, and keeps the nodes by their full names, in order."""

    def __init__(self) -> None:
        self.nodes: dict[str, Node] = {}
        self.modules: dict[str, Module] = {}

    def run(self, body: list[Statement], scope: Scope) -> None:
        """Expands the statements of a body."""
        for statement in body:
            if statement.kind == "module":
                word = statement.parts["word"]
                self.modules[word] = Module(statement.parts["parameters"], statement.body, len(self.modules))
            elif statement.kind == "use":
                self.use(statement, scope)
            elif statement.kind == "for":
                self.loop(statement, scope)
            else:
                self.add(node_of(statement, scope))

    def add(self, node: Node) -> None:
        """Keeps a node, unless its name was there before."""
        if node.name in self.nodes:
            raise Duplicate(node, self.nodes[node.name])
        self.nodes[node.name] = node

    def use(self, statement: Statement, scope: Scope) -> None:
        """Expands the body of a module under the name of the use."""
        word, full = statement.parts["word"], declared(statement.parts["name"], scope)
        module = self.modules.get(word)
        arguments = statement.parts["arguments"]
        if module is None or module.number >= scope.modules or len(module.parameters) != len(arguments):
            raise Unreadable(f"line {statement.line}: the module or its arguments do not fit")
        inner = Scope(full + ".", {}, {}, module.number, (*scope.uses, Use(statement.line, word, full)),
                      scope.notes + tuple(statement.notes))
        for (sort, parameter), (_, argument) in zip(module.parameters, statement.parts["arguments"]):
            if sort == "num":
                inner.numbers[parameter] = value(argument, scope)
            else:
                inner.nodes[parameter] = referred(argument, scope)
        self.run(module.body, inner)

    def loop(self, statement: Statement, scope: Scope) -> None:
        """Expands the body of a loop once for each value of its variable."""
        word = statement.parts["word"]
        for number in range(value(statement.parts["first"], scope), value(statement.parts["last"], scope) + 1):
            numbers = {**scope.numbers, word: number}
            self.run(statement.body, Scope(scope.prefix, numbers, scope.nodes, scope.modules, scope.uses, scope.notes))


class Duplicate(Exception):
    """A full name is there twice: the second node, and the first."""


def node_of(statement: Statement, scope: Scope) -> Node:
    """The node that a statement declares in a scope."""
    parts = statement.parts
    node = Node(declared(parts["name"], scope), statement.kind, statement.line, scope.uses,
                notes=[*scope.notes, *statement.notes], at=statement.start)
    if statement.kind == "unit":
        kind, *numbers = parts["shape"]
        page, slots, reach = (value(number, scope) for number in numbers)
        node.shape = Shape(kind, page, slots, reach)
        node.ports = [referred(port, scope) for port in parts["ports"]]
        return node
    node.accepts = [Block(value(lo, scope), value(hi, scope), line) for line, lo, hi in parts["accepts"]]
    for (line, lo, hi), destinations in parts["entries"]:
        entry = Entry(value(lo, scope), value(hi, scope), line)
        for name, at in destinations:
            entry.destinations.append((referred(name, scope), entry.lo if at is None else value(at, scope)))
        node.entries.append(entry)
    if parts["over"]:
        node.over, node.over_line = referred(parts["over"], scope), parts["over_line"]
    return node


OUTSIDE = Scope("", {}, {}, 0, ())
"""The scope of commands, which see no variable."""


def nodes_of(text: str) -> dict[str, Node]:
    """The nodes of a description by their full names, in order; its commands are not looked at."""
    return noted_nodes_of(text)[0]


def noted_nodes_of(text: str) -> tuple[dict[str, Node], list[tuple[int, str]]]:
    """The nodes of a description by their full names, in order, and the notes that belong to none, each with its line.

    A comment `//@ NAME is TEXT` is a note on the node of that full name, wherever it stands. Any other comment `//@
    TEXT` is one on the node, or on each node of the use, whose statement holds it or ended before it on its line; or
    else on the next such statement."""
    read, notes, expansion = Text(text), notes_in(text), Expansion()
    body = statements_of(read)
    left = {(line, place) for line, place, _ in give_notes(notes, body, read)}
    expansion.run(body, Scope("", {}, {}, 1 << 64, ()))
    nodes = expansion.nodes
    for node in nodes.values():
        node.notes = [note for note in dict.fromkeys(node.notes) if named_by(note, nodes) is None]
    lost = []
    for line, place, note in notes:
        named = named_by(note, nodes)
        if named:
            named[0].notes.append(named[1])
        elif (line, place) in left:
            lost.append((line, note))
    return nodes, lost


def named_by(note: str, nodes: dict[str, Node]) -> tuple[Node, str] | None:
    """The node that a note names, and what the note says of it; or nothing."""
    hit = NAMED.fullmatch(note)
    return (nodes[hit["name"]], hit["note"]) if hit and hit["name"] in nodes else None


def declarations_of(text: str) -> str:
    """What of a description stands before `begin`, with blanks for its comments."""
    read = Text(text)
    return read.plain[:read.end]


def script_of(text: str, sources: Iterable[str]) -> str:
    """The declarations of a description with commands, each as it stands in a text. Nothing is put between them, so
    that with the commands of the description alone it is no longer than the description."""
    return declarations_of(text) + "begin;" + "".join(sources)


class CommandRows:
    """The commands of a description that begin with one of the words, in order, as (source, word, word after it); each
    is made a `Command` where it is asked for, since a text may have half a million of which few are."""

    def __init__(self, text: str, words: Iterable[str]) -> None:
        self._read = Text(text)
        wanted = re.compile(rf"(?<=;)[ \t\r\n]*(?P<whole>(?P<word>{'|'.join(words)})\b[ \t\r\n]*(?P<title>\w*)[^;]*;)",
                            re.A)
        self.rows = wanted.findall(self._read.plain, self._read.commands)
        self._starts: list[int] = []
        self._hits = wanted.finditer(self._read.plain, self._read.commands)

    def index_at(self, place: int) -> int | None:
        """The number of the command in which a place is."""
        if not self.rows:
            return None
        self.command(len(self.rows) - 1)
        index = bisect.bisect_right(self._starts, place) - 1
        return index if index >= 0 and place < self._starts[index] + len(self.rows[index][0]) else None

    def command(self, index: int) -> Command:
        """The command of a row."""
        missing = index + 1 - len(self._starts)
        self._starts += [hit.start(1) for hit in itertools.islice(self._hits, max(missing, 0))]
        source, word, title = self.rows[index]
        return Command(self._read, word, title if COMMANDS[word][0] else "", source, self._starts[index])


def commands_of(text: str, words: Iterable[str] = tuple(COMMANDS)) -> list[Command]:
    """The commands of a description that begin with one of the words, in order."""
    found = CommandRows(text, words)
    return [found.command(index) for index in range(len(found.rows))]
