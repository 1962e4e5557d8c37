"""Expands modules and loops with the place of each part, and finds the first fault of that.

The order of the rules is that of docs/language.md, "In which order a text is expanded"."""

import functools
import re
from collections.abc import Callable, Iterable, Iterator, Mapping
from dataclasses import dataclass, field
from typing import Any, Protocol

from netconf_tools.faults import Fault
from netconf_tools.grammar import (
    MOST_TOKENS,
    STATEMENT,
    BadToken,
    BlockPlaces,
    CommandPlaces,
    Expression,
    LoopPlaces,
    ModulePlaces,
    Name,
    NodePlaces,
    Placed,
    Reader,
    Source,
    Statement,
    Token,
    TooDeep,
    TooLong,
    Unexpected,
    UsePlaces,
    block_words,
    compiled,
    is_command,
    number_of,
    statement_start,
    statements_in,
    token_at,
)
from netconf_tools.hints import meant, quoted
from netconf_tools.limits import LAST_NUMBER, MAX_AGENTS, MAX_MODULES, MAX_NODES, MAX_PARTS, MAX_STEPS, MAX_UNITS

KINDS = ("pages", "remap", "vectors", "radix")
"""The kinds of units."""

MOST_SHAPE = (("page", 255), ("slots", (1 << 32) - 1), ("reach", 255))
"""The words of a unit's shape, and the largest value of each before the shape itself is judged."""

MOST_WORK = 400_000
"""How many tokens are read and evaluated at most: a text of 4 MiB can want two thousand million."""

ROLES = ("agent", "vectors", "unit")
"""The words before the name of a node."""

BLANK, WORD = r"[ \t\r\n]*", r"[A-Za-z_]\w*"
NAMED = rf"{WORD}(?:{BLANK}\.{BLANK}{WORD})*"
HEAD = rf"(?:(?:{'|'.join(ROLES)})\b{BLANK})?(?P<name>{NAMED}){BLANK}\b(?:is|kind)\b"
"""The pattern of the statement of a node up to its parts, if its name has no index."""

PARTS = re.compile(r"\b(?:accept|map|over)\b", re.A)
PLAIN_COMMAND = (
    rf"(?:(?:resolve|lookup|view|absorb|radix)\b{BLANK}{NAMED}|(?:grant|route)\b{BLANK}{WORD}{BLANK}{NAMED}"
    rf"(?:{BLANK}{NAMED})?|revoke\b{BLANK}{WORD}|dump|split)(?:{BLANK}\b[0-9]\w*){{0,2}}"
    rf"(?:{BLANK}\bfor{BLANK}\b(?:read|write))?{BLANK};"
)
"""The pattern of a command whose addresses are numbers, and whose names have no index."""


class Faulty(Exception):
    """The first fault of a text."""

    def __init__(self, fault: Fault) -> None:
        super().__init__(fault)
        self.fault = fault


class Unfollowed(Exception):
    """The text is not one that this reader follows: it is wrong by its grammar, or needs more than `MOST_WORK`."""


class Body:
    """The statements of a block, from a place of the text on; they are found as they are asked for, and kept."""

    def __init__(self, source: Source, at: int) -> None:
        self.source, self.at = source, at
        self.found: list[tuple[Placed, Body | None]] = []
        self.is_whole = False

    def __iter__(self) -> Iterator[tuple[Placed, "Body | None"]]:
        """Each statement, and the body of one that opens a block."""
        index = 0
        while index < len(self.found) or self._find():
            yield self.found[index]
            index += 1

    def _find(self) -> bool:
        """Finds the next statement, unless the block ends before it."""
        hit = None if self.is_whole else STATEMENT.match(self.source.plain, self.at)
        if hit is None or hit["word"] in ("end", "begin"):
            self.is_whole = True
            return False
        self.at = hit.end()
        inner = None
        if hit["word"] in ("module", "for"):
            inner = Body(self.source, self.at)
            self.at = end_of_block(self.source, self.at)
        self.found.append((Placed(hit.start("whole"), hit["word"] or "", hit.end()), inner))
        return True


def end_of_block(source: Source, at: int) -> int:
    """The place after the block whose first statement begins at a place."""
    depth = 1
    for hit in block_words(source, at, len(source.plain)):
        if hit["word"] == "begin":
            break
        depth += -1 if hit["word"] == "end" else 1
        if not depth:
            return source.plain.find(";", hit.end()) + 1
    raise Unfollowed


@dataclass
class PlacedBlock:
    """The addresses of a block from `lo` to `hi`, and the place at which it begins."""

    lo: int
    hi: int
    at: int

    def holds(self, address: int) -> bool:
        """Whether an address lies in the block."""
        return self.lo <= address <= self.hi

    def __str__(self) -> str:
        return f"{self.lo:#x}-{self.hi:#x}"


@dataclass
class PlacedEntry(PlacedBlock):
    """A block of a map with its destinations: the name of a node, and the address to which `lo` is sent."""

    destinations: list[tuple[str, int]] = field(default_factory=list)

    def __str__(self) -> str:
        return f"{super().__str__()} to " + " and ".join(f"{name} at {at:#x}" for name, at in self.destinations)


@dataclass
class Parts:
    """The parts of a node. `references` has each node that it names, with its place and width. `shape` has the kind,
    page, slots and reach of a unit."""

    accepts: list[PlacedBlock] = field(default_factory=list)
    entries: list[PlacedEntry] = field(default_factory=list)
    over: str | None = None
    over_at: int = 0
    shape: list[int | str] = field(default_factory=list)
    ports: list[str] = field(default_factory=list)
    references: list[tuple[str, int, int]] = field(default_factory=list)


@dataclass
class PlacedNode:
    """A node: its full name, the word before it (or empty), and its places. Its parts are read when they are asked
    for.

    `at` is the place of its name and `line_at` that of its statement. `scope` is the one in which it is declared, and
    `fill` reads its parts."""

    name: str
    role: str
    at: int
    width: int
    line_at: int
    scope: "Scope"
    fill: Callable[["PlacedNode"], Parts]

    @functools.cached_property
    def parts(self) -> Parts:
        """The parts of the node."""
        return self.fill(self)

    @property
    def uses(self) -> tuple[tuple[int, str, str], ...]:
        """For each module round the node the place of the use, its word and the full name of the use, the outermost
        first."""
        return self.scope.uses

    @property
    def accepts(self) -> list[PlacedBlock]:
        """The blocks that it accepts."""
        return self.parts.accepts

    @property
    def entries(self) -> list[PlacedEntry]:
        """The entries of its map."""
        return self.parts.entries

    @property
    def over(self) -> str | None:
        """The node that it is over."""
        return self.parts.over

    @property
    def over_at(self) -> int:
        """The place at which that node is named."""
        return self.parts.over_at

    @property
    def shape(self) -> list[int | str]:
        """The kind, page, slots and reach of a unit."""
        return self.parts.shape

    @property
    def ports(self) -> list[str]:
        """The ports of a unit."""
        return self.parts.ports

    @property
    def references(self) -> list[tuple[str, int, int]]:
        """Each node that it names, with the place of the name and its width."""
        return self.parts.references


@dataclass
class Module:
    """A module: its head, which is read when it is asked for, the statements of its body, its number, and the place
    of its word."""

    head: Callable[[], ModulePlaces]
    body: Body
    number: int
    at: int

    @functools.cached_property
    def parameters(self) -> list[tuple[Token, Token]]:
        """The parameters, each a sort and a word."""
        return self.head().parameters

    def form(self) -> str:
        """The parameters as they are declared."""
        return ", ".join(f"{sort.text} {word.text}" for sort, word in self.parameters)


@dataclass
class Scope:
    """What stands for the words of a body: the prefix of its names, its numbers and nodes, how many modules it sees,
    and the uses round it."""

    prefix: str
    numbers: Mapping[str, int]
    nodes: Mapping[str, str]
    modules: int
    uses: tuple[tuple[int, str, str], ...]


class UseScope(Scope):
    """The scope of the body of a module at a use, which is read when more of it is asked for than its modules."""

    def __init__(self, modules: int, read: Callable[[], Scope]) -> None:
        self.modules = modules
        self._read = read

    def want(self) -> None:
        """Reads the scope, unless it was read before."""
        if "prefix" not in vars(self):
            vars(self).update(vars(self._read()))

    def __getattr__(self, name: str) -> Any:
        """What was not read before."""
        self.want()
        return vars(self)[name]


class Expansion:
    """Expands the declarations of a text, and keeps its nodes by their full names, in order.

    The fault of a text stands in the statements of one line, which the program prints. If it is known, the statements
    of all other lines are read only as far as those need it."""

    def __init__(self, source: Source, line: int | None = None) -> None:
        """`line` is the line of the statement with the fault, 0 if it stands in none, or None if nothing is known."""
        self.source = source
        self.first, self.last = (0, len(source.text)) if line is None else source.span(line) if line else (1, 0)
        self.nodes: dict[str, PlacedNode] = {}
        self.modules: dict[str, Module] = {}
        self.roles: dict[str, int] = {}
        self.steps = self.parts = self.work = 0
        self.body = Body(source, 0)
        self.read = functools.lru_cache(maxsize=None)(self._read)
        self.head_of = functools.lru_cache(maxsize=None)(self._head_of)
        self.parts_in = functools.lru_cache(maxsize=None)(self._parts_in)
        self.statement_at = 0

    def is_judged(self, at: int) -> bool:
        """Whether the statement at a place may have the fault."""
        return self.first <= at <= self.last

    def _read(self, at: int) -> Statement:
        """The statement that begins at a place."""
        reader = Reader(self.source, at)
        try:
            return reader.statement()
        except (Unexpected, TooDeep, TooLong, BadToken) as wrong:
            raise Unfollowed from wrong
        finally:
            self.spend(MOST_TOKENS - reader.left)

    def spend(self, work: int) -> None:
        """Counts tokens that are read or evaluated."""
        self.work += work
        if self.work > MOST_WORK:
            raise Unfollowed

    def _head_of(self, at: int) -> tuple[str | Name, int, int]:
        """The name in the statement of a node, as a text if it has no index; its place, and the place after it."""
        hit = compiled(HEAD).match(self.source.plain, at)
        if hit:
            return "".join(hit["name"].split()), hit.start("name"), hit.end("name")
        reader = Reader(self.source, at)
        try:
            if reader.token.text in ROLES:
                reader.take()
            name = reader.name()
        except (Unexpected, TooDeep, TooLong, BadToken) as wrong:
            raise Unfollowed from wrong
        return name, name.at, name.end

    def _parts_in(self, at: int, end: int) -> int:
        """How many blocks, entries and nodes that it is over the statement of a node has."""
        return self.source.plain.count(",", at, end) + len(PARTS.findall(self.source.plain, at, end))

    def run(self) -> None:
        """Expands the whole text, and raises `Faulty` at its first fault."""
        self.expand(self.body, Scope("", {}, {}, MAX_MODULES, ()))
        self.run_commands()
        self.look_up()

    def expand(self, body: Body, scope: Scope) -> None:
        """Expands the statements of a body."""
        for placed, inner in body:
            self.step(placed.at)
            self.statement_at = placed.at
            if inner is not None:
                if placed.word == "module":
                    self.add_module(placed, inner)
                else:
                    self.loop(placed, inner, scope)
            elif placed.word == "use":
                self.use(placed, scope)
            else:
                self.add_node(placed, scope)

    def fail(self, rule: str, at: int, width: int, message: str, notes: Iterable[tuple[int, str]] = ()) -> Faulty:
        """A fault in the statement that is expanded."""
        return Faulty(Fault(rule, at, width, message, tuple(dict.fromkeys(notes)), self.statement_at))

    def step(self, at: int) -> None:
        """Counts a step."""
        if self.steps == MAX_STEPS:
            raise Faulty(
                Fault(
                    "TooMany",
                    at,
                    1,
                    f"expanding the text takes more than {MAX_STEPS:,} steps: statements and iterations",
                )
            )
        self.steps += 1

    def module_at(self, at: int) -> ModulePlaces:
        """The head of the module that is declared at a place."""
        found = self.read(at)
        assert isinstance(found, ModulePlaces)
        return found

    def use_at(self, at: int) -> UsePlaces:
        """The use at a place."""
        found = self.read(at)
        assert isinstance(found, UsePlaces)
        return found

    def add_module(self, placed: Placed, body: Body) -> None:
        """Keeps a module."""
        word = token_at(self.source, placed.at + len(placed.word))
        if self.is_judged(placed.at):
            self.judge_module(word, self.module_at(placed.at).parameters)
        head = functools.partial(self.module_at, placed.at)
        self.modules.setdefault(word.text, Module(head, body, len(self.modules), word.at))

    def judge_module(self, word: Token, parameters: list[tuple[Token, Token]]) -> None:
        """Wants a module and its parameters to be new, and not too many."""
        if len(self.modules) == MAX_MODULES:
            raise self.fail(
                "TooMany",
                word.at,
                len(word.text),
                f"this is the {MAX_MODULES + 1}th module, and at most {MAX_MODULES} may be declared",
            )
        if word.text in self.modules:
            raise self.fail(
                "Duplicate",
                word.at,
                len(word.text),
                f"the module {quoted(word.text)} is already declared",
                [(self.modules[word.text].at, f"{quoted(word.text)} is declared here first")],
            )
        known: dict[str, int] = {}
        for _, parameter in parameters:
            if parameter.text in known:
                raise self.fail(
                    "Duplicate",
                    parameter.at,
                    len(parameter.text),
                    f"the parameter {quoted(parameter.text)} is already declared",
                    [(known[parameter.text], f"{quoted(parameter.text)} is declared here first")],
                )
            known[parameter.text] = parameter.at

    def use(self, placed: Placed, scope: Scope) -> None:
        """Expands the body of a module under the name of a use."""
        at = placed.at
        if self.is_judged(at):
            use = self.use_at(at)
            module = self.module_of(use, scope)
            self.want_arguments(use, module)
            self.expand(module.body, self.scope_of(use, module, at, scope))
            return
        known = self.modules.get(token_at(self.source, at + len(placed.word)).text)
        if known is None:
            raise Unfollowed
        module = known
        if isinstance(scope, UseScope):
            scope.want()
        self.expand(module.body, UseScope(module.number, lambda: self.scope_of(self.use_at(at), module, at, scope)))

    def scope_of(self, use: UsePlaces, module: Module, at: int, scope: Scope) -> Scope:
        """The scope of the body of a module at a use, whose statement begins at a place."""
        numbers: dict[str, int] = {}
        nodes: dict[str, str] = {}
        for (_, parameter), argument in zip(module.parameters, use.arguments):
            if isinstance(argument, Name):
                nodes[parameter.text] = self.referred(argument, scope)
            else:
                numbers[parameter.text] = self.value(argument, scope)
        full = scope.prefix + self.spelled(use.name, scope)
        return Scope(full + ".", numbers, nodes, module.number, scope.uses + ((at, use.word.text, full),))

    def module_of(self, use: UsePlaces, scope: Scope) -> Module:
        """The module that a use names, which was declared before the body in which the use stands."""
        word = use.word
        module = self.modules.get(word.text)
        if module is not None and module.number < scope.modules:
            return module
        if module is not None:
            raise self.fail(
                "Unknown",
                word.at,
                len(word.text),
                f"the module {quoted(word.text)} is not declared before the body that uses it",
                [(module.at, f"{quoted(word.text)} is declared here")],
            )
        later = next(
            (
                placed
                for placed, _ in self.body
                if placed.at > word.at
                and placed.word == "module"
                and token_at(self.source, placed.at + len(placed.word)).text == word.text
            ),
            None,
        )
        seen = [name for name, other in self.modules.items() if other.number < scope.modules]
        what = "is declared later than it is used" if later else "does not exist"
        raise self.fail(
            "Unknown",
            word.at,
            len(word.text),
            f"the module {quoted(word.text)} {what}" + ("" if later else meant(word.text, seen)),
            [(later.at, f"{quoted(word.text)} is declared here")] if later else (),
        )

    def want_arguments(self, use: UsePlaces, module: Module) -> None:
        """Wants the arguments of a use to fit the parameters of its module, by their number and sorts."""
        notes = [(module.at, f"the parameters are: {module.form() or 'none'}")]
        if len(use.arguments) != len(module.parameters):
            wanted, given = counted(len(module.parameters), "parameter"), counted(len(use.arguments), "argument")
            message = f"{quoted(use.word.text)} has {wanted}, and this use gives {given}"
            raise self.fail("Arguments", use.word.at, len(use.word.text), message, notes)
        for (sort, parameter), argument in zip(module.parameters, use.arguments):
            if (sort.text == "node") != isinstance(argument, Name):
                hint = "write `node NAME`" if sort.text == "node" else "write a number, without `node`"
                message = f"{quoted(parameter.text)} is {'a node' if sort.text == 'node' else 'a number'}: {hint}"
                raise self.fail("Arguments", argument.at, argument.end - argument.at, message, notes)

    def loop(self, placed: Placed, body: Body, scope: Scope) -> None:
        """Expands the body of a loop once for each value of its variable."""
        loop = self.read(placed.at)
        assert isinstance(loop, LoopPlaces)
        first, last = self.value(loop.first, scope), self.value(loop.last, scope)
        for number in range(first, last + 1):
            self.step(placed.at)
            self.expand(
                body,
                Scope(scope.prefix, {**scope.numbers, loop.word.text: number}, scope.nodes, scope.modules, scope.uses),
            )

    def add_node(self, placed: Placed, scope: Scope) -> None:
        """Keeps a node, unless its name was there before or it passes a limit."""
        name, at, end = self.head_of(placed.at)
        full = scope.prefix + (name if isinstance(name, str) else self.spelled(name, scope))
        role = placed.word if placed.word in ROLES else ""
        node = PlacedNode(full, role, at, end - at, placed.at, scope, self.fill)
        is_judged = self.is_judged(placed.at)
        if is_judged:
            self.want_new(node)
        self.nodes.setdefault(full, node)
        self.roles[role] = self.roles.get(role, 0) + 1
        self.parts += self.parts_in(placed.at, placed.end) if role != "unit" else 0
        if is_judged:
            self.want_room(node)

    def want_new(self, node: PlacedNode) -> None:
        """Wants the parts of a node to have values, and its name to be new."""
        first = self.nodes.get(node.name) if node.parts else None
        if first:
            notes = [(first.at, f"{node.name} is declared here first"), *uses_of(node), *uses_of(first)]
            raise self.fail("Duplicate", node.at, node.width, f"{quoted(node.name)} is already declared", notes)

    def want_room(self, node: PlacedNode) -> None:
        """Wants the nodes up to a node to be no more than the limits allow."""
        for what, count, most in (
            ("node", len(self.nodes), MAX_NODES),
            ("agent", self.roles.get("agent", 0), MAX_AGENTS),
            ("unit", self.roles.get("unit", 0), MAX_UNITS),
            ("part", self.parts, MAX_PARTS),
        ):
            if count > most:
                message = f"there are more than {most:,} {what}s from {quoted(node.name)} on"
                raise self.fail("TooMany", node.at, node.width, message)

    def fill(self, node: PlacedNode) -> Parts:
        """Evaluates the parts of a node in their order."""
        places, scope, parts = self.read(node.line_at), node.scope, Parts()
        assert isinstance(places, NodePlaces)
        if places.kind is not None:
            self.fill_unit(parts, places, places.kind, scope)
        for block in places.accepts:
            parts.accepts.append(PlacedBlock(*self.bounds(block, scope), block.first.at))
        for entry in places.entries:
            placed = PlacedEntry(*self.bounds(entry.block, scope), entry.block.first.at)
            for name, at in entry.destinations:
                target = self.refer(parts, name, scope)
                placed.destinations.append((target, placed.lo if at is None else self.value(at, scope)))
            parts.entries.append(placed)
        if places.over is not None:
            parts.over, parts.over_at = self.refer(parts, places.over, scope), places.over.at
        return parts

    def fill_unit(self, parts: Parts, places: NodePlaces, kind: Token, scope: Scope) -> None:
        """Evaluates the kind, the shape and the ports of a unit."""
        if kind.text not in KINDS:
            kinds = ", ".join(KINDS)
            message = f"the kind {quoted(kind.text)} does not exist, the kinds are {kinds}{meant(kind.text, KINDS)}"
            raise self.fail("Unknown", kind.at, len(kind.text), message)
        parts.shape.append(kind.text)
        for expression, (word, most) in zip(places.shape, MOST_SHAPE):
            value = self.value(expression, scope)
            if value > most:
                raise self.fail(
                    "Value",
                    expression.at,
                    expression.end - expression.at,
                    f"`{word}` is {value:,} here, and at most {most:,}",
                )
            parts.shape.append(value)
        parts.ports = [self.refer(parts, port, scope) for port in places.ports]

    def bounds(self, block: BlockPlaces, scope: Scope) -> tuple[int, int]:
        """The first and the last address of a block."""
        first = self.value(block.first, scope)
        return first, first if block.last is None else self.value(block.last, scope)

    def refer(self, parts: Parts, name: Name, scope: Scope) -> str:
        """The full name of a node to which another one refers; it is looked up when all nodes are known."""
        full = self.referred(name, scope)
        parts.references.append((full, name.at, name.end - name.at))
        return full

    def referred(self, name: Name, scope: Scope) -> str:
        """The full name to which a reference leads: that of an argument, or one of the same body."""
        if len(name.parts) == 1 and name.parts[0].place is None and name.parts[0].word.text in scope.nodes:
            return scope.nodes[name.parts[0].word.text]
        return scope.prefix + self.spelled(name, scope)

    def spelled(self, name: Name, scope: Scope) -> str:
        """A name with the values of its indices."""
        return ".".join(
            part.word.text if part.place is None else f"{part.word.text}[{self.value(part.place, scope)}]"
            for part in name.parts
        )

    def value(self, expression: Expression, scope: Scope) -> int:
        """The value of an expression, at most `LAST_NUMBER`."""
        tokens = expression.tokens
        self.spend(len(tokens))
        return self.atom(tokens[0], scope) if len(tokens) == 1 else Sum(self, tokens, scope).whole()

    def atom(self, token: Token, scope: Scope) -> int:
        """The value of a number or of a variable."""
        if token.kind == "number":
            return number_of(token.text)
        if token.text in scope.numbers:
            return scope.numbers[token.text]
        raise self.fail("Unknown", token.at, len(token.text), self.no_variable(token.text, scope))

    def no_variable(self, word: str, scope: Scope) -> str:
        """Why a word stands for no number."""
        if word in scope.nodes or scope.prefix + word in self.nodes:
            return f"{quoted(word)} is a node, and an expression has numbers and variables alone"
        known = f", the variables here are {', '.join(list(scope.numbers)[:8])}" if scope.numbers else ""
        what = (
            "is neither a loop variable nor a number parameter"
            if scope is not OUTSIDE
            else "is not a number, and a command sees no variables"
        )
        return f"{quoted(word)} {what}{known}{meant(word, scope.numbers)}"

    def run_commands(self) -> None:
        """Evaluates the expressions of the commands and the indices of their names."""
        start = statement_start(self.source, self.first) if self.first <= self.last else len(self.source.plain)
        for command in statements_in(self.source, start):
            if command.at > self.last:
                return
            if self.is_judged(command.at) and is_command(self.source, command):
                self.run_command(command)

    def run_command(self, command: Placed) -> None:
        """Evaluates the expressions of a command and the indices of its names, if it has more than numbers and
        names."""
        if compiled(PLAIN_COMMAND).match(self.source.plain, command.at):
            return
        self.statement_at = command.at
        found = self.read(command.at)
        for member in found.members if isinstance(found, CommandPlaces) else ():
            if isinstance(member, Name):
                self.spelled(member, OUTSIDE)
            else:
                self.value(member, OUTSIDE)

    def look_up(self) -> None:
        """Looks up each node to which a node refers."""
        for node in self.nodes.values():
            self.statement_at = node.line_at
            for full, at, width in node.references if self.is_judged(node.line_at) else ():
                if full not in self.nodes:
                    raise self.fail("Unknown", at, width, self.no_node(full, node), uses_of(node))

    def no_node(self, full: str, node: PlacedNode) -> str:
        """Why a reference leads to no node."""
        prefix = node.uses[-1][2] + "." if node.uses else ""
        bare = full.removeprefix(prefix)
        if prefix and full.startswith(prefix) and bare in self.nodes:
            return (
                f"the node {quoted(full)} does not exist; the {quoted(bare)} outside of the module is seen in its body "
                "as a node parameter alone"
            )
        return f"the node {quoted(full)} does not exist{meant(full, self.nodes)}"


OUTSIDE = Scope("", {}, {}, 0, ())
"""The scope of commands."""


def counted(count: int, what: str) -> str:
    """A number of things in words."""
    return f"{count or 'no'} {what}{'' if count == 1 else 's'}"


def uses_of(node: PlacedNode) -> list[tuple[int, str]]:
    """The notes on the uses of modules that declare a node, the innermost first."""
    return [
        (at, f"{node.name} comes from the module {word}, used here as {full}") for at, word, full in reversed(node.uses)
    ]


class Valuer(Protocol):
    """What gives words and numbers their values, and makes the faults of what has none."""

    def atom(self, token: Token, scope: Scope) -> int:
        """The value of a number or of a variable."""

    def fail(self, rule: str, at: int, width: int, message: str) -> Faulty:
        """A fault at a place."""


class Sum:
    """Evaluates the tokens of an expression, each sum and each product as a whole."""

    def __init__(self, valuer: Valuer, tokens: list[Token], scope: Scope) -> None:
        self.valuer, self.tokens, self.scope = valuer, tokens, scope
        self.place = 0

    def whole(self) -> int:
        """The value of the sum that begins at the next token."""
        first, total, count = self.place, self.product(), 1
        while self.place < len(self.tokens) and self.tokens[self.place].text == "+":
            self.place += 1
            total, count = total + self.product(), count + 1
        return self.want(first, total, "sum") if count > 1 else total

    def product(self) -> int:
        """The value of the product that begins at the next token. A factor of a product past the limit may still be
        0."""
        first, total, count, is_zero = self.place, self.factor(), 1, False
        while self.place < len(self.tokens) and self.tokens[self.place].text == "*":
            self.place += 1
            factor = self.factor()
            is_zero = is_zero or not factor
            total, count = min(total * factor, LAST_NUMBER + 1) if total <= LAST_NUMBER else total, count + 1
        return self.want(first, 0 if is_zero else total, "product") if count > 1 else total

    def factor(self) -> int:
        """The value of a number, a variable, or what stands in parentheses."""
        token = self.tokens[self.place]
        self.place += 1
        if token.text != "(":
            return self.valuer.atom(token, self.scope)
        first, left = self.place, self.whole()
        if self.tokens[self.place].text == "-":
            self.place += 1
            right = self.whole()
            if right > left:
                raise self.fault(first, f"the difference of {left:#x} and {right:#x} is below 0")
            left -= right
        self.place += 1
        return left

    def want(self, first: int, total: int, what: str) -> int:
        """Wants a sum or a product to be a number of the language."""
        if total > LAST_NUMBER:
            raise self.fault(first, f"this {what} is more than {LAST_NUMBER:#x}")
        return total

    def fault(self, first: int, message: str) -> Faulty:
        """A fault of the tokens from `first` on, with the values of their variables."""
        begin, last = self.tokens[first], self.tokens[self.place - 1]
        words = dict.fromkeys(token.text for token in self.tokens[first:self.place] if token.kind == "word")
        values = ", ".join(f"{word} = {self.scope.numbers[word]:#x}" for word in list(words)[:8])
        return self.valuer.fail(
            "Value", begin.at, last.at + len(last.text) - begin.at, message + (f", with {values}" if values else "")
        )


def expansion_fault(source: Source, line: int | None = None) -> Fault | None:
    """The first fault of expanding a text, or of what is expanded of a line of it; or None."""
    try:
        Expansion(source, line).run()
    except Faulty as found:
        return found.fault
    return None
