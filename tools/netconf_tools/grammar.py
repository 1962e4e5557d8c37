"""The grammar of descriptions with the place of each token: a second reader beside the program's.

The program alone decides whether a text is refused, with which rule and in which line. This reader finds the column
in that line, and what may stand there. docs/language.md has the tokens and the grammar. Places are offsets in the
text, in bytes."""

import bisect
import functools
import itertools
import operator
import re
from collections.abc import Callable, Iterator
from dataclasses import dataclass, field
from typing import NamedTuple, TypeVar

from netconf_tools.limits import LAST_NUMBER, MAX_DESTINATIONS, MAX_PORTS

RESERVED = frozenset(
    "agent vectors unit module use for in end begin is accept map to and at over kind page slots reach as num node "
    "resolve lookup view grant route revoke dump split absorb".split()
)
"""The words that name nothing."""

DECLARATIONS = ("agent", "vectors", "unit", "module", "use", "for", "end", "begin")
COMMANDS = ("resolve", "lookup", "view", "grant", "gather", "route", "revoke", "dump", "radix", "split", "absorb")
OPEN_WORDS = ("radix", "gather")
"""The commands whose words are not reserved, so that nodes may be called so."""

NAME = "a name"
NUMBER = "a number"
ANY_WORD = "a word"

MOST_BLOCKS, MOST_PARENTHESES = 16, 32
"""How many blocks and how many parentheses are open at once at most."""

COMMENT = re.compile("//[^\n]*")
COMMENTS = re.compile("(//[^\n]*)")
TOKEN = re.compile(
    r"[ \t\r\n]*(?:(?P<word>[A-Za-z_]\w*)|(?P<number>[0-9]\w*)|(?P<sign>\.\.|[][;,()+*.-])|(?P<bad>[^ \t\r\n])"
    r"|(?P<end>\Z))",
    re.A,
)
SUSPECT = (
    r"[^\w \t\r\n.\[\];,()+*-]|(?<!\w)(?:[0-9]{20}|0x[0-9a-fA-F]{17}|(?!0x[0-9a-fA-F]+\b|[0-9]+\b)[0-9])\w*"
)
"""The pattern of what may be no token: a character that begins none, a number that may be too large, and what begins as
a number and is none."""

WHOLE_NUMBER = re.compile(r"0x[0-9a-fA-F]+|[0-9]+", re.A)
SCALED_NUMBER = re.compile(r"(?P<number>0x[0-9a-fA-F]+|[0-9]+)(?P<scale>[KMGT])", re.A)
"""A number with a suffix, which is no number of the language: `netconf-run` replaces it by one."""

SCALES = {"K": 1 << 10, "M": 1 << 20, "G": 1 << 30, "T": 1 << 40}
"""By how much each suffix multiplies."""

STATEMENT = re.compile(r"[ \t\r\n]*(?P<whole>(?P<word>[A-Za-z_]\w*)?[^;]*;)", re.A)

BLOCK_WORD = re.compile(r";[ \t\r\n]*(?P<word>for|module|end|begin)\b", re.A)
FIRST_BLOCK_WORD = re.compile(r"[ \t\r\n]*(?P<word>for|module|end|begin)\b", re.A)
"""A statement that opens or closes a block or the commands: after a semicolon, and at the beginning of a text."""

BLANK, PLAIN_NUMBER = r"[ \t\r\n]*", r"(?:0x[0-9a-fA-F]{1,16}|[0-9]{1,19})\b"
BLOCK = rf"{PLAIN_NUMBER}{BLANK}(?:-{BLANK}{PLAIN_NUMBER}{BLANK})?"
PLAIN_BLOCKS = rf"(?:{BLOCK},{BLANK}){{1,200}}"
PLAIN_ENTRIES = (
    rf"(?:{BLOCK}to\b{BLANK}(?!(?:{'|'.join(sorted(RESERVED))})\b)[A-Za-z_]\w*{BLANK}"
    rf"(?:\bat\b{BLANK}{PLAIN_NUMBER}{BLANK})?,{BLANK}){{1,200}}"
)
"""The patterns of blocks of numbers, and of entries with such a block and one destination, each with its comma."""

MOST_COUNTED = 16
"""For how many questions about lines the ends of lines are counted, before the places of all are found."""

MOST_TOKENS = 100_000
"""How many tokens of a statement are read at most to find a fault in it: a statement of 4 MiB can have two million."""


@functools.cache
def common_statement() -> re.Pattern[str]:
    """The form of most statements: names without indices, and expressions without parentheses. What it matches is
    right by the grammar, and is passed over at once; what it does not match is read token by token."""
    blank = r"[ \t\r\n]*"
    word = rf"(?!(?:{'|'.join(sorted(RESERVED))})\b)[A-Za-z_]\w*\b"
    atom = rf"(?:(?:0x[0-9a-fA-F]{{1,16}}|[0-9]{{1,19}})\b|{word})"
    name = rf"{word}(?:{blank}\.{blank}{word})*"
    value = rf"{atom}(?:{blank}[+*]{blank}{atom})*"
    block = rf"{value}(?:{blank}-{blank}{value})?"
    entry = rf"{block}{blank}to\b{blank}{name}(?:{blank}at\b{blank}{value})?"
    accept = rf"(?:{blank}accept\b{blank}\[{blank}{block}(?:{blank},{blank}{block})*{blank}\])?"
    entries = rf"(?:{blank}map\b{blank}\[{blank}{entry}(?:{blank},{blank}{entry})*{blank}\])?"
    node = rf"(?:agent\b{blank})?{name}{blank}is\b{accept}{entries}(?:{blank}over\b{blank}{name})?"
    asked = rf"(?:resolve|lookup)\b{blank}{name}{blank}{value}|view\b{blank}{name}"
    granted = rf"grant\b{blank}{word}{blank}{name}{blank}{name}{blank}{value}{blank}{value}"
    access = rf"(?:{blank}for\b{blank}(?:read|write)\b)?"
    others = rf"revoke\b{blank}{word}|dump\b"
    return re.compile(rf"{blank}(?P<whole>(?:{node}|(?:{asked}|{granted}){access}|{others}){blank};)", re.A)


Item = TypeVar("Item")


@functools.cache
def compiled(pattern: str) -> re.Pattern[str]:
    """A pattern of ASCII that few texts need: to compile it takes longer than a small text does."""
    return re.compile(pattern, re.A)


class Token(NamedTuple):
    """A token: its kind (`word`, `number`, `sign`, `bad`, or `end` of the text), its spelling and its place."""

    kind: str
    text: str
    at: int


class Unexpected(Exception):
    """A token that no statement allows at its place, the token before it, what may stand there instead, in order,
    and the separator of the list that is full before it, or nothing."""

    def __init__(self, token: Token, before: Token | None, expected: tuple[str, ...], full: str = "") -> None:
        super().__init__(token, before, expected, full)
        self.token, self.before, self.expected, self.full = token, before, expected, full


class TooDeep(Exception):
    """A parenthesis before which `MOST_PARENTHESES` are open."""

    def __init__(self, token: Token) -> None:
        super().__init__(token)
        self.token = token


class TooLong(Exception):
    """A statement of more than `MOST_TOKENS` tokens, which is not read further."""


class BadToken(Exception):
    """A place that is no token."""

    def __init__(self, token: Token) -> None:
        super().__init__(token)
        self.token = token


@functools.lru_cache(maxsize=2)
def without_comments(text: str) -> str:
    """A text with blanks in place of its comments, so that each place in it is one of the text."""
    if "//" not in text:
        return text
    parts = COMMENTS.split(text)
    parts[1::2] = map(" ".__mul__, map(len, parts[1::2]))
    return "".join(parts)


def comments_with(mark: str, text: str) -> Iterator[re.Match[str]]:
    """The comments of a text that begin with a mark, such as `//!`."""
    at = text.find(mark)
    while at >= 0:
        comment = COMMENT.match(text, text.find("//", text.rfind("\n", 0, at) + 1))
        assert comment is not None
        if comment.start() == at:
            yield comment
        at = text.find(mark, comment.end())


class Source:
    """A text with its comments blanked, so that each place in it is one in the text, and with its lines."""

    def __init__(self, text: str) -> None:
        self.text = text
        self._questions = 0
        self._known = 0, 1
        """A place, and the line in which it is."""

    @functools.cached_property
    def plain(self) -> str:
        """The text with blanks in place of its comments."""
        return without_comments(self.text)

    @functools.cached_property
    def _starts(self) -> list[int]:
        """The places at which lines begin."""
        sizes = map(operator.add, map(len, self.text.split("\n")), itertools.repeat(1))
        return list(itertools.accumulate(sizes, initial=0))[:-1]

    def line(self, at: int) -> int:
        """The line of a place, from 1."""
        if not self._is_counted():
            return bisect.bisect_right(self._starts, at)
        known, line = self._known if self._known[0] <= at else (0, 1)
        self._known = at, line + self.text.count("\n", known, at)
        return self._known[1]

    def _is_counted(self) -> bool:
        """Whether the ends of lines are counted for a question, as for the first ones: to find all takes longer."""
        self._questions += 1
        return self._questions <= MOST_COUNTED and "_starts" not in vars(self)

    def column(self, at: int) -> int:
        """The column of a place, in bytes from 1."""
        return at - self.text.rfind("\n", 0, at)

    @functools.cached_property
    def last_line(self) -> int:
        """The line of the end of the text."""
        return self.text.count("\n") + 1

    def span(self, line: int) -> tuple[int, int]:
        """The places at which a line begins and at which its line end stands, or the text ends."""
        if self._is_counted():
            first = self._begin(line)
            self._known = first, line
        else:
            first = self._starts[line - 1]
        end = self.text.find("\n", first)
        return first, end if end >= 0 else len(self.text)

    def _begin(self, line: int) -> int:
        """The place at which a line begins, by counting the ends of lines in halves of the text."""
        low, high, left = 0, len(self.text), line - 1
        while high - low > 1024:
            middle = (low + high) // 2
            count = self.text.count("\n", low, middle)
            if count >= left:
                high = middle
            else:
                low, left = middle, left - count
        for _ in range(left):
            low = self.text.index("\n", low) + 1
        return low

    def line_text(self, line: int) -> str:
        """A line without its end."""
        first, last = self.span(line)
        return self.text[first:last]


def token_at(source: Source, at: int) -> Token:
    """The first token at or after a place."""
    hit = TOKEN.match(source.plain, at)
    assert hit is not None and hit.lastgroup is not None
    return Token(hit.lastgroup, hit[hit.lastgroup], hit.start(hit.lastgroup))


def is_bad(token: Token, is_extended: bool = False) -> bool:
    """Whether a token is no token of the language; `is_extended` allows the suffixes of `netconf-run`."""
    if token.kind != "number":
        return token.kind == "bad"
    whole = WHOLE_NUMBER.fullmatch(token.text)
    if whole is None:
        return not (is_extended and SCALED_NUMBER.fullmatch(token.text))
    return number_of(token.text) > LAST_NUMBER


def number_of(spelling: str) -> int:
    """The value of a number, with a suffix or without. Very many digits are cut, since such a number is too large
    anyway."""
    scaled = SCALED_NUMBER.fullmatch(spelling)
    digits, scale = (scaled["number"], SCALES[scaled["scale"]]) if scaled else (spelling, 1)
    if digits.startswith("0x"):
        return int(digits, 16) * scale
    digits = digits.lstrip("0")
    return (int(digits or "0") if len(digits) <= 30 else LAST_NUMBER + 1) * scale


@dataclass
class Expression:
    """The tokens of an expression, and the place after the last one."""

    tokens: list[Token]
    end: int

    @property
    def at(self) -> int:
        """The place of the first token."""
        return self.tokens[0].at


class Part(NamedTuple):
    """A part of a name: a word, and the expression in brackets after it if there is one."""

    word: Token
    place: Expression | None


@dataclass
class Name:
    """The parts of a name, and the place after the last token."""

    parts: list[Part]
    end: int

    @property
    def at(self) -> int:
        """The place of the first token."""
        return self.parts[0].word.at


@dataclass
class BlockPlaces:
    """The expressions of a block. The last is None if the block has one address, and `is_size` says that it is a
    size."""

    first: Expression
    last: Expression | None
    is_size: bool = False


@dataclass
class EntryPlaces:
    """A block of a map and its destinations: the name of each, and the expression after `at`, if there is one."""

    block: BlockPlaces
    destinations: list[tuple[Name, Expression | None]]


@dataclass
class NodePlaces:
    """What a declaration of a node or of a unit holds. `kind` and `shape` (page, slots and reach) are those of a
    unit."""

    name: Name
    accepts: list[BlockPlaces] = field(default_factory=list)
    entries: list[EntryPlaces] = field(default_factory=list)
    over: Name | None = None
    kind: Token | None = None
    shape: list[Expression] = field(default_factory=list)
    ports: list[Name] = field(default_factory=list)


@dataclass
class ModulePlaces:
    """The word of a module, and its parameters: the sort of each, and its word."""

    word: Token
    parameters: list[tuple[Token, Token]]


@dataclass
class UsePlaces:
    """The word of the module that is used, the arguments, and the name of the use."""

    word: Token
    arguments: list[Expression | Name]
    name: Name


@dataclass
class LoopPlaces:
    """The variable of a loop and its bounds."""

    word: Token
    first: Expression
    last: Expression


@dataclass
class CommandPlaces:
    """The word of a command, its ids, and its names and expressions in their order."""

    word: Token
    ids: list[Token]
    members: list[Name | Expression]


Statement = NodePlaces | ModulePlaces | UsePlaces | LoopPlaces | CommandPlaces | None
"""What a statement holds; None for `end` and `begin`."""


class Reader:
    """Reads one statement. What may stand at the next token is collected until a token is taken."""

    def __init__(
        self, source: Source, at: int, is_extended: bool = False, most: int = MOST_TOKENS, is_brief: bool = False
    ) -> None:
        """`is_extended` allows suffixes and sizes, and `is_brief` passes over blocks and entries of numbers and names,
        which are right."""
        self.source = source
        self.is_extended = is_extended
        self.is_brief = is_brief
        self.left = most
        """How many tokens may still be taken."""
        self.variables: list[Token] = []
        """The words that stand for numbers."""
        self.sizes: list[tuple[BlockPlaces, Token]] = []
        """The blocks with a size, each with the word `size`."""
        self.before: Token | None = None
        self.expected: dict[str, None] = {}
        self.full = ""
        """The separator of a list that has as many members as it may have and ends before the next token, or
        nothing."""
        self.token = token_at(source, at)
        self.first = self.token

    def take(self) -> Token:
        """Takes the next token."""
        taken = self.token
        if is_bad(taken, self.is_extended):
            raise BadToken(taken)
        self.left -= 1
        if self.left < 0:
            raise TooLong
        self.before = taken
        self.token = token_at(self.source, taken.at + len(taken.text))
        self.expected.clear()
        self.full = ""
        return taken

    def refuse(self) -> Unexpected:
        """The fault of the next token."""
        if is_bad(self.token, self.is_extended):
            raise BadToken(self.token)
        return Unexpected(self.token, self.before, tuple(self.expected), self.full)

    def has(self, spelling: str) -> bool:
        """Takes the next token if it is spelled so, and returns whether it is."""
        if self.token.text == spelling and self.token.kind != "end":
            self.take()
            return True
        self.expected[spelling] = None
        return False

    def want(self, *spellings: str) -> Token:
        """Takes the next token, which has one of these spellings."""
        for spelling in spellings:
            if self.has(spelling):
                assert self.before is not None
                return self.before
        raise self.refuse()

    def is_word(self) -> bool:
        """Whether the next token is a word that is not reserved."""
        return self.token.kind == "word" and self.token.text not in RESERVED

    def word(self) -> Token:
        """Takes a word that is not reserved."""
        self.expected[NAME] = None
        if not self.is_word():
            raise self.refuse()
        return self.take()

    def any_word(self) -> Token:
        """Takes a word of either sort."""
        self.expected[ANY_WORD] = None
        if self.token.kind != "word":
            raise self.refuse()
        return self.take()

    def list_of(self, item: Callable[[], Item], separator: str = ",", most: int = 0) -> list[Item]:
        """One item or more with a separator between them; `most` limits how many, unless it is 0."""
        items = [item()]
        while len(items) != most and self.has(separator):
            items.append(item())
        if len(items) == most:
            self.full = separator
        return items

    def pass_over(self, pattern: str) -> None:
        """Passes over what a pattern matches from the next token on, if nothing of it is wanted."""
        while self.is_brief and (hit := compiled(pattern).match(self.source.plain, self.token.at)):
            self.token = token_at(self.source, hit.end())

    def statement(self) -> Statement:
        """Reads a statement with its semicolon."""
        self.expected.update(dict.fromkeys((NAME, *DECLARATIONS, *COMMANDS)))
        word = self.token.text if self.token.kind == "word" else ""
        if word in OPEN_WORDS:
            found = self.open_statement()
        elif word in COMMANDS:
            found = self.command(self.take())
        elif word in DECLARATIONS:
            self.take()
            found = self.declaration(word)
        elif self.is_word():
            found = self.read_node()
        else:
            raise self.refuse()
        self.want(";")
        return found

    def declaration(self, word: str) -> Statement:
        """Reads a statement after its first word, which is none of a command."""
        if word in ("agent", "vectors"):
            return self.read_node()
        if word == "unit":
            return self.read_unit()
        if word == "module":
            return self.read_module()
        if word == "use":
            return self.read_use()
        return self.read_for() if word == "for" else None

    def open_statement(self) -> Statement:
        """Reads a statement that begins with the word of a command which may be the name of a node."""
        after = token_at(self.source, self.token.at + len(self.token.text))
        if after.text in ("is", ".", "["):
            return self.read_node()
        word = self.take()
        self.expected.update(dict.fromkeys(("is", ".", "[")))
        return self.command(word)

    def read_node(self) -> NodePlaces:
        """Reads a node from its name on."""
        node = NodePlaces(self.name())
        self.want("is")
        if self.has("accept"):
            self.want("[")
            self.pass_over(PLAIN_BLOCKS)
            node.accepts = self.list_of(self.block)
            self.want("]")
        if self.has("map"):
            self.want("[")
            self.pass_over(PLAIN_ENTRIES)
            node.entries = self.list_of(self.entry)
            self.want("]")
        if self.has("over"):
            node.over = self.name()
        return node

    def read_unit(self) -> NodePlaces:
        """Reads a unit from its name on."""
        node = NodePlaces(self.name())
        self.want("kind")
        node.kind = self.any_word()
        for word in ("page", "slots", "reach"):
            self.want(word)
            node.shape.append(self.expression())
        self.want("to")
        node.ports = self.list_of(self.name, ",", MAX_PORTS)
        return node

    def read_module(self) -> ModulePlaces:
        """Reads the head of a module after its first word."""
        return ModulePlaces(self.word(), self.in_parentheses(lambda: (self.want("num", "node"), self.word())))

    def read_use(self) -> UsePlaces:
        """Reads a use after its first word."""
        word, arguments = self.word(), self.in_parentheses(self.argument)
        self.want("as")
        return UsePlaces(word, arguments, self.name())

    def argument(self) -> Expression | Name:
        """Reads an argument of a use."""
        return self.name() if self.has("node") else self.expression()

    def read_for(self) -> LoopPlaces:
        """Reads the head of a loop after its first word."""
        word = self.word()
        self.want("in")
        first = self.expression()
        self.want("..")
        return LoopPlaces(word, first, self.expression())

    def in_parentheses(self, item: Callable[[], Item]) -> list[Item]:
        """Reads a list in parentheses, which may be empty."""
        self.want("(")
        if self.has(")"):
            return []
        items = self.list_of(item)
        self.want(")")
        return items

    def block(self) -> BlockPlaces:
        """Reads a block."""
        block = BlockPlaces(self.expression(), None)
        if self.is_extended and self.token.text == "size":
            block.is_size = True
            self.sizes.append((block, self.take()))
            block.last = self.expression()
        elif self.has("-"):
            block.last = self.expression()
        return block

    def entry(self) -> EntryPlaces:
        """Reads an entry of a map."""
        block = self.block()
        self.want("to")
        return EntryPlaces(block, self.list_of(self.destination, "and", MAX_DESTINATIONS))

    def destination(self) -> tuple[Name, Expression | None]:
        """Reads a destination of an entry."""
        return self.name(), self.expression() if self.has("at") else None

    def command(self, word: Token) -> CommandPlaces:
        """Reads a command after its word."""
        found = CommandPlaces(word, [], [])
        for sort in FORMS[word.text]:
            if sort == "id":
                found.ids.append(self.word())
            elif sort == "pieces":
                self.list_of(lambda: self.piece(found), "and", MAX_DESTINATIONS)
            elif sort == "access":
                if self.has("for"):
                    self.want("read", "write")
            else:
                found.members.append(self.name() if sort == "name" else self.expression())
        return found

    def piece(self, command: CommandPlaces) -> None:
        """Reads a piece of a `gather`."""
        command.ids.append(self.word())
        command.members += [self.name(), self.expression(), self.expression()]

    def name(self) -> Name:
        """Reads a name."""
        parts = self.list_of(self.part, ".")
        assert self.before is not None
        return Name(parts, self.before.at + len(self.before.text))

    def part(self) -> Part:
        """Reads a word with its index."""
        word, place = self.word(), None
        if self.has("["):
            place = self.expression()
            self.want("]")
        return Part(word, place)

    def expression(self) -> Expression:
        """Reads an expression."""
        tokens: list[Token] = []
        self._sum(tokens, MOST_PARENTHESES)
        return Expression(tokens, tokens[-1].at + len(tokens[-1].text))

    def _sum(self, tokens: list[Token], most: int) -> None:
        """Reads a sum of products; `most` parentheses may be opened."""
        self._factor(tokens, most)
        while self.has("*") or self.has("+"):
            assert self.before is not None
            tokens.append(self.before)
            self._factor(tokens, most)

    def _factor(self, tokens: list[Token], most: int) -> None:
        """Reads a number, a variable, or a sum or difference in parentheses."""
        self.expected.update(dict.fromkeys((NUMBER, NAME, "(")))
        if self.token.kind == "number" or self.is_word():
            if self.token.kind == "word":
                self.variables.append(self.token)
            tokens.append(self.take())
            return
        if self.token.text != "(":
            raise self.refuse()
        if not most:
            raise TooDeep(self.token)
        tokens.append(self.take())
        self._sum(tokens, most - 1)
        if self.has("-"):
            assert self.before is not None
            tokens.append(self.before)
            self._sum(tokens, most - 1)
        tokens.append(self.want(")"))


FORMS: dict[str, tuple[str, ...]] = {
    "resolve": ("name", "expression", "access"),
    "lookup": ("name", "expression", "access"),
    "view": ("name", "access"),
    "grant": ("id", "name", "name", "expression", "expression", "access"),
    "gather": ("name", "pieces", "access"),
    "route": ("id", "name", "expression", "name"),
    "revoke": ("id",),
    "dump": (),
    "radix": ("name", "expression"),
    "split": (),
    "absorb": ("name",),
}
"""What comes after the word of each command."""


class Placed(NamedTuple):
    """A statement of a text before it is read: the place of its first token, its first word (or empty), and its end."""

    at: int
    word: str
    end: int


def statements_in(source: Source, first: int = 0) -> Iterator[Placed]:
    """The statements from a place on that are ended by a semicolon, in order; what is between two semicolons may be
    wrong."""
    for hit in STATEMENT.finditer(source.plain, first):
        yield Placed(hit.start("whole"), hit["word"] or "", hit.end())


def block_words(source: Source, first: int, end: int) -> Iterator[re.Match[str]]:
    """The words in a part of the text that open or close a block or the commands, each with the semicolon before it;
    the part begins after a semicolon or at the beginning of the text."""
    if first == 0:
        hit = FIRST_BLOCK_WORD.match(source.plain, 0, end)
        if hit:
            yield hit
    yield from BLOCK_WORD.finditer(source.plain, max(first - 1, 0), end)


def is_command(source: Source, statement: Placed) -> bool:
    """Whether a statement is a command by its first tokens."""
    if statement.word in OPEN_WORDS:
        return token_at(source, statement.at + len(statement.word)).text not in ("is", ".", "[")
    return statement.word in COMMANDS


def statement_start(source: Source, at: int) -> int:
    """The place after the last semicolon before a place, or 0."""
    return source.plain.rfind(";", 0, at) + 1
