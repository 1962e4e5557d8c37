"""The first fault of a text by its tokens, its grammar and its blocks, with the column and what may stand there."""

from collections.abc import Iterator
from typing import NamedTuple

from netconf_tools.grammar import (
    ANY_WORD,
    COMMANDS,
    DECLARATIONS,
    MOST_BLOCKS,
    MOST_PARENTHESES,
    NAME,
    NUMBER,
    RESERVED,
    SUSPECT,
    BadToken,
    Placed,
    Reader,
    Source,
    Token,
    TooDeep,
    TooLong,
    Unexpected,
    block_words,
    common_statement,
    compiled,
    is_bad,
    is_command,
    statement_start,
    statements_in,
    token_at,
)
from netconf_tools.hints import meant, nearest, quoted, token_message
from netconf_tools.limits import MAX_DESTINATIONS


class Fault(NamedTuple):
    """A fault: its rule, its place and how many bytes it marks, what is wrong, and notes, each a place and a text.

    `line_at` is a place in the line that the program prints, if that is another line."""

    rule: str
    at: int
    width: int
    message: str
    notes: tuple[tuple[int, str], ...] = ()
    line_at: int | None = None

    def line(self, source: Source) -> int:
        """The line that the program prints."""
        return source.line(self.at if self.line_at is None else self.line_at)


MOST_COMMON = 4096
"""How many characters a statement has at most, and a part of a text at least, whose statements are compared with the
form of most of them: to compile that form takes as long as to read some hundred statements."""

OPERATORS = ("-", "*", "+", ".", "[")
"""What continues an expression or a name: a message lists these last."""

USAGES = {
    "resolve": "resolve NODE ADDRESS [for read|write]",
    "lookup": "lookup AGENT ADDRESS [for read|write]",
    "view": "view AGENT [for read|write]",
    "grant": "grant ID AGENT NODE BASE SIZE [for read|write]",
    "route": "route ID AGENT LINE NODE",
    "revoke": "revoke ID",
    "dump": "dump",
    "gather": "gather AGENT ID NODE BASE SIZE and .. [for read|write]",
    "radix": "radix NODE POOL",
    "split": "split",
    "absorb": "absorb NODE",
    "unit": "unit NAME kind KIND page N slots N reach N to PORT, ..",
    "module": "module NAME(num PARAMETER, node PARAMETER, ..)",
    "use": "use MODULE(EXPRESSION, node NAME, ..) as NAME",
    "for": "for VARIABLE in FIRST..LAST",
}
"""The forms of statements that have many parts, by their first words."""


def token_fault(source: Source, first: int = 0, end: int | None = None) -> Fault | None:
    """The first place from `first` up to `end` that is no token."""
    for hit in compiled(SUSPECT).finditer(source.plain, first, len(source.plain) if end is None else end):
        token = token_at(source, hit.start())
        if is_bad(token):
            return Fault("Token", token.at, len(token.text), token_message(source, token))
    return None


def wrong_statements(source: Source, first: int, end: int) -> Iterator[Fault]:
    """The faults of the statements that begin in a part of the text, by the grammar alone: for each at most one."""
    at = first
    while True:
        common = None
        if end - first > MOST_COMMON and source.plain.find(";", at, at + MOST_COMMON) >= 0:
            common = common_statement().match(source.plain, at)
        if common:
            if common.start("whole") >= end:
                return
            at = common.end()
            continue
        reader = Reader(source, at, is_brief=True)
        if reader.first.at >= end or reader.first.kind == "end":
            return
        try:
            reader.statement()
        except Unexpected as wrong:
            yield Fault(
                "Statement",
                wrong.token.at,
                max(len(wrong.token.text), 1),
                unexpected_message(wrong, reader.first),
                tuple(notes_on(source, wrong, reader.first)),
            )
        except TooDeep as deep:
            yield Fault(
                "Nesting",
                deep.token.at,
                1,
                f"this is one parenthesis too many: at most {MOST_PARENTHESES} are open at once",
            )
        except TooLong:
            return
        except BadToken as bad:
            yield Fault("Token", bad.token.at, len(bad.token.text), token_message(source, bad.token))
        at = source.plain.find(";", reader.token.at if reader.before is None else reader.before.at) + 1
        if not at:
            return


def either(items: list[str]) -> str:
    """Some things as a list with `or` before the last one."""
    return ", ".join(items[:-1]) + " or " + items[-1] if len(items) > 1 else items[0]


def expected_text(expected: tuple[str, ...]) -> str:
    """What may stand at a place, in words."""
    items = list(expected)
    if NAME in items and set(DECLARATIONS) <= set(items):
        return "a statement"
    shown = []
    if {NUMBER, NAME, "("} <= set(items):
        items = [item for item in items if item not in (NUMBER, NAME, "(")]
        shown = ["an expression"]
    late = [item for item in items if item in OPERATORS]
    return either(
        [shown_item(item) for item in items if item not in late] + shown + [shown_item(item) for item in late]
    )


def shown_item(item: str) -> str:
    """One thing that may stand at a place."""
    return item if item in (NAME, NUMBER, ANY_WORD) else f"`{item}`"


def unexpected_message(wrong: Unexpected, first: Token) -> str:
    """What stands at a place, what may stand there, and which word was meant."""
    found = "the text ends here" if wrong.token.kind == "end" else f"unexpected {quoted(wrong.token.text)}"
    return f"{found}, expected {expected_text(wrong.expected)}" + meant_text(wrong, first)


def meant_text(wrong: Unexpected, first: Token) -> str:
    """The word that was probably meant at a place where no statement goes on, or why no word stands there; or
    nothing."""
    token = wrong.token
    if wrong.full and token.text == wrong.full:
        return f"; at most {MAX_DESTINATIONS} stand in this list"
    if wrong.before and wrong.before.text == "size" and token.kind == "number" and first.text in COMMANDS:
        return "; in a command the size follows the base, with no word between them"
    if token.text == "size" and "and" in wrong.expected:
        return "; the size stands with the block, before `to`"
    if token.text == "at" and first.text in COMMANDS:
        return "; in a command no word stands before an address"
    if is_named_by_reserved(wrong, first):
        return f"; {quoted(first.text)} is a reserved word and names nothing"
    if token.kind == "word" and token.text in RESERVED and NAME in wrong.expected:
        return f"; {quoted(token.text)} is a reserved word and names nothing"
    if token.text == "-" and ")" not in wrong.expected and set("*+") <= set(wrong.expected):
        return "; a difference stands in parentheses"
    return meant(token.text, [item for item in wrong.expected if item.isalpha()]) if token.kind == "word" else ""


def is_named_by_reserved(wrong: Unexpected, first: Token) -> bool:
    """Whether a statement would declare a node whose name is a reserved word."""
    return wrong.before is first and first.text in RESERVED and wrong.token.text == "is"


def mistyped(wrong: Unexpected, first: Token) -> str:
    """The first word that a statement with another first word was probably meant to have, or nothing."""
    if wrong.before is not first or first.text in RESERVED or wrong.token.kind == "end":
        return ""
    return nearest(first.text, (*DECLARATIONS, *COMMANDS))


def notes_on(source: Source, wrong: Unexpected, first: Token) -> Iterator[tuple[int, str]]:
    """The notes on a place where no statement goes on: a word before it that was mistyped, a semicolon that is
    missing, where the statement begins, and its form."""
    token, before = wrong.token, wrong.before
    if before is None:
        return
    near = mistyped(wrong, first)
    if near:
        yield first.at, f"did you mean {quoted(near)}?"
    if ";" in wrong.expected and source.line(before.at) != source.line(token.at):
        yield before.at + len(before.text), "a `;` may be missing here"
    elif token.kind == "end":
        yield first.at, "the statement begins here"
    word = near if near in USAGES else first.text
    if word in USAGES and not is_named_by_reserved(wrong, first):
        yield first.at, f"the form is: {USAGES[word]};"


class Blocks:
    """The blocks that are open, and the `begin`, at a place of a text."""

    def __init__(self, source: Source) -> None:
        self.source = source
        self.open: list[Placed] = []
        self.begin: Placed | None = None

    def put(self, statement: Placed) -> Fault | None:
        """Takes the next statement, unless it is on the wrong side of `begin` or of a block: returns that fault."""
        fault = self._fault(statement)
        if fault is None:
            if statement.word in ("module", "for"):
                self.open.append(statement)
            elif statement.word == "end":
                self.open.pop()
            elif statement.word == "begin":
                self.begin = statement
        return fault

    def pass_over(self, end: int) -> None:
        """Takes the statements up to a place, none of which is on the wrong side."""
        for hit in block_words(self.source, 0, end):
            if hit["word"] == "end":
                self.open.pop()
                continue
            statement = Placed(hit.start("word"), hit["word"], hit.end())
            if hit["word"] == "begin":
                self.begin = statement
                return
            self.open.append(statement)

    def _fault(self, statement: Placed) -> Fault | None:
        """Why a statement may not stand here."""
        word = statement.word
        commands = is_command(self.source, statement)
        if self.begin and not commands:
            return self._block(statement, "after `begin` stand commands alone", self.begin)
        if not self.begin and commands:
            return self._block(statement, f"`{word}` is a command, and commands stand after `begin;`", None)
        if word == "end" and not self.open:
            return self._block(statement, "`end` closes nothing: no `module` and no `for` is open", None)
        if word in ("module", "begin") and self.open:
            return self._block(
                statement, f"`{word}` stands in an open block: an `end;` is missing before it", self.open[-1]
            )
        if word in ("module", "for") and len(self.open) == MOST_BLOCKS:
            message = f"this is the {MOST_BLOCKS + 1}th open block, and at most {MOST_BLOCKS} are open at once"
            return Fault("Nesting", statement.at, len(word), message)
        return None

    def _block(self, statement: Placed, message: str, other: Placed | None) -> Fault:
        """A fault of a statement, with a note on another one."""
        return Fault("Block", statement.at, max(len(statement.word), 1), message, self.notes_on(other) if other else ())

    def notes_on(self, statement: Placed) -> tuple[tuple[int, str]]:
        """The note on a statement that opens a block, or on `begin`."""
        what = (
            "`begin` stands here" if statement.word == "begin" else f"the `{statement.word}` that is open begins here"
        )
        return ((statement.at, what),)

    def fault_at_end(self) -> Fault | None:
        """The fault of a text that ends with an open block."""
        if not self.open:
            return None
        end = len(self.source.text)
        return Fault(
            "Block", end, 1, f"the text ends, and a `{self.open[-1].word}` has no `end;`", self.notes_on(self.open[-1])
        )


def grammar_fault(source: Source) -> Fault | None:
    """The first fault of a whole text by its tokens, its grammar and its blocks, or None."""
    wrong = token_fault(source) or next(wrong_statements(source, 0, len(source.plain) + 1), None)
    blocks = Blocks(source)
    for statement in statements_in(source):
        if wrong and statement.end > wrong.at:
            break
        fault = blocks.put(statement)
        if fault and not (wrong and wrong.rule == "Token"):
            return fault
    return wrong or blocks.fault_at_end()


def fault_on(source: Source, rule: str, line: int) -> Fault | None:
    """The fault of a line by a rule of tokens, grammar or blocks, or None if it is not found there."""
    first, end = source.span(line)
    if rule == "Token":
        return token_fault(source, first, end)
    found: Iterator[Fault] = wrong_statements(source, statement_start(source, first), end + 1)
    if rule == "Block" or rule == "Nesting":
        found = (*found, *misplaced(source, first, end)).__iter__()
    return next((fault for fault in found if fault.rule == rule and source.line(fault.at) == line), None)


def misplaced(source: Source, first: int, end: int) -> Iterator[Fault]:
    """The first statement that begins in a part of the text and stands on the wrong side of a block, or the fault at
    the end, if no statement before that part does."""
    start = statement_start(source, first)
    blocks = Blocks(source)
    blocks.pass_over(start)
    for statement in statements_in(source, start):
        if statement.at > end:
            return
        fault = blocks.put(statement)
        if fault:
            yield fault
            return
    fault = blocks.fault_at_end()
    if fault:
        yield fault
