"""Makes one text of several files, with what they include, constants, suffixes of numbers and sizes of blocks.

    //! include "FILE"       the text of another file stands here; a file is included once
    //! let NAME = EXPR      NAME is a number in the expressions that follow
    4K 16M 1G 2T             a number times 2^10, 2^20, 2^30 or 2^40
    BASE size SIZE           the block of SIZE addresses from BASE on

What comes out has none of these, and is a description as docs/language.md has it. A text with none of them is left
as it is, byte for byte. For each place of what comes out the file, line and column are known."""

import bisect
import heapq
import os
import re
from collections.abc import Iterable, Iterator, Mapping
from dataclasses import dataclass, field
from typing import NamedTuple

from netconf_tools.expansion import Faulty, Scope, Sum
from netconf_tools.faults import Fault
from netconf_tools.findings import Finding, Note, lines_of
from netconf_tools.grammar import (
    RESERVED,
    SCALED_NUMBER,
    SCALES,
    WHOLE_NUMBER,
    BadToken,
    Expression,
    LoopPlaces,
    ModulePlaces,
    Placed,
    Reader,
    Source,
    Token,
    TooDeep,
    Unexpected,
    block_words,
    comments_with,
    compiled,
    number_of,
    token_at,
)
from netconf_tools.hints import meant, quoted
from netconf_tools.limits import LAST_NUMBER
from netconf_tools.text import MOST_BYTES, Trouble, read

LINE = re.compile(r"//![ \t]*(?P<word>let|include)\b(?P<rest>[^\n]*)", re.A)
"""A comment that is a constant or an include."""

LET = re.compile(r"[ \t]*(?P<name>[A-Za-z_]\w*)[ \t]*=(?P<value>.*)", re.A)
INCLUDE = re.compile(r'[ \t]*"(?P<file>[^"]+)"[ \t\r]*(?://.*)?')
SCALED = re.compile(r"\b[0-9]\w*[KMGT]\b", re.A)
LIST = r"\b(?:accept|map)\b[ \t\r\n]*\[(?P<rest>[^;]*)"
PLAIN_SIZE = (
    r"[\[,][ \t\r\n]*(?P<base>[0-9]\w*)[ \t\r\n]+(?P<word>size)[ \t\r\n]+(?P<size>[0-9]\w*)"
    r"(?=[ \t\r\n]*(?:[],]|to\b))"
)
"""The patterns of the lists of a node, and of a block in one that is two numbers with `size` between them."""

WORDS = re.compile(r"[A-Za-z_]\w*|[0-9]\w*", re.A)
SET = re.compile(r"(?P<name>[A-Za-z_]\w*)=(?P<value>.+)", re.A | re.S)


class Place(NamedTuple):
    """A file, a line and a column in it, both from 1."""

    file: str
    line: int
    column: int


class Refused(Exception):
    """The findings for which no text can be made."""

    def __init__(self, findings: list[Finding]) -> None:
        super().__init__(findings)
        self.findings = findings


class Stretch(NamedTuple):
    """From `at` on a text is that of another one from `source_at` on; `is_copied` is false if all of it stands for
    one place. `file` is the number of the other text."""

    at: int
    file: int
    source_at: int
    is_copied: bool


@dataclass
class Builder:
    """A text that is made of parts of others."""

    parts: list[str] = field(default_factory=list)
    stretches: list[Stretch] = field(default_factory=list)
    size: int = 0

    def put(self, text: str, file: int, source_at: int, is_copied: bool = True) -> None:
        """Puts a part at the end."""
        if text:
            self.parts.append(text)
            self.stretches.append(Stretch(self.size, file, source_at, is_copied))
            self.size += len(text)

    def text(self) -> str:
        """The whole text."""
        return "".join(self.parts)


def origin(stretches: list[Stretch], at: int) -> tuple[int, int]:
    """The number of the text and the place in it from which a place comes."""
    if not stretches:
        return 0, at
    stretch = stretches[max(bisect.bisect_right(stretches, at, key=lambda stretch: stretch.at) - 1, 0)]
    return stretch.file, stretch.source_at + (at - stretch.at if stretch.is_copied else 0)


def place_in(builder: Builder, file: int, source_at: int) -> int | None:
    """The place in a text that comes from a place of one of its parts; the end of a part is one of its places."""
    for stretch, part in zip(builder.stretches, builder.parts):
        size = len(part) if stretch.is_copied else 0
        if stretch.file == file and stretch.source_at <= source_at <= stretch.source_at + size:
            if source_at < stretch.source_at + size or not stretch.is_copied or stretch is builder.stretches[-1]:
                return stretch.at + source_at - stretch.source_at
    return None


class Description:
    """A description as the program reads it, made of files; `names` are the files, `sources` their texts, and
    `constants` the numbers that constants stand for at its end."""

    def __init__(
        self,
        names: list[str],
        sources: list[Source],
        joined: Builder,
        replaced: Builder | None,
        constants: Mapping[str, int],
    ) -> None:
        self.names, self.sources, self.constants = names, sources, constants
        self._joined, self._replaced = joined, replaced
        text = (replaced or joined).text()
        self.source = sources[0] if len(sources) == 1 and text == sources[0].text else Source(text)
        self.is_plain = replaced is None and len(sources) == 1

    @property
    def text(self) -> bytes:
        """The text as bytes."""
        return self.source.text.encode("latin-1")

    def place(self, at: int) -> Place:
        """The file, line and column of a place in the text."""
        if self._replaced:
            at = origin(self._replaced.stretches, at)[1]
        file, at = origin(self._joined.stretches, at)
        source = self.sources[file]
        at = min(at, len(source.text))
        return Place(self.names[file], source.line(at), source.column(at))

    def offset(self, file: str, line: int, column: int) -> int | None:
        """The place in the text of a line and column of a file, or None if nothing in the text comes from there."""
        if file not in self.names:
            return None
        number = self.names.index(file)
        source = self.sources[number]
        if not 1 <= line <= source.last_line:
            return None
        first, end = source.span(line)
        at = place_in(self._joined, number, min(first + column - 1, end))
        return at if at is None or self._replaced is None else place_in(self._replaced, 0, at)

    def place_of_line(self, line: int) -> Place:
        """The file and line of a line of the text; the column is 0."""
        first, end = self.source.span(min(line, self.source.last_line))
        blank = re.compile(r"[ \t\r]*").match(self.source.text, first, end)
        return self.place(blank.end() if blank else first)._replace(column=0)

    def line_text(self, file: str, line: int) -> str | None:
        """A line of one of the files, or None if there is no such line."""
        if file not in self.names:
            return None
        source = self.sources[self.names.index(file)]
        return source.line_text(line) if line <= source.last_line else None

    def finding(self, fault: Fault, message: str) -> Finding:
        """The finding of a fault of the text."""
        place = self.place(fault.at)
        return Finding(
            place.file,
            place.line,
            "error",
            fault.rule,
            message,
            place.column,
            self.width(fault.at, fault.width),
            tuple(self.note(at, note) for at, note in fault.notes),
        )

    def note(self, at: int, message: str) -> Note:
        """A note on a place of the text."""
        place = self.place(at)
        return Note(place.file, place.line, message, place.column)

    def width(self, at: int, width: int) -> int:
        """How many bytes a mark has in the file: as many as in the text, if both are the same there."""
        first, last = self.place(at), self.place(at + max(width, 1) - 1)
        return (
            last.column - first.column + 1
            if (first.file, first.line) == (last.file, last.line) and last.column >= first.column
            else 1
        )


class Joiner:
    """Joins files and what they include."""

    def __init__(self) -> None:
        self.names: list[str] = []
        self.sources: list[Source] = []
        self.joined = Builder()
        self.seen: set[str] = set()
        self.findings: list[Finding] = []

    def put(self, name: str, data: bytes) -> None:
        """Puts the text of a file at the end, and ends its last line."""
        number, source = len(self.names), Source(data.decode("latin-1"))
        self.names.append(name)
        self.sources.append(source)
        if name != "-":
            self.seen.add(os.path.realpath(name))
        at = 0
        for comment in comments_with("//!", source.text):
            hit = LINE.fullmatch(comment.group())
            if hit and hit["word"] == "include" and self.joined.size <= MOST_BYTES:
                self.joined.put(source.text[at:comment.start()] + "\n", number, at)
                at = comment.end()
                self.include(source, hit["rest"], comment.start(), name)
        self.joined.put(source.text[at:], number, at)

    def end_line(self) -> None:
        """Ends the last line, if it is not ended."""
        if self.joined.parts and not self.joined.parts[-1].endswith("\n"):
            number, at = origin(self.joined.stretches, self.joined.size)
            self.joined.put("\n", number, at)

    def include(self, source: Source, rest: str, at: int, name: str) -> None:
        """Puts the text of a file that is included, unless it was before."""
        hit = INCLUDE.fullmatch(rest)
        place = name, source.line(at), source.column(at)
        if hit is None:
            self.refuse(*place, 'an include is `//! include "FILE"`')
            return
        file = hit["file"].encode("latin-1").decode("utf-8", "surrogateescape")
        path = os.path.join(os.path.dirname("" if name == "-" else name), file)
        if os.path.realpath(path) in self.seen:
            return
        try:
            data = read(path)
        except Trouble as trouble:
            self.refuse(*place, str(trouble))
            return
        self.put(path, data)
        self.end_line()

    def refuse(self, file: str, line: int, column: int, message: str) -> None:
        """Keeps the finding of an include."""
        self.findings.append(Finding(file, line, "error", "include", f"include: {message}", column))


class Constants:
    """The numbers that constants stand for, as variables outside of all blocks; `sets` were given from outside."""

    def __init__(self, sets: Mapping[str, int]) -> None:
        self.sets = dict(sets)
        self.numbers = dict(sets)
        self.places: dict[str, int] = {}
        self.used: set[str] = set()
        self.faults: list[Fault] = []

    def atom(self, token: Token, scope: Scope) -> int:
        """The value of a number or of an earlier constant."""
        if token.kind == "number":
            return number_of(token.text)
        if token.text not in self.numbers:
            raise self.fail(
                "let",
                token.at,
                len(token.text),
                f"{quoted(token.text)} is not a constant here{meant(token.text, self.numbers)}",
            )
        self.used.add(token.text)
        return self.numbers[token.text]

    def fail(self, rule: str, at: int, width: int, message: str, notes: Iterable[tuple[int, str]] = ()) -> Faulty:
        """A fault of a constant."""
        return Faulty(Fault("let", at, width, message, tuple(notes)))

    def define(self, rest: str, at: int) -> None:
        """Takes a comment `let`, whose words after it begin at a place; keeps its fault if it has one."""
        try:
            self._define(rest, at)
        except Faulty as wrong:
            self.faults.append(wrong.fault)

    def _define(self, rest: str, at: int) -> None:
        """The same, raising the fault."""
        hit = LET.fullmatch(rest)
        if hit is None:
            begin = at + len(rest) - len(rest.lstrip())
            raise self.fail("let", begin, 1, "a constant is `//! let NAME = EXPRESSION`")
        name, place = hit["name"], at + hit.start("name")
        if name in RESERVED:
            raise self.fail("let", place, len(name), f"{quoted(name)} is a reserved word and names nothing")
        if name in self.places:
            raise self.fail(
                "let",
                place,
                len(name),
                f"{quoted(name)} is already set",
                [(self.places[name], f"{quoted(name)} is set here first")],
            )
        self.places[name] = place
        value = self.value(hit["value"], at + hit.start("value"))
        self.numbers.setdefault(name, value)

    def value(self, text: str, at: int) -> int:
        """The value of an expression that begins at a place."""
        reader = Reader(Source(text), 0, True, len(text) + 1)
        try:
            expression = reader.expression()
            if reader.token.kind != "end":
                raise reader.refuse()
        except Unexpected as wrong:
            what = quoted(wrong.token.text) if wrong.token.text else "the end of the line"
            raise self.fail(
                "let",
                at + wrong.token.at,
                max(len(wrong.token.text), 1),
                f"unexpected {what} in the value of a constant",
            ) from wrong
        except BadToken as bad:
            raise self.fail(
                "let", at + bad.token.at, len(bad.token.text),
                f"{quoted(bad.token.text)} is not a token of an expression"
            ) from bad
        except TooDeep as deep:
            raise self.fail("let", at + deep.token.at, 1, "too many parentheses are open") from deep
        moved = [token._replace(at=at + token.at) for token in expression.tokens]
        value = Sum(self, moved, Scope("", self.numbers, {}, 0, ())).whole()
        if value > LAST_NUMBER:
            raise self.fail("let", at, 1, f"the value is more than {LAST_NUMBER:#x}")
        return value


class Edit(NamedTuple):
    """A part of the text and what stands in its place."""

    at: int
    end: int
    text: str


class Replacer:
    """Finds what has to be replaced in a joined text."""

    def __init__(self, source: Source, constants: Constants) -> None:
        self.source, self.constants = source, constants
        self.lets = self._lets()
        self.edits: list[Edit] = []
        self.hidden: list[frozenset[str]] = []
        """For each open block the variables and parameters that are seen in it."""

    def _lets(self) -> list[tuple[int, str, int]]:
        """The comments that are constants: the place after each, what it says, and the place of that."""
        text = self.source.text
        return [
            (hit.end(), hit["rest"].rstrip("\r"), hit.start("rest"))
            for comment in comments_with("//!", text)
            for hit in [LINE.match(text, comment.start(), comment.end())]
            if hit and hit["word"] == "let"
        ]

    def run(self) -> list[Edit]:
        """The edits, in the order of their places."""
        wanted = self._wanted()
        if wanted or self.lets:
            self._replace_all(wanted)
            self.edits += self._lets_as_comments()
        return sorted(self.edits)

    def _replace_all(self, wanted: list[int]) -> None:
        """Goes over the statements that open or close a block or have a word at one of some places, and replaces in
        the latter."""
        waiting = 0
        for statement in self._statements(wanted):
            while waiting < len(self.lets) and self.lets[waiting][0] <= statement.at:
                self.constants.define(*self.lets[waiting][1:])
                waiting += 1
            at = bisect.bisect_left(wanted, statement.at)
            if at < len(wanted) and wanted[at] < statement.end:
                self.replace(statement)
            self.follow(statement)
        for _, rest, at in self.lets[waiting:]:
            self.constants.define(rest, at)

    def _lets_as_comments(self) -> Iterator[Edit]:
        """The edits by which a constant becomes a plain comment."""
        for end, rest, at in self.lets:
            begin = self.source.text.rindex("//!", 0, at)
            yield Edit(begin, begin + 3, "// ")

    def _statements(self, wanted: list[int]) -> Iterator[Placed]:
        """The statements that open or close a block, and those that have a word at one of some places, in order."""
        plain, end = self.source.plain, 0
        blocks = (hit.start("word") for hit in block_words(self.source, 0, len(plain))) if wanted else ()
        for at in heapq.merge(wanted, blocks):
            if at >= end:
                start = token_at(self.source, max(plain.rfind(";", end, at) + 1, end)).at
                end = plain.find(";", start) + 1 or len(plain)
                yield Placed(start, words[0] if (words := WORDS.match(plain, start)) else "", end)

    def _wanted(self) -> list[int]:
        """The places of words that may be constants or `size`; numbers with suffixes are replaced at once."""
        names = (
            {hit["name"] for _, rest, _ in self.lets for hit in [LET.fullmatch(rest)] if hit}
            | set(self.constants.sets)
            | {"size"}
        )
        text = self.source.text
        if any(scale in text for scale in SCALES):
            for hit in SCALED.finditer(self.source.plain):
                if SCALED_NUMBER.fullmatch(hit.group()) and number_of(hit.group()) <= LAST_NUMBER:
                    self.edits.append(Edit(hit.start(), hit.end(), f"{number_of(hit.group()):#x}"))
        names = {name for name in names if name in text}
        if not names:
            return []
        words = re.compile(rf"\b(?:{'|'.join(sorted(names))})\b", re.A)
        known = set(self._plain_sizes()) if "size" in names else ()
        return [hit.start() for hit in words.finditer(self.source.plain) if hit.start() not in known]

    def _plain_sizes(self) -> Iterator[int]:
        """Replaces the sizes in lists whose block is two numbers, and gives the places of their words: to read the
        statements of these token by token takes a hundred times as long."""
        for list_hit in compiled(LIST).finditer(self.source.plain):
            for hit in compiled(PLAIN_SIZE).finditer(self.source.plain, list_hit.start("rest") - 1, list_hit.end()):
                base, size = hit["base"], hit["size"]
                if not (SCALED_NUMBER.fullmatch(base) or WHOLE_NUMBER.fullmatch(base)):
                    continue
                if not (SCALED_NUMBER.fullmatch(size) or WHOLE_NUMBER.fullmatch(size)):
                    continue
                last = number_of(base) + number_of(size) - 1
                if number_of(size) and last <= LAST_NUMBER:
                    at = hit.start("word")
                    self.edits.append(Edit(at - (self.source.text[at - 1] in " \t"), hit.end("size"), f"-{last:#x}"))
                    yield at

    def follow(self, statement: Placed) -> None:
        """Opens or closes the block of a statement."""
        if statement.word == "end" and self.hidden:
            self.hidden.pop()
        elif statement.word in ("for", "module"):
            seen = self.hidden[-1] if self.hidden and statement.word == "for" else frozenset()
            self.hidden.append(seen | frozenset(self._words_of(statement)))

    def _words_of(self, statement: Placed) -> list[str]:
        """The variable of a loop, or the parameters of a module that are numbers."""
        try:
            found = Reader(self.source, statement.at, True, len(self.source.text)).statement()
        except (Unexpected, TooDeep, BadToken):
            return []
        if isinstance(found, LoopPlaces):
            return [found.word.text]
        return (
            [word.text for sort, word in found.parameters if sort.text == "num"]
            if isinstance(found, ModulePlaces)
            else []
        )

    def replace(self, statement: Placed) -> None:
        """Adds the edits of a statement, up to its first fault."""
        reader = Reader(self.source, statement.at, True, len(self.source.text))
        try:
            reader.statement()
        except (Unexpected, TooDeep, BadToken):
            pass
        hidden = self.hidden[-1] if self.hidden else frozenset()
        values = {
            token.at: self.constants.numbers[token.text]
            for token in reader.variables
            if token.text in self.constants.numbers and token.text not in hidden
        }
        self.constants.used |= {token.text for token in reader.variables if token.at in values}
        self.edits += [Edit(at, self.end_of(at), f"{value:#x}") for at, value in values.items()]
        for block, word in reader.sizes:
            if block.last is not None:
                self.edits += self.sized(block.first, word.at, block.last, values)

    def sized(self, first: Expression, at: int, size: Expression, values: Mapping[int, int]) -> list[Edit]:
        """The edits by which a size becomes the last address of its block: a number, or a difference where there are
        variables."""
        base, length = self.number_in(first, values), self.number_in(size, values)
        if base is not None and length:
            begin = at - (self.source.text[at - 1] in " \t")
            return [Edit(begin, size.end, f"-{base + length - 1:#x}")]
        return [Edit(at, at + 4, f"-({self.spelled(first, values)}+"), Edit(size.end, size.end, " - 1)")]

    def number_in(self, expression: Expression, values: Mapping[int, int]) -> int | None:
        """The value of an expression that has no variables, if it is a number of the language."""
        try:
            tokens = [
                Token("number", f"{values[token.at]:#x}", token.at) if token.at in values else token
                for token in expression.tokens
            ]
            return (
                None
                if any(token.kind == "word" for token in tokens)
                else Sum(self.constants, tokens, Scope("", {}, {}, 0, ())).whole()
            )
        except Faulty:
            return None

    def end_of(self, at: int) -> int:
        """The place after the word at a place."""
        hit = WORDS.match(self.source.plain, at)
        return hit.end() if hit else at

    def spelled(self, expression: Expression, values: Mapping[int, int]) -> str:
        """An expression with the values of its constants and suffixes."""
        return "".join(
            f"{values[token.at]:#x}"
            if token.at in values
            else f"{number_of(token.text):#x}"
            if SCALED_NUMBER.fullmatch(token.text)
            else token.text
            for token in expression.tokens
        )


def edited(text: str, edits: list[Edit]) -> Builder:
    """A text with some of its parts replaced. An edit within an earlier one is left out."""
    builder, at = Builder(), 0
    for edit in edits:
        if edit.at < at:
            continue
        builder.put(text[at:edit.at], 0, at)
        builder.put(edit.text, 0, edit.at, False)
        at = edit.end
    builder.put(text[at:], 0, at)
    return builder


def sets_of(words: Iterable[str]) -> dict[str, int]:
    """The constants that options give, each as NAME=VALUE."""
    found: dict[str, int] = {}
    for word in words:
        hit = SET.fullmatch(word)
        if hit is None or hit["name"] in RESERVED:
            raise Trouble(f"--set {word[:60]}: a constant is set by NAME=VALUE")
        try:
            found[hit["name"]] = Constants({}).value(hit["value"], 0)
        except Faulty as wrong:
            raise Trouble(f"--set {word[:60]}: {wrong.fault.message}") from wrong
    return found


def described(texts: Iterable[tuple[str, bytes]], sets: Mapping[str, int] | None = None) -> Description:
    """The description that files make one after the other, each a name and its bytes; `sets` are constants from
    outside.

    Raises `Refused` with the findings on includes and constants, and `Trouble` for a constant from outside that nothing
    names."""
    joiner = Joiner()
    for name, data in texts:
        joiner.end_line()
        joiner.put(name, data)
    if joiner.findings:
        raise Refused(joiner.findings)
    plain = Description(joiner.names, joiner.sources, joiner.joined, None, {})
    if joiner.joined.size > MOST_BYTES:
        return plain
    constants = Constants(sets or {})
    edits = Replacer(plain.source, constants).run()
    if constants.faults:
        raise Refused([plain.finding(fault, f"let: {fault.message}") for fault in constants.faults])
    for name in constants.sets:
        if name not in constants.used and name not in constants.places:
            raise Trouble(f"--set {name}: no constant and no expression has this name{meant(name, constants.places)}")
    replaced = edited(plain.source.text, edits) if edits else None
    return Description(joiner.names, joiner.sources, joiner.joined, replaced, constants.numbers)


def read_described(names: Iterable[str], sets: Mapping[str, int] | None = None) -> Description:
    """The description that files make; `-` is standard input."""
    return described([(name, read(name)) for name in names], sets)


def read_plain(name: str) -> bytes:
    """The text of a file as the program reads it; what is wrong with its includes and constants is a `Trouble`."""
    try:
        return read_described([name]).text
    except Refused as wrong:
        raise Trouble(next(lines_of(wrong.findings[0]))) from wrong
