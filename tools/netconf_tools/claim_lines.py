"""Finds the claims of a description and of files of claims, and the names that each claim can use.

In a description a claim is a comment that begins with `//!`. One that stands in a module is a claim of each use of
the module, and one that stands in a loop is one of each turn of the loop: it sees the parameters and the variables
that the statements beside it see. In a file of claims each line is one, and what follows `//` is a comment."""

from collections.abc import Iterable, Iterator, Sequence
from dataclasses import replace
from typing import NamedTuple

from netconf_tools.expand import Description
from netconf_tools.grammar import comments_with
from netconf_tools.limits import MAX_MODULES
from netconf_tools.source import OUTSIDE, Expansion, Scope, Statement, Text, statements_of, value
from netconf_tools.text import Trouble

MOST_CLAIMS = 1 << 18
"""How many claims the claims of a description may stand for, with one for each use and each turn of a loop."""


class Line(NamedTuple):
    """A line with a claim: the file, the number of the line, its text up to the end of the claim, and the place in
    the text at which the claim begins. `scope` has the names that it can use, and `where` says for which use and turn
    it is one."""
    file: str
    line: int
    text: str
    at: int
    scope: Scope = OUTSIDE
    where: str = ""

    @property
    def column(self) -> int:
        """The column of the first letter of the claim, counted from 1."""
        return self.at + len(self.text[self.at:]) - len(self.text[self.at:].lstrip()) + 1

    @property
    def words(self) -> str:
        """The claim in one line, with one blank between its words."""
        return " ".join(self.text[self.at:].split())


class Mark(Statement):
    """A claim in a body of statements, at a place of the text without its comments."""

    def __init__(self, text: Text, place: int, claim: Line) -> None:
        super().__init__("claim", text, place, place)
        self.claim = claim


def claim_in_comment(file: str, number: int, text: str, at: int) -> Line:
    """The claim that a comment `//!` holds, whose text begins at a place of the line."""
    end = text.find("//", at)
    return Line(file, number, text[:end] if end >= 0 else text, at)


def lines_of_file(file: str, text: str) -> Iterator[Line]:
    """The claims of a file of claims, one on each line that is not empty, with `//!` before it or without."""
    for number, whole in enumerate(text.split("\n"), 1):
        before, slashes, after = whole.partition("//")
        if before.strip():
            yield Line(file, number, before, 0)
        if slashes and after.startswith("!"):
            yield claim_in_comment(file, number, whole, len(before) + 3)


def marks_of(description: Description, read: Text) -> list[Mark]:
    """The claims in the comments of a description, in their order. Comments that include a file or define a constant
    are none of its text any more."""
    marks: list[Mark] = []
    text = description.source.text
    for hit in comments_with("//!", text):
        place = description.place(hit.start())
        line = description.line_text(place.file, place.line) or ""
        marks.append(Mark(read, hit.start(), claim_in_comment(place.file, place.line, line, place.column + 2)))
    return marks


def with_marks(body: Iterable[Statement], marks: list[Mark]) -> list[Statement]:
    """The statements of a body and the claims in it, in the order of the text; those in modules and loops go to the
    bodies of these. `marks` has the claims from the last one to the first, and none is left in it."""
    found: list[Statement] = []
    for statement in body:
        while marks and marks[-1].start < statement.start:
            found.append(marks.pop())
        found.append(statement)
        if statement.kind in ("module", "for"):
            inner = []
            while marks and marks[-1].start < statement.close:
                inner.append(marks.pop())
            statement.body = with_marks(statement.body, inner[::-1])
    found += marks[::-1]
    marks.clear()
    return found


class ClaimExpansion(Expansion):
    """Goes through the modules and loops of a description, and finds for each claim in them the names that it can
    use."""

    def __init__(self) -> None:
        super().__init__()
        self.found: list[Line] = []
        self.turns: tuple[str, ...] = ()

    def run(self, body: Sequence[Statement], scope: Scope) -> None:
        """Goes through the statements of a body, of which no node is made."""
        for statement in body:
            if isinstance(statement, Mark):
                self.keep(statement.claim, scope)
            elif statement.kind in ("module", "use", "for"):
                super().run([statement], scope)

    def keep(self, line: Line, scope: Scope) -> None:
        """Keeps a claim with the names that it can use."""
        if len(self.found) == MOST_CLAIMS:
            raise Trouble(f"{line.file}:{line.line}: with one claim for each use and each turn of a loop there are "
                          f"more than {MOST_CLAIMS:,} claims")
        where = [f"in {scope.prefix[:-1]}"] if scope.prefix else []
        self.found.append(line._replace(scope=scope, where=", ".join([*where, *self.turns])))

    def use(self, statement: Statement, scope: Scope) -> None:
        """Goes through the body of a module, which sees no variable of a loop round the use."""
        kept, self.turns = self.turns, ()
        super().use(statement, scope)
        self.turns = kept

    def loop(self, statement: Statement, scope: Scope) -> None:
        """Goes through the body of a loop once for each value of its variable."""
        kept, word = self.turns, statement.parts["word"]
        for number in range(value(statement.parts["first"], scope), value(statement.parts["last"], scope) + 1):
            self.turns = (*kept, f"{word} = {number}")
            self.run(statement.body, replace(scope, numbers={**scope.numbers, word: number}))
        self.turns = kept


def lines_of_description(description: Description) -> tuple[list[Line], list[Line]]:
    """The claims of a description that netconf takes: each with its names, once for each use and each turn of a loop
    that it stands in; and those that stand in modules that are never used, or in loops that have no turn."""
    read, expansion = Text(description.source.text), ClaimExpansion()
    marks = marks_of(description, read)
    if not marks:
        return [], []
    expansion.run(with_marks(statements_of(read), marks[::-1]), replace(OUTSIDE, modules=MAX_MODULES))
    used = {(line.file, line.line) for line in expansion.found}
    return expansion.found, [mark.claim for mark in marks if (mark.claim.file, mark.claim.line) not in used]
