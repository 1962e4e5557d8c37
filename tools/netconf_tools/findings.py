"""A finding: what a tool reports about a place in a file, and how it is printed for compilers' readers.

The form of a line is that of GCC, which editors and continuous integration match: `FILE:LINE:COLUMN: error:
MESSAGE`."""

from collections.abc import Callable, Iterator
from dataclasses import dataclass
from typing import Literal

Severity = Literal["error", "warning", "note"]

Source = Callable[[str, int], str | None]
"""What returns a line of a file, or None if it is not known."""

Paint = Callable[[str, str], str]
"""What colours a text by what it is."""

WIDTH = 100
"""How many bytes of a line of source are shown at most."""


@dataclass(frozen=True)
class Note:
    """A remark below a finding, with a place of its own.

    `line` counts from 1. `column` counts bytes from 1; 0 means the line as a whole. `width` is how many bytes are
    marked."""

    file: str
    line: int
    message: str
    column: int = 0
    width: int = 1


@dataclass(frozen=True)
class Finding:
    """What a tool reports about a place in a file.

    `line`, `column` and `width` are those of a `Note`. `rule` is one word that names what was broken, such as
    `Overlap`, `NoPlacement` or `claim`. `message` is one line that can be read without the rule."""

    file: str
    line: int
    severity: Severity
    rule: str
    message: str
    column: int = 0
    width: int = 1
    notes: tuple[Note, ...] = ()


def place_text(file: str, line: int, column: int) -> str:
    """A place as compilers print it: the column is left out if it is 0."""
    return f"{file}:{line}:{column}" if column else f"{file}:{line}"


def lines_of(finding: Finding, source: Source | None = None, paint: Paint = lambda what, text: text) -> Iterator[str]:
    """The printed lines of a finding and of its notes.

    `source` returns a line of a file by its name and number, or None if it is not known. If it is known, and the
    column is too, the line and a caret below the column are printed after the message; not for a note on the line of
    the finding. `paint` colours a text by what it is: a severity, `place` or `caret`."""
    own = Note(finding.file, finding.line, finding.message, finding.column, finding.width)
    for place, severity in ((own, finding.severity), *((note, "note") for note in finding.notes)):
        where = paint("place", f"{place_text(place.file, place.line, place.column)}:")
        yield f"{where} {paint(severity, f'{severity}:')} {place.message}"
        is_shown = place is own or (place.file, place.line) != (own.file, own.line)
        line = source(place.file, place.line) if source and place.column and is_shown else None
        if line and not line.isspace():
            yield from marked(line, place.column, place.width, paint)


def marked(line: str, column: int, width: int, paint: Paint) -> Iterator[str]:
    """A line of source, in Latin-1, and a line with a caret below the column, both indented by two blanks.

    Of a long line the part around the column is shown. A tab is shown as one blank and a control character as a
    question mark, so that the caret stands below its column. The caret may stand one column after the end of the
    line."""
    first = max(0, min(column - 1 - WIDTH // 2, len(line) - WIDTH))
    part, at = line[first:first + WIDTH], column - 1 - first
    shown = "".join(
        " " if letter in "\t\r" else letter if letter >= " " and letter != "\x7f" else "?" for letter in part
    )
    text = shown.rstrip().encode("latin-1").decode("utf-8", "replace")
    yield f"  {'…' if first else ''}{text}{'…' if first + WIDTH < len(line) else ''}"
    yield f"  {' ' * bool(first)}{' ' * at}{paint('caret', '^' + '~' * (min(width, len(part) - at) - 1))}"
