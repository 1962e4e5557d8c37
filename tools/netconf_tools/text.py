"""Runs netconf and reads what it prints: refusals and views."""

import functools
import os
import pathlib
import re
import resource
import shutil
import subprocess
import sys
import tempfile
from dataclasses import dataclass
from typing import IO, NamedTuple

from netconf_tools.limits import MAX_TEXT
from netconf_tools.terminal import at_work

UNITS = ("B", "KiB", "MiB", "GiB", "TiB", "PiB")
REFUSED = re.compile(r"refused: (?:line (?P<line>\d+) )?(?P<rule>\w+)(?: (?P<detail>.*))?\n?")
VIEW = re.compile(r"view (?P<agent>\S+)(?: for (?:read|write))? rows (?P<rows>\d+)")
ROW = re.compile(r"(?P<lo>0x[0-9a-f]+)-(?P<hi>0x[0-9a-f]+) (?P<names>.+)")

MOST_BYTES = MAX_TEXT
"""How many bytes a description may have."""

MOST_PRINTED = {"check": 1 << 26, "run": 1 << 29, "audit": 1 << 29}
"""How many bytes of what the program prints are read, by its word: a small text can be one with a net of gigabytes."""


CAUSES = {
    1: "it does not know these words", 2: "its standard input failed",
    3: "its standard output failed", 6: "a write to its tables failed", 7: "there is not enough memory",
}
"""What each status of the program says that comes with no refusal (docs/language.md, "Statuses")."""


class Trouble(Exception):
    """Something that a user can mend, in one line."""


class Row(NamedTuple):
    """Adjacent addresses of a view, `lo` to `hi`, and the names to which `lo` comes, each a node and an address."""
    lo: int
    hi: int
    names: tuple[tuple[str, int], ...]

    def text(self) -> str:
        """The names as they are printed."""
        return ", ".join(f"{node}@{at:#x}" for node, at in self.names)


class Piece(NamedTuple):
    """Adjacent addresses of an agent that come to adjacent addresses of a node: `lo` to `hi`, and `at` for `lo`."""
    lo: int
    hi: int
    node: str
    at: int

    @property
    def at_last(self) -> int:
        """The last address in the node."""
        return self.at + self.hi - self.lo

    def text(self) -> str:
        """The piece as a row of a view."""
        return f"{self.lo:#x}-{self.hi:#x} {self.node}@{self.at:#x}"

    def within(self, first: int, last: int) -> "Piece | None":
        """The part of the piece that comes to addresses `first` to `last` of its node, or nothing."""
        low, high = max(self.at, first), min(self.at_last, last)
        return Piece(self.lo + low - self.at, self.lo + high - self.at, self.node, low) if low <= high else None


@dataclass
class Refusal:
    """A refusal: its line in the text (0 where it names none), its rule, and what it says behind the rule."""
    line: int
    rule: str
    detail: str


def program() -> str:
    """The built program: that of the variable NETCONF, else the one built in this tree, else the one on the PATH."""
    named = os.environ.get("NETCONF")
    if named:
        found = shutil.which(named)
        if found is None:
            raise Trouble(f"{named}: no such program (it is named by the variable NETCONF)")
        return found
    built = pathlib.Path(__file__).resolve().parents[2] / "crates/netconf/out/netconf"
    found = str(built) if os.access(built, os.X_OK) else shutil.which("netconf")
    if found is None:
        raise Trouble("there is no program netconf: build it, or name it by the variable NETCONF")
    return found


def printed(word: str, text: bytes) -> tuple[int, bytes, bool]:
    """The status of `netconf WORD` over a text of bytes, the first bytes that it prints, and whether these are all.

    Both go through files: a pipe takes a few hundred bytes at a time, and the program writes each reply by itself. The
    program is ended where it prints more than is read."""
    most = MOST_PRINTED[word]
    path = program()
    try:
        with tempfile.TemporaryFile() as source, tempfile.TemporaryFile() as sink:
            source.write(text)
            source.seek(0)
            with at_work(f"netconf {word}"):
                status = ended_status([path, word], source, sink, most + 1)
            sink.seek(0)
            output = sink.read(most)
            is_whole = not sink.read(1)
    except OSError as error:
        folder = tempfile.gettempdir()
        raise Trouble(f"the files for netconf cannot be written in {folder}: {error.strerror}") from error
    if is_whole and status not in (0, 4):
        raise Trouble(ending_text(word, status))
    return status, output, is_whole


def ending_text(word: str, status: int) -> str:
    """How `netconf WORD` ended without an answer, and the cause if it is known; a negative status is that of a
    signal."""
    if status < 0:
        return f"netconf {word} was ended by signal {-status}"
    cause = CAUSES.get(status)
    return f"netconf {word} ended with status {status}" + (f": {cause}" if cause else "")


def ended_status(command: list[str], source: IO[bytes], sink: IO[bytes], size: int) -> int:
    """The status with which a command ends, between two files. A write that makes the second longer than `size` ends
    it."""
    try:
        process = subprocess.Popen(command, stdin=source, stdout=sink, stderr=subprocess.DEVNULL)
    except OSError as error:
        raise Trouble(f"netconf does not start: {error.strerror}") from error
    with process:
        try:
            soft, hard = resource.prlimit(process.pid, resource.RLIMIT_FSIZE)
            least = min(limit for limit in (size, soft, hard) if limit != resource.RLIM_INFINITY)
            resource.prlimit(process.pid, resource.RLIMIT_FSIZE, (least, hard))
        except ProcessLookupError:
            # It has ended already.
            pass
        return process.wait()


def run(word: str, text: bytes) -> tuple[int, str]:
    """The status and the output of `netconf WORD` over a text of bytes."""
    status, output, is_whole = printed(word, text)
    if not is_whole:
        raise Trouble(f"netconf {word} prints more than {MOST_PRINTED[word]:,} bytes, and no more are read")
    return status, output.decode("latin-1")


def checked(text: bytes) -> tuple[Refusal | None, str | None]:
    """The refusal of a description, if it is refused, and else its printed net, if that is not longer than what is
    read."""
    status, output, is_whole = printed("check", text)
    if is_whole and status == 0 or not is_whole and not output.startswith(b"refused: "):
        return None, output.decode("latin-1") if is_whole else None
    return refusal_of(output.decode("latin-1")), None


def refusal_in(text: bytes) -> Refusal | None:
    """The refusal of a description, or nothing where it is taken. Its net may be of any size."""
    return checked(text)[0]


def read(name: str, most: int = MOST_BYTES) -> bytes:
    """The bytes of a file, or those of standard input where the name is `-`; of one with more bytes than `most` the
    first `most` + 1, which are too many for whoever gets them."""
    if name == "-" and sys.stdin is None:
        raise Trouble("-: standard input is closed")
    try:
        if name == "-":
            return sys.stdin.buffer.read(most + 1)
        with open(name, "rb") as file:
            return file.read(most + 1)
    except OSError as error:
        raise Trouble(f"{name}: {error.strerror}") from error


def refusal_of(output: str) -> Refusal:
    """The refusal that netconf printed."""
    hit = REFUSED.fullmatch(output)
    if hit is None:
        raise Trouble(f"netconf printed no refusal, but {output[:60]!r}")
    return Refusal(int(hit["line"] or 0), hit["rule"], hit["detail"] or "")


def name_of(text: str) -> tuple[str, int]:
    """A node and an address from `node@0x10`."""
    node, at = text.rsplit("@", 1)
    return node, int(at, 16)


def row_of(line: str) -> Row:
    """The row that a line prints."""
    row = ROW.fullmatch(line)
    if row is None:
        raise Trouble(f"netconf printed no row, but {line[:60]!r}")
    return Row(int(row["lo"], 16), int(row["hi"], 16), tuple(name_of(name) for name in row["names"].split(", ")))


row_at = functools.lru_cache(maxsize=None)(row_of)


def pieces_of(line: str) -> list[Piece]:
    """The pieces of a row: one for each of its names."""
    row = row_at(line)
    return [Piece(row.lo, row.hi, node, at) for node, at in row.names]


def views_of(output: str) -> dict[str, list[Row]]:
    """The views in an output of `netconf run`: the rows of each agent, in one list for agents that see the same.

    Replies to other commands are passed over."""
    lines, at = output.splitlines(), 0
    views: dict[str, list[Row]] = {}
    known: dict[tuple[str, ...], list[Row]] = {}
    while at < len(lines):
        view = VIEW.fullmatch(lines[at])
        at += 1
        if view:
            rows = tuple(lines[at:at + int(view["rows"])])
            at += len(rows)
            if rows not in known:
                known[rows] = [row_of(line) for line in rows]
            views[view["agent"]] = known[rows]
    return views


def shortened(text: str, width: int) -> str:
    """A text in at most `width` characters, with its middle left out where it is longer."""
    if len(text) <= width:
        return text
    behind = (width - 1) * 2 // 3
    return text[:width - 1 - behind] + "…" + text[-behind:]


def size_text(size: int) -> str:
    """A number of bytes in the largest unit of which there is at least one, with `~` where it is rounded."""
    power = min(max(size.bit_length() - 1, 0) // 10, len(UNITS) - 1)
    number = f"{size / (1 << 10 * power):.1f}".removesuffix(".0")
    return f"{'' if float(number) * (1 << 10 * power) == size else '~'}{number} {UNITS[power]}"
