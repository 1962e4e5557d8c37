"""netconf-query: worked answers, agreement with `resolve` over the examples and made boards, images of tables, and
bad input."""

import json
import pathlib
import random
from collections.abc import Iterable
from typing import Any

from netconf_tools.differences import Difference, changes_between, compared
from netconf_tools.dump import image_in
from netconf_tools.text import Piece, pieces_of
from netconf_tools.text import run as program_output
from netconf_tools.views import ACCESSES, Board, ImageBoard
from tests.case import EXAMPLES, TOOLS, Case, descriptions
from tests.inside import called

QUERY = TOOLS / "netconf-query"

OLD = """dram is accept [0x0-0x3fffffff]; //! cpu0 uart at 0x10000000
uart is accept [0x0-0xfff];
bus is map [0x10000000-0x10000fff to uart at 0x0, 0x80000000-0xbfffffff to dram at 0x0];
agent cpu0 is over bus;
agent cpu1 is over bus;
//! same cpu0 cpu1
agent display is map [0x0-0xfffffff to bus at 0x80000000];
//! never display dram 0x10000000-0x10ffffff for write
//! only display dram 0x0-0xfffffff
agent dma is map [0x0-0x3fff to iommu at 0x0];
unit iommu kind pages page 12 slots 4 reach 32 to bus;
// A comment that is not a claim: //! never cpu0 dram 0x0
begin; //! only dma dram 0x9000-0xafff
grant ring dma dram 0x9000 0x1000 for read;
grant data dma dram 0xa000 0x1000;
"""
LESS = OLD.replace("agent cpu1 is over bus;\n//! same cpu0 cpu1\n", "") \
    .replace("0xa000 0x1000;", "0xa000 0x1000 for read;")
NEW = OLD.replace("0xfffffff to bus", "0x1fffffff to bus").replace("0x10000000-0x10000fff", "0x10001000-0x10001fff") \
    .replace("cpu1 is over", "cpu1 is map [0x0-0xfff to uart at 0x0] over")
BROKEN = """new.net:1:38: error: does not hold: cpu0 uart at 0x10000000
new.net:1: note: cpu0 for read: 0x10000000 comes to nothing
new.net:1: note: cpu0 for write: 0x10000000 comes to nothing
new.net:6:5: error: does not hold: same cpu0 cpu1
new.net:6: note: cpu1 for read: 0x0-0xfff uart@0x0
new.net:6: note: cpu1 for write: 0x0-0xfff uart@0x0
new.net:8:5: error: does not hold: never display dram 0x10000000-0x10ffffff for write
new.net:8: note: display for write: 0x10000000-0x10ffffff dram@0x10000000
new.net:9:5: error: does not hold: only display dram 0x0-0xfffffff
new.net:9: note: display for read: 0x10000000-0x1fffffff dram@0x10000000
new.net:9: note: display for write: 0x10000000-0x1fffffff dram@0x10000000
claims that hold: 1, that do not: 4
"""
ANSWERS: list[tuple[list[str], int, str]] = [
    (["who", "old.net", "dram", "0x9000", "0x1000"], 0,
     "cpu0 0x80009000-0x80009fff dram@0x9000 read and write\ncpu1 0x80009000-0x80009fff dram@0x9000 read and write\n"
     "display 0x9000-0x9fff dram@0x9000 read and write\ndma 0x0-0xfff dram@0x9000 read\n"),
    (["who", "old.net", "dram", "0x9ff8-0xa007", "for", "write"], 0,
     "cpu0 0x80009ff8-0x8000a007 dram@0x9ff8 write\ncpu1 0x80009ff8-0x8000a007 dram@0x9ff8 write\n"
     "display 0x9ff8-0xa007 dram@0x9ff8 write\ndma 0x1000-0x1007 dram@0xa000 write\n"),
    (["who", "old.net", "uart", "0"], 0,
     "cpu0 0x10000000-0x10000000 uart@0x0 read and write\ncpu1 0x10000000-0x10000000 uart@0x0 read and write\n"),
    (["who", "old.net", "dma", "0x1800", "for", "write"], 0,
     "cpu0 0x8000a800-0x8000a800 dram@0xa800 write\ncpu1 0x8000a800-0x8000a800 dram@0xa800 write\n"
     "display 0xa800-0xa800 dram@0xa800 write\ndma 0x1800-0x1800 dram@0xa800 write\n"),
    (["who", "old.net", "bus", "0x10000ff0", "0x20", "for", "read"], 0,
     "cpu0 0x10000ff0-0x10000fff uart@0xff0 read\ncpu1 0x10000ff0-0x10000fff uart@0xff0 read\n"),
    (["who", "old.net", "iommu", "0x0"], 2, ""),
    (["where", "old.net", "dma", "dram", "0x9010"], 0, "dma has dram@0x9010 at 0x10 read\n"),
    (["where", "old.net", "dma", "dram", "40960"], 0, "dma has dram@0xa000 at 0x1000 read and write\n"),
    (["where", "old.net", "dma", "dram", "0x9010", "for", "write"], 0, "dma does not have dram@0x9010 for write\n"),
    (["where", "new.net", "cpu1", "uart", "0x4"], 0,
     "cpu1 has uart@0x4 at 0x4 read and write\ncpu1 has uart@0x4 at 0x10001004 read and write\n"),
    (["where", "old.net", "dma", "cpu0", "0x80009010"], 0,
     "cpu0@0x80009010 is dram@0x9010\ndma has dram@0x9010 at 0x10 read\n"),
    (["where", "old.net", "dma", "bus", "0x80009010", "for", "write"], 0,
     "bus@0x80009010 is dram@0x9010\ndma does not have dram@0x9010 for write\n"),
    (["where", "old.net", "cpu0", "0x80009010"], 0, "cpu0@0x80009010 is dram@0x9010\n"),
    (["where", "old.net", "dma", "0x1fff"], 0, "dma@0x1fff is dram@0xafff\n"),
    (["diff", "old.net", "new.net"], 1,
     "cpu0:\n  ~ uart@0x0-0xfff at 0x10000000, and now at 0x10001000\n"
     "cpu1:\n  ~ uart@0x0-0xfff at 0x10000000, and now at 0x0\n  + uart@0x0-0xfff at 0x10001000\n"
     "display:\n  + dram@0x10000000-0x1fffffff at 0x10000000\n"),
    (["diff", "old.net", "old.net"], 0, ""),
    (["diff", "old.net", "less.net"], 1, "- agent cpu1\ndma:\n  - dram@0xa000-0xafff at 0x1000, for write\n"),
    (["test", "old.net"], 0, "claims that hold: 5, that do not: 0\n"),
    (["test", "new.net"], 1, BROKEN),
    (["test", "old.net", "more.claims"], 1,
     "more.claims:2:1: error: does not hold: all display dram 0x0-0x10000000\n"
     "more.claims:2: note: display for read: nothing is dram@0x10000000-0x10000000\n"
     "more.claims:2: note: display for write: nothing is dram@0x10000000-0x10000000\n"
     "more.claims:4:1: error: does not hold: alone dma dram 0x9000\n"
     "more.claims:4: note: cpu0 for read: 0x80009000-0x80009000 dram@0x9000\n"
     "more.claims:4: note: cpu0 for write: 0x80009000-0x80009000 dram@0x9000\n"
     "more.claims:4: note: cpu1 for read: 0x80009000-0x80009000 dram@0x9000\n"
     "more.claims:4: note: cpu1 for write: 0x80009000-0x80009000 dram@0x9000\n"
     "more.claims:4: note: display for read: 0x9000-0x9000 dram@0x9000\n"
     "more.claims:4: note: display for write: 0x9000-0x9000 dram@0x9000\n"
     "claims that hold: 7, that do not: 2\n"),
]
"""Questions, each with its status and its answer, worked out by hand."""

MORE = ("//! dma dram@0x9000 at 0x0 for read\nall display dram 0x0-0x10000000\n// no claim\n"
        "alone dma dram 0x9000 // and why\nall dma dram 0xa000-0xafff\n")


def names_at(board: Board, agent: str, access: str, address: int) -> set[tuple[str, int]]:
    """The names to which an address comes by the views of a board."""
    return names_in(board.views([agent])[agent, access], address)


def names_in(lines: Iterable[str], address: int) -> set[tuple[str, int]]:
    """The names to which an address comes by the rows of a view."""
    return {(piece.node, piece.at + address - piece.lo) for line in lines for piece in pieces_of(line)
            if piece.lo <= address <= piece.hi}


def asked_of(board: Board, chosen: random.Random, count: int) -> list[tuple[str, str, int]]:
    """Agents, accesses and addresses chosen at random, many of them at the ends of rows."""
    views = board.views(board.agents)
    spans = [(piece.lo, piece.hi) for lines in views.values() for line in lines[:400] for piece in pieces_of(line)[:1]]
    asked = []
    for _ in range(count):
        first, last = chosen.choice(spans or [(0, 0)])
        near = (first - 1, first, last, last + 1, chosen.randint(first, last), chosen.randrange(1 << 40))
        address = min(max(chosen.choice(near), 0), (1 << 56) - 1)
        asked.append((chosen.choice(board.agents), chosen.choice(ACCESSES), address))
    return asked


def disagreements(path: pathlib.Path, chosen: random.Random, count: int = 1000) -> list[Any]:
    """Addresses chosen at random of which views, `who` and `where` do not say what `resolve` says; of very many the
    first."""
    board = Board(str(path))
    if not board.agents:
        return []
    asked = asked_of(board, chosen, count)
    script, changes = board.script
    questions = "".join(f"resolve {agent} {address:#x} for {access};\n" for agent, access, address in asked)
    lines = program_output("run", script + questions.encode())[1].splitlines()[len(changes):]
    wrong: list[Any] = [] if len(lines) == count else [len(lines)]
    for (agent, access, address), line in zip(asked, lines):
        names = [] if line.endswith(": nothing") else line.split(": ", 1)[1].split(", ")
        due = {(name.rsplit("@", 1)[0], int(name.rsplit("@", 1)[1], 16)) for name in names}
        found = names_at(board, agent, access, address)
        seen = {(node, at): [piece.lo for piece in board.seen(agent, access, node, at, at)] for node, at in due}
        back = {name for name, places in seen.items() if address in places}
        if not due == found == back:
            wrong.append((agent, access, hex(address), due, found, back))
    return wrong[:3]


Names = set[tuple[str, int]]
"""The names to which an address comes."""


def applied(changes: list[Difference], agent: str, access: str, address: int, names: Names) -> Names:
    """What names an address has after changes."""
    mine = [change for change in changes if agent in change.agents and change.access in ("", access)]
    names = names - {(change.node, change.first + address - change.old) for change in mine
                     if change.old is not None and change.old <= address <= change.old + change.last - change.first}
    return names | {(change.node, change.first + address - change.new) for change in mine
                    if change.new is not None and change.new <= address <= change.new + change.last - change.first}


class TestAnswers(Case):
    """Questions over files."""

    def setUp(self) -> None:
        for name, text in (("old.net", OLD), ("new.net", NEW), ("less.net", LESS), ("more.claims", MORE)):
            (self.folder / name).write_text(text)

    def query(self, *words: str) -> tuple[int, str, str]:
        """The status, the output and the errors of a question."""
        return called("query", *words, folder=self.folder)

    def test_answers(self) -> None:
        """The worked answers; and the same number of rows in the JSON."""
        for words, status, output in ANSWERS:
            with self.subTest(words=" ".join(words)):
                self.assertEqual(self.query(*words)[:2], (status, output))
                if status != 2:
                    again, text, _ = self.query(words[0], "--json", *words[1:])
                    self.assertEqual((again, rows_in(json.loads(text))), (status, rows_of(words, output)))

    def test_troubles(self) -> None:
        """Bad input: one clear line, nothing on standard output, status 2."""
        for name, text in FILES:
            (self.folder / name).write_text(text)
        for words, error in TROUBLES:
            with self.subTest(words=words):
                self.assertEqual(self.query(*words.split(" ")), (2, "", f"netconf-query: {error}\n"))
        status, output, errors = self.query()
        self.assertEqual((status, output, errors.split(":")[0]), (2, "", "usage"))

    def test_claims_that_are_none(self) -> None:
        """What is no claim is shown with its line and a mark; nothing is judged, and the status is 2."""
        (self.folder / "wrong.claims").write_text("cpu0 sees all\nsame cpu0 cpu1\n\n//! never gpu dram 0x0 // why\n")
        status, output, errors = self.query("test", "old.net", "wrong.claims")
        self.assertEqual((status, output, errors), (2, "", (
            "wrong.claims:1:11: error: unexpected 'all', expected 'at', as in AGENT NODE at ADDRESS\n"
            "  cpu0 sees all\n            ^~~\n"
            "wrong.claims:4:11: error: gpu is not an agent; the agents are: cpu0, cpu1, display, dma\n"
            "  //! never gpu dram 0x0\n            ^~~\n")))

    def test_refused(self) -> None:
        """A grant that is refused is reported, and fails a test that is strict."""
        text = "agent a is over m; m is accept [0x0-0xfff]; //! same a a\nbegin;\ngrant g a m 0x0 0x1001;\n"
        (self.folder / "fails.net").write_text(text)
        refused = "netconf-query: fails.net:3: grant g is refused (NotAccepted 0x1000), and is no part of the answer\n"
        self.assertEqual(self.query("who", "fails.net", "m", "0"), (0, "a 0x0-0x0 m@0x0 read and write\n", refused))
        self.assertEqual(self.query("test", "fails.net"), (0, "claims that hold: 1, that do not: 0\n", refused))
        strict = "fails.net:3: error: grant g is refused: NotAccepted 0x1000\nclaims that hold: 1, that do not: 0\n"
        self.assertEqual(self.query("test", "--strict", "fails.net"), (1, strict, refused))

    def test_left_out(self) -> None:
        """Masters that are left out are counted below each answer; a test that is strict fails unless a claim accepts
        each."""
        text = ("//- /soc/usb@1: no window\n//- /soc/eth@2: no unit\nagent a is over m;\nm is accept [0x0-0xfff];\n"
                "//! same a a\n")
        (self.folder / "board.net").write_text(text)
        (self.folder / "accepted").write_text("left_out /soc/usb@1\nleft_out /soc/e*\n")
        count = ("netconf-query: board.net: 2 masters are left out of the description, and of the answer "
                 "(/soc/usb@1, ..)\n")
        self.assertEqual(self.query("who", "board.net", "m", "0"), (0, "a 0x0-0x0 m@0x0 read and write\n", count))
        self.assertEqual(self.query("where", "board.net", "a", "0"), (0, "a@0x0 is m@0x0\n", count))
        self.assertEqual(self.query("test", "board.net"), (0, "claims that hold: 1, that do not: 0\n", count))
        strict = ("board.net:1: error: a master is left out: /soc/usb@1: no window\n"
                  "board.net:2: error: a master is left out: /soc/eth@2: no unit\n"
                  "claims that hold: 1, that do not: 0\n")
        self.assertEqual(self.query("test", "--strict", "board.net"), (1, strict, count))
        self.assertEqual(self.query("test", "--strict", "board.net", "accepted"),
                         (0, "claims that hold: 3, that do not: 0\n", count))

    def test_files_and_constants(self) -> None:
        """A description of several files with constants is read as netconf-run reads it; each place is one of its
        file, and claims know the constants."""
        parts = "m is accept [0x0 size SIZE];\n\n//! all a m 0x0 size SIZE\n//- /x: no\n"
        (self.folder / "parts.net").write_text(parts)
        (self.folder / "board.net").write_text("//! let SIZE = 4K\n//! include \"parts.net\"\nagent a is over m;\n"
                                               "begin;\ngrant g a m 0x0 SIZE+1;\n//! never a m 0x0\n")
        errors = ("netconf-query: board.net:5: grant g is refused (NotAccepted 0x1000), and is no part of the answer\n"
                  "netconf-query: board.net: 1 master is left out of the description, and of the answer (/x)\n")
        broken = ("board.net:6:5: error: does not hold: never a m 0x0\nboard.net:6: note: a for read: 0x0-0x0 m@0x0\n"
                  "board.net:6: note: a for write: 0x0-0x0 m@0x0\nclaims that hold: 1, that do not: 1\n")
        self.assertEqual(self.query("test", "board.net"), (1, broken, errors))
        left_out = "parts.net:4: error: a master is left out: /x: no"
        self.assertIn(left_out, self.query("test", "--strict", "board.net")[1])
        self.assertEqual(self.query("who", "--set", "SIZE=8K", "board.net", "m", "0x1fff")[1],
                         "a 0x1fff-0x1fff m@0x1fff read and write\n")
        (self.folder / "more").write_text("let SIZE = 1\n")
        self.assertIn("more:1:5: error: 'SIZE' is defined already, in the description",
                      self.query("test", "board.net", "more")[2])
        (self.folder / "parts.net").write_text("m is accept [0x0 size SIZE;\n")
        self.assertEqual(self.query("test", "board.net")[0], 2)
        (self.folder / "board.net").write_text('//! include "none.net"\n')
        missing = "board.net:1:1: error: include: none.net: No such file or directory"
        self.assertEqual(self.query("test", "board.net"), (2, "", f"netconf-query: {missing}\n"))

    def test_unused(self) -> None:
        """Claims in a module that is never used are no claims of anything: that is reported, and fails a test that is
        strict."""
        (self.folder / "m.net").write_text("agent a is;\nmodule m();\n//! same a a\n//! samee a a\nend;\n")
        status, output, errors = self.query("test", "m.net")
        self.assertEqual((status, output), (2, ""))
        self.assertIn("m.net:4:13: error: unexpected 'a', expected 'at'", errors)
        (self.folder / "m.net").write_text("agent a is;\nmodule m();\n//! same a a\nend;\n//! same a a\n")
        unused = "this claim is not tested: its module is never used, or its loop has no turn"
        self.assertEqual(self.query("test", "m.net"),
                         (0, "claims that hold: 1, that do not: 0\n", f"netconf-query: m.net:3: {unused}\n"))
        self.assertEqual(self.query("test", "--strict", "m.net")[:2],
                         (1, f"m.net:3:5: error: {unused}: same a a\nclaims that hold: 1, that do not: 0\n"))


class TestImages(Case):
    """Questions under an image of tables that somebody else made."""

    description = str(EXAMPLES / "foreign_tables.net")
    tables = str(EXAMPLES / "foreign_tables.tables")
    shut = "1 slot has a record that is malformed, and nothing passes there (netconf-lint --audit shows why)"

    def test_answers(self) -> None:
        """Each question is answered from what the image has, worked out by hand; the commands are not run."""
        warning = f"netconf-query: {self.tables}: {self.shut}\n"
        (self.folder / "c").write_text("disjoint disk card for write\nat card 0x1000 dram 0x9000 4K for write\n")
        for words, status, output in (
                (["who", "dram", "0x9000", "0x1000"], 0,
                 "core0 0x80009000-0x80009fff dram@0x9000 read and write\n"
                 "disk 0x1000-0x1fff dram@0x9000 read and write\n"
                 "card 0x1000-0x1fff dram@0x9000 write\n"),
                (["who", "card", "0x3004", "for", "read"], 0,
                 "core0 0x10000004-0x10000004 flash@0x4 read\ncard 0x3004-0x3004 flash@0x4 read\n"),
                (["where", "disk", "dram", "0x9010"], 0, "disk has dram@0x9010 at 0x1010 read and write\n"),
                (["where", "card", "core0", "0x80009010", "for", "read"], 0,
                 "core0@0x80009010 is dram@0x9010\ncard does not have dram@0x9010 for read\n"),
                (["diff"], 1, "disk:\n  - dram@0x5000-0x5fff at 0x1000\n  + dram@0x9000-0x9fff at 0x1000\n"
                 "card:\n  + flash@0x0-0xfff at 0x3000\n"),
                (["test", str(self.folder / "c")], 1,
                 "does not hold: disjoint disk card for write\nnote: disk for write: 0x1000-0x1fff dram@0x9000\n"
                 "note: card for write: 0x1000-0x1fff dram@0x9000\nclaims that hold: 1, that do not: 1\n")):
            with self.subTest(words=words):
                command, *rest = words
                seen = called("query", command, "--image", self.tables, self.description, *rest)
                lines = seen[1].replace(f"{self.folder}/c:1:1: error: ", "").replace(f"{self.folder}/c:1: ", "")
                self.assertEqual((seen[0], lines, seen[2]), (status, output, warning))

    def test_strict(self) -> None:
        """A slot that is shut out fails a test that is strict."""
        (self.folder / "c").write_text("same disk disk")
        words = ["test", "--strict", "--image", self.tables, self.description, self.folder / "c"]
        status, output, _ = called("query", *words)
        due = (f"{self.description}:12:1: error: card_mmu slot 2: malformed record: 0x8000a03: bit 1 of its gate word "
               "must be 0\nclaims that hold: 1, that do not: 0\n")
        self.assertEqual((status, output), (1, due))

    def test_own_image(self) -> None:
        """Under the image that its own commands make a description is what it is after them; of two images what
        differs is shown."""
        path = EXAMPLES / "receive_ring.net"
        board = Board(str(path))
        (self.folder / "own").write_bytes(board.image)
        under = ImageBoard(str(path), str(self.folder / "own"))
        after = {key: tuple(lines) for key, lines in board.views(board.agents).items()}
        self.assertEqual(under.views(under.agents), after)
        self.assertEqual(called("query", "diff", "--image", self.folder / "own", path)[:2], (0, ""))
        turned = bytearray(board.image)
        turned[next(at for at in range(16, len(turned)) if turned[at] & 1) + 2] ^= 1
        (self.folder / "turned").write_bytes(turned)
        seen = called("query", "diff", "--old-image", self.folder / "own", "--image", self.folder / "turned", path)
        self.assertEqual((seen[0], seen[1].count("  - "), seen[1].count("  + ")), (1, 1, 1), seen)

    def test_troubles(self) -> None:
        """An image that is refused, and a side that is the same as the other: one line, and status 2."""
        (self.folder / "cut").write_bytes(image_in(pathlib.Path(self.tables).read_bytes())[:-1])
        fault = "refused: image Short 119: the image ends at this byte, inside a field"
        for words, error in ((["who", "--image", "cut", self.description, "dram", "0"], f"cut: {fault}"),
                             (["test", "--image", "none", self.description], "none: No such file or directory"),
                             (["diff", self.description],
                              "both sides are the same: name a second description, or an image by --image")):
            with self.subTest(words=words):
                if words[0] == "test":
                    (self.folder / "c").write_text("same disk disk")
                    words = [*words, "c"]
                self.assertEqual(called("query", *words, folder=self.folder), (2, "", f"netconf-query: {error}\n"))


class TestAgreement(Case):
    """Answers beside `resolve`, and differences beside both views."""

    def test_resolve(self) -> None:
        """The views of each example say of random addresses what `resolve` says."""
        chosen = random.Random(47)
        (self.folder / "old.net").write_text(OLD)
        for path in [*descriptions(), self.folder / "old.net"]:
            with self.subTest(path=path.name):
                self.assertEqual(disagreements(path, chosen, 200), [])

    def test_differences(self) -> None:
        """What is shown of two boards makes of what an agent saw what it sees, at random addresses."""
        chosen = random.Random(47)
        for one, other in ((OLD, NEW), (NEW, LESS), (LESS, OLD)):
            old, new = (Board(name, text.encode()) for name, text in (("old", one), ("new", other)))
            changes = list(compared(old, new))
            places = [place for change in changes for place in (change.old, change.new) if place is not None] or [0]
            for _ in range(400):
                agent = chosen.choice([agent for agent in old.agents if agent in new.agents])
                access = chosen.choice(ACCESSES)
                address = max(0, chosen.choice(places) + chosen.choice((-1, 0, 1, 0x10, 0xfff, 0x1000, 0x12345)))
                names = applied(changes, agent, access, address, names_at(old, agent, access, address))
                self.assertEqual(names, names_at(new, agent, access, address), (agent, access, hex(address)))

    def test_changes_by_chance(self) -> None:
        """The changes between views made by chance turn the one into the other at each address."""
        chance = random.Random(57)
        for _ in range(300):
            before, after = rows_by_chance(chance), rows_by_chance(chance)
            changes = [Difference(("a",), "", *change) for change in changes_between(before, after)]
            for address in range(60):
                names, due = (names_in(lines, address) for lines in (before, after))
                self.assertEqual(applied(changes, "a", "read", address, names), due, (before, after, address))


def rows_by_chance(chance: random.Random) -> list[str]:
    """The rows of a view, each with one name or two."""
    rows, at = [], 0
    for _ in range(chance.randrange(8)):
        at += chance.randrange(4)
        size = chance.randrange(1, 9)
        nodes = chance.sample(("m", "n"), chance.randrange(1, 3))
        names = [Piece(at, at + size - 1, node, chance.choice((at, chance.randrange(40)))) for node in nodes]
        rows.append(f"{at:#x}-{at + size - 1:#x} " + ", ".join(f"{name.node}@{name.at:#x}" for name in names))
        at += size
    return rows


def rows_in(answer: dict[str, Any]) -> int:
    """How many rows an answer in JSON has."""
    keys = {"who": ["seen"], "where": ["addresses"], "test": ["claims"],
            "diff": ["differences", "agents_gone", "agents_new"]}
    return sum(len(answer[key]) for key in keys[answer["kind"]])


def rows_of(words: list[str], output: str) -> int:
    """How many rows the JSON has to an answer in lines."""
    if words[0] == "test":
        hit = output.splitlines()[-1].split(" ")
        return int(hit[3].rstrip(",")) + int(hit[-1])
    others = (" does not have ", " is ")
    return sum(not line.endswith(":") and not any(words in line for words in others) for line in output.splitlines())


TOP = f"{(1 << 56) - 1:#x}"

FILES = [("refused.net", "a is;\na is;\n"), ("bare.net", "agent a is;\n")]
"""Files of bad input."""

TROUBLES = [
    ("who none.net dram 0", "none.net: No such file or directory"),
    ("who refused.net dram 0", "refused.net: refused: line 2 Duplicate (netconf-lint shows the place)"),
    ("who old.net ram 0", "old.net: there is no node ram"),
    ("who old.net dram 0x1g", f"'0x1g' is no address: a number from 0 to {TOP}, in decimal or with 0x before it"),
    ("who old.net dram 0x2-0x1", "'0x2-0x1' runs downwards"),
    ("who old.net dram 0 0", f"a size is at least 1, comes after one address, and ends at or below {TOP}"),
    ("who old.net dram 0 1 2", "after the address come at most a size and `for read` or `for write`, not '1 2'"),
    ("who old.net dram 0 for ever", "after `for` comes `read` or `write`, not 'ever'"),
    ("who old.net dram 0x40000000", "old.net: dram@0x40000000-0x40000000 comes to nothing that accepts it"),
    ("where old.net bus dram 0", "old.net: bus is not an agent; the agents are: cpu0, cpu1, display, dma"),
    ("where old.net cpu0 ram 0", "old.net: there is no node ram"),
    ("where old.net cpu0 bus 0x0", "old.net: bus@0x0-0x0 comes to nothing that accepts it"),
    ("where old.net cpu0 dram 0 1",
     "after the agent come a node, an address and `for read` or `for write`, not 'dram 0 1'"),
    ("test bare.net", "bare.net: there is no claim: a comment that begins with //!, or a line of a second file"),
    ("test old.net none.claims", "none.claims: No such file or directory"),
    ("diff old.net", "both sides are the same: name a second description, or an image by --image"),
]
"""Questions of bad input, each with the line on standard error."""
