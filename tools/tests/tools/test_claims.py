"""Claims: each kind holds and fails by one bit; groups, patterns, modules and loops; what is no claim; and
`never_ever` beside tables made by chance."""

import functools
import random
from collections.abc import Iterator

from netconf_tools.audit import Report, audited
from netconf_tools.claim_lines import lines_of_description, lines_of_file
from netconf_tools.claim_text import Misread, Reader, fits
from netconf_tools.claims import Claims, Verdict
from netconf_tools.dump import MARK
from netconf_tools.expand import described
from netconf_tools.findings import Finding, lines_of
from netconf_tools.views import ACCESSES, Board, ImageBoard
from tests.case import Case

NET = """dram is accept [0x0-0x3fffffff];
uart is accept [0x0-0xfff];
bus is map [0x10000000-0x10000fff to uart at 0x0, 0x80000000-0xbfffffff to dram at 0x0];
agent cpu0 is over bus;
agent cpu1 is over bus;
agent a.cpu is map [0x0-0xfffffff to bus at 0x80000000];
agent a.card is map [0x0-0x3fff to a.mmu at 0x0];
unit a.mmu kind pages page 12 slots 4 reach 32 to a.window;
a.window is map [0x0-0xfffffff to bus at 0x80000000];
agent b.cpu is map [0x0-0xfffffff to bus at 0x90000000];
agent b.card is map [0x0-0x3fff to b.mmu at 0x0];
unit b.mmu kind pages page 12 slots 4 reach 32 to b.window;
b.window is map [0x0-0xfffffff to bus at 0x90000000];
begin;
grant ring a.card dram 0x9000 0x1000 for read;
grant data a.card dram 0xa000 0x1000;
grant sent b.card dram 0x10002000 0x1000;
"""
"""Two guests, each with a core and a card behind a unit, on a board with two cores of its own."""

KINDS = [
    ("never b.cpu dram 0x0-0xfffffff", "never b.cpu dram 0x0-0x10000000", ["b.cpu", "0x0-0x0 dram@0x10000000"]),
    ("never a.card dram 0x9000 for write", "never a.card dram 0x8001-0x9000", ["a.card", "0x0-0x0 dram@0x9000"]),
    ("only a.card dram 0x9000-0xafff", "only a.card dram 0x9000-0xaffe", ["a.card", "0x1fff-0x1fff dram@0xafff"]),
    ("only a.card dram 0x9000 size 8K", "only a.card dram 0x9001 size 0x1fff", ["a.card", "0x0-0x0 dram@0x9000"]),
    ("all a.cpu dram 0x0-0xfffffff", "all a.cpu dram 0x0-0x10000000",
     ["a.cpu", "nothing is dram@0x10000000-0x10000000"]),
    ("all a.card dram 0x9000-0xafff for read", "all a.card dram 0x9000-0xafff for write",
     ["a.card", "nothing is dram@0x9000-0x9fff"]),
    ("alone cpu* uart 0x0-0xfff", "alone cpu0 uart 0x0-0xfff", ["cpu1", "0x10000000-0x10000fff uart@0x0"]),
    ("cpu0 uart at 0x10000000", "cpu0 uart at 0x10000001", ["cpu0", "0x10000000-0x10000fff uart@0x0"]),
    ("a.card dram@0x9fff at 0xfff for read", "a.card dram@0x9fff at 0xffe for read",
     ["a.card", "0x0-0x1fff dram@0x9000"]),
    ("same cpu0 cpu1", "same cpu0 a.cpu", ["cpu0", "0x10000000-0x10000fff uart@0x0"]),
    ("at a.card 0x0 dram 0x9000 0x2000 for read", "at a.card 0x0 dram 0x9000 0x2001 for read",
     ["a.card", "0x2000 comes to nothing"]),
    ("at a.card 0x1000 dram 0xa000 4K", "at a.card 0x1000 dram 0xa000 4K+1", ["a.card", "0x2000 comes to nothing"]),
    ("at cpu0 0x80000000 dram 0x0 512M", "at cpu0 0x80000001 dram 0x0 512M", ["0x80000000-0xbfffffff dram@0x0"]),
    ("disjoint a.* b.*", "disjoint a.* cpu0 dram 0x9000", ["a.cpu", "0x9000-0x9000 dram@0x9000", "cpu0"]),
    ("disjoint a.card b.cpu", "disjoint a.card cpu1",
     ["a.card", "0x0-0x1fff dram@0x9000", "cpu1", "0x80009000-0x8000afff dram@0x9000"]),
    ("disjoint a.card cpu0 dram 0x9000-0x9fff for write", "disjoint a.card cpu0 dram 0x9000-0xa000 for write",
     ["a.card", "0x1000-0x1000 dram@0xa000", "cpu0", "0x8000a000-0x8000a000 dram@0xa000"]),
    ("disjoint a.card cpu1 uart", "disjoint a.card cpu1 dram 0xa000", ["a.card", "0x1000-0x1000 dram@0xa000"]),
    ("never_ever a.card dram 0x10000000-0x3fffffff", "never_ever a.card dram 0xfffffff-0x3fffffff",
     ["a.card", "through a.mmu, a.window 0xfffffff-0xfffffff dram@0xfffffff"]),
    ("never_ever b.card dram 0x0-0xfffffff", "never_ever b.card dram 0x0-0x10000000",
     ["b.card", "through b.mmu, b.window 0x0-0x0 dram@0x10000000"]),
    ("never_ever b.card dram 0x10001000-0x10001fff whatever a.mmu",
     "never_ever b.card dram 0x10001000-0x10002000 whatever a.mmu", ["b.card", "0x0-0x0 dram@0x10002000"]),
    ("never_ever a.card dram 0x9000 whatever b.mmu for write", "never_ever a.card dram 0x9000 whatever b.mmu for read",
     ["a.card", "0x0-0x0 dram@0x9000"]),
]
"""Claims that hold over the board, each with one that differs by one bit or one word and does not, and with parts of
the rows that break it: they are worked out by hand."""

TURNED = [
    ("0xbfffffff to dram at 0x0", "0xbfffffff to dram at 0x1000", "a.card dram@0x9000 at 0x0 for read", 0),
    ("agent b.cpu is map [0x0-0xfffffff", "agent b.cpu is map [0x0-0x1fffffff",
     "never b.cpu dram 0x20000000-0x2fffffff", 1),
    ("b.window is map [0x0-0xfffffff to bus at 0x90000000]", "b.window is map [0x0-0xfffffff to bus at 0x80000000]",
     "never_ever b.card dram 0x0-0xfffffff", 1),
    ("0x10002000 0x1000", "0x10003000 0x1000", "at b.card 0x0 dram 0x10002000 0x1000", 1),
    ("dram 0x9000 0x1000 for read", "dram 0x9000 0x1000 for write", "never a.card dram 0x9000-0x9fff for write", 1),
    ("grant sent b.card dram 0x10002000", "grant sent b.card dram 0x10002001",
     "all b.card dram 0x10002000-0x10002fff", 1),
    ("reach 32 to b.window", "reach 12 to b.window", "never_ever b.card dram 0x10001000-0x1fffffff", -1),
    ("slots 4 reach 32 to b", "slots 5 reach 32 to b", "never_ever b.card dram 0x0-0xfffffff", 0),
]
"""Changes of one bit or so of the board, each with a claim, and whether it fails then and held before (1), holds
before and then (0), or the other way round (-1)."""

MODULES = """dram is accept [0x0-0xffff];
card is accept [0x0-0xf];
//! let PAGE = 4K
module guest(node memory, num base);
agent cpu is map [0x0-0xfff to memory at base];
agent card is map [0x0-0xff to memory at base];
//! group own = cpu, .card
//! only own memory base size PAGE
//! never cpu memory base+PAGE-0xffff
//! never .card memory base+PAGE-0xffff for write
end;
module never_used();
//! never cpu dram 0x0
end;
use guest(node dram, 0x1000) as a;
use guest(node dram, 0x3000) as b;
for i in 0..3;
agent dma[i] is map [0x0-0xff to dram at 0x8000+i*PAGE_SIZE]; //! dma[i] dram@0x8000+i*0x1000 at 0x0
//! only dma[i] dram 0x8000+i*0x1000 size 0x100
end;
for i in 1..0;
//! never dma[0] dram 0x8000
end;
//! group guests = a.*, b.own
//! disjoint guests dma[*]
//! all a.own dram 0x1000-0x10ff
begin;
""".replace("PAGE_SIZE", "0x1000")
"""Claims in modules and loops, with groups of their own."""

AGENTS = "the agents are: cpu0, cpu1, a.cpu, a.card, b.cpu, b.card"

MISREAD = [
    ("never crad dram 0x0", 7, f"crad is not an agent (is b.card meant?); {AGENTS}"),
    ("cpu0 sees dram", 11, "unexpected 'dram', expected 'at', as in AGENT NODE at ADDRESS"),
    ("", 1, "the claim ends here, expected a claim: one of never, only, all, alone, never_ever, disjoint, same, at, or "
     "AGENT NODE at ADDRESS"),
    ("never", 6, "the claim ends here, expected an agent"),
    ("never cpu0", 11, "the claim ends here, expected a node"),
    ("never cpu0 dram", 16, "the claim ends here, expected an address"),
    ("never cpu0 dram 0x0-", 21, "the claim ends here, expected the last address"),
    ("never cpu0 dram 0x0 read", 21, "unexpected 'read', expected 'for' or the end of the claim"),
    ("never cpu0 dram 0x0 for", 24, "the claim ends here, expected 'read' or 'write'"),
    ("never cpu0 dram 0x0 for ever", 25, "unexpected 'ever', expected 'read' or 'write'"),
    ("never cpu0 dram 0x0 for read write", 30, "unexpected 'write', expected the end of the claim"),
    ("never cpu0 dram 0x1g", 17, "'0x1g' is not a number"),
    ("never cpu0 dram 0X10", 17, "'0X10' is not a number: hexadecimal digits stand after a lower-case 0x"),
    ("never cpu0 dram 4k", 17, "'4k' is not a number"),
    ("never cpu0 dram 0x100000000000000", 17, "0x100000000000000 is not an address: the last one is 0xffffffffffffff"),
    ("never cpu0 dram 0x2-0x1", 17, "0x2-0x1 runs downwards"),
    ("never cpu0 dram 0x0 size 0", 26, "the size is 0"),
    ("never cpu0 dram (1-2)", 17, "the value is not from 0 to 2^64 - 1"),
    ("never cpu0 dram (1+2", 21, "the claim ends here, expected ')'"),
    ("never cpu0 dram RAM", 17, "'RAM' stands for no number: `let RAM = ..` before it defines one"),
    ("never cpu0 dram 0x40000000", 17, "dram does not accept 0x40000000: a claim is on addresses that a node accepts"),
    ("never cpu0 bus 0x80000000", 16, "bus does not accept 0x80000000: a claim is on addresses that a node accepts"),
    ("never cpu0 drum 0x0", 12, "drum is not a node (is dram meant?)"),
    ("never c.* dram 0x0", 7, f"c.* fits no name; {AGENTS}"),
    ("never a.mmu dram 0x0", 7, f"a.mmu is not an agent; {AGENTS}"),
    ("never cpu0 a.w* 0x0", 12, "a.w* has no node that accepts"),
    ("never_ever a.card dram 0x0 whatever dram", 37, "dram is not a unit"),
    ("never_ever a.card dram 0x0 whatever", 36, "the claim ends here, expected a unit"),
    ("disjoint a.*", 13, "the claim ends here, expected a second agent"),
    ("disjoint a.card b.card bus", 24, "bus accepts no address: a claim is on addresses that a node accepts"),
    ("disjoint cpu* cpu0", 15, "cpu0 is on both sides of the claim"),
    ("same cpu0", 10, "the claim ends here, expected a second agent"),
    ("at a.card 0x0 dram 0x9000", 26, "the claim ends here, expected a size"),
    ("at a.card 0x0 dram 0x9000 0", 27, "the size is 0"),
    ("at a.card 0xffffffffffffff dram 0x9000 2", 40,
     "with this size it ends at 0x100000000000000, and the last address is 0xffffffffffffff"),
    ("group guests a.*", 14, "unexpected 'a.*', expected '='"),
    ("group guests = a.* b.*", 20, "unexpected 'b.*', expected ',' or the end of the line"),
    ("group g* = a.*", 7, "a group has a plain name"),
    ("group dram = a.*", 7, "there is a node dram already"),
    ("group g = nothing", 11, "nothing is not a node"),
    ("let 4 = 4", 5, "unexpected '4', expected a word"),
    ("let RAM 4", 9, "unexpected '4', expected '='"),
    ("left_out", 9, "the claim ends here, expected the path of a master"),
    ("cpu0 dram at", 13, "the claim ends here, expected an address of the agent"),
    ("cpu0 dram@ at 0x0", 12, "unexpected 'at', expected an address of the node"),
    ("cpu0[1 dram at 0", 8, "unexpected 'dram', expected ']'"),
    ("same cpu0 cpu1 ;", 16, "unexpected ';', expected 'for' or the end of the claim"),
    ("never cpu0 dram " + "(" * 33 + "1" + ")" * 33, 49, "more than 32 parentheses are open"),
]
"""Lines that are no claims over the board, each with the column and the message."""


@functools.cache
def board_of(text: str) -> Board:
    """The board of a text, which is asked once."""
    return Board("board.net", text.encode("latin-1"))


def read(text: str, claims: str = "") -> Claims:
    """The claims of a description and of a file of claims over it."""
    board = board_of(text)
    return Claims(board, [*lines_of_description(board.description)[0], *lines_of_file("c", claims)])


def verdicts(text: str, claims: str) -> list[Verdict]:
    """The verdicts on claims over a description."""
    return list(read(text, claims).verdicts())


def shown(finding: Finding) -> str:
    """A finding with its notes, as it is printed."""
    return "\n".join(lines_of(finding))


class TestKinds(Case):
    """Each kind of claim."""

    def test_one_bit(self) -> None:
        """Each claim holds, and the one that differs by a bit or a word does not, with the rows that were worked
        out."""
        found = verdicts(NET, "\n".join(f"{holds}\n{fails}" for holds, fails, _ in KINDS))
        for holds, (claim, other, parts) in zip(zip(found[::2], found[1::2]), KINDS):
            with self.subTest(claim=claim):
                self.assertEqual([verdict.holds for verdict in holds], [True, False], shown(holds[0].finding()))
                self.assertEqual(holds[1].text, other)
                for part in parts:
                    self.assertIn(part, shown(holds[1].finding()))

    def test_board_changed(self) -> None:
        """A claim fails, or goes on to hold, where one bit of the description is turned."""
        for before, after, claim, fails in TURNED:
            with self.subTest(claim=claim, before=before):
                self.assertEqual(NET.count(before), 1)
                held, holds = (verdicts(text, claim)[0].holds for text in (NET, NET.replace(before, after)))
                self.assertEqual((held, holds), {1: (True, False), 0: (True, True), -1: (False, True)}[fails])

    def test_image(self) -> None:
        """Under an image a claim fails where one bit of a word is turned; no command of the description is run."""
        (self.folder / "board.net").write_text(NET)
        image = board_of(NET).image
        word = image.index((0xa << 8 | 1).to_bytes(8, "little"))
        for bit, fails in ((0, True), (4, True), (8, True), (20, True), (9, True)):
            turned = bytearray(image)
            turned[word + bit // 8] ^= 1 << bit % 8
            for data, due in ((image, False), (bytes(turned), fails)):
                with self.subTest(bit=bit, due=due):
                    (self.folder / "image").write_bytes(data)
                    board = ImageBoard(str(self.folder / "board.net"), str(self.folder / "image"))
                    claims = Claims(board, lines_of_file("c", "at a.card 0x1000 dram 0xa000 4K"))
                    self.assertEqual([not verdict.holds for verdict in claims.verdicts()], [due])

    def test_left_out(self) -> None:
        """A claim on a master that is left out holds if the description says so; a pattern takes several."""
        text = "//- /soc/usb@1: no window\n//- /soc/eth@2\n//- pci 0:3.0: no unit\nagent a is; // //- /no: comment\n"
        found = read(text, "left_out /soc/usb@1\nleft_out /soc/usb@2\nleft_out pci*")
        self.assertEqual([verdict.holds for verdict in found.verdicts()], [True, False, True])
        self.assertEqual([master.path for master in found.not_accepted()], ["/soc/eth@2"])
        self.assertEqual([tuple(master) for master in found.judge.board.left_out],
                         [("board.net", 1, "/soc/usb@1", "no window"), ("board.net", 2, "/soc/eth@2", ""),
                          ("board.net", 3, "pci 0:3.0", "no unit")])


class TestNames(Case):
    """Groups, patterns, modules and loops."""

    def test_modules(self) -> None:
        """A claim in a module is one of each use, and one in a loop one of each turn; those of none are known."""
        lines, unused = lines_of_description(board_of(MODULES).description)
        claims = Claims(board_of(MODULES), lines)
        self.assertEqual([shown(error) for error in claims.errors], [])
        found = [(verdict.text, verdict.holds) for verdict in claims.verdicts()]
        own = ["only own memory base size PAGE", "never cpu memory base+PAGE-0xffff",
               "never .card memory base+PAGE-0xffff for write"]
        due = [(f"{claim} (in {use})", True) for use in "ab" for claim in own]
        for i in range(4):
            due += [(f"dma[i] dram@0x8000+i*0x1000 at 0x0 (i = {i})", True),
                    (f"only dma[i] dram 0x8000+i*0x1000 size 0x100 (i = {i})", True)]
        due += [("disjoint guests dma[*]", True), ("all a.own dram 0x1000-0x10ff", True)]
        self.assertEqual(found, due)
        self.assertEqual([line.words for line in unused], ["never cpu dram 0x0", "never dma[0] dram 0x8000"])

    def test_use_changed(self) -> None:
        """Where one use of a module is given another number, its claims fail, and those of the other use hold."""
        text = MODULES.replace("memory at base];\nagent card", "memory at 0x1000];\nagent card")
        found = {verdict.text: verdict.holds for verdict in read(text).verdicts()}
        self.assertEqual([found[f"only own memory base size PAGE (in {use})"] for use in "ab"], [True, False])
        self.assertEqual([found[f"never cpu memory base+PAGE-0xffff (in {use})"] for use in "ab"], [True, True])

    def test_names_of_both(self) -> None:
        """A full name means in a module what it means outside, as before modules had claims; a note says what a dot
        would."""
        text = ("m is accept [0x0-0xff];\nagent c is over m;\nmodule g(node m);\nagent c is map [0x0 to m];\n"
                "//! all c m 0x0-0xff\n//! only .c m 0x0\n//! only c m 0x0\nend;\nuse g(node m) as a;\n")
        claims = read(text)
        self.assertEqual([verdict.holds for verdict in claims.verdicts()], [True, True, False])
        note = "c means the name outside of the module; .c would mean a.c"
        self.assertEqual([shown(found) for found in claims.notes], [f"board.net:5:9: note: {note}"])

    def test_order(self) -> None:
        """A number and a group are those of the lines after them; a second definition is refused, with the place of
        the first."""
        claims = read(NET, "never cpu0 dram N\nlet N = 1\nlet N = 1\nall cpu0 dram N\nnever g dram N\n"
                      "group g = a.cpu\nall g dram N")
        holding = [verdict.text for verdict in claims.verdicts() if verdict.holds]
        self.assertEqual(holding, ["all cpu0 dram N", "all g dram N"])
        self.assertEqual([(error.line, error.column) for error in claims.errors], [(1, 17), (3, 5), (5, 7)])
        self.assertIn("'N' is defined already, at c:2", claims.errors[1].message)

    def test_many_turns(self) -> None:
        """Claims in a loop with very many turns are refused when they are too many, and not gone through."""
        text = "agent a is;\nfor i in 0..60000;\n" + "//! same a a\n" * 5 + "end;\n"
        with self.assertRaisesRegex(Exception, "more than 262,144 claims"):
            lines_of_description(described([("board.net", text.encode())]))

    def test_agents_with_old_names(self) -> None:
        """Words that begin claims name agents and nodes too."""
        text = ("never is accept [0x0-0xf];\nagent same is over never;\nagent group is over never;\n"
                "agent left_out is over never;\n")
        claims = ("same never at 0x0\nall same never 0x0\ngroup never@1 at 0x1\nsame same group\ngroup group2 = same\n"
                  "left_out never at 0x0\nsame group2 left_out")
        self.assertEqual([verdict.holds for verdict in verdicts(text, claims)], [True] * 6)

    def test_fits(self) -> None:
        """A pattern fits what it spells with any letters for each `*`."""
        chance = random.Random(57)
        for _ in range(2000):
            pattern = "".join(chance.choice("ab*") for _ in range(chance.randrange(6)))
            text = "".join(chance.choice("ab") for _ in range(chance.randrange(7)))
            self.assertEqual(fits(pattern, text), plainly(pattern, text), (pattern, text))


def plainly(pattern: str, text: str) -> bool:
    """Whether a pattern fits a text, by trying each length for each `*`."""
    if not pattern:
        return not text
    if pattern[0] == "*":
        return any(plainly(pattern[1:], text[at:]) for at in range(len(text) + 1))
    return bool(text) and text[0] == pattern[0] and plainly(pattern[1:], text[1:])


class TestMisread(Case):
    """Lines that are no claims."""

    def test_places(self) -> None:
        """Each error has its line, its column, what stood there and what was expected."""
        errors = read(NET, "\n".join(f"//! {line}" for line, _, _ in MISREAD)).errors
        seen = [(error.line, error.column - 4, error.message) for error in errors]
        self.assertEqual(seen, [(number, column, message) for number, (_, column, message) in enumerate(MISREAD, 1)])

    def test_form_alone(self) -> None:
        """A claim of no use is looked at by its form, in which each word stands for some number."""
        for text, is_read in (("never x y base+(1-size)", True), ("never x y 1-", False),
                              ("never x[i] y[*] 0 size n", True)):
            with self.subTest(text=text):
                if is_read:
                    Reader(text, 0, None).line()
                else:
                    self.assertRaises(Misread, Reader(text, 0, None).line)


UNITS = """dram is accept [0x0-0x3ffff];
bus is map [0x0-0x3ffff to dram at 0x0];
low is map [0x0-0x7fff to bus at 0x10000, 0x8000-0x8fff to inner at 0x0];
agent card is map [0x0-0x3fff to outer at 0x1000, 0x100000 to bus];
agent disk is map [0x0-0x1fff to inner at 0x2000];
unit outer kind remap page 12 slots 6 reach 16 to low, bus;
unit inner kind pages page 12 slots 4 reach 15 to bus;
"""
"""Units one after the other, with windows to some of their slots and outputs to some of the memory."""


def images(chance: random.Random, count: int) -> Iterator[bytes]:
    """Images of these units with records made by chance, among them words that are no records."""
    for _ in range(count):
        tables = []
        for node, slots, ports, reach in ((5, 6, 2, 16), (6, 4, 1, 15)):
            words = [chance.randrange(1 << reach - 12) << 8 | chance.randrange(3) << 4 | chance.randrange(ports) << 1
                     | (chance.random() < .9) for _ in range(slots)]
            head = node.to_bytes(2, "little") + bytes((1, 0)) + slots.to_bytes(4, "little")
            tables.append(head + b"".join(word.to_bytes(8, "little") for word in words))
        yield MARK + (2).to_bytes(2, "little") + (2).to_bytes(2, "little") + b"".join(tables)


def pages_of(report: Report, agent: str) -> set[int]:
    """The pages of the memory that an agent sees."""
    pieces = [piece for access in ACCESSES for piece in report.views[agent, access].pieces("dram").pieces]
    return {page for piece in pieces for page in range(piece.at >> 12, (piece.at_last >> 12) + 1)}


class TestNeverEver(Case):
    """`never_ever` beside tables made by chance."""

    def test_by_chance(self) -> None:
        """What an agent sees under any table is among what it could reach; and each page that it could reach it does
        see under some of many tables."""
        reached = {agent: self.pages(agent, "") for agent in ("card", "disk")}
        seen: dict[str, set[int]] = {"card": set(), "disk": set()}
        for image in images(random.Random(57), 120):
            report = audited(UNITS.encode(), image)
            assert isinstance(report, Report)
            for agent, pages in seen.items():
                pages |= pages_of(report, agent)
        self.assertEqual(seen, reached)
        self.assertEqual(reached["disk"], set(range(8)))

    def test_one_unit_free(self) -> None:
        """With one unit free the other keeps its records: what is seen under any table in which these are the same is
        reached."""
        for kept, free in (("outer", "inner"), ("inner", "outer")):
            chance = random.Random(kept)
            first = next(images(chance, 1))
            cut = 16 + 6 * 8
            (self.folder / "u.net").write_text(UNITS)
            (self.folder / "image").write_bytes(first)
            board = ImageBoard(str(self.folder / "u.net"), str(self.folder / "image"))
            reached = {agent: self.pages(agent, f" whatever {free}", board) for agent in ("card", "disk")}
            for other in images(chance, 60):
                image = first[:cut] + other[cut:] if kept == "outer" else other[:cut] + first[cut:]
                report = audited(UNITS.encode(), image)
                assert isinstance(report, Report)
                for agent, pages in reached.items():
                    self.assertLessEqual(pages_of(report, agent), pages, (kept, agent))

    def test_rights(self) -> None:
        """A unit that keeps its records lets through what these allow: behind one that only reads nothing is
        written."""
        (self.folder / "u.net").write_text(UNITS)
        outer = bytes.fromhex("05000100 06000000") + bytes(8) + (0x821).to_bytes(8, "little") + bytes(32)
        inner = bytes.fromhex("06000100 04000000") + bytes(32)
        (self.folder / "image").write_bytes(MARK + (2).to_bytes(2, "little") * 2 + outer + inner)
        board = ImageBoard(str(self.folder / "u.net"), str(self.folder / "image"))
        found = {access: self.pages("card", f" whatever inner for {access}", board) for access in ("read", "write")}
        self.assertEqual(found, {"read": set(range(8)), "write": set()})

    def pages(self, agent: str, suffix: str, board: Board | None = None) -> set[int]:
        """The pages of the memory on which `never_ever` fails, each asked by itself."""
        text = "\n".join(f"never_ever {agent} dram {page:#x}000 size 4K{suffix}" for page in range(64))
        claims = Claims(board or board_of(UNITS), lines_of_file("c", text))
        self.assertEqual(claims.errors, [])
        return {page for page, verdict in enumerate(claims.verdicts()) if not verdict.holds}
