"""What the tools do with input that is meant to break them: files without end, nets without end, control characters,
texts at the limit, very many claims, and output that cannot be written."""

import random
import re
import time
from collections.abc import Callable
from unittest import mock

from netconf_tools import layout, views
from netconf_tools.claim_lines import lines_of_file
from netconf_tools.claims import Claims
from netconf_tools.devicetree.naming import Names
from netconf_tools.ending import plain
from netconf_tools.grants import ASKED, changes_of, question
from netconf_tools.layout_text import as_json, table
from netconf_tools.rows import Rows
from netconf_tools.source import CommandRows, script_of
from netconf_tools.text import MOST_BYTES, pieces_of
from netconf_tools.views import Board
from tests.case import EXAMPLES, TOOLS, Case, outcome

BOARD = str(EXAMPLES / "dma_buffers.net")
TABLES = str(EXAMPLES / "foreign_tables.tables")
CARDS = str(TOOLS / "machine/cards.net")
AUDITED = str(EXAMPLES / "foreign_tables.net")
ANSWERS: tuple[tuple[str, ...], ...] = (
    ("netconf-lint", BOARD), ("netconf-lint", "--audit", AUDITED, TABLES), ("netconf-draw", "--audit", AUDITED, TABLES),
    ("netconf-query", "who", BOARD, "dram", "0x0"), ("netconf-draw", BOARD), ("netconf-layout", BOARD),
    ("netconf-export", "--format", "vtd", "--at", "0", CARDS),
    ("netconf-dump2bin", "image"), ("netconf-dump2bin", "--changes", "image"))
"""A command of each tool that prints something. `image` stands for an image of tables."""

IMAGE = bytes.fromhex("444e494d 0200 0100 0000 01 00 01000000 2100000000000000")
"""An image with one unit of one slot."""

STATUS = {"netconf-lint": 2, "netconf-query": 2, "netconf-draw": 2, "netconf-layout": 2, "netconf-dump2bin": 2,
          "netconf-export": 2}
"""The status of each tool where its output cannot be written."""

MANY = 15300
"""How many rows a view has here."""


class Counted(set[str]):
    """A set that counts how often it is asked."""

    asked = 0

    def __contains__(self, item: object) -> bool:
        self.asked += 1
        return super().__contains__(item)


def plainly(lines: list[str], node: str, first: int, last: int) -> set[int]:
    """The addresses of a node to which rows come, as a set; by going over all rows."""
    found = set()
    for line in lines:
        for piece in pieces_of(line):
            if piece.node == node:
                found |= set(range(max(piece.at, first), min(piece.at_last, last) + 1))
    return found


def replies(rows: list[str]) -> Callable[[str, bytes], tuple[int, str]]:
    """A stand-in for the program whose agents `a0` to `a63` all see these rows; of other questions it knows nothing."""
    net = "m is accept [0x0-0xffffffffff];\n" + "".join(f"agent a{number} is over m;\n" for number in range(64))

    def run(word: str, text: bytes) -> tuple[int, str]:
        if word == "check":
            return 0, net
        asked = re.findall(r"view (\S+?)(?: for \w+)?;", text.decode())
        return 0, "".join(f"view {agent} rows {len(rows)}\n" + "".join(line + "\n" for line in rows) for agent in asked)

    return run


def numbered(run: Callable[[str, bytes], tuple[int, str]]) -> Callable[[str, bytes], tuple[int, str]]:
    """A stand-in for the program that calls nodes by their numbers, as a layout asks for them."""
    return lambda word, text: (0, run(word, text)[1])


class TestHostile(Case):
    """What the tools do with input that is meant to break them."""

    def test_output(self) -> None:
        """Output that cannot be written: one line on standard error, and the status of the tool."""
        (self.folder / "image").write_bytes(IMAGE)
        for tool, *words in ANSWERS:
            command = " ".join(map(str, [TOOLS / tool, *words]))
            for where, cause in (("> /dev/full", "standard output: No space left on device"),
                                 (">&-", "standard output is closed"),
                                 ("| sleep 0", "standard output was closed before all was written")):
                status, _, errors = outcome("bash", "-c", f"{command} {where}; exit ${{PIPESTATUS[0]}}",
                                            folder=self.folder)
                lines = [line for line in errors.splitlines() if " is refused (" not in line]
                if where == "| sleep 0" and status == 0 and not lines:
                    # A short answer may be written before the pipe is closed.
                    continue
                self.assertEqual((status, lines), (STATUS[tool], [f"{tool}: {cause}"]),
                                 f"{tool} {' '.join(map(str, words))} {where}")

    def test_endless_files(self) -> None:
        """A file without end is refused as one that is too long."""
        long = "refused: Length"
        self.assertEqual(outcome(TOOLS / "netconf-lint", "/dev/zero"),
                         (1, "/dev/zero:1: error: Length: a description has at most 4,194,304 bytes\n", ""),
                         "lint of /dev/zero")
        (self.folder / "claimed.net").write_text("agent a is; //! same a a\n")
        for words, errors in ((["netconf-query", "who", "/dev/zero", "a", "0"],
                               f"netconf-query: /dev/zero: {long} (netconf-lint shows the place)\n"),
                              (["netconf-query", "test", "claimed.net", "/dev/zero"],
                               "netconf-query: /dev/zero: a file of claims has at most 4,194,304 bytes\n"),
                              (["netconf-draw", "/dev/zero"],
                               f"netconf-draw: /dev/zero: {long} (netconf-lint shows the place)\n"),
                              (["netconf-layout", "/dev/zero"],
                               f"netconf-layout: /dev/zero: {long} (netconf-lint shows the place)\n")):
            seen = outcome(TOOLS / words[0], *words[1:], folder=self.folder)
            self.assertEqual(seen, (STATUS[words[0]], "", errors), f"{' '.join(words)}")
        status, output, errors = outcome("bash", "-c", f"ulimit -v 800000; exec {TOOLS / 'netconf-dump2bin'} /dev/zero")
        self.assertEqual((status, output, errors), (2, "", "netconf-dump2bin: there is not enough memory\n"),
                         "dump2bin of /dev/zero with little memory")

    def test_endless_net(self) -> None:
        """A program that prints without end, as of a small text with a large net, is ended where the bound is."""
        endless = self.folder / "endless"
        endless.write_text("#!/bin/sh\nexec yes 'agent a is;'\n")
        endless.chmod(0o755)
        (self.folder / "small.net").write_text("agent a is;\n")
        bound = "netconf check prints more than 67,108,864 bytes, and no more are read\n"
        for words, due in ((["netconf-lint", "small.net"], (0, "", "")),
                           (["netconf-query", "who", "small.net", "a", "0"], (2, "", f"netconf-query: {bound}")),
                           (["netconf-draw", "small.net"], (2, "", f"netconf-draw: {bound}")),
                           (["netconf-layout", "small.net"], (2, "", f"netconf-layout: small.net: {bound}"))):
            self.assertEqual(outcome(TOOLS / words[0], *words[1:], folder=self.folder, NETCONF=str(endless)), due,
                             f"{words[0]} of a net without end")

    def test_limit(self) -> None:
        """A text at the limit without line ends: the tools ask no longer one, or say that with their questions it is
        too long."""
        head = "agent a is over m;m is accept [0x0-0xff];begin;"
        text = head + "revoke a;" * ((MOST_BYTES - len(head)) // 9)
        text += " " * (MOST_BYTES - len(text))
        changes = changes_of(text)
        self.assertTrue(len(script_of(text, [change.source for change in changes])) <= len(text),
                        "commands are joined by nothing")
        (self.folder / "limit.net").write_text(text)
        status, output, errors = outcome(TOOLS / "netconf-lint", "limit.net", folder=self.folder)
        self.assertEqual((status, output.count("warning: "), errors), (0, 501, ""), "lint of a text at the limit")
        cause = "limit.net: with the questions for views it is longer than a text may be, 4,194,304 bytes\n"
        for words in (["netconf-draw", "--views", "limit.net"], ["netconf-query", "who", "limit.net", "m", "0"]):
            seen = outcome(TOOLS / words[0], *words[1:], folder=self.folder)
            self.assertEqual(seen, (STATUS[words[0]], "", f"{words[0]}: {cause}"), f"{words[0]} of a text at the limit")

    def test_trees(self) -> None:
        """Many commands for trees: each is asked by a command that is no longer, and the pool of each is looked at."""
        head = "agent a is over u[0];unit u[0] kind pages page 0 slots 1 reach 8 to m;m is accept [0x0-0xff];begin;"
        for source, count in (("gather a p m(1)0;", 501), ("gather a p m 1 1 and p m 1 1;", 501), ("radix u[0]1;", 0),
                              ("radix u[0] 0;", 501), ("radix u[(1-1)](0+1);", 0), ("radix m(1);", 501),
                              ("radix m 1;", 501)):
            text = head + source * 5000
            rows = CommandRows(text, ASKED).rows
            self.assertEqual((len(rows), len(script_of(text, [question(row)[0] for row in rows])) <= len(text)),
                             (5000, True), f"{source} is asked by no longer a command")
            (self.folder / "trees.net").write_text(text)
            status, output, errors = outcome(TOOLS / "netconf-lint", "trees.net", folder=self.folder)
            self.assertEqual((status, output.count("warning: "), errors), (0, count, ""), f"lint of many {source}")

    def test_many_agents(self) -> None:
        """`who` of a bus on a net that has all the agents and all the nodes that it may have."""
        agents = "".join(f"agent a{n} is over bus;\n" for n in range(64))
        for more, last in ((0, ""), (958, "for i in 0..957; n[i] is; end;\n")):
            text = f"m is accept [0x0-0xff];\nbus is map [0x1000-0x10ff to m at 0x0];\n{agents}{last}"
            (self.folder / "many.net").write_text(text)
            status, output, errors = outcome(TOOLS / "netconf-query", "who", "many.net", "bus", "0x1010",
                                             folder=self.folder)
            due = [f"a{n} 0x1010-0x1010 m@0x10 read and write" for n in range(64)]
            self.assertEqual((status, output.splitlines(), errors), (0, due, ""),
                             f"who of a bus with 64 agents and {more} more nodes")
        text = "m is accept [0x0-0xff];\nnetconf_query is over m;\nagent a is over netconf_query;\n"
        seen = outcome(TOOLS / "netconf-query", "who", "-", "netconf_query", "0x10", text=text)
        self.assertEqual(seen, (0, "a 0x10-0x10 m@0x10 read and write\n", ""),
                         "who of a bus that is called netconf_query")

    def test_names(self) -> None:
        """Names are given out in a number of steps that grows as their number does."""
        names = Names()
        names.taken = Counted()
        wanted = ["a", "a_2", "a_2_2", "b"] * 5000
        given = [names.free(name) for name in wanted]
        self.assertEqual((len(set(given)), given[:6]), (len(wanted), ["a", "a_2", "a_2_2", "b", "a_3", "a_2_3"]),
                         "names that are wanted again")
        self.assertTrue(names.taken.asked <= 4 * len(wanted), f"how often names are looked up: {names.taken.asked}")

    def test_rows(self) -> None:
        """Rows that are found by addresses are those that going over all of them finds."""
        chance, wrong = random.Random(47), []
        for _ in range(60):
            lines, at = [], 0
            for _ in range(chance.randrange(12)):
                at += chance.randrange(1, 9)
                size = chance.randrange(1, 9)
                names = ", ".join(f"{node}@{chance.randrange(60):#x}"
                                  for node in chance.sample(("m", "n"), chance.randrange(1, 3)))
                lines.append(f"{at:#x}-{at + size - 1:#x} {names}")
                at += size
            rows = Rows(lines)
            for _ in range(40):
                first = chance.randrange(70)
                last = first + chance.randrange(20)
                due = plainly(lines, "m", first, last)
                seen = {place for piece in rows.pieces("m").seen(first, last)
                        for place in range(piece.at, piece.at_last + 1)}
                gaps = {place for low, high in rows.pieces("m").gaps(first, last) for place in range(low, high + 1)}
                row = next((line for line in lines if pieces_of(line)[0].lo <= first <= pieces_of(line)[0].hi), None)
                if seen != due or gaps != set(range(first, last + 1)) - due or rows.at(first) != row:
                    wrong.append((lines, first, last))
        self.assertEqual(wrong[:1], [], "rows are found by addresses")

    def test_many_rows(self) -> None:
        """Very many claims, and layouts of many agents, over views of very many rows: each is a matter of seconds,
        where going over the rows for each claim takes minutes."""
        rows = [f"{number * 0x2000:#x}-{number * 0x2000 + 0xfff:#x} m@{number * 0x1000:#x}" for number in range(MANY)]
        with mock.patch.object(views, "run", replies(rows)):
            board, begin = Board("many", b"agent a is;"), time.process_time()
            claims = [f"all a0 m {number * 0x700:#x}" for number in range(10000)]
            claims += [f"a1 m@{number * 0x1000:#x} at {number * 0x2000:#x}" for number in range(5000)]
            claims += [f"never a0 m {number * 0x1000:#x}" for number in range(5000)]
            found = Claims(board, lines_of_file("c", "\n".join(claims)))
            holds = [verdict.holds for verdict in found.verdicts()]
            self.assertEqual(found.errors, [])
            self.assertEqual((holds.count(True), holds[-5000:].count(False)), (15000, 5000),
                             "20,000 claims over 15,300 rows")
            self.assertTrue(time.process_time() - begin < 60,
                            f"20,000 claims take seconds: {time.process_time() - begin}")
        with mock.patch.object(layout, "run", numbered(replies([row.replace("m@", "n0@") for row in rows]))):
            begin = time.process_time()
            made = layout.layout_of(replies([])("check", b"")[1].encode())
            self.assertEqual(len({id(agent.places) for agent in made.agents}), 1,
                             "64 agents that see the same share their places")
            self.assertEqual((table(made).count("\n"), as_json(made).count("\n")),
                             (64 * MANY + 69, 64 * (MANY + 1) + 1), "the layout of 64 agents over 15,300 rows")
            self.assertTrue(time.process_time() - begin < 60,
                            f"their layout takes seconds: {time.process_time() - begin}")

    def test_escapes(self) -> None:
        """What a terminal would obey stands as an escape."""
        self.assertEqual(plain("a\x1b[2J\nb\x9b\r\u202e\udce9é"), "a\\x1b[2J\\nb\\x9b\\r\\u202e\\udce9é",
                         "control characters")
        text = "agent a is; //@ \x1b[2J\nbegin; //@ b\x1b\n"
        status, output, errors = outcome(TOOLS / "netconf-layout", "-", text=text)
        self.assertEqual((status, output, errors),
                         (2, "", "netconf-layout: -: line 2: no node has this note: b\\x1b\n"), "a note in an error")
        status, output, errors = outcome(TOOLS / "netconf-layout", "-", text=text.split("begin")[0])
        self.assertTrue((status, errors) == (0, "") and "\\x1b[2J" in output and "\x1b" not in output,
                        f"a note in a table: {output + errors}")
