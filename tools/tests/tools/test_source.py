"""The small reader of the tools against the program: both expand a description to the same nodes, and read its commands
alike."""

import time

from netconf_tools.source import COMMANDS, Node, Unreadable, commands_of, declarations_of, nodes_of
from netconf_tools.text import run as program_output
from tests.case import Case, descriptions

TEXTS = {
    "an inner variable hides an outer one":
        "for i in 0..0; a[i] is; for i in 5..6; b[i] is accept [i*2]; end; c[i] is; end;",
    "a loop without a turn": "for i in 3..2; a[i] is; end; b is;",
    "a node parameter stands for a reference of one part alone":
        "module m(node bus); a is over bus; b is over bus.x; bus.x is; bus is accept [0x1]; end; main is; use m(node "
        "main) as c;",
    "a module in a module, with the argument of the outer one":
        "module inner(node n, num k); d[k] is over n; end; module outer(node n); use inner(node n, 2) as i; "
        "use inner(node own, 3) as j; own is accept [0x2]; end; root is; use outer(node root) as o[1+1];",
    "the index of a node argument is that of the caller":
        "module m(node n); a is over n; end; for i in 0..1; b[i] is accept [i]; use m(node b[i]) as u[i]; end;",
    "a number parameter and a node parameter":
        "module m(num k, node n); a is map [k*0x1000-k*0x1000+0xfff to n at (k-1)]; end; t is accept [0x0-0xffff]; use "
        "m(3, node t) as c;",
    "sums, products and differences": "a is accept [2+3*(7-2)*2-0x1000, 0xfFfF];",
    "an entry without `at`": "b is; c is; a is map [0x8-0xf to b and c at 0x1, 0x20 to b] over c;",
    "comments of any bytes, and 007": "a is accept [007]; // \xff ; end\n// b is;\nvectors v is accept [0x20-0x2f];",
    "one sort of name does not hide the other":
        "module m(node i); for i in 1..2; a[i] is over i; end; end; t is; use m(node t) as c;",
}
"""Descriptions that ask how names, variables and arguments are replaced."""

HEAD = "m is accept [0x0-0xffff]; agent a is over m;\n"
"""A small description, to which much is added."""

SCRIPT = ("for i in 0..1; agent a[i] is map [0x0-0xfff to u[i] at 0x0, 0x2000 to irt at i]; unit u[i] kind pages page "
          "12 slots 1 reach 16 to m; end; m is accept [0x0-0xffff]; vectors v is accept [0x20-0x21]; unit irt kind "
          "vectors page 0 slots 2 reach 8 to v; read is; radix is over m; // begin;\nbegin; resolve a[0+1] "
          "2*(4-1)\nfor write; grant write a[1*1] m 0x1000+0x1000 0x1000 for read; route r a[0] 0x2000 v; lookup a[1] "
          "8; view a[1] for read; view a[0]; dump; radix u[(2-1)] 2*1; radix u[0] 0; radix radix 1; split; absorb m; "
          "resolve read 0; revoke write; view a[1]; gather a[1] p m 0x0 0x1000; revoke p; gather a[0] q m 0x2000+0 "
          "4096 and r m (0x4000-0x1000) 1 for write; view a[0] for write;")
"""A description with each command."""


def normal(nodes: dict[str, Node]) -> str:
    """The nodes as `netconf check` prints them."""
    lines = []
    for node in nodes.values():
        if node.role == "unit":
            kind, page, slots, reach = node.shape
            lines.append(f"unit {node.name} kind {kind} page {page} slots {slots} reach {reach} to "
                         f"{', '.join(node.ports)};\n")
            continue
        line = (node.role + " " if node.role else "") + node.name + " is"
        line += f" accept [{', '.join(map(str, node.accepts))}]" if node.accepts else ""
        line += f" map [{', '.join(map(str, node.entries))}]" if node.entries else ""
        lines.append(line + (f" over {node.over}" if node.over else "") + ";\n")
    return "".join(lines)


LARGE = {
    "commands that only ask": (HEAD + "begin;\n", "resolve a 0x10;\n", "", 2),
    "commands that change tables": (HEAD + "begin;\n", "revoke x;\n", "", 6),
    "a body that is never used": (HEAD + "module m();\n", "b is map [0x0-0xff to c at 0x0] over d;\n", "end;\n", 3),
    "comments": (HEAD, "// a comment; begin;\n", "", 2),
    "a long sum": (HEAD + "b is accept [0x0-0x0", "+0x1", "];\n", 5),
    "a long sum of products": (HEAD + "b is accept [0x0-0x0", "+(1*2)", "];\n", 8),
}
"""Texts of 4 MiB: what stands before, what is repeated, what stands behind, and how many seconds the reader may
take."""


class TestSource(Case):
    """The reader of the tools beside the program's own."""

    def compare(self, what: str, text: str) -> None:
        """Compares the two over one text."""
        status, output = program_output("check", text.encode("latin-1"))
        try:
            self.assertEqual((0, normal(nodes_of(text))), (status, output), what)
        except Unreadable as error:
            self.assertTrue(False, f"{what}: {error}")

    def compare_commands(self, what: str, text: str) -> None:
        """The commands that are read are answered as those of the text are."""
        again = declarations_of(text) + "begin;\n" + "\n".join(map(str, commands_of(text)))
        answers = [program_output("run", source.encode("latin-1")) for source in (text, again)]
        self.assertEqual(answers[1], answers[0], f"the commands of {what}")

    def test_speed(self) -> None:
        """Large texts are read in a few seconds: what nobody asks for is not read."""
        for what, (head, part, tail, most) in LARGE.items():
            text = head + part * ((4194304 - len(head) - len(tail)) // len(part)) + tail
            before = time.thread_time()
            nodes, commands = nodes_of(text), commands_of(text, ("grant", "route", "revoke"))
            titles = {command.id for command in commands}
            taken = time.thread_time() - before
            self.assertTrue("m" in nodes and titles <= {"x"} and taken < most, f"4 MiB of {what} in {most} s: {taken}")

    def test_texts(self) -> None:
        """The two expand the texts above alike."""
        for what, text in TEXTS.items():
            with self.subTest(what):
                self.compare(what, text)

    def test_examples(self) -> None:
        """The two expand the examples alike, and read their commands alike."""
        for path in descriptions():
            with self.subTest(path.name):
                self.compare(path.name, path.read_text("latin-1"))
                self.compare_commands(path.name, path.read_text("latin-1"))

    def test_commands(self) -> None:
        """Each command is read as it stands in a description."""
        self.compare_commands("a description with each command", SCRIPT)
        self.assertEqual({command.word for command in commands_of(SCRIPT)}, set(COMMANDS), "each command stands there")
        self.assertEqual([(command.line, command.id, command.access) for command in commands_of(SCRIPT)][:3],
                         [(2, "", "write"), (3, "write", "read"), (3, "r", "")])
        self.assertEqual((commands_of("a is;"), declarations_of("a is; // begin\n")), ([], "a is;" + 9 * " " + "\n"))

    def test_lines(self) -> None:
        """A node knows its line, those of its blocks, and the use that made it."""
        node = nodes_of("module m();\na is\naccept [0x0,\n0x8-0x9];\nend;\n\nuse m()\nas x;")["x.a"]
        self.assertEqual((node.line, [block.line for block in node.accepts], node.uses), (2, [3, 4], ((7, "m", "x"),)))
