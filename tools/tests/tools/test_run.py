"""netconf-run: replies on standard output as the program prints them, refusals on standard error, and statuses."""

import os
import pathlib
import signal
import subprocess
import time
import unittest

from netconf_tools.text import program
from tests.case import EXAMPLES, TOOLS, Case, descriptions, outcome

RUN = TOOLS / "netconf-run"

BOARD = """//! let RAM = 0x80000000
dram is accept [0 size 1G];
bus is map [RAM size 1G to dram at 0x0];
agent dma is map [0 size 64K to smmu at 0x0];
unit smmu kind pages page 12 slots 16 reach 32 to bus;
"""

COMMANDS = """begin;
grant rx dma dram 0x4000 4K;
view dma;
grant odd dma dram 0x4100 0x100;
dump; radix smmu 1; split;
resolve drams RAM; lookup bus 0; view bus; absorb dma; absorb dma0;
gather dma a dram 0 4K and rx dram 8K 4K;
radix smmu 0;
resolve smmu 0x10 for read; revoke rx; revoke rx;
"""

ERRORS = """commands.net:4:1: error: grant odd: NoPlacement
commands.net:6:9: warning: resolve drams: there is no node `drams`; did you mean `dram`?
commands.net:6:27: warning: lookup bus: `bus` is not an agent
commands.net:6:39: error: view bus: NoAgent: the node does not exist, or is not an agent
commands.net:6:51: error: absorb dma: NotAbsorbable agent: the node is an agent
commands.net:6:63: error: absorb dma0: there is no node `dma0`; did you mean `dma`?
commands.net:7:28: error: gather dma: IdUsed 1: the id `rx` is in use
commands.net:8:12: error: radix smmu: Pool 1: the tree has more pages than the pool, which has 0
commands.net:9:47: error: revoke rx: NoGrant: no grant and no route with the id `rx` is live
"""
"""How the lines of the errors and warnings of the commands begin."""


class TestRun(Case):
    """What is printed, and the status."""

    def write(self, **texts: str) -> None:
        """Writes files."""
        for name, text in texts.items():
            pathlib.Path(self.folder, f"{name}.net").write_text(text)

    def run_tool(self, *words: str, text: str = "") -> tuple[int, str, str]:
        """The status, the output and the errors of the tool."""
        return outcome(RUN, *words, text=text, folder=self.folder)

    def plain(self, *words: str) -> str:
        """The output of the program over the text that the tool makes of files."""
        return outcome(program(), "run", text=self.run_tool("--expand", *words)[1])[1]

    def test_examples(self) -> None:
        """Each example is answered as by the program, and a refusal makes the status 1."""
        for path in descriptions():
            with self.subTest(path=path.name):
                wanted = outcome(program(), "run", text=path.read_text())[1]
                status, output, errors = outcome(RUN, path)
                self.assertEqual(output, wanted)
                self.assertEqual(status, int(" refused: " in wanted))
                self.assertEqual(status, int(": error: " in errors))

    def test_refused_commands(self) -> None:
        """Each command that is refused, and each question that names no node, has its place; the output stays as it
        is."""
        self.write(board=BOARD, commands=COMMANDS)
        status, output, errors = self.run_tool("board.net", "commands.net")
        self.assertEqual(output, self.plain("board.net", "commands.net"))
        found = [line for line in errors.splitlines() if ": error: " in line or ": warning: " in line]
        for line, wanted in zip(found, ERRORS.splitlines(), strict=True):
            self.assertEqual(line[: len(wanted)], wanted)
        self.assertEqual(status, 1)
        self.assertEqual(self.run_tool("--keep-going", "board.net", "commands.net"), (0, output, errors))

    def test_only_warnings(self) -> None:
        """A question that names no node is a warning, and the status stays 0."""
        status, output, errors = self.run_tool("-", text="a is; begin; resolve b 0;")
        self.assertEqual((status, output), (0, "b@0x0: no such node\n"))
        self.assertIn("-:1:22: warning: resolve b: there is no node `b`", errors)

    def test_refused_text(self) -> None:
        """A text that is refused has its file, line and column, also in a file that is included, and a caret."""
        self.write(a='//! include "b.net"\na is;\n', b="b is\naccept 0x0;\n")
        self.assertEqual(
            self.run_tool("a.net"),
            (
                1,
                "refused: line 3 Statement\n",
                """b.net:2:8: error: Statement: unexpected `0x0`, expected `[`
  accept 0x0;
         ^~~
""",
            ),
        )
        self.assertEqual(self.run_tool("--keep-going", "a.net")[0], 1)
        self.write(a="//! let R = 1\n//! let R = 2\n")
        self.assertEqual(
            self.run_tool("a.net"),
            (1, "", "a.net:2:9: error: let: `R` is already set\na.net:1:9: note: `R` is set here first\n"),
        )

    def test_other_commands(self) -> None:
        """The program's other commands: check, audit and demo; and what cannot be done."""
        self.write(board=BOARD, commands=COMMANDS)
        (status, net, errors), self.image = self.run_tool("--check", "board.net"), pathlib.Path(self.folder, "image")
        self.assertEqual((status, errors, net.splitlines()[0]), (0, "", "dram is accept [0x0-0x3fffffff];"))
        self.image.write_text(self.run_tool("board.net", "commands.net")[1])
        status, output, errors = self.run_tool("--audit", "image", "board.net")
        self.assertEqual((status, output.splitlines()[0], errors), (0, "audit bytes 144 records 1 shut 0 shared 0", ""))
        self.image.write_bytes(b"DNIM\2\0\0\0")
        self.assertEqual(
            self.run_tool("--audit", "image", "board.net")[::2],
            (
                1,
                "image:1: error: image Header 6: another field stands at this byte: 0 is the mark DNIM, 4 the version, "
                "6 the number of units\nboard.net:1: note: an image of this net has 1 units and 144 bytes\n",
            ),
        )
        self.assertEqual(self.run_tool("--demo", "1"), (0, outcome(program(), "demo", "1")[1], ""))
        for words in ("--demo 65", "--demo 0", "--demo 1 board.net", "", "--check --expand board.net"):
            self.assertEqual(self.run_tool(*words.split())[:2], (2, ""))

    def test_help(self) -> None:
        """The help names the four commands of the program."""
        status, output, _ = self.run_tool("--help")
        self.assertEqual(
            (
                status,
                [word in output for word in ("netconf run <", "netconf check <", "netconf audit <", "netconf demo N")],
            ),
            (0, [True] * 4),
        )

    def test_causes(self) -> None:
        """A status of the program that comes without an answer has its cause in words; so has a missing file or
        program."""
        self.write(a="a is;\n")
        for status, cause in (
            (2, "its standard input failed"),
            (3, "its standard output failed"),
            (6, "a write to its tables failed"),
            (7, "there is not enough memory"),
        ):
            stub = pathlib.Path(self.folder, "stub")
            stub.write_text(f"#!/bin/sh\nexit {status}\n")
            stub.chmod(0o755)
            wanted = f"netconf-run: netconf run ended with status {status}: {cause}\n"
            self.assertEqual(outcome(RUN, "a.net", folder=self.folder, NETCONF=str(stub)), (2, "", wanted))
        stub.write_text("#!/bin/sh\nkill -9 $$\n")
        wanted = "netconf-run: netconf run was ended by signal 9\n"
        self.assertEqual(outcome(RUN, "a.net", folder=self.folder, NETCONF=str(stub)), (2, "", wanted))
        self.assertEqual(self.run_tool("none.net"), (2, "", "netconf-run: none.net: No such file or directory\n"))
        self.assertEqual(outcome(RUN, "a.net", folder=self.folder, NETCONF="/none")[0], 2)

    def test_output_that_is_closed(self) -> None:
        """Where standard output takes no more, the tool ends with one line, and the program with it."""
        text = "a is accept [0x0-0xff];" + "begin;" + "resolve a 1;" * 200000
        with subprocess.Popen(
            [str(RUN), "-"], stdin=subprocess.PIPE, stdout=subprocess.PIPE, stderr=subprocess.PIPE
        ) as tool:
            assert tool.stdin and tool.stdout and tool.stderr
            tool.stdout.close()
            tool.stdin.write(text.encode())
            tool.stdin.close()
            errors = tool.stderr.read().decode()
            self.assertEqual(
                (tool.wait(), errors), (2, "netconf-run: standard output was closed before all was written\n")
            )

    def test_interrupt(self) -> None:
        """Ctrl-C ends the tool with one line and status 130, and what was printed stays."""
        stub = pathlib.Path(self.folder, "stub")
        stub.write_text("#!/bin/sh\necho first\nexec sleep 60\n")
        stub.chmod(0o755)
        # What a shell runs in the background ignores interrupts, and so would what it starts.
        before = signal.signal(signal.SIGINT, signal.default_int_handler)
        self.addCleanup(signal.signal, signal.SIGINT, before)
        with subprocess.Popen(
            [str(RUN), str(EXAMPLES / "first_board.net")],
            stdout=subprocess.PIPE,
            stderr=subprocess.PIPE,
            env={**os.environ, "NETCONF": str(stub)},
        ) as tool:
            assert tool.stdout and tool.stderr
            self.assertEqual(tool.stdout.readline(), b"first\n")
            time.sleep(0.05)
            tool.send_signal(signal.SIGINT)
            self.assertEqual((tool.wait(), tool.stderr.read()), (130, b"netconf-run: interrupted\n"))

    def test_colours(self) -> None:
        """There are no colours where standard error is no terminal."""
        self.write(a="a is")
        self.assertNotIn("\x1b", self.run_tool("a.net")[2])


if __name__ == "__main__":
    unittest.main()
