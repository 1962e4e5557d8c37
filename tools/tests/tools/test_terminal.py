"""What the tools show on a terminal: colours, unless they are unwanted, and that work goes on."""

import os
import pathlib
import pty
import subprocess
import unittest

from tests.case import TOOLS, Case


class TestTerminal(Case):
    """The tools on a terminal of their own."""

    def shown(self, *words: str, **variables: str) -> str:
        """What a tool shows on a terminal."""
        (self.folder / "board.net").write_text("a is\n")
        first, second = pty.openpty()
        environment = {**os.environ, "TERM": "xterm", **variables}
        environment.pop("PYTHONPATH", None)
        with subprocess.Popen(
            [str(TOOLS / words[0]), *words[1:]],
            stdin=subprocess.DEVNULL,
            stdout=second,
            stderr=second,
            cwd=self.folder,
            env=environment,
        ):
            os.close(second)
            parts = []
            while part := self.read(first):
                parts.append(part)
        os.close(first)
        return b"".join(parts).decode()

    def read(self, terminal: int) -> bytes:
        """The next bytes on a terminal; nothing once nobody writes to it."""
        try:
            return os.read(terminal, 4096)
        except OSError:
            return b""

    def test_colours(self) -> None:
        """Places, severities and carets are coloured, and not if NO_COLOR is set or the terminal is dumb."""
        for tool in ("netconf-lint", "netconf-run"):
            with self.subTest(tool):
                seen = self.shown(tool, "board.net", NO_COLOR="")
                self.assertIn(
                    "\x1b[1mboard.net:2:1:\x1b[0m \x1b[1;31merror:\x1b[0m Statement: the text ends here", seen
                )
                self.assertIn("\x1b[1;32m^\x1b[0m", seen)
                for variable, value in (("NO_COLOR", "1"), ("TERM", "dumb")):
                    seen = self.shown(tool, "board.net", **{variable: value})
                    self.assertIn("board.net:2:1: error: Statement: the text ends here", seen)
                    self.assertNotIn("\x1b", seen)

    def test_work(self) -> None:
        """Work that takes more than a second shows that it goes on, and the line is gone in the end."""
        stub = pathlib.Path(self.folder, "stub")
        stub.write_text("#!/bin/sh\nsleep 1.8\necho 'refused: line 1 Token'\nexit 4\n")
        stub.chmod(0o755)
        for words in (
            ["netconf-lint", "board.net"],
            ["netconf-run", "board.net"],
            ["netconf-query", "who", "board.net", "a", "0"],
        ):
            with self.subTest(words[0]):
                seen = self.shown(*words, NETCONF=str(stub))
                self.assertRegex(seen, r"\r[|/\\-] netconf (run|check), \d s")
                self.assertIn("\r\x1b[K", seen)
        stub.write_text("#!/bin/sh\necho 'refused: line 1 Token'\nexit 4\n")
        self.assertNotIn("\r\x1b[K", self.shown("netconf-lint", "board.net", NETCONF=str(stub)))


if __name__ == "__main__":
    unittest.main()
