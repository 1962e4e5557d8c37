"""Each tool that is interrupted ends with one line and status 130, whatever it waits for."""

import errno
import os
import pathlib
import signal
import subprocess
import time
from collections.abc import Callable

from tests.case import EXAMPLES, TOOLS, Case

BOARD = EXAMPLES / "dma_buffers.net"

ASKS = [("netconf-lint", BOARD), ("netconf-lint", "--audit", BOARD, "image"),
        ("netconf-query", "who", BOARD, "dram", "0x0"),
        ("netconf-draw", "--views", BOARD), ("netconf-layout", BOARD),
        ("netconf-export", "--format", "vtd", "--at", "0", TOOLS / "machine/cards.net")]
"""Words with which a tool runs the program."""

READS = [("netconf-dump2bin", "pipe"), ("netconf-import", "pipe"), ("netconf-lint", "pipe"),
         ("netconf-query", "who", "pipe", "a", "0")]
"""Words with which a tool reads a file."""

SECONDS = 60
"""How long a tool may take until it asks or reads, and until it has ended."""

PATIENCE = 5
"""After how many seconds a tool that has not ended is interrupted again."""


class TestInterrupt(Case):
    """What a tool says of an interrupt."""

    def setUp(self) -> None:
        """Has the tools not ignore interrupts, as what a shell starts in the background does."""
        signal.signal(signal.SIGINT, signal.default_int_handler)

    def interrupted(self, words: tuple[object, ...], is_ready: Callable[[], bool], **variables: str) -> None:
        """Starts a tool, interrupts it when it is ready, and looks at how it ends."""
        command = [str(TOOLS / str(words[0])), *map(str, words[1:])]
        with subprocess.Popen(command, cwd=self.folder, stdin=subprocess.DEVNULL, stdout=subprocess.PIPE,
                              stderr=subprocess.PIPE,
                              text=True, env={**os.environ, **variables}) as process:
            end = time.monotonic() + SECONDS
            while not is_ready() and time.monotonic() < end:
                time.sleep(0.02)
            output, errors = ended(process)
        self.assertEqual((process.returncode, output, errors), (130, "", f"{words[0]}: interrupted\n"))

    def test_program(self) -> None:
        """A tool that waits for the program."""
        started = self.folder / "started"
        slow = self.folder / "slow"
        slow.write_text(f"#!/bin/sh\ntouch {started}\nexec sleep {SECONDS}\n")
        slow.chmod(0o755)
        (self.folder / "image").write_bytes(b"DNIM\2\0\0\0")
        for words in ASKS:
            with self.subTest(words[:2]):
                started.unlink(missing_ok=True)
                self.interrupted(words, started.exists, NETCONF=str(slow))

    def test_file(self) -> None:
        """A tool that waits for a file."""
        for words in READS:
            with self.subTest(words[0]):
                pipe = self.folder / "pipe"
                os.mkfifo(pipe)
                writer: list[int] = []
                self.interrupted(words, lambda: opened(pipe, writer))
                os.close(writer[0])
                pipe.unlink()


def ended(process: "subprocess.Popen[str]") -> tuple[str, str]:
    """What a tool prints that is interrupted, as often as it takes.

    An interrupt between the last test for one and the beginning of a read is kept until the read ends, as in each
    program in Python. So it is sent again where the tool waits on."""
    for _ in range(SECONDS // PATIENCE):
        time.sleep(0.1)
        process.send_signal(signal.SIGINT)
        try:
            return process.communicate(timeout=PATIENCE)
        except subprocess.TimeoutExpired:
            pass
    process.kill()
    return process.communicate()


def opened(pipe: pathlib.Path, writer: list[int]) -> bool:
    """Whether a reader has opened a pipe; its other end is then open too, so that the reader waits."""
    try:
        writer.append(os.open(pipe, os.O_WRONLY | os.O_NONBLOCK))
    except OSError as error:
        if error.errno != errno.ENXIO:
            raise
        return False
    return True
