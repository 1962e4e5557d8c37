"""A machine of QEMU that runs no program: its memory, its registers and its cards are driven by QEMU's protocol of
tests.

The protocol is that of the option ``-qtest``, which QEMU describes in its file softmmu/qtest.c (system/qtest.c from 8.2
on): a line for each command, and a line ``OK ..`` back. The processor is off, and virtual time goes on by itself while
nothing waits but timers (``-icount shift=10,sleep=off``), so that a card's transfer is done at once."""

import base64
import subprocess
from types import TracebackType

from netconf_tools.text import Trouble

MOST_BYTES = 1 << 18
"""How many bytes are written or read by one command."""


class Qtest:
    """A running QEMU; it ends with the block that it is opened for."""

    def __init__(self, command: list[str]) -> None:
        words = [*command, "-display", "none", "-nodefaults", "-monitor", "none", "-serial", "none", "-qtest", "stdio",
                 "-qtest-log",
                 "none", "-icount", "shift=10,sleep=off"]
        self._process = subprocess.Popen(words, stdin=subprocess.PIPE, stdout=subprocess.PIPE,
                                         stderr=subprocess.DEVNULL, bufsize=0)
        self._rest = b""

    def __enter__(self) -> "Qtest":
        return self

    def __exit__(self, kind: type[BaseException] | None, error: BaseException | None,
                 trace: TracebackType | None) -> None:
        self._process.kill()
        for stream in (self._process.stdin, self._process.stdout):
            if stream is not None:
                stream.close()
        self._process.wait()

    def ask(self, *commands: str) -> list[str]:
        """Gives commands, and returns what QEMU answers to each. Raises Trouble if it ends or refuses one."""
        assert self._process.stdin is not None
        try:
            self._process.stdin.write("".join(command + "\n" for command in commands).encode("ascii"))
            answers = [self._answer() for _ in commands]
        except OSError as error:
            raise Trouble(f"QEMU ended with status {self._process.wait()}: {error.strerror}") from error
        return answers

    def _answer(self) -> str:
        """Returns the next answer; lines on interrupts are passed over."""
        assert self._process.stdout is not None
        while True:
            line, end, rest = self._rest.partition(b"\n")
            if not end:
                more = self._process.stdout.read(1 << 16)
                if not more:
                    raise Trouble(f"QEMU ended with status {self._process.wait()}")
                self._rest += more
                continue
            self._rest = rest
            if line.startswith(b"OK"):
                return line.decode("ascii")[3:]
            if not line.startswith(b"IRQ"):
                raise Trouble(f"QEMU refused a command of the trial: {line.decode('ascii', 'replace')[:80]}")

    def number(self, command: str) -> int:
        """Gives a command whose answer is a number, and returns it."""
        return int(self.ask(command)[0], 0)

    def read(self, address: int, size: int) -> bytes:
        """Returns bytes of the processor's addresses."""
        parts = [(at, min(MOST_BYTES, address + size - at)) for at in range(address, address + size, MOST_BYTES)]
        return b"".join(base64.b64decode(self.ask(f"b64read {at:#x} {count:#x}")[0]) for at, count in parts)

    def write(self, address: int, data: bytes) -> None:
        """Writes bytes at the processor's addresses."""
        for at in range(0, len(data), MOST_BYTES):
            part = data[at:at + MOST_BYTES]
            self.ask(f"b64write {address + at:#x} {len(part):#x} {base64.b64encode(part).decode('ascii')}")
