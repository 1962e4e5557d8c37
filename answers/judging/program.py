"""Running the built program over a text, given at once or piece by piece."""

import fcntl
import os
import pathlib
import struct
import subprocess
import termios
import time
from typing import Any

ROOT = pathlib.Path(__file__).resolve().parents[2]
PROGRAM = os.environ.get("NETCONF") or str(ROOT / "crates/netconf/out/netconf")
SECONDS = 120
NO_END = f"no end in {SECONDS} seconds", b""


def outcome(words: list[str], text: bytes) -> Any:
    """The status and the output of the program, where a read gives as much of the text as it asks for."""
    try:
        done = subprocess.run([PROGRAM, *words], input=text, stdout=subprocess.PIPE, timeout=SECONDS, check=False)
    except subprocess.TimeoutExpired:
        return NO_END
    return done.returncode, done.stdout


def is_empty(pipe: Any) -> Any:
    """Nothing is left in a pipe."""
    count = fcntl.ioctl(pipe, termios.FIONREAD, struct.pack("i", 0))
    return struct.unpack("i", count)[0] == 0


def feed(running: Any, pipe: Any, text: Any, size: Any, deadline: Any) -> Any:
    """Writes a text to a pipe, a piece when the one before it was read, as long as the program runs and there is
    time."""
    for at in range(0, len(text) + size, size):
        while not is_empty(pipe) and running.poll() is None:
            if time.monotonic() > deadline:
                return
            os.sched_yield()
        os.write(pipe, text[at: at + size])


def outcome_by_pieces(words: Any, text: Any, size: Any) -> Any:
    """The same where each read gives at most so many bytes."""
    reader, writer = os.pipe()
    with subprocess.Popen([PROGRAM, *words], stdin=reader, stdout=subprocess.PIPE) as running:
        os.close(reader)
        try:
            feed(running, writer, text, size, time.monotonic() + SECONDS)
        except BrokenPipeError:
            pass
        os.close(writer)
        try:
            output, _ = running.communicate(timeout=SECONDS)
        except subprocess.TimeoutExpired:
            running.kill()
            return NO_END
    return running.returncode, output
