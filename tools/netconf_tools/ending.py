"""How a tool ends: with what it printed written whole, or with one line on standard error and a status."""

import io
import os
import signal
import sys
from collections.abc import Callable
from typing import TextIO

INTERRUPTED = 130
"""The status of a tool that is interrupted, as by Ctrl-C: 128 and the number of the signal, as shells have it."""


def plain(text: str) -> str:
    """A text without what a terminal would obey: each character that is not printed stands as an escape, as `\\x1b`."""
    if text.isprintable():
        return text
    return "".join(letter if letter.isprintable() else letter.encode("unicode_escape", "surrogatepass").decode()
                   for letter in text)


def tell(tool: str, message: str) -> None:
    """Writes one line to standard error, with the name of the tool; where it cannot be written nothing is."""
    if sys.stderr is None:
        return
    try:
        print(f"{tool}: {plain(message)}", file=sys.stderr, flush=True)
    except OSError:
        close(sys.stderr)


def close(stream: TextIO) -> None:
    """Has what is left in a stream go nowhere, so that nothing is said of it when the tool ends."""
    os.dup2(os.open(os.devnull, os.O_WRONLY), stream.fileno())


def ended(tool: str, call: Callable[[], int], failed: int, trouble: type[Exception]) -> int:
    """The status of a tool: what a call gives; or `failed`, with one line on standard error, where it raises `trouble`,
    where memory does not suffice, and where standard output cannot be written; or 130 where it is interrupted."""
    if signal.getsignal(signal.SIGINT) is signal.SIG_DFL:
        signal.signal(signal.SIGINT, signal.default_int_handler)
    if sys.stdout is None:
        tell(tool, "standard output is closed")
        return failed
    if isinstance(sys.stdout, io.TextIOWrapper):
        # The name of a file is written byte for byte, also where it is no text.
        sys.stdout.reconfigure(errors="surrogateescape")
    try:
        try:
            status = call()
        except SystemExit as ending:
            status = ending.code if isinstance(ending.code, int) else int(ending.code is not None)
        sys.stdout.flush()
        return status
    except KeyboardInterrupt:
        close(sys.stdout)
        tell(tool, "interrupted")
        return INTERRUPTED
    except trouble as cause:
        message = str(cause)
    except MemoryError:
        message = "there is not enough memory"
    except RecursionError:
        message = "the description is nested too deep"
    except BrokenPipeError:
        message = "standard output was closed before all was written"
        close(sys.stdout)
    except OSError as error:
        message = f"standard output: {error.strerror}"
        close(sys.stdout)
    tell(tool, message)
    return failed
