"""Colours on a terminal, and a line that shows that work goes on."""

import contextlib
import os
import sys
import threading
import time
from collections.abc import Iterator
from typing import TextIO

CODES = {"error": "1;31", "warning": "1;35", "note": "1;36", "place": "1", "caret": "1;32"}
"""The colours of a severity, of a place and of a caret, as codes of a terminal."""

DELAY, STEP = 1.0, 0.25
"""After how many seconds a line shows that work goes on, and how often it changes."""

MARKS = "|/-\\"


def is_coloured(stream: TextIO | None) -> bool:
    """Whether a stream takes colours: it is a terminal, and `NO_COLOR` is not set or empty (https://no-color.org)."""
    return (
        stream is not None and stream.isatty() and not os.environ.get("NO_COLOR") and os.environ.get("TERM") != "dumb"
    )


class Painter:
    """Colours texts by what they are, if the stream takes colours."""

    def __init__(self, stream: TextIO | None) -> None:
        self.is_on = is_coloured(stream)

    def __call__(self, what: str, text: str) -> str:
        """The text in the colour of what it is, as a severity."""
        return f"\x1b[{CODES[what]}m{text}\x1b[0m" if self.is_on and what in CODES else text


@contextlib.contextmanager
def at_work(what: str) -> Iterator[None]:
    """Shows on standard error, if that is a terminal, that work goes on which takes more than a second, and for how
    long."""
    if sys.stderr is None or not sys.stderr.isatty():
        yield
        return
    done = threading.Event()
    thread = threading.Thread(target=show_work, args=(what, done), daemon=True)
    thread.start()
    try:
        yield
    finally:
        done.set()
        thread.join()


def show_work(what: str, done: threading.Event) -> None:
    """Writes a line again and again until the work is done, and clears it."""
    begin, count = time.monotonic(), 0
    if done.wait(DELAY):
        return
    with contextlib.suppress(OSError):
        while not done.wait(STEP):
            count += 1
            print(
                f"\r{MARKS[count % len(MARKS)]} {what}, {time.monotonic() - begin:.0f} s",
                end="",
                file=sys.stderr,
                flush=True,
            )
        print("\r\x1b[K", end="", file=sys.stderr, flush=True)
