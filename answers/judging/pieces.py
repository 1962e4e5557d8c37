"""Texts that are read by pieces: however many bytes a read gives, they are answered alike; and so is each front of a
text."""

from collections.abc import Iterator
from typing import Any

from judging import program

SIZES = (1, 16, 4096)

# A core on a bus with a memory and a serial port, with what `run` answers and what `check` prints.
BOARD = b"""dram is accept [0x0-0x3fffffff];
uart is accept [0x0-0xfff];
bus is map [0x10000000-0x10000fff to uart at 0x0, 0x80000000-0xbfffffff to dram at 0x0];
agent core0 is over bus;
begin;
resolve core0 0x80001000;
view core0;
"""
ANSWERED = b"""core0@0x80001000: dram@0x1000
view core0 rows 2
0x10000000-0x10000fff uart@0x0
0x80000000-0xbfffffff dram@0x0
"""
PRINTED = BOARD[: BOARD.index(b"begin")]

# Texts with no tokens, no statements or no net, each with the line by which it is refused.
REFUSED = [
    (b"a is accept [0x0-0xg];", b"line 1 Token"),
    (b"\n\n@", b"line 3 Token"),
    ("é is;".encode(), b"line 1 Token"),
    (b"a is\n\n", b"line 3 Statement"),
    (b"\nend\n;", b"line 2 Block"),
    (b"a is;\nb is over c;", b"line 2 Unknown"),
    (b"a is accept [2-1];", b"Range a"),
    (b"a is over a;", b"Loop a@0x0 -> a@0x0"),
]

# A text that has every form of statement.
EVERY = b"""dram is accept [0x0-0xff, (512-1)*2+1]; // memory
vectors v is accept [0-31];
bus is map [0-7 to dram and dram at 0x8, 8 to v] over dram;
module m(num n, node x); a[n].b is over x; end;
for i in 0..2; use m(i, node dram) as c[i]; end;
unit u kind remap page 12 slots 4 reach 40 to dram, bus;
agent core is over bus;
begin;
resolve core 1+2; lookup core 0; view core; grant g core dram 0x0 0x10;
route r core 3 v; revoke g; dump; radix u (2-1); split; absorb bus;
gather core p dram 0x0 0x10 and q dram 2*16 (0x20-0x10) for write; gather core s dram 0 1;
"""


def texts() -> Any:
    """Texts with words and what is due, each a name, words, text, status and output."""
    rows = [("run", BOARD, 0, ANSWERED), ("check", BOARD, 0, PRINTED), ("run", b"", 0, b""), ("check", b"", 0, b"")]
    rows += [(word, text, 4, b"refused: " + line + b"\n") for text, line in REFUSED for word in ("run", "check")]
    return [(word, text, (status, output)) for word, text, status, output in rows]


def of_texts() -> Iterator[Any]:
    """What each text comes to by each size of pieces, with what is due."""
    for word, text, due in texts():
        for size in SIZES:
            yield f"{word} over {text[:24]!r} by {size} bytes", due, program.outcome_by_pieces([word], text, size)


def of_cases(cases: Any) -> Iterator[Any]:
    """What the texts of cases come to by single bytes and by 16, with what is due."""
    for case in cases:
        for size in SIZES[:2]:
            yield f"{case.name} by {size} bytes", case.due, program.outcome_by_pieces(case.words, case.text, size)


def of_fronts(few: Any = 1) -> Iterator[Any]:
    """What each front of a text comes to by pieces of 1 to 16 bytes, with what it comes to at once; it is answered or
    refused.

    Of so many fronts one is taken."""
    for size in range(0, len(EVERY) + 1, few):
        due = program.outcome(["run"], EVERY[:size])
        piece = size % 16 + 1
        got = program.outcome_by_pieces(["run"], EVERY[:size], piece)
        yield f"the first {size} bytes of a text by {piece} bytes", due if due[0] in (0, 4) else "status 0 or 4", got
