"""`netconf audit` against the second audit beside this file: over an example, worked nets, made nets with images whose
bits were turned, and input that is meant to break it. Each answer has to be the same byte for byte."""

import functools
import os
import random
import subprocess
from collections.abc import Callable

from netconf_tools.dump import image_in
from tests.case import EXAMPLES, Case
from tests.loader.nets import MADE
from tests.loader.second_audit import MOST, audit
from tests.loader.test_header import made_case

SECONDS = 600
"""How long the program may take over an input of the limit."""

EXAMPLE = EXAMPLES / "foreign_tables.net"

THREE = """m is accept [0x0-0x1f];
agent a is map [0x0-0x9 to m at 0x0];
agent b is map [0x5-0xe to m at 0x5];
agent c is map [0x8-0x14 to m at 0x8, 0x20-0x21 to m at 0x0 and m at 0x4];
"""
"""Three agents that see overlapping spans of a node, and one of them two names at one address."""

BOARD = """dram is accept [0x0-0xffffff];
vectors cpu is accept [0x20-0x3f];
bus is map [0x80000000-0x80ffffff to dram at 0x0];
agent core is over bus;
agent card is map [0x0-0x1ffff to bridge at 0x0, 0x100000-0x10000f to remapper at 0x0];
unit bridge kind remap page 16 slots 2 reach 18 to host, dram;
host is map [0x0-0x1ffff to iommu at 0x0];
unit iommu kind radix page 12 slots 32 reach 32 to bus, dram;
unit remapper kind vectors page 0 slots 16 reach 8 to cpu;
"""
"""A board with units of three kinds, whose image has more than 300 bytes."""

UNITS = ((5, 1, 2), (7, 1, 32), (8, 2, 16))
"""The units of the board: the number of the node, the words of a record and the slots."""

SMALL = """m is accept [0x0-0xffff];
vectors cpu is accept [0x20-0x3f];
agent a is map [0x0-0x3fff to u at 0x0, 0x8000-0x8001 to v at 0x0];
agent b is map [0x0-0x3fff to u at 0x1000, 0x8000-0x8001 to v at 0x0];
unit u kind pages page 12 slots 4 reach 16 to m;
unit v kind vectors page 0 slots 2 reach 6 to cpu;
"""
"""A net with few words, of which each bit is turned."""

LARGE = """cpu is accept [0x0-0xff];
agent a is map [0x0-0x3ffff to u[14] at 0x0] over cpu;
for i in 0..14;
unit u[i] kind vectors page 0 slots 262144 reach 8 to cpu;
end;
//"""
"""A net whose image has 15 units of four million bytes; the comment at its end is made as long as is wanted."""


@functools.lru_cache(maxsize=1)
def program_check(text: bytes) -> tuple[int, str]:
    """The status and the output of `netconf check` over a text."""
    done = subprocess.run([os.environ["NETCONF"], "check"], input=text, capture_output=True, check=False)
    return done.returncode, done.stdout.decode("latin-1")


def difference(seen: tuple[int, str], due: tuple[int, str]) -> str:
    """The statuses of two answers, and their first lines that are not the same."""
    lines = [answer[1].split("\n") for answer in (seen, due)]
    at = next((at for at, pair in enumerate(zip(*lines)) if pair[0] != pair[1]), min(map(len, lines)))
    return f"--- seen {seen[0]}, line {at + 1}\n{lines[0][at:at + 3]}\n--- due {due[0]}\n{lines[1][at:at + 3]}\n"


def image_with(words: Callable[[int, int], int] = lambda unit, at: 0, version: int = 2) -> bytes:
    """An image of the board, with the word of each unit, by its place, that a function gives."""
    parts = [b"DNIM", version.to_bytes(2, "little"), len(UNITS).to_bytes(2, "little")]
    for unit, (node, count, slots) in enumerate(UNITS):
        parts += [node.to_bytes(2, "little"), bytes([count, 0]), slots.to_bytes(4, "little")]
        parts += [words(unit, at).to_bytes(8, "little") for at in range(count * slots)]
    return b"".join(parts)


def fields_of(image: bytes) -> list[tuple[int, int]]:
    """Where the fields of the head and of the units' heads stand: each its first byte and the byte after it."""
    fields, at = [(0, 4), (4, 6), (6, 8)], 8
    for _, count, slots in UNITS:
        fields += [(at, at + 2), (at + 2, at + 3), (at + 3, at + 4), (at + 4, at + 8)]
        at += 8 + 8 * count * slots
    assert at == len(image)
    return fields


class TestAudit(Case):
    """Audits of the program beside the second audit."""

    def compare(self, what: str, data: bytes) -> str:
        """Compares the program with the second audit over one input; returns the first line that was printed."""
        try:
            done = subprocess.run([os.environ["NETCONF"], "audit"], input=data, capture_output=True, timeout=SECONDS,
                                  check=False)
        except subprocess.TimeoutExpired:
            self.fail(f"{what}: no end in {SECONDS} seconds")
        seen, due = (done.returncode, done.stdout.decode("latin-1")), audit(data, program_check)
        self.assertTrue(seen == due and not done.stderr,
                        f"{what}: {difference(seen, due)}{done.stderr.decode(errors='replace')}")
        return seen[1].split("\n")[0]

    def test_worked(self) -> None:
        """The example, by its file; and worked rows of what agents share."""
        image = image_in(EXAMPLE.with_suffix(".tables").read_bytes())
        self.compare("the example", EXAMPLE.read_bytes() + b"\0" + image)
        self.assertEqual(audit(EXAMPLE.read_bytes() + b"\0" + image, program_check)[1],
                         EXAMPLE.with_suffix(".audited").read_text(), "the second audit of the example")
        empty = b"DNIM\2\0\0\0"
        self.compare("three agents", THREE.encode() + b"\0" + empty)
        lines = [line for line in audit(THREE.encode() + b"\0" + empty, program_check)[1].splitlines()
                 if line.startswith("shared")]
        self.assertEqual(lines, ["shared m 0x0-0x1 a c", "shared m 0x4-0x4 a c", "shared m 0x5-0x5 a b c",
                                 "shared m 0x6-0x7 a b", "shared m 0x8-0x9 a b c",
                                 "shared m 0xa-0xe b c"], "what three agents share")
        self.compare("one agent sees a name by two addresses",
                     b"m is accept [0-7]; agent a is map [0-7 to m at 0, 8-15 to m at 0];\0" + empty)
        self.compare("no agent", b"m is accept [0-7];\0" + empty)
        self.compare("no node", b"\0" + empty)

    def test_versions(self) -> None:
        """Records of one access and of both, in each version; and words of every sort."""
        chance = random.Random(7)
        sorts = [0x8000_0001, 0x8000_1021, 0x8000_2011, 0x8000_3031, 0x8000_4003, 0x8000_5005, 0x5023, 0x6041,
                 0x1_0000_7001, 1 << 56 | 0x8000_8001, 0x9000]
        for version in (1, 2):
            def of_sorts(unit: int, at: int) -> int:
                return [0x0001_0001 * at + 1, sorts[at % len(sorts)],
                        (0x20 + at % 48, (1, 0x21, 0x11, 0x31, 3, 0x41)[at // 2 % 6])[at % 2]][unit]

            found = self.compare(f"records of every sort, version {version}",
                                 BOARD.encode() + b"\0" + image_with(of_sorts, version))
            self.assertTrue(" shut " in found and " shut 0 " not in found,
                            f"some records of version {version} are shut out: {found}")
            for number in range(8):
                near = [lambda unit, at: chance.getrandbits(64), lambda unit,
                        at: chance.choice(sorts) ^ 1 << chance.randrange(64)][number % 2]
                self.compare(f"random words {number}, version {version}",
                             BOARD.encode() + b"\0" + image_with(near, version))
        self.compare("words of ones", BOARD.encode() + b"\0" + image_with(lambda unit, at: (1 << 64) - 1))

    def test_bits(self) -> None:
        """Each bit of each word turned: the image is taken whatever its words are. Some outputs come to stand exactly
        at the reach."""
        words = (0x101, 0x221, 0x1, 0x311, 0x20, 0x1, 0, 0x1)
        heads = (b"DNIM\2\0\2\0\4\0\1\0\4\0\0\0", b"\5\0\2\0\2\0\0\0")
        for number, bit in [(number, bit) for number in range(len(words)) for bit in range(64)]:
            turned = [(word ^ (at == number) << bit).to_bytes(8, "little") for at, word in enumerate(words)]
            image = heads[0] + b"".join(turned[:4]) + heads[1] + b"".join(turned[4:])
            found = self.compare(f"bit {bit} of word {number} turned", SMALL.encode() + b"\0" + image)
            self.assertTrue(found.startswith("audit bytes 88 "),
                            f"an image with bit {bit} of word {number} turned is taken: {found}")

    def test_heads(self) -> None:
        """Each field of the head and of the units' heads: each of its bits turned, set to 0, and set to ones."""
        image = image_with(lambda unit, at: at * 0x1000 + 1)
        for first, end in fields_of(image):
            value = int.from_bytes(image[first:end], "little")
            turned = [value ^ 1 << bit for bit in range(8 * (end - first))] + [0, (1 << 8 * (end - first)) - 1]
            for other in turned:
                data = image[:first] + other.to_bytes(end - first, "little") + image[end:]
                self.compare(f"bytes {first} to {end - 1} of the image as {other:#x}", BOARD.encode() + b"\0" + data)

    def test_lengths(self) -> None:
        """An image that is cut at each of its first bytes, or that goes on."""
        image = image_with(lambda unit, at: at * 0x1000 + 1)
        self.assertTrue(len(image) > 300, "the image that is cut has more than 300 bytes")
        for size in [*range(301), len(image) - 1]:
            found = self.compare(f"the image cut to {size} bytes", BOARD.encode() + b"\0" + image[:size])
            self.assertTrue(size == len(image) or found == f"refused: image Short {size}",
                            f"an image of {size} bytes is short: {found}")
        for more in (b"\0", b"x", bytes(8), image):
            found = self.compare(f"the image with {len(more)} bytes after it", BOARD.encode() + b"\0" + image + more)
            self.assertEqual(found, f"refused: image Trailing {len(image)}", f"{len(more)} bytes after the image")

    def test_inputs(self) -> None:
        """Inputs without an image, with a byte 0x00 in other places, and descriptions that are refused."""
        image, text = image_with(), BOARD.encode()
        dump = f"dump bytes {len(image)}\n".encode() + b"".join(image[at:at + 32].hex().encode() + b"\n"
                                                                for at in range(0, len(image), 32))
        cases = {"nothing": b"", "a byte 0x00 alone": b"\0", "a text alone": text,
                 "a text and a byte 0x00": text + b"\0",
                 "two bytes 0x00": text + b"\0\0" + image, "an image alone": image,
                 "a text of dump in the place of an image": text + b"\0" + dump,
                 "a byte 0x00 in a comment": text + b"// a comment\0 that goes on\n\0" + image,
                 "a byte 0x00 at the end of a comment": text + b"// a comment\0" + image,
                 "a byte 0x00 in a comment of no net": b"// \0" + image,
                 "a byte 0x00 inside a statement": text + b"a is \0" + image,
                 "a byte 0x00 inside a word": b"dr\0am is;" + b"\0" + image,
                 "a description that is refused, and no image": b"a is; a is;",
                 "the same with an image": b"a is; a is;\0" + image,
                 "one that breaks a rule of nodes": b"a is accept [1-0];\0" + image,
                 "a loop": b"a is over b; b is over a;\0" + image,
                 "a byte that begins no token": text + b"\x01\0" + image,
                 "a text of blanks": b" " * 100 + b"\0DNIM\2\0\0\0",
                 "commands, which are not run": text
                 + b"begin; grant b card dram 0x4000 0x1000; dump; revoke b; view card;\0" + image,
                 "commands that are refused": text + b"begin; grant b none dram 0x4000 0x1000; revoke z;\0" + image,
                 "a command with a faulty expression": text + b"begin; resolve dram x;\0" + image,
                 "a command that is no statement": text + b"begin; resolve;\0" + image,
                 "a text that is one byte too long": b" " * 4194305 + b"\0" + image,
                 "the longest text": text.ljust(4194304) + b"\0" + image,
                 "another net": b"dram is accept [0-7];" + text + b"\0" + image}
        for what, data in cases.items():
            self.compare(what, data)

    def test_limit(self) -> None:
        """An input of the limit, which is answered, and one of a byte more; each with tables that are nearly all 0."""
        tables = bytearray(b"DNIM\2\0\x0f\0")
        for unit in range(15):
            tables += (2 + unit).to_bytes(2, "little") + b"\2\0" + (262144).to_bytes(4,
                                                                                     "little") + bytes(2 * 8 * 262144)
        tables[-16:] = (0x40).to_bytes(8, "little") + (1).to_bytes(8, "little")
        room = MOST - len(tables) - 1
        found = self.compare("an input of the limit", LARGE.encode().ljust(room, b"x") + b"\0" + tables)
        self.assertEqual(found, f"audit bytes {len(tables)} records 1 shut 0 shared 0",
                         "an input of the limit is answered")
        found = self.compare("an input of one byte more", LARGE.encode().ljust(room + 1, b"x") + b"\0" + tables)
        self.assertEqual(found, "refused: InputLength", "an input of one byte more is refused")
        self.compare("bytes of 0 up to the limit", bytes(MOST))
        self.compare("bytes of 0 past the limit", bytes(MOST + 1))
        self.compare("a text that is refused, past the limit", b"a is; a is;\0".ljust(MOST + 1))

    def test_made(self) -> None:
        """Made nets with the images that the program makes of them, and these with turned bits, and filled with
        records."""
        taken, count = 0, MADE // 2
        for number in range(count):
            case = made_case(number)
            if case is None:
                continue
            for place, image in enumerate([case.images[-1], *case.turned]):
                taken += self.compare(f"made net {number}, image {place}",
                                      case.text.encode("latin-1") + b"\0" + image).startswith("audit ")
        self.assertTrue(taken >= 2 * count, f"many images of made nets are taken: {taken}")
