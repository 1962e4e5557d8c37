"""netconf-dump2bin: the example of docs/image.md, and inputs that are no dump and no image."""

import os
import pathlib

from tests.case import TOOLS, TOP, Case, outcome

CHANGES = """write node 2 slot 0 word 0 value 0x0
write node 2 slot 1 word 0 value 0x0
write node 6 slot 1 word 1 value 0x0
write node 6 slot 1 word 0 value 0x0
fence
write node 2 slot 0 word 0 value 0x801
"""
FIRST = """write node 2 slot 0 word 0 value 0x421
write node 2 slot 1 word 0 value 0x521
write node 6 slot 1 word 0 value 0x20
write node 6 slot 1 word 1 value 0x3
"""


DUMP2BIN = TOOLS / "netconf-dump2bin"


def page_example() -> tuple[str, bytes]:
    """The text of docs/image.md, and the bytes that the page prints of it."""
    parts = (TOP / "docs/image.md").read_text().split("```\n")
    text = next(part for part in parts if "\ndump;\n" in part)
    dump = next(part for part in parts if "\ndump bytes " in part)
    return text, bytes.fromhex(dump.split("\n", 3)[3])


class TestDump(Case):
    """Dumps as bytes, and the writes from one image to the next."""

    def check_output(self, folder: pathlib.Path, first: pathlib.Path, answers: pathlib.Path) -> None:
        """A file that is written over may be one that is read, keeps its mode, and stays as it was where an input is no
        image."""
        path = folder / "over"
        path.write_bytes(first.read_bytes())
        path.chmod(0o640)
        self.assertEqual(outcome(DUMP2BIN, "--changes", "--output", path, path, answers), (0, "", ""), "over an input")
        self.assertEqual((path.read_text(), path.stat().st_mode & 0o777), (CHANGES, 0o640),
                         "what stands there, and its mode")
        missing = folder / "none"
        wrong: list[list[object]] = [["--changes", "--output", path, first, missing],
                                     ["--changes", "--output", path, first, path], ["--output", path, missing]]
        for words in wrong:
            self.assertEqual(outcome(DUMP2BIN, *words)[0], 2, f"{words[-1]} is no image")
            self.assertEqual(path.read_text(), CHANGES, "and what stood there stays")
        self.assertEqual(outcome(DUMP2BIN, "--changes", "--output", "/dev/stdout", first), (0, FIRST, ""),
                         "a device is written as it is")
        status, _, errors = outcome(DUMP2BIN, "--output", "/dev/full", first)
        self.assertEqual((status, errors), (2, "netconf-dump2bin: /dev/full: No space left on device\n"), "a full disk")
        self.assertEqual([name.name for name in folder.glob(".netconf-*")], [], "nothing is left beside it")

    def setUp(self) -> None:
        """Writes an output with two dumps."""
        self.text, self.image = page_example()
        more = self.text + "revoke b;\nrevoke done;\ngrant c dma dram 0x8000 0x1000;\ndump;\n"
        self.output = outcome(os.environ["NETCONF"], "run", text=more)[1]
        self.answers, self.first = self.folder / "answers", self.folder / "first.bin"
        self.answers.write_text(self.output)
        self.assertEqual(outcome(DUMP2BIN, "--dump", "1", "--output", self.first, self.answers), (0, "", ""))

    def test_bytes(self) -> None:
        """The bytes of a dump are those of docs/image.md, also where lines end as on Windows."""
        second = self.folder / "second.bin"
        self.assertEqual(self.first.read_bytes(), self.image)
        self.assertEqual(outcome(DUMP2BIN, "--output", second, text=self.output), (0, "", ""),
                         "the last, of standard input")
        self.assertEqual(second.read_bytes()[16:24].hex(), "0108000000000000", "a record of the last dump")
        self.answers.write_bytes(self.output.replace("\n", "\r\n").encode())
        self.assertEqual(outcome(DUMP2BIN, "--dump", "1", "--output", second, self.answers), (0, "", ""))
        self.assertEqual(second.read_bytes(), self.image)

    def test_changes(self) -> None:
        """The writes from tables of 0 to an image, from one to another, and from one to itself."""
        self.assertEqual(outcome(DUMP2BIN, "--changes", self.first), (0, FIRST, ""))
        self.assertEqual(outcome(DUMP2BIN, "--changes", self.first, self.answers), (0, CHANGES, ""))
        self.assertEqual(outcome(DUMP2BIN, "--changes", self.first, self.first), (0, "", ""))

    def test_damaged(self) -> None:
        """What is no image or no whole dump is refused in one line."""
        text, image, output = self.text, self.image, self.output
        dump = output.index("dump bytes")
        damaged: dict[str, str | bytes] = {
            "there is no image here, and no dump": text,
            "there is no dump 3: the last is 2": output,
            "the dump of line 3 says 88 bytes and has 64": output[:dump] + output[dump:][:143],
            "the dump of line 3 has a line that is not hexadecimal": output.replace("444e494d", "444e494x", 1)[:230],
            "byte 8 is not the head of a unit (unit 0 of 2)": b"DNIM\2\0\2\0\2\0\0\0" + image[12:],
            "the image has the version 3; 1 and 2 are known": image[:4] + b"\3" + image[5:],
            "the image ends at byte 87, within the words of node 6": image[:-1],
            "bytes follow the last unit, from byte 88 on": image + b"\0",
            "the dump of line 1 says a number of bytes of 5,000 digits": f"dump bytes {'9' * 5000}\n444e494d\n",
        }
        path = self.folder / "damaged"
        for message, data in damaged.items():
            with self.subTest(message):
                path.write_bytes(data if isinstance(data, bytes) else data.encode())
                words = ["--dump", "3"] if "dump 3" in message else []
                self.assertEqual(outcome(DUMP2BIN, *words, path), (2, "", f"netconf-dump2bin: {path}: {message}\n"))

    def test_troubles(self) -> None:
        """Images of two nets, words that do not go together, and a place that cannot be written."""
        self.check_output(self.folder, self.first, self.answers)
        other = self.folder / "other.bin"
        other.write_bytes(self.image.replace(b"\4\0\0\0", b"\3\0\0\0", 1)[:40] + self.image[48:])
        below = self.folder / "none" / "x"
        cases: list[tuple[list[object], int, str]] = [
            (["--changes", self.first, other], 2, "two nets"), ([self.first, self.first], 2, "too many files"),
            (["--output", below, self.first], 2, "No such file or directory")]
        for words, status, cause in cases:
            with self.subTest(cause):
                seen, _, errors = outcome(DUMP2BIN, *words)
                self.assertEqual(seen, status)
                self.assertIn(cause, errors)
