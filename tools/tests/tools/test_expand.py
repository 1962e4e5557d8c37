"""Several files as one text: includes, constants, suffixes and sizes, and from which place of which file each part
comes."""

import pathlib
import random
import re
import unittest

from netconf_tools.expand import Place, Refused, described, read_described, sets_of
from netconf_tools.text import MOST_BYTES, Trouble
from tests.case import EXAMPLES, TOOLS, Case, outcome

REPLACED = {
    "a is accept [4K];": "a is accept [0x1000];",
    "a is accept [0x10M, 1G, 2T];": "a is accept [0x1000000, 0x40000000, 0x20000000000];",
    "a is accept [0 size 4K];": "a is accept [0-0xfff];",
    "a is accept [0x80000000 size 1G] map [4K size 4K to b at 0x0];":
        "a is accept [0x80000000-0xbfffffff] map [0x1000-0x1fff to b at 0x0];",
    "for i in 0..1; a[i] is accept [i*4K size 2*4K]; end;":
        "for i in 0..1; a[i] is accept [i*0x1000 -(i*0x1000+ 2*0x1000 - 1)]; end;",
    "a is accept [(1-1) size (2-1)];": "a is accept [(1-1)-0x0];",
    "size is accept [0]; b is over size;": "size is accept [0]; b is over size;",
    "//! let R = 4K\na is accept [R size R];": "//  let R = 4K\na is accept [0x1000-0x1fff];",
    "//! let R = 1\n//! let S = R*2+(R-1)\na is accept [S];":
        "//  let R = 1\n//  let S = R*2+(R-1)\na is accept [0x2];",
    "a is accept [R];\n//! let R = 1\nb is accept [R];": "a is accept [R];\n//  let R = 1\nb is accept [0x1];",
    "//! let R = 1\nR is accept [R]; a is over R; m[R] is;":
        "//  let R = 1\nR is accept [0x1]; a is over R; m[0x1] is;",
    "//! let R = 9\nfor R in 0..R; a[R] is; end; b[R] is;": "//  let R = 9\nfor R in 0..0x9; a[R] is; end; b[0x9] is;",
    "//! let R = 9\nmodule m(num R); a is accept [R]; for i in 0..R; b[i] is accept [R]; end; end; use m(R) as R;":
        "//  let R = 9\nmodule m(num R); a is accept [R]; for i in 0..R; b[i] is accept [R]; end; end; use "
        "m(0x9) as R;",
    "//! let R = 9\nmodule m(node R); a is accept [R]; end;":
        "//  let R = 9\nmodule m(node R); a is accept [0x9]; end;",
    "//! let R = 9\nfor i in 0..1; module m(num R); a is; end; b is accept [R]; end;":
        "//  let R = 9\nfor i in 0..1; module m(num R); a is; end; b is accept [0x9]; end;",
    "//! let R = 1\nbegin; grant R a b R 4K; resolve R R; radix u R;":
        "//  let R = 1\nbegin; grant R a b 0x1 0x1000; resolve R 0x1; radix u 0x1;",
    "//! let R = 1 // one\r\na is accept [R];": "//  let R = 1 // one\r\na is accept [0x1];",
    "//! let R = 1\na is accept [R; b is accept [R];": "//  let R = 1\na is accept [0x1; b is accept [0x1];",
    "//! let R = 1\na is accept [R": "//  let R = 1\na is accept [0x1",
    "//! never a b 4K\n//! only a b 0x0 // 4K": "//! never a b 4K\n//! only a b 0x0 // 4K",
    "// //! let R = 1\na is accept [0xffffffffffffffffK];": "// //! let R = 1\na is accept [0xffffffffffffffffK];",
}
"""Texts, and what the program reads in their places."""

WRONG = {
    "//! let = 1": (9, "let: a constant is `//! let NAME = EXPRESSION`"),
    "//! let R 1": (9, "let: a constant is `//! let NAME = EXPRESSION`"),
    "//! let is = 1": (9, "let: `is` is a reserved word and names nothing"),
    "//! let R = S": (13, "let: `S` is not a constant here"),
    "//! let RAM = 1\n//! let S = RMA": (13, "let: `RMA` is not a constant here; did you mean `RAM`?"),
    "//! let R = 1\n//! let R = 2": (9, "let: `R` is already set"),
    "//! let R = 1 2": (15, "let: unexpected `2` in the value of a constant"),
    "//! let R = 1 +": (16, "let: unexpected the end of the line in the value of a constant"),
    "//! let R = 0xg": (13, "let: `0xg` is not a token of an expression"),
    "//! let R = (1-2)": (14, "let: the difference of 0x1 and 0x2 is below 0"),
    "//! let R = 0xffffffffffffffff*2": (13, "let: this product is more than 0xffffffffffffffff"),
    "a is;\n//! include parts.net": (1, 'include: an include is `//! include "FILE"`'),
    'a is; //! include "none.net"': (7, "include: none.net: No such file or directory"),
}
"""Texts of which no description can be made: the column and the message of the last finding."""


def expanded(text: str, *sets: str) -> str:
    """What the program reads in the place of a text."""
    return described([("board.net", text.encode("latin-1"))], sets_of(sets)).source.text


class TestReplaced(Case):
    """What stands in the place of constants, suffixes and sizes."""

    def test_each_form(self) -> None:
        """Each text of the table becomes the one beside it, and that one becomes itself."""
        for text, wanted in REPLACED.items():
            with self.subTest(text=text):
                self.assertEqual(expanded(text), wanted)
                self.assertEqual(expanded(wanted), wanted)

    def test_what_is_wrong(self) -> None:
        """Each text of the table has its finding, at its column in its last line."""
        for text, (column, message) in WRONG.items():
            with self.subTest(text=text), self.assertRaises(Refused) as caught:
                expanded(text)
            finding = caught.exception.findings[-1]
            self.assertEqual((finding.line, finding.column, finding.message), (text.count("\n") + 1, column, message))

    def test_constants_from_outside(self) -> None:
        """A constant from outside goes before one of the text; one that nothing names is refused."""
        text = "//! let RAM = 1\na is accept [RAM, N];"
        self.assertEqual(expanded(text, "RAM=2G", "N=(4-1)*2").splitlines()[1], "a is accept [0x80000000, 0x6];")
        for word, message in (
            ("RMA=1", "--set RMA: no constant and no expression has this name; did you mean `RAM`?"),
            ("a=1", "--set a: no constant and no expression has this name"),
            ("RAM", "--set RAM: a constant is set by NAME=VALUE"),
            ("is=1", "--set is=1: a constant is set by NAME=VALUE"),
            ("RAM=x", "--set RAM=x: `x` is not a constant here"),
        ):
            with self.subTest(word=word), self.assertRaisesRegex(Trouble, re.escape(message) + "$"):
                expanded(text, word)

    def test_plain_texts(self) -> None:
        """A text without any of these is left as it is, byte for byte."""
        for path in sorted(EXAMPLES.glob("*.net")):
            self.assertEqual(read_described([str(path)]).text, path.read_bytes())
        data = bytes(range(256)) * 3
        self.assertEqual(described([("x", data)]).text, data)

    def test_long_texts(self) -> None:
        """A text that is too long is not looked through: the program refuses it."""
        data = b"a is accept [4K];" + b" " * MOST_BYTES
        self.assertEqual(described([("x", data)]).text, data)


class TestFiles(Case):
    """Several files, and those that they include."""

    def write(self, **texts: str) -> list[str]:
        """Writes files, and returns their paths."""
        paths = []
        for name, text in texts.items():
            path = pathlib.Path(self.folder, name.replace("_", "/") + ".net")
            path.parent.mkdir(exist_ok=True)
            path.write_text(text)
            paths.append(str(path))
        return paths

    def test_files_in_a_row(self) -> None:
        """The text of a file begins on a line of its own, and a constant holds in the files after it."""
        paths = self.write(a="//! let R = 4K\na is", b=" accept [R];\n", c="c is accept [R];")
        description = read_described(paths)
        self.assertEqual(description.source.text, "//  let R = 4K\na is\n accept [0x1000];\nc is accept [0x1000];")
        self.assertEqual(description.place(description.source.text.index("c is")), Place(paths[2], 1, 1))
        self.assertEqual(description.place(len(description.source.text)), Place(paths[2], 1, 17))

    def test_includes(self) -> None:
        """A file stands where it is included, by its place beside the one that includes it, and once; a circle ends."""
        first, *_ = self.write(
            a='a is; //! include "d/b.net"\nz is;\n//! include "d/b.net"',
            d_b='b is;\n//! include "c.net"\n',
            d_c='c is; //! include "../a.net"',
        )
        description = read_described([first])
        self.assertEqual(description.source.text.split(), "a is; b is; c is; z is;".split())
        places = [description.place(description.source.text.index(name + " is")) for name in "abcz"]
        folder = str(self.folder)
        self.assertEqual(
            places,
            [
                Place(first, 1, 1),
                Place(f"{folder}/d/b.net", 1, 1),
                Place(f"{folder}/d/c.net", 1, 1),
                Place(first, 2, 1),
            ],
        )

    def test_a_comment_without_an_end(self) -> None:
        """What follows an include whose file ends in a comment is no part of that comment."""
        first, _ = self.write(a='//! include "b.net"\na is;', b="b is; // the end")
        self.assertEqual(read_described([first]).source.text.split("\n")[-1], "a is;")

    def test_other_tools(self) -> None:
        """The tools that draw and that print layouts take the same forms, and report what is wrong with one."""
        first, _ = self.write(a='//! include "b.net"\nagent a is map [0 size 4K to b];', b="b is accept [0 size 4K];")
        for tool in ("netconf-layout", "netconf-draw"):
            status, output, errors = outcome(TOOLS / tool, first)
            self.assertEqual((status, errors), (0, ""))
            self.assertIn("0x0-0xfff", output)
        wrong, *_ = self.write(a="//! let R = S\na is;")
        for tool in ("netconf-layout", "netconf-draw", "netconf-query who"):
            words = tool.split()
            seen = outcome(TOOLS / words[0], *words[1:], wrong, *(["a", "0"] if len(words) > 1 else []))
            self.assertEqual(seen, (2, "", f"{words[0]}: {wrong}:1:13: error: let: `S` is not a constant here\n"))

    def test_places(self) -> None:
        """Each word that stands in a file comes from the place of that word there."""
        chosen = random.Random(3)
        words = [
            "//! let R = 1\n",
            "R",
            "4K",
            "size",
            "\n",
            "a",
            "is",
            "accept",
            "[",
            "]",
            ";",
            "0",
            '//! include "b.net"\n',
            ",",
        ]
        for number in range(60):
            texts = [" ".join(chosen.choices(words[1:], k=30)).replace("\n ", "\n") for _ in range(2)]
            paths = self.write(a=words[0] + texts[0], b=texts[1].replace("//! include", "//"))
            description = read_described(paths[:1])
            for hit in re.finditer(r"\b[A-Za-z]\w*", description.source.text):
                place = description.place(hit.start())
                line = description.line_text(place.file, place.line)
                with self.subTest(number=number, word=hit.group()):
                    self.assertEqual(line and line[place.column - 1:][:len(hit.group())], hit.group())


if __name__ == "__main__":
    unittest.main()
