"""What a message about a token adds: what is wrong with a number or a character, and which word was meant."""

import functools
import heapq
import itertools
import re
from collections.abc import Iterable

from netconf_tools.grammar import SCALED_NUMBER, WHOLE_NUMBER, Source, Token, number_of
from netconf_tools.limits import LAST_NUMBER

LONGEST = 64
"""How many letters a word has at most for which a near one is looked for."""

MOST_COMPARED = 16
"""With how many words a word is compared letter by letter: of more than these with those that have most pairs of
letters in common with it."""

SHOWN = 40
"""How many letters of a token a message shows."""

MARKS = (
    ("\xef\xbb\xbf", "the text begins with a byte order mark: save it as UTF-8 without one"),
    ("\xff\xfe", "the text is UTF-16: save it as UTF-8 without a byte order mark"),
    ("\xfe\xff", "the text is UTF-16: save it as UTF-8 without a byte order mark"),
)
"""What a text may begin with that an editor does not show, in Latin-1."""

INSTEAD = {
    "#": "a comment begins with //",
    "{": "a list stands in [ ], and a block of statements ends with `end;`",
    "}": "a list ends with ], and a block of statements with `end;`",
    "=": "a declaration is `NAME is ..`",
    ":": "a declaration is `NAME is ..`",
    '"': "names stand without quotes",
    "'": "names stand without quotes",
    "@": "an address stands after `at`, or in a command after the name with a blank between",
    "%": "an expression has +, * and differences in parentheses",
    "<": "an expression has +, * and differences in parentheses",
    ">": "an expression has +, * and differences in parentheses",
    "&": "an expression has +, * and differences in parentheses",
    "|": "an expression has +, * and differences in parentheses",
    "^": "an expression has +, * and differences in parentheses",
    "\0": "the file is binary, or a text in UTF-16",
    "$": "a name has letters, digits and _",
    "\\": "a statement runs to its `;` over any number of lines",
}
"""What to write in place of a character."""

UNIT = re.compile(
    r"(?P<digits>[0-9]+)(?P<small>[kmgtKMGT])i?[bB]?|(?P<hexadecimal>0x[0-9a-fA-F]+)(?P<scale>[KMGT])i?B", re.A
)
"""A number with a unit as people write them. After hexadecimal digits a small letter is rather a mistyped digit."""

DASHES = "\u2010\u2011\u2012\u2013\u2014\u2015\u2212"
SPACES = "\u00a0\u2002\u2003\u2007\u2009\u202f\u200b\ufeff"


def quoted(spelling: str) -> str:
    """A token as a message shows it, cut where it is very long."""
    return f"`{spelling if len(spelling) <= SHOWN else spelling[:SHOWN] + '…'}`"


def nearest(word: str, words: Iterable[str]) -> str:
    """The one of some words that is most like a word, or nothing if none is."""
    if len(word) > LONGEST:
        return ""
    near = [other for other in words if other != word and abs(len(other) - len(word)) <= max(2, len(word) // 3)]
    if len(near) > MOST_COMPARED:
        own = pairs_of(word)
        near = heapq.nlargest(MOST_COMPARED, near, key=lambda other: len(own & pairs_of(other)))
    # Only here, since most texts have no word that is not known.
    import difflib
    found = difflib.get_close_matches(word, near, 1, 0.6)
    return found[0] if found else ""


@functools.lru_cache(maxsize=1 << 14)
def pairs_of(word: str) -> frozenset[str]:
    """The pairs of letters that stand side by side in a word, with a blank before and after it."""
    return frozenset(map("".join, itertools.pairwise(f" {word} ")))


def meant(word: str, words: Iterable[str]) -> str:
    """The end of a message that names the word which is most like a word, or nothing."""
    near = nearest(word, words)
    return f"; did you mean {quoted(near)}?" if near else ""


def token_message(source: Source, token: Token) -> str:
    """Why a place is no token, and what to write instead."""
    if token.kind == "number":
        return f"{quoted(token.text)} is not a number: {number_hint(token.text)}"
    if token.at == 0:
        for mark, what in MARKS:
            if source.text.startswith(mark):
                return what
    return character_message(source, token)


def number_hint(spelling: str) -> str:
    """What is wrong with a run of letters and digits that begins with a digit."""
    digits = spelling.removeprefix("0x")
    plain = spelling.replace("_", "")
    if WHOLE_NUMBER.fullmatch(spelling):
        return f"it is more than {LAST_NUMBER:#x}"
    if spelling == "0x":
        return "the digits after 0x are missing"
    if "_" in spelling and (WHOLE_NUMBER.fullmatch(plain) or SCALED_NUMBER.fullmatch(plain)):
        return f"a number has no _, write {plain}"
    if re.fullmatch("0X[0-9a-fA-F]+", spelling):
        return f"the x is a small letter, write 0x{spelling[2:]}"
    return suffix_hint(spelling) or (
        f"{quoted(re.sub('[0-9a-fA-F]', '', digits)[0])} is not a hexadecimal digit"
        if spelling.startswith("0x")
        else "a number is decimal, or hexadecimal after 0x, and a name begins with a letter or _"
    )


def suffix_hint(spelling: str) -> str:
    """What is wrong with a number that has a suffix, or with digits that lack their 0x; or nothing."""
    scaled = SCALED_NUMBER.fullmatch(spelling)
    if scaled:
        return f"the language has no suffixes, write {number_of(spelling):#x}; netconf-run takes K, M, G and T"
    unit = UNIT.fullmatch(spelling)
    if unit:
        written = (unit["digits"] or unit["hexadecimal"]) + (unit["small"] or unit["scale"]).upper()
        return f"write {written} for netconf-run, or {number_of(written):#x}"
    typed = re.fullmatch(r"(?i)(0x[0-9a-f]+|[0-9]+)(?:u|l|ul|ull|lu|llu|ll)", spelling)
    if typed:
        return f"a number has no suffix, write {typed[1]}"
    other = re.fullmatch(r"0[bB](?P<two>[01]+)|0[oO](?P<eight>[0-7]+)", spelling)
    if other:
        value = int(other["two"], 2) if other["two"] else int(other["eight"], 8)
        return f"a number is decimal or hexadecimal, write {value:#x}"
    bare = re.fullmatch(r"(?i)([0-9][0-9a-f]*)h?", spelling)
    return f"a hexadecimal number begins with 0x, write 0x{bare[1]}" if bare else ""


def character_message(source: Source, token: Token) -> str:
    """Why a character is no token."""
    if token.text == "/":
        after = source.text[token.at + 1:token.at + 2]
        return (
            "`/*` begins no comment: a comment runs from // to the end of its line"
            if after == "*"
            else "a single `/`: a comment begins with //, and there is no division"
        )
    if token.text < "\x80":
        shown = quoted(token.text) if token.text.isprintable() else f"the byte {ord(token.text):#04x}"
        what = INSTEAD.get(token.text)
        return f"{shown} begins no token" + (f": {what}" if what else "")
    return foreign_message(source.text[token.at:token.at + 4].encode("latin-1"))


def foreign_message(data: bytes) -> str:
    """Why a character outside of ASCII is no token; it is the first of some bytes of UTF-8, or else a byte."""
    character = next((data[:size].decode() for size in (1, 2, 3, 4) if is_text(data[:size])), "")
    if not character:
        return f"the byte {data[0]:#04x} begins no token, and is not UTF-8"
    import unicodedata
    name = unicodedata.name(character, "no name")
    if character in DASHES:
        what = "write -"
    elif character in SPACES:
        what = "write a blank"
    else:
        what = "names have the letters a to z, digits and _"
    return f"the character U+{ord(character):04X} ({name}) begins no token: {what}"


def is_text(data: bytes) -> bool:
    """Whether bytes are UTF-8."""
    try:
        data.decode()
    except UnicodeDecodeError:
        return False
    return True
