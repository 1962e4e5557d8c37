"""Tests netconf-query over the description of a board: it agrees with `resolve`, and claims fail where one bit is
turned.

usage: tools/tests/run-queries DESCRIPTION CLAIMS

The answers are compared with those of `resolve` at 1,000 random addresses of all agents. The claims have to hold; and
for each of the form AGENT NODE at ADDRESS one bit of a window that leads to the node is turned, and then it must not
hold."""

import os
import pathlib
import random
import re
import sys
import tempfile
from collections.abc import Iterator

from netconf_tools.text import program
from tests.case import outcome
from tests.tools.test_query import QUERY, disagreements

BIT = 0x1000


def turned(text: str, node: str) -> Iterator[str]:
    """The descriptions in each of which a window that leads to a node leads one bit beside it."""
    for hit in re.finditer(rf"\bto {re.escape(node)} at (0x[0-9a-f]+)", text):
        yield text[:hit.start(1)] + f"{int(hit[1], 16) ^ BIT:#x}" + text[hit.end(1):]


def wrong_claims(description: pathlib.Path, claims: pathlib.Path) -> Iterator[tuple[str, str]]:
    """What is wrong with the claims on a description: each what was tested, and what was seen instead."""
    status, output, errors = outcome(QUERY, "test", description, claims)
    yield f"the claims on {description.name}", "" if (status, errors) == (0, "") else output + errors
    text = description.read_text("latin-1")
    for line in claims.read_text().splitlines():
        words = line.split()
        if len(words) < 4 or words[2] != "at":
            continue
        other = next(turned(text, words[1].split("@")[0]), None)
        if other is None:
            yield f"a window that leads to {words[1]}", "there is none"
            continue
        with tempfile.TemporaryDirectory() as folder:
            pathlib.Path(folder, "turned.net").write_text(other, "latin-1")
            pathlib.Path(folder, "one.claims").write_text(line)
            status = outcome(QUERY, "test", "turned.net", "one.claims", folder=folder)[0]
        yield f"{line} where a bit of a window is turned", "" if status == 1 else f"status {status}"


def main(words: list[str]) -> int:
    """Runs the checks, and prints how many passed and failed."""
    os.environ["NETCONF"] = os.path.abspath(program())
    description, claims = (pathlib.Path(word).resolve() for word in words)
    wrong = disagreements(description, random.Random(47))
    checks = [("the answers and `resolve`", str(wrong) if wrong else ""), *wrong_claims(description, claims)]
    failed = [(what, seen) for what, seen in checks if seen]
    print("".join(f"FAILED: {what}\n{seen}\n" for what, seen in failed), end="")
    print(f"{len(checks) - len(failed)} passed, {len(failed)} failed")
    return 1 if failed else 0


if __name__ == "__main__":
    if len(sys.argv) != 3:
        sys.exit(__doc__)
    sys.exit(main(sys.argv[1:]))
