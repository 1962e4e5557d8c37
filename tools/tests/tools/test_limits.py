"""The limits of the tools beside the constants of the crates."""

import re

from netconf_tools import limits
from tests.case import TOP, Case

CONSTANTS = {
    "MAX_TEXT": [("dn_parse/src/reader.rt", "MAX_TEXT")],
    "MAX_AUDIT": [("dn_tool/src/input.rt", "LONGEST_AUDIT")],
    "LAST_ADDRESS": [("dn_net/src/node.rt", "TOP"), ("dn_interval/src/span.rt", "TOP")],
    "MAX_NODES": [("dn_module/src/drafts.rt", "MAX_NODES"), ("dn_net/src/node.rt", "MAX_NODES")],
    "MAX_AGENTS": [("dn_module/src/drafts.rt", "MAX_AGENTS")],
    "MAX_UNITS": [("dn_module/src/drafts.rt", "MAX_UNITS")],
    "MAX_PARTS": [("dn_module/src/drafts.rt", "MAX_PARTS"), ("dn_shape/src/limits.rt", "MAX_PARTS")],
    "MAX_MODULES": [("dn_scope/src/modules.rt", "MAX_MODULES")],
    "MAX_STEPS": [("dn_module/src/machine.rt", "MOST_STEPS")],
    "MAX_DESTINATIONS": [("dn_shape/src/limits.rt", "MAX_DESTS")],
    "MAX_VECTORS": [("dn_net/src/rules.rt", "MAX_VECTORS")],
    "MAX_PORTS": [("dn_net/src/node.rt", "MAX_PORTS")],
    "MAX_PAGE": [("dn_net/src/node.rt", "MAX_PAGE")],
    "MAX_SLOTS": [("dn_net/src/node.rt", "MAX_SLOTS")],
    "MAX_REACH": [("dn_net/src/node.rt", "MAX_REACH")],
    "MAX_GRANTS": [("dn_book/src/book.rt", "MAX_GRANTS"), ("dn_gather/src/refusal.rt", "MAX_GRANTS")],
}
"""For each limit the constants of the crates: each its file and its name."""

OTHERS = {"LAST_NUMBER", "MAX_RECORD_WORDS"}
"""Limits that no constant has as it is."""


def constant(path: str, name: str) -> int:
    """The value of a constant of the crates."""
    hit = re.search(rf"\bconst {name}: \w+ = ([^;]+);", (TOP / "crates" / path).read_text())
    if hit is None:
        raise LookupError(f"crates/{path} has no constant {name}")
    text = hit[1].replace("_", "")
    first, _, rest = text.partition(" - ")
    base, shift, power = first.strip("()").partition(" << ")
    return (int(base, 0) << int(power) if shift else int(base, 0)) - int(rest or "0")


class TestLimits(Case):
    """Each limit of the tools is that of the program."""

    def test_constants(self) -> None:
        """Each has the value of the constants."""
        for name, places in CONSTANTS.items():
            for path, other in places:
                with self.subTest(name, path=path):
                    self.assertEqual(getattr(limits, name), constant(path, other))

    def test_others(self) -> None:
        """The greatest number, and the words of a record."""
        self.assertEqual(limits.LAST_NUMBER, constant("dn_scope/src/values.rt", "LIMIT") - 1)
        self.assertIn(f"[u64; {limits.MAX_RECORD_WORDS}]", (TOP / "crates/dn_tables/src/table.rt").read_text())

    def test_all(self) -> None:
        """Each limit is compared."""
        names = {name for name in vars(limits) if name.isupper()}
        self.assertEqual(names, CONSTANTS.keys() | OTHERS)
