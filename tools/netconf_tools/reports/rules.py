"""What each rule says that a finding can name, in one sentence."""

from netconf_tools.messages import RULES

CLAIMS = {
    "claim": "A line that is read as a claim has the form of one, and its names are those of the description.",
    "claim-never": "The agent sees none of the addresses of the node.",
    "claim-only": "The agent sees no other addresses of the node.",
    "claim-all": "The agent sees each of the addresses of the node.",
    "claim-alone": "No other agent sees one of the addresses of the node.",
    "claim-never_ever": "The agent could see none of the addresses of the node, whatever the units hold.",
    "claim-disjoint": "No address of a node is seen on both sides.",
    "claim-same": "Both agents see the same at each address.",
    "claim-at": "The agent sees the addresses of the node at these of its own.",
    "claim-left_out": "The description leaves the master out.",
    "claim-unused": "A claim in a module or a loop is a claim of some use or some turn.",
    "left-out": "The description has an agent for each bus master, or a claim accepts that it has none.",
    "Reserved": "No buffer that is granted has addresses that a note reserves.",
    "shut": "A slot whose gate is open holds a record.",
    "shared": "No two agents see the same address of a node by records alone.",
    "more": "More was found than is listed.",
}
"""The rules of claims, and what `netconf-query test --strict` demands."""

REFUSED = {
    "IdUsed": "no live grant or route has the id",
    "NoAgent": "the node for which a command asks exists and is an agent",
    "NoTarget": "the node of a buffer exists and is no `vectors` node, and that of a route is one",
    "NotAccepted": "the node accepts each address of the buffer",
    "BookFull": "at most 4,096 grants and routes are live",
    "NoPlacement": "records in the tables can give the agent exactly this, and nobody anything else",
    "NoGrant": "a live grant or route has the id of a revoke",
    "NoUnit": "the node of a tree of pages exists and is a unit",
    "Pool": "the tree has at most as many pages as the pool",
}
"""What a command that can be refused demands."""


def description_of(rule: str) -> str:
    """What a rule says."""
    if rule in CLAIMS:
        return CLAIMS[rule]
    says = RULES.get(rule) or REFUSED.get(rule)
    return f"{rule}: {says}." if says else f"{rule}."
