"""Makes descriptions of cards behind IOMMUs, and commands that fill their tables; the same for the same number. And
what the program says of their agents, read off its views by code of its own."""

import random
import re
from dataclasses import dataclass, field

from netconf_tools.text import run

PARTS = 20
"""How many nets stand side by side in a description."""

PAGE = 0x1000
ROW = re.compile(r"(0x[0-9a-f]+)-(0x[0-9a-f]+) (\S+)@(0x[0-9a-f]+)")
VIEW = re.compile(r"view (\S+) for (read|write) rows (\d+)")


@dataclass
class Made:
    """A description of several nets: its declarations, its agents with their windows, and its commands."""
    lines: list[str] = field(default_factory=list)
    agents: dict[str, list[tuple[int, int]]] = field(default_factory=dict)
    commands: list[str] = field(default_factory=list)
    hosts: list[str] = field(default_factory=list)
    chained: set[str] = field(default_factory=set)

    def text(self, has_writes: bool, count: int | None = None) -> str:
        """The description with so many of its commands; without buffers for writing alone if the format has none."""
        commands = "".join(self.commands[:count])
        text = "\n".join(self.lines) + f"\nagent core is map [{', '.join(self.hosts)}];  //@ processor\nbegin;\n"
        return text + (commands if has_writes else commands.replace(" for write;", ";"))


class Maker:
    """Makes one description."""

    def __init__(self, number: int) -> None:
        self.chance, self.made = random.Random(number), Made()
        self.numbers = self.chance.sample(range(1, 1 << 16), 3 * PARTS)
        self.targets: list[tuple[str, str, int, int]] = []
        for part in range(PARTS):
            self.part(f"p{part}", (part + 1) << 30)
        self.fill()

    def part(self, name: str, at: int) -> None:
        """Adds one net: two memories on a bus, one or two units in a row before it, and one or two agents."""
        chance = self.chance
        page = chance.choice((12, 12, 12, 12, 13, 14, 16, 21))
        size = chance.choice((4, 8, 16)) << page
        self.made.lines += [f"{name}.{memory} is accept [0x0-{size - 1:#x}];" for memory in "mn"]
        second = size + chance.choice((0, 1, 3)) * PAGE
        self.made.lines.append(f"{name}.bus is map [0x0-{size - 1:#x} to {name}.m at 0x0, "
                               f"{second:#x}-{second + size - 1:#x} to {name}.n at 0x0];")
        self.made.hosts.append(f"{at:#x}-{at + second + size - 1:#x} to {name}.bus at 0x0")
        slots = chance.randrange(2, 5 if page == 21 else 16)
        kinds = ("pages", "remap", "radix") if page == 12 else ("pages", "remap")
        kind = chance.choice(kinds)
        ports = f"{name}.bus" if kind == "pages" else chance.choice((f"{name}.bus", f"{name}.bus, {name}.n",
                                                                     f"{name}.m, {name}.bus"))
        self.made.lines.append(f"unit {name}.u kind {kind} page {page} slots {slots} reach 40 to {ports};")
        unit, is_chained = f"{name}.u", chance.random() < 0.25
        if is_chained:
            unit, slots = self.outer(name, page, slots)
        for number in range(chance.choice((1, 1, 2))):
            self.agent(f"{name}.a{number}", name, unit, page, slots, size)
            self.made.chained |= {f"{name}.a{number}"} if is_chained else set()

    def outer(self, name: str, page: int, slots: int) -> tuple[str, int]:
        """Adds a unit before the first one; returns its name and its slots."""
        outer = self.chance.randrange(1, slots + 1)
        self.made.lines.append(f"{name}.between is map [0x0-{(slots << page) - 1:#x} to {name}.u at 0x0];")
        self.made.lines.append(f"unit {name}.v kind pages page {page} slots {outer} reach 40 to {name}.between;")
        return f"{name}.v", outer

    def agent(self, agent: str, name: str, unit: str, page: int, slots: int, size: int) -> None:
        """Adds an agent with one or two windows onto a unit, and sometimes a way of its own to memory."""
        chance, entries, windows = self.chance, [], []
        at = chance.choice((0, 0, 0x40000000, 0x1fe00000, 0x3fffff000, 1 << 36))
        for _ in range(chance.choice((1, 1, 2))):
            skipped = chance.choice((0, 0, PAGE, 1 << page))
            length = max(min((slots << page) - skipped, (slots << page) - chance.choice((0, PAGE))), PAGE)
            entries.append(f"{at:#x}-{at + length - 1:#x} to {unit} at "
                           f"{skipped if skipped + length <= slots << page else 0:#x}")
            windows.append((at, at + length - 1))
            at += length + chance.choice((0, PAGE, 1 << 21, 1 << 30))
        if chance.random() < 0.3:
            entries.append(f"{at:#x}-{at + size - 1:#x} to {name}.m at 0x0")
            windows.append((at, at + size - 1))
        number = self.numbers.pop()
        note = f"stream {number:#x}, pci {number >> 8:x}:{number >> 3 & 31:x}.{number & 7}"
        self.made.lines.append(f"agent {agent} is map [{', '.join(entries)}];  //@ {note}")
        self.made.agents[agent] = windows
        self.targets += [(agent, f"{name}.{memory}", page, size) for memory in "mn"]

    def fill(self) -> None:
        """Adds commands: grants of all accesses, and revokes of some of them between."""
        chance, live = self.chance, list[str]()
        for number in range(len(self.targets) * 3):
            if live and chance.random() < 0.2:
                self.made.commands.append(f"revoke {live.pop(chance.randrange(len(live)))};\n")
            agent, memory, page, size = chance.choice(self.targets)
            least = chance.choice((page, page, page, 12))
            base = chance.randrange(size >> least) << least
            length = min(chance.choice((1, 1, 2, 3)) << least, size - base)
            access = chance.choice(("", "", " for read", " for write"))
            self.made.commands.append(f"grant g{number} {agent} {memory} {base:#x} {length:#x}{access};\n")
            live.append(f"g{number}")


def made(number: int) -> Made:
    """Returns the description of a number."""
    return Maker(number).made


Rows = list[tuple[int, int, str, int]]
"""The rows of a view: first and last address, and the node with the address to which the first comes."""


def views_of(text: str, agents: list[str]) -> dict[tuple[str, bool], Rows]:
    """Returns what the program says of each agent, for reading and for writing."""
    questions = "".join(f"view {agent} for {access};\n" for agent in agents for access in ("read", "write"))
    status, output = run("run", (text + questions).encode())
    assert status == 0, output[:200]
    found: dict[tuple[str, bool], Rows] = {}
    lines = iter(output.splitlines())
    for line in lines:
        hit = VIEW.fullmatch(line)
        if hit:
            hits = [ROW.fullmatch(next(lines)) for _ in range(int(hit[3]))]
            found[hit[1], hit[2] == "write"] = [(int(row[1], 16), int(row[2], 16), row[3], int(row[4], 16))
                                                for row in hits if row]
    return found


class Answers:
    """At which addresses of the host each agent arrives, as the views say."""

    def __init__(self, text: str, agents: list[str], host: str = "core") -> None:
        self.views = views_of(text, [*agents, host])
        self.host = {node: (lo, at, hi - lo) for lo, hi, node, at in reversed(self.views[host, False])}

    def where(self, agent: str, address: int, is_write: bool) -> int | None:
        """Returns the host's address to which an agent comes, or None. The host has each node at one place."""
        for lo, hi, node, at in self.views[agent, is_write]:
            if lo <= address <= hi:
                begins, first, length = self.host[node]
                assert first <= at + address - lo <= first + length
                return begins + at + address - lo - first
        return None
