"""Makes descriptions of small nets with units, and commands that fill their tables; the same for the same number."""

import os
import random

PARTS = 8
"""How many nets stand side by side in a description."""

MADE = int(os.environ.get("MADE", "40"))
"""How many descriptions the tests make."""


Entry = tuple[int, int, str]
"""A window of an agent: its first address and its last, and where it leads."""


class Net:
    """A description of several small nets that have nothing to do with one another."""

    def __init__(self, number: int) -> None:
        self.chance = random.Random(number)
        self.lines: list[str] = []
        self.agents: list[tuple[str, list[Entry]]] = []
        self.grants: list[tuple[str, str, int, int]] = []
        self.routes: list[tuple[str, int, str]] = []
        for part in range(PARTS):
            self.add_part(f"p{part}")

    def size_of_page(self) -> int:
        """The page of a unit, a power of two: mostly small ones, and such as hardware has."""
        return self.chance.choice((0, 1, 3, 4, 8, 12, 12, 12, 14, 16))

    def add_part(self, name: str) -> None:
        """Adds one net: a memory or two on a bus, one to three units in a row before it, one or two agents, and
        sometimes a unit for messages."""
        chance = self.chance
        page = self.size_of_page()
        size = chance.choice((8, 16, 40)) << page
        first = chance.choice((0, 1 << page, 3 << page, (1 << page) // 2, 0x100000000)) if page else chance.randrange(9)
        memories = [f"{name}.m", f"{name}.n"]
        self.lines += [f"{memory} is accept [0x0-{size - 1:#x}];" for memory in memories]
        second = first + size + chance.choice((0, 1 << page, 5 << page))
        self.lines.append(f"{name}.bus is map [{first:#x}-{first + size - 1:#x} to {memories[0]} at 0x0, "
                          f"{second:#x}-{second + size - 1:#x} to {memories[1]} at 0x0];")
        inner, page, slots = self.add_units(name, page, max(second + size, 1 << page).bit_length(),
                                            [f"{name}.bus", *memories])
        for number in range(chance.choice((1, 1, 2))):
            self.add_agent(f"{name}.a{number}", inner, page, slots, memories, size)
        if chance.random() < 0.5:
            self.add_messages(name)

    def add_units(self, name: str, page: int, reach: int, ports: list[str]) -> tuple[str, int, int]:
        """Adds the units of a row, from memory on; answers the outermost with its page and its slots."""
        chance, room = self.chance, 200
        for depth in range(chance.choice((1, 1, 1, 2, 2, 3))):
            unit = f"{name}.u{depth}"
            slots = chance.randrange(1, min(room, 24) + 1)
            room = max(room // slots, 1)
            kinds = ("pages", "remap", "radix") if page == 12 else ("pages", "remap")
            kind, width = chance.choice(kinds), chance.randrange(1, len(ports) + 1)
            chosen = ports[:1] if kind == "pages" else chance.sample(ports, width)
            self.lines.append(f"unit {unit} kind {kind} page {page} slots {slots} reach {max(reach, page)} to "
                              f"{', '.join(chosen)};")
            inner_size, inner_page = slots << page, page
            page = min(page + chance.choice((0, 0, 1, 2, 4)), 20)
            window = chance.choice((inner_size, inner_size, max(inner_size - (1 << inner_page) // 2, 1),
                                    inner_size + 1))
            first = chance.choice((0, 0, 1 << page, 1 << inner_page, 5))
            between = f"{name}.b{depth}"
            self.lines.append(f"{between} is map [{first:#x}-{first + window - 1:#x} to {unit} at 0x0];")
            ports, reach = [between, unit] if chance.random() < 0.5 else [between], (first + window).bit_length()
        return unit, inner_page, slots

    def add_agent(self, agent: str, unit: str, page: int, slots: int, memories: list[str], size: int) -> None:
        """Adds an agent with one or two windows onto a unit, and sometimes a way of its own to memory."""
        chance, at = self.chance, 0
        entries: list[Entry] = []
        for _ in range(chance.choice((1, 1, 2))):
            at += chance.choice((0, 1 << page, 3, 0x1000, 1 << 33))
            length = chance.choice((slots << page, max((slots << page) - chance.randrange(1 << page), 1), 1 << page,
                                    3 << page))
            inner = chance.choice((0, 0, 1 << page, chance.randrange(1 << page),
                                   chance.randrange(4) << max(page - 2, 0)))
            entries.append((at, at + length - 1, f"{unit} at {inner:#x}"))
            at += length
        if chance.random() < 0.4:
            at += chance.randrange(100)
            entries.append((at, at + size - 1, f"{memories[0]} at 0x0"
                            + (f" and {memories[1]} at 0x0" if chance.random() < 0.3 else "")))
        self.lines.append(f"agent {agent} is map "
                          f"[{', '.join(f'{lo:#x}-{hi:#x} to {where}' for lo, hi, where in entries)}];")
        self.agents.append((agent, entries))
        self.grants += [(agent, memory, page, size) for memory in memories]

    def add_messages(self, name: str) -> None:
        """Adds processors with vectors, a unit for messages, and an agent with lines."""
        chance = self.chance
        lines = chance.randrange(1, 9)
        first = chance.choice((0, 0, 3))
        self.lines += [f"vectors {name}.v is accept [0x20-{0x20 + chance.randrange(8):#x}];",
                       f"vectors {name}.w is accept [0x3e-0x41];",
                       f"agent {name}.l is map [0x0-{lines - 1:#x} to {name}.r at {first:#x}];",
                       f"unit {name}.r kind vectors page 0 slots {lines + first + chance.choice((-1, 0, 2)) or 1} "
                       f"reach {chance.choice((6, 8))} to {chance.choice((f'{name}.v', f'{name}.w, {name}.v'))};"]
        self.agents.append((f"{name}.l", [(0, lines - 1, "")]))
        self.routes += [(f"{name}.l", line, f"{name}.{node}") for line in range(lines) for node in "vw"]

    def changes(self, ids: list[str], count: int) -> list[str]:
        """So many commands that change tables, as texts; `ids` are those that may be live."""
        chance = self.chance
        texts: list[str] = []
        for _ in range(count):
            what = chance.random()
            if ids and what < 0.25:
                texts.append(f"revoke {ids.pop(chance.randrange(len(ids)))};")
                continue
            title = f"g{chance.randrange(1 << 40)}"
            if self.routes and what < 0.45:
                agent, line, node = chance.choice(self.routes)
                texts.append(f"route {title} {agent} {line} {node};")
            else:
                agent, memory, page, size = chance.choice(self.grants)
                base = min(chance.randrange(8) << page, size - 1)
                length = chance.choice((1, 1, 1, 2, 3)) << page
                access = chance.choice(("", "", " for read", " for write"))
                texts.append(f"grant {title} {agent} {memory} {base:#x} {min(length, size - base):#x}{access};")
            ids.append(title)
        return texts

    def addresses(self, agent_entries: list[Entry]) -> list[int]:
        """Addresses of an agent that tell most: the ends of its windows, what is next to them, and some within."""
        chance = self.chance
        found: list[int] = []
        for lo, hi, _ in agent_entries:
            found += [lo, hi, max(lo - 1, 0), hi + 1, (lo + hi) // 2]
            found += [chance.randrange(lo, hi + 1) for _ in range(5)]
        return found

    def text(self) -> str:
        """The declarations of the description."""
        return "\n".join(self.lines) + "\n"
