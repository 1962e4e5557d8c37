"""Exported tables of the examples, and of boards under grants that chance chooses, against walkers of the manuals.

The boards are the trees of the importer's rules; the variable TREES adds BOARDS trees of a folder (default: 16). If the
variable EACH is set, each page of each window is walked, else some. SEED has the number that chance begins with
(default: 59)."""

import os
import pathlib
import random
import re
from dataclasses import dataclass

from netconf_tools.export.tables import Refused
from netconf_tools.layout import Layout, layout_of
from netconf_tools.source import commands_of
from netconf_tools.text import run
from netconf_tools.views import Board
from tests.case import EXAMPLES, TOOLS, TOP, Case, outcome
from tests.export.common import PAGE, choice, reader, registers_of, tables_for, wanted_for
from tests.export.made import ROW, Rows, views_of
from tests.export.walkers import WALKERS

SEED = int(os.environ.get("SEED", "59"))
TREES = os.environ.get("TREES", "")
BOARDS = int(os.environ.get("BOARDS", "16"))
EACH = bool(os.environ.get("EACH", ""))
RULES = TOP / "tools/tests/devicetree/rules"
MEMORY = "--memory=0x8000000000-0x80ffffffff"
"""Memory for a tree without any, as firmware fills it in: 4 GiB where no device of any board is."""
GRANTS = 12
"""How many buffers are asked for on a board; some are taken back, and some are refused."""
PROGRAM_ROW = re.compile(r"(0x[0-9a-f]+)-(0x[0-9a-f]+) (memory_\S+)@(0x[0-9a-f]+)")


@dataclass
class Sampled:
    """A description with commands, its agent by whose addresses tables send, and the agents behind units."""
    text: str
    host: str
    layout: Layout
    agents: list[str]

    def windows(self, agent: str) -> list[tuple[int, int]]:
        """The windows of an agent onto units."""
        viewer = next(viewer for viewer in self.layout.agents if viewer.name == agent)
        return [(window.first, window.last) for window in viewer.windows]


def sampled(text: str) -> Sampled | None:
    """A description without commands, with numbers for all agents; or None if none comes to a unit with pages."""
    layout = layout_of(text.encode())
    kinds = [unit.kind for unit in layout.units]
    agents = [agent.name for agent in layout.agents if agent.windows
              and all(kinds[window.unit] != "vectors" for window in agent.windows)]
    hosts = [agent.name for agent in layout.agents if not agent.windows]
    if not agents or not hosts:
        return None
    notes = "".join(f"//@ {name} is stream {number:#x}, pci {number >> 8:x}:{number >> 3 & 31:x}.{number & 7}\n"
                    for number, name in enumerate(agents, 0x101))
    bare = re.sub(r"//@[^\n]*", "", text)
    text = f"{bare}\n{notes}begin;\n"
    return Sampled(text, hosts[0], layout_of(text.encode()), agents)


def granted(board: Sampled, chance: random.Random, has_writes: bool) -> str:
    """Commands that fill the tables: buffers of one page to three, and one of 2 MiB, in memory that the host sees as
    one thing alone; and revokes of some between."""
    status, output = run("run", f"{board.text}view {board.host};\n".encode())
    assert status == 0, output[:200]
    rows = [ROW.fullmatch(line) for line in output.splitlines() if PROGRAM_ROW.fullmatch(line)]
    places = [(row[3], -(-int(row[4], 16) // PAGE), (int(row[4], 16) + int(row[2], 16) - int(row[1], 16) + 1) // PAGE)
              for row in rows if row]
    places = [place for place in places if place[2] - place[1] >= 4]
    live, lines = list[str](), list[str]()
    for number in range(GRANTS if places else 0):
        if live and chance.random() < 0.2:
            lines.append(f"revoke {live.pop(chance.randrange(len(live)))};")
        node, first, last = chance.choice(places)
        size = 512 if number == 0 and last - first > 2048 else chance.randrange(1, 4)
        at = chance.randrange(first, last - size + 1)
        at = (at + 511) // 512 * 512 if size == 512 and (at + 511) // 512 * 512 + 512 <= last else at
        access = chance.choice(("", " for read", " for write" if has_writes else ""))
        agent = chance.choice(board.agents)
        lines.append(f"grant g{number} {agent} {node} {at * PAGE:#x} {size * PAGE:#x}{access};")
        live.append(f"g{number}")
    return "".join(f"{line}\n" for line in lines)


def pages_of(first: int, last: int, rows: Rows, chance: random.Random) -> list[int]:
    """The pages of a window that are walked, and one below and above it: each page if EACH is set or the window is
    small; else those at the ends of the window and of its rows, and some between."""
    low, high = max((first & -PAGE) - PAGE, 0), last + PAGE
    if EACH or high - low <= 64 * PAGE:
        return list(range(low, high + 1, PAGE))
    edges = {first & -PAGE, last & -PAGE, low, high & -PAGE}
    edges |= {end & -PAGE for row in rows for end in row[:2] if first <= end <= last}
    near = {page + step * PAGE for page in edges for step in (-1, 0, 1)}
    near |= {chance.randrange(low // PAGE, high // PAGE) * PAGE for _ in range(32)}
    return sorted(page for page in near if low <= page <= high)


class Seen:
    """Where the program says that agents arrive, by the host's addresses."""

    def __init__(self, board: Sampled, text: str, agent: str) -> None:
        views = views_of(text, [agent, board.host])
        self.rows = {is_write: views[agent, is_write] for is_write in (False, True)}
        self.host: dict[str, Rows] = {}
        for row in views[board.host, False]:
            self.host.setdefault(row[2], []).append(row)

    def where(self, address: int, is_write: bool) -> int | None:
        """The lowest address of the host at which an access arrives, or None."""
        for lo, hi, node, at in self.rows[is_write]:
            if lo <= address <= hi:
                place = at + address - lo
                return min((first + place - begins for first, last, _, begins in self.host[node]
                            if begins <= place <= begins + last - first), default=None)
        return None


def compared(board: Sampled, commands: dict[bool, str], chance: random.Random) -> tuple[int, int, list[str]]:
    """Compares each agent in each format: how many comparisons there were, how many of them came to memory, and what
    differs."""
    count, hits, wrong = 0, 0, list[str]()
    for has_writes in (True, False):
        text = board.text + commands[has_writes]
        net = Board("board.net", text.encode())
        for agent in board.agents:
            seen = Seen(board, text, agent)
            for name in (name for name in WALKERS if (name in ("vtd", "smmuv3-s2", "amd")) == has_writes):
                try:
                    wanted = wanted_for(name, text, choice(board.host, agents=[agent]), board.layout, net)
                except Refused as refused:
                    wrong.append(f"{name}: {refused.lines[0]}")
                    continue
                read, unit, walker = reader(tables_for(wanted).memory), wanted.units[0], WALKERS[name]
                registers, number = registers_of(unit), unit.members[0].master.numbers[0]
                for page in (page for window in board.windows(agent)
                             for page in pages_of(*window, [*seen.rows[False], *seen.rows[True]], chance)):
                    address = page + (page >> 9 & 0xff8)
                    for is_write in (False, True):
                        found, due = walker(read, registers, number, address, is_write), seen.where(address, is_write)
                        count, hits = count + 1, hits + (due is not None)
                        if found != due:
                            wrong.append(f"{name}: {agent} {address:#x} {'writes' if is_write else 'reads'} {found} "
                                         f"and not {due}")
    return count, hits, wrong


class TestBoards(Case):
    """Walks over the tables of examples and boards."""

    def test_examples(self) -> None:
        """The examples whose buffers are pages, before the first buffer is taken back and at their ends."""
        total, arrived = 0, 0
        for name in ("dma_buffers", "first_grant", "foreign_tables", "io_mmu", "receive_ring"):
            text = (EXAMPLES / f"{name}.net").read_text()
            board = sampled(re.split(r"^[ \t]*begin[ \t]*;", text, maxsplit=1, flags=re.M)[0])
            assert board is not None
            commands = [command for command in commands_of(text) if command.word in ("grant", "gather", "revoke")]
            first = next((at for at, command in enumerate(commands) if command.word == "revoke"), len(commands))
            for some in (commands[:first], commands):
                lines = "".join(f"{command}\n" for command in some)
                both = {True: lines, False: re.sub(r"\s+for\s+write\s*;", ";", lines)}
                count, hits, wrong = compared(board, both, random.Random(SEED))
                self.assertEqual(wrong[:3], [], name)
                total, arrived = total + count, arrived + hits
        self.assertGreater(min(total, 5 * arrived), 500, (total, arrived))

    def test_boards(self) -> None:
        """Boards with IOMMUs under grants that chance chooses."""
        self.need("dtc", "device-tree-compiler")
        if outcome("/usr/bin/python3", "-c", "import libfdt")[0]:
            self.skipTest("libfdt is missing; as root: tools/install-needs (the package python3-libfdt)")
        trees = [RULES / f"{name}.dts" for name in ("doorbell", "functions", "iommus", "one_table")]
        more = sorted(pathlib.Path(TREES).rglob("*.dtb")) if TREES else []
        trees += random.Random(SEED).sample(more, min(BOARDS, len(more)))
        boards, total, arrived, wrong = 0, 0, 0, list[str]()
        for tree in trees:
            status, text, errors = outcome(TOOLS / "netconf-import", tree)
            if status == 0 and "no memory in the tree" in errors:
                status, text, errors = outcome(TOOLS / "netconf-import", MEMORY, tree)
            self.assertEqual(status, 0, errors)
            board = sampled(text)
            if board is None:
                continue
            chance = random.Random(f"{SEED} {tree.name}")
            both = {has_writes: granted(board, chance, has_writes) for has_writes in (True, False)}
            count, hits, lines = compared(board, both, chance)
            boards, total, arrived = boards + 1, total + count, arrived + hits
            wrong += [f"{tree.name}: {line}" for line in lines]
        if BOARDS > 16:
            print(f"{boards} boards: {total} comparisons, {arrived} at memory, {len(wrong)} differ")
        self.assertEqual((wrong[:5], boards >= 4, arrived > 500), ([], True, True), (boards, total, arrived))
