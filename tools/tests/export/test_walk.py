"""Exported tables against walkers of the manuals: each page of each window, for reading and for writing, leads where
the views say, and what is not granted faults."""

import functools
from typing import Any

from netconf_tools.layout import layout_of
from netconf_tools.views import Board
from tests.case import TOP, Case
from tests.export.common import MADE, choice, pages_near, reader, registers_of, tables_for, wanted_for
from tests.export.made import Answers, Made, made
from tests.export.walkers import WALKERS

ALONE = ("vtd", "smmuv3-s2", "amd")
"""The formats that have writing without reading."""

Windows = dict[str, list[tuple[int, int]]]
"""The windows of agents by their names, each its first and last address."""

CARDS = TOP / "tools/machine/cards.net"


@functools.lru_cache(maxsize=2)
def answers_of(text: str, agents: tuple[str, ...]) -> Answers:
    """What the program says of agents."""
    return Answers(text, list(agents))


def disagreements(name: str, text: str, windows: Windows, board: Board, **more: Any) -> list[str]:
    """Returns where the tables of a format lead elsewhere than the views."""
    answers = answers_of(text, tuple(windows))
    wanted = wanted_for(name, text, choice(**more), layout_of(board.text), board)
    plan = tables_for(wanted)
    read, walker, found = reader(plan.memory), WALKERS[name], list[str]()
    for unit in wanted.units:
        registers = registers_of(unit)
        for member in unit.members:
            agent, number = member.master.agent, member.master.numbers[0]
            pages = sorted({page for window in windows[agent] for page in pages_near(*window)})
            for page in pages:
                for is_write in (False, True):
                    address = page + (page >> 9 & 0xff8)
                    seen, said = walker(read, registers, number, address, is_write), answers.where(agent, address,
                                                                                                   is_write)
                    if seen != said:
                        found.append(f"{name}: {agent} {address:#x} {'writes' if is_write else 'reads'} {seen} and not "
                                     f"{said}")
    return found


class TestWalk(Case):
    """Walks over the tables of made nets, and of the cards of the machines."""

    def compare(self, name: str, text: str, windows: Windows, board: Board, **more: Any) -> None:
        """Compares a format over one description."""
        self.assertEqual(disagreements(name, text, windows, board, **more)[:5], [])

    def over(self, net: Made, names: tuple[str, ...], **more: Any) -> None:
        """Compares formats over a made description, each with the buffers that it can say."""
        for is_alone in (True, False):
            text = net.text(is_alone)
            chosen = [name for name in names if (name in ALONE) == is_alone]
            board = Board("made.net", text.encode()) if chosen else None
            for name in chosen:
                assert board is not None
                self.compare(name, text, net.agents, board, **more)

    def test_made(self) -> None:
        """Made nets, in each format."""
        for number in range(MADE):
            self.over(made(number), tuple(WALKERS))

    def test_pages(self) -> None:
        """Made nets with pages of 4 KiB alone."""
        for number in range(MADE // 10):
            self.over(made(1000 + number), tuple(WALKERS), pages_only=True)

    def test_widths(self) -> None:
        """Made nets with tables of each width that has their windows."""
        widths = {"vtd": (39, 48, 57), "smmuv3-s1": (39, 40, 42, 44, 48), "smmuv3-s2": (39, 40, 42, 44, 48),
                  "riscv": (39, 48, 57),
                  "amd": (39, 48, 57)}
        for number, (name, several) in enumerate(widths.items()):
            for bits in several:
                self.over(made(2000 + number), (name,), bits=bits)

    def test_narrow(self) -> None:
        """A window that tables of 32 and 36 bits have, in both stages of an SMMU."""
        text = ("dram is accept [0x0-0xffffff];\nagent core is map [0x80000000-0x80ffffff to dram at 0x0];  //@ "
                "processor\nagent card is map [0xfffe0000-0xffffffff to u at 0x0];  //@ stream 0x3\nunit u kind pages "
                "page 12 slots 32 reach 24 to dram;\nbegin;\ngrant a card dram 0x9000 0x2000;\n")
        board = Board("narrow.net", text.encode())
        for bits in (32, 36):
            for name in ("smmuv3-s1", "smmuv3-s2"):
                self.compare(name, text, {"card": [(0xfffe0000, 0xffffffff)]}, board, bits=bits)

    def test_contexts(self) -> None:
        """Device contexts of 32 bytes, for a RISC-V IOMMU that does not translate messages."""
        net = made(3000)
        text = net.text(False)
        board = Board("made.net", text.encode())
        wanted = wanted_for("riscv", text, choice(context_bytes=32), layout_of(board.text), board)
        plan, answers = tables_for(wanted), Answers(text, list(net.agents))
        read, registers = reader(plan.memory), registers_of(wanted.units[0])
        for member in wanted.units[0].members:
            for first, last in net.agents[member.master.agent]:
                for page in pages_near(first, last):
                    seen = WALKERS["riscv"](read, registers, member.master.numbers[0], page, False, 32)
                    self.assertEqual(seen, answers.where(member.master.agent, page, False))

    def test_strangers(self) -> None:
        """A number that no agent has comes to nothing."""
        net = made(4000)
        text = net.text(False)
        board = Board("made.net", text.encode())
        for name, walker in WALKERS.items():
            wanted = wanted_for(name, text, choice(), layout_of(board.text), board)
            plan, unit = tables_for(wanted), wanted.units[0]
            taken = {number for member in unit.members for number in member.master.numbers}
            for number in {other ^ bit for other in taken for bit in (1, 0x100, 0x8000)} - taken:
                for is_write in (False, True):
                    self.assertIsNone(walker(reader(plan.memory), registers_of(unit), number, 0, is_write))

    def test_cards(self) -> None:
        """The cards of the machines at their last dump, in the formats that can say their buffers."""
        text = "".join(line for line in CARDS.read_text().splitlines(True) if line != "dump;\n")
        board = Board("cards.net", text.encode())
        windows = {agent.name: [(window.first, window.last) for window in agent.windows]
                   for agent in layout_of(text.encode()).agents
                   if agent.windows}
        answers = Answers(text, list(windows), "m.core")
        for name in ALONE:
            wanted = wanted_for(name, text, choice("m.core"), layout_of(board.text), board)
            plan = tables_for(wanted)
            for member in wanted.units[0].members:
                for page in (page for window in windows[member.master.agent] for page in pages_near(*window)):
                    for is_write in (False, True):
                        seen = WALKERS[name](reader(plan.memory), registers_of(wanted.units[0]),
                                             member.master.numbers[0], page, is_write)
                        self.assertEqual(seen, answers.where(member.master.agent, page, is_write))
