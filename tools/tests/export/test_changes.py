"""How tables become those of the next description: at each write each address leads where it led before or leads after,
or to nothing; what is forgotten at the fence is all that may be kept; and the tables are then what the next description
asks for."""

from typing import Callable

from netconf_tools.export.formats import Command
from netconf_tools.export.memory import Memory, Write, bytes_of
from netconf_tools.export.tables import Wanted, changed_tables
from netconf_tools.layout import layout_of
from netconf_tools.views import Board
from tests.case import Case
from tests.export.common import MADE, choice, copy_of, pages_near, reader, registers_of, tables_for, wanted_for
from tests.export.made import Answers, Made, made
from tests.export.walkers import WALKERS

ALONE = ("vtd", "smmuv3-s2", "amd")
"""The formats that have writing without reading."""

Access = tuple[str, int, int, bool]
"""An agent, its number, an address, and whether it is a write."""


def accesses_of(net: Made, wanted: Wanted, most: int) -> list[Access]:
    """Returns accesses of each agent: the pages in and near its windows, at most so many of each."""
    found = []
    for unit in wanted.units:
        for member in unit.members:
            agent = member.master.agent
            pages = sorted({page for window in net.agents[agent] for page in pages_near(*window)})
            for page in pages[::max(len(pages) // most, 1)]:
                found += [(agent, member.master.numbers[0], page, is_write) for is_write in (False, True)]
    return found


class Walked:
    """Walks over one memory, with the registers of its unit."""

    def __init__(self, name: str, wanted: Wanted, memory: Memory) -> None:
        self.walker, self.registers, self.memory = WALKERS[name], registers_of(wanted.units[0]), memory

    def where(self, access: Access) -> int | None:
        """Returns where an access arrives."""
        return self.walker(reader(self.memory), self.registers, *access[1:])

    def all(self, accesses: list[Access]) -> dict[Access, int | None]:
        """Returns where accesses arrive."""
        return {access: self.where(access) for access in accesses}


class TestChanges(Case):
    """Changes between two descriptions of one net."""

    def states(self, net: Made, name: str, count: int | None) -> Wanted:
        """Returns what tables a made description with so many commands asks for."""
        text = net.text(name in ALONE, count)
        board = Board("made.net", text.encode())
        return wanted_for(name, text, choice(), layout_of(board.text), board)

    def changed(self, name: str, net: Made, cut: int, most: int, each: int) -> None:
        """Goes from a part of the commands to all of them, and walks after each write of so many."""
        first, second = self.states(net, name, cut), self.states(net, name, None)
        plan = tables_for(first)
        change = changed_tables(second, bytes_of(plan.memory.words))
        memory = copy_of(plan.memory)
        memory.grow(change.plan.end)
        accesses = accesses_of(net, second, most)
        walked = Walked(name, second, memory)
        old = walked.all(accesses)
        self.phase(walked, change.plan.clears, accesses, each, lambda access: (old[access], None))
        fenced = walked.all(accesses)
        domains = {member.domain for unit in first.units for member in unit.members
                   if any(old[access] != fenced[access] for access in accesses if access[0] == member.master.agent)}
        self.forgotten(name, second, change.after_clears, domains)
        answers = Answers(net.text(name in ALONE), list(net.agents))
        new = {access: answers.where(access[0], access[2], access[3]) for access in accesses}
        self.assertEqual({access: seen for access, seen in fenced.items() if seen not in (None, new[access])}, {})
        self.assertEqual({access: (fenced[access], new[access]) for access in accesses
                          if old[access] == new[access] != fenced[access]}, {})
        self.phase(walked, change.plan.makes, accesses, each, lambda access: (fenced[access], new[access]))
        self.assertEqual(walked.all(accesses), new)
        change.plan.carry_out()
        self.assertEqual(bytes_of(change.plan.memory.words), bytes_of(memory.words))

    def phase(self, walked: Walked, writes: list[Write], accesses: list[Access], each: int,
              allowed: Callable[[Access], tuple[int | None, ...]]) -> None:
        """Carries out writes, and walks after some of them."""
        single = [Write(write.address + 8 * place, write.words[place:place + 1]) for write in writes
                  for place in range(len(write.words))]
        step = max(len(single) // each, 1)
        for number, write in enumerate(single):
            walked.memory.write(write.address, write.words)
            if number % step == 0:
                wrong = {access: walked.where(access) for access in accesses
                         if walked.where(access) not in allowed(access)}
                self.assertEqual(wrong, {}, f"after {number + 1} writes")

    def forgotten(self, name: str, wanted: Wanted, commands: list[Command], domains: set[int]) -> None:
        """Sees that the translations of each of some domains are forgotten."""
        forms: dict[str, Callable[[int], int]] = {
            "vtd": lambda domain: 0xc0 | 2 | 2 << 4 | domain << 16,
            "smmuv3-s1": lambda domain: 0x11 | domain << 48,
            "smmuv3-s2": lambda domain: 0x28 | domain << 32,
            "riscv": lambda domain: 1 | 1 << 32 | domain << 12,
            "amd": lambda domain: 3 << 60 | domain << 32}
        given = {command.words[0] for command in commands}
        self.assertEqual({domain for domain in domains if forms[name](domain) not in given}, set())

    def test_made(self) -> None:
        """Made nets: from half of the commands to all, with a look after some of the writes."""
        for number in range(max(MADE // 10, 1)):
            net = made(5000 + number)
            for name in WALKERS:
                self.changed(name, net, len(net.commands) // 2, 4, 12)

    def test_each_write(self) -> None:
        """One net, with a look after each write."""
        net = made(6000)
        for name in WALKERS:
            self.changed(name, net, len(net.commands) * 2 // 3, 2, 120)

    def test_from_nothing(self) -> None:
        """From tables without any buffer, and back to them."""
        net = made(6100)
        for name in WALKERS:
            self.changed(name, net, 0, 4, 6)
            full, empty = self.states(net, name, None), self.states(net, name, 0)
            change = changed_tables(empty, bytes_of(tables_for(full).memory.words))
            change.plan.carry_out()
            walked = Walked(name, empty, change.plan.memory)
            accesses = accesses_of(net, empty, 8)
            answers = Answers(net.text(name in ALONE, 0), list(net.agents))
            self.assertEqual(walked.all(accesses), {access: answers.where(access[0], access[2], access[3])
                                                    for access in accesses})

    def test_again(self) -> None:
        """Tables that are those of the description already need no write, and again and again no more memory."""
        net = made(6200)
        for name in WALKERS:
            parts = [self.states(net, name, count) for count in (len(net.commands) // 3, len(net.commands))]
            memory = tables_for(parts[0]).memory
            sizes = []
            for turn in range(6):
                change = changed_tables(parts[(turn + 1) % 2], bytes_of(memory.words))
                change.plan.carry_out()
                memory = change.plan.memory
                sizes.append(len(memory.words))
                again = changed_tables(parts[(turn + 1) % 2], bytes_of(memory.words))
                self.assertEqual((again.plan.clears, again.plan.makes, again.after_clears, again.after_makes),
                                 ([], [], [], []))
            self.assertEqual(sizes[2:4], sizes[4:6], f"{name}: pages that are free again are taken again")
