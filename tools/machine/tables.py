"""Tries exported tables on a machine of QEMU: what a card reads, and where its writes land, is what the program says of
it."""

import contextlib
import functools
import pathlib
import random
import re
import tempfile
from dataclasses import dataclass, field
from typing import Callable, Iterator

from machine.boards import BOARDS, HERE, Board
from machine.qtest import Qtest
from machine.trial import PAGE, WORD, Probe, Trial
from netconf_tools.cli.export import FORMATS
from netconf_tools.export.formats import Command
from netconf_tools.export.memory import Write, bytes_of
from netconf_tools.export.tables import Change, Choice, Wanted, changed_tables, made_tables, wanted_of
from netconf_tools.layout import layout_of
from netconf_tools.source import commands_of
from netconf_tools.text import Trouble, read
from netconf_tools.views import Board as Description

USE = re.compile(r"(?<=use cards\()0x\w+, 0x\w+, 0x\w+, 0x\w+(?=\))")
"""The addresses at which the description of the cards has its memories."""

USE_BLOCK = re.compile(r"(?<=use block\()0x\w+, 0x\w+(?=\))")
"""The addresses at which that of a card with 1 GiB has its memories."""

BEGIN = re.compile(r"^[ \t]*begin[ \t]*;", re.M)
"""The statement after which the commands of a description stand, at the beginning of a line."""

CARD_BUFFER = 0x40000
"""Where the buffer of a card of QEMU (`edu`) stands by its own addresses; it has 4,096 bytes."""

SOURCE, TARGET, COUNT, RUN = 0x80, 0x88, 0x90, 0x98
TO_CARD, FROM_CARD = 1, 3

MOST_PAGES = 64
"""How many pages of a window are all tried; of a longer one the first, the last, those that the card sees, and so many
that chance chooses."""

MOST_SEEN = 16
"""How many pages of a row that a card sees are all tried; of a longer one two at each end."""

MOST_FILLED = 1 << 24
"""How many bytes of a memory are all filled and compared at most; of a larger one the pages that the cards come to."""

MOST_FAILURES = 5
"""How many failures are said of one trial."""


class Asked(Trial):
    """A description with its cards and its dumps, and what the program answers of the first word of each page that is
    tried."""

    @functools.cached_property
    def seen(self) -> dict[int, set[int]]:
        """The pages that each card sees at some dump, those of a long row at its ends alone."""
        found: dict[int, set[int]] = {number: set() for number in self.agents}
        names = {self.layout.agents[number].name: number for number in self.agents}
        for step in steps_of(self.text):
            for (name, _), lines in Description("cards", step.encode("latin-1")).views(names).items():
                for line in lines:
                    first, last = (int(end, 16) & -PAGE for end in line.split(" ")[0].split("-"))
                    row = range(first, last + PAGE, PAGE)
                    found[names[name]].update(row if len(row) <= MOST_SEEN else (*row[:2], *row[-2:]))
        return found

    @functools.cached_property
    def pages(self) -> dict[int, list[int]]:
        """The pages that are tried of each card."""
        return {number: self.chosen_pages(number) for number in self.agents}

    def pages_of(self, number: int) -> list[int]:
        """The pages that are tried of an agent."""
        return self.pages[number]

    def chosen_pages(self, number: int) -> list[int]:
        """The pages that are tried of an agent, of a long window about a hundred."""
        pages = super().pages_of(number)
        windows = [(window.first & -PAGE, window.last & -PAGE) for window in self.layout.agents[number].windows
                   if window.last - window.first >= MOST_PAGES * PAGE]
        chance = random.Random(number)
        for first, last in windows:
            inner = [page for page in pages if first < page < last]
            kept = set(chance.sample(inner, MOST_PAGES // 2)) | self.seen[number]
            if last - first <= MOST_FILLED:
                kept |= {page for page in inner if page & 0x1fffff in (0, 0x1ff000)}
            pages = [page for page in pages if not first < page < last or page in kept]
        return pages

    def pages_at(self, address: int, size: int) -> list[tuple[int, int]]:
        """The pages of a memory, by its first address and its size, to which some access that is tried comes: where
        each begins in it, and its size."""
        found = {memory - address & -PAGE for answers in self.answers for answer in answers.values()
                 if (memory := self.memory_of(answer)) is not None and 0 <= memory - address < size}
        return [(page, PAGE) for page in sorted(found | {0})]

    def all_probes(self) -> list[Probe]:
        """Each page for each access."""
        return [Probe(number, page, is_write) for number in self.agents for is_write in (False, True)
                for page in self.pages_of(number)]


Answers = dict[tuple[int, int, bool], tuple[str, int] | None]
"""What the program answers of agents' addresses for reading or writing: a node and an address, or None."""


@dataclass
class Outcome:
    """How many comparisons passed and failed, and what is said of the first that failed."""
    passed: int = 0
    failed: int = 0
    lines: list[str] = field(default_factory=list)
    seen: list[tuple[str, str, str, int, int]] = field(default_factory=list)

    def add(self, other: "Outcome") -> None:
        """Adds what another trial found."""
        self.passed, self.failed = self.passed + other.passed, self.failed + other.failed
        self.lines, self.seen = [*self.lines, *other.lines], [*self.seen, *other.seen]

    def count(self, is_right: bool, what: str) -> None:
        """Counts one comparison."""
        if is_right:
            self.passed += 1
            return
        self.failed += 1
        if len(self.lines) < MOST_FAILURES:
            self.lines.append(f"FAILED: {what}")


def text_for(board: type[Board], text: str) -> str:
    """Returns a description as a machine tries it: its memories at the machine's addresses, and no buffer for writing
    alone if the format has none."""
    text = USE.sub(", ".join(f"{address:#x}" for address in board.memories), text)
    text = USE_BLOCK.sub(f"{board.memories[0]:#x}, {board.block:#x}", text)
    return text if FORMATS[board.form].writes_alone else re.sub(r"\s+for\s+write\s*;", ";", text)


def steps_of(text: str) -> list[str]:
    """Returns the description up to before its first command, and up to each `dump`."""
    hit = BEGIN.search(text)
    if hit is None:
        raise Trouble("the description has no line `begin;` by itself")
    before, commands, steps = text[:hit.end()] + "\n", "", list[str]()
    for command in commands_of(text):
        commands += str(command) if command.word in ("grant", "gather", "route", "revoke") else ""
        if command.word == "dump":
            steps.append(before + commands)
    return [before, *steps]


class Cards:
    """The cards of a machine, with the memory that the description says, and a copy of it as it should be."""

    def __init__(self, qemu: Qtest, board: Board, asked: Asked) -> None:
        self.qemu, self.board, self.asked = qemu, board, asked
        self.copy: dict[int, bytearray] = {}
        self.filled: dict[int, list[tuple[int, int]]] = {}
        self.chance = random.Random(7)
        for place in asked.processor.places:
            size = place.last - place.first + 1
            self.copy[place.address] = bytearray(size)
            self.filled[place.address] = [(0, size)] if size <= MOST_FILLED else asked.pages_at(place.address, size)
            for first, count in self.filled[place.address]:
                data = self.chance.randbytes(count)
                self.copy[place.address][first:first + count] = data
                qemu.write(place.address + first, data)
        for number, (_, device, function) in enumerate(asked.cards):
            board.configure(qemu, device, function, 0x10, self.registers(number))
            board.configure(qemu, device, function, 0x4, 0x6)

    def registers(self, card: int) -> int:
        """The address of a card's registers."""
        return self.board.windows + (card << 20)

    def transfer(self, card: int, source: int, target: int, size: int, command: int) -> None:
        """Has a card copy bytes between an address and its buffer, and waits until it has."""
        base = self.registers(card)
        self.qemu.ask(f"writeq {base + SOURCE:#x} {source:#x}", f"writeq {base + TARGET:#x} {target:#x}",
                      f"writeq {base + COUNT:#x} {size:#x}", f"writeq {base + RUN:#x} {command}")
        self.board.wait(lambda: not self.qemu.number(f"readq {base + RUN:#x}") & 1,
                        "the card does not end its transfer")

    def word(self, address: int) -> bytes:
        """The word that an address of the processor should have."""
        start, data = self.place(address)
        return bytes(data[address - start:address - start + WORD])

    def place(self, address: int) -> tuple[int, bytearray]:
        """The memory that has an address of the processor: its first address and its bytes."""
        return next((start, data) for start, data in self.copy.items() if start <= address < start + len(data))

    def put(self, address: int, data: bytes) -> None:
        """Writes bytes by the processor's addresses, and to the copy."""
        start, copy = self.place(address)
        copy[address - start:address - start + len(data)] = data
        self.qemu.write(address, data)

    def has(self, address: int) -> bool:
        """Returns whether an address of the processor has the word that it should have, and puts it right."""
        word = self.word(address)
        is_right = self.qemu.read(address, WORD) == word
        if not is_right:
            self.qemu.write(address, word)
        return is_right

    def compare(self) -> list[int]:
        """The addresses of the processor, up to a few, whose words are not as they should be; they are put right."""
        wrong = []
        for start, first, count in ((start, *part) for start, parts in self.filled.items() for part in parts):
            data, seen = bytes(self.copy[start][first:first + count]), self.qemu.read(start + first, count)
            if seen != data:
                wrong += [start + first + at for at in range(0, count, WORD)
                          if seen[at:at + WORD] != data[at:at + WORD]]
                self.qemu.write(start + first, data)
        return wrong


class Tried:
    """A trial of one state: the answers that the program gave, against what the cards see."""

    def __init__(self, cards: Cards, answers: Answers, outcome: Outcome, what: str,
                 only: Callable[[Probe], bool] | None = None) -> None:
        self.cards, self.asked, self.answers, self.outcome, self.what = cards, cards.asked, answers, outcome, what
        self.probes = [probe for probe in self.asked.probes if only is None or only(probe)]

    def run(self) -> None:
        """Tries each probe."""
        for card, number in enumerate(self.asked.agents):
            for is_write in (False, True):
                probes = [probe for probe in self.probes if probe.agent == number and probe.is_write == is_write]
                for at in range(0, len(probes), PAGE // WORD):
                    (self.writes if is_write else self.reads)(card, probes[at:at + PAGE // WORD])

    def wanted(self, probe: Probe, offset: int) -> int | None:
        """The processor's address to which a probe should come, or None."""
        memory = self.asked.memory_of(self.answers[probe.agent, probe.address, probe.is_write])
        return None if memory is None else memory + offset

    def way(self, card: int, is_write: bool) -> tuple[int, int] | None:
        """A page that a card may access so, and the processor's address of it; None if it has none."""
        number = self.asked.agents[card]
        for page in self.asked.pages_of(number):
            memory = self.asked.memory_of(self.answers[number, page, is_write])
            if memory is not None and memory % PAGE == 0:
                return page, memory
        return None

    def offsets(self, count: int) -> list[int]:
        """So many places within a page."""
        return [WORD * self.cards.chance.randrange(PAGE // WORD) for _ in range(count)]

    def reads(self, card: int, probes: list[Probe]) -> None:
        """Has a card read at each probe, and sees what its buffer has then."""
        offsets = self.offsets(len(probes))
        for place, (probe, offset) in enumerate(zip(probes, offsets)):
            self.cards.transfer(card, probe.address + offset, CARD_BUFFER + WORD * place, WORD, TO_CARD)
        seen = self.fetch(card, len(probes))
        for place, (probe, offset) in enumerate(zip(probes, offsets)):
            memory, found = self.wanted(probe, offset), seen[WORD * place:WORD * place + WORD]
            wanted = bytes(WORD) if memory is None else self.cards.word(memory)
            where = "nothing" if memory is None else f"{memory:#x}"
            self.outcome.count(found == wanted,
                               f"{self.what}: {self.name(card)} reads {probe.address + offset:#x}, which should be "
                               f"{where}, and gets {found.hex()} in place of {wanted.hex()}")
            if found == wanted and memory is not None:
                self.outcome.seen.append((self.what, self.name(card), "reads", probe.address, memory - offset))

    def fetch(self, card: int, words: int) -> bytes:
        """What the buffer of a card has: it writes it to a page that it may write, or with translation off."""
        way = self.way(card, True)
        if way is None:
            self.cards.board.stop(self.cards.qemu)
        page, memory = way or self.spare()
        self.cards.transfer(card, CARD_BUFFER, page, words * WORD, FROM_CARD)
        data = self.cards.qemu.read(memory, words * WORD)
        if way is None:
            self.cards.board.resume(self.cards.qemu)
        start, copy = self.cards.place(memory)
        self.cards.qemu.write(memory, bytes(copy[memory - start:memory - start + len(data)]))
        return data

    def spare(self) -> tuple[int, int]:
        """A page of the processor that a card comes to where translation is off."""
        first = self.asked.processor.places[0].address
        return first, first

    def writes(self, card: int, probes: list[Probe]) -> None:
        """Has a card write a word of its own at each probe, and sees what the memory has then."""
        words = [self.cards.chance.randbytes(WORD) for _ in probes]
        self.load(card, b"".join(words))
        targets = {}
        for place, (probe, offset, word) in enumerate(zip(probes, self.offsets(len(probes)), words)):
            self.cards.transfer(card, CARD_BUFFER + WORD * place, probe.address + offset, WORD, FROM_CARD)
            memory = self.wanted(probe, offset)
            if memory is not None:
                start, copy = self.cards.place(memory)
                copy[memory - start:memory - start + WORD] = word
                targets[memory] = probe
        for probe in probes:
            aim = next((memory for memory, other in targets.items() if other is probe), None)
            is_right = aim is None or self.cards.has(aim)
            self.outcome.count(is_right,
                               f"{self.what}: {self.name(card)} writes {probe.address:#x}, which does not arrive at "
                               f"{aim or 0:#x}")
            if is_right and aim is not None:
                self.outcome.seen.append((self.what, self.name(card), "writes", probe.address, aim & -PAGE))

    def sweep(self) -> None:
        """Sees that no word of the memory is other than it should be."""
        wrong = self.cards.compare()
        self.outcome.count(not wrong,
                           f"{self.what}: words are written that should not be: {', '.join(map(hex, wrong[:4]))}")

    def load(self, card: int, data: bytes) -> None:
        """Has the buffer of a card hold bytes: it reads them from a page that it may read, or with translation off."""
        way = self.way(card, False)
        if way is None:
            self.cards.board.stop(self.cards.qemu)
        page, memory = way or self.spare()
        self.cards.put(memory, data)
        self.cards.transfer(card, page, CARD_BUFFER, len(data), TO_CARD)
        if way is None:
            self.cards.board.resume(self.cards.qemu)

    def name(self, card: int) -> str:
        """The name of a card."""
        return self.asked.cards[card][0]


def write_words(qemu: Qtest, writes: list[Write]) -> None:
    """Carries writes out in the memory of a machine, in their order."""
    for write in writes:
        if len(write.words) == 1:
            qemu.ask(f"writeq {write.address:#x} {write.words[0]:#x}")
        else:
            qemu.write(write.address, bytes_of(write.words))


class Running:
    """A machine of QEMU with tables of the cards, which goes from one state to the next."""

    def __init__(self, trial: "TablesTrial", qemu: Qtest) -> None:
        self.trial, self.asked, self.qemu = trial, trial.asked, qemu
        self.board, self.outcome = trial.board(), Outcome()
        self.cards = Cards(qemu, self.board, trial.asked)
        self.wanted, self.state = trial.wanted[0], 0
        if len(self.wanted.units) != 1:
            raise Trouble(f"{trial.name}: the cards have to be behind one IOMMU, and there are "
                          f"{len(self.wanted.units)}")
        plan = made_tables(self.wanted)
        plan.carry_out()
        self.memory = plan.memory
        qemu.write(self.wanted.base, bytes_of(plan.memory.words))
        self.board.start(qemu, {register.name: register.value for register in self.wanted.units[0].head.registers()})
        self.forget_all()

    def forget_all(self) -> None:
        """Has the IOMMU forget all that it keeps."""
        self.command(self.wanted.form.forget_all(self.wanted.units[0].head))

    def command(self, commands: list[Command]) -> None:
        """Gives commands to the IOMMU, and waits until they are done."""
        if commands:
            self.board.command(self.qemu, [command.words for command in commands])

    def next(self) -> Change:
        """Returns how the tables become those of the next state."""
        return changed_tables(self.trial.wanted[self.state + 1], bytes_of(self.memory.words))

    def clear(self, change: Change, is_cleared: bool = True, is_fenced: bool = True) -> None:
        """Clears what becomes other, and has it forgotten."""
        write_words(self.qemu, change.plan.clears if is_cleared else [])
        self.command(change.after_clears if is_fenced else [])

    def try_fence(self) -> None:
        """Tries what holds right after the fence of a change: what stays the same, and nothing else. Of what was
        nothing before too, each fourth page is tried."""
        before, after = (self.asked.answers[state] for state in (self.state, self.state + 1))
        places = {probe: place for place, probe in enumerate(self.asked.probes)}

        def is_tried(probe: Probe) -> bool:
            key = probe.agent, probe.address, probe.is_write
            return before[key] != after[key] or places[probe] % 4 == 0

        Tried(self.cards, self.asked.at_fence(before, after), self.outcome, f"fence before dump {self.state + 1}",
              is_tried).run()

    def make(self, change: Change) -> None:
        """Writes what is new, and has forgotten what the IOMMU may keep of empty entries."""
        write_words(self.qemu, change.plan.makes)
        self.command(change.after_makes)
        change.plan.carry_out()
        self.memory, self.state = change.plan.memory, self.state + 1
        self.wanted = self.trial.wanted[self.state]

    def step(self) -> None:
        """Goes to the next state, and tries what holds at the fence."""
        change = self.next()
        self.clear(change)
        if change.plan.clears:
            self.try_fence()
        self.make(change)

    def try_state(self, only: Callable[[Probe], bool] | None = None) -> None:
        """Tries what the present state says, and that nothing else was written."""
        tried = Tried(self.cards, self.asked.answers[self.state], self.outcome, f"dump {self.state}", only)
        tried.run()
        tried.sweep()


class TablesTrial:
    """The trial of a description on one machine: its states, and the tables of each."""

    def __init__(self, board: type[Board], name: str, text: str) -> None:
        self.board, self.name = board, name
        self.text = text_for(board, text)
        self.asked = Asked(self.text.encode("latin-1"))
        self.wanted = [self._wanted(step) for step in steps_of(self.text)]

    def _wanted(self, step: str) -> Wanted:
        """Returns what tables a state asks for."""
        choice = Choice(self.asked.processor.name, [], [], 0, 1, False, 64)
        description = Description(self.name, step.encode("latin-1"))
        layout = layout_of(description.text)
        return wanted_of(description, layout, FORMATS[self.board.form], self.board.tables, choice)

    def run(self) -> Outcome:
        """Tries each state, and each fence between two."""
        with self.running() as running:
            running.try_state()
            while running.state + 1 < len(self.wanted):
                running.step()
                running.try_state()
            return running.outcome

    @contextlib.contextmanager
    def running(self) -> Iterator[Running]:
        """Starts the machine, with tables in which no card sees anything, and ends it."""
        with tempfile.TemporaryDirectory() as folder:
            with Qtest(self.board.words(self.asked.cards, pathlib.Path(folder))) as qemu:
                yield Running(self, qemu)


def trial_of(name: str, net: str | None = None) -> TablesTrial:
    """Returns the trial of a description, or of the cards beside this file, on a machine."""
    file = net or str(HERE / "cards.net")
    return TablesTrial(BOARDS[name], file, read(file).decode("latin-1"))
