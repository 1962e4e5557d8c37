"""What the cards of a description may read, write and signal, asked of the program at each dump, as data for the
trial."""

import random
import re
from dataclasses import dataclass

from netconf_tools.dump import image_in
from netconf_tools.layout import layout_of
from netconf_tools.source import commands_of, declarations_of
from netconf_tools.text import Trouble, name_of, run

PAGE = 0x1000
WORD = 8
NOWHERE = "NOWHERE"
FUNCTION = re.compile(r"pci 0:([0-9a-f]+)\.([0-7])")
MESSAGES = range(0xfee00000, 0xfef00000)
"""Addresses at which a card of a PC sends messages in place of writing to memory."""
BEYOND = 4
"""How many pages below and above each window are tried."""

Name = tuple[str, int]
"""A node and an address of it."""

Question = tuple[int, int, bool]
"""An agent by its place among the agents, an address, and whether it is a write."""

Answers = dict[Question, Name | None]
"""What each question is answered: the name to which it comes, or nothing."""


@dataclass(frozen=True)
class Probe:
    """One access: the agent by its place among the agents, the address, whether it is a write, and whether it takes two
    words."""
    agent: int
    address: int
    is_write: bool
    is_two: bool = False


class Trial:
    """A description with its layout, its cards, its dumps, and what is expected at each."""

    def __init__(self, text: bytes) -> None:
        self.text = text.decode("latin-1")
        self.layout = layout_of(text)
        processors = [agent for agent in self.layout.agents if agent.notes == ["processor"]]
        if not processors:
            raise Trouble("no agent of the description has the note `processor`")
        self.processor = processors[0]
        self.functions = {number: part for number, agent in enumerate(self.layout.agents) for note in agent.notes
                          for part in note.split(", ") if FUNCTION.fullmatch(part)}
        lines = {number for number in self.functions if self.kind_of(number) == "vectors"}
        self.agents = [number for number in self.functions if number not in lines]
        self.lines = {self.functions[number]: number for number in sorted(lines)}
        self.cards = [self.card_of(number) for number in self.agents]
        if not self.cards:
            raise Trouble("no agent of the description has a note like `pci 0:3.0`")
        self.probes = self.all_probes()
        self.handles = range(max((unit.slots for unit in self.layout.units if unit.kind == "vectors"), default=0) + 4)
        self.images, self.answers = self.ask()

    def kind_of(self, number: int) -> str:
        """The kind of the unit to which an agent comes."""
        windows = self.layout.agents[number].windows
        return self.layout.units[windows[0].unit].kind if windows else ""

    def card_of(self, number: int) -> tuple[str, int, int]:
        """The name of a card, its device and its function."""
        device, _, function = self.functions[number].removeprefix("pci 0:").partition(".")
        return self.layout.agents[number].name, int(device, 16), int(function)

    def pages_of(self, number: int) -> list[int]:
        """The pages that are tried of an agent: those of its windows, some below and above each, and those at which the
        processor has memory."""
        pages = {place.address & -PAGE for place in self.processor.places}
        for window in self.layout.agents[number].windows:
            first, last = window.first // PAGE - BEYOND, window.last // PAGE + BEYOND
            pages.update(page * PAGE for page in range(max(first, 0), last + 1))
        return sorted(page for page in pages if page not in MESSAGES)

    def all_probes(self) -> list[Probe]:
        """Each access that is tried: in each page its first word, its last and one between, and two words across its
        end."""
        chance = random.Random(45)
        probes: list[Probe] = []
        for number in self.agents:
            pages = self.pages_of(number)
            for is_write in (False, True):
                for page in pages:
                    offsets = (0, WORD * chance.randrange(1, PAGE // WORD - 1), PAGE - WORD)
                    probes += [Probe(number, page + offset, is_write) for offset in offsets]
                probes += [Probe(number, page + PAGE - WORD, is_write, True) for page in pages if page + PAGE in pages]
        return probes

    def questions(self) -> list[Question]:
        """The names that are looked up at each dump: each an agent, an address and an access."""
        asked: dict[Question, None] = {}
        for probe in self.probes:
            for address in (probe.address, probe.address + WORD) if probe.is_two else (probe.address,):
                asked[(probe.agent, address, probe.is_write)] = None
        for number in self.lines.values():
            for window in self.layout.agents[number].windows:
                asked.update({(number, line, True): None for line in range(window.first, window.last + 1)})
        return list(asked)

    def ask(self) -> tuple[list[bytes], list[Answers]]:
        """The image of each dump, and what each question is answered at first and after each dump."""
        questions, names = self.questions(), [agent.name for agent in self.layout.agents]
        lookups = [f"lookup {names[agent]} {address:#x} for {'write' if is_write else 'read'};"
                   for agent, address, is_write in questions]
        lines = [*lookups]
        for command in commands_of(self.text):
            if command.word in ("grant", "gather", "route", "revoke", "dump"):
                lines += [str(command), *(lookups if command.word == "dump" else [])]
        text = declarations_of(self.text) + "begin;\n" + "\n".join(lines) + "\n"
        _, output = run("run", text.encode("latin-1"))
        refused = [line for line in output.splitlines() if " refused: " in line]
        if refused:
            raise Trouble(f"the description asks for what is refused: {refused[0]}")
        parts = output.split("\ndump bytes ")
        answers = [[line for line in part.splitlines() if "@" in line] for part in [parts[0], *parts[1:]]]
        if any(len(lines) != len(questions) for lines in answers):
            raise Trouble("the program did not answer each lookup")
        images = [image_in(output.encode("latin-1"), number + 1) for number in range(len(parts) - 1)]
        return images, [dict(zip(questions, map(self.answered, lines))) for lines in answers]

    def answered(self, line: str) -> Name | None:
        """The name to which a lookup comes, a node and an address, or nothing."""
        answer = line.split(": ", 1)[1]
        if answer == "nothing":
            return None
        if ", " in answer:
            raise Trouble(f"a card comes to several names at once: {line}")
        return name_of(answer)

    def memory_of(self, name: Name | None) -> int | None:
        """The processor's address of a name."""
        if name is None:
            return None
        node, at = name
        place = next((p for p in self.processor.places if p.name == node and p.first <= at <= p.last), None)
        if place is None:
            raise Trouble(f"the processor does not see {node}@{at:#x}, which a card reaches")
        return place.address + at - place.first

    def is_half(self, answers: Answers, probe: Probe) -> bool:
        """Whether some page of an access denies it and allows the other."""
        pages = {address & -PAGE for address in (probe.address,
                                                 probe.address + WORD if probe.is_two else probe.address)}
        return any(answers[(probe.agent, page, probe.is_write)] is None
                   and answers[(probe.agent, page, not probe.is_write)] is not None
                   for page in pages)

    def at_fence(self, before: Answers, after: Answers) -> Answers:
        """The answers right after the fence of a change: those of pages and lines that stay the same for both
        accesses."""
        kept: Answers = {}
        for (number, address, is_write), name in after.items():
            if number in self.agents:
                page = address & -PAGE
                is_same = all(before.get((number, page, access)) == after.get((number, page, access))
                              for access in (False, True))
            else:
                is_same = before[(number, address, is_write)] == name
            kept[(number, address, is_write)] = name if is_same else None
        return kept


def number_text(value: int | None) -> str:
    """An address as a constant, or NOWHERE."""
    return NOWHERE if value is None else f"UINT64_C({value:#x})"


def array(kind: str, name: str, items: list[str]) -> tuple[str, str, int]:
    """A constant array in C, and the initializer that names it with its length."""
    if not items:
        return "", "NULL", 0
    return f"static const {kind} {name}[] = {{\n" + "".join(f"    {item},\n"
                                                            for item in items) + "};\n\n", name, len(items)


def pages_at(trial: Trial, answers: Answers, number: int) -> list[int | None]:
    """A page that a card may read, with the processor's address of it, and a page that it may write, with its own: of
    each the first, if there is one for that access alone."""
    found: list[int | None] = []
    for access, other in ((False, True), (True, False)):
        pages = [page for page in trial.pages_of(number) if answers.get((number, page, access)) is not None]
        pages.sort(key=lambda page: answers[(number, page, other)] is not None)
        found += [pages[0], trial.memory_of(answers[(number, pages[0], access)])] if pages else [None, None]
    return found


def pages_texts(trial: Trial, answers: Answers) -> list[str]:
    """For each card a page that it may read and one that it may write, as initializers."""
    return [f"{{{', '.join(map(number_text, pages_at(trial, answers, number)))}}}" for number in trial.agents]


def probe_texts(trial: Trial, answers: Answers, is_short: bool) -> list[str]:
    """The probes as initializers; where it is short, only the first words of pages."""
    texts = []
    for probe in trial.probes:
        if is_short and (probe.is_two or probe.address % PAGE):
            continue
        first = trial.memory_of(answers[(probe.agent, probe.address, probe.is_write)])
        second = trial.memory_of(answers[(probe.agent, probe.address + WORD, probe.is_write)]) if probe.is_two else None
        numbers = trial.agents.index(probe.agent), probe.is_write, probe.is_two, trial.is_half(answers, probe)
        texts.append(f"{{{number_text(probe.address)}, {number_text(first)}, {number_text(second)}, "
                     f"{', '.join(str(int(n)) for n in numbers)}}}")
    return texts


def message_texts(trial: Trial, answers: Answers) -> list[str]:
    """For each card and each handle where its message arrives."""
    numbers = {port.name: int(note.split()[1]) for unit in trial.layout.units for port in unit.ports
               for note in port.notes
               if note.startswith("apic ")}
    texts = []
    for card, number in enumerate(trial.agents):
        lines = trial.lines.get(trial.functions[number])
        for handle in trial.handles:
            windows = trial.layout.agents[lines].windows if lines is not None else []
            inputs = {window.input + line - window.first: line for window in windows
                      for line in range(window.first, window.last + 1)}
            name = answers[(lines, inputs[handle], True)] if lines is not None and handle in inputs else None
            texts.append(f"{{{handle}, {card}, {numbers[name[0]] if name else 0}, {name[1] if name else 0}}}")
    return texts


def state_text(trial: Trial, name: str, answers: Answers, is_short: bool = False) -> tuple[str, str]:
    """A state as constants in C, and its initializer."""
    probes, messages, pages = (array(kind, f"{name}_{what}", items) for kind, what, items in (
        ("struct probe", "probes", probe_texts(trial, answers, is_short)),
        ("struct message", "messages", message_texts(trial, answers)),
        ("struct pages", "pages", pages_texts(trial, answers))))
    return probes[0] + messages[0] + pages[0], f"{{{probes[1]}, {messages[1]}, {pages[1]}, {probes[2]}, {messages[2]}}}"


def data_text(trial: Trial, images: list[bytes]) -> str:
    """The header with what the trial expects, and the images that it loads."""
    text = '/* Made by run of replies of the program. */\n#include "trial.h"\n\n'
    text += array("struct card", "cards", [f'{{"{name}", {device}, {function}}}'
                                           for name, device, function in trial.cards])[0]
    steps = []
    for number, answers in enumerate(trial.answers):
        image = images[number - 1] if number else b""
        if number:
            rows = [", ".join(str(byte) for byte in image[at:at + 32]) for at in range(0, len(image), 32)]
            text += array("unsigned char", f"image_{number}", rows)[0]
        loaded, loaded_name = state_text(trial, f"loaded_{number}", answers)
        fence, fence_name = state_text(trial, f"fence_{number}",
                                       trial.at_fence(trial.answers[max(number - 1, 0)], answers), True)
        text += loaded + fence
        steps.append(f"{{{f'image_{number}' if number else 'NULL'}, {len(image)}, {fence_name}, {loaded_name}}}")
    return text + array("struct step", "steps", steps)[0]
