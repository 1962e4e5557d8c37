"""A history of grants, gathers, routes and revokes for a session of the library on a machine, with what the program
answers to each call and what its `resolve` says after it, as data for the trial."""

import pathlib
import random
from dataclasses import dataclass, field
from typing import NamedTuple

from machine.trial import (PAGE, Answers, Probe, Question, Trial, array, message_texts, number_text, pages_at,
                           pages_texts, probe_texts)
from netconf_tools.layout import Viewer
from netconf_tools.source import commands_of, declarations_of
from netconf_tools.text import Trouble, run

HERE = pathlib.Path(__file__).resolve().parent
STEPS, REOPENED = 64, 32
"""How many steps a history has, and in which of them the session is closed and opened anew."""

FLIGHTS, MOST_ALLOWED = 5, 4
"""How many addresses of each card are tried between two events, and to how many places one may lead then."""

REASONS = ("IdUsed", "NoAgent", "NoTarget", "NotAccepted", "BookFull", "NoPlacement", "NoGrant")
STATUSES = {reason: status for status, reason in enumerate(REASONS, 16)}
RIGHTS = {"for read": 1, "for write": 2, "": 3}
NO_GRANT = 999
"""An id that no grant has."""


@dataclass
class Call:
    """A grant, a gather of pieces, a route of the line `base`, or the revoke of an id; and what the program answers to
    it: a status, and an address or a vector where it is done. A grant with `is_at` is asked of the library at that
    address."""
    number: int
    agent: str = ""
    node: str = ""
    base: int = 0
    size: int = 0
    rights: str = ""
    is_at: bool = False
    pieces: list["Call"] = field(default_factory=list)
    status: int = 0
    address: int = 0

    def command(self) -> str:
        """The command of the program."""
        if not self.agent:
            return f"revoke g{self.number};"
        if self.pieces:
            texts = (f"g{piece.number} {piece.node} {piece.base:#x} {piece.size:#x}" for piece in self.pieces)
            return f"gather {self.agent} {' and '.join(texts)} {self.rights};"
        if not self.size:
            return f"route g{self.number} {self.agent} {self.base} {self.node};"
        return f"grant g{self.number} {self.agent} {self.node} {self.base:#x} {self.size:#x} {self.rights};"

    def take(self, reply: str) -> None:
        """Keeps what the program answers."""
        words = reply.split()
        if words[1] in ("at", "vector"):
            self.address = int(words[2], 0)
        elif words[1] == "refused:":
            self.status = STATUSES[words[2]]

    def kind(self) -> str:
        """The sort of the call, as session.h has it."""
        if not self.agent:
            return "CALL_REVOKE"
        if self.pieces:
            return "CALL_GATHER"
        return "CALL_ROUTE" if not self.size else "CALL_GRANT_AT" if self.is_at else "CALL_GRANT"

    def initializer(self, numbers: dict[str, int], pieces: str) -> str:
        """The call as a constant in C, where its pieces stand in this array."""
        parts = [*map(number_text, (self.base, self.size, self.address)), pieces if self.pieces else "NULL",
                 len(self.pieces), self.number, self.status, self.kind(), numbers.get(self.agent, 0),
                 numbers.get(self.node, 0), RIGHTS[self.rights] if self.agent else 0]
        return f"{{{', '.join(map(str, parts))}}}"

    def piece(self, numbers: dict[str, int]) -> str:
        """The call as a piece of a gather."""
        return f"{{{self.number}, {numbers[self.node]}, 0, {number_text(self.base)}, {number_text(self.size)}}}"


@dataclass
class Step:
    """Calls whose events are performed together; whether the description is opened before them; and what each question
    is answered before them and after each."""
    calls: list[Call]
    opens: bool = False
    answers: list[Answers] = field(default_factory=list)


class SessionTrial(Trial):
    """A description with a history, and what is expected of the cards after each of its steps."""

    def __init__(self, text: bytes, seed: int = 60) -> None:
        self.steps: list[Step] = []
        self.seed = seed
        super().__init__(text)

    def all_probes(self) -> list[Probe]:
        """Each access that is tried: the first word of each page of a card's windows, and of some below and above."""
        places = {place.address & -PAGE for place in self.processor.places}
        return [Probe(number, page, is_write) for number in self.agents for is_write in (False, True)
                for page in self.pages_of(number) if page not in places]

    def page_of(self, viewer: Viewer) -> int:
        """How many addresses a slot of the last unit on the way of a card has."""
        unit = self.layout.units[viewer.windows[0].unit]
        inner = next((port for port in unit.ports if port.windows), None)
        return self.page_of(inner) if inner else 1 << unit.page

    def first_calls(self) -> list[Call]:
        """The grants before the first dump of the description that are for one access: each card gets a page that it
        may only read and one that it may only write. They stay."""
        calls: list[Call] = []
        for command in commands_of(self.text, ("grant", "dump")):
            words = str(command).rstrip(";").split()
            if command.word == "dump":
                break
            if words[-2:-1] == ["for"]:
                calls.append(Call(len(calls) + 1, words[2], words[3], int(words[4], 0), int(words[5], 0),
                                  " ".join(words[-2:])))
        return calls

    def make_steps(self) -> None:
        """Makes the history: a grant, a gather or a route, a revoke, or a revoke and another to the same card, whose
        events are performed together; now and then one that is refused."""
        chance, live, count = random.Random(self.seed), list[Call](), 100
        for number in range(STEPS):
            if number in (0, REOPENED):
                live.clear()
                self.steps.append(Step(self.first_calls(), True))
                continue
            calls, agent = list[Call](), chance.choice([*self.agents, *self.lines.values()])
            what = chance.choice(("change", "change", "revoke", "replace")) if live else "change"
            if what != "change":
                gone = live.pop(chance.randrange(len(live))) if chance.random() < 0.9 else Call(NO_GRANT)
                calls.append(Call(gone.number))
                agent = next((n for n in self.functions if self.layout.agents[n].name == gone.agent), agent)
            if what != "revoke":
                change = self.route if agent in self.lines.values() else self.grant
                made = [change(chance, count + place, self.layout.agents[agent]) for place in range(1, 5)]
                made = made[:chance.choice((1, 1, 2, 3)) if agent in self.agents else 1]
                calls.append(Call(0, made[0].agent, rights=made[0].rights, pieces=made) if made[1:] else made[0])
                count += len(made)
                live += made
            self.steps.append(Step(calls))

    def grant(self, chance: random.Random, number: int, agent: Viewer) -> Call:
        """A grant to a card of some pages of a memory, or, in one of ten, of half a page."""
        page, memory = self.page_of(agent), chance.choice(self.processor.places)
        size = page * chance.choice((1, 1, 2, 3)) if chance.random() < 0.9 else PAGE // 2
        base = page * chance.randrange((memory.last + 1 - size) // page + 1)
        return Call(number, agent.name, memory.name, base, size, chance.choice(("for read", "for write", "", "")),
                    chance.random() < 0.25)

    def route(self, chance: random.Random, number: int, agent: Viewer) -> Call:
        """A route of one of the lines of a card, or of the one past them, to a processor."""
        window = agent.windows[0]
        port = chance.choice(self.layout.units[window.unit].ports)
        return Call(number, agent.name, port.name, chance.randrange(window.first, window.last + 2))

    def ask(self) -> tuple[list[bytes], list[Answers]]:
        """Has the program answer the history: each call, and each question after it. No image is made."""
        self.make_steps()
        questions, names = self.questions(), [agent.name for agent in self.layout.agents]
        resolves = [f"resolve {names[agent]} {address:#x} for {'write' if is_write else 'read'};"
                    for agent, address, is_write in questions]
        # A session that is opened has no grants, so those of the one before are taken back.
        numbers = {made.number for step in self.steps for call in step.calls for made in (call, *call.pieces)}
        ends = [f"revoke g{number};" for number in sorted(numbers)]
        lines: list[str] = []
        for step in self.steps:
            lines += [*ends, *resolves] if step.opens else []
            for call in step.calls:
                lines += [call.command(), *resolves]
        text = declarations_of(self.text) + "begin;\n" + "\n".join(lines) + "\n"
        replies = run("run", text.encode("latin-1"))[1].splitlines()
        if len(replies) != len(lines):
            raise Trouble(f"the program did not answer each command: {replies[-1:]}")
        at = 0
        last: Answers = dict.fromkeys(questions)
        for step in self.steps:
            step.answers.append(last)
            begins: list[Call | None] = [None] if step.opens else []
            for made in (*begins, *step.calls):
                at += len(ends) if made is None else 1
                if made is not None:
                    made.take(replies[at - 1])
                last = dict(zip(questions, map(self.answered, replies[at:at + len(questions)])))
                step.answers.append(last)
                at += len(questions)
        return [], []


def flights_of(trial: SessionTrial, step: Step) -> list[str]:
    """For each card some addresses, as initializers: first those whose answers the step changes. An address leads to
    one of the places before and after each call. A place to which a card writes is no other card's, and what is read is
    on no page to which a card shows its buffer."""
    before, after = step.answers[0], step.answers[-1]
    pages = [[pages_at(trial, answers, number) for number in trial.agents] for answers in (before, after)]
    shown = {page[3] for at_once in pages for page in at_once}
    written: dict[int, int] = {}
    texts = []
    for card, number in enumerate(trial.agents):
        if None in pages[0][card] or None in pages[1][card]:
            continue
        probes = [probe for probe in trial.probes if probe.agent == number]
        probes.sort(key=lambda probe: not is_changed(step, (number, probe.address, probe.is_write)))
        chosen = 0
        for probe in probes:
            names = [answers[(number, probe.address, probe.is_write)] for answers in step.answers]
            places = list(dict.fromkeys(trial.memory_of(name) for name in names))
            there = [place for place in places if place is not None]
            if chosen == FLIGHTS or len(places) > MOST_ALLOWED or not there:
                continue
            if probe.is_write and any(written.get(place, card) != card for place in there):
                continue
            if not probe.is_write and any(place in shown for place in there):
                continue
            written.update({place: card for place in there} if probe.is_write else {})
            chosen += 1
            allowed = ", ".join(map(number_text, places))
            texts.append(f"{{{number_text(probe.address)}, {{{allowed}}}, {len(places)}, {card}, "
                         f"{int(probe.is_write)}}}")
    return texts


def is_changed(step: Step, question: Question) -> bool:
    """Whether the answers to a question are not the same before a step and after each of its calls."""
    return len({answers[question] for answers in step.answers}) > 1


def data_text(trial: SessionTrial) -> str:
    """The header with the description, the history and what is expected."""
    numbers = {agent.name: agent.node for agent in trial.layout.agents}
    numbers.update({place.name: place.node for place in trial.processor.places})
    numbers.update({port.name: port.node for unit in trial.layout.units for port in unit.ports})
    text = '/* Made by run of replies of the program. */\n#include "session.h"\n\n'
    text += array("struct card", "cards", [f'{{"{name}", {device}, {function}}}'
                                           for name, device, function in trial.cards])[0]
    declarations = declarations_of(trial.text).encode("latin-1")
    rows = [", ".join(str(byte) for byte in declarations[at:at + 32]) for at in range(0, len(declarations), 32)]
    text += array("uint8_t", "description", [*rows, "0"])[0]
    steps = []
    for number, step in enumerate(trial.steps):
        pieces = [piece.piece(numbers) for call in step.calls for piece in call.pieces]
        arrays = [array(kind, f"{what}_{number}", items) for kind, what, items in (
            ("struct netconf_piece", "pieces", pieces),
            ("struct call", "calls", [call.initializer(numbers, f"pieces_{number}") for call in step.calls]),
            ("struct flight", "flights", flights_of(trial, step)),
            ("struct pages", "before", pages_texts(trial, step.answers[0])),
            ("struct probe", "probes", probe_texts(trial, step.answers[-1], False)),
            ("struct message", "messages", message_texts(trial, step.answers[-1])),
            ("struct pages", "pages", pages_texts(trial, step.answers[-1])))]
        text += "".join(made[0] for made in arrays)
        _, calls, flights, before, probes, messages, pages = arrays
        after = f"{probes[1]}, {messages[1]}, {pages[1]}, {probes[2]}, {messages[2]}"
        steps.append(f"{{{calls[1]}, {flights[1]}, {before[1]}, {calls[2]}, {flights[2]}, {{{after}}}, "
                     f"{int(step.opens)}}}")
    return text + array("struct session_step", "steps", steps)[0]


class Plant(NamedTuple):
    """A fault in a few words, and what makes it: a source, a text that stands there once, and what takes its place."""
    what: str
    source: str
    before: str
    after: str


PLANTS = {
    "events": Plant("the events of a step are performed from the last to the first", "session.c",
                    "perform_in_flight(&events[n])", "perform_in_flight(&events[now->opens ? n : count - 1 - n])"),
    "clear": Plant("one word of three that is set to 0 is left as it was", "events.c",
                   "    return set(unit, word, value);\n",
                   "    static unsigned cleared;\n    if (value == 0 && ++cleared % 3 == 0) return 0;\n"
                   "    return set(unit, word, value);\n"),
    "rights": Plant("what may be written may be read as well", "vtd.c",
                    "(page->may_read ? READABLE : 0)", "READABLE"),
    "record": Plant("a record of interrupts that is cleared counts still", "vtd.c",
                    "        write_half(handle, 0, 0);\n", ""),
    "handle": Plant("calls go on with a session that was closed", "session.c", "    session = next;\n",
                    "    if (step == 0) session = next;\n"),
    "invalidation": Plant("nothing is invalidated at a fence", "events.c",
                          "int events_fence(void) { return vtd_forget(); }", "int events_fence(void) { return 0; }"),
}
"""Faults of the driver, and of how it calls the library, by their names."""


def source_text(name: str, plant: str | None) -> str:
    """The text of a source of the trial, with a planted fault or with none."""
    text = (HERE / name).read_text()
    if plant is None or PLANTS[plant].source != name:
        return text
    if text.count(PLANTS[plant].before) != 1:
        raise Trouble(f"{name} has the text that the fault {plant} changes {text.count(PLANTS[plant].before)} times")
    return text.replace(PLANTS[plant].before, PLANTS[plant].after)
