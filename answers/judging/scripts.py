"""Commands over a net, made by dice, and the text of a net with commands as a user might spell it."""

import itertools
from collections.abc import Iterable, Sequence
from typing import Any

from judging import books, gathers, nets, placements, replies, units
from judging.dice import Dice

IDS = ["g0", "g1", "g2", "g3", "g4", "g5"]
MANY_IDS = [f"b{number}" for number in range(12)]
TRIED = "tried"
TRIES = 4
MOST_SCATTERS = 400
"""How many scattered placements are tried at most, so that trying them all takes no minutes."""
NO_NODE = "nowhere"


class Script:
    """Commands over a legal net with the replies that are due, made one after the other."""

    def __init__(self, dice: Dice, net: nets.Net, ids: Sequence[str] = tuple(IDS)) -> None:
        self.dice, self.net, self.book, self.ids = dice, net, books.Book(net), ids
        self.commands: list[tuple[Any, ...]] = []
        self.due: list[str] = []
        self.all = [node.name for node in net.nodes]
        self.agents = [net.nodes[number].name for number in net.agents()]
        self.memories = [number for number, node in enumerate(net.nodes) if node.accepts and node.role != "vectors"]
        self.cores = [node.name for node in net.nodes if node.role == "vectors"]
        self.pages = [1] + [1 << node.unit.page for node in net.nodes if node.unit]

    def ask(self, *command: Any) -> None:
        """Adds a command, and the reply that is due."""
        self.commands.append(command)
        self.due.append(replies.reply(self.book, command))

    def mostly(self, names: list[str], odd: int = 20) -> str:
        """One of the names; once in a while any node, or a name of none."""
        return self.dice.one_of(names) if names and self.dice.roll(odd) else self.dice.one_of(self.all + [NO_NODE])

    def access(self) -> str | None:
        """No access, or one."""
        return self.dice.one_of([None, None, units.READ, units.WRITE])

    def addr(self) -> int:
        """An address: one past the edge of the net, or past the last of all, once in a while."""
        if self.dice.once_in(30):
            return self.dice.one_of([nets.TOP, nets.TOP + 1, self.net.edge, (1 << 64) - 1])
        return self.dice.roll(min(self.net.edge, 24))

    def new_id(self) -> str:
        """An id: mostly one that is not live."""
        free = [id for id in self.ids if not self.book.live(id)]
        return self.dice.one_of(free if free and self.dice.roll(12) else self.ids)

    def live_id(self) -> Any:
        """An id: mostly one that is live."""
        return self.dice.one_of([grant.id for grant in self.book.grants] if self.book.grants and self.dice.roll(8)
                                else self.ids)

    def shown_at(self, stop: nets.Name) -> Any:
        """A name that some record could show at a stop, mostly the first of its page; or the first of any memory."""
        ends = sorted(nets.resolved(self.net, self.led(self.book.slots(), stop)))
        return ends[0] if ends else (self.dice.one_of(self.memories or [0]), 0)

    def sight(self) -> tuple[int, nets.Name, int] | None:
        """A buffer's first name that an agent could be shown by some records, with the agent and a size; or None."""
        names, slots, page = placements.asked_names(self.net), self.book.slots(), 1
        if not names:
            return None
        agent, _ = name = self.dice.one_of(names)
        for _ in range(3):
            stops = sorted(nets.stops(self.net, name))
            if not stops:
                break
            page = max(page, 1 << self.net.nodes[stops[0][0]].unit.page)
            name = self.led(slots, stops[0])
        ends = sorted(nets.resolved(self.net, name))
        if not ends:
            return None
        return agent, ends[0], self.dice.one_of([1, page, page, 2 * page, 2])

    def led(self, slots: placements.Slots, stop: nets.Name) -> Any:
        """Where a record could send a name in a unit: mostly the one that its slot holds, where it may be shared."""
        unit, place = self.net.nodes[stop[0]].unit, units.slot_of(self.net, stop)
        if place in slots.held and not slots.has_owner(place) and self.dice.roll(6):
            return units.sent(self.net, slots.held, units.READ, stop)
        page = self.dice.roll(1 << unit.reach - unit.page)
        return self.dice.one_of(unit.ports), (page << unit.page) + stop[1] % (1 << unit.page)

    def beside(self) -> tuple[str, str, int, int]:
        """An agent, and a buffer beside one that is granted or that one itself, which may share slots with it."""
        request = self.dice.one_of(self.book.grants).request
        base = request.base + self.dice.one_of([request.size, -request.size, 0])
        agent = self.net.nodes[request.agent].name if self.dice.roll(3) else self.dice.one_of(self.agents)
        return agent, self.net.nodes[request.node].name, max(base, 0), request.size

    def buffer(self) -> Any:
        """An agent, a node, a base and a size: beside a grant, or what some records could show, or whole pages, or
        anything."""
        if self.book.grants and self.dice.once_in(3):
            return self.beside()
        found = self.sight() if self.dice.roll(3) else None
        if found is not None:
            seer, (target, base), size = found
            return self.net.nodes[seer].name, self.net.nodes[target].name, base // size * size, size
        page = self.dice.one_of(self.pages)
        agent = self.mostly(self.agents)
        if self.memories and self.dice.roll(4):
            node = self.dice.one_of(self.memories)
            lo, hi = self.dice.one_of(self.net.nodes[node].accepts)
            base = (lo + self.dice.roll(hi - lo + 1)) // page * page
            return agent, self.net.nodes[node].name, base, self.dice.between(1, 2) * page
        return agent, self.mostly(self.all), self.addr(), self.dice.roll(6)

    def line(self) -> tuple[str, int]:
        """An agent and a line of it: mostly one that reaches a unit."""
        names = placements.asked_names(self.net)
        if names and self.dice.roll(5):
            agent, addr = self.dice.one_of(names)
            return self.net.nodes[agent].name, addr
        return self.mostly(self.agents), self.addr()

    def wrong(self) -> None:
        """Adds a grant or a route of which each part may be wrong, so that one refusal comes before another."""
        pick = self.dice.one_of
        id = pick([self.new_id(), self.live_id()])
        agent, node = pick([self.mostly(self.agents), NO_NODE, pick(self.all)]), pick([pick(self.all), NO_NODE])
        if self.dice.once_in(3):
            self.ask("route", id, agent, self.addr(), node)
        else:
            self.ask("grant", id, agent, node, self.addr(), self.dice.roll(4), self.access())

    def change(self) -> None:
        """Adds a command that may change the tables."""
        if self.dice.once_in(12):
            self.wrong()
            return
        if self.dice.once_in(4 if self.book.grants else 16):
            self.ask("revoke", self.live_id())
        elif self.cores and self.dice.roll(8):
            self.ask("route", self.new_id(), *self.line(), self.mostly(self.cores))
        else:
            self.ask("grant", self.new_id(), *self.buffer(), self.access())

    def question(self) -> None:
        """Adds a command that changes nothing."""
        word = self.dice.one_of(["resolve", "lookup", "view", "dump"])
        if word == "dump":
            self.ask(word)
        elif word == "view":
            self.ask(word, self.mostly(self.agents), self.access())
        else:
            self.ask(word, self.mostly(self.agents if word == "lookup" else self.all), self.addr(), self.access())

    def views(self) -> None:
        """Adds the views of all agents for both accesses."""
        for agent in self.agents:
            for access in units.ACCESSES:
                self.ask("view", agent, access)

    def addresses(self) -> None:
        """Adds what each address of each agent comes to for each access, from the nets and from the bytes of the
        tables."""
        for agent in self.agents:
            for addr in range(min(self.net.edge, 20)):
                for access in units.ACCESSES:
                    self.ask("resolve", agent, addr, access)
                    self.ask("lookup", agent, addr, access)

    def mixed(self) -> None:
        """Adds changes with a question here and there, the tables behind most changes, and at the end what all agents
        see."""
        for _ in range(self.dice.between(6, 14)):
            self.change()
            if self.dice.roll(4):
                self.ask("dump")
            else:
                self.question()
        self.views()
        if self.dice.once_in(4):
            self.addresses()

    def part(self) -> Any:
        """An agent, and a buffer of which some records could show it the first address: it begins and ends anywhere in
        a page, mostly within what its node accepts."""
        found = self.sight()
        if found is None:
            return self.buffer()
        agent, (node, base), _ = found
        page = self.dice.one_of(self.pages)
        size = self.dice.one_of([1, 1, page, page, max(page // 2, 1), page + 1, 2 * page])
        begin = base // page * page if self.dice.once_in(2) else base
        room = next((by for by in range(size) if not nets.is_accepted(self.net, (node, begin + by))), size)
        size = room if room and self.dice.roll(8) else size
        return self.net.nodes[agent].name, self.net.nodes[node].name, begin, size

    def fitting(self) -> tuple[Any, ...]:
        """An id, a buffer, and an access or none: the first of a few that is granted, or the last of them."""
        id, slots = self.new_id(), self.book.slots()
        for _ in range(TRIES):
            agent, node, base, size = part = self.part()
            access, numbers = self.access(), (self.net.number(agent), self.net.number(node))
            if books.grant_refusal(self.book, id, *numbers, base, size) is None:
                request = placements.Request(*numbers, base, size, books.rights_of(access))
                if placements.first(self.net, slots, request):
                    break
        return id, *part, access

    def given_again(self) -> Any:
        """Adds the revoke of a live grant, and asks for what it gave by another id, and maybe for a half of it."""
        grant = self.dice.one_of(self.book.grants)
        agent, node, base, size, rights = grant.request
        names = self.net.nodes[agent].name, self.net.nodes[node].name
        self.ask("revoke", grant.id)
        if books.has_vectors(self.net, node):
            self.ask("route", self.new_id(), names[0], grant.placement.v, self.dice.one_of([names[1], *self.cores]))
            return
        if size > 1 and self.dice.once_in(2):
            self.ask("grant", self.new_id(), *names, base + self.dice.roll(2) * (size // 2), size // 2, self.access())
        said = None if rights == units.BOTH else min(rights)
        self.ask("grant", self.new_id(), *names, base, size, said if self.dice.roll(3) else self.access())

    def is_refused(self) -> bool:
        """The last two changes that were asked for are refused."""
        replies = [due for command, due in zip(self.commands, self.due) if command[0] in ("gather", "grant", "route")]
        return len(replies) > 1 and all(" refused: " in due for due in replies[-2:])

    def crowded(self) -> Any:
        """Adds buffers and parts of buffers until units are full, with some that are taken back and asked for anew, the
        tables behind each of these, and at the end what all agents see."""
        for _ in range(self.dice.between(8, 16)):
            if self.book.grants and self.dice.once_in(2 if self.is_refused() else 8):
                self.given_again()
            elif self.cores and self.dice.roll(12):
                self.ask("route", self.new_id(), *self.line(), self.mostly(self.cores))
            elif self.dice.once_in(4):
                self.ask("grant", self.new_id(), *self.part(), self.access())
            else:
                self.ask("grant", *self.fitting())
            self.ask("dump")
            if self.dice.once_in(6):
                self.question()
        self.views()
        if self.dice.once_in(4):
            self.addresses()

    def piece_at(self, agent: int, at: int) -> placements.Request | None:
        """A buffer that a record could show an agent from an address on, mostly by whole slots; or None where no unit
        is reached."""
        stops = sorted(nets.stops(self.net, (agent, at)))
        if not stops:
            return None
        page, (node, base) = 1 << self.net.nodes[stops[0][0]].unit.page, self.shown_at(stops[0])
        size = self.dice.one_of([page, page, page, 2 * page, page - stops[0][1] % page, 1])
        room = next((by for by in range(size) if not nets.is_accepted(self.net, (node, base + by))), size)
        return placements.Request(agent, node, base, room if room and self.dice.roll(30) else size, units.BOTH)

    def run_of(self, count: int) -> tuple[str, list[tuple[str, int, int]]] | None:
        """An agent and so many buffers that records of one unit could show it one after the other; or None."""
        names, slots, found = placements.asked_names(self.net), self.book.slots(), []
        free = [name for name in names if any(slots.is_free(units.slot_of(self.net, stop))
                                              for stop in nets.stops(self.net, name))]
        if not names:
            return None
        agent, at = self.dice.one_of(free if free and self.dice.roll(12) else names)
        for _ in range(count):
            tried: list[Any] = [self.piece_at(agent, at) for _ in range(TRIES)]
            if None in tried:
                break
            request = next((each for each in tried if gathers.stands(self.net, slots, each, at)), tried[0])
            half = request.size // 2 if self.dice.once_in(6) else 0
            found += [(self.net.nodes[request.node].name, request.base, half)] * bool(half)
            found.append((self.net.nodes[request.node].name, request.base + half, request.size - half))
            at += request.size
        return (self.net.nodes[agent].name, found) if found else None

    def pieces(self) -> Any:
        """An agent, one to four pieces and an access or none: mostly the first of a few lists that is granted, and one
        of which not too many scattered placements are to be tried."""
        made: tuple[Any, ...] = ()
        for last in (*[False] * TRIES, True):
            run = self.run_of(self.dice.one_of([1, 2, 2, 2, 3, 3, 4]))
            agent, parts = run or (self.mostly(self.agents), [(self.mostly(self.all), self.addr(), self.dice.roll(4))])
            free = self.dice.mixed([id for id in self.ids if not self.book.live(id)])
            ids = [free[place] if place < len(free) and self.dice.roll(20) else self.dice.one_of(self.ids)
                   for place in range(len(parts))]
            made, access = tuple((id, *part) for id, part in zip(ids, parts)), self.access()
            number = self.net.number(agent)
            if gathers.refusal(self.book, number, made):
                if last or self.dice.once_in(8):
                    break
                continue
            requests = gathers.requests_of(self.net, number, made, books.rights_of(access))
            every = gathers.scatters(self.net, self.book.slots(), requests)
            count = sum(1 for _ in itertools.islice(every, MOST_SCATTERS + 1))
            if 0 < count <= MOST_SCATTERS or count == 0 and (last or self.dice.once_in(4)):
                break
        return agent, made, access

    def wrong_pieces(self) -> None:
        """Adds pieces of which each part may be wrong, so that one refusal comes before another."""
        pick = self.dice.one_of
        agent = pick([self.mostly(self.agents), self.mostly(self.agents), NO_NODE, pick(self.all)])
        nodes = [pick([pick(self.all), pick(self.all), self.mostly(self.all), NO_NODE])
                 for _ in range(self.dice.between(1, 3))]
        made = [(pick([self.new_id(), self.live_id()]), node, self.addr(), self.dice.roll(4)) for node in nodes]
        if not gathers.refusal(self.book, self.net.number(agent), made):
            made[0] = (made[0][0], NO_NODE, *made[0][2:])
        self.ask("gather", agent, tuple(made), self.access())

    def scattered(self) -> None:
        """Adds buffers in pieces and buffers in one, some of which are taken back, the tables behind each of these, and
        at the end what all agents see."""
        for _ in range(self.dice.between(6, 12)):
            if self.dice.once_in(8):
                self.wrong_pieces()
            elif self.book.grants and self.dice.once_in(2 if self.is_refused() else 4):
                self.ask("revoke", self.live_id())
            elif self.dice.once_in(6):
                self.ask("grant", *self.fitting())
            else:
                self.ask("gather", *self.pieces())
            self.ask("dump")
        self.views()
        if self.dice.once_in(4):
            self.addresses()

    def tried(self, word: str, *request: str | int | None) -> str | None:
        """Adds a grant or a route, the tables that it leaves, and its revoke. Returns the reply, or None where it is
        refused."""
        self.ask(word, TRIED, *request)
        reply = self.due[-1]
        self.ask("dump")
        self.ask("revoke", TRIED)
        return None if reply.startswith(f"{TRIED} refused") else reply


def number_text(dice: Dice, number: int) -> str:
    """A number as it may be spelled."""
    return dice.one_of([f"{number:#x}", f"{number:#x}", str(number), f"0x{number:X}", f"0{number}",
                        f"({number + 3}-3)"]) \
        if number < 1 << 63 else f"{number:#x}"


def spelled_block(dice: Dice, lo: int, hi: int) -> str:
    """A block: one expression where it has one address, once in a while."""
    if lo == hi and dice.once_in(2):
        return number_text(dice, lo)
    return f"{number_text(dice, lo)}-{number_text(dice, hi)}"


def spelled_dest(dice: Dice, net: nets.Net, lo: int, dest: nets.Name) -> str:
    """A destination: without `at` where it keeps the address of the block, once in a while."""
    number, addr = dest
    name = net.nodes[number].name
    return name if addr == lo and dice.once_in(2) else f"{name} at {number_text(dice, addr)}"


def spelled_node(dice: Dice, net: nets.Net, node: nets.Node) -> str:
    """The statement of a node, as it may be spelled."""
    if node.unit:
        unit, ports = node.unit, ", ".join(net.nodes[port].name for port in node.unit.ports)
        numbers = [number_text(dice, number) for number in (unit.page, unit.slots, unit.reach)]
        return "unit {} kind {} page {} slots {} reach {} to {};".format(node.name, unit.kind, *numbers, ports)
    parts = [{"plain": "", "agent": "agent ", "vectors": "vectors "}[node.role] + node.name + " is"]
    if node.accepts:
        parts.append("accept [" + ", ".join(spelled_block(dice, lo, hi) for lo, hi in node.accepts) + "]")
    if node.entries:
        entries = [spelled_block(dice, lo, hi) + " to " + " and ".join(spelled_dest(dice, net, lo, dest)
                                                                       for dest in dests)
                   for lo, hi, dests in node.entries]
        parts.append("map [" + ", ".join(entries) + "]")
    if node.over is not None:
        parts.append(f"over {net.nodes[node.over].name}")
    return " ".join(parts) + ";" + (" // " + node.name if dice.once_in(8) else "")


def spelled_words(dice: Dice, words: Iterable[Any]) -> str:
    """Words and numbers, as they may be spelled."""
    return " ".join(number_text(dice, word) if isinstance(word, int) else word for word in words)


def spelled_command(dice: Dice, command: tuple[Any, ...]) -> str:
    """A command, as it may be spelled."""
    if command[0] == "gather":
        word, agent, pieces, access = command
        spelled = f"{word} {agent} " + " and ".join(spelled_words(dice, piece) for piece in pieces)
    else:
        *words, access = command if command[0] in ("resolve", "lookup", "view", "grant") else (*command, None)
        spelled = spelled_words(dice, words)
    return spelled + ("" if access is None else f" for {access}") + ";"


def text_of(dice: Dice, net: nets.Net, commands: list[tuple[Any, ...]]) -> str:
    """The text of a net with commands."""
    lines = [spelled_node(dice, net, node) for node in net.nodes] + ["begin;"] * bool(commands)
    return "\n".join(lines + [spelled_command(dice, command) for command in commands]) + "\n"
