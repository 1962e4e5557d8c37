"""The tables of the agents of a description, and how those of one description become those of the next."""

from dataclasses import dataclass, field

from netconf_tools.export.formats import Command, Context, Format, Head, Options, want_number
from netconf_tools.export.memory import PAGE, WORD, Memory, Plan
from netconf_tools.export.reading import pages_of, walked
from netconf_tools.export.spans import Host, Reason, Span, live_grants, spans_of
from netconf_tools.export.streams import Master, masters_of
from netconf_tools.export.trees import Tree, reasons_against
from netconf_tools.layout import Layout
from netconf_tools.text import Trouble
from netconf_tools.views import Board, shown

MOST_REASONS = 20
"""How many refusals are listed."""


class Refused(Trouble):
    """What a format cannot say, in a line for each row."""

    def __init__(self, lines: list[str]) -> None:
        super().__init__(lines[0])
        self.lines = lines


@dataclass
class Member:
    """An agent with its tables: what they say, their root, and the number by which caches tell them apart."""
    master: Master
    spans: list[Span]
    root: int = 0
    domain: int = 0


@dataclass
class Unit:
    """A unit of hardware: the path of it in a device tree, or nothing; the words above its tables; and its agents."""
    hardware: str
    head: Head
    members: list[Member]


@dataclass
class Wanted:
    """What is asked for: a format with its options, where the tables will stand, and what each agent has to see."""
    form: Format
    options: Options
    base: int
    units: list[Unit]
    left: list[str] = field(default_factory=list)


@dataclass
class Change:
    """How tables that stand become others: the plan, and the commands at the fence after what is cleared and at the
    end."""
    plan: Plan
    after_clears: list[Command]
    after_makes: list[Command]
    why_after_makes: str = ""


@dataclass
class Choice:
    """What a user chooses: the agents (all if it is empty), the host, nodes that are registers of devices, bits (0 for
    as many as are needed), room for stream numbers, and options of the format."""
    host: str
    agents: list[str]
    devices: list[str]
    bits: int
    room: int
    pages_only: bool
    context_bytes: int


def wanted_of(board: Board, layout: Layout, form: Format, base: int, choice: Choice) -> Wanted:
    """Returns what tables a description, whose layout is given, asks for. Raises Refused with a line for each row that
    the format cannot say."""
    for agent in choice.agents:
        board.want_agent(agent)
    for node in choice.devices:
        if board.statement(node) is None:
            raise Trouble(f"{board.name}: there is no node {shown(node)}")
    masters, left = masters_of(layout, form, choice.agents)
    if not masters:
        raise Trouble("; ".join([f"{board.name}: no agent comes to a unit with pages", *left]))
    board.views([choice.host, *(master.agent for master in masters)])
    host = Host(board, choice.host, frozenset(choice.devices))
    options = options_of(form, choice, layout, masters)
    reasons: list[Reason] = []
    members = [Member(master, spans_of(board, master.agent, host, reasons)) for master in masters]
    for member in members:
        reasons += reasons_against(form, options, member.master.agent, member.spans)
    if reasons:
        raise Refused(refusals(board, list(dict.fromkeys(reasons))))
    return Wanted(form, options, base, units_of(form, options, choice.room, members), left)


def options_of(form: Format, choice: Choice, layout: Layout, masters: list[Master]) -> Options:
    """Returns the options with the width that is asked for, or with the least that has all windows of the agents. A
    width that is taken so does not depend on what is granted."""
    names = {master.agent for master in masters}
    last = max((window.last for agent in layout.agents if agent.name in names for window in agent.windows), default=0)
    fit = [bits for bits in form.widths if bits >= form.usual and last < form.limit(bits)]
    bits = choice.bits or (fit[0] if fit else form.widths[-1])
    if bits not in form.widths:
        raise Trouble(f"{form.name} has no tables of {bits} bits here; there are {', '.join(map(str, form.widths))}")
    return Options(bits, choice.pages_only, 1, choice.context_bytes)


def refusals(board: Board, reasons: list[Reason]) -> list[str]:
    """Returns the refusals as lines, each with the line of the grant that gave the addresses, if one did."""
    grants = live_grants(board)
    lines = []
    for reason in reasons[:MOST_REASONS]:
        grant = next((grant for grant in grants if grant.agent == reason.agent and grant.first <= reason.last
                      and reason.first <= grant.last), None)
        place = f"{board.name}:{grant.line}: {grant.id}: " if grant else f"{board.name}: "
        lines.append(f"{place}{reason.agent} {reason.first:#x}-{reason.last:#x}: {reason.why}")
    if len(reasons) > MOST_REASONS:
        lines.append(f"{board.name}: and {len(reasons) - MOST_REASONS} rows more")
    return lines


def units_of(form: Format, options: Options, room: int, members: list[Member]) -> list[Unit]:
    """Returns the units of hardware with their agents, in the order of the agents. Agents with a number in common have
    to see the same, and share their tables."""
    units: dict[str, Unit] = {}
    for member in members:
        hardware = member.master.hardware
        together = [other for other in members if other.master.hardware == hardware]
        most = max((number for other in together for number in other.master.numbers), default=0)
        want_number(form, most)
        size = 1 << (max(most, room - 1)).bit_length()
        chosen = Options(options.bits, options.pages_only, min(size, form.most_numbers), options.context_bytes)
        units.setdefault(hardware, Unit(hardware, form.head(chosen), [])).members.append(member)
        want_same(units[hardware].members)
    return list(units.values())


def want_same(members: list[Member]) -> None:
    """Raises Trouble if the last of some agents has a number of another one, and sees other addresses."""
    *others, last = members
    for other in others:
        both = set(other.master.numbers) & set(last.master.numbers)
        if both and other.spans != last.spans:
            raise Trouble(f"{other.master.agent} and {last.master.agent} both have the number {min(both):#x}, and see "
                          "different addresses: one set of tables serves both")


def place_heads(wanted: Wanted) -> Plan:
    """Returns a plan over memory that has the words above the tables where no stream has tables yet."""
    plan = Plan(Memory(wanted.base))
    for unit in wanted.units:
        unit.head.address = plan.allocate(unit.head.pages, unit.head.align)
    plan.memory.grow(plan.end)
    for unit in wanted.units:
        unit.head.start(plan.memory)
    plan.taken.clear()
    return plan


def made_tables(wanted: Wanted) -> Plan:
    """Returns a plan that makes all tables anew. Its memory has them once it is carried out."""
    plan = place_heads(wanted)
    for unit in wanted.units:
        roots: dict[int, Member] = {}
        for number, member in enumerate(unit.members):
            same = next((roots[stream] for stream in member.master.numbers if stream in roots), None)
            member.domain = same.domain if same else number + 1
            member.root = same.root if same else Tree(plan, wanted.form, wanted.options, member.spans).make()
            for stream in member.master.numbers:
                roots[stream] = member
                unit.head.write(plan, stream, member.root, member.domain)
    return plan


class Standing:
    """Tables of a unit of hardware that stand: the contexts of its streams, and the pages that hold them."""

    def __init__(self, memory: Memory, unit: Unit, options: Options) -> None:
        head = unit.head
        self.contexts: dict[int, Context] = {number: head.context(memory, number) for number in head.numbers(memory)}
        self.pages = set(range(head.address, head.address + head.pages * PAGE, PAGE)) | set(head.used(memory))
        known: dict[int, int] = {}
        for number, context in self.contexts.items():
            if context.root is None or context.bits != options.bits:
                raise Trouble(f"number {number:#x} has no tables of {options.bits} bits in them")
            if context.root not in known:
                pages = pages_of(walked(memory, head.form, context), context)
                if pages & self.pages:
                    raise Trouble(f"the page {min(pages & self.pages):#x} is of two tables, or the words above the "
                                  "tables had another size")
                self.pages |= pages
            known[context.root] = number


def want_same_size(wanted: Wanted, memory: Memory, end: int, used: set[int]) -> None:
    """Raises Trouble if the words above tables that stand went on past ``end``. The first tables that were made stand
    right after these words, at a multiple of their size, with nothing between."""
    align = wanted.form.root_pages(wanted.options.bits) * PAGE
    first = -(-end // align) * align
    between = [page for page in range(end, min(first, memory.end), PAGE) if page not in used]
    if first not in used or any(any(memory.block(page, PAGE // WORD)) for page in between):
        raise Trouble("the words above the tables had another size, or the first tables in them are no more: load the "
                      "tables anew, or have room for all numbers by --room")


class Changer:
    """Plans how the tables of one unit of hardware become others, and keeps what has to be forgotten."""

    def __init__(self, plan: Plan, unit: Unit, standing: Standing, wanted: Wanted) -> None:
        self.plan, self.unit, self.standing, self.wanted = plan, unit, standing, wanted
        self.streams: list[int] = []
        self.cleared: set[int] = set()
        self.made: set[int] = set()
        self._roots: dict[int, Member] = {}
        self._claimed: set[int] = set()
        self._taken = {context.domain for context in standing.contexts.values()}

    def change(self) -> None:
        """Plans the tables of all agents, and that streams that are no more have none."""
        for member in self.unit.members:
            self._member(member)
        for stream, context in self.standing.contexts.items():
            if stream not in self._roots:
                self.unit.head.remove(self.plan, stream)
                self.streams.append(stream)
                self.cleared.add(context.domain)

    def _member(self, member: Member) -> None:
        """Plans the tables of one agent: those of its first stream that stand, or new ones."""
        numbers = member.master.numbers
        if not numbers:
            raise Trouble(f"{member.master.agent} has no number, so that its tables are not found again: "
                          f"{member.master.why_none}")
        same = next((self._roots[stream] for stream in numbers if stream in self._roots), None)
        if same:
            member.root, member.domain = same.root, same.domain
        else:
            self._tables(member)
        for stream in numbers:
            self._roots[stream] = member
            old = self.standing.contexts.get(stream)
            if self.unit.head.write(self.plan, stream, member.root, member.domain):
                self.streams.append(stream)
                self.cleared |= {old.domain} if old else set()
                self.made.add(member.domain)

    def _tables(self, member: Member) -> None:
        """Plans the tables of an agent and says where their root is."""
        tree = Tree(self.plan, self.wanted.form, self.wanted.options, member.spans)
        contexts = [self.standing.contexts[stream] for stream in member.master.numbers
                    if stream in self.standing.contexts]
        context = next((context for context in contexts if context.root not in self._claimed), None)
        if context is None or context.root is None:
            member.root, member.domain = tree.make(), self._free_domain()
            return
        member.root, member.domain = context.root, context.domain
        self._claimed.add(context.root)
        before = len(self.plan.clears), len(self.plan.makes)
        tree.change(context.root)
        if len(self.plan.clears) > before[0]:
            self.cleared.add(context.domain)
        if len(self.plan.makes) > before[1]:
            self.made.add(context.domain)

    def _free_domain(self) -> int:
        """Returns the least number that no tables have had."""
        domain = next(number for number in range(1, 1 << 16) if number not in self._taken)
        self._taken.add(domain)
        return domain


def changed_tables(wanted: Wanted, data: bytes) -> Change:
    """Returns how tables that stand at the same address become those that are wanted. Raises Trouble if they are none
    that this tool made with the same options, or lead to one table from two places."""
    base = place_heads(wanted)
    memory = Memory(wanted.base, data)
    if memory.end < base.memory.end or len(data) % PAGE:
        raise Trouble(f"they have {len(data):,} bytes, and the words above the tables alone have "
                      f"{base.memory.end - wanted.base:,}")
    standing = [Standing(memory, unit, wanted.options) for unit in wanted.units]
    used = set().union(*(tables.pages for tables in standing))
    if sum(len(tables.pages) for tables in standing) != len(used):
        raise Trouble("two units of hardware have a table in common")
    want_same_size(wanted, memory, base.memory.end, used)
    plan = Plan(memory, free=[page for page in range(memory.end - PAGE, wanted.base - PAGE, -PAGE) if page not in used])
    changers = [Changer(plan, unit, tables, wanted) for unit, tables in zip(wanted.units, standing)]
    for changer in changers:
        changer.change()
    return Change(plan, *forgotten(wanted, changers))


def forgotten(wanted: Wanted, changers: list[Changer]) -> tuple[list[Command], list[Command], str]:
    """Returns the commands after what is cleared, those after all is written, and when the latter are needed."""
    first: list[Command] = []
    second: list[Command] = []
    why = f"{wanted.form.keeps_empty}, or an entry above the tables is new" if wanted.form.keeps_empty else ""
    for changer in changers:
        head, plan = changer.unit.head, changer.plan
        if plan.clears and (changer.cleared or changer.streams):
            first += head.forget(changer.streams, sorted(changer.cleared), True)
        made = sorted(changer.made) if wanted.form.keeps_empty else []
        if plan.makes and (changer.streams or made):
            second += head.forget(changer.streams, made, True)
    return first, second, why or "an entry of the stream table may be kept that did not count"
