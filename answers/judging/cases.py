"""The cases of the judge: texts with what is due, made from seeds."""

import functools
import typing
from collections.abc import Callable, Iterator
from typing import Any

from judging import books, drawn, narrow, nets, placements, replies, rules, scripts, shapes, units
from judging.dice import Dice

FIRST_SEED = 20170401
"""Where the seeds of each shape begin."""
SEEDS = {
    "one_unit": 450,
    "two_units": 450,
    "three_units": 350,
    "fan": 450,
    "registers": 400,
    "lines": 450,
    "bridges": 300,
    "ruined": 350,
    "ports": 240,
    "rows": 240,
    "aliases": 200,
    "full": 240,
    "remappers": 240,
    "lists": 60,
}
"""How many seeds each shape has."""
GATHERED = {"one_unit": 20, "two_units": 20, "three_units": 10, "fan": 20, "registers": 20, "bridges": 10, "ports": 20,
            "aliases": 20,
            "full": 20, "lists": 240}
"""How many seeds of a shape have buffers in pieces asked for over their nets."""
BEGINNINGS = 6
"""From how many beginnings each request of a fixed net is made: from no live grant, and from others."""
FULL_SEEDS = 40
"""How many seeds of each shape are tried for small nets, on which each addition is tried, of at most so many."""
MOST_ADDITIONS = 800
SHAPES = shapes.SHAPES + narrow.SHAPES
FIXED = shapes.FIXED + narrow.FIXED
REQUESTED = shapes.FIXED[:3] + narrow.FIXED
"""The fixed nets of which each request is tried."""
MOST_RECORDS = {narrow.eight_ports: 2}
"""How many records an addition over a fixed net has at most, where these are not three."""


class Case(typing.NamedTuple):
    """A text with what the program is to answer; or a statement that the judge finds false by itself."""

    name: str
    words: list[str]
    text: bytes
    due: tuple[int, bytes]
    net: Any = None
    commands: tuple[tuple[Any, ...], ...] = ()
    holds: bool = True


def case_of(name: str, thrown: Dice, script: scripts.Script) -> Case:
    """The case of a script, with the texts that are due."""
    text = scripts.text_of(thrown, script.net, script.commands)
    due = 0, "".join(line + "\n" for line in script.due).encode()
    return Case(name, ["run"], text.encode(), due, script.net, tuple(script.commands))


def drawn_out(name: str, thrown: Dice, case: Case, bits: int) -> Case:
    """The case of a script over a net whose addresses become stretches of two to so many bits."""
    drawing = drawn.Drawing(case.net, bits)
    text = scripts.text_of(thrown, drawing.drawn(), [drawing.command(command) for command in case.commands])
    return Case(name, ["run"], text.encode(), (0, drawing.output(case.due[1])))


def refused(name: Any, thrown: Any, net: Any, fault: Any) -> Any:
    """The cases of a net that breaks a rule: each command refuses it, whatever is asked of it."""
    text = scripts.text_of(thrown, net, [("dump",)]).encode()
    due = 4, f"refused: {fault}\n".encode()
    return [Case(f"{name} {word}", [word], text, due, net) for word in ("run", "check")]


def of_seed(shape: Callable[..., Any], seed: int) -> Any:
    """The cases of a net of a shape: commands over it; of one net in eight how it is printed; and of some, drawn
    out."""
    thrown = Dice(seed)
    name = f"{shape.__name__} {seed}"
    net = shape(thrown)
    fault = rules.fault(net)
    if fault is not None:
        return refused(name, thrown, net, fault)
    if shape in narrow.SHAPES:
        script = scripts.Script(thrown, net, scripts.MANY_IDS)
        script.crowded()
    else:
        script = scripts.Script(thrown, net)
        script.mixed()
    cases = [case_of(name, thrown, script)]
    if thrown.once_in(8):
        cases.append(Case(f"{name} check", ["check"], cases[0].text, (0, replies.net_text(net).encode())))
    bits = thrown.roll(drawn.most_bits(net) + 1)
    if bits and thrown.once_in(3):
        cases.append(drawn_out(f"{name} by {bits} bits", thrown, cases[0], bits))
    return cases


def mixed(few: int = 1, part: int = 0, parts: int = 1) -> Iterator[Case]:
    """Cases of every shape and of one seed of so many; or of one part of these, where there are several."""
    for shape in SHAPES:
        for seed in range(FIRST_SEED, FIRST_SEED + SEEDS[shape.__name__] // few)[part::parts]:
            yield from of_seed(shape, seed)


def of_pieces(shape: Callable[..., Any], seed: int) -> list[Case]:
    """The cases of buffers in pieces over a net of a shape, where it breaks no rule; and of some, drawn out."""
    thrown, script = begun(shape, seed, 0)
    if script is None:
        return []
    name, script = f"{shape.__name__} {seed}, in pieces", scripts.Script(thrown, script.net, scripts.MANY_IDS)
    script.scattered()
    found, bits = [case_of(name, thrown, script)], thrown.roll(drawn.most_bits(script.net) + 1)
    return found + ([drawn_out(f"{name}, by {bits} bits", thrown, found[0], bits)] if bits and thrown.once_in(3)
                    else [])


def gathered(few: int = 1, part: int = 0, parts: int = 1) -> Iterator[Case]:
    """The same of each shape that has some, and of one seed of so many; or of one part of these, where there are
    several."""
    for shape in (each for each in SHAPES if each.__name__ in GATHERED):
        for seed in range(FIRST_SEED, FIRST_SEED + max(GATHERED[shape.__name__] // few, 1))[part::parts]:
            yield from of_pieces(shape, seed)


def requests(net: nets.Net) -> list[tuple[str, str, int, int, str | None]]:
    """Requests of all agents for one to four addresses from each below 6 of the first two nodes on, with each of the
    rights."""
    return [(net.nodes[agent].name, node.name, base, size, access) for agent in net.agents() for node in net.nodes[:2]
            if node.accepts for base in range(6) for size in range(1, 5) for access in (units.READ, units.WRITE, None)]


def cut_down(thrown: Any, net: Any, most: Any) -> Any:
    """The net with fewer slots, outputs and ports, so that there are at most so many additions. Windows stay as they
    are."""
    while count_of_additions(net, books.Book(net).slots()) > most:
        unit = thrown.one_of([net.nodes[number].unit for number in net.units()])
        if unit.slots > 1 and thrown.roll(3):
            unit.slots -= 1
        elif unit.reach > unit.page + 1 and thrown.roll(3):
            unit.reach -= 1
        elif len(unit.ports) > 1:
            unit.ports.pop(thrown.roll(len(unit.ports)))
    return nets.Net(net.nodes)


def begun(shape: Callable[..., Any], seed: int, count: int, most: int | None = None) -> Any:
    """A script over a net of a shape in which so many changes were made, where it breaks no rule. Where it is to have
    at most so many additions, it is cut down."""
    thrown = Dice(seed)
    net = shape(thrown)
    if most and rules.fault(net) is None:
        net = cut_down(thrown, net, most)
    if rules.fault(net) is not None:
        return thrown, None
    script = scripts.Script(thrown, net)
    for _ in range(count):
        script.change()
    return thrown, script


def of_all_requests(few: int = 1) -> Iterator[Case]:
    """Each request of the fixed nets, over no live grant and over a few: what it is answered, and the tables with
    it."""
    for shape in REQUESTED:
        for seed in range(FIRST_SEED, FIRST_SEED + max(BEGINNINGS // few, 1)):
            thrown, script = begun(shape, seed, 0 if seed == FIRST_SEED else 8)
            for request in requests(script.net):
                script.tried("grant", *request)
            if shape is narrow.row_of_remappers:
                one_lines(script)
            yield case_of(f"{shape.__name__} {seed}, each request", thrown, script)


def of_all_nodes() -> Iterator[Case]:
    """What each node of a net without units sees, as rows, and what each of its addresses below 32 resolves to."""
    thrown, script = begun(shapes.neighbours, FIRST_SEED, 0)
    script.views()
    for node in script.net.nodes:
        for addr in range(32):
            script.ask("resolve", node.name, addr, None)
    yield case_of(f"neighbours {FIRST_SEED}, each node", thrown, script)


def one_addresses(script: scripts.Script, access: str | None) -> dict[tuple[int, nets.Name], bool]:
    """Each address below 8 that the net's memories accept for each agent: which of them is granted, as names."""
    net = script.net
    found = {}
    for agent in net.agents():
        for number, node in enumerate(net.nodes):
            for base in range(8):
                if node.role != "vectors" and any(lo <= base <= hi for lo, hi in node.accepts):
                    reply = script.tried("grant", net.nodes[agent].name, node.name, base, 1, access)
                    found[agent, (number, base)] = reply is not None
    return found


def one_lines(script: scripts.Script) -> Any:
    """Each line below 8 of each agent to each core: which vector is routed, or None."""
    net, found = script.net, {}
    for agent in net.agents():
        for number, node in enumerate(net.nodes):
            for line in range(8):
                if node.role == "vectors":
                    reply = script.tried("route", net.nodes[agent].name, line, node.name)
                    found[(agent, line), number] = reply and int(reply.split()[-1], 16)
    return found


def count_of_additions(net: Any, slots: Any) -> Any:
    """How many sets of records for both accesses the free slots can hold."""
    count = 1
    for _, records in placements.holdable(net, slots):
        count *= 1 + len(records)
    return count


def is_complete(script: scripts.Script, access: str | None, most: int) -> bool:
    """Exactly those addresses are granted, and the least free vectors routed, that some addition gives exactly.

    The commands that ask for each are added to the script."""
    slots, book = script.book.slots(), script.book
    given = placements.all_given(script.net, slots, books.rights_of(access), most)
    pairs = {(name[0], end) for name, end in given}
    holds = all(is_granted == (pair in pairs) for pair, is_granted in one_addresses(script, access).items())
    if access is not None:
        return holds
    taken = {(grant.request.node, grant.request.base) for grant in book.grants}
    for (line, core), vector in one_lines(script).items():
        ends = [end[1] for name, end in given if name == line and end[0] == core and end not in taken]
        holds = holds and vector == min(ends, default=None)
    return holds


def complete(name: str, thrown: Dice, script: scripts.Script, access: str | None, most: int) -> Case:
    """The case of a script whose refusals are complete for an access, beside what additions of so many records give."""
    holds = is_complete(script, access, most)
    return case_of(f"{name}, each address for {access or 'both'}", thrown, script)._replace(holds=holds)


def of_refusals() -> Iterator[Case]:
    """Refusals of one address and of a line over the fixed nets, beside all additions of up to three records."""
    for shape in FIXED:
        thrown, script = begun(shape, FIRST_SEED, 4)
        for access in (None,) if script.cores else (units.READ, units.WRITE, None):
            thrown, script = begun(shape, FIRST_SEED, 4)
            yield complete(f"{shape.__name__} {FIRST_SEED}", thrown, script, access, MOST_RECORDS.get(shape, 3))


def small(shape: Any, seed: Any) -> Any:
    """A script over a net of a shape whose free slots can hold few records, with its dice and an access; or None."""
    thrown, script = begun(shape, seed, 3, MOST_ADDITIONS if shape in narrow.SHAPES else None)
    if script is None or count_of_additions(script.net, script.book.slots()) > MOST_ADDITIONS:
        return None
    return thrown, script, None if script.cores else thrown.one_of([units.READ, units.WRITE, None])


def of_small_refusals(few: int = 1) -> Iterator[Any]:
    """The same over generated nets whose free slots can hold few records, beside additions of any number."""
    for shape in SHAPES:
        for seed in range(FIRST_SEED, FIRST_SEED + FULL_SEEDS // few):
            found = small(shape, seed)
            if found:
                thrown, script, access = found
                yield complete(f"{shape.__name__} {seed}", thrown, script, access, MOST_ADDITIONS)


def completeness(count: Any) -> Any:
    """For each shape and so many seeds a call that says whether the refusals over that small net are complete."""
    def is_complete_over(shape: Any, seed: Any) -> Any:
        found = small(shape, seed)
        return found is None or is_complete(found[1], found[2], MOST_ADDITIONS)
    seeds = range(FIRST_SEED, FIRST_SEED + count)
    return [functools.partial(is_complete_over, shape, seed) for seed in seeds for shape in SHAPES]


def of_name(name: Any) -> Any:
    """The cases of a name that was printed."""
    shape, seed = name.split(",")[0].split()[:2]
    if "," in name:
        named = of_pieces(next(each for each in SHAPES if each.__name__ == shape),
                          int(seed)) if ", in pieces" in name else None
        made = named or [*of_all_nodes(), *of_all_requests(), *of_refusals(), *of_small_refusals()]
    else:
        made = of_seed(next(each for each in SHAPES if each.__name__ == shape), int(seed))
    return [case for case in made if case.name == name]
