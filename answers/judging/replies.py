"""The replies to commands, and the printed net, by docs/language.md."""

from collections.abc import Callable
from typing import Any

from judging import books, gathers, nets, rules, units


def said(access: str | None) -> str:
    """What a reply says of an access."""
    return "" if access is None else f" for {access}"


def names_text(net: nets.Net, names: frozenset[nets.Name]) -> str:
    """Names in the order of the nodes and then of the addresses, or `nothing`."""
    return ", ".join(rules.shown(net, name) for name in sorted(names)) or "nothing"


def resolve(book: books.Book, node_name: str, addr: int, access: str | None) -> str:
    """What an address of a node comes to under the records of the book."""
    start, number = f"{node_name}@{addr:#x}{said(access)}: ", book.net.number(node_name)
    if number is None:
        return start + "no such node"
    return start + names_text(book.net, units.resolved_under(book.net, book.slots().held, access or units.READ,
                                                             (number, addr)))


def lookup(book: books.Book, agent_name: str, addr: int, access: str | None) -> str:
    """What the book owes to an address of an agent."""
    start, number = f"{agent_name}@{addr:#x}{said(access)}: ", book.net.number(agent_name)
    if not books.is_agent(book.net, number):
        return start + "no such agent"
    return start + names_text(book.net, book.owed(access or units.READ, (number, addr)))


def rows_of(book: books.Book, agent: int, access: str) -> list[tuple[int, int, frozenset[nets.Name]]]:
    """The rows of an agent, (first, last, names of the first): an address goes on with a row where each name does."""
    rows: list[Any] = []
    for addr in range(book.net.edge):
        names = book.owed(access, (agent, addr))
        if names and rows and rows[-1][1] == addr - 1 and names == {(node, at + addr - rows[-1][0])
                                                                    for node, at in rows[-1][2]}:
            rows[-1] = rows[-1][0], addr, rows[-1][2]
        elif names:
            rows.append((addr, addr, names))
    return rows


def view(book: books.Book, agent_name: str, access: str) -> str:
    """All that an agent sees."""
    agent = book.net.number(agent_name)
    if not books.is_agent(book.net, agent):
        return f"view {agent_name} refused: NoAgent"
    rows = rows_of(book, agent, access or units.READ)
    lines = [f"{lo:#x}-{hi:#x} {names_text(book.net, names)}" for lo, hi, names in rows]
    return "\n".join([f"view {agent_name}{said(access)} rows {len(rows)}"] + lines)


def dump(book: books.Book) -> str:
    """The bytes of the tables."""
    image = units.image_of(book.net, book.slots().held)
    return "\n".join([f"dump bytes {len(image)}"] + [image[at: at + 32].hex() for at in range(0, len(image), 32)])


def reply(book: books.Book, command: tuple[Any, ...]) -> str:
    """The reply to a command, after which the book is as the command leaves it."""
    turns: dict[str, Callable[..., str]] = {
        "resolve": resolve,
        "lookup": lookup,
        "view": view,
        "dump": dump,
        "grant": books.granted,
        "gather": gathers.gathered,
        "route": books.routed,
        "revoke": books.revoked,
    }
    return turns[command[0]](book, *command[1:])


def answer(net: Any, commands: Any) -> Any:
    """What `run` prints of commands over a legal net."""
    book = books.Book(net)
    return "".join(reply(book, command) + "\n" for command in commands).encode()


def block_text(lo: Any, hi: Any) -> Any:
    """A block as it is printed."""
    return f"{lo:#x}-{hi:#x}"


def statement_text(net: Any, node: Any) -> Any:
    """The statement of a node as `check` prints it."""
    if node.unit:
        unit, ports = node.unit, ", ".join(net.nodes[port].name for port in node.unit.ports)
        return f"unit {node.name} kind {unit.kind} page {unit.page} slots {unit.slots} reach {unit.reach} to {ports};"
    parts = [{"plain": "", "agent": "agent ", "vectors": "vectors "}[node.role] + node.name + " is"]
    if node.accepts:
        parts.append("accept [" + ", ".join(block_text(lo, hi) for lo, hi in node.accepts) + "]")
    if node.entries:
        entries = [block_text(lo, hi) + " to " + " and ".join(f"{net.nodes[number].name} at {addr:#x}"
                                                              for number, addr in dests)
                   for lo, hi, dests in node.entries]
        parts.append("map [" + ", ".join(entries) + "]")
    if node.over is not None:
        parts.append(f"over {net.nodes[node.over].name}")
    return " ".join(parts) + ";"


def net_text(net: Any) -> Any:
    """The net as `check` prints it."""
    return "".join(statement_text(net, node) + "\n" for node in net.nodes)
