"""What an editor shows at a place of a description: what it names, where that is declared, and what may stand there."""

import functools
from typing import NamedTuple

from netconf_tools.expand import Description
from netconf_tools.expansion import KINDS, OUTSIDE, Expansion, Faulty, PlacedNode, Unfollowed
from netconf_tools.grammar import (
    COMMANDS,
    NAME,
    BadToken,
    CommandPlaces,
    Expression,
    Name,
    Reader,
    Source,
    Token,
    TooDeep,
    TooLong,
    Unexpected,
    statement_start,
    statements_in,
    token_at,
)
from netconf_tools.grants import CHANGES
from netconf_tools.source import CommandRows, Unreadable, script_of
from netconf_tools.text import Trouble, run

MOST_ROWS = 12
"""How many rows of a view are shown."""

Span = tuple[int, int]
"""The place of a part of the text, and the one after it."""


class Named(NamedTuple):
    """A part of the text that names something: its place, the node that it names (or nothing), and the place at
    which the thing is declared."""

    span: Span
    node: PlacedNode | None
    declared_at: int


class Assistance:
    """Answers on one text. The program answers what agents see; the rest is read off the text, and also off a text
    that is refused, up to its fault."""

    def __init__(self, description: Description) -> None:
        self.source = description.source
        self.rows = CommandRows(self.source.text, COMMANDS)

    @functools.cached_property
    def expansion(self) -> Expansion | None:
        """The nodes and modules of the text, as far as it is expanded."""
        try:
            expansion = Expansion(self.source)
        except Unfollowed:
            return None
        try:
            expansion.run()
        except (Faulty, Unfollowed):
            pass
        return expansion

    @functools.cached_property
    def nodes(self) -> dict[str, PlacedNode]:
        """The nodes by their full names."""
        return self.expansion.nodes if self.expansion else {}

    def named(self, at: int) -> Named | None:
        """What a place names: a node, a module or an id, by its declaration or by a reference."""
        return self._declared(at) or self._in_command(at)

    def _declared(self, at: int) -> Named | None:
        """What a place in the declarations names."""
        for node in self.nodes.values():
            if node.at <= at < node.at + node.width:
                return Named((node.at, node.at + node.width), node, node.at)
            for full, begin, width in node.references:
                if begin <= at < begin + width and full in self.nodes:
                    return Named((begin, begin + width), self.nodes[full], self.nodes[full].at)
        word = self._word(at)
        module = self.expansion.modules.get(word.text) if self.expansion and word else None
        if word is None or module is None or not self._is_used(word):
            return None
        return Named((word.at, word.at + len(word.text)), None, module.at)

    def _word(self, at: int) -> Token | None:
        """The word that a place is in, if there is one."""
        text = self.source.plain
        begin = at
        while begin > 0 and (text[begin - 1].isalnum() or text[begin - 1] == "_"):
            begin -= 1
        token = token_at(self.source, begin)
        return token if token.kind == "word" and token.at <= at < token.at + len(token.text) else None

    def _is_used(self, word: Token) -> bool:
        """Whether a word stands after `use` or `module`."""
        before = self.source.plain[: word.at].split()
        return bool(before) and before[-1] in ("use", "module")

    def _command_at(self, at: int) -> tuple[int, CommandPlaces] | None:
        """The number and the parts of the command in which a place is."""
        index = self.rows.index_at(at)
        found = self._read(self.rows.command(index).at) if index is not None else None
        return (index, found) if index is not None and isinstance(found, CommandPlaces) else None

    def _read(self, at: int) -> object:
        """The statement that begins at a place, or None if it is wrong."""
        try:
            return Reader(self.source, at).statement()
        except (Unexpected, TooDeep, TooLong, BadToken):
            return None

    def _in_command(self, at: int) -> Named | None:
        """What a place in a command names."""
        found = self._command_at(at)
        if found is None:
            return None
        index, places = found
        for word in places.ids:
            if word.at <= at < word.at + len(word.text):
                granted = self._granted(word.text, index)
                return Named((word.at, word.at + len(word.text)), None, word.at if granted is None else granted)
        for member in places.members:
            if isinstance(member, Name) and member.at <= at < member.end:
                node = self.nodes.get(self._spelled(member))
                return Named((member.at, member.end), node, node.at) if node else None
        return None

    def _spelled(self, name: Name) -> str:
        """The full name of a node in a command, or nothing."""
        try:
            return self.expansion.spelled(name, OUTSIDE) if self.expansion else ""
        except (Faulty, Unfollowed):
            return ""

    def _granted(self, title: str, before: int) -> int | None:
        """The place of the last id of a grant or a route up to a command."""
        for index in range(before, -1, -1):
            _, word, _ = self.rows.rows[index]
            if word in ("grant", "route", "gather"):
                places = self._read(self.rows.command(index).at)
                for token in places.ids if isinstance(places, CommandPlaces) else ():
                    if token.text == title:
                        return token.at
        return None

    def hover(self, at: int) -> tuple[Span, str] | None:
        """What is shown at a place, and the part of the text that it is about: a node and what an agent sees, the
        reply to a command by its id, or what an address of a node comes to."""
        found = self._command_at(at)
        if found and (answer := self._hover_of_command(at, *found)):
            return answer
        named = self.named(at)
        return (named.span, self.node_text(named.node)) if named and named.node else None

    def _hover_of_command(self, at: int, index: int, places: CommandPlaces) -> tuple[Span, str] | None:
        """What is shown of a command: what a grant came to, and what an address comes to."""
        if places.word.at <= at < places.word.at + len(places.word.text):
            return (places.word.at, places.word.at + len(places.word.text)), self.reply(index)
        for word in places.ids:
            if word.at <= at < word.at + len(word.text):
                return (word.at, word.at + len(word.text)), self.reply(index)
        for member in places.members:
            if (
                isinstance(member, Expression)
                and member.at <= at < member.end
                and places.word.text in ("resolve", "lookup")
            ):
                return (member.at, member.end), self.reply(index)
        return None

    def reply(self, index: int) -> str:
        """The first lines of the program's reply to a command."""
        sources = [source for source, word, _ in self.rows.rows[:index] if word in CHANGES]
        own = self.rows.rows[index][0]
        count = len(sources)
        return self._ask(sources + [own], count) or "no reply"

    def _ask(self, sources: list[str], passed: int) -> str:
        """What the program replies to commands after the first ones, whose replies have a line each."""
        try:
            status, output = run("run", script_of(self.source.text, sources).encode("latin-1"))
        except (Trouble, Unreadable) as trouble:
            return str(trouble)
        lines = output.splitlines()
        shown = lines[passed:passed + MOST_ROWS + 1] if status == 0 else lines[:1]
        more = len(lines) - passed - len(shown) if status == 0 else 0
        return "\n".join(shown + ([f"and {more} more lines"] if more > 0 else []))

    def node_text(self, node: PlacedNode) -> str:
        """A node in words; of an agent also what it sees after the commands."""
        if node.role == "unit":
            kind, page, slots, reach = node.shape
            ports = ", ".join(node.ports)
            what = f"{slots} slots of 2^{page} addresses, outputs below 2^{reach}, to {ports}"
            return f"unit {node.name} kind {kind}: {what}"
        parts = [f"accepts {', '.join(map(str, node.accepts[:MOST_ROWS]))}"] if node.accepts else []
        parts += [f"maps {entry}" for entry in node.entries[:MOST_ROWS]]
        parts += [f"over {node.over}"] if node.over else []
        text = "\n".join([f"{node.role} {node.name}".strip(), *parts])
        if node.role != "agent":
            return text
        changes = [source for source, word, _ in self.rows.rows if word in CHANGES]
        return f"{text}\n\n{self._ask([*changes, f'view {node.name};'], len(changes))}"

    def completions(self, at: int) -> list[str]:
        """The words that may stand at a place: keywords, and names of nodes, agents, modules and kinds."""
        begin = at
        while begin > 0 and (self.source.plain[begin - 1].isalnum() or self.source.plain[begin - 1] in "_.[]"):
            begin -= 1
        before = Source(self.source.text[:begin])
        reader = Reader(before, statement_start(before, begin))
        try:
            reader.statement()
        except Unexpected as wrong:
            return self._words(wrong, reader, before)
        except (TooDeep, TooLong, BadToken):
            pass
        return []

    def _words(self, wrong: Unexpected, reader: Reader, before: Source) -> list[str]:
        """The words that are expected at the end of a text."""
        words = [item for item in wrong.expected if item.isalpha()]
        if wrong.before is None:
            is_begun = any(statement.word == "begin" for statement in statements_in(before))
            return [word for word in words if (word in COMMANDS) == is_begun]
        if wrong.before.text == "kind":
            return list(KINDS)
        if NAME in wrong.expected:
            words += self._names(reader, wrong.before, before)
        return sorted(dict.fromkeys(words))

    def _names(self, reader: Reader, last: Token, before: Source) -> list[str]:
        """The names that may stand after the last token of a text, in the statement that begins there."""
        tokens = before.plain[reader.first.at:].split()
        if tokens == ["use"]:
            return list(self.expansion.modules) if self.expansion else []
        is_agent = tokens[0] in ("grant", "route") and len(tokens) == 2 or tokens in (["view"], ["lookup"], ["gather"])
        if is_agent:
            return [node.name for node in self.nodes.values() if node.role == "agent"]
        if tokens in (["grant"], ["route"], ["revoke"]):
            return (
                [title for _, word, title in self.rows.rows if word in ("grant", "route")]
                if tokens == ["revoke"]
                else []
            )
        module = module_at(before)
        local = [
            node.name.removeprefix(node.uses[-1][2] + ".")
            for node in self.nodes.values()
            if module and node.uses and node.uses[-1][1] == module
        ]
        return local or list(self.nodes)


def module_at(source: Source) -> str:
    """The word of the module that is open at the end of a text, or nothing."""
    found = []
    for statement in statements_in(source):
        if statement.word in ("module", "for"):
            after = token_at(source, statement.at + len(statement.word))
            found.append(after.text if statement.word == "module" else "")
        elif statement.word == "end" and found:
            found.pop()
    return found[0] if found else ""
