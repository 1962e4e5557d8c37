"""500 descriptions, images and files of claims, each changed by chance, and 50 conversations with the language server:
no tool breaks off, and none takes 5 seconds.

Time is that of the processor, of the tool and of the programs that it runs, so that other work on the machine does
not count."""

import io
import json
import pathlib
import random
import re
import resource
import time
from collections.abc import Iterator, Sequence

from netconf_tools.cli.export import FORMATS
from netconf_tools.cli.lsp import findings_of
from netconf_tools.language_server import Message, Server, read_message, serve, uri_of, write_message
from netconf_tools.views import Board
from tests.case import EXAMPLES, Case, descriptions
from tests.inside import called
from tests.tools.test_claims import KINDS, MISREAD, MODULES, NET

SECONDS = 5
"""How long a call may take at most."""

STATUSES = (0, 1, 2)
"""How a tool may end."""

TOKENS = ("", " ", "\n", "\t", "\r\n", ";", ",", "[", "]", "(", ")", "-", "+", "*", ".", "..", "@", "=", "/", "//",
          "//!", "//@", "//-", "0", "0x", "0x0", "0xfff", "4K", "1T", "0xffffffffffffff", "0xffffffffffffffffffff",
          "18446744073709551615", "agent", "vectors", "unit", "module", "use", "for", "in", "end", "begin", "is",
          "accept", "map", "to", "and", "at", "over", "kind", "page", "slots", "reach", "as", "num", "node",
          "resolve", "view", "grant", "gather", "route", "revoke", "dump", "read", "write", "never", "only", "all",
          "alone", "never_ever", "whatever", "same", "disjoint", "group", "let", "left_out", "size", "dram", "bus",
          "core0", "card", "i", "\x00", "\x1b[2J", "\xe9", "\udce9", "\ufeff", "%s", "{}", "<b>&")
"""What is put into a text."""

WORDS = re.compile(r"\w+|[^\w\s]|\s+")
NUMBERS = re.compile(r"0x[0-9a-f]+|\b\d+\b")


ALL_CHANGES = (0, 1, 2, 3, 4, 5, 5, 5, 6)
"""The changes of a text, each as often as it is made; 5 is that of a number."""


def changed_text(text: str, chance: random.Random, changes: Sequence[int] = ALL_CHANGES) -> str:
    """A text with up to three changes: a token put in, taken out, doubled, moved or replaced; a number with another
    bit; a cut."""
    for _ in range(chance.randrange(1, 4)):
        parts = WORDS.findall(text) or [""]
        at, other = chance.randrange(len(parts)), chance.randrange(len(parts))
        change = chance.choice(changes)
        if change == 0:
            parts.insert(at, chance.choice(TOKENS))
        elif change == 1:
            del parts[at:at + chance.randrange(1, 4)]
        elif change == 2:
            parts[at:at] = parts[at:at + chance.randrange(1, 30)]
        elif change == 3:
            parts[at], parts[other] = parts[other], parts[at]
        elif change == 4:
            parts[at] = chance.choice(TOKENS)
        elif change == 5 and (hits := list(NUMBERS.finditer(text))):
            hit = chance.choice(hits)
            number = int(hit.group(), 16 if hit.group().startswith("0x") else 10) ^ 1 << chance.randrange(30)
            parts = [text[:hit.start()], f"{number:#x}", text[hit.end():]]
        elif change == 6 and chance.random() < 0.3:
            parts = parts[:at]
        text = "".join(parts)
    return text


def changed_bytes(data: bytes, chance: random.Random) -> bytes:
    """Bytes with up to four changes: a bit turned, some bytes taken out, put in or doubled, or an end cut off."""
    found = bytearray(data)
    for _ in range(chance.randrange(1, 5)):
        at, change = chance.randrange(len(found) or 1), chance.randrange(8)
        if change < 4 and found:
            found[at] ^= 1 << chance.randrange(8)
        elif change == 4:
            del found[at:at + chance.randrange(1, 9)]
        elif change == 5:
            found[at:at] = bytes(chance.randrange(256) for _ in range(chance.randrange(1, 9)))
        elif change == 6:
            found[at:at] = found[at:at + chance.randrange(1, 40)]
        else:
            del found[at:]
    return bytes(found)


def encoded(text: str) -> bytes:
    """A text as bytes, among which may be some that are no UTF-8."""
    return text.encode("utf-8", "surrogateescape")


def timed(name: str, words: list[object]) -> tuple[int, float, str]:
    """The status of a tool over words, the seconds of the processor that it took, and what it wrote on standard
    error."""
    before = time.process_time() + seconds_of_children()
    status, _, errors = called(name, *words)
    return status, time.process_time() + seconds_of_children() - before, errors


def seconds_of_children() -> float:
    """The seconds of the processor that ended programs took."""
    used = resource.getrusage(resource.RUSAGE_CHILDREN)
    return used.ru_utime + used.ru_stime


class TestMutations(Case):
    """Inputs that are changed by chance."""

    def call(self, name: str, *words: object) -> None:
        """Calls a tool, which must end with a status of its own in time."""
        try:
            status, seconds, errors = timed(name, list(words))
        except Exception as fault:
            raise AssertionError(f"netconf-{name} {' '.join(map(str, words))} breaks off: {fault!r}") from fault
        self.assertIn(status, STATUSES, (name, words, errors))
        self.assertNotIn("Traceback", errors)
        self.assertLess(seconds, SECONDS, (name, words))

    def file(self, name: str, data: bytes) -> pathlib.Path:
        """A file with bytes."""
        path = self.folder / name
        path.write_bytes(data)
        return path

    def test_descriptions(self) -> None:
        """250 descriptions, each for netconf-run and for three of the other calls that read one."""
        chance = random.Random(57)
        claims = self.file("claims", b"same card card\nnever * dram 0x0\ndisjoint a.* b.*\n")
        for number, text in enumerate(changed_texts(chance, 250)):
            path = self.file("board.net", encoded(text))
            calls = [chance.choice(list(run_calls_of(path))), *chance.sample(list(calls_of(path, claims)), 3)]
            for name, words in calls:
                with self.subTest(number=number):
                    self.call(name, *words)

    def test_exports(self) -> None:
        """100 descriptions with a card behind an IOMMU, each for one of the formats of tables, and then with the tables
        of the description that was not changed, changed too."""
        chance = random.Random(60)
        board = self.file("whole.net", EXPORTED.encode())
        for number in range(100):
            form = chance.choice(tuple(FORMATS))
            path = self.file("board.net", encoded(changed_text(EXPORTED, chance, ALL_CHANGES if number % 2 else (5,))))
            for words in chance.sample(list(export_calls_of(path, board, form, self.folder)), 2):
                with self.subTest(number=number):
                    self.call("export", "--format", form, *words)

    def test_found_tables(self) -> None:
        """60 exported tables, changed and read back."""
        chance, whole = random.Random(61), self.folder / "whole.tables"
        board = self.file("whole.net", EXPORTED.encode())
        for number in range(60):
            form = chance.choice(tuple(FORMATS))
            words: list[object] = ["--format", form, "--at", AT]
            _, output, _ = called("export", *words, "--json", "--output", whole, board)
            registers = [int(value, 0) for value in re.findall(r'"value": "?(0x[0-9a-f]+|\d+)', output)] or [int(AT, 0)]
            found = self.file("tables", changed_bytes(whole.read_bytes(), chance))
            config = hex(chance.getrandbits(32))
            options: list[list[object]] = [[], [board], ["--partial", board], ["--config", config, board]]
            more = chance.choice(options)
            with self.subTest(number=number):
                self.call("export", *words, "--import", found, "--root", hex(chance.choice(registers)),
                          "--output", self.folder / "image", *more)

    def test_server(self) -> None:
        """50 conversations, in each of which a text is typed by changes, and asked about at places by chance."""
        chance = random.Random(62)
        for number, text in enumerate(changed_texts(chance, 50)):
            with self.subTest(number=number):
                output = io.BytesIO()
                server, before = Server(output, findings_of), time.process_time() + seconds_of_children()
                for message in conversation(text, str(self.folder / "board.net"), chance):
                    self.assertTrue(server.handle(message))
                    if chance.random() < 0.3:
                        server.check_waiting()
                server.check_waiting()
                self.assertLess(time.process_time() + seconds_of_children() - before, SECONDS)
                output.seek(0)
                answers = iter(lambda: read_message(output), None)
                errors = [answer["error"] for answer in answers if answer is not None and "error" in answer]
                self.assertEqual(errors, [])

    def test_messages(self) -> None:
        """100 streams of messages to the language server, changed as texts or bytes: it ends with a status."""
        chance = random.Random(63)
        for number in range(100):
            stream = io.BytesIO()
            for message in conversation(NET, str(self.folder / "board.net"), chance):
                if chance.random() < 0.3:
                    message = json.loads(changed_json(json.dumps(message), chance))
                write_message(stream, message)
            data = stream.getvalue()
            with self.subTest(number=number):
                source = io.BytesIO(changed_bytes(data, chance) if number % 2 else data)
                self.assertEqual(serve(source, io.BytesIO(), findings_of), 1)

    def test_claims(self) -> None:
        """150 files of claims, over a board and over one with claims in modules."""
        chance = random.Random(58)
        boards = [self.file("net.net", NET.encode())] * 3 + [self.file("modules.net", MODULES.encode())]
        wrong = [line for line, _, _ in MISREAD]
        lines = [line for pair in KINDS for line in pair[:2]]
        lines += ["left_out /soc/*", "let X = (4K+1)*2", "group g = a.*, cpu0", "never g dram 0x0 size 1M"]
        for number in range(150):
            text = "\n".join(chance.choices(lines, k=chance.randrange(1, 8)) + chance.choices(wrong, k=number % 3 // 2))
            path = self.file("claims", encoded(changed_text(text, chance, ALL_CHANGES if number % 2 else (5,))))
            form = chance.choice(("", "--json", "--sarif", "--junit", "--strict")).split()
            with self.subTest(number=number):
                self.call("query", "test", *form, chance.choice(boards), path)

    def test_images(self) -> None:
        """100 images, and outputs with a dump, each for three of the calls that read one."""
        chance = random.Random(59)
        foreign = EXAMPLES / "foreign_tables.net"
        image = Board(str(foreign)).image
        text = foreign.with_suffix(".tables").read_bytes()
        claims = self.file("claims", b"same card disk\nnever_ever card flash 0x0 whatever disk_mmu\n")
        for number in range(100):
            path = self.file("image", changed_bytes(chance.choice((image, image, text)), chance))
            for name, words in chance.sample(list(image_calls_of(foreign, path, claims)), 3):
                with self.subTest(number=number):
                    self.call(name, *words)


Call = tuple[str, list[object]]
"""A tool and its words."""

AT = "0x48000000"
"""Where exported tables stand."""

EXPORTED = """dram is accept [0x0-0x3fffffff];
bus is map [0x40000000-0x7fffffff to dram at 0x0];
agent core is over bus; //@ processor
agent card is map [0x0-0xffffff to iommu at 0x0]; //@ /bus/card, stream 0x20, pci 0:4.0, device 0x20
unit iommu kind pages page 12 slots 4096 reach 32 to bus;
begin;
grant rx card dram 0x9000 0x2000;
grant tx card dram 0x20000 0x1000 for read;
"""
"""A description of which tables are exported."""

VALUES = ("null", "0", "-1", "1e99", "[]", "{}", '""', '"x"', "true", "4294967296")
"""What is put in place of a value of JSON."""


def changed_texts(chance: random.Random, count: int) -> Iterator[str]:
    """Some descriptions, changed."""
    texts = [path.read_text("latin-1") for path in descriptions() if path.stat().st_size < 6000] + [NET, MODULES]
    for _ in range(count):
        yield changed_text(chance.choice(texts), chance)


def changed_json(text: str, chance: random.Random) -> str:
    """A JSON object with one of its values replaced."""
    hits = list(re.finditer(r'(?<=: )(?:"[^"]*"|-?\d+|\{[^{}]*\}|\[[^][]*\])', text))
    hit = chance.choice(hits)
    return text[:hit.start()] + chance.choice(VALUES) + text[hit.end():]


def conversation(text: str, path: str, chance: random.Random) -> Iterator[Message]:
    """What an editor says: it opens a part of a text, types the rest, and asks at places by chance."""
    document = {"uri": uri_of(path)}
    yield {"id": 0, "method": "initialize", "params": {"capabilities": {}}}
    yield {"method": "textDocument/didOpen", "params": {"textDocument": {**document, "text": text[:len(text) // 2]}}}
    lines = text.count("\n") + 2
    for number in range(1, 12):
        if number % 4 == 0:
            changes = [{"text": text[:len(text) * number // 8]}]
            yield {"method": "textDocument/didChange", "params": {"textDocument": document, "contentChanges": changes}}
        position = {"line": chance.randrange(lines), "character": chance.randrange(60)}
        method = chance.choice(("hover", "definition", "completion"))
        params = {"textDocument": document, "position": position}
        yield {"id": number, "method": f"textDocument/{method}", "params": params}


def run_calls_of(path: pathlib.Path) -> Iterator[Call]:
    """Calls of netconf-run over a description."""
    yield "run", [path]
    yield "run", ["--keep-going", path, path]
    yield "run", ["--set", "RAM=2G", "--expand", path]
    yield "run", ["--check", path]
    yield "run", ["--audit", EXAMPLES / "foreign_tables.tables", path]


def export_calls_of(path: pathlib.Path, board: pathlib.Path, form: str,
                    folder: pathlib.Path) -> Iterator[list[object]]:
    """Words of netconf-export after its format, over a description and one that was not changed."""
    tables = folder / "tables"
    yield ["--at", AT, "--output", tables, path]
    yield ["--at", AT, "--json", "--agent", "card", path]
    yield ["--at", AT, "--c", "--room", "4", path]
    yield ["--at", AT, "--pages", "--changes", board, path]
    yield ["--at", AT, "--changes", path, "--json", board]


def calls_of(path: pathlib.Path, claims: pathlib.Path) -> Iterator[Call]:
    """Calls of the tools over a description."""
    yield "lint", [path]
    yield "lint", ["--audit", path, EXAMPLES / "foreign_tables.tables"]
    yield "layout", [path]
    yield "layout", ["--json", path]
    yield "draw", [path]
    yield "draw", ["--views", path]
    yield "draw", ["--compare", "core0", "card", path]
    yield "query", ["who", path, "dram", "0x9000", "0x1000"]
    yield "query", ["where", path, "card", "core0", "0x80009000"]
    yield "query", ["diff", path, EXAMPLES / "dma_buffers.net"]
    yield "query", ["test", "--strict", path, claims]
    yield "query", ["report", "--markdown", path, claims]


def image_calls_of(net: pathlib.Path, image: pathlib.Path, claims: pathlib.Path) -> Iterator[Call]:
    """Calls of the tools over an image."""
    yield "lint", ["--audit", net, image]
    yield "run", ["--audit", image, net]
    yield "draw", ["--audit", net, image]
    yield "dump2bin", [image]
    yield "dump2bin", ["--changes", image]
    yield "query", ["who", "--image", image, net, "dram", "0x9000"]
    yield "query", ["diff", "--image", image, net]
    yield "query", ["test", "--strict", "--image", image, net, claims]
    yield "query", ["report", "--markdown", "--image", image, net, claims]
