"""Trees of pages that `radix` prints: byte for byte those of second_tree.py, and a walker in C finds in them each word
of the tables, and by these words each page that was granted, at the address of which the program's `lookup` says the
same."""

import pathlib
import re
import subprocess
from collections.abc import Iterable

from netconf_tools.dump import image_in
from netconf_tools.grants import changes_of, replies_to
from netconf_tools.layout import Layout, layout_of
from netconf_tools.source import Command, declarations_of
from netconf_tools.text import run
from tests.case import TOOLS, TOP, Case, descriptions, found, outcome
from tests.loader.builds import HERE, PACKAGES, SANITIZERS, WARNINGS, built, can
from tests.loader.nets import MADE, Net
from tests.loader.second_reader import look, names, words_of
from tests.loader.second_tree import PAGE, WORDS, depth_of, reply, tree

POOL = 1 << 20
"""A pool in which each tree has room."""

MOST_PAGES = 16
"""How many pages of a buffer are looked up at most: the first ones, and the last."""


class State:
    """The tables after a command: their image, and for each unit what `radix` prints; and lookups, each with its
    reply."""

    def __init__(self, layout: Layout, lines: list[str], lookups: list[tuple[int, int]]) -> None:
        self.image = image_in(taken(lines, 1 + -(-int(lines[0].split()[2]) // 32)).encode())
        self.replies: list[str] = []
        for unit in layout.units:
            pages = re.fullmatch(rf"radix {re.escape(unit.name)} pages (\d+)", lines[0])
            self.replies.append(taken(lines, 1 + int(pages[1]) * PAGE // 32 if pages else 1))
        self.lookups = [(number, address, is_write, lines.pop(0).split(": ", 1)[1]) for number, address in lookups
                        for is_write in (False, True)]

    def trees(self) -> list[bytes]:
        """The bytes of the trees."""
        return [bytes.fromhex(text.split("\n", 1)[1]) for text in self.replies]


def taken(lines: list[str], count: int) -> str:
    """The first so many lines, which are taken, as one text."""
    text = "".join(line + "\n" for line in lines[:count])
    del lines[:count]
    return text


def edges() -> str:
    """A description of units at the edges of one page and of two levels, of each kind, and a grant or a route in the
    last slot."""
    lines, commands = ["m is accept [0x0-0xfffff];", "vectors v is accept [0x20-0x2f];"], []
    for number, (kind, slots) in enumerate([("pages", 1), ("remap", 511), ("radix", 512), ("pages", 513),
                                            ("vectors", 255), ("vectors", 256), ("vectors", 257)]):
        page = 0 if kind == "vectors" else 12
        lines.append(f"agent a{number} is map [0x0-{(1 << page) - 1:#x} to u{number} at {slots - 1 << page:#x}];")
        lines.append(f"unit u{number} kind {kind} page {page} slots {slots} reach 20 to {'m' if page else 'v'};")
        commands.append(f"grant g{number} a{number} m {number + 1 << 12:#x} 0x1000;" if page
                        else f"route g{number} a{number} 0x0 v;")
    return "\n".join(lines + ["begin;", *commands]) + "\n"


def pages_of(first: int, size: int) -> list[int]:
    """The first and the last address of each page of 4,096 addresses of a buffer; of very many the first ones and the
    last."""
    starts = list(range(first, first + size, 4096))
    starts = starts if len(starts) <= MOST_PAGES else starts[:MOST_PAGES - 1] + starts[-1:]
    return [address for start in starts for address in {start, min(start + 4095, first + size - 1)}]


def states_of(text: str, commands: list[Command]) -> tuple[Layout, list[State]]:
    """The layout of a description, and the tables at first and after each command that changes them."""
    layout = layout_of(text.encode("latin-1"))
    live: dict[str, list[tuple[int, int]]] = {}
    script: list[str] = []
    wanted: list[tuple[bool, list[tuple[int, int]]]] = []
    agents = {agent.name: number for number, agent in enumerate(layout.agents)}
    trees = ["dump;", *(f"radix {unit.name} {POOL};" for unit in layout.units)]
    for command, answer in zip([None, *commands], [None, *replies_to(text, commands)]):
        if command and answer == "revoked":
            del live[command.id]
        elif command and answer and not answer.startswith("refused: "):
            where = command.numbers[0] if command.word == "route" else int(answer.split()[1], 16)
            for part in command.parts:
                size = 1 if command.word == "route" else part.numbers[1]
                live[part.id] = [(agents[part.names[0]], address) for address in pages_of(where, size)]
                where += size
        lookups = [lookup for some in live.values() for lookup in some]
        script += [command.source] if command else []
        script += trees + [f"lookup {layout.agents[agent].name} {address:#x} for {access};"
                           for agent, address in lookups for access in ("read", "write")]
        wanted.append((command is not None, lookups))
    lines = run("run", (declarations_of(text) + "begin;" + "".join(script)).encode("latin-1"))[1].splitlines()
    states = []
    for has_reply, lookups in wanted:
        taken(lines, int(has_reply))
        states.append(State(layout, lines, lookups))
    return layout, states


def words_in(layout: Layout, image: bytes) -> list[list[int]]:
    """The words of each unit of an image."""
    found: list[list[int]] = []
    at = 8
    for unit in layout.units:
        begin, at = at + 8, at + 8 + 8 * words_of(unit) * unit.slots
        found.append([int.from_bytes(image[place:place + 8], "little") for place in range(begin, at, 8)])
    return found


def walked(walker: pathlib.Path, folder: pathlib.Path, data: bytes, count: int, numbers: Iterable[int]) -> list[str]:
    """What the walker finds in a tree of so many words at each number."""
    (folder / "tree").write_bytes(data)
    done = subprocess.run([str(walker), str(folder / "tree"), str(count)], input=" ".join(map(str, numbers)),
                          capture_output=True, text=True, check=False)
    return done.stdout.split("\n")[:-1] if done.returncode == 0 else [f"status {done.returncode}", done.stderr]


class TestTree(Case):
    """Trees of pages: the program's, a second maker's, and walkers in C over them."""

    def check_states(self, walkers: list[pathlib.Path], folder: pathlib.Path, text: str, commands: list[Command],
                     what: str) -> int:
        """The trees of a description, at first and after each command; returns how many lookups were compared."""
        layout, states = states_of(text, commands)
        seen = 0
        for state in states:
            tables = words_in(layout, state.image)
            for unit, words, shown in zip(layout.units, tables, state.replies):
                self.assertEqual(shown, reply(unit.name, words, POOL), f"{what}: what radix prints of {unit.name}")
            for walker in walkers:
                data, at = bytearray(state.image), 8
                for unit, words, pages in zip(layout.units, tables, state.trees()):
                    found = walked(walker, folder, pages, len(words), range(len(words)))
                    self.assertEqual(found, [f"{word:#x}" if word else "0" for word in words],
                                     f"{what}: the words that {walker.name} finds of {unit.name}")
                    data[at + 8:at + 8 + 8 * len(words)] = b"".join(int(word, 16).to_bytes(8, "little")
                                                                    for word in found if word[:1] in "0123456789")
                    at += 8 + 8 * len(words)
                wrong = [(agent, f"{address:#x}", due) for agent, address, is_write, due in state.lookups
                         if names(layout, agent, address, look(layout, bytes(data), agent, address, is_write)) != due]
                self.assertTrue(not wrong, f"{what}: the granted pages as {walker.name} finds them: {wrong[:10]}")
            seen += len(state.lookups)
        return seen

    def check_bad(self, walkers: list[pathlib.Path], folder: pathlib.Path) -> None:
        """A walker over bytes that are no tree: entries that lead to no page, and bytes that end before the page to
        which one leads."""
        words = [0] * 1024
        words[0], words[1023] = 0x5, 0x7
        whole = tree(words)
        cases = (("an entry to no page", whole[:8] + (0x1002).to_bytes(8, "little") + whole[16:], "bad 8"),
                 ("an entry without its bit 0", whole[:8] + (0x2000).to_bytes(8, "little") + whole[16:], "bad 8"),
                 ("an entry past the end", whole[:8] + (0x3001).to_bytes(8, "little") + whole[16:], "bad 8"),
                 ("a page that is cut", whole[:-1], "bad 8"), ("a tree", whole, "0x7"),
                 ("an empty entry", whole[:8] + bytes(8) + whole[16:], "0"))
        for walker in walkers:
            for what, data, due in cases:
                self.assertEqual(walked(walker, folder, data, 1024, [1023]), [due], f"{walker.name} over {what}")
            for count in (1, 2, 512, 513, 262144, 262145):
                data = tree([0] * (count - 1) + [0x9])
                self.assertEqual(walked(walker, folder, data, count, [count - 1]), ["0x9"],
                                 f"{walker.name} over a tree of {count} words")

    def test_model(self) -> None:
        """The second maker of trees, by worked rows: levels, pages, entries and a pool that is too small."""
        words = [0] * 1024
        words[0], words[1023] = 0x5, 0x7
        data = tree(words)
        found = {at // 8: int.from_bytes(data[at:at + 8], "little") for at in range(0, len(data), 8)
                 if any(data[at:at + 8])}
        self.assertEqual((len(data), found), (3 * PAGE, {0: 0x1001, 1: 0x2001, 512: 0x5, 1535: 0x7}),
                         "the pages of 1,024 words")
        self.assertEqual(reply("u", words, 2), "radix u refused: Pool 3\n", "a pool that is one page short")
        full = [(count, len(tree([1] * count)) // PAGE) for count in (1, 512, 513, 262144, 262145)]
        self.assertEqual(full, [(1, 1), (512, 1), (513, 3), (262144, 513), (262145, 516)], "the pages of full trees")
        self.assertEqual([depth_of(count) for count in (1, WORDS, WORDS + 1, WORDS ** 2, WORDS ** 2 + 1)],
                         [1, 1, 2, 2, 3], "its levels")

    def test_page(self) -> None:
        """What docs/image.md shows of a tree is what the program prints of its example, without the lines that are
        0."""
        page = (TOP / "docs/image.md").read_text()
        statements, path, shown = found(r"^```\n([^`]*)^```\n\nis `examples/[^`]*`[^`]*^```\n\$ netconf run < "
                                        r"(examples/\S+) \| grep -v '\^0\*\$'\n(.*?)^```",
                                        page, re.S | re.M).groups()
        text = (TOP / path).read_text()
        plain = [line.split("//")[0].strip() for line in text.splitlines()]
        self.assertEqual(statements.splitlines(), [line for line in plain if line],
                         "docs/image.md: the description of a tree is that of its example")
        lines = [line for line in run("run", text.encode())[1].splitlines() if line.strip("0")]
        self.assertEqual("".join(line + "\n" for line in lines), shown, "docs/image.md: what it shows of a tree")

    def test_bytes(self) -> None:
        """netconf-dump2bin makes the bytes of each tree of an output, and says which tree is not there or is broken."""
        output = run("run", (TOP / "examples/radix_tree.net").read_bytes())[1]
        words = [0] * 1024
        first = tree(words)
        words[0], words[1], words[512] = 0x80009001, 0x8000a001, 0x80040021
        path = self.folder / "answers"
        path.write_text(output)
        for options, due in ((["--tree", "iommu"], tree(words)), (["--tree", "iommu", "--dump", "1"], first),
                             (["--tree", "iommu", "--dump", "2"], tree(words))):
            self.assertEqual(outcome(TOOLS / "netconf-dump2bin", *options, "--output", self.folder / "pages", path),
                             (0, "", ""), f"dump2bin {options}")
            self.assertTrue((self.folder / "pages").read_bytes() == due, f"the bytes of dump2bin {options}")
        path.write_bytes(output.replace("\n", "\r\n").encode())
        outcome(TOOLS / "netconf-dump2bin", "--tree", "iommu", "--output", self.folder / "pages", path)
        self.assertTrue((self.folder / "pages").read_bytes() == tree(words), "dump2bin of lines that end as on Windows")
        troubles = {"there is no tree of card here": (["--tree", "card"], output),
                    "there is no tree 3 of iommu: the last is 2": (["--tree", "iommu", "--dump", "3"], output),
                    "the tree of line 1 says 4096 bytes and has 4064": (["--tree", "iommu", "--dump", "1"],
                                                                        "".join(output.splitlines(True)[:128])),
                    "the tree of line 1 has a line that is not hexadecimal": (["--tree", "iommu", "--dump", "1"],
                                                                              output.replace("0" * 64, "x" * 64, 1)),
                    "the tree of line 1 says a number of pages of 5,000 digits": (["--tree", "u"],
                                                                                  f"radix u pages {'9' * 5000}\n00\n")}
        for message, (options, text) in troubles.items():
            path.write_text(text)
            self.assertEqual(outcome(TOOLS / "netconf-dump2bin", *options, path),
                             (2, "", f"netconf-dump2bin: {path}: {message}\n"), f"dump2bin: {message}")
        self.assertEqual(outcome(TOOLS / "netconf-dump2bin", "--changes", "--tree", "iommu", path)[0], 2,
                         "dump2bin with --changes and --tree")

    def walkers_in(self) -> list[pathlib.Path]:
        """The walker as each compiler builds it here."""
        found: list[pathlib.Path] = []
        for compiler in ("gcc", "clang"):
            if not can(compiler, SANITIZERS, self.folder):
                self.missing.append(f"{compiler} with sanitizers; tools/install-needs installs {PACKAGES[compiler]}")
                continue
            binary = self.folder / f"walker-{compiler}"
            errors = built([compiler, "-std=c99", *WARNINGS, *SANITIZERS, HERE / "walker.c", "-o", binary])
            self.assertEqual(errors, "", f"{compiler} compiles the walker without a warning")
            found += [] if errors else [binary]
        return found

    def test_walkers(self) -> None:
        """Walkers over trees of examples, of units at the edges of levels and of made nets; and over bytes that are no
        tree."""
        walkers, seen = self.walkers_in(), 0
        self.check_bad(walkers, self.folder)
        for path in descriptions():
            text = path.read_text("latin-1")
            if "\nunit " in run("check", text.encode("latin-1"))[1]:
                seen += self.check_states(walkers, self.folder, text, changes_of(text), path.name)
        self.assertGreaterEqual(seen, 20, "pages of the examples are looked up")
        text = edges()
        seen = self.check_states(walkers, self.folder, text, changes_of(text), "units at the edges of levels")
        self.assertEqual(seen, 4 * sum(range(1, 5)) + 4 * 4 * 3 + 2 * sum(range(1, 4)),
                         "pages of units at the edges of levels")
        for number in range(MADE // 4):
            net = Net(number)
            text = net.text() + "begin;\n" + "\n".join(net.changes([], 6)) + "\n"
            # Few made nets break a rule.
            if not run("check", text.encode())[0]:
                self.check_states(walkers[:1], self.folder, text, changes_of(text), f"net {number}")
        self.skip_missing()
