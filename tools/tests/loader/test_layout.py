"""netconf-layout: what it says of the examples and of boards agrees with the program's views and lookups, and it says
the same as a table, as JSON and as a header in C."""

import json
import os
import pathlib
import random
import shutil
import subprocess

from netconf_tools.dump import image_in
from netconf_tools.layout import Layout, Viewer, layout_of
from netconf_tools.source import TOP, commands_of, declarations_of, noted_nodes_of
from netconf_tools.text import run, views_of
from tests.case import EXAMPLES, TOOLS, Case, descriptions, outcome
from tests.loader.builds import HERE, LOADER, built
from tests.loader.protocol import echo
from tests.loader.second_reader import look, names

ADDRESSES = 1000
"""How many addresses of each description are looked up."""

TRIES = 12
"""How many buffers are asked for each agent that comes to a unit, beside those of the description."""

NOTES = """
//@ of the next statement
ram is accept [0x0-0xfff];     //@ beside it
bus is map [0x0-0xfff          //@ within it
  to ram]; //@ behind its end
module card(node n);
agent dma is over n;           //@ in a module
port is over n;
end;
use card(node bus) as a;       //@ pci 0:3.0
for i in 0..1; use card(node bus) as b[i]; end;
//@ b[1].dma is pci 0:5.0
//@ nobody is lost
begin; view a.dma;             // @ no note
"""
NOTED = {"ram": ["of the next statement", "beside it"], "bus": ["within it", "behind its end"],
         "a.dma": ["pci 0:3.0", "in a module"],
         "a.port": ["pci 0:3.0"], "b[0].dma": ["in a module"], "b[0].port": [],
         "b[1].dma": ["in a module", "pci 0:5.0"], "b[1].port": []}

FEATURES = """dram is accept [0x0-0xffff];  //@ "quoted" \\ and \xe9?
agent a.b is map [0x10-0x1f to u at 0x8] over dram;
agent a_b is over u;
unit u kind remap page 2 slots 8 reach 16 to dram, v;
unit v kind pages page 2 slots 4 reach 16 to dram;
"""
TABLE = """nodes 5, image of 120 bytes

unit  node  kind   page  slots  reach  words  from byte  note
u     3     remap  2     8      16     1      16
v     4     pages  2     4      16     1      88

port  number  to    node  note
u     0       dram  0     "quoted" \\ and \xe9?
u     1       v     4
v     0       dram  0     "quoted" \\ and \xe9?

agent  node  note
a.b    1
a_b    2

window of  addresses  unit  input
a.b        0x10-0x1f  u     0x8
a_b        0x0-0x1f   u     0x0
u port 1   0x0-0xf    v     0x0

place of  node  its addresses  at
a.b       dram  0x0-0xf        0x0
a.b       dram  0x20-0xffff    0x20
u port 0  dram  0x0-0xffff     0x0
v port 0  dram  0x0-0xffff     0x0
"""


def addresses_of(layout: Layout, chance: random.Random) -> list[tuple[Viewer, int]]:
    """Addresses of agents at random, most of them within windows and places or at their ends."""
    found = []
    for _ in range(ADDRESSES):
        agent = chance.choice(layout.agents)
        blocks = [(w.first, w.last) for w in agent.windows] + [(p.address, p.address + p.last - p.first)
                                                               for p in agent.places]
        if not blocks or chance.random() < 0.1:
            found.append((agent, chance.randrange(TOP + 1)))
            continue
        lo, hi = chance.choice([block for block in blocks if block in {(w.first, w.last) for w in agent.windows}]
                               or blocks
                               if chance.random() < 0.5 else blocks)
        address = chance.choice((lo, hi, lo - 1, hi + 1, min(lo + chance.randrange(0x8000), hi),
                                 chance.randint(lo, hi)))
        found.append((agent, min(max(address, 0), TOP)))
    return found


def more_grants(layout: Layout, chance: random.Random) -> list[str]:
    """Commands that ask for buffers behind units, and for messages."""
    texts = []
    for agent in layout.agents:
        units = [layout.units[window.unit] for window in agent.windows]
        for number in range(TRIES if units else 0):
            unit = chance.choice(units)
            places = [place for port in unit.ports for place in port.places] or [
                place for port in unit.ports for window in port.windows for inner in layout.units[window.unit].ports
                for place in inner.places]
            if not places:
                continue
            place = chance.choice(places)
            title = f"more_{layout.agents.index(agent)}_{number}"
            if unit.kind == "vectors":
                window = chance.choice(agent.windows)
                texts.append(f"route {title} {agent.name} {chance.randint(window.first, window.last):#x} {place.name};")
                continue
            page = 1 << unit.page
            base = place.first + chance.randrange(max((place.last - place.first + 1) // page, 1)) * page
            access = chance.choice(("", " for read", " for write"))
            texts.append(f"grant {title} {agent.name} {place.name} {base:#x} "
                         f"{min(page * chance.randint(1, 4), place.last - base + 1):#x}{access};")
    return texts


class TestLayout(Case):
    """The layout of a description: as a table, as JSON, as a header in C, and beside the program's lookups and
    views."""

    def test_notes(self) -> None:
        """Which node has which comment."""
        nodes, lost = noted_nodes_of(NOTES)
        self.assertEqual({name: node.notes for name, node in nodes.items()}, NOTED, "the notes of nodes")
        self.assertEqual(lost, [(13, "nobody is lost")], "a note that no node has")
        status, _, errors = outcome(TOOLS / "netconf-layout", "-", text=NOTES)
        self.assertEqual((status, errors), (2, "netconf-layout: -: line 13: no node has this note: nobody is lost\n"),
                         "it is refused")

    def test_forms(self) -> None:
        """One description with its table, its JSON and its header worked out by hand; refusals; and names that C has
        not."""
        source = self.folder / "features.net"
        source.write_bytes(FEATURES.encode("latin-1"))
        status, table, errors = outcome(TOOLS / "netconf-layout", source)
        self.assertEqual((status, table, errors), (0, TABLE, ""), "a table")
        shown = json.loads(outcome(TOOLS / "netconf-layout", "--json", source)[1])
        port = {"name": "v", "node": 4, "notes": [], "places": [],
                "windows": [{"first": "0x0", "last": "0xf", "unit": "v", "input": "0x0"}]}
        self.assertEqual((shown["nodes"], shown["bytes"], shown["units"][0]["ports"][1],
                          shown["units"][1]["from_byte"]), (5, 120, port, 88),
                         "JSON")
        lines = outcome(TOOLS / "netconf-layout", "--c", "--prefix", "my_board", source)[1]
        wanted = ["#ifndef NETCONF_LAYOUT_MY_BOARD_H", "    my_board_agent_a_b_node_1 = 0,",
                  "    my_board_agent_a_b_node_2 = 1",
                  'static const struct netconf_layout my_board = {my_board_units, my_board_agents, 2, 2};']
        self.assertEqual([line for line in wanted if line not in lines.splitlines()], [], "names in the header")
        source.write_text("dram is accept [0x0-0xff]; //@ caf\u00e9 \u00e0\nagent a is over dram;", "utf-8")
        self.assertTrue("caf\u00e9 \u00e0\n" not in outcome(TOOLS / "netconf-layout", source)[1],
                        "a node that is not an agent has no note here")
        source.write_text("dram is accept [0x0-0xff];\nagent a is over dram; //@ caf\u00e9 \u00e0", "utf-8")
        self.assertTrue("a      1     caf\u00e9 \u00e0\n" in outcome(TOOLS / "netconf-layout", source)[1],
                        "a note in UTF-8")
        shown = json.loads(outcome(TOOLS / "netconf-layout", "--json", source)[1])
        self.assertEqual(shown["agents"][0]["notes"], ["caf\u00e9 \u00e0"], "a note in UTF-8, as JSON")
        self.assertTrue("caf\\303\\251 \\303\\240" in outcome(TOOLS / "netconf-layout", "--c", source)[1],
                        "a note in UTF-8, in the header")
        missing = self.folder / "missing.net"
        self.assertEqual(outcome(TOOLS / "netconf-layout", missing)[2],
                         f"netconf-layout: {missing}: No such file or directory\n", "a file is named once")
        for words, status, message in (
                (("--prefix", "1x", source), 2, "'1x' is not a name in C that begins with a letter"),
                ((EXAMPLES / "looping_bridge.net",), 2, "refused: Loop bus@0x80000000 -> bridge@0x0 -> bus@0x80000000"),
                ((self.folder / "none.net",), 2, "No such file or directory")):
            seen, output, errors = outcome(TOOLS / "netconf-layout", *words)
            self.assertTrue((seen, output) == (status, "") and message in errors, f"{message}: {errors}")

    def check_header(self, folder: pathlib.Path, path: pathlib.Path) -> None:
        """The header in C of a description says what its layout says, in both compilers."""
        layout = layout_of(path.read_bytes())
        (folder / "layout.h").write_text(outcome(TOOLS / "netconf-layout", "--c", path)[1])
        for compiler, words in (("gcc", ["-std=c99"]), ("clang", ["-std=c99"]), ("g++", ["-x", "c++", "-std=c++11"])):
            if shutil.which(compiler) is None:
                continue
            command = [compiler, *words, "-Wall", "-Wextra", "-Wpedantic", "-Werror", f"-I{folder}", f"-I{LOADER}",
                       HERE / "echo.c", "-o", folder / "echo"]
            self.assertEqual(built(command), "", f"{compiler} compiles the header of {path.name}")
            done = subprocess.run([str(folder / "echo")], capture_output=True, check=False)
            self.assertEqual(done.stdout.decode("utf-8"), echo(layout), f"the header of {path.name} by {compiler}")

    def check_against_program(self, title: str, data: bytes) -> None:
        """At random addresses and for both accesses, what layout and image say is what the program's lookups and views
        say."""
        text, chance = data.decode("latin-1"), random.Random(title)
        layout = layout_of(data)
        if not layout.agents:
            return
        commands = [str(command) for command in commands_of(text)
                    if command.word in ("grant", "route", "revoke")] + more_grants(layout, chance)
        asked = addresses_of(layout, chance)
        lines = [*commands, "dump;"]
        for access in ("read", "write"):
            lines += [f"view {agent.name} for {access};" for agent in layout.agents]
            lines += [f"lookup {agent.name} {address:#x} for {access};" for agent, address in asked]
        _, output = run("run", (declarations_of(text) + "begin;\n" + "\n".join(lines) + "\n").encode("latin-1"))
        image, parts = image_in(output.encode("latin-1")), output.split(f"\nview {layout.agents[0].name} for ")
        wrong: list[object] = []
        for part, is_write in zip(parts[1:], (False, True)):
            views = views_of(f"view {layout.agents[0].name} for " + part)
            replies = [line.split(": ", 1)[1] for line in part.splitlines() if ": " in line]
            for (agent, address), reply in zip(asked, replies):
                number = layout.agents.index(agent)
                mine = names(layout, number, address, look(layout, image, number, address, is_write))
                row = next((row for row in views[agent.name] if row.lo <= address <= row.hi), None)
                seen = ", ".join(f"{node}@{at + address - row.lo:#x}" for node, at in row.names) if row else "nothing"
                if not mine == reply == seen:
                    wrong.append((agent.name, hex(address), is_write, mine, reply, seen))
            if len(replies) != len(asked):
                wrong.append(f"{len(replies)} replies")
        self.assertTrue(not wrong,
                        f"{title} agrees with {ADDRESSES} lookups and the views, for both accesses: {wrong[:5]}")

    def test_limits(self) -> None:
        """More agents and ports than one description may view at once; and more parts than a net of memories may
        have."""
        chains = "".join(f"m{n} is accept [{n}]; b{n} is map [{n} to m{n}]; agent a{n} is map [0x0-0xf to u{n}, 0x100 "
                         f"to m{n} at {n}]; unit u{n} kind pages page 0 slots 4 reach 8 to b{n};\n" for n in range(64))
        layout = layout_of(chains.encode())
        self.assertEqual([(len(a.windows), a.places[0].address) for a in layout.agents], [(1, 0x100)] * 64, "64 agents")
        self.assertEqual([u.ports[0].places[0].name for u in layout.units], [f"m{n}" for n in range(64)], "64 units")
        blocks = ", ".join(f"{2 * n:#x}" for n in range(16382))
        full = (f"m is accept [{blocks}]; agent a is map [0x0-0xff to u]; "
                "unit u kind pages page 0 slots 4 reach 20 to m;")
        self.assertEqual(outcome(TOOLS / "netconf-layout", "-", text=full)[0], 0, "as many parts as a net may have")
        status, _, errors = outcome(TOOLS / "netconf-layout", "-",
                                    text=full.replace("agent a is", "n is over m; agent a is"))
        self.assertTrue(status == 2 and "passes the limit of 16384" in errors,
                        f"one part too many for a net of memories: {errors}")

    def test_boards(self) -> None:
        """The boards of examples/boards, where a folder of trees was named."""
        trees = os.environ.get("BOARDS")
        if not trees:
            self.skipTest("the layouts of boards: name in BOARDS the folder of trees that examples/boards/fetch prints")
        for questions in sorted((EXAMPLES / "boards").glob("*.questions")):
            tree = os.path.join(trees, questions.read_text().splitlines()[0].removeprefix("// tree: "))
            status, text, errors = outcome(TOOLS / "netconf-import", tree)
            self.assertEqual(status, 0, f"{questions.stem} is imported: {errors[-300:]}")
            if status == 0:
                self.check_against_program(questions.stem, text.encode("latin-1"))

    def test_examples(self) -> None:
        """The layout of each example beside the program, and its header in both compilers."""
        for path in descriptions():
            with self.subTest(path.name):
                self.check_against_program(path.name, path.read_bytes())
                if any(word in path.read_text("latin-1") for word in ("\nunit ", "agent core0")):
                    self.check_header(self.folder, path)
