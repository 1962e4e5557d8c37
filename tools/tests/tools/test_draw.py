"""netconf-draw over the examples and a made board of 200 nodes: graphs that Graphviz takes, maps with every address."""

import html
import itertools
import math
import pathlib
import re
import shutil
import sys
import xml.etree.ElementTree as tree
from collections.abc import Iterable

from netconf_tools.drawing.colours import ACCESSES, GUESTS, KINDS, SHARED
from netconf_tools.drawing.picture import height_of
from netconf_tools.source import commands_of, nodes_of
from netconf_tools.text import size_text, views_of
from netconf_tools.text import run as program_output
from tests.case import EXAMPLES, TOOLS, Case, descriptions, outcome

DRAW = TOOLS / "netconf-draw"
QUERY = TOOLS / "netconf-query"
SVG = "{http://www.w3.org/2000/svg}"


def board(devices: int = 180) -> str:
    """A made board: four buses with many devices, memory, eight cores, eight DMA engines behind a window."""
    lines = ["ddr is accept [0x0-0x1ffffffff];", "boot_rom is accept [0x0-0xffff];"]
    for bus in range(4):
        windows = []
        for number in range(devices // 4):
            base = 0xf0000000 + (bus << 24) + number * 0x4000
            name = f"peripheral_bus_{bus}_controller_with_a_long_name_{base:x}"
            lines.append(f"{name} is accept [0x0-{(0xff, 0xfff, 0x3fff)[number % 3]:#x}];")
            windows.append(f"{base:#x}-{base + (0xff, 0xfff, 0x3fff)[number % 3]:#x} to {name} at 0x0")
        lines.append(f"peripherals[{bus}] is map [{', '.join(windows)}];")
    spans = ", ".join(f"{0xf0000000 + (b << 24):#x}-{0xf0ffffff + (b << 24):#x} to peripherals[{b}]" for b in range(4))
    lines.append(f"interconnect is map [0x0-0xefffffff to ddr at 0x0, {spans}, 0xffff0000-0xffffffff to boot_rom at "
                 "0x0];")
    lines.append("dma_window is map [0x40000000-0x7fffffff to interconnect at 0x0];")
    lines += [f"agent cpu[{n}] is over interconnect;" for n in range(8)]
    return "\n".join(lines + [f"agent engine[{n}].dma is over dma_window;" for n in range(8)]) + "\n"


VISIONS = {
    "all hues": ((1, 0, 0), (0, 1, 0), (0, 0, 1)),
    "no red": ((0.152286, 1.052583, -0.204868), (0.114503, 0.786281, 0.099216), (-0.003882, -0.048116, 1.051998)),
    "no green": ((0.367322, 0.860646, -0.227968), (0.280085, 0.672501, 0.047413), (-0.011820, 0.042940, 0.968881)),
    "no blue": ((1.255528, -0.076749, -0.178779), (-0.078411, 0.930809, 0.147602), (0.004733, 0.691367, 0.303900)),
}
"""How those see who lack a sort of cones, as matrices over linear red, green and blue (Machado, Oliveira and Fernandes
2009)."""


def product(one: Iterable[float], other: Iterable[float]) -> float:
    """The sum of the products of the members of two rows."""
    return sum(a * b for a, b in zip(one, other))


def linear(colour: str) -> list[float]:
    """The linear red, green and blue of a colour of sRGB."""
    parts = [int(colour[at:at + 2], 16) / 255 for at in (1, 3, 5)]
    return [part / 12.92 if part <= 0.04045 else math.pow((part + 0.055) / 1.055, 2.4) for part in parts]


def light_of(colour: str) -> float:
    """The relative luminance of a colour."""
    return product((0.2126, 0.7152, 0.0722), linear(colour))


def seen_as(colour: str, matrix: tuple[tuple[float, ...], ...]) -> tuple[float, float, float]:
    """A colour as it is seen, in the space L*a*b*, in which distances are those that are felt."""
    red, green, blue = (min(max(product(row, linear(colour)), 0), 1) for row in matrix)
    parts = ((0.4124 * red + 0.3576 * green + 0.1805 * blue) / 0.9505, 0.2126 * red + 0.7152 * green + 0.0722 * blue,
             (0.0193 * red + 0.1192 * green + 0.9505 * blue) / 1.089)
    x, y, z = (math.cbrt(part) if part > 0.008856 else 7.787 * part + 16 / 116 for part in parts)
    return 116 * y - 16, 500 * (x - y), 200 * (y - z)


def bands_of(picture: str) -> list[list[tuple[float, float]]]:
    """The corners of each band of a picture."""
    found = []
    for element in tree.fromstring(picture).iter(f"{SVG}polygon"):
        points = [point.split(",") for point in element.get("points", "").split()]
        found.append([(float(x), float(y)) for x, y in points])
    return found


def texts_of(picture: str) -> tuple[list[str], str]:
    """The texts of an SVG picture, each in one line, and one string of all."""
    texts = ["".join(element.itertext()) for element in tree.fromstring(picture).iter(f"{SVG}text")]
    return texts, "\n".join(texts)


GUESTS_NET = """dram is accept [0x0-0x7fffffff];
uart is accept [0x0-0xfff];
bus is map [0x1000000-0x1000fff to uart at 0x0, 0x80000000-0xffffffff to dram at 0x0];
module guest(node bus, num base);
ipa is map [0x40000000-0x4fffffff to bus at base];
agent cpu is over ipa;
agent card is map [0x0-0xffff to mmu at 0x0];
unit mmu kind pages page 12 slots 16 reach 32 to ipa;
end;
use guest(node bus, 0x80000000) as a;
use guest(node bus, 0x8ff00000) as b;
agent host is over bus;
"""
"""Two guests whose memories overlap by 1 MiB."""

SHARED_NET = """dram is accept [0x0-0xffff];
bus is over dram;
agent nic is map [0x0-0x1fff to mmu at 0x0];
agent disk is map [0x0-0xfff to mmu at 0x1000];
unit mmu kind pages page 12 slots 2 reach 16 to bus;
"""
SHARED_IMAGE = "444e494d02000100 04000100 02000000 0100000000000000 0101000000000000"
"""Two cards that share a page by a record, and what else both see."""

BUS = """soc is map [0x0-0x3ffff to regs at 0x0 and devices at 0x0, 0x100000-0x10ffff to ram at 0x0];
regs is accept [0x0-0x3ffff];
devices is map [0x10000-0x1ffff to uart at 0x0, 0x30000-0x30fff to timer at 0x0];
uart is accept [0x0-0xffff];
timer is accept [0x0-0xfff];
ram is accept [0x0-0xffff];
agent cpu is over soc;
agent dma is map [0x0-0xfff to iommu at 0x0];
unit iommu kind pages page 12 slots 1 reach 32 to soc;
begin; grant ring dma ram 0x1000 0x1000 for read;
"""


class TestDraw(Case):
    """The pictures of netconf-draw."""

    def check_graph(self, path: pathlib.Path) -> None:
        """The graph of a description has each node's name."""
        status, dot, errors = outcome(DRAW, path)
        self.assertEqual((status, errors), (0, ""), f"the graph of {path.name}")
        names = nodes_of(program_output("check", path.read_bytes())[1])
        plain = html.unescape(dot.replace("  <BR/>", "").replace("<BR/>", "").replace("</B>", "").replace("<B>", ""))
        self.assertEqual([name for name in names if name not in plain], [], f"each node is in the graph of {path.name}")

    def check_laid_out(self, path: pathlib.Path) -> None:
        """Graphviz takes the graph of a description without a word; its SVG is well formed."""
        status, _, errors = outcome("dot", "-Tcanon", text=outcome(DRAW, path)[1])
        self.assertEqual((status, errors), (0, ""), f"Graphviz takes the graph of {path.name}")
        status, picture, errors = outcome(DRAW, "--svg", path)
        self.assertEqual((status, errors), (0, ""), f"the SVG of {path.name}")
        self.assertTrue(tree.fromstring(picture).tag == f"{SVG}svg", f"the SVG of {path.name} is well formed")

    def check_views(self, path: pathlib.Path) -> None:
        """The maps of a description: well formed, with each row's addresses, names and size."""
        agents = [node.name for node in nodes_of(path.read_text("latin-1")).values() if node.role == "agent"]
        status, picture, errors = outcome(DRAW, "--views", path)
        if not agents:
            self.assertEqual((status, errors), (2, f"netconf-draw: {path}: there is no agent, so no view\n"),
                             f"no agent in {path.name}")
            return
        self.assertEqual((status, errors), (0, ""), f"the views of {path.name}")
        changes = [c for c in commands_of(path.read_text("latin-1")) if c.word in ("grant", "route", "revoke")]
        asked = "".join(map(str, changes)) + "".join(f"view {a};" for a in agents)
        views = views_of(program_output("run", (program_output("check", path.read_bytes())[1] + "begin;"
                                                + asked).encode())[1])
        texts, whole = texts_of(picture)
        titles = [element.text for element in tree.fromstring(picture).iter(f"{SVG}title")]
        for agent, rows in views.items():
            self.assertTrue(agent in whole, f"the agent {agent} of {path.name}")
            missing = [row for row in rows if f"{row.lo:#x}-{row.hi:#x}" not in texts or
                       f"{row.lo:#x}-{row.hi:#x} {row.text()} ({size_text(row.hi - row.lo + 1)})" not in titles]
            self.assertEqual(missing, [], f"each row of {agent} of {path.name} stands in the map")

    def test_board(self) -> None:
        """A made board of 200 nodes: both pictures are there, and no larger than can be looked at."""
        path = self.folder / "made_board.net"
        path.write_text(board())
        self.check_graph(path)
        self.check_views(path)
        _, picture, _ = outcome(DRAW, "--views", path)
        size = [float(tree.fromstring(picture).get(side, "")) for side in ("width", "height")]
        self.assertTrue(max(size) < 6000, f"the maps of a board of 200 nodes are of a size to be looked at: {size}")
        _, dot, _ = outcome(DRAW, path)
        self.assertTrue(dot.count("\n\"") < 60, ("the graph of a board of 200 nodes has few boxes and edges",
                                                 dot.count("\n\"")))
        _, dot, _ = outcome(DRAW, "--agent", "engine[0].dma", path)
        self.assertTrue("cpu[0]" not in dot and "ddr" in dot, "what an agent leads to")
        self.need("dot", "graphviz")
        self.check_laid_out(path)
        _, picture, _ = outcome(DRAW, "--svg", path)
        size = [float(tree.fromstring(picture).get(side, "").removesuffix("pt")) for side in ("width", "height")]
        self.assertTrue(max(size) < 4000, f"the graph of a board of 200 nodes is of a size to be looked at: {size}")

    def test_units(self) -> None:
        """A unit shows its shape and its ports, vectors are counted, and maps name what is granted, for each access."""
        _, dot, _ = outcome(DRAW, EXAMPLES / "interrupts.net")
        for shown in ("vectors: 4 slots of an address,", "outputs below 0x100",
                      '"remapper" -> "cpu1" [style=bold, label="port 1"]', "16 vectors", "bold: a port"):
            self.assertTrue(shown in dot, f"{shown} in the graph of interrupts.net: {dot}")
        _, dot, _ = outcome(DRAW, EXAMPLES / "dma_buffers.net")
        for shown in ("pages: 16 slots of 4 KiB,", "outputs below 0x100000000",
                      '"iommu" -> "bus" [style=bold, label="port"]'):
            self.assertTrue(shown in dot, f"{shown} in the graph of dma_buffers.net: {dot}")
        self.assertTrue("bold: a port" not in outcome(DRAW, EXAMPLES / "first_board.net")[1],
                        "no legend of units where there is none")
        text = ("m is accept [0x0-0xffff]; agent a is map [0x0-0x3fff to u at 0x0]; unit u kind pages page 12 slots 4 "
                "reach 16 to m;\nbegin; grant r a m 0x1000 0x1000 for read; grant s a m 0x8000 0x1000; grant t a m "
                "0x9000 0x1000 for write; view a; revoke s;")
        cases: list[tuple[list[str], list[str], list[str]]] = [([], ["0x0-0xfff"], ["granted: r"]),
                                                               (["--write"], ["0x2000-0x2fff"], ["granted: t"])]
        for options, rows, granted in cases:
            status, picture, errors = outcome(DRAW, "--views", *options, "-", text=text)
            texts, _ = texts_of(picture)
            self.assertEqual((status, errors, [t for t in texts
                                               if t in ("0x0-0xfff", "0x1000-0x1fff", "0x2000-0x2fff")],
                              [t for t in texts if "granted" in t]),
                             (0, "", rows, granted), f"what is granted stands in its row {options}")
            self.assertEqual([t for t in texts if t.startswith("1 row")], ["1 row for writing" if options else "1 row"],
                             f"the access of a map {options}")

    def test_bars(self) -> None:
        """A bus whose registers cover its window is one bar beside its devices, and is no name in their rows."""
        status, picture, errors = outcome(DRAW, "--views", "--agent", "cpu", "-", text=BUS)
        texts, _ = texts_of(picture)
        self.assertEqual((status, errors, [text for text in texts if text.startswith("regs")],
                          [text for text in texts if "@0x0" in text]),
                         (0, "", ["regs@0x0"], ["regs@0x0", "uart@0x0", "timer@0x0", "ram@0x0"]),
                         "a bus is drawn once, as a bar")
        titles = [element.text for element in tree.fromstring(picture).iter(f"{SVG}title")]
        self.assertTrue("0x10000-0x1ffff regs@0x10000, uart@0x0 (64 KiB)" in titles,
                        f"a row with a bar has all its names in its title: {titles}")

    def test_comparison(self) -> None:
        """Two agents on one scale: their rows, a line for what they share by what both may do, and the same height for
        an address."""
        status, picture, errors = outcome(DRAW, "--compare", "cpu", "dma", "-", text=BUS)
        texts, _ = texts_of(picture)
        titles = [element.text for element in tree.fromstring(picture).iter(f"{SVG}title")]
        self.assertEqual((status, errors), (0, ""), "a comparison")
        self.assertTrue({"cpu", "dma", "0x100000-0x10ffff", "0x0-0xfff", "ram@0x1000 (read)",
                         "both read there, and not both write"} <= set(texts),
                        f"what a comparison says: {texts}")
        self.assertEqual([title for title in titles if "both" in (title or "")],
                         ["ram@0x1000-0x1fff (4 KiB): both read there, and not both write"])
        status, picture, _ = outcome(DRAW, "--compare", "cpu", "cpu", "-", text=BUS)
        bands = bands_of(picture)
        self.assertTrue(status == 0 and len(bands) > 3)
        for band in bands:
            self.assertEqual((band[0][1], band[4][1]), (band[3][1], band[7][1]),
                             "an agent beside itself has level ribbons")
        self.assertEqual(outcome(DRAW, "--compare", "cpu", "gpu", "-", text=BUS),
                         (2, "", "netconf-draw: -: gpu is not an agent; the agents are: cpu, dma\n"),
                         "a comparison with no agent")

    def test_diff(self) -> None:
        """What an agent gains and loses: a mark for each difference that netconf-query lists, at the height of its
        addresses, and a ribbon to the new place."""
        old, new = self.folder / "old.net", self.folder / "new.net"
        old.write_text(GUESTS_NET)
        new.write_text(GUESTS_NET.replace("0x8ff00000", "0x90000000"))
        status, listed, _ = outcome(QUERY, "diff", old, new)
        self.assertEqual(status, 1)
        wanted = re.findall(r"^  ([-+~] \S+@0x[0-9a-f]+-0x[0-9a-f]+)", listed, re.M)
        status, picture, errors = outcome(DRAW, "--diff", old, new)
        self.assertEqual((status, errors), (0, ""))
        texts, _ = texts_of(picture)
        drawn = [text for text in texts if re.match(r"[-+~] \S+@", text)]
        self.assertEqual(sorted(text.split(" (")[0] for text in drawn), sorted(wanted))
        self.assertEqual(len(bands_of(picture)), len(wanted))
        status, picture, _ = outcome(DRAW, "--diff", old, old)
        self.assertEqual((status, "No agent sees anything else." in picture), (0, True))
        self.assertEqual(outcome(DRAW, "--diff", old, "--agent", "gpu", new)[:2], (2, ""))

    def test_dark(self) -> None:
        """A picture says that it is light on dark where the desktop is, once, and for itself alone."""
        for words in (["--compare", "cpu", "dma"], ["--views"], ["--diff", self.file("old.net", BUS)]):
            picture = outcome(DRAW, *words, "-", text=BUS)[1]
            self.assertEqual(picture.count("prefers-color-scheme: dark) { svg:root {"), 1)

    def file(self, name: str, text: str) -> str:
        """A file with a text."""
        (self.folder / name).write_text(text)
        return str(self.folder / name)

    def test_overlap(self) -> None:
        """What two guests share is shaded in both boxes to scale: the end of one memory, and the beginning of the
        other."""
        status, picture, errors = outcome(DRAW, "--compare", "a.cpu", "b.cpu", "-", text=GUESTS_NET)
        self.assertEqual((status, errors), (0, ""))
        titles = [element.text for element in tree.fromstring(picture).iter(f"{SVG}title")]
        self.assertIn("dram@0xff00000-0xfffffff (1 MiB): both read and write there", titles)
        (band,) = bands_of(picture)
        memory = KINDS["memory"][1]
        boxes = [box for box in tree.fromstring(picture).iter(f"{SVG}rect") if box.get("fill") == memory][:2]
        one, other = ((float(box.get("y", "")), float(box.get("height", ""))) for box in boxes)
        self.assertAlmostEqual(band[6][1], one[0] + one[1], delta=0.2)
        self.assertAlmostEqual(band[2][1], other[0], delta=0.2)
        self.assertTrue(16 <= band[6][1] - band[1][1] < one[1] / 2, "the shaded part of a box")

    def test_modules(self) -> None:
        """The nodes of a module stand in a box, which has a colour of its own in the net and in the maps."""
        dot = outcome(DRAW, "-", text=GUESTS_NET)[1]
        for name, colour in (("a", GUESTS[0]), ("b", GUESTS[1])):
            cluster = re.search(rf'subgraph "cluster {name}" {{\n(.*?)\n}}', dot, re.S)
            self.assertIsNotNone(cluster)
            for part in (f"<B>{name}</B>", colour, f'"{name}.cpu";', f'"{name}.ipa";', f'"{name}.mmu";'):
                self.assertIn(part, cluster[1] if cluster else "")
        self.assertIn("<B>The net of standard input</B>", dot)
        picture = outcome(DRAW, "--views", "-", text=GUESTS_NET)[1]
        texts, _ = texts_of(picture)
        self.assertLessEqual({"What agents see in standard input", "edge: a.*", "edge: b.*",
                              "edge: another map of this picture has some of it"}, set(texts))

    def test_columns(self) -> None:
        """Agents that see the same share a column; one agent's rows and what is shared by records alone can be
        drawn."""
        text = SHARED_NET + "".join(f"agent c{number} is over bus;\n" for number in range(7))
        image = self.folder / "image"
        image.write_bytes(bytes.fromhex(SHARED_IMAGE))
        texts, _ = texts_of(outcome(DRAW, "--audit", "-", image, text=text)[1])
        self.assertLessEqual({"c0", "c1", "c2", "c3", "and 3 more", "nic", "disk",
                              "Column 3: c0, c1, c2, c3, c4, c5, c6"}, set(texts))
        self.assertEqual([word for word in texts if word.startswith("0x")],
                         ["0x0-0xfff", "0x1000-0x1fff", "0x2000-0xffff"])
        shared = "a frame: two or more agents share it by records alone"
        for options, rows in ((["--by-records"], ["0x1000-0x1fff"]),
                              (["--agent", "nic"], ["0x0-0xfff", "0x1000-0x1fff"]),
                              (["--agent", "disk", "--by-records"], ["0x1000-0x1fff"])):
            with self.subTest(options):
                texts, _ = texts_of(outcome(DRAW, "--audit", *options, "-", image, text=text)[1])
                self.assertEqual(([word for word in texts if word.startswith("0x")], shared in texts), (rows, True))
        self.assertEqual(outcome(DRAW, "--by-records", "-", text=text)[0], 2)

    def test_sharing(self) -> None:
        """Who shares what: a row for each span that is shared, cut where rights change, its cells, and frames round
        what is shared by records."""
        example = [EXAMPLES / f"foreign_tables.{end}" for end in ("net", "tables")]
        status, picture, errors = outcome(DRAW, "--audit", *example)
        texts, _ = texts_of(picture)
        titles = [element.text for element in tree.fromstring(picture).iter(f"{SVG}title")]
        frames = [box for box in tree.fromstring(picture).iter(f"{SVG}rect") if box.get("stroke") == SHARED]
        self.assertEqual((status, errors, len(frames)), (0, "", 4),
                         "who shares what: two cells with a frame of two lines")
        self.assertEqual([text for text in texts if text.startswith(("0x", "at 0x", "read", "write"))], [
            "0x4000-0x4fff", "read, write", "at 0x80004000", "read, write", "at 0x0",
            "0x9000-0x9fff", "read, write", "at 0x80009000", "read, write", "at 0x1000", "write", "at 0x1000",
            "0x100000-0x100fff", "read, write", "at 0x80100000", "read", "at 0x0",
            "0x0-0xfff", "read, write", "at 0x10000000", "read, write", "at 0x3000"])
        self.assertTrue({"core0", "disk", "card", "dram", "flash",
                         "Shut out: card_mmu slot 2: bit 1 of its gate word must be 0",
                         "The image has 120 bytes and 5 records."} <= set(texts), f"names of what is shared: {texts}")
        self.assertTrue("dram 0x9000-0x9fff (4 KiB): core0 at 0x80009000-0x80009fff for read and write; disk at "
                        "0x1000-0x1fff for read and write; card at 0x1000-0x1fff for write"
                        in titles, f"a row of what is shared says where each agent has it: {titles}")
        empty = self.folder / "empty_image"
        empty.write_bytes(b"DNIM\2\0\0\0")
        status, picture, errors = outcome(DRAW, "--audit", "-", empty,
                                          text="m is accept [0x0-0xff]; agent a is over m;")
        self.assertEqual((status, errors, "No two agents see the same address of a node." in picture), (0, "", True),
                         "nothing is shared")
        text = "m is accept [0x0-0xffff]; agent a is over m; agent b is map [" + ", ".join(f"{at:#x}-{at + 7:#x} to m "
                                                                                           f"at {at:#x}"
                                                                                           for at in range(0, 16 * 700,
                                                                                                           16)) + "];"
        status, picture, errors = outcome(DRAW, "--audit", "-", empty, text=text)
        self.assertTrue(status == 0
                        and errors.startswith("netconf-draw: -: 700 spans are shared, too many to look at, and the "
                                              "picture has the first 700 rows; "),
                        f"a note on much that is shared: {errors}")
        name = "n" * 100000
        status, picture, errors = outcome(DRAW, "--audit", "-", empty,
                                          text=f"{name} is accept [0x0-0xff]; agent a{name} is over {name}; agent b is "
                                               f"over {name};")
        self.assertTrue((status, errors) == (0, "") and len(picture) < 40000,
                        f"a name of 100,000 letters in what is shared: {(status, errors, len(picture))}")
        cut = self.folder / "cut_image"
        cut.write_bytes(b"DNIM\2\0\2\0")
        troubles: list[tuple[list[object], int, str]] = [
                    (["--audit", example[0], cut], 2,
                     f"{cut}: refused: image Short 8 (netconf-lint --audit shows the place)"),
                    (["--audit", EXAMPLES / "overlapping_windows.net", cut], 2,
                     f"{EXAMPLES / 'overlapping_windows.net'}: refused: Overlap bus@0x1800 (netconf-lint --audit shows "
                     "the place)"),
                    (["--audit", example[0], "none"], 2, "none: No such file or directory")]
        for words, wanted, error in troubles:
            self.assertEqual(outcome(DRAW, *words), (wanted, "", f"netconf-draw: {error}\n"), error)
        wrong: list[list[object]] = [["--audit", example[0]], [example[0], cut]]
        self.assertEqual([outcome(DRAW, *words)[0] for words in wrong], [2, 2],
                         "--audit without an image, and an image without it")

    def test_links(self) -> None:
        """The box of an agent leads to its map, also from a table of agents."""
        text = "".join(f"agent c[{number}] is over m;\n"
                       for number in range(8)) + "m is accept [0x0-0xff]; agent d.x is map [0x0 to m at 0x1];\n"
        _, dot, _ = outcome(DRAW, "--maps", "views.svg", "-", text=text)
        _, picture, _ = outcome(DRAW, "--views", "-", text=text)
        wanted = {f"map-c_5b{number}_5d" for number in range(8)} | {"map-d_2ex"}
        self.assertEqual((set(re.findall(r'views\.svg#([^"]+)"', dot)),
                          {element.get("id") for element in tree.fromstring(picture).iter(f"{SVG}g")} - {None}),
                         (wanted, wanted), "links from boxes to maps")
        self.need("dot", "graphviz")
        _, picture, _ = outcome(DRAW, "--svg", "--maps", "views.svg", "-", text=text)
        self.assertEqual(len(re.findall(r'xlink:href="views\.svg#map-', picture)), 9,
                         "links in the picture of Graphviz")

    def test_large(self) -> None:
        """What is too large to be looked at is drawn, and said; a very long name is cut in pictures and in messages."""
        text = "".join(f"n{number} is accept [0x0-0xf];\na{number} is map [0x0-0xf to n{number} at 0x0] over "
                       f"n{number + 1};\n" for number in range(300)) + "n300 is accept [0x0];\n"
        status, dot, errors = outcome(DRAW, "-", text=text)
        self.assertTrue(status == 0 and dot
                        and errors == "netconf-draw: -: the graph has 601 boxes and 600 edges, too many to look at; "
                        "--agent NAME draws what one agent leads to, and netconf-query who says who sees an address\n",
                        f"a note on a large net: {errors}")
        text = ("bus is map [" + ", ".join(f"{32 * number:#x}-{32 * number + 15:#x} to m at {16 * number:#x}"
                                           for number in range(700))
                + "]; m is accept [0x0-0xffff]; agent a is over bus;")
        status, picture, errors = outcome(DRAW, "--views", "-", text=text)
        self.assertTrue(status == 0 and picture
                        and errors.startswith("netconf-draw: -: the maps have 700 rows, too many"),
                        f"a note on large maps: {errors}")
        status, picture, errors = outcome(DRAW, "--compare", "a", "a", "-", text=text)
        self.assertTrue(status == 0 and picture
                        and errors.startswith("netconf-draw: -: the comparison has 1400 rows, too many"),
                        f"a note on a large comparison: {errors}")
        name = "n" * 100000
        choices: list[list[str]] = [[], ["--views"], ["--compare", "a", "a"]]
        for options in [*choices, *[["--svg"]] * (shutil.which("dot") is not None)]:
            status, picture, errors = outcome(DRAW, *options, "-",
                                              text=f"{name} is accept [0x0-0xff]; agent a is over {name};")
            self.assertTrue((status, errors) == (0, "") and len(picture) < 40000,
                            f"a name of 100,000 letters {options}: {(status, errors, len(picture))}")
        for text in (f"{name} is accept [0x1-0x0];", f"agent {name} is;"):
            _, _, errors = outcome(DRAW, "--agent", name[:-1], "-", text=text)
            self.assertTrue(errors.startswith("netconf-draw: -: ") and len(errors) < 500,
                            f"a message without the whole of a long name: {errors[:600]}")

    def test_readable(self) -> None:
        """Black text stands out on each colour, and the scale shows small beside large."""
        tints = [colour for _, colour in (*KINDS.values(), *ACCESSES.values())]
        self.assertGreater(min(light_of(colour) for colour in tints), 0.3, "a contrast of 7 to 1 with black")
        block, memory = height_of(1 << 12), height_of(1 << 32)
        self.assertTrue(16 <= height_of(1) <= block < memory < 4 * block, f"4 KiB beside 4 GiB: {(block, memory)}")
        self.assertEqual([size_text(n) for n in (1, 512, 4096, 0xfe0, 1536, 1 << 32, (1 << 56) - 1)],
                         ["1 B", "512 B", "4 KiB", "~4 KiB", "1.5 KiB", "4 GiB", "~64 PiB"], "sizes")

    def test_colours(self) -> None:
        """Colours of one legend are told apart by those who see fewer hues; white is told by its dashed box."""
        kinds = [colour for kind, (_, colour) in KINDS.items() if kind != "none"]
        for colours in (kinds, [colour for _, colour in ACCESSES.values()], list(GUESTS)):
            for vision, matrix in VISIONS.items():
                for one, other in itertools.combinations(colours, 2):
                    with self.subTest(vision, colours=(one, other)):
                        self.assertGreater(math.dist(seen_as(one, matrix), seen_as(other, matrix)), 10)

    def test_stable(self) -> None:
        """The same description gives the same bytes, whatever the order in which Python keeps sets."""
        choices: list[list[str]] = [[], ["--views"]]
        for options in choices:
            pictures = {outcome(DRAW, *options, EXAMPLES / "raspi3b.net", PYTHONHASHSEED=seed)[1]
                        for seed in ("1", "2", "3")}
            self.assertEqual(len(pictures), 1, f"the same picture each time {options}")

    def test_troubles(self) -> None:
        """Bad input: one clear line on standard error, nothing on standard output, status 1."""
        made, one = EXAMPLES / "four_cores.net", self.folder / "one.net"
        one.write_text("a is accept [0x0];\n")
        refused = EXAMPLES / "overlapping_windows.net"
        empty = self.folder / "empty"
        empty.mkdir()
        troubles: list[tuple[str, list[object], dict[str, str], str]] = [
            ("a missing file", ["none.net"], {}, "none.net: No such file or directory"),
            ("a folder", [self.folder], {}, f"{self.folder}: Is a directory"),
            ("a refused description", [refused], {},
             f"{refused}: refused: Overlap bus@0x1800 (netconf-lint shows the place)"),
            ("an agent that is none", ["--agent", "dram", one], {},
             f"{one}: dram is not an agent; the agents are: none"),
            ("views of no agent", ["--views", one], {}, f"{one}: there is no agent, so no view"),
            ("no program", [made], {"NETCONF": f"{self.folder}/none"},
             f"{self.folder}/none: no such program (it is named by the variable NETCONF)"),
            ("a program that fails", [made], {"NETCONF": "/bin/false"},
             "netconf check ended with status 1: it does not know these words"),
            ("a program that is another", [made], {"NETCONF": "/bin/echo"},
             f"{made}: netconf printed no net: the text ends inside a statement"),
            ("no dot", ["--svg", made], {"PATH": str(empty)},
             "the program dot is missing: install graphviz, or leave out --svg"),
        ]
        for what, words, variables, wanted in troubles:
            seen = outcome(sys.executable, DRAW, *words, folder=self.folder, **variables)
            self.assertEqual(seen, (2, "", f"netconf-draw: {wanted}\n"), what)
        self.assertEqual(outcome(DRAW)[0], 2, "no file")
        status, dot, _ = outcome(DRAW, "-", text="a is map [0x0-0xf to b and c at 0x0]; b is; c is accept [0x0-0xf];")
        self.assertTrue(status == 0 and re.search("0x0-0xf .copied to 2.", dot),
                        f"standard input, and an entry with two destinations: {dot}")

    def test_graphviz(self) -> None:
        """The graph of each example as Graphviz lays it out."""
        self.need("dot", "graphviz")
        for path in descriptions():
            with self.subTest(path.name):
                self.check_laid_out(path)

    def test_examples(self) -> None:
        """The graph and the maps of each example."""
        for path in descriptions():
            with self.subTest(path.name):
                self.check_graph(path)
                self.check_views(path)
