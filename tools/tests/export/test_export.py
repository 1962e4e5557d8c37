"""The command netconf-export: what it writes and prints, what it refuses and with which line, and what it reads
back."""

import json
import os
import pathlib
import re
import shutil
import subprocess

from netconf_tools.export.memory import Memory
from tests.case import TOOLS, Case, outcome
from tests.export.common import reader
from tests.export.walkers import WALKERS

EXPORT = TOOLS / "netconf-export"
BOARD = """dram is accept [0x0-0x3fffffff];
doorbell is accept [0x0-0xffff];
bus is map [0x40000000-0x7fffffff to dram at 0x0, 0x8080000-0x808ffff to doorbell at 0x0];
agent core is over bus;                              //@ processor
agent card is map [0x0-0xffffff to iommu at 0x0];    //@ /bus/card, stream 0x20, pci 0:4.0
unit iommu kind pages page 12 slots 4096 reach 32 to bus;
agent lines is map [0x0-0x3 to remapper at 0x0];
vectors cpu is accept [0x20-0x2f];
unit remapper kind vectors page 0 slots 4 reach 8 to cpu;
begin;
"""
GRANTS = "grant rx card dram 0x9000 0x2000;\ngrant tx card dram 0x20000 0x1000 for read;\n"
LEFT = "lines is left out: remapper has records of messages, and no pages"


def row(page: int, *entries: int) -> str:
    """Returns a line of what Linux shows of VT-d's tables: a page, and the entries that lead to memory."""
    return f"0x{page:013x} |\t" + "\t".join(f"0x{entry:016x}" for entry in entries) + "\n"


HEADING = "IOVA_PFN\t\tPML5E\t\t\tPML4E\t\t\tPDPE\t\t\tPDE\t\t\tPTE\n"
ABOVE = 0, 0x102b4d003, 0x102b4e003
SHOWN = ("Device 0000:00:04.0 @0x102b4c000\n" + HEADING + row(0, *ABOVE, 0x102b4f003, 0x40009003)
         + row(1, *ABOVE, 0x102b4f003, 0x4000a003) + row(2, *ABOVE, 0x102b4f003, 0x40020001)
         + "\nDevice 0000:00:1f.2 @0x102b50000\n" + HEADING + row(0x200, *ABOVE, 0x40200083, 0) + "\n")
"""What Linux shows of two functions: three pages of the first, and a block of 2 MiB of the second."""


class TestExport(Case):
    """Runs of the command."""

    def net(self, commands: str, board: str = BOARD, name: str = "board.net") -> pathlib.Path:
        """Writes a description, and returns its file."""
        path = self.folder / name
        path.write_text(board + commands)
        return path

    def export(self, *words: object, form: str = "smmuv3-s2", at: str = "0x48000000") -> tuple[int, str, str]:
        """Runs the command in a format."""
        return outcome(EXPORT, "--format", form, *(["--at", at] if at else []), *words)

    def test_buffer(self) -> None:
        """One buffer for one stream: the walk finds exactly it, by what the JSON says."""
        net = self.net(GRANTS)
        for form, walker in WALKERS.items():
            file = self.folder / f"{form}.bin"
            status, text, errors = self.export("--json", "--output", file, net, form=form)
            self.assertEqual((status, errors), (0, f"netconf-export: {net}: {LEFT}\n"))
            found = json.loads(text)
            self.assertEqual(found["bytes"], file.stat().st_size)
            unit = found["units"][0]
            registers = {register["name"]: int(register["value"], 16) for register in unit["registers"]}
            number = int(unit["agents"][0]["entries"][0]["number"], 16)
            read = reader(Memory(0x48000000, file.read_bytes()))
            for page in range(0, 0x1000000, 0x1000):
                want = {0x0: 0x40009000, 0x1000: 0x4000a000, 0x2000: 0x40020000}.get(page)
                seen = walker(read, registers, number, page, False), walker(read, registers, number, page, True)
                self.assertEqual(seen, (want, want if page < 0x2000 else None), f"{form} {page:#x}")

    def test_text_and_header(self) -> None:
        """The text names the root and the entry, and the header compiles and has the same numbers."""
        net = self.net(GRANTS)
        _, text, _ = self.export(net)
        self.assertRegex(text, r"(?m)^card +stream 0x20 +0x48000800 +0x48001000 +1 +2$")
        self.assertRegex(text, r"(?m)^SMMU_STRTAB_BASE_CFG +0x88 +0x6$")
        _, header, _ = self.export("--c", "--prefix", "arm", net)
        self.assertIn("#define ARM_CARD_ROOT UINT64_C(0x48001000)\n", header)
        self.need("gcc", "gcc")
        source = self.folder / "use.c"
        source.write_text(header + "int size(void) { static const uint64_t words[] = ARM_FORGET_ALL; return (int)"
                          "(sizeof words / sizeof *words + ARM_SIZE - ARM_SIZE + (words[0] != 4)); }\n")
        done = subprocess.run(["gcc", "-std=c99", "-Wall", "-Wextra", "-Wpedantic", "-Werror", "-c", source, "-o",
                               os.devnull],
                              capture_output=True, text=True, check=False)
        self.assertEqual((done.returncode, done.stderr), (0, ""))

    def refused(self, commands: str, form: str, *words: str, board: str = BOARD) -> list[str]:
        """Returns the lines of a refusal, without those of what is left out."""
        net = self.net(commands, board)
        status, output, errors = self.export(*words, net, form=form)
        self.assertEqual((status, output), (1, ""), errors)
        return [line.removeprefix(f"netconf-export: {net}") for line in errors.splitlines() if LEFT not in line]

    def test_writing_alone(self) -> None:
        """Writing without reading is refused in the two formats that lack it, with the line of the grant."""
        for form in ("smmuv3-s1", "riscv"):
            lines = self.refused(GRANTS + "grant log card dram 0x30000 0x1000 for write;\n", form)
            self.assertEqual(lines,
                             [f":13: log: card 0x3000-0x3fff: {form} has no writing without reading: grant it for "
                              "both, or take a format that has it"])

    def test_no_page(self) -> None:
        """A row that is no page is refused."""
        board = BOARD.replace("page 12 slots 4096", "page 8 slots 4096").replace("[0x0-0xffffff to iommu",
                                                                                 "[0x0-0xfffff to iommu")
        lines = self.refused("grant small card dram 0x9100 0x100;\n", "vtd", board=board)
        self.assertEqual(lines,
                         [":11: small: card 0x0-0xff: it is not a whole number of pages of 0x1000: 0x0-0xff at "
                          "0x40009100 for read "
                          "and write"])

    def test_wide(self) -> None:
        """An address past the width is refused, with the width that has it; if none is asked for it is taken."""
        board = BOARD.replace("[0x0-0xffffff to iommu", "[0x8000000000-0x8000ffffff to iommu")
        lines = self.refused(GRANTS, "smmuv3-s2", "--bits", "39", board=board)
        self.assertEqual(lines,
                         [":11: rx: card 0x8000000000-0x8000001fff: tables of 39 bits end at 0x7fffffffff: --bits 40 "
                          "translates it",
                          ":12: tx: card 0x8000002000-0x8000002fff: tables of 39 bits end at 0x7fffffffff: "
                          "--bits 40 translates it"])
        status, text, _ = self.export(self.net(GRANTS, board))
        self.assertEqual((status, text.split(",")[1]), (0, " 40 bits"))

    def test_no_host(self) -> None:
        """Memory that the host does not have is refused, and a host that is not named."""
        board = BOARD.replace("0x40000000-0x7fffffff to dram at 0x0, ", "0x40000000-0x40ffffff to dram at 0x0, ", 1)
        board = board.replace(" to bus;\nagent lines",
                              " to wide;\nwide is map [0x40000000-0x7fffffff to dram at 0x0];\nagent lines")
        lines = self.refused("grant far card dram 0x2000000 0x1000;\n", "amd", board=board)
        self.assertEqual(lines, [":12: far: card 0x0-0xfff: core has no address for dram@0x2000000"])
        net = self.net(GRANTS, BOARD.replace("//@ processor", ""))
        status, _, errors = self.export(net)
        self.assertEqual((status, "--host has to name" in errors), (2, True))
        self.assertEqual(self.export("--host", "core", net)[0], 0)

    def test_streams(self) -> None:
        """Agents with one stream share tables if they see the same, and are refused if they do not."""
        board = BOARD.replace("agent lines",
                              "agent twin is map [0x0-0xffffff to iommu at 0x0];  //@ stream 0x20\nagent lines")
        status, text, _ = self.export(self.net("", board))
        self.assertEqual(status, 0)
        board = BOARD.replace("agent lines",
                              "agent twin is map [0x0-0xfff to iommu at 0x0];  //@ stream 0x20\nagent lines")
        net = self.net("", board.replace("slots 4096", "slots 4096"))
        self.assertEqual(self.export(net)[0], 0, "both see nothing")
        other = BOARD.replace("agent lines",
                              "agent twin is map [0x0-0xfff to second at 0x0];  //@ stream 0x20\nunit second kind "
                              "pages page 12 slots 1 reach 32 to bus;\nagent lines")
        status, _, errors = self.export(self.net(GRANTS, other))
        self.assertEqual((status, "card and twin both have the number 0x20" in errors), (2, True))

    def test_no_number(self) -> None:
        """Tables of an agent without a number are made, and it is said that no entry leads to them."""
        net = self.net(GRANTS, BOARD.replace("stream 0x20, ", ""))
        status, text, errors = self.export(net)
        self.assertEqual(status, 0)
        self.assertIn("no entry leads to the tables of card: no note says its number: `//@ stream 0x10`", errors)
        self.assertRegex(text, r"(?m)^card +- +- +0x48001000 +1 +2$")

    def test_device(self) -> None:
        """A doorbell is device memory in both stages of an SMMU."""
        net = self.net("grant msi card doorbell 0x0 0x1000;\n")
        for form, bits, want in (("smmuv3-s1", 7 << 2, 1 << 2), ("smmuv3-s2", 0xf << 2, 1 << 2)):
            file = self.folder / "device.bin"
            self.assertEqual(self.export("--device", "doorbell", "--output", file, net, form=form)[0], 0)
            words = Memory(0x48000000, file.read_bytes()).words
            leaf = next(word for word in words if word >> 12 == 0x8080)
            self.assertEqual(leaf & bits, want)
        self.assertEqual(self.export("--device", "nothing", net)[0], 2)

    def test_changes(self) -> None:
        """The lines of a change: what is cleared, the fence with its commands, and what is written."""
        first, second = self.net(GRANTS, name="first.net"), self.net("grant tx card dram 0x20000 0x1000 for read;\n",
                                                                     name="second.net")
        old, new = self.folder / "old.bin", self.folder / "new.bin"
        self.export("--output", old, first)
        for source in (old, first):
            status, text, _ = self.export("--changes", source, "--output", new, second)
            self.assertEqual(status, 0)
            lines = text.splitlines()
            self.assertEqual(lines[:5], ["write 0x48003000 0x0", "write 0x48003008 0x0", "write 0x48003010 0x0",
                                         "fence",
                                         "command 0x100000028 0x0  # CMD_TLBI_S12_VMALL vmid 1"])
            self.assertEqual(lines[5:], ["command 0x46 0x0  # CMD_SYNC: done when the queue has passed it",
                                         "write 0x48003000 0x4002077f"])
        self.assertEqual(self.export("--changes", new, second)[1], "")
        status, text, _ = self.export("--changes", old, "--json", second)
        self.assertEqual(json.loads(text)[3], {"fence": True})

    def test_changes_refused(self) -> None:
        """Tables that are none of the tool's are refused."""
        net = self.net(GRANTS)
        for data in (b"\0" * 10, b"\xff" * 8191 + b"\0", b"\0" * 0x800 + b"\x0d" + b"\0" * 0x7ff):
            wrong = self.folder / "wrong.bin"
            wrong.write_bytes(data)
            status, output, errors = self.export("--changes", wrong, net)
            self.assertEqual((status, output), (2, ""), errors)
            self.assertEqual(errors.count("Traceback"), 0, errors)

    def test_changes_of_numbers(self) -> None:
        """Tables whose stream table was larger or smaller are refused; room for all numbers keeps its size."""
        more = ("agent other is map [0x0-0xfff to second at 0x0];  //@ stream 0x55\n"
                "unit second kind pages page 12 slots 1 reach 32 to bus;\n")
        large, small = self.net(GRANTS, BOARD.replace("agent lines", more + "agent lines"),
                                "large.net"), self.net(GRANTS)
        old = self.folder / "old.bin"
        for form in ("smmuv3-s1", "smmuv3-s2"):
            for before, after in ((large, small), (small, large)):
                self.export("--output", old, before, form=form)
                status, output, errors = self.export("--changes", old, after, form=form)
                self.assertEqual((status, output), (2, ""), errors)
                self.export("--room", "256", "--output", old, before, form=form)
                self.assertEqual(self.export("--room", "256", "--changes", old, after, form=form)[0], 0)

    def test_import_image(self) -> None:
        """An image of tables that were made is that of the description."""
        net = self.net(GRANTS)
        dump = outcome(os.environ["NETCONF"], "run", text=net.read_text() + "dump;")[1]
        wanted = subprocess.run([TOOLS / "netconf-dump2bin"], input=dump.encode(), capture_output=True,
                                check=True).stdout
        for form in WALKERS:
            tables, image = self.folder / "tables.bin", self.folder / "image.bin"
            _, text, _ = self.export("--json", "--output", tables, net, form=form)
            registers = [register["value"] for register in json.loads(text)["units"][0]["registers"]]
            words = ["--root", registers[0], *(["--config", registers[1]] if registers[1:] else [])]
            status, _, errors = self.export("--import", tables, *words, "--output", image, net, form=form)
            self.assertEqual((status, errors), (0, f"netconf-export: {net}: {LEFT}\n"))
            self.assertEqual(image.read_bytes(), wanted, form)

    def test_import_losses(self) -> None:
        """Tables that say more than an image can are refused, with what it is; `--partial` writes the rest."""
        net, small = self.net(GRANTS), self.net("", BOARD.replace("[0x0-0xffffff to iommu", "[0x0-0xfff to iommu"),
                                                "small.net")
        tables = self.folder / "tables.bin"
        self.export("--output", tables, net)
        words = ["--import", tables, "--root", "0x48000000", "--config", "0x6"]
        status, output, errors = self.export(*words, small)
        self.assertEqual((status, output), (1, ""))
        self.assertIn("not in the image: card 0x1000-0x1fff: it comes to no unit of the description with these "
                      "addresses", errors)
        status, _, errors = self.export(*words, "--partial", "--output", self.folder / "image.bin", small)
        self.assertEqual((status, "not in the image" in errors), (0, True))
        status, _, errors = self.export("--import", tables, "--root", "0x48000000", small)
        self.assertEqual((status, "--config" in errors), (2, True))

    def test_import_broken(self) -> None:
        """Tables with turned bits never break the tool off, and a file that is too short is said to be so."""
        tables = self.folder / "tables.bin"
        self.export("--output", tables, self.net(GRANTS))
        data = tables.read_bytes()
        for place in range(0, len(data), 1361):
            turned = bytearray(data)
            turned[place] ^= 0x5b
            tables.write_bytes(turned)
            status, _, errors = self.export("--import", tables, "--root", "0x48000000", "--config", "0x6")
            self.assertIn(status, (0, 2), errors)
            self.assertNotIn("Traceback", errors)
        tables.write_bytes(data[:0x1800])
        status, _, errors = self.export("--import", tables, "--root", "0x48000000", "--config", "0x6")
        self.assertEqual((status, "which the file does not have" in errors), (2, True))

    def test_debugfs(self) -> None:
        """What Linux shows of VT-d's tables becomes a description, and an image."""
        shown = self.folder / "domain_translation_struct"
        shown.write_text(SHOWN)
        status, text, errors = self.export("--import", shown, "--debugfs", form="vtd", at="")
        self.assertEqual((status, errors), (0, ""))
        self.assertIn("agent pci_00_04_0.read is map [0x0-0x1fff to host at 0x40009000, 0x2000-0x2fff to host at "
                      "0x40020000];", text)
        self.assertIn("agent pci_00_1f_2 is map [0x200000-0x3fffff to host at 0x40200000];", text)
        image = self.folder / "image.bin"
        net = self.net("")
        self.assertEqual(self.export("--import", shown, "--debugfs", "--number", "0x20", "--output", image, net,
                                     form="vtd", at="")[0], 0)
        status, _, errors = self.export("--import", shown, "--debugfs", net, form="vtd", at="")
        self.assertEqual((status, "number 0xfa: no agent has it" in errors), (1, True))
        shown.write_text("Device 0000:00:04.0 @0x102b4c000\nsomething else\n")
        self.assertEqual(self.export("--import", shown, "--debugfs", form="vtd", at="")[0], 2)

    def test_words(self) -> None:
        """Words that do not go together are refused."""
        net = self.net(GRANTS)
        several: list[list[object]] = [
                      ["--at", "0x48000001", net], [net], ["--at", "0x48000000"],
                      ["--at", "0", "--changes", net, "--c", net],
                      ["--at", "0", "--bits", "41", net], ["--import", net, net], ["--import", net, "--json"]]
        for words in several:
            status, output, _ = self.export(*words, at="")
            self.assertEqual((status, output), (2, ""), words)

    def test_shown(self) -> None:
        """What the manual page shows is what is printed."""
        manual = (TOOLS.parent / "docs/netconf-export.1").read_text()
        hit = re.search(r"^\$ cat card.net\n(.*?)^\$ netconf-export (.*?) card.net\n(.*?)^\.Ed", manual, re.S | re.M)
        assert hit is not None
        (self.folder / "card.net").write_text(hit[1])
        self.assertEqual(outcome(EXPORT, *hit[2].split(), "card.net", folder=self.folder), (0, hit[3], ""))

    def test_boards(self) -> None:
        """On a Juno with one grant the walk finds exactly the buffer; the tree is that of a kernel's package."""
        trees = os.environ.get("TREES", "")
        tree = pathlib.Path(trees) / "arm/juno-r2.dtb"
        if not tree.exists():
            self.skipTest("the trees of the boards: the variable TREES names no folder that has arm/juno-r2.dtb")
        if shutil.which("dtc") is None:
            self.skipTest("dtc is missing; as root: tools/install-needs")
        status, text, errors = outcome(TOOLS / "netconf-import", tree)
        self.assertEqual(status, 0, errors)
        agents = re.findall(r"^agent (\S+) is .*//@ .*?stream (0x\w+)", text, re.M)
        self.assertTrue(agents)
        memory = next(name for name in re.findall(r"^(\S+) is accept", text, re.M) if name.startswith("memory_8"))
        host = re.search(r"^agent (\S+) .*//@ /cpus/", text, re.M)
        assert host is not None
        agent, stream = agents[0]
        net = self.net(text.replace("begin;", "") + f"begin;\ngrant ring {agent} {memory} 0x9000 0x2000;\n", "",
                       "juno.net")
        file = self.folder / "juno.bin"
        status, text, errors = self.export("--host", host[1], "--agent", agent, "--json", "--output", file, net,
                                           at="0x880000000")
        self.assertEqual(status, 0, errors)
        unit = json.loads(text)["units"][0]
        registers = {register["name"]: int(register["value"], 16) for register in unit["registers"]}
        read = reader(Memory(0x880000000, file.read_bytes()))
        rows = unit["agents"][0]["rows"]
        self.assertEqual(len(rows), 1, rows)
        first, last, at = (int(rows[0][key], 16) for key in ("first", "last", "host"))
        self.assertEqual((last - first, at & 0xffff), (0x1fff, 0x9000))
        for page in range(max(first - 0x4000, 0), last + 0x4000, 0x1000):
            seen = WALKERS["smmuv3-s2"](read, registers, int(stream, 16), page, True)
            self.assertEqual(seen, at + page - first if first <= page <= last else None)
