"""Tests the reader of ACPI's tables: over tables made by hand, those of QEMU's machines, and broken ones."""
import contextlib
import io
import random
import re
import time
from pathlib import Path

from netconf_tools.cli import import_
from netconf_tools.text import run as answer_of
from tests.acpi import build, qemu
from tests.case import Case

LSPCI = """Slot:\t00:02.0
Class:\t0300
Vendor:\t8086
Device:\t1234
IOMMUGroup:\t0

Slot:\t00:1c.0
Class:\t0604
Vendor:\t8086
Device:\t9d10
IOMMUGroup:\t1

Slot:\t01:00.0
Class:\t0200
Vendor:\t10ec
Device:\t8168
IOMMUGroup:\t2

Slot:\t01:00.1
Class:\t0c03
Vendor:\t10ec
Device:\t8169
IOMMUGroup:\t2

Slot:\t0001:05:00.0
Class:\t0108
Vendor:\t144d
Device:\ta808
"""
IOMEM = """00000000-00000fff : Reserved
00001000-0009ffff : System RAM
000a0000-000bffff : PCI Bus 0000:00
00100000-3fffffff : System RAM
  01000000-01ffffff : Kernel code
  02000000-020fffff : reserved
e0000000-efffffff : PCI Bus 0000:00
  e0000000-e00fffff : 0000:00:02.0
fec00000-fec003ff : IOAPIC 0
"""
PC = {"APIC": build.madt(build.local_apic(0), build.local_apic(1), build.local_apic(2, 0), build.io_apic(0xfec00000)),
      "SRAT": build.srat((0, 0xa0000, 1), (0x100000, 0x3ff00000, 1), (0x100000000, 0x1000, 0)),
      "MCFG": build.mcfg(0xb0000000, 0, 0, 255),
      "DMAR": build.dmar(39, build.drhd(0xfed90000, 0, 0, build.scope(1, 0, (2, 0))),
                         build.drhd(0xfed91000, 0, 1, build.scope(3, 0xf0, (31, 0)), build.scope(2, 0, (0x1c, 0))),
                         build.rmrr(0x3f000000, 0x3f0fffff, build.scope(1, 0, (2, 0))))}
"""A PC: two processors that are there, one IOMMU for its display and one for all else, and memory that the display
has to see."""


def run(*words: str) -> tuple[int, str, list[str]]:
    """The status, the output and the lines on standard error of the importer."""
    output, errors = io.StringIO(), io.StringIO()
    with contextlib.redirect_stdout(output), contextlib.redirect_stderr(errors):
        status = import_.main(list(words))
    return status, output.getvalue(), errors.getvalue().splitlines()


def checked(description: str) -> list[str]:
    """The lines that `netconf check` prints of a description, which it takes."""
    status, output = answer_of("check", description.encode())
    if status:
        raise AssertionError(output)
    return output.splitlines()


class TestTables(Case):
    """Tables made by hand."""

    def write(self, tables: dict[str, bytes]) -> str:
        """A folder with the tables, each a file."""
        folder = self.folder / "tables"
        folder.mkdir()
        for name, data in tables.items():
            (folder / name).write_bytes(data)
        return str(folder)

    def statements(self, *words: str) -> list[str]:
        """The statements of a description that the program takes, without their comments."""
        status, output, errors = run(*words)
        self.assertEqual(status, 0, errors)
        return checked(output)

    def test_pc(self) -> None:
        """Memory, registers, processors and IOMMUs of a PC, as the specification of each table has them."""
        words = ["--acpi", self.write(PC)]
        found = self.statements(*words)
        self.assertIn("memory_100000 is accept [0x0-0x3fefffff];", found)
        self.assertIn("vtd_1 is accept [0x0-0xfff];", found)
        self.assertIn("pci_0_configuration is accept [0x0-0xfffffff];", found)
        self.assertIn("unit pci_0_2_0.iommu kind pages page 12 slots 65536 reach 39 to system;", found)
        self.assertIn("unit pci_0_others.iommu kind pages page 12 slots 65536 reach 39 to system;", found)
        self.assertEqual([line for line in found if line.startswith("agent")],
                         ["agent cpu_0 is over system;",
                          "agent pci_0_2_0 is map [0x0-0xfffffff to pci_0_2_0.iommu at 0x0];",
                          "agent pci_0_others is map [0x0-0xfffffff to pci_0_others.iommu at 0x0];"])
        _status, output, errors = run(*words)
        self.assertIn("//@ memory_100000 is reserved 0x3ef00000-0x3effffff, RMRR for pci 0:2.0, which has to see it at "
                      "these addresses of the machine\n", output)
        self.assertEqual(len(errors), 2, errors)
        self.assertIn("behind the bridge pci 0:1c.0", errors[1])

    def test_functions(self) -> None:
        """The functions of a machine: those of one group are one agent, a bridge is none, and each has its own I/O
        MMU."""
        (self.folder / "pci").write_text(LSPCI)
        (self.folder / "iomem").write_text(IOMEM)
        folder = self.write(PC)
        words = ["--acpi", folder, "--pci", str(self.folder / "pci"), "--iomem", str(self.folder / "iomem")]
        _status, output, _errors = run(*words)
        self.assertEqual(re.findall(r"^agent (\S+) .*//@ (.*)$", output, re.M), [
            ("cpu_0", "2 processors that see the same"), ("pci_0_2_0", "pci 0:2.0, device 8086:1234"),
            ("pci_1_0_0", "pci 1:0.0, device 10ec:8168, with pci 1:0.1, device 10ec:8169"),
            ("pci_1_5_0_0", "pci 5:0.0, segment 1, device 144d:a808, 1:1 behind no IOMMU")])
        self.assertEqual(re.findall(r"^unit (\S+) .*//@ (\S+), ", output, re.M),
                         [("pci_0_2_0.iommu", "vtd_0"), ("pci_1_0_0.iommu", "vtd_1")])
        self.assertIn("//@ memory_100000 is reserved 0x1f00000-0x1ffffff, reserved by /proc/iomem\n", output)
        found = self.statements(*words)
        self.assertIn("PCI_Bus_0000_00_e0000000 is accept [0xe0000000-0xefffffff];", found)
        self.assertEqual(len(self.statements(*words, "--cores", "all")), len(found) + 1)

    def test_many_functions(self) -> None:
        """Functions that no IOMMU translates for are one agent where there are more than fit; others are left out."""
        records = [f"Slot:\t{number >> 3:02x}:{number & 7:02x}.0\nClass:\t0200\n\n" for number in range(100)]
        (self.folder / "pci").write_text("".join(records))
        folder = self.write({"APIC": PC["APIC"], "SRAT": PC["SRAT"]})
        _status, output, errors = run("--acpi", folder, "--pci", str(self.folder / "pci"))
        self.assertEqual((output.count("\nagent "), output.count("//- "), len(errors)), (2, 0, 0))
        (Path(folder) / "DMAR").write_bytes(build.dmar(46, build.drhd(0xfed90000, 0, 1)))
        _status, output, errors = run("--acpi", folder, "--pci", str(self.folder / "pci"))
        self.assertEqual((output.count("\nagent "), output.count("\n//- pci "), len(errors)), (64, 37, 37))

    def test_amd(self) -> None:
        """IOMMUs of AMD: of two blocks on one the higher type counts, a range, and a device that comes as another."""
        tables = {"SRAT": PC["SRAT"], "IVRS": build.ivrs(
            build.ivhd(0x10, 2, 0xfeb80000, build.entry(2, 0x99)),
            build.ivhd(0x11, 2, 0xfeb80000, build.entry(3, 0x8), build.entry(4, 0xf), build.entry(2, 0xa0),
                       build.entry(0x42, 0x200, 0x100)),
            build.ivmd(0x21, 0xa0, 0, 0x200000, 0x1000))}
        folder = self.write(tables)
        _status, output, _errors = run("--acpi", folder)
        self.assertEqual(re.findall(r"^unit (\S+) .*//@ amd_0, for (.*)$", output, re.M), [
            ("pci_0_1_0_and_on.iommu", "a function from pci 0:1.0 to pci 0:1.7"), ("pci_0_14_0.iommu", "pci 0:14.0"),
            ("pci_2_0_0.iommu", "pci 2:0.0"), ("pci_1_0_0.iommu", "pci 1:0.0")])
        self.assertIn("//@ memory_100000 is reserved 0x100000-0x100fff, IVMD for pci 0:14.0, ", output)
        (self.folder / "pci").write_text("Slot:\t01:00.0\nClass:\t0200\n\nSlot:\t02:00.0\nClass:\t0200\n\n"
                                         "Slot:\t00:13.0\nClass:\t0200\n")
        _status, output, _errors = run("--acpi", folder, "--pci", str(self.folder / "pci"))
        self.assertEqual(re.findall(r"^agent (\S+) .*//@ (.*)$", output, re.M), [
            ("pci_1_0_0", "pci 1:0.0, device ?:?, with pci 2:0.0, device ?:?"),
            ("pci_0_13_0", "pci 0:13.0, device ?:?, 1:1 behind no IOMMU")])

    def test_amd_others(self) -> None:
        """What an IVRS names that is no function of PCI is left out with a line: an I/O APIC, and a device of ACPI."""
        special = bytes([0x48, 0, 0, 0, 33, 0xa0, 0, 1])
        named = bytes([0xf0, 0xa5, 0, 0]) + b"AMDI0020" + bytes(8) + bytes([0, 2]) + b"ab"
        block = build.ivhd(0x40, 2, 0xfeb80000, build.entry(2, 0xa0), special, named)
        _status, output, _errors = run("--acpi", self.write({"SRAT": PC["SRAT"], "IVRS": build.ivrs(block)}))
        self.assertEqual(re.findall(r"^// left out: IVRS: (.*)$", output, re.M), [
            "the I/O APIC 33, which sends as pci 0:14.0: it is not an agent",
            "the device AMDI0020, which sends as pci 0:14.5: it is not an agent"])

    def test_arm(self) -> None:
        """SMMUs of Arm: which requesters become which streams, and the doorbell of an ITS that the SMMU translates."""
        smmu = build.node(4, (0x2b400000).to_bytes(8, "little") + bytes(44))
        root = build.node(2, bytes(12) + (0).to_bytes(4, "little") + bytes(4), build.mapping(0x100, 0x100, 0x1100, 48),
                          build.mapping(0x0, 1, 0x0, 48 + len(smmu), 1))
        reserved = build.node(6, bytes(4) + (1).to_bytes(4, "little") + (28).to_bytes(4, "little")
                              + (0x80001000).to_bytes(8, "little") + (0x2000).to_bytes(8, "little") + bytes(4))
        folder = self.write({"IORT": build.iort(smmu, root, reserved), "SRAT": build.srat((0x80000000, 0x10000000, 1)),
                             "APIC": build.madt(build.gic_its(0x2f020000))})
        _status, output, _errors = run("--acpi", folder)
        self.assertEqual(re.findall(r"^agent (\S+) .*//@ (.*)$", output, re.M), [
            ("pci_1_0_0_and_on", "a function from pci 1:0.0 to pci 1:1f.7, streams 0x1100-0x11ff"),
            ("pci_0_untranslated", "functions of segment 0 that no IOMMU names, 1:1 behind no IOMMU")])
        self.assertIn("//@ memory_80000000 is reserved 0x1000-0x2fff, RMR for no stream, ", output)
        self.assertIn("// grant doorbell_1 pci_1_0_0_and_on gic_its 0x10000 0x1000 for write;\n", output)
        (self.folder / "pci").write_text("Slot:\t01:02.1\nClass:\t0200\n\nSlot:\t00:01.0\nClass:\t0200\n")
        _status, output, _errors = run("--acpi", folder, "--pci", str(self.folder / "pci"))
        self.assertEqual(re.findall(r"^agent (\S+) .*//@ (.*)$", output, re.M), [
            ("pci_1_2_1", "pci 1:2.1, stream 0x1111, device ?:?"),
            ("pci_0_1_0", "pci 0:1.0, device ?:?, 1:1 behind no IOMMU")])

    def test_riscv(self) -> None:
        """IOMMUs of RISC-V: which requesters become which devices, of several mappings the first, an IOMMU that is
        itself a function, a mapping to none, and a device of ACPI."""
        one, two = build.riscv_iommu(0x3010000), build.riscv_iommu(0, 1, 0x8)
        second = 48 + len(one)
        root = build.riscv_root(0, build.mapping(0x100, 0x100, 0x1100, 48), build.mapping(0x180, 0x100, 0x80, second),
                                build.mapping(0x400, 0x10, 0, 7))
        device = build.riscv_device(b"\\_SB.DMA0", build.mapping(0, 1, 0x40000, 48))
        folder = self.write({"RIMT": build.rimt(one, two, root, device),
                             "SRAT": build.srat((0x80000000, 0x10000000, 1)), "MCFG": PC["MCFG"]})
        _status, output, _errors = run("--acpi", folder)
        self.assertEqual(re.findall(r"^agent (\S+) .*//@ (.*)$", output, re.M), [
            ("pci_1_0_0_and_on", "a function from pci 1:0.0 to pci 1:1f.7, streams 0x1100-0x11ff"),
            ("pci_2_0_0_and_on", "a function from pci 2:0.0 to pci 2:f.7, streams 0x100-0x17f"),
            ("pci_0_untranslated", "functions of segment 0 that no IOMMU names, 1:1 behind no IOMMU")])
        self.assertIn("unit pci_1_0_0_and_on.iommu kind pages page 12 slots 65536 reach 56 to system; //@ riscv_0, ",
                      output)
        self.assertIn("    0x3010000-0x3010fff to riscv_0 at 0x0", output)
        self.assertEqual(re.findall(r"^// left out: (.*(?:RIMT|riscv).*)$", output, re.M), [
            "riscv_1 is the function pci 0:1.0: where its registers are stands in no table",
            "RIMT: no IOMMU stands at byte 7, to which requesters 0x400-0x40f of segment 0 go",
            "the device \\_SB.DMA0 of ACPI accesses memory and is not an agent: stream 0x40000 of riscv_0"])
        self.statements("--acpi", folder)
        (self.folder / "pci").write_text("Slot:\t01:02.1\nClass:\t0200\n\nSlot:\t04:01.0\nClass:\t0200\n")
        _status, output, _errors = run("--acpi", folder, "--pci", str(self.folder / "pci"))
        self.assertEqual(re.findall(r"^agent (\S+) .*//@ (.*)$", output, re.M), [
            ("pci_1_2_1", "pci 1:2.1, stream 0x1111, device ?:?"),
            ("pci_4_1_0", "pci 4:1.0, device ?:?, 1:1 behind no IOMMU")])

    def test_riscv_broken(self) -> None:
        """RIMTs that are broken are passed over with the cause, and the rest of the machine is read."""
        unit = build.riscv_iommu(0x3010000)
        cases = [
            (build.rimt(unit, b"\x01\x01\x00\x00"), "a node at byte 88 has length 0, and 4 bytes are left"),
            (build.rimt(unit[:-8]), "a node at byte 48 has length 40, and 32 bytes are left"),
            (build.rimt(build.rimt_node(0, bytes(8))), "it ends before byte 28"),
            (build.rimt(unit, build.rimt_node(1, bytes(10) + b"\x02\x00")), "2 mappings from byte 0 of a node of 20"),
            (build.rimt(build.rimt_node(2, b"\xff\xff\x01\x00")), "1 mappings from byte 65535 of a node of 12"),
            (build.table(b"RIMT", bytes([1, 0, 0, 0, 200] + [0] * 7)), "it ends before byte 204"),
            (build.table(b"RIMT", bytes([0, 0, 1, 0, 48] + [0] * 7)), "65536 nodes, and at most 4096 are read"),
            (build.table(b"RIMT", b""), "it ends before byte 40")]
        for number, (table, cause) in enumerate(cases):
            folder = self.folder / f"broken_{number}"
            folder.mkdir()
            for name, data in (("RIMT", table), ("SRAT", PC["SRAT"]), ("APIC", PC["APIC"])):
                (folder / name).write_bytes(data)
            status, output, errors = run("--acpi", str(folder))
            self.assertEqual((status, output.count("\nagent ")), (0, 1), errors)
            self.assertTrue(any(line.endswith(f"the table RIMT is passed over: {cause}") for line in errors), errors)

    def test_dump(self) -> None:
        """The text that acpidump prints has the same tables as a folder."""
        text = ""
        for name, data in PC.items():
            text += f"{name} @ 0x0000000000000000\n"
            for at in range(0, len(data), 16):
                text += f"    {at:04X}: {data[at:at + 16].hex(' ').upper():<48} ................\n"
            text += "\n"
        (self.folder / "dump").write_text(text)
        self.assertEqual(run("--acpi", str(self.folder / "dump"))[1].splitlines()[2:],
                         run("--acpi", self.write(PC))[1].splitlines()[2:])

    def test_refused(self) -> None:
        """What is no table, no text of lspci or iomem, and options that go together with none, with the cause."""
        folder = self.write(PC)
        (self.folder / "none").write_text("nothing\n")
        (self.folder / "zeros").write_text("00000000-00000000 : System RAM\n")
        none = str(self.folder / "none")
        (self.folder / "wrong").mkdir()
        (self.folder / "wrong/APIC").write_bytes(PC["APIC"][:-1] + b"\x01")
        cases: list[tuple[list[str], str]] = [
            (["--acpi", none], "none of the tables"), (["--acpi", "/nowhere"], "No such file"),
            (["--acpi", folder, "--pci", none], "no function of PCI"),
            (["--acpi", str(self.folder / "wrong")], "its checksum is wrong"),
            (["--acpi", folder, "--iomem", str(self.folder / "zeros")], "as root reads it"),
            (["--acpi", folder, "--iomem", none], "as root reads it"),
            (["--acpi", "--mtree", folder], "only one of them"), (["--pci", none, none], "goes with --acpi"),
            (["--acpi", folder, "--only", "/soc"], "for device trees"), ([], "a TREE or --this-machine")]
        for words, cause in cases:
            status, output, errors = run(*words)
            self.assertEqual((status, output, len(errors)), (2, "", 1), words)
            self.assertIn(cause, errors[0])

    def test_mutations(self) -> None:
        """Tables of which some bytes are changed, with their checksums made right: an answer, and no traceback."""
        chance = random.Random(58)
        smmu = build.node(4, (0x2b400000).to_bytes(8, "little") + bytes(44))
        tables = {**PC, "IVRS": build.ivrs(build.ivhd(0x11, 2, 0xfeb80000, build.entry(3, 0x8), build.entry(4, 0xf))),
                  "IORT": build.iort(smmu, build.node(2, bytes(20), build.mapping(0x100, 0x100, 0x1100, 48))),
                  "RIMT": build.rimt(build.riscv_iommu(0x3010000), build.riscv_root(0, build.mapping(0, 16, 0, 48)),
                                     build.riscv_device(b"A", build.mapping(0, 1, 7, 48)))}
        folder = Path(self.write(tables))
        begin = time.process_time()
        for turn in range(500):
            name = chance.choice(sorted(tables))
            data = bytearray(tables[name])
            for _change in range(chance.randrange(1, 4)):
                data[chance.randrange(36, len(data))] = chance.choice((0, 1, 4, 0x10, 0x7f, 0xff,
                                                                       chance.randrange(256)))
            data = data[:chance.randrange(36, len(data) + 1)] if turn % 3 == 0 else data
            data[4:8] = len(data).to_bytes(4, "little")
            data[9] = 0
            data[9] = -sum(data) % 256
            (folder / name).write_bytes(data)
            status, output, errors = run("--acpi", str(folder))
            self.assertIn((status, bool(output)), ((0, True), (2, False)), errors)
            (folder / name).write_bytes(tables[name])
        self.assertLess(time.process_time() - begin, 20)


class TestMachines(Case):
    """The tables of QEMU's machines, read without firmware."""

    def described(self, program: str, arguments: list[str], place: qemu.Place) -> str:
        """The description of a machine, which the program takes."""
        self.need(program, "qemu-system-x86" if "x86" in program else "qemu-system-arm")
        tables = qemu.tables_of(program, arguments, place)
        self.assertTrue(tables)
        folder = self.folder / "machine"
        folder.mkdir()
        for name, data in (tables or {}).items():
            (folder / name).write_bytes(data)
        status, output, errors = run("--acpi", str(folder))
        self.assertEqual(status, 0, errors)
        checked(output)
        return output

    def test_intel(self) -> None:
        """A PC with an IOMMU of Intel: four processors, and the memory of two nodes as QEMU was asked for it."""
        memory = ["-object", "memory-backend-ram,id=a,size=1G", "-object", "memory-backend-ram,id=b,size=3G"]
        output = self.described("qemu-system-x86_64", [
            "-M", "q35", "-m", "4G", "-smp", "4", *memory, "-numa", "node,memdev=a", "-numa", "node,memdev=b",
            "-device",
            "intel-iommu", "-device", "e1000e,addr=5.0", "-device", "edu,addr=6.0"], qemu.X86)
        self.assertIn("//@ 4 processors that see the same\n", output)
        self.assertIn("agent pci_0_5_0 ", output)
        self.assertIn("//@ vtd_0, for pci 0:6.0\n", output)
        self.assertIn(" reach 39 to system;", output)
        spans = re.findall(r"^    (0x[0-9a-f]+)-(0x[0-9a-f]+) to memory_", output, re.M)
        self.assertEqual(sum(int(last, 16) - int(first, 16) + 1 for first, last in spans), (4 << 30) - 0x60000)

    def test_amd(self) -> None:
        """A PC with an IOMMU of AMD."""
        output = self.described("qemu-system-x86_64", ["-M", "q35", "-device", "amd-iommu", "-device",
                                                       "e1000e,addr=5.0"],
                                qemu.X86)
        self.assertIn("//@ amd_0, for pci 0:5.0\n", output)

    def test_arm(self) -> None:
        """A machine of Arm with an SMMUv3: the registers are where QEMU's map of `virt` has them (hw/arm/virt.c)."""
        output = self.described("qemu-system-aarch64", [
            "-M", "virt,iommu=smmuv3,gic-version=3,its=on", "-cpu", "cortex-a57", "-m", "1G", "-smp", "2", "-object",
            "memory-backend-ram,id=a,size=1G", "-numa", "node,memdev=a"], qemu.ARM)
        for row in ("0x8000000-0x800ffff to gic_distributor", "0x8080000-0x809ffff to gic_its",
                    "0x9050000-0x906ffff to smmu_0", "0x40000000-0x7fffffff to memory_40000000"):
            self.assertIn(f"    {row} at 0x0", output)
        self.assertIn("//@ a function from pci 0:0.0 ", output)
        self.assertIn("// grant doorbell_1 pci_0_0_0_and_on gic_its 0x10000 0x1000 for write;\n", output)

    def test_riscv(self) -> None:
        """A machine of RISC-V: its processors and the addresses of its PCI, where QEMU makes tables for it."""
        program = "/opt/netconf-qemu/usr/bin/qemu-system-riscv64"
        if not Path(program).exists():
            program = "qemu-system-riscv64"
            self.need(program, "qemu-system-misc")
        tables = qemu.tables_of(program, ["-M", "virt", "-smp", "3", "-bios", "none"], qemu.RISCV)
        if not tables:
            self.skipTest("this QEMU makes no tables of ACPI for RISC-V")
        folder = self.folder / "machine"
        folder.mkdir()
        for name, data in tables.items():
            (folder / name).write_bytes(data)
        status, output, errors = run("--acpi", str(folder))
        self.assertEqual(status, 0, errors)
        self.assertIn("//@ 3 processors that see the same\n", output)
        self.assertIn("    0x30000000-0x3fffffff to pci_0_configuration at 0x0", output)
