"""Tests what the importer and the other tools say together: of masters, of notes, and of reserved memory."""
import os
import subprocess
from unittest import mock

from netconf_tools.devicetree import tree
from netconf_tools.devicetree.fault import Fault
from netconf_tools.reserved import grants_in_reserved
from tests.case import TOOLS, Case, outcome

RESERVED = """ram is accept [0x0-0xffff];
rom is accept [0x0-0xffff];
bus is map [0x0-0xffff to ram, 0x10000-0x1ffff to rom];
unit u kind pages page 12 slots 32 reach 32 to bus;
agent a is map [0x0-0x1ffff to u];
//@ ram is reserved 0x1000-0x2fff, /memreserve/
//@ ram is reserved 0x2800-0x37ff, /reserved-memory/frame
//@ ram is reserved 0x9000-0x9000, /reserved-memory/byte
begin;
grant below a ram 0x0 0x1000;
grant first a ram 0x0 0x1001;
grant last a ram 0x3000 0x1000;
grant after a ram 0x4000 0x1000;
grant other a rom 0x1000 0x1000;
gather a one ram 0x8000 0x1000 and two ram 0x9000 0x1000;
grant nothing a ram 0x1000 0x0;
"""
FRAMES = "/memreserve/ and /reserved-memory/frame"


class TestReserved(Case):
    """Grants that meet reserved memory."""

    def test_grants(self) -> None:
        """A buffer meets reserved memory where they share an address of one node, and an empty one never."""
        found = [(command.line, command.word, words) for command, words in grants_in_reserved(RESERVED)]
        self.assertEqual(found, [
            (11, "grant", f"ram@0x1000-0x1000 is reserved, by {FRAMES}"),
            (12, "grant", f"ram@0x3000-0x37ff is reserved, by {FRAMES}"),
            (15, "gather", "ram@0x9000-0x9000 is reserved, by /reserved-memory/byte")])

    def test_lint(self) -> None:
        """netconf-lint warns of each such grant, and fails on one where it is strict."""
        (self.folder / "board.net").write_text(RESERVED.replace("grant nothing a ram 0x1000 0x0;\n", ""))
        status, output, _errors = outcome(TOOLS / "netconf-lint", "board.net", folder=self.folder)
        lines = [line for line in output.splitlines() if line.startswith("board.net:") and "is reserved" in line]
        self.assertEqual((status, len(lines)), (0, 3), output)
        self.assertTrue(lines[0].startswith("board.net:11:1: warning: grant first: ram@0x1000-0x1000 is reserved, by "))
        self.assertEqual(outcome(TOOLS / "netconf-lint", "--strict", "board.net", folder=self.folder)[0], 1)

    def test_no_notes(self) -> None:
        """A description without such notes has none."""
        self.assertEqual(list(grants_in_reserved(RESERVED.replace(" is reserved ", " was reserved "))), [])


class TestMasters(Case):
    """The masters of a machine of QEMU, whose tree has no window for them."""

    def tree(self) -> str:
        """The device tree that QEMU writes of its machine `virt`."""
        self.need("qemu-system-aarch64", "qemu-system-arm")
        path = self.folder / "virt.dtb"
        subprocess.run(["qemu-system-aarch64", "-M", f"virt,iommu=smmuv3,dumpdtb={path}", "-cpu", "cortex-a57", "-m",
                        "2G"], capture_output=True, check=True)
        return str(path)

    def test_alone(self) -> None:
        """A claim that the processors alone write to a page does not hold, and it names who else writes there."""
        tree = self.tree()
        status, description, _errors = outcome(TOOLS / "netconf-import", tree)
        self.assertEqual(status, 0)
        (self.folder / "virt.net").write_text(description)
        (self.folder / "claims").write_text("alone cpu_0 memory_40000000 0x0-0xfff\n")
        status, answer, _errors = outcome(TOOLS / "netconf-query", "test", "virt.net", "claims", folder=self.folder)
        self.assertEqual(status, 1)
        self.assertIn("virtio_mmio_a000000.dma for write: 0x40000000-0x40000fff memory_40000000@0x0\n", answer)

    def test_left_out(self) -> None:
        """The strict reading leaves the same masters out, each as a line that tools count."""
        tree = self.tree()
        _status, linux, _errors = outcome(TOOLS / "netconf-import", tree)
        _status, said, errors = outcome(TOOLS / "netconf-import", "--dma", "said", tree)
        count = linux.count("no window in the tree: 1:1 as in Linux")
        self.assertGreater(count, 32)
        self.assertEqual((said.count("\n//- /"), errors.count("no agent for its own accesses")), (count, count))

    def test_layout(self) -> None:
        """The layout of a board has the paths and the streams of its masters and IOMMUs."""
        _status, description, _errors = outcome(TOOLS / "netconf-import", "--function", "0:3.0", self.tree())
        (self.folder / "virt.net").write_text(description)
        status, layout, _errors = outcome(TOOLS / "netconf-layout", "virt.net", folder=self.folder)
        self.assertEqual(status, 0)
        self.assertIn("/pcie@10000000, pci 0:3.0, stream 0x18\n", layout)
        self.assertIn("/smmuv3@9050000, for /pcie@10000000, pci 0:3.0, stream 0x18\n", layout)


class TestCompiler(Case):
    """A compiler of sources, dtc, that does not end, or that crashes."""

    def cause(self, script: str) -> str:
        """Why a source is refused, where dtc is a script."""
        (self.folder / "dtc").write_text(f"#!/bin/sh\n{script}\n")
        (self.folder / "dtc").chmod(0o755)
        (self.folder / "board.dts").write_text("/dts-v1/; / { };\n")
        path = f"{self.folder}:{os.environ['PATH']}"
        with mock.patch.dict(os.environ, PATH=path), mock.patch.object(tree, "DTC_SECONDS", 0.5):
            with self.assertRaises(Fault) as caught:
                tree.read_tree(str(self.folder / "board.dts"))
        return str(caught.exception).removeprefix(f"{self.folder}/")

    def test_endless(self) -> None:
        """One that does not end is stopped."""
        self.assertEqual(self.cause("exec sleep 60"), "board.dts: dtc has not ended after 0.5 s, and was stopped")

    def test_crash(self) -> None:
        """A crash is reported as one."""
        self.assertEqual(self.cause("kill -SEGV $$"), "board.dts: dtc crashed (SIGSEGV)")
