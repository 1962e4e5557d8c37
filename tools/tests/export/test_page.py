"""docs/machine.md, the ten steps for an Arm board: its commands are run in their order, its code starts the SMMU of a
machine of QEMU, and a card sees there exactly the buffer."""

import os
import re
import subprocess

from machine.boards import ArmStage2
from machine.many import why_missing
from machine.qtest import Qtest
from tests.case import TOP, Case

PAGE = (TOP / "docs/machine.md").read_text()
SECTION = PAGE.split("## Ten steps for an Arm board\n")[1].split("\n## ")[0]

HARNESS = r"""
#include <inttypes.h>
#include <stdio.h>
#include "smmu.c"

/* Registers and memory by QEMU's protocol of tests: a line out, and a line back. */
static uint64_t ask(const char *command, uint64_t address, uint64_t value, int is_write)
{
    uint64_t answer = 0;
    printf(is_write ? "%s 0x%" PRIx64 " 0x%" PRIx64 "\n" : "%s 0x%" PRIx64 "\n", command, address, value);
    fflush(stdout);
    return scanf("%" SCNx64, &answer) == 1 ? answer : 0;
}
uint32_t read32(uint64_t address) { return (uint32_t)ask("readl", address, 0, 0); }
void write32(uint64_t address, uint32_t value) { ask("writel", address, value, 1); }
void write64(uint64_t address, uint64_t value) { ask("writeq", address, value, 1); }
int main(void) { return smmu_start(); }
"""


def blocks(word: str) -> list[str]:
    """Returns the blocks of the section that are written in a language."""
    return re.findall(rf"^```{word}\n(.*?)^```", SECTION, re.S | re.M)


class TestPage(Case):
    """The section of the page, from its own text."""

    def test_steps(self) -> None:
        """The commands run, the code compiles without a warning, and the card sees the buffer and nothing else."""
        self.need("gcc", "gcc")
        for name in ("tools", "docs"):
            (self.folder / name).symlink_to(TOP / name)
        commands = blocks("sh")
        self.assertEqual(len(commands), 7, "how many blocks of commands the section has")
        is_missing = why_missing("smmuv3-s2")
        for text in commands:
            if "tools/machine/run" in text and is_missing:
                continue
            done = subprocess.run(["bash", "-e", "-c", "netconf=$NETCONF\n" + text], capture_output=True, text=True,
                                  cwd=self.folder,
                                  check=False, env={name: value for name, value in os.environ.items()
                                                    if name != "PYTHONPATH"})
            self.assertEqual((done.returncode, done.stderr), (0, ""), text)
        self.assertIn("ring at 0x0\n", (self.folder / "arm.out").read_text())
        self.assertIn("view card for write rows 1\n0x0-0x3fff dram@0x9000\n", (self.folder / "arm.audit").read_text())
        self.assertIn("fence\n", (self.folder / "arm.changes").read_text())
        self.compile()
        if is_missing:
            self.skipTest(is_missing.removeprefix("skipped: "))
        shown = re.findall(r"`(smmuv3-s2: dump 1: [^`]+)`", SECTION)
        self.assertEqual(len(shown), 1)
        self.assertIn(shown[0], (self.folder / "arm.seen").read_text().splitlines())
        self.start()

    def compile(self) -> None:
        """Compiles the code of the steps, alone and for the machine."""
        (self.folder / "smmu.c").write_text("".join(blocks("c")))
        (self.folder / "harness.c").write_text(HARNESS)
        options = ["gcc", "-std=c99", "-Wall", "-Wextra", "-Wpedantic", "-Werror", "-I."]
        for words in (["-c", "smmu.c", "-o", os.devnull], ["harness.c", "-o", "harness"]):
            done = subprocess.run([*options, *words], capture_output=True, text=True, cwd=self.folder, check=False)
            self.assertEqual((done.returncode, done.stderr), (0, ""))

    def start(self) -> None:
        """Starts the SMMU by the code of the page, and has the card read and write."""
        with Qtest(ArmStage2.words([("card", 4, 0)], self.folder)) as qemu:
            board = ArmStage2()
            qemu.write(0x48000000, (self.folder / "arm.bin").read_bytes())
            with subprocess.Popen([self.folder / "harness"], stdin=subprocess.PIPE, stdout=subprocess.PIPE,
                                  text=True) as code:
                assert code.stdin and code.stdout
                for line in code.stdout:
                    code.stdin.write((qemu.ask(line.strip())[0] or "0") + "\n")
                    code.stdin.flush()
            self.assertEqual(code.returncode, 0, "smmu_start")
            board.configure(qemu, 4, 0, 0x10, 0x10000000)
            board.configure(qemu, 4, 0, 0x4, 0x6)
            qemu.write(0x44000000, b"\x55" * 0x10000)
            for page in range(0, 0x4000, 0x1000):
                qemu.write(0x44009000 + page, bytes([page >> 12 | 0x80]) * 8)
            for page in range(0, 0x10000, 0x1000):
                self.copy(qemu, board, page, 0x40000, 1)
                self.copy(qemu, board, 0x40000, 0x3008, 3)
                want = bytes([page >> 12 | 0x80] * 8) if page < 0x4000 else bytes(8)
                self.assertEqual(qemu.read(0x44009000 + 0x3008, 8), want, f"{page:#x}")

    def copy(self, qemu: Qtest, board: ArmStage2, source: int, target: int, command: int) -> None:
        """Has the card copy a word between an address and its buffer."""
        qemu.ask(f"writeq 0x10000080 {source:#x}", f"writeq 0x10000088 {target:#x}", "writeq 0x10000090 8",
                 f"writeq 0x10000098 {command}")
        board.wait(lambda: not qemu.number("readq 0x10000098") & 1, "the card does not end its transfer")
