"""The machines of QEMU on which exported tables are tried: how each is started, and a driver for its IOMMU."""

import os
import pathlib
import shutil
import time
from abc import ABC, abstractmethod
from typing import ClassVar

from machine.qtest import Qtest
from netconf_tools.text import Trouble

HERE = pathlib.Path(__file__).resolve().parent
BACKPORTS = pathlib.Path("/opt/netconf-qemu")
"""Where tools/install-needs unpacks the QEMU of Debian's backports, beside the one that is installed."""

HALT = b"\xfa\xf4\xeb\xfd"
"""Code of x86: interrupts off, halt, and back to the halt."""

ROM_SIZE, RESET = 1 << 16, 0xfff0
"""The size of a ROM of x86, and where in its last 64 KiB the processor begins."""

SECONDS = 20.0
"""How long a register is waited for."""


def qemu_of(name: str, is_new: bool) -> str | None:
    """Returns a program of QEMU: one of the backports (10.0 or later), or the one that is installed; None if there is
    none."""
    new = BACKPORTS / "usr/bin" / name
    beside = str(new) if os.access(new, os.X_OK) else None
    return beside if is_new else shutil.which(name) or beside


class Board(ABC):
    """A machine with an IOMMU and cards, and the driver of the IOMMU."""
    name: ClassVar[str]
    form: ClassVar[str]
    """The format of the tables."""

    program: ClassVar[str]
    is_new: ClassVar[bool] = False
    """Whether it needs the QEMU of the backports."""

    memories: ClassVar[tuple[int, int, int, int]]
    """Where the memories of the cards stand: low, middle, high and frames."""

    block: ClassVar[int]
    """Where 1 GiB of memory stands, at a multiple of its size, that holds nothing else."""

    tables: ClassVar[int]
    """The address of memory at which the tables stand; the queues of the IOMMU stand below."""

    queues: ClassVar[int]
    unit: ClassVar[int]
    """The first register of the IOMMU."""

    windows: ClassVar[int]
    """The address at which the registers of cards are put, 1 MiB each."""

    bits: ClassVar[int] = 0
    command_bytes = 16

    def __init__(self) -> None:
        self.tail = 0

    @classmethod
    def words(cls, cards: list[tuple[str, int, int]], folder: pathlib.Path) -> list[str]:
        """Returns the words that start QEMU with cards, each its name, its device and its function."""
        path = qemu_of(cls.program, cls.is_new)
        assert path is not None
        devices = [word for _, device, function in cards
                   for word in ("-device", f"edu,addr={device:#x}.{function},dma_mask=0xffffffffffffffff")]
        return [path, *cls.machine(folder), *devices]

    @classmethod
    @abstractmethod
    def machine(cls, folder: pathlib.Path) -> list[str]:
        """Returns the words for the machine and its IOMMU; files that it needs are written to the folder."""

    @abstractmethod
    def configure(self, qemu: Qtest, device: int, function: int, offset: int, value: int) -> None:
        """Writes 32 bits of the configuration of a function on bus 0."""

    @abstractmethod
    def start(self, qemu: Qtest, registers: dict[str, int]) -> None:
        """Turns translation on, with tables that stand in memory."""

    @abstractmethod
    def stop(self, qemu: Qtest) -> None:
        """Turns translation off."""

    @abstractmethod
    def resume(self, qemu: Qtest) -> None:
        """Turns translation on again."""

    @abstractmethod
    def ring(self, qemu: Qtest) -> None:
        """Says to the unit how far the queue of commands is filled."""

    @abstractmethod
    def is_done(self, qemu: Qtest) -> bool:
        """Returns whether the unit has done all commands."""

    queue_entries = 64

    def command(self, qemu: Qtest, commands: list[tuple[int, ...]]) -> None:
        """Gives commands to the unit, and waits until they are done."""
        for words in commands:
            at = self.queues + self.tail * self.command_bytes
            qemu.ask(*(f"writeq {at + 8 * place:#x} {word:#x}" for place, word in enumerate(words)))
            self.tail = (self.tail + 1) % self.queue_entries
        self.ring(qemu)
        self.wait(lambda: self.is_done(qemu), "the commands are not done")

    @staticmethod
    def wait(is_done: "object", what: str) -> None:
        """Waits until a condition holds. Raises Trouble if it takes too long."""
        assert callable(is_done)
        end = time.monotonic() + SECONDS
        while not is_done():
            if time.monotonic() > end:
                raise Trouble(f"the IOMMU of QEMU: {what} after {SECONDS:.0f} seconds")


class Arm(Board):
    """The machine ``virt`` of an Arm processor, with an SMMUv3. Registers are those of IHI 0070."""
    program = "qemu-system-aarch64"
    memories = 0x44000000, 0x44060000, 0x60000000, 0x64000000
    block = 0x80000000
    tables, queues, unit, windows = 0x48000000, 0x47f00000, 0x9050000, 0x10000000
    configuration = 0x3f000000
    CR0, CR0ACK, STRTAB_BASE, STRTAB_CONFIG = 0x20, 0x24, 0x80, 0x88
    CMDQ_BASE, CMDQ_PROD, CMDQ_CONS = 0x90, 0x98, 0x9c
    EVENTQ_BASE, EVENTQ_PROD, EVENTQ_CONS = 0xa0, 0x100a8, 0x100ac
    ENABLED, EVENTS_ON, COMMANDS_ON = 1 << 0, 1 << 2, 1 << 3
    queue_entries = 64
    LOG2 = 6

    @classmethod
    def machine(cls, folder: pathlib.Path) -> list[str]:
        """Returns the words for the machine."""
        iommu = ["-M", "virt,iommu=smmuv3,highmem=off", "-cpu", "cortex-a57,start-powered-off=on", "-m", "2G"]
        return [*iommu, "-global", "arm-smmuv3.stage=2"] if cls.form == "smmuv3-s2" else iommu

    def configure(self, qemu: Qtest, device: int, function: int, offset: int, value: int) -> None:
        """Writes to the memory of configurations, which has 4 KiB for each function."""
        qemu.ask(f"writel {self.configuration + (device << 15 | function << 12 | offset):#x} {value:#x}")

    def _control(self, qemu: Qtest, value: int) -> None:
        """Writes the control register, and waits until the unit has taken it."""
        qemu.ask(f"writel {self.unit + self.CR0:#x} {value:#x}")
        self.wait(lambda: qemu.number(f"readl {self.unit + self.CR0ACK:#x}") == value, "CR0ACK is not CR0")

    def start(self, qemu: Qtest, registers: dict[str, int]) -> None:
        """Sets the stream table and both queues, and then turns all on."""
        unit = self.unit
        qemu.ask(f"writeq {unit + self.STRTAB_BASE:#x} {registers['SMMU_STRTAB_BASE']:#x}",
                 f"writel {unit + self.STRTAB_CONFIG:#x} {registers['SMMU_STRTAB_BASE_CFG']:#x}",
                 f"writeq {unit + self.CMDQ_BASE:#x} {self.queues | self.LOG2:#x}",
                 f"writel {unit + self.CMDQ_PROD:#x} 0", f"writel {unit + self.CMDQ_CONS:#x} 0",
                 f"writeq {unit + self.EVENTQ_BASE:#x} {self.queues + 0x10000 | 7:#x}",
                 f"writel {unit + self.EVENTQ_PROD:#x} 0", f"writel {unit + self.EVENTQ_CONS:#x} 0")
        self._control(qemu, self.COMMANDS_ON | self.EVENTS_ON)
        self._control(qemu, self.COMMANDS_ON | self.EVENTS_ON | self.ENABLED)

    def stop(self, qemu: Qtest) -> None:
        """Turns translation off; the queues go on."""
        self._control(qemu, self.COMMANDS_ON | self.EVENTS_ON)

    def resume(self, qemu: Qtest) -> None:
        """Turns translation on again."""
        self._control(qemu, self.COMMANDS_ON | self.EVENTS_ON | self.ENABLED)

    def command(self, qemu: Qtest, commands: list[tuple[int, ...]]) -> None:
        """Gives commands; the index has one bit more than the queue needs, which turns when the queue wraps."""
        super().command(qemu, commands)
        events = qemu.number(f"readl {self.unit + self.EVENTQ_PROD:#x}")
        qemu.ask(f"writel {self.unit + self.EVENTQ_CONS:#x} {events:#x}")

    def ring(self, qemu: Qtest) -> None:
        """Writes the index up to which the queue is filled."""
        wrapped = qemu.number(f"readl {self.unit + self.CMDQ_PROD:#x}")
        wrap = wrapped & self.queue_entries
        if self.tail < wrapped % self.queue_entries:
            wrap ^= self.queue_entries
        qemu.ask(f"writel {self.unit + self.CMDQ_PROD:#x} {wrap | self.tail:#x}")

    def is_done(self, qemu: Qtest) -> bool:
        """Returns whether the unit has taken all commands. Raises Trouble if it found an error in one."""
        produced, consumed = (qemu.number(f"readl {self.unit + register:#x}")
                              for register in (self.CMDQ_PROD, self.CMDQ_CONS))
        if consumed >> 24 & 0x7f:
            raise Trouble(f"the SMMU refused a command: CMDQ_CONS is {consumed:#x}")
        return produced == consumed


class ArmStage1(Arm):
    """Stage 1, which the SMMUv3 of QEMU 7.2 has."""
    name = form = "smmuv3-s1"


class ArmStage2(Arm):
    """Stage 2, which the SMMUv3 of QEMU has from 8.1 on."""
    name = form = "smmuv3-s2"
    is_new = True


class RiscvVirt(Board):
    """The machine ``virt`` of a RISC-V processor, with the IOMMU as a device of the platform. Registers are of the
    RISC-V IOMMU specification, 5."""
    name = form = "riscv"
    program = "qemu-system-riscv64"
    is_new = True
    memories = 0x84000000, 0x84060000, 0xa0000000, 0xa4000000
    block = 0xc0000000
    tables, queues, unit, windows = 0x88000000, 0x87f00000, 0x3010000, 0x40000000
    configuration = 0x30000000
    DDTP, CQB, CQH, CQT, FQB, CQCSR, FQCSR = 0x10, 0x18, 0x20, 0x24, 0x28, 0x48, 0x4c
    ON, IS_ON, FAULTED = 1 << 0, 1 << 16, 0x7 << 8
    BARE = 1
    LOG2 = 6

    def __init__(self) -> None:
        super().__init__()
        self.pointer = 0

    @classmethod
    def machine(cls, folder: pathlib.Path) -> list[str]:
        """Returns the words for the machine."""
        return ["-M", "virt,iommu-sys=on", "-cpu", "rv64,start-powered-off=on", "-m", "2G", "-bios", "none"]

    def configure(self, qemu: Qtest, device: int, function: int, offset: int, value: int) -> None:
        """Writes to the memory of configurations, which has 4 KiB for each function."""
        qemu.ask(f"writel {self.configuration + (device << 15 | function << 12 | offset):#x} {value:#x}")

    def start(self, qemu: Qtest, registers: dict[str, int]) -> None:
        """Sets the queues and turns them on, and then sets the pointer to the directory."""
        unit = self.unit
        qemu.ask(f"writeq {unit + self.CQB:#x} {self.queues >> 2 | self.LOG2 - 1:#x}", f"writel {unit + self.CQT:#x} 0",
                 f"writel {unit + self.CQCSR:#x} {self.ON:#x}",
                 f"writeq {unit + self.FQB:#x} {self.queues + 0x10000 >> 2 | 6:#x}",
                 f"writel {unit + self.FQCSR:#x} {self.ON:#x}")
        self.wait(lambda: qemu.number(f"readl {unit + self.CQCSR:#x}") & self.IS_ON, "the queue is not on")
        self.pointer = registers["ddtp"]
        self.resume(qemu)

    def _point(self, qemu: Qtest, value: int) -> None:
        """Writes the pointer to the directory, and waits until the unit has taken it."""
        qemu.ask(f"writeq {self.unit + self.DDTP:#x} {value:#x}")
        self.wait(lambda: qemu.number(f"readq {self.unit + self.DDTP:#x}") == value, "ddtp is not taken")

    def stop(self, qemu: Qtest) -> None:
        """Lets all through as it is."""
        self._point(qemu, self.BARE)
        self.command(qemu, [(0x3, 0), (0x1, 0)])

    def resume(self, qemu: Qtest) -> None:
        """Turns translation on again; what was kept of no translation is forgotten."""
        self._point(qemu, self.pointer)
        self.command(qemu, [(0x3, 0), (0x1, 0)])

    def ring(self, qemu: Qtest) -> None:
        """Writes the index up to which the queue is filled."""
        qemu.ask(f"writel {self.unit + self.CQT:#x} {self.tail:#x}")

    def is_done(self, qemu: Qtest) -> bool:
        """Returns whether the unit has taken all commands. Raises Trouble if it found an error in one."""
        state = qemu.number(f"readl {self.unit + self.CQCSR:#x}")
        if state & self.FAULTED:
            raise Trouble(f"the IOMMU refused a command: cqcsr is {state:#x}")
        return qemu.number(f"readl {self.unit + self.CQH:#x}") == self.tail


class Pc(Board):
    """The machine ``q35`` of a PC. Its processor begins in a ROM that halts it."""
    program = "qemu-system-x86_64"
    memories = 0x4000000, 0x4060000, 0x110000000, 0x8000000
    block = 0x40000000
    tables, queues, windows = 0x20000000, 0x1ff00000, 0xc0000000

    @classmethod
    def halted(cls, folder: pathlib.Path, iommu: str) -> list[str]:
        """Returns the words for the machine with an IOMMU."""
        rom = folder / "halt.rom"
        rom.write_bytes(bytes(RESET) + HALT + bytes(ROM_SIZE - RESET - len(HALT)))
        return ["-M", "q35", "-cpu", "qemu64", "-m", "3G", "-bios", str(rom), "-device", iommu]

    def configure(self, qemu: Qtest, device: int, function: int, offset: int, value: int) -> None:
        """Writes by the two ports of configurations."""
        qemu.ask(f"outl 0xcf8 {0x80000000 | device << 11 | function << 8 | offset:#x}", f"outl 0xcfc {value:#x}")


class PcIntel(Pc):
    """VT-d. Registers are of the VT-d specification, 11.4."""
    name = form = "vtd"
    unit = 0xfed90000
    GCMD, GSTS, RTADDR, IQH, IQT, IQA = 0x18, 0x1c, 0x20, 0x80, 0x88, 0x90
    TRANSLATES, ROOT_SET, QUEUE_ON = 1 << 31, 1 << 30, 1 << 26
    queue_entries = 256

    @classmethod
    def machine(cls, folder: pathlib.Path) -> list[str]:
        """Returns the words for the machine."""
        return cls.halted(folder, "intel-iommu,aw-bits=48")

    def _command(self, qemu: Qtest, value: int, status: int, wanted: int) -> None:
        """Writes the command register, and waits until a bit of the status is as wanted."""
        qemu.ask(f"writel {self.unit + self.GCMD:#x} {value:#x}")
        self.wait(lambda: qemu.number(f"readl {self.unit + self.GSTS:#x}") & status == wanted,
                  "the status is not the command")

    def start(self, qemu: Qtest, registers: dict[str, int]) -> None:
        """Sets the root table and the queue, and turns the queue on and then translation."""
        unit = self.unit
        qemu.ask(f"writeq {unit + self.RTADDR:#x} {registers['RTADDR_REG']:#x}")
        self._command(qemu, self.ROOT_SET, self.ROOT_SET, self.ROOT_SET)
        qemu.ask(f"writeq {unit + self.IQT:#x} 0", f"writeq {unit + self.IQA:#x} {self.queues:#x}")
        self._command(qemu, self.QUEUE_ON, self.QUEUE_ON, self.QUEUE_ON)
        self.resume(qemu)

    def stop(self, qemu: Qtest) -> None:
        """Turns translation off."""
        self._command(qemu, self.QUEUE_ON, self.TRANSLATES, 0)

    def resume(self, qemu: Qtest) -> None:
        """Turns translation on again."""
        self._command(qemu, self.QUEUE_ON | self.TRANSLATES, self.TRANSLATES, self.TRANSLATES)

    def ring(self, qemu: Qtest) -> None:
        """Writes the place up to which the queue is filled."""
        qemu.ask(f"writeq {self.unit + self.IQT:#x} {self.tail << 4:#x}")

    def is_done(self, qemu: Qtest) -> bool:
        """Returns whether the unit has taken all commands."""
        return qemu.number(f"readq {self.unit + self.IQH:#x}") == self.tail << 4


class PcAmd(Pc):
    """AMD's IOMMU. Registers are those of the AMD I/O virtualization specification."""
    name = form = "amd"
    unit = 0xfed80000
    DEVICES, COMMANDS, EVENTS, CONTROL, HEAD, TAIL = 0x0, 0x8, 0x10, 0x18, 0x2000, 0x2008
    ON, EVENTS_ON, COMMANDS_ON = 1 << 0, 1 << 2, 1 << 12
    queue_entries = 256

    @classmethod
    def machine(cls, folder: pathlib.Path) -> list[str]:
        """Returns the words for the machine."""
        return cls.halted(folder, "amd-iommu")

    def start(self, qemu: Qtest, registers: dict[str, int]) -> None:
        """Sets the device table and both queues of 256 entries, and turns all on."""
        unit = self.unit
        qemu.ask(f"writeq {unit + self.DEVICES:#x} {registers['Device Table Base Address']:#x}",
                 f"writeq {unit + self.COMMANDS:#x} {self.queues | 8 << 56:#x}",
                 f"writeq {unit + self.EVENTS:#x} {self.queues + 0x10000 | 8 << 56:#x}",
                 f"writeq {unit + self.HEAD:#x} 0", f"writeq {unit + self.TAIL:#x} 0")
        self.resume(qemu)

    def stop(self, qemu: Qtest) -> None:
        """Turns translation off."""
        qemu.ask(f"writeq {self.unit + self.CONTROL:#x} 0")

    def resume(self, qemu: Qtest) -> None:
        """Turns translation on again."""
        qemu.ask(f"writeq {self.unit + self.CONTROL:#x} {self.ON | self.EVENTS_ON | self.COMMANDS_ON:#x}")

    def ring(self, qemu: Qtest) -> None:
        """Writes the place up to which the queue is filled."""
        qemu.ask(f"writeq {self.unit + self.TAIL:#x} {self.tail << 4:#x}")

    def is_done(self, qemu: Qtest) -> bool:
        """Returns whether the unit has taken all commands."""
        return qemu.number(f"readq {self.unit + self.HEAD:#x}") == self.tail << 4


MACHINES: tuple[type[Board], ...] = PcIntel, ArmStage1, ArmStage2, RiscvVirt, PcAmd
BOARDS = {board.name: board for board in MACHINES}
