"""The tables of ACPI of a machine of QEMU, read over ``-qtest stdio`` without firmware.

QEMU gives its firmware the tables by fw_cfg (docs/specs/fw_cfg.rst): a directory of files under the key 0x19, of which
``etc/acpi/tables`` has all tables one after the other, with checksums that the firmware would fill in."""
import shutil
import subprocess
from collections.abc import Iterable
from typing import NamedTuple

DIRECTORY = 0x19
SELECT, READ = 8, 2
SECONDS = 60


class Place(NamedTuple):
    """Where a machine has its fw_cfg and its memory: a command that writes the address of a request to the register of
    DMA, and an address of memory."""

    start: str
    memory: int


X86 = Place("outl 0x514 0x0\noutl 0x518 {low}", 0x10000)
ARM = Place("writeq 0x9020010 {whole}", 0x40000000)
RISCV = Place("writeq 0x10100010 {whole}", 0x80000000)


class Machine:
    """A machine of QEMU that runs no code, driven by the lines of qtest."""

    def __init__(self, program: str, arguments: Iterable[str], place: Place):
        self.place = place
        self.process = subprocess.Popen([program, *arguments, "-S", "-display", "none", "-nodefaults", "-qtest",
                                         "stdio"], stdin=subprocess.PIPE, stdout=subprocess.PIPE,
                                        stderr=subprocess.DEVNULL, text=True)

    def ask(self, line: str) -> str:
        """The answer to a command, without its `OK`."""
        assert self.process.stdin and self.process.stdout
        self.process.stdin.write(line + "\n")
        self.process.stdin.flush()
        answer = self.process.stdout.readline()
        while answer and not answer.startswith(("OK", "FAIL", "ERR")):
            answer = self.process.stdout.readline()
        if not answer.startswith("OK"):
            raise ValueError(f"{line}: {answer or 'the machine ended'}")
        return answer[2:].strip()

    def read(self, key: int, size: int) -> bytes:
        """The first bytes of what fw_cfg has under a key."""
        request, buffer = self.place.memory, self.place.memory + 0x1000
        control = (key << 16 | SELECT | READ).to_bytes(4, "big") + size.to_bytes(4, "big") + buffer.to_bytes(8, "big")
        self.ask(f"write {request:#x} {len(control)} 0x{control.hex()}")
        low = int.from_bytes(request.to_bytes(4, "big"), "little")
        whole = int.from_bytes(request.to_bytes(8, "big"), "little")
        for line in self.place.start.format(low=f"{low:#x}", whole=f"{whole:#x}").splitlines():
            self.ask(line)
        return bytes.fromhex(self.ask(f"read {buffer:#x} {size}").removeprefix("0x"))

    def file(self, name: str) -> bytes:
        """A file of fw_cfg."""
        count = int.from_bytes(self.read(DIRECTORY, 4), "big")
        entries = self.read(DIRECTORY, 4 + 64 * count)
        for at in range(4, 4 + 64 * count, 64):
            size, key = int.from_bytes(entries[at:at + 4], "big"), int.from_bytes(entries[at + 4:at + 6], "big")
            if entries[at + 8:at + 64].split(b"\0")[0].decode() == name:
                return self.read(key, size)
        return b""

    def end(self) -> None:
        """Ends the machine."""
        self.process.kill()
        self.process.communicate()


def tables_of(program: str, arguments: Iterable[str], place: Place) -> dict[str, bytes] | None:
    """The tables of a machine by their signatures, with their checksums; or None where there is no such machine."""
    if shutil.which(program) is None:
        return None
    machine = Machine(program, arguments, place)
    try:
        whole = machine.file("etc/acpi/tables")
    except (ValueError, BrokenPipeError):
        return None
    finally:
        machine.end()
    found, at = {}, 0
    while at + 36 <= len(whole):
        signature, length = whole[at:at + 4], int.from_bytes(whole[at + 4:at + 8], "little")
        if not signature.isalnum() or length < 36:
            at += 1
            continue
        table = bytearray(whole[at:at + length])
        if signature != b"FACS":
            table[9] = 0
            table[9] = -sum(table) % 256
        found[signature.decode()] = bytes(table)
        at += length
    return found
