"""Runs the tables of a description on machines of QEMU: a PC of the type q35 with a loader at work, and machines with
the tables of netconf-export.

usage: tools/machine/run [--machine NAME]... [--net FILE] [--show] [--plant FAULT]... [--planted] [--keep FOLDER]
[--archive FILE] [PROGRAM]

For each `dump` of the description the program is asked by `lookup` what each card may read and write, page by page, and
where its messages arrive. On the machine pc, a program for the bare machine, built with gcc, loads the bytes of each
dump by tools/loader and has the cards try it. On the machine library a program on the same PC opens the description by
the library and makes a random history of grants, gathers, routes and revokes, of which the program is asked by
`resolve`; the cards read and write between its events, and try all of their pages and messages after each step. On the
others no program runs: tables, registers and cards are driven over QEMU's protocol of tests. These are demonstrations
on emulated machines: they prove nothing of hardware.

PROGRAM is the built netconf (default: that of the variable NETCONF, or crates/netconf/out/netconf). With --plant an
image, the layout or the loader is made wrong in one place, and the trial must fail; with --planted each fault that is
known is planted in turn. The last line is `N passed, M failed`, and the status 1 where some failed."""

import argparse
import os
import pathlib
import shutil
import subprocess
import sys
import tempfile
from dataclasses import dataclass

from machine import session
from machine.boards import BOARDS
from machine.many import run_all
from machine.plants import PLANTS, planted
from machine.session import SessionTrial
from machine.trial import PAGE, Trial, data_text
from netconf_tools.ending import ended
from netconf_tools.layout_text import header
from netconf_tools.text import Trouble, program, read
from netconf_tools.version import add_version

HERE = pathlib.Path(__file__).resolve().parent
TOOLS = HERE.parent

PC = "pc"
"""The machine on which a loader takes images."""

SECONDS = 900
"""How long QEMU may take. A run takes a few seconds on a processor of its own, and far longer where others are at
work."""

COMPILE = ["-m64", "-O2", "-std=gnu99", "-Wall", "-Wextra", "-Werror", "-ffreestanding", "-fno-stack-protector",
           "-fno-pic", "-fno-pie",
           "-mno-red-zone", "-mgeneral-regs-only", "-fcf-protection=none", "-fno-tree-loop-distribute-patterns",
           "-fno-asynchronous-unwind-tables"]
LINK = ["-m64", "-nostdlib", "-static", "-no-pie", "-Wl,--build-id=none", "-Wl,-z,max-page-size=4096",
        "-Wl,-z,noexecstack"]
SOURCES = ("start.S", "pc.c", "cards.c", "trial.c")
DRIVER = "vtd.c"
SESSION_SOURCES = ("start.S", "pc.c", "cards.c", "vtd.c", "events.c", "session.c")
LIBRARY = "library"
"""The PC on which a program calls the library."""

CPU_OF_LIBRARY = "qemu64,+ssse3,+sse4.1,+sse4.2,+popcnt,+cx16"
"""The library is compiled for x86-64-v2."""

Sight = tuple[str, str, int, int, int | None]
"""What the machine saw: a card, what it did, the address; then the processor's address, or the processor and the
vector."""


def compiler() -> str | None:
    """A gcc that makes programs for x86-64, or nothing."""
    for name in ("gcc", "x86_64-linux-gnu-gcc"):
        if shutil.which(name) and "x86_64" in subprocess.run([name, "-dumpmachine"], capture_output=True, text=True,
                                                             check=False).stdout:
            return name
    return None


def missing() -> list[str]:
    """What the trial needs and this machine has not."""
    return [what for what, found in (("qemu-system-x86_64", shutil.which("qemu-system-x86_64")),
                                     ("gcc for x86-64", compiler())) if not found]


def build(folder: pathlib.Path, defines: list[str], sources: list[pathlib.Path]) -> pathlib.Path:
    """Builds the program for the bare machine from sources, with the headers that stand in a folder."""
    binary = folder / "trial.elf"
    includes = (folder, HERE, TOOLS / "loader", TOOLS / "library", TOOLS.parent / "include")
    command = [compiler() or "gcc", *COMPILE, *(f"-D{define}" for define in defines),
               *(f"-I{include}" for include in includes), *LINK, f"-Wl,-T,{HERE / 'machine.ld'}",
               *map(str, sources), "-o", str(binary)]
    done = subprocess.run(command, capture_output=True, text=True, check=False)
    if done.returncode:
        raise Trouble(f"the trial is not compiled:\n{done.stderr}")
    return binary


def qemu(binary: pathlib.Path, cards: list[tuple[str, int, int]], cpu: str = "qemu64") -> tuple[str, str]:
    """What the machine prints, and the status of QEMU."""
    command = ["qemu-system-x86_64", "-machine", "q35", "-accel", "tcg", "-cpu", cpu, "-smp", "2", "-m", "3G",
               "-icount", "shift=10,sleep=off",
               "-nodefaults", "-no-reboot", "-display", "none", "-serial", "stdio", "-monitor", "none",
               "-device", "isa-debug-exit,iobase=0xf4,iosize=4", "-device", "intel-iommu,intremap=on,aw-bits=48"]
    for _, device, function in cards:
        command += ["-device", f"edu,addr={device:#x}.{function},dma_mask=0xffffffffffffffff"]
    try:
        done = subprocess.run([*command, "-kernel", str(binary)], stdin=subprocess.DEVNULL, capture_output=True,
                              timeout=SECONDS, check=False)
    except subprocess.TimeoutExpired as late:
        return (late.stdout or b"").decode("latin-1"), f"QEMU has not ended after {SECONDS} seconds"
    return done.stdout.decode("latin-1"), done.stderr.decode("latin-1")


def shown(lines: list[str], step: str = "dump") -> list[str]:
    """What the machine saw, as lines: pages side by side that a card reads or writes, with the processor's address of
    the first, and messages. What was tried at a fence is left out: it is tried again once the dump is loaded."""
    steps: dict[str, list[Sight]] = {}
    for line in lines:
        words = line.split()
        if words[:1] == ["fence"]:
            steps[words[1]] = []
        elif words[:1] == ["seen"]:
            vector = int(words[6], 16) if len(words) > 6 else None
            sight = words[2], words[3], int(words[4], 0), int(words[5], 16), vector
            steps.setdefault(words[1], []).append(sight)
    return [f"{step} {number}: {row}" for number, seen in steps.items() for row in rows_of(sorted(set(seen)))]


@dataclass
class Row:
    """Pages side by side that a card reads or writes: its addresses, and the processor's of the first; or a message."""
    card: str
    word: str
    first: int
    last: int
    memory: int
    vector: int | None

    def text(self) -> str:
        """The row as a line."""
        if self.vector is not None:
            return f"{self.card} {self.word} {self.first:#x} to processor {self.memory}, vector {self.vector:#x}"
        return f"{self.card} {self.word} {self.first:#x}-{self.last:#x} at {self.memory:#x}"


def rows_of(seen: list[Sight]) -> list[str]:
    """What was seen at one dump, with pages side by side as one row."""
    rows: list[Row] = []
    for card, word, address, memory, vector in seen:
        last = rows[-1] if rows else None
        if last and vector is None and (last.card, last.word, last.last + 1) == (card, word, address) \
                and address - last.first == memory - last.memory:
            last.last = address + PAGE - 1
        else:
            rows.append(Row(card, word, address, address + PAGE - 1, memory, vector))
    return [row.text() for row in rows]


def outcome(trial: Trial, plant: str | None, folder: pathlib.Path,
            is_shown: bool = False) -> tuple[list[str], int, int]:
    """Builds and runs a trial with a planted fault, or with none: its lines, and how many comparisons passed and
    failed."""
    made = planted(plant, trial.images, trial.layout, (HERE / DRIVER).read_text())
    defines = ["STOP_AT_FIRST"] * made.stops_at_first + ["SHOW"] * is_shown
    (folder / DRIVER).write_text(made.driver)
    (folder / "board.h").write_text(header(made.layout, "board"))
    (folder / "data.h").write_text(data_text(trial, made.images))
    sources = [*(HERE / name for name in SOURCES), folder / DRIVER]
    return result_of(*qemu(build(folder, defines, sources), trial.cards))


def session_outcome(trial: SessionTrial, archive: pathlib.Path, plant: str | None, folder: pathlib.Path,
                    is_shown: bool = False) -> tuple[list[str], int, int]:
    """The same of a trial of the library."""
    (folder / "board.h").write_text(header(trial.layout, "board"))
    (folder / "data.h").write_text(session.data_text(trial))
    for name in SESSION_SOURCES:
        (folder / name).write_text(session.source_text(name, plant))
    sources = [*(folder / name for name in SESSION_SOURCES), TOOLS / "library" / "heap.c", archive]
    # netconf_image.h has functions of the same names as the library, so each file has its own of these.
    defines = ["HEAP_SIZE=0x1000000", "NETCONF_API=static inline", "NETCONF_IMAGE_IMPLEMENTATION=",
               *(["STOP_AT_FIRST"] if plant else []), *(["SHOW"] if is_shown else [])]
    return result_of(*qemu(build(folder, defines, sources), trial.cards, CPU_OF_LIBRARY))


def result_of(output: str, errors: str) -> tuple[list[str], int, int]:
    """The lines that a machine printed, and how many comparisons passed and failed."""
    lines = output.splitlines()
    words = lines[-1].split() if lines else []
    if len(words) == 4 and words[1] == "passed," and words[3] == "failed":
        return lines[:-1], int(words[0]), int(words[2])
    return [*lines, f"FAILED: the machine did not come to its end\n{errors[-2000:]}"], 0, 1


def run(trial: Trial, plants: list[str], folder: pathlib.Path, is_shown: bool) -> tuple[int, int]:
    """Runs the trial as it is, or with each of the plants, which must be found; returns how many passed and failed."""
    if not plants:
        lines, passed, failed = outcome(trial, None, folder, is_shown)
        lines = [line for line in lines if not line.startswith(("seen ", "fence "))] + shown(lines)
        print("".join(f"{line}\n" for line in lines), end="")
        return passed, failed
    found = [is_found(plant, PLANTS[plant].what, *outcome(trial, plant, folder)) for plant in plants]
    return sum(found), len(plants) - sum(found)


def is_found(plant: str, what: str, lines: list[str], _: int, failed: int) -> bool:
    """Says whether a planted fault was found, and by what."""
    first = next((line for line in lines if line.startswith("FAILED: ")), "FAILED: nothing fails")
    print(f"planted {plant} ({what}): " + (f"found. {first.removeprefix('FAILED: ')}" if failed else "NOT FOUND"))
    return failed != 0


def run_session(options: argparse.Namespace) -> tuple[int, int]:
    """Runs the trial of the library, or plants each fault in it; returns how many passed and failed."""
    archive = pathlib.Path(options.archive or TOOLS.parent / "crates/netconf_c/out/libnetconf_c.a").resolve()
    if missing() or not archive.exists():
        print(f"skipped: library: there is no {' and no '.join(missing() or [str(archive)])}")
        return 0, 0
    with tempfile.TemporaryDirectory() as made:
        folder = pathlib.Path(options.keep or made)
        folder.mkdir(parents=True, exist_ok=True)
        trial = SessionTrial(read(options.net or str(HERE / "q35.net")))
        if options.planted:
            found = [is_found(plant, session.PLANTS[plant].what, *session_outcome(trial, archive, plant, folder))
                     for plant in session.PLANTS]
            return sum(found), len(found) - sum(found)
        lines, passed, failed = session_outcome(trial, archive, None, folder, options.show)
        lines = [line for line in lines if not line.startswith("seen ")] + shown(lines, "step")
        print("".join(f"{line}\n" for line in lines), end="")
        return passed, failed


def main() -> int:
    """Reads the words, and runs the trial."""
    parser = argparse.ArgumentParser(prog="tools/machine/run",
                                     description="Tries the tables of a description on a machine of QEMU.")
    add_version(parser)
    parser.add_argument("--machine", choices=[PC, LIBRARY, *BOARDS], action="append", default=[],
                        help="try this machine: pc has a loader at work that takes images; library a program that "
                             "grants, routes and revokes by the library; the others have the tables of "
                             "netconf-export in the format of that name (default: all; with --net or --plant: pc)")
    parser.add_argument("--archive", metavar="FILE",
                        help="the library (default: crates/netconf_c/out/libnetconf_c.a)")
    parser.add_argument("--net", metavar="FILE",
                        help="the description (default: q35.net beside this file for pc, cards.net for the others)")
    parser.add_argument("--plant", choices=PLANTS, action="append", default=[], metavar="FAULT",
                        help=f"pc: plant this fault, which the trial must find: {', '.join(PLANTS)}")
    parser.add_argument("--planted", action="store_true", help="plant each fault in turn")
    parser.add_argument("--show", action="store_true",
                        help="list what the cards read and wrote, page by page, and where it arrived")
    parser.add_argument("--keep", metavar="FOLDER", help="leave there what is made: board.h, data.h, trial.elf")
    parser.add_argument("program", nargs="?", metavar="PROGRAM", help="the built netconf")
    return run_machines(parser.parse_args())


def run_machines(options: argparse.Namespace) -> int:
    """Runs the trials on the machines that are chosen, and says how many comparisons passed and failed."""
    chosen = options.machine or ([PC] if options.net or options.plant else [PC, LIBRARY, *BOARDS])
    passed = failed = 0
    try:
        if options.program:
            os.environ["NETCONF"] = os.path.abspath(options.program)
        program()
        tables = [name for name in chosen if name in BOARDS]
        counts = [run_pc(options)] if PC in chosen else []
        counts += [run_session(options)] if LIBRARY in chosen else []
        counts += [run_all(tables, options.net, options.planted, options.show)] if tables else []
        passed, failed = (sum(numbers) for numbers in zip(*counts))
    except (Trouble, OSError) as trouble:
        print(f"FAILED: {trouble}")
        failed += 1
    print(f"{passed} passed, {failed} failed")
    return 1 if failed else 0


def run_pc(options: argparse.Namespace) -> tuple[int, int]:
    """Runs the trial of a loader on a PC, and returns how many comparisons passed and failed."""
    if missing():
        print(f"skipped: the trial on a machine: {' and '.join(missing())} missing; tools/install-needs installs it")
        return 0, 0
    with tempfile.TemporaryDirectory() as made:
        folder = pathlib.Path(options.keep or made)
        folder.mkdir(parents=True, exist_ok=True)
        trial = Trial(read(options.net or str(HERE / "q35.net")))
        return run(trial, [*PLANTS] if options.planted else options.plant, folder, options.show)


if __name__ == "__main__":
    sys.exit(ended("run", main, 1, Trouble))
