"""Tests netconf-import: the trees of rules/ and broken/ with their transcripts, machines of QEMU where it is there, and
all trees of a Debian kernel.

A transcript has the commands that are run in its folder, as lines after `$ `, and below each what it prints: standard
output as it is, standard error after `! `, and `status N` where the status is not 0. The trees of the kernel are
judged by judge.py.

    run-import            all; the package of the kernel is fetched
    run-import rules      without the trees of the kernel
    run-import FOLDER     with the trees of a kernel from a folder, such as usr/lib/linux-image-6.1.0-9-arm64

It installs nothing: where dtc or libfdt is missing, it says that all is skipped, with the line that installs them.
"""
import importlib.util
import os
import resource
import shutil
import subprocess
import sys
import tempfile
from multiprocessing import Pool
from pathlib import Path

HERE = Path(__file__).resolve().parent
TOP = HERE.parents[2]
PROGRAM = Path(os.environ.get("NETCONF", TOP / "crates/netconf/out/netconf")).resolve()
IMPORT = TOP / "tools/netconf-import"
LEAST_IMPORTED = 95
MACHINES = ("q35", "pc", "microvm")
MEMORY = (0x8000000000, 0x80ffffffff)
"""The memory that a tree without any is given: 4 GiB where no device of any board is."""
MOST_SECONDS = 5
"""How many seconds of processor time a command of a transcript may take."""


def transcript_parts(text: str) -> list[tuple[str, list[str]]]:
    """The commands of a transcript, each with what is due."""
    commands: list[tuple[str, list[str]]] = []
    for line in text.splitlines():
        if line.startswith("$ "):
            commands.append((line[2:], []))
        else:
            commands[-1][1].append(line)
    return commands


def printed(command: str, folder: Path) -> list[str]:
    """What a command prints, as a transcript has it."""
    done = subprocess.run(["bash", "-c", "set -o pipefail; " + command], cwd=folder, capture_output=True, check=False,
                          env={**os.environ, "PATH": f"{IMPORT.parent}:{PROGRAM.parent}:{os.environ['PATH']}"})
    lines = done.stdout.decode("utf-8", "replace").splitlines()
    lines += ["! " + line for line in done.stderr.decode("utf-8", "replace").splitlines()]
    return lines + ([f"status {done.returncode}"] if done.returncode else [])


def seconds_of_commands() -> float:
    """The processor time of all commands that were run and ended, in seconds."""
    used = resource.getrusage(resource.RUSAGE_CHILDREN)
    return used.ru_utime + used.ru_stime


def run_transcript(path: Path) -> list[str]:
    """What is wrong with a transcript: lines, none where all is right."""
    wrong = []
    for command, due in transcript_parts(path.read_text()):
        before = seconds_of_commands()
        found = printed(command, path.parent)
        if (taken := seconds_of_commands() - before) > MOST_SECONDS:
            wrong.append(f"{path.name}: $ {command}: took {taken:.1f} s of processor time")
        if found != due:
            wrong += [f"{path.name}: $ {command}", *("  due:   " + line for line in due if line not in found),
                      *("  found: " + line for line in found if line not in due)]
            if sorted(found) == sorted(due):
                wrong.append("  the lines stand in another order")
    return wrong


def run_program(word: str, text: str) -> tuple[int, str]:
    """The status and the output of the program over a text."""
    done = subprocess.run([PROGRAM, word], input=text.encode("utf-8", "backslashreplace"), capture_output=True,
                          check=False)
    return done.returncode, done.stdout.decode()


def run_tree(path: Path) -> tuple[Path, str, list[str]]:
    """The path of a tree, why it is not imported (or nothing), and what is wrong with its description. One that has no
    memory is given some, as firmware does."""
    from tests.devicetree import judge
    memory = [] if judge.has_memory(path.read_bytes()) else [MEMORY]
    given = [f"--memory={first:#x}-{last:#x}" for first, last in memory]
    done = subprocess.run([IMPORT, *given, path], capture_output=True, text=True, check=False)
    if done.returncode:
        return path, done.stderr.strip(), []
    status, output = run_program("check", done.stdout)
    if status:
        return path, output.strip(), []
    return path, "", judge.wrong(path.read_bytes(), done.stdout, lambda text: run_program("run", text)[1], memory)


def run_rule(path: Path) -> list[str]:
    """What is wrong with the description of a tree that is written here, by the judge."""
    with tempfile.NamedTemporaryFile(suffix=".dtb") as blob:
        subprocess.run(["dtc", "-@", "-q", "-I", "dts", "-O", "dtb", "-o", blob.name, path], check=True)
        _path, why, wrong = run_tree(Path(blob.name))
    return [f"{path.name}, by the judge: {line}" for line in [why] * bool(why) + wrong]


def fetched(folder: str) -> tuple[Path | None, str]:
    """The folder of a kernel's trees, or None and why there is none."""
    done = subprocess.run([TOP / "examples/boards/fetch", folder], capture_output=True, text=True, check=False)
    if done.returncode:
        return None, done.stderr.strip()
    return Path(done.stdout.strip()), ""


def kernel_trees(given: str | None) -> tuple[int, list[str]]:
    """Judges each tree of the kernel, fetched or from a given folder: how many passed, and lines on the others."""
    with tempfile.TemporaryDirectory() as folder:
        where, why = (Path(given).resolve(), "") if given else fetched(folder)
        if where is None:
            print(f"skipped: the trees of a kernel: {why}")
            return 0, []
        trees = sorted(where.rglob("*.dtb"))
        with Pool(os.cpu_count()) as pool:
            results = pool.map(run_tree, trees, chunksize=4)
        refused = [f"not imported: {path.relative_to(where)}: {why}" for path, why, _wrong in results if why]
        wrong = [f"{path.relative_to(where)}: {lines[0]}" for path, _why, lines in results if lines]
    print(f"{len(trees)} trees of {where.name}: {len(trees) - len(refused)} imported")
    print("".join(line + "\n" for line in refused), end="")
    if 100 * (len(trees) - len(refused)) < LEAST_IMPORTED * len(trees) or not trees:
        wrong.append(f"fewer than {LEAST_IMPORTED} in 100 trees are imported")
    return len(trees) - len(refused) - len(wrong), wrong


def run_machine(machine: str) -> list[str] | None:
    """What is wrong with the description of a machine of QEMU, by its flat views; or None where there is no such
    machine."""
    from tests.devicetree import judge_mtree
    done = subprocess.run(["qemu-system-x86_64", "-M", machine, "-display", "none", "-monitor", "stdio", "-S"],
                          text=True, input="info mtree -f\nquit\n", capture_output=True, check=False)
    if done.returncode:
        return None
    text = done.stdout
    done = subprocess.run([IMPORT, "--mtree", "-"], input=text, capture_output=True, text=True, check=False)
    status, output = run_program("check", done.stdout) if done.returncode == 0 else (1, done.stderr)
    if status:
        return [f"{machine} of QEMU: {output.strip()[:300]}"]
    wrong = judge_mtree.wrong(text, done.stdout, lambda asked: run_program("run", asked)[1])
    return [f"{machine} of QEMU: {line}" for line in wrong[:1]]


def machines() -> tuple[int, list[str]]:
    """Judges machines that QEMU emulates: how many passed, and lines on the others."""
    if shutil.which("qemu-system-x86_64") is None:
        print("skipped: machines of QEMU: there is no qemu-system-x86_64 (tools/install-needs installs it)")
        return 0, []
    results = [wrong for wrong in map(run_machine, MACHINES) if wrong is not None]
    return sum(not wrong for wrong in results), [line for wrong in results for line in wrong]


def missing() -> str:
    """What this test needs from Debian and is not there, in words, or nothing."""
    lacks = ["dtc (device-tree-compiler)"] * (shutil.which("dtc") is None)
    lacks += ["libfdt (python3-libfdt)"] * (importlib.util.find_spec("libfdt") is None)
    return ", ".join(lacks)


def main(words: list[str]) -> int:
    """Runs all, and says how many passed."""
    if not os.access(PROGRAM, os.X_OK):
        print("build the program first (in crates/netconf: rt run -- run < ../../examples/first_board.net), "
              "or say where it is in NETCONF")
        return 1
    if missing():
        print(f"skipped: device trees: missing {missing()}; as root: tools/install-needs")
        print("0 passed, 0 failed")
        return 0
    passed, failed = 0, 0
    written = [(run_transcript, path) for path in sorted(HERE.glob("*/*.transcript"))]
    written += [(run_rule, path) for path in sorted((HERE / "rules").glob("*.dts"))]
    for test, path in written:
        wrong = test(path)
        passed, failed = passed + (not wrong), failed + bool(wrong)
        print("".join(line + "\n" for line in wrong), end="")
    more, wrong = machines()
    passed, failed = passed + more, failed + len(wrong)
    print("".join(line + "\n" for line in wrong), end="")
    if words != ["rules"]:
        more, wrong = kernel_trees(words[0] if words else None)
        passed, failed = passed + more, failed + len(wrong)
        print("".join(line + "\n" for line in wrong), end="")
    print(f"{passed} passed, {failed} failed")
    return 1 if failed else 0


if __name__ == "__main__":
    sys.exit(main(sys.argv[1:]))
