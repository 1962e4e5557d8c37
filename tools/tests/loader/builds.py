"""The harness as two compilers build it, for 64 and 32 bits, with sanitizers and without."""

import concurrent.futures
import pathlib
import shutil
import subprocess
from collections.abc import Iterable

from tests.case import Case

HERE = pathlib.Path(__file__).resolve().parent
LOADER = HERE.parents[1] / "loader"
WARNINGS = ["-Wall", "-Wextra", "-Wpedantic", "-Wshadow", "-Wconversion", "-Wno-sign-conversion", "-Werror"]
SANITIZERS = ["-g", "-O1", "-fsanitize=address,undefined", "-fno-sanitize-recover=all"]
PACKAGES = {"gcc": "gcc", "clang": "clang", "g++": "g++", "clang++": "clang"}

BUILDS = [(compiler, bits, options) for compiler in ("gcc", "clang") for bits in ("-m64", "-m32")
          for options in (SANITIZERS, ["-O3"])]
"""The compiler, its bits and its options of each build that is run."""

LANGUAGES = [("gcc", "-std=c99"), ("gcc", "-std=c17"), ("clang", "-std=c99"), ("clang", "-std=c17"),
             ("g++", "-std=c++11"), ("g++", "-std=c++20"),
             ("clang++", "-std=c++11"), ("clang++", "-std=c++20")]
"""The languages as which the harness must compile."""

TINY = "int main(void) { return 0; }\n"


def built(command: Iterable[object]) -> str:
    """What a compiler says, or nothing where it succeeds."""
    done = subprocess.run([str(word) for word in command], capture_output=True, text=True, check=False)
    return "" if done.returncode == 0 else done.stderr[:2000] or "it failed"


def can(compiler: str, options: list[str], folder: pathlib.Path) -> bool:
    """Whether a compiler makes programs with these options that run here."""
    if shutil.which(compiler) is None:
        return False
    source, binary = folder / "tiny.c", folder / f"tiny-{compiler}{''.join(options)}".replace("/", "-")[:200]
    source.write_text(TINY)
    if built([compiler, *options, source, "-o", binary]):
        return False
    return subprocess.run([str(binary)], capture_output=True, check=False).returncode == 0


def all_builds(case: Case, folder: pathlib.Path) -> dict[str, pathlib.Path]:
    """Builds the harness in each way that this machine can, and says which it cannot; returns the programs by their
    names."""
    programs: dict[str, pathlib.Path] = {}

    def one(build: tuple[str, str, list[str]]) -> tuple[str, pathlib.Path | None, str]:
        compiler, bits, options = build
        name = f"{compiler} {bits} {options[-1] if options is not SANITIZERS else 'sanitized'}"
        if not can(compiler, [bits, *options], folder):
            return name, None, ""
        binary = folder / name.replace(" ", "")
        return name, binary, built([compiler, "-std=c99", bits, *WARNINGS, *options, f"-I{LOADER}", HERE / "harness.c",
                                    "-o", binary])

    with concurrent.futures.ThreadPoolExecutor(2) as pool:
        for name, binary, errors in pool.map(one, BUILDS):
            if binary is None:
                case.missing.append(f"{name}; tools/install-needs installs gcc-multilib, clang and their sanitizers")
                continue
            case.assertEqual(errors, "", f"{name} compiles the header without a warning")
            if not errors:
                programs[name] = binary
    return programs


def run_all(case: Case, programs: dict[str, pathlib.Path], requests: str, what: str) -> str:
    """What the programs print for requests, all of them the same."""
    def one(item: tuple[str, pathlib.Path]) -> tuple[str, int, str, str]:
        name, binary = item
        done = subprocess.run([str(binary)], input=requests, capture_output=True, text=True, check=False)
        return name, done.returncode, done.stdout, done.stderr

    with concurrent.futures.ThreadPoolExecutor(2) as pool:
        results = list(pool.map(one, programs.items()))
    first = results[0][2]
    for name, status, output, errors in results:
        case.assertEqual(status, 0, f"{name} over {what}: {errors}")
        case.assertEqual(output, first, f"{name} answers as {results[0][0]} over {what}")
    return first
