"""Runs the trials of exported tables on several machines at once, each in a process of its own."""

import concurrent.futures
import os
from typing import NamedTuple

from machine.boards import BACKPORTS, BOARDS, HERE, qemu_of
from machine.table_plants import STEP_PLANTS, WORD_PLANTS, planted
from machine.tables import Outcome, TablesTrial, trial_of
from machine.trial import PAGE
from netconf_tools.text import Trouble

BLOCK = str(HERE / "block.net")
"""The description of a card with 1 GiB, which is tried after that of the cards."""

PLANTS = {**{name: what for name, (what, _) in WORD_PLANTS.items()}, **STEP_PLANTS}
"""The faults that can be planted in exported tables, each with what it is."""


class Result(NamedTuple):
    """What the trial on one machine says: its lines, and how many comparisons passed and failed."""
    lines: list[str]
    passed: int
    failed: int


def why_missing(name: str) -> str:
    """Returns why the trial on a machine cannot be run here, or nothing."""
    board = BOARDS[name]
    if qemu_of(board.program, board.is_new):
        return ""
    if board.is_new:
        return (f"skipped: {name}: there is no {board.program} of Debian's backports in {BACKPORTS}; as root: "
                "tools/install-needs")
    return f"skipped: {name}: there is no {board.program}; as root: tools/install-needs"


def result_of(name: str, net: str | None, is_planted: bool, is_shown: bool) -> Result:
    """Runs the trial on one machine, or plants each fault in it."""
    why = why_missing(name)
    if why:
        return Result([why], 0, 0)
    try:
        trial = trial_of(name, net)
        if is_planted:
            return planted_result(name, trial)
        found = trial.run()
        if net is None:
            found.add(trial_of(name, BLOCK).run())
    except (Trouble, LookupError, OSError) as trouble:
        return Result([f"FAILED: {name}: {trouble}"], 0, 1)
    shown = [f"{name}: {line}" for line in rows_of(found)] if is_shown else []
    lines = [f"{name}: {line}" for line in found.lines]
    return Result([*lines, *shown, f"{name}: {found.passed} passed, {found.failed} failed"], found.passed, found.failed)


def planted_result(name: str, trial: TablesTrial) -> Result:
    """Plants each fault on one machine; one that is found passes."""
    lines, found = [], 0
    for plant, what, line in planted(trial):
        found += line is not None
        lines.append(f"{name}: planted {plant} ({what}): "
                     + ("NOT FOUND" if line is None else f"found. {line.removeprefix('FAILED: ')}"))
    return Result(lines, found, len(lines) - found)


def rows_of(found: Outcome) -> list[str]:
    """Returns what cards read and wrote, as lines with pages side by side as one."""
    rows: list[tuple[str, str, str, int, int, int]] = []
    for dump, card, word, first, memory in sorted(set(found.seen)):
        last = rows[-1] if rows else None
        if last and last[:3] == (dump, card, word) and first == last[4] + 1 and first - last[3] == memory - last[5]:
            rows[-1] = (*last[:4], first + PAGE - 1, last[5])
        else:
            rows.append((dump, card, word, first, first + PAGE - 1, memory))
    return [f"{dump}: {card} {word} {first:#x}-{last:#x} at {memory:#x}"
            for dump, card, word, first, last, memory in rows if not dump.startswith("fence")]


def run_all(names: list[str], net: str | None, is_planted: bool, is_shown: bool) -> tuple[int, int]:
    """Runs the trials on machines, prints what they say in the order of the names, and returns how many passed and
    failed."""
    passed = failed = 0
    with concurrent.futures.ProcessPoolExecutor(min(len(names), os.cpu_count() or 1)) as pool:
        for result in pool.map(result_of, names, *([word] * len(names) for word in (net, is_planted, is_shown))):
            print("".join(f"{line}\n" for line in result.lines), end="", flush=True)
            passed, failed = passed + result.passed, failed + result.failed
    return passed, failed
