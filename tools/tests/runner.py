"""Runs the tests of one part, several modules at once, and says how many passed."""

import argparse
import concurrent.futures
import os
import pathlib
import sys
import unittest
from collections.abc import Iterable
from typing import NamedTuple

from netconf_tools.text import Trouble, program

HERE = pathlib.Path(__file__).resolve().parent
NAMES = "a module, a class in it or a test of that class, such as `draw`, `draw.TestDraw`, `draw.TestDraw.test_large`"


class Outcome(NamedTuple):
    """How many tests of a module passed, failed and were skipped, and what is to be said of them."""
    passed: int
    failed: int
    skipped: int
    lines: list[str]


def full_name(part: str, name: str) -> str:
    """The name of a test as Python has it, from the name in a part: `test_` may be left out before the module."""
    module, dot, rest = name.removeprefix(f"tests.{part}.").removeprefix("test_").partition(".")
    return f"tests.{part}.test_{module}{dot}{rest}"


def names_of(tests: Iterable[object]) -> set[str]:
    """The names of tests, without what says which of their subtests it is."""
    return {test.id().partition(" ")[0] for test in tests if isinstance(test, unittest.TestCase)}


def outcome_of(name: str) -> Outcome:
    """Runs the tests of a name."""
    suite, result = unittest.defaultTestLoader.loadTestsFromName(name), unittest.TestResult()
    suite.run(result)
    wrong, skipped = [*result.failures, *result.errors], result.skipped
    lines = [f"FAILED: {test.id()}\n{text}" for test, text in wrong]
    lines += [f"FAILED: {test.id()} succeeds, though it is marked as one that fails"
              for test in result.unexpectedSuccesses]
    lines += [f"skipped: {reason}" for reason in dict.fromkeys(reason for _, reason in skipped)]
    # What a class needs fails or is skipped once for all its tests, which then do not run; subtests count with their
    # test.
    failed = names_of([*(test for test, _ in wrong), *result.unexpectedSuccesses])
    left_out = names_of(test for test, _ in skipped) - failed
    of_classes = [sum(not isinstance(test, unittest.TestCase) for test, _ in tests) for tests in (wrong, skipped)]
    return Outcome(result.testsRun - len(failed) - len(left_out), len(failed) + of_classes[0],
                   len(left_out) + of_classes[1], lines)


def run(names: list[str]) -> int:
    """Runs the tests of each name in a process of its own, and prints what failed; status 1 where some did."""
    with concurrent.futures.ProcessPoolExecutor(os.cpu_count()) as pool:
        outcomes = list(pool.map(outcome_of, names))
    for line in dict.fromkeys(line for outcome in outcomes for line in outcome.lines):
        print(line)
    passed, failed = sum(outcome.passed for outcome in outcomes), sum(outcome.failed for outcome in outcomes)
    skipped = sum(outcome.skipped for outcome in outcomes)
    if skipped:
        print(f"{skipped} skipped")
    print(f"{passed} passed, {failed} failed")
    return 1 if failed else 0


def main(part: str, description: str) -> int:
    """Runs the tests of a part that the words of the command line name, or all of them; returns the status."""
    parser = argparse.ArgumentParser(
        prog=f"tools/tests/run-{part}", description=description,
        epilog="The program is that of the variable NETCONF, or crates/netconf/out/netconf. Nothing is installed: a "
               "test that lacks a command is skipped, with the line that installs it. The last line is `N passed, M "
               "failed`, and the status 1 where some failed.")
    parser.add_argument("names", metavar="NAME", nargs="*", help=f"{NAMES} (default: all)")
    options = parser.parse_args()
    try:
        os.environ["NETCONF"] = os.path.abspath(program())
    except Trouble as trouble:
        print(f"FAILED: {trouble}\n0 passed, 1 failed")
        return 1
    modules = sorted(path.stem for path in (HERE / part).glob("test_*.py"))
    sys.stdout.flush()
    return run([full_name(part, name) for name in options.names or modules])
