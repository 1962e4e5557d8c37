"""What all tests share: the places of the tree, commands that are run, and what a test lacks."""

import functools
import os
import pathlib
import re
import shutil
import subprocess
import tempfile
import unittest

TOP = pathlib.Path(__file__).resolve().parents[2]
TOOLS = TOP / "tools"
EXAMPLES = TOP / "examples"
NEEDS = re.findall(r"^[a-z0-9.+-]+", (TOOLS / "needs").read_text(), re.M)
"""The Debian packages that the tests may need."""


def outcome(*command: object, text: str = "", folder: str | pathlib.Path = TOP, **variables: str) -> tuple[int, str,
                                                                                                           str]:
    """The status, the output and the errors of a command over a text; the variables are added to the environment."""
    environment = {name: value for name, value in os.environ.items() if name != "PYTHONPATH"}
    done = subprocess.run([str(word) for word in command], input=text, capture_output=True, text=True, cwd=folder,
                          env={**environment, **variables}, check=False)
    return done.returncode, done.stdout, done.stderr


def found(pattern: str, text: str, flags: int = 0) -> re.Match[str]:
    """The first place of a text that a pattern matches, which must be there."""
    hit = re.search(pattern, text, flags)
    if hit is None:
        raise LookupError(f"nothing matches {pattern!r}")
    return hit


def descriptions() -> list[pathlib.Path]:
    """The descriptions of the examples that are not refused."""
    return sorted(path for path in EXAMPLES.glob("*.net") if not path.with_suffix(".status").exists())


class Case(unittest.TestCase):
    """A test with a folder of its own. What two values differ in is shown whole."""

    maxDiff = None

    @functools.cached_property
    def missing(self) -> list[str]:
        """What this machine lacks of what the test uses; the rest of the test runs all the same."""
        return []

    def skip_missing(self) -> None:
        """Says at the end of a test that it was skipped in part, if something is missing."""
        if self.missing:
            self.skipTest("this machine has no " + "; no ".join(self.missing))

    @functools.cached_property
    def folder(self) -> pathlib.Path:
        """A folder that is there until the test ends."""
        made = tempfile.TemporaryDirectory()
        self.addCleanup(made.cleanup)
        return pathlib.Path(made.name)

    def need(self, command: str, package: str) -> None:
        """Skips the test where a command is missing, with the line that installs its package."""
        if package not in NEEDS:
            raise LookupError(f"{package} is not in tools/needs")
        if shutil.which(command) is None:
            self.skipTest(f"{command} is missing; as root: tools/install-needs (the package {package})")
