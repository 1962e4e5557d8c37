"""The list of Debian packages that tools and tests need, what installs them, and what a test says without the kit."""

import re
import sys

from tests.case import NEEDS, TOOLS, Case, outcome


class TestNeeds(Case):
    """The list of what the tests need; nothing is installed."""

    def test_list(self) -> None:
        """Each line of the list is a package and what it is for, and no package stands twice."""
        lines = [line for line in (TOOLS / "needs").read_text().splitlines() if not line.startswith("#")]
        for line in lines:
            self.assertRegex(line, r"^[a-z0-9.+-]+ +# \S.*$")
        self.assertEqual(len(NEEDS), len(set(NEEDS)))

    def test_missing(self) -> None:
        """What is missing is in the list, and no package is taken as a word."""
        status, output, errors = outcome(TOOLS / "install-needs", "--missing")
        self.assertEqual((status, errors), (0, ""))
        beside = re.findall(r"^([a-z0-9.+-]+) +\S+ +# \S", (TOOLS / "needs-beside").read_text(), re.M)
        self.assertLessEqual(set(output.split()), {*NEEDS, *(f"{package}/bookworm-backports" for package in beside)})
        usage = "usage: tools/install-needs [--missing]\n"
        self.assertEqual(outcome(TOOLS / "install-needs", "python3"), (1, "", usage))

    def test_without_the_kit(self) -> None:
        """try-tests says what is missing, and takes no word."""
        # No command but those of the shell, Python and the system's own is there.
        status, output, _ = outcome(sys.executable, TOOLS / "try-tests", PATH="/nowhere")
        due = ["the Rattle kit is missing: there is no command rt in PATH", "nothing is proved: the gate is .ci/run",
               "0 passed, 1 failed"]
        self.assertEqual((status, output.splitlines()[1:]), (1, due))
        status, output, errors = outcome(TOOLS / "try-tests", "frob")
        self.assertEqual((status, output, errors.splitlines()[-1]),
                         (2, "", "tools/try-tests: error: unrecognized arguments: frob"))
