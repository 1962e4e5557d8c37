"""Tests the tools beside the program; `tools/tests/run-tools --help` says how."""

import sys

from tests.runner import main

if __name__ == "__main__":
    sys.exit(main("tools",
                  "Tests the tools beside the program: pictures, lint, questions, hostile input, manual pages, "
                  "completion, the editor's files, the package."))
