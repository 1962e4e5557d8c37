"""Tests the tables in the formats of real IOMMUs; `tools/tests/run-export --help` says how."""

import sys

from tests.runner import main

if __name__ == "__main__":
    sys.exit(main("export",
                  "Tests the tables that netconf-export makes and reads, by walkers of the manuals. The variable MADE "
                  "says how many descriptions are made, of 20 nets each (default: 50); TREES names a folder of device "
                  "trees, of which BOARDS (default: 16) are tried under grants that chance chooses, with EACH at each "
                  "page."))
