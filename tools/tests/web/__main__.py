"""Tests the page that runs netconf in a browser; `web/test --help` says how."""

import sys

from tests.runner import main

if __name__ == "__main__":
    sys.exit(main("web", "Tests the page in a browser: its answers beside those of the program, what it marks, draws "
                         "and grants, its keys and links, a narrow window, dark colours."))
