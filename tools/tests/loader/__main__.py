"""Tests what stands between a dump and a machine; `tools/tests/run-loader --help` says how."""

import sys

from tests.runner import main

if __name__ == "__main__":
    sys.exit(main("loader",
                  "Tests what stands between a dump and a machine: tools/loader, netconf-layout, netconf-dump2bin, "
                  "trees of pages, and audits of images. The variable MADE says how many descriptions are made, of "
                  "eight nets each (default: 40)."))
