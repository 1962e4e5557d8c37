"""The documents of the tools: what they show is what is printed, and mandoc finds nothing in the manual pages."""

import os
import re
import subprocess

from tests.case import TOOLS, TOP, Case, found, outcome

NAMED = {
    "netconf.1": ["run", "check", "demo", "audit", "NoImage", "accept", "map", "over", "agent", "vectors", "unit",
                  "module", "use", "for", "begin", "resolve", "lookup",
                  "view", "dump", "radix", "split", "absorb", "grant", "gather", "route", "revoke", "IdUsed", "NoAgent",
                  "NoTarget", "NotAccepted", "BookFull",
                  "NoPlacement", "NoGrant", "NoUnit", "Pool"],
    "netconf-lint.1": ["--audit", "--json", "--junit", "--sarif", "--set", "--strict", "--help", "--version",
                       "NETCONF", "Overlap", "Range", "Repeat",
                       "VectorSpace", "Loop", "Deep", "Duplicate", "warning", "gather", "IdUsed",
                       "NoAgent", "NoTarget", "NotAccepted", "NoPlacement", "NoUnit", "Pool"],
    "netconf-lsp.1": ["--stdio", "--help", "--version", "NETCONF", "diagnostics", "hover", "completion"],
    "netconf-run.1": ["--set", "--expand", "--check", "--audit", "--demo", "--keep-going", "--help", "--version",
                      "NETCONF", "NO_COLOR", "let", "include", "size"],
    "netconf-layout.1": ["--json", "--c", "--prefix", "--help", "--version", "NETCONF", "//@"],
    "netconf-dump2bin.1": ["--changes", "--dump", "--keep-going", "--tree", "--output", "--help", "--version", "fence"],
    "netconf-export.1": ["--format", "--at", "--host", "--agent", "--device", "--bits", "--pages", "--room",
                         "--context-bytes", "--output", "--json", "--c", "--prefix", "--changes", "--import", "--root",
                         "--config", "--debugfs", "--number", "--partial", "--help", "--version", "vtd", "smmuv3-s1",
                         "smmuv3-s2",
                         "riscv", "amd", "NETCONF", "fence"],
    "netconf-import.1": ["--acpi", "--agent", "--cores", "--dma", "--explain", "--function", "--grant", "--help",
                         "--interrupts", "--iomem", "--master", "--memory", "--mtree", "--only", "--pci",
                         "--shared-tables", "--slots", "--strict", "--this-machine", "--version", "--views"],
    "netconf-draw.1": ["--svg", "--views", "--write", "--agent", "--audit", "--by-records", "--compare", "--help",
                       "--version",
                       "NETCONF"],
    "netconf-query.1": ["who", "where", "diff", "test", "--json", "--image", "--old-image", "--strict", "--sarif",
                        "--junit", "--help", "--version", "NETCONF", "never", "only", "all", "alone", "at agent",
                        "same", "disjoint", "never_ever", "whatever", "left_out", "report", "--html", "--markdown",
                        "group", "let", "//!"],
}


class TestManual(Case):
    """The manual pages, and what other pages show of the tools."""

    def test_statuses(self) -> None:
        """The page of the program has the statuses of the language's page."""
        table = (TOP / "docs/language.md").read_text().split("## Statuses")[1]
        wanted = re.findall(r"^\| (\d+) \|", table, re.M)
        page = (TOP / "docs/netconf.1").read_text().split(".Sh EXIT STATUS")[1].split(".Sh")[0]
        self.assertEqual(re.findall(r"^\.It (\d+)", page, re.M), wanted, "the statuses of netconf")

    def test_examples(self) -> None:
        """What the page of the program shows is what the program prints."""
        page = (TOP / "docs/netconf.1").read_text()
        blocks = re.findall(r"^\.Bd -literal.*?\n(.*?)^\.Ed", page, re.S | re.M)
        text, answer = blocks[0].split("$ cat board.net\n")[1].split("$ netconf run < board.net\n")
        buffer, granted = blocks[2].split("$ cat buffer.net\n")[1].split("$ netconf run < buffer.net\n")
        shown = [("run", text, answer), ("check", text, blocks[1].split("$ netconf check < board.net\n")[1]),
                 ("run", buffer, granted)]
        for word, description, output in shown:
            self.assertEqual(outcome(os.environ["NETCONF"], word, text=description), (0, output, ""),
                             f"what netconf {word} prints")
        counted = blocks[3].split("$ netconf demo 4\n")[1]
        self.assertEqual(outcome(os.environ["NETCONF"], "demo", "4", text=""), (0, counted, ""),
                         "what netconf demo 4 prints")
        dump = outcome(os.environ["NETCONF"], "run", text=buffer + "dump;")[1].split("dump bytes ")[1]
        audited = blocks[4].split("| netconf audit\n")[1]
        done = subprocess.run([os.environ["NETCONF"], "audit"],
                              input=buffer.encode() + b"\0" + bytes.fromhex(dump.split("\n", 1)[1]),
                              capture_output=True, check=False)
        self.assertEqual((done.returncode, done.stdout.decode(), done.stderr), (0, audited, b""),
                         "what netconf audit prints")

    def test_documents(self) -> None:
        """What the README and the pages of the language and of images show behind a text is what the program prints."""
        words = {"prints": "run", "is answered by": "run", "is printed as": "check"}
        for name, count in (("README.md", 1), ("docs/language.md", 8), ("docs/image.md", 1)):
            parts = (TOP / name).read_text().split("```\n")
            pairs = [part for part in range(1, len(parts) - 2, 2) if parts[part + 1].strip() in words]
            self.assertEqual(len(pairs), count, f"how many texts {name} shows with what they print")
            for part in pairs:
                word = words[parts[part + 1].strip()]
                seen = outcome(os.environ["NETCONF"], word, text=parts[part])
                self.assertEqual(seen, (0, parts[part + 2], ""),
                                 f"what netconf {word} prints of {parts[part][:60]} in {name}")

    def test_pictures(self) -> None:
        """The pictures have the texts of those that are drawn; Graphviz of another version lays them out otherwise."""
        self.need("dot", "graphviz")
        status, _, errors = outcome(TOOLS / "pictures", self.folder)
        self.assertEqual((status, errors), (0, ""), "the pictures are drawn")
        for drawn in sorted(self.folder.iterdir()):
            with self.subTest(drawn.name):
                kept = (TOP / "docs/pictures" / drawn.name).read_text()
                shown, due = (sorted(re.findall(r"<text[^>]*>([^<]*)<", picture))
                              for picture in (drawn.read_text(), kept))
                self.assertEqual(shown, due)

    def test_page(self) -> None:
        """What the page of the tools and the page of lint show is what netconf-lint prints, and the picture is what is
        drawn."""
        page = (TOP / "docs/tools.md").read_text()
        shown = re.findall(r"^\$ tools/(netconf-lint) (\S+)\n(.+?)^```", page, re.S | re.M)
        self.assertTrue(len(shown) == 3, f"what the page of the tools shows: {shown}")
        for tool, path, output in shown:
            status = 1 if ": error: " in output else 0
            self.assertEqual(outcome(TOOLS / tool, path), (status, output, ""), f"what {tool} {path} prints")
        manual = (TOP / "docs/netconf-lint.1").read_text()
        path, output = found(r"^\$ netconf-lint (\S+)\n(.*?)^\.Ed", manual, re.S | re.M).groups()
        self.assertEqual(outcome(TOOLS / "netconf-lint", path, folder=TOP / "examples"), (1, output, ""),
                         "what netconf-lint prints")
        picture = outcome(TOOLS / "netconf-draw", "--views", "examples/first_board.net")[1]
        self.assertTrue(picture == (TOP / "docs/pictures/first_board.views.svg").read_text(),
                        "the picture of the first board")

    def test_query_page(self) -> None:
        """What the page of netconf-query shows is what it prints; its claims stand in a file as the page has them."""
        shown = re.findall(r"^\.Bd -literal.*?\n(.*?)^\.Ed", (TOP / "docs/netconf-query.1").read_text(), re.S | re.M)
        command, output = shown[0].split("\n", 1)
        self.assertEqual(outcome(TOOLS / "netconf-query", *command.split()[2:], folder=TOP / "examples"),
                         (0, output, ""), "what netconf-query who prints")
        claims, rest = shown[1].split("$ cat first_board.claims\n")[1].split("$ netconf-query ")
        command, output = rest.split("\n", 1)
        (self.folder / "first_board.claims").write_text(claims)
        (self.folder / "first_board.net").write_text((TOP / "examples/first_board.net").read_text())
        self.assertEqual(outcome(TOOLS / "netconf-query", *command.split(), folder=self.folder), (1, output, ""))

    def test_see_also(self) -> None:
        """Each page names all others under SEE ALSO."""
        pages = sorted((TOP / "docs").glob("*.1"))
        for page in pages:
            named = re.findall(r"^\.\w\w (netconf\S*) Ns", page.read_text().split(".Sh SEE ALSO\n")[1], re.M)
            self.assertEqual(sorted(set(named)), sorted(other.stem for other in pages if other != page),
                             f"what {page.name} says to see too")

    def test_first_grant(self) -> None:
        """README shows the example of the first grant."""
        first = (TOP / "examples/first_grant.net").read_text()
        self.assertIn(f"```\n{first}```", (TOP / "README.md").read_text())

    def test_mandoc(self) -> None:
        """mandoc finds nothing wrong, and each page names what it must."""
        self.need("mandoc", "mandoc")
        for path in sorted((TOP / "docs").glob("*.1")):
            with self.subTest(path.name):
                self.assertEqual(outcome("mandoc", "-T", "lint", path)[:2], (0, ""))
        for name, words in NAMED.items():
            with self.subTest(name):
                page = re.sub(r"(.)\x08", "", outcome("mandoc", "-T", "ascii", TOP / "docs" / name)[1])
                self.assertEqual([word for word in words if word not in page], [], "words that the page must name")
