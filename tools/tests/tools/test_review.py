"""Pages for a review: the Markdown whole, and the HTML in a browser, with its search, its links and what it may
load."""

import html.parser
import re
from unittest import mock

from netconf_tools import views
from netconf_tools.reports.review import MOST_ROWS, views_of
from netconf_tools.views import Board
from tests.browser import Browser
from tests.case import EXAMPLES, Case
from tests.inside import called

NET = """dram is accept [0x0-0x3fffffff];
bus is map [0x80000000-0xbfffffff to dram at 0x0];
agent core0 is over bus;
agent core1 is over bus;
agent card is map [0x0-0x3fff to mmu at 0x0];
agent disk is map [0x0-0x3fff to disk_mmu at 0x0];
unit mmu kind pages page 12 slots 4 reach 32 to bus;
unit disk_mmu kind pages page 12 slots 4 reach 32 to bus;
//- /soc/usb@1: no window
//! disjoint card disk
begin;
grant rx card dram 0x9000 0x1000 for write;
grant blocks disk dram 0x9000 0x2000;
grant odd card dram 0x9100 0x10;
//! alone core* dram 0x0-0x7fff
"""
"""A board on which a claim fails, a command is refused, a master is left out and two devices share a page."""

MARKDOWN = """# A \\<b\\>review\\</b\\>

What each agent sees after the commands of the description, by netconf-query VERSION.

- claims that hold: 1, that do not: 1
- findings: 2
- spans shared by records: 1
- bus masters that are left out of the description: 1

| File | What | Bytes | SHA-256 |
|---|---|---|---|
| board.net | description | 545 | `DIGEST` |

## Claims

- **does not hold**: `disjoint card disk` (board.net:10)
  - card for write: 0x0-0xfff dram@0x9000
  - disk for read: 0x0-0xfff dram@0x9000
  - disk for write: 0x0-0xfff dram@0x9000

| Holds | Place |
|---|---|
| `alone core* dram 0x0-0x7fff` | board.net:15 |

## Findings

| Severity | Place | Finding |
|---|---|---|
| warning | board.net:9 | a master is left out: /soc/usb@1: no window |
| warning | board.net:14 | grant odd is refused: NoPlacement |

## Shared by records

| Addresses | Agents |
|---|---|
| `dram 0x9000-0x9fff` | `card` at 0x0-0xfff for write; `disk` at 0x0-0xfff for read and write |

## Views

### `core0`, `core1`

| Addresses | Lead to | Size | For |
|---|---|---|---|
| `0x80000000-0xbfffffff` | `dram@0x0` | 1 GiB | read and write |

### `card`

| Addresses | Lead to | Size | For |
|---|---|---|---|
| `0x0-0xfff` | `dram@0x9000` | 4 KiB | write |

### `disk`

| Addresses | Lead to | Size | For |
|---|---|---|---|
| `0x0-0x1fff` | `dram@0x9000` | 8 KiB | read and write |
"""

TAGS = ("area", "base", "br", "col", "hr", "img", "input", "link", "meta")
"""Elements of HTML that have no end."""


class Reader(html.parser.HTMLParser):
    """Reads a page: whether its elements are closed in order, its identifiers, and what it loads or leads to."""

    def __init__(self) -> None:
        super().__init__()
        self.open: list[str] = []
        self.ids: list[str] = []
        self.links: list[str] = []
        self.wrong: list[str] = []

    def handle_starttag(self, tag: str, attrs: list[tuple[str, str | None]]) -> None:
        """An element begins."""
        self.open += [tag] if tag not in TAGS else []
        self.ids += [value or "" for name, value in attrs if name == "id"]
        self.links += [value or "" for name, value in attrs if name in ("href", "src", "xlink:href")]

    def handle_startendtag(self, tag: str, attrs: list[tuple[str, str | None]]) -> None:
        """An element of a picture that is empty."""
        self.handle_starttag(tag, attrs)
        if tag not in TAGS:
            self.open.pop()

    def handle_endtag(self, tag: str) -> None:
        """An element ends."""
        if not self.open or self.open.pop() != tag:
            self.wrong.append(tag)


SEARCHES = (("0x9000", 3), ("dram 0x9000", 3), ("0xa000", 2), ("card 0x9000", 1), ("CORE1", 1), ("0x800", 3),
            ("0x80009000", 1), ("36864", 3), ("nothing", 0), ("0xzz", 0), ("", 3))
"""What is typed into the search, and how many rows are shown then."""


class TestReview(Case):
    """The pages of a review of small boards."""

    def page(self, *words: str, name: str = "board.net", status: int = 1) -> str:
        """The page of a description that stands in a file."""
        (self.folder / name).write_text(NET)
        seen = called("query", "report", *words, name, folder=self.folder)
        self.assertEqual(seen[0], status, seen)
        return seen[1]

    def test_markdown(self) -> None:
        """The page in Markdown, whole."""
        page = self.page("--markdown", "--title", "A <b>review</b>")
        page = re.sub(r"netconf-query \d+\.\d+\.\d+\.", "netconf-query VERSION.", page)
        self.assertEqual(re.sub(r"`[0-9a-f]{64}`", "`DIGEST`", page), MARKDOWN)

    def test_status(self) -> None:
        """The status is 0 if all claims hold, 1 if one does not or something is found and it is strict, 2 if a line
        is no claim; the page is there each time."""
        for claims, words, status in (("same core0 core1\n", "", 0), ("same core0 core1\n", "--strict", 1),
                                      ("same card core1\n", "", 1), ("same core0\n", "", 2), ("", "", 0)):
            with self.subTest(claims=claims, words=words):
                (self.folder / "board.net").write_text(NET.replace("//!", "//"))
                (self.folder / "claims").write_text(claims)
                seen = called("query", "report", *words.split(), "board.net", "claims", folder=self.folder)
                self.assertEqual((seen[0], seen[1][:15]), (status, "<!DOCTYPE html>"), seen[2])

    def test_html(self) -> None:
        """The page is one whole: elements end in order, no identifier is there twice, and nothing is loaded."""
        self.need("dot", "graphviz")
        reader = Reader()
        reader.feed(self.page())
        self.assertEqual((reader.wrong, reader.open), ([], []))
        self.assertEqual(sorted(reader.ids), sorted(set(reader.ids)))
        self.assertEqual([link for link in reader.links if not link.startswith("#")], [])
        self.assertEqual([link for link in reader.links if link[1:] not in reader.ids], [])

    def test_browser(self) -> None:
        """In a browser a search shows the rows that have an address or a name, the place of a claim leads to its
        line, names with signs of HTML are names, and the console has no error."""
        self.need("chromium", "chromium")
        self.need("chromedriver", "chromium-driver")
        name = "<script>document.title='x'<:script>&.net"
        (self.folder / "page.html").write_text(self.page("--title", "<b>&amp;</b>", name=name))
        shown = "return [...document.querySelectorAll('tr[data-spans]')].filter(row => row.offsetParent).length"
        with Browser(self.folder / "profile") as browser:
            address = f"file://{self.folder}/page.html"
            browser.open(address)
            self.assertEqual(browser.script("return document.title"), "<b>&amp;</b>")
            self.assertEqual(browser.script("return document.scripts.length"), 1)
            self.assertIn(name, browser.script("return document.querySelector('#sources + h3').textContent"))
            self.assertEqual(browser.script(shown), 3)
            for words, count in SEARCHES:
                browser.script("document.getElementById('search').focus(); document.getElementById('search').select()")
                browser.keys("\ue017" + words)
                text = f"{count} row{'' if count == 1 else 's'}"
                browser.wait("return document.getElementById('found').textContent", until=text.__eq__)
                self.assertEqual(browser.script(shown), count, words)
            browser.open(f"{address}#q=card%200x9fff")
            browser.script("location.reload()")
            browser.wait(shown, until=(1).__eq__)
            browser.script("[...document.querySelectorAll('a')].find(a => a.textContent.endsWith(':10:5')).click()")
            line = "const line = document.querySelector('li:target'); return line?.offsetParent && line.textContent"
            self.assertEqual(browser.wait(line), "//! disjoint card disk")
            self.assertEqual(browser.script("return document.querySelectorAll('.picture svg').length"), 4)
            self.assertEqual(browser.errors(), [])

    def test_image(self) -> None:
        """Under an image the page has its digest, the records that are shut out, and no command is run."""
        page = called("query", "report", "--markdown", "--image", EXAMPLES / "foreign_tables.tables",
                      EXAMPLES / "foreign_tables.net")
        self.assertEqual(page[0], 0)
        for text in ("under the image", "## Unlike the commands", "| `card` | `+ flash@0x0-0xfff at 0x3000` |",
                     "| image | 120 | `3aa995fa1817da0d", "0x8000a03: bit 1 of its gate word must",
                     "| `dram 0x9000-0x9fff` | `disk` at 0x1000-0x1fff for read and write; `card` at 0x1000-"):
            self.assertIn(text, page[1])

    def test_many_rows(self) -> None:
        """Agents that see the same have one view; of very many rows the first are there, and the others are
        counted."""
        net = "m is accept [0x0-0xffffffffff];\nagent a0 is over m;\nagent a1 is over m;\nagent a2 is over m;\n"

        def run(word: str, text: bytes) -> tuple[int, str]:
            return 0, net if word == "check" else answers(text.decode())

        with mock.patch.object(views, "run", run):
            found, left = views_of(Board("many", b"agent a is;"))
        self.assertEqual([view.agents for view in found], [("a0", "a1"), ("a2",)])
        self.assertEqual(([len(view.rows) for view in found], left), ([15000, MOST_ROWS - 15000], 10000))


def answers(questions: str) -> str:
    """What a stand-in for the program prints: 15,000 rows for each agent, others for `a2`."""
    lines = []
    for agent in re.findall(r"view (\S+?)(?: for \w+)?;", questions):
        shift = 0x100 if agent == "a2" else 0
        rows = [f"{at * 0x2000:#x}-{at * 0x2000 + 0xfff:#x} m@{at * 0x1000 + shift:#x}" for at in range(15000)]
        lines += [f"view {agent} rows {len(rows)}", *rows]
    return "".join(line + "\n" for line in lines)
