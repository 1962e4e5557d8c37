"""The page in a browser: the program's answers, refusals at their lines, the form, its keys, its forms, its links."""

import re
import subprocess
import time

from netconf_tools.text import program
from tests.case import EXAMPLES, TOP, outcome
from tests.web.case import ANSWERED, SECONDS, PageCase

LIMIT = 4 << 20
"""How many bytes a text has at most."""

TAB, ENTER, RIGHT, CONTROL = "\ue004", "\ue007", "\ue014", "\ue009"
"""Keys of WebDriver."""

GRANTS = "dram is accept [0x0-0x3fffffff];\nunit iommu kind pages page 12 slots 4 reach 32 to dram;\n" \
    "agent card is map [0x0-0x3fff to iommu at 0x0];\n"
"""A card that comes to the memory by tables alone."""

ENDLESS = "for i in 0..15; b[i] is map [0x0-0xff to b[i+1] and c[i+1]]; " \
    "c[i] is map [0x0-0xff to b[i+1] and c[i+1]]; end; " \
    "b[16] is accept [0x0-0xff]; c[16] is accept [0x0-0xff]; agent a is over b[0]; begin;\n" + "view a;\n" * 500_000
"""A text that takes many seconds."""


class TestSite(PageCase):
    """The site of the pages, with this page."""

    def test_links(self) -> None:
        """Each example leads to the page, which opens it."""
        self.need("mkdocs", "mkdocs")
        site = self.folder / "site"
        self.assertEqual(outcome(TOP / "tools/site", site, "--page", self.page), (0, "", ""))
        links = re.findall(r'href="(\.\./web/index\.html#example=(\w+))"', (site / "examples/index.html").read_text())
        self.assertEqual([name for _, name in links], sorted(path.stem for path in EXAMPLES.glob("*.net")))
        self.assertEqual((site / "web/page.js").read_bytes(), (self.page / "page.js").read_bytes())
        browser = self.browser(links[1][0].partition("index.html")[2])
        self.assertEqual(browser.script("return state.text"), (EXAMPLES / f"{links[1][1]}.net").read_text())


class TestPage(PageCase):
    """The page, opened from disk."""

    def test_examples(self) -> None:
        """The answer to each example is that of the program, to the byte and the status."""
        browser = self.browser()
        for path in sorted(EXAMPLES.glob("*.net")):
            with self.subTest(path.stem):
                browser.script("document.getElementById('examples').value = arguments[0];"
                               "document.getElementById('examples').onchange()", path.stem)
                browser.wait(ANSWERED, seconds=SECONDS)
                self.assertEqual(browser.script("return state.text"), path.read_text())
                done = subprocess.run([program(), "run"], input=path.read_bytes(), capture_output=True, check=False)
                self.assertEqual(self.answer(browser), [done.returncode, done.stdout.decode()])
                if done.returncode == 0:
                    self.assertEqual(browser.script("return state.picture.missing"), "")

    def test_views(self) -> None:
        """The rows that are drawn are those of the program, after all changes, for each access."""
        browser = self.browser("#example=dma_buffers")
        text = (EXAMPLES / "dma_buffers.net").read_text() + "view card; view card for write; view core0;"
        _, output, _ = outcome(program(), "run", text=text)
        for access, words in (("read", ""), ("write", " for write")):
            self.assertIn(f"view card{words} rows 1\n0x0-0xffff dram@0x100000\n", output)
            browser.script("document.getElementById('access').value = arguments[0];"
                           "document.getElementById('access').onchange()", access)
            titles = browser.script("return [...document.querySelectorAll('#maps .row title')].map(e => e.textContent)")
            self.assertEqual(titles, [
                "0x10000000-0x10000fff uart@0x0 (4 KiB)",
                "0x80000000-0xbfffffff dram@0x0 (1 GiB); also seen by card",
                "0x0-0xffff dram@0x100000 (64 KiB); also seen by core0",
            ])

    def test_refusal(self) -> None:
        """A refused text has a mark at its line, with the rule, what it says and what to do."""
        browser = self.browser()
        said = self.ask(browser, GRANTS + "bus is over dramm;\n")
        self.assertEqual(said, "refused: line 4 Unknown")
        marked = browser.script("return [...Array(editor.lineCount()).keys()].filter("
                                "line => editor.lineInfo(line).gutterMarkers)")
        self.assertEqual(marked, [3])
        why = browser.script("return document.querySelector('.CodeMirror .why').textContent")
        self.assertRegex(why, "^Unknown: each variable.*exists. Declare what is named here")
        said = self.ask(browser, GRANTS + "a is map [0x0-0xff to dram, 0x80-0x8f to dram];\n")
        self.assertEqual(said, "refused: Overlap a@0x80")
        marked = browser.script("return [...Array(editor.lineCount()).keys()].filter("
                                "line => editor.lineInfo(line).gutterMarkers)")
        self.assertEqual(marked, [3])

    def test_grants(self) -> None:
        """By the form a buffer is granted and seen; less than a page is refused, with whole pages as the mend."""
        browser = self.browser()
        self.ask(browser, GRANTS)
        self.fill(browser, base="0x9000", size="8K", name="rx")
        browser.wait("return document.getElementById('granted').textContent.includes('rx is granted')")
        titles = browser.script("return [...document.querySelectorAll('#maps .row title')].map(e => e.textContent)")
        self.assertEqual(titles, ["0x0-0x1fff dram@0x9000 (8 KiB)"])
        self.assertTrue(browser.script("return editor.getValue()").endswith(
            "begin;\ngrant rx card dram 0x9000 0x2000;\n"))
        self.fill(browser, base="0x9800", size="0x1000", name="overlapping", rights="read")
        words = browser.wait("return document.getElementById('granted').textContent", until=lambda it: "refused" in it)
        self.assertIn("overlapping refused: NoPlacement", words)
        self.assertIn("Grant whole pages: base 0x9000, size 0x2000.", words)
        self.assertTrue(browser.script("return editor.getValue()").endswith(
            "\ngrant overlapping card dram 0x9800 0x1000 for read;\n"))
        table = browser.script("return [...document.querySelectorAll('#tables td')].map(e => e.textContent)")
        self.assertEqual(table[:6], ["0", "0x0", "0x901", "16", "read, write", "dram@0x9000"])
        self.fill(browser, base="x", size="4K", name="odd")
        self.assertIn("The base is no number", browser.script("return document.getElementById('granted').textContent"))

    def fill(self, browser: object, **fields: str) -> None:
        """Fills fields of the form, and presses its button."""
        browser.script("for (const [id, value] of Object.entries(arguments[0]))"  # type: ignore[attr-defined]
                       " document.getElementById(id).value = value; document.getElementById('give').click();", fields)

    def test_audit(self) -> None:
        """Under tables that somebody else made the report is that of the program, and shows what two devices share."""
        browser = self.browser("#example=foreign_tables")
        browser.script("document.getElementById('tab-audit').click(); document.getElementById('judge').click()")
        browser.wait("return !state.busy && document.querySelector('#report pre')", seconds=SECONDS)
        report = browser.script("return document.querySelector('#report pre').textContent")
        self.assertEqual(report, (EXAMPLES / "foreign_tables.audited").read_text())
        shared = browser.script("return [...document.querySelectorAll('#report td')].map(e => e.textContent)")
        self.assertIn("dram 0x9000-0x9fff", shared)
        self.assertEqual(shared[shared.index("dram 0x9000-0x9fff") + 1], "core0, disk, card")
        browser.script("document.getElementById('image').value = 'dump'; document.getElementById('judge').click()")
        self.assertIn("no tables", browser.script("return document.getElementById('report').textContent"))
        browser.script("document.getElementById('image').value = '444e'; document.getElementById('judge').click()")
        browser.wait("return !state.busy && document.getElementById('report').textContent.startsWith('refused')")

    def test_limit(self) -> None:
        """A text of the limit's size is answered, and one byte more is refused."""
        browser = self.browser()
        text = GRANTS + "begin;\n"
        text += "resolve card 0x0;\n" * ((LIMIT - len(text)) // 18)
        text += " " * (LIMIT - len(text))
        self.assertRegex(self.ask(browser, text), r"^\d+ commands answered.$")
        done = subprocess.run([program(), "run"], input=text.encode(), capture_output=True, check=False)
        self.assertEqual(self.answer(browser), [0, done.stdout.decode()])
        self.assertEqual(self.ask(browser, text + " "), "refused: Length")

    def test_stop(self) -> None:
        """A text that takes long is stopped by the button, the page answers while it runs, and then the next text."""
        browser = self.browser()
        browser.script("editor.setValue(arguments[0]); ask();", ENDLESS)
        begun = time.monotonic()
        self.assertEqual(browser.script("return 1 + 1"), 2)
        self.assertLess(time.monotonic() - begun, 20)
        self.assertTrue(browser.script("return state.busy"))
        browser.script("document.getElementById('stop').click()")
        self.assertEqual(browser.script("return document.getElementById('status').textContent"), "Stopped.")
        self.assertEqual(self.ask(browser, GRANTS + "begin; view card;"), "1 command answered.")

    def test_keys(self) -> None:
        """With the keyboard alone a text is typed and run, the panels are chosen, and a buffer is granted."""
        browser = self.browser()
        self.ask(browser, GRANTS)
        browser.script("editor.focus(); editor.setCursor(editor.lineCount(), 0)")
        browser.keys("begin; view card;")
        browser.press(CONTROL, ENTER)
        self.assertEqual(browser.wait(ANSWERED, seconds=SECONDS), "1 command answered.")
        browser.keys(TAB)
        chosen = []
        for _ in range(7):
            chosen.append(browser.script("return document.activeElement.id"))
            browser.keys(TAB)
        self.assertEqual(chosen, ["agent", "memory", "base", "size", "rights", "name", "give"])
        browser.script("document.getElementById('base').focus()")
        browser.keys(ENTER)
        browser.wait("return document.getElementById('granted').textContent.includes('is granted')")
        browser.script("document.getElementById('tab-views').focus()")
        for panel in ("net", "replies", "tables", "audit", "views"):
            browser.keys(RIGHT)
            shown = browser.script("return [...document.querySelectorAll('[role=tabpanel]')].filter(e => !e.hidden)"
                                   ".map(e => e.id)")
            self.assertEqual(shown, [panel])

    def test_share(self) -> None:
        """A link holds the text: opened, the page has it and answers it. A broken link is told."""
        browser = self.browser()
        text = GRANTS + "begin; view card; // ünïcode\n"
        self.ask(browser, text)
        browser.script("document.getElementById('share').click()")
        link = browser.wait("return document.getElementById('link').value")
        self.assertIn("#text=", link)
        browser.open("about:blank")
        browser.open(link)
        self.assertEqual(browser.wait(ANSWERED, seconds=SECONDS), "1 command answered.")
        self.assertEqual(browser.script("return state.text"), text)
        browser.open("about:blank")
        browser.open(link[:-9])
        browser.wait(ANSWERED, seconds=SECONDS)
        self.assertEqual(browser.script("return state.text"), (EXAMPLES / "first_grant.net").read_text())

    def test_narrow(self) -> None:
        """In a narrow window nothing is wider than the window."""
        browser = self.browser("#example=raspi3b", 500, 800)
        browser.cdp("Emulation.setDeviceMetricsOverride",
                    {"width": 340, "height": 700, "deviceScaleFactor": 1, "mobile": False})
        wide, window = browser.script("return [document.scrollingElement.scrollWidth, window.innerWidth]")
        self.assertEqual((window, wide <= window), (340, True))

    def test_dark(self) -> None:
        """Where the system is dark, so is the page, and its text is bright."""
        browser = self.browser()
        colours = "const style = getComputedStyle(document.body);" \
            "return [style.backgroundColor, style.color].map(colour => Math.max(...colour.match(/\\d+/g)))"
        ground, ink = browser.script(colours)
        self.assertGreater(ground, ink + 150)
        browser.cdp("Emulation.setEmulatedMedia", {"features": [{"name": "prefers-color-scheme", "value": "dark"}]})
        ground, ink = browser.script(colours)
        self.assertGreater(ink, ground + 150)

    def test_files(self) -> None:
        """The page has less than 2 MB, names its licences, and loads nothing but its own files."""
        self.assertLess(sum(path.stat().st_size for path in self.page.iterdir()), 2_000_000)
        self.assertIn("Expat", (self.page / "LICENSES.txt").read_text())
        browser = self.browser("#example=first_board")
        loaded = browser.script("return performance.getEntriesByType('resource').map(entry => entry.name)")
        own = {f"file://{self.page}/{path.name}" for path in self.page.iterdir()}
        self.assertEqual([name for name in loaded if name not in own and not name.startswith(("blob:", "data:"))], [])

    def test_sources(self) -> None:
        """The types and the style of the scripts are in order."""
        self.need("tsc", "node-typescript")
        self.assertEqual(outcome("tsc", "-p", TOP / "web"), (0, "", ""))
        self.need("eslint", "eslint")
        self.assertEqual(outcome("eslint", TOP / "web/source", NODE_PATH="/usr/share/nodejs"), (0, "", ""))
