"""The site that tools/site makes: its links, that it asks the network for nothing, and its search in a browser."""

import functools
import html
import http.server
import pathlib
import re
import threading
import urllib.parse
from collections.abc import Iterator

from tests.browser import Browser
from tests.case import TOOLS, Case, outcome


class Quiet(http.server.SimpleHTTPRequestHandler):
    """A server of files that writes no line for each request."""

    def log_message(self, format: str, *words: object) -> None:
        """Writes nothing."""


class TestSite(Case):
    """The site, made once."""

    @functools.cached_property
    def site(self) -> pathlib.Path:
        """The folder of the site."""
        self.need("mkdocs", "mkdocs")
        site = self.folder / "site"
        self.assertEqual(outcome(TOOLS / "site", site), (0, "", ""))
        return site

    def links(self) -> Iterator[tuple[pathlib.Path, str]]:
        """Each page with each of its links."""
        for page in sorted(self.site.rglob("*.html")):
            for link in re.findall(r'\b(?:href|src)="([^"]*)"', page.read_text(encoding="utf-8")):
                yield page, html.unescape(link)

    @functools.cache
    def anchors(self, page: pathlib.Path) -> frozenset[str]:
        """The anchors of a page."""
        return frozenset(re.findall(r'\bid="([^"]+)"', page.read_text(encoding="utf-8")))

    def leads(self, page: pathlib.Path, link: str) -> bool:
        """Whether a link within the site leads to a file, and to a place in it where it names one."""
        path, _, anchor = link.partition("#")
        target = (page.parent / urllib.parse.unquote(path)).resolve() if path else page
        in_page = not anchor or target.suffix != ".html" or urllib.parse.unquote(anchor) in self.anchors(target)
        return target.exists() and in_page

    def test_links(self) -> None:
        """Each link within the site leads somewhere, and pages load nothing from elsewhere."""
        lost = [f"{page.relative_to(self.site)}: {link}" for page, link in self.links()
                if "://" not in link and not link.startswith("mailto:") and not self.leads(page, link)]
        self.assertEqual(lost, [])
        loaded = [link for page in self.site.rglob("*.html")
                  for link in re.findall(r'<(?:script|img|iframe)[^>]*\bsrc="(https?://[^"]*)"|'
                                         r'<link[^>]*\bhref="(https?://[^"]*)"', page.read_text(encoding="utf-8"))]
        self.assertEqual(loaded, [])

    def served(self) -> str:
        """The address at which a server on this machine has the site."""
        handler = functools.partial(Quiet, directory=str(self.site))
        server = http.server.ThreadingHTTPServer(("127.0.0.1", 0), handler)
        self.addCleanup(server.server_close)
        self.addCleanup(server.shutdown)
        threading.Thread(target=server.serve_forever, daemon=True).start()
        return f"http://127.0.0.1:{server.server_address[1]}"

    def test_browser(self) -> None:
        """In a browser the first page shows its picture, the search finds a refusal, and the console has no error."""
        self.need("chromium", "chromium")
        self.need("chromedriver", "chromium-driver")
        address = self.served()
        with Browser(self.folder / "profile") as browser:
            browser.open(f"{address}/index.html")
            self.assertGreater(browser.script("return document.images[0].naturalWidth"), 100)
            browser.open(f"{address}/docs/audit.html?q=NoPlacement")
            found = browser.wait("return [...document.querySelectorAll('#mkdocs-search-results a')].map(a => a.href)")
            self.assertIn(f"{address}/docs/language.html#refusals-of-a-grant", found)
            self.assertEqual(browser.errors(), [])
