"""What the tests of the page share: the page, made once, and a browser that has it open."""

import os
import pathlib
import tempfile
import unittest
from typing import Any, ClassVar

from tests.browser import Browser
from tests.case import TOP, Case, outcome

PROGRAM = pathlib.Path(os.environ.get("NETCONF_WASM", TOP / "crates/netconf/out/netconf.wasm"))
"""The program as web/module makes it."""

SECONDS = 240
"""How long a text may take in the page, on a machine that does much else."""

ANSWERED = "return !state.busy && state.text === editor.getValue() && document.getElementById('status').textContent"
"""What the page says once the text that stands in it is answered."""


class PageCase(Case):
    """A test of the page in a browser."""

    page: ClassVar[pathlib.Path]

    @classmethod
    def setUpClass(cls) -> None:
        """Makes the page."""
        if not PROGRAM.is_file():
            raise unittest.SkipTest(f"there is no {PROGRAM}; web/module makes it, with the kit")
        folder = tempfile.TemporaryDirectory()
        cls.addClassCleanup(folder.cleanup)
        cls.page = pathlib.Path(folder.name) / "page"
        status, _, errors = outcome(TOP / "web/build", cls.page, "--program", PROGRAM)
        if status:
            raise AssertionError(errors)

    def browser(self, fragment: str = "", width: int = 1400, height: int = 950) -> Browser:
        """A browser with the page from disk, whose first text is answered. Once the test has ended, its console must
        have no error."""
        self.need("chromium", "chromium")
        self.need("chromedriver", "chromium-driver")
        browser = self.enterContext(Browser(self.folder / f"profile{width}", width, height))
        browser.open(f"file://{self.page}/index.html{fragment}")
        self.addCleanup(lambda: self.assertEqual(browser.errors(), []))
        browser.wait(ANSWERED, seconds=SECONDS)
        return browser

    def ask(self, browser: Browser, text: str) -> str:
        """What the page says of a text, once it is answered."""
        browser.script("editor.setValue(arguments[0]); ask();", text)
        return str(browser.wait("return !state.busy && document.getElementById('status').textContent", seconds=SECONDS))

    def answer(self, browser: Browser) -> Any:
        """The status and the output of the last answer."""
        return browser.script("return [state.answer.status, state.answer.output]")
