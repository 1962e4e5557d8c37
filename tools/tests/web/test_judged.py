"""2,000 texts of the judge through the page's program, beside the program that is built."""

import base64
import concurrent.futures
import importlib
import itertools
import os
import subprocess
from typing import Any

from netconf_tools.text import program
from tests.web.case import SECONDS, PageCase

CASES: Any = importlib.import_module("judging.cases")
"""The cases of the judge, whose code has no types."""

COUNT = int(os.environ.get("JUDGED", "2000"))
"""How many texts are compared."""

PARTS = 16
"""In how many parts they are made."""

FEW = 2
"""One seed of the judge in so many is taken."""

BATCH = 100
"""How many texts the browser has at a time."""

BEGIN = """
window.judged = null;
const more = `self.onmessage = (event) => {
    const { module, texts } = event.data;
    const bytes = (letters) => Uint8Array.from(atob(letters), (letter) => letter.charCodeAt(0));
    self.postMessage(texts.map(([word, letters]) => {
        const { status, output } = runProgram(module, word, bytes(letters));
        return [status, output];
    }));
};`;
window.judge = new Worker(URL.createObjectURL(new Blob([WORKER, more])));
window.judge.onmessage = (event) => { window.judged = event.data; };
"""

ASK = "window.judged = null; window.judge.postMessage({ module: state.module, texts: arguments[0] });"

Text = tuple[str, bytes]
"""A word of the command line, and a text."""


def part_of(part: int) -> list[Text]:
    """A part of the judge's texts."""
    wanted = itertools.islice(CASES.mixed(FEW, part, PARTS), -(-COUNT // PARTS))
    return [(case.words[0], case.text) for case in wanted if case.words[0] in ("run", "check")]


class TestJudged(PageCase):
    """Texts of the judge."""

    def test_judged(self) -> None:
        """Each answer, byte by byte and status by status, is that of the program."""
        browser = self.browser()
        browser.script(BEGIN)
        with concurrent.futures.ProcessPoolExecutor(os.cpu_count()) as pool:
            texts = [text for texts in pool.map(part_of, range(PARTS)) for text in texts][:COUNT]
        self.assertEqual(len(texts), COUNT)
        for at in range(0, COUNT, BATCH):
            batch = texts[at:at + BATCH]
            browser.script(ASK, [(word, base64.b64encode(text).decode()) for word, text in batch])
            answers = browser.wait("return window.judged", seconds=SECONDS)
            for (word, text), answer in zip(batch, answers, strict=True):
                done = subprocess.run([program(), word], input=text, capture_output=True, check=False)
                self.assertEqual(answer, [done.returncode, done.stdout.decode()], text.decode())
