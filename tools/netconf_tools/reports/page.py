"""A review as one HTML page that needs nothing beside it: summary, claims, findings, what is shared, views that can
be searched, pictures, and the sources with their lines.

The page loads nothing and sends nothing: a policy in it forbids both to the browser."""

import itertools
import pathlib
import re
from collections.abc import Iterable, Sequence
from html import escape

from netconf_tools.claims import Verdict
from netconf_tools.findings import Finding, Note, place_text
from netconf_tools.reports.review import Drawn, Review, Source, View, ViewRow
from netconf_tools.text import size_text
from netconf_tools.version import version

HERE = pathlib.Path(__file__).resolve().parent

POLICY = "default-src 'none'; style-src 'unsafe-inline'; script-src 'unsafe-inline'; img-src data:"
"""What the page may load: nothing but what stands in it."""

MOST_LINES = 5000
"""How many lines of a source a page has."""

MOST_FINDINGS = 2000
"""How many findings, claims or shared spans a table has."""

SVG = re.compile(r"<svg\b.*</svg>", re.S)
NO_TEXT = re.compile("[\x00-\x08\x0b\x0c\x0e-\x1f\x7f-\x9f]")
"""Characters that HTML has no form for."""


def text(words: str) -> str:
    """A text as HTML."""
    return NO_TEXT.sub("\ufffd", escape(words.encode("utf-8", "surrogateescape").decode("utf-8", "replace")))


def code(words: str) -> str:
    """A text in the font of addresses."""
    return f"<code>{text(words)}</code>"


def table(heads: Sequence[str], rows: Sequence[str], most: int = MOST_FINDINGS) -> str:
    """A table of rows; of very many the first, and how many more there are."""
    head = "".join(f"<th>{text(name)}</th>" for name in heads)
    more = f'<p class="faint">{len(rows) - most} more rows are left out.</p>' if len(rows) > most else ""
    body = f'<thead><tr>{head}</tr></thead><tbody>{"".join(rows[:most])}</tbody>'
    return f'<div class="wide"><table>{body}</table></div>{more}\n'


def row(cells: Iterable[str], attributes: str = "") -> str:
    """A row of cells that are HTML."""
    return f"<tr{attributes}>{''.join(f'<td>{cell}</td>' for cell in cells)}</tr>\n"


class Page:
    """A page of a review."""

    def __init__(self, review: Review) -> None:
        self.review = review
        self.lines = {source.name: number for number, source in enumerate(review.sources) if source.what != "image"}

    def place(self, place: Finding | Note) -> str:
        """A place, which leads to the line of its source where the page has it."""
        words = text(place_text(place.file, place.line, place.column))
        number = self.lines.get(place.file)
        is_here = number is not None and place.line <= MOST_LINES
        return f'<a href="#s{number}-{place.line}">{words}</a>' if is_here else words

    def card(self, number: object, words: str, sort: str = "") -> str:
        """A number of the summary."""
        return f'<li class="{sort}"><b>{text(str(number))}</b>{text(words)}</li>'

    def summary(self) -> str:
        """The numbers on which the rest of the page stands."""
        review = self.review
        holding, left = len(review.verdicts) - review.failed, len(review.board.left_out)
        errors = sum(finding.severity == "error" for finding in review.findings)
        sort = "bad" if errors else "warn" if review.findings else "good"
        cards = [self.card(review.failed, "claims do not hold", "bad" if review.failed else "good"),
                 self.card(holding, "claims hold", "good" if holding else ""),
                 self.card(len(review.findings), "findings", sort),
                 self.card("?" if review.shared_missing else len(review.shared), "spans shared by records",
                           "warn" if review.shared or review.shared_missing else "good"),
                 self.card(left, "bus masters left out", "warn" if left else "good")]
        return f'<ul class="cards">{"".join(cards)}</ul>\n'

    def claim(self, verdict: Verdict) -> str:
        """The row of a claim."""
        finding = verdict.finding()
        notes = "".join(f"<li>{code(note.message)}</li>" for note in finding.notes) if not verdict.holds else ""
        sort, words = ("good", "holds") if verdict.holds else ("bad", "does not hold")
        mark = f'<span class="mark {sort}">{words}</span>'
        return row([mark, code(verdict.text) + (f"<ul>{notes}</ul>" if notes else ""), self.place(finding)])

    def claims(self) -> str:
        """The claims, those that do not hold first."""
        if not self.review.verdicts:
            return "<p>There is no claim.</p>\n"
        rows = [self.claim(verdict) for verdict in sorted(self.review.verdicts, key=lambda verdict: verdict.holds)]
        return table(["", "Claim", "Place"], rows)

    def findings(self) -> str:
        """The findings beside claims."""
        if not self.review.findings:
            return "<p>There is none.</p>\n"
        rows = []
        for finding in self.review.findings:
            notes = "".join(f"<li>{text(note.message)}</li>" for note in finding.notes)
            words = text(finding.message) + (f"<ul>{notes}</ul>" if notes else "")
            mark = f'<span class="mark {finding.severity}">{finding.severity}</span>'
            rows.append(row([mark, words, self.place(finding)]))
        return table(["", "Finding", "Place"], rows)

    def shared(self) -> str:
        """What agents share by records."""
        words = ('<p class="faint">Two or more agents see these addresses through records of units, and none of them '
                 "sees them without records.</p>\n")
        if self.review.shared_missing:
            return f"{words}<p>This is not known: {text(self.review.shared_missing)}</p>\n"
        if not self.review.shared:
            return f"{words}<p>There are none.</p>\n"
        rows = []
        for shared in self.review.shared:
            agents = "".join(f"<li>{code(agent)} at {text(', '.join(places))}</li>" for agent, places in shared.agents)
            rows.append(row([code(shared.span), f"<ul>{agents}</ul>"]))
        return words + table(["Addresses", "Agents"], rows)

    def differences(self) -> str:
        """What the image changes of what the commands of the description make."""
        words = ('<p class="faint">What each agent sees under the image, beside what it sees after the commands of the '
                 "description: <code>-</code> is lost, <code>+</code> is new, <code>~</code> is elsewhere.</p>\n")
        if not self.review.differences:
            return f"{words}<p>There is no difference.</p>\n"
        rows = [row([", ".join(map(code, change.agents)), code(change.text())]) for change in self.review.differences]
        return words + table(["Agents", "Change"], rows)

    def view_row(self, found: ViewRow) -> str:
        """A row of a view, with what a search looks at."""
        here, size = found.row, found.row.hi - found.row.lo
        spans = [f"{here.lo}-{here.hi}", *(f"{at}-{at + size}" for _, at in here.names)]
        names = [code(f"{node}@{at:#x}-{at + size:#x}") for node, at in here.names]
        nodes = text(" ".join(node for node, _ in here.names))
        cells = [code(f"{here.lo:#x}-{here.hi:#x}"), "<br>".join(names), text(size_text(size + 1)),
                 " and ".join(found.accesses)]
        return row(cells, f' data-spans="{" ".join(spans)}" data-nodes="{nodes}"')

    def view(self, view: View) -> str:
        """The view of agents that see the same."""
        names = ", ".join(map(code, view.agents))
        rows = [self.view_row(found) for found in view.rows]
        body = table(["Addresses", "Lead to", "Size", "For"], rows, len(rows)) if rows else "<p>Nothing.</p>\n"
        return f'<section class="view" data-agents="{text(" ".join(view.agents))}"><h3>{names}</h3>\n{body}</section>\n'

    def views(self) -> str:
        """The search, and the views."""
        left = self.review.left
        more = f"<p>{left} more rows are left out; netconf-query answers for single addresses.</p>\n" if left else ""
        search = ('<div class="search"><input id="search" type="search" placeholder="an address, an agent or a node, '
                  'as 0x80009000 or card dram" aria-label="Search the views" autocomplete="off">'
                  '<span id="found" class="faint" aria-live="polite"></span></div>\n')
        return search + more + "".join(map(self.view, self.review.views))

    def picture(self, picture: Drawn) -> str:
        """A picture with its title."""
        hit = SVG.search(picture.svg)
        body = f'<div class="picture">{hit.group()}</div>' if hit else f"<p>Not drawn: {text(picture.missing)}</p>"
        return f"<figure><figcaption>{text(picture.title)}</figcaption>{body}</figure>\n"

    def source(self, number: int, source: Source) -> str:
        """A source with its digest and, if it is a text, its lines."""
        head = (f"<h3>{text(source.name)}</h3><p>{text(source.what)}, {len(source.data):,} bytes, SHA-256 "
                f"{code(source.digest)}</p>\n")
        if source.what == "image":
            return head
        lines = source.data.decode("utf-8", "replace").split("\n")
        items = "".join(f'<li id="s{number}-{at}">{text(line)}</li>' for at, line in enumerate(lines[:MOST_LINES], 1))
        left = len(lines) - MOST_LINES
        more = f'<p class="faint">{left} more lines are left out.</p>' if left > 0 else ""
        return f'{head}<details><summary>{len(lines)} lines</summary><ol class="source">{items}</ol>{more}</details>\n'

    def html(self) -> str:
        """The page."""
        review = self.review
        kind = "under the image" if review.is_image else "after the commands of the description"
        parts = [("claims", "Claims", self.claims()), ("findings", "Findings", self.findings()),
                 ("shared", "Shared by records", self.shared()),
                 *([("differences", "Unlike the commands", self.differences())] if review.is_image else []),
                 ("views", "Views", self.views()),
                 ("pictures", "Pictures", "".join(map(self.picture, review.pictures))),
                 ("sources", "Sources", "".join(itertools.starmap(self.source, enumerate(review.sources))))]
        links = "".join(f'<a href="#{name}">{title}</a>' for name, title, _ in parts)
        body = "".join(f'<h2 id="{name}">{title}</h2>\n{part}' for name, title, part in parts)
        style, script = ((HERE / name).read_text(encoding="utf-8") for name in ("page.css", "page.js"))
        head = ['<meta charset="utf-8">', f'<meta http-equiv="Content-Security-Policy" content="{POLICY}">',
                '<meta name="viewport" content="width=device-width, initial-scale=1">',
                f"<title>{text(review.title)}</title>", f"<style>\n{style}</style>"]
        top = [f"<h1>{text(review.title)}</h1>",
               f'<p class="faint">What each agent sees {kind}, by netconf-query {text(version())}.</p>',
               self.summary(), f"<nav>{links}</nav>", body, f"<script>\n{script}</script>"]
        return "\n".join(['<!DOCTYPE html>', '<html lang="en">', "<head>", *head, "</head>", "<body>", *top, "</body>",
                          "</html>", ""])
