"""A review in Markdown, in the dialect of GitHub (its tables), for a ticket or a pull request."""

import re
from collections.abc import Iterable, Sequence

from netconf_tools.findings import place_text
from netconf_tools.reports.review import Review, View
from netconf_tools.text import size_text
from netconf_tools.version import version

MOST_ROWS = 500
"""How many rows of a table are written."""

SPECIAL = re.compile(r"([\\`*_{}\[\]<>()#+!|~])")
"""What may mean something in Markdown."""


def plain(text: str) -> str:
    """A text in which nothing has a meaning in Markdown, in one line."""
    return SPECIAL.sub(r"\\\1", " ".join(text.split()))


def code(text: str) -> str:
    """A text as code, in a cell of a table too."""
    text = " ".join(text.split()).replace("|", "\\|")
    fence = "`" * (max(map(len, re.findall("`+", text)), default=0) + 1)
    pad = " " if "`" in text else ""
    return f"{fence}{pad}{text}{pad}{fence}"


def table(heads: Sequence[str], rows: Sequence[Sequence[str]]) -> list[str]:
    """A table; of very many rows the first, and how many more there are."""
    lines = [f"| {' | '.join(heads)} |", f"|{'---|' * len(heads)}"]
    lines += [f"| {' | '.join(row)} |" for row in rows[:MOST_ROWS]]
    if len(rows) > MOST_ROWS:
        lines += ["", f"{len(rows) - MOST_ROWS} more rows are left out."]
    return [*lines, ""]


def claims_part(review: Review) -> list[str]:
    """The claims, those that do not hold first, with what breaks them."""
    lines = ["## Claims", ""]
    if not review.verdicts:
        return [*lines, "There is no claim.", ""]
    for verdict in review.verdicts:
        if not verdict.holds:
            finding = verdict.finding()
            place = plain(place_text(finding.file, finding.line, 0))
            lines.append(f"- **does not hold**: {code(verdict.text)} ({place})")
            lines += [f"  - {plain(note.message)}" for note in finding.notes]
    rows = [[code(verdict.text), plain(place_text(verdict.line.file, verdict.line.line, 0))]
            for verdict in review.verdicts if verdict.holds]
    return [*lines, "", *(table(["Holds", "Place"], rows) if rows else [])]


def findings_part(review: Review) -> list[str]:
    """The findings beside claims."""
    lines = ["## Findings", ""]
    if not review.findings:
        return [*lines, "There is none.", ""]
    rows = [[finding.severity, plain(place_text(finding.file, finding.line, finding.column)), plain(finding.message)]
            for finding in review.findings]
    return [*lines, *table(["Severity", "Place", "Finding"], rows)]


def shared_part(review: Review) -> list[str]:
    """What agents share by records."""
    lines = ["## Shared by records", ""]
    if review.shared_missing:
        return [*lines, f"This is not known: {plain(review.shared_missing)}", ""]
    if not review.shared:
        return [*lines, "No two agents see the same address of a node by records alone.", ""]
    rows = [[code(shared.span), "; ".join(f"{code(agent)} at {', '.join(places)}" for agent, places in shared.agents)]
            for shared in review.shared]
    return [*lines, *table(["Addresses", "Agents"], rows)]


def differences_part(review: Review) -> list[str]:
    """What the image changes, if there is one."""
    if not review.is_image:
        return []
    lines = ["## Unlike the commands", ""]
    if not review.differences:
        return [*lines, "Each agent sees what it sees after the commands of the description.", ""]
    rows = [[", ".join(map(code, change.agents)), code(change.text())] for change in review.differences]
    return [*lines, *table(["Agents", "Change"], rows)]


def view_part(view: View) -> list[str]:
    """The view of agents that see the same."""
    lines = [f"### {', '.join(map(code, view.agents))}", ""]
    if not view.rows:
        return [*lines, "It sees nothing.", ""]
    rows = [[code(f"{row.lo:#x}-{row.hi:#x}"), code(row.text()), size_text(row.hi - row.lo + 1), " and ".join(accesses)]
            for row, accesses in view.rows]
    return [*lines, *table(["Addresses", "Lead to", "Size", "For"], rows)]


def markdown_of(review: Review) -> str:
    """The page."""
    kind = "under the image" if review.is_image else "after the commands of the description"
    holding = len(review.verdicts) - review.failed
    lines = [f"# {plain(review.title)}", "", f"What each agent sees {kind}, by netconf-query {version()}.", "",
             f"- claims that hold: {holding}, that do not: {review.failed}", f"- findings: {len(review.findings)}",
             f"- spans shared by records: {'not known' if review.shared_missing else len(review.shared)}",
             f"- bus masters that are left out of the description: {len(review.board.left_out)}", ""]
    sources = [[plain(source.name), source.what, str(len(source.data)), code(source.digest)]
               for source in review.sources]
    lines += table(["File", "What", "Bytes", "SHA-256"], sources)
    lines += [*claims_part(review), *findings_part(review), *shared_part(review),
              *differences_part(review), "## Views", ""]
    lines += joined(view_part(view) for view in review.views)
    if review.left:
        lines += [f"{review.left} more rows of views are left out; netconf-query answers for single addresses.", ""]
    return "\n".join(lines)


def joined(parts: Iterable[list[str]]) -> list[str]:
    """The lines of parts, one after the other."""
    return [line for part in parts for line in part]
