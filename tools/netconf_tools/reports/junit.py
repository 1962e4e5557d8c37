"""Verdicts and findings in the form of JUnit's reports in XML, which build servers read.

The form is that of Maven's surefire, version 3.0 (surefire-test-report-3.0.xsd): a suite with a case for each claim
or each file, and a `failure` in a case that failed. It has no case for what passed without being asked."""

import re
from collections.abc import Iterable, Sequence
from html import escape

from netconf_tools.claims import Verdict
from netconf_tools.findings import Finding, lines_of, place_text

NO_CHARACTER = re.compile("[^\t\n\r\x20-\ud7ff\ue000-\ufffd\U00010000-\U0010ffff]")
"""What XML 1.0 has no form for (section 2.2)."""


def plain(text: str) -> str:
    """A text in which a question mark stands for what XML has no form for."""
    return NO_CHARACTER.sub("?", text)


def quoted(text: str) -> str:
    """A text as the value of an attribute."""
    return f'"{escape(plain(text))}"'


def case(name: str, group: str, failures: Sequence[Finding]) -> str:
    """A case, with what failed in it."""
    lines = [f'    <testcase name={quoted(name)} classname={quoted(group)} time="0">\n']
    for finding in failures:
        text = "\n".join(lines_of(finding))
        head = f"<failure message={quoted(finding.message)} type={quoted(finding.rule)}>"
        lines.append(f"      {head}{escape(plain(text), quote=False)}</failure>\n")
    return "".join([*lines, "    </testcase>\n"])


def suite(name: str, cases: Sequence[str], failed: int) -> str:
    """A whole report with one suite."""
    counts = f'tests="{len(cases)}" failures="{failed}" errors="0" skipped="0" time="0"'
    head = f"<testsuites {counts}>\n  <testsuite name={quoted(name)} {counts}>\n"
    return '<?xml version="1.0" encoding="UTF-8"?>\n' + head + "".join(cases) + "  </testsuite>\n</testsuites>\n"


def junit_of_claims(file: str, verdicts: Iterable[Verdict], others: Iterable[Finding]) -> str:
    """A case for each claim, and one for each other finding."""
    cases, failed = [], 0
    for verdict in verdicts:
        failed += not verdict.holds
        failures = [] if verdict.holds else [verdict.finding()]
        cases.append(case(f"{verdict.line.line}: {verdict.text}", verdict.line.file, failures))
    for finding in others:
        failed += 1
        cases.append(case(f"{finding.line}: {finding.rule}", finding.file, [finding]))
    return suite(file, cases, failed)


def junit_of_findings(tool: str, files: Iterable[str], findings: Iterable[Finding]) -> str:
    """A case for each file, and one for each finding that is no note; one that is an error or a warning has
    failed."""
    found = [finding for finding in findings if finding.severity != "note"]
    cases = [case(file, tool, []) for file in files if not any(finding.file == file for finding in found)]
    for finding in found:
        place = place_text(finding.file, finding.line, finding.column)
        cases.append(case(f"{place}: {finding.rule}", tool, [finding]))
    return suite(tool, cases, len(found))
