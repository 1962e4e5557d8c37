"""Findings in the Static Analysis Results Interchange Format (SARIF 2.1.0, OASIS, 27 March 2020), which code review
and continuous integration read."""

import urllib.parse
from collections.abc import Iterable
from typing import Any

from netconf_tools.findings import Finding, Note
from netconf_tools.reports.rules import description_of
from netconf_tools.version import version

SCHEMA = "https://docs.oasis-open.org/sarif/sarif/v2.1.0/os/schemas/sarif-schema-2.1.0.json"
"""The schema that the standard names."""


def location(place: Finding | Note, is_message: bool = False) -> dict[str, Any]:
    """A place as a location: section 3.28. A column of 0 stands for the whole line, and is left out."""
    region = {"startLine": place.line}
    if place.column:
        region |= {"startColumn": place.column, "endColumn": place.column + max(place.width, 1)}
    found: dict[str, Any] = {"physicalLocation": {"artifactLocation": {"uri": uri_of(place.file)}, "region": region}}
    if is_message:
        found["message"] = {"text": place.message}
    return found


def uri_of(file: str) -> str:
    """The name of a file as a reference: section 3.4.3. Bytes that are no letters of a reference stand in hexadecimal
    after `%`."""
    return urllib.parse.quote(file.encode("utf-8", "surrogateescape"), safe="/._~-")


def result(finding: Finding, rules: list[str]) -> dict[str, Any]:
    """A finding as a result: section 3.27. The notes are its related locations."""
    found = {"ruleId": finding.rule, "ruleIndex": rules.index(finding.rule), "level": finding.severity,
             "message": {"text": finding.message}, "locations": [location(finding)]}
    if finding.notes:
        notes = enumerate(finding.notes)
        found["relatedLocations"] = [{"id": number, **location(note, True)} for number, note in notes]
    return found


def sarif_of(tool: str, findings: Iterable[Finding]) -> dict[str, Any]:
    """A log with one run of a tool: sections 3.13 and 3.14. A column counts bytes of a line that is read as
    Latin-1."""
    findings = list(findings)
    rules = sorted({finding.rule for finding in findings})
    described = [{"id": rule, "shortDescription": {"text": description_of(rule)}} for rule in rules]
    run = {"tool": {"driver": {"name": tool, "version": version(), "rules": described}},
           "columnKind": "unicodeCodePoints", "results": [result(finding, rules) for finding in findings]}
    return {"$schema": SCHEMA, "version": "2.1.0", "runs": [run]}
