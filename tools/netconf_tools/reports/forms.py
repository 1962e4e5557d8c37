"""The forms in which findings are written for other programs, and the options that ask for them."""

import argparse
from collections.abc import Sequence

from netconf_tools.findings import Finding

FORMS = {"json": "write the findings as one JSON object", "sarif": "write the findings as SARIF 2.1.0",
         "junit": "write the findings as XML in the form of JUnit"}
"""Each form by its option, with the help on it."""


def add_forms(parser: argparse.ArgumentParser) -> None:
    """Gives a reader of words the options of the forms, of which one may be given; it stands in `form`, or None."""
    group = parser.add_mutually_exclusive_group()
    for form, text in FORMS.items():
        group.add_argument(f"--{form}", dest="form", action="store_const", const=form, help=text)


def findings_text(form: str, tool: str, files: Sequence[str], findings: Sequence[Finding]) -> str:
    """The findings of a tool in files, in a form."""
    # Only here, since a tool that writes no form takes a third longer to start with them.
    import json

    from netconf_tools.reports.answers import findings_answer
    from netconf_tools.reports.junit import junit_of_findings
    from netconf_tools.reports.sarif import sarif_of

    if form == "junit":
        return junit_of_findings(tool, files, findings)
    answer = sarif_of(tool, findings) if form == "sarif" else findings_answer(files, findings)
    return json.dumps(answer, indent=1) + "\n"
