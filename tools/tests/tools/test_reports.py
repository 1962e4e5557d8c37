"""Reports for other programs: each answer is one of the schema, SARIF has what its standard asks for, and JUnit's XML
has a case for each claim."""

import importlib.util
import json
import xml.etree.ElementTree as tree
from typing import Any

from netconf_tools.findings import Finding, Note
from netconf_tools.reports.answers import findings_answer
from netconf_tools.reports.junit import junit_of_findings
from netconf_tools.reports.sarif import sarif_of
from tests.case import EXAMPLES, NEEDS, TOOLS, Case
from tests.inside import called

SCHEMA = TOOLS / "netconf_tools/reports/answers.schema.json"
IMAGE = ["--image", str(EXAMPLES / "foreign_tables.tables"), str(EXAMPLES / "foreign_tables.net")]
BOARD = str(EXAMPLES / "dma_buffers.net")

CLAIMS = """never card flash 0x0-0xfffff for write
same disk card
at card 0x1000 dram 0x9000 4K for write // "why" <&>
left_out /soc/usb@1
"""

ODD = Finding("a b/\udce9<>&\x1b.net", 3, "warning", "Overlap", "two \x07 lines", 4, 5,
              (Note("n", 1, "here\u2028", 2, 3),))
"""A finding with what XML and references have no form for."""


def region_of(result: Any) -> Any:
    """Where in a file a result of SARIF is."""
    return result["locations"][0]["physicalLocation"]["region"]


class TestReports(Case):
    """Reports of netconf-query, and of findings."""

    def answer(self, *words: str, status: int = 0) -> Any:
        """The answer to a question in JSON."""
        seen = called("query", *words, folder=self.folder)
        self.assertEqual(seen[0], status, seen)
        return json.loads(seen[1])

    def need_module(self, module: str, package: str) -> None:
        """Skips the test if a module of Python is missing, with the line that installs its package."""
        self.assertIn(package, NEEDS)
        if importlib.util.find_spec(module) is None:
            self.skipTest(f"{module} is missing; as root: tools/install-needs (the package {package})")

    def test_schema(self) -> None:
        """Each answer is one of the schema, and is none if a key is missing, is added, or is of another type."""
        self.need_module("jsonschema", "python3-jsonschema")
        jsonschema: Any = importlib.import_module("jsonschema")
        schema = json.loads(SCHEMA.read_text())
        jsonschema.Draft202012Validator.check_schema(schema)
        validator = jsonschema.Draft202012Validator(schema)
        (self.folder / "claims").write_text(CLAIMS)
        (self.folder / "wrong").write_text("same disk\n")
        (self.folder / "left.net").write_text("//- /soc/usb@1: why\nagent a is;\n//! same a a\n")
        answers = [
            self.answer("who", "--json", BOARD, "dram", "0x100000", "4096"),
            self.answer("where", "--json", BOARD, "card", "core0", "0x80100000"),
            self.answer("where", "--json", BOARD, "card", "0x0"),
            self.answer("diff", "--json", *IMAGE, status=1),
            self.answer("test", "--json", *IMAGE, "claims", status=1),
            self.answer("test", "--json", "--strict", *IMAGE, "claims", status=1),
            self.answer("test", "--json", *IMAGE, "wrong", status=2),
            self.answer("test", "--json", "left.net"),
            findings_answer(["f"], [ODD])]
        for answer in answers:
            with self.subTest(kind=answer["kind"]):
                self.assertEqual([error.message for error in validator.iter_errors(answer)], [])
                for key in answer:
                    less = {other: value for other, value in answer.items() if other != key}
                    self.assertFalse(validator.is_valid(less), key)
                    self.assertFalse(validator.is_valid({**answer, key: 0.5}), key)
                self.assertFalse(validator.is_valid({**answer, "other": 1}))
        self.assertEqual([len(answer["findings"]) for answer in answers[4:7]], [0, 1, 1])

    def test_sarif(self) -> None:
        """A log names the version, the tool and each rule; each result has a place, and notes as related places."""
        (self.folder / "claims").write_text(CLAIMS)
        log = self.answer("test", "--sarif", "--strict", *IMAGE, "claims", status=1)
        self.assertEqual((log["version"], len(log["runs"])), ("2.1.0", 1))
        run = log["runs"][0]
        self.assertEqual(set(run), {"tool", "columnKind", "results"})
        rules = [rule["id"] for rule in run["tool"]["driver"]["rules"]]
        self.assertEqual(rules, ["claim-left_out", "claim-never", "claim-same", "shut"])
        for result in run["results"]:
            self.assertEqual(rules[result["ruleIndex"]], result["ruleId"])
            self.assertIn(result["level"], ("error", "warning", "note"))
            self.assertGreaterEqual(region_of(result)["startLine"], 1)
        places = [(result["ruleId"], region_of(result)["startLine"]) for result in run["results"]]
        self.assertEqual(places, [("claim-never", 1), ("claim-same", 2), ("claim-left_out", 4), ("shut", 12)])
        self.assertEqual(len(run["results"][0]["relatedLocations"]), 1)

    def test_odd_findings(self) -> None:
        """What XML and references have no form for stands as something that they have."""
        log = sarif_of("netconf-lint", [ODD])
        place = log["runs"][0]["results"][0]["locations"][0]["physicalLocation"]
        self.assertEqual(place, {"artifactLocation": {"uri": "a%20b/%E9%3C%3E%26%1B.net"},
                                 "region": {"startLine": 3, "startColumn": 4, "endColumn": 9}})
        text = junit_of_findings("netconf-lint", ["f", ODD.file], [ODD])
        cases = list(tree.fromstring(text.encode("utf-8")).iter("testcase"))
        names = [(case.get("name"), len(case)) for case in cases]
        self.assertEqual(names, [("f", 0), ("a b/?<>&?.net:3:4: Overlap", 1)])

    def test_lint(self) -> None:
        """The findings of netconf-lint in several files, in each form; a file that cannot be read is in none of
        them."""
        (self.folder / "good.net").write_text("agent a is;\n")
        (self.folder / "bad.net").write_text("a is;\na is;\n")
        files = ["good.net", "bad.net", "none.net"]
        status, text, errors = called("lint", "--json", *files, folder=self.folder)
        answer = json.loads(text)
        self.assertEqual((status, errors), (2, "netconf-lint: none.net: No such file or directory\n"))
        self.assertEqual((answer["kind"], answer["files"]), ("findings", files[:2]))
        found = [(part["file"], part["line"], part["severity"], part["rule"]) for part in answer["findings"]]
        self.assertEqual(found, [("bad.net", 2, "error", "Duplicate")])
        status, text, _ = called("lint", "--sarif", *files[:2], folder=self.folder)
        rules = [result["ruleId"] for result in json.loads(text)["runs"][0]["results"]]
        self.assertEqual((status, rules), (1, ["Duplicate"]))
        status, text, _ = called("lint", "--junit", "--audit", *IMAGE[2:], IMAGE[1])
        cases = list(tree.fromstring(text).iter("testcase"))
        self.assertEqual((status, [len(case) for case in cases]), (0, [1, 1]))

    def test_junit(self) -> None:
        """The report has a case for each claim and each other failure, and counts those that failed."""
        (self.folder / "claims").write_text(CLAIMS)
        status, output, _ = called("query", "test", "--junit", "--strict", *IMAGE, "claims", folder=self.folder)
        suite = tree.fromstring(output).find("testsuite")
        assert suite is not None
        self.assertEqual((status, suite.get("tests"), suite.get("failures")), (1, "5", "4"))
        names = [(case.get("name"), case.find("failure") is None) for case in suite.iter("testcase")]
        lines = [line.split(" //")[0] for line in CLAIMS.splitlines()]
        self.assertEqual(names[:4], [(f"{at}: {line}", at == 3) for at, line in enumerate(lines, 1)])
        self.assertEqual(names[4:], [("12: shut", False)])
