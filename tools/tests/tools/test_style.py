"""How the tools and their tests are written: types, style, layout, and what pyproject.toml declares."""

import importlib
import re
import stat
import tomllib

from tests.case import TOOLS, TOP, Case, outcome

MANY = ("tools", "answers", "bench", "examples", "web")
"""The folders that hold Python."""

SCRIPTS = ("answers/check", "answers/judge", "bench/lint", "bench/radix", "bench/worst",
           "tools/library/netconf.py", "tools/library/run", "tools/library/run-histories",
           "tools/library/test_netconf.py", "tools/map", "tools/package", "tools/pictures", "tools/site",
           "tools/tests/run-recipes", "tools/try-edits", "tools/try-tests", "web/build", "web/module")
"""The scripts whose types are looked at beside those of the packages that pyproject.toml names."""


def python_files() -> list[str]:
    """The files in Python, by their names in the tree."""
    found = []
    for folder in MANY:
        for path in sorted((TOP / folder).rglob("*")):
            if not path.is_file() or "__pycache__" in path.parts:
                continue
            if path.suffix == ".py" or not path.suffix and re.match(rb"#!.*python", path.read_bytes()[:40]):
                found.append(str(path.relative_to(TOP)))
    return found


class TestStyle(Case):
    """What is looked at beside the behaviour."""

    def test_types(self) -> None:
        """mypy in strict mode finds nothing."""
        self.need("mypy", "mypy")
        cache = f"--cache-dir={self.folder}"
        self.assertEqual(outcome("mypy", cache, "--no-error-summary"), (0, "", ""))
        self.assertEqual(outcome("mypy", cache, "--no-error-summary", "--scripts-are-modules", *SCRIPTS), (0, "", ""))

    def test_flake8(self) -> None:
        """flake8 finds nothing."""
        self.need("flake8", "flake8")
        self.assertEqual(outcome("flake8", "--jobs=1", *python_files()), (0, "", ""))

    def test_clang_format(self) -> None:
        """The files in C are formatted."""
        self.need("clang-format", "clang-format")
        folders = ("../bench", "../include", "../web/wasm", "../web/wasm/include", "library", "loader", "machine",
                   "tests/loader")
        files = [path for folder in folders
                 for path in sorted([*(TOOLS / folder).glob("*.[ch]"), *(TOOLS / folder).glob("*.[ch]pp")])]
        self.assertEqual(outcome("clang-format", "--dry-run", "-Werror", *files), (0, "", ""))

    def test_paths(self) -> None:
        """No file edits the path of Python, and none stands flat beside the tools."""
        edits = [name for name in python_files() if re.search(r"^\s*sys\.path\b", (TOP / name).read_text(), re.M)]
        self.assertEqual(edits, [])
        self.assertEqual(sorted(path.name for path in TOOLS.glob("*.py")), [])

    def test_scripts(self) -> None:
        """Each tool is three lines that call its module, and pyproject.toml declares it so."""
        project = tomllib.loads((TOP / "pyproject.toml").read_text())["project"]
        tools = sorted(TOOLS.glob("netconf-*"))
        self.assertEqual(sorted(project["scripts"]), [tool.name for tool in tools])
        for tool in tools:
            with self.subTest(tool.name):
                module, call = project["scripts"][tool.name].split(":")
                lines = tool.read_text().splitlines()
                self.assertEqual(lines[1:], [f"from {module} import {call}", f"raise SystemExit({call}())"])
                self.assertTrue(callable(getattr(importlib.import_module(module), call)))
                self.assertTrue(tool.stat().st_mode & stat.S_IXUSR)
