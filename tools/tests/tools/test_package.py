"""The Debian package: what it holds, and that its program and tools answer where they were unpacked."""

import os
import pathlib
import re
import shutil
import tempfile
import unittest

from tests.case import EXAMPLES, TOOLS, TOP, Case, found, outcome

VERSION = (TOP / "VERSION").read_text().strip()
TEXTS = ("README.md", "CHANGELOG.md", "CONTRIBUTING.md", "CITATION.cff", "NOTICE", "bench/README.md")
"""The documents that stand outside of docs/."""
HOLDER = found(r"^Copyright (.+)$", (TOP / "NOTICE").read_text(), re.M)[1]
TRUE = shutil.which("true") or "true"
"""A small program that stands for netconf."""

PACKAGER = {"DEBFULLNAME": "A Packager", "DEBEMAIL": "packager@example.org"}
NOBODY = {"DEBFULLNAME": "", "DEBEMAIL": ""}


def wanted_files() -> list[str]:
    """The files that the package must hold, beside its documents."""
    tools = sorted(path.name for path in TOOLS.glob("netconf-*"))
    files = ["usr/bin/netconf", "usr/share/netconf/VERSION", "usr/share/bash-completion/completions/netconf",
             "usr/share/zsh/vendor-completions/_netconf", "usr/share/fish/vendor_completions.d/netconf.fish",
             "usr/share/netconf/textmate/netconf.tmLanguage.json", "usr/share/lintian/overrides/netconf",
             "usr/include/netconf_image.h"]
    for tool in tools:
        files += [f"usr/bin/{tool}", f"usr/share/netconf/{tool}", f"usr/share/bash-completion/completions/{tool}",
                  f"usr/share/fish/vendor_completions.d/{tool}.fish"]
    files += [f"usr/share/netconf/{path.relative_to(TOOLS)}" for path in (TOOLS / "netconf_tools").rglob("*")
              if path.suffix in (".py", ".json", ".css", ".js")]
    files += [f"usr/share/man/man1/{path.name}.gz" for path in (TOP / "docs").glob("*.1")]
    files += [f"usr/share/vim/vimfiles/{part}/netconf.vim" for part in ("syntax", "ftdetect", "ftplugin", "compiler")]
    return sorted(files)


def wanted_documents() -> list[str]:
    """The documents and examples of the package."""
    examples = [path for path in EXAMPLES.rglob("*") if path.is_file() and path.name != "check"
                and "__pycache__" not in path.parts]
    files = [f"{path.relative_to(TOP)}" for path in [*examples, *(TOP / "docs").glob("*.md"),
                                                     *(TOP / "docs/pictures").iterdir()]]
    return sorted(f"usr/share/doc/netconf/{name}" for name in [*files, *TEXTS, "copyright", "changelog.gz"])


def links_of(page: pathlib.Path) -> list[str]:
    """The files to which a page links; not those that Debian has in a place of its own."""
    links = re.findall(r"\]\(([^)\s#]+)", re.sub(r"^```.*?^```", "", page.read_text(), flags=re.S | re.M))
    return [link for link in links if "://" not in link and not link.startswith("/usr/share/common-licenses/")]


def copied(folder: pathlib.Path) -> pathlib.Path:
    """A copy of what the package is made of, without .git and without an author."""
    copy = folder / "copy"
    for part in ("tools", "docs", "examples", "bench"):
        shutil.copytree(TOP / part, copy / part, ignore=shutil.ignore_patterns("__pycache__"))
    for path in TOP.iterdir():
        if path.is_file():
            shutil.copy(path, copy)
    (copy / ".maintainer").write_text("$Format:%an <%ae>$\n")
    return copy


def made(top: pathlib.Path, to: pathlib.Path, **variables: str) -> tuple[int, str, pathlib.Path]:
    """Makes the package of a tree, with a small program in the place of netconf: what is printed, the errors, and the
    package."""
    to.mkdir(exist_ok=True)
    status, output, errors = outcome(top / "tools/package", to, folder=top,
                                     **{"NETCONF": TRUE, **variables})
    return status, errors, pathlib.Path((output.splitlines() or [str(to)])[0])


class TestPackage(Case):
    """The Debian package, made once for all tests."""

    made: tempfile.TemporaryDirectory[str]
    package: pathlib.Path

    @classmethod
    def setUpClass(cls) -> None:
        """Makes the package."""
        if shutil.which("dpkg-deb") is None:
            raise unittest.SkipTest("dpkg-deb is missing; as root: tools/install-needs (the package dpkg)")
        cls.made = tempfile.TemporaryDirectory()
        cls.addClassCleanup(cls.made.cleanup)
        status, output, errors = outcome(TOOLS / "package", cls.made.name, **PACKAGER)
        cls.package = pathlib.Path((output.splitlines() or [os.devnull])[0])
        if status or not cls.package.is_file():
            raise AssertionError(f"the package is not made: {output + errors}")

    def test_name(self) -> None:
        """The package is called by its version and its architecture."""
        architecture = outcome("dpkg", "--print-architecture")[1].strip()
        self.assertEqual(self.package.name, f"netconf_{VERSION}_{architecture}.deb")

    def test_contents(self) -> None:
        """The listing of the package: its files, their modes and their owner."""
        _, listing, _ = outcome("dpkg-deb", "--contents", self.package)
        entries = [line.split(None, 5) for line in listing.splitlines()]
        names = sorted(entry[5].split(" -> ")[0][2:] for entry in entries if not entry[0].startswith("d"))
        self.assertEqual(names, sorted(wanted_files() + wanted_documents()), "its files")
        runs = {entry[5][2:] for entry in entries if entry[0] == "-rwxr-xr-x"}
        self.assertTrue("usr/share/doc/netconf/examples/boards/fetch" in runs,
                        f"the fetching of trees can be run: {runs}")
        modes = {entry[0] for entry in entries} - {"drwxr-xr-x", "-rw-r--r--", "-rwxr-xr-x", "lrwxrwxrwx"}
        self.assertEqual((modes, {entry[1] for entry in entries}), (set(), {"root/root"}), "modes and owner")
        _, fields, _ = outcome("dpkg-deb", "--field", self.package)
        self.assertTrue(re.search(rf"^Version: {re.escape(VERSION)}$", fields, re.M),
                        f"its version is that of the file VERSION: {fields}")
        processor = "sse4\\.2-support, " if re.search(r"^Architecture: amd64$", fields, re.M) else ""
        wanted = (rf"^Depends: .*libc6 \(>= 2\.\d+\).*, {processor}python3 \(>= 3\.10\), "
                  "python3-libfdt, device-tree-compiler$")
        self.assertTrue(re.search(wanted, fields, re.M), f"what it depends on: {fields}")

    def test_answers(self) -> None:
        """The program and the tools as they are in the package, with nothing else of this tree and an empty
        environment."""
        root = self.folder / "root"
        outcome("dpkg-deb", "--extract", self.package, root)
        self.assertTrue((root / "usr/bin/netconf").read_bytes() == pathlib.Path(os.environ["NETCONF"]).read_bytes(),
                        "the program is the one that was built")
        example = root / "usr/share/doc/netconf/examples/first_board.net"
        clean = ["env", "-i", f"PATH={root}/usr/bin:/usr/bin:/bin"]
        seen = outcome(*clean, "netconf", "run", text=example.read_text())
        self.assertEqual(seen, (0, example.with_suffix(".out").read_text(), ""),
                         "its program answers its first example")
        plain = example.with_name("four_cores.net")
        self.assertEqual(outcome(*clean, "netconf-lint", plain), (0, "", ""), "its lint")
        seen = outcome(*clean, "netconf-run", plain)
        self.assertEqual(seen, (0, plain.with_suffix(".out").read_text(), ""), "its runs")
        status, picture, _ = outcome(*clean, "netconf-draw", "--views", example)
        self.assertTrue(status == 0 and "0x80000000-0xbfffffff" in picture, "its pictures")
        for tool in sorted(path.name for path in TOOLS.glob("netconf-*")):
            self.assertEqual(outcome(*clean, tool, "--version"), (0, f"{tool} {VERSION}\n", ""),
                             f"the version of {tool}")
        copyright = (root / "usr/share/doc/netconf/copyright").read_text()
        self.assertTrue("SPDX-License-Identifier: Apache-2.0\n" in copyright, f"its licence: {copyright}")
        self.assertTrue(f"Files: *\nCopyright: {HOLDER}\n" in copyright,
                        f"the holder of NOTICE, whoever made the package: {copyright}")
        lost = [f"{page.name}: {link}" for page in sorted(root.rglob("*.md")) for link in links_of(page)
                if not (page.parent / link).exists()]
        self.assertEqual(lost, [], "links of the installed pages that lead nowhere")
        tested = (root / "usr/share/doc/netconf/docs/tested.md").read_text()
        self.assertTrue("; answers/README.md of the source tree has the form" in tested,
                        "where a file is that is not installed")

    def test_without_git(self) -> None:
        """A copy without .git makes the same package, byte for byte."""
        copy = copied(self.folder)
        done = [made(top, self.folder / name, **PACKAGER) for top, name in ((TOP, "there"), (copy, "here"))]
        self.assertEqual([each[:2] for each in done], [(0, "")] * 2, "made with git and without")
        self.assertTrue(done[0][2].read_bytes() == done[1][2].read_bytes(), "the same bytes with git and without")
        (copy / ".maintainer").write_text("The Author <author@example.org>\n")
        status, errors, package = made(copy, self.folder / "author", **NOBODY)
        self.assertEqual((status, errors, outcome("dpkg-deb", "--field", package, "Maintainer")[1]),
                         (0, "", "The Author <author@example.org>\n"),
                         "the maintainer that an archive names")
        status, errors, package = made(copy, self.folder / "early", SOURCE_DATE_EPOCH="1700000000", **PACKAGER)
        days = {line.split()[3] for line in outcome("dpkg-deb", "--contents", package, TZ="UTC")[1].splitlines()}
        self.assertEqual((status, errors, days), (0, "", {"2023-11-14"}), "SOURCE_DATE_EPOCH is the time of its files")

    def test_refusals(self) -> None:
        """What a package is not made of is said in one line."""
        copy = copied(self.folder)
        (copy / ".maintainer").unlink()
        script = TOOLS / "install-needs"
        cases = [({**NOBODY},
                  "who maintains the package is not known: no git checkout and no archive of `git archive` says it "
                  "here; set DEBFULLNAME and DEBEMAIL"),
                 ({**PACKAGER, "DEBEMAIL": "nowhere"},
                  "DEBFULLNAME and DEBEMAIL: 'A Packager <nowhere>' is not a name with an address"),
                 ({**PACKAGER, "NETCONF": "/nowhere/netconf"},
                  "/nowhere/netconf: no such program: build it first, or name it by the variable NETCONF"),
                 ({**PACKAGER, "NETCONF": str(script)}, f"{script} is no compiled program"),
                 ({**PACKAGER, "SOURCE_DATE_EPOCH": "today"}, "SOURCE_DATE_EPOCH: 'today' is not a number of seconds")]
        for variables, line in cases:
            self.assertEqual(made(copy, self.folder / "refused", **variables)[:2], (1, f"package: {line}\n"),
                             f"{line[:40]}")
        for name, text, line in (("CHANGELOG.md", "## Unreleased\n\n## 0.0.1 (2026-01-01)\n",
                                  "CHANGELOG.md: the first version with a date is not "
                                  f"`## {VERSION} (YEAR-MONTH-DAY)`, as VERSION says: its newest is 0.0.1"),
                                 ("NOTICE", "netconf\n", "NOTICE: there is no line `Copyright YEAR HOLDER`"),
                                 ("VERSION", "next\n", "VERSION: 'next' is no version of Debian")):
            before = (copy / name).read_text()
            (copy / name).write_text(text)
            self.assertEqual(made(copy, self.folder / "refused", **PACKAGER)[:2], (1, f"package: {line}\n"),
                             f"{line[:40]}")
            (copy / name).write_text(before)
        self.assertEqual(outcome(copy / "tools/package", self.folder / "none", NETCONF=TRUE,
                                 **PACKAGER),
                         (1, "", f"package: {self.folder / 'none'}: no such folder\n"), "no such folder")

    def test_lintian(self) -> None:
        """What Debian's own lint finds."""
        self.need("lintian", "lintian")
        self.assertEqual(warnings_of(self.package), [], "errors and warnings")

    def test_library(self) -> None:
        """The package of the library, made of a small archive that stands for it: its files, a program that is built
        with what it has, and what Debian's own lint finds."""
        self.need("gcc", "gcc")
        source, archive, to = self.folder / "answer.c", self.folder / "libanswer.a", self.folder / "made"
        source.write_text("#include <netconf_heap.h>\nint answer(void);\n"
                          "int answer(void) { rattle_dealloc(rattle_alloc(8, 8).at); return 42; }\n")
        outcome("gcc", "-I", TOP / "include", "-c", source, "-o", self.folder / "answer.o")
        outcome("ar", "r", archive, self.folder / "answer.o")
        to.mkdir()
        variables = {"NETCONF": TRUE, "NETCONF_ARCHIVE": str(archive), **PACKAGER}
        status, output, errors = outcome(TOOLS / "package", to, **variables)
        self.assertEqual((status, errors, len(output.splitlines())), (0, "", 2), "two packages are made")
        package, architecture = pathlib.Path(output.splitlines()[1]), outcome("dpkg", "--print-architecture")[1].strip()
        self.assertEqual(package.name, f"libnetconf-dev_{VERSION}_{architecture}.deb")
        root = self.folder / "library"
        outcome("dpkg-deb", "--extract", package, root)
        library = f"usr/lib/{outcome('gcc', '-print-multiarch')[1].strip()}"
        documents = [f"usr/share/doc/libnetconf-dev/{name}" for name in (
            "changelog.gz", "copyright", *(f"examples/{name}.c" for name in ("bare", "dma", "example", "heap")))]
        names = sorted(str(path.relative_to(root)) for path in root.rglob("*") if path.is_file())
        self.assertEqual(names, sorted([*(f"usr/include/netconf{name}" for name in (".h", ".hpp", "_heap.h")),
                                        f"{library}/libnetconf.a", f"{library}/pkgconfig/netconf.pc", *documents]))
        self.assertIn("libdir=${prefix}/" + library.removeprefix("usr/"),
                      (root / library / "pkgconfig/netconf.pc").read_text())
        source.write_text("#include <netconf.h>\nint answer(void);\nint main(void) { return answer() != 42; }\n")
        program = self.folder / "program"
        built = outcome("gcc", "-I", root / "usr/include", source, "-L", root / library, "-lnetconf", "-o", program)
        self.assertEqual((built, outcome(program)), ((0, "", ""), (0, "", "")), "a program with the library")
        self.assertEqual(outcome(TOOLS / "package", to, **{**variables, "NETCONF_ARCHIVE": "/nowhere/lib.a"}),
                         (1, "", "package: /nowhere/lib.a: no such library: build it first, by `rt lib` in "
                                 "crates/netconf_c\n"), "no such library")
        self.need("lintian", "lintian")
        self.assertEqual(warnings_of(package), [], "errors and warnings")


def warnings_of(package: pathlib.Path) -> list[str]:
    """The errors and warnings of Debian's own lint."""
    _, output, _ = outcome("lintian", "--allow-root", package)
    return [line for line in output.splitlines() if re.match("[EW]:", line)]
