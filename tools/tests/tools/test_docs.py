"""The pages that speak of the tree: what they link to, the files, names and version that they give, and how long README
is."""

import pathlib
import re
from collections.abc import Iterator

from tests.case import TOOLS, TOP, Case, outcome

PAGES = ["*.md", "docs/*.md", "bench/*.md", "answers/*.md"]
FENCE = re.compile(r"^```.*?^```", re.S | re.M)


def text_of(path: pathlib.Path) -> str:
    """A page without its blocks of code."""
    return FENCE.sub("", path.read_text())


def anchors_of(path: pathlib.Path) -> set[str]:
    """The anchors of a page: its headings in lower case, with dashes, numbered where they come again."""
    anchors: set[str] = set()
    seen: dict[str, int] = {}
    for heading in re.findall(r"^#+ (.*)$", text_of(path), re.M):
        anchor = re.sub(r"[^\w\- ]", "", heading.lower()).replace(" ", "-")
        anchors.add(f"{anchor}-{seen[anchor]}" if anchor in seen else anchor)
        seen[anchor] = seen.get(anchor, 0) + 1
    return anchors


def lost_paths(line: str) -> Iterator[str]:
    """The paths of a line that do not stand in the crate which the line names last before them."""
    crate = None
    crates = r"\b(dn_\w+|test_\w+|netconf(?:_c)?(?=/(?:src|specs|proofs)))\b"
    for match in re.finditer(crates + r"|((?:src|specs|proofs)/[\w/+]+(?:\.(?:rt|antt))?)", line):
        if match[1] and (TOP / "crates" / match[1]).is_dir():
            crate = match[1]
        elif match[2] and crate:
            path = TOP / "crates" / crate / match[2]
            if not any(path.with_name(path.name + end).exists() for end in ("", ".rt", ".antt")):
                yield f"{crate}: {match[2]}"


def lost_places(line: str) -> Iterator[str]:
    """The paths of a line that nothing has, those in crates/ left aside; and the names that it gives of a file, before
    the path or in brackets after it, and that the file does not have."""
    name, path = r"`(\w+)`", r"`?((?:tools|answers|include|bench)/[\w/.+-]*\w)`?"
    for match in re.finditer(rf"(?:{name} (?:of )?)?{path}(?: \(((?:`\w+`(?:, |\)))+))?", line):
        place = TOP / match[2]
        if not place.exists():
            yield match[2]
        elif place.is_file():
            given = re.findall(r"\w+", f"{match[1] or ''} {match[3] or ''}")
            yield from (f"{match[2]}: {word}" for word in given if not re.search(rf"\b{word}\b", place.read_text()))


class TestDocuments(Case):
    """The pages of the tree."""

    def test_links(self) -> None:
        """Each link within the tree leads to a file, and to a heading where it names one."""
        lost = []
        for page in [path for pattern in PAGES for path in sorted(TOP.glob(pattern))]:
            for link in re.findall(r"\]\(([^)\s]+)\)", text_of(page)):
                path, _, anchor = link.partition("#")
                target = page.parent / path if path else page
                if "://" not in link and not (target.exists() and (not anchor or anchor in anchors_of(target))):
                    lost.append(f"{page.relative_to(TOP)}: {link}")
        self.assertEqual(lost, [], "links that lead nowhere")

    def test_map(self) -> None:
        """The pages of files and of lemmas are those that tools/map makes."""
        self.assertEqual(outcome(TOOLS / "map", "--check"), (0, "", ""), "pages that tools/map makes")

    def test_recipes(self) -> None:
        """Each path of a page stands in the crate that the line names last before it."""
        lost = [f"docs/{page}.md:{number}: {path}" for page in ("architecture", "proving", "lemmas", "proved")
                for number, line in enumerate((TOP / f"docs/{page}.md").read_text().splitlines(), 1)
                for path in lost_paths(line)]
        self.assertEqual(lost, [], "paths that the crate before them does not have")

    def test_places(self) -> None:
        """Each path of the map outside of crates/ is there, and the file has the names that the map gives of it."""
        lines = (TOP / "docs/architecture.md").read_text().splitlines()
        lost = [f"{number}: {place}" for number, line in enumerate(lines, 1) for place in lost_places(line)]
        self.assertEqual(lost, [], "paths and names of docs/architecture.md that nothing has")
        wrong = "`SHOWN` tools/netconf_tools/grants.py (`CHANGES`, `NONE`), `tools/none.py`"
        self.assertEqual(list(lost_places(wrong)), ["tools/netconf_tools/grants.py: NONE", "tools/none.py"])

    def test_left_files(self) -> None:
        """git ignores what the commands of the pages write at the top of the tree."""
        if not (TOP / ".git").exists():
            self.skipTest("git ignores files in a checkout alone")
        text = "".join(path.read_text() for path in (*TOP.glob("docs/*.md"), TOP / "README.md"))
        files = set(re.findall(r"(?:^\$? ?.* > ?|--output )([\w.]+\.\w+)", "\n".join(FENCE.findall(text)), re.M))
        ignored = outcome("git", "check-ignore", "--no-index", *sorted(files))[1].split()
        self.assertGreater(len(files), 20)
        self.assertEqual(sorted(files - set(ignored)), [])

    def test_names(self) -> None:
        """Each name that the pages on what is proved and on lemmas give stands in a source, a definition or a proof."""
        parts = ("src/**/*.rt", "specs/**/*.antt", "proofs/**/*.antt")
        words = {path.stem for part in parts for path in TOP.glob(f"crates/*/{part}")}
        words |= {path.name for path in TOP.glob("crates/*")}
        for path in [path for part in parts for path in TOP.glob(f"crates/*/{part}")]:
            words.update(re.findall(r"[^\W\d][\w-]*", path.read_text()))
            words.update(re.findall(r"\w+", path.read_text()))
        for page in ("docs/proved.md", "docs/lemmas.md"):
            names = [name for name in re.findall(r"`([A-Za-z_][\w:.-]*)`", text_of(TOP / page))
                     if not (TOP / name).exists()]
            lost = sorted({word for name in names for word in re.split(r"::|\.", name) if word} - words)
            self.assertEqual(lost, [], f"names of {page} that nothing has")

    def test_readme(self) -> None:
        """README is short enough to be read before anything else."""
        text = (TOP / "README.md").read_text()
        self.assertTrue(len(text.splitlines()) <= 130 and len(text.encode()) <= 9000,
                        "README has at most 130 lines and 9 kB")

    def test_version(self) -> None:
        """The version is one: of the file VERSION, of the newest entry with a day, of what is cited, and of the
        tools."""
        version = (TOP / "VERSION").read_text().strip()
        entries = re.findall(r"^## (.+)$", (TOP / "CHANGELOG.md").read_text(), re.M)
        self.assertEqual(entries[0], "Unreleased", "the first heading of CHANGELOG")
        for entry in entries[1:]:
            self.assertRegex(entry, r"^\S+ \(\d{4}-\d\d-\d\d\)$")
        self.assertEqual(entries[1].split(" ")[0], version)
        self.assertTrue(f"\nversion: {version}\n" in (TOP / "CITATION.cff").read_text(), "the version that is cited")
        for name in ("package", "pictures", "try-tests", "machine/run",
                     *(path.name for path in sorted(TOOLS.glob("netconf-*")))):
            shown = name if name.startswith("netconf-") else f"tools/{name}"
            self.assertEqual(outcome(TOOLS / name, "--version"), (0, f"{shown} {version}\n", ""),
                             f"the version of {shown}")
        full = outcome("bash", "-c", '"$1" --version > /dev/full', "ask", TOOLS / "netconf-lint")
        self.assertEqual(full, (2, "", "netconf-lint: standard output: No space left on device\n"),
                         "a version that cannot be written")
