"""What examples/boards/fetch says where it can fetch nothing: one line with the cause. No test asks an archive."""

import pathlib
import shutil

from tests.case import EXAMPLES, Case, outcome

FETCH = EXAMPLES / "boards/fetch"
UPDATE = ("W: Failed to fetch http://mirror.example/InRelease  Temporary failure resolving 'mirror.example'\n"
          "W: Some index files failed.\n")
PACKAGE = "linux-image-6.1.0-9-arm64"


def machine(commands: pathlib.Path, apt_get: str, apt_cache: str) -> str:
    """A folder of commands in the place of Debian's: what apt-get does, and what apt-cache prints."""
    for name, body in (("apt-get", apt_get), ("apt-cache", apt_cache),
                       ("dpkg-deb", "echo 'dpkg-deb: no archive' >&2; exit 2")):
        path = commands / name
        path.write_text(f"#!/bin/sh\n{body}\n")
        path.chmod(0o755)
    return f"{commands}:/usr/bin:/bin"


class TestFetch(Case):
    """The fetching of a kernel's trees, with stand-ins for Debian's commands."""

    def test_words(self) -> None:
        """Without a folder the usage is printed; --help explains it, and no other option is taken for a folder."""
        self.assertEqual(outcome(FETCH), (1, "", "usage: fetch FOLDER [SERIES [FLAVOUR]]\n"))
        status, output, errors = outcome(FETCH, "--help", folder=self.folder,
                                         PATH=machine(self.folder, "exit 0", "exit 0"))
        self.assertEqual((status, errors), (0, ""))
        self.assertIn("\n  fetch FOLDER [SERIES [FLAVOUR]]\n", output)
        due = (1, "", "--frob is no option and no folder: write ./--frob for a folder of that name\n")
        self.assertEqual(outcome(FETCH, "--frob", folder=self.folder), due)

    def test_causes(self) -> None:
        """What cannot be had is said in one line with its cause."""
        commands, to = self.folder / "commands", self.folder / "trees"
        commands.mkdir()
        named = f"echo {PACKAGE}"
        down = ("case $* in *update*) exit 0;; "
                "*) echo 'E: Failed to fetch http://mirror.example/x  404  Not Found' >&2; exit 100;; esac")
        empty = "case $* in *update*) exit 0;; *) touch linux-image-6.1.0-9-arm64_6.1_arm64.deb;; esac"
        cases: list[tuple[str, str, tuple[str, ...], str]] = [
            (f"printf '%s' \"{UPDATE}\" >&2", "exit 0", (),
             "the package lists of Debian cannot be had: Failed to fetch "
             "http://mirror.example/InRelease Temporary failure resolving 'mirror.example'"),
            ("exit 0", "exit 0", ("9.9",), "the package lists have no linux-image-9.9.*-arm64"),
            (down, named, (), f"{PACKAGE} cannot be had: Failed to fetch http://mirror.example/x 404 Not Found"),
            (empty, named, (), f"{PACKAGE} cannot be unpacked: dpkg-deb: no archive")]
        for apt_get, apt_cache, words, line in cases:
            with self.subTest(line):
                path = machine(commands, apt_get, apt_cache)
                self.assertEqual(outcome(FETCH, to, *words, PATH=path), (1, "", f"{line}\n"))
                shutil.rmtree(to)

    def test_folder_below_a_file(self) -> None:
        """A folder that cannot be made is an error."""
        (self.folder / "file").touch()
        below = self.folder / "file/trees"
        path = machine(self.folder, "exit 0", "exit 0")
        self.assertEqual(outcome(FETCH, below, PATH=path), (1, "", f"cannot write below {below}: Not a directory\n"))

    def test_other_system(self) -> None:
        """Without apt-get it says that it takes a Debian machine."""
        for name in ("bash", "env"):
            (self.folder / name).symlink_to(shutil.which(name) or name)
        due = (1, "", "there is no apt-get here: it takes a Debian machine\n")
        self.assertEqual(outcome(FETCH, self.folder / "trees", PATH=str(self.folder)), due)
