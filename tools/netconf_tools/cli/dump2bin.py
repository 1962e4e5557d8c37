"""Makes bytes of a dump or of a tree of pages, and lists the writes by which one image becomes the next."""

import argparse
import contextlib
import os
import stat
import sys
import tempfile
from collections.abc import Iterable, Iterator

from netconf_tools.dump import (
    MARK, MOST_BYTES, Refused, changes, dump_heading, image_in, refusals_before, tables_of, tree_heading, tree_in,
)
from netconf_tools.ending import ended, tell
from netconf_tools.text import Trouble, read
from netconf_tools.version import add_version


def number_of(word: str) -> int:
    """The number of a dump."""
    if not word.isdecimal() or len(word) > 18 or int(word) < 1:
        raise argparse.ArgumentTypeError(f"{word[:40]!r} is not the number of a dump: they are counted from 1")
    return int(word)


MOST_REFUSALS = 20
"""How many commands that were refused are shown."""


@contextlib.contextmanager
def told_of(name: str) -> Iterator[None]:
    """Has a trouble begin with the name of its file."""
    try:
        yield
    except Trouble as trouble:
        message = str(trouble)
        raise type(trouble)(message if message.startswith(f"{name}: ") else f"{name}: {message}") from trouble


def image_of(name: str, number: int = 0, is_lenient: bool = False) -> bytes:
    """The image in a file. A dump after a command that was refused is taken if `is_lenient`."""
    with told_of(name):
        data = read(name, MOST_BYTES)
        image = image_in(data, number)
        tables_of(image)
        if not data.startswith(MARK):
            want_granted(name, refusals_before(data, dump_heading(data, number)), is_lenient)
    return image


def tree_of(name: str, node: str, number: int, is_lenient: bool) -> bytes:
    """The tree of a unit in a file. A tree after a command that was refused is taken if `is_lenient`."""
    with told_of(name):
        data = read(name, MOST_BYTES)
        tree = tree_in(data, node, number)
        want_granted(name, refusals_before(data, tree_heading(data, node, number)), is_lenient)
    return tree


def want_granted(name: str, refusals: list[tuple[int, str]], is_lenient: bool) -> None:
    """Reports the commands that were refused before what is taken, and fails if there is one, unless that is
    allowed."""
    for line, text in refusals[:MOST_REFUSALS]:
        tell("netconf-dump2bin", f"{name}:{line}: {text[:200]}")
    if len(refusals) > MOST_REFUSALS:
        tell("netconf-dump2bin", f"{name}: {len(refusals) - MOST_REFUSALS} more commands were refused")
    if refusals and not is_lenient:
        raise Refused(f"{name}: a command before it was refused, so nothing is written; --keep-going writes it")


def write(name: str, parts: Iterable[bytes]) -> None:
    """Writes pieces of bytes to a file, or to standard output where the name is `-`. A file that is there already stays
    as it is until all was written beside it; a device or a pipe is written as it is."""
    if name == "-":
        sys.stdout.buffer.writelines(parts)
        return
    try:
        mode = os.stat(name).st_mode if os.path.exists(name) else stat.S_IFREG | 0o666 & ~mask()
        if stat.S_ISREG(mode):
            replace(os.path.realpath(name), stat.S_IMODE(mode), parts)
        else:
            with open(name, "wb") as file:
                file.writelines(parts)
    except OSError as error:
        raise Trouble(f"{name}: {error.strerror}") from error


def mask() -> int:
    """The bits that a new file has not in its mode."""
    bits = os.umask(0)
    os.umask(bits)
    return bits


def replace(path: str, mode: int, parts: Iterable[bytes]) -> None:
    """Writes a new file beside another, and puts it in the other's place when it is whole."""
    with tempfile.NamedTemporaryFile(dir=os.path.dirname(path), prefix=".netconf-", delete=False) as file:
        try:
            file.writelines(parts)
            file.flush()
            os.chmod(file.name, mode)
            os.replace(file.name, path)
        except BaseException:
            with contextlib.suppress(OSError):
                os.unlink(file.name)
            raise


def listed(files: list[str], dump: int, is_lenient: bool) -> Iterator[bytes]:
    """The lines of the changes to an image: from the other of two, or from tables whose words are 0."""
    images = [image_of(name, 0, is_lenient) for name in files[:-1]] + [image_of(files[-1], dump, is_lenient)]
    try:
        lines = changes(images[0] if len(images) == 2 else None, images[-1])
    except Trouble as trouble:
        raise Trouble(f"{' and '.join(files)}: {trouble}") from trouble
    return (f"{line}\n".encode() for line in lines)


def convert(arguments: list[str] | None) -> int:
    """Writes the bytes of a dump, or lists changes."""
    parser = argparse.ArgumentParser(
        prog="netconf-dump2bin",
        description="Writes the bytes of the last dump in an output of `netconf run`, or with --tree those of the last "
                    "tree of pages of a unit; with --changes, lists the writes and fences by which a machine that has "
                    "one image gets the next.",
        epilog="Status: 0 all was written, 1 the text or a command was refused, 2 the words are wrong, a file cannot "
               "be read or written, or holds no image.")
    add_version(parser)
    parser.add_argument("--changes", action="store_true",
                        help="list the changes from the first file to the second, or from tables of 0 where there is "
                             "one file")
    parser.add_argument("--tree", metavar="NODE", help="write the pages that `radix NODE` printed, in place of a dump")
    parser.add_argument("--dump", type=number_of, default=0, metavar="N",
                        help="take the dump of this number, counted from 1, in place of the last (of two files, in the "
                             "second); or the tree")
    parser.add_argument("--keep-going", action="store_true",
                        help="take a dump or a tree also after a command that was refused")
    parser.add_argument("--output", default="-", metavar="FILE", help="write there in place of standard output")
    parser.add_argument("files", metavar="FILE", nargs="*", default=["-"],
                        help="an output of `netconf run`, or an image; - is standard input, which is read where no "
                             "file is named")
    options = parser.parse_args(arguments)
    if len(options.files) > (2 if options.changes else 1):
        parser.error("too many files")
    if options.changes and options.tree:
        parser.error("--changes lists no changes of a tree")
    parts: Iterable[bytes]
    is_lenient = options.keep_going
    if options.tree:
        parts = [tree_of(options.files[0], options.tree, options.dump, is_lenient)]
    elif options.changes:
        parts = listed(options.files, options.dump, is_lenient)
    else:
        parts = [image_of(options.files[0], options.dump, is_lenient)]
    write(options.output, parts)
    return 0


def converted(arguments: list[str] | None) -> int:
    """Converts what the words ask for; status 1 where a text or a command was refused."""
    try:
        return convert(arguments)
    except Refused as refused:
        tell("netconf-dump2bin", str(refused))
        return 1


def main(arguments: list[str] | None = None) -> int:
    """Runs the tool over its words, those of the command line if none are given, and returns its status."""
    return ended("netconf-dump2bin", lambda: converted(arguments), 2, Trouble)
