"""The tables of ACPI: those of a folder such as ``/sys/firmware/acpi/tables``, or of the text that ``acpidump``
prints."""
import os
import re
from pathlib import Path

from netconf_tools.devicetree.fault import Fault
from netconf_tools.devicetree.tree import read_bytes

HEADER_BYTES = 36
"""How many bytes stand before what a table has of its own (ACPI specification 6.5: the header of a table)."""
MAX_FILES = 256
MAX_TABLE_BYTES = 1 << 20
"""How many bytes are read of a table; the largest of those that are read has some 64 KiB on a server."""
READ = ("APIC", "SRAT", "MCFG", "DMAR", "IVRS", "IORT", "RIMT")
"""The tables that are read, by their signatures."""
DUMPED = re.compile(r"^(?P<signature>[A-Z0-9_]{4}) @ 0x[0-9A-Fa-f]+\s*$")
LINE = re.compile(r"^\s*(?P<at>[0-9A-Fa-f]{4,8}):(?P<bytes>(?: [0-9A-Fa-f]{2}){1,16})(?:\s.*)?$")

Tables = dict[str, bytes]
"""Tables by their signatures, each with its header."""


def read_tables(path: str) -> Tables:
    """The tables of a folder or a file."""
    found = _of_folder(Path(path)) if os.path.isdir(path) else _of_text(read_bytes(path).decode("latin-1"), path)
    if not found:
        raise Fault(f"{path}: none of the tables {', '.join(READ)} is here")
    return found


def _of_folder(folder: Path) -> Tables:
    """The tables of a folder, each a file. Of several with one signature the first counts, as in Linux."""
    found: Tables = {}
    try:
        paths = sorted(path for path in folder.iterdir() if path.is_file())
    except OSError as error:
        raise Fault(f"{folder}: {error.strerror}") from None
    if len(paths) > MAX_FILES:
        raise Fault(f"{folder}: {len(paths)} files, and at most {MAX_FILES} are read")
    for path in paths:
        data = read_bytes(str(path))
        signature = data[:4].decode("latin-1")
        if signature in READ and signature not in found:
            found[signature] = checked(data, str(path))
    return found


def _of_text(text: str, path: str) -> Tables:
    """The tables of the text of ``acpidump``: a line with the signature, and lines of up to 16 bytes."""
    found: Tables = {}
    parts: dict[str, list[bytes]] = {}
    lines: list[bytes] | None = None
    for line in text.splitlines():
        head, row = DUMPED.match(line), LINE.match(line)
        if head:
            lines = parts.setdefault(head["signature"], []) if head["signature"] not in parts else None
        elif row and lines is not None:
            lines.append(bytes.fromhex(row["bytes"]))
    for signature, rows in parts.items():
        if signature in READ:
            found[signature] = checked(b"".join(rows), f"{path}: {signature}")
    return found


def checked(data: bytes, name: str) -> bytes:
    """A table without what stands after it; refused where it is not whole or its checksum is wrong."""
    length = int.from_bytes(data[4:8], "little")
    if len(data) < HEADER_BYTES or length < HEADER_BYTES or length > len(data):
        raise Fault(f"{name}: a table of {length} bytes in {len(data)}")
    if length > MAX_TABLE_BYTES:
        raise Fault(f"{name}: a table of {length} bytes, and at most {MAX_TABLE_BYTES} are read")
    if sum(data[:length]) % 256:
        raise Fault(f"{name}: its checksum is wrong")
    return data[:length]
