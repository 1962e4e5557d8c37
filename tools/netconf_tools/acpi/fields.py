"""Numbers in a table, and records that follow one another. All numbers of ACPI have their lowest byte first."""
from collections.abc import Iterator

from netconf_tools.devicetree.fault import Fault


def number(data: bytes, at: int, size: int) -> int:
    """A number of some bytes; it must lie in the data."""
    if at < 0 or at + size > len(data):
        raise Fault(f"it ends before byte {at + size}")
    return int.from_bytes(data[at:at + size], "little")


def records(data: bytes, at: int, size_of_type: int) -> Iterator[tuple[int, bytes]]:
    """The records of a table from a place on: of each its type and its bytes, with the head.

    The head is a type and a length, each of so many bytes."""
    head = 2 * size_of_type
    while at < len(data):
        kind, length = number(data, at, size_of_type), number(data, at + size_of_type, size_of_type)
        if length < head or at + length > len(data):
            raise Fault(f"a record at byte {at} has length {length}, and {len(data) - at} bytes are left")
        yield kind, data[at:at + length]
        at += length
