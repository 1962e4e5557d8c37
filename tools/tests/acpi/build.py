"""Tables of ACPI made by hand, for the tests: each number is written where the specification has it. Nothing here is
shared with the reader."""
import struct


def table(signature: bytes, body: bytes) -> bytes:
    """A table with its header of 36 bytes and a checksum that makes the sum of all bytes 0."""
    whole = bytearray(struct.pack("<4sIBB6s8sI4sI", signature, 36 + len(body), 1, 0, b"TESTER", b"BY HAND ", 1, b"HAND",
                                  1) + body)
    whole[9] = -sum(whole) % 256
    return bytes(whole)


def madt(*records: bytes, local: int = 0xfee00000) -> bytes:
    """A MADT: the address of the local APIC, flags, and records."""
    return table(b"APIC", struct.pack("<II", local, 1) + b"".join(records))


def local_apic(number: int, flags: int = 1) -> bytes:
    """A processor with a local APIC: type 0, 8 bytes, an identifier, the number, and flags."""
    return struct.pack("<BBBBI", 0, 8, number, number, flags)


def io_apic(address: int) -> bytes:
    """An I/O APIC: type 1, 12 bytes, a number, its address, its first interrupt."""
    return struct.pack("<BBBBII", 1, 12, 0, 0, address, 0)


def gic_its(address: int) -> bytes:
    """An ITS: type 15, 20 bytes, a number, its address."""
    return struct.pack("<BBHIQI", 15, 20, 0, 0, address, 0)


def srat(*memory: tuple[int, int, int]) -> bytes:
    """A SRAT with memory: each its first address, its size and its flags, of which the lowest bit is set where it is
    there."""
    records = [struct.pack("<BBIHQQIIQ", 1, 40, 0, 0, first, size, 0, flags, 0) for first, size, flags in memory]
    return table(b"SRAT", struct.pack("<IQ", 1, 0) + b"".join(records))


def mcfg(address: int, segment: int, first: int, last: int) -> bytes:
    """A MCFG with one segment: the address of its bus 0, its number, and its buses."""
    return table(b"MCFG", bytes(8) + struct.pack("<QHBBI", address, segment, first, last, 0))


def scope(kind: int, bus: int, *path: tuple[int, int]) -> bytes:
    """A device scope of a DMAR: the type (1 a function, 2 a bridge), the length, the bus, and pairs of a device and a
    function."""
    return struct.pack("<BBHBB", kind, 6 + 2 * len(path), 0, 0, bus) + bytes(part for pair in path for part in pair)


def drhd(address: int, segment: int, flags: int, *scopes: bytes) -> bytes:
    """An IOMMU of Intel: type 0, the length, flags (1: all others), the segment, the address, and device scopes."""
    body = struct.pack("<BBHQ", flags, 0, segment, address) + b"".join(scopes)
    return struct.pack("<HH", 0, 4 + len(body)) + body


def rmrr(first: int, last: int, *scopes: bytes) -> bytes:
    """Reserved memory of a DMAR: type 1, the length, the segment, the first and the last address, and device scopes."""
    body = struct.pack("<HHQQ", 0, 0, first, last) + b"".join(scopes)
    return struct.pack("<HH", 1, 4 + len(body)) + body


def dmar(width: int, *records: bytes) -> bytes:
    """A DMAR: the bits of an address of the host less one, flags, ten bytes, and records."""
    return table(b"DMAR", struct.pack("<BB10x", width - 1, 0) + b"".join(records))


def ivhd(kind: int, device: int, address: int, *entries: bytes) -> bytes:
    """An IOMMU of AMD: the type, flags, the length, its own device, where its registers are said, the address, the
    segment, two words, for the types 0x11 and 0x40 two more, and entries."""
    more = b"" if kind == 0x10 else bytes(16)
    body = struct.pack("<HHQHHI", device, 0x40, address, 0, 0, 0) + more + b"".join(entries)
    return struct.pack("<BBH", kind, 0, 4 + len(body)) + body


def ivrs(*blocks: bytes) -> bytes:
    """An IVRS: a word, eight bytes, and blocks."""
    return table(b"IVRS", bytes(12) + b"".join(blocks))


def entry(kind: int, device: int, source: int | None = None) -> bytes:
    """An entry of an IOMMU of AMD: the type, a device, settings; with a source 8 bytes."""
    return struct.pack("<BHB", kind, device, 0) + (b"" if source is None else struct.pack("<BHB", 0, source, 0))


def ivmd(kind: int, device: int, last: int, first: int, size: int) -> bytes:
    """Reserved memory of an IVRS: the type, flags, 32 bytes, two devices, the first address and the size."""
    return struct.pack("<BBHHH8xQQ", kind, 8, 32, device, last, first, size)


def iort(*nodes: bytes) -> bytes:
    """An IORT: how many nodes there are, where they begin (48), a word, and the nodes."""
    return table(b"IORT", struct.pack("<III", len(nodes), 48, 0) + b"".join(nodes))


def node(kind: int, data: bytes, *mappings: bytes) -> bytes:
    """A node of an IORT: the type, the length, the revision, a number, how many mappings, where they begin, and its
    data."""
    return struct.pack("<BHBIII", kind, 16 + len(data) + 20 * len(mappings), 0, 0, len(mappings),
                       16 + len(data)) + data \
        + b"".join(mappings)


def rimt(*nodes: bytes) -> bytes:
    """A RIMT: how many nodes there are, where they begin (48), a word, and the nodes."""
    return table(b"RIMT", struct.pack("<III", len(nodes), 48, 0) + b"".join(nodes))


def rimt_node(kind: int, data: bytes) -> bytes:
    """A node of a RIMT: the type, the revision, the length, a word, a number, and its data."""
    return struct.pack("<BBHHH", kind, 1, 8 + len(data), 0, 0) + data


def riscv_iommu(address: int, flags: int = 0, function: int = 0) -> bytes:
    """An IOMMU of RISC-V: type 0, an identifier of eight letters, the address, flags (1: a function of PCI), a domain,
    the segment, the function, and no wires."""
    return rimt_node(0, struct.pack("<8sQIIHHHH", b"RSCV0004", address, flags, 0, 0, function, 0, 40))


def riscv_root(segment: int, *mappings: bytes) -> bytes:
    """A root complex of a RIMT: type 1, flags, a word, the segment, where the mappings begin (20), and how many there
    are."""
    return rimt_node(1, struct.pack("<IHHHH", 0, 0, segment, 20, len(mappings)) + b"".join(mappings))


def riscv_device(name: bytes, *mappings: bytes) -> bytes:
    """A platform device of a RIMT: type 2, where the mappings begin, how many there are, and the name in ACPI."""
    return rimt_node(2, struct.pack("<HH", 13 + len(name), len(mappings)) + name + b"\0" + b"".join(mappings))


def mapping(first: int, count: int, output: int, target: int, flags: int = 0) -> bytes:
    """A mapping of an IORT or a RIMT: the first number, how many less one, the first number there, the node there,
    flags."""
    return struct.pack("<IIIII", first, count - 1, output, target, flags)
