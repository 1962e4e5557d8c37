"""A walker for each format of tables, as the manuals of the IOMMUs describe the walk. It shares no code with what
makes the tables, and looks one address up at a time.

Each takes memory, which is a function from an address to its word of 64 bits, and the values of the registers, and
answers at which address of the host an access arrives, or None if it faults."""

from typing import Callable

Read = Callable[[int], int]
"""Memory: the word of 64 bits at an address, which is a multiple of 8."""


def bits(word: int, high: int, low: int) -> int:
    """Returns the bits of a word from ``high`` down to ``low``, as manuals write them."""
    return word >> low & (1 << high - low + 1) - 1


def vtd(read: Read, registers: dict[str, int], source: int, address: int, is_write: bool) -> int | None:
    """Intel VT-d Architecture Specification, revision 3.3: the sections on the way from a source to its tables in the
    legacy mode, on root entries, 9.3 (context entry), and on second-stage translation and its paging entries."""
    root_register = registers["RTADDR_REG"]
    assert bits(root_register, 11, 10) == 0, "TTM: legacy mode"
    root = read(bits(root_register, 63, 12) * 4096 + 16 * bits(source, 15, 8))
    if not bits(root, 0, 0):                                    # P
        return None
    context = bits(root, 63, 12) * 4096 + 16 * bits(source, 7, 0)
    low, high = read(context), read(context + 8)
    if not bits(low, 0, 0):                                     # P
        return None
    assert bits(low, 3, 2) == 0, "T: untranslated requests are translated"
    assert bits(high, 23, 8) != 0, "DID 0 is reserved where CM is set"
    width = {1: 39, 2: 48, 3: 57}[bits(high, 2, 0)]             # AW
    if address >> width:
        return None
    table = bits(low, 63, 12) * 4096
    for shift in range(width - 9, 11, -9):
        entry = read(table + 8 * bits(address, shift + 8, shift))
        if not entry & (2 if is_write else 1):                  # W, R
            return None
        assert not bits(entry, 62, 52), "ignored or reserved above 2^52: left 0"
        if shift == 12 or bits(entry, 7, 7):                    # PS
            assert shift in (12, 21, 30), "pages of 4 KiB, 2 MiB and 1 GiB"
            assert not bits(entry, shift - 1, 12) if shift > 12 else True, "reserved below the address"
            return bits(entry, 51, shift) << shift | bits(address, shift - 1, 0)
        table = bits(entry, 51, 12) * 4096
    raise AssertionError("no page at the last level")


def stream_table_entry(read: Read, registers: dict[str, int], stream: int) -> int | None:
    """Returns the address of a stream table entry. Arm IHI 0070: the sections on the lookup in
    the stream table, on its level 1 descriptor, and on SMMU_STRTAB_BASE and SMMU_STRTAB_BASE_CFG."""
    config, base = registers["SMMU_STRTAB_BASE_CFG"], bits(registers["SMMU_STRTAB_BASE"], 51, 6) << 6
    form, split, log2size = bits(config, 17, 16), bits(config, 10, 6), bits(config, 5, 0)
    if stream >> log2size:
        return None
    if form == 0:
        assert base % (64 << log2size) == 0, "a linear table stands at a multiple of its size"
        return base + 64 * stream
    assert form == 1 and split in (6, 8, 10)
    assert base % max(64, 8 << max(log2size - split, 0)) == 0, "so does a table of level 1"
    descriptor = read(base + 8 * (stream >> split))
    span = bits(descriptor, 4, 0)
    if span == 0:
        return None
    assert span - 1 <= split
    table, index = bits(descriptor, 51, 6) << 6, stream & (1 << split) - 1
    assert table % (64 << span - 1) == 0, "L2Ptr is a multiple of the size that Span says"
    return table + 64 * index if index < 1 << span - 1 else None


def smmuv3_s1(read: Read, registers: dict[str, int], stream: int, address: int, is_write: bool) -> int | None:
    """Arm IHI 0070: 5.2 (stream table entry, Config 0b101), 5.4 (context descriptor). DDI 0487, chapter D8: the
    sections on descriptors of stage 1 with a granule of 4 KiB, and on permissions of an access without privilege."""
    place = stream_table_entry(read, registers, stream)
    if place is None or not bits(read(place), 0, 0):            # V
        return None
    first, second = read(place), read(place + 8)
    assert bits(first, 3, 1) == 0b101, "Config: stage 1 translates, stage 2 is passed"
    assert bits(first, 63, 59) == 0, "S1CDMax: one context descriptor"
    assert bits(second, 31, 30) == 0, "STRW: the regime of EL1"
    assert bits(second, 45, 44) == 1, "SHCFG: use incoming"
    context = bits(first, 51, 6) << 6
    low = read(context)
    if not bits(low, 31, 31):                                   # V
        return None
    assert bits(low, 41, 41) and bits(low, 7, 6) == 0 and not bits(low, 15, 15), "AA64, TG0 of 4 KiB, little-endian"
    assert bits(low, 30, 30) and not bits(low, 14, 14), "EPD1 set, EPD0 clear"
    assert bits(low, 46, 46) and not bits(low, 35, 35), "A set: faults are ended; AFFD clear: AF counts"
    assert bits(read(context + 24), 7, 0) == 0xff, "MAIR attribute 0: normal memory, written back"
    return lpae(read, bits(read(context + 8), 51, 4) << 4, 64 - bits(low, 5, 0), None, address, is_write)


def smmuv3_s2(read: Read, registers: dict[str, int], stream: int, address: int, is_write: bool) -> int | None:
    """Arm IHI 0070: 5.2 (stream table entry, Config 0b110; S2T0SZ, S2SL0, S2TG, S2AA64, S2TTB). DDI 0487, issue
    I.a: chapter D8, the section on descriptors of stage 2 with a granule of 4 KiB, and D8.2.2 (concatenated tables)."""
    place = stream_table_entry(read, registers, stream)
    if place is None or not bits(read(place), 0, 0):            # V
        return None
    assert bits(read(place), 3, 1) == 0b110, "Config: stage 1 is passed, stage 2 translates"
    word = read(place + 16)
    assert bits(word, 51, 51) and bits(word, 47, 46) == 0 and not bits(word, 52,
                                                                       52), "S2AA64, S2TG of 4 KiB, little-endian"
    assert bits(word, 58, 58) and not bits(word, 53, 53), "S2R: faults are recorded; S2AFFD clear: AF counts"
    width, start = 64 - bits(word, 37, 32), 2 - bits(word, 39, 38)
    return lpae(read, bits(read(place + 24), 51, 4) << 4, width, start, address, is_write)


def lpae(read: Read, base: int, width: int, start: int | None, address: int, is_write: bool) -> int | None:
    """Walks tables of Arm with a granule of 4 KiB; ``start`` is the level at which those of stage 2 begin, 0 to 2, and
    None for stage 1, where the width says it."""
    if address >> width:
        return None
    is_stage2 = start is not None
    level = 4 - (width - 12 + 8) // 9 if start is None else start
    shift = 39 - 9 * level
    entries = 1 << width - shift
    assert entries <= (512 * 16 if is_stage2 else 512) and entries > 1, "tables side by side: at most 16"
    assert base % (8 * max(entries, 8)) == 0, "the first table stands at a multiple of its size"
    index = address >> shift
    while True:
        descriptor = read(base + 8 * index)
        if not bits(descriptor, 0, 0):
            return None
        if level < 3 and bits(descriptor, 1, 1):
            assert not bits(descriptor, 63, 59), "attributes of a table: none"
            base = bits(descriptor, 47, 12) << 12
            level, shift = level + 1, shift - 9
            index = bits(address, shift + 8, shift)
            continue
        assert (level == 3) == bool(bits(descriptor, 1, 1)) and level > 0, "a page at level 3, a block at level 1 or 2"
        assert bits(descriptor, 10, 10), "AF"
        assert level == 3 or not bits(descriptor, shift - 1, 12), "reserved below the address of a block"
        may = permitted_stage2(descriptor) if is_stage2 else permitted_stage1(descriptor)
        return bits(descriptor, 47, shift) << shift | bits(address, shift - 1, 0) if may[is_write] else None


def permitted_stage1(descriptor: int) -> tuple[bool, bool]:
    """Returns whether AP[2:1] lets an access without privilege read, and write. Memory attribute 0 is normal memory."""
    assert bits(descriptor, 4, 2) in (0, 1) and bits(descriptor, 9, 8) == 3
    return {0b00: (False, False), 0b01: (True, True), 0b10: (False, False), 0b11: (True, False)}[bits(descriptor, 7, 6)]


def permitted_stage2(descriptor: int) -> tuple[bool, bool]:
    """Returns whether S2AP lets an access read, and write."""
    assert bits(descriptor, 5, 2) in (0b1111, 0b0001) and bits(descriptor, 9, 8) == 3
    return {0b00: (False, False), 0b01: (True, False), 0b10: (False, True), 0b11: (True, True)}[bits(descriptor, 7, 6)]


def riscv(read: Read, registers: dict[str, int], device: int, address: int, is_write: bool,
          context_bytes: int = 64) -> int | None:
    """RISC-V IOMMU Architecture Specification 1.0: 2.1 (device directory), 2.3 (the process to translate an address,
    and in it that to locate the device context). Privileged Architecture: Sv39, Sv48, Sv57."""
    pointer = registers["ddtp"]
    levels = {2: 1, 3: 2, 4: 3}[bits(pointer, 3, 0)]
    widths = [6 if context_bytes == 64 else 7, 9, 9 if context_bytes == 64 else 8]
    indexes, rest = [], device
    for width in widths[:levels]:
        indexes.append(rest & (1 << width) - 1)
        rest >>= width
    if rest:
        return None
    table = bits(pointer, 53, 10) * 4096
    for index in reversed(indexes[1:]):
        entry = read(table + 8 * index)
        if not bits(entry, 0, 0):                               # V
            return None
        assert not bits(entry, 9, 1) and not bits(entry, 63, 54), "reserved"
        table = bits(entry, 53, 10) * 4096
    context = table + context_bytes * indexes[0]
    control, second, first = read(context), read(context + 8), read(context + 24)
    if not bits(control, 0, 0):                                 # V
        return None
    assert control == 1 and bits(second, 63, 60) == 0, "no ATS, no processes, no second stage"
    mode = bits(first, 63, 60)
    levels = {8: 3, 9: 4, 10: 5}[mode]
    top = 12 + 9 * levels - 1
    if len({bits(address, bit, bit) for bit in range(top, 64)}) > 1:
        return None
    table = bits(first, 43, 0) * 4096
    for level in range(levels - 1, -1, -1):
        shift = 12 + 9 * level
        entry = read(table + 8 * bits(address, shift + 8, shift))
        valid, may_read, may_write, may_execute = (bits(entry, bit, bit) for bit in range(4))
        if not valid:
            return None
        assert may_read or not may_write, "W without R is reserved"
        assert not bits(entry, 63, 54), "reserved, or of extensions"
        if may_read or may_execute:
            assert bits(entry, 4, 4) and bits(entry, 6, 6), "U and A"
            assert not may_write or bits(entry, 7, 7), "D"
            assert not bits(entry, shift - 3, 10) if level else True, "a block stands at a multiple of its size"
            host = bits(entry, 53, 10) << 12
            return host + bits(address, shift - 1, 0) if (may_write if is_write else may_read) else None
        assert not bits(entry, 7, 4), "A, D and U of a pointer are reserved"
        table = bits(entry, 53, 10) * 4096
    return None


def amd(read: Read, registers: dict[str, int], device: int, address: int, is_write: bool) -> int | None:
    """AMD I/O Virtualization Technology Specification, 48882, revision 3.07: the sections on the device table entry, on
    page tables for host translations, and on the register Device Table Base Address."""
    base = registers["Device Table Base Address"]
    if device * 32 >= (bits(base, 8, 0) + 1) * 4096:
        return None
    place = (bits(base, 51, 12) << 12) + 32 * device
    entry = read(place)
    assert bits(entry, 1, 0) == 0b11, "V and TV: an entry without them lets all through"
    needed = 1 << (62 if is_write else 61)
    if not entry & needed:
        return None
    assert bits(read(place + 8), 15, 0) != 0
    level = bits(entry, 11, 9)                                  # Mode
    assert 1 <= level <= 6
    if level < 6 and address >> 12 + 9 * level:
        return None
    while True:
        assert not entry & 1 << 60, "FC"
        shift = 12 + 9 * (level - 1)
        entry = read((bits(entry, 51, 12) << 12) + 8 * bits(address, shift + 8, shift))
        if not bits(entry, 0, 0) or not entry & needed:         # PR, IR, IW
            return None
        following = bits(entry, 11, 9)
        if following == 0:
            assert not bits(entry, shift - 1, 12) if level > 1 else True, "a page of the level's own size"
            return bits(entry, 51, shift) << shift | bits(address, shift - 1, 0)
        assert following == level - 1, "no level is left out here"
        level = following


WALKERS: dict[str, Callable[..., int | None]] = {"vtd": vtd, "smmuv3-s1": smmuv3_s1, "smmuv3-s2": smmuv3_s2,
                                                 "riscv": riscv, "amd": amd}
