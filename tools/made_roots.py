"""A root pointer of revision 2 and an XSDT (ACPI 6.5, 5.2.5.3 and 5.2.8) to put into a memory, or one of revision 0 and an RSDT (5.2.7), tables for
it to name (5.2.6), and SMBIOS anchors (DSP0134 3.0.0, 5.2.2 and 5.2.1): what the judges of lists and the benchmark share.
"""

import struct

from memory_dump import UPPER_WINDOW_SIZE, NotFound, byte_sum

HEADER = struct.Struct("<4sIBB6s8sI4sI")
POINTER = struct.Struct("<8sB6sBIIQB3x")
LEGACY_POINTER = struct.Struct("<8sB6sBI")
ANCHOR = struct.Struct("<5sBBBBBBxIQ")
OLD_ANCHOR = struct.Struct("<4sBBBBHB5x5sBHIHB")
OLD_RANGE = 0x10  # from where on the last bytes of an old anchor have a sum of their own

MAKER, MAKERS_TABLE, CREATOR = b"JUDGES", b"OF LISTS", b"LIST"


def summed(content, sum_at):
    """The bytes with one of them such that they sum to zero."""
    content = bytearray(content)
    content[sum_at] = (content[sum_at] - byte_sum(content)) % 256
    return bytes(content)


def table_of(signature, body):
    header = HEADER.pack(signature, HEADER.size + len(body), 1, 0, MAKER, MAKERS_TABLE, 1, CREATOR, 1)
    return summed(header + body, 9)


def xsdt_of(entries):
    return table_of(b"XSDT", b"".join(entry.to_bytes(8, "little") for entry in entries))


def pointer_to(xsdt):
    pointer = POINTER.pack(b"RSD PTR ", 0, MAKER, 2, 0, POINTER.size, xsdt, 0)
    return summed(summed(pointer[:20], 8) + pointer[20:], 32)


def rsdt_of(entries):
    return table_of(b"RSDT", b"".join(entry.to_bytes(4, "little") for entry in entries))


def legacy_pointer_to(rsdt, revision=0):
    return summed(LEGACY_POINTER.pack(b"RSD PTR ", 0, MAKER, revision, rsdt), 8)


def anchor_of(table, size):
    return summed(ANCHOR.pack(b"_SM3_", 0, ANCHOR.size, 3, 0, 0, 1, size, table), 5)


def old_anchor_of(table, size, version=(2, 8)):
    content = OLD_ANCHOR.pack(b"_SM_", 0, OLD_ANCHOR.size, *version, 0, 0, b"_DMI_", 0, size, table, 0, 0)
    return summed_old(content)


def summed_old(anchor):
    """An old anchor with both of its sums right. Bytes behind it stay."""
    front, more = anchor[: OLD_ANCHOR.size], anchor[OLD_ANCHOR.size :]
    return summed(front[:OLD_RANGE] + summed(front[OLD_RANGE:], 5), 4) + more


def free_place(memory, start, end, size):
    """The least multiple of 16 in a range from which so many bytes stand where memory holds its fill byte alone, row by row."""
    taken = (size + 15) // 16 * 16
    for place in range(start, end - taken + 1, 16):
        if not any(row in memory.rows for row in range(place, place + taken, 16)):
            return place
    raise NotFound(f"no place for {size} bytes is free in {start:#x} to {end:#x}")


def put_root(memory, entries):
    """Has a root pointer lead to an XSDT of these entries, both where nothing stands."""
    xsdt = xsdt_of(entries)
    place = free_place(memory, memory.top - UPPER_WINDOW_SIZE, memory.top, len(xsdt))
    memory.write(place, xsdt)
    memory.write(free_place(memory, 0xE0000, 0x100000, POINTER.size), pointer_to(place))
