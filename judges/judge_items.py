#!/usr/bin/env python3
"""Judges the item that `vmtables decode` tells of memories whose tables have no fault and are no machine's (docs/FORMATS.md, "What can be
described"). It is no part of the product: it serves the checks of judges/run.sh alone.

usage: judge_items.py PROGRAM DUMP

PROGRAM stands for ./vmtables. DUMP is one that `boot` made of a machine with each table. It must be described; with each of the changes below, in
which sums are mended, the item that stands beside it must be told, and `decode --list` must list the memory still. Of two changes the first item must
be told. Last, another item must be found wrong.

Status 0: all of this holds; 1: something doesn't, each with a line; 2: the dump is none, or lacks a table.
"""

import pathlib
import sys

sys.path.append(str(pathlib.Path(__file__).resolve().parent.parent / "tools"))  # whose modules the judges share

from endings import ended, refused
from listed import Listed, end_faults, list_of
from made_roots import ANCHOR, free_place, summed, table_of
from memory_dump import UPPER_WINDOW_SIZE, Memory, NotADump, NotFound, acpi_table, led_addresses, number_at, read_dump_file, root_pointer

CHECKSUM, CREATORS_REVISION = 9, 32  # offsets in a table (ACPI 6.5, 5.2.6)
POINTERS_LENGTH, POINTERS_XSDT = 36, 24  # the size of an RSDP, and where it leads to the XSDT (5.2.5.3)
FACS_SIGNATURE = 8  # of the hardware, in a FACS (5.2.10)
FIRST_DISTANCE = 44  # in an SLIT (5.2.17)
ANCHORS_MINOR, ANCHORS_SUM, ANCHORS_TABLE = 8, 5, 16  # offsets in an anchor (DSP0134 5.2.2)
HANDLE = 2  # offset in a structure (6.1.2)

# The items of the tables that an XSDT names, and of what an FADT leads to.
ITEMS = {b"XSDT": 3, b"FACP": 4, b"FACS": 4, b"DSDT": 5, b"APIC": 6, b"SRAT": 7, b"SLIT": 8, b"MCFG": 9, b"HPET": 10}


def table_places(memory):
    """The address of each table by its signature."""
    xsdt = number_at(root_pointer(memory), POINTERS_XSDT, 8)
    root = acpi_table(memory, xsdt)
    named = [number_at(root, entry, 8) for entry in range(36, len(root), 8)]
    led = [address for table in named for address in led_addresses(acpi_table(memory, table)) if memory.read(table, 4, "a signature") == b"FACP"]
    return {memory.read(address, 4, "a signature"): address for address in [xsdt, *named, *led]}


def with_table_bit(memory, address, offset):
    """The memory with the lowest bit of a byte of a table flipped, whose bytes still sum to zero. A FACS has no sum."""
    other, table = memory.copy(), bytearray(acpi_table(memory, address))
    table[offset] ^= 1
    other.write(address, bytes(table) if table[:4] == b"FACS" else summed(table, CHECKSUM))
    return other


def anchor_place(memory):
    return memory.find(b"_SM3_", 0xF0000, 0x100000)


def with_minor_version(memory):
    other, place = memory.copy(), anchor_place(memory)
    anchor = bytearray(memory.read(place, ANCHOR.size, "the anchor"))
    anchor[ANCHORS_MINOR] ^= 1
    other.write(place, summed(anchor, ANCHORS_SUM))
    return other


def with_handle(memory):
    """The memory with another handle of the first structure."""
    return memory.flipped(number_at(memory.read(anchor_place(memory) + ANCHORS_TABLE, 8, "an address"), 0, 8) + HANDLE)


def with_other_table(memory):
    """The memory with one more entry of the XSDT, which stands elsewhere then, and names a table of no known signature."""
    other, at = memory.copy(), memory.find(b"RSD PTR ", 0xE0000, 0x100000)
    high = memory.top - UPPER_WINDOW_SIZE
    table = table_of(b"OTHR", b"")
    place = free_place(other, high, memory.top, len(table))
    other.write(place, table)
    root = bytearray(acpi_table(memory, number_at(root_pointer(memory), POINTERS_XSDT, 8)) + place.to_bytes(8, "little"))
    root[4:8] = len(root).to_bytes(4, "little")
    place = free_place(other, high, memory.top, len(root))
    other.write(place, summed(root, CHECKSUM))
    pointer = memory.read(at, POINTERS_LENGTH, "the RSDP")
    pointer = pointer[:POINTERS_XSDT] + place.to_bytes(8, "little") + pointer[POINTERS_XSDT + 8 :]
    other.write(at, summed(pointer, 32))
    return other


def cases(memory):
    """What is changed, the memory with that, and the item that is to be told."""
    places = table_places(memory)
    lacking = ITEMS.keys() - places.keys()
    if lacking:
        raise NotFound(f"the memory has no {b', '.join(sorted(lacking)).decode()}")
    for signature, item in ITEMS.items():
        offset = FACS_SIGNATURE if signature == b"FACS" else CREATORS_REVISION
        changed = with_table_bit(memory, places[signature], offset)
        yield f"another {signature.decode()}", changed, item
        yield f"another {signature.decode()}, and another table", with_other_table(changed), item
        yield f"another {signature.decode()}, and another handle", with_handle(changed), 2
    yield "a node that is far from itself", with_table_bit(memory, places[b"SLIT"], FIRST_DISTANCE), 0
    yield "another version of SMBIOS", with_minor_version(memory), 1
    yield "memory without an anchor", Memory(memory.top, 0), 1
    yield "another handle", with_handle(memory), 2
    yield "another table", with_other_table(memory), 11


def line_of(item):
    return f"tables: not this profile, item {item}"


def case_faults(program, what, memory, item):
    yield from (f"{what}: {fault}" for fault in end_faults(list_of(program, memory, options=()), 7, line_of(item)))
    if list_of(program, memory).status != 0:
        yield f"{what}: the memory isn't listed"
    if not [*end_faults(Listed(7, "", f"{line_of(item + 1)}\n"), 7, line_of(item))]:
        yield f"no judge: {what}: it finds nothing wrong with another item"


def judge(program, memory):
    """Prints what is wrong, or what is right; returns the status."""
    tried = [*cases(memory)]
    described = list_of(program, memory, options=())
    faults = [] if described.status == 0 else [f"the dump: status {described.status}: {described.said.strip()}"]
    faults += [fault for case in tried for fault in case_faults(program, *case)]
    for line in faults or [f"memories that are no machine's: {len(tried)}, each told by its item"]:
        print(line)
    return 1 if faults else 0


def main(program, dump):
    try:
        return judge(program, read_dump_file(dump))
    except (OSError, NotADump, NotFound) as refusal:
        return refused(refusal)


if __name__ == "__main__":
    if len(sys.argv) != 3:
        sys.exit("usage: judge_items.py PROGRAM DUMP")
    sys.exit(ended(main, sys.argv[1:]))
