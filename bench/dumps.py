#!/usr/bin/env python3
"""Writes dumps that make much work, on which `decode` and `decode --list` are measured. It serves bench/run.sh and is no part of the product.

usage: dumps.py KIND BYTES FILE

The dump has at most BYTES bytes; an input may have 67,108,864. KIND is one of these:

  random        bytes at random, so no dump
  unbroken      a dump's first line and digits without a line feed, so no dump
  rows          rows of bytes at random, in order, as many as fit
  reverse       the same rows the other way round, of which the second is out of order
  structures    SMBIOS structures of 6 bytes each, the least that one may have, in as many rows as fit
  entries       an SRAT of entries of 2 bytes each, the least that one may have, in as many rows as fit
  fill          a MADT of entries of 3 bytes each, all of them the fill byte, so that they have no rows: up to the top of memory where BYTES is
                what an input may have, and fewer in proportion
  tables        an XSDT that names as many tables as it may, 256 where BYTES is what an input may have and fewer in proportion, one within
                the other, each up to the top of memory, which has bytes at random in as many rows as fit; each sums to zero
  legacy        the same tables, which an RSDT names, for `--legacy`
"""

import pathlib
import random
import sys

sys.path.append(str(pathlib.Path(__file__).resolve().parent.parent / "tools"))  # whose modules the benchmark shares

from endings import Refused, ended, number_of
from made_roots import HEADER, anchor_of, legacy_pointer_to, pointer_to, rsdt_of, summed, table_of, xsdt_of
from memory_dump import LOWER_WINDOW, UPPER_WINDOW_SIZE, Memory, dump_text

MOST_BYTES = 64 << 20  # of an input
LEAST_BYTES = 1 << 16  # of which each kind can be made
MOST_TABLES = 256  # of an XSDT, and of an RSDT
TOP = 64 << 20
HIGH = TOP - UPPER_WINDOW_SIZE

HEADER_LINE, ROW_LINE, END_LINE = 21, 42, 4

ANCHOR, RSDP, ROOT = 0xF0000, 0xE0000, 0x1000


def most_rows(size, others=0):
    """How many rows fit beside others."""
    return (size - HEADER_LINE - END_LINE) // ROW_LINE - others


def at_random(size):
    return random.Random(7).randbytes(size)


def unbroken(size):
    return b"top 04000000 fill 00\n".ljust(size, b"0")


def rows(size):
    memory, left = Memory(TOP, 0), 16 * most_rows(size)
    for start, end in [*LOWER_WINDOW, (HIGH, TOP)]:
        taken = min(left, end - start)
        memory.put(start, at_random(taken))
        left -= taken
    return dump_text(memory)


def reverse(size):
    first, *lines, end, behind = rows(size).split(b"\n")
    return b"\n".join([first, *reversed(lines), end, behind])


def structures(size):
    """Types that are free for anyone, and handles that count up (DSP0134 6.1.2); the last one is the end of the table."""
    taken = min(16 * most_rows(size, others=2), UPPER_WINDOW_SIZE)
    count = taken // 6
    table = bytearray(6 * count)
    numbers = range(count)
    table[0::6] = bytes(0x80 | number & 0x7F for number in numbers)
    table[1::6] = bytes([4]) * count
    table[2::6] = bytes(number & 0xFF for number in numbers)
    table[3::6] = bytes(number >> 8 & 0xFF for number in numbers)
    table[-6] = 127
    memory = Memory(TOP, 0)
    memory.write(ANCHOR, anchor_of(HIGH, len(table)))
    memory.write(HIGH, table)
    return dump_text(memory)


def with_xsdt(addresses, fill=0):
    return with_root(pointer_to(ROOT), xsdt_of(addresses), fill)


def with_rsdt(addresses):
    return with_root(legacy_pointer_to(ROOT), rsdt_of(addresses))


def with_root(pointer, root, fill=0):
    memory = Memory(TOP, fill)
    memory.write(RSDP, pointer)
    memory.write(ROOT, root)
    return memory


def entries(size):
    """Entries of a type that the standard doesn't have (ACPI 6.5, 5.2.16)."""
    memory = with_xsdt([HIGH])
    taken = min(16 * most_rows(size, others=len(memory.rows)), UPPER_WINDOW_SIZE)
    memory.write(HIGH, table_of(b"SRAT", bytes(12) + b"\xff\x02" * ((taken - 48) // 2)))
    return dump_text(memory)


def fill(size):
    """Entries of type 3 and length 3 (ACPI 6.5, 5.2.12); it stands for the NMI sources, which aren't read."""
    body = UPPER_WINDOW_SIZE * size // MOST_BYTES - HEADER.size
    memory = with_xsdt([HIGH], fill=3)
    memory.write(HIGH, table_of(b"APIC", bytes(8) + b"\3\3\3" * ((body - 8) // 3)))
    return dump_text(memory)


def nested_header(number, length):
    """The header of a table, with zeros up to the next one. Together they sum to zero, so that a table sums to what the next one does."""
    return summed(HEADER.pack(f"T{number:03}".encode(), length, 1, 0, b"NESTED", b"ONE MORE", 1, b"LIST", 1).ljust(48, b"\0"), 9)


def tables(size, rooted=with_xsdt):
    count = max(1, MOST_TABLES * size // MOST_BYTES)
    addresses = [HIGH + 48 * at for at in range(count)]
    memory = rooted(addresses)
    headers = [nested_header(number, TOP - address) for number, address in enumerate(addresses)]
    taken = min(16 * most_rows(size, others=len(memory.rows)), UPPER_WINDOW_SIZE)
    last = summed(headers[-1] + at_random(taken - 48 * count), 9)
    memory.put(HIGH, b"".join(headers[:-1]) + last)
    return dump_text(memory)


def legacy(size):
    return tables(size, with_rsdt)


KINDS = {
    "random": at_random,
    "unbroken": unbroken,
    "rows": rows,
    "reverse": reverse,
    "structures": structures,
    "entries": entries,
    "fill": fill,
    "tables": tables,
    "legacy": legacy,
}


def main(kind, size, file):
    size = number_of(size, "BYTES")
    if not LEAST_BYTES <= size <= MOST_BYTES:
        raise Refused(f"BYTES is {size}, and not {LEAST_BYTES} to {MOST_BYTES}")
    pathlib.Path(file).write_bytes(KINDS[kind](size))


if __name__ == "__main__":
    if len(sys.argv) != 4 or sys.argv[1] not in KINDS:
        sys.exit(f"usage: dumps.py {'|'.join(KINDS)} BYTES FILE")
    sys.exit(ended(main, sys.argv[1:]))
