#!/usr/bin/env python3
"""Writes AML terms on which their reader and writer are measured, and the same as a DSDT for iasl. It serves bench/run.sh and is no part of
the product.

usage: aml.py KIND BYTES TERMS TABLE

The terms have at most BYTES bytes. KIND is one of these:

  names      names of words, one after the other
  packages   names of packages that nest as deep as they may, each with a number and the next one
"""

import itertools
import pathlib
import sys

sys.path.append(str(pathlib.Path(__file__).resolve().parent.parent / "tools"))  # whose modules the benchmark shares

from endings import ended, number_of

LEVELS = 16
LEADS, CHARS = b"ABCDEFGHIJKLMNOPQRSTUVWXYZ_", b"ABCDEFGHIJKLMNOPQRSTUVWXYZ0123456789_"


def segments():
    """Segments of names that differ."""
    for lead, *others in itertools.product(LEADS, CHARS, CHARS, CHARS):
        yield bytes([lead, *others])


def name_of(segment, value):
    return b"\x08" + segment + value


def length_of(body):
    """The shortest package length of a body of so many bytes (ACPI 6.5, 20.2.4)."""
    if body + 1 < 0x40:
        return bytes([body + 1])
    more = next(more for more in (1, 2, 3) if body + 1 + more < 1 << 4 + 8 * more)
    total = body + 1 + more
    return bytes([more << 6 | total % 16]) + (total // 16).to_bytes(more, "little")


def nested(levels):
    if levels == 0:
        return b"\x0a\x05"
    body = b"\x02\x0b\x34\x12" + nested(levels - 1)
    return b"\x12" + length_of(len(body)) + body


VALUES = {"names": b"\x0b\x34\x12", "packages": nested(LEVELS)}


def table_of(terms):
    header = bytearray(b"DSDT" + (36 + len(terms)).to_bytes(4, "little") + b"\x02\x00VMTABLBENCH   " + bytes(12))
    table = header + terms
    table[9] = -sum(table) % 256
    return bytes(table)


def main(kind, size, terms_file, table_file):
    value = VALUES[kind]
    count = number_of(size, "BYTES") // (5 + len(value))
    terms = b"".join(name_of(segment, value) for segment in itertools.islice(segments(), count))
    pathlib.Path(terms_file).write_bytes(terms)
    pathlib.Path(table_file).write_bytes(table_of(terms))


if __name__ == "__main__":
    if len(sys.argv) != 5 or sys.argv[1] not in VALUES:
        sys.exit(f"usage: aml.py {'|'.join(VALUES)} BYTES TERMS TABLE")
    sys.exit(ended(main, sys.argv[1:]))
