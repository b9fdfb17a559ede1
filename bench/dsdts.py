#!/usr/bin/env python3
"""Writes dumps with a great DSDT, on which `decode` and `decode --list` are measured. It serves bench/run.sh and is no part of the product.

usage: dsdts.py KIND BYTES FILE

The DSDT has at most BYTES bytes, and an FADT leads to it. KIND is one of these:

  names    names of words, one after the other
  short    names of zeros, one after the other, which is the least that a term may have: 6 bytes each
  buffer   one name of a buffer of zeros
  zeros    one package of zeros, more than a package may have, which is told once all of them are read
  scopes   scopes that nest as deep as they may, each of which holds the next one and nothing else; the last holds empty scopes
"""

import itertools
import pathlib
import sys

sys.path.append(str(pathlib.Path(__file__).resolve().parent.parent / "tools"))  # whose modules the benchmark shares

from aml import LEVELS, VALUES, length_of, name_of, segments
from dumps import HIGH, with_xsdt
from endings import Refused, ended, number_of
from made_roots import HEADER, table_of
from memory_dump import UPPER_WINDOW_SIZE, dump_text

FADT = 0x2000
FADT_LENGTH, X_DSDT = 276, 140  # the least length of an FADT, and where the address of its DSDT stands (ACPI 6.5, 5.2.9)
MOST_VALUES = 255  # of a package
LEAST_BYTES = 1 << 10  # of which each kind can be made


def names(size):
    value = VALUES["names"]
    return b"".join(name_of(segment, value) for segment in itertools.islice(segments(), size // (5 + len(value))))


def short(size):
    return name_of(b"ZERO", b"\0") * (size // 6)


def buffer(size):
    body = b"\x0c" + (size - 32).to_bytes(4, "little") + bytes(size - 32)
    return name_of(b"DATA", b"\x11" + length_of(len(body)) + body)


def zeros(size):
    """A package of the most values by its count, and of zeros up to the end by its length."""
    body = bytes([MOST_VALUES]) + bytes(size - 16)
    return name_of(b"ZERO", b"\x12" + length_of(len(body)) + body)


def scope(terms):
    body = b"\\_SB_" + terms
    return b"\x10" + length_of(len(body)) + body


def scopes(size):
    empty, outer = scope(b""), len(scope(bytes(size)))  # an outer scope takes at most so many bytes
    terms = empty * ((size - (LEVELS - 1) * (outer - size)) // len(empty))
    for _ in range(LEVELS - 1):
        terms = scope(terms)
    return terms


KINDS = {"names": names, "short": short, "buffer": buffer, "zeros": zeros, "scopes": scopes}


def dump(terms):
    """A memory with an XSDT that names an FADT, and that leads to a DSDT of these terms."""
    memory = with_xsdt([FADT])
    fadt = bytearray(FADT_LENGTH - HEADER.size)
    fadt[X_DSDT - HEADER.size : X_DSDT - HEADER.size + 8] = HIGH.to_bytes(8, "little")
    memory.write(FADT, table_of(b"FACP", bytes(fadt)))
    memory.write(HIGH, table_of(b"DSDT", terms))
    return dump_text(memory)


def main(kind, size, file):
    size = number_of(size, "BYTES")
    if not LEAST_BYTES <= size <= UPPER_WINDOW_SIZE:
        raise Refused(f"BYTES is {size}, and not {LEAST_BYTES} to {UPPER_WINDOW_SIZE}")
    pathlib.Path(file).write_bytes(dump(KINDS[kind](size - HEADER.size)))


if __name__ == "__main__":
    if len(sys.argv) != 4 or sys.argv[1] not in KINDS:
        sys.exit(f"usage: dsdts.py {'|'.join(KINDS)} BYTES FILE")
    sys.exit(ended(main, sys.argv[1:]))
