#!/usr/bin/env python3
"""Cuts the first ACPI table of a signature out of a file. It serves bench/run.sh and is no part of the product.

usage: cut_table.py SIGNATURE FILE TABLE
"""

import pathlib
import sys

sys.path.append(str(pathlib.Path(__file__).resolve().parent.parent / "tools"))  # whose modules the benchmark shares

from endings import Refused, ended


def table(signature, held):
    """The bytes from the signature on, as many as the four bytes behind it tell (ACPI 6.5, 5.2.6), or None where it doesn't stand there."""
    at = held.find(signature.encode())
    return None if at < 0 else held[at : at + int.from_bytes(held[at + 4 : at + 8], "little")]


def main(signature, file, table_file):
    found = table(signature, pathlib.Path(file).read_bytes())
    if found is None:
        raise Refused(f"{file}: no table {signature} is in it")
    pathlib.Path(table_file).write_bytes(found)


if __name__ == "__main__":
    if len(sys.argv) != 4:
        sys.exit("usage: cut_table.py SIGNATURE FILE TABLE")
    sys.exit(ended(main, sys.argv[1:]))
