#!/usr/bin/env python3
"""Writes the containers that `load` is measured on. It serves bench/run.sh and is no part of the product.

usage: containers.py FOLDER

`large.container` has one file of 16 MiB, all of high memory, which its script places and sums up. `random.container` has one of as many
bytes at random, whose dump has a line for each 16 of them. `many.container` has 1,000 files of 4 KiB and a script of 8,192 commands, the
most that one may have: each file is placed, and then pointers and sums follow, of one file after the other; `few.container` has a sixteenth of
these files and commands, and `written.container` is `many` with files that a guest may write. `writes.container` has as many commands as `many`,
all of which but the first, which places a file, write its place to another file of fw_cfg, and `pointers.container` as many that add its place to
a number in memory. `full.container` has as many bytes as an input may have, most of them in a file that no command names; `writable.container` is
the same, but that a guest may write that file. `install.container` has the SMBIOS files of a small machine without a script, and beside them as many
bytes as leave room for the commands that install them; `scripted.container` is the same with a script of these commands. `alone.container` has a script of
no commands and no other file. All are spelled as docs/FORMATS.md says.
"""

import pathlib
import random
import struct
import sys

sys.path.append(str(pathlib.Path(__file__).resolve().parent.parent / "tools"))  # whose modules the benchmark shares

from endings import ended, folder_of

SCRIPT = "etc/table-loader"
FIRST_SELECTOR = 0x20
MOST_COMMANDS = 8192
MANY_FILES = 1000
MOST_BYTES = 64 << 20  # of an input
ANCHOR, STRUCTURES = "etc/smbios/smbios-anchor", "etc/smbios/smbios-tables"
END_OF_TABLE = b"\x7f\x04\x00\x7f\x00\x00"


def name_field(name):
    return name.encode().ljust(56, b"\0")


def command(number, fields):
    return (struct.pack("<I", number) + fields).ljust(128, b"\0")


def allocate(name, align=16, zone=1):
    return command(1, name_field(name) + struct.pack("<IB", align, zone))


def add_pointer(dest, src):
    return command(2, name_field(dest) + name_field(src) + struct.pack("<IB", 8, 4))


def add_checksum(name, length):
    return command(3, name_field(name) + struct.pack("<III", 0, 0, length))


def write_pointer(dest, src):
    return command(4, name_field(dest) + name_field(src) + struct.pack("<IIB", 0, 0, 8))


def container(files, writable=()):
    """A container of named files, of which a guest may write some."""
    entries = [struct.pack(">IHH", len(held), FIRST_SELECTOR + at, 0) + name_field(name) for at, (name, held) in enumerate(files)]
    parts = [struct.pack(">I", len(files)), *entries, bytes(name in writable for name, _ in files), *(held for _, held in files)]
    return b"".join(parts)


def large():
    size = 16 << 20
    return container([("large", bytes(size)), (SCRIPT, allocate("large") + add_checksum("large", size))])


def at_random():
    return container([("random", random.Random(7).randbytes(16 << 20)), (SCRIPT, allocate("random", align=4096))])


def full(writable=()):
    script = (SCRIPT, b"")
    rest = MOST_BYTES - len(container([("unnamed", b""), script]))
    return container([("unnamed", bytes(rest)), script], writable)


def many(files, most, written=False):
    """A container of so many files of 4 KiB, which a guest may write or not, and of at most so many commands."""
    names = [f"file-{at:04}" for at in range(files)]
    commands = [allocate(name) for name in names]
    at = 0
    while len(commands) < most - 1:
        name = names[at % len(names)]
        commands += [add_pointer(name, names[(at + 1) % len(names)]), add_checksum(name, 4096)]
        at += 1
    return container([(name, bytes(4096)) for name in names] + [(SCRIPT, b"".join(commands))], names if written else ())


def writes():
    script = allocate("source") + (MOST_COMMANDS - 1) * write_pointer("place", "source")
    return container([("source", bytes(4096)), ("place", bytes(8)), (SCRIPT, script)], writable=("place",))


def pointers():
    script = allocate("source") + (MOST_COMMANDS - 1) * command(2, name_field("source") + name_field("source") + struct.pack("<IB", 8, 8))
    return container([("source", bytes(4096)), (SCRIPT, script)])


def smbios(scripted):
    """SMBIOS files, with a script that installs them or without one, and another file, so that all have as many bytes as an input may have."""
    anchor = struct.pack("<5sBBBBBBBIQ", b"_SM3_", 0, 24, 3, 0, 0, 1, 0, len(END_OF_TABLE), 0)
    pointer = command(2, name_field(ANCHOR) + name_field(STRUCTURES) + struct.pack("<IB", 16, 8))
    total = command(3, name_field(ANCHOR) + struct.pack("<III", 5, 0, 24))
    script = (SCRIPT, allocate(STRUCTURES) + allocate(ANCHOR, zone=2) + pointer + total)
    named = [(ANCHOR, anchor), (STRUCTURES, END_OF_TABLE)]
    rest = bytes(MOST_BYTES - len(container([*named, ("unnamed", b""), script])))
    return container([*named, ("unnamed", rest), *([script] if scripted else [])])


def main(folder):
    folder = folder_of(folder)
    (folder / "large.container").write_bytes(large())
    (folder / "random.container").write_bytes(at_random())
    (folder / "many.container").write_bytes(many(MANY_FILES, MOST_COMMANDS))
    (folder / "few.container").write_bytes(many(MANY_FILES // 16, MOST_COMMANDS // 16))
    (folder / "written.container").write_bytes(many(MANY_FILES, MOST_COMMANDS, written=True))
    (folder / "writes.container").write_bytes(writes())
    (folder / "pointers.container").write_bytes(pointers())
    (folder / "full.container").write_bytes(full())
    (folder / "writable.container").write_bytes(full(writable=("unnamed",)))
    (folder / "install.container").write_bytes(smbios(scripted=False))
    (folder / "scripted.container").write_bytes(smbios(scripted=True))
    (folder / "alone.container").write_bytes(container([(SCRIPT, b"")]))


if __name__ == "__main__":
    if len(sys.argv) != 2:
        sys.exit("usage: containers.py FOLDER")
    sys.exit(ended(main, sys.argv[1:]))
