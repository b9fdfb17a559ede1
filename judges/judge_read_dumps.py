#!/usr/bin/env python3
"""Judges what `vmtables decode --list` says of dumps by a plain reader (judges/plain/lists.py), made of docs/FORMATS.md alone. It is no part of the
product: it serves the checks of judges/run.sh alone.

usage: judge_read_dumps.py PROGRAM DESCRIPTION.. [-- SEED [PERCENT]]

PROGRAM stands for ./vmtables. Each DESCRIPTION is booted by two policies. It must list, or refuse with the first fault:

- a small dump, each front of it, each of its bytes with others that tell, and its lines in other orders, twice, missing and wrong;
- the dumps of the descriptions with a few bytes changed by a seed, in anchors, structures, tables, entries and terms, most of them with sums mended;
- such dumps with a byte of their text another, missing or there twice.

The small dump has an RSDP of revision 0, too; and every fourth dump is listed with `--legacy` as well.

SEED is another seed, and PERCENT how many of the dumps that are drawn, 100 where nothing is said.

Status 0: all of this holds; 1: something doesn't, each with a line; 2: a description is none, or PROGRAM can't be run.
"""

import pathlib
import re
import sys

from calls import Comparison, Program, Seeds
from endings import Refused, ended
from every_table import mend
from made_roots import anchor_of, legacy_pointer_to, pointer_to, rsdt_of, summed, table_of, xsdt_of
from memory_dump import Memory, dump_text, number_at, read_dump
from plain.lists import LEGACY, listed

TOP = 64 << 20
SMALL_ROWS = {0x1000: xsdt_of([0x1040]), 0x1040: table_of(b"OTHR", b"ABC"), 0x1070: rsdt_of([0x1040]), 0x2000: b"\x7f\x04\0\x7f\0\0"}
POINTERS = {0xE0000: pointer_to(0x1000), 0xE0030: legacy_pointer_to(0x1070)}
BYTES = b"\x00\x09\x0a\x0d\x20/0159:@AFTaefgnz\x7f\xff"  # what a byte of a text is changed to
BOOTS = [[], ["--policy", "scatter", "--seed", "3", "--fill", "a5"]]
DRAWN = 4_000
LEAST = 3  # how often each fault of a dump must come
READ = "read"
ALSO_LEGACY = 4  # one of so many dumps is listed with the option, too

# Bytes that tell much where they are lengths, types, opcodes or characters.
TELLING = bytes.fromhex("00010203040708090f1024282c7f80fffe5c5e820a0c0d1112")


def outcome_of(wanted):
    line = re.match(r"(\w+: (?:\w+ )?fault \d)", wanted[2].decode())
    return READ if line is None else line[1]


def small_dump():
    """A dump with an anchor, an RSDP of each form, and what they lead to."""
    memory = Memory(TOP, 0)
    for address, content in {**SMALL_ROWS, **POINTERS, 0xF0000: anchor_of(0x2000, 6)}.items():
        memory.write(address, content)
    return dump_text(memory)


def changed_texts(dump):
    for size in range(len(dump)):
        yield f"the first {size} bytes", dump[:size]
    for at in range(len(dump)):
        for byte in BYTES:
            yield f"byte {at} is {byte:#04x}", dump[:at] + bytes([byte]) + dump[at + 1 :]


HEADERS = [
    *["top 03f00000 fill 00", "top 03ffffff fill 00", "top c0000000 fill 00", "top c0100000 fill 00", "top 04080000 fill 00", "top 04000010 fill 00"],
    *["top 0A000000 fill 00", "top 04000000 fill 0A", "top  4000000 fill 00", "top 04000000 fill 00 ", "top 04000000 fill 00\r", " top 04000000 fill 00"],
    *["top 07000000 fill 00", "top 04000000 fill 5f", "top 04000000 fill ff", "top 4000000 fill 00", "top 004000000 fill 00", "top 04000000 fill 0"],
    *["Top 04000000 fill 00", "top 04000000  fill 00", "end", ""],
]
ROWS = [
    *["00000010 " + "0" * 32, "000a0000 " + "0" * 32, "000a0000 " + "1" * 32, "000dfff0 " + "1" * 32, "00000011 " + "1" * 32, "000a0001 " + "1" * 32],
    "00000028 " + "1" * 32,
    *["01fffff0 " + "1" * 32, "02000000 " + "1" * 32, "03fffff0 " + "1" * 32, "04000000 " + "1" * 32, "fffffff0 " + "1" * 32, "00000000 " + "1" * 32],
    *["00000020 " + "1" * 31, "00000020 " + "1" * 33, "00000020  " + "1" * 32, "0000020 " + "1" * 32, "00000020 " + "A" * 32, "0000002A " + "1" * 32],
    *["", "zz", "end ", " end", "END", "\0end", "end\r", "en", "top 04000000 fill 00"],
]


def edited_texts(dump):
    """Other first lines, and other lines at each place; lines that are there twice, or change places; and what stands behind the end."""
    lines = dump.split(b"\n")
    for header in HEADERS:
        yield f"the first line {header!r}", b"\n".join([header.encode(), *lines[1:]])
    for row in ROWS:
        for at in (1, 2, len(lines) - 2, len(lines) - 1):
            yield f"line {at + 1} {row!r}", b"\n".join([*lines[:at], row.encode(), *lines[at:]])
            yield f"line {at + 1} is {row!r}", b"\n".join([*lines[:at], row.encode(), *lines[at + 1 :]])
    for at in range(1, len(lines) - 2):
        yield f"line {at + 1} twice", b"\n".join([*lines[: at + 1], *lines[at:]])
        yield f"line {at + 1} behind the next", b"\n".join([*lines[:at], lines[at + 1], lines[at], *lines[at + 2 :]])
        yield f"line {at + 1} missing", b"\n".join([*lines[:at], *lines[at + 1 :]])
        yield f"line {at + 1} twice, and another one bad", b"\n".join([*lines[: at + 1], *lines[at:-2], b"zz", b"end", b""])
    for more in (b"x", b"\n", b"end\n", lines[1] + b"\n", b"\0", dump):
        yield f"{more[:20]!r} behind the end", dump + more
    for content in (b"", b"\n", b"\n\n", b"end\n", b"foo", lines[0], lines[0] + b"\n", lines[0] + b"\nend\n", lines[0] + b"\nend", b"\xef\xbb\xbf" + dump):
        yield f"{content[:40]!r}", content
    yield "lines that end in two bytes", dump.replace(b"\n", b"\r\n")


class Base:
    """The memory of a dump that `boot` made, and where in it its parts stand."""

    def __init__(self, dump):
        self.memory = read_dump(dump)
        self.anchor = self.memory.find(b"_SM3_", 0xF0000, 0x100000)
        self.pointer = self.memory.find(b"RSD PTR ", 0xE0000, 0x100000)
        self.tables = [] if self.pointer is None else [*tables_of(self.memory, self.pointer)]
        self.structures = structures_of(self.memory, self.anchor)


class Drawing:
    """Changes memories of dumps by a random generator."""

    def __init__(self, draws, dumps):
        self.draws = draws
        self.bases = [Base(dump) for dump in dumps]

    def dump(self):
        base = self.draws.choice(self.bases)
        memory = base.memory.copy()
        for _ in range(self.draws.choice([1, 1, 1, 2, 3, 5])):
            self.change(memory, self.place(base))
        if self.draws.random() < 0.92:
            mend_all(memory, base)
        text = dump_text(memory)
        return self.spoilt(text) if self.draws.random() < 0.1 else text

    def change(self, memory, address):
        if memory.is_ram(address, address + 1):
            old = memory.read(address, 1, "a byte")[0]
            new = self.draws.choice([self.draws.choice(TELLING), self.draws.randrange(256), (old + self.draws.choice([-1, 1, 2, 8])) % 256])
            memory.write(address, bytes([new]))

    def place(self, base):
        """The address of a byte that tells something: of the anchor, a structure, the RSDP or a table."""
        kind = self.draws.random()
        if kind < 0.1:
            return base.anchor + self.draws.randrange(24)
        if kind < 0.45 or base.pointer is None:
            return self.draws.choice(base.structures) + self.draws.choice([0, 1, 1, 2, 4, 5, 6, 7, 8, 0x10, 0x11, 0x19, self.draws.randrange(80)])
        if kind < 0.5:
            return base.pointer + self.draws.randrange(36)
        table = self.draws.choice(base.tables)
        return table + self.offset(base.memory, table)

    def offset(self, memory, table):
        header = memory.read(table, 8, "a header")
        size = max(37, min(number_at(header, 4, 4), 70_000))
        telling = {b"FACP": [*range(36, 44), *range(132, 148)], b"APIC": [44, 45, *range(52, 80)], b"SRAT": [48, 49, *range(64, 100)], b"XSDT": range(36, size)}
        if header[:4] in telling and self.draws.random() < 0.6:
            return self.draws.choice(telling[header[:4]])
        first = 36 if header[:4] == b"DSDT" else 0
        return self.draws.choice([4, 5, 36, 43, self.draws.randrange(first, size), self.draws.randrange(first, size)])

    def spoilt(self, text):
        """A text with a byte another, missing or there twice, or without its end."""
        at = self.draws.randrange(len(text))
        match self.draws.randrange(5):
            case 0:
                return text[:at] + bytes([self.draws.choice(BYTES)]) + text[at + 1 :]
            case 1:
                return text[:at] + text[at + 1 :]
            case 2:
                return text[: at + 1] + text[at:]
            case 3:
                return text[:at] + b"\n" + text[at:]
        return text[:at]


def tables_of(memory, pointer):
    """The addresses of the tables that an RSDP leads to, those behind an FADT too."""
    root = number_at(memory.read(pointer + 24, 8, "the RSDP"), 0, 8)
    size = number_at(memory.read(root + 4, 4, "the XSDT"), 0, 4)
    yield root
    for entry in range(36, size, 8):
        table = number_at(memory.read(root + entry, 8, "an entry"), 0, 8)
        yield table
        if memory.read(table, 4, "a table") == b"FACP":
            yield from (number_at(memory.read(table + offset, 8, "a pointer"), 0, 8) for offset in (132, 140))


def structures_of(memory, at):
    """The addresses of the structures that an anchor leads to."""
    anchor = memory.read(at, 24, "the anchor")
    start, size = number_at(anchor, 16, 8), number_at(anchor, 12, 4)
    table = memory.read(start, size, "the structures")
    places, place = [], 0
    while place < size:
        places.append(start + place)
        place = table.index(b"\0\0", place + table[place + 1]) + 2
    return places


def mend_all(memory, base):
    """Sets the sums of tables, of the RSDP and of the anchor, where they stand before any change."""
    for table in base.tables:
        if memory.read(table, 4, "a table") != b"FACS":
            mend(memory, table)
    if base.pointer is not None:
        pointer = memory.read(base.pointer, 36, "the RSDP")
        memory.write(base.pointer, summed(summed(pointer[:20], 8) + pointer[20:], 32))
    memory.write(base.anchor, summed(memory.read(base.anchor, 24, "the anchor"), 5))


def booted(program, description):
    """The dumps of a description."""
    text = pathlib.Path(description).read_bytes()
    for words in BOOTS:
        boot = Program(program, "boot", *words).ended(text)
        if boot.status != 0:
            raise Refused(f"{description}: {boot.said.decode().strip()}")
        yield boot.out


def drawn_dumps(seeds, dumps):
    drawing = Drawing(seeds.draws("dumps"), dumps)
    for number in range(seeds.count(DRAWN)):
        yield f"dump {number} of seed {seeds.seed}", drawing.dump()


def all_dumps(seeds, dumps):
    small = small_dump()
    yield from [("the small dump", small), *((f"dump {number}", dump) for number, dump in enumerate(dumps))]
    yield from changed_texts(small)
    yield from edited_texts(small)
    yield from drawn_dumps(seeds, dumps)


def main(program, *words):
    at = words.index("--") if "--" in words else len(words)
    seeds = Seeds(words[at + 1 :])
    dumps = [dump for description in words[:at] for dump in booted(program, description)]
    comparison = Comparison(Program(program, "decode", "--list"), outcome_of, READ, listed)
    for number, (what, dump) in enumerate(all_dumps(seeds, dumps)):
        comparison.compare(what, dump)
        if number % ALSO_LEGACY == 0:
            comparison.compare(f"{what}, with {LEGACY}", dump, LEGACY)
    faults = [f"dump: fault {number}" for number in range(1, 7)]
    return comparison.report("dumps", comparison.lacking([READ, *faults], LEAST))


if __name__ == "__main__":
    if len(sys.argv) < 3:
        sys.exit("usage: judge_read_dumps.py PROGRAM DESCRIPTION.. [-- SEED [PERCENT]]")
    sys.exit(ended(main, sys.argv[1:]))
