#!/usr/bin/env python3
"""Judges what `vmtables decode --list` says of SMBIOS structures by a plain reader (judges/plain/structures.py), made of docs/FORMATS.md alone. It
is no part of the product: it serves the checks of judges/run.sh alone.

usage: judge_read_structures.py PROGRAM [SEED [PERCENT]]

PROGRAM stands for ./vmtables. It must list the version, the types and the handles, or tell the first fault with its place, of each of these:

- a table with a structure of every type, each front of it, and each of its bytes with every value;
- anchors of both forms and tables at the border of each rule, made by hand, each byte of an old anchor changed, with its sums mended and not, and
  anchors beside one another, all of them listed with `--smbios2` and `--any`, too;
- structures that a seed draws, some with a fault; and bytes among which NULs, types and lengths are many.

Structures without a fault stand one behind the other, up to the next with a fault. SEED is another seed, and PERCENT how many of the inputs that are
drawn, 100 where nothing is said.

Status 0: all of this holds; 1: something doesn't, each with a line; 2: PROGRAM can't be run.
"""

import itertools
import sys

from calls import Comparison, Joined, Program, Seeds
from endings import ended
from made_roots import anchor_of, old_anchor_of, pointer_to, summed, summed_old, xsdt_of
from memory_dump import Memory, dump_text
from plain.ended import Refused
from plain.lists import ANY, SMBIOS2, listed_memory
from plain.structures import NO_END, NO_SUCH_STRING, SHORT_STRUCTURE, STRING_FIELDS, TRUNCATED, refused, structures_in

TOP = 64 << 20
POINTER, XSDT = 0xE0000, 0x1000  # of ACPI tables that name nothing
ANCHOR_AT, TABLE_AT = 0xF0000, TOP - (16 << 20)
NO_RAM = 0xA0000
SEARCHES = [(), (SMBIOS2,), (ANY,)]  # options of a list

# A structure of every type, a raw one, and the end (DSP0134, 6.1 and chapter 7). Neighbouring numbers differ, and strings are named out of their
# order, twice, or not at all.
EVERY = [
    bytes.fromhex("0018010002013412030511223344556677880a0b0c0d0e0f") + b"1.2\0FW\x0001/02/2024\0\0",
    bytes.fromhex("011b02000102000333221100554477668899aabbccddeeff060402") + b"ACME\0VM\0SN 7\0K\0\0",
    bytes.fromhex("03160300011700020303040506785634120708000904") + b"ACME\0C1\0A7\0K\0\0",
    bytes.fromhex("043004000103b3020102030405060708038d6400a00fb80b4106010702070307040506101112fc00b40009010a010b01")
    + b"CPU 0\0ACME\0V\0S1\0A1\0P1\0\0",
    bytes.fromhex("0911050001a50d040302010c0506070825") + b"PCI 1\0\0",
    bytes.fromhex("0b05060002") + b"one\0two\0three\0\0",
    bytes.fromhex("1017070003040500020408feff0201090a0b0c0d0e0f10") + b"\0\0",
    bytes.fromhex("112808000700feff48004000ff7f090b02011a8020800c030001040d010203049001b00414057805") + b"B\0A1\0M\0P\0\0",
    bytes.fromhex("131f0900010203040506070807000a11121314151617182122232425262728") + b"\0\0",
    bytes.fromhex("200b0a0000000000000085") + b"\0\0",
    bytes.fromhex("02080b0001020009") + b"\0AB\0\0",
    bytes.fromhex("7f040c00") + b"\0\0",
]
END = b"\x7f\x04\x00\x7f\0\0"

# Types with the lengths of their structures, and two types that are always raw.
SHAPES = [(0, 0x18), (1, 0x1B), (3, 0x16), (4, 0x30), (9, 0x11), (11, 5), (16, 0x17), (17, 0x28), (19, 0x1F), (32, 0x0B), (2, 6), (200, 4), (127, 4)]
USUAL = bytes([0, 0, 0, 0, 4, 4, 5, 5, 11, 11, 127, ord("A")])

DRAWN_STRUCTURES, DRAWN_BYTES = 90_000, 15_000
LEAST = 500  # how often each outcome must come

READ = "read"
FAULTS = {TRUNCATED: "Truncated", SHORT_STRUCTURE: "ShortStructure", NO_END: "NoEnd", NO_SUCH_STRING: "NoSuchString"}


def rooted():
    """A memory whose ACPI tables name nothing, so that nothing is wrong with them."""
    memory = Memory(TOP, 0)
    memory.write(POINTER, pointer_to(XSDT))
    memory.write(XSDT, xsdt_of([]))
    return memory


def memory_of(table, anchor=None, anchor_at=ANCHOR_AT, table_at=TABLE_AT):
    """A memory with a table, to which an anchor leads, another one if it is given."""
    memory = rooted()
    memory.write(table_at, table)
    memory.write(anchor_at, anchor_of(table_at, len(table)) if anchor is None else anchor)
    return memory


def outcome_of(wanted):
    line = wanted[2].decode()
    return next((name for fault, name in FAULTS.items() if line.startswith(refused(fault, 0).line[:-1])), READ)


class Tables:
    """Has the program list tables."""

    def __init__(self, program):
        self.comparison = Comparison(program, outcome_of, READ)
        self.joined = Joined(self)

    def compare(self, what, table, inputs=1):
        self.list(what, memory_of(table), inputs)

    def list(self, what, memory, inputs=1, options=()):
        self.comparison.judge(f"{what} {options}", dump_text(memory), listed_memory(memory, *options), *options, inputs=inputs)

    def add(self, what, table):
        """Adds a table to those of a call, which ends with the first that has a fault or an end."""
        self.joined.add(what, table, not goes_on(table))


def goes_on(table):
    """Whether structures may stand behind those of a table: nothing is wrong with it but that it has no end."""
    try:
        structures_in(table)
    except Refused as refusal:
        return refusal.line == refused(NO_END, 0).line
    return False


def front_inputs():
    table = b"".join(EVERY)
    for size in range(len(table) + 1):
        yield f"the first {size} bytes", table[:size]


def changed_inputs():
    """Each byte with every value, in the table with the end and, so that more may stand behind it, in the table without."""
    table = b"".join(EVERY)
    front = len(table) - len(EVERY[-1])
    for place in range(len(table)):
        for byte in range(256):
            changed = table[:place] + bytes([byte]) + table[place + 1 :]
            yield f"byte {place} is {byte:#04x}", changed[:front] if place < front else changed


def area_of(kind, length, numbers):
    """A structure's header and area with these numbers of strings, as far as its fields name some."""
    area = bytearray([kind, length, 0x34, 0x12]) + bytearray(max(0, length - 4))
    for field, number in zip(STRING_FIELDS[kind, length], numbers):
        area[field] = number
    return bytes(area)


def string_inputs():
    """Each field with the last of the strings, and with one more; strings of which the first is empty; none where two NULs follow."""
    for (kind, length), fields in STRING_FIELDS.items():
        for strings in (0, 1, 2, 254):
            text = b"".join(b"s\0" for _ in range(strings)) + b"\0" + (b"\0" if strings == 0 else b"")
            for at in range(len(fields)):
                for number in (strings, strings + 1):
                    numbers = [number if field == at else 0 for field in range(len(fields))]
                    yield f"type {kind}, field {at}, string {number} of {strings}", area_of(kind, length, numbers) + text + END
        yield f"type {kind}, the first string empty", area_of(kind, length, [2] * len(fields)) + b"\0B\0\0" + END
        yield f"type {kind}, another length", bytes([kind, length + 1, 0, 0]) + b"\x09" * (length - 3) + b"\0\0" + END


def end_inputs():
    """Tables that end early or late, and structures that are too short."""
    yield "nothing behind the end", END
    yield "bytes behind the end", END + b"\x02\x03\0"
    yield "an end of 5 bytes", b"\x7f\x05\0\0A\0\0"
    yield "an end with strings", b"\x7f\x04\0\0A\0B\0\0zzz"
    yield "an end without its NULs", END[:-1]
    for length in range(5):
        yield f"a structure of {length} bytes", bytes([2, length, 0, 0]) + b"\0\0" + END
        yield f"a structure of {length} bytes in 3", bytes([2, length, 0])
    yield "a short structure behind another", EVERY[10] + b"\x7f\x03\0\0"
    yield "no end", EVERY[10]
    yield "three bytes left", EVERY[10] + b"\x7f\x04\0"
    yield "an area past the end", bytes([2, 7, 0, 0]) + b"\0\0"
    yield "no NULs", bytes([2, 4, 0, 0]) + b"A\0B"
    yield "a raw structure of 300 strings", bytes([2, 4, 0, 0]) + b"s\0" * 300 + b"\0" + END
    yield "10,000 structures", EVERY[10] * 10_000 + END


def anchors():
    """Memories with an anchor at the border of each rule (DSP0134, 5.2.2)."""
    right = anchor_of(TABLE_AT, len(END))
    for length, at in ((0x17, 0xF8000), (0x18, 0xF8000), (0x20, 0xFFFE0), (0x21, 0xFFFE0), (0xFF, 0xFFF00), (0xFF, 0xFFF10)):
        anchor = summed((right[:6] + bytes([length]) + right[7:]).ljust(min(length, 0x100000 - at), b"\0"), 5)
        yield f"an anchor of {length:#x} bytes at {at:#x}", memory_of(END, anchor, at)
    for at in (0xE0100, 0xF0010, 0xFFFE0):
        yield f"an anchor at {at:#x}", memory_of(END, right, at)
    yield "an anchor at no multiple of 16", memory_of(END, right, 0xF0008)
    yield "a bad sum", memory_of(END, right[:5] + bytes([right[5] ^ 1]) + right[6:])
    yield "other letters", memory_of(END, summed(b"_SM2_" + right[5:], 5))
    yield "an old anchor", memory_of(END, summed(b"_SM_" + right[4:], 5))
    for version in ((0, 0, 0), (3, 255, 9), (255, 1, 255)):
        yield f"version {version}", memory_of(END, summed(right[:7] + bytes(version) + right[10:], 5))
    two = memory_of(END, summed(right[:5] + b"\0" + right[6:], 6), 0xF0000)
    two.write(0xF0020, right)
    yield "a bad anchor in front of a good one", two
    for address in (NO_RAM, (1 << 64) - 1, TOP, TOP - (32 << 20) - 1):
        yield f"a table at {address:#x}", memory_of(END, anchor_of(address, len(END)))
    for size in (0, 1, 4, 5, 6, 7, (1 << 32) - 1):
        yield f"a maximum size of {size}", memory_of(END, anchor_of(TABLE_AT, size))
    for size in (len(END), 1000):
        yield f"the end of RAM, and a maximum size of {size}", memory_of(END, anchor_of(TOP - len(END), size), table_at=TOP - len(END))
        yield f"cut by the end of RAM, {size}", memory_of(b"\x02\x04\0\0A\0", anchor_of(TOP - 6, size), table_at=TOP - 6)
    yield "no anchor", rooted()
    for fill in (0x00, 0xFF, 0x7F):
        memory = Memory(TOP, fill)
        memory.write(ANCHOR_AT, anchor_of(0x9FFF0, 1000))
        yield f"a table of fill bytes {fill:#x}", memory


def changed_old_anchors():
    """Memories with an old anchor (DSP0134 5.2.1), each byte of which is another, its sums mended or not."""
    right = old_anchor_of(TABLE_AT, len(END))
    yield "an old anchor", memory_of(END, right)
    for at, byte in enumerate(right):
        for value in {0, 1, 0x1E, 0x1F, 0x20, 0x24, byte ^ 1, byte ^ 0x80, 0xFF} - {byte}:
            changed = right[:at] + bytes([value]) + right[at + 1 :]
            yield f"byte {at} of an old anchor is {value:#04x}", memory_of(END, changed)
            yield f"byte {at} of an old anchor is {value:#04x}, mended", memory_of(END, summed_old(changed))
            yield f"byte {at} of an old anchor is {value:#04x}, its first sum mended", memory_of(END, summed(changed, 4))
            yield f"byte {at} of an old anchor is {value:#04x}, its second sum mended", memory_of(END, changed[:16] + summed(changed[16:], 5))


def old_anchors():
    """Memories with an old anchor at other places, with other numbers, and beside others."""
    right, new = old_anchor_of(TABLE_AT, len(END)), anchor_of(TABLE_AT + 0x100, len(END))
    for at in (0, 0x9FFE0, 0xE0000, 0xEFFE0, 0xEFFF0, 0xF0008, 0xF0010, 0xF0FF0, 0xFFFD0, 0xFFFE0):
        yield f"an old anchor at {at:#x}", memory_of(END, right, at)
    yield "an old anchor past the end", memory_of(END, right[:16], 0xFFFF0)
    for size in (0, 1, 4, 5, 6, 7, 0xFFFF):
        yield f"{size} bytes behind an old anchor", memory_of(END, old_anchor_of(TABLE_AT, size))
        yield f"{size} bytes of no end behind an old anchor", memory_of(EVERY[10], old_anchor_of(TABLE_AT, size))
    for address in (0, NO_RAM, NO_RAM - 6, NO_RAM - 5, TOP, TOP - 6, TOP - 5, (1 << 32) - 1):
        yield f"an old anchor that leads to {address:#x}", memory_of(END, old_anchor_of(address, len(END)))
    for version in ((0, 0), (2, 255), (255, 3)):
        yield f"an old anchor of version {version}", memory_of(END, old_anchor_of(TABLE_AT, len(END), version))
    yield "a table of 65,535 bytes", memory_of(EVERY[10] * 10_000 + END, old_anchor_of(TABLE_AT, 0xFFFF))
    wrong = [right[:4] + bytes([right[4] ^ 1]) + right[5:], new[:5] + bytes([new[5] ^ 1]) + new[6:], old_anchor_of(TABLE_AT, 5), anchor_of(TABLE_AT, 5)]
    for (first, second), between in itertools.product(itertools.product((right, new, *wrong), repeat=2), (0x20, 0x1000)):
        memory = memory_of(END, first)
        memory.write(ANCHOR_AT + between, second)
        memory.write(TABLE_AT + 0x100, END)
        yield f"{first.hex()}, and {second.hex()} {between:#x} behind it", memory


class Drawing:
    """Draws structures by a random generator, most of which have a type that is known, its length and few strings."""

    def __init__(self, draws, spoils):
        self.draws = draws
        self.spoils = spoils

    def seldom(self):
        """Whether something is to be wrong."""
        return self.draws.random() < self.spoils

    def seldom_other(self, byte):
        return self.draws.choice([self.draws.randrange(8), self.draws.randrange(256)]) if self.seldom() else byte

    def structure(self):
        kind, length = self.draws.choice(SHAPES[:-1] if self.draws.random() < 0.98 else SHAPES)
        kind, length = self.seldom_other(kind), self.seldom_other(length)
        strings = self.draws.randrange(6)
        area = bytearray([kind, length, *self.draws.randbytes(2)]) + bytearray(self.draws.randbytes(max(0, length - 4)))
        for field in STRING_FIELDS.get((kind, length), []):
            area[field] = self.draws.randint(0, strings + (1 if self.seldom() else 0))
        return bytes(area) + self.strings(strings)

    def strings(self, count):
        """So many strings and their end; one is seldom empty, and a NUL seldom missing."""
        text = b"".join(self.string() + (b"" if self.seldom() else b"\0") for _ in range(count))
        return text + (b"\0" if count == 0 else b"") + (b"" if self.seldom() else b"\0")

    def string(self):
        size = 0 if self.seldom() else self.draws.randint(1, 3)
        return bytes(self.draws.choices(range(0x41, 0x5B), k=size))

    def structures(self):
        table = b"".join(self.structure() for _ in range(self.draws.randint(1, 3)))
        return table[: -self.draws.randint(1, 16)] if self.seldom() else table

    def bytes(self):
        return bytes(self.draws.choices(USUAL, k=self.draws.randrange(24)))


def drawn_inputs(seeds, purpose, draw, count, spoils=0.02):
    drawing = Drawing(seeds.draws(purpose), spoils)
    for number in range(seeds.count(count)):
        yield f"{purpose} {number} of seed {seeds.seed}", draw(drawing)


def all_inputs(seeds):
    yield from front_inputs()
    yield from changed_inputs()
    yield from string_inputs()
    yield from end_inputs()
    yield from drawn_inputs(seeds, "structures", Drawing.structures, DRAWN_STRUCTURES)
    yield from drawn_inputs(seeds, "bytes", Drawing.bytes, DRAWN_BYTES)


def main(program, *words):
    seeds = Seeds(words)
    tables = Tables(Program(program, "decode", "--list"))
    for what, table in all_inputs(seeds):
        tables.add(what, table)
    tables.joined.give("the last ones")
    for what, memory in [*anchors(), *changed_old_anchors(), *old_anchors()]:
        for options in SEARCHES:
            tables.list(what, memory, options=options)
    return tables.comparison.report("tables of structures", tables.comparison.lacking([READ, *FAULTS.values()], seeds.count(LEAST)))


if __name__ == "__main__":
    if not 2 <= len(sys.argv) <= 4:
        sys.exit("usage: judge_read_structures.py PROGRAM [SEED [PERCENT]]")
    sys.exit(ended(main, sys.argv[1:]))
