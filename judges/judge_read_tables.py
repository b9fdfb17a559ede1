#!/usr/bin/env python3
"""Judges what `vmtables decode --list` says of ACPI tables by a plain reader (judges/plain/tables.py), made of docs/FORMATS.md alone. It is no part
of the product: it serves the checks of judges/run.sh alone.

usage: judge_read_tables.py PROGRAM [SEED [PERCENT]]

PROGRAM stands for ./vmtables. It must list the tables, or tell the first fault with its address, of each of these memories:

- one with a table of every kind (judges/every_table.py), each byte of which is changed, with the sum of its table mended and not; with each length
  of each table and entry; and with each table at both ends of RAM, and a byte past them;
- memories at the border of each rule, made by hand (judges/hand_tables.py);
- memories of tables that a seed draws, some with a fault.

Some of them are listed with `--any`, too. SEED is another seed, and PERCENT how many of the memories that are drawn, 100 where nothing is said.

Status 0: all of this holds; 1: something doesn't, each with a line; 2: PROGRAM can't be run.
"""

import sys

from calls import Comparison, Program, Seeds
from endings import ended
from every_table import DIGITS, NAMES, PLACES, POINTER, SUM_AT, TABLES, TOP, changed, every_table, has_sum
from hand_tables import hand_memories
from made_roots import pointer_to, summed, xsdt_of
from memory_dump import Memory, dump_text
from plain.lists import ANY, listed_memory
from plain.tables import BAD_ENTRY, BAD_LENGTH, BAD_SUM, OUTSIDE_RAM, TWICE_GIVEN, WRONG_SIGNATURE, refused

READ = "read"
FAULTS = {
    OUTSIDE_RAM: "OutsideRam",
    BAD_SUM: "BadSum",
    BAD_LENGTH: "BadLength",
    BAD_ENTRY: "BadEntry",
    WRONG_SIGNATURE: "WrongSignature",
    TWICE_GIVEN: "TwiceGiven",
}
DRAWN = 60_000
LEAST = 500  # how often each outcome must come
ALSO_ANY = 16  # one of so many memories is listed with `--any`, too

# What a byte is changed to, and in which bits it is changed.
VALUES, BITS = [0x00, 0x02, 0x24, 0xFF], [0x01, 0x03, 0x80]
TERM_BYTES = bytes.fromhex("000105080a0b0c0d0e1011122e2f405b5c5e82ff")

LENGTHS = [
    *[0, 1, 8, 9, 10, 28, 35, 36, 37, 43, 44, 45, 47, 48, 49, 52, 53, 54, 55, 56, 57, 59, 60, 61, 63, 64, 65, 75, 76, 77, 92, 124, 125, 126, 275, 276],
    *[277, 1109, 0x7FFFFFEC, 0x7FFFFFFF, 0x80000000, 0xFFFFFFFF],
]
NODES = [0, 1, 2, 3, 4, 5, 31, 255, 256, 1023, 1024, 1025, 0xFFFF, 0x10000, 1 << 32, (1 << 32) + 3, 1 << 63, (1 << 64) - 1]
ENTRIES_FROM = {"APIC": 44, "SRAT": 48}
LOW_END = 0xA0000  # of RAM


def outcome_of(wanted):
    line = wanted[2].decode()
    return next((name for fault, name in FAULTS.items() if line.startswith(refused(fault, 0).line[:-16])), READ)


def sums(name, place):
    """Where a sum is mended: nowhere, and in the table itself, if it has one."""
    return [None, place] if has_sum(name) else [None]


def changed_memories():
    """Each byte of each table, with other values."""
    memory = every_table()
    for name, place, table in zip(NAMES, PLACES, TABLES):
        for at in range(len(table)):
            byte = memory.read(place + at, 1, "a byte")[0]
            for value in [*VALUES, *(byte ^ bits for bits in BITS)]:
                for mended in sums(name, place):
                    yield f"byte {at} of {name} is {value:#04x}", changed(memory, place + at, bytes([value]), mended)


def definition_memories():
    """The DSDT with each length, and with each byte of its terms another."""
    memory, place = every_table(), PLACES[NAMES.index("DSDT")]
    size = len(TABLES[NAMES.index("DSDT")])
    for length in range(36, size + 1):
        yield f"a DSDT of {length} bytes", changed(memory, place + 4, length.to_bytes(4, "little"), place)
    for at in range(36, size):
        for value in TERM_BYTES:
            yield f"byte {at} of the DSDT is {value:#04x}", changed(memory, place + at, bytes([value]), place)


def length_memories():
    """Each table with other lengths, up to the end of RAM too."""
    memory = every_table()
    for name, place, table in zip(NAMES, PLACES, TABLES):
        own = [len(table) - 1, len(table), len(table) + 1]
        for length in [*LENGTHS, *own, *(LOW_END - place + more for more in (-1, 0, 1))]:
            for mended in sums(name, place):
                yield f"{name} of {length} bytes", changed(memory, place + 4, length.to_bytes(4, "little"), mended)


def node_memories():
    """A SLIT that tells other counts of nodes."""
    memory, place = every_table(), PLACES[NAMES.index("SLIT")]
    for length in (55, 44 + (1 << 19)):
        longer = changed(memory, place + 4, length.to_bytes(4, "little"))
        for nodes in NODES:
            for mended in (None, place):
                yield f"a SLIT of {nodes} nodes", changed(longer, place + 36, nodes.to_bytes(8, "little"), mended)


def entry_memories():
    """Each entry with other types and lengths."""
    memory = every_table()
    for name, front in ENTRIES_FROM.items():
        place, table = PLACES[NAMES.index(name)], TABLES[NAMES.index(name)]
        for at in entry_places(table, front):
            for kind in range(17):
                yield f"{name}: type {kind} at {at}", changed(memory, place + at, bytes([kind]), place)
            for length in range(49):
                yield f"{name}: {length} bytes at {at}", changed(memory, place + at + 1, bytes([length]), place)


def entry_places(table, front):
    at = front
    while at < len(table):
        yield at
        at += table[at + 1]


def end_memories():
    """Each table at both ends of a piece of RAM, a byte past them, and with fewer bytes in RAM than its header has."""
    for name, digits in zip(NAMES, DIGITS):
        table = leading_nowhere(name, bytes.fromhex(digits))
        for low, high in Memory(TOP, 0).ram:
            fits = high - len(table)
            for place in (low, low - 1, fits, fits + 1, *(high - count for count in (36, 35, 8, 4, 1))):
                if place >= 0:
                    yield f"{name} at {place:#x}", led_to(name, place, table)


def leading_nowhere(name, table):
    """A table whose entries or pointers, if it has any, are zero."""
    if name == "XSDT":
        table = table[:36] + bytes(64)
    if name == "FACP":
        table = table[:36] + bytes(8) + table[44:132] + bytes(16) + table[148:]
    return summed(table, SUM_AT) if has_sum(name) else table


def led_to(name, place, table):
    """A memory with as much of a table at a place as is RAM, to which the RSDP, an FADT or the XSDT leads."""
    memory = Memory(TOP, 0)
    for at, byte in enumerate(table):
        if memory.is_ram(place + at, place + at + 1):
            memory.write(place + at, bytes([byte]))
    offset = {"FACS": 132, "DSDT": 140}.get(name)
    root = 0x10000 if place >= 0x20000 else 0x30000  # apart from the table
    fadt = root + 0x100
    if offset is not None:
        bare = leading_nowhere("FACP", TABLES[NAMES.index("FACP")])
        memory.write(fadt, summed(bare[:offset] + place.to_bytes(8, "little") + bare[offset + 8 :], SUM_AT))
    if name != "XSDT":
        memory.write(root, xsdt_of([place if offset is None else fadt]))
    memory.write(0xF0000, pointer_to(place if name == "XSDT" else root))
    return memory


# Types of entries with the lengths of their records, and two of other types; and terms, of which one isn't read.
MADT_ENTRIES = [(0, 8), (1, 12), (2, 10), (4, 6), (9, 16), (10, 12), (3, 8), (0x55, 2)]
SRAT_ENTRIES = [(0, 16), (1, 40), (2, 24), (3, 18), (0x55, 2)]
TERMS = [
    b"\x08_UID\x01",
    b"\x10\x13\\_SB_\x5b\x82\x0bPCI0\x08_UID\x00",
    b"\x08_CRS\x11\x05\x0a\x02\x79\x00",
    b"\x08_PRT\x12\x08\x02\x0b\x34\x12\x0d\x41\x00",
    b"\x10\x1b\\_SB_\x5b\x82\x13VGEN\x08ADDR\x12\x08\x02\x0c\x28\x00\x00\x00\x00",
    b"\x10\x1b\\_SB_\x5b\x82\x13VGEN\x08ADDR\x12\x08\x02\x0c\x00\x00\x0a\x00\x00",
    b"\x14\x06_INI\x00",
]
KINDS = ["FACP", "APIC", "SRAT", "SLIT", "MCFG", "HPET", "SSDT", "OTHR"]


class Drawing:
    """Draws memories by a random generator: an RSDP, a root, and the tables that it names one behind the other, most of them well formed. The root is an
    XSDT, and an FADT has 276 bytes, unless another drawing says otherwise.
    """

    root, width, pointer_to = b"XSDT", 8, staticmethod(pointer_to)

    def __init__(self, draws):
        self.draws = draws

    def fadt_size(self):
        return 276

    def is_one_of(self, count):
        return self.draws.randrange(count) == 0

    def memory(self):
        self.base = self.draws.choice([0x3064, 0x3064, 0x3064, LOW_END - self.draws.randrange(200, 2500)])
        kinds = self.draws.sample(KINDS, self.draws.randrange(len(KINDS) + 1)) + self.draws.choices(KINDS[-2:], k=self.draws.randrange(5))
        kinds += self.draws.choices(KINDS, k=1) if self.is_one_of(4) else []
        self.draws.shuffle(kinds)
        size = 36 + self.width * len(kinds)
        self.content = bytearray(size)
        entries = [self.cut(self.pushed(kind)) for kind in kinds]
        self.content[:size] = self.finished(self.root, b"".join(entry.to_bytes(self.width, "little") for entry in entries))
        if self.is_one_of(6):
            self.change()
        return self.rooted()

    def rooted(self):
        memory = Memory(TOP, 0)
        memory.write(self.base, bytes(self.content[: LOW_END - self.base]))
        memory.write(POINTER, self.pointer_to(self.cut(self.pointer(self.base))))
        return memory

    def cut(self, address):
        """The part of an address that an entry of the root has room for."""
        return address % (1 << 8 * self.width)

    def pointer(self, address):
        """An address, or seldom another one."""
        if not self.is_one_of(40):
            return address
        last = (1 << 64) - 1
        near = address + self.draws.randrange(8)
        return self.draws.choice([0, last - 63, last - self.draws.randrange(64), POINTER, self.base, near, TOP - self.draws.randrange(80), LOW_END])

    def pushed(self, kind):
        """Appends a table, with what it leads to, and returns its address."""
        place = len(self.content)
        self.content += {"FACP": self.fadt, "APIC": self.madt, "SRAT": self.srat, "SLIT": self.slit, "MCFG": self.mcfg}.get(kind, self.other)(kind)
        if kind == "FACP":
            self.content += self.facs() + self.finished(b"DSDT", self.terms())
        self.content += bytes(self.draws.randrange(3))
        return self.pointer(self.base + place)

    def finished(self, signature, body):
        """A table with its length and its sum. Seldom a letter, the length or the sum is another."""
        header = signature + (36 + len(body)).to_bytes(4, "little") + self.draws.randbytes(28)
        table = bytearray(header + body)
        if self.is_one_of(100):
            table[self.draws.randrange(4)] = ord("S")
        if self.is_one_of(24):
            table[4:8] = self.length(len(table)).to_bytes(4, "little")
        told = int.from_bytes(table[4:8], "little")
        if SUM_AT < told <= len(table) and not self.is_one_of(40):
            table[SUM_AT] = (table[SUM_AT] - sum(table[:told])) % 256
        return bytes(table)

    def length(self, size):
        return self.draws.choice([max(0, size - self.draws.randrange(8)), size + self.draws.randrange(8), self.draws.randrange(64), self.draws.getrandbits(32)])

    def fadt(self, _kind):
        size = self.fadt_size()
        body = bytearray(self.draws.randbytes(max(size, 276) - 36))
        facs = self.base + len(self.content) + size
        for narrow, wide, target in ((0, 96, facs), (4, 104, facs + 64)):
            kind = self.draws.randrange(8)
            body[narrow : narrow + 4] = (0 if kind == 0 else self.pointer(target) & 0xFFFFFFFF).to_bytes(4, "little")
            body[wide : wide + 8] = (0 if kind < 4 else self.pointer(target)).to_bytes(8, "little")
        return self.finished(b"FACP", bytes(body[: size - 36]))

    def facs(self):
        facs = bytearray(b"FACS\x40\0\0\0" + self.draws.randbytes(56))
        if self.is_one_of(20):
            facs[self.draws.randrange(8)] = self.draws.randrange(256)
        return bytes(facs)

    def terms(self):
        terms = b"".join(self.draws.choices(TERMS, k=self.draws.randrange(4)))
        return terms + (self.draws.randbytes(self.draws.randrange(16)) if self.is_one_of(8) else b"")

    def madt(self, _kind):
        return self.finished(b"APIC", self.draws.randbytes(8) + self.entries(MADT_ENTRIES, 5))

    def srat(self, _kind):
        return self.finished(b"SRAT", self.draws.randbytes(12) + self.entries(SRAT_ENTRIES, 4))

    def entries(self, kinds, most):
        return b"".join(self.entry(*self.draws.choice(kinds)) for _ in range(self.draws.randrange(most)))

    def entry(self, kind, size):
        """An entry of so many bytes, or seldom a few more. Seldom the length that it tells is another."""
        size += self.draws.randrange(8) if self.is_one_of(16) else 0
        told = self.draws.choice([size - 1, self.draws.randrange(64)]) if self.is_one_of(24) else size
        return bytes([kind, told]) + self.draws.randbytes(size - 2)

    def slit(self, _kind):
        nodes = self.draws.randrange(5)
        count = bytearray(nodes.to_bytes(8, "little"))
        if self.is_one_of(16):
            count[self.draws.randrange(8)] = self.draws.randrange(6)
        return self.finished(b"SLIT", bytes(count) + self.draws.randbytes(nodes * nodes))

    def mcfg(self, _kind):
        more = self.draws.randrange(16) if self.is_one_of(16) else 0
        return self.finished(b"MCFG", self.draws.randbytes(8 + 16 * self.draws.randrange(4) + more))

    def other(self, kind):
        return self.finished(kind.encode(), self.draws.randbytes(20 if kind == "HPET" else self.draws.randrange(8)))

    def change(self):
        """Changes up to three bytes."""
        for _ in range(self.draws.randint(1, 3)):
            self.content[self.draws.randrange(len(self.content))] = self.draws.randrange(256)


def drawn_memories(seeds):
    drawing = Drawing(seeds.draws("tables"))
    for number in range(seeds.count(DRAWN)):
        yield f"memory {number} of seed {seeds.seed}", drawing.memory()


def all_memories(seeds):
    yield "the memory of every table", every_table()
    for memories in (changed_memories, definition_memories, length_memories, node_memories, entry_memories, end_memories, hand_memories):
        yield from memories()
    yield from drawn_memories(seeds)


def main(program, *words):
    seeds = Seeds(words)
    comparison = Comparison(Program(program, "decode", "--list"), outcome_of, READ)
    for number, (what, memory) in enumerate(all_memories(seeds)):
        comparison.judge(what, dump_text(memory), listed_memory(memory))
        if number % ALSO_ANY == 0:
            comparison.judge(f"{what} {ANY}", dump_text(memory), listed_memory(memory, ANY), ANY)
    return comparison.report("memories with tables", comparison.lacking([READ, *FAULTS.values()], seeds.count(LEAST)))


if __name__ == "__main__":
    if not 2 <= len(sys.argv) <= 4:
        sys.exit("usage: judge_read_tables.py PROGRAM [SEED [PERCENT]]")
    sys.exit(ended(main, sys.argv[1:]))
