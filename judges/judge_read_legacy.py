#!/usr/bin/env python3
"""Judges what `vmtables decode --list --legacy` and `--any` say of ACPI tables by a plain reader (judges/plain/tables.py), made of docs/FORMATS.md alone.
It is no part of the product: it serves the checks of judges/run.sh alone.

usage: judge_read_legacy.py PROGRAM [SEED [PERCENT]]

PROGRAM stands for ./vmtables. It must list the tables, or tell the first fault with its address, of each of these memories, in which an RSDP of 20 bytes
leads to an RSDT (ACPI 6.5, 5.2.5.3 and 5.2.7):

- small ones, whose FADT leads to a FACS and a DSDT by its pointers of 4 bytes and to others by those of 8; each byte of the RSDP, and of what stands
  behind it, of the RSDT and of the FADT is changed, with sums mended and not;
- those with each length of the FADT from none to behind its last field, and with lengths of the RSDT around those of its form;
- RSDPs of other revisions, sums and places, beside one another and beside one of revision 2, and where they lead;
- tables of each kind that a seed draws, some with a fault, behind an RSDT, whose FADTs have any length.

Some of them are listed without `--legacy`, too, some with `--any`, and those of RSDPs beside one another with both; and so are drawn tables behind an
XSDT, whose FADTs have any length, with `--any`. SEED is another seed, and PERCENT how many of the memories that are drawn, 100 where nothing is said:
2000 has 100,000 of them.

Status 0: all of this holds; 1: something doesn't, each with a line; 2: PROGRAM can't be run.
"""

import sys

from calls import Comparison, Program, Seeds
from endings import ended
from every_table import SUM_AT, TOP, changed
from judge_read_tables import BITS, FAULTS, READ, VALUES, Drawing, outcome_of
from made_roots import LEGACY_POINTER, legacy_pointer_to, pointer_to, rsdt_of, summed, table_of, xsdt_of
from memory_dump import Memory, dump_text
from plain.lists import ANY, LEGACY, listed_memory

NO_RAM = 0xA0000
POINTER_SUM_AT = 8

# Where the tables of the small memories stand: the RSDP, the RSDT, the FADT, what that leads to by 4 bytes and by 8, and one more table.
POINTER, RSDT, FADT, FACS, WIDE_FACS, DSDT, WIDE_DSDT, OTHER = 0xF0000, 0x3024, 0x4008, 0x5000, 0x5100, 0x6004, 0x6103, 0x7000
SMALL = [116, 140, 244]  # bytes of the FADT
MOST_FADT = 280  # up to which it has each length
HUGE = [1 << 16, (1 << 31) - 1, 1 << 31, (1 << 32) - 1]

DRAWN = 5_000
DRAWN_ANY = 2_500
LEAST = 40  # how often each outcome must come
ALSO_PLAIN, ALSO_ANY = 16, 4  # one of so many memories is listed without the option, too, and one with `--any`


def facs():
    return b"FACS" + (64).to_bytes(4, "little") + bytes(range(56))


def fadt_of(length):
    """An FADT of so many bytes, in which neighbouring ones differ; behind its last field stand zeros."""
    body = bytearray((7 * at + 3) % 256 for at in range(36, 276)) + bytes(max(0, length - 276))
    for offset, size, address in ((36, 4, FACS), (40, 4, DSDT), (132, 8, WIDE_FACS), (140, 8, WIDE_DSDT)):
        body[offset - 36 : offset - 36 + size] = address.to_bytes(size, "little")
    return table_of(b"FACP", bytes(body[: length - 36]))


def with_tables():
    """A memory with all tables but the FADT. Of both DSDTs the one that 8 bytes lead to spells no terms, which is listed."""
    memory = Memory(TOP, 0)
    memory.write(POINTER, legacy_pointer_to(RSDT))
    memory.write(RSDT, rsdt_of([FADT, 0, OTHER]))
    for place in (FACS, WIDE_FACS):
        memory.write(place, facs())
    for place, table in ((DSDT, table_of(b"DSDT", b"")), (WIDE_DSDT, table_of(b"DSDT", b"\xa5")), (OTHER, table_of(b"SSDT", b"a"))):
        memory.write(place, table)
    return memory


def small_memory(length):
    """The memory with an FADT of so many bytes, behind which others stand."""
    memory = with_tables()
    memory.write(FADT, fadt_of(length) + b"\xa5" * 40)
    return memory


def repointed(memory, at, content):
    """A memory with other bytes in the RSDP, whose 20 bytes sum to zero."""
    other = changed(memory, POINTER + at, content)
    pointer = other.read(POINTER, LEGACY_POINTER.size, "the RSDP")
    other.write(POINTER, summed(pointer, POINTER_SUM_AT))
    return other


def byte_values(memory, address):
    byte = memory.read(address, 1, "a byte")[0]
    return {*VALUES, *(byte ^ bits for bits in BITS)}


def changed_memories():
    """Each byte of the RSDP, of 16 behind it, of the RSDT and of the FADT another."""
    for length in SMALL:
        memory = small_memory(length)
        yield f"an FADT of {length} bytes", memory
        for place, size in [(RSDT, 48), (FADT, length)] if length != SMALL[0] else [(POINTER, 36), (RSDT, 48), (FADT, length)]:
            for at in range(size):
                for value in byte_values(memory, place + at):
                    what = f"byte {at} at {place:#x} is {value:#04x}, of an FADT of {length} bytes"
                    yield what, changed(memory, place + at, bytes([value]))
                    yield f"{what}; mended", mended(memory, place, at, bytes([value]))


def mended(memory, place, at, content):
    return repointed(memory, at, content) if place == POINTER else changed(memory, place + at, content, place)


def length_memories():
    """The FADT and the RSDT with other lengths, the sum of which is mended or not; and FADTs that end with their length."""
    memory = small_memory(MOST_FADT)
    for length in [*range(MOST_FADT + 1), *HUGE]:
        for table in (None, FADT):
            yield f"an FADT that tells {length} bytes", changed(memory, FADT + 4, length.to_bytes(4, "little"), table)
    for length in range(36, MOST_FADT + 1):
        yield f"an FADT of {length} bytes", small_memory(length)
    for place in (36, 40, 132, 140):
        yield from pointer_memories(place, 4 if place < 132 else 8)
    memory = small_memory(116)
    for length in [*range(64), *range(1056, 1072), *HUGE]:
        for table in (None, RSDT):
            yield f"an RSDT that tells {length} bytes", changed(memory, RSDT + 4, length.to_bytes(4, "little"), table)


def pointer_memories(place, size):
    """One of the FADT's pointers zero, or leading to what isn't there, with the lengths around its end."""
    for length in (116, place + size - 1, place + size, 244, 276):
        if length >= 116:
            for address in (0, NO_RAM, 0x12340, TOP - 48, TOP - 36, TOP - 35, (1 << 8 * size) - 64):
                what = f"{address:#x} in {size} bytes at {place} of an FADT of {length} bytes"
                yield what, changed(small_memory(length), FADT + place, address.to_bytes(size, "little")[: max(0, length - place)], FADT)


def root_memories():
    """RSDTs of other sizes and signatures, and what they name."""
    other = table_of(b"SSDT", b"")
    for count in (0, 1, 255, 256, 257):
        yield f"{count} entries of zero", rooted(rsdt_of([0] * count))
        yield f"{count} entries of one table", rooted(rsdt_of([OTHER] * count), other)
        yield f"{count} entries, of which the last names a table", rooted(rsdt_of([0] * max(0, count - 1) + [OTHER]), other)
    for root in (xsdt_of([OTHER]), table_of(b"RSDT", bytes(5)), table_of(b"XSDT", bytes(5)), table_of(b"rsdt", bytes(4)), rsdt_of([OTHER])[:-1] + b"\1"):
        yield f"an RSDT {root.hex()}", rooted(root, other)
    for entry in (1, NO_RAM, RSDT, TOP - 36, TOP - 35, TOP, (1 << 32) - 1, (1 << 32) - 36):
        yield f"an entry {entry:#x}", rooted(rsdt_of([entry, OTHER]), other)
    for signature in (b"RSDT", b"XSDT", b"DSDT", b"FACS", b"FACP"):
        yield f"an entry of {signature}", rooted(rsdt_of([OTHER, OTHER]), table_of(signature, bytes(80)))
    for address in (0, NO_RAM, NO_RAM - 36, NO_RAM - 40, TOP - 40, TOP - 36, TOP - 35, TOP, (1 << 32) - 1):
        memory = rooted(rsdt_of([OTHER]), other, address)
        yield f"an RSDT at {address:#x}", memory


def rooted(root, other=b"", address=RSDT):
    """A memory with a root, as far as it is RAM, and a table that it may name."""
    memory = Memory(TOP, 0)
    memory.write(POINTER, legacy_pointer_to(address))
    for at, byte in enumerate(root):
        if memory.is_ram(address + at, address + at + 1):
            memory.write(address + at, bytes([byte]))
    memory.write(OTHER, other)
    return memory


def root_pointers():
    """RSDPs of other revisions, sums and places, and beside one another."""
    bare = Memory(TOP, 0)
    bare.write(RSDT, rsdt_of([]))
    bare.write(0x8000, xsdt_of([]))
    right, two = legacy_pointer_to(RSDT), pointer_to(0x8000)
    for place in (0, NO_RAM - 32, 0xE0000, 0xE0010, 0xF0008, 0xF0004, 0xFFFD0, 0xFFFE0, 0xFFFE8, 0xFFFEC):
        yield f"an RSDP at {place:#x}", changed(bare, place, right)
    yield "an RSDP past the end", changed(bare, 0xFFFF0, right[:16])
    for revision in range(256):
        yield f"revision {revision}", changed(bare, POINTER, legacy_pointer_to(RSDT, revision))
    for behind in (b"\xff" * 16, b"\1", two[20:]):
        yield f"{behind.hex()} behind it", changed(bare, POINTER, right + behind)
    wrong = [right[:8] + bytes([right[8] ^ 1]) + right[9:], legacy_pointer_to(RSDT, 2), b"rsd ptr " + right[8:], two]
    nowhere = legacy_pointer_to(NO_RAM, 1)
    for first in (*wrong, right, nowhere):
        for second in (*wrong, right, nowhere):
            for between in (0x20, 0x30, 0x10000):
                yield f"{first.hex()}, and {second.hex()} {between:#x} behind it", changed(changed(bare, 0xE0000, first), 0xE0000 + between, second)


class ShortDrawing(Drawing):
    """Draws memories with an XSDT, whose FADTs are of any length."""

    def fadt_size(self):
        return self.draws.choice([116, 116, 244, 244, 276, self.draws.randrange(130, 150), self.draws.randrange(108, MOST_FADT)])


class LegacyDrawing(ShortDrawing):
    """The same with an RSDT."""

    root, width, pointer_to = b"RSDT", 4, staticmethod(legacy_pointer_to)


def drawn_memories(seeds, drawing, count):
    for number in range(seeds.count(count)):
        yield f"memory {number} of seed {seeds.seed}", drawing.memory()


def all_memories(seeds):
    for memories in (changed_memories, length_memories, root_memories):
        yield from memories()
    yield from drawn_memories(seeds, LegacyDrawing(seeds.draws("legacy tables")), DRAWN)


def main(program, *words):
    seeds = Seeds(words)
    comparison = Comparison(Program(program, "decode", "--list"), outcome_of, READ)

    def compare(what, memory, *options):
        comparison.judge(f"{what} {options}", dump_text(memory), listed_memory(memory, *options), *options)

    for number, (what, memory) in enumerate(all_memories(seeds)):
        compare(what, memory, LEGACY)
        if number % ALSO_PLAIN == 0:
            compare(what, memory)
        if number % ALSO_ANY == 0:
            compare(what, memory, ANY)
    for what, memory in root_pointers():
        for options in ((LEGACY,), (), (ANY,)):
            compare(what, memory, *options)
    for what, memory in drawn_memories(seeds, ShortDrawing(seeds.draws("short FADTs")), DRAWN_ANY):
        compare(what, memory, ANY)
    return comparison.report("memories with legacy tables", comparison.lacking([READ, *FAULTS.values()], LEAST))


if __name__ == "__main__":
    if not 2 <= len(sys.argv) <= 4:
        sys.exit("usage: judge_read_legacy.py PROGRAM [SEED [PERCENT]]")
    sys.exit(ended(main, sys.argv[1:]))
