"""Memories with ACPI tables at the border of each rule of docs/FORMATS.md ("How tables are read"), made by hand: pairs of what each is and the
memory. What the judge of tables has listed.
"""

import struct

from made_roots import pointer_to, summed, table_of, xsdt_of
from memory_dump import Memory
from plain.terms import LEVELS, with_length, written_integer

TOP = 64 << 20
HIGH = TOP - (16 << 20)
POINTER, XSDT, FACS, DSDT, FIRST = 0xF0000, HIGH, HIGH + 0x20000, HIGH + 0x30000, HIGH + 0x40000
NO_RAM = 0xA0000
LAST = (1 << 64) - 1
SUM_AT = 9

# What stands behind the header of each table that has as little as it may.
LEAST = {b"FACP": bytes(240), b"APIC": bytes(8), b"SRAT": bytes(12), b"SLIT": bytes(8), b"MCFG": bytes(8), b"HPET": bytes(20)}


def told_table(signature, body, length):
    """A table that tells a length, and sums to zero over so many of its bytes where it has them."""
    table = table_of(signature, body)
    table = table[:4] + length.to_bytes(4, "little") + table[8:]
    return summed(table[:length], SUM_AT) + table[length:] if SUM_AT < length <= len(table) else table


def rooted(tables, pointer=None, xsdt=None, pointer_at=POINTER):
    """A memory with tables that an XSDT names. A number in place of a table is an entry alone."""
    memory = Memory(TOP, 0)
    memory.write(pointer_at, pointer_to(XSDT) if pointer is None else pointer)
    entries, at = [], FIRST
    for table in tables:
        if isinstance(table, int):
            entries.append(table)
        else:
            memory.write(at, table)
            entries.append(at)
            at += (len(table) + 63) // 64 * 64
    memory.write(XSDT, xsdt_of(entries) if xsdt is None else xsdt)
    return memory


def pointers():
    """Root pointers of other revisions, lengths and places, and where they lead."""
    other = table_of(b"SSDT", b"")
    for place in (0xE0000, 0xE0010, 0xFFFD0):
        yield f"an RSDP at {place:#x}", rooted([other], pointer_at=place)
    for place in (0xFFFE0, 0xFFFF0):
        yield f"an RSDP at {place:#x}, past the end", rooted([other], pointer_to(XSDT)[: 0x100000 - place], pointer_at=place)
    yield "an RSDP at no multiple of 16", rooted([other], pointer_at=0xF0008)
    for revision in (0, 1, 2, 255):
        yield f"revision {revision}", rooted([other], repointed(15, bytes([revision])))
    for at in range(36):
        pointer = pointer_to(XSDT)
        yield f"byte {at} of an RSDP flipped", rooted([other], pointer[:at] + bytes([pointer[at] ^ 1]) + pointer[at + 1 :])
        yield f"byte {at} of an RSDP changed", rooted([other], repointed(at, bytes([pointer[at] ^ 1])))
    for at in (8, 19, 20, 32, 35):
        yield f"the first sum of an RSDP, by byte {at}", rooted([other], with_one_sum(at, 20))
        yield f"the second sum of an RSDP, by byte {at}", rooted([other], with_one_sum(at, 36))
    yield "a maker of no letters", rooted([other], repointed(9, b"\x7f\x80 ~\x1f "))
    for address in (0, NO_RAM, TOP - 35, TOP - 36, TOP, LAST, LAST - 35, LAST - 36):
        yield f"an XSDT at {address:#x}", rooted([other], pointer_to(address))
    two = rooted([other], repointed(15, b"\x01"))
    two.write(POINTER + 0x100, pointer_to(XSDT))
    yield "a bad RSDP in front of a good one", two


def repointed(at, content):
    """A root pointer with other bytes, and its sums right."""
    pointer = pointer_to(XSDT)
    pointer = pointer[:at] + content + pointer[at + len(content) :]
    return summed(summed(pointer[:20], 8) + pointer[20:], 32)


def with_one_sum(at, count):
    """A root pointer with another byte, of which so many bytes sum to zero, and its others don't."""
    pointer = bytearray(pointer_to(XSDT))
    pointer[at] ^= 0x10
    mended = 8 if count == 20 else 33
    pointer[mended] = (pointer[mended] - sum(pointer[:count])) % 256
    return bytes(pointer)


def entries_of_roots():
    """What an XSDT may name, and how long it may be."""
    for signature in (b"XSDT", b"RSDT", b"DSDT", b"FACS", b"RSD ", b"S\0\xff~", b"    ", b"facp"):
        yield f"an entry of {signature}", rooted([table_of(signature, b""), table_of(signature, b"aaa")])
    yield "a FACS, whose bytes have a sum here", rooted([facs_of(64)])
    yield "the XSDT itself", rooted([XSDT])
    for entry in (0, NO_RAM, TOP - 35, TOP - 36, TOP, LAST, LAST - 35):
        yield f"an entry {entry:#x}", rooted([entry, table_of(b"SSDT", b"")])
    for count in (0, 1, 255, 256, 257):
        yield f"{count} entries of zero", rooted([], xsdt=xsdt_of([0] * count))
        yield f"{count} entries of one table", rooted([table_of(b"OTHR", b"")], xsdt=xsdt_of([FIRST] * count))
    for more in range(1, 8):
        yield f"an XSDT with {more} bytes more", rooted([], xsdt=table_of(b"XSDT", bytes(16 + more)))
    yield "another XSDT", rooted([], xsdt=table_of(b"RSDT", bytes(8)))
    yield "another XSDT of a bad length", rooted([], xsdt=table_of(b"RSDT", bytes(1)))


def lengths():
    """Each table with lengths around those of its form, and tables of which there may be one, twice."""
    for length in (0, 1, 8, 9, 10, 35, 36, 37, 43, 44, 45, 47, 48, 49, 55, 56, 57, 60, 61, 275, 276, 277, 300, (1 << 31) - 1, (1 << 32) - 1):
        for signature in (b"SSDT", *LEAST):
            yield f"{signature} of {length} bytes", rooted([told_table(signature, bytes(264), length)])
    for signature, body in LEAST.items():
        table = table_of(signature, body)
        yield f"{signature} twice", rooted([table, table])
        yield f"{signature} twice, and a bad sum", rooted([table, table[:-1] + b"\1"])
        yield f"{signature} twice, and a bad length", rooted([table, told_table(signature, body, len(table) - 1)])
    yield "an APIC twice, and a bad entry", rooted([table_of(b"APIC", bytes(8)), table_of(b"APIC", bytes(8) + b"\0\1")])
    for nodes, length in NODES:
        yield f"a SLIT of {nodes} nodes and {length} bytes", rooted([table_of(b"SLIT", struct.pack("<Q", nodes) + bytes(length - 44))])
    for back in (36, 40, 43, 44, 45):
        for length in (43, 44):
            memory = rooted([TOP - back])
            memory.write(TOP - back, told_table(b"SLIT", struct.pack("<Q", 5), length)[:back])
            yield f"a SLIT of {length} bytes, {back} in front of the end of RAM", memory


NODES = [
    *[(0, 44), (1, 45), (1, 44), (2, 48), (2, 47), (1024, 44 + (1 << 20)), (1024, 43 + (1 << 20)), (1024, 47 + (1 << 20))],
    *[(1025, 44 + 1025 * 1025), (1 << 32, 44), ((1 << 32) + 3, 60), (1 << 63, 50)],
]


def entries():
    """Entries of each type with lengths around the least, in tables that end with them or one byte early."""
    for signature, front, kinds in ((b"APIC", 8, [8, 12, 10, 2, 6, 2, 2, 2, 2, 16, 12, 2]), (b"SRAT", 12, [16, 40, 24, 2, 2])):
        for kind, least in enumerate(kinds):
            for length in (0, 1, least - 1, least, least + 1, 255):
                for size in (least, least + 1, 300):
                    entry = (bytes([kind, length]) + bytes(size))[:size]
                    yield f"{signature}: type {kind} of {length} bytes in {size}", rooted([table_of(signature, bytes(front) + entry)])
        for left in (b"\0", b"\xff\xff", b"\xff\x02", b"\xff\x01", b"\xff\x02\x00"):
            yield f"{signature}: {left!r} is left", rooted([table_of(signature, bytes(front) + b"\xff\x03\x00" + left)])


def facs_of(length, signature=b"FACS"):
    return signature + length.to_bytes(4, "little") + bytes(56)


def fadt_of(facs=0, dsdt=0, wide_facs=0, wide_dsdt=0):
    body = bytearray(LEAST[b"FACP"])
    struct.pack_into("<II", body, 0, facs, dsdt)
    struct.pack_into("<QQ", body, 96, wide_facs, wide_dsdt)
    return table_of(b"FACP", bytes(body))


def led(**pointers):
    """A memory with an FADT, what it may lead to, right and wrong, and one more table."""
    memory = rooted([fadt_of(**pointers), table_of(b"SSDT", b"")])
    for at, table in enumerate((facs_of(64), facs_of(65), facs_of(64, b"FACX"), facs_of(63, b"FACX"))):
        memory.write(FACS + 0x100 * at, table)
    for at, table in enumerate((table_of(b"DSDT", b""), table_of(b"SSDT", b""), table_of(b"DSDT", b"")[:-1] + b"\5", told_table(b"DSDT", b"", 35))):
        memory.write(DSDT + 0x100 * at, table)
    return memory


def links():
    """The pointers of an FADT: which one counts, and where it may lead."""
    yield "an FADT that leads nowhere", led()
    for narrow, wide, right in (("facs", "wide_facs", FACS), ("dsdt", "wide_dsdt", DSDT)):
        yield f"{narrow}", led(**{narrow: right})
        yield f"{wide}", led(**{wide: right})
        yield f"{wide} and not {narrow}", led(**{narrow: 1, wide: right})
        yield f"{wide}, which is wrong, and {narrow}", led(**{narrow: right, wide: NO_RAM})
        for address in (*(right + 0x100 * at for at in (1, 2, 3)), NO_RAM, TOP - 64, TOP - 63, TOP - 36, TOP - 35, LAST, LAST - 63, right + 1):
            yield f"{wide} {address:#x}", led(**{wide: address})
    yield "a bad FACS and a bad DSDT", led(wide_facs=FACS + 0x100, wide_dsdt=NO_RAM)
    yield "a DSDT that an entry names too", rooted([fadt_of(wide_dsdt=FIRST + 320), table_of(b"DSDT", b"")])


def device(name, content):
    return b"\x5b\x82" + with_length(name + content)


def scope(content, name=b"\\_SB_"):
    return b"\x10" + with_length(name + content)


def name(path, value):
    return b"\x08" + path + value


def package(*values):
    return b"\x12" + with_length(bytes([len(values)]) + b"".join(values))


def dword(number):
    return b"\x0c" + number.to_bytes(4, "little")


def halves(address):
    return name(b"ADDR", package(dword(address & 0xFFFFFFFF), dword(address >> 32)))


def generation(*content):
    return device(b"VGEN", b"".join(content))


BAD = halves(NO_RAM)


def identities():
    """Terms that lead to an id, to one that is no RAM, or to none."""
    for address in (0, FACS + 40, NO_RAM, NO_RAM - 16, NO_RAM - 15, TOP - 16, TOP - 15, (1 << 40) + 5, LAST, LAST - 15):
        yield f"an id at {address:#x}", scope(generation(halves(address)))
    values = [dword(NO_RAM), package(dword(NO_RAM)), package(dword(NO_RAM), b"\0", b"\0"), package(dword(NO_RAM), b"\x0dA\0"), b"\x0dA\0"]
    values += [package(b"\x0e" + (1 << 32).to_bytes(8, "little"), b"\0"), package(b"\xff", b"\0"), package(b"\0", b"\xff"), package(b"\0", b"\0")]
    for value in values:
        yield f"an address {value.hex()}", scope(generation(name(b"ADDR", value)))
        yield f"an address {value.hex()}, and another", scope(generation(name(b"ADDR", value), BAD))
        yield f"an address {value.hex()}, and another device", scope(generation(name(b"ADDR", value)) + generation(BAD))
    yield "a wide integer that is small", scope(generation(name(b"ADDR", package(b"\x0e" + NO_RAM.to_bytes(8, "little"), b"\x0b\0\0"))))
    for path in (b"\\VGEN", b"^VGEN", b"\x2f\x01VGEN", b".VGENVGEN", b"VGEO"):
        yield f"a device {path}", scope(device(path, BAD))
    for path in (b"_SB_", b"\\\x2f\x01_SB_", b"^_SB_", b"\\._SB_PCI0", b"\\_SB0"):
        yield f"a scope {path}", scope(generation(BAD), path)
    for path in (b"\x2f\x01ADDR", b"^ADDR", b"\\ADDR", b"ADDS"):
        yield f"a name {path}", scope(generation(name(path, package(dword(NO_RAM), b"\0"))))
    yield "a device in no scope", generation(BAD)
    yield "a scope in a device", device(b"XXXX", scope(generation(BAD)))
    yield "a device in a device", scope(device(b"XXXX", generation(BAD)))
    yield "a device in a scope, and one behind it", scope(scope(generation(BAD)) + generation(halves(FACS)))
    yield "a device behind a scope that has none", scope(scope(generation(halves(FACS))) + generation(BAD))
    yield "a second scope", scope(b"") + scope(generation(BAD))


def spellings():
    """Terms that are read, and bytes that spell none; behind each an id that is no RAM is found, or isn't looked for."""
    contents = [b"", scope(b""), b"\x10\x47\x00\\_SB_", b"\x10\xc9\x00\x00\x00\\_SB_", b"\x10\x57\x00\\_SB_", b"\x10\x00", b"\x10\x07\\_SB_"]
    contents += [b"\x00", b"\x5b", b"\x5b\x81\x06AAAA\0", b"\x14\x06AAAA\0", b"\x08AAAA", name(b"AaAA", b"\0"), name(b"1AAA", b"\0"), name(b".AAAABBBB", b"\0")]
    contents += [name(b"\x2f\0", b"\0"), name(b"\x2f\xff" + b"AAAA" * 255, b"\1"), name(b"^" * 255 + b"AAAA", b"\1"), name(b"^" * 256 + b"AAAA", b"\1")]
    contents += [name(front + b"AAAA", b"\1") for front in (b"\\^", b"^\\", b"\\\\")]
    contents += [name(b"AAAA", value) for value in (b"\x0da\x80\0", b"\x0daaa", b"\xff", b"\x08AAAA\0", package(package(b"\0"), b"\x11\x02\0"))]
    sizes = (b"\x0a\x03", b"\x0e\x03" + bytes(7), b"\x0a\x02", b"\x0a\x04", b"\x0da\0", b"")
    contents += [name(b"AAAA", b"\x11" + with_length(size + b"abc")) for size in sizes]
    contents += [name(b"AAAA", b"\x12" + with_length(inner)) for inner in (b"\x03\0\0", b"", b"\xff" + bytes(255), b"\0" + bytes(256))]
    for content in contents:
        yield f"terms {content[:40].hex()}", content
    for levels in range(LEVELS - 1, LEVELS + 3):
        nested, values = b"", written_integer(0)
        for at in range(levels):
            nested = scope(nested) if at % 2 else device(b"DDDD", nested)
            values = package(values)
        yield f"{levels} levels", nested
        yield f"{levels} packages", name(b"AAAA", values)


def definitions():
    """Memories whose FADT leads to a DSDT of each of these terms."""
    for what, content in [*identities(), *spellings()]:
        for more in (b"", scope(generation(BAD))):
            memory = rooted([fadt_of(wide_facs=FACS, wide_dsdt=DSDT)])
            memory.write(FACS, facs_of(64))
            memory.write(DSDT, table_of(b"DSDT", content + more))
            yield f"{what}, {len(more)} bytes behind them", memory


def hand_memories():
    for memories in (pointers, entries_of_roots, lengths, entries, links, definitions):
        yield from memories()
