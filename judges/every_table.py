"""A small memory with an ACPI table of every kind, made by hand from ACPI 6.5, 5.2 and 20.2, PCI Firmware Specification 3.3, 4.1.2, and IA-PC HPET
1.0a, 3.2.4; neighbouring numbers differ, and so do their bytes. What the judge of tables changes.
"""

from made_roots import pointer_to, summed
from memory_dump import Memory, number_at

TOP = 64 << 20
POINTER, XSDT = 0xE0000, 0x3024
SUM_AT = 9  # of a table

# The tables in digits, with a sum of 0, one behind the other from the XSDT on. It names the FADT, nothing, the MADT, the SRAT, the SLIT, the SSDT,
# the HPET table and the MCFG; the FADT leads to the DSDT and to the FACS.
DIGITS = [
    # XSDT
    "585344546400000002004142434445464748494a4b4c5853020203044f50515202060708543100000000000000000000000000006832000000000000e5320000"
    "0000000091330000000000000434000000000000c8330000000000002d34000000000000",
    # FACS
    "464143534000000025de7b8ce18ad758dd76736419a24fb0950e6b3c51bac7084da6631489d23f60053e5becc1eab7b8bdd653c4f9022f10756e4b9c311aa768",
    # DSDT
    "445344548c00000003004142434445464748494a4b4c4453030203044f50515203060708104f045c5f53425f5b823650434930085f4849440cd0410a08085f55"
    "494400085f43525311060a0379321f085f505254120f01120c040cffff0100010b3412ff085e5e2e41423031434430320d486900082f03415f5f31425f5f3243"
    "5f5f330e69321fc0e59e3b4c",
    # FACP
    "464143501401000004004142434445464748494a4b4c4641040203044f50515204060708c8300000c8300000d9620f7055ce2bfc117a87c80d6623d44992ff20"
    "c5fe1bac81aa77787d961384b9c2efd0352e0b5cf1da6728edc6033429f2df80a55efb0c610a57d85df6f3e49922cf30158eebbcd13a4788cd26e3940952bfe0"
    "85bedb6c88300000000000000000000000000000b19a27e8ad86c3f4e9b29f40651ebbcc21ca17981db6b3a459e28ff0d54eab7c91fa07488de6a354c9127fa0"
    "457e9b2c012af7f8fd16930439426f50b5ae8bdc715ae7a86d4683b4a9725f0025de7b8ce18ad758dd76736419a24fb0950e6b3c51bac7084da6631489d23f60"
    "053e5becc1eab7b8bdd653c4f9022f10756e4b9c",
    # APIC
    "415049437d00000005004142434445464748494a4b4c4150050203044f50515205060708311aa7682d064374000869321fc0e59e010c3b4ca14a97189d363324"
    "020ad9620f7055ce2bfc0308117a87c80d66040623d449920910ff20c5fe1bac81aa77787d9613840a0cb9c2efd0352e0b5cf1da00096728edc6033429",
    # SRAT
    "53524154ac00000006004142434445464748494a4b4c5352060203044f50515206060708f2df80a55efb0c610a57d85d0010f6f3e49922cf30158eebbcd13a47"
    "012888cd26e3940952bfe085bedb6c416a37383d56d3447982af90f5eecb1cb19a27e8ad86c3f4e90218b29f40651ebbcc21ca17981db6b3a459e28ff0d54eab"
    "03127c91fa07488de6a354c9127fa0457e9b021a2c012af7f8fd16930439426f50b5ae8bdc715ae7a86d4683",
    # SLIT
    "534c49543700000007004142434445464748494a4b4c534c070203044f505152070607080300000000000000b4a9725f0025de7b8ce18a",
    # HPET
    "485045543c00000008004142434445464748494a4b4c4850080203044f50515208060708d758dd76736419a24fb0950e6b3c51bac7084da6631489d2",
    # SSDT
    "535344542900000009004142434445464748494a4b4c5353090203044f505152090607083f60053e5b",
    # MCFG
    "4d4346474c0000000a004142434445464748494a4b4c4d430a0203044f5051520a060708215e4c8ab3f7106d00906a2e7b51c8d34cb1179a65f80e42d81f95e0"
    "6233ab075e29c4813f70bd16",
]
TABLES = [bytes.fromhex(digits) for digits in DIGITS]
PLACES = [XSDT + sum(map(len, TABLES[:at])) for at in range(len(TABLES))]
NAMES = [table[:4].decode() for table in TABLES]


def has_sum(name):
    return name != "FACS"


def every_table():
    """The memory, its sums right."""
    memory = Memory(TOP, 0)
    memory.write(POINTER, pointer_to(XSDT))
    for name, place, table in zip(NAMES, PLACES, TABLES):
        memory.write(place, summed(table, SUM_AT) if has_sum(name) else table)
    return memory


def mend(memory, place):
    """Sets the sum of the table at a place by the length that it tells, where so many bytes are RAM."""
    length = number_at(memory.read(place + 4, 4, "a length"), 0, 4)
    if SUM_AT < length and memory.is_ram(place, place + length):
        table = memory.read(place, length, "a table")
        memory.write(place + SUM_AT, bytes([(table[SUM_AT] - sum(table)) % 256]))


def changed(memory, address, content, table=None):
    """A copy with other bytes at an address, and the sum of the table at a place mended."""
    other = memory.copy()
    other.write(address, content)
    if table is not None:
        mend(other, table)
    return other
