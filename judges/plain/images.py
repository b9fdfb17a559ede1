"""The image of a machine: its files, the script among them, and the container of all (docs/FORMATS.md, "The image of a machine", "The container")."""

import struct

from plain.acpi import IDENTITY, TABLES, Tables, pointer_of
from plain.descriptions import read_machine
from plain.devices import ID_OFFSET
from plain.ended import Refused
from plain.smbios import anchor_of, stored_uuid, structures_of

POINTER, ANCHOR, STRUCTURES = "etc/acpi/rsdp", "etc/smbios/smbios-anchor", "etc/smbios/smbios-tables"
SCRIPT, WRITTEN = "etc/table-loader", "etc/vmgenid_addr"
HIGH, F_SEGMENT = 1, 2
PLACED = [(TABLES, 64, HIGH), (POINTER, 16, F_SEGMENT), (STRUCTURES, 16, HIGH), (ANCHOR, 16, F_SEGMENT), (IDENTITY, 4096, HIGH)]
COMMAND_SIZE, FIRST_SELECTOR = 128, 0x20
MOST_BYTES = 409_600


def built(content):
    """How `build` of a description ends: its status, the container, and its line."""
    try:
        files = files_of(read_machine(content))
    except Refused as refusal:
        return refusal.status, b"", refusal.said
    return 0, container(files), b""


def files_of(machine):
    """The files of a machine by their names."""
    table = structures_of(machine)
    files = {STRUCTURES: table, ANCHOR: anchor_of(table)}
    tables = None if machine["acpi"] is None else Tables(machine)
    if tables is not None:
        files |= {TABLES: tables.content, POINTER: pointer_of(machine, tables.xsdt)}
    if machine["generation"] is not None:
        identity = bytes(ID_OFFSET) + stored_uuid(machine["generation"])
        files |= {WRITTEN: bytes(8), IDENTITY: identity.ljust(4096, b"\0")}
    files[SCRIPT] = b"".join(command.ljust(COMMAND_SIZE, b"\0") for command in commands(files, tables))
    if sum(map(len, files.values())) > MOST_BYTES:
        raise Refused(11, "image too large")
    return files


def commands(files, tables):
    """The commands of the script, without the zeros behind them."""
    yield from (allocate(file, align, zone) for file, align, zone in PLACED if file in files)
    if tables is not None:
        yield add_pointer(POINTER, TABLES, 24, 8)
        yield from (add_pointer(TABLES, target, offset, size) for offset, size, target in sorted(tables.pointers))
    yield add_pointer(ANCHOR, STRUCTURES, 16, 8)
    if tables is not None:
        yield from (add_checksum(TABLES, place + 9, place, size) for place, size in tables.sums)
        yield from (add_checksum(POINTER, 8, 0, 20), add_checksum(POINTER, 32, 0, 36))
    yield add_checksum(ANCHOR, 5, 0, 24)
    if IDENTITY in files:
        yield struct.pack("<I56s56sIIB", 4, WRITTEN.encode(), IDENTITY.encode(), 0, ID_OFFSET, 8)


def allocate(file, align, zone):
    return struct.pack("<I56sIB", 1, file.encode(), align, zone)


def add_pointer(file, target, offset, size):
    return struct.pack("<I56s56sIB", 2, file.encode(), target.encode(), offset, size)


def add_checksum(file, offset, start, length):
    return struct.pack("<I56sIII", 3, file.encode(), offset, start, length)


def container(files):
    """The directory, a flag of each file, and their bytes, by their names."""
    names = sorted(files)
    entries = [struct.pack(">IHH56s", len(files[name]), FIRST_SELECTOR + at, 0, name.encode()) for at, name in enumerate(names)]
    flags = bytes(name == WRITTEN for name in names)
    return struct.pack(">I", len(names)) + b"".join(entries) + flags + b"".join(files[name] for name in names)
