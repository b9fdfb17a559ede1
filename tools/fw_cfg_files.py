"""The files of a fw_cfg device as a container spells them (docs/FORMATS.md), and the loader script among them: what the tools and
the judges of the program's `build` and `load` share. The directory is that of QEMU's docs/specs/fw_cfg, and the commands are those of its
hw/acpi/bios-linker-loader.c.
"""

import pathlib
import struct
from typing import NamedTuple

SCRIPT = "etc/table-loader"

COUNT = struct.Struct(">I")
DIRECTORY_ENTRY = struct.Struct(">IHH56s")

COMMAND_SIZE = 128
ALLOCATE = struct.Struct("<4x56sIB")
ADD_POINTER = struct.Struct("<4x56s56sIB")
ADD_CHECKSUM = struct.Struct("<4x56sIII")
WRITE_POINTER = struct.Struct("<4x56s56sIIB")


class NotAContainer(Exception):
    pass


class Entry(NamedTuple):
    name: str
    size: int
    selector: int


class Allocate(NamedTuple):
    file: str
    align: int
    zone: int


class AddPointer(NamedTuple):
    dest: str
    src: str
    offset: int
    size: int


class AddChecksum(NamedTuple):
    file: str
    offset: int
    start: int
    length: int


def directory_size(count):
    return COUNT.size + count * DIRECTORY_ENTRY.size


def read_directory(content):
    """The entries of a directory, and how many bytes they take."""
    if len(content) < COUNT.size:
        raise NotAContainer(f"{len(content)} bytes have no number of files")
    size = directory_size(COUNT.unpack_from(content)[0])
    if len(content) < size:
        raise NotAContainer(f"the directory takes {size} bytes, and {len(content)} are there")
    parts = DIRECTORY_ENTRY.iter_unpack(content[COUNT.size : size])
    return [read_entry(number, *fields) for number, fields in enumerate(parts, start=1)], size


def read_entry(number, size, selector, reserved, field):
    try:
        name = read_name(field)
    except NotAContainer as refusal:
        raise NotAContainer(f"file {number}: {refusal}") from refusal
    if reserved != 0:
        raise NotAContainer(f"{name}: the reserved bytes of its entry are {reserved:#x}")
    if field[len(name) :].strip(b"\0"):
        raise NotAContainer(f"{name}: bytes stand behind its name")
    return Entry(name, size, selector)


def read_name(field):
    name, nul, _ = field.partition(b"\0")
    if not name or not nul or not all(0x20 <= byte <= 0x7E for byte in name):
        raise NotAContainer(f"{name!r} is no name of 1 to 55 characters, each 0x20 to 0x7E, and a NUL behind it")
    return name.decode()


def read_container(content):
    """The content of each file by its name. Whatever a container that is written can't have is refused."""
    entries, at = read_directory(content)
    flags = content[at : at + len(entries)]
    at += len(entries)
    names, selectors = set(), set()
    for entry in entries:
        check_entry(entry, names, selectors)
        names.add(entry.name)
        selectors.add(entry.selector)
    for entry, flag in zip(entries, flags):
        if flag > 1:
            raise NotAContainer(f"{entry.name}: its flag {flag} is neither 0 nor 1")
    size = at + sum(entry.size for entry in entries)
    if size != len(content):
        raise NotAContainer(f"its files end at {size}, and it has {len(content)} bytes")
    return cut_files(entries, content[at:])


def read_container_file(name):
    """The content of each file of a container in a file."""
    try:
        return read_container(pathlib.Path(name).read_bytes())
    except NotAContainer as refusal:
        raise NotAContainer(f"{name} is no container: {refusal}") from refusal


def check_entry(entry, names, selectors):
    """Refuses an entry that can't stand behind those with these names and selectors."""
    if entry.name in names:
        raise NotAContainer(f"{entry.name}: a file before it has this name")
    if entry.selector in selectors:
        raise NotAContainer(f"{entry.name}: a file before it has its selector {entry.selector:#x}")
    if not 0x20 <= entry.selector <= 0x3FFF:
        raise NotAContainer(f"{entry.name}: its selector {entry.selector:#x} isn't 0x20 to 0x3FFF")


def cut_files(entries, content):
    files = {}
    for entry in entries:
        files[entry.name], content = content[: entry.size], content[entry.size :]
    return files


def read_script(content):
    """The commands of a script that a load carries out in memory; all others are skipped."""
    if len(content) % COMMAND_SIZE != 0:
        raise NotAContainer(f"a script of {len(content)} bytes is no whole number of commands")
    parts = (content[at : at + COMMAND_SIZE] for at in range(0, len(content), COMMAND_SIZE))
    return [command for command in map(read_command, parts) if command is not None]


def read_command(content):
    match int.from_bytes(content[:4], "little"):
        case 1:
            file, align, zone = ALLOCATE.unpack_from(content)
            return Allocate(read_name(file), align, zone)
        case 2:
            dest, src, offset, size = ADD_POINTER.unpack_from(content)
            return AddPointer(read_name(dest), read_name(src), offset, size)
        case 3:
            file, offset, start, length = ADD_CHECKSUM.unpack_from(content)
            return AddChecksum(read_name(file), offset, start, length)
    return None
