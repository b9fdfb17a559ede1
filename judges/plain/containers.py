"""Containers, read into a device's files, or refused for their first fault (docs/FORMATS.md, "The container")."""

import collections
import dataclasses
import struct

from plain.ended import Refused

STATUS = 5
TRUNCATED, TOO_MANY, BAD_NAME, TWICE_NAMED, TWICE_SELECTED, BAD_SELECT, BAD_FLAG, TRAILING_BYTES, TOO_LARGE = range(1, 10)
COUNT_SIZE, ENTRY_SIZE = 4, 64
MOST_FILES, MOST_BYTES = 1024, 67_108_864
SELECTORS = range(0x20, 0x4000)
NAME_SIZE = 56


Entry = collections.namedtuple("Entry", "size selector")


@dataclasses.dataclass
class File:
    """A file of a device: its selector, whether a guest may write it, its bytes, and where it is placed, once it is."""

    selector: int
    is_writable: bool
    content: bytearray
    place: int | None = None


def refused(fault):
    return Refused(STATUS, f"container: fault {fault}")


def name_in(field):
    """The name in a field of 56 bytes, or None where it holds none."""
    name, end, _ = field.partition(b"\0")
    return name if end and name and all(0x20 <= byte <= 0x7E for byte in name) else None


class Reader:
    """Reads a container from its front."""

    def __init__(self, content):
        self.content = content
        self.at = 0

    def taken(self, size):
        if len(self.content) - self.at < size:
            raise refused(TRUNCATED)
        self.at += size
        return self.content[self.at - size : self.at]


def read_container(content):
    """The directory as it is told, and the files by their names in its order."""
    reader = Reader(content)
    count = int.from_bytes(reader.taken(COUNT_SIZE), "big")
    if count > MOST_FILES:
        raise refused(TOO_MANY)
    entries = read_entries(reader.taken(ENTRY_SIZE * count))
    directory = content[: reader.at]
    flags = reader.taken(count)
    if any(flag > 1 for flag in flags):
        raise refused(BAD_FLAG)
    size = sum(entry.size for entry in entries.values())
    if size > MOST_BYTES:
        raise refused(TOO_LARGE)
    files = reader.taken(size)
    if reader.at < len(content):
        raise refused(TRAILING_BYTES)
    return directory, files_of(entries, flags, files)


def read_entries(content):
    """The sizes and the selectors of files by their names."""
    entries, selectors = {}, set()
    for at in range(0, len(content), ENTRY_SIZE):
        name = name_in(content[at + 8 : at + ENTRY_SIZE])
        selector = int.from_bytes(content[at + 4 : at + 6], "big")
        if name is None:
            raise refused(BAD_NAME)
        if name in entries:
            raise refused(TWICE_NAMED)
        if selector not in SELECTORS:
            raise refused(BAD_SELECT)
        if selector in selectors:
            raise refused(TWICE_SELECTED)
        entries[name] = Entry(int.from_bytes(content[at : at + 4], "big"), selector)
        selectors.add(selector)
    return entries


def files_of(entries, flags, content):
    files, at = {}, 0
    for flag, (name, entry) in zip(flags, entries.items()):
        files[name] = File(entry.selector, flag == 1, bytearray(content[at : at + entry.size]))
        at += entry.size
    return files


def directory_of(files):
    """The directory of files, in their order."""
    entries = (struct.pack(">IHH56s", len(file.content), file.selector, 0, name) for name, file in files.items())
    return len(files).to_bytes(COUNT_SIZE, "big") + b"".join(entries)
