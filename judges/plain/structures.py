"""The SMBIOS structures that a memory shows, from its anchor on (docs/FORMATS.md, "How structures are read")."""

import collections

from plain.ended import Refused
from plain.views import bytes_at, number_in, ram_from, rows_with, sums_to_zero

STATUS = 7
TRUNCATED, SHORT_STRUCTURE, NO_END, NO_SUCH_STRING = range(1, 5)

ANCHORS, ANCHORS_END = 0xF0000, 0x100000
ANCHOR_SIZE, OLD_SIZE = 0x18, 31  # of the anchor at least, and of the old one
RANGE_AT = 0x10  # where the part of the old one begins that has a sum of its own
HEADER_SIZE, END_OF_TABLE, OEM_STRINGS = 4, 127, 11

# The offsets of the fields that name a string, of each type and length that is read by its fields.
STRING_FIELDS = {
    (0, 0x18): [0x04, 0x05, 0x08],
    (1, 0x1B): [0x04, 0x05, 0x06, 0x07, 0x19, 0x1A],
    (3, 0x16): [0x04, 0x06, 0x07, 0x08, 0x15],
    (4, 0x30): [0x04, 0x07, 0x10, 0x20, 0x21, 0x22],
    (9, 0x11): [0x04],
    (OEM_STRINGS, 5): [0x04],  # a number of strings, of which the last has to be there
    (17, 0x28): [0x10, 0x11, 0x17, 0x18, 0x19, 0x1A],
}

# Where a valid anchor stands, the version and the revision that it tells, and how many bytes the structures have and where.
Anchor = collections.namedtuple("Anchor", "address version size structures")

# The version and the revision that the anchor tells, and the type and the handle of each structure.
Structures = collections.namedtuple("Structures", "version told")


def refused(fault, place):
    return Refused(STATUS, f"tables: smbios fault {fault} at {place}")


def new_anchors(memory):
    """The valid anchors of 24 bytes or more (DSP0134 5.2.2)."""
    for address in rows_with(memory, b"_SM3_", ANCHORS, ANCHORS_END):
        length = bytes_at(memory, address + 6, 1)[0]
        if length >= ANCHOR_SIZE and address + length <= ANCHORS_END and sums_to_zero(bytes_at(memory, address, length)):
            anchor = bytes_at(memory, address, ANCHOR_SIZE)
            yield Anchor(address, tuple(anchor[7:10]), number_in(anchor, 0x0C, 4), number_in(anchor, 0x10, 8))


def old_anchors(memory):
    """The valid anchors of 31 bytes (5.2.1), which tell no revision."""
    for address in rows_with(memory, b"_SM_", ANCHORS, ANCHORS_END - OLD_SIZE + 1):
        anchor = bytes_at(memory, address, OLD_SIZE)
        has_marks = anchor[5] == OLD_SIZE and anchor[RANGE_AT:].startswith(b"_DMI_")
        if has_marks and sums_to_zero(anchor) and sums_to_zero(anchor[RANGE_AT:]):
            yield Anchor(address, (anchor[6], anchor[7], 0), number_in(anchor, 0x16, 2), number_in(anchor, 0x18, 4))


NEW_ANCHOR, OLD_ANCHOR, ANY_ANCHOR = (new_anchors,), (old_anchors,), (new_anchors, old_anchors)


def read_structures(memory, forms=NEW_ANCHOR):
    """The structures behind the least valid anchor of these forms, or None where none stands."""
    anchors = [anchor for valid in forms for anchor in valid(memory)]
    if not anchors:
        return None
    anchor = min(anchors)
    return Structures(anchor.version, structures_in(ram_from(memory, anchor.structures, anchor.size)))


def structures_in(table):
    """The type and the handle of each structure up to the first of type 127."""
    told, at, kind = [], 0, None
    while kind != END_OF_TABLE:
        if at == len(table):
            raise refused(NO_END, 0)
        kind, handle, at = structure_at(table, at)
        told.append((kind, handle))
    return told


def structure_at(table, at):
    """The type and the handle of the structure at a place, and what stands behind it."""
    header = table[at : at + HEADER_SIZE]
    if len(header) < HEADER_SIZE:
        raise refused(TRUNCATED, at)
    kind, length, handle = header[0], header[1], number_in(header, 2, 2)
    if length < HEADER_SIZE:
        raise refused(SHORT_STRUCTURE, at)
    area_end = at + length
    end = table.find(b"\0\0", area_end)
    if area_end > len(table) or end < 0:
        raise refused(TRUNCATED, at)
    strings = 0 if end == area_end else table.count(b"\0", area_end, end) + 1
    if any(table[at + field] > strings for field in STRING_FIELDS.get((kind, length), [])):
        raise refused(NO_SUCH_STRING, at)
    return kind, handle, end + 2
