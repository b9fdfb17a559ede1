#!/usr/bin/env python3
"""Turns a dump of guest memory into files for dmidecode and iasl. It is no part of the product: it serves the checks of
judges/run.sh, and whoever wants to look at a dump. It judges nothing itself beyond finding the tables by their anchors.

usage: dump_tables.py DUMP FOLDER

Writes into FOLDER what the memory holds of these:

  smbios.bin      the SMBIOS anchor at 0 and its structures at 0x20, as `dmidecode --dump-bin` writes them
  RSDP.bin        the root pointer of the ACPI tables, and where it has revision 2
  RSDP.asl        its maker and the address that it gives, for iasl to make a root pointer of
  XSDT.aml        the table that the root pointer names, in revision 0 RSDT.aml, and a file for each table that it lists, or to which an
                  FADT that it lists leads, as FACS.aml and DSDT.aml, named by the signature; a second table of a signature is
                  SIGNATURE-2.aml

Of the SMBIOS anchors, which have 24 bytes or 31, the one that stands first is taken. Where a table can't be cut, a line says which and why, and the
others are written all the same.

Status 0: done; 1: a table can't be cut; 2: DUMP is no dump, or a file can't be read or written. A memory without an anchor has no structures, and one
without a root pointer no ACPI tables, which is no fault.
"""

import re
import sys

from endings import ended, folder_of, refused
from memory_dump import ANCHOR_FIELDS, NEW_MARK, OLD_MARK, NotADump, NotFound, acpi_table, led_addresses, listed_addresses, read_dump_file
from memory_dump import root_pointer, root_table, smbios_anchor

SHOWN = 12  # of the tables that can't be cut

TABLE_AT = 0x20  # where structures stand in smbios.bin
SUMS = {NEW_MARK: 0x05, OLD_MARK: 0x15}  # where the sum of the bytes stands among which an anchor has their address


def smbios_files(memory, marks=(NEW_MARK, OLD_MARK)):
    """The first anchor with one of these marks (DSP0134, 5.2.2 and 5.2.1) and its table, where there is one. Its address is changed as dmidecode does,
    so that a wrong checksum stays wrong.
    """
    found = smbios_anchor(memory, marks)
    if found is None:
        return {}
    anchor, sum_at = bytearray(found.content), SUMS[found.mark]
    table = memory.read(found.table, found.size, "the SMBIOS table")
    _, (at, width) = ANCHOR_FIELDS[found.mark]
    anchor[sum_at] = (anchor[sum_at] + sum(anchor[at : at + width]) - TABLE_AT) % 256
    anchor[at : at + width] = TABLE_AT.to_bytes(width, "little")
    return {"smbios.bin": bytes(anchor).ljust(TABLE_AT, b"\0") + table}


class Cut:
    """The files that are cut out of a memory, and why others can't be."""

    def __init__(self, memory):
        self.memory = memory
        self.files = {}
        self.faults = []

    def attempt(self, read, *given):
        """What a function reads, or None where that isn't there."""
        try:
            return read(*given)
        except NotFound as refusal:
            self.faults.append(str(refusal))
            return None

    def cut_structures(self):
        self.files.update(self.attempt(smbios_files, self.memory) or {})

    def cut_pointer(self):
        """The root pointer of the ACPI tables (ACPI 6.5, 5.2.5), and the tables that it leads to."""
        pointer = self.attempt(root_pointer, self.memory)
        if pointer is None:
            return
        self.files["RSDP.bin"] = pointer
        if pointer[15] >= 2:
            self.files["RSDP.asl"] = pointer_source(pointer[9:15], int.from_bytes(pointer[24:32], "little"))
        root = self.attempt(root_table, self.memory, pointer)
        if root is not None:
            self.put(root)
            self.cut_listed(root)

    def cut_listed(self, root):
        """The tables that an XSDT or an RSDT lists (5.2.8), and behind an FADT those that it leads to (5.2.9)."""
        for address in listed_addresses(root):
            table = self.cut_table(address)
            if table is not None and table[:4] == b"FACP":
                for led in led_addresses(table):
                    self.cut_table(led)

    def cut_table(self, address):
        table = self.attempt(acpi_table, self.memory, address)
        if table is not None:
            self.put(table, address)
        return table

    def put(self, table, address=None):
        name = self.attempt(name_of, table, address, self.files)
        if name is not None:
            self.files[name] = table


def pointer_source(oem_id, xsdt_address):
    """A root pointer of revision 2 (ACPI 6.5, 5.2.5.3) in iasl's language, in which both checksums are left to iasl."""
    lines = [
        'Signature : "RSD PTR "',
        "Checksum : 00",
        f'Oem ID : "{oem_id.decode("latin-1")}"',
        "Revision : 02",
        "RSDT Address : 00000000",
        "Length : 00000024",
        f"XSDT Address : {xsdt_address:016X}",
        "Extended Checksum : 00",
        "Reserved : 000000",
    ]
    return "\n".join([*lines, ""]).encode("latin-1")


def name_of(table, address, files):
    signature = table[:4].decode("latin-1")
    if re.fullmatch("[A-Z0-9_]{4}", signature) is None:
        raise NotFound(f"the ACPI table at {address:#x}: {table[:4].hex()} is no signature")
    names = [f"{signature}.aml", *(f"{signature}-{count}.aml" for count in range(2, len(files) + 3))]
    return next(name for name in names if name not in files)


def main(dump, folder):
    folder = folder_of(folder)
    try:
        cut = Cut(read_dump_file(dump))
    except NotADump as refusal:
        return refused(refusal)
    cut.cut_structures()
    cut.cut_pointer()
    for name, content in cut.files.items():
        (folder / name).write_bytes(content)
    for fault in cut.faults[:SHOWN]:
        print(f"dump_tables.py: {dump}: not cut: {fault}", file=sys.stderr)
    if cut.faults[SHOWN:]:
        print(f"dump_tables.py: {dump}: not cut: {len(cut.faults) - SHOWN} more", file=sys.stderr)
    return 1 if cut.faults else 0


if __name__ == "__main__":
    if len(sys.argv) != 3:
        sys.exit("usage: dump_tables.py DUMP FOLDER")
    sys.exit(ended(main, sys.argv[1:]))
