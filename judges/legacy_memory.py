"""A memory that `boot` left, with its ACPI tables in the form of ACPI 1.0: an RSDP of revision 0 and an RSDT (ACPI 6.5, 5.2.5.3 and 5.2.7) where the RSDP
and the XSDT stood, and an FADT that is as short as it says. What judges of `--legacy` share.
"""

import pathlib
import sys

sys.path.append(str(pathlib.Path(__file__).resolve().parent.parent / "tools"))  # whose modules the judges share

from made_roots import POINTER, summed
from memory_dump import acpi_table, listed_addresses, number_at, root_pointer, root_table

SUM_AT = 9  # of a table

# Bytes of an FADT (5.2.9): of the shortest that is read, that of ACPI 1.0; of one with the register for a reset; of one with its value; of that of
# ACPI 2.0; and of all fields.
SHORTEST, WITH_RESET, WITH_RESET_VALUE, SECOND, WHOLE = 116, 128, 129, 244, 276


def legacy_memory(memory, fadt_size, revision):
    """A copy of a memory in this form, whose FADT has so many bytes, up to those of its fields, and this revision."""
    other, pointer = memory.copy(), root_pointer(memory)
    if pointer is None:
        return other
    root, place = root_table(memory, pointer), number_at(pointer, 24, 8)
    for address in listed_addresses(root):
        table = acpi_table(memory, address)
        if table[:4] == b"FACP":
            other.write(address, legacy_fadt(table, fadt_size, revision))
    other.write(place, legacy_root(root))
    other.write(memory.find(b"RSD PTR ", 0xE0000, 0x100000), legacy_pointer(pointer, place))
    return other


def legacy_fadt(table, size, revision):
    """An FADT whose FACS is told by 4 bytes alone. What stands behind it, and isn't its own any more, is flipped."""
    fadt = bytearray(table)
    fadt[36:40], fadt[132:140] = table[132:136], bytes(8)
    fadt[4:9] = size.to_bytes(4, "little") + bytes([revision])
    return summed(fadt[:size], SUM_AT) + bytes(byte ^ 0xFF for byte in fadt[size:])


def legacy_root(root):
    """The RSDT of an XSDT, and zeros behind it."""
    entries = b"".join(root[entry : entry + 4] for entry in range(36, len(root), 8))
    header = b"RSDT" + (36 + len(entries)).to_bytes(4, "little") + root[8:36]
    return summed(header + entries, SUM_AT).ljust(len(root), b"\0")


def legacy_pointer(pointer, rsdt):
    """The RSDP of 20 bytes, and zeros behind it."""
    return summed(pointer[:15] + b"\0" + rsdt.to_bytes(4, "little"), 8).ljust(POINTER.size, b"\0")
