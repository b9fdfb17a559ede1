"""The list of what a memory shows (docs/FORMATS.md, "The list"): `decode --list` of a dump, with each of its options or without."""

from plain.dumps import read_dump
from plain.ended import Refused
from plain.structures import ANY_ANCHOR, NEW_ANCHOR, OLD_ANCHOR, read_structures
from plain.tables import ANY_FORMS, LEGACY_FORM, XSDT_FORM, read_tables

# The tables with a record, in the order of the list.
RECORDED = (b"XSDT", b"FACP", b"FACS", b"DSDT", b"APIC", b"SRAT", b"SLIT", b"MCFG", b"HPET")

# The options by which tables are those of the legacy form, structures those of the old anchor, and both those of the first of any form.
LEGACY, SMBIOS2, ANY = "--legacy", "--smbios2", "--any"


def listed(content, *options):
    """How `decode --list` of a dump ends, with more options behind: its status, its list, and its line."""
    try:
        return listed_memory(read_dump(content), *options)
    except Refused as refusal:
        return refusal.status, b"", refusal.said


def listed_memory(memory, *options):
    """How `decode --list` of a memory's dump ends, with more options behind."""
    try:
        tables = read_tables(memory, root_forms(options))  # a fault of these comes first
        structures = read_structures(memory, anchor_forms(options))
    except Refused as refusal:
        return refusal.status, b"", refusal.said
    lines = [*structure_lines(structures), *table_lines(tables)]
    return 0, "".join(f"{line}\n" for line in lines).encode(), b""


def root_forms(options):
    if ANY in options:
        return ANY_FORMS
    return (LEGACY_FORM,) if LEGACY in options else (XSDT_FORM,)


def anchor_forms(options):
    if ANY in options:
        return ANY_ANCHOR
    return OLD_ANCHOR if SMBIOS2 in options else NEW_ANCHOR


def structure_lines(structures):
    if structures is None:
        return ["smbios none"]
    version = ".".join(map(str, structures.version))
    head = f"smbios {version} structures {len(structures.told)}"
    return [head, *(f"type {kind} handle {handle:04x}" for kind, handle in structures.told)]


def table_lines(tables):
    if tables is None:
        return ["acpi none"]
    lines = [f"acpi {shown(tables.maker)}"]
    lines += [f"table {signature.decode()}" for signature in RECORDED if signature in tables.signatures]
    lines += [] if tables.foreign is None else [f"table DSDT length {tables.foreign}"]
    return lines + [f"table {shown(signature)} length {length}" for signature, length in tables.others]


def shown(text):
    return "".join(chr(byte) if 0x20 <= byte <= 0x7E else "?" for byte in text)
