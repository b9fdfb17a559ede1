"""What other programs tell of a guest's memory, as the lines that `vmtables decode --list` prints of it: dmidecode of the SMBIOS
structures, and iasl of the ACPI tables; and the judging of a list by that. What the judges of lists share.

The list has the tables of an XSDT, to which a root pointer of revision 2 leads, or with `--legacy` those of an RSDT, to which one of revision 0 does;
and the structures of an anchor of 24 bytes, or with `--smbios2` of one of 31. With `--any` it has those of the first pointer and of the first anchor.

A list is judged once more wherever one of these bits is flipped in the memory that the program is given: of the handles of the first and
the last structure, of the root pointer, and of the last byte of each table that has a sum, the DSDT behind an FADT among them. The list must
then differ, or tell the table's address, or else the judge is none.
"""

import collections
import itertools
import pathlib
import re
import subprocess
import sys
import tempfile

sys.path.append(str(pathlib.Path(__file__).resolve().parent.parent / "tools"))  # whose modules the judges share

from dump_tables import smbios_files
from memory_dump import NEW_MARK, OLD_MARK, acpi_table, dump_text, led_addresses, led_tables, listed_addresses, listed_tables
from memory_dump import root_address, root_pointer, root_table, smbios_anchor

# The signatures of tables that have a record, in the order of the list. The tables behind an FADT are told from it alone.
KNOWN = [b"XSDT", b"FACP", b"FACS", b"DSDT", b"APIC", b"SRAT", b"SLIT", b"MCFG", b"HPET"]
NAMED = [b"FACP", b"APIC", b"SRAT", b"SLIT", b"MCFG", b"HPET"]

VERSION = re.compile(r"SMBIOS (\d+\.\d+)(\.\d+)? present\.")  # of an old anchor without a revision
HANDLE = re.compile(r"Handle 0x([0-9A-F]{4}), DMI type (\d+), \d+ bytes")
TABLE = re.compile(r"ACPI: (.{4}) 0x0{16} ([0-9A-F]{6})\b")

# What stands in the text that iasl makes of a DSDT which has scopes, devices and names of plain values alone: beside texts and comments
# resource templates, the openings of these terms, and the words of values.
BESIDE = re.compile(r'"(?:\\.|[^"\\])*"|/\*.*?\*/|//[^\n]*', re.DOTALL)
TEMPLATE = re.compile(r"ResourceTemplate \(\)\s*\{(?:[^{}]|\{[^{}]*\})*\}")
OPENING = re.compile(r"\b(?:(?:Scope|Device) \([^()]*\)|Name \([^(),]*,)")
WORD = re.compile(r"\b[A-Za-z_]\w*")
PLAIN = {"DefinitionBlock", "Package", "Buffer", "EisaId", "ToUUID", "Unicode", "Zero", "One", "Ones"}

SHOWN = 5  # of the faults

# The options of a list.
LIST, LEGACY_LIST, OLD_LIST, GUEST_LIST = ("--list",), ("--list", "--legacy"), ("--list", "--smbios2"), ("--list", "--legacy", "--smbios2")
ANY_LIST = ("--list", "--any")

Listed = collections.namedtuple("Listed", "status out said")
Told = collections.namedtuple("Told", "signature length foreign")


class NoTool(Exception):
    pass


class NotTold(Exception):
    """A tool ends with a fault, or tells something else than it was asked."""


def list_of(program, memory, options=LIST):
    """How `decode --list`, or `decode` with other options, of a memory ends. Bytes that are no memory's are given as they are."""
    given = memory if isinstance(memory, bytes) else dump_text(memory)
    run = subprocess.run([program, "decode", *options], input=given, capture_output=True)
    return Listed(run.returncode, run.stdout.decode("latin-1"), run.stderr.decode("latin-1"))


def told_by(folder, *words):
    """What a tool prints of files in a folder."""
    try:
        run = subprocess.run(words, cwd=folder, stdin=subprocess.DEVNULL, stdout=subprocess.PIPE, stderr=subprocess.STDOUT)
    except FileNotFoundError as refusal:
        raise NoTool(f"{words[0]} isn't there") from refusal
    said = run.stdout.decode("latin-1")
    if run.returncode != 0:
        raise NotTold(f"{' '.join(words)} ends with status {run.returncode}: {said}")
    return said


def marks_of(options):
    """How the anchors begin that a list by these options looks for."""
    if "--any" in options:
        return (NEW_MARK, OLD_MARK)
    return (OLD_MARK,) if "--smbios2" in options else (NEW_MARK,)


def structure_lines(memory, options=LIST):
    """The lines of the SMBIOS structures, from the least anchor on that a list by these options looks for."""
    files = smbios_files(memory, marks_of(options))
    if not files:
        return ["smbios none"]
    with tempfile.TemporaryDirectory() as folder:
        pathlib.Path(folder, "smbios.bin").write_bytes(files["smbios.bin"])
        lines = told_by(folder, "dmidecode", "--from-dump", "smbios.bin").splitlines()
    versions = [found[1] + (found[2] or ".0") for line in lines if (found := VERSION.fullmatch(line))]
    structures = [(found[2], found[1].lower()) for line in lines if (found := HANDLE.fullmatch(line))]
    if len(versions) != 1 or not structures:
        raise NotTold("dmidecode tells no version or no structure")
    return [f"smbios {versions[0]} structures {len(structures)}", *(f"type {kind} handle {handle}" for kind, handle in structures)]


def is_foreign(text):
    """Whether the text that iasl makes of a DSDT has anything but scopes, devices and names of plain values."""
    rest = OPENING.sub(" ", TEMPLATE.sub(" ", BESIDE.sub(" ", text)))
    return not set(WORD.findall(rest)) <= PLAIN


def told_tables(tables):
    """The signature and the length that iasl tells of each table, and whether it is a DSDT that is foreign. It is given none twice, since it
    takes all for one machine's.
    """
    distinct = list(dict.fromkeys(tables))
    with tempfile.TemporaryDirectory() as folder:
        files = [pathlib.Path(folder, f"{number:04}.aml") for number in range(len(distinct))]
        for file, table in zip(files, distinct):
            file.write_bytes(table)
        told = TABLE.findall(told_by(folder, "iasl", "-d", *(file.name for file in files)))
        texts = [file.with_suffix(".dsl").read_text("latin-1") for file in files]
    if len(told) != len(distinct):
        raise NotTold(f"iasl tells of {len(told)} tables in place of {len(distinct)}")
    of_each = {
        table: Told(signature.encode("latin-1"), int(length, 16), signature == "DSDT" and is_foreign(text))
        for table, (signature, length), text in zip(distinct, told, texts)
    }
    return [of_each[table] for table in tables]


def shown(text):
    return "".join(chr(byte) if 0x20 <= byte <= 0x7E else "?" for byte in text)


def pointer_of(memory, options):
    """The least root pointer, where it is of a form that a list by these options reads, or None."""
    pointer = root_pointer(memory)
    if pointer is None or "--any" in options:
        return pointer
    return pointer if (pointer[15] < 2) == ("--legacy" in options) else None


def table_lines(memory, options):
    """The lines of the ACPI tables, from the least root pointer on. The first one is named XSDT in either form."""
    pointer = pointer_of(memory, options)
    if pointer is None:
        return ["acpi none"]
    root = root_table(memory, pointer)
    named = listed_tables(memory, root)
    led = [table for fadt in named if fadt[:4] == b"FACP" for table in led_tables(memory, fadt)]
    told = told_tables([root, *led, *named])
    (root_told, led_told, named_told) = told[0], told[1 : 1 + len(led)], told[1 + len(led) :]
    if root_told.signature != root[:4]:
        raise NotTold(f"iasl tells of {root_told.signature!r} in place of {root[:4]!r}")
    known = [b"XSDT", *(one.signature for one in led_told), *(one.signature for one in named_told if one.signature in NAMED)]
    rest = [one for one in led_told if one.foreign] + [one for one in named_told if one.signature not in NAMED]
    return [
        f"acpi {shown(pointer[9:15])}",
        *(f"table {signature.decode()}" for signature in KNOWN if signature in known),
        *(f"table {shown(one.signature)} length {one.length}" for one in rest),
    ]


def told_lines(memory, options=LIST):
    return structure_lines(memory, options) + table_lines(memory, options)


def list_faults(listed, told):
    """What is wrong with a list, where these lines should stand in it."""
    if listed.status != 0 or listed.said:
        yield f"decode --list ends with status {listed.status}: {listed.said.strip()}"
        return
    if not listed.out.endswith("\n"):
        yield "the list doesn't end in a line feed"
    for number, (ours, theirs) in enumerate(itertools.zip_longest(listed.out.splitlines(), told), start=1):
        if ours != theirs:
            yield f"line {number} of the list is {ours!r}, and {theirs!r} is told"


def end_faults(listed, status, line):
    """What is wrong with a call that should tell this line alone."""
    if (listed.status, listed.out, listed.said) != (status, "", f"{line}\n"):
        yield f"status {listed.status}, {len(listed.out)} bytes and {listed.said.strip()!r}, in place of status {status} and {line!r}"


def sum_fault(address):
    return f"tables: acpi fault 2 at {address:016x}"


def flips(memory, options):
    """Addresses of bits that a list by these options shows, where they are flipped."""
    anchor = smbios_anchor(memory, marks_of(options))
    if anchor is not None:
        yield from (anchor.table + 2, anchor.table + anchor.size - 4)
    if pointer_of(memory, options) is not None:
        yield memory.find(b"RSD PTR ", 0xE0000, 0x100000) + 9


def summed_tables(memory, options):
    """The address and the last byte's of each table with a sum, from the root pointer on that a list by these options reads."""
    pointer = pointer_of(memory, options)
    if pointer is None:
        return
    root = root_table(memory, pointer)
    addresses = [root_address(pointer), *listed_addresses(root)]
    fadts = [table for table in listed_tables(memory, root) if table[:4] == b"FACP"]
    addresses += [address for fadt in fadts for address in led_addresses(fadt)]
    for address in addresses:
        table = acpi_table(memory, address)
        if table[:4] != b"FACS":
            yield address, address + len(table) - 1


def missed_flips(program, memory, told, options):
    """The bits whose flipping doesn't change what is said as it should."""
    for at in flips(memory, options):
        if not [*list_faults(list_of(program, memory.flipped(at), options), told)]:
            yield f"no judge: nothing is wrong with a bit flipped at {at:#x}"
    for address, last in summed_tables(memory, options):
        for fault in end_faults(list_of(program, memory.flipped(last), options), 7, sum_fault(address)):
            yield f"with a bit flipped at {last:#x}: {fault}"


def judged(program, memory, options=LIST):
    """Returns what is wrong with the list of a memory by these options, and how many lines it should have."""
    told = told_lines(memory, options)
    faults = [*list_faults(list_of(program, memory, options), told)]
    return faults or [*missed_flips(program, memory, told, options)], len(told)
