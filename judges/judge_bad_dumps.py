#!/usr/bin/env python3
"""Judges the line that `vmtables decode --list`, and `decode` alone, tell of bytes that are no dump, and of memories whose tables have a fault
(docs/FORMATS.md has the faults). It is no part of the product: it serves the checks of judges/run.sh alone.

usage: judge_bad_dumps.py PROGRAM MINIMAL WITH_HPET

PROGRAM stands for ./vmtables. MINIMAL is the dump that `boot` makes of examples/minimal.toml, and WITH_HPET that of the same description
with empty tables `acpi` and `hpet`. Both must be listed as they are. With each of the faults below in them they must be refused by the line
that stands beside it; a dump that is none must be refused by tools/memory_dump.py too, and where a structure or a table has the fault,
dmidecode or iasl must complain of it in the words that stand there, and not complain where it hasn't. Last, a line that says something else
must be found wrong.

Status 0: all of this holds; 1: something doesn't, each with a line; 2: a dump is none, or a tool tells nothing; 3: a program isn't there.
"""

import pathlib
import subprocess
import sys
import tempfile

sys.path.append(str(pathlib.Path(__file__).resolve().parent.parent / "tools"))  # whose modules the judges share

from endings import ended, refused
from listed import Listed, NoTool, end_faults, list_of
from dump_tables import smbios_files
from made_roots import anchor_of, pointer_to, put_root, table_of
from memory_dump import NotADump, NotFound, acpi_table, read_dump, read_dump_file

# Where `boot` has what is changed, in MINIMAL and in WITH_HPET.
ANCHOR, STRUCTURES, END_OF_TABLE = 0xF0000, 0x03000000, 36
RSDP, HPET, HPET_ANCHOR = 0xF0000, 0x03000000, 0xF0030
FREE = 0x02000000

NO_RAM = 0xA0000


def edited(number, line):
    """Lines with another one in the place of a line, of which the header is number 1."""
    return lambda lines: [*lines[: number - 1], line, *lines[number:]]


def inserted(number, line):
    return lambda lines: [*lines[: number - 1], line, *lines[number - 1 :]]


def without_end(lines):
    return lines[:-2] + [b""]


def upper_case(number):
    return lambda lines: edited(number, lines[number - 1].upper())(lines)


def twice(number):
    return lambda lines: inserted(number, lines[number - 1])(lines)


# What is done to the lines of MINIMAL, behind the last of which is nothing, and the fault and its line. The header is line 1, the rows
# are 2 to 6, and `end` is line 7.
TEXTS = [
    ("nothing at all", lambda lines: [], 6, 0),
    ("a top that is no MiB", edited(1, b"top 04000001 fill 00"), 1, 1),
    ("a top of 63 MiB", edited(1, b"top 03f00000 fill 00"), 1, 1),
    ("upper-case digits", upper_case(4), 2, 4),
    ("upper-case digits, and a line twice", lambda lines: twice(6)(upper_case(4)(lines)), 2, 4),
    ("a blank line", inserted(3, b""), 2, 3),
    ("an address that is no multiple of 16", edited(3, b"000f0018 " + b"11" * 16), 2, 3),
    ("a line at 000a0000", inserted(2, b"000a0000 " + b"11" * 16), 5, 2),
    ("a line twice", twice(5), 3, 6),
    ("a line of fill bytes", inserted(4, b"000f0020 " + b"00" * 16), 4, 4),
    ("no end", without_end, 6, 6),
    ("an end that is cut off", lambda lines: lines[:-1], 6, 6),
    ("a byte behind the end", lambda lines: [*lines[:-1], b"e"], 2, 8),
]


def with_byte(address, byte):
    return lambda memory: memory.write(address, bytes([byte]))


def with_anchor(table, size):
    return lambda memory: memory.write(ANCHOR, anchor_of(table, size))


# What is done to the memory of MINIMAL, what dmidecode says of it, the fault, and the place of the structure.
STRUCTURE_FAULTS = [
    ("a table cut off", with_anchor(STRUCTURES, 41), "<TRUNCATED>", 1, END_OF_TABLE),
    ("an area behind the table", with_byte(STRUCTURES + 1, 43), "<TRUNCATED>", 1, 0),
    ("a structure of 3 bytes", with_byte(STRUCTURES + 1, 3), "Invalid entry length (3)", 2, 0),
    ("a string that isn't there", with_byte(STRUCTURES + 4, 3), "<BAD INDEX>", 4, 0),
]

# The same where dmidecode says nothing but that there is no more: it can't be given a table that is no RAM.
ENDLESS = [
    ("a table without an end", with_anchor(STRUCTURES, END_OF_TABLE)),
    ("a table that is no RAM", with_anchor(NO_RAM, 42)),
]


def with_table(signature, body, entries):
    """Has a new table stand at FREE, and an XSDT of these entries in place of the one that is there."""

    def change(memory):
        memory.write(FREE, table_of(signature, body))
        memory.write(RSDP, bytes(36))
        put_root(memory, entries)

    return change


def fadt_body(dsdt):
    """What stands behind the header of an FADT that leads to a DSDT alone (ACPI 6.5, 5.2.9)."""
    return bytes(140 - 36) + dsdt.to_bytes(8, "little") + bytes(276 - 148)


# What is done to the memory of WITH_HPET, the fault, and its address.
TABLE_FAULTS = [
    ("an XSDT that is no RAM", lambda memory: memory.write(RSDP, pointer_to(NO_RAM)), 1, NO_RAM),
    ("a table that is no RAM", with_table(b"ABCD", b"", [HPET, NO_RAM]), 1, NO_RAM),
    ("another signature", with_byte(HPET + 1, ord("Q")), 2, HPET),
    ("an HPET of 55 bytes", with_byte(HPET + 4, 55), 3, HPET),
    ("an entry of 2 bytes", with_table(b"APIC", bytes(8) + b"\x00\x02", [HPET, FREE]), 4, FREE + 44),
    ("an HPET in place of the XSDT", lambda memory: memory.write(RSDP, pointer_to(HPET)), 5, HPET),
    ("an HPET twice", with_table(b"ABCD", b"", [HPET, FREE, HPET]), 6, HPET),
    ("half an allocation of an MCFG", with_table(b"MCFG", bytes(16), [HPET, FREE]), 3, FREE),
    ("an MCFG twice", with_table(b"MCFG", bytes(8), [FREE, HPET, FREE]), 6, FREE),
    ("an HPET in place of the DSDT", with_table(b"FACP", fadt_body(HPET), [FREE]), 5, HPET),
]

SUM_COMPLAINT = "Incorrect checksum"


def changed(memory, change):
    other = memory.copy()
    change(other)
    return other


def said_of(tool, *words, content):
    """What a tool says of a file of this content, whatever its status."""
    with tempfile.TemporaryDirectory() as folder:
        pathlib.Path(folder, "given.aml").write_bytes(content)
        try:
            run = subprocess.run([tool, *words, "given.aml"], cwd=folder, capture_output=True, stdin=subprocess.DEVNULL)
        except FileNotFoundError as refusal:
            raise NoTool(f"{tool} isn't there") from refusal
    return (run.stdout + run.stderr).decode("latin-1")


def dmidecode_of(memory):
    return said_of("dmidecode", "--from-dump", content=smbios_files(memory)["smbios.bin"])


def iasl_of(memory):
    return said_of("iasl", "-d", content=acpi_table(memory, HPET))


def is_refused(text):
    try:
        read_dump(text)
    except NotADump:
        return True
    return False


def text_cases(minimal):
    lines = minimal.split(b"\n")
    for what, edit, fault, line in TEXTS:
        text = b"\n".join(edit(lines))
        told = [] if is_refused(text) else ["tools/memory_dump.py refuses nothing"]
        yield what, text, 6, f"dump: fault {fault} line {line}", told


def complaint_faults(tool, word, before, said):
    """What is wrong with what a tool says of a memory without a fault, and with one."""
    if word in before or word not in said:
        yield f"{tool} doesn't say {word!r}, or says it without the fault, too: {said}"


def structure_cases(memory):
    before = dmidecode_of(memory)
    for what, change, word, fault, place in STRUCTURE_FAULTS:
        other = changed(memory, change)
        told = [*complaint_faults("dmidecode", word, before, dmidecode_of(other))]
        yield what, other, 7, f"tables: smbios fault {fault} at {place}", told
    for what, change in ENDLESS:
        yield what, changed(memory, change), 7, "tables: smbios fault 3 at 0", []


def table_cases(memory):
    before = iasl_of(memory)
    for what, change, fault, address in TABLE_FAULTS:
        other = changed(memory, change)
        told = [*complaint_faults("iasl", SUM_COMPLAINT, before, iasl_of(other))] if fault == 2 else []
        yield what, other, 7, f"tables: acpi fault {fault} at {address:016x}", told
    both = changed(changed(memory, with_byte(HPET + 1, ord("Q"))), lambda other: other.write(HPET_ANCHOR, anchor_of(NO_RAM, 42)))
    yield "a fault of both", both, 7, f"tables: acpi fault 2 at {HPET:016x}", []


def is_found(listed, status, line):
    """Whether what is wrong is found, where the status or a byte of the line is another one."""
    wrong = [Listed(status + 1, "", f"{line}\n"), Listed(status, "", f"{line}0\n"), Listed(status, "", line), Listed(status, "", "")]
    return all([*end_faults(one, status, line)] for one in wrong)


def case_faults(program, case):
    what, given, status, line, told = case
    listed, decoded = list_of(program, given), list_of(program, given, options=())
    yield from (f"{what}: {fault}" for fault in [*end_faults(listed, status, line), *told])
    yield from (f"{what}, decoded: {fault}" for fault in end_faults(decoded, status, line))
    if not is_found(listed, status, line):
        yield f"no judge: {what}: nothing is wrong with another line"


def base_faults(program, what, dump):
    listed = list_of(program, dump)
    if listed.status != 0:
        yield f"{what}: status {listed.status}: {listed.said.strip()}"


def judge(program, minimal, with_hpet):
    """Prints what is wrong, or what is right; returns the status."""
    cases = [*text_cases(minimal), *structure_cases(read_dump(minimal)), *table_cases(read_dump(with_hpet))]
    faults = [*base_faults(program, "MINIMAL", minimal), *base_faults(program, "WITH_HPET", with_hpet)]
    for case in cases:
        faults += case_faults(program, case)
    for line in faults or [f"bad dumps and memories: {len(cases)}, each refused by its line"]:
        print(line)
    return 1 if faults else 0


def made_dump(name, anchor):
    """The bytes of a dump whose anchor stands where `boot` has it."""
    if read_dump_file(name).find(b"_SM3_", ANCHOR, 0x100000) != anchor:
        raise NotADump(f"{name} isn't the dump that is asked for: no anchor is at {anchor:#x}, or one is below")
    return pathlib.Path(name).read_bytes()


def main(program, *dumps):
    try:
        return judge(program, *(made_dump(*made) for made in zip(dumps, (ANCHOR, HPET_ANCHOR))))
    except NoTool as refusal:
        print(f"judge_bad_dumps.py: {refusal}", file=sys.stderr)
        return 3
    except (OSError, NotADump, NotFound) as refusal:
        return refused(refusal)


if __name__ == "__main__":
    if len(sys.argv) != 4:
        sys.exit("usage: judge_bad_dumps.py PROGRAM MINIMAL WITH_HPET")
    sys.exit(ended(main, sys.argv[1:]))
