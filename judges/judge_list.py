#!/usr/bin/env python3
"""Judges what `vmtables decode --list` prints of dumps (docs/FORMATS.md) by what dmidecode and iasl tell of the same memory. It is no part
of the product: it serves the checks of judges/run.sh alone.

usage: judge_list.py PROGRAM dump DUMP          a dump that `boot` made
       judge_list.py PROGRAM machine MACHINE    the memory of a machine of QEMU, pc, q35, isapc or microvm, once its firmware is through
       judge_list.py PROGRAM ovmf               that of a q35 whose firmware is OVMF, with its anchors where a PC has them
       judge_list.py PROGRAM guest DUMP         the memory of a pc or a q35, as a dump
       judge_list.py PROGRAM expected FOLDER    memories of guests, NAME.dump.gz, with what is to be listed of them, NAME.expect
       judge_list.py PROGRAM loaded CONTAINER   the memory that `load` leaves of the files that such a machine gives its firmware
       judge_list.py PROGRAM templates          tables that iasl makes of its own templates

PROGRAM stands for ./vmtables. What must hold:

- the version, the types and the handles of the structures are those that dmidecode prints, in its order; each table that the least root
  pointer of revision 2 leads to is there once, by the signature and the length that iasl tells;
- a DSDT behind an FADT has a second line, with its length, where iasl's text of it has anything but scopes, devices and names of plain values;
  that of a dump gets one where its first device becomes a thermal zone; and what a dump has is listed alike by `--any`;
- a machine's memory, saved by the monitor's pmemsave and made a dump by tools/make_dump.py, and that of its files once they are loaded, is listed as it
  is: with `--legacy` there is each table to which its root pointer of revision 0 and its RSDT lead, among them the FADT, which is shorter than 276
  bytes, and what that leads to; without it there is none. It has the structures of its firmware, those of an anchor of 24 bytes with
  `smbios-entry-point-type=64`, and else with `--smbios2` those of one of 31; and `--any` lists both, whatever the machine has;
- the files of a pc or a q35, once `load --install` has loaded them, have the structures that its guest has, but for a type 0 which its firmware
  puts in front; an isapc gives no such files, fault 1, and has what SeaBIOS makes, version 2.4.0 with 10 structures;
- the memory of a microvm, and that which OVMF leaves, with an XSDT and an FADT shorter than 276 bytes, is listed by `--any`, and without it fault 3
  of the FADT is told;
- all tables of iasl's templates are listed, but those of LEFT_OUT, and behind an FADT a FACS and a DSDT, too, also one that iasl compiles of
  each kind of value.

Then some bits are flipped (judges/listed.py), each of which must be found.

Status 0: all of this holds; 1: something doesn't, each with a line; 2: the dump is none, or a tool tells nothing of it; 3: a program isn't
there, or the machine doesn't answer.
"""

import gzip
import pathlib
import re
import subprocess
import sys
import tempfile

sys.path.append(str(pathlib.Path(__file__).resolve().parent.parent / "tools"))  # whose modules the judges share

from judge_aml import compiled, names
from endings import ended, refused
from listed import ANY_LIST, GUEST_LIST, LEGACY_LIST, LIST, OLD_LIST, SHOWN, NoTool, NotTold, end_faults, judged, list_of, structure_lines, told_by
from made_roots import put_root, summed, table_of
from memory_dump import UPPER_WINDOW_SIZE, Memory, NotADump, NotFound, acpi_table, byte_sum, led_addresses, listed_addresses, listed_tables
from memory_dump import read_dump, read_dump_file, root_pointer, root_table, smbios_anchor
from qemu_files import settled_container
from qemu_machine import MACHINES, OTHERS, Machine, NoAnswer

MAKE_DUMP = pathlib.Path(__file__).resolve().parent.parent / "tools" / "make_dump.py"

TOP_MIB = 128
NEW_ANCHOR = ["-machine", "smbios-entry-point-type=64"]

# OVMF, how long it gets and its machine with it, and where its anchors are put: how they begin, how many bytes they have, and the place
# (docs/USES.md). It leaves them in the upper half of high memory.
OVMF = "/usr/share/ovmf/OVMF.fd"
OVMF_SECONDS, OVMF_MACHINE_SECONDS = 60, 90
SETTLING = 5  # how often its machine runs for a moment once the tables are there
MENDED = [(b"_SM3_", 24, 0xF0000), (b"RSD PTR ", 36, 0xF0020)]
UPPER_HALF = 16 << 20

# What is right of lists.
AS_TOLD, AS_EXPECTED = "as others tell them, and each flipped bit is found", "each ends as it is to"

ISAPC_STRUCTURES = "smbios 2.4.0 structures 10"  # what SeaBIOS makes by itself

# What a machine is asked to have beside: the q35 has two nodes, so that it has an SRAT and a SLIT.
NODES = [
    *("-object", "memory-backend-ram,id=memory0,size=64M", "-numa", "node,nodeid=0,cpus=0-1,memdev=memory0"),
    *("-object", "memory-backend-ram,id=memory1,size=64M", "-numa", "node,nodeid=1,cpus=2-3,memdev=memory1"),
    *("-numa", "dist,src=0,dst=1,val=21"),
]
MORE = {"pc": [], "q35": NODES, "isapc": [], "microvm": []}

# The tables of iasl's templates that an XSDT can't name: the RSDP has no table's header, and the FACS and the S3PT have no sum. The FADT
# leads to a FACS and a DSDT at address 1, where none stands.
LEFT_OUT = [b"RSD ", b"FACS", b"S3PT", b"FACP"]

FADT_TEMPLATE_FAULT = "tables: acpi fault 5 at 0000000000000001"

# How a device begins, and a thermal zone, of which all else is spelled alike (ACPI 6.5, 20.2.5.2).
DEVICE, THERMAL_ZONE = b"\x5b\x82", b"\x5b\x85"


def machine_dump(machine_name, options):
    """The dump that is made of what the monitor saves."""
    with a_machine(machine_name, options) as machine:
        machine.run_firmware()
        return saved_dump(machine)


def files_and_dump(machine_name):
    """The container of a machine's files, and the dump."""
    with a_machine(machine_name, []) as machine:
        return settled_container(machine), saved_dump(machine)


def a_machine(machine_name, options):
    return Machine(machine_name, ["-m", str(TOP_MIB), *MORE[machine_name], *options])


def saved_dump(machine, change=None):
    """The dump of a machine's memory, in whose files something is changed first, if that is asked."""
    with tempfile.TemporaryDirectory() as folder:
        low, high = pathlib.Path(folder, "low.bin"), pathlib.Path(folder, "high.bin")
        machine.save_memory(0, 0x100000, low)
        machine.save_memory((TOP_MIB << 20) - UPPER_WINDOW_SIZE, UPPER_WINDOW_SIZE, high)
        if change is not None:
            change(low, high)
        run = subprocess.run([MAKE_DUMP, low, high, str(TOP_MIB)], capture_output=True)
    if run.returncode != 0:
        raise NotADump(run.stderr.decode())
    return run.stdout


def ovmf_dump():
    """The dump of a q35 whose firmware is OVMF, mended as docs/USES.md does."""
    if not pathlib.Path(OVMF).exists():
        raise NoAnswer(f"{OVMF} isn't there")
    options = ["-m", str(TOP_MIB), *NODES, *NEW_ANCHOR, "-bios", OVMF]
    with tempfile.TemporaryDirectory() as folder:
        upper = pathlib.Path(folder, "upper.bin")
        with Machine("q35", options, OVMF_MACHINE_SECONDS) as machine:

            def has_tables():
                machine.save_memory((TOP_MIB << 20) - UPPER_HALF, UPPER_HALF, upper)
                return leads_to_fadt(upper.read_bytes())

            machine.run_until(has_tables, "OVMF has left no anchors that lead to tables", OVMF_SECONDS)
            for _ in range(SETTLING):
                machine.run()
            return saved_dump(machine, mend)


def leads_to_fadt(upper):
    """Whether the upper half of high memory has both anchors, and an FADT among the tables."""
    anchors = [*anchors_in(upper)]
    if None in anchors:
        return False
    memory = Memory(TOP_MIB << 20, 0)
    memory.put(memory.top - UPPER_HALF, upper)
    try:
        return any(table[:4] == b"FACP" for table in listed_tables(memory, root_table(memory, anchors[1])))
    except NotFound:
        return False


def anchors_in(memory):
    """The first of each kind of anchor that sums to zero, or None."""
    for letters, size, _ in MENDED:
        found = (memory[at.start() :][:size] for at in re.finditer(letters, memory))
        yield next((anchor for anchor in found if byte_sum(anchor) == 0), None)


def mend(low_file, high_file):
    low, high = bytearray(low_file.read_bytes()), high_file.read_bytes()
    high = bytes(UPPER_HALF) + high[UPPER_HALF:]
    for (_, size, place), anchor in zip(MENDED, anchors_in(high)):
        low[place : place + size] = anchor
    low_file.write_bytes(low)
    high_file.write_bytes(high)


def rooted(memory, entries):
    other = memory.copy()
    put_root(other, entries)
    return other


def judge_memory(program, what, memory, options=LIST):
    """The faults of a memory's list, each with what the memory is; and a line that says what is right, where nothing is wrong."""
    faults, count = judged(program, memory, options)
    return [f"{what}: {fault}" for fault in faults], f"{what}: {count} lines"


def judge_end(program, what, memory, line):
    return [f"{what}: {fault}" for fault in end_faults(list_of(program, memory), 7, line)], f"{what}: {line}"


def dsdt_address(memory):
    """Where the DSDT stands to which an FADT leads, or None."""
    pointer = root_pointer(memory)
    tables = [] if pointer is None else listed_tables(memory, root_table(memory, pointer))
    addresses = [address for fadt in tables if fadt[:4] == b"FACP" for address in led_addresses(fadt)]
    return next((address for address in addresses if memory.read(address, 4, "a signature") == b"DSDT"), None)


def with_thermal_zone(memory, address):
    """The memory with a thermal zone in place of the first device of the DSDT at the address."""
    other, table = memory.copy(), acpi_table(memory, address)
    other.write(address, summed(table.replace(DEVICE, THERMAL_ZONE, 1), 9))
    return other


def judge_dump(program, dump):
    memory = read_dump_file(dump)
    yield judge_memory(program, "the dump", memory)
    yield judge_memory(program, "the dump with --any", memory, ANY_LIST)
    address = dsdt_address(memory)
    if address is not None and DEVICE in acpi_table(memory, address):
        yield judge_memory(program, "with a thermal zone", with_thermal_zone(memory, address))


def judge_as_it_is(program, what, memory):
    """A machine's memory, listed in both forms. It must have a root pointer of revision 0."""
    pointer = root_pointer(memory)
    if pointer is None or pointer[15] >= 2:
        raise NotFound(f"{what} has no root pointer of revision 0")
    for options in (LEGACY_LIST, LIST, GUEST_LIST, ANY_LIST):
        yield judge_memory(program, f"{what}, {' '.join(options)}", memory, options)


def judge_machine(program, machine_name):
    match machine_name:
        case "isapc":
            yield from judge_isapc(program)
        case "microvm":
            yield from judge_short_fadt(program, "its memory", read_dump(machine_dump(machine_name, [])))
        case _:
            yield from judge_files_machine(program, machine_name)


def judge_files_machine(program, machine_name):
    """A machine that gives its firmware SMBIOS files, with each form of the anchor."""
    memory = read_dump(machine_dump(machine_name, NEW_ANCHOR))
    if memory.find(b"_SM3_", 0xF0000, 0x100000) is None:
        raise NotFound("the machine has no SMBIOS anchor of 24 bytes")
    yield from judge_as_it_is(program, "its memory", memory)
    container, dump = files_and_dump(machine_name)
    memory = read_dump(dump)
    yield from judge_as_it_is(program, "that of one with an anchor of 31 bytes", memory)
    yield judge_installed(program, container, memory)


def judge_installed(program, container, guest):
    """The structures of a machine's files once they are installed, beside those of its guest."""
    run = loaded_by(program, container, "--install", "--top", str(TOP_MIB))
    if run.returncode != 0:
        return [f"its files aren't installed: {run.stderr.decode('latin-1').strip()}"], ""
    (head, *lines), (guest_head, *guest_lines) = (structure_lines(memory, OLD_LIST) for memory in (read_dump(run.stdout), guest))
    ours, theirs = (structures_of(memory) for memory in (read_dump(run.stdout), guest))
    in_front = theirs[: -len(ours)]
    faults = [] if theirs.endswith(ours) and in_front[:1] in (b"", b"\0") else ["the structures of its guest don't end in those that are installed"]
    faults += [] if head.split()[1] == guest_head.split()[1] else [f"{head} is installed, and its guest has {guest_head}"]
    faults += [] if guest_lines[-len(lines) :] == lines and len(guest_lines) <= len(lines) + 1 else [f"{lines} are installed, and its guest has {guest_lines}"]
    return [f"its files: {fault}" for fault in faults], f"its files, installed: {len(lines)} structures, as its guest has them"


def structures_of(memory):
    """The bytes of the structures to which the old anchor leads."""
    anchor = smbios_anchor(memory)
    return memory.read(anchor.table, anchor.size, "the structures")


def judge_isapc(program):
    """A machine without files of SMBIOS and ACPI, for which SeaBIOS makes structures by itself."""
    container, dump = files_and_dump("isapc")
    memory = read_dump(dump)
    for options in (LIST, GUEST_LIST, ANY_LIST):
        yield judge_memory(program, f"its memory, {' '.join(options)}", memory, options)
    head = list_of(program, memory, GUEST_LIST).out.partition("\n")[0]
    yield [] if head == ISAPC_STRUCTURES else [f"its list begins with {head!r} in place of {ISAPC_STRUCTURES!r}"], ISAPC_STRUCTURES
    run = loaded_by(program, container, "--install")
    said = run.stderr.decode("latin-1").strip()
    yield [] if (run.returncode, said) == (5, "install: fault 1") else [f"of its files status {run.returncode} and {said!r} is told"], said


def judge_short_fadt(program, what, memory):
    """A memory with an XSDT and an FADT of less than 276 bytes."""
    pointer = root_pointer(memory)
    if pointer is None or pointer[15] < 2:
        raise NotFound(f"{what} has no root pointer of revision 2")
    addresses = listed_addresses(root_table(memory, pointer))
    fadt = next((address for address in addresses if acpi_table(memory, address)[:4] == b"FACP"), None)
    size = 276 if fadt is None else len(acpi_table(memory, fadt))
    if size >= 276:
        raise NotFound(f"{what} has no FADT of less than 276 bytes")
    yield judge_memory(program, f"{what}, --list --any, an FADT of {size} bytes", memory, ANY_LIST)
    yield judge_end(program, f"{what}, --list", memory, f"tables: acpi fault 3 at {fadt:016x}")


def judge_ovmf(program):
    yield from judge_short_fadt(program, "its memory", read_dump(ovmf_dump()))


def judge_guest(program, dump):
    yield from judge_as_it_is(program, "its memory", read_dump_file(dump))


def judge_expected(program, folder):
    """Memories of guests, each with how some calls of it are to end: behind each line `## WORDS -> status N` what the call writes."""
    names = sorted(pathlib.Path(folder).glob("*.expect"))
    if not names:
        raise NotFound(f"{folder} has no guest")
    for name in names:
        given = gzip.decompress(name.with_suffix(".dump.gz").read_bytes())
        calls = re.findall(r"## (.*) -> status (\d+)\n((?:(?!## ).*\n)*)", name.read_text())
        for words, status, out in calls:
            run = subprocess.run([program, *words.split()], input=given, capture_output=True)
            ended = (run.returncode, run.stdout.decode("latin-1"))
            yield [] if ended == (int(status), out) else [f"{name.stem}: {words}: {ended} in place of {(int(status), out)}"], f"{name.stem}: {words}"


def loaded_by(program, container, *words):
    return subprocess.run([program, "load", *words], input=container, capture_output=True)


def judge_loaded(program, container):
    run = loaded_by(program, pathlib.Path(container).read_bytes())
    if run.returncode != 0:
        raise NotADump(f"{container} isn't loaded: {run.stderr.decode('latin-1').strip()}")
    yield from judge_as_it_is(program, "the memory of its files", read_dump(run.stdout))


def templates():
    """The tables that iasl makes of its templates, by their signatures."""
    with tempfile.TemporaryDirectory() as folder:
        told_by(folder, "iasl", "-T", "ALL")
        told_by(folder, "iasl", *sorted(source.name for source in pathlib.Path(folder).glob("*.asl")))
        made = [table.read_bytes() for table in sorted(pathlib.Path(folder).glob("*.aml"))]
    return {table[:4]: table for table in made}


def devices_table():
    """A DSDT of the terms that iasl compiles of each kind of value."""
    with tempfile.TemporaryDirectory() as folder:
        return table_of(b"DSDT", compiled(pathlib.Path(folder), names()))


def placed(memory, tables):
    """The addresses of tables, one behind the other in the middle of high memory."""
    addresses, at = [], memory.top - UPPER_WINDOW_SIZE // 2
    for table in tables:
        memory.write(at, table)
        addresses.append(at)
        at += len(table)
    return addresses


def linked(fadt, facs, dsdt):
    """A memory with an FADT that leads to a FACS and a DSDT, and the addresses of the FADT and the DSDT."""
    memory = Memory(64 << 20, 0)
    facs_at, dsdt_at, fadt_at = placed(memory, [facs, dsdt, fadt])
    links = facs_at.to_bytes(8, "little") + dsdt_at.to_bytes(8, "little")
    memory.write(fadt_at, summed(fadt[:132] + links + fadt[148:], 9))
    return memory, fadt_at, dsdt_at


def judge_templates(program):
    made = templates()
    fadt, facs, dsdt = made[b"FACP"], made[b"FACS"], made[b"DSDT"]
    memory = Memory(64 << 20, 0)
    addresses = placed(memory, [table for signature, table in made.items() if signature not in LEFT_OUT])
    yield judge_memory(program, "iasl's templates", rooted(memory, addresses))
    memory = Memory(64 << 20, 0)
    yield judge_end(program, "its FADT", rooted(memory, placed(memory, [fadt])), FADT_TEMPLATE_FAULT)
    memory, fadt_at, dsdt_at = linked(fadt, facs, dsdt)
    yield judge_memory(program, "its FADT with a FACS and a DSDT", rooted(memory, [fadt_at, dsdt_at]))
    memory, fadt_at, _ = linked(fadt, facs, devices_table())
    yield judge_memory(program, "with a DSDT of each kind of value", rooted(memory, [fadt_at]))


JUDGES = {
    **{"dump": judge_dump, "machine": judge_machine, "ovmf": judge_ovmf, "guest": judge_guest, "expected": judge_expected},
    **{"loaded": judge_loaded, "templates": judge_templates},
}


def report(findings, how):
    """Prints what is wrong, or what is right; returns the status."""
    faults = [fault for found, _ in findings for fault in found]
    if not faults:
        print(f"{'; '.join(right for _, right in findings)}; {how}")
        return 0
    for line in faults[:SHOWN]:
        print(line)
    if faults[SHOWN:]:
        print(f"and {len(faults) - SHOWN} more")
    return 1


def main(program, kind, *words):
    try:
        return report([*JUDGES[kind](program, *words)], AS_EXPECTED if kind == "expected" else AS_TOLD)
    except (NoTool, NoAnswer) as refusal:
        print(f"judge_list.py: {refusal}", file=sys.stderr)
        return 3
    except (OSError, NotADump, NotFound, NotTold) as refusal:
        return refused(refusal)


def is_lawful(words):
    match words:
        case [_, "dump" | "guest" | "expected" | "loaded", _] | [_, "ovmf" | "templates"]:
            return True
        case [_, "machine", machine]:
            return machine in {**MACHINES, **OTHERS}
    return False


if __name__ == "__main__":
    if not is_lawful(sys.argv[1:]):
        sys.exit("usage: judge_list.py PROGRAM dump DUMP|machine MACHINE|ovmf|guest DUMP|expected FOLDER|loaded CONTAINER|templates")
    sys.exit(ended(main, sys.argv[1:]))
