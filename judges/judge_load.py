#!/usr/bin/env python3
"""Judges the dump that `vmtables load` makes of a container (docs/FORMATS.md has both). It is no part of the product: it serves the
checks of judges/run.sh alone.

usage: judge_load.py CONTAINER DUMP TOP_MIB FILL [MACHINE]

MACHINE is pc or q35, where the container has the files of that machine of QEMU (tools/qemu_machine.py). What must hold is what a firmware has to
make of the files by QEMU's docs/specs/fw_cfg and hw/acpi/bios-linker-loader.c:

- each file that a command allocates stands at one place of its zone, aligned and apart from the others, with its bytes but for
  its pointers and its sums, and all other memory holds FILL;
- each pointer is the place of the file that it leads to plus the number that it held;
- each range that a command sums is zero in sum, and so are the RSDP and each ACPI table that it leads to (ACPI 6.5, 5.2), but
  for the FACS, which has no sum;
- where MACHINE has an id of its generation, the number `VGIA` of an SSDT and 40 more are where it stands, its first three fields low byte
  first (QEMU's hw/acpi/vmgenid.c and docs/specs/vmgenid.rst).

Then it must find a fault wherever one of these bits is flipped: of the first byte of a file, of each pointer and each sum, of the first and
the last byte of memory, and of the id.

Status 0: all of this holds; 1: something doesn't, each with a line; 2: CONTAINER is no container, or DUMP is no dump.
"""

import pathlib
import sys
import uuid

sys.path.append(str(pathlib.Path(__file__).resolve().parent.parent / "tools"))  # whose modules the judges share

from endings import ended, number_of, refused
from fw_cfg_files import SCRIPT, AddChecksum, AddPointer, Allocate, NotAContainer, read_container_file, read_script
from memory_dump import NotADump, NotFound, byte_sum, number_at, reachable_tables, read_dump_file, root_pointer, root_table
from qemu_machine import MACHINES

RSDP = "etc/acpi/rsdp"
HIGH, F_SEGMENT = 1, 2
HIGH_SIZE = 16 << 20

# The number of an SSDT, a double word, that is the place of the file with the id of a generation, where the id is in that file, how many
# bytes it has, and how QEMU is asked to have one.
PLACE_OF_ID, ID_OFFSET, ID_SIZE = b"\x08VGIA\x0c", 40, 16
ASKED_ID = "vmgenid,guid="


class Image:
    """The files of a container, the commands of their script, which bytes of a file no command changes, and the id of a generation to which
    a table must lead, or None.
    """

    def __init__(self, files, generation=None):
        if SCRIPT not in files:
            raise NotAContainer(f"it has no {SCRIPT}")
        self.files = files
        self.generation = generation
        script = read_script(files[SCRIPT])
        self.allocates = [command for command in script if isinstance(command, Allocate)]
        self.pointers = [command for command in script if isinstance(command, AddPointer)]
        self.sums = [command for command in script if isinstance(command, AddChecksum)]
        self.check()
        self.kept = {allocate.file: self.kept_runs(allocate.file) for allocate in self.allocates}

    def check(self):
        placed = [allocate.file for allocate in self.allocates]
        if len(set(placed)) < len(placed) or not set(placed) <= self.files.keys():
            raise NotAContainer("its script allocates a file twice, or one that isn't there")
        if any(allocate.align == 0 or allocate.zone not in (HIGH, F_SEGMENT) for allocate in self.allocates):
            raise NotAContainer("its script allocates a file in no zone, or without an alignment")
        for file, end in self.ends():
            if file not in placed or end > len(self.files[file]):
                raise NotAContainer(f"its script doesn't allocate {file}, or goes past its end")

    def ends(self):
        """Each file that a command needs, and where in it the bytes end that it needs."""
        for pointer in self.pointers:
            yield pointer.dest, pointer.offset + pointer.size
            yield pointer.src, 0
        for total in self.sums:
            yield total.file, total.offset + 1
            yield total.file, total.start + total.length

    def kept_runs(self, file):
        """The ranges of a file that stand in memory as they are."""
        changed = [(pointer.offset, pointer.offset + pointer.size) for pointer in self.pointers if pointer.dest == file]
        changed += [(total.offset, total.offset + 1) for total in self.sums if total.file == file]
        runs, at = [], 0
        for start, end in sorted(changed):
            runs.append((at, start))
            at = max(at, end)
        runs.append((at, len(self.files[file])))
        return [(start, end) for start, end in runs if start < end]

    def is_kept(self, file, content):
        return all(content[start:end] == self.files[file][start:end] for start, end in self.kept[file])

    def held(self, pointer):
        return number_at(self.files[pointer.dest], pointer.offset, pointer.size)


def zone_of(memory, zone):
    return (memory.top - HIGH_SIZE, memory.top) if zone == HIGH else (0xF0000, 0x100000)


def pointer_in(memory, places, pointer):
    what = f"the pointer at {pointer.offset:#x} of {pointer.dest}"
    return number_at(memory.read(places[pointer.dest] + pointer.offset, pointer.size, what), 0, pointer.size)


def places_of(image, memory):
    """Where files stand: those of the F segment where alone their bytes are, and then each file that a pointer leads to."""
    places = {}
    for allocate in image.allocates:
        found = found_in_segment(image, memory, allocate) if allocate.zone == F_SEGMENT else []
        if len(found) == 1:
            places[allocate.file] = found[0]
    before = None
    while len(places) != before:
        before = len(places)
        for pointer in image.pointers:
            if pointer.dest in places and pointer.src not in places:
                places[pointer.src] = pointer_in(memory, places, pointer) - image.held(pointer)
    return places


def found_in_segment(image, memory, allocate):
    start, end = zone_of(memory, F_SEGMENT)
    segment, size = memory.read(start, end - start, "the F segment"), len(image.files[allocate.file])
    offsets = range(0, end - start - size + 1, allocate.align)
    return [start + at for at in offsets if image.is_kept(allocate.file, segment[at : at + size])]


def place_faults(image, memory, places):
    for allocate in image.allocates:
        if allocate.file not in places:
            yield f"{allocate.file}: it isn't found at one place of the F segment, and no pointer leads to it"
            continue
        start = places[allocate.file]
        end = start + len(image.files[allocate.file])
        low, high = zone_of(memory, allocate.zone)
        if start % allocate.align != 0 or not low <= start <= end <= high:
            yield f"{allocate.file}: {start:#x} to {end:#x} isn't aligned to {allocate.align}, or not in {low:#x} to {high:#x}"
        elif not image.is_kept(allocate.file, memory.read(start, end - start, allocate.file)):
            yield f"{allocate.file}: its bytes at {start:#x} aren't those of the container, pointers and sums aside"


def spans_of(image, places):
    return sorted((place, place + len(image.files[file]), file) for file, place in places.items())


def apart_faults(spans):
    for (_, end, file), (start, _, other) in zip(spans, spans[1:]):
        if start < end:
            yield f"{other}: it stands at {start:#x}, where {file} still stands"


def pointer_faults(image, memory, places):
    for pointer in image.pointers:
        if pointer.dest in places and pointer.src in places:
            found, wanted = pointer_in(memory, places, pointer), places[pointer.src] + image.held(pointer)
            if found != wanted:
                yield f"{pointer.dest}: the pointer at {pointer.offset:#x} is {found:#x}, and should be {wanted:#x}"


def sum_faults(image, memory, places):
    for total in image.sums:
        if total.file in places:
            content = memory.read(places[total.file] + total.start, total.length, total.file)
            if byte_sum(content) != 0:
                yield f"{total.file}: {total.length} bytes at {total.start:#x} sum to {byte_sum(content):#x}"


def other_faults(memory, spans):
    """The least byte outside the files that isn't the fill byte."""
    for row, content in memory.rows.items():
        if any(start <= row and row + 16 <= end for start, end, _ in spans):
            continue
        for at, byte in enumerate(content, start=row):
            if byte != memory.fill[0] and not any(start <= at < end for start, end, _ in spans):
                yield f"{at:#x}: no file stands here, and it holds {byte:#04x}"
                return


def tables_of(memory):
    """The ACPI tables that a guest reaches from the RSDP, where there is one."""
    pointer = root_pointer(memory)
    if pointer is not None:
        yield from reachable_tables(memory, root_table(memory, pointer))


def acpi_faults(image, memory):
    pointer = root_pointer(memory)
    if pointer is None and RSDP in image.files:
        yield "the memory has no RSDP"
    if pointer is not None and (byte_sum(pointer[:20]) != 0 or (pointer[15] >= 2 and byte_sum(pointer) != 0)):
        yield "the RSDP doesn't sum to zero"
    for table in tables_of(memory):
        if table[:4] != b"FACS" and byte_sum(table) != 0:
            yield f"the ACPI table {table[:4]!r} sums to {byte_sum(table):#x}"


def id_asked(machine):
    """The id of the generation that a machine of QEMU is asked to have, as it stands in memory, or None."""
    asked = (option.removeprefix(ASKED_ID) for option in MACHINES[machine] if option.startswith(ASKED_ID))
    return next((uuid.UUID(guid).bytes_le for guid in asked), None)


def id_address(memory):
    """Where an SSDT says that the id of the generation is."""
    for table in tables_of(memory):
        at = table.find(PLACE_OF_ID)
        if table[:4] == b"SSDT" and at >= 0:
            return number_at(table, at + len(PLACE_OF_ID), 4) + ID_OFFSET
    raise NotFound("no SSDT leads to the id of the generation")


def id_faults(image, memory):
    if image.generation is not None:
        at = id_address(memory)
        found = memory.read(at, ID_SIZE, "the id of the generation")
        if found != image.generation:
            yield f"at {at:#x}, to which an SSDT leads, stands {found.hex()}, and not the id {image.generation.hex()}"


def each_fault(image, memory):
    places = places_of(image, memory)
    spans = spans_of(image, places)
    yield from place_faults(image, memory, places)
    yield from apart_faults(spans)
    yield from other_faults(memory, spans)
    yield from pointer_faults(image, memory, places)
    yield from sum_faults(image, memory, places)
    yield from acpi_faults(image, memory)
    yield from id_faults(image, memory)


def faults_of(image, memory):
    faults = []
    try:
        for fault in each_fault(image, memory):
            faults.append(fault)
    except NotFound as refusal:
        faults.append(str(refusal))
    return faults


def flips(image, memory):
    """Addresses of bytes that can't be otherwise."""
    places = places_of(image, memory)
    yield from (0, memory.top - 1)
    for file, place in places.items():
        yield from (place + start for start, _ in image.kept[file][:1])
    yield from (places[pointer.dest] + pointer.offset for pointer in image.pointers)
    yield from (places[total.file] + total.offset for total in image.sums)
    if image.generation is not None:
        yield id_address(memory)


def head_faults(memory, top_mib, fill):
    if memory.top != top_mib << 20 or memory.fill[0] != fill:
        yield f"the dump is one of top {memory.top:#x} and fill {memory.fill[0]:#04x}"


def judge(image, memory):
    """Prints what is wrong, or what is right; returns the status."""
    faults = faults_of(image, memory)
    missed = [] if faults else [at for at in flips(image, memory) if not faults_of(image, memory.flipped(at))]
    for line in [*faults, *(f"no judge: nothing is wrong with a bit flipped at {at:#x}" for at in missed)]:
        print(line)
    if faults or missed:
        return 1
    names = " ".join(table[:4].decode("latin-1") for table in tables_of(memory))
    counts = f"files: {len(image.allocates)}, pointers: {len(image.pointers)}, sums: {len(image.sums)}"
    its_id = "" if image.generation is None else f", the id of the generation: at {id_address(memory):#x}"
    print(f"{counts}, ACPI tables: {names or 'none'}{its_id}; all as they should be, and each flipped bit is found")
    return 0


def main(container, dump, top_mib, fill, machine=None):
    try:
        image = Image(read_container_file(container), None if machine is None else id_asked(machine))
        memory = read_dump_file(dump)
    except (OSError, NotAContainer, NotADump) as refusal:
        return refused(refusal)
    wrong_head = [*head_faults(memory, number_of(top_mib, "TOP_MIB"), number_of(fill, "FILL", base=16))]
    for line in wrong_head:
        print(line)
    return judge(image, memory) or len(wrong_head)


if __name__ == "__main__":
    if len(sys.argv) not in (5, 6) or not {*sys.argv[5:]} <= MACHINES.keys():
        sys.exit("usage: judge_load.py CONTAINER DUMP TOP_MIB FILL [pc|q35]")
    sys.exit(ended(main, sys.argv[1:]))
