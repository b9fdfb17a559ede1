#!/usr/bin/env python3
"""Judges the dump that `vmtables load` makes of the files of a machine of QEMU by the memory that SeaBIOS, the machine's firmware, leaves
of them. It is no part of the product: it serves the checks of judges/run.sh alone.

usage: judge_guest.py MACHINE TOP_MIB PROGRAM

MACHINE is pc or q35, of TOP_MIB MiB of memory, 64 to 2048. The firmware runs, and then PROGRAM, which stands for ./vmtables, gets the
machine's files as `load --policy top --top TOP_MIB`: SeaBIOS, too, takes the greatest free place. What must hold:

- each file that the script places in high memory stands in the guest's memory where it stands in the dump;
- each that it places in the F segment, which is the RSDP, stands in both, at places that may differ: SeaBIOS keeps a part of the
  segment for itself;
- each row of 16 bytes of these files is the same in both, and the dump has no other.

Status 0: all of this holds; 1: something doesn't, each with a line; 2: PROGRAM fails or gives no dump, or the files make no container;
3: QEMU isn't there or doesn't start the machine, or the machine doesn't answer, or its firmware isn't through in time.
"""

import pathlib
import subprocess
import sys

sys.path.append(str(pathlib.Path(__file__).resolve().parent.parent / "tools"))  # whose modules the judges share

from judge_load import F_SEGMENT, HIGH, Image, head_faults, other_faults, places_of, spans_of, zone_of
from endings import ended, number_of
from fw_cfg_files import NotAContainer, read_container
from memory_dump import Memory, NotADump, NotFound, read_dump
from qemu_files import settled_container
from qemu_machine import MACHINES, Machine, NoAnswer

SHOWN = 5  # of the faults


class NoDump(Exception):
    pass


def guest_of(machine_name, top_mib):
    """The container of a machine's files, and what the firmware leaves in both zones of its memory."""
    guest = Memory(top_mib << 20, 0)
    with Machine(machine_name, ["-m", str(top_mib)]) as machine:
        content = settled_container(machine)
        for start, end in (zone_of(guest, HIGH), zone_of(guest, F_SEGMENT)):
            guest.put(start, machine.read_memory(start, end - start))
    return content, guest


def loaded_by(program, content, top_mib):
    words = ["load", "--policy", "top", "--top", str(top_mib)]
    try:
        run = subprocess.run([program, *words], input=content, capture_output=True)
    except OSError as refusal:
        raise NoDump(str(refusal)) from refusal
    if run.returncode != 0:
        raise NoDump(f"{' '.join(words)} ends with status {run.returncode}: {run.stderr.decode(errors='replace').strip()}")
    return read_dump(run.stdout)


def place_faults(image, places, guest_places):
    for allocate in image.allocates:
        ours, theirs = places.get(allocate.file), guest_places.get(allocate.file)
        if ours is None or theirs is None:
            yield f"{allocate.file}: it isn't found in {'the dump' if ours is None else 'the memory of the guest'}"
        elif allocate.zone == HIGH and ours != theirs:
            yield f"{allocate.file}: it is at {ours:#x}, and SeaBIOS has it at {theirs:#x}"


def row_faults(image, loaded, places, guest, guest_places):
    for file in places.keys() & guest_places.keys():
        for at in range(0, len(image.files[file]), 16):
            size = min(16, len(image.files[file]) - at)
            ours, theirs = loaded.read(places[file] + at, size, file), guest.read(guest_places[file] + at, size, file)
            if ours != theirs:
                yield f"{file}: at {places[file] + at:#x} stands {ours.hex()}, and SeaBIOS leaves {theirs.hex()}"


def each_fault(image, loaded, guest):
    yield from head_faults(loaded, guest.top >> 20, 0)
    places, guest_places = places_of(image, loaded), places_of(image, guest)
    yield from place_faults(image, places, guest_places)
    yield from row_faults(image, loaded, places, guest, guest_places)
    yield from other_faults(loaded, spans_of(image, places))


def faults_of(image, loaded, guest):
    faults = []
    try:
        for fault in each_fault(image, loaded, guest):
            faults.append(fault)
    except NotFound as refusal:
        faults.append(str(refusal))
    return faults


def what_is_right(loaded, guest):
    same = sum(guest.rows.get(row) == content for row, content in loaded.rows.items())
    return f"rows of the dump: {len(loaded.rows)}, all as SeaBIOS leaves them, and all but {len(loaded.rows) - same} where it has them"


def judge(image, loaded, guest):
    """Prints what is wrong, or what is right; returns the status."""
    if not image.allocates:
        raise NotAContainer("its script places no file")
    faults = faults_of(image, loaded, guest)
    for line in faults[:SHOWN] or [what_is_right(loaded, guest)]:
        print(line)
    if faults[SHOWN:]:
        print(f"and {len(faults) - SHOWN} more")
    return 1 if faults else 0


def main(machine_name, top_mib, program):
    top_mib = number_of(top_mib, "TOP_MIB")
    try:
        content, guest = guest_of(machine_name, top_mib)
        return judge(Image(read_container(content)), loaded_by(program, content, top_mib), guest)
    except (OSError, NoAnswer) as refusal:
        print(f"judge_guest.py: the machine {machine_name} of QEMU: {refusal}", file=sys.stderr)
        return 3
    except (NoDump, NotADump, NotAContainer) as refusal:
        print(f"judge_guest.py: {refusal}", file=sys.stderr)
        return 2


if __name__ == "__main__":
    if len(sys.argv) != 4 or sys.argv[1] not in MACHINES:
        sys.exit("usage: judge_guest.py pc|q35 TOP_MIB PROGRAM")
    sys.exit(ended(main, sys.argv[1:]))
