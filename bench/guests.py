#!/usr/bin/env python3
"""Writes the dump of a guest of QEMU that runs, once its firmware is through, as tools/make_dump.py makes it of what the monitor saves. It serves
bench/run.sh and is no part of the product.

usage: guests.py MACHINE FILE

MACHINE is pc or q35. Its guest has 128 MiB, and the ACPI tables of an RSDP of revision 0 (ACPI 6.5, 5.2.5.3).

Status 0: done; 2: FILE can't be written; 3: QEMU isn't there or doesn't start the machine, or its firmware isn't through in time.
"""

import pathlib
import sys

sys.path.append(str(pathlib.Path(__file__).resolve().parent.parent / "tools"))  # whose modules the benchmark shares

from endings import ended
from memory_dump import LOWER_WINDOW, UPPER_WINDOW_SIZE, Memory, dump_text
from qemu_machine import MACHINES, Machine, NoAnswer

TOP_MIB = 128


def guest_memory(machine_name):
    memory = Memory(TOP_MIB << 20, 0)
    with Machine(machine_name, ["-m", str(TOP_MIB)]) as machine:
        machine.run_firmware()
        for start, end in [*LOWER_WINDOW, (memory.top - UPPER_WINDOW_SIZE, memory.top)]:
            memory.put(start, machine.read_memory(start, end - start))
    return memory


def main(machine_name, file):
    try:
        memory = guest_memory(machine_name)
    except (OSError, NoAnswer) as refusal:
        print(f"guests.py: the machine {machine_name} of QEMU: {refusal}", file=sys.stderr)
        return 3
    pathlib.Path(file).write_bytes(dump_text(memory))
    return 0


if __name__ == "__main__":
    if len(sys.argv) != 3 or sys.argv[1] not in MACHINES:
        sys.exit("usage: guests.py pc|q35 FILE")
    sys.exit(ended(main, sys.argv[1:]))
