#!/usr/bin/env python3
"""Writes the container (docs/FORMATS.md) of the fw_cfg files that a machine of QEMU has, for `vmtables load`. It is no part of the
product: it serves the checks of judges/run.sh, and whoever wants to load such files.

usage: qemu_files.py MACHINE CONTAINER [OPTION..]

MACHINE is pc or q35, and QEMU gets each OPTION too, as `-m 2048`.

The machine's firmware, SeaBIOS, runs first. QEMU makes the ACPI files anew when the firmware first reads them, and they tell of what
the firmware has set up until then, as of PCI: a machine that never ran has other files. They are taken once the firmware has
placed its tables and two readings, with a run of the machine between, give the same. A file that the firmware writes, as by a
WRITE_POINTER, holds what it wrote.

Status 0: done; 2: what the machine answers makes no container, or CONTAINER can't be written; 3: QEMU isn't there or doesn't start the
machine, or the machine doesn't answer, or its firmware isn't through in time.
"""

import pathlib
import sys

from endings import ended, folder_of
from fw_cfg_files import NotAContainer, read_container, read_directory
from qemu_machine import MACHINES, Machine, NoAnswer

READINGS = 20  # after which the files should stand still


def container_of(machine):
    directory = machine.read_directory_item()
    entries, _ = read_directory(directory)
    files = b"".join(machine.read_item(entry.selector, entry.size) for entry in entries)
    flags = bytes(machine.is_writable(entry.selector, entry.size) for entry in entries)
    return directory + flags + files


def settled_container(machine):
    """The container of the files once the firmware is through and they stand still."""
    machine.run_firmware()
    before = None
    for _ in range(READINGS):
        machine.run()
        content = container_of(machine)
        if content == before:
            read_container(content)
            return content
        before = content
    raise NoAnswer(f"its files still change after {READINGS} readings")


def main(machine_name, container, *options):
    folder_of(pathlib.Path(container).parent)
    try:
        with Machine(machine_name, options) as machine:
            content = settled_container(machine)
    except (OSError, NoAnswer) as refusal:
        print(f"qemu_files.py: the machine {machine_name} of QEMU: {refusal}", file=sys.stderr)
        return 3
    except NotAContainer as refusal:
        print(f"qemu_files.py: the machine {machine_name} of QEMU: {refusal}", file=sys.stderr)
        return 2
    pathlib.Path(container).write_bytes(content)
    return 0


if __name__ == "__main__":
    if len(sys.argv) < 3 or sys.argv[1] not in MACHINES:
        sys.exit("usage: qemu_files.py pc|q35 CONTAINER [OPTION..]")
    sys.exit(ended(main, sys.argv[1:]))
