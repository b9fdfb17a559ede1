#!/usr/bin/env python3
"""Judges the DSDT of a description by what iasl and acpiexec make of it. It is no part of the product: it serves the checks of
judges/run.sh alone.

usage: judge_dsdt.py DESCRIPTION FOLDER

FOLDER has the dump of a machine with power management, as `dump`, and what tools/dump_tables.py cuts out of it, DSDT.aml and FACP.aml among
it. What must hold:

- both pointers of the FADT to the DSDT lead to one place (ACPI 6.5, 5.2.9);
- where an id of the machine's generation is described, the low half of the address that `ADDR` tells is where it stands in memory, its first
  three fields low byte first (QEMU, docs/specs/vmgenid.rst);
- `iasl -d` prints the devices of the description (judges/devices.py), with that address, line by line, and nothing else;
- that text, compiled again by `iasl -on`, which leaves out nothing, is the same table, but for the checksum and what tells of the compiler.
  iasl is told to take an id that doesn't end in hexadecimal digits, as the one that QEMU's device has;
- acpiexec loads the table without an error, its namespace has the devices with their values, and no others of the table; and it decodes each
  `_PRT` and each `_CRS` to what is described. It warns of a `_PRT` without routes, and of nothing else.

Then some bits are flipped, each in a copy that still sums to zero: of the last address of a range, of a GSI, of an IRQ, of a `_UID`, of a
device's name and of the address of the id, as far as there are such. `iasl -d` must print something else of each, and acpiexec of a copy with
all of them but the last, which it doesn't print. The id mustn't be found at its address with a bit flipped. And where the table's first package
length has a byte more than it needs, the text compiled again must not be the same table.

Status 0: all of this holds; 1: something doesn't, each with a line; 2: a file isn't there, or isn't what it should be; 3: a program isn't there.
"""

import difflib
import pathlib
import re
import shutil
import subprocess
import sys
import tempfile
import uuid

sys.path.append(str(pathlib.Path(__file__).resolve().parent.parent / "tools"))  # whose modules the judges share

from described import dsdt_lines, read_description
from devices import decoded_lines, devices_of, namespace_lines
from endings import Refused, ended, refused
from made_roots import summed
from memory_dump import NotADump, NotFound, number_at, read_dump_file

TOOLS = ["iasl", "acpiexec"]
SHOWN = 5  # of the faults

CHECKSUM = 9
COMPILERS = [CHECKSUM, *range(28, 36)]  # the bytes of a header that a compiler makes: the checksum, its id and its revision
SCOPE = 36  # where the only term begins
TAKEN = ["-vw", "6035"]  # of iasl, what it doesn't complain of: an id that doesn't end in hexadecimal digits
ID_SIZE = 16

# The address of the id of a machine's generation: a name whose value is a package of two values, a double word and zero (20.2.5.4).
ID_ADDRESS = re.compile(rb"\x08ADDR\x12\x08\x02\x0c(.{4})\x00", re.DOTALL)

# What acpiexec says that is no error: a device has no _SRS, and a bridge may have no routes.
KNOWN = [re.compile(r"AcpiSetCurrentResources failed: AE_NOT_FOUND"), re.compile(r"ACPI Warning: .*_PRT: Return Package has no elements .*")]
ERROR = re.compile(r"\bAE_[A-Z]|ACPI (?:BIOS )?(?:Error|Warning|Exception)|\(ACPI\)|failed|[Mm]iscompare|[Ii]nvalid")

# A line of the namespace that acpiexec prints of an object of the table, and lines of resources that are compared.
OBJECT = re.compile(r" (\d) +(\S{4}) (\w+) +0x[0-9a-f]+ 001 ?(.*)")
DECODED = re.compile(
    r"Device: .*|Evaluating _(?:PRT|CRS)|\[[0-9A-F]+\] .*"
    r"|(?:Resource Type|Caching|Address|Address Minimum|Address Maximum|Address Length|Interrupt List|Pin|Source Index) : .*"
)

# What is flipped: the bytes up to the one whose lowest bit it is, with that.
FLIPS = {
    "the end of a range of words": rb"\x88\x0d\x00.{7}.",
    "the end of a range of double words": rb"\x87\x17\x00.{11}.",
    "the end of a range of quad words": rb"\x8a\x2b\x00.{19}.",
    "a GSI": rb"\x12[\x09-\x0f]\x04(?:\x0b..|\x0c....)(?:[\x00\x01]|\x0a.)\x00(?:[\x00\x01]|\x0a.|\x0b..|\x0c....)",
    "an IRQ": rb"\x22.(?=.\x79\x00)",
    "a _UID": rb"\x08_UID(?:[\x00\x01]|\x0a.|\x0b..)",
    "a device's name": rb"\x5b\x82(?:[\x00-\x3f]|[\x40-\x4f].|[\x80-\x8f]..).{4}",
    "the address of the id": rb"\x08ADDR\x12\x08\x02\x0c.",
}
IN_NAMESPACE = ["a _UID", "a device's name"]
IN_TEXT = ["the address of the id"]  # which iasl alone prints


def run(folder, *words):
    """Runs a tool in a folder, and returns its status and what it prints."""
    ran = subprocess.run(words, cwd=folder, stdin=subprocess.DEVNULL, stdout=subprocess.PIPE, stderr=subprocess.STDOUT)
    return ran.returncode, ran.stdout.decode("latin-1")


def differences(what, printed, wanted):
    """The first difference between two lists of lines."""
    if printed == wanted:
        return
    changes = (line for line in difflib.unified_diff(wanted, printed, n=0, lineterm="") if line[:1] in "+-" and line[:3] not in ("+++", "---"))
    yield f"{what}: {' | '.join(line for line, _ in zip(changes, range(4)))}"


def inside(text):
    """The lines from the definition block on, without white space around them."""
    lines = [line.strip() for line in text[max(text.find("DefinitionBlock"), 0) :].splitlines()]
    return [line for line in lines if line]


class Judge:
    def __init__(self, machine, memory, id_address):
        self.devices = devices_of(machine, id_address)
        self.lines = inside("\n".join(dsdt_lines(machine, id_address)))
        self.id = id_of(machine)
        self.memory = memory
        self.id_address = id_address

    def id_faults(self, address):
        """What is wrong with the id of the machine's generation, where it is told to be at an address."""
        if (self.id is None) != (address is None):
            yield "ADDR tells an address, and no id is described" if self.id is None else "no ADDR tells where the id is"
        elif self.id is not None and (found := self.memory.read(address, ID_SIZE, "the id")) != self.id:
            yield f"at {address:#x}, which ADDR tells, stands {found.hex()}, and not the id {self.id.hex()}"

    def text_faults(self, folder):
        """What is wrong with the text that iasl makes of the table in a folder."""
        status, said = run(folder, "iasl", "-d", "DSDT.aml")
        text = pathlib.Path(folder, "DSDT.dsl")
        if status != 0 or not text.exists():
            yield f"iasl -d ends with status {status}: {said}"
            return
        yield from differences("iasl -d", inside(text.read_text("latin-1")), self.lines)

    def again_faults(self, folder):
        """What is wrong with that text compiled again."""
        status, said = run(folder, "iasl", "-on", *TAKEN, "-p", "again", "DSDT.dsl")
        if status != 0 or "0 Errors, 0 Warnings" not in said:
            yield f"iasl -on ends with status {status}: {said}"
            return
        table, again = (pathlib.Path(folder, name).read_bytes() for name in ("DSDT.aml", "again.aml"))
        at = next((at for at, pair in enumerate(zip(table, again)) if pair[0] != pair[1] and at not in COMPILERS), None)
        if at is not None or len(table) != len(again):
            yield f"iasl -on makes {len(again)} bytes of {len(table)}, and byte {at} is the first that differs"

    def namespace_faults(self, folder):
        status, said = run(folder, "acpiexec", "-b", "namespace", "DSDT.aml")
        yield from error_faults("acpiexec -b namespace", status, said)
        objects = [found for line in said.splitlines() if (found := OBJECT.match(line))]
        wanted = [line for device in self.devices for line in namespace_lines(device)]
        yield from differences("acpiexec -b namespace", [object_line(*found.groups()) for found in objects], wanted)

    def resource_faults(self, folder):
        status, said = run(folder, "acpiexec", "-b", "resources", "DSDT.aml")
        yield from error_faults("acpiexec -b resources", status, said)
        lines = [line.strip() for line in said.splitlines()]
        decoded = [re.sub(r"^\[[0-9A-F]+\] ", "", line) for line in lines if DECODED.fullmatch(line)]
        wanted = [line for device in self.devices for line in decoded_lines(device)]
        yield from differences("acpiexec -b resources", decoded, wanted)

    def faults_of(self, table, *kinds):
        """What is wrong with a table, by judges of these kinds in turn."""
        with tempfile.TemporaryDirectory() as folder:
            pathlib.Path(folder, "DSDT.aml").write_bytes(table)
            return [fault for kind in kinds for fault in kind(folder)]

    def there(self):
        """Which of FLIPS there are by the description."""
        resources = [resource for device in self.devices for resource in device.values.get("_CRS", [])]
        kinds = [type(resource).__name__ for resource in resources]
        windows = [resource.kind for resource in resources if type(resource).__name__ == "Window"]
        return {
            "the end of a range of words": "Buses" in kinds,
            "the end of a range of double words": "mem32" in windows,
            "the end of a range of quad words": "mem64" in windows,
            "a GSI": any(device.values["_PRT"].routes for device in self.devices if "_PRT" in device.values),
            "an IRQ": "Interrupt" in kinds,
            "a _UID": any("_UID" in device.values for device in self.devices),
            "a device's name": bool(self.devices),
            "the address of the id": self.id is not None,
        }

    def flips(self, table):
        """The places of the bytes that are flipped: of each kind the last one."""
        for what, is_there in self.there().items():
            found = [found.end() - 1 for found in re.finditer(FLIPS[what], table, re.DOTALL)]
            if is_there:
                yield what, found[-1] if found else None

    def flip_faults(self, table):
        """What isn't found, where it is flipped."""
        flips = dict(self.flips(table))
        for what, at in flips.items():
            if at is None or not self.faults_of(flipped(table, at), self.text_faults):
                yield f"no judge: iasl -d finds nothing wrong with {what} at byte {at}"
        ends = [at for what, at in flips.items() if what not in IN_NAMESPACE + IN_TEXT]
        names = [at for what, at in flips.items() if what in IN_NAMESPACE]
        for what, places, kind in ("resources", ends, self.resource_faults), ("namespace", names, self.namespace_faults):
            if places and not self.faults_of(flipped(table, *places), kind):
                yield f"no judge: acpiexec -b {what} finds nothing wrong with bytes {places}"
        if not self.faults_of(longer(table), self.text_faults, self.again_faults):
            yield "no judge: iasl -on finds nothing wrong with a longer spelling"
        if self.id is not None and not [*self.id_faults(self.id_address ^ 1)]:
            yield "no judge: the id is found at an address with a bit flipped, too"

    def all_faults(self, table, fadt):
        faults = [*pointer_faults(fadt), *self.id_faults(self.id_address)]
        faults += self.faults_of(table, self.text_faults, self.again_faults, self.namespace_faults, self.resource_faults)
        return faults or [*self.flip_faults(table)]


def id_of(machine):
    """The id of a machine's generation as it stands in memory, or None."""
    return uuid.UUID(machine["generation"]).bytes_le if "generation" in machine else None


def id_address_in(table):
    """The low half of the address of that id, which a table tells, or None."""
    found = ID_ADDRESS.search(table)
    return None if found is None else number_at(found[1], 0, 4)


def object_line(level, name, kind, value):
    """A line of the namespace as it is compared: of a buffer the kind alone, since its resources are decoded, and of a device the name."""
    return f"{level} {name} {kind}" if kind in ("Device", "Buffer") else f"{level} {name} {kind} {value.strip()}"


def error_faults(what, status, said):
    if status != 0:
        yield f"{what} ends with status {status}"
    for line in said.splitlines():
        if ERROR.search(line) and not any(known.fullmatch(line.strip()) for known in KNOWN):
            yield f"{what}: {line.strip()}"


def pointer_faults(fadt):
    narrow, wide = number_at(fadt, 40, 4), number_at(fadt, 140, 8)
    if narrow != wide or narrow == 0:
        yield f"the FADT's pointers to the DSDT lead to {narrow:#x} and to {wide:#x}"


def flipped(table, *places):
    """The table with the lowest bit of bytes flipped, and zero in sum."""
    changed = bytearray(table)
    for at in places:
        changed[at] ^= 1
    return summed(changed, CHECKSUM)


def longer(table):
    """The table with one byte more in the package length of its scope, which has 1 to 3 bytes."""
    more = table[SCOPE + 1] >> 6
    total = table[SCOPE + 1] & (0x0F if more else 0x3F) | number_at(table, SCOPE + 2, more) << 4
    length = bytes([more + 1 << 6 | total + 1 & 0x0F]) + (total + 1 >> 4).to_bytes(more + 1, "little")
    size = (len(table) + 1).to_bytes(4, "little")
    return summed(table[:4] + size + table[8 : SCOPE + 1] + length + table[SCOPE + 2 + more :], CHECKSUM)


def main(description, folder):
    missing = [tool for tool in TOOLS if shutil.which(tool) is None]
    if missing:
        print("; ".join(f"{tool} isn't there" for tool in missing))
        return 3
    try:
        machine = read_description(description)
        table, fadt = (pathlib.Path(folder, name).read_bytes() for name in ("DSDT.aml", "FACP.aml"))
        memory = read_dump_file(pathlib.Path(folder, "dump"))
    except (OSError, NotADump) as refusal:
        return refused(refusal)
    if len(table) <= SCOPE + 1 or "power" not in machine:
        raise Refused(f"{folder}/DSDT.aml has no term" if "power" in machine else f"{description} has no power management")
    judge = Judge(machine, memory, id_address_in(table))
    try:
        faults = judge.all_faults(table, fadt)
    except NotFound as refusal:
        faults = [str(refusal)]
    for line in faults[:SHOWN]:
        print(line)
    if faults[SHOWN:]:
        print(f"and {len(faults) - SHOWN} more")
    if not faults:
        its_id = "" if judge.id is None else f", the id at {judge.id_address:#x}"
        print(f"{len(judge.devices)} devices as described{its_id}, {len(table)} bytes that are compiled again, and each flipped bit is found")
    return 1 if faults else 0


if __name__ == "__main__":
    if len(sys.argv) != 3:
        sys.exit("usage: judge_dsdt.py DESCRIPTION FOLDER")
    sys.exit(ended(main, sys.argv[1:]))
