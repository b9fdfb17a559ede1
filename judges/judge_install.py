#!/usr/bin/env python3
"""Judges `vmtables load --install`: of files that QEMU made for real machines, and by a plain loader (judges/plain/install.py), made of docs/FORMATS.md
alone. It is no part of the product: it serves the checks of judges/run.sh alone.

usage: judge_install.py PROGRAM files FOLDER
       judge_install.py PROGRAM drawn [SEED [PERCENT]]

PROGRAM stands for ./vmtables. FOLDER has a folder `qemu` with a container of each machine of MACHINES and with what SeaBIOS left in its memory of the same
files (NAME.container, NAME.truth.json), and compare_load.py, which compares a dump with that. What must hold of each container:

- the dump is that of the plain loader, has the hash and the rows of the anchor that another program worked out, and is as SeaBIOS has it;
- the version, the types and the handles of the structures that dmidecode reads from its anchor are those that `decode --list` prints, with `--smbios2`
  where the anchor has 31 bytes, and with `--any`.

Then a dump with another digit, and one without a row, must be found wrong. Of `drawn` PROGRAM must write the same dump as the plain loader, or tell the same
first fault, of each of these:

- files with every fault together with every other one, made by hand, each byte of an anchor changed, and sizes, numbers and selectors at every border;
- files and scripts that a seed draws, with SMBIOS files that are right or not, and some with a fault, loaded with all options.

SEED is another seed, and PERCENT how many of the containers that are drawn, 100 where nothing is said.

Status 0: all of this holds; 1: something doesn't, each with a line; 2: PROGRAM can't be run; 3: FOLDER or a program isn't there.
"""

import hashlib
import itertools
import pathlib
import re
import struct
import subprocess
import sys
import tempfile
from typing import NamedTuple

from calls import Comparison, Program, Seeds
from endings import ended
from judge_loads import LOADED, POLICIES, Drawing, container, entry, options, outcome_of, scripted
from listed import ANY_LIST, LIST, OLD_LIST, SHOWN, NoTool, NotTold, list_of, structure_lines
from memory_dump import ANCHOR_FIELDS, NEW_MARK, OLD_MARK, NotADump, NotFound, read_dump
from plain.containers import read_container
from plain.images import ANCHOR, COMMAND_SIZE, F_SEGMENT, HIGH, SCRIPT, STRUCTURES, add_checksum, add_pointer, allocate
from plain.install import installed
from plain.loads import LEAST_WITH_RESETS, loaded

INSTALL = "--install"
END = b"\x7f\x04\x00\x7f\x00\x00"  # structures of which the first is the end of the table (DSP0134 7.45)


class Machine(NamedTuple):
    """What becomes of a machine's files: how many commands the script has, the rows of the anchor, and how the SHA-256 of the dump begins."""

    commands: int
    rows: tuple
    hashed: str


# Of QEMU 7.2's files, by another program.
MACHINES = {
    "pc-min": Machine(37, ("5f534d5f281f02085100000000000000", "5f444d495ff141010000020308002800"), "8d62d78c"),
    "pc-all-files": Machine(37, ("5f534d5f281f02085100000000000000", "5f444d495fe141010010020308002800"), "c45890d0"),
    "q35-numa2-vmgenid": Machine(37, ("5f534d5f2e1f02084b00000000000000", "5f444d495fcb56010010020309002800"), "e88c4d2a"),
    "q35-rootports": Machine(37, ("5f534d5f2e1f02084b00000000000000", "5f444d495ffd35010000020308002800"), "b4a03c88"),
    "q35-8cpu-smbios64": Machine(36, ("5f534d335f3c18030000010010020000", "00000203000000000000000000000000"), "def81e73"),
}
ROWS = (0xF0020, 0xF0030)  # behind the RSDP


class NotThere(Exception):
    pass


def load(program, content):
    return subprocess.run([program, "load", INSTALL], input=content, capture_output=True)


def dump_faults(machine, plain, dump):
    """What is wrong with a dump of a machine's files."""
    if dump != plain:
        yield "the dump isn't that of the plain loader"
    hashed = hashlib.sha256(dump).hexdigest()
    if not hashed.startswith(machine.hashed):
        yield f"the SHA-256 of the dump is {hashed}, in place of {machine.hashed}.."
    for address, row in zip(ROWS, machine.rows):
        if f"{address:08x} {row}\n".encode() not in dump:
            yield f"the row of {address:#x} isn't {row}"


def compared_faults(folder, name, dump):
    """What compare_load.py finds wrong with a dump."""
    with tempfile.TemporaryDirectory() as work:
        file = pathlib.Path(work, "dump")
        file.write_bytes(dump)
        words = [sys.executable, folder / "compare_load.py", file, folder / "qemu" / f"{name}.truth.json"]
        run = subprocess.run(words, capture_output=True, text=True)
    lines = run.stdout.splitlines()
    if run.returncode != 0 or not lines or not re.fullmatch("[1-9][0-9]* passed, 0 failed", lines[-1]):
        wrong = [line for line in lines if line.startswith("FAIL")] or [run.stderr.strip()[-200:]]
        yield f"compare_load.py: {wrong[:2]}"


def list_faults(program, machine, dump):
    """Whether the structures of the anchor are listed as dmidecode reads them."""
    try:
        memory = read_dump(dump)
    except NotADump as refusal:
        yield f"the dump is none: {refusal}"
        return
    old = machine.rows[0].startswith(b"_SM_".hex())
    for words in (OLD_LIST if old else LIST, ANY_LIST):
        told = structure_lines(memory, words)
        listed = list_of(program, memory, words)
        if (listed.status, listed.out.splitlines()[: len(told)]) != (0, told):
            yield f"decode {' '.join(words)}: {listed.out[:80]!r}, and dmidecode tells {told[:2]}"


def wrong_dumps(dump):
    """A dump with another digit in a row of the anchor, and one without a row."""
    at = dump.index(b"\n000f0020 ") + 20
    yield dump[:at] + (b"0" if dump[at : at + 1] != b"0" else b"1") + dump[at + 1 :]
    end = dump.index(b"\n", at)
    yield dump[: dump.index(b"\n000f0020 ")] + dump[end:]


def judge_machine(program, folder, name, machine):
    content = (folder / "qemu" / f"{name}.container").read_bytes()
    status, plain, _ = loaded(content, install=True)
    commands = len(installed(read_container(content)[1])[SCRIPT.encode()].content) // COMMAND_SIZE
    run = load(program, content)
    if (run.returncode, status, commands) != (0, 0, machine.commands):
        return [f"status {run.returncode}: {run.stderr.decode('latin-1').strip()}; {commands} commands by the plain loader"]
    faults = [*dump_faults(machine, plain, run.stdout), *compared_faults(folder, name, run.stdout), *list_faults(program, machine, run.stdout)]
    missed = [] if faults else [dump for dump in wrong_dumps(run.stdout) if not [*dump_faults(machine, plain, dump)]]
    return faults + ["no judge: nothing is wrong with another dump"] * len(missed)


def judge_files(program, folder):
    folder = pathlib.Path(folder)
    if not (folder / "qemu").is_dir():
        raise NotThere(f"{folder} has no files of machines")
    faults = [f"{name}: {fault}" for name, machine in MACHINES.items() for fault in judge_machine(program, folder, name, machine)]
    for line in faults[:SHOWN]:
        print(line)
    if not faults:
        print(f"{len(MACHINES)} machines: dumps, hashes, anchors and structures as others tell them, and as SeaBIOS has them; other dumps are found")
    return 1 if faults else 0


def new_anchor(length=24, size=24, mark=b"_SM3_", more=bytes(8)):
    return (struct.pack("<5sBBBBBBBI", mark, 0, length, 3, 0, 0, 1, 0, len(END)) + more).ljust(size, b"\0")[:size]


def old_anchor(length=31, size=31, mark=b"_SM_", inner=b"_DMI_"):
    return struct.pack("<4sBBBBHB5s5sBHIHB", mark, 0, length, 2, 8, 0x24, 0, bytes(5), inner, 0, len(END), 0, 1, 0x28).ljust(size, b"\0")[:size]


RIGHT = {"new": new_anchor(), "old": old_anchor()}
MOST_SCRIPT, MOST_BYTES, MOST_FILES = 1_048_576, 67_108_864, 1024
ADDED = {"new": 4 * COMMAND_SIZE, "old": 5 * COMMAND_SIZE}
LEAST = 1  # how often each outcome must come
DRAWN = 2_000


def commands_of(*commands):
    return b"".join(command.ljust(COMMAND_SIZE, b"\0") for command in commands)


# Each part of a container that may be at fault, in each way, by what it is.
ANCHORS = {"no anchor": None, "an empty anchor": b"", "a bad anchor": b"_SM3_" + bytes(19), **RIGHT}
TABLES = {"no structures": None, "empty structures": b"", "structures": END}
SCRIPTS = {
    "no script": None,
    "an empty script": b"",
    "127 bytes": bytes(127),
    "a skipped command": bytes(COMMAND_SIZE),
    "the anchor placed": commands_of(allocate(ANCHOR, 16, F_SEGMENT)),
    "the structures placed": commands_of(b"", allocate(STRUCTURES, 16, HIGH)),
    "a command too many": bytes(MOST_SCRIPT + COMMAND_SIZE),
    "a full script": bytes(MOST_SCRIPT),
    "a full script that places the anchor": commands_of(allocate(ANCHOR, 0, 9)) + bytes(MOST_SCRIPT - COMMAND_SIZE),
    **{f"{less} commands less": bytes(MOST_SCRIPT - less * COMMAND_SIZE) for less in (3, 4, 5)},
}


def files_of(anchor, structures, script=None, more=()):
    files = {ANCHOR: anchor, STRUCTURES: structures, SCRIPT: script, **dict(more)}
    return {name: content for name, content in files.items() if content is not None}


def fault_containers():
    """Each way in which a part may be at fault, with each of the others."""
    for (anchor, one), (structures, two), (script, three) in itertools.product(ANCHORS.items(), TABLES.items(), SCRIPTS.items()):
        yield f"{anchor}, {structures}, {script}", container(files_of(one, two, three))


def anchor_containers():
    """Anchors of other lengths, and of which each byte is another."""
    for form, anchor in RIGHT.items():
        for size in range(40):
            yield f"{form}, {size} bytes", container(files_of(anchor.ljust(size, b"\0")[:size], END))
        for at, byte in enumerate(anchor):
            for value in {0, 0x18, 0x1E, 0x1F, 0x20, byte ^ 1, 0xFF} - {byte}:
                yield f"{form}, byte {at} is {value:#04x}", container(files_of(anchor[:at] + bytes([value]) + anchor[at + 1 :], END))
    for length, size in itertools.product((23, 24, 25, 30, 31, 32), repeat=2):
        yield f"a new anchor of {size} bytes that tells {length}", container(files_of(new_anchor(length, size), END))
        yield f"an old one of {size} bytes that tells {length}", container(files_of(old_anchor(length, size), END))
    for mark, inner in itertools.product((b"_SM_", b"_SM3", b"_SMX"), (b"_DMI_", b"_DMX_", b"_DMI ")):
        yield f"marks {mark} and {inner}", container(files_of(old_anchor(mark=mark, inner=inner), END))


def numbered(files, selectors):
    """A container of files with selectors of their own."""
    entries = [entry(name.encode(), len(content), selector) for (name, content), selector in zip(files.items(), selectors)]
    return struct.pack(">I", len(files)) + b"".join(entries) + bytes(len(files)) + b"".join(files.values())


def border_containers():
    """As many files as there may be, and as many bytes; and selectors up to the last."""
    for form, anchor in RIGHT.items():
        for count, script in itertools.product((MOST_FILES - 4, MOST_FILES - 3, MOST_FILES - 2), (None, b"")):
            yield f"{form}, {count} more files, {script}", container(files_of(anchor, END, script, [(f"etc/{at}", b"") for at in range(count)]))
        for more in (0, 1):
            rest = MOST_BYTES - ADDED[form] - len(anchor) - len(END) + more
            yield f"{form}, {rest} bytes in one more file", container(files_of(anchor, END, None, [("etc/rest", bytes(rest))]))
        yield f"{form}, 67,108,400 bytes in two files", container(files_of(anchor, bytes(67_108_400 - len(anchor))))
        for selectors in ((0x20, 0x21), (0x3FFE, 0x20), (0x3FFF, 0x20), (0x3FFF, 0x21), (0x20, 0x3FFF), (0x3FFE, 0x3FFF)):
            yield f"{form}, selectors {selectors}", numbered(files_of(anchor, END), selectors)
        yield f"{form}, all selectors from the last one down", numbered(
            files_of(anchor, END, None, [(f"etc/{at}", b"") for at in range(MOST_FILES - 3)]), range(0x3FFF, 0x3FFF - MOST_FILES + 1, -1)
        )


# Commands in front of those that are added, and a file that they place.
NOTE = {"etc/note": bytes(range(1, 65))}
NOTED = allocate("etc/note", 16, HIGH)


def write_to(name, offset, size, source_offset=0):
    return struct.pack("<I56s56sIIB", 4, name.encode(), b"etc/note", offset, source_offset, size)


def front_containers():
    """Commands in front, which name the two files and the script."""
    fronts = [[NOTED], [add_pointer(ANCHOR, STRUCTURES, 16, 8)], [add_checksum(STRUCTURES, 0, 0, 1)], [allocate(SCRIPT, 16, HIGH)]]
    fronts += [[NOTED, add_pointer("etc/note", ANCHOR, 0, 4)], [NOTED, write_to("etc/note", 0, 8)], [allocate("etc/none", 1, 1)]]
    fronts += [[NOTED, write_to(ANCHOR, offset, 8, 3)] for offset in (0, 4, 8, 16, 17, 23)] + [[NOTED, write_to(STRUCTURES, 0, 4)]]
    fronts += [[NOTED, write_to(SCRIPT, offset, 4)] for offset in (0, 256, 316)]
    fronts += [[allocate("etc/big", 1, zone), allocate("etc/note", 1, zone)] for zone in (HIGH, F_SEGMENT)]
    for form, anchor in RIGHT.items():
        for front in fronts:
            files = {ANCHOR: anchor, STRUCTURES: END, **NOTE, "etc/big": bytes(0xFFF0)}
            for writable in ((), (ANCHOR, STRUCTURES, SCRIPT, "etc/note")):
                yield f"{form}, {[command[:70].hex() for command in front]}, {writable}", scripted(front, files, writable)


def cut_containers():
    right = container(files_of(RIGHT["old"], END, b""))
    for size in range(0, len(right), 7):
        yield f"the first {size} bytes", right[:size]
    yield "bytes behind", right + b"x"


class InstallDrawing(Drawing):
    """Draws containers with SMBIOS files, most of which can be installed."""

    NAMES = [*Drawing.NAMES, ANCHOR, STRUCTURES]

    def container(self):
        files = {name: self.draws.randbytes(self.draws.choice([0, 1, 16, 100, 4097])) for name in self.draws.sample(Drawing.NAMES, self.draws.randrange(4))}
        if self.draws.random() < 0.97:
            files[ANCHOR] = self.anchor()
        if self.draws.random() < 0.97:
            files[STRUCTURES] = self.draws.randbytes(self.draws.choice([0, 1, 6, 300, 300, 5000, 70_000]))
        commands = [self.allocate(name) for name in files if name not in (ANCHOR, STRUCTURES) and self.draws.random() < 0.9]
        commands += [self.command(files) for _ in range(self.draws.randrange(4))] if files and self.draws.random() < 0.5 else []
        commands += [self.allocate(self.draws.choice(self.NAMES))] if self.draws.random() < 0.1 else []
        if self.draws.random() < 0.4:
            return container(files, self.draws.sample(self.NAMES, 3))
        content = scripted(commands, files, self.draws.sample(self.NAMES, 3))
        return self.spoilt(content) if self.draws.random() < 0.1 else content

    def anchor(self):
        anchor = bytearray(self.draws.choice([*RIGHT.values()]))
        for at in self.draws.sample(range(len(anchor)), self.draws.choice([0, 0, 0, 1, 2])):
            anchor[at] = self.draws.randrange(256)
        if self.draws.random() < 0.5:
            at, width = ANCHOR_FIELDS[NEW_MARK if len(anchor) == 24 else OLD_MARK][1]
            anchor[at : at + width] = self.draws.randbytes(width)
        return bytes(anchor)


class Installs:
    """Has the program load containers with their SMBIOS files installed."""

    def __init__(self, program):
        self.comparison = Comparison(program, install_outcome, LOADED)

    def load(self, what, content, *more, **words):
        self.comparison.judge(f"{what}, {words}", content, loaded(content, install=True, **words), *more, *options(**words))


def install_outcome(wanted):
    outcome = outcome_of(wanted)
    return "container: fault" if outcome.startswith("container") else outcome


def judge_drawn(program, *words):
    seeds = Seeds(words)
    installs = Installs(Program(program, "load"))
    for containers in (fault_containers, anchor_containers, border_containers, front_containers, cut_containers):
        for what, content in containers():
            installs.load(what, content, INSTALL)
    small = container(files_of(RIGHT["old"], END))
    for policy, seed in itertools.product(POLICIES, (0, 1, LEAST_WITH_RESETS, (1 << 64) - 1)):
        installs.load("two files", small, INSTALL, policy=policy, seed=seed, fill=0xA5, top_mib=65)
    drawing = InstallDrawing(seeds.draws("installs"))
    for number in range(seeds.count(DRAWN)):
        installs.load(f"container {number} of seed {seeds.seed}", drawing.container(), INSTALL, **drawing.words())
    outcomes = [LOADED, "no room", "container: fault", *(f"install: fault {number}" for number in range(1, 10))]
    return installs.comparison.report("loads", installs.comparison.lacking([*outcomes, "command: cause 4"], LEAST))


def main(program, kind, *words):
    try:
        return judge_files(program, *words) if kind == "files" else judge_drawn(program, *words)
    except (NoTool, NotThere) as refusal:
        print(f"judge_install.py: {refusal}", file=sys.stderr)
        return 3
    except (NotFound, NotTold) as refusal:
        print(refusal)
        return 1


def is_lawful(words):
    match words:
        case [_, "files", _] | [_, "drawn"] | [_, "drawn", _] | [_, "drawn", _, _]:
            return True
    return False


if __name__ == "__main__":
    if not is_lawful(sys.argv[1:]):
        sys.exit("usage: judge_install.py PROGRAM files FOLDER|drawn [SEED [PERCENT]]")
    sys.exit(ended(main, sys.argv[1:]))
