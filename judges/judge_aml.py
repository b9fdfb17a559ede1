#!/usr/bin/env python3
"""Judges the reader and the writer of AML terms by what iasl compiles. It is no part of the product: it serves the checks of
judges/run.sh alone.

usage: judge_aml.py PROGRAM

PROGRAM is the program `aml_again`, which reads AML terms and writes them again. iasl compiles a text with each kind of value, each width
of an integer and each form of a path, packages, buffers and devices on both sides of each border of package lengths, and devices nested
16 deep. iasl writes the shortest spelling, and so does the program: what it writes again must be the same bytes. Of what iasl writes the
program must refuse 17 levels, each front that is cut within a term, and a longer spelling must come back as the shortest.

Status 0: all of this holds; 1: something doesn't, each with a line; 2: PROGRAM can't be run; 3: iasl isn't there.
"""

import pathlib
import shutil
import subprocess
import sys
import tempfile

sys.path.append(str(pathlib.Path(__file__).resolve().parent.parent / "tools"))  # whose modules the judges share

from endings import ended

HEADER = 36  # bytes in front of a table's terms
LEVELS = 16
OUTSIDE, TRUNCATED = "is outside the grammar", "a term is cut at byte"

VALUES = [
    "Zero", "One", "Ones", "2", "0xFF", "0x100", "0xFFFF", "0x10000", "0xFFFFFFFF", "0x100000000", "0x123456789ABCDEF0",
    "0xFFFFFFFFFFFFFFFE", '""', '"Hi"', "Buffer () {}", "Buffer () {1}", "Buffer () {1, 2, 3}", "Package () {}",
    'Package () {1, 0x55, 0x1234, "AB", Buffer () {7}, Package () {Ones, 0x12345678}}', 'EisaId ("PNP0A08")',
    "ResourceTemplate () { IO (Decode16, 0x3F8, 0x3F8, 1, 8) IRQNoFlags () {4} }",
    "Package () {" + ", ".join(map(str, range(255))) + "}",
]  # fmt: skip


def text_of(count):
    return '"' + "y" * count + '"'


def names():
    """A scope with each kind of value, and names by paths of each form."""
    values = "\n".join(f"Name (N{number:03X}, {value})" for number, value in enumerate(VALUES))
    device = "Device (DEV0) { Name (^NPAR, 1) Name (^^NFAR, 1) Device (DEV1) {} }"
    paths = [r"\_SB.ROOT", r"\_SB.DEV0.DEV1.DEEP", r"\_SB.DEV0.TWOS", "_SB.PAIR", "_SB.DEV0.DEV1.MANY"]
    return [rf"Scope (\_SB) {{ {values}", device, "}", *(f"Name ({path}, 5)" for path in paths)]


def borders():
    """Packages, buffers and devices whose lengths are near 2^6, 2^12 and 2^20."""
    packages = [f"Name (P{count:03d}, Package () {{{text_of(count)}}})" for count in range(48, 66)]
    sizes = [0, 1, 2, *range(55, 66), 255, 256, 257, *range(4085, 4095)]
    buffers = [f"Name (B{count:03X}, Buffer () {{{', '.join(['0x5A'] * count)}}})" for count in sizes]
    devices = [f"Device (D{count:03X}) {{ Name (TEXT, {text_of(count)}) }}" for count in range(4072, 4092)]
    return packages + buffers + devices + [long_device(count) for count in range((1 << 20) - 16, (1 << 20))]


def long_device(size):
    """A device with this many bytes behind its opcode, less those of its length."""
    full, name = 60000, 7  # a text, and what stands around it in a name
    rest = size - 4
    count = rest // (full + name)
    texts = [f"Name (T{number:03d}, {text_of(full)})" for number in range(count)]
    last = f"Name (LAST, {text_of(rest - count * (full + name) - name)})"
    return f"Device (E{size & 0xFFF:03X}) {{ " + "\n".join([*texts, last]) + " }"


def nested(levels):
    return ["\n".join(f"Device (L{level:03X}) {{" for level in range(levels)) + " Name (DEEP, 7) " + "}" * levels]


def compiled(folder, terms):
    """The terms that iasl makes of lines, the table's header cut off."""
    source = folder / "terms.asl"
    lines = ['DefinitionBlock ("", "DSDT", 2, "VMTABL", "AGAIN", 1)', "{", *terms, "}"]
    source.write_text("\n".join(lines) + "\n")
    made = subprocess.run(
        ["iasl", "-on", "-p", folder / "terms", source], capture_output=True, cwd=folder, stdin=subprocess.DEVNULL, check=False
    )
    table = folder / "terms.aml"
    if made.returncode != 0 or not table.exists():
        sys.exit(f"iasl compiles no such text: {made.stdout.decode(errors='replace')[-2000:]}")
    return table.read_bytes()[HEADER:]


class Judge:
    def __init__(self, program):
        self.program = program
        self.faults = []

    def again(self, terms):
        ran = subprocess.run([self.program], input=terms, capture_output=True, check=False)
        return ran.returncode, ran.stdout, ran.stderr.decode(errors="replace")

    def is_same(self, what, terms):
        status, out, said = self.again(terms)
        if (status, out, said) != (0, terms, ""):
            at = next((at for at, (one, other) in enumerate(zip(terms, out)) if one != other), min(len(terms), len(out)))
            self.faults.append(f"{what}: not the same bytes from {at} on, status {status}, {said.strip()}")

    def is_told(self, what, terms, fault):
        status, out, said = self.again(terms)
        if status == 0 or out or fault not in said:
            self.faults.append(f"{what}: status {status} with {len(out)} bytes, and not {fault!r}: {said.strip()}")

    def comes_back(self, what, terms, shortest):
        status, out, said = self.again(terms)
        if (status, out, said) != (0, shortest, ""):
            self.faults.append(f"{what}: {out.hex()} and not {shortest.hex()}, status {status}, {said.strip()}")


LONGER = [
    ("an integer of four bytes", "08 41424344 0c 05000000", "08 41424344 0a 05"),
    ("a length of two bytes", "10 46 00 41424344", "10 05 41424344"),
    ("one segment behind its number", "08 2f 01 41424344 00", "08 41424344 00"),
    ("two segments behind their number", "08 2f 02 41424344 45464748 01", "08 2e 41424344 45464748 01"),
    ("a size of eight bytes", "08 41424344 11 0b 0e 0100000000000000 41", "08 41424344 11 03 01 41"),
]


def main(program):
    if shutil.which("iasl") is None:
        print("iasl isn't there")
        return 3
    judge = Judge(program)
    with tempfile.TemporaryDirectory() as work:
        folder = pathlib.Path(work)
        all_kinds = compiled(folder, names())
        long_terms = compiled(folder, borders())
        deep, too_deep = compiled(folder, nested(LEVELS)), compiled(folder, nested(LEVELS + 1))
    judge.is_same("each kind of value", all_kinds)
    judge.is_same("each border of lengths", long_terms)
    judge.is_same(f"{LEVELS} levels", deep)
    judge.is_told(f"{LEVELS + 1} levels", too_deep, OUTSIDE)
    judge.is_told("a front of a device", deep[:-1], "a bad package length at byte 2")
    judge.is_told("a front of a name", all_kinds[:-1], TRUNCATED)
    for what, terms, shortest in LONGER:
        judge.comes_back(what, bytes.fromhex(terms), bytes.fromhex(shortest))
    for fault in judge.faults:
        print(fault)
    if not judge.faults:
        print(f"{len(all_kinds) + len(long_terms) + len(deep)} bytes of iasl's are written again as they are; {LEVELS + 1} levels aren't read")
    return 1 if judge.faults else 0


if __name__ == "__main__":
    if len(sys.argv) != 2:
        sys.exit("usage: judge_aml.py PROGRAM")
    sys.exit(ended(main, sys.argv[1:]))
