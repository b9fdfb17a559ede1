#!/usr/bin/env python3
"""Judges `vmtables load` by a plain reader of containers and a plain loader (judges/plain/loads.py), made of docs/FORMATS.md alone. It is no part of the
product: it serves the checks of judges/run.sh alone.

usage: judge_loads.py PROGRAM DESCRIPTION.. [-- SEED [PERCENT]]

PROGRAM stands for ./vmtables. Of each of these it must write the same dump, or tell the same first fault:

- the container of each DESCRIPTION, as judges/plain/images.py writes it, with each policy, and with several seeds, fill bytes and tops;
- containers at the border of each rule, made by hand, and a small one, each byte of whose directory and script is changed;
- scripts in which each command has each cause, made by hand, and those with two causes;
- files and scripts that a seed draws, some with a fault.

SEED is another seed, and PERCENT how many of the containers that are drawn, 100 where nothing is said.

Status 0: all of this holds; 1: something doesn't, each with a line; 2: a description can't be read, or PROGRAM can't be run.
"""

import itertools
import pathlib
import re
import struct
import sys

from calls import Comparison, Program, Seeds
from endings import Refused, ended
from plain.images import add_checksum, add_pointer, allocate, built
from plain.loads import LEAST_WITH_RESETS, SCRIPT, loaded

LOADED = "loaded"
POLICIES = ["low", "top", "scatter"]
# A seed that draws a write with an effect for each of the events 15 to 17 and 47 to 49: what memory lacks of these tells which are resets.
TELLING_SEED = LEAST_WITH_RESETS + 147_693
SEEDS = [0, 1, 7, LEAST_WITH_RESETS - 1, LEAST_WITH_RESETS, LEAST_WITH_RESETS + 1, TELLING_SEED, (1 << 64) - 1]
WORDS = [
    *[{"policy": policy, "seed": seed} for policy in POLICIES for seed in SEEDS],
    *[{"top_mib": 3072, "fill": 0xA5}, {"top_mib": 65, "fill": 0xFF, "policy": "top", "seed": 2}, {"top_mib": 72, "fill": 1, "policy": "scatter", "seed": 3}],
]
# Seeds among whose events are writes at these addresses: on both sides of the ends of RAM, and of what is guarded.
BORDER_SEEDS = {
    **{0x6FFF: 528, 0x7000: 1413, 0x700F: 457, 0x7010: 701, 0x7FFF: 815, 0x8FFF: 1156, 0x9000: 1932, 0x9FFFF: 1090, 0xA0000: 2743, 0xDFFFF: 147},
    **{0xE0000: 344, 0xFFFFF: 3284},
}
DRAWN = 700
LEAST = 1  # how often each cause must come

HIGH, F_SEGMENT = 1, 2
FILE_NAME = "etc/file"


def outcome_of(wanted):
    line = re.sub(r"command \d+:", "command:", wanted[2].decode().strip())
    return "no room" if line.startswith("no room") else line or LOADED


def options(top_mib=64, fill=0, policy="low", seed=0):
    """The words of a load."""
    return ["--top", str(top_mib), "--fill", f"{fill:02x}", "--policy", policy, "--seed", str(seed)]


class Loads:
    """Has the program load containers."""

    def __init__(self, program):
        self.comparison = Comparison(program, outcome_of, LOADED)

    def load(self, what, container, **words):
        self.comparison.judge(f"{what}, {words}", container, loaded(container, **words), *options(**words))


def entry(name, size, selector, more=b""):
    """An entry of the directory, with bytes behind its name's NUL."""
    field = (name + b"\0" + more).ljust(56, b"\0")[:56]
    return struct.pack(">IHH", size, selector, 0) + field


def container(files, writable=()):
    """A container of files by their names, which needs no order."""
    entries = [entry(name.encode(), len(content), 0x20 + at) for at, (name, content) in enumerate(files.items())]
    flags = bytes(name in writable for name in files)
    return struct.pack(">I", len(files)) + b"".join(entries) + flags + b"".join(files.values())


def scripted(commands, files, writable=()):
    script = b"".join(command.ljust(128, b"\0") for command in commands)
    return container({SCRIPT.decode(): script, **files}, writable)


def write_pointer(dest, source, dest_offset, source_offset, size):
    return struct.pack("<I56s56sIIB", 4, dest.encode(), source.encode(), dest_offset, source_offset, size)


def with_files(count, *, size=0, name="f%04d", selector=0x20):
    entries = b"".join(entry((name % at).encode(), size, selector + at) for at in range(count))
    return struct.pack(">I", count) + entries + bytes(count)


def hand_containers():
    """Containers at the border of each rule of their form."""
    right = container({SCRIPT.decode(): b"", FILE_NAME: b"abc"})
    yield from ((f"the first {size} bytes", right[:size]) for size in range(len(right) + 1))
    yield "bytes behind", right + b"x"
    for count in (0, 1, 1023, 1024, 1025, (1 << 32) - 1):
        yield f"{count} files told", struct.pack(">I", count)
        if count <= 1025:
            yield f"{count} files", with_files(count)
    for name in (b"", b"x" * 55, b"x" * 56, b"a\x1f", b"a\x7f", b"\x80", b" ", b"~", b"a b", SCRIPT):
        files = [entry(name, 0, 0x20), entry(b"z", 0, 0x21)]
        yield f"a name {name!r}", struct.pack(">I", 2) + b"".join(files) + bytes(2)
    for more in (b"x", b"\xff" * 40):
        yield f"a name and {more!r}", struct.pack(">I", 1) + entry(SCRIPT, 0, 0x20, more) + bytes(1)
    for selector in (0, 0x1F, 0x20, 0x3FFF, 0x4000, 0xFFFF):
        yield f"a selector {selector:#x}", struct.pack(">I", 1) + entry(SCRIPT, 0, selector) + bytes(1)
    pairs = [(b"a", 0x20, b"a", 0x21), (b"a", 0x20, b"b", 0x20), (b"a", 0x20, b"a", 0x20)]
    pairs += [(b"a", 0x1F, b"a", 0x1F), (b"a", 0x20, b"", 0x20), (b"a", 0x20, b"b", 1)]
    for first, one, second, other in pairs:
        yield f"{first}, {one}, {second}, {other}", struct.pack(">I", 2) + entry(first, 0, one) + entry(second, 0, other) + bytes(2)
    for flags in (b"\0\0", b"\1\1", b"\2\0", b"\0\2", b"\xff\xff"):
        yield f"flags {flags!r}", struct.pack(">I", 2) + entry(SCRIPT, 0, 0x20) + entry(b"b", 0, 0x21) + flags
    for sizes in ((1 << 26, 0), ((1 << 26) - 1, 1), (1 << 26, 1), ((1 << 32) - 1, (1 << 32) - 1), (4, 4)):
        files = entry(SCRIPT, sizes[0], 0x20) + entry(b"b", sizes[1], 0x21)
        yield f"sizes {sizes}", struct.pack(">I", 2) + files + bytes(2) + bytes(3)
        yield f"sizes {sizes} and a bad flag", struct.pack(">I", 2) + files + b"\0\2" + bytes(3)
    for size in (0, 1, 127, 128, 129, 256, 1 << 20, (1 << 20) + 128):
        yield f"a script of {size} bytes", container({SCRIPT.decode(): bytes(size)})
    yield "no script", container({"etc/other": bytes(128)})


# The places of the files `a` and `b` are known, and of `s` and `t` numbers that with them are the least that are too far, and one less.
A_PLACE, B_PLACE = (64 << 20) - (16 << 20), 0xF0000
FILES = {
    "s": b"".join(((1 << 32) - place - less).to_bytes(4, "little") for place in (A_PLACE, B_PLACE) for less in (0, 1)),
    "t": b"".join(((1 << 64) - place - less).to_bytes(8, "little") for place in (A_PLACE, B_PLACE) for less in (0, 1)),
    **{"a": bytes(range(1, 65)), "b": b"\xff" * 16, "e": b"", "w": bytes(16), "r": bytes(16), "big": bytes(0x8000), "c": b"x" * 5000},
}
ALLOCATED = [allocate("a", 16, HIGH), allocate("b", 16, F_SEGMENT)]
WRITABLE = ("w", SCRIPT.decode())


def hand_commands():
    """Lists of commands, behind those that place the files `a` and `b`."""
    for name in ("", "x" * 55, "x" * 56, "a\x7f", "a\x1f", "no", "a", "b", "e", SCRIPT.decode(), "c"):
        yield from [[allocate(name, 1, HIGH)], [add_pointer(name, "b", 0, 4)], [add_pointer("a", name, 0, 4)], [add_checksum(name, 0, 0, 1)]]
        yield from [[write_pointer(name, "a", 0, 0, 4)], [write_pointer("w", name, 0, 0, 4)]]
        yield from [[add_pointer(name, name, 0, 9)], [write_pointer(name, name, 99, 99, 9)]]
    for align in (0, 1, 2, 3, 4096, 65536, 1 << 24, 1 << 25, 1 << 31, (1 << 32) - 1):
        for zone in (0, 1, 2, 3, 255):
            yield [allocate("c", align, zone)]
    yield [allocate("e", 0, 9)]
    yield [allocate("c", 3, 9)]
    yield [allocate(name, 1, F_SEGMENT) for name in ("big", "c", "w")]
    yield [allocate("big", 0x8000, F_SEGMENT), allocate("c", 0x8000, F_SEGMENT)]
    for size in (0, 1, 2, 3, 4, 5, 8, 9, 16, 255):
        for offset in (0, 1, 8, 15, 16, 56, 57, 60, 63, 64, (1 << 32) - 1):
            yield [add_pointer("a", "b", offset, size)]
            yield [add_pointer("b", "a", offset, size)]
            yield [write_pointer("w", "a", offset, 0, size)]
            yield [write_pointer("w", "a", 0, offset, size)]
            yield [write_pointer("r", "a", offset, 0, size)]
    for offset, start, length in itertools.product((0, 1, 63, 64, (1 << 32) - 1), (0, 1, 63, 64, 65, (1 << 32) - 1), (0, 1, 2, 63, 64, 65, (1 << 32) - 1)):
        yield [add_checksum("a", offset, start, length)]
    for number in (0, 5, 0x80000001, 0x01000000, (1 << 32) - 1):
        yield [struct.pack("<I", number) + b"\xff" * 124, add_checksum("a", 0, 0, 64)]
    for at, (source, _) in enumerate(itertools.product("ab", (0, 1))):
        yield [allocate("s", 4, HIGH), add_pointer("s", source, 4 * at, 4), add_pointer("s", source, 4 * at, 1)]
        yield [allocate("t", 8, HIGH), add_pointer("t", source, 8 * at, 8), add_pointer("t", source, 8 * at, 8)]
    yield [write_pointer("w", "a", 4, 3, 8), allocate("w", 1, HIGH), add_pointer("w", "b", 4, 4)]
    yield [allocate("w", 1, HIGH), write_pointer("w", "a", 4, 3, 8)]
    yield [write_pointer(SCRIPT.decode(), "a", 512, 3, 4), add_checksum("a", 0, 0, 64), allocate("w", 16, HIGH), allocate(SCRIPT.decode(), 16, HIGH)]
    yield [allocate("w", 16, HIGH)] * 2
    yield [add_pointer("a", "a", 0, 8), add_checksum("a", 8, 0, 64), add_pointer("a", "b", 2, 4), add_checksum("a", 9, 0, 64)]


def hand_scripts():
    for commands in hand_commands():
        yield f"{len(commands)} commands {[command[:70].hex() for command in commands][:3]}", scripted([*ALLOCATED, *commands], FILES, WRITABLE)
        if len(commands) == 1:
            yield f"without files placed, {commands[0][:70].hex()}", scripted(commands, FILES, WRITABLE)


def changed_containers():
    """A small container, each byte of whose directory and script is another."""
    commands = [allocate("a", 16, HIGH), allocate("w", 4, F_SEGMENT), add_pointer("a", "w", 0, 4), write_pointer("w", "a", 4, 1, 4)]
    small = scripted(commands, {"a": b"12345678", "w": bytes(8)}, ("w",))
    for at in range(len(small)):
        for byte in {0, 1, 2, 4, 0x20, 0x7F, small[at] ^ 1} - {small[at]}:
            if small[at] != 0 or byte < 3:
                yield f"byte {at} is {byte:#04x}", small[:at] + bytes([byte]) + small[at + 1 :]


def long_script():
    """A script of commands that are skipped, behind which files are placed once the events of a seed are over."""
    return scripted([struct.pack("<I", 9)] * 1500 + [allocate("a", 16, HIGH), allocate("b", 16, F_SEGMENT)], FILES)


class Drawing:
    """Draws files and scripts by a random generator."""

    NAMES = ["a", "b", "c", "d", "etc/e", "w"]

    def __init__(self, draws):
        self.draws = draws

    def container(self):
        sizes = [0, 1, 2, 8, 15, 16, 17, 100, 4095, 4096, 4097, 40_000]
        files = {name: self.draws.randbytes(self.draws.choice(sizes)) for name in self.draws.sample(self.NAMES, self.draws.randint(1, len(self.NAMES)))}
        commands = [self.allocate(name) for name in files if self.draws.random() < 0.9]
        commands += [self.command(files) for _ in range(self.draws.randrange(12))]
        if self.draws.random() < 0.3:
            self.draws.shuffle(commands)
        content = scripted(commands, files, self.draws.sample(self.NAMES, 3))
        return self.spoilt(content) if self.draws.random() < 0.1 else content

    def allocate(self, name):
        align = self.draws.choice([1, 2, 16, 64, 4096, 65536])
        return allocate(name, align, self.draws.choice([HIGH, HIGH, F_SEGMENT]))

    def command(self, files):
        file, other = (self.draws.choice(sorted(files)) for _ in range(2))
        size = self.draws.choice([1, 2, 4, 4, 4, 8, 8, 8, 3] if self.draws.random() < 0.1 else [4, 8])
        end = len(files[file])
        offset = self.draws.randrange(max(1, end - size + 1)) if self.draws.random() < 0.95 else self.draws.randrange(end + 2)
        match self.draws.randrange(5):
            case 0 | 1:
                return add_pointer(file, other, offset, size)
            case 2 | 3:
                start = self.draws.randint(0, end)
                return add_checksum(file, self.draws.randrange(max(1, end)), start, self.draws.randint(0, end - start))
        return write_pointer(file, other, offset, self.draws.randrange(max(1, len(files[other]))), size)

    def spoilt(self, content):
        at = self.draws.randrange(len(content))
        return content[:at] + self.draws.randbytes(1) + content[at + 1 :]

    def words(self):
        return {
            "top_mib": self.draws.choice([64, 64, 65, 100, 3072]),
            "fill": self.draws.choice([0, 0, 0, 0xFF, 0xA5]),
            "policy": self.draws.choice(POLICIES),
            "seed": self.draws.choice([0, 1, self.draws.getrandbits(63), LEAST_WITH_RESETS + self.draws.getrandbits(63)]),
        }


def described_containers(names):
    for name in names:
        built_one = built(pathlib.Path(name).read_bytes())
        if built_one[0] != 0:
            raise Refused(f"{name}: {built_one[2].decode().strip()}")
        yield name, built_one[1]


def main(program, *words):
    at = words.index("--") if "--" in words else len(words)
    seeds = Seeds(words[at + 1 :])
    loads = Loads(Program(program, "load"))
    for what, content in described_containers(words[:at]):
        for more in WORDS:
            loads.load(what, content, **more)
    for what, content in [*hand_containers(), *hand_scripts(), *changed_containers()]:
        loads.load(what, content)
    for address, seed in BORDER_SEEDS.items():
        loads.load(f"a write at {address:#x}", long_script(), seed=seed, policy="scatter")
    drawing = Drawing(seeds.draws("containers"))
    for number in range(seeds.count(DRAWN)):
        loads.load(f"container {number} of seed {seeds.seed}", drawing.container(), **drawing.words())
    outcomes = [LOADED, "no room", "script: none", "script: length", *(f"container: fault {number}" for number in range(1, 10))]
    causes = [f"command: cause {number}" for number in range(1, 12)]
    return loads.comparison.report("loads", loads.comparison.lacking([*outcomes, *causes], LEAST))


if __name__ == "__main__":
    if len(sys.argv) < 3:
        sys.exit("usage: judge_loads.py PROGRAM DESCRIPTION.. [-- SEED [PERCENT]]")
    sys.exit(ended(main, sys.argv[1:]))
