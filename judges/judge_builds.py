#!/usr/bin/env python3
"""Judges `vmtables build` by a plain reader of descriptions and a plain writer of images (judges/plain/images.py), made of docs/FORMATS.md alone. It
is no part of the product: it serves the checks of judges/run.sh alone.

usage: judge_builds.py PROGRAM DESCRIPTION.. [-- SEED [PERCENT]]

PROGRAM stands for ./vmtables. Of each of these it must write the same container, or tell the same first fault:

- each DESCRIPTION; the machines that `gen` generates of a few numbers of processors; and machines that a seed draws over all keys;
- a machine with each key, of which each has values on both sides of each border, of other kinds, or is missing, and each table one key more;
- the same with each list as long as it may be, longer, and empty, with elements twice, and with each part left out;
- such texts in which a seed changes lines.

SEED is another seed, and PERCENT how many of the descriptions that are drawn, 100 where nothing is said.

Status 0: all of this holds; 1: something doesn't, each with a line; 2: a description can't be read, or PROGRAM can't be run.
"""

import copy
import itertools
import json
import pathlib
import re
import sys

from calls import Comparison, Program, Seeds
from endings import ended
from machines import Drawing, description, generated, is_table
from plain import keys
from plain.descriptions import read_machine
from plain.images import MOST_BYTES, built, files_of
from plain.keys import KEYS
from plain.rules import MOST

BUILT = "built"
PROCESSORS = [1, 64, 65, 300, 4096]
DRAWN_MACHINES, DRAWN_TEXTS = 500, 1_000
LEAST = 1  # how often each rule must be broken

# A machine with each key.
FULL = {
    "version": 1,
    "top_mib": 64,
    "oem_strings": ["one", "two"],
    "generation": "8a6e9c4a-6e6b-4b0e-9c2e-1d0f5a3b7c91",
    "system": {"manufacturer": "A", "product": "B", "version": "C", "serial": "D", "sku": "E", "family": "F", "uuid": "{6F1A5E0C-2B4D-4C7E-9A38-0D5C1B7E42F9}"},
    "firmware": {"vendor": "V", "version": "1", "date": "01/02/2024", "major": 3, "minor": 4},
    "chassis": {"manufacturer": "M", "version": "2", "serial": "S", "asset": "T", "sku": "U", "kind": 23},
    "socket": [
        {"designation": "CPU0", "manufacturer": "M", "version": "V", "serial": "S", "asset": "A", "part": "P", "cores": 2, "threads": 4, "mhz": 2600},
        {"cores": 256, "threads": 300},
    ],
    "dimm": [
        {"locator": "L", "bank": "B", "manufacturer": "M", "serial": "S", "asset": "A", "part": "P", "size_mib": 1024, "speed": 3200},
        {"size_mib": 32767},
    ],
    "range": [{"base_mib": 0, "size_mib": 64, "node": 0}, {"base_mib": 4096, "size_mib": 64, "node": 1}],
    "slot": [{"designation": "S1", "kind": 165, "width": 8, "used": True, "id": 513, "bus": 1, "device": 31, "function": 7}, {}],
    "acpi": {"oem_id": "MAKER", "oem_table_id": "TABLES"},
    "power": {
        **{"sci": 9, "profile": 1, "event": 0x600, "control": 0x604, "timer": 0x608, "gpe": 0x620, "gpe_len": 16, "reset": 0xCF9, "reset_value": 6},
        **{"century": 50, "rtc": True, "keyboard": True},
    },
    "hpet": {"address": 0xFED00000, "block_id": 0x8086A201, "number": 1, "min_tick": 128},
    "apic": {"local": 0xFEE00000, "legacy": True},
    "cpu": [{"apic": 0, "node": 0, "enabled": True}, {"apic": 300, "node": 1, "enabled": False}],
    "ioapic": [{"id": 0, "address": 0xFEC00000, "gsi": 0}, {"id": 1, "address": 0xFEC10000, "gsi": 24}],
    "override": [{"irq": 0, "gsi": 2, "flags": 0}, {"irq": 9, "gsi": 9, "flags": 13}],
    "nmi": [{"cpu": 1, "flags": 5, "lint": 0}, {"flags": 0, "lint": 1}],
    "numa": {"nodes": 2, "distance": [10, 20, 21, 10]},
    "bridge": {
        "ecam": 0xE0000000,
        "last_bus": 255,
        "window": [
            {"kind": "io", "base": 0x1000, "size": 0xF000, "prefetch": False},
            {"kind": "mem32", "base": 0xC0000000, "size": 0x1000, "prefetch": True},
            {"kind": "mem64", "base": 1 << 39, "size": 1 << 30},
        ],
        "route": [{"device": 1, "pin": 0, "gsi": 16}, {"device": 31, "pin": 3, "gsi": 4294967295}],
    },
    "uart": [{"port": 0x3F8, "irq": 4}, {"port": 0x2F8, "irq": 3}],
}
MINIMAL = {"version": 1, "top_mib": 64, "system": {}}

# Values that a key may get. Of numbers they stand on both sides of the borders of all rules.
NUMBERS = [
    *[-(1 << 63), -1, 0, 1, 2, 3, 4, 7, 8, 9, 10, 11, 15, 16, 17, 30, 31, 32, 33, 63, 64, 65, 126, 127, 128, 255, 256, 512, 1023, 1024, 3072, 3073, 4095, 4096],
    *[32766, 32767, 65527, 65528, 65529, 65534, 65535, 65536, 16777216, 16777217, 1 << 20, (1 << 20) + 1, (1 << 32) - 65536, (1 << 32) - 1024],
    *[(1 << 32) - 1, 1 << 32, (1 << 32) + 1, (1 << 52) - (1 << 20), 1 << 52, (1 << 63) - 1],
]
TEXTS = ["", "a", " ", "a ", " a", "~", "\x7f", "\x1f", "é", "x" * 6, "x" * 7, "x" * 8, "x" * 9, "x" * 64, "x" * 65, "é" * 32, '"', "\\", "'"]
DIGITS = "8a6e9c4a6e6b4b0e9c2e1d0f5a3b7c91"
HYPHENED = "8a6e9c4a-6e6b-4b0e-9c2e-1d0f5a3b7c91"
UUIDS = [
    *[DIGITS, DIGITS.upper(), HYPHENED, HYPHENED.upper(), f"{{{HYPHENED}}}", f"urn:uuid:{HYPHENED}", f"URN:UUID:{HYPHENED}", f"uRn:UuId:{HYPHENED}"],
    *[f"{{{DIGITS}}}", f"urn:uuid:{DIGITS}", f"{{{HYPHENED}", f"{HYPHENED}}}", f"urn:{HYPHENED}", f" {HYPHENED}", f"{HYPHENED} ", "", "x", DIGITS[1:]],
    *[f"{DIGITS}0", HYPHENED.replace("-", "", 1), HYPHENED.replace("-", ":"), HYPHENED.replace("8", "g"), f"{{urn:uuid:{HYPHENED}}}", f"({HYPHENED})"],
    *["0" * 32, "f" * 32, "F" * 32, "0" * 31 + "1", "00000000-0000-0000-0000-000000000000", "ffffffff-ffff-ffff-ffff-ffffffffffff", "é" * 16],
]
OTHER_KINDS = [True, 5, "x", 1.5, [], {}, [5], ["x"], [[]], [{}], [{"zz": 1}], {"zz": 1}]


def outcome_of(wanted):
    line = wanted[2].decode()
    found = re.match(r"description: (rule \d+|out of range|[a-z]+ [a-zA-Z]+)", line)
    return line.strip() or BUILT if found is None else found[1]


def values_of(kind):
    match kind:
        case int():
            return NUMBERS + OTHER_KINDS
        case keys.TEXT:
            return TEXTS + OTHER_KINDS
        case keys.UUID:
            return UUIDS + OTHER_KINDS
        case keys.WINDOWS:
            return ["io", "mem32", "mem64", "IO", "mem", "", "mem64 ", *OTHER_KINDS]
        case keys.TEXTS:
            return [[text] for text in TEXTS] + [["a", text] for text in TEXTS] + OTHER_KINDS
        case keys.BYTES:
            numbers = [[10, number, number, 10] for number in NUMBERS] + [[number, 20, 20, 10] for number in NUMBERS]
            return [*numbers, [10], [10, 20, 20], [10, 20, 20, 10, 10], [10, 20, 20, 10.0], [10, 20, 20, "10"], *OTHER_KINDS]
    return OTHER_KINDS


def table_places(machine, name="root", path=()):
    """The path and the name of each table of a machine."""
    yield path, name
    for key, value in machine.items():
        for at, element in enumerate(value) if isinstance(value, list) else [(None, value)]:
            if is_table(element):
                yield from table_places(element, key, (*path, key) if at is None else (*path, key, at))


def at_path(machine, path):
    for step in path:
        machine = machine[step]
    return machine


def with_value(machine, path, key, value):
    other = copy.deepcopy(machine)
    at_path(other, path)[key] = value
    return other


def without(machine, path, key):
    other = copy.deepcopy(machine)
    at_path(other, path).pop(key, None)
    return other


def changed_keys():
    """Each key with other values, and without; and each table with a key more."""
    for path, name in table_places(FULL):
        for key in KEYS[name]:
            yield f"{path} without {key.name}", without(FULL, path, key.name)
            for value in values_of(key.kind):
                yield f"{path} {key.name} = {value!r}"[:200], with_value(FULL, path, key.name, value)
        for unknown in ("zz", "A", "é", "x" * 70, "a b", "", "\t", "Version"):
            yield f"{path} with {unknown}", with_value(with_value(FULL, path, "zzz", 1), path, unknown, 1)


def changed_numbers():
    """What two keys say together: sizes and ends of windows and ranges, cores and threads, the top and its ranges, and the ends of RAM's."""
    for kind in keys.WINDOWS:
        for base in BASES:
            for size in (1, 65535, 65536, (1 << 32) - 1, 1 << 32, (1 << 52) - 1, 1 << 52, 65536 - base, (1 << 32) - base, (1 << 52) - base):
                yield "a window", {**MINIMAL, "acpi": {}, "power": FULL["power"], "bridge": {"window": [{"kind": kind, "base": base, "size": size}]}}
    for top in NUMBERS:
        yield "a top", {**MINIMAL, "top_mib": top}
        for size in (top - 1, top, top + 1):
            yield "a top with a range", {**MINIMAL, "top_mib": top, "dimm": [{"size_mib": 1}], "range": [{"base_mib": 0, "size_mib": size}]}
    for ranges in RANGES:
        memories = [{"base_mib": base, "size_mib": size} for base, size in ranges]
        yield f"ranges {ranges}", {**MINIMAL, "dimm": [{"size_mib": 1}], "range": memories}
    for cores, threads in ((0, 0), (0, 1), (1, 0), (2, 1), (255, 255), (255, 256), (256, 256), (65534, 65534), (1, 65535), (65535, 65535)):
        yield "a socket", {**MINIMAL, "socket": [{"cores": 1, "threads": 1}, {"cores": cores, "threads": threads}]}
    for size in (1 << 20, (1 << 21) - 1, 1 << 21, (1 << 21) + 1, 1 << 24):
        yield "a memory array", {**MINIMAL, "dimm": [{"size_mib": size}], "range": [{"base_mib": 0, "size_mib": 64}]}
        yield "a memory array of two", {**MINIMAL, "dimm": [{"size_mib": size - 1}, {"size_mib": 1}], "range": [{"base_mib": 0, "size_mib": 64}]}
    for nodes in (1, 2, 63, 64, 65):
        yield f"{nodes} nodes", {**MINIMAL, "acpi": {}, "numa": {"nodes": nodes, "distance": square(nodes)}}
        yield f"{nodes} nodes, and the last too near", {**MINIMAL, "acpi": {}, "numa": {"nodes": nodes, "distance": [*square(nodes)[:-1], 9]}}
    for count in (254, 255, 256):
        cpus = [{"apic": at} for at in range(count)]
        yield f"{count} processors", {**MINIMAL, "acpi": {}, "apic": {}, "cpu": cpus, "nmi": [{"cpu": 254}, {"cpu": 255}]}
        yield f"an id of {count}", {**MINIMAL, "acpi": {}, "apic": {}, "cpu": [{"apic": count}], "numa": {"nodes": 1, "distance": [10]}}


BASES = [0, 1, 0x1000, 65534, 65535, 65536, (1 << 32) - 65536, (1 << 32) - 1, 1 << 32, (1 << 52) - 1, 1 << 52, (1 << 63) - 1]
END = 1 << 32  # of addresses, in MiB
RANGES = [
    *[[(0, 32), (32, 32)], [(0, 32), (33, 31)], [(0, 32), (31, 33)], [(1, 63)], [(0, 63)], [(0, 64), (64, 1)], [(4096, 64)], [(0, 64), (4096, 1), (4096, 1)]],
    *[[(0, 64), (4097, 1), (4096, 1)], [(0, 64), (END - 1, 1)], [(0, 64), (END - 1, 2)], [(0, 64), (END - 2, 1), (END - 1, 1)], [(0, 64), (4095, 2)]],
    *[[(0, 64), ((1 << 22) - 1, 1)], [(0, 64), (1 << 22, 1)], [(0, 64), ((1 << 22) - 2, 1)], [(0, 0), (0, 64)], [(0, 64), (64, 0)]],
    *[[(0, 64), (4096, END - 4096)], [(0, 64), (4096, END - 1)], [(0, 1 << 31), (1 << 31, 1 << 31)]],
]


def square(nodes):
    """How far it is from each node to each other."""
    return [10 if at % (nodes + 1) == 0 else 10 + at % 246 for at in range(nodes * nodes)]


def long_lists():
    """Each list empty, with an element twice, as long as it may be, and longer."""
    for name, most in MOST:
        path = ("bridge",) if name in ("window", "route") else ()
        elements = at_path(FULL, path)[name]
        for count in (0, 1, most, most + 1):
            filled = [numbered(name, elements[0], at) for at in range(count)]
            yield f"{count} of {name}", with_value(FULL if count < 4096 else lean(), path, name, filled)
        yield f"{name} twice", with_value(FULL, path, name, [*elements, elements[0]])
        yield f"{name} twice, and wrong", with_value(FULL, path, name, [*elements, elements[0], {}])


def lean():
    return {**MINIMAL, "acpi": {}, "apic": {}}


def numbered(name, element, at):
    """An element of a list as the one at a position, with which the list may keep the rules."""
    keyed = {"cpu": {"apic": at}, "ioapic": {"id": at}, "override": {"irq": at}, "route": {"device": at // 4, "pin": at % 4}}
    keyed |= {"range": {"base_mib": 0 if at == 0 else 4096 + 64 * at}}
    return element | keyed[name] if name in keyed else element


def left_out_parts():
    """The machine without each part, and without each two."""
    for name, other in itertools.combinations_with_replacement(FULL, 2):
        yield f"without {name} and {other}", without(without(FULL, (), name), (), other)


def dimm_of(size):
    """A module whose structure has so many bytes, 43 to 431, by its texts."""
    texts, left = {}, size - 41
    for name in ("locator", "bank", "manufacturer", "serial", "asset", "part"):
        taken = min(left, 65) if left != 66 else 64
        texts |= {name: "x" * (taken - 1)} if taken > 0 else {}
        left -= taken
    return {"size_mib": 1, **texts}


def large_machines():
    """Machines whose files have as many bytes as they may have, one fewer, and one more."""
    machine = generated(4096)
    texts = dict.fromkeys(("manufacturer", "version", "serial", "asset", "part"), "x" * 64)
    machine |= {"socket": [socket | texts for socket in machine["socket"]]}
    room = MOST_BYTES - sum(map(len, files_of(read_machine(description(machine))).values()))
    for more in (-1, 0, 1):
        count, rest = divmod(room + more - 200, 431)
        sizes = [431] * count + [100, rest + 100]
        sizes = sizes if sizes[-1] <= 431 else [*sizes[:-1], 200, sizes[-1] - 200]
        yield f"{MOST_BYTES} bytes and {more}", description(machine | {"dimm": [*machine["dimm"], *map(dimm_of, sizes)]})


def given_texts(names):
    for name in names:
        yield name, pathlib.Path(name).read_bytes()
    for count in PROCESSORS:
        yield f"gen {count}", description(generated(count))


def odd_texts():
    """Spellings of documents, and what is none."""
    minimal = description(MINIMAL)
    mark = b"\xef\xbb\xbf"
    yield from [("nothing", b""), ("a byte order mark", mark + minimal), ("two of them", mark * 2 + minimal), ("no UTF-8", minimal + b"#\xff\n")]
    for line in (b"x", b"=", b"a =", b"[system", b"[[system]]", b"[system]", b"# x", b"a = 1\na = 2", b"a.b = 1\na = 2", b'a = "x', b"a = 1 2"):
        yield f"{line!r} behind", minimal + line + b"\n"
        yield f"{line!r} in front", line + b"\n" + minimal
    for number in (1 << 63, -(1 << 63), -(1 << 63) - 1, 1 << 64, 1 << 100):
        yield f"an integer {number}", minimal + f"zz = {number}\n".encode()
        yield f"an ecam of {number}", description(with_value(FULL, ("bridge",), "ecam", number))
    for top in (b"0x40", b"0o100", b"0b1000000", b"+64", b"6_4", b"064", b"64.0", b'"64"', b"1e2", b"inf", b"nan", b"2024-01-02", b"07:32:00", b"0x_40"):
        yield f"a top {top!r}", minimal.replace(b"top_mib = 64", b"top_mib = " + top)
    yield "dotted and quoted keys", b"version = 1\n'top_mib' = 64\nsystem.\"product\" = 'x'\nsystem . version = '''y'''\nacpi = { oem_id = \"A\" }\n"
    yield "escapes", b'version = 1\ntop_mib = 64\n[system]\nproduct = "\\u0041\\t\\U00000042"\n'
    yield "escapes of printed ones", b'version = 1\ntop_mib = 64\n[system]\nproduct = "\\u0041\\"\\\\\\U00000042"\nversion = """a\\\n   b"""\n'


class Texts:
    """Draws texts by a random generator: those of drawn machines, with a few lines changed."""

    VALUES = [b"0", b"-1", b"1", b"255", b"256", b"65535", b"65536", b"4294967295", b"4294967296", b'""', b"true", b"[]", b"{}", b'"x"', b"3", b"31", b"32"]

    def __init__(self, draws):
        self.draws = draws
        self.drawing = Drawing(draws)

    def text(self):
        lines = description(self.drawing.machine()).split(b"\n")
        for _ in range(self.draws.choice([1, 1, 2])):
            at = self.draws.randrange(len(lines))
            lines[at : at + 1] = self.changed(lines[at], lines)
        return b"\n".join(lines)

    def changed(self, line, lines):
        """What stands in place of a line."""
        key, _, value = line.partition(b" = ")
        match self.draws.randrange(8):
            case 0:
                return []
            case 1:
                return [line, self.draws.choice(lines)]
            case 2:
                return [line, line]
            case 3:
                return [line, b"zz = 1"]
            case 4:
                return [key + b"x = " + value] if value else [line]
            case 5:
                return [line + b"0"]
        return [key + b" = " + self.draws.choice(self.VALUES)] if value else [line]


def drawn_texts(seeds):
    drawing = Drawing(seeds.draws("machines"))
    for number in range(seeds.count(DRAWN_MACHINES)):
        yield f"machine {number} of seed {seeds.seed}", description(drawing.machine())
    texts = Texts(seeds.draws("texts"))
    for number in range(seeds.count(DRAWN_TEXTS)):
        yield f"text {number} of seed {seeds.seed}", texts.text()


def spelled(value):
    """A value in TOML, whatever it is, tables among others in line."""
    if is_table(value):
        return "{ " + ", ".join(f"{json.dumps(key, ensure_ascii=False)} = {spelled(inner)}" for key, inner in value.items()) + " }"
    if isinstance(value, list):
        return f"[{', '.join(map(spelled, value))}]"
    return json.dumps(value, ensure_ascii=False).replace("\x7f", "\\u007f")


def in_lines(machine):
    """The text of any table, each key of the root in a line."""
    return "".join(f"{json.dumps(key, ensure_ascii=False)} = {spelled(value)}\n" for key, value in machine.items()).encode()


def all_texts(seeds, names):
    yield from given_texts(names)
    yield from large_machines()
    yield from odd_texts()
    for machines in (changed_keys, changed_numbers, long_lists, left_out_parts):
        for what, machine in machines():
            yield what, in_lines(machine)
    yield from drawn_texts(seeds)


def main(program, *words):
    at = words.index("--") if "--" in words else len(words)
    seeds = Seeds(words[at + 1 :])
    comparison = Comparison(Program(program, "build"), outcome_of, BUILT, built)
    for what, text in all_texts(seeds, words[:at]):
        comparison.compare(what, text)
    outcomes = [BUILT, "image too large", "not TOML", "unknown key", "missing key", "wrong kind", "out of range"]
    outcomes += [f"rule {number}" for number in range(1, 29)]
    return comparison.report("descriptions", comparison.lacking(outcomes, LEAST))


if __name__ == "__main__":
    if len(sys.argv) < 3:
        sys.exit("usage: judge_builds.py PROGRAM DESCRIPTION.. [-- SEED [PERCENT]]")
    sys.exit(ended(main, sys.argv[1:]))
