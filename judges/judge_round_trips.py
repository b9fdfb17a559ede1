#!/usr/bin/env python3
"""Judges `vmtables decode`, which prints the description of the machine that a dump's memory shows (docs/FORMATS.md), by what was described. It is
no part of the product: it serves the checks of judges/run.sh alone.

usage: judge_round_trips.py PROGRAM [DESCRIPTION..]

PROGRAM stands for ./vmtables. Each DESCRIPTION, the machines that `gen` generates of a few numbers of processors, which are written as
descriptions here (judges/machines.py), and a thousand machines that a seed draws over all keys, go there and back: `boot` of the description,
`decode` of the dump, and `boot` of what that prints. What must hold:

- both dumps are the same bytes;
- what is printed says, read by Python's tomllib, the value of each key of the description and the default of each other one, and no more;
- it is spelled as docs/FORMATS.md says, with keys in ascending order and tables behind those that are none;
- `decode --legacy` prints the same of the memory in the form of ACPI 1.0, with an FADT of a drawn length from 116 bytes on; but where the value for a
  reset isn't in these it prints 0 for it, and where the register isn't it tells item 4, since the flags tell of one;
- `decode` of a boot with another policy, fill byte and seed prints the same text;
- what `gen` prints is what the dump and the container of the written description have.

Last, a program turned wrong has to be found: one whose printed description has another value at a key, lacks the key or has one more, for
each key of the descriptions that aren't long; a dump with another digit; and another count of `gen`.

Status 0: all of this holds; 1: something doesn't, each with a line; 2: a description is none, or PROGRAM can't be
run.
"""

import copy
import itertools
import json
import pathlib
import random
import subprocess
import sys
import tomllib

sys.path.append(str(pathlib.Path(__file__).resolve().parent.parent / "tools"))  # whose modules the judges share

from described import read_description
from endings import ended
from fw_cfg_files import COMMAND_SIZE, SCRIPT, NotAContainer, read_container
from legacy_memory import SECOND, SHORTEST, WHOLE, WITH_RESET, WITH_RESET_VALUE, legacy_memory
from listed import end_faults, list_of
from machines import Drawing, description, generated, is_table, printed, told
from memory_dump import dump_text, read_dump

PROCESSORS = [1, 63, 64, 65, 300, 4096]
DRAWN, SEED = 1000, 7
OTHER_BOOTS = [["--policy", "top", "--fill", "ff"], ["--policy", "scatter", "--fill", "a5", "--seed", "7"]]
MOST_CHANGED = 1000  # values of a description of which each is changed
SHOWN, LONGEST = 5, 1000  # of the faults, and how many characters of one


class Failed(Exception):
    """The program ends with a status other than 0."""


def output(program, words, given):
    run = subprocess.run([program, *words], input=given, capture_output=True, check=False)
    if run.returncode != 0:
        raise Failed(f"{' '.join(words)}: status {run.returncode}: {run.stderr.decode(errors='replace').strip()}")
    return run.stdout


def spelled(value):
    """A text that differs where the value or its kind does: Python takes true for 1."""
    return json.dumps(value, sort_keys=True)


def differences(wanted, got, path="root"):
    """The keys at which two tables or values differ."""
    if is_table(wanted) and is_table(got):
        for key in sorted(wanted.keys() | got.keys()):
            if key not in got or key not in wanted:
                yield f"{path}.{key}: {'not printed' if key in wanted else 'printed, and not described'}"
            else:
                yield from differences(wanted[key], got[key], f"{path}.{key}")
    elif isinstance(wanted, list) and isinstance(got, list) and len(wanted) == len(got):
        for at, pair in enumerate(zip(wanted, got)):
            yield from differences(*pair, f"{path}[{at}]")
    elif spelled(wanted) != spelled(got):
        yield f"{path}: printed {spelled(got)} in place of {spelled(wanted)}"


def text_faults(machine, text):
    """What is wrong with a printed description of a machine."""
    try:
        got = tomllib.loads(text.decode())
    except (UnicodeDecodeError, tomllib.TOMLDecodeError) as refusal:
        return [f"what is printed is no TOML: {refusal}"]
    return [*differences(told(machine), got)] or [*line_faults("what is printed", text, "the form of the document", printed(machine))]


def line_faults(what, text, wanted, lines):
    """The first line in which two texts differ."""
    pairs = itertools.zip_longest(text.split(b"\n"), lines.split(b"\n"))
    for number, (got, line) in enumerate(pairs, start=1):
        if got != line:
            yield f"{what} differs from {wanted} at line {number}: {got} in place of {line}"
            return


def dump_faults(dump, again):
    return line_faults("the dump of what is printed", again, "that of the description", dump)


def trip_faults(program, machine, text):
    """The faults of a machine that goes there and back."""
    try:
        dump = output(program, ["boot"], text)
        text = output(program, ["decode"], dump)
        return [*text_faults(machine, text), *dump_faults(dump, output(program, ["boot"], text)), *legacy_faults(program, machine, dump)]
    except Failed as refusal:
        return [str(refusal)]


def legacy_faults(program, machine, dump):
    """The faults of a machine whose tables have the form of ACPI 1.0, with an FADT of a length that its dump draws."""
    draws = random.Random(dump)
    size = draws.choice([SHORTEST, WITH_RESET - 1, WITH_RESET, WITH_RESET_VALUE, SECOND, WHOLE - 1, draws.randrange(SHORTEST, WHOLE)])
    legacy = dump_text(legacy_memory(read_dump(dump), size, draws.randrange(256)))
    power = told(machine).get("power", {"reset": 0})
    if power["reset"] != 0 and size < WITH_RESET:
        faults = end_faults(list_of(program, legacy, ("--legacy",)), 7, "tables: not this profile, item 4")
    elif power["reset"] != 0 and size < WITH_RESET_VALUE:
        without = copy.deepcopy(machine)
        without["power"]["reset_value"] = 0
        faults = text_faults(without, output(program, ["decode", "--legacy"], legacy))
    else:
        faults = text_faults(machine, output(program, ["decode", "--legacy"], legacy))
    yield from (f"with an FADT of {size} bytes: {fault}" for fault in faults)


def other_boot_faults(program, text):
    """The faults of boots with other words, of which the same has to be printed."""
    try:
        plain = output(program, ["decode"], output(program, ["boot"], text))
        for words in OTHER_BOOTS:
            if output(program, ["decode"], output(program, ["boot", *words], text)) != plain:
                yield f"another description is printed of boot {' '.join(words)}"
    except Failed as refusal:
        yield str(refusal)


def counts(program, processors, text):
    """What `gen` has to print, by the container and the dump of the machine's description."""
    files = read_container(output(program, ["build"], text))
    rows = output(program, ["boot"], text).count(b"\n") - 2
    size = sum(map(len, files.values()))
    numbers = {"processors": processors, "files": len(files), "bytes": size, "commands": len(files[SCRIPT]) // COMMAND_SIZE, "rows": rows}
    return "".join(f"{name} {number}\n" for name, number in numbers.items())


def count_faults(wanted, got):
    if wanted != got:
        yield f"gen prints {got.split()} in place of {wanted.split()}"


def generated_faults(program, processors):
    machine = generated(processors)
    text = description(machine)
    try:
        wanted = counts(program, processors, text)
        got = output(program, ["gen", str(processors)], b"").decode(errors="replace")
    except (Failed, NotAContainer) as refusal:
        return [str(refusal)]
    if not [*count_faults(wanted, f"{wanted[:-1]}0\n")]:
        return ["no judge: it finds nothing wrong with another count"]
    return [*count_faults(wanted, got), *trip_faults(program, machine, text)]


def places(value, path=()):
    """The paths of all values that are no tables."""
    if is_table(value) or isinstance(value, list):
        for key in value if is_table(value) else range(len(value)):
            yield from places(value[key], [*path, key])
    else:
        yield path


def other(value):
    match value:
        case bool():
            return int(value)
        case int():
            return value + 1
    return f"{value}x"


def missed_changes(machine):
    """The changes of a printed description that aren't found; of a long one none is tried."""
    right = told(machine)
    paths = [*places(right)]
    for *path, last in paths if len(paths) <= MOST_CHANGED else []:
        for change in (change_value, leave_out, add_one):
            wrong = copy.deepcopy(right)
            inner = wrong
            for key in path:
                inner = inner[key]
            change(inner, last)
            if not [*differences(right, wrong)]:
                yield f"no judge: it finds nothing wrong with {change.__name__} at {path} {last}"


def change_value(inner, key):
    inner[key] = other(inner[key])


def leave_out(inner, key):
    del inner[key]


def add_one(inner, key):
    if is_table(inner):
        inner[f"{key}x"] = inner[key]
    else:
        inner.append(inner[key])


def described_faults(program, name):
    """The faults of a description in a file, each with its name."""
    text = pathlib.Path(name).read_bytes()
    machine = read_description(name)
    found = [*trip_faults(program, machine, text), *other_boot_faults(program, text), *missed_changes(machine)]
    return [f"{name}: {fault}" for fault in found]


def drawn_faults(program):
    drawing = Drawing(random.Random(SEED))
    for number in range(DRAWN):
        machine = drawing.machine()
        for fault in trip_faults(program, machine, description(machine)):
            yield f"machine {number} of seed {SEED}: {fault}"


def judge(program, names):
    """Prints what is wrong, or what is right; returns the status."""
    faults = [fault for name in names for fault in described_faults(program, name)]
    faults += [f"gen {count}: {fault}" for count in PROCESSORS for fault in generated_faults(program, count)]
    faults += drawn_faults(program)
    if not [*dump_faults(b"top 04000000 fill 00\nend\n", b"top 04000000 fill 01\nend\n")]:
        faults.append("no judge: it finds nothing wrong with another dump")
    if not faults:
        print(f"{len(names)} descriptions, gen of {len(PROCESSORS)} numbers and {DRAWN} drawn machines come back; each changed key is found")
        return 0
    for fault in faults[:SHOWN]:
        print(fault[:LONGEST])
    if faults[SHOWN:]:
        print(f"and {len(faults) - SHOWN} more")
    return 1


def main(program, *names):
    return judge(program, names)


if __name__ == "__main__":
    if len(sys.argv) < 2:
        sys.exit("usage: judge_round_trips.py PROGRAM [DESCRIPTION..]")
    sys.exit(ended(main, sys.argv[1:]))
