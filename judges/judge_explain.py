#!/usr/bin/env python3
"""Judges whether tools/explain.py and docs/FORMATS.md say the same of the lines on standard error. It is no part of the product: it serves the
checks of judges/run.sh alone.

usage: judge_explain.py [PROGRAM]

The document's tables of lines, statuses, keys, rules, indices, faults, causes and items must be the tool's: each number, name and text, and no
more. The tool must say each line that the document has, with each number and each key that may stand there, and none with another. Then it must
find a fault wherever a row of one of these tables is missing, or has another number, or other words.

PROGRAM stands for ./vmtables. Where it is given, it must end each of some calls with the status that stands beside it and with one line, which the
tool must say with this status.

Status 0: all of this holds; 1: something doesn't, each with a line; 2: the document or PROGRAM can't be read or run.
"""

import os
import pathlib
import re
import subprocess
import sys
from typing import NamedTuple

ROOT = pathlib.Path(__file__).resolve().parent.parent
sys.path += [str(ROOT / "tools"), str(ROOT / "bench")]  # whose modules the judges share

import explain
from containers import SCRIPT, allocate, container
from endings import refused
from explain import KEYS, LINES, NotALine, explained, index_text, letters_of
from made_roots import legacy_pointer_to, pointer_to
from memory_dump import Memory, dump_text

FORMATS = ROOT / "docs/FORMATS.md"
SHOWN = 12  # of the faults
NO_LINE = ""  # what status 0 has
NO_RAM = 0xA0000  # an address
MOST_INPUT = 64 << 20

# How the tables with a number and a name begin, and what the tool has of them. Behind these two columns stand what it means and what it tells.
NUMBERED = {
    ("The container", "number", "fault", "comes where"): explain.CONTAINER_FAULTS,
    ("A loader script", "number", "cause", "means", "of which commands"): explain.CAUSES,
    ("How a dump is read", "number", "fault", "comes where", "tells"): explain.DUMP_FAULTS,
    ("The line of a fault of the tables", "number", "fault of the ACPI tables", "comes where", "tells"): explain.ACPI_FAULTS,
    ("The line of a fault of the tables", "number", "fault of the SMBIOS structures", "comes where", "tells"): explain.SMBIOS_FAULTS,
    ("Installing SMBIOS files", "number", "fault", "comes where"): explain.INSTALL_FAULTS,
}

# Tables that tell when a fault comes, in the order of tests, so that a number may stand there twice.
ORDERED = {
    ("How structures are read", "number", "fault", "comes where"): explain.SMBIOS_FAULTS,
    ("How tables are read", "number", "fault", "comes where", "of"): explain.ACPI_FAULTS,
}

KEYS_TABLE = ("The description", "table", "number", "key", "type", "default", "means")
RULES_TABLE = ("The description", "rule", "says")
INDICES_TABLE = ("The first fault of a description", "rule", "its index")
ITEMS_TABLE = ("What can be described", "item", "what is compared", "what the candidate reads from it")
STATUS_TABLE = ("Words, statuses and lines", "status", "where", "line")
LINES_TABLES = [
    ("The first fault of a description", "line", "the first fault"),
    ("The line of a fault of the tables", "line", "the first fault"),
]

# The columns of each table that are compared.
COMPARED = {
    **{name: range(len(name) - 1) for name in NUMBERED},
    KEYS_TABLE: (1, 2, 3),
    RULES_TABLE: (0, 1),
    INDICES_TABLE: (0, 1),
    ITEMS_TABLE: (0, 1, 2),
    STATUS_TABLE: (0, 2),
    **{name: (0,) for name in LINES_TABLES},
}


class NoTable(Exception):
    pass


class Table(NamedTuple):
    """A table by its section and its head, and its rows: the numbers of their lines in the document, and their cells."""

    name: tuple
    rows: list


def cells_of(line):
    return [cell.strip() for cell in line.strip().strip("|").split(" |")]


def tables_of(text):
    """The tables of a document. A row without a first cell goes on with the one before."""
    tables, section, table = [], "", None
    for number, line in enumerate(text.splitlines()):
        if line.startswith("#"):
            section, table = line.lstrip("# "), None
        elif not line.startswith("|"):
            table = None
        elif table is None:
            table = Table((section, *cells_of(line)), [])
            tables.append(table)
        elif not line.startswith("|---"):
            put_row(table, number, cells_of(line))
    return tables


def put_row(table, number, cells):
    first = 1 if table.name == KEYS_TABLE else 0  # where the number of a key stands
    if cells[first] or not table.rows:
        table.rows.append(([number], cells))
    else:
        numbers, before = table.rows[-1]
        numbers.append(number)
        before[:] = [f"{one} {more}".strip() for one, more in zip(before, cells)]


def table_named(tables, name):
    found = [table for table in tables if table.name == name]
    if len(found) != 1:
        raise NoTable(f"under {name[0]!r} there are {len(found)} tables {' | '.join(name[1:])}, and not one")
    return found[0]


def rows_named(tables, name):
    return [cells for _, cells in table_named(tables, name).rows]


def put_once(entries, key, value):
    if key in entries:
        raise NoTable(f"{key!r} stands there twice")
    entries[key] = value


def by_number(rows):
    entries = {}
    for number, *texts in rows:
        put_once(entries, int(number), tuple(texts))
    return entries


def words_in(cell):
    return re.findall("`([^`]*)`", cell)


def numbers_in(cell):
    """Those of a cell as `0`, `0, 1` or `0 to 5`."""
    numbers = [int(word) for word in re.findall("[0-9]+", cell)]
    return [*range(numbers[0], numbers[1] + 1)] if " to " in cell else numbers


def documented_keys(tables):
    """The kind of each key, and whether it must be there, by the key's table, number and name."""
    entries, table = {}, ""
    for name, numbers, names, kind, default, _ in rows_named(tables, KEYS_TABLE):
        table = name.strip("`") or table
        numbers, names = numbers_in(numbers), words_in(names)
        if len(numbers) != len(names):
            raise NoTable(f"the keys {names} have the numbers {numbers}")
        for number, key in zip(numbers, names):
            put_once(entries, (table, number, key), (kind, default == "!"))
    return entries


def told_keys():
    return {
        (table, number, key.removesuffix("!")): (kind, key.endswith("!"))
        for table, keys in KEYS.items()
        for number, (key, kind) in enumerate(keys.items())
    }


def documented_lines(tables):
    """The status of each line."""
    entries = {}
    for status, _, cell in rows_named(tables, STATUS_TABLE):
        section = re.search('"(.*)"', cell)
        forms = words_in(cell) or [NO_LINE]
        if section is not None:
            forms = [form for row in rows_named(tables, (section[1], "line", "the first fault")) for form in words_in(row[0])]
        for form in forms:
            put_once(entries, form, int(status))
    return entries


def documented_indices(tables):
    rows = rows_named(tables, INDICES_TABLE)
    if rows[-1][0] != "any other" or not rows[-1][1].startswith("0"):
        raise NoTable("the last row of the indices isn't that of any other rule")
    return by_number(rows[:-1])


def differences(what, documented, told):
    """What a document and the tool say otherwise."""
    for key in documented.keys() | told.keys():
        if documented.get(key) != told.get(key):
            yield f"{what}: {key}: docs/FORMATS.md says {documented.get(key)!r}, and tools/explain.py {told.get(key)!r}"


def texts_of(named):
    """What the tool has of a number, as cells."""
    return {number: tuple(text for text in entry) for number, entry in named.items()}


def numbered_differences(tables):
    for name, told in NUMBERED.items():
        width = len(name) - 2
        told = {number: texts[:width] for number, texts in texts_of(told).items()}
        yield from differences(f"{name[0]}, {name[2]}", by_number(rows_named(tables, name)), told)
    for name, told in ORDERED.items():
        pairs = {(int(number), fault): True for number, fault, *_ in rows_named(tables, name)}
        yield from differences(f"{name[0]}, {name[2]}", pairs, {(number, entry.name): True for number, entry in told.items()})


def table_differences(text):
    """All that the document and the tool say otherwise."""
    tables = tables_of(text)
    yield from numbered_differences(tables)
    yield from differences("key", documented_keys(tables), told_keys())
    yield from differences("line", documented_lines(tables), {NO_LINE: 0, **{line.form: line.status for line in LINES}})
    yield from differences("rule", by_number(rows_named(tables, RULES_TABLE)), {rule: (says,) for rule, says in explain.RULES.items()})
    told = {rule: (index_text(index),) for rule, index in explain.INDICES.items()}
    yield from differences("index of rule", documented_indices(tables), told)
    told = {number: texts[1:] for number, texts in texts_of(explain.ITEMS).items()}
    yield from differences("item", by_number(rows_named(tables, ITEMS_TABLE)), told)


def faults_of(text):
    try:
        return [*table_differences(text)]
    except (NoTable, ValueError) as refusal:
        return [f"docs/FORMATS.md: {refusal}"]


# What may stand for a letter of a line, by the document: the number of a table, or anything.
def numbers_of_lines(tables):
    return {
        "container: fault F": ("F", by_number(rows_named(tables, [*NUMBERED][0]))),
        "command I: cause C": ("C", by_number(rows_named(tables, [*NUMBERED][1]))),
        "dump: fault F line N": ("F", by_number(rows_named(tables, [*NUMBERED][2]))),
        "tables: acpi fault F at X": ("F", by_number(rows_named(tables, [*NUMBERED][3]))),
        "tables: smbios fault F at P": ("F", by_number(rows_named(tables, [*NUMBERED][4]))),
        "install: fault F": ("F", by_number(rows_named(tables, [*NUMBERED][5]))),
        "tables: not this profile, item N": ("N", by_number(rows_named(tables, ITEMS_TABLE))),
        "description: rule R index I": ("R", by_number(rows_named(tables, RULES_TABLE))),
    }


ANY = {"I": "0", "N": "1", "P": "0", "X": "00000000000f5a40"}  # words that may stand for letters


def filled(form, words):
    return re.sub(r"\b[A-Z]\b", lambda letter: words[letter[0]], form)


def may_be_outside(kind):
    return kind.startswith(("integer", "array of integers", "`")) or "UUID" in kind


def keyed_samples(keys):
    """Lines of keys, and whether they are lines of the program."""
    for (table, _, key), (kind, needed) in keys.items():
        for cause, is_one in (("missing key", needed), ("wrong kind", True), ("out of range", may_be_outside(kind)), ("unknown key", False)):
            yield f"description: {cause} {table} 0 {key}", is_one
    for table in {table for table, _, _ in keys}:
        yield f"description: unknown key {table} 0 no_such", True
        yield f"description: wrong kind {table} 0 no_such", False
    yield "description: unknown key no_such 0 version", False


def samples(tables):
    """Lines that the document has, with each number that it lists, and with others; and whether they are lines of the program."""
    numbers = numbers_of_lines(tables)
    for form in documented_lines(tables):
        if form in numbers:
            letter, known = numbers[form]
            for number in range(max(known) + 2):
                yield filled(form, {**ANY, letter: str(number)}), number in known
        elif form != NO_LINE and "K" not in letters_of(form):
            yield filled(form, ANY), True
    for rule, (text,) in documented_indices(tables).items():
        names = len(re.findall("[:,] [0-9]+ for ", text))
        yield f"description: rule {rule} index {names}", names == 0
    yield from keyed_samples(documented_keys(tables))
    yield from ((line, False) for line in ("", "status 3", "description: rule 1 index 1", "dump: fault 1 line 2", "container: fault 02"))


def is_said(line):
    try:
        explained(line)
    except NotALine:
        return False
    return True


def sample_faults(text):
    for line, is_one in samples(tables_of(text)):
        if is_said(line) != is_one:
            yield f"tools/explain.py {'says nothing of' if is_one else 'says something of'} {line!r}"


def changed_cell(cell):
    """A cell with a digit more behind its first letter or digit."""
    return re.sub("([A-Za-z0-9])", r"\g<1>9", cell, count=1)


def with_cell(line, column, cell):
    cells = cells_of(line)
    cells[column] = cell
    return f"| {' | '.join(cells)} |"


def changes(text):
    """The document without a row of the compared tables, and with another cell in one; and the number of the line."""
    lines = text.splitlines()
    for table in tables_of(text):
        for numbers, _ in table.rows if table.name in COMPARED else []:
            first = numbers[0]
            if lines[first].startswith("| any other |"):
                continue
            yield first + 1, "\n".join(line for number, line in enumerate(lines) if number not in numbers)
            for column in COMPARED[table.name]:
                cell = cells_of(lines[first])[column]
                if cell and not cell.startswith("as above"):
                    changed = with_cell(lines[first], column, changed_cell(cell))
                    yield first + 1, "\n".join([*lines[:first], changed, *lines[first + 1 :]])


def missed(tried):
    """The lines of the document in which nothing is found wrong where they are changed."""
    return sorted({number for number, changed in tried if not faults_of(changed)})


def bad_memory(pointer):
    """A memory with a root pointer, which leads to no RAM."""
    memory = Memory(64 << 20, 0)
    memory.write(0xF0000, pointer)
    return dump_text(memory)


# Words and bytes that the program is given, and its status.
ENDS = [
    ([], b"", 2),
    (["boot", "--fill", "A5"], b"", 2),
    (["boot"], b"\xff", 3),
    (["boot"], b"", 3),
    (["build"], b"version = 1\ntop_mib = 64\n[system]\ncolour = 1\n", 3),
    (["build"], b"version = 2\ntop_mib = 64\n[system]\n", 3),
    (["build"], b"version = 1\ntop_mib = 64\nacpi = 5\n[system]\n", 3),
    (["build"], b"version = 1\ntop_mib = 63\n[system]\n", 3),
    (["load"], container([(SCRIPT, allocate("file", align=1 << 31)), ("file", b"1")]), 4),
    (["load"], b"", 5),
    (["load"], container([]), 5),
    (["load"], container([(SCRIPT, b"1")]), 5),
    (["load"], container([(SCRIPT, allocate("none"))]), 5),
    (["load", "--install"], b"", 5),
    (["load", "--install"], container([]), 5),
    (["load", "--install", "--install"], b"", 2),
    (["decode"], b"", 6),
    (["decode"], bad_memory(pointer_to(NO_RAM)), 7),
    (["decode"], dump_text(Memory(64 << 20, 0)), 7),
    (["decode", "--legacy", "--legacy"], b"", 2),
    (["decode", "--legacy"], b"", 6),
    (["decode", "--legacy"], bad_memory(pointer_to(NO_RAM)), 7),
    (["decode", "--legacy"], bad_memory(legacy_pointer_to(NO_RAM)), 7),
    (["decode", "--list", "--legacy"], bad_memory(legacy_pointer_to(0)), 7),
    (["decode", "--list", "--any"], bad_memory(legacy_pointer_to(0)), 7),
    (["decode", "--list", "--any"], bad_memory(pointer_to(NO_RAM)), 7),
    (["decode", "--list", "--smbios2"], b"", 6),
    (["decode", "--smbios2"], b"", 2),
    (["decode", "--any"], b"", 2),
    (["decode", "--list", "--any", "--legacy"], b"", 2),
    (["boot"], bytes(MOST_INPUT + 1), 10),
]

# The same with streams that fail: a folder gives no bytes, and the other file takes none.
FAILING = [
    (["boot"], {"stdin": ROOT}, 1),
    (["boot"], {"stdin": ROOT / "examples/minimal.toml", "stdout": pathlib.Path("/dev/full")}, 8),
]


def ended_with(program, words, given):
    """How the program ends with bytes on standard input."""
    return subprocess.run([program, *words], input=given, capture_output=True, check=False)


def failed_with(program, words, files):
    """How it ends with files in place of its streams."""
    opened = {name: os.open(file, os.O_RDONLY if name == "stdin" else os.O_WRONLY) for name, file in files.items()}
    try:
        return subprocess.run([program, *words], **{"stdout": subprocess.DEVNULL, **opened}, stderr=subprocess.PIPE, check=False)
    finally:
        for handle in opened.values():
            os.close(handle)


def program_faults(program):
    for words, given, status in ENDS:
        yield from end_faults(words, ended_with(program, words, given), status)
    for words, files, status in FAILING:
        yield from end_faults(words, failed_with(program, words, files), status)


def end_faults(words, run, status):
    said = run.stderr.decode(errors="replace").splitlines()
    said = [line for line in said if not line.startswith(explain.OF_TRIES)]
    what = " ".join(["vmtables", *words])
    if run.returncode != status or len(said) != 1:
        yield f"{what}: it ends with status {run.returncode} in place of {status}, and says {said}"
    elif not is_said(said[0]) or not explained(said[0]).endswith(f"(Status {status}.)"):
        yield f"{what}: tools/explain.py doesn't say {said[0]!r} with status {status}"


def judge(text, program):
    """Prints what is wrong, or what is right; returns the status."""
    faults, tried = faults_of(text), [*changes(text)]
    if not faults:
        faults = [*sample_faults(text), *(f"no judge: nothing is wrong where line {number} is changed" for number in missed(tried))]
    if program is not None:
        faults += program_faults(program)
    for line in faults[:SHOWN]:
        print(line)
    if faults[SHOWN:]:
        print(f"and {len(faults) - SHOWN} more")
    if not faults:
        lines = len([*samples(tables_of(text))])
        ends = f", ends of the program: {len(ENDS) + len(FAILING)}" if program is not None else ""
        print(f"FORMATS and explain.py say the same: lines tried: {lines}{ends}; changes of rows: {len(tried)}, each found")
    return 1 if faults else 0


def main(program=None):
    try:
        return judge(FORMATS.read_text(), program)
    except OSError as refusal:
        return refused(refusal)


if __name__ == "__main__":
    if len(sys.argv) > 2:
        sys.exit("usage: judge_explain.py [PROGRAM]")
    sys.exit(main(*sys.argv[1:]))
