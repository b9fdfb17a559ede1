#!/usr/bin/env python3
"""Says in a sentence what a line means that `vmtables` writes to standard error. It is no part of the product: it serves whoever got such a
line. docs/FORMATS.md lists the lines with their faults, causes, rules and items, and judges/judge_explain.py has both say the same.

usage: explain.py [LINE]

LINE may be one word or several. Without it the lines of standard input are said, one after the other, as in

  ./vmtables boot < machine.toml 2>&1 >machine.dump | tools/explain.py

Status 0: each line was said; 1: one isn't a line of the program; 2: there is no line.
"""

import re
import sys
from typing import NamedTuple


class NotALine(Exception):
    pass


class Named(NamedTuple):
    """What a number in a line stands for: its name, when it is told, and what is told with it."""

    name: str
    means: str
    tells: str = ""


class Index(NamedTuple):
    """What the index of a rule stands for: one of names, or so many of a thing, counted from 0."""

    which: str
    names: tuple = ()


class Line(NamedTuple):
    """A line by its form, in which a letter stands for a word; its status; what it says; and what its numbers stand for."""

    form: str
    status: int
    text: str
    numbers: dict = {}


# The table of all texts. Texts of rules, faults, causes and items are those of docs/FORMATS.md, and so are kinds of values.

CONTAINER_FAULTS = {
    1: Named("Truncated", "the bytes end within the number of files, the entries, the flags or the files, or before one of these"),
    2: Named("TooMany", "there are more than 1,024 files"),
    3: Named("BadName", "the field of an entry's name holds no name"),
    4: Named("TwiceNamed", "an entry before has the same name"),
    5: Named("TwiceSelected", "an entry before has the same selector"),
    6: Named("BadSelect", "a selector is below 0x20 or above 0x3FFF"),
    7: Named("BadFlag", "a flag is neither 0 nor 1"),
    8: Named("TrailingBytes", "bytes follow the files"),
    9: Named("TooLarge", "the sizes in the entries are more than 67,108,864 bytes in all"),
}

INSTALL_FAULTS = {
    1: Named("NoAnchor", "there is no file `etc/smbios/smbios-anchor`"),
    2: Named("NoTables", "there is no file `etc/smbios/smbios-tables`"),
    3: Named("EmptyTables", "the file `etc/smbios/smbios-tables` has no bytes"),
    4: Named("BadAnchor", "the file `etc/smbios/smbios-anchor` is an anchor of neither form"),
    5: Named("ScriptLength", "the length of `etc/table-loader` is no multiple of 128, or above 1,048,576"),
    6: Named("AlreadyPlaced", "an ALLOCATE of the script names one of the two files"),
    7: Named("ScriptFull", "with the commands that are added the script has more than 1,048,576 bytes"),
    8: Named("TooMany", "with the script that is added there are more than 1,024 files"),
    9: Named("TooLarge", "with the commands that are added the files have more than 67,108,864 bytes in all"),
}

CAUSES = {
    1: Named("BadName", "a name is no name", "each"),
    2: Named("NoFile", "there is no file of that name, either one", "each"),
    3: Named("AlreadyPlaced", "the file is placed already", "ALLOCATE"),
    4: Named("NotPlaced", "a file isn't placed", "ADD_POINTER, either one; ADD_CHECKSUM; WRITE_POINTER, src"),
    5: Named("Empty", "the file has no bytes", "ALLOCATE"),
    6: Named("BadAlign", "align is no power of two", "ALLOCATE"),
    7: Named("BadZone", "the zone is neither 1 (high memory) nor 2 (the F segment)", "ALLOCATE"),
    8: Named("BadSize", "the size is none of 1, 2, 4 and 8", "ADD_POINTER, WRITE_POINTER"),
    9: Named("ReadOnly", "dest isn't writable", "WRITE_POINTER"),
    10: Named(
        "OutOfRange",
        "the field, the byte or the range runs past its file's end, or the offset isn't in src",
        "ADD_POINTER, ADD_CHECKSUM; WRITE_POINTER",
    ),
    11: Named("TooFar", "the number doesn't fit the size", "ADD_POINTER, WRITE_POINTER"),
}

DUMP_FAULTS = {
    1: Named("BadHeader", "line 1 isn't spelled as a first line, or its top isn't a multiple of 1 MiB from 64 MiB to 3 GiB", "1"),
    2: Named("BadLine", "a line isn't spelled as a row's line, its address is no multiple of 16, or it stands behind the line `end`", "the line"),
    3: Named("OutOfOrder", "the address of a line isn't greater than that of the line before", "the line"),
    4: Named("AllFill", "the 16 bytes of a line are all the fill byte", "the line"),
    5: Named("NotRam", "the address of a line is no RAM", "the line"),
    6: Named("Truncated", "the bytes end before a whole line `end`, and no whole line is at fault", "how many line feeds there are"),
}

ACPI_FAULTS = {
    1: Named(
        "OutsideRam",
        "the header of a table, the whole table, the 64 bytes of a FACS or the 16 bytes of an id aren't all RAM",
        "the table, or the id",
    ),
    2: Named("BadSum", "the bytes of a table don't sum to zero", "the table"),
    3: Named("BadLength", "the length that a table tells isn't one of its form", "the table"),
    4: Named("BadEntry", "an entry of an `APIC` or an `SRAT` is shorter than those of its type, or runs past its table's end", "the entry"),
    5: Named(
        "WrongSignature",
        "another signature stands where an XSDT, or by an RSDP of revision 0 or 1 an RSDT, a FACS or a DSDT is due",
        "the table",
    ),
    6: Named("TwiceGiven", "a table of the same signature was read before", "the table"),
}

SMBIOS_FAULTS = {
    1: Named("Truncated", "the table ends within the header, the area or the strings of a structure", "the structure"),
    2: Named("ShortStructure", "the length of a structure is below 4, that of its header", "the structure"),
    3: Named("NoEnd", "no byte is left where a structure would begin, and none of type 127 was read", "0, no place"),
    4: Named("NoSuchString", "a field of a structure names a string that it doesn't have; which one isn't told", "the structure"),
}

# The items of an inventory: what is compared, and what is read from it.
ITEMS = {
    0: Named("", "nothing: the candidate breaks a rule"),
    1: Named("", "the top; whether there is an anchor, and its version and document revision", "`top_mib`"),
    2: Named("", "the structures", "firmware, system, chassis, sockets, slots, the maker's texts, modules, ranges"),
    3: Named("", "whether there is an RSDP; its OEM id; the header of the XSDT, or with `--legacy` of the RSDT", "`oem_id`, `oem_table_id`"),
    4: Named("", "FADT and FACS", "power management, but for clock and keyboard"),
    5: Named(
        "",
        "the DSDT; the id of the generation",
        "windows, routes, `last_bus`, clock, keyboard, serial ports; `generation`",
    ),
    6: Named("", "MADT", "interrupt controllers, processors, I/O APICs, overrides, non-maskable interrupts"),
    7: Named("", "SRAT", "the nodes of processors and ranges"),
    8: Named("", "SLIT", "`numa`"),
    9: Named("", "MCFG", "`ecam`"),
    10: Named("", "HPET", "`hpet`"),
    11: Named("", "the tables of other signatures", "nothing"),
}

RULES = {
    1: "`top_mib` is 64 to 3072",
    2: "`oem_strings` has at most 32 texts, `socket` and `dimm` have at most 256 tables, `range` and `slot` at most 64, `cpu` at most 4,096, "
    "`ioapic`, `override` and `nmi` at most 16, `uart` at most 4, and of `bridge` `window` at most 32 and `route` at most 128",
    3: "each text of the description has at most 64 bytes, each 0x20 to 0x7E",
    4: "the `uuid` of the system and the `generation`, where they are given, are neither all zeros nor all ones (RFC 9562 gives those to the Nil "
    "and the Max UUID)",
    5: "no text of `oem_strings` is empty",
    6: "the `kind` of the chassis is 1 to 127",
    7: "of each socket `cores` is at least 1 and at most `threads`, and `threads` at most 65,534",
    8: "of each module `size_mib` is 1 to 16,777,216, and `speed` at most 65,534",
    9: "`range` is given if and only if `dimm` is",
    10: "no range is empty, each ends within 2^32 MiB, and each begins at or behind the end of the one before",
    11: "where ranges are given, some begin below 4096 MiB, and these are memory without a gap: the first begins at 0, each other where the one "
    "before it ends, and the last ends at `top_mib`",
    12: "of each slot `kind` and `width` are at least 1, `device` is at most 31, and `function` at most 7",
    13: "a machine with the table `power`, `hpet`, `apic` or `numa` has the table `acpi`",
    14: "a machine with the table `bridge`, with a table in `uart`, or with a `generation`, has the table `power`",
    15: "a machine with a table in `cpu`, `ioapic`, `override` or `nmi` has the table `apic`",
    16: "`oem_id` has at most 6 bytes, `oem_table_id` at most 8, and neither ends in a space, since headers pad them with spaces",
    17: "of `power` the ports `event`, `control` and `timer` aren't 0; `gpe_len` is even, since the block has two halves (ACPI 6.5, 4.8.4.1), "
    "at most 30, and 0 if and only if `gpe` is; and without `reset` the `reset_value` is 0",
    18: "the HPET's `address` is a multiple of 1024",
    19: "the `apic` of a processor isn't 0xFFFFFFFF, which names all of them, and isn't that of one before",
    20: "the `id` of an I/O APIC isn't that of one before",
    21: "the `irq` of an override is at most 15 and isn't that of one before, and its `flags` are at most 15",
    22: "the `cpu` of an NMI, where it is given, is less than the number of processors, its `flags` are at most 15, and its `lint` at most 1",
    23: "`nodes` is 1 to 64, and `distance` has `nodes` times `nodes` numbers: 10 from a node to itself, and at least 10 to another (ACPI 6.5, "
    "5.2.17)",
    24: "the `node` of each processor and of each range is below `nodes`, and 0 without the table `numa`",
    25: "the `ecam` of the bridge is a multiple of 1 MiB, which each bus has there, and below 2^52",
    26: "of each window `size` is at least 1; of `io` `base` and `size` together are at most 65,536, `size` is at most 65,535, and `prefetch` "
    "isn't `true`; of `mem32` they are at most 2^32 together, and `size` is below 2^32; and of `mem64` they are at most 2^52 together",
    27: "of each route `device` is at most 31 and `pin` at most 3, and no route before has both",
    28: "of each serial port `irq` is at most 15, and `port` at most 0xFFF8",
}

COUNTED = "counted from 0"

# What the index of a rule stands for; of any other rule it is 0.
INDICES = {
    2: Index(
        "the first list that is too long",
        ("`oem_strings`", "`socket`", "`dimm`", "`range`", "`slot`", "`cpu`", "`ioapic`", "`override`", "`nmi`", "`uart`", "`window`", "`route`"),
    ),
    4: Index("the first that breaks it", ("the `uuid` of the system", "`generation`")),
    5: Index(f"the first text of `oem_strings` that breaks it, {COUNTED}"),
    7: Index(f"the first `socket` that breaks it, {COUNTED}"),
    8: Index(f"the first `dimm` that breaks it, {COUNTED}"),
    10: Index(f"the first `range` that breaks it, {COUNTED}"),
    12: Index(f"the first `slot` that breaks it, {COUNTED}"),
    13: Index("the first that is there", ("`power`", "`hpet`", "`apic`", "`numa`")),
    14: Index("the first that is there", ("`bridge`", "`uart`", "`generation`")),
    15: Index("the first that has a table", ("`cpu`", "`ioapic`", "`override`", "`nmi`")),
    16: Index("the first that breaks it", ("`oem_id`", "`oem_table_id`")),
    19: Index(f"the first `cpu` that breaks it, {COUNTED}"),
    20: Index(f"the first `ioapic` that breaks it, {COUNTED}"),
    21: Index(f"the first `override` that breaks it, {COUNTED}"),
    22: Index(f"the first `nmi` that breaks it, {COUNTED}"),
    24: Index(f"the first `cpu` that breaks it, {COUNTED}; or where none does the first `range`, counted behind all the processors"),
    26: Index(f"the first `window` that breaks it, {COUNTED}"),
    27: Index(f"the first `route` that breaks it, {COUNTED}"),
    28: Index(f"the first `uart` that breaks it, {COUNTED}"),
}

TEXT, UUID, TRUTH, TABLE = "string", "string, a UUID", "boolean", "table"
TEXTS, BYTES, TABLES = "array of strings", "array of integers, each 8 bits unsigned", "array of tables"
ONE, U8, U16, U32, U63 = "integer", *(f"integer, {bits} bits unsigned" for bits in (8, 16, 32, 63))
WINDOWS = '`"io"`, `"mem32"` or `"mem64"`'

# What is out of range of each kind of value that can be.
OUTSIDE = {
    ONE: "the version isn't 1",
    UUID: "the text is no UUID",
    BYTES: "an integer there isn't 0 to 255",
    U8: "the integer isn't 0 to 255",
    U16: "the integer isn't 0 to 65,535",
    U32: "the integer isn't 0 to 4,294,967,295",
    U63: "the integer is below 0",
    WINDOWS: "the text is none of these words",
}

# The keys of each table in their order, with the kind of the value. Those with a `!` must be there.
KEYS = {
    "root": {
        "version!": ONE, "top_mib!": U32, "oem_strings": TEXTS, "generation": UUID, "system!": TABLE, "firmware": TABLE, "chassis": TABLE,
        "socket": TABLES, "dimm": TABLES, "range": TABLES, "slot": TABLES, "acpi": TABLE, "power": TABLE, "hpet": TABLE, "apic": TABLE,
        "cpu": TABLES, "ioapic": TABLES, "override": TABLES, "nmi": TABLES, "numa": TABLE, "bridge": TABLE, "uart": TABLES,
    },
    "system": {"manufacturer": TEXT, "product": TEXT, "version": TEXT, "serial": TEXT, "sku": TEXT, "family": TEXT, "uuid": UUID},
    "firmware": {"vendor": TEXT, "version": TEXT, "date": TEXT, "major": U8, "minor": U8},
    "chassis": {"manufacturer": TEXT, "version": TEXT, "serial": TEXT, "asset": TEXT, "sku": TEXT, "kind": U8},
    "socket": {
        "designation": TEXT, "manufacturer": TEXT, "version": TEXT, "serial": TEXT, "asset": TEXT, "part": TEXT, "cores!": U16,
        "threads!": U16, "mhz": U16,
    },
    "dimm": {
        "locator": TEXT, "bank": TEXT, "manufacturer": TEXT, "serial": TEXT, "asset": TEXT, "part": TEXT, "size_mib!": U32, "speed": U16,
    },
    "range": {"base_mib!": U32, "size_mib!": U32, "node": U8},
    "slot": {
        "designation": TEXT, "kind": U8, "width": U8, "used": TRUTH, "id": U16, "bus": U8, "device": U8, "function": U8,
    },
    "acpi": {"oem_id": TEXT, "oem_table_id": TEXT},
    "power": {
        "sci": U16, "profile": U8, "event!": U16, "control!": U16, "timer!": U16, "gpe": U16, "gpe_len": U8, "reset": U16,
        "reset_value": U8, "century": U8, "rtc": TRUTH, "keyboard": TRUTH,
    },
    "hpet": {"address": U32, "block_id": U32, "number": U8, "min_tick": U16},
    "apic": {"local": U32, "legacy": TRUTH},
    "cpu": {"apic!": U32, "node": U8, "enabled": TRUTH},
    "ioapic": {"id!": U8, "address!": U32, "gsi": U32},
    "override": {"irq!": U8, "gsi!": U32, "flags": U16},
    "nmi": {"cpu": U32, "flags": U16, "lint": U8},
    "numa": {"nodes!": U8, "distance!": BYTES},
    "bridge": {"ecam": U63, "last_bus": U8, "window": TABLES, "route": TABLES},
    "window": {"kind!": WINDOWS, "base!": U63, "size!": U63, "prefetch": TRUTH},
    "route": {"device!": U8, "pin!": U8, "gsi!": U32},
    "uart": {"port!": U16, "irq!": U8},
}  # fmt: skip

SHOWN = 64  # bytes of an unknown key

LINES = [
    Line("read fault", 1, "Standard input failed: it couldn't be read to its end, so that nothing was written."),
    Line(
        "usage: vmtables build, load, decode, boot, lint or gen",
        2,
        "The words are no command: the first one is none of these, or a word behind it is no option of the command, stands there twice or has a "
        "value that it can't have, or one is missing. `lint` is planned, and refused today; `vmtables --help` prints each command with its options.",
    ),
    Line(
        "description: not TOML",
        3,
        "The bytes are no UTF-8, or no TOML document, or one that nests too deep. Where isn't told; of what is no TOML Python's tomllib tells "
        "line and column.",
    ),
    Line("description: unknown key T I K", 3, "{T} has a key `{K}`, and no such key is listed. Its keys are {keys}.{shown}"),
    Line("description: missing key T I K", 3, "{T} has no key `{K}`, which must be there; its value is of the kind {kind}."),
    Line("description: wrong kind T I K", 3, "In {T} what stands at the key `{K}`, or in its array, isn't of the kind {kind}."),
    Line("description: out of range T I K", 3, "In {T} what stands at the key `{K}` is of the kind {kind}, but {outside}."),
    Line("description: rule R index I", 3, "The description breaks rule {R}: {rule}.{index}"),
    Line(
        "no room at command I",
        4,
        "The command of index {I}, {nth} of the script, is an ALLOCATE, and no free place of its zone was left for its file; the load ended there.",
    ),
    Line(
        "container: fault F",
        5,
        "The bytes are no container for fault {F}, {F_name}: {F_means}.",
        {"F": CONTAINER_FAULTS},
    ),
    Line(
        "install: fault F",
        5,
        "The container's files of SMBIOS structures, `etc/smbios/smbios-anchor` and `etc/smbios/smbios-tables`, aren't installed, for fault {F}, "
        "{F_name}: {F_means}. Nothing was loaded.",
        {"F": INSTALL_FAULTS},
    ),
    Line(
        "script: none",
        5,
        "No file of the container has the name `etc/table-loader`, so that it has no script. `load --install` makes one for the SMBIOS files that "
        "QEMU gives.",
    ),
    Line(
        "script: length",
        5,
        "The length of the container's file `etc/table-loader` is that of no script: no multiple of 128, or above 1,048,576 bytes.",
    ),
    Line(
        "command I: cause C",
        5,
        "The command of index {I}, {nth} of the script, is refused for cause {C}, {C_name}: {C_means} (of these commands: {C_tells}). The "
        "load ended there.",
        {"C": CAUSES},
    ),
    Line(
        "dump: fault F line N",
        6,
        "The bytes are no dump for fault {F}, {F_name}: {F_means}. The number {N} tells {what}.",
        {"F": DUMP_FAULTS},
    ),
    Line(
        "tables: acpi fault F at X",
        7,
        "The ACPI tables have fault {F}, {F_name}: {F_means}. At 0x{X} is {F_tells}.",
        {"F": ACPI_FAULTS},
    ),
    Line(
        "tables: smbios fault F at P",
        7,
        "The SMBIOS structures have fault {F}, {F_name}: {F_means}. {place}.",
        {"F": SMBIOS_FAULTS},
    ),
    Line(
        "tables: not this profile, item N",
        7,
        "The tables have no fault, but no machine that can be described has them. The first item that fails is {N}, in which is compared: "
        "{N_means}. `decode --list --any` lists what a guest finds there. `decode` reads an RSDP of revision 0 or 1 with `--legacy`, and one of 2 or "
        "above without it, and no SMBIOS anchor of 31 bytes.",
        {"N": ITEMS},
    ),
    Line("write fault", 8, "Standard output failed; it took a part of the text from its front, perhaps all."),
    Line("out of memory", 9, "Memory ran out."),
    Line("input too long", 10, "More than 67,108,864 bytes were given on standard input."),
    Line("image too large", 11, "The machine's files have more than 409,600 bytes in all."),
]

# The end of the table.

NUMBER = "(0|[1-9][0-9]{0,9})"
WORDS = {"T": "([a-z_]+)", "K": "([!-~]*)", "X": "([0-9a-f]{16})"}  # what may stand for a letter that isn't a number
OF_TRIES = ("checked: ended", "run=ended")  # how lines begin by which `rt try` says that nothing is proved


def pattern_of(form):
    """What a line of this form looks like."""
    return re.sub(r"\b[A-Z]\b", lambda letter: WORDS.get(letter[0], NUMBER), form)


def letters_of(form):
    return re.findall(r"\b[A-Z]\b", form)


def keys_of(table):
    """The kinds of a table's keys."""
    return {key.removesuffix("!"): kind for key, kind in KEYS[table].items()}


def holder_of(table):
    """The table of which this one is a key, or None."""
    return next((holder for holder in KEYS if table in keys_of(holder) and keys_of(holder)[table] in (TABLE, TABLES)), None)


def nth(index):
    count = index + 1
    ending = "th" if count % 100 in (11, 12, 13) else {1: "st", 2: "nd", 3: "rd"}.get(count % 10, "th")
    return f"the {count}{ending}"


def table_phrase(table, index):
    """A table of a description, by its name and its place."""
    if table not in KEYS:
        raise NotALine(f"a description has no table {table}")
    holder = holder_of(table)
    if holder is not None and keys_of(holder)[table] == TABLES:
        name = table if holder == "root" else f"{holder}.{table}"
        return f"the table `[[{name}]]` of index {index}, {nth(index)} of them,"
    if index != 0:
        raise NotALine(f"a description has one table {table} alone, of index 0")
    return "the description, above every table," if holder is None else f"the table `[{table}]`"


def capital(text):
    return text[:1].upper() + text[1:]


def unknown_key(words):
    phrase = table_phrase(words["T"], int(words["I"]))
    keys, key = keys_of(words["T"]), words["K"]
    if len(key) > SHOWN or key in keys:
        raise NotALine(f"{key} is a key of the table, or longer than what is shown")
    shown = " A question mark may stand for a byte that isn't 0x21 to 0x7E." if "?" in key else ""
    shown += f" The key may be longer: its first {SHOWN} bytes are shown." if len(key) == SHOWN else ""
    return {**words, "T": capital(phrase), "keys": ", ".join(f"`{name}`" for name in keys), "shown": shown}


def known_key(words):
    phrase = table_phrase(words["T"], int(words["I"]))
    kind = keys_of(words["T"]).get(words["K"])
    if kind is None:
        raise NotALine(f"the table has no key {words['K']}")
    return {**words, "T": phrase, "kind": kind}


def missing_key(words):
    known = known_key(words)
    if f"{words['K']}!" not in KEYS[words["T"]]:
        raise NotALine(f"the key {words['K']} may be left out")
    return {**known, "T": capital(known["T"])}


def outside_key(words):
    known = known_key(words)
    if known["kind"] not in OUTSIDE:
        raise NotALine(f"no value of the key {words['K']} is out of range")
    return {**known, "outside": OUTSIDE[known["kind"]]}


def broken_rule(words):
    number, index = int(words["R"]), int(words["I"])
    if number not in RULES:
        raise NotALine(f"there is no rule {number}")
    return {"R": number, "rule": RULES[number], "index": index_sentence(number, index)}


def index_sentence(number, index):
    if number not in INDICES:
        if index != 0:
            raise NotALine(f"rule {number} has no index but 0")
        return ""
    which, names = INDICES[number]
    if not names:
        return f" Index {index} is {which}: {nth(index)}."
    if index >= len(names):
        raise NotALine(f"rule {number} has no index {index}")
    return f" Index {index} is {which}: {names[index]}."


def index_text(index):
    """What the index of a rule stands for, in one text."""
    return index.which + "".join(f"{',' if at else ':'} {at} for {name}" for at, name in enumerate(index.names))


def of_command(words):
    return {**words, "nth": nth(int(words["I"]))}


def of_dump(words):
    if words["F"] == "1" and words["N"] != "1":
        raise NotALine("fault 1 is that of line 1")
    return {**words, "what": "the line, the first of the dump being 1" if words["F"] != "6" else DUMP_FAULTS[6].tells}


def of_structure(words):
    if words["F"] == "3":
        if words["P"] != "0":
            raise NotALine("fault 3 tells no place but 0")
        return {**words, "place": "No place is told"}
    return {**words, "place": f"The structure begins {words['P']} bytes behind the beginning of the table"}


# What the text of a line has beside the words and the names of its numbers.
MORE = {
    "description: unknown key T I K": unknown_key,
    "description: missing key T I K": missing_key,
    "description: wrong kind T I K": known_key,
    "description: out of range T I K": outside_key,
    "description: rule R index I": broken_rule,
    "no room at command I": of_command,
    "command I: cause C": of_command,
    "dump: fault F line N": of_dump,
    "tables: smbios fault F at P": of_structure,
}


def named(line, words):
    """What the numbers of a line stand for."""
    for letter, table in line.numbers.items():
        number = int(words[letter])
        if number not in table:
            raise NotALine(f"there is no {number} of these")
        for field, text in table[number]._asdict().items():
            yield f"{letter}_{field}", text


def explained(text):
    """The sentences that say a line, without its line feed."""
    for line in LINES:
        match = re.fullmatch(pattern_of(line.form), text)
        if match is not None:
            words = dict(zip(letters_of(line.form), match.groups()))
            names = dict(named(line, words))
            more = MORE.get(line.form, dict)(words)
            return f"{line.text.format(**{**words, **names, **more})} (Status {line.status}.)"
    raise NotALine("no line has this form")


def given_lines(words):
    lines = [" ".join(words)] if words else sys.stdin.buffer.read().decode("utf-8", "replace").splitlines()
    return [line for line in lines if line and not line.startswith(OF_TRIES)]


def main(words):
    lines = given_lines(words)
    if not lines:
        print("explain.py: there is no line: where the program ends with status 0 it writes none to standard error", file=sys.stderr)
        return 2
    status = 0
    for line in lines:
        try:
            print(explained(line))
        except NotALine as refusal:
            print(f"explain.py: {line!r} is no line of vmtables: {refusal}", file=sys.stderr)
            status = 1
    return status


if __name__ == "__main__":
    sys.exit(main(sys.argv[1:]))
