"""Machines as descriptions have them, in tables as `tomllib` makes them: the defaults of keys (docs/FORMATS.md), the text of a description, the
machine that `gen` generates, and machines that a seed draws over all keys, each of which keeps the rules. What the judges of round trips share.
"""

import json
import uuid

# What stands at each key that is left out; None where nothing does, and no line for a key that must be there. Tables and arrays of tables
# have the name of their key.
DEFAULTS = {
    "root": {"oem_strings": [], "generation": None},
    "system": dict.fromkeys(["manufacturer", "product", "version", "serial", "sku", "family"], "") | {"uuid": None},
    "firmware": {"vendor": "", "version": "", "date": "", "major": 0, "minor": 0},
    "chassis": {"manufacturer": "", "version": "", "serial": "", "asset": "", "sku": "", "kind": 1},
    "socket": {"designation": "", "manufacturer": "", "version": "", "serial": "", "asset": "", "part": "", "mhz": 0},
    "dimm": {"locator": "", "bank": "", "manufacturer": "", "serial": "", "asset": "", "part": "", "speed": 0},
    "range": {"node": 0},
    "slot": {"designation": "", "kind": 1, "width": 1, "used": False, "id": 0, "bus": 0, "device": 0, "function": 0},
    "acpi": {"oem_id": "BOCHS", "oem_table_id": "BXPC"},
    "power": {"sci": 9, "profile": 0, "gpe": 0, "gpe_len": 0, "reset": 0, "reset_value": 0, "century": 0, "rtc": True, "keyboard": True},
    "hpet": {"address": 0xFED00000, "block_id": 0x8086A201, "number": 0, "min_tick": 100},
    "apic": {"local": 0xFEE00000, "legacy": True},
    "cpu": {"node": 0, "enabled": True},
    "ioapic": {"gsi": 0},
    "override": {"flags": 0},
    "nmi": {"cpu": None, "flags": 0, "lint": 1},
    "numa": {},
    "bridge": {"ecam": 0, "last_bus": 255},
    "window": {"prefetch": False},
    "route": {},
    "uart": {},
}
UUIDS = ["uuid", "generation"]

PRINTED = [chr(code) for code in range(0x20, 0x7F)]
BYTE, WORD, DWORD, ADDRESS = (1 << 8) - 1, (1 << 16) - 1, (1 << 32) - 1, 1 << 52


def is_table(value):
    return isinstance(value, dict)


def are_tables(value):
    return isinstance(value, list) and value != [] and all(map(is_table, value))


def told(table, name="root"):
    """A table as `decode` has to print it: with each key that has a default, and without the absent and the empty. A UUID has one spelling."""
    full = {key: value for key, value in (DEFAULTS[name] | table).items() if value is not None and value != []}
    return {key: told_value(key, value) for key, value in full.items()}


def told_value(key, value):
    if is_table(value):
        return told(value, key)
    if are_tables(value):
        return [told(element, key) for element in value]
    return str(uuid.UUID(value)) if key in UUIDS else value


def value_text(value):
    if isinstance(value, list):
        return f"[{', '.join(map(value_text, value))}]"
    return json.dumps(value)  # as TOML spells texts of ASCII, integers and booleans


def lines_of(table, path=()):
    """The keys of a table, and then its tables, each behind its header."""
    yield from (f"{key} = {value_text(value)}" for key, value in table.items() if not is_table(value) and not are_tables(value))
    for key, value in table.items():
        name = ".".join([*path, key])
        if is_table(value):
            yield from [f"[{name}]", *lines_of(value, [*path, key])]
        elif are_tables(value):
            yield from (line for element in value for line in [f"[[{name}]]", *lines_of(element, [*path, key])])


def description(machine):
    return "".join(f"{line}\n" for line in lines_of(machine)).encode()


def text_as_printed(text):
    """The first form of a TOML string that needs no escape, and else the one in quotes."""
    if "\\" not in text and '"' not in text:
        return f'"{text}"'
    if "'" not in text:
        return f"'{text}'"
    if "\\" not in text and '"""' not in text:
        return f'"""{text}"""'
    return json.dumps(text) if "'''" in text else f"'''{text}'''"


def value_as_printed(value):
    if isinstance(value, list):
        return f"[{', '.join(map(value_as_printed, value))}]"
    return text_as_printed(value) if isinstance(value, str) else json.dumps(value)


def lines_as_printed(table, path=()):
    """The keys of a table in ascending order, and then its tables, likewise, each behind an empty line and its header."""
    tables = {key: value for key, value in sorted(table.items()) if is_table(value) or are_tables(value)}
    yield from (f"{key} = {value_as_printed(value)}" for key, value in sorted(table.items()) if key not in tables)
    for key, value in tables.items():
        name = ".".join([*path, key])
        header, elements = (f"[{name}]", [value]) if is_table(value) else (f"[[{name}]]", value)
        for element in elements:
            yield from ["", header, *lines_as_printed(element, [*path, key])]


def printed(machine):
    """The text that `decode` has to print of a machine."""
    return "".join(f"{line}\n" for line in lines_as_printed(told(machine))).encode()


def generated(processors):
    """The machine that `gen` generates of a number of processors."""
    nodes = min(processors, 4)
    sockets = [(at, min(64, processors - 64 * at)) for at in range((processors + 63) // 64)]
    return {
        "version": 1,
        "top_mib": 2048,
        "system": {"manufacturer": "VMTABLES", "product": "GEN"},
        "socket": [{"designation": f"CPU{at}", "cores": cores, "threads": cores} for at, cores in sockets],
        "dimm": [{"size_mib": 1024 * processors}] * nodes,
        "range": [{"base_mib": 0, "size_mib": 2048}, {"base_mib": 4096, "size_mib": 1024 * processors, "node": nodes - 1}],
        "acpi": {},
        "power": {"event": 0x600, "control": 0x604, "timer": 0x608},
        "hpet": {},
        "apic": {},
        "cpu": [{"apic": at, "node": at % nodes} for at in range(processors)],
        "ioapic": [{"id": 0, "address": 0xFEC00000}],
        "numa": {"nodes": nodes, "distance": [10 if row == to else 20 for row in range(nodes) for to in range(nodes)]},
        "bridge": {
            "ecam": 0xE0000000,
            "window": [{"kind": "io", "base": 0x1000, "size": 0xF000}, {"kind": "mem32", "base": 0xC0000000, "size": 0x10000000}],
            "route": [{"device": at // 4, "pin": at % 4, "gsi": 16 + (at // 4 + at % 4) % 4} for at in range(128)],
        },
        "uart": [{"port": 0x3F8, "irq": 4}],
    }


class Drawing:
    """Draws machines by a random generator. A number is an end of its range as often as one between them."""

    def __init__(self, draws):
        self.draws = draws

    def number(self, least, most):
        return self.draws.choice([least, most, self.draws.randint(least, most)])

    def flag(self):
        return self.draws.random() < 0.5

    def text(self, most=64):
        return "".join(self.draws.choices(PRINTED, k=self.draws.choice([0, 1, self.number(0, most)])))

    def texts(self, *keys):
        return {key: self.text() for key in keys}

    def uuid(self):
        drawn = uuid.UUID(int=self.number(1, (1 << 128) - 2))
        return self.draws.choice([str(drawn), str(drawn).upper(), drawn.hex, f"{{{drawn}}}", drawn.urn])

    def some(self, most, one):
        """At most so many of what is made of each position, mostly few of them."""
        return [one(at) for at in range(self.draws.choice([0, 1, 2, self.draws.randint(0, most)]))]

    def distinct(self, count, least, most):
        """So many different numbers, the ends of their range likely among them."""
        drawn = {self.number(least, most) for _ in range(count)}
        while len(drawn) < count:
            drawn.add(self.draws.randint(least, most))
        return self.draws.sample(sorted(drawn), count)

    def left_out(self, name, table):
        """The table, with some of the keys left out that have their defaults."""
        missing = object()
        return {key: value for key, value in table.items() if DEFAULTS[name].get(key, missing) != value or self.flag()}

    def system(self):
        texts = self.texts("manufacturer", "product", "version", "serial", "sku", "family")
        return self.left_out("system", texts | ({"uuid": self.uuid()} if self.flag() else {}))

    def firmware(self):
        return self.left_out("firmware", self.texts("vendor", "version", "date") | {"major": self.number(0, BYTE), "minor": self.number(0, BYTE)})

    def chassis(self):
        return self.left_out("chassis", self.texts("manufacturer", "version", "serial", "asset", "sku") | {"kind": self.number(1, 127)})

    def socket(self, _at):
        threads = self.number(1, 65534)
        texts = self.texts("designation", "manufacturer", "version", "serial", "asset", "part")
        return self.left_out("socket", texts | {"cores": self.number(1, threads), "threads": threads, "mhz": self.number(0, WORD)})

    def dimm(self, _at):
        texts = self.texts("locator", "bank", "manufacturer", "serial", "asset", "part")
        return self.left_out("dimm", texts | {"size_mib": self.draws.choice([32766, 32767, self.number(1, 1 << 24)]), "speed": self.number(0, 65534)})

    def slot(self, _at):
        numbers = {"kind": self.number(1, BYTE), "width": self.number(1, BYTE), "used": self.flag(), "id": self.number(0, WORD)}
        place = {"bus": self.number(0, BYTE), "device": self.number(0, 31), "function": self.number(0, 7)}
        return self.left_out("slot", {"designation": self.text()} | numbers | place)

    def range(self, base, end, nodes):
        return self.left_out("range", {"base_mib": base, "size_mib": end - base, "node": self.number(0, nodes - 1)})

    def ranges(self, top, nodes):
        """Memory below the top without a gap, and some that is apart from 4 GiB on."""
        cuts = [0, *sorted(self.distinct(self.number(0, 3), 1, top - 1)), top]
        ends = sorted(self.distinct(2 * self.number(0, 4), 4096, (1 << 32) - 1))
        return [self.range(base, end, nodes) for base, end in [*zip(cuts, cuts[1:]), *zip(ends[::2], ends[1::2])]]

    def power(self):
        ports = {key: self.number(1, WORD) for key in ["event", "control", "timer"]}
        gpe = {"gpe": self.number(1, WORD), "gpe_len": 2 * self.number(1, 15)} if self.flag() else {"gpe": 0, "gpe_len": 0}
        reset = {"reset": self.number(1, WORD), "reset_value": self.number(0, BYTE)} if self.flag() else {"reset": 0, "reset_value": 0}
        beside = {"profile": self.number(0, BYTE), "century": self.number(0, BYTE), "rtc": self.flag(), "keyboard": self.flag()}
        return self.left_out("power", {"sci": self.number(0, WORD)} | ports | gpe | reset | beside)

    def hpet(self):
        numbers = {"block_id": self.number(0, DWORD), "number": self.number(0, BYTE), "min_tick": self.draws.choice([100, self.number(0, WORD)])}
        return self.left_out("hpet", {"address": self.draws.choice([0xFED00000, 1024 * self.number(0, DWORD // 1024)])} | numbers)

    def controllers(self, nodes):
        """Processors, I/O APICs, overrides, and inputs for interrupts that can't be masked; ids are mostly on both sides of 255."""
        apics = self.distinct(self.draws.choice([0, 1, 3, 300]), 0, self.draws.choice([400, DWORD - 1]))
        cpus = [self.left_out("cpu", {"apic": apic, "node": self.number(0, nodes - 1), "enabled": self.flag()}) for apic in apics]
        ids = self.distinct(self.number(0, 16), 0, BYTE)
        io_apics = [self.left_out("ioapic", {"id": at, "address": self.number(0, DWORD), "gsi": self.number(0, DWORD)}) for at in ids]
        irqs = self.distinct(self.number(0, 16), 0, 15)
        overrides = [self.left_out("override", {"irq": irq, "gsi": self.number(0, DWORD), "flags": self.number(0, 15)}) for irq in irqs]
        nmis = self.some(16, lambda _: self.nmi(len(cpus)))
        return {"cpu": cpus, "ioapic": io_apics, "override": overrides, "nmi": nmis}

    def nmi(self, cpus):
        cpu = {"cpu": self.number(0, cpus - 1)} if cpus > 0 and self.flag() else {}
        return self.left_out("nmi", cpu | {"flags": self.number(0, 15), "lint": self.number(0, 1)})

    def numa(self, nodes):
        return {"nodes": nodes, "distance": [10 if row == to else self.number(10, BYTE) for row in range(nodes) for to in range(nodes)]}

    def window(self, _at):
        kind, most, end = self.draws.choice([("io", WORD, WORD + 1), ("mem32", DWORD, DWORD + 1), ("mem64", ADDRESS, ADDRESS)])
        size = self.number(1, most)
        window = {"kind": kind, "base": self.number(0, end - size), "size": size, "prefetch": kind != "io" and self.flag()}
        return self.left_out("window", window)

    def bridge(self):
        pins = self.draws.sample(range(128), self.draws.choice([0, 1, 4, 128]))
        routes = [{"device": pin // 4, "pin": pin % 4, "gsi": self.number(0, DWORD)} for pin in pins]
        numbers = {"ecam": self.number(0, (ADDRESS >> 20) - 1) << 20, "last_bus": self.number(0, BYTE)}
        return self.left_out("bridge", numbers | {"window": self.some(32, self.window), "route": routes})

    def uart(self, _at):
        return {"port": self.number(0, 0xFFF8), "irq": self.number(0, 15)}

    def acpi_parts(self, nodes, has_numa):
        """The tables of a machine with ACPI tables, some of which need others."""
        acpi = {"oem_id": self.text(6).rstrip(" "), "oem_table_id": self.text(8).rstrip(" ")}
        parts = {"acpi": self.left_out("acpi", self.draws.choice([acpi, DEFAULTS["acpi"]]))}
        parts |= {"numa": self.numa(nodes)} if has_numa else {}
        parts |= {"hpet": self.hpet()} if self.flag() else {}
        parts |= {"apic": self.apic(), **self.controllers(nodes)} if self.flag() else {}
        return parts | (self.powered() if self.flag() else {})

    def apic(self):
        return self.left_out("apic", {"local": self.draws.choice([0xFEE00000, self.number(0, DWORD)]), "legacy": self.flag()})

    def powered(self):
        """Power management, and what needs it."""
        parts = {"power": self.power(), "uart": self.some(4, self.uart)}
        parts |= {"bridge": self.bridge()} if self.flag() else {}
        return parts | ({"generation": self.uuid()} if self.flag() else {})

    def machine(self):
        has_acpi = self.draws.random() < 0.8
        has_numa = has_acpi and self.flag()
        nodes = self.draws.choice([1, 2, 3, self.draws.randint(1, 64)]) if has_numa else 1
        top = self.number(64, 3072)
        machine = {"version": 1, "top_mib": top, "oem_strings": self.some(32, lambda _: self.text() or "x"), "system": self.system()}
        machine |= {"firmware": self.firmware()} if self.flag() else {}
        machine |= {"chassis": self.chassis()} if self.flag() else {}
        machine |= {"dimm": self.some(8, self.dimm), "socket": self.some(8, self.socket), "slot": self.some(8, self.slot)}
        machine |= {"range": self.ranges(top, nodes)} if machine["dimm"] else {}
        return machine | (self.acpi_parts(nodes, has_numa) if has_acpi else {})
