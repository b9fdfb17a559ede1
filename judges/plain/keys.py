"""The keys of a description (docs/FORMATS.md, "The description"), table by table in the order in which their faults are looked for."""

import collections

REQUIRED = object()
NONE = None

# Kinds of values. An integer's kind is the number of its bits, and tables and arrays of tables have the name of their key.
TEXT, TEXTS, BYTES, BOOLEAN, UUID, TABLE, TABLES = "text", "texts", "bytes", "boolean", "UUID", "table", "tables"
WINDOWS = ("io", "mem32", "mem64")  # the words of a window's kind

Key = collections.namedtuple("Key", "name kind default")


def texts(*names):
    return [Key(name, TEXT, "") for name in names]


def required(*keys):
    return [Key(name, kind, REQUIRED) for name, kind in keys]


def numbers(bits, **defaults):
    return [Key(name, bits, default) for name, default in defaults.items()]


def tables(*names):
    return [Key(name, TABLES, ()) for name in names]


def optional(*names):
    return [Key(name, TABLE, NONE) for name in names]


KEYS = {
    "root": [
        *required(("version", 63), ("top_mib", 32)),
        Key("oem_strings", TEXTS, ()),
        Key("generation", UUID, NONE),
        Key("system", TABLE, REQUIRED),
        *optional("firmware", "chassis"),
        *tables("socket", "dimm", "range", "slot"),
        *optional("acpi", "power", "hpet", "apic"),
        *tables("cpu", "ioapic", "override", "nmi"),
        *optional("numa", "bridge"),
        *tables("uart"),
    ],
    "system": [*texts("manufacturer", "product", "version", "serial", "sku", "family"), Key("uuid", UUID, NONE)],
    "firmware": [*texts("vendor", "version", "date"), *numbers(8, major=0, minor=0)],
    "chassis": [*texts("manufacturer", "version", "serial", "asset", "sku"), *numbers(8, kind=1)],
    "socket": [
        *texts("designation", "manufacturer", "version", "serial", "asset", "part"),
        *required(("cores", 16), ("threads", 16)),
        *numbers(16, mhz=0),
    ],
    "dimm": [*texts("locator", "bank", "manufacturer", "serial", "asset", "part"), *required(("size_mib", 32)), *numbers(16, speed=0)],
    "range": [*required(("base_mib", 32), ("size_mib", 32)), *numbers(8, node=0)],
    "slot": [
        *texts("designation"),
        *numbers(8, kind=1, width=1),
        Key("used", BOOLEAN, False),
        *numbers(16, id=0),
        *numbers(8, bus=0, device=0, function=0),
    ],
    "acpi": [Key("oem_id", TEXT, "BOCHS"), Key("oem_table_id", TEXT, "BXPC")],
    "power": [
        *numbers(16, sci=9),
        *numbers(8, profile=0),
        *required(("event", 16), ("control", 16), ("timer", 16)),
        *numbers(16, gpe=0),
        *numbers(8, gpe_len=0),
        *numbers(16, reset=0),
        *numbers(8, reset_value=0, century=0),
        Key("rtc", BOOLEAN, True),
        Key("keyboard", BOOLEAN, True),
    ],
    "hpet": [*numbers(32, address=0xFED00000, block_id=0x8086A201), *numbers(8, number=0), *numbers(16, min_tick=100)],
    "apic": [*numbers(32, local=0xFEE00000), Key("legacy", BOOLEAN, True)],
    "cpu": [*required(("apic", 32)), *numbers(8, node=0), Key("enabled", BOOLEAN, True)],
    "ioapic": [*required(("id", 8), ("address", 32)), *numbers(32, gsi=0)],
    "override": [*required(("irq", 8), ("gsi", 32)), *numbers(16, flags=0)],
    "nmi": [Key("cpu", 32, NONE), *numbers(16, flags=0), *numbers(8, lint=1)],
    "numa": [*required(("nodes", 8), ("distance", BYTES))],
    "bridge": [*numbers(63, ecam=0), *numbers(8, last_bus=255), *tables("window", "route")],
    "window": [*required(("kind", WINDOWS), ("base", 63), ("size", 63)), Key("prefetch", BOOLEAN, False)],
    "route": [*required(("device", 8), ("pin", 8), ("gsi", 32))],
    "uart": [*required(("port", 16), ("irq", 8))],
}
