"""The rules that a machine has to keep (docs/FORMATS.md, "The description"): each is a function that yields the indexes at which it is broken."""

from plain.keys import KEYS, TEXT

MIB = 1 << 20
MOST = [
    *[("oem_strings", 32), ("socket", 256), ("dimm", 256), ("range", 64), ("slot", 64), ("cpu", 4096), ("ioapic", 16), ("override", 16), ("nmi", 16)],
    *[("uart", 4), ("window", 32), ("route", 128)],
]
MOST_TEXT = 64
NO_UUIDS = (bytes(16), b"\xff" * 16)
MOST_THREADS, MOST_DIMM_MIB, MOST_SPEED = 65_534, 16_777_216, 65_534
END_MIB, HIGH_MIB = 1 << 32, 4096
ALL_PROCESSORS = 0xFFFFFFFF
ADDRESSES = 1 << 52


def broken_rule(machine):
    """The first rule that is broken, by its number, and the least index at which it is; or None."""
    for number, rule in enumerate(RULES, start=1):
        index = next(iter(rule(machine)), None)
        if index is not None:
            return number, index
    return None


def unlike(elements, is_right):
    """The positions of elements of which something isn't right."""
    return (at for at, element in enumerate(elements) if not is_right(element))


def unless(is_right):
    """Index 0, where something isn't right."""
    return [] if is_right else [0]


def in_bridge(machine, name):
    return machine["bridge"][name] if machine["bridge"] is not None else []


def top(machine):
    return unless(64 <= machine["top_mib"] <= 3072)


def list_lengths(machine):
    lists = machine | {name: in_bridge(machine, name) for name in ("window", "route")}
    return unlike(MOST, lambda most: len(lists[most[0]]) <= most[1])


def all_texts(machine):
    """Each text of a description."""
    yield from machine["oem_strings"]
    for name in ("system", "firmware", "chassis", "acpi", "socket", "dimm", "slot"):
        part = machine[name]
        for table in part if isinstance(part, list) else [part] if part is not None else []:
            yield from (table[key.name] for key in KEYS[name] if key.kind == TEXT)


def texts(machine):
    return unless(all(is_text(text.encode()) for text in all_texts(machine)))


def is_text(content):
    return len(content) <= MOST_TEXT and all(0x20 <= byte <= 0x7E for byte in content)


def uuids(machine):
    return unlike([machine["system"]["uuid"], machine["generation"]], lambda uuid: uuid not in NO_UUIDS)


def oem_strings(machine):
    return unlike(machine["oem_strings"], lambda text: text != "")


def chassis(machine):
    return unless(machine["chassis"] is None or 1 <= machine["chassis"]["kind"] <= 127)


def sockets(machine):
    return unlike(machine["socket"], lambda socket: 1 <= socket["cores"] <= socket["threads"] <= MOST_THREADS)


def dimms(machine):
    return unlike(machine["dimm"], lambda dimm: 1 <= dimm["size_mib"] <= MOST_DIMM_MIB and dimm["speed"] <= MOST_SPEED)


def ranges_and_dimms(machine):
    return unless((machine["range"] == []) == (machine["dimm"] == []))


def end_of(memory):
    return memory["base_mib"] + memory["size_mib"]


def ranges(machine):
    ends = [0, *map(end_of, machine["range"])]
    pairs = zip(ends, machine["range"])
    return unlike(pairs, lambda pair: pair[1]["size_mib"] > 0 and end_of(pair[1]) <= END_MIB and pair[1]["base_mib"] >= pair[0])


def low_ranges(machine):
    low = [memory for memory in machine["range"] if memory["base_mib"] < HIGH_MIB]
    ends = [0, *map(end_of, low)]
    return unless(machine["range"] == [] or ([memory["base_mib"] for memory in low] == ends[:-1] and ends[-1] == machine["top_mib"] and low != []))


def slots(machine):
    return unlike(machine["slot"], lambda slot: slot["kind"] >= 1 and slot["width"] >= 1 and slot["device"] <= 31 and slot["function"] <= 7)


def with_acpi(machine):
    return [] if machine["acpi"] is not None else unlike(("power", "hpet", "apic", "numa"), lambda name: machine[name] is None)


def with_power(machine):
    return [] if machine["power"] is not None else unlike(("bridge", "uart", "generation"), lambda name: machine[name] in (None, []))


def with_apic(machine):
    return [] if machine["apic"] is not None else unlike(("cpu", "ioapic", "override", "nmi"), lambda name: machine[name] == [])


def oem_texts(machine):
    texts = [] if machine["acpi"] is None else [(machine["acpi"]["oem_id"], 6), (machine["acpi"]["oem_table_id"], 8)]
    return unlike(texts, lambda told: len(told[0].encode()) <= told[1] and not told[0].endswith(" "))


def power(machine):
    power = machine["power"]
    if power is None:
        return []
    has_ports = 0 not in (power["event"], power["control"], power["timer"])
    has_gpe = power["gpe_len"] % 2 == 0 and power["gpe_len"] <= 30 and (power["gpe_len"] == 0) == (power["gpe"] == 0)
    return unless(has_ports and has_gpe and (power["reset"] != 0 or power["reset_value"] == 0))


def hpet(machine):
    return unless(machine["hpet"] is None or machine["hpet"]["address"] % 1024 == 0)


def twice(elements, key):
    """The positions of elements of which one before has the same key."""
    seen = set()
    for at, element in enumerate(elements):
        if key(element) in seen:
            yield at
        seen.add(key(element))


def either(*positions):
    return sorted({at for some in positions for at in some})


def cpus(machine):
    return either(unlike(machine["cpu"], lambda cpu: cpu["apic"] != ALL_PROCESSORS), twice(machine["cpu"], lambda cpu: cpu["apic"]))


def io_apics(machine):
    return twice(machine["ioapic"], lambda apic: apic["id"])


def overrides(machine):
    lawless = unlike(machine["override"], lambda override: override["irq"] <= 15 and override["flags"] <= 15)
    return either(lawless, twice(machine["override"], lambda override: override["irq"]))


def nmis(machine):
    count = len(machine["cpu"])
    return unlike(machine["nmi"], lambda nmi: (nmi["cpu"] is None or nmi["cpu"] < count) and nmi["flags"] <= 15 and nmi["lint"] <= 1)


def numa(machine):
    if machine["numa"] is None:
        return []
    nodes, distance = machine["numa"]["nodes"], machine["numa"]["distance"]
    is_square = 1 <= nodes <= 64 and len(distance) == nodes * nodes
    return unless(is_square and all(far == 10 if at % (nodes + 1) == 0 else far >= 10 for at, far in enumerate(distance)))


def nodes(machine):
    count = 1 if machine["numa"] is None else machine["numa"]["nodes"]
    return unlike([*machine["cpu"], *machine["range"]], lambda part: part["node"] < count)


def ecam(machine):
    bridge = machine["bridge"]
    return unless(bridge is None or (bridge["ecam"] % MIB == 0 and bridge["ecam"] < ADDRESSES))


def windows(machine):
    return unlike(in_bridge(machine, "window"), is_window)


def is_window(window):
    size, end = window["size"], window["base"] + window["size"]
    match window["kind"]:
        case "io":
            return 1 <= size <= 65_535 and end <= 65_536 and not window["prefetch"]
        case "mem32":
            return 1 <= size < 1 << 32 and end <= 1 << 32
    return 1 <= size and end <= ADDRESSES


def routes(machine):
    lawless = unlike(in_bridge(machine, "route"), lambda route: route["device"] <= 31 and route["pin"] <= 3)
    return either(lawless, twice(in_bridge(machine, "route"), lambda route: (route["device"], route["pin"])))


def uarts(machine):
    return unlike(machine["uart"], lambda uart: uart["irq"] <= 15 and uart["port"] <= 0xFFF8)


# In the order of their numbers, from 1 on.
RULES = [
    *[top, list_lengths, texts, uuids, oem_strings, chassis, sockets, dimms, ranges_and_dimms, ranges, low_ranges, slots, with_acpi, with_power, with_apic],
    *[oem_texts, power, hpet, cpus, io_apics, overrides, nmis, numa, nodes, ecam, windows, routes, uarts],
]
