"""The devices that a machine's DSDT tells of, written (docs/FORMATS.md, "The devices of a machine", "Resource items")."""

import struct

from plain.terms import Path, written_terms

END_TAG = b"\x79\x00"
ID_OFFSET = 40  # of the id of a generation in its file


def eisa_id(text):
    """The number of an id such as PNP0A03, whose highest byte is written first."""
    first, second, third = (ord(letter) - ord("A") + 1 for letter in text[:3])
    return int.from_bytes((first << 26 | second << 21 | third << 16 | int(text[3:], 16)).to_bytes(4, "big"), "little")


def own(segment):
    return Path("", (segment.encode(),))


def integer(number):
    return ("integer", number)


def named(name, value):
    return ("name", own(name), value)


def device(name, *names):
    return ("device", own(name), [*names])


def resources(*items):
    return named("_CRS", ("buffer", b"".join(items) + END_TAG))


def ports(first, count):
    return b"\x47\x01" + struct.pack("<HHBB", first, first, 1, count)


def interrupt(number):
    return b"\x22" + struct.pack("<H", 1 << number)


def fixed_memory(base, length):
    return b"\x86\x09\x00\x01" + struct.pack("<II", base, length)


SPACES = {2: (b"\x88\x0d\x00", "H"), 4: (b"\x87\x17\x00", "I"), 8: (b"\x8a\x2b\x00", "Q")}


def space(width, kind, flags, first, length):
    front, form = SPACES[width]
    return front + struct.pack(f"<BBB5{form}", kind, 0x0C, flags, 0, first, first + length - 1, 0, length)


def window(part):
    match part["kind"]:
        case "io":
            return space(2, 1, 3, part["base"], part["size"])
        case "mem32":
            return space(4, 0, 7 if part["prefetch"] else 1, part["base"], part["size"])
    return space(8, 0, 7 if part["prefetch"] else 1, part["base"], part["size"])


def route(part):
    return ("package", [integer(part["device"] << 16 | 0xFFFF), integer(part["pin"]), integer(0), integer(part["gsi"])])


def bridge(part):
    ids = [named("_HID", integer(eisa_id("PNP0A03")))]
    if part["ecam"] != 0:
        ids = [named("_HID", integer(eisa_id("PNP0A08"))), named("_CID", integer(eisa_id("PNP0A03")))]
    items = [space(2, 2, 0, 0, part["last_bus"] + 1), *map(window, part["window"])]
    routes = named("_PRT", ("package", [*map(route, part["route"])]))
    return device("PCI0", *ids, named("_UID", integer(0)), named("_BBN", integer(0)), resources(*items), routes)


def uart(number, part):
    ids = named("_HID", integer(eisa_id("PNP0501"))), named("_UID", integer(number))
    return device(f"COM{number}", *ids, resources(ports(part["port"], 8), interrupt(part["irq"])))


def clock():
    return device("RTC_", named("_HID", integer(eisa_id("PNP0B00"))), resources(ports(0x70, 2), interrupt(8)))


def keyboard():
    return device("KBD_", named("_HID", integer(eisa_id("PNP0303"))), resources(ports(0x60, 1), ports(0x64, 1), interrupt(1)))


def timer(part):
    return device("HPET", named("_HID", integer(eisa_id("PNP0103"))), resources(fixed_memory(part["address"], 0x400)))


def processor(at):
    return device(f"{0xC000 + at:04X}", named("_HID", ("text", b"ACPI0007")), named("_UID", integer(at)))


def generation():
    ids = named("_HID", ("text", b"QEMUVGID")), named("_CID", ("text", b"VM_Gen_Counter"))
    return device("VGEN", *ids, named("ADDR", ("package", [("dword", ID_OFFSET), integer(0)])))


def devices_of(machine):
    yield from [] if machine["bridge"] is None else [bridge(machine["bridge"])]
    yield from (uart(number, part) for number, part in enumerate(machine["uart"], start=1))
    yield from [clock()] if machine["power"]["rtc"] else []
    yield from [keyboard()] if machine["power"]["keyboard"] else []
    yield from [] if machine["hpet"] is None else [timer(machine["hpet"])]
    yield from map(processor, range(len(machine["cpu"])))
    yield from [] if machine["generation"] is None else [generation()]


def block_of(machine):
    """The definition block of a machine's DSDT, and where in it the hole is for the address of the id of its generation, or None. It is the last dword
    of the block, in front of a zero.
    """
    block = written_terms([("scope", Path("\\", (b"_SB_",)), [*devices_of(machine)])])
    return block, None if machine["generation"] is None else len(block) - 5
