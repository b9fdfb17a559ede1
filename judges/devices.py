"""The devices that a guest finds in the DSDT of a description (docs/FORMATS.md), and what iasl and acpiexec print of them: what described.py
and judge_dsdt.py share.

A device has a name of four characters and named values in order. A value is a number, a text, an id in EISA form, resources, routes, or an
address.
"""

from typing import NamedTuple

# iasl's words for ids that it knows, and for the names that the standard has (ACPI 6.5, 5.6.8).
IDS = {
    "PNP0103": "HPET System Timer",
    "PNP0303": "IBM Enhanced Keyboard (101/102-key, PS/2 Mouse)",
    "PNP0501": "16550A-compatible COM Serial Port",
    "PNP0A03": "PCI Bus",
    "PNP0A08": "PCI Express Bus",
    "PNP0B00": "AT Real-Time Clock",
    "ACPI0007": "Processor Device",
}
NAMES = {
    "_BBN": "BIOS Bus Number",
    "_CID": "Compatible ID",
    "_CRS": "Current Resource Settings",
    "_HID": "Hardware ID",
    "_PRT": "PCI Routing Table",
    "_UID": "Unique ID",
}


class EisaId(NamedTuple):
    """An id of three letters and four hexadecimal digits (6.1.5)."""

    text: str


class Ports(NamedTuple):
    first: int
    size: int


class Interrupt(NamedTuple):
    number: int


class FixedMemory(NamedTuple):
    first: int
    size: int


class Buses(NamedTuple):
    last: int


class Window(NamedTuple):
    """What a bridge hands on: of the kind `io`, `mem32` or `mem64`."""

    kind: str
    first: int
    size: int
    prefetch: bool


class Routes(NamedTuple):
    routes: list


class Address(NamedTuple):
    """An address as a package of its two halves, the low one first; None where it isn't known."""

    number: int | None


class Device(NamedTuple):
    name: str
    values: dict


# The devices of a description, in order.

def devices_of(machine, id_address=None):
    """With the address of the id of the machine's generation, where that is known: no description tells it."""
    power = machine.get("power", {"rtc": False, "keyboard": False})
    bridge, timer = machine.get("bridge"), machine.get("hpet")
    return [
        *([bridge_of(bridge)] if bridge is not None else []),
        *(serial_port(number, uart) for number, uart in enumerate(machine.get("uart", []), 1)),
        *([CLOCK] if power.get("rtc", True) else []),
        *([KEYBOARD] if power.get("keyboard", True) else []),
        *([event_timer(timer)] if timer is not None else []),
        *(processor(number) for number in range(len(machine.get("cpu", [])))),
        *([generation_id(id_address)] if "generation" in machine else []),
    ]


def bridge_of(bridge):
    """A bridge with configuration space in memory is one of PCI Express."""
    pci = EisaId("PNP0A03")
    ids = {"_HID": EisaId("PNP0A08"), "_CID": pci} if bridge.get("ecam", 0) else {"_HID": pci}
    windows = [Window(one["kind"], one["base"], one["size"], one.get("prefetch", False)) for one in bridge.get("window", [])]
    resources = [Buses(bridge.get("last_bus", 255)), *windows]
    return Device("PCI0", {**ids, "_UID": 0, "_BBN": 0, "_CRS": resources, "_PRT": Routes(bridge.get("route", []))})


def serial_port(number, uart):
    resources = [Ports(uart["port"], 8), Interrupt(uart["irq"])]
    return Device(f"COM{number}", {"_HID": EisaId("PNP0501"), "_UID": number, "_CRS": resources})


CLOCK = Device("RTC_", {"_HID": EisaId("PNP0B00"), "_CRS": [Ports(0x70, 2), Interrupt(8)]})
KEYBOARD = Device("KBD_", {"_HID": EisaId("PNP0303"), "_CRS": [Ports(0x60, 1), Ports(0x64, 1), Interrupt(1)]})


def event_timer(timer):
    return Device("HPET", {"_HID": EisaId("PNP0103"), "_CRS": [FixedMemory(timer.get("address", 0xFED00000), 0x400)]})


def processor(number):
    return Device(f"{0xC000 + number:04X}", {"_HID": "ACPI0007", "_UID": number})


def generation_id(address):
    """The names and the texts are those of QEMU's device (docs/specs/vmgenid.rst)."""
    return Device("VGEN", {"_HID": "QEMUVGID", "_CID": "VM_Gen_Counter", "ADDR": Address(address)})


def bare(name):
    """A name as both programs print it in a path, without the underscores at its end."""
    return name.rstrip("_")


# What iasl prints of them, line by line.

def device_lines(device):
    values = [line for name, value in device.values.items() for line in value_lines(name, value)]
    return [f"Device ({bare(device.name)})", "{", *values, "}"]


def value_lines(name, value):
    match value:
        case EisaId(text):
            return name_lines(name, f'EisaId ("{text}") /* {IDS[text]} */')
        case Routes([]):
            return name_lines(name, "Package (0x00) {}")
        case Routes(routes):
            return opened_lines(name, f"Package ({hexadecimal(len(routes))})", route_lines(routes))
        case Address(number):
            return opened_lines(name, "Package (0x02)", half_lines(number))
        case str():
            return name_lines(name, f'"{value}" /* {IDS[value]} */' if value in IDS else f'"{value}"')
        case int():
            return name_lines(name, number_text(value))
        case list():
            return opened_lines(name, "ResourceTemplate ()", [line for resource in value for line in resource_lines(resource)])


def name_lines(name, value):
    return [f"Name ({name}, {value}){comment(name)}"]


def opened_lines(name, value, inside):
    """A name whose value goes on inside braces."""
    return [f"Name ({name}, {value}{comment(name)}", "{", *inside, "})"]


def comment(name):
    return f"  // {name}: {NAMES[name]}" if name in NAMES else ""


def half_lines(number):
    """An address below 4 GiB has a low half alone, which is a double word; where it isn't known that line is left out."""
    return ["Zero"] if number is None else [f"0x{number:08X}, ", "Zero"]


def number_text(number):
    return ("Zero", "One")[number] if number < 2 else hexadecimal(number)


def hexadecimal(number):
    """A number in 2, 4, 8 or 16 digits, as few as have room for it."""
    digits = next(digits for digits in (2, 4, 8, 16) if number < 16**digits)
    return f"0x{number:0{digits}X}"


def route_lines(routes):
    """All functions of a device, its pin, no device that routes it, and the interrupt (6.2.13)."""
    lines = []
    for route in routes:
        numbers = [route["device"] << 16 | 0xFFFF, route["pin"], 0, route["gsi"]]
        *front, last = map(number_text, numbers)
        lines += ["Package (0x04)", "{", *(f"{number}, " for number in front), last, "}, "]
    return [*lines[:-1], "}"]


def resource_lines(resource):
    match resource:
        case Ports(first, size):
            fields = [(first, 4, "Range Minimum"), (first, 4, "Range Maximum"), (1, 2, "Alignment"), (size, 2, "Length")]
            return ["IO (Decode16,", *field_lines(fields), ")"]
        case Interrupt(number):
            return ["IRQNoFlags ()", f"{{{number}}}"]
        case FixedMemory(first, size):
            return ["Memory32Fixed (ReadWrite,", *field_lines([(first, 8, "Address Base"), (size, 8, "Address Length")]), ")"]
        case Buses(last):
            return ["WordBusNumber (ResourceProducer, MinFixed, MaxFixed, PosDecode,", *space_lines(4, 0, last + 1), ",, )"]
        case Window("io", first, size, _):
            head = "WordIO (ResourceProducer, MinFixed, MaxFixed, PosDecode, EntireRange,"
            return [head, *space_lines(4, first, size), ",, , TypeStatic, DenseTranslation)"]
        case Window(kind, first, size, prefetch):
            word, digits = ("DWordMemory", 8) if kind == "mem32" else ("QWordMemory", 16)
            head = f"{word} (ResourceProducer, PosDecode, MinFixed, MaxFixed, {caching(prefetch)}, ReadWrite,"
            return [head, *space_lines(digits, first, size), ",, , AddressRangeMemory, TypeStatic)"]


def caching(prefetch):
    return "Prefetchable" if prefetch else "NonCacheable"


def space_lines(digits, first, size):
    numbers = {"Granularity": 0, "Range Minimum": first, "Range Maximum": first + size - 1, "Translation Offset": 0, "Length": size}
    return field_lines([(number, digits, word) for word, number in numbers.items()])


def field_lines(fields):
    return [f"{f'0x{number:0{digits}X},':20}// {word}" for number, digits, word in fields]


# What acpiexec prints of them: of the namespace a line for each device and each of its values, which begins with what stands here, and of the
# resources the lines of their numbers alone.

def namespace_lines(device):
    return [f"1 {device.name} Device", *(f"2 {name} {object_text(value)}" for name, value in device.values.items())]


def object_text(value):
    match value:
        case EisaId(text):
            return f"Integer = {eisa_number(text):016X}"
        case Routes(routes):
            return f"Package Elements {len(routes):02X}"
        case Address():
            return "Package Elements 02"
        case str():
            return f'String Len {len(value):02X} "{value}"'
        case int():
            return f"Integer = {value:016X}"
        case list():
            return "Buffer"


def eisa_number(text):
    """Three letters of 5 bits each and four digits, the high byte first (6.1.5)."""
    letters = 0
    for letter in text[:3]:
        letters = letters << 5 | ord(letter) - 0x40
    return int.from_bytes(letters.to_bytes(2, "big") + bytes.fromhex(text[3:]), "little")


def decoded_lines(device):
    """What is decoded of a device that has resources; of any other there is nothing."""
    if "_CRS" not in device.values:
        return []
    routes = ["Evaluating _PRT", *routed_lines(device.values["_PRT"].routes)] if "_PRT" in device.values else []
    resources = [line for resource in device.values["_CRS"] for line in decoded_resource(resource)]
    return [f"Device: \\_SB.{bare(device.name)}", *routes, "Evaluating _CRS", *resources, "EndTag Resource"]


def routed_lines(routes):
    lines = []
    for route in routes:
        address = f"Address : {route['device'] << 16 | 0xFFFF:016X}"
        lines += ["PCI IRQ Routing Table Package", address, f"Pin : {route['pin']:08X}", f"Source Index : {route['gsi']:08X}"]
    return lines


def decoded_resource(resource):
    match resource:
        case Ports(first, size):
            return ["I/O Resource", f"Address Minimum : {first:04X}", f"Address Maximum : {first:04X}", f"Address Length : {size:02X}"]
        case Interrupt(number):
            return ["IRQ Resource", f"Interrupt List : {number:X}"]
        case FixedMemory(first, size):
            return ["32-Bit Fixed Memory Range Resource", f"Address : {first:08X}", f"Address Length : {size:08X}"]
        case Buses(last):
            return decoded_space("16-Bit WORD", 4, "Bus Number Range", 0, last + 1)
        case Window("io", first, size, _):
            return decoded_space("16-Bit WORD", 4, "I/O Range", first, size)
        case Window(kind, first, size, prefetch):
            word, digits = ("32-Bit DWORD", 8) if kind == "mem32" else ("64-Bit QWORD", 16)
            return decoded_space(word, digits, "Memory Range", first, size, [f"Caching : {caching(prefetch)}"])


def decoded_space(word, digits, kind, first, size, more=()):
    ends = [f"Address Minimum : {first:0{digits}X}", f"Address Maximum : {first + size - 1:0{digits}X}"]
    return [f"{word} Address Space Resource", f"Resource Type : {kind}", *more, *ends, f"Address Length : {size:0{digits}X}"]
