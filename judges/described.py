#!/usr/bin/env python3
"""Writes what dmidecode and iasl must print of a description. It is no part of the product: it serves the checks of
judges/run.sh alone.

usage: described.py DESCRIPTION FOLDER

Writes into FOLDER a file smbios.expected, where the description has the table acpi XSDT.expected, where it has the table power
FACP.expected, FACS.expected and DSDT.expected, where it has the table apic APIC.expected, where it has the table numa SRAT.expected and
SLIT.expected, where its bridge has an ecam MCFG.expected, and where it has the table hpet HPET.expected: the lines that the tool must print, in
this order, without what stands before them in the line. A text that the description leaves out gives no line. Of an FADT the addresses of
the FACS and of the DSDT give none either, since they aren't described: there is such a table for iasl only where dump_tables.py finds one at
the address. Nor does in a DSDT the address of the id of the machine's generation.

Status 0: done; 2: DESCRIPTION is none, or a file can't be read or written.
"""

import pathlib
import sys
import tomllib
import uuid

sys.path.append(str(pathlib.Path(__file__).resolve().parent.parent / "tools"))  # whose modules the judges share

from devices import device_lines, devices_of
from endings import Refused, ended, folder_of

# dmidecode's words for types of chassis and slots and widths of slots: those of the examples, the defaults, and a few more (DSP0134 7.4.1,
# 7.10.1, 7.10.2).
CHASSIS = {1: "Other", 3: "Desktop", 17: "Main Server Chassis", 23: "Rack Mount Chassis"}
SLOTS = {1: "Other", 0xA5: "PCI Express"}
WIDTHS = {1: "", 8: "x1 ", 9: "x2 ", 10: "x4 ", 11: "x8 ", 13: "x16 "}

# iasl's words for profiles of power management (ACPI 6.5, 5.2.9), spaces and sizes of accesses (5.2.3.2), and the bits of flags, from bit 0
# on (5.2.9, 5.2.9.3, 5.2.9.4).
PROFILES = ["Unspecified", "Desktop", "Mobile", "Workstation", "Enterprise Server", "SOHO Server", "Appliance PC", "Performance Server"]
SPACES = ["SystemMemory", "SystemIO"]
ACCESSES = ["Undefined/Legacy", "Byte Access:8", "Word Access:16", "DWord Access:32"]
BOOT_FLAGS = [
    "Legacy Devices Supported (V2)",
    "8042 Present on ports 60/64 (V2)",
    "VGA Not Present (V4)",
    "MSI Not Supported (V4)",
    "PCIe ASPM Not Supported (V4)",
    "CMOS RTC Not Present (V5)",
]
FIXED_FLAGS = [
    "WBINVD instruction is operational (V1)",
    "WBINVD flushes all caches (V1)",
    "All CPUs support C1 (V1)",
    "C2 works on MP system (V1)",
    "Control Method Power Button (V1)",
    "Control Method Sleep Button (V1)",
    "RTC wake not in fixed reg space (V1)",
    "RTC can wake system from S4 (V1)",
    "32-bit PM Timer (V1)",
    "Docking Supported (V1)",
    "Reset Register Supported (V2)",
    "Sealed Case (V3)",
    "Headless - No Video (V3)",
    "Use native instr after SLP_TYPx (V3)",
    "PCIEXP_WAK Bits Supported (V4)",
    "Use Platform Timer (V4)",
    "RTC_STS valid on S4 wake (V4)",
    "Remote Power-on capable (V4)",
    "Use APIC Cluster Model (V4)",
    "Use APIC Physical Destination Mode (V4)",
    "Hardware Reduced (V5)",
    "Low Power S0 Idle (V5)",
]
ARM_FLAGS = ["PSCI Compliant", "Must use HVC for PSCI"]


def texts(part, words):
    """The lines of the texts that a part has, of these keys and words."""
    return [f"{word}: {part[key]}" for key, word in words.items() if part.get(key)]


def size(mib):
    """So many MiB, in the greatest unit of which it is a multiple."""
    for unit, count in ("TB", 2**20), ("GB", 2**10), ("MB", 1):
        if mib % count == 0:
            return f"{mib // count} {unit}"


def unless_zero(number, unit):
    return f"{number} {unit}" if number else "Unknown"


def handle(number, kind, length):
    return f"Handle 0x{number:04X}, DMI type {kind}, {length} bytes"


# Each of these gives the lines of a structure, in the order in which dmidecode prints them.

def firmware_lines(firmware):
    release = f"BIOS Revision: {firmware.get('major', 0)}.{firmware.get('minor', 0)}"
    return [
        handle(0x0000, 0, 24),
        *texts(firmware, {"vendor": "Vendor", "version": "Version", "date": "Release Date"}),
        "Address: 0xE8000",
        "System is a virtual machine",
        release,
    ]


def system_lines(system):
    return [
        handle(0x0100, 1, 27),
        *texts(system, {"manufacturer": "Manufacturer", "product": "Product Name", "version": "Version", "serial": "Serial Number"}),
        *([f"UUID: {uuid.UUID(system['uuid'])}"] if "uuid" in system else []),
        "Wake-up Type: Power Switch",
        *texts(system, {"sku": "SKU Number", "family": "Family"}),
    ]


def chassis_lines(chassis):
    return [
        handle(0x0300, 3, 22),
        *texts(chassis, {"manufacturer": "Manufacturer"}),
        f"Type: {CHASSIS[chassis.get('kind', 1)]}",
        *texts(chassis, {"version": "Version", "serial": "Serial Number", "asset": "Asset Tag"}),
        "Boot-up State: Safe",
        "Power Supply State: Safe",
        "Thermal State: Safe",
        "Security Status: Unknown",
        *texts(chassis, {"sku": "SKU Number"}),
    ]


def socket_lines(place, socket):
    speed = unless_zero(socket.get("mhz", 0), "MHz")
    return [
        handle(0x0400 + place, 4, 48),
        *texts(socket, {"designation": "Socket Designation"}),
        "Type: Central Processor",
        *texts(socket, {"manufacturer": "Manufacturer", "version": "Version"}),
        f"Max Speed: {speed}",
        f"Current Speed: {speed}",
        "Status: Populated, Enabled",
        *texts(socket, {"serial": "Serial Number", "asset": "Asset Tag", "part": "Part Number"}),
        f"Core Count: {socket['cores']}",
        f"Core Enabled: {socket['cores']}",
        f"Thread Count: {socket['threads']}",
    ]


def slot_lines(place, slot):
    address = f"0000:{slot.get('bus', 0):02x}:{slot.get('device', 0):02x}.{slot.get('function', 0):x}"
    return [
        handle(0x0900 + place, 9, 17),
        *texts(slot, {"designation": "Designation"}),
        f"Type: {WIDTHS[slot.get('width', 1)]}{SLOTS[slot.get('kind', 1)]}",
        f"Current Usage: {'In Use' if slot.get('used') else 'Available'}",
        *([f"ID: {slot.get('id', 0)}"] if slot.get("kind") == 0xA5 else []),
        f"Bus Address: {address}",
    ]


def oem_lines(strings):
    return [handle(0x0E00, 11, 5)] + [f"String {place}: {text}" for place, text in enumerate(strings, 1)]


def array_lines(dimms):
    return [
        handle(0x1000, 16, 23),
        "Location: System Board Or Motherboard",
        "Use: System Memory",
        "Error Correction Type: None",
        f"Maximum Capacity: {size(sum(dimm['size_mib'] for dimm in dimms))}",
        "Error Information Handle: Not Provided",
        f"Number Of Devices: {len(dimms)}",
    ]


def dimm_lines(place, dimm):
    speed = unless_zero(dimm.get("speed", 0), "MT/s")
    return [
        handle(0x1100 + place, 17, 40),
        "Array Handle: 0x1000",
        "Error Information Handle: Not Provided",
        f"Size: {size(dimm['size_mib'])}",
        "Form Factor: DIMM",
        *texts(dimm, {"locator": "Locator", "bank": "Bank Locator"}),
        "Type: RAM",
        f"Speed: {speed}",
        *texts(dimm, {"manufacturer": "Manufacturer", "serial": "Serial Number", "asset": "Asset Tag", "part": "Part Number"}),
        f"Configured Memory Speed: {speed}",
    ]


def range_lines(place, memory):
    first = memory["base_mib"] * 2**20
    last = first + memory["size_mib"] * 2**20 - 1
    digits = 11 if last < 2**42 - 2**10 else 16
    return [
        handle(0x1300 + place, 19, 31),
        f"Starting Address: 0x{first:0{digits}X}",
        f"Ending Address: 0x{last:0{digits}X}",
        f"Range Size: {size(memory['size_mib'])}",
        "Physical Array Handle: 0x1000",
    ]


def each(lines_of, parts):
    return [line for place, part in enumerate(parts) for line in lines_of(place, part)]


def smbios_lines(machine):
    firmware, chassis, dimms, strings = (machine.get(key) for key in ("firmware", "chassis", "dimm", "oem_strings"))
    return [
        "SMBIOS 3.0.0 present.",
        *(firmware_lines(firmware) if firmware is not None else []),
        *system_lines(machine["system"]),
        *(chassis_lines(chassis) if chassis is not None else []),
        *each(socket_lines, machine.get("socket", [])),
        *each(slot_lines, machine.get("slot", [])),
        *(oem_lines(strings) if strings else []),
        *(array_lines(dimms) if dimms else []),
        *each(dimm_lines, dimms or []),
        *each(range_lines, machine.get("range", [])),
        *([handle(0x2000, 32, 11), "Status: No errors detected"] if firmware is not None else []),
        handle(0x7F00, 127, 4),
        "End Of Table",
    ]


# The lines of ACPI tables, in the order in which iasl prints them.

def header_lines(acpi, revision=1):
    return [
        f"Revision : {revision:02X}",
        f'Oem ID : "{acpi.get("oem_id", "BOCHS").ljust(6)}"',
        f'Oem Table ID : "{acpi.get("oem_table_id", "BXPC").ljust(8)}"',
        "Oem Revision : 00000001",
        'Asl Compiler ID : "VMTB"',
        "Asl Compiler Revision : 00000001",
    ]


def flag_lines(words, flags):
    return [f"{word} : {flags >> place & 1}" for place, word in enumerate(words)]


def register_lines(word, port=0, width=0, access=0):
    """A register of I/O space of so many bits, with accesses of this size; none where the port is 0."""
    space, width, access = (1, width, access) if port else (0, 0, 0)
    return [
        f"{word} : [Generic Address Structure]",
        f"Space ID : {space:02X} [{SPACES[space]}]",
        f"Bit Width : {width:02X}",
        "Bit Offset : 00",
        f"Encoded Access Width : {access:02X} [{ACCESSES[access]}]",
        f"Address : {port:016X}",
    ]


def fadt_lines(power):
    return [
        "FACS Address : 00000000",
        "Model : 00",
        *system_control_lines(power),
        *port_lines(power),
        *size_lines(power),
        *feature_lines(power),
        *reset_lines(power),
        *wide_lines(power),
        "Hypervisor ID : 0000000000000000",
    ]


def system_control_lines(power):
    profile = power.get("profile", 0)
    return [
        f"PM Profile : {profile:02X} [{PROFILES[profile]}]",
        f"SCI Interrupt : {power.get('sci', 9):04X}",
        "SMI Command Port : 00000000",
        "ACPI Enable Value : 00",
        "ACPI Disable Value : 00",
        "S4BIOS Command : 00",
        "P-State Control : 00",
    ]


def port_lines(power):
    return [
        f"PM1A Event Block Address : {power['event']:08X}",
        "PM1B Event Block Address : 00000000",
        f"PM1A Control Block Address : {power['control']:08X}",
        "PM1B Control Block Address : 00000000",
        "PM2 Control Block Address : 00000000",
        f"PM Timer Block Address : {power['timer']:08X}",
        f"GPE0 Block Address : {power.get('gpe', 0):08X}",
        "GPE1 Block Address : 00000000",
    ]


def size_lines(power):
    return [
        "PM1 Event Block Length : 04",
        "PM1 Control Block Length : 02",
        "PM2 Control Block Length : 00",
        "PM Timer Block Length : 04",
        f"GPE0 Block Length : {power.get('gpe_len', 0):02X}",
        "GPE1 Block Length : 00",
        "GPE1 Base Offset : 00",
        "_CST Support : 00",
        "C2 Latency : 0FFF",
        "C3 Latency : 0FFF",
        "CPU Cache Size : 0000",
        "Cache Flush Stride : 0000",
        "Duty Cycle Offset : 00",
        "Duty Cycle Width : 00",
        "RTC Day Alarm Index : 00",
        "RTC Month Alarm Index : 00",
        f"RTC Century Index : {power.get('century', 0):02X}",
    ]


def feature_lines(power):
    boot = 3 if power.get("keyboard", True) else 0
    fixed = 0x5A5 if power.get("reset", 0) else 0x1A5
    return [
        f"Boot Flags (decoded below) : {boot:04X}",
        *flag_lines(BOOT_FLAGS, boot),
        "Reserved : 00",
        f"Flags (decoded below) : {fixed:08X}",
        *flag_lines(FIXED_FLAGS, fixed),
    ]


def reset_lines(power):
    return [
        *register_lines("Reset Register", power.get("reset", 0), 8, 1),
        f"Value to cause reset : {power.get('reset_value', 0):02X}",
        "ARM Flags (decoded below) : 0000",
        *flag_lines(ARM_FLAGS, 0),
        "FADT Minor Revision : 05",
    ]


def wide_lines(power):
    return [
        *register_lines("PM1A Event Block", power["event"], 32, 2),
        *register_lines("PM1B Event Block"),
        *register_lines("PM1A Control Block", power["control"], 16, 2),
        *register_lines("PM1B Control Block"),
        *register_lines("PM2 Control Block"),
        *register_lines("PM Timer Block", power["timer"], 32, 3),
        *register_lines("GPE0 Block", power.get("gpe", 0), 8 * power.get("gpe_len", 0), 1),
        *register_lines("GPE1 Block"),
        *register_lines("Sleep Control Register"),
        *register_lines("Sleep Status Register"),
    ]


def facs_lines():
    return [
        "Length : 00000040",
        "Hardware Signature : 00000000",
        "32 Firmware Waking Vector : 00000000",
        "Global Lock : 00000000",
        "Flags (decoded below) : 00000000",
        "S4BIOS Support Present : 0",
        "64-bit Wake Supported (V2) : 0",
        "64 Firmware Waking Vector : 0000000000000000",
        "Version : 02",
        "Reserved : 000000",
        "OspmFlags (decoded below) : 00000000",
        "64-bit Wake Env Required (V2) : 0",
    ]


def apic_lines(machine):
    apic = machine["apic"]
    legacy = int(apic.get("legacy", True))
    return [
        f"Local Apic Address : {apic.get('local', 0xFEE00000):08X}",
        f"Flags (decoded below) : {legacy:08X}",
        f"PC-AT Compatibility : {legacy}",
        *each(cpu_lines, machine.get("cpu", [])),
        *each(io_apic_lines, machine.get("ioapic", [])),
        *each(override_lines, machine.get("override", [])),
        *each(nmi_lines, machine.get("nmi", [])),
    ]


def entry_lines(kind, word, length):
    return [f"Subtable Type : {kind:02X} [{word}]", f"Length : {length:02X}"]


def cpu_lines(place, cpu):
    """A processor, whose UID is its place: a local APIC has a UID and an id of at most 254."""
    enabled = int(cpu.get("enabled", True))
    flags = [f"Flags (decoded below) : {enabled:08X}", f"Processor Enabled : {enabled}"]
    if place <= 254 and cpu["apic"] <= 254:
        ids = [f"Processor ID : {place:02X}", f"Local Apic ID : {cpu['apic']:02X}"]
        return [*entry_lines(0, "Processor Local APIC", 8), *ids, *flags, "Runtime Online Capable : 0"]
    x2apic = ["Reserved : 0000", f"Processor x2Apic ID : {cpu['apic']:08X}"]
    return [*entry_lines(9, "Processor Local x2APIC", 16), *x2apic, *flags, f"Processor UID : {place:08X}"]


def io_apic_lines(_place, io_apic):
    return [
        *entry_lines(1, "I/O APIC", 12),
        f"I/O Apic ID : {io_apic['id']:02X}",
        "Reserved : 00",
        f"Address : {io_apic['address']:08X}",
        f"Interrupt : {io_apic.get('gsi', 0):08X}",
    ]


def override_lines(_place, override):
    return [
        *entry_lines(2, "Interrupt Source Override", 10),
        "Bus : 00",
        f"Source : {override['irq']:02X}",
        f"Interrupt : {override['gsi']:08X}",
        *signal_lines(override),
    ]


def signal_lines(interrupt):
    flags = interrupt.get("flags", 0)
    return [f"Flags (decoded below) : {flags:04X}", f"Polarity : {flags & 3}", f"Trigger Mode : {flags >> 2}"]


def nmi_lines(_place, nmi):
    """An NMI of each processor, or of one, whose entry is that of an x2APIC where its UID is above 254."""
    uid, lint = nmi.get("cpu", 0xFF), f"Interrupt Input LINT : {nmi.get('lint', 1):02X}"
    if uid <= 254 or "cpu" not in nmi:
        return [*entry_lines(4, "Local APIC NMI", 6), f"Processor ID : {uid:02X}", *signal_lines(nmi), lint]
    return [*entry_lines(10, "Local x2APIC NMI", 12), *signal_lines(nmi), f"Processor UID : {uid:08X}", lint, "Reserved : 000000"]


def srat_lines(machine):
    return [
        "Table Revision : 00000001",
        "Reserved : 0000000000000000",
        *each(cpu_node_lines, machine.get("cpu", [])),
        *each(range_node_lines, machine.get("range", [])),
    ]


def cpu_node_lines(_place, cpu):
    """The node of a processor: a local APIC has an id of at most 254."""
    node = cpu.get("node", 0)
    flags = ["Flags (decoded below) : 00000001", "Enabled : 1"]
    if cpu["apic"] <= 254:
        return [
            *entry_lines(0, "Processor Local APIC/SAPIC Affinity", 16),
            f"Proximity Domain Low(8) : {node:02X}",
            f"Apic ID : {cpu['apic']:02X}",
            *flags,
            "Local Sapic EID : 00",
            "Proximity Domain High(24) : 000000",
            "Clock Domain : 00000000",
        ]
    return [
        *entry_lines(2, "Processor Local x2APIC Affinity", 24),
        "Reserved1 : 0000",
        f"Proximity Domain : {node:08X}",
        f"Apic ID : {cpu['apic']:08X}",
        *flags,
        "Clock Domain : 00000000",
        "Reserved2 : 00000000",
    ]


def range_node_lines(_place, memory):
    return [
        *entry_lines(1, "Memory Affinity", 40),
        f"Proximity Domain : {memory.get('node', 0):08X}",
        "Reserved1 : 0000",
        f"Base Address : {memory['base_mib'] * 2**20:016X}",
        f"Address Length : {memory['size_mib'] * 2**20:016X}",
        "Reserved2 : 00000000",
        "Flags (decoded below) : 00000001",
        "Enabled : 1",
        "Hot Pluggable : 0",
        "Non-Volatile : 0",
        "Reserved3 : 0000000000000000",
    ]


def slit_lines(numa):
    nodes, distance = numa["nodes"], numa["distance"]
    rows = [distance[first : first + nodes] for first in range(0, len(distance), nodes)]
    return [f"Localities : {nodes:016X}", *each(distance_lines, rows)]


def distance_lines(place, row):
    """The distances from a node, of which iasl prints sixteen in a line."""
    lines = [" ".join(f"{distance:02X}" for distance in row[first : first + 16]) for first in range(0, len(row), 16)]
    lines = [*(f"{line} \\" for line in lines[:-1]), lines[-1]]
    return [f"Locality {place:3} : {lines[0]}", *lines[1:]]


def mcfg_lines(bridge):
    """One allocation, of all buses (PCI Firmware 3.3, 4.1.2)."""
    return [
        "Reserved : 0000000000000000",
        f"Base Address : {bridge['ecam']:016X}",
        "Segment Group Number : 0000",
        "Start Bus Number : 00",
        f"End Bus Number : {bridge.get('last_bus', 255):02X}",
        "Reserved : 00000000",
    ]


def hpet_lines(hpet):
    return [
        f"Hardware Block ID : {hpet.get('block_id', 0x8086A201):08X}",
        "Bit Width : 40",
        "Bit Offset : 00",
        f"Address : {hpet.get('address', 0xFED00000):016X}",
        f"Sequence Number : {hpet.get('number', 0):02X}",
        f"Minimum Clock Ticks : {hpet.get('min_tick', 100):04X}",
        "Flags (decoded below) : 00",
    ]


# The lines of a DSDT, which iasl prints as a text that can be compiled.

def dsdt_lines(machine, id_address=None):
    """With the line of the address of the id of the machine's generation, where that is known."""
    oem_id, oem_table_id = machine["acpi"].get("oem_id", "BOCHS").ljust(6), machine["acpi"].get("oem_table_id", "BXPC").ljust(8)
    return [
        '*     Signature        "DSDT"',
        "*     Revision         0x02",
        f'*     OEM ID           "{oem_id}"',
        f'*     OEM Table ID     "{oem_table_id}"',
        "*     OEM Revision     0x00000001 (1)",
        '*     Compiler ID      "VMTB"',
        "*     Compiler Version 0x00000001 (1)",
        f'DefinitionBlock ("", "DSDT", 2, "{oem_id}", "{oem_table_id}", 0x00000001)',
        *["{", r"Scope (\_SB)", "{"],
        *(line for device in devices_of(machine, id_address) for line in device_lines(device)),
        *["}", "}"],
    ]


def read_description(name):
    """The tables of a description in a file, which has to have the table `system`, as each machine has it."""
    try:
        machine = tomllib.loads(pathlib.Path(name).read_bytes().decode())
    except (UnicodeDecodeError, tomllib.TOMLDecodeError) as refusal:
        raise Refused(f"{name} is no description: {refusal}") from refusal
    if not isinstance(machine.get("system"), dict):
        raise Refused(f"{name} is no description: it has no table system")
    return machine


def expected_lines(machine):
    """The lines of each file."""
    expected = {"smbios": smbios_lines(machine)}
    if "acpi" in machine:
        expected["XSDT"] = header_lines(machine["acpi"])
    if "power" in machine:
        expected["FACP"] = ["Table Length : 00000114", *header_lines(machine["acpi"], revision=6), *fadt_lines(machine["power"])]
        expected["FACS"] = facs_lines()
        expected["DSDT"] = dsdt_lines(machine)
    if "apic" in machine:
        expected["APIC"] = header_lines(machine["acpi"], revision=5) + apic_lines(machine)
    if "numa" in machine:
        expected["SRAT"] = header_lines(machine["acpi"], revision=3) + srat_lines(machine)
        expected["SLIT"] = header_lines(machine["acpi"]) + slit_lines(machine["numa"])
    if machine.get("bridge", {}).get("ecam", 0):
        expected["MCFG"] = header_lines(machine["acpi"]) + mcfg_lines(machine["bridge"])
    if "hpet" in machine:
        expected["HPET"] = header_lines(machine["acpi"]) + hpet_lines(machine["hpet"])
    return expected


def main(description, folder):
    folder, machine = folder_of(folder), read_description(description)
    try:
        expected = expected_lines(machine)
    except LookupError as refusal:
        raise Refused(f"{description} is no description that is accepted, or one with a value that has no word here: {refusal}") from refusal
    for name, lines in expected.items():
        (folder / f"{name}.expected").write_text("".join(f"{line}\n" for line in lines))


if __name__ == "__main__":
    if len(sys.argv) != 3:
        sys.exit("usage: described.py DESCRIPTION FOLDER")
    sys.exit(ended(main, sys.argv[1:]))
