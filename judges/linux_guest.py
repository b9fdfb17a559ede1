#!/usr/bin/env python3
"""Judges the memory that `vmtables boot` leaves by what a kernel of Linux finds in it. It is no part of the product: it serves the checks of
judges/run.sh alone.

usage: linux_guest.py KERNEL PROGRAM DESCRIPTION [WORD..]
       linux_guest.py --turn KERNEL PROGRAM DESCRIPTION [WORD..]

PROGRAM, which stands for ./vmtables, boots the description with the words. KERNEL, a file that has the image of a kernel for x86-64 (bzImage),
boots on the dump's memory in a q35 of QEMU (linux_boot.py), whose timer, I/O APIC and serial ports have to be those of the description. The
description has power management, a top of 512 to 2048 MiB, its serial port at 0x3F8, and no file at the end of the F segment, as
`--policy top` puts one there. What must hold:

- the ACPI tables and the SMBIOS structures that the kernel hands out are the dump's, byte for byte;
- it finds the processors, each with its node, the nodes with their memory and their distances, and the I/O APICs, overrides and NMIs;
- it finds the configuration space with its buses, the timer of power management, and the HPET;
- it finds the bridge with its buses and each window, and each other device of the DSDT with its ports, memory and interrupts;
- it finds each processor's device with its `_UID`;
- of each route a function that QEMU has at that device, with that pin, gets the route's GSI once it is enabled; QEMU's own devices, 0 and 31,
  are left out;
- no line of its log complains of a table, but for those of KNOWN.

Some of this is told by lines of the log alone, whose words are those of Linux 6.1, the kernel of Debian 12.

With --turn it boots two wrong memories instead. In one a bit of the DSDT's checksum is flipped: the log must complain of it. In the other the
end of a window, the GSI of a route and the IRQ of the last serial port are others, and the table sums to zero: each of these three must be
told, and nothing else. The description must have all three, and two serial ports.

Status 0: all of this holds; 1: something doesn't, each with a line; 2: PROGRAM fails or gives no dump, or no machine can be made of it;
3: QEMU isn't there, or a busybox that needs no library, or the kernel is of another version. A kernel that doesn't boot in time is a fault:
it has 120 seconds, or as many as LINUX_GUEST_SECONDS in the environment says.
"""

import base64
import binascii
import pathlib
import re
import subprocess
import sys
import tempfile
import time
from collections import Counter

sys.path.append(str(pathlib.Path(__file__).resolve().parent.parent / "tools"))  # whose modules the judges share

from described import read_description
from devices import Buses, EisaId, Interrupt, Ports, Window, devices_of
from endings import ended
from judge_dsdt import FLIPS
from linux_boot import CantBoot, NoBoot, booted, missing_tools, version_of
from made_roots import summed
from memory_dump import NotADump, NotFound, led_addresses, number_at, reachable_tables, read_dump, root_pointer, root_table

SHOWN = 8  # of the faults
VERSION = "6.1."  # of a kernel whose log's lines are known
CHECKSUM = 9
MIB = 1 << 20

PLUGGED = [EisaId("PNP0501"), EisaId("PNP0B00"), EisaId("PNP0303")]  # the devices that the kernel has as of an ISA bus

# The functions that QEMU has on a routed device, by their pins, and the devices of its own.
FUNCTIONS = ["ich9-usb-uhci1", "ich9-usb-uhci2", "ich9-usb-uhci3", "ich9-usb-ehci1"]
OWN = [0, 31]

# What a kernel says where it complains of a table, or of what a table tells; and what it says so for another reason, with that.
COMPLAINT = re.compile(
    r"ACPI (?:BIOS )?(?:Error|Warning|Exception)|Firmware (?:Bug|Warn|Info)|BIOS (?:bug|error)|[Cc]hecksum|\bAE_[A-Z]|\b[Ii]nvalid\b|can't"
    r"|[Cc]onflict|[Bb]roken|[Bb]ogus"
)
KNOWN = {
    r"ACPI: Early table checksum verification enabled": "it was told to",
    r"acpi PNP0A0[38]:00: _OSC: platform retains control of PCIe features \(AE_NOT_FOUND\)": "the bridge has no _OSC",
    r"pci 0000:00:1f\.0: bridge window \[io .*": "the ports of the chipset's power management lie in no window, as they should",
    r"pci 0000:00:1f\.0: BAR 13: \[io .* has bogus alignment": "likewise",
}

# The polarities and trigger modes of MPS INTI flags, in the kernel's words.
POLARITIES = ["dfl", "high", "res", "low"]
TRIGGERS = ["dfl", "edge", "res", "level"]


class NoDump(Exception):
    """PROGRAM fails."""


# What the kernel must say in its log, of each kind: which lines tell of it, and these lines in any order.

def log_kinds(machine):
    power, hpet = machine["power"], machine.get("hpet")
    timer = [] if hpet is None else [f"ACPI: HPET id: {hpet.get('block_id', 0x8086A201):#x} base: {hpet.get('address', 0xFED00000):#x}"]
    return {
        "timer": (r"ACPI: PM-Timer IO Port: .*", [f"ACPI: PM-Timer IO Port: {power['timer']:#x}"]),
        "hpet": (r"ACPI: HPET id: .*", timer),
        "ecam": (r"PCI: MMCONFIG for domain .*", ecam_lines(machine)),
        "bridge": (r"ACPI: PCI Root Bridge .*", bridge_lines(machine)),
        "windows": (r"pci_bus 0000:00: root bus resource .*", window_lines(machine)),
        "interrupts": (r"IOAPIC\[\d+\]: .*|ACPI: (?:INT_SRC_OVR|LAPIC_NMI|X2APIC_NMI) .*", interrupt_lines(machine)),
        "nodes": (r"(?:ACPI: )?SRAT: .*", node_lines(machine)),
    }


def ecam_lines(machine):
    ecam, last = machine.get("bridge", {}).get("ecam", 0), machine.get("bridge", {}).get("last_bus", 255)
    if not ecam:
        return []
    return [f"PCI: MMCONFIG for domain 0000 [bus 00-{last:02x}] at [mem {ecam:#010x}-{ecam + (last + 1) * MIB - 1:#010x}] (base {ecam:#x})"]


def bridge_lines(machine):
    bridge = machine.get("bridge")
    return [] if bridge is None else [f"ACPI: PCI Root Bridge [PCI0] (domain 0000 [bus 00-{bridge.get('last_bus', 255):02x}])"]


def window_lines(machine):
    resources = [resource for device in devices_of(machine) if device.name == "PCI0" for resource in device.values["_CRS"]]
    return [f"pci_bus 0000:00: root bus resource [{window_text(resource)}]" for resource in resources]


def window_text(resource):
    match resource:
        case Buses(last):
            return f"bus 00-{last:02x}"
        case Window("io", first, size, _):
            return f"io  {first:#06x}-{first + size - 1:#06x} window"
        case Window(_, first, size, prefetch):
            return f"mem {first:#010x}-{first + size - 1:#010x}{' pref' if prefetch else ''} window"


def interrupt_lines(machine):
    io_apics = [io_apic_line(place, one) for place, one in enumerate(machine.get("ioapic", []))]
    overrides = [override_line(one) for one in machine.get("override", [])]
    return [*io_apics, *overrides, *(nmi_line(one) for one in machine.get("nmi", []))]


def io_apic_line(place, io_apic):
    """QEMU's I/O APIC has 24 inputs, and version 32."""
    first = io_apic.get("gsi", 0)
    return f"IOAPIC[{place}]: apic_id {io_apic['id']}, version 32, address {io_apic['address']:#x}, GSI {first}-{first + 23}"


def signal(interrupt):
    flags = interrupt.get("flags", 0)
    return f"{POLARITIES[flags & 3]} {TRIGGERS[flags >> 2 & 3]}"


def override_line(override):
    return f"ACPI: INT_SRC_OVR (bus 0 bus_irq {override['irq']} global_irq {override['gsi']} {signal(override)})"


def nmi_line(nmi):
    """An input of each processor, or of one, which has a local APIC or an x2APIC by its position."""
    uid, ends = nmi.get("cpu", 0xFF), f"{signal(nmi)} lint[{nmi.get('lint', 1):#x}])"
    return f"ACPI: LAPIC_NMI (acpi_id[{uid:#04x}] {ends}" if "cpu" not in nmi or uid <= 254 else f"ACPI: X2APIC_NMI (uid[{uid:#04x}] {ends}"


def node_lines(machine):
    """The node of each processor, whose id is above 254 only where it can't be used here, and of each range."""
    if "numa" not in machine:
        return []
    nodes = kernel_nodes(machine)
    processors = [processor_node_line(cpu, nodes) for cpu in machine.get("cpu", [])]
    return processors + [range_node_line(memory, nodes) for memory in machine.get("range", [])]


def kernel_nodes(machine):
    """The kernel's numbers of the nodes, by theirs: it numbers them as it meets them in the SRAT."""
    usable = [cpu for cpu in machine.get("cpu", []) if cpu["apic"] <= 254]
    met = [part.get("node", 0) for part in [*usable, *machine.get("range", [])]]
    return {node: number for number, node in enumerate(dict.fromkeys(met))}


def processor_node_line(cpu, nodes):
    node, apic = cpu.get("node", 0), cpu["apic"]
    if apic > 254:
        return f"SRAT: PXM {node} -> X2APIC {apic:#06x} ignored"
    return f"SRAT: PXM {node} -> APIC {apic:#04x} -> Node {nodes[node]}"


def range_node_line(memory, nodes):
    first, node = memory["base_mib"] * MIB, memory.get("node", 0)
    last = first + memory["size_mib"] * MIB - 1
    return f"ACPI: SRAT: Node {nodes[node]} PXM {node} [mem {first:#010x}-{last:#010x}]"


# Each of these tells the faults of one kind, as lines.

def listed_faults(found, wanted):
    """What differs between two lists of lines in any order."""
    for line in (Counter(wanted) - Counter(found)).elements():
        yield f"not found: {line}"
    for line in (Counter(found) - Counter(wanted)).elements():
        yield f"not described: {line}"


def log_faults(log, pattern, wanted):
    yield from listed_faults([line for line in log if re.fullmatch(pattern, line)], wanted)


def file_faults(sections, memory):
    """The files of tables are those of the dump."""
    wanted = files_of(memory)
    found = {name.removeprefix("file "): decoded(lines) for name, lines in sections.items() if name.startswith("file ")}
    yield from listed_faults([*found], [*wanted])
    for name in found.keys() & wanted.keys():
        if found[name] != wanted[name]:
            yield f"{name}: the {len(found[name])} bytes aren't the dump's {len(wanted[name])}"


def decoded(lines):
    try:
        return base64.b64decode("".join(lines), validate=True)
    except binascii.Error:
        return b""


def files_of(memory):
    """What the kernel hands out: each table but the root's, the SMBIOS anchor and its structures."""
    anchor = memory.read(memory.find(b"_SM3_", 0xF0000, 0x100000), 24, "the SMBIOS anchor")
    structures = memory.read(number_at(anchor, 16, 8), number_at(anchor, 12, 4), "the SMBIOS table")
    tables = {}
    if (pointer := root_pointer(memory)) is not None:
        tables = {table[:4].decode(): table for table in reachable_tables(memory, root_table(memory, pointer)) if table[:4] != b"XSDT"}
    return {**tables, "smbios_entry_point": anchor, "DMI": structures}


def processor_faults(sections, machine):
    """Each processor that is enabled, and whose id a local APIC can have, is there; the kernel ignores the others, one by one."""
    cpus = machine.get("cpu", [])
    usable = sum(cpu["apic"] <= 254 and cpu.get("enabled", True) for cpu in cpus)
    wanted = f"0-{usable - 1}" if usable > 1 else "0"
    yield from listed_faults(sections.get("present", []), [wanted])
    ignored = sum(line == "ACPI: x2apic entry ignored" for line in log_of(sections))
    too_high = sum(cpu["apic"] > 254 and cpu.get("enabled", True) for cpu in cpus)
    if ignored != too_high:
        yield f"{ignored} processors are ignored, and not {too_high}"


def distance_faults(sections, machine):
    """The distances between the nodes that have memory or a processor."""
    if "numa" not in machine:
        return
    nodes, count, distance = [*kernel_nodes(machine)], machine["numa"]["nodes"], machine["numa"]["distance"]
    rows = (" ".join(str(distance[node * count + to]) for to in nodes) for node in nodes)
    wanted = [f"distance {number}: {row}" for number, row in enumerate(rows)]
    found = [f"{name}: {' '.join(lines)}" for name, lines in sections.items() if name.startswith("distance ")]
    yield from listed_faults(found, wanted)


def plugged_faults(sections, machine):
    """The serial ports, the clock and the keyboard of the DSDT, with their ports and interrupts."""
    wanted = [plugged_line(device) for device in devices_of(machine) if device.values["_HID"] in PLUGGED]
    plugged = [lines for name, lines in sections.items() if name.startswith("pnp ")]
    found = [", ".join([lines[0].upper(), *sorted(lines[2:])]) for lines in plugged if lines]
    yield from listed_faults(found, wanted)


def memory_faults(sections, machine):
    """The memory of the HPET, as the DSDT has it."""
    timers = [device for device in devices_of(machine) if device.name == "HPET"]
    memory = [resource for device in timers for resource in device.values["_CRS"]]
    wanted = [f"{first:08x}-{first + size - 1:08x} : PNP0103:00" for first, size in memory]
    yield from listed_faults([line.strip() for line in sections.get("memory", []) if " : PNP0103:" in line], wanted)


def plugged_line(device):
    return ", ".join([device.values["_HID"].text, *sorted(plugged_text(resource) for resource in device.values["_CRS"])])


def plugged_text(resource):
    match resource:
        case Ports(first, size):
            return f"io {first:#x}-{first + size - 1:#x}"
        case Interrupt(number):
            return f"irq {number}"


def device_faults(sections, machine):
    """The devices of the DSDT by their ids, paths and `_UID`s, processors among them."""
    wanted = [device_line(device) for device in devices_of(machine)]
    yield from listed_faults([line.strip() for line in sections.get("devices", []) if r" \_SB_." in line], wanted)


def device_line(device):
    hid, uid = device.values["_HID"], device.values.get("_UID", "")
    return rf"{hid.text if isinstance(hid, EisaId) else hid} \_SB_.{device.name} {uid}".strip()


def routes_of(machine):
    """The routes of devices that QEMU hasn't put there itself."""
    return [route for route in machine.get("bridge", {}).get("route", []) if route["device"] not in OWN]


def route_faults(sections, machine):
    for route in routes_of(machine):
        name = f"0000:00:{route['device']:02x}.{route['pin']}"
        found = sections.get(f"pci {name}", ["none"])
        if found != [str(route["gsi"])]:
            yield f"{name} has the interrupt {' '.join(found)}, and not {route['gsi']}"


def log_of(sections):
    """The lines of the log, without their times."""
    return [re.sub(r"^\[ *\d+\.\d+\] ", "", line) for line in sections.get("log", [])]


def complaints_of(sections):
    for line in log_of(sections):
        if COMPLAINT.search(line) and not any(re.fullmatch(known, line) for known in KNOWN):
            yield f"a complaint: {line}"


def faults_of(sections, machine, memory):
    """All faults, each with its kind."""
    log = log_of(sections)
    kinds = {
        "files": file_faults(sections, memory),
        "processors": processor_faults(sections, machine),
        "distances": distance_faults(sections, machine),
        "ports": plugged_faults(sections, machine),
        "memory": memory_faults(sections, machine),
        "devices": device_faults(sections, machine),
        "routes": route_faults(sections, machine),
        "complaints": complaints_of(sections),
        **{kind: log_faults(log, pattern, wanted) for kind, (pattern, wanted) in log_kinds(machine).items()},
    }
    return [(kind, fault) for kind, faults in kinds.items() for fault in faults]


# The memories that are wrong.

def dsdt_of(memory):
    """Where the DSDT stands, and its bytes."""
    tables = {table[:4]: table for table in reachable_tables(memory, root_table(memory, root_pointer(memory)))}
    place = next(at for at in led_addresses(tables[b"FACP"]) if memory.read(at, 4, "a table") == b"DSDT")
    return place, tables[b"DSDT"]


def with_wrong_sum(memory):
    place, _ = dsdt_of(memory)
    return memory.flipped(place + CHECKSUM)


def with_others(memory, machine):
    """A memory whose DSDT has another end of a window, another GSI, and another IRQ of the last serial port."""
    place, table = dsdt_of(memory)
    changed = bytearray(table)
    for what in "the end of a range of double words", "a GSI":
        changed[last_place(table, FLIPS[what])] ^= 1
    put_other_irq(changed, machine["uart"])
    other = memory.copy()
    other.write(place, summed(changed, CHECKSUM))
    return other


def last_place(table, pattern):
    return [*re.finditer(pattern, table, re.DOTALL)][-1].end() - 1


def put_other_irq(table, uarts):
    """Has the last serial port have the IRQ whose number has two bits flipped, as 5 in place of 3."""
    item = re.compile(rb"COM%d.*?\x47\x01.{4}\x01\x08\x22" % len(uarts), re.DOTALL).search(table)
    table[item.end() : item.end() + 2] = (1 << (uarts[-1]["irq"] ^ 6)).to_bytes(2, "little")


# The judge.

class Judge:
    def __init__(self, kernel, program, description, words):
        text = pathlib.Path(description).read_bytes()
        self.kernel = kernel
        self.machine = read_description(description)
        self.memory = memory_of(program, text, words)

    def faults_with(self, memory):
        """What is wrong with what the kernel finds in a memory, by the description, and how long that took."""
        start = time.monotonic()
        with tempfile.TemporaryDirectory() as folder:
            try:
                sections = booted(memory, self.machine, self.kernel, devices_on(self.machine), pathlib.Path(folder))
            except NoBoot as refusal:
                return [("boot", str(refusal))], 0
        return faults_of(sections, self.machine, memory), time.monotonic() - start

    def judge(self):
        """Returns the faults, and what is right where there are none."""
        faults, seconds = self.faults_with(self.memory)
        devices, routes = len(devices_of(self.machine)), len(routes_of(self.machine))
        files = len(files_of(self.memory))
        right = f"{files} files of tables, {devices} devices and {routes} routes are found as described, in {seconds:.0f} seconds"
        return [f"{kind}: {fault}" for kind, fault in faults], right

    def judge_turned(self):
        """Returns what isn't found in wrong memories, and what is right where there is nothing of that."""
        wrong_sum, _ = self.faults_with(with_wrong_sum(self.memory))
        others, _ = self.faults_with(with_others(self.memory, self.machine))
        faults = [*kind_faults("a flipped checksum", [named_kind(*fault) for fault in wrong_sum], {"complaints of the DSDT"})]
        faults += kind_faults("another window, GSI and IRQ", others, {"windows", "routes", "ports"})
        return faults, "a wrong checksum, and another end of a window, another GSI and another IRQ are found"


def named_kind(kind, fault):
    """A complaint of the DSDT as one of a kind of its own."""
    return (f"{kind} of the DSDT" if "checksum in table [DSDT]" in fault else kind, fault)


def kind_faults(what, faults, wanted):
    """What isn't found of the wanted kinds, and what is of others."""
    kinds = {kind for kind, _ in faults}
    for kind in sorted(wanted - kinds):
        yield f"no judge: with {what} there are no faults of the kind {kind}"
    for kind, fault in faults:
        if kind not in wanted:
            yield f"with {what}: {kind}: {fault}"


def devices_on(machine):
    """The devices that QEMU has for the routes: on each routed device function 0, and a function for each routed pin."""
    pins = {}
    for route in routes_of(machine):
        pins.setdefault(route["device"], {0}).add(route["pin"])
    return [function_at(device, pin) for device in sorted(pins) for pin in sorted(pins[device])]


def function_at(device, pin):
    return f"{FUNCTIONS[pin]},addr={device:#x}.{pin},multifunction=on"


def memory_of(program, text, words):
    try:
        run = subprocess.run([program, "boot", *words], input=text, capture_output=True)
    except OSError as refusal:
        raise NoDump(str(refusal)) from refusal
    if run.returncode != 0:
        raise NoDump(f"boot {' '.join(words)} ends with status {run.returncode}: {run.stderr.decode(errors='replace').strip()}")
    return read_dump(run.stdout)


def main(turn, kernel, program, description, words):
    missing = missing_tools()
    if missing:
        print("; ".join(f"{tool} isn't there" for tool in missing))
        return 3
    try:
        content = pathlib.Path(kernel).read_bytes()
        if not version_of(content).startswith(VERSION):
            print(f"the kernel is Linux {version_of(content)}, and the lines of its log are known of {VERSION}* alone")
            return 3
        judge = Judge(content, program, description, words)
        faults, right = judge.judge_turned() if turn else judge.judge()
    except (OSError, NoDump, NotADump, NotFound, CantBoot) as refusal:
        print(f"linux_guest.py: {refusal}", file=sys.stderr)
        return 2
    for line in faults[:SHOWN] or [right]:
        print(line)
    if faults[SHOWN:]:
        print(f"and {len(faults) - SHOWN} more")
    return 1 if faults else 0


if __name__ == "__main__":
    turned = sys.argv[1:2] == ["--turn"]
    given = sys.argv[2:] if turned else sys.argv[1:]
    if len(given) < 3:
        sys.exit("usage: linux_guest.py [--turn] KERNEL PROGRAM DESCRIPTION [WORD..]")
    sys.exit(ended(main, [turned, *given[:3], given[3:]]))
