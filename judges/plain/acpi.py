"""The ACPI tables of a machine, written (docs/FORMATS.md, "ACPI"; ACPI 6.5, 5.2)."""

import struct

from plain.devices import block_of

HEADER = struct.Struct("<4sIBB6s8sI4sI")
FACS = b"FACS" + struct.pack("<I", 64) + bytes(24) + b"\x02" + bytes(31)
MOST_NARROW = 254  # of a processor's position and id in entries that aren't those of an x2APIC

TABLES, IDENTITY = "etc/acpi/tables", "etc/vmgenid_guid"


class Tables:
    """The file of a machine's tables, whose sums are zero still: its bytes; its pointers, each by its offset, its size and the file to which it
    leads; the range of each sum; and the places that the XSDT names.
    """

    def __init__(self, machine):
        self.machine = machine
        self.content = b""
        self.pointers = []
        self.sums = []
        self.named = []
        for add in (self.add_power, self.add_interrupts, self.add_nodes, self.add_ecam, self.add_timer):
            add()
        self.xsdt = self.add(b"XSDT", 1, b"".join(struct.pack("<Q", place) for place in self.named))
        self.pointers += [(self.xsdt + 36 + 8 * at, 8, TABLES) for at in range(len(self.named))]

    def add(self, signature, revision, body):
        """Appends a table at the next multiple of 16, and returns its place."""
        self.content += bytes(-len(self.content) % 16)
        place, size = len(self.content), HEADER.size + len(body)
        header = HEADER.pack(signature, size, revision, 0, *oem_texts(self.machine), 1, b"VMTB", 1)
        self.content += header + body
        self.sums.append((place, size))
        return place

    def add_power(self):
        if self.machine["power"] is None:
            return
        self.content += FACS
        block, hole = block_of(self.machine)
        dsdt = self.add(b"DSDT", 2, block)
        self.pointers += [] if hole is None else [(dsdt + HEADER.size + hole, 4, IDENTITY)]
        fadt = self.add(b"FACP", 6, fadt_body(self.machine["power"], dsdt))
        self.named.append(fadt)
        self.pointers += [(fadt + 40, 4, TABLES), (fadt + 132, 8, TABLES), (fadt + 140, 8, TABLES)]

    def add_interrupts(self):
        apic = self.machine["apic"]
        if apic is not None:
            entries = [*map(processor, range(len(self.machine["cpu"])), self.machine["cpu"]), *map(io_apic, self.machine["ioapic"])]
            entries += [*map(override, self.machine["override"]), *map(nmi, self.machine["nmi"])]
            self.named.append(self.add(b"APIC", 5, struct.pack("<II", apic["local"], apic["legacy"]) + b"".join(entries)))

    def add_nodes(self):
        numa = self.machine["numa"]
        if numa is not None:
            entries = [*map(processor_node, self.machine["cpu"]), *map(memory_node, self.machine["range"])]
            self.named.append(self.add(b"SRAT", 3, struct.pack("<IQ", 1, 0) + b"".join(entries)))
            self.named.append(self.add(b"SLIT", 1, struct.pack("<Q", numa["nodes"]) + bytes(numa["distance"])))

    def add_ecam(self):
        bridge = self.machine["bridge"]
        if bridge is not None and bridge["ecam"] != 0:
            self.named.append(self.add(b"MCFG", 1, bytes(8) + struct.pack("<QHBBI", bridge["ecam"], 0, 0, bridge["last_bus"], 0)))

    def add_timer(self):
        hpet = self.machine["hpet"]
        if hpet is not None:
            body = struct.pack("<IBBBBQBHB", hpet["block_id"], 0, 64, 0, 0, hpet["address"], hpet["number"], hpet["min_tick"], 0)
            self.named.append(self.add(b"HPET", 1, body))


def oem_texts(machine):
    acpi = machine["acpi"]
    return acpi["oem_id"].encode().ljust(6), acpi["oem_table_id"].encode().ljust(8)


def pointer_of(machine, xsdt):
    """The RSDP, whose sums are zero still."""
    maker, _ = oem_texts(machine)
    return b"RSD PTR " + struct.pack("<B6sBIIQB3x", 0, maker, 2, 0, 36, xsdt, 0)


def register(port, width, access):
    return struct.pack("<BBBBQ", 1, width, 0, access, port) if port != 0 else bytes(12)


def fadt_body(power, dsdt):
    """What stands behind the header of the FADT (5.2.9)."""
    fadt = bytearray(276)
    ports = [(56, "event"), (64, "control"), (76, "timer"), (80, "gpe")]
    numbers = [(40, 4, dsdt), (45, 1, power["profile"]), (46, 2, power["sci"]), *((offset, 4, power[key]) for offset, key in ports)]
    numbers += [(88, 1, 4), (89, 1, 2), (91, 1, 4), (92, 1, power["gpe_len"]), (96, 2, 0x0FFF), (98, 2, 0x0FFF), (108, 1, power["century"])]
    numbers += [(109, 2, 3 if power["keyboard"] else 0), (112, 4, 0x1A5 | (0x400 if power["reset"] != 0 else 0))]
    numbers += [(128, 1, power["reset_value"]), (131, 1, 5), (132, 8, 0), (140, 8, dsdt)]
    for offset, size, number in numbers:
        fadt[offset : offset + size] = number.to_bytes(size, "little")
    registers = [(116, power["reset"], 8, 1), (148, power["event"], 32, 2), (172, power["control"], 16, 2), (208, power["timer"], 32, 3)]
    for offset, port, width, access in [*registers, (220, power["gpe"], 8 * power["gpe_len"], 1)]:
        fadt[offset : offset + 12] = register(port, width, access)
    return bytes(fadt[HEADER.size :])


def processor(at, cpu):
    if at <= MOST_NARROW and cpu["apic"] <= MOST_NARROW:
        return struct.pack("<BBBBI", 0, 8, at, cpu["apic"], cpu["enabled"])
    return struct.pack("<BBHIII", 9, 16, 0, cpu["apic"], cpu["enabled"], at)


def io_apic(apic):
    return struct.pack("<BBBBII", 1, 12, apic["id"], 0, apic["address"], apic["gsi"])


def override(part):
    return struct.pack("<BBBBIH", 2, 10, 0, part["irq"], part["gsi"], part["flags"])


def nmi(part):
    cpu = part["cpu"]
    if cpu is not None and cpu > MOST_NARROW:
        return struct.pack("<BBHIB3x", 10, 12, part["flags"], cpu, part["lint"])
    return struct.pack("<BBBHB", 4, 6, 0xFF if cpu is None else cpu, part["flags"], part["lint"])


def processor_node(cpu):
    if cpu["apic"] <= MOST_NARROW:
        return struct.pack("<BBBBI8x", 0, 16, cpu["node"], cpu["apic"], 1)
    return struct.pack("<BBHIII8x", 2, 24, 0, cpu["node"], cpu["apic"], 1)


def memory_node(memory):
    return struct.pack("<BBIHQQIIQ", 1, 40, memory["node"], 0, memory["base_mib"] << 20, memory["size_mib"] << 20, 0, 1, 0)
