"""The memory of a guest as a dump spells it, and the ACPI tables in it: what the tools and the judges that read dumps share."""

import copy
import pathlib
import re
from typing import NamedTuple

HEADER = re.compile(rb"top ([0-9a-f]{8}) fill ([0-9a-f]{2})")
ROW = re.compile(rb"([0-9a-f]{8}) ([0-9a-f]{32})")

LOWER_WINDOW = [(0x00000, 0xA0000), (0xE0000, 0x100000)]
UPPER_WINDOW_SIZE = 32 << 20
LEAST_TOP_MIB, MOST_TOP_MIB = 64, 3072

# How an SMBIOS anchor begins, and the old one (DSP0134 3.0.0, 5.2.2 and 5.2.1): how many bytes it has, and where it tells the most bytes of its
# structures and their address, in how many bytes.
NEW_MARK, OLD_MARK = b"_SM3_", b"_SM_"
ANCHOR_SIZES = {NEW_MARK: 24, OLD_MARK: 31}
ANCHOR_FIELDS = {NEW_MARK: ((0x0C, 4), (0x10, 8)), OLD_MARK: ((0x16, 2), (0x18, 4))}


class NotADump(Exception):
    pass


class NotFound(Exception):
    pass


class Anchor(NamedTuple):
    """An SMBIOS anchor: where it stands, how it begins, its bytes, and the size and the address that it tells of its structures."""

    address: int
    mark: bytes
    content: bytes
    size: int
    table: int


class Memory:
    """A guest's memory: its RAM, the byte that fills it, and the rows of 16 bytes that are otherwise."""

    def __init__(self, top, fill):
        self.top = top
        self.ram = [*LOWER_WINDOW, (top - UPPER_WINDOW_SIZE, top)]
        self.fill = bytes([fill]) * 16
        self.rows = {}

    def is_ram(self, start, end):
        return any(low <= start and end <= high for low, high in self.ram)

    def read(self, start, size, what):
        end = start + size
        if not self.is_ram(start, end):
            raise NotFound(f"{what}: {size} bytes at {start:#x} aren't all in memory")
        first = start // 16 * 16
        found = b"".join(self.rows.get(row, self.fill) for row in range(first, end, 16))
        return found[start - first : end - first]

    def put(self, start, content):
        """Has bytes stand from a multiple of 16 on; they are as many as a multiple of 16."""
        for at in range(0, len(content), 16):
            row = bytes(content[at : at + 16])
            if row == self.fill:
                self.rows.pop(start + at, None)
            else:
                self.rows[start + at] = row

    def write(self, start, content):
        """Has bytes stand from any address of RAM on."""
        before = self.read(start // 16 * 16, start % 16, "the row before")
        end = start + len(content)
        behind = self.read(end, -end % 16, "the row behind")
        self.put(start - len(before), before + content + behind)

    def copy(self):
        other = copy.copy(self)
        other.rows = dict(self.rows)
        return other

    def flipped(self, address):
        """A copy with the lowest bit of the byte at the address flipped."""
        other = self.copy()
        other.write(address, bytes([self.read(address, 1, "the byte")[0] ^ 1]))
        return other

    def find(self, anchor, start, end):
        """Returns the least multiple of 16 in the range at which the anchor's letters stand."""
        for row in range(start, end, 16):
            if self.rows.get(row, self.fill).startswith(anchor):
                return row
        return None


def read_dump(text):
    lines = text.split(b"\n")
    if len(lines) < 3 or lines[-1] != b"":
        raise NotADump("it isn't lines that each end in a line feed, the first 'top XXXXXXXX fill XX' and the last 'end'")
    header = HEADER.fullmatch(lines[0])
    if header is None:
        raise NotADump("line 1 isn't 'top XXXXXXXX fill XX'")
    if lines[-2] != b"end":
        raise NotADump(f"line {len(lines) - 1}, the last, isn't 'end'")
    top = int(header[1], 16)
    if top % (1 << 20) != 0 or not LEAST_TOP_MIB <= top >> 20 <= MOST_TOP_MIB:
        raise NotADump(f"line 1: its top isn't {LEAST_TOP_MIB} to {MOST_TOP_MIB} MiB")
    memory = Memory(top, int(header[2], 16))
    before = -1
    for number, line in enumerate(lines[1:-2], start=2):
        before = read_row(memory, before, number, line)
    return memory


def read_row(memory, before, number, line):
    row = ROW.fullmatch(line)
    if row is None:
        raise NotADump(f"line {number} isn't an address of 8 digits, a space and 32 digits")
    address, content = int(row[1], 16), bytes.fromhex(row[2].decode())
    if address <= before:
        raise NotADump(f"line {number}: its address isn't above the one before it")
    if address % 16 != 0 or not memory.is_ram(address, address + 16):
        raise NotADump(f"line {number}: its address isn't a multiple of 16 in RAM")
    if content == memory.fill:
        raise NotADump(f"line {number}: its bytes are all the fill byte, so it stands there needlessly")
    memory.rows[address] = content
    return address


def read_dump_file(name):
    """The memory of a dump in a file."""
    try:
        return read_dump(pathlib.Path(name).read_bytes())
    except NotADump as refusal:
        raise NotADump(f"{name} is no dump: {refusal}") from refusal


def dump_text(memory):
    """The dump of a memory."""
    rows = "".join(f"{address:08x} {content.hex()}\n" for address, content in sorted(memory.rows.items()))
    return f"top {memory.top:08x} fill {memory.fill[0]:02x}\n{rows}end\n".encode()


def number_at(content, offset, size):
    return int.from_bytes(content[offset : offset + size], "little")


def smbios_anchor(memory, marks=(NEW_MARK, OLD_MARK)):
    """The least SMBIOS anchor that begins with one of these marks, or None."""
    found = [(at, mark) for mark in marks if (at := memory.find(mark, 0xF0000, 0x100000)) is not None]
    if not found:
        return None
    at, mark = min(found)
    content = memory.read(at, ANCHOR_SIZES[mark], "the SMBIOS anchor")
    size, table = (number_at(content, *field) for field in ANCHOR_FIELDS[mark])
    return Anchor(at, mark, content, size, table)


def byte_sum(content):
    return sum(content) % 256


def root_pointer(memory):
    """The least root pointer of the ACPI tables (ACPI 6.5, 5.2.5.3), which has 20 bytes in revision 0, or None."""
    at = memory.find(b"RSD PTR ", 0xE0000, 0x100000)
    if at is None:
        return None
    pointer = memory.read(at, 20, "the RSDP")
    return pointer if pointer[15] < 2 else memory.read(at, 36, "the RSDP")


def acpi_table(memory, address):
    what = f"the ACPI table at {address:#x}"
    size = number_at(memory.read(address + 4, 4, what), 0, 4)
    if size < 36:
        raise NotFound(f"{what}: its length {size} is less than its header's 36 bytes")
    return memory.read(address, size, what)


def root_address(pointer):
    """The address that a root pointer names, of 8 bytes, or in revision 0 of 4."""
    return number_at(pointer, 24, 8) if pointer[15] >= 2 else number_at(pointer, 16, 4)


def root_table(memory, pointer):
    """The table that a root pointer names: the XSDT (5.2.8), or in revision 0 the RSDT (5.2.7)."""
    table = acpi_table(memory, root_address(pointer))
    wanted = b"XSDT" if pointer[15] >= 2 else b"RSDT"
    if table[:4] != wanted:
        raise NotFound(f"the RSDP leads to {table[:4]!r}, where {wanted!r} should stand")
    return table


def listed_addresses(root):
    """The addresses of the tables that an XSDT or an RSDT lists. An entry that is zero lists none."""
    width = 8 if root[:4] == b"XSDT" else 4
    addresses = (number_at(root, entry, width) for entry in range(36, len(root) - width + 1, width))
    return [address for address in addresses if address != 0]


def listed_tables(memory, root):
    """The tables that an XSDT or an RSDT lists."""
    return [acpi_table(memory, address) for address in listed_addresses(root)]


def led_addresses(fadt):
    """The addresses to which an FADT (5.2.9) leads: of the FACS and of the DSDT, by the wide pointers where it has them and these aren't zero."""
    for narrow, wide in ((36, 132), (40, 140)):
        address = (number_at(fadt, wide, 8) if wide + 8 <= len(fadt) else 0) or number_at(fadt, narrow, 4)
        if address != 0:
            yield address


def led_tables(memory, fadt):
    """The tables that an FADT leads to."""
    return [acpi_table(memory, address) for address in led_addresses(fadt)]


def reachable_tables(memory, root):
    """An XSDT or an RSDT, the tables that it lists, and behind an FADT those that it leads to."""
    yield root
    for table in listed_tables(memory, root):
        yield table
        if table[:4] == b"FACP":
            yield from led_tables(memory, table)
