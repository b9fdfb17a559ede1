"""The ACPI tables that a memory shows, from its RSDP on (docs/FORMATS.md, "How tables are read")."""

import collections

from plain.ended import Refused
from plain.terms import NoTerms, read_terms
from plain.views import bytes_at, number_in, rows_with, sums_to_zero

STATUS = 7
OUTSIDE_RAM, BAD_SUM, BAD_LENGTH, BAD_ENTRY, WRONG_SIGNATURE, TWICE_GIVEN = range(1, 7)

POINTERS, POINTERS_END = 0xE0000, 0x100000
HEADER_SIZE, FACS_SIZE, ID_SIZE = 36, 64, 16

# A form of the tables: the revisions that an RSDP may have, how many bytes of it are looked at, and how many from its first on sum to zero; the root's
# signature, where the RSDP has its address and how many bytes that has, which an entry of the root has, too; and the least length of an FADT.
Form = collections.namedtuple("Form", "revisions pointer_size sums root root_at width least_fadt")
XSDT_FORM = Form(range(2, 256), 36, (20, 36), b"XSDT", 24, 8, 276)
LEGACY_FORM = Form(range(2), 20, (20,), b"RSDT", 16, 4, 116)
ANY_FORMS = (XSDT_FORM._replace(least_fadt=116), LEGACY_FORM)  # of which the RSDP that stands first has one

MOST_ENTRIES, MOST_NODES = 256, 1024

# The tables of which there may be one, and where the entries of two of them begin, with the least length of each type.
ONCE = (b"FACP", b"APIC", b"SRAT", b"SLIT", b"MCFG", b"HPET")
ENTRIES = {
    b"APIC": (44, {0: 8, 1: 12, 2: 10, 4: 6, 9: 16, 10: 12}),
    b"SRAT": (48, {0: 16, 1: 40, 2: 24}),
}

SYSTEM_BUS = ("\\", (b"_SB_",))
GENERATION, ADDRESS = ("", (b"VGEN",)), ("", (b"ADDR",))

# The maker; the signatures that were read, of tables that have a record, where that of the root is XSDT in each form; the length of a DSDT that
# spells no terms, or None; and the signature and the length of each table of another signature.
Tables = collections.namedtuple("Tables", "maker signatures foreign others")


def refused(fault, address):
    return Refused(STATUS, f"tables: acpi fault {fault} at {address:016x}")


def read_tables(memory, forms=(XSDT_FORM,)):
    """The tables behind the least valid RSDP of these forms, by its form, or None where none stands."""
    found = [(address, form, pointer) for form in forms for address, pointer in valid_pointers(memory, form)]
    if not found:
        return None
    _, form, pointer = min(found, key=lambda one: one[0])
    return Walk(memory, form).tables(pointer)


def valid_pointers(memory, form):
    """The address and the bytes of each valid RSDP of a form."""
    for address in rows_with(memory, b"RSD PTR ", POINTERS, POINTERS_END - form.pointer_size + 1):
        pointer = bytes_at(memory, address, form.pointer_size)
        if pointer[15] in form.revisions and all(sums_to_zero(pointer[:count]) for count in form.sums):
            yield address, pointer


class Walk:
    """Goes over the tables of a form in the order in which they are read."""

    def __init__(self, memory, form):
        self.memory = memory
        self.form = form
        self.signatures = {b"XSDT"}
        self.foreign = None
        self.others = []

    def tables(self, pointer):
        width = self.form.width
        root = self.headed(number_in(pointer, self.form.root_at, width), due=self.form.root)
        for entry in range(HEADER_SIZE, len(root), width):
            address = number_in(root, entry, width)
            if address != 0:
                self.named(address)
        return Tables(pointer[9:15], self.signatures, self.foreign, self.others)

    def headed(self, address, due=None):
        """The bytes of a table with a header, which has passed the tests that each has to pass."""
        header = bytes_at(self.memory, address, HEADER_SIZE)
        if header is None:
            raise refused(OUTSIDE_RAM, address)
        if due is not None and header[:4] != due:
            raise refused(WRONG_SIGNATURE, address)
        length = number_in(header, 4, 4)
        if not self.is_lawful(address, length, header[:4], due):
            raise refused(BAD_LENGTH, address)
        table = bytes_at(self.memory, address, length)
        if table is None:
            raise refused(OUTSIDE_RAM, address)
        if not sums_to_zero(table):
            raise refused(BAD_SUM, address)
        return table

    def is_lawful(self, address, length, signature, due):
        """Whether the length of a table is one of its form. What an entry of the root names is no root and no DSDT, whatever its signature is."""
        if due == self.form.root:
            return length in range(HEADER_SIZE, HEADER_SIZE + self.form.width * MOST_ENTRIES + 1, self.form.width)
        if due is None and signature == b"SLIT":
            return self.has_distances(address, length)
        if due is None and signature == b"MCFG":
            return length >= 44 and (length - 44) % 16 == 0
        least = {b"FACP": self.form.least_fadt, b"APIC": 44, b"SRAT": 48, b"HPET": 56}
        return length >= (least.get(signature, HEADER_SIZE) if due is None else HEADER_SIZE)

    def has_distances(self, address, length):
        count = bytes_at(self.memory, address + 36, 8)
        nodes = 0 if count is None else number_in(count, 0, 8)
        return nodes <= MOST_NODES and length >= 44 + nodes * nodes

    def named(self, address):
        """Reads a table that an entry of the root names, and what it leads to."""
        table = self.headed(address)
        signature = table[:4]
        if signature not in ONCE:
            self.others.append((signature, len(table)))
            return
        if signature in self.signatures:
            raise refused(TWICE_GIVEN, address)
        self.signatures.add(signature)
        if signature in ENTRIES:
            test_entries(address, table, *ENTRIES[signature])
        if signature == b"FACP":
            self.led(field_in(table, 132, 8) or field_in(table, 36, 4), self.facs)
            self.led(field_in(table, 140, 8) or field_in(table, 40, 4), self.dsdt)

    def led(self, address, read):
        if address != 0:
            read(address)

    def facs(self, address):
        facs = bytes_at(self.memory, address, FACS_SIZE)
        if facs is None:
            raise refused(OUTSIDE_RAM, address)
        if facs[:4] != b"FACS":
            raise refused(WRONG_SIGNATURE, address)
        if number_in(facs, 4, 4) != FACS_SIZE:
            raise refused(BAD_LENGTH, address)
        self.signatures.add(b"FACS")

    def dsdt(self, address):
        dsdt = self.headed(address, due=b"DSDT")
        self.signatures.add(b"DSDT")
        try:
            terms = read_terms(dsdt[HEADER_SIZE:])
        except NoTerms:
            self.foreign = len(dsdt)
            return
        identity = id_address(terms)
        if identity is not None and bytes_at(self.memory, identity, ID_SIZE) is None:
            raise refused(OUTSIDE_RAM, identity)


def field_in(table, offset, size):
    """The number in a field of a table, which is 0 where the field isn't wholly inside the table's length."""
    return number_in(table, offset, size) if offset + size <= len(table) else 0


def test_entries(address, table, start, least):
    """Refuses a table one of whose entries is bad."""
    at = start
    while at < len(table):
        left = len(table) - at
        if left < 2 or not least.get(table[at], 2) <= table[at + 1] <= left:
            raise refused(BAD_ENTRY, address + at)
        at += table[at + 1]


def id_address(terms):
    """The address of a machine's generation's id to which terms lead, or None."""
    for inner in system_buses(terms):
        for kind, path, names in inner:
            if kind == "device" and tuple(path) == GENERATION:
                address = address_in(names)
                if address is not None:
                    return address
    return None


def system_buses(terms):
    """The terms of each scope of the system bus, in the order in which they begin, wherever they stand."""
    for kind, path, inner in terms:
        if kind == "scope" and tuple(path) == SYSTEM_BUS:
            yield inner
        if kind != "name":
            yield from system_buses(inner)


def address_in(terms):
    """The address that the first name `ADDR` of a device tells, where it tells one."""
    values = [value for kind, path, value in terms if kind == "name" and tuple(path) == ADDRESS]
    match values[:1]:
        case [("package", [("integer", low), ("integer", high)])] if low < 1 << 32 and high < 1 << 32:
            return low + (high << 32)
    return None
