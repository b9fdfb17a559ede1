"""The SMBIOS structures of a machine, written (docs/FORMATS.md, "SMBIOS"; DSP0134, chapter 7)."""

import struct

VERSION = (3, 0)
END = bytes([127, 4, 0x00, 0x7F, 0, 0])
NO_CACHE, NO_ERROR, UNKNOWN, ARRAY = 0xFFFF, 0xFFFE, 0xFFFF, 0x1000
LARGE_DIMM, LARGE_ARRAY_MIB, LARGE_RANGE_KIB = 0x7FFF, 2 << 20, 0xFFFFFFFF


class Area:
    """The area of a structure behind its header, and the strings that its fields name."""

    def __init__(self, kind, handle):
        self.kind = kind
        self.handle = handle
        self.content = b""
        self.strings = []

    def text(self, *texts):
        """Fields that name a string each, if there is one."""
        for text in texts:
            if text != "":
                self.strings.append(text)
            self.content += bytes([len(self.strings) if text != "" else 0])
        return self

    def numbers(self, form, *numbers):
        self.content += struct.pack(f"<{form}", *numbers)
        return self

    def put(self, content):
        self.content += content
        return self

    def structure(self):
        header = struct.pack("<BBH", self.kind, 4 + len(self.content), self.handle)
        strings = b"".join(text.encode() + b"\0" for text in self.strings)
        return header + self.content + (strings + b"\0" if strings else b"\0\0")


def structures_of(machine):
    """The table of a machine's structures."""
    areas = [*firmware(machine["firmware"]), system(machine["system"]), *chassis(machine["chassis"])]
    areas += [socket(0x0400 + at, part) for at, part in enumerate(machine["socket"])]
    areas += [slot(0x0900 + at, part) for at, part in enumerate(machine["slot"])]
    areas += [*oem_strings(machine["oem_strings"]), *memory_array(machine["dimm"])]
    areas += [dimm(0x1100 + at, part) for at, part in enumerate(machine["dimm"])]
    areas += [mapped(0x1300 + at, part) for at, part in enumerate(machine["range"])]
    areas += [Area(32, 0x2000).put(bytes(7))] if machine["firmware"] is not None else []
    return b"".join(area.structure() for area in areas) + END


def anchor_of(table):
    """The anchor, whose address and sum are zero still."""
    return b"_SM3_" + struct.pack("<BBBBBBBIQ", 0, 0x18, *VERSION, 0, 1, 0, len(table), 0)


def stored_uuid(uuid):
    """A UUID with its first three fields low byte first."""
    return bytes(16) if uuid is None else uuid[3::-1] + uuid[5:3:-1] + uuid[7:5:-1] + uuid[8:]


def firmware(part):
    if part is not None:
        area = Area(0, 0x0000).text(part["vendor"], part["version"]).numbers("H", 0xE800).text(part["date"])
        yield area.numbers("BQBBBBBB", 0, 8, 0, 0x10, part["major"], part["minor"], 0xFF, 0xFF)


def system(part):
    area = Area(1, 0x0100).text(part["manufacturer"], part["product"], part["version"], part["serial"])
    return area.put(stored_uuid(part["uuid"])).numbers("B", 6).text(part["sku"], part["family"])


def chassis(part):
    if part is not None:
        area = Area(3, 0x0300).text(part["manufacturer"]).numbers("B", part["kind"]).text(part["version"], part["serial"], part["asset"])
        yield area.numbers("BBBBIBBBB", 3, 3, 3, 2, 0, 0, 0, 0, 0).text(part["sku"])


def socket(handle, part):
    area = Area(4, handle).text(part["designation"]).numbers("BB", 3, 1).text(part["manufacturer"]).numbers("Q", 0).text(part["version"])
    area.numbers("BHHHBB", 0, 0, part["mhz"], part["mhz"], 0x41, 1).numbers("HHH", NO_CACHE, NO_CACHE, NO_CACHE)
    cores, threads = part["cores"], part["threads"]
    area.text(part["serial"], part["asset"], part["part"]).numbers("BBB", min(cores, 0xFF), min(cores, 0xFF), min(threads, 0xFF))
    return area.numbers("HHHHH", 2, 1, cores, cores, threads)


def slot(handle, part):
    area = Area(9, handle).text(part["designation"]).numbers("BBBB", part["kind"], part["width"], 4 if part["used"] else 3, 1)
    return area.numbers("HBBHBB", part["id"], 1, 0, 0, part["bus"], 8 * part["device"] + part["function"])


def oem_strings(texts):
    if texts:
        area = Area(11, 0x0E00).numbers("B", len(texts))
        area.strings = texts
        yield area


def memory_array(dimms):
    if dimms:
        size = sum(dimm["size_mib"] for dimm in dimms)
        capacity, extended = (size << 10, 0) if size < LARGE_ARRAY_MIB else (0x80000000, size << 20)
        yield Area(16, ARRAY).numbers("BBBIHHQ", 3, 3, 3, capacity, NO_ERROR, len(dimms), extended)


def dimm(handle, part):
    size, extended = (part["size_mib"], 0) if part["size_mib"] < LARGE_DIMM else (LARGE_DIMM, part["size_mib"])
    area = Area(17, handle).numbers("HHHHHBB", ARRAY, NO_ERROR, UNKNOWN, UNKNOWN, size, 9, 0).text(part["locator"], part["bank"])
    area.numbers("BHH", 7, 2, part["speed"]).text(part["manufacturer"], part["serial"], part["asset"], part["part"])
    return area.numbers("BIHHHH", 0, extended, part["speed"], 0, 0, 0)


def mapped(handle, part):
    first, last = part["base_mib"] << 20, ((part["base_mib"] + part["size_mib"]) << 20) - 1
    is_large = last >> 10 >= LARGE_RANGE_KIB
    start, end = (LARGE_RANGE_KIB, LARGE_RANGE_KIB) if is_large else (first >> 10, last >> 10)
    return Area(19, handle).numbers("IIHBQQ", start, end, ARRAY, 1, *((first, last) if is_large else (0, 0)))
