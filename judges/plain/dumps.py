"""Dumps, read into a memory (docs/FORMATS.md, "How a dump is read")."""

from memory_dump import HEADER, LEAST_TOP_MIB, MOST_TOP_MIB, ROW, Memory

from plain.ended import Refused

STATUS = 6
BAD_HEADER, BAD_LINE, OUT_OF_ORDER, ALL_FILL, NOT_RAM, TRUNCATED = range(1, 7)


def refused(fault, line):
    return Refused(STATUS, f"dump: fault {fault} line {line}")


def read_dump(content):
    """The memory of a dump, or the first fault of its lines."""
    *lines, rest = content.split(b"\n")
    if not lines:
        raise refused(TRUNCATED, 0)
    memory = read_header(lines[0])
    before = -1
    for number, line in enumerate(lines[1:], start=2):
        if line == b"end":
            if lines[number:] or rest:
                raise refused(BAD_LINE, number + 1)
            return memory
        before = read_row(memory, before, number, line)
    raise refused(TRUNCATED, len(lines))


def read_header(line):
    """An empty memory with the top and the fill byte of the first line."""
    header = HEADER.fullmatch(line)
    if header is None:
        raise refused(BAD_HEADER, 1)
    top = int(header[1], 16)
    if top % (1 << 20) != 0 or not LEAST_TOP_MIB << 20 <= top <= MOST_TOP_MIB << 20:
        raise refused(BAD_HEADER, 1)
    return Memory(top, int(header[2], 16))


def read_row(memory, before, number, line):
    """Puts a row into memory, and returns its address."""
    row = ROW.fullmatch(line)
    if row is None or int(row[1], 16) % 16 != 0:
        raise refused(BAD_LINE, number)
    address, content = int(row[1], 16), bytes.fromhex(row[2].decode())
    if not memory.is_ram(address, address + 16):
        raise refused(NOT_RAM, number)
    if address <= before:
        raise refused(OUT_OF_ORDER, number)
    if content == memory.fill:
        raise refused(ALL_FILL, number)
    memory.rows[address] = content
    return address
