"""What stands at addresses of a memory, as the readers of tables and structures look at it: bytes, or that some of them are no RAM."""


def bytes_at(memory, address, size):
    """So many bytes from an address on, or None where not all of them are RAM."""
    if size == 0:
        return b""
    if not memory.is_ram(address, address + size):
        return None
    return memory.read(address, size, "bytes")


def ram_from(memory, address, most):
    """The bytes from an address on that are RAM without a gap, and no more than so many."""
    end = next((high for low, high in memory.ram if low <= address < high), address)
    return bytes_at(memory, address, min(most, end - address))


def rows_with(memory, front, start, end):
    """The addresses of a range, multiples of 16 in ascending order, at which these bytes stand. They aren't all the fill byte, so that a row of a
    dump tells each of them.
    """
    return [address for address in sorted(memory.rows) if start <= address < end and memory.rows[address].startswith(front)]


def number_in(content, offset, size):
    return int.from_bytes(content[offset : offset + size], "little")


def sums_to_zero(content):
    return sum(content) % 256 == 0
