"""AML terms, read and written (docs/FORMATS.md, "AML terms"; ACPI 6.5, 20.2).

A term or a value is a tuple that begins with its kind:

    ("name", path, value)   ("scope", path, terms)   ("device", path, terms)
    ("integer", number)     ("ones",)   ("text", bytes)   ("buffer", bytes)   ("package", values)

A path is how it begins and its segments: "\\\\", any number of "^", or nothing.
"""

import collections

LEVELS = 16  # in which scopes, devices, packages and buffers nest at most
MOST_PARENTS = 255

NAME, SCOPE, DEVICE = 0x08, 0x10, (0x5B, 0x82)
TEXT, BUFFER, PACKAGE, ONES = 0x0D, 0x11, 0x12, 0xFF
SMALL = (0, 1)  # the integers that are their own opcodes
WIDTHS = {0x0A: 1, 0x0B: 2, 0x0C: 4, 0x0E: 8}  # of an integer behind its opcode, in bytes
ROOT, PARENT, TWO_SEGMENTS, MANY_SEGMENTS = 0x5C, 0x5E, 0x2E, 0x2F

LEADS = b"ABCDEFGHIJKLMNOPQRSTUVWXYZ_"
DIGITS = b"0123456789"
LAST_CHARACTER = 0x7F

TRUNCATED, BAD_LENGTH, BAD_NAME, OUTSIDE = "Truncated", "BadLength", "BadName", "OutsideGrammar"

Path = collections.namedtuple("Path", "front segments")


class NoTerms(Exception):
    """Bytes spell no terms: their first fault, and its place."""

    def __init__(self, fault, place):
        super().__init__(fault, place)
        self.fault = fault
        self.place = place


def read_terms(content):
    """The terms that all bytes spell."""
    return terms_in(content, 0, len(content), 0)


def terms_in(content, at, end, level):
    """The terms from a place to the end of what encloses them, inside so many levels."""
    terms = []
    while at < end:
        term, at = term_at(content, at, end, level)
        terms.append(term)
    return terms


def byte_at(content, at, end):
    if at >= end:
        raise NoTerms(TRUNCATED, end)
    return content[at]


def term_at(content, at, end, level):
    """The term at a place, and what stands behind it."""
    opcode = byte_at(content, at, end)
    if opcode == NAME:
        path, behind = path_at(content, at + 1, end)
        value, behind = value_at(content, behind, end, level)
        return ("name", path, value), behind
    if opcode == SCOPE:
        return enclosing_at("scope", content, at, at + 1, end, level)
    if opcode == DEVICE[0] and byte_at(content, at + 1, end) == DEVICE[1]:
        return enclosing_at("device", content, at, at + 2, end, level)
    raise NoTerms(OUTSIDE, at)


def enclosing_at(kind, content, at, length_place, end, level):
    """A scope or a device at a place, whose package length stands behind its opcode."""
    if level == LEVELS:
        raise NoTerms(OUTSIDE, at)
    start, stop = enclosed_at(content, length_place, end)
    path, start = path_at(content, start, stop)
    return (kind, path, terms_in(content, start, stop, level + 1)), stop


def enclosed_at(content, at, end):
    """Where what a package length encloses begins, and where it ends. The length counts its own bytes."""
    lead = byte_at(content, at, end)
    more = lead >> 6
    start = at + 1 + more
    if more > 0 and lead & 0x30:
        raise NoTerms(BAD_LENGTH, at)
    if start > end:
        raise NoTerms(TRUNCATED, end)
    total = lead if more == 0 else lead & 0x0F | number_in(content[at + 1 : start]) << 4
    if total < 1 + more or at + total > end:
        raise NoTerms(BAD_LENGTH, at)
    return start, at + total


def number_in(content):
    return int.from_bytes(content, "little")


def path_at(content, at, end):
    """The path at a place, and what stands behind it."""
    front, at = front_at(content, at, end)
    count, at = count_at(content, at, end)
    segments = []
    for _ in range(count):
        segments.append(segment_at(content, at, end))
        at += 4
    return Path(front, tuple(segments)), at


def front_at(content, at, end):
    """How a path begins, and where its segments are told."""
    if byte_at(content, at, end) == ROOT:
        return "\\", at + 1
    parents = 0
    while parents < MOST_PARENTS and byte_at(content, at + parents, end) == PARENT:
        parents += 1
    return "^" * parents, at + parents


def count_at(content, at, end):
    """How many segments a path has, and where they begin."""
    lead = byte_at(content, at, end)
    if lead == TWO_SEGMENTS:
        return 2, at + 1
    if lead != MANY_SEGMENTS:
        return 1, at
    count = byte_at(content, at + 1, end)
    if count == 0:
        raise NoTerms(BAD_NAME, at + 1)
    return count, at + 2


def segment_at(content, at, end):
    for place in range(at, at + 4):
        letters = LEADS if place == at else LEADS + DIGITS
        if byte_at(content, place, end) not in letters:
            raise NoTerms(BAD_NAME, place)
    return bytes(content[at : at + 4])


def value_at(content, at, end, level):
    """The value at a place, and what stands behind it."""
    opcode = byte_at(content, at, end)
    if opcode in SMALL or opcode in WIDTHS:
        number, behind = integer_at(content, at, end)
        return ("integer", number), behind
    if opcode == ONES:
        return ("ones",), at + 1
    if opcode == TEXT:
        return text_at(content, at + 1, end)
    if opcode not in (BUFFER, PACKAGE) or level == LEVELS:
        raise NoTerms(OUTSIDE, at)
    start, stop = enclosed_at(content, at + 1, end)
    value = buffer_in(content, start, stop) if opcode == BUFFER else package_in(content, start, stop, level)
    return value, stop


def integer_at(content, at, end):
    """The integer at a place, but for that of ones, and what stands behind it."""
    opcode = byte_at(content, at, end)
    if opcode in SMALL:
        return opcode, at + 1
    if opcode not in WIDTHS:
        raise NoTerms(OUTSIDE, at)
    behind = at + 1 + WIDTHS[opcode]
    if behind > end:
        raise NoTerms(TRUNCATED, end)
    return number_in(content[at + 1 : behind]), behind


def text_at(content, start, end):
    at = start
    while (character := byte_at(content, at, end)) != 0:
        if character > LAST_CHARACTER:
            raise NoTerms(OUTSIDE, at)
        at += 1
    return ("text", bytes(content[start:at])), at + 1


def buffer_in(content, start, stop):
    size, behind = integer_at(content, start, stop)
    if size != stop - behind:
        raise NoTerms(OUTSIDE, start)
    return ("buffer", bytes(content[behind:stop]))


def package_in(content, start, stop, level):
    """A package, whose number of values is compared once they were read."""
    count = byte_at(content, start, stop)
    values, at = [], start + 1
    while at < stop:
        value, at = value_at(content, at, stop, level + 1)
        values.append(value)
    if len(values) != count:
        raise NoTerms(OUTSIDE, start)
    return ("package", values)


def written_terms(terms):
    """Terms in their shortest spelling."""
    return b"".join(map(written_term, terms))


def written_term(term):
    kind, path, inner = term
    if kind == "name":
        return bytes([NAME]) + written_path(path) + written_value(inner)
    opcode = bytes([SCOPE]) if kind == "scope" else bytes(DEVICE)
    return opcode + with_length(written_path(path) + written_terms(inner))


def with_length(content):
    """Bytes behind the shortest package length that encloses them."""
    if len(content) + 1 < 0x40:
        return bytes([len(content) + 1]) + content
    for more in (1, 2, 3):
        total = len(content) + 1 + more
        if total < 1 << (4 + 8 * more):
            return bytes([more << 6 | total & 0x0F]) + (total >> 4).to_bytes(more, "little") + content
    raise ValueError("no package length encloses so many bytes")


def written_path(path):
    count = len(path.segments)
    told = {1: b"", 2: bytes([TWO_SEGMENTS])}.get(count, bytes([MANY_SEGMENTS, count]))
    return path.front.encode() + told + b"".join(path.segments)


def written_value(value):
    match value:
        case ("integer", number):
            return written_integer(number)
        case ("ones",):
            return bytes([ONES])
        case ("dword", number):
            return bytes([0x0C]) + number.to_bytes(4, "little")
        case ("text", characters):
            return bytes([TEXT]) + characters + b"\0"
        case ("buffer", content):
            return bytes([BUFFER]) + with_length(written_integer(len(content)) + content)
        case ("package", values):
            return bytes([PACKAGE]) + with_length(bytes([len(values)]) + b"".join(map(written_value, values)))
    raise ValueError(f"{value[0]} is no kind of value")


def written_integer(number):
    if number in SMALL:
        return bytes([number])
    opcode, width = next((opcode, width) for opcode, width in WIDTHS.items() if number < 1 << 8 * width)
    return bytes([opcode]) + number.to_bytes(width, "little")


def again(content):
    """The shortest spelling of the terms that bytes spell."""
    return written_terms(read_terms(content))
