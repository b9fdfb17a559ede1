#!/usr/bin/env python3
"""Judges the reader and the writer of AML terms by a plain one (judges/plain/terms.py), made of docs/FORMATS.md alone. It is no part of the
product: it serves the checks of judges/run.sh alone.

usage: judge_terms.py PROGRAM [SEED [PERCENT]]

PROGRAM is the program `aml_again`, which reads AML terms and writes them again. Of each input it must write the shortest spelling, or tell the
first fault with its place:

- a list with a term of every kind, each front of it, and each of its bytes with every value;
- package lengths in every spelling around each border, right and one more and one less; nesting up to and past 16 levels; paths with as many
  segments and levels up as there may be, and one more; long inputs;
- terms that a seed draws, in any spelling, and with a fault; parts of terms in any order; and bytes among which opcodes and lengths are many.

SEED is another seed, and PERCENT how many of the inputs that are drawn, 100 where nothing is said.

Status 0: all of this holds; 1: something doesn't, each with a line; 2: PROGRAM can't be run.
"""

import sys

from calls import Comparison, Ended, Joined, Program, Seeds
from endings import ended
from plain.terms import BAD_LENGTH, BAD_NAME, LEVELS, OUTSIDE, TRUNCATED, NoTerms, again, with_length

# How the program spells each fault.
LINES = {
    TRUNCATED: "a term is cut at byte {}",
    BAD_LENGTH: "a bad package length at byte {}",
    BAD_NAME: "a bad name at byte {}",
    OUTSIDE: "byte {} is outside the grammar",
}
READ = "read"

# A scope of the root with a device and a name in it, and a name: each kind of value, each width of an integer, and a path of each form.
EVERY = (
    b"\x10\x4f\x04\\_SB_"
    b"\x5b\x82\x1ePCI0\x08_HID\x0c\xd0\x41\x0a\x08\x08_UID\x00\x08A__1\x0dHi\x00"
    b"\x08\x5e\x5e\x2eAB01CD02\x12\x1b\x07\x01\x0a\x05\x0b\x34\x12\x0e\x00\x01\x02\x03\x04\x05\x06\x07\xff\x11\x05\x0a\x02\x79\x00\x12\x02\x00"
    b"\x08\x2f\x03AAAABBBBCCCC\x11\x02\x00"
)

# Parts of which terms are made: names with values, and the beginnings of scopes, devices, packages and buffers, whose lengths may fit what
# follows or not.
PARTS = [
    b"\x08ABCD\x00",
    b"\x08\\AB_1\x0a\x05",
    b"\x08^.ABCDEFGH\x0dHi\x00",
    b"\x08_UID\xff",
    b"\x08\x2f\x03AAAABBBBCCCC\x11\x05\x0a\x02\x79\x00",
    b"\x08_CRS\x12\x04\x02\x00\x01",
    b"\x10\x0bABCD\x08ABCD\x01",
    b"\x10\x05ABCD",
    b"\x5b\x82\x0bPCI0\x08_ADR\x00",
    b"\x10\x11ABCD",
    b"\x08ABCD\x12\x0a\x03",
    b"\x08ABCD\x11\x0a",
    b"\x00",
    b"\x0b\x05\x00",
    b"\x11\x03\x01A",
    b"\x5b\x82\x4b\x00PCI1",
]

# Opcodes, characters of names, lengths and counts.
USUAL = b"\x00\x01\x0a\x0b\x0c\x0d\x0e\xff\x08\x08\x10\x10\x11\x12\x5b\x82\x5c\x5e\x2e\x2fA_\x05\x41\x80\xc0"
BEGINNINGS = [b"\x08", b"\x08ABCD", b"\x10", b"\x5b\x82", b"\x10\x0c", b"\x5b\x82\x0aABCD", b"\x08ABCD\x12\x09", b"\x08ABCD\x11\x09", b""]

LETTERS, CHARACTERS = b"ABCXYZ_", b"ABCXYZ_0189"
WIDTHS = {0x0A: 1, 0x0B: 2, 0x0C: 4, 0x0E: 8}

# How many bytes a scope's terms have, around each border of lengths and far from it.
BODIES = [4, 5, 10, 57, 58, 59, 60, 61, 62, 63, 64, 300, 4_088, 4_089, 4_090, 4_091, 4_092, 4_093, 4_094]
LONG = 4 << 20

DRAWN_TERMS, DRAWN_PARTS, DRAWN_BYTES = 75_000, 10_000, 15_000
LEAST = 500  # how often each outcome must come


def fault(name, place):
    """How a call ends with a fault."""
    return Ended(1, b"", f"{LINES[name].format(place)}\n".encode())


def read_again(given):
    """How a call ends: with the shortest spelling, or the first fault."""
    try:
        return Ended(0, again(given), b"")
    except NoTerms as refusal:
        return fault(refusal.fault, refusal.place)


def outcome_of(wanted):
    said = wanted.said.decode()
    return next((fault for fault, line in LINES.items() if all(part in said for part in line.split("{}"))), READ)


def is_read(content):
    try:
        again(content)
    except NoTerms:
        return False
    return True


def front_inputs():
    for size in range(len(EVERY) + 1):
        yield f"the first {size} bytes", EVERY[:size]


def changed_inputs():
    for place in range(len(EVERY)):
        for byte in range(256):
            yield f"byte {place} is {byte:#04x}", EVERY[:place] + bytes([byte]) + EVERY[place + 1 :]


def told_length(more, total):
    """A package length with so many bytes behind its first one."""
    if more == 0:
        return bytes([total & 0x3F])
    return bytes([more << 6 | total & 0x0F]) + (total >> 4 & (1 << 8 * more) - 1).to_bytes(more, "little")


def length_inputs():
    """Each body's length in every spelling that has room for it or not, right and one more and one less."""
    for size in BODIES:
        body = b"ABCD" + (b"\x08A___\x00" * size)[: size - 4]
        for more in range(4):
            for total in range(size + more, size + more + 3):
                yield f"a length {total} of {more + 1} bytes, of {size}", b"\x10" + told_length(more, total) + body


def scopes(levels, inmost):
    content = inmost
    for _ in range(levels):
        content = b"\x10" + with_length(b"ABCD" + content)
    return content


def packages(levels, inmost):
    content = inmost
    for _ in range(levels):
        content = b"\x12" + with_length(b"\x01" + content)
    return b"\x08ABCD" + content


def level_inputs():
    inmost = [b"", b"\x08ABCD\x00", b"\x08ABCD\x11\x02\x00", b"\x08ABCD\x12\x02\x00", b"\x5b\x82\x05ABCD", b"\x10", b"\x5b", b"\x5b\x00", b"\x08ABCD\x11"]
    for levels in range(LEVELS - 2, LEVELS + 2):
        for content in inmost:
            yield f"{levels} levels with {content!r}", scopes(levels, content)
        for content in (b"\x00", b"\x11\x02\x00", b"\x12\x02\x00", b"\x12", b"\x11"):
            yield f"{levels} packages with {content!r}", packages(levels, content)


def path_inputs():
    for parents in (254, 255, 256):
        yield f"{parents} levels up", b"\x08" + b"^" * parents + b"ABCD\x00"
        yield f"{parents} levels up, and no segment", b"\x08" + b"^" * parents
    for count in (1, 2, 3, 254, 255):
        for more in (-1, 0, 1):
            yield f"{count} segments, and {more} more", b"\x08\x2f" + bytes([count]) + b"A_09" * (count + more) + b"\x01"
    for front in (b"\\^", b"^\\", b"\\\\", b"\\.", b"\\/", b"^/"):
        yield f"a path {front!r}", b"\x08" + front + b"\x00ABCDEFGH\x00"


def long_answers():
    """Long inputs, which no plain reader has to read, and how each call must end."""
    yield "a text without its NUL", b"\x08ABCD\x0d" + b"A" * LONG, fault(TRUNCATED, LONG + 6)
    text = b"\x08ABCD\x0d" + b"\x7f" * LONG + b"\x00"
    yield "a text", text, Ended(0, text, b"")
    nested = b"".join(b"\x10" + told_length(3, LONG - 9 * at - 1) + b"ABCD" for at in range(LONG // 9))
    yield "scopes that reach the end", nested.ljust(LONG, b"\0"), fault(OUTSIDE, 9 * LEVELS)
    names = b"\x08ABCD\x0b\x34\x12" * (LONG // 8)
    yield "names", names, Ended(0, names, b"")
    for count, place in ((1 << 12, 9), (LONG, 10)):
        yield f"a package of {count} zeros", b"\x08ABCD\x12" + with_length(b"\x00" + bytes(count)), fault(OUTSIDE, place)
        yield f"{count} zeros and no value", b"\x08ABCD\x12" + with_length(b"\x00" + bytes(count) + b"\x14"), fault(OUTSIDE, place + 1 + count)


class Drawing:
    """Draws terms in any spelling by a random generator."""

    def __init__(self, draws):
        self.draws = draws

    def term(self, level=0):
        kind = self.draws.choice(["name", "name", "name", "scope", "device"])
        if kind == "name" or level == 4:
            return b"\x08" + self.path() + self.value(level)
        opcode = b"\x10" if kind == "scope" else b"\x5b\x82"
        return opcode + self.enclosed(self.path() + b"".join(self.term(level + 1) for _ in range(self.draws.randrange(3))))

    def enclosed(self, content):
        """Bytes behind a package length that mostly is the shortest."""
        shortest = with_length(content)
        more = self.draws.choice([0, 0, 0, 1, 2, 3])
        if len(shortest) - len(content) > more + 1:
            return shortest
        total = len(content) + more + 1
        return shortest if more == 0 else told_length(more, total) + content

    def path(self):
        front = self.draws.choice([b"", b"", b"", b"\\", b"^", b"^" * self.draws.randrange(1, 5)])
        count = self.draws.choice([1, 1, 1, 1, 2, 2, 3, self.draws.randrange(1, 7)])
        shortest = {1: b"", 2: b"."}.get(count)
        told = bytes([0x2F, count]) if shortest is None or self.draws.random() < 0.1 else shortest
        return front + told + b"".join(self.segment() for _ in range(count))

    def segment(self):
        return bytes([self.draws.choice(LETTERS), *self.draws.choices(CHARACTERS, k=3)])

    def value(self, level):
        match self.draws.choice(["integer", "integer", "integer", "ones", "text", "buffer", "package"]):
            case "integer":
                return self.integer(self.draws.choice([0, 1, 2, 0xFF, 0x100, 0xFFFF, 0x10000, (1 << 32) - 1, 1 << 32, self.draws.getrandbits(64)]))
            case "ones":
                return b"\xff"
            case "text":
                return b"\x0d" + bytes(self.draws.choices(range(1, 0x80), k=self.draws.randrange(8))) + b"\0"
            case "buffer":
                content = self.draws.randbytes(self.draws.choice([0, 1, 2, 5, 70]))
                return b"\x11" + self.enclosed(self.integer(len(content)) + content)
        values = [self.value(level + 1) for _ in range(self.draws.randrange(4) if level < 5 else 0)]
        return b"\x12" + self.enclosed(bytes([len(values)]) + b"".join(values))

    def integer(self, number):
        """An integer in any width that it fits, and mostly in the least."""
        fitting = [opcode for opcode, width in WIDTHS.items() if number < 1 << 8 * width]
        if number < 2 and self.draws.random() < 0.5:
            return bytes([number])
        opcode = fitting[0] if self.draws.random() < 0.6 else self.draws.choice(fitting)
        return bytes([opcode]) + number.to_bytes(WIDTHS[opcode], "little")

    def spoilt(self, content):
        """Bytes with one of them another, missing, or there twice, or without the last ones."""
        at = self.draws.randrange(len(content))
        match self.draws.randrange(5):
            case 0:
                return content[: -self.draws.randint(1, min(8, len(content)))]
            case 1:
                return content[:at] + content[at + 1 :]
            case 2:
                return content[: at + 1] + content[at:]
            case 3:
                return content[:at] + bytes([self.draws.choice(USUAL)]) + content[at + 1 :]
        return content[:at] + bytes([content[at] ^ 1 << self.draws.randrange(8)]) + content[at + 1 :]

    def terms(self):
        content = b"".join(self.term() for _ in range(self.draws.randint(1, 3)))
        return self.spoilt(content) if self.draws.random() < 0.3 else content

    def parts(self):
        """One to five parts of terms. In one of four cases the last bytes are missing, and in one of four one byte is another."""
        content = b"".join(self.draws.choices(PARTS, k=self.draws.randint(1, 5)))
        match self.draws.randrange(4):
            case 0:
                return content[: len(content) - self.draws.randrange(8)]
            case 1:
                at = self.draws.randrange(64)
                return content[:at] + bytes([self.draws.choice(USUAL)]) + content[at + 1 :] if at < len(content) else content
        return content

    def bytes(self):
        return self.draws.choice(BEGINNINGS) + bytes(self.draws.choices(USUAL, k=self.draws.randrange(16)))


def drawn_inputs(seeds, purpose, draw, count):
    drawing = Drawing(seeds.draws(purpose))
    for number in range(seeds.count(count)):
        yield f"{purpose} {number} of seed {seeds.seed}", draw(drawing)


def all_inputs(seeds):
    """The inputs of each kind, in order."""
    yield from [front_inputs(), changed_inputs(), length_inputs(), level_inputs(), path_inputs()]
    yield drawn_inputs(seeds, "terms", Drawing.terms, DRAWN_TERMS)
    yield drawn_inputs(seeds, "parts", Drawing.parts, DRAWN_PARTS)
    yield drawn_inputs(seeds, "bytes", Drawing.bytes, DRAWN_BYTES)


def main(program, *words):
    seeds = Seeds(words)
    comparison = Comparison(Program(program), outcome_of, READ, read_again)
    for inputs in all_inputs(seeds):
        joined = Joined(comparison)
        for what, content in inputs:
            joined.add(what, content, not is_read(content))
        joined.give("the last ones")
    for long in long_answers():
        comparison.judge(*long)
    return comparison.report("inputs of AML", comparison.lacking([READ, *LINES], seeds.count(LEAST)))


if __name__ == "__main__":
    if not 2 <= len(sys.argv) <= 4:
        sys.exit("usage: judge_terms.py PROGRAM [SEED [PERCENT]]")
    sys.exit(ended(main, sys.argv[1:]))
