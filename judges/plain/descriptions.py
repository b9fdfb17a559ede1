"""Descriptions, read into a machine, or refused for their first fault (docs/FORMATS.md, "The first fault of a description"). The document itself is
read by Python's tomllib. A machine has the tables of KEYS, each with all of its keys; a UUID is its 16 bytes, and what is absent None.
"""

import re
import tomllib

from plain import keys
from plain.ended import Refused
from plain.keys import KEYS, REQUIRED
from plain.rules import broken_rule

STATUS = 3
DIGITS = "[0-9a-fA-F]"
HYPHENED = f"{DIGITS}{{8}}-(?:{DIGITS}{{4}}-){{3}}{DIGITS}{{12}}"
UUIDS = [re.compile(form) for form in (f"({DIGITS}{{32}})", f"({HYPHENED})", rf"\{{({HYPHENED})\}}", f"[uU][rR][nN]:[uU][uU][iI][dD]:({HYPHENED})")]
SHOWN_BYTES = 64  # of an unknown key
INTEGERS_END = 1 << 63


def refused(fault):
    return Refused(STATUS, f"description: {fault}")


def read_machine(content):
    """The machine that a text describes, which keeps every rule."""
    machine = Table("root", 0).read(read_document(content))
    broken = broken_rule(machine)
    if broken is not None:
        raise refused("rule {} index {}".format(*broken))
    return machine


def read_document(content):
    """The document that a text is. Python's integers have any size, and TOML's have 64 bits with their sign."""
    try:
        document = tomllib.loads(content.decode("utf-8-sig"))
    except (UnicodeDecodeError, tomllib.TOMLDecodeError, RecursionError) as refusal:
        raise refused("not TOML") from refusal
    if not all(-INTEGERS_END <= number < INTEGERS_END for number in integers_in(document)):
        raise refused("not TOML")
    return document


def integers_in(value):
    if isinstance(value, dict):
        value = list(value.values())
    if isinstance(value, list):
        for element in value:
            yield from integers_in(element)
    elif isinstance(value, int):
        yield value


class Table:
    """A table of a description, by its name and its position."""

    def __init__(self, name, position):
        self.name = name
        self.position = position

    def refused(self, fault, key):
        return refused(f"{fault} {self.name} {self.position} {key}")

    def read(self, table):
        unknown = sorted(table.keys() - {key.name for key in KEYS[self.name]}, key=str.encode)
        if unknown:
            raise self.refused("unknown key", shown_key(unknown[0]))
        return {key.name: self.value(key, table) for key in KEYS[self.name]}

    def value(self, key, table):
        if key.name in table:
            return self.read_value(key, table[key.name])
        if key.default is REQUIRED:
            raise self.refused("missing key", key.name)
        return list(key.default) if key.default == () else key.default

    def read_value(self, key, value):
        match key.kind:
            case int():
                return self.integer(key, value, key.kind)
            case keys.TEXT:
                return self.text(key, value)
            case keys.UUID:
                return self.uuid(key, self.text(key, value))
            case keys.WINDOWS:
                return self.word(key, self.text(key, value))
            case keys.BOOLEAN:
                return self.of_kind(key, value, isinstance(value, bool))
            case keys.TEXTS:
                return [self.text(key, element) for element in self.array(key, value)]
            case keys.BYTES:
                return [self.integer(key, element, 8) for element in self.array(key, value)]
            case keys.TABLE:
                return Table(key.name, 0).read(self.of_kind(key, value, isinstance(value, dict)))
        return [self.element(key, at, element) for at, element in enumerate(self.array(key, value))]

    def of_kind(self, key, value, is_right):
        if not is_right:
            raise self.refused("wrong kind", key.name)
        return value

    def in_range(self, key, value, is_right):
        if not is_right:
            raise self.refused("out of range", key.name)
        return value

    def integer(self, key, value, bits):
        self.of_kind(key, value, isinstance(value, int) and not isinstance(value, bool))
        is_version = (self.name, key.name) == ("root", "version")
        return self.in_range(key, value, value == 1 if is_version else 0 <= value < 1 << bits)

    def text(self, key, value):
        return self.of_kind(key, value, isinstance(value, str))

    def array(self, key, value):
        return self.of_kind(key, value, isinstance(value, list))

    def element(self, key, at, element):
        return Table(key.name, at).read(self.of_kind(key, element, isinstance(element, dict)))

    def word(self, key, value):
        return self.in_range(key, value, value in keys.WINDOWS)

    def uuid(self, key, value):
        found = next((match[1] for form in UUIDS if (match := form.fullmatch(value))), None)
        self.in_range(key, value, found is not None)
        return bytes.fromhex(found.replace("-", ""))


def shown_key(key):
    return "".join(chr(byte) if 0x21 <= byte <= 0x7E else "?" for byte in key.encode()[:SHOWN_BYTES])
