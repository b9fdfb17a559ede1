"""Loads of a container over the events of a seed (docs/FORMATS.md, "A loader script", "Installing SMBIOS files", "Loads and seeds", "The dump")."""

import collections
import copy

from memory_dump import Memory, dump_text

from plain.containers import directory_of, name_in, read_container
from plain.ended import Refused
from plain.install import MOST_SCRIPT, installed
from plain.places import F_SEGMENT, HIGH_SIZE, Zones
from plain.seeds import Words

REFUSED, NO_ROOM = 5, 4
BAD_NAME, NO_FILE, ALREADY_PLACED, NOT_PLACED, EMPTY, BAD_ALIGN, BAD_ZONE, BAD_SIZE, READ_ONLY, OUT_OF_RANGE, TOO_FAR = range(1, 12)
ALLOCATE, ADD_POINTER, ADD_CHECKSUM, WRITE_POINTER = range(1, 5)

SCRIPT = b"etc/table-loader"
COMMAND_SIZE, ENTRY_SIZE = 128, 64
PIECE = 4096  # of the directory and the script, that is read at a time
DESCRIPTORS, BUFFER, BUFFER_SIZE = 0x7000, 0x8000, 0x1000
EVENTS, GREATEST_PIECE = 4096, (1 << 32) - 1
LEAST_WITH_RESETS, RESETS = 1 << 63, (16, 48)  # the least seed that has resets, and which of its events they are
SIZES = (1, 2, 4, 8)

Read = collections.namedtuple("Read", "source offset address length")
Write = collections.namedtuple("Write", "target offset address length")


class Done(Exception):
    """The load has ended as done."""


def number_in(content, offset, size):
    return int.from_bytes(content[offset : offset + size], "little")


def loaded(content, top_mib=64, fill=0, policy="low", seed=0, install=False):
    """How `load` of a container ends, whose SMBIOS files are installed or not: its status, the dump, and its line."""
    try:
        directory, files = read_container(content)
        if install:
            files = installed(files)
            directory = directory_of(files)
        load = Load(directory, files, Memory(top_mib << 20, fill), policy, Words(seed))
        load.run(seed)
    except Refused as refusal:
        return refusal.status, b"", refusal.said
    return 0, dump_text(load.memory), b""


class Load:
    """A load: the firmware, of which each step is one of a generator, the device's transfer in flight, and the memory of both."""

    def __init__(self, directory, files, memory, policy, words):
        self.directory = directory
        self.opening = files
        self.memory = memory
        self.policy = policy
        self.words = words
        self.begin()

    def begin(self):
        """Has the firmware at its first step, with the files as they were at first, none of them placed, and nothing in flight."""
        self.files = copy.deepcopy(self.opening)
        self.zones = Zones(self.memory.top, self.policy, self.words)
        self.flight = None
        self.moved = 0
        self.firmware = self.steps()

    def reset(self):
        """Resets the guest. Its memory stays, but for the F segment."""
        start, length = F_SEGMENT
        self.memory.put(start, self.memory.fill * (length // 16))
        self.begin()

    def run(self, seed):
        """Takes the events of a seed, and then steps and pieces in turn, until the load has ended."""
        try:
            if seed != 0:
                self.take_drawn(RESETS if seed >= LEAST_WITH_RESETS else ())
            while True:
                self.step()
                self.piece(GREATEST_PIECE)
        except Done:
            self.memory.put(DESCRIPTORS, self.memory.fill)
            self.memory.put(BUFFER, self.memory.fill * (BUFFER_SIZE // 16))

    def take_drawn(self, resets):
        """Takes the events that are drawn, and a reset in the place of some."""
        number = 0
        for event in range(EVENTS):
            if event in resets:
                self.reset()
            else:
                self.take(number)
            number += 3 if self.words[number] % 4 == 3 else 1

    def take(self, number):
        """Takes the event that is drawn from a word, and of a write from the two behind it."""
        word = self.words[number]
        if word % 4 == 0:
            self.step()
        elif word % 4 < 3:
            self.piece(1 + word // 4 % 4096)
        else:
            self.other_write(self.words[number + 1] % 0x100000, self.words[number + 2] % 256)

    def step(self):
        next(self.firmware)

    def piece(self, size):
        """Has the device move the next bytes of the transfer in flight."""
        flight = self.flight
        if flight is None:
            return
        size = min(size, flight.length - self.moved)
        at = flight.offset + self.moved
        if isinstance(flight, Read):
            self.memory.write(flight.address + self.moved, bytes(flight.source[at : at + size]))
        else:
            flight.target[at : at + size] = self.held(flight.address + self.moved, size)
        self.moved += size
        if self.moved == flight.length:
            self.flight = None

    def held(self, address, size):
        """So many bytes of memory, all of which are RAM."""
        return self.memory.read(address, size, "the bytes")

    def other_write(self, address, byte):
        """Has another processor write a byte, where that has an effect."""
        if not self.is_guarded(address) and self.memory.is_ram(address, address + 1):
            self.memory.write(address, bytes([byte]))

    def is_guarded(self, address):
        is_firmware = DESCRIPTORS <= address < DESCRIPTORS + 16 or BUFFER <= address < BUFFER + BUFFER_SIZE or 0xE0000 <= address <= 0xFFFFF
        return is_firmware or self.memory.top - HIGH_SIZE <= address < self.memory.top

    def transfer(self, flight):
        """Starts a transfer, and takes steps until it is over. The step that finds it over goes on."""
        self.flight, self.moved = flight, 0
        yield
        while self.flight is not None:
            yield

    def read(self, source, offset, address, length):
        yield from self.transfer(Read(source, offset, address, length))

    def steps(self):
        """The steps of the firmware, of which each `yield` ends one."""
        yield from self.read(self.directory, 0, BUFFER, 4)
        yield from self.read_directory()
        if SCRIPT not in self.files:
            raise Refused(REFUSED, "script: none")
        content = self.files[SCRIPT].content
        if len(content) % COMMAND_SIZE != 0 or len(content) > MOST_SCRIPT:
            raise Refused(REFUSED, "script: length")
        yield
        script = b""
        for at in range(0, len(content), PIECE):
            size = min(PIECE, len(content) - at)
            yield from self.read(content, at, BUFFER, size)
            script += self.held(BUFFER, size)
            yield
        for index in range(len(script) // COMMAND_SIZE):
            yield from Command(self, index, script[index * COMMAND_SIZE : (index + 1) * COMMAND_SIZE]).steps()
            yield
        raise Done

    def read_directory(self):
        """Reads the entries, of which the last step looks for the script."""
        if not self.files:
            raise Refused(REFUSED, "script: none")
        for at in range(4, len(self.directory), PIECE):
            yield
            yield from self.read(self.directory, at, BUFFER, min(PIECE, len(self.directory) - at))


class Command:
    """A command of a script by its index, and how it is carried out."""

    def __init__(self, load, index, content):
        self.load = load
        self.memory = load.memory
        self.index = index
        self.content = content

    def number(self, offset, size=4):
        return number_in(self.content, offset, size)

    def need(self, is_right, cause):
        if not is_right:
            raise Refused(REFUSED, f"command {self.index}: cause {cause}")

    def steps(self):
        """The rest of the command's first step, and its others."""
        kind = self.number(0)
        if kind == ALLOCATE:
            yield from self.allocate(*self.named(4))
        elif kind == ADD_POINTER:
            self.add_pointer(*self.named(4, 60))
        elif kind == ADD_CHECKSUM:
            self.add_checksum(*self.named(4))
        elif kind == WRITE_POINTER:
            yield from self.write_pointer(*self.named(4, 60))

    def named(self, *offsets):
        """The files that the names at offsets tell."""
        names = [name_in(self.content[offset : offset + 56]) for offset in offsets]
        self.need(None not in names, BAD_NAME)
        self.need(all(name in self.load.files for name in names), NO_FILE)
        return [self.load.files[name] for name in names]

    def allocate(self, file):
        align, zone = self.number(60), self.number(64, 1)
        self.need(file.place is None, ALREADY_PLACED)
        self.need(len(file.content) > 0, EMPTY)
        self.need(align > 0 and align & (align - 1) == 0, BAD_ALIGN)
        self.need(zone in self.load.zones.zones, BAD_ZONE)
        file.place = self.load.zones.place(zone, align, len(file.content))
        if file.place is None:
            raise Refused(NO_ROOM, f"no room at command {self.index}")
        yield from self.load.read(file.content, 0, file.place, len(file.content))

    def add_pointer(self, dest, source):
        offset, size = self.number(116), self.number(120, 1)
        self.need(dest.place is not None and source.place is not None, NOT_PLACED)
        self.need(size in SIZES, BAD_SIZE)
        self.need(offset + size <= len(dest.content), OUT_OF_RANGE)
        total = number_in(self.load.held(dest.place + offset, size), 0, size) + source.place
        self.need(total < 1 << 8 * size, TOO_FAR)
        self.memory.write(dest.place + offset, total.to_bytes(size, "little"))

    def add_checksum(self, file):
        offset, start, length = self.number(60), self.number(64), self.number(68)
        self.need(file.place is not None, NOT_PLACED)
        self.need(offset < len(file.content) and start + length <= len(file.content), OUT_OF_RANGE)
        total = sum(self.load.held(file.place + start, length))
        byte = self.load.held(file.place + offset, 1)[0]
        self.memory.write(file.place + offset, bytes([(byte - total) % 256]))

    def write_pointer(self, dest, source):
        dest_offset, source_offset, size = self.number(116), self.number(120), self.number(124, 1)
        self.need(source.place is not None, NOT_PLACED)
        self.need(size in SIZES, BAD_SIZE)
        self.need(dest.is_writable, READ_ONLY)
        self.need(dest_offset + size <= len(dest.content) and source_offset < len(source.content), OUT_OF_RANGE)
        number = source.place + source_offset
        self.need(number < 1 << 8 * size, TOO_FAR)
        yield  # the skip is started, and over
        yield  # it is found over
        self.memory.write(BUFFER, number.to_bytes(size, "little"))
        yield from self.load.transfer(Write(dest.content, dest_offset, BUFFER, size))
