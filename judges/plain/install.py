"""SMBIOS files that no script places, installed by commands that are added to it (docs/FORMATS.md, "Installing SMBIOS files"; DSP0134 3.0.0, 5.2.1 and
5.2.2), or refused for the first reason.
"""

from plain import images
from plain.containers import MOST_BYTES, MOST_FILES, SELECTORS, STATUS, File, name_in
from plain.ended import Refused
from plain.images import COMMAND_SIZE, F_SEGMENT, HIGH, add_checksum, add_pointer, allocate

NO_ANCHOR, NO_TABLES, EMPTY_TABLES, BAD_ANCHOR, SCRIPT_LENGTH, ALREADY_PLACED, SCRIPT_FULL, TOO_MANY, TOO_LARGE = range(1, 10)

ANCHOR, STRUCTURES, SCRIPT = (name.encode() for name in (images.ANCHOR, images.STRUCTURES, images.SCRIPT))
PLACES = 1  # the number of a command that places a file
MOST_SCRIPT = 1_048_576


def need(is_right, fault):
    if not is_right:
        raise Refused(STATUS, f"install: fault {fault}")


def installed(files):
    """The files of a device by their names, which are changed, with those of SMBIOS structures installed."""
    need(ANCHOR in files, NO_ANCHOR)
    need(STRUCTURES in files, NO_TABLES)
    need(len(files[STRUCTURES].content) > 0, EMPTY_TABLES)
    anchor = files[ANCHOR].content
    need(is_new(anchor) or is_old(anchor), BAD_ANCHOR)
    script = files[SCRIPT].content if SCRIPT in files else bytearray()
    need(len(script) % COMMAND_SIZE == 0 and len(script) <= MOST_SCRIPT, SCRIPT_LENGTH)
    need(not any(map(places_either, commands_in(script))), ALREADY_PLACED)
    added = b"".join(command.ljust(COMMAND_SIZE, b"\0") for command in commands_for(anchor))
    need(len(script) + len(added) <= MOST_SCRIPT, SCRIPT_FULL)
    need(SCRIPT in files or len(files) < MOST_FILES, TOO_MANY)
    need(sum(len(file.content) for file in files.values()) + len(added) <= MOST_BYTES, TOO_LARGE)
    blank_address(anchor)
    if SCRIPT not in files:
        files[SCRIPT] = File(free_selector(files), False, script)
    script += added
    return files


def is_new(anchor):
    """Whether the bytes are an anchor of 24 bytes (DSP0134 5.2.2)."""
    return len(anchor) == 24 and anchor[:5] == b"_SM3_" and anchor[6] == 24


def is_old(anchor):
    """Whether they are one of 31 (5.2.1)."""
    return len(anchor) == 31 and anchor[:4] == b"_SM_" and anchor[5] == 31 and anchor[16:21] == b"_DMI_"


def commands_in(script):
    return (script[at : at + COMMAND_SIZE] for at in range(0, len(script), COMMAND_SIZE))


def places_either(command):
    return int.from_bytes(command[:4], "little") == PLACES and name_in(bytes(command[4:60])) in (ANCHOR, STRUCTURES)


def commands_for(anchor):
    """The commands that are added, without the zeros behind them."""
    yield allocate(images.STRUCTURES, 16, HIGH)
    yield allocate(images.ANCHOR, 16, F_SEGMENT)
    if is_new(anchor):
        yield add_pointer(images.ANCHOR, images.STRUCTURES, 16, 8)
        yield add_checksum(images.ANCHOR, 5, 0, 24)
    else:
        yield add_pointer(images.ANCHOR, images.STRUCTURES, 24, 4)
        yield add_checksum(images.ANCHOR, 21, 16, 15)
        yield add_checksum(images.ANCHOR, 4, 0, 31)


def blank_address(anchor):
    start, size = (16, 8) if is_new(anchor) else (24, 4)
    anchor[start : start + size] = bytes(size)


def free_selector(files):
    """One above the greatest selector, or where that is none the least that no file has."""
    taken = {file.selector for file in files.values()}
    above = max(taken) + 1
    return above if above in SELECTORS else next(selector for selector in SELECTORS if selector not in taken)
