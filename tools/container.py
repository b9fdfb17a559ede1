#!/usr/bin/env python3
"""Turns a container (docs/FORMATS.md, "The container") into files in a folder, and such a folder into a container. Both ways are exact: what is
unpacked and packed again is the same container, byte for byte.

usage: container.py unpack CONTAINER FOLDER
       container.py pack FOLDER CONTAINER
       container.py list CONTAINER

A CONTAINER that is `-` is standard input, or of `pack` standard output.

`unpack` writes the files into FOLDER, which it makes, or which is there and empty: each under its own name, as etc/acpi/tables, and beside them
index.toml, which has what else a container tells. `pack` reads index.toml, and the files that it names. It has a table for each file, in the order of
the directory:

  [[file]]
  name = "etc/acpi/tables"  # 1 to 55 characters, each 0x20 to 0x7E
  selector = 0x0021         # 0x20 to 0x3FFF; without it the first file has 0x20, the second 0x21, and so on
  writable = false          # whether the guest may write the file; without it it may not
  path = "etc/acpi/tables"  # where the file is in FOLDER; without it its name says so

`unpack` writes a path only where a name can't be one: it isn't relative, has `.` or `..` in it, or is index.toml's or another file's.

`pack` also takes a folder without index.toml that is a copy of /sys/firmware/qemu_fw_cfg, or is this folder itself: where Linux has the files of its
fw_cfg device, in by_key/KEY/ (or by_name/NAME/, where that alone is there) with its key, name, size and raw bytes. The files are put in the order of
their keys, as QEMU has them. Linux doesn't tell which of them a guest may write: a file that the script writes into has the mark, and no other.

`list` prints a line for each file, with its selector, its mark, its size and its name, and then the commands of the script, by their index.

Status 0: done; 2: an input is refused; the line on standard error says which, where in it, and why.
"""

import json
import os
import pathlib
import sys
import tomllib
from typing import NamedTuple

from endings import Refused, refused
from fw_cfg_files import (
    ADD_CHECKSUM,
    ADD_POINTER,
    ALLOCATE,
    COMMAND_SIZE,
    COUNT,
    DIRECTORY_ENTRY,
    SCRIPT,
    WRITE_POINTER,
    NotAContainer,
    read_container,
    read_directory,
)

INDEX = "index.toml"
KINDS = {"name": str, "selector": int, "writable": bool, "path": str}  # the keys of a file in the index
KIND_NAMES = {str: "a string", int: "an integer", bool: "true or false"}

LONGEST_NAME = 55
LEAST_SELECTOR, MOST_SELECTOR = 0x20, 0x3FFF
MOST_FILES = 1024
MOST_BYTES = 64 << 20


class File(NamedTuple):
    name: str
    selector: int
    writable: bool
    content: bytes


# Containers as files.


def read_input(path):
    return sys.stdin.buffer.read() if path == "-" else pathlib.Path(path).read_bytes()


def write_output(path, content):
    if path == "-":
        sys.stdout.buffer.write(content)
        sys.stdout.buffer.flush()
    else:
        pathlib.Path(path).write_bytes(content)


def files_of(path):
    """The files of a container, in their order."""
    content = read_input(path)
    try:
        contents = read_container(content)
        entries, at = read_directory(content)
    except NotAContainer as refusal:
        raise Refused(f"{path}: {refusal}") from refusal
    return [File(e.name, e.selector, bool(content[at + i]), contents[e.name]) for i, e in enumerate(entries)]


def container_of(files, place):
    """The container of files that stand at a place."""
    total = sum(len(file.content) for file in files)
    if len(files) > MOST_FILES:
        raise Refused(f"{place}: {len(files)} files, and a container has at most {MOST_FILES}")
    if total > MOST_BYTES:
        raise Refused(f"{place}: the files have {total} bytes in all, and a container's at most {MOST_BYTES}")
    names, selectors = set(), set()
    for number, file in enumerate(files, start=1):
        why = reason_against(file, names, selectors)
        if why is not None:
            raise Refused(f"{place}: file {number}, {file.name!r}: {why}")
        names.add(file.name)
        selectors.add(file.selector)
    directory = [DIRECTORY_ENTRY.pack(len(file.content), file.selector, 0, file.name.encode()) for file in files]
    flags = bytes(file.writable for file in files)
    return b"".join([COUNT.pack(len(files)), *directory, flags, *(file.content for file in files)])


def reason_against(file, names, selectors):
    """Why no container has a file behind others, or None."""
    if not 1 <= len(file.name) <= LONGEST_NAME or not all(" " <= letter <= "~" for letter in file.name):
        return f"a name is 1 to {LONGEST_NAME} characters, each 0x20 to 0x7E"
    if not LEAST_SELECTOR <= file.selector <= MOST_SELECTOR:
        return f"its selector {file.selector:#x} isn't 0x{LEAST_SELECTOR:X} to 0x{MOST_SELECTOR:X}"
    if file.name in names:
        return "a file before it has this name"
    if file.selector in selectors:
        return f"a file before it has its selector {file.selector:#x}"
    return None


# Files as a folder.


def unpack(container, folder):
    files = files_of(container)
    folder = pathlib.Path(folder)
    folder.mkdir(parents=True, exist_ok=True)
    if any(folder.iterdir()):
        raise Refused(f"{folder}: the folder isn't empty")
    paths = paths_of(files)
    for file, path in zip(files, paths):
        place = folder / path
        place.parent.mkdir(parents=True, exist_ok=True)
        place.write_bytes(file.content)
    tables = "".join(table_of(file, path) for file, path in zip(files, paths))
    (folder / INDEX).write_text(f"# The files of a fw_cfg device, in the order of its directory.\n{tables}")


def paths_of(files):
    """Where in a folder each file is put: no two at one place, nor one where another needs a folder, in upper or lower case either."""
    taken = {INDEX}
    paths = {}
    for file in files:
        if is_path(file.name) and is_free(file.name.lower(), taken):
            paths[file.selector] = file.name
            taken.add(file.name.lower())
    for file in files:
        if file.selector not in paths:
            paths[file.selector] = free_path(f"selector-{file.selector:04x}", taken)
            taken.add(paths[file.selector])
    return [paths[file.selector] for file in files]


def is_path(name):
    return all(part not in ("", ".", "..") for part in name.split("/"))


def is_free(path, taken):
    return not any(path == other or path.startswith(f"{other}/") or other.startswith(f"{path}/") for other in taken)


def free_path(path, taken):
    while not is_free(path, taken):
        path += "-"
    return path


def table_of(file, path):
    """A file's table in the index. What JSON spells a text of these characters as, TOML does too."""
    lines = ["", "[[file]]", f"name = {json.dumps(file.name)}", f"selector = 0x{file.selector:04x}"]
    lines.append(f"writable = {'true' if file.writable else 'false'}")
    if path != file.name:
        lines.append(f"path = {json.dumps(path)}")
    return "\n".join([*lines, ""])


def pack(folder, container):
    folder = pathlib.Path(folder)
    if (folder / INDEX).exists() or not any((folder / name).is_dir() for name in ("by_key", "by_name")):
        files = indexed_files(folder)
    else:
        files = linux_files(folder)
    write_output(container, container_of(files, folder))


def indexed_files(folder):
    index = folder / INDEX
    try:
        document = tomllib.loads(index.read_bytes().decode())
    except ValueError as refusal:
        raise Refused(f"{index}: {refusal}") from refusal
    tables = document.pop("file", [])
    if document:
        raise Refused(f"{index}: it has the key {next(iter(document))!r}, and should have tables [[file]] alone")
    if not isinstance(tables, list) or not all(isinstance(table, dict) for table in tables):
        raise Refused(f"{index}: file isn't an array of tables, [[file]]")
    return [indexed_file(folder, f"{index}: file {at + 1}", at, table) for at, table in enumerate(tables)]


def indexed_file(folder, place, at, table):
    for key, value in table.items():
        if key not in KINDS:
            raise Refused(f"{place}: it has the key {key!r}, and knows {', '.join(KINDS)}")
        if type(value) is not KINDS[key]:
            raise Refused(f"{place}: {key} isn't {KIND_NAMES[KINDS[key]]}")
    if "name" not in table:
        raise Refused(f"{place}: it has no name")
    name = table["name"]
    path = folder / table.get("path", name)
    if "\0" in str(path):
        raise Refused(f"{place}: its path {str(path)!r} has a NUL in it")
    return File(name, table.get("selector", LEAST_SELECTOR + at), table.get("writable", False), path.read_bytes())


# The folder that Linux has (Documentation/ABI/testing/sysfs-firmware-qemu_fw_cfg).


def linux_files(folder):
    by_key = folder / "by_key"
    root = by_key if by_key.is_dir() else folder / "by_name"
    found = sorted(linux_file(place.parent) for place in walk_keys(root))
    if not found:
        raise Refused(f"{root}: no folder in it has a file with the name key")
    written = written_names({name: content for _, name, content in found})
    return [File(name, key, name in written, content) for key, name, content in found]


def walk_keys(root):
    """The file `key` of each folder. Those of by_name are links where Linux has them."""
    for folder, folders, names in os.walk(root, followlinks=True):
        if "key" in names and "raw" in names:
            folders.clear()
            yield pathlib.Path(folder, "key")


def linux_file(place):
    key, size = read_number(place / "key"), read_number(place / "size")
    name = (place / "name").read_bytes().removesuffix(b"\n").decode("latin-1")
    content = (place / "raw").read_bytes()
    if len(content) != size:
        raise Refused(f"{place / 'raw'}: it has {len(content)} bytes, and its size is {size}")
    return key, name, content


def read_number(place):
    text = place.read_bytes().strip()
    if not text.isdigit():
        raise Refused(f"{place}: it is no number")
    return int(text)


def written_names(contents):
    """The names of the files that the script among these writes into."""
    commands, _ = script_commands(contents.get(SCRIPT, b""))
    return {name_in(WRITE_POINTER.unpack_from(command)[0]) for command in commands if number_of(command) == 4}


# The script.


def script_commands(content):
    """The whole commands of a script, and how many bytes stand behind them."""
    left = len(content) % COMMAND_SIZE
    return [content[at : at + COMMAND_SIZE] for at in range(0, len(content) - left, COMMAND_SIZE)], left


def number_of(command):
    return int.from_bytes(command[:4], "little")


def name_in(field):
    """The text in a field of a name; a question mark stands for each byte that is none of a name's."""
    name, nul, _ = field.partition(b"\0")
    return "".join(chr(byte) if 0x20 <= byte <= 0x7E else "?" for byte in name) if nul and name else "(no name)"


def words_of(command):
    match number_of(command):
        case 1:
            file, align, zone = ALLOCATE.unpack_from(command)
            return f"ALLOCATE {name_in(file)}, align {align}, zone {zone}"
        case 2:
            dest, src, offset, size = ADD_POINTER.unpack_from(command)
            return f"ADD_POINTER in {name_in(dest)} at {offset}, size {size}, to {name_in(src)}"
        case 3:
            file, offset, start, length = ADD_CHECKSUM.unpack_from(command)
            return f"ADD_CHECKSUM in {name_in(file)} at {offset}, of {length} bytes from {start} on"
        case 4:
            dest, src, offset, src_offset, size = WRITE_POINTER.unpack_from(command)
            return f"WRITE_POINTER in {name_in(dest)} at {offset}, size {size}, to {name_in(src)} at {src_offset}"
        case number:
            return f"number {number}, which is skipped"


def print_list(container):
    files = files_of(container)
    for file in files:
        print(f"{file.selector:#06x} {'writable' if file.writable else 'read-only'} {len(file.content)} {file.name}")
    commands, left = script_commands(next((file.content for file in files if file.name == SCRIPT), b""))
    for index, command in enumerate(commands):
        print(f"command {index}: {words_of(command)}")
    if left != 0:
        print(f"{left} bytes more, which are no command")


def main(words):
    match words:
        case ["unpack", container, folder]:
            act = unpack, container, folder
        case ["pack", folder, container]:
            act = pack, folder, container
        case ["list", container]:
            act = print_list, container
        case ["--help"]:
            act = print, __doc__
        case _:
            print("usage: container.py unpack CONTAINER FOLDER, pack FOLDER CONTAINER, or list CONTAINER", file=sys.stderr)
            return 2
    call, *rest = act
    try:
        call(*rest)
        sys.stdout.flush()
    except BrokenPipeError:
        os.dup2(os.open(os.devnull, os.O_WRONLY), sys.stdout.fileno())
        return 2
    except OSError as refusal:
        output = "standard output" if words[0] == "list" or words[-1] == "-" else words[-1]
        return refused(Refused(f"{refusal.filename or output}: {refusal.strerror}"))
    except Refused as refusal:
        return refused(refusal)
    return 0


if __name__ == "__main__":
    sys.exit(main(sys.argv[1:]))
