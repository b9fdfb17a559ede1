#!/usr/bin/env python3
"""Judges tools/container.py: containers that a seed draws, with names that are no paths and names that are in each other's way, must come back from a
folder byte for byte; the files of a device as Linux has them in a folder must make the container of the device; and what is no container, or no
such folder, must be refused by one line.

usage: judge_container.py

Status 0: nothing is wrong; 1: something is.
"""

import pathlib
import random
import struct
import subprocess
import sys
import tempfile

TOOL = pathlib.Path(__file__).resolve().parent.parent / "tools/container.py"
NAMES = ["a", "a/b", "a/b/c", "A", "index.toml", "INDEX.toml", "index.toml/x", "../x", "/x", "x//y", "x/", ".", "..", "./y", 'q"u\\', " ", "#[]=", "x" * 55]
NAMES += ["etc/acpi/tables", "etc/table-loader", "selector-0021", "selector-0020/x"]
ROUNDS = 40

WRITE_POINTER = struct.pack("<I56s56sIIB", 4, b"etc/vmgenid_addr", b"etc/vmgenid_guid", 0, 40, 8).ljust(128, b"\0")

# Files of a device in the order of their selectors, as of 0x20: name, whether the guest may write it, content.
DEVICE = [("bootorder", 0, b""), ("etc/table-loader", 0, WRITE_POINTER), ("etc/vmgenid_addr", 1, bytes(8)), ("etc/vmgenid_guid", 0, bytes(4096))]

INDEXES = ["[[file]", "x = 1", "file = 3", "[[file]]", "[[file]]\nname = 3", "[[file]]\nname = 'none'", "[[file]]\nname = 'a'\nselector = 1"]
INDEXES += ["[[file]]\nname = 'a'\n[[file]]\nname = 'a'", "[[file]]\nname = 'a'\nselector = 33\n[[file]]\nname = 'b'\npath = 'a'", "[[file]]\nname = ''"]
INDEXES += ["[[file]]\nname = 'a'\npath = \"a\\u0000\"", "[[file]]\nname = 'a'\nsize = 1", "[[file]]\nname = 'a'\nwritable = 1", "\xff"]


class Wrong(Exception):
    pass


def container_of(files):
    """The container of files: name, selector, whether it may be written, content."""
    entries = b"".join(struct.pack(">IHH56s", len(content), selector, 0, name.encode()) for name, selector, _, content in files)
    flags = bytes(writable for _, _, writable, _ in files)
    return struct.pack(">I", len(files)) + entries + flags + b"".join(content for *_, content in files)


def run(*words):
    """Runs the tool; returns its status and what it says on standard error."""
    ended = subprocess.run([sys.executable, str(TOOL), *map(str, words)], capture_output=True, text=True)
    return ended.returncode, ended.stderr


def succeed(*words):
    status, said = run(*words)
    if (status, said) != (0, ""):
        raise Wrong(f"{' '.join(map(str, words))}: status {status}, {said}")


def is_refused(*words):
    status, said = run(*words)
    if status != 2 or said.count("\n") != 1 or not said.startswith("container.py: ") or len(said) > 400:
        raise Wrong(f"{' '.join(map(str, words))}: status {status} in place of 2, and in place of one line {said}")


def drawn_files(generator):
    names = generator.sample(NAMES, generator.randint(0, len(NAMES)))
    selectors = generator.sample(range(0x20, 0x20 + len(names)) if generator.random() < 0.5 else range(0x20, 0x4000), len(names))
    return [(name, at, generator.random() < 0.5, generator.randbytes(generator.choice([0, 1, 300]))) for name, at in zip(names, selectors)]


def judge_round_trips(folder):
    generator = random.Random(1)
    for count in range(ROUNDS):
        files = drawn_files(generator)
        place = folder / f"trip-{count}"
        place.mkdir()
        (place / "container").write_bytes(container_of(files))
        succeed("unpack", place / "container", place / "in" / "files")
        succeed("pack", place / "in" / "files", place / "again")
        if (place / "again").read_bytes() != (place / "container").read_bytes():
            raise Wrong(f"the container of {[name for name, *_ in files]} comes back as another")
        if sorted(entry.name for entry in place.iterdir()) != ["again", "container", "in"] or len(list((place / "in").iterdir())) != 1:
            raise Wrong(f"a file of {[name for name, *_ in files]} is written outside of the folder")


def judge_folder_of_linux(folder):
    for at, (name, _, content) in enumerate(DEVICE, start=0x20):
        place = folder / "guest/by_key" / str(at)
        place.mkdir(parents=True)
        for key, text in ("key", f"{at}\n"), ("name", f"{name}\n"), ("size", f"{len(content)}\n"):
            (place / key).write_text(text)
        (place / "raw").write_bytes(content)
    succeed("pack", folder / "guest", folder / "guest.container")
    wanted = container_of([(name, at, writable, content) for at, (name, writable, content) in enumerate(DEVICE, start=0x20)])
    if (folder / "guest.container").read_bytes() != wanted:
        raise Wrong("the files that Linux tells make another container than those of the device")
    (folder / "guest/by_key/33/raw").write_bytes(b"")
    is_refused("pack", folder / "guest", folder / "none")


def judge_refusals(folder):
    good = container_of([("a", 0x20, 0, b"xyz"), ("b", 0x21, 1, b"")])
    wrong = [good[:size] for size in (0, 3, 50, 133, len(good) - 1)] + [good + b"x"]
    wrong += [good[:at] + byte + good[at + 1 :] for at, byte in [(132, b"\2"), (9, b"\1"), (8, b"\xff"), (11, b"\1"), (12, b"\0"), (14, b"x"), (13, b"\x7f")]]
    wrong += [container_of([("a", 0x20, 0, b""), second]) for second in [("a", 0x21, 0, b""), ("b", 0x20, 0, b"")]]
    for content in wrong:
        (folder / "wrong").write_bytes(content)
        is_refused("unpack", folder / "wrong", folder / "none")
        is_refused("list", folder / "wrong")
    (folder / "good").write_bytes(good)
    is_refused("unpack", folder / "missing", folder / "none")
    is_refused("unpack", folder / "good", folder)
    is_refused("pack", folder / "missing", folder / "none")
    place = folder / "indexed"
    place.mkdir()
    (place / "a").write_bytes(b"a")
    for index in INDEXES:
        (place / "index.toml").write_bytes(index.encode("latin-1"))
        is_refused("pack", place, folder / "none")
    if (folder / "none").exists():
        raise Wrong("something is written where nothing should be")


def main():
    with tempfile.TemporaryDirectory() as name:
        try:
            for judge in judge_round_trips, judge_folder_of_linux, judge_refusals:
                judge(pathlib.Path(name))
        except Wrong as refusal:
            print(refusal)
            return 1
    print(f"{ROUNDS} containers come back from a folder, the files that Linux tells make a container, and what is none is refused by a line")
    return 0


if __name__ == "__main__":
    if len(sys.argv) != 1:
        sys.exit("usage: judge_container.py")
    sys.exit(main())
