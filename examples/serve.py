#!/usr/bin/env python3
"""Serves the files of a container as a monitor does: by a fw_cfg device of the ports 0x510 and 0x511 (QEMU, docs/specs/fw_cfg), without DMA.

usage: serve.py CONTAINER NAME > FILE

It plays the guest too: it finds the file NAME by the directory, reads it byte by byte, and writes it.

Status 0: done; 2: the container isn't there, or has no such file.
"""

import sys


class FwCfg:
    def __init__(self, container):
        count = int.from_bytes(container[:4], "big")
        at = 4 + 64 * count  # the end of the directory, which is an item of its own
        self.items = {0x0000: b"QEMU", 0x0001: b"\1\0\0\0", 0x0019: container[:at]}
        at += count  # behind the marks of the files that a guest may write
        for entry in range(4, 4 + 64 * count, 64):
            size = int.from_bytes(container[entry : entry + 4], "big")
            selector = int.from_bytes(container[entry + 4 : entry + 6], "big")
            self.items[selector] = container[at : at + size]
            at += size
        self.select(0x0000)

    def select(self, selector):  # the guest writes two bytes to port 0x510
        self.item, self.at = self.items.get(selector, b""), 0

    def read(self):  # the guest reads a byte from port 0x511
        self.at += 1
        return self.item[self.at - 1] if self.at <= len(self.item) else 0


def read_bytes(device, size):
    return bytes(device.read() for _ in range(size))


def read_file(device, name):
    """The bytes of a file as a guest finds it, or None."""
    device.select(0x0019)
    count = int.from_bytes(read_bytes(device, 4), "big")
    for entry in [read_bytes(device, 64) for _ in range(count)]:
        if entry[8:].rstrip(b"\0") == name.encode():
            device.select(int.from_bytes(entry[4:6], "big"))
            return read_bytes(device, int.from_bytes(entry[:4], "big"))
    return None


def main(path, name):
    try:
        with open(path, "rb") as container:
            content = read_file(FwCfg(container.read()), name)
    except OSError as refusal:
        print(f"serve.py: {path}: {refusal.strerror}", file=sys.stderr)
        return 2
    if content is None:
        print(f"serve.py: {path}: it has no file {name}", file=sys.stderr)
        return 2
    sys.stdout.buffer.write(content)
    return 0


if __name__ == "__main__":
    if len(sys.argv) != 3:
        sys.exit("usage: serve.py CONTAINER NAME > FILE")
    sys.exit(main(*sys.argv[1:]))
