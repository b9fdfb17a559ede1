#!/usr/bin/env python3
"""Writes the descriptions that `boot` and `build` are measured on beside the examples. It serves bench/run.sh and is no part of the
product.

usage: descriptions.py FOLDER

`greatest.toml` has as much of everything as a description may have: each list is full, and each processor and each NMI has the longer of its
two entries. Its texts have 64 bytes, but those of sockets, modules and slots 24, and it has no id of its generation, since an image has no
room for more. `half.toml` has half as much of each list; bench/run.sh doesn't run it, it is there to count instructions by hand.
judges/run.sh has the tables of `greatest.toml` judged, too.

`bridge.toml` has no lists but the windows and the routes of a bridge, both full, and `processors.toml` as many processors beside as there
may be; neither has a text.
"""

import pathlib
import sys

sys.path.append(str(pathlib.Path(__file__).resolve().parent.parent / "tools"))  # whose modules the benchmark shares

from endings import ended, folder_of

MOST = {
    "oem_strings": 32,
    "socket": 256,
    "dimm": 256,
    "range": 64,
    "slot": 64,
    "cpu": 4096,
    "ioapic": 16,
    "override": 16,
    "nmi": 16,
    "node": 64,
    "window": 32,
    "route": 128,
    "uart": 4,
}
LONGEST, SHORTER = 64, 24  # bytes of a text, and of one of sockets, modules and slots

POWER = ["[acpi]", "[power]", "event = 0x600", "control = 0x604", "timer = 0x608"]


def text(name, at, size=LONGEST):
    return f'"{f"{name} {at} ".ljust(size, "x")}"'


def tables(name, count, texts, numbers):
    """So many tables of a name, with texts, and with lines of numbers that are made of each one's position."""
    lines = []
    for at in range(count):
        lines.append(f"[[{name}]]")
        lines += [f"{key} = {text(key, at, SHORTER)}" for key in texts]
        lines += numbers(at)
    return lines


def ranges(count, nodes):
    """The first is all memory below the top, and the others follow from 4 GiB on, on the nodes in turn."""
    places = [(0, 3072)] + [(4096 + 1024 * at, 1024) for at in range(count - 1)]
    return tables("range", count, [], lambda at: [f"base_mib = {places[at][0]}", f"size_mib = {places[at][1]}", f"node = {at % nodes}"])


def interrupts(most):
    """Processors whose ids only x2APICs have, on the nodes in turn, I/O APICs, overrides, and NMIs of the last processors."""
    lines = tables("cpu", most["cpu"], [], lambda at: [f"apic = {0x1000 + at}", f"node = {at % most['node']}"])
    lines += tables("ioapic", most["ioapic"], [], lambda at: [f"id = {at}", f"address = {0xFEC00000 + 0x1000 * at}", f"gsi = {24 * at}"])
    lines += tables("override", most["override"], [], lambda at: [f"irq = {at}", f"gsi = {at + 16}", "flags = 13"])
    return lines + tables("nmi", most["nmi"], [], lambda at: [f"cpu = {most['cpu'] - 1 - at}", "flags = 5"])


def bridge(windows, routes):
    """A bridge whose windows are memory in 64 bits, and whose routes go to GSIs 16 to 19 as those of a PC's chipset do."""
    lines = ["[bridge]", "ecam = 0xE0000000"]
    lines += tables("bridge.window", windows, [], lambda at: ['kind = "mem64"', f"base = {(at + 256) << 32}", f"size = {1 << 32}", "prefetch = true"])
    pins = [(at // 4, at % 4) for at in range(routes)]
    return lines + tables("bridge.route", routes, [], lambda at: route_lines(*pins[at]))


def route_lines(device, pin):
    return [f"device = {device}", f"pin = {pin}", f"gsi = {16 + (device + pin) % 4}"]


def uarts(count):
    return tables("uart", count, [], lambda at: [f"port = {0x3E8 + 8 * at}", f"irq = {at + 3}"])


def nodes(count):
    distances = ", ".join(str(10 + abs(row - to)) for row in range(count) for to in range(count))
    return ["[numa]", f"nodes = {count}", f"distance = [{distances}]"]


def description(share):
    """A description with a share of all that one may have."""
    most = {name: count // share for name, count in MOST.items()}
    texts = ", ".join(text("text", at) for at in range(most["oem_strings"]))
    processor = ["designation", "manufacturer", "version", "serial", "asset", "part"]
    module = ["locator", "bank", "manufacturer", "serial", "asset", "part"]
    lines = ["version = 1", "top_mib = 3072", f"oem_strings = [{texts}]"]
    lines += ["[system]"] + [f"{key} = {text(key, 0)}" for key in ("manufacturer", "product", "version", "serial", "sku", "family")]
    lines += ["[firmware]"] + [f"{key} = {text(key, 0)}" for key in ("vendor", "version", "date")]
    lines += ["[chassis]"] + [f"{key} = {text(key, 0)}" for key in ("manufacturer", "version", "serial", "asset", "sku")]
    lines += tables("socket", most["socket"], processor, lambda at: ["cores = 256", "threads = 512", "mhz = 3000"])
    lines += tables("dimm", most["dimm"], module, lambda at: ["size_mib = 32768", "speed = 4800"])
    lines += ranges(most["range"], most["node"])
    lines += tables("slot", most["slot"], ["designation"], lambda at: [f"id = {at}", f"device = {at % 32}"])
    lines += [*POWER, "[hpet]", "[apic]"]
    lines += interrupts(most) + nodes(most["node"]) + bridge(most["window"], most["route"]) + uarts(most["uart"])
    return "".join(line + "\n" for line in lines)


def devices(processors):
    """A description of a bridge, of what power management has by default, and of so many processors."""
    lines = ["version = 1", "top_mib = 64", "[system]", *POWER, *bridge(MOST["window"], MOST["route"])]
    if processors > 0:
        lines += ["[apic]", *tables("cpu", processors, [], lambda at: [f"apic = {at}"])]
    return "".join(line + "\n" for line in lines)


def main(folder):
    folder = folder_of(folder)
    (folder / "greatest.toml").write_text(description(1))
    (folder / "half.toml").write_text(description(2))
    (folder / "bridge.toml").write_text(devices(0))
    (folder / "processors.toml").write_text(devices(MOST["cpu"]))


if __name__ == "__main__":
    if len(sys.argv) != 2:
        sys.exit("usage: descriptions.py FOLDER")
    sys.exit(ended(main, sys.argv[1:]))
