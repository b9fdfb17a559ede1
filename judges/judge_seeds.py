#!/usr/bin/env python3
"""Judges `vmtables boot` over the events of the seeds on both sides of the least one that resets the guest, and of the greatest. It is no part of the
product: it serves the checks of judges/run.sh alone.

usage: judge_seeds.py PROGRAM

PROGRAM stands for ./vmtables. With each policy and three fill bytes it must write the dump that the plain loader makes (judges/plain/loads.py), and that
dump must have the hash that an independent program worked out, of docs/FORMATS.md. Last, a hash must be found wrong where a dump has another digit.

Status 0: all of this holds; 1: something doesn't, each with a line; 2: PROGRAM can't be run.
"""

import hashlib
import sys

from calls import Comparison, Program
from endings import Refused, ended
from plain.images import built
from plain.loads import loaded

DESCRIPTION = b"""\
version = 1
top_mib = 64
generation = "12345678-9abc-def0-1122-334455667788"
[system]
manufacturer = "ACME"
product = "VM"
uuid = "00112233-4455-6677-8899-aabbccddeeff"
[acpi]
[hpet]
[power]
event = 0x600
control = 0x604
timer = 0x608
"""
FILLS = [0x00, 0xA5, 0xFF]

# The first eight digits of the SHA-256 of the dump of each seed, with each policy and each fill byte.
HASHES = {
    (1 << 63) - 1: {
        "low": ["86985a98", "cc422bf3", "ea3a8248"],
        "top": ["a5989298", "c8536490", "2afff718"],
        "scatter": ["e1a79246", "d0507aed", "f15b7177"],
    },
    1 << 63: {
        "low": ["96720fc5", "69303aa0", "307897bf"],
        "top": ["8bb05bad", "93fee15d", "f612d911"],
        "scatter": ["21437bc7", "4d0c62c2", "d44d7b5d"],
    },
    (1 << 63) + 1: {
        "low": ["2095010a", "b381f69c", "e8af5636"],
        "top": ["84c476ad", "500fbaaa", "a0bb44f3"],
        "scatter": ["1cbb0d0d", "3a4b3c8a", "8623f260"],
    },
    (1 << 64) - 1: {
        "low": ["f7c5b16b", "40485206", "598132fc"],
        "top": ["75b145f3", "57bba3a2", "7412365f"],
        "scatter": ["5e9fed3d", "1e92deae", "adad88cd"],
    },
}


def has_hash(dump, digits):
    return hashlib.sha256(dump).hexdigest().startswith(digits)


def hash_faults(what, dump, digits):
    """What is wrong with the hash of a dump, or with what judges it."""
    if not has_hash(dump, digits):
        yield f"{what}: the hash of the plain loader's dump doesn't begin with {digits}"
    elif has_hash(dump.replace(b"0", b"1", 1), digits):
        yield f"no judge: {what}: nothing is wrong with the hash of another dump"


def described_container():
    status, container, line = built(DESCRIPTION)
    if status != 0:
        raise Refused(f"the description: {line.decode().strip()}")
    return container


def main(program):
    boots = Comparison(Program(program, "boot"), lambda _: "booted", "booted")
    container, faults = described_container(), []
    for seed, policies in HASHES.items():
        for policy, hashes in policies.items():
            for fill, digits in zip(FILLS, hashes):
                what = f"policy {policy}, fill {fill:02x}, seed {seed}"
                wanted = loaded(container, fill=fill, policy=policy, seed=seed)
                faults += hash_faults(what, wanted[1], digits)
                boots.judge(what, DESCRIPTION, wanted, "--policy", policy, "--fill", f"{fill:02x}", "--seed", str(seed))
    return boots.report("boots", faults)


if __name__ == "__main__":
    if len(sys.argv) != 2:
        sys.exit("usage: judge_seeds.py PROGRAM")
    sys.exit(ended(main, sys.argv[1:]))
