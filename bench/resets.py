#!/usr/bin/env python3
"""Prints a file of cases for `run_cases` in which the container of a file is loaded by a plan that resets the guest so often, and then has no more
events. It serves bench/run.sh and is no part of the product.

usage: resets.py CONTAINER COUNT [EVENTS RUNS]

Each reset stands behind so many events, a step and a whole piece in turn, none where nothing is said; and so many loads are made, or one.
"""

import pathlib
import re
import sys

sys.path.append(str(pathlib.Path(__file__).resolve().parent.parent / "tools"))  # whose modules the benchmark shares

from endings import Refused, ended

LONG_RUN = re.compile(rb"\0{256,}")  # of zeros, which a case tells by their end
LINE = 4096  # bytes that a line tells
WHOLE = (1 << 32) - 1  # bytes of a piece that is whole
ROOM = 64 << 20  # bytes of a dump


def told(held):
    """The lines by which a case tells bytes."""
    at = 0
    for run in [*LONG_RUN.finditer(held), None]:
        end = run.start() if run else len(held)
        for part in range(at, end, LINE):
            yield f"x{held[part : min(part + LINE, end)].hex()}"
        if run:
            at = run.end()
            yield f"pad {at}"


def main(container, count, events="0", runs="1"):
    for word in (count, events, runs):
        if not word.isdecimal():
            raise Refused(f"{word}: no number")
    print(f"= {count} resets\nwords load\neach 1 {runs} 1\ninput")
    print(*told(pathlib.Path(container).read_bytes()), sep="\n")
    print(f"output\nroom {ROOM}\nany\nstate done\nplan\nturns {events} {WHOLE}\nreset\ntimes {count}\n.")


if __name__ == "__main__":
    if len(sys.argv) not in (3, 5):
        sys.exit("usage: resets.py CONTAINER COUNT [EVENTS RUNS]")
    sys.exit(ended(main, sys.argv[1:]))
