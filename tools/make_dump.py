#!/usr/bin/env python3
"""Makes a dump (docs/FORMATS.md) of the memory of a guest that runs, for `vmtables decode --list`, of two files that QEMU's monitor saves.
It is no part of the product: it serves whoever debugs a guest, and the checks of judges/run.sh.

usage: make_dump.py LOW HIGH TOP_MIB > DUMP

LOW is the guest's first MiB, and HIGH the 32 MiB below the top of its memory below 4 GiB, which is at TOP_MIB MiB, 64 to 3072. The dump has
the fill byte 00. By hand, at QEMU's monitor (`-monitor stdio` among its words, or Ctrl-Alt-2 in its window), for a guest of `-m 2048`:

  stop
  pmemsave 0 0x100000 low.bin
  pmemsave 0x7e000000 0x2000000 high.bin
  cont

and then `make_dump.py low.bin high.bin 2048 > guest.dump`. A file's name that has a slash stands in quotes at the monitor, as in
"/tmp/low.bin". The address 0x7e000000 is the top less 32 MiB. Where a guest has at most 2048 MiB the top is all that it has. Of more memory a
part stands above 4 GiB, and `info mtree` tells what is below the top in its first line with `ram-below-4g`: 0000000000000000-000000007fffffff
for a top of 2048 MiB.

Status 0: done; 2: a file isn't there or has another size, the top is none, or the dump can't be written.
"""

import pathlib
import sys

from endings import Refused, ended
from memory_dump import LEAST_TOP_MIB, LOWER_WINDOW, MOST_TOP_MIB, UPPER_WINDOW_SIZE, Memory, dump_text

LOW_SIZE = 1 << 20


def saved(file, size):
    content = pathlib.Path(file).read_bytes()
    if len(content) != size:
        raise Refused(f"{file} has {len(content)} bytes in place of {size}")
    return content


def top_of(word):
    """The top of memory that a word of so many MiB tells."""
    if not (word.isascii() and word.isdecimal() and LEAST_TOP_MIB <= int(word) <= MOST_TOP_MIB):
        raise Refused(f"the top {word} isn't {LEAST_TOP_MIB} to {MOST_TOP_MIB}")
    return int(word) << 20


def memory_of(low, high, top):
    memory = Memory(top, 0)
    for start, end in LOWER_WINDOW:
        memory.put(start, low[start:end])
    memory.put(top - UPPER_WINDOW_SIZE, high)
    return memory


def main(low, high, top_mib):
    sys.stdout.buffer.write(dump_text(memory_of(saved(low, LOW_SIZE), saved(high, UPPER_WINDOW_SIZE), top_of(top_mib))))
    sys.stdout.buffer.flush()


if __name__ == "__main__":
    if len(sys.argv) != 4:
        sys.exit("usage: make_dump.py LOW HIGH TOP_MIB > DUMP")
    sys.exit(ended(main, sys.argv[1:]))
