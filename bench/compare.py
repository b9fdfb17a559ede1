#!/usr/bin/env python3
"""Runs programs in turns and prints ratios of what they take. It serves bench/run.sh and is no part of the product.

usage: compare.py ROUNDS PROGRAMS OUTPUT

PROGRAMS has a line for each program: a group, what the program is, the file on its standard input, and its words, separated
by tabs and the words by spaces. The first program of a group is compared with each other one of it. Standard output goes to
the file OUTPUT.

A round runs each program once. Compared are the medians of elapsed time and of processor time (user's and system's), and the
peak of resident memory, where /usr/bin/time is there to tell it.
"""

import collections
import os
import pathlib
import statistics
import subprocess
import sys
import time

sys.path.append(str(pathlib.Path(__file__).resolve().parent.parent / "tools"))  # whose modules the benchmark shares

from endings import Refused, ended, number_of

GNU_TIME = "/usr/bin/time"

Program = collections.namedtuple("Program", "group what input words")
Taken = collections.namedtuple("Taken", "elapsed processor")


def run(words, program, output):
    """Runs words to their end and returns the time that they took."""
    with open(program.input, "rb") as source, open(output, "wb") as sink:
        begun = time.perf_counter()
        process = subprocess.Popen(words, stdin=source, stdout=sink, stderr=subprocess.DEVNULL)
        _, status, used = os.wait4(process.pid, 0)
        elapsed = time.perf_counter() - begun
    if status != 0:
        raise Refused(f"{program.what} ended with status {os.waitstatus_to_exitcode(status)}")
    return Taken(elapsed, used.ru_utime + used.ru_stime)


def peak_memory(program, output):
    """Returns the peak of resident memory in KiB, or None where nothing tells it."""
    if not os.path.exists(GNU_TIME):
        return None
    told = f"{output}.memory"
    run([GNU_TIME, "-f", "%M", "-o", told, *program.words], program, output)
    return int(pathlib.Path(told).read_text())


def read_programs(file):
    rows = [line.split("\t") for line in pathlib.Path(file).read_text().splitlines()]
    if not rows or any(len(row) != 4 for row in rows):
        raise Refused(f"{file}: it isn't lines of four parts with tabs between them")
    return [Program(group, what, source, words.split(" ")) for group, what, source, words in rows]


def measure(programs, rounds, output):
    """Returns for each program the medians of its times, and its peak of memory."""
    taken = [[] for _ in programs]
    for _ in range(rounds):
        for at, program in enumerate(programs):
            taken[at].append(run(program.words, program, output))
    medians = [Taken(*map(statistics.median, zip(*runs))) for runs in taken]
    return [(*median, peak_memory(program, output)) for median, program in zip(medians, programs)]


def ratio(one, other):
    return "-" if not one or not other else f"{one / other:.3f}"


def main(rounds, programs, output):
    rounds, programs = number_of(rounds, "ROUNDS"), read_programs(programs)
    if rounds < 1:
        raise Refused("ROUNDS isn't 1 or more")
    figures = measure(programs, rounds, output)
    print(f"medians of {rounds} rounds over the other program's, on {os.cpu_count()} processors")
    print(f"{'program':19} {'against':42} {'elapsed':>9} {'processor':>9} {'memory':>9}")
    first = None
    for program, taken in zip(programs, figures):
        if first is None or first[0] != program.group:
            first = (program.group, taken)
        else:
            cells = " ".join(f"{ratio(one, other):>9}" for one, other in zip(first[1], taken))
            print(f"{program.group:19} {program.what:42} {cells}")


if __name__ == "__main__":
    if len(sys.argv) != 4:
        sys.exit("usage: compare.py ROUNDS PROGRAMS OUTPUT")
    sys.exit(ended(main, sys.argv[1:]))
