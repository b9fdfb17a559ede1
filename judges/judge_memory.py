#!/usr/bin/env python3
"""Judges what `vmtables` does where memory runs out, and where a stream fails: each of its allocations is refused, each read of standard input and
each write to standard output fails, one at a time, over several commands. It is no part of the product: it serves the checks of judges/run.sh alone.

usage: judge_memory.py PROGRAM DESCRIPTION..

PROGRAM is the program itself, or ./vmtables, which runs the one that is built. Each DESCRIPTION is booted, without options and with them, and
built; what that gives is loaded, decoded and listed, and so with `--legacy` and with `--any` once its tables have that form; of its files without a
script, and with one that is skipped, those of SMBIOS are installed; and `gen` generates a machine. Each command first runs undisturbed, and its calls
are counted. Then it runs once for each of them, which alone fails, and once more. What must hold:

- without an allocation the status is 9, nothing is on standard output, and standard error has the line `out of memory`;
- without a read the status is 1, nothing is on standard output, and standard error has the line `read fault`;
- without a write the status is 8, standard error has the line `write fault`, and standard output a part of the text from its front, perhaps all,
  since what is gathered for a write is offered once more at the end;
- the last run of each kind, in which no call fails any more, ends as the first one.

An allocation is a call of malloc, calloc, realloc, aligned_alloc, posix_memalign or memalign. A small library counts the calls and lets one fail:
the C compiler makes it of the text below, and it is loaded in front of the C library (LD_PRELOAD). Last, runs that end otherwise have to be found:
with another status, with something written, with another line or none, or by a signal.

Status 0: all of this holds; 1: something doesn't, each with a line; 2: a command fails undisturbed; 3: no compiler makes the library, or it counts
nothing, so that nothing was judged.
"""

import concurrent.futures
import os
import pathlib
import subprocess
import sys
import tempfile
import tomllib

from calls import Refused, built_program
from fw_cfg_files import COMMAND_SIZE, SCRIPT, read_container_file
from legacy_memory import SECOND, legacy_memory
from memory_dump import dump_text, read_dump_file
from plain.images import container

KINDS = {"allocation": (9, b"out of memory\n"), "read": (1, b"read fault\n"), "write": (8, b"write fault\n")}  # of calls; the status and the line
PROCESSORS = "8"  # of the machine that `gen` generates
OPTIONS = ["--policy", "scatter", "--fill", "a5", "--seed", "7"]  # of a boot with each of them
SHOWN = 5  # of the faults of a command
SECONDS = 60  # for a run

# How many calls of each kind there were stands in a file that a run and this program share. The environment has the kind of the call that fails, and
# which one it is, from 1 on.
LIBRARY = r"""
#include <errno.h>
#include <fcntl.h>
#include <stdatomic.h>
#include <stddef.h>
#include <stdlib.h>
#include <sys/mman.h>
#include <sys/syscall.h>
#include <unistd.h>

extern void *__libc_malloc(size_t);
extern void *__libc_calloc(size_t, size_t);
extern void *__libc_realloc(void *, size_t);
extern void *__libc_memalign(size_t, size_t);

enum kind { ALLOCATION, READ, WRITE, KINDS };

static _Atomic unsigned long *counts;
static unsigned long kind, refused;

__attribute__((constructor)) static void begin(void) {
    const char *path = getenv("COUNTED_CALLS"), *kind_text = getenv("REFUSED_KIND"), *number = getenv("REFUSED_CALL");
    int file = path && kind_text && number ? open(path, O_RDWR) : -1;
    if (file < 0)
        return;
    void *shared = mmap(NULL, KINDS * sizeof *counts, PROT_READ | PROT_WRITE, MAP_SHARED, file, 0);
    close(file);
    if (shared == MAP_FAILED)
        return;
    kind = strtoul(kind_text, NULL, 10);
    refused = strtoul(number, NULL, 10);
    counts = shared;
}

static int fails(enum kind called, int error) {
    if (!counts || atomic_fetch_add(&counts[called], 1) + 1 != refused || called != kind)
        return 0;
    errno = error;
    return 1;
}

void *malloc(size_t size) { return fails(ALLOCATION, ENOMEM) ? NULL : __libc_malloc(size); }

void *calloc(size_t number, size_t size) { return fails(ALLOCATION, ENOMEM) ? NULL : __libc_calloc(number, size); }

void *realloc(void *old, size_t size) { return fails(ALLOCATION, ENOMEM) ? NULL : __libc_realloc(old, size); }

void *memalign(size_t align, size_t size) { return fails(ALLOCATION, ENOMEM) ? NULL : __libc_memalign(align, size); }

void *aligned_alloc(size_t align, size_t size) { return memalign(align, size); }

int posix_memalign(void **place, size_t align, size_t size) {
    void *got = memalign(align, size);
    if (!got)
        return ENOMEM;
    *place = got;
    return 0;
}

ssize_t read(int file, void *into, size_t size) { return file == 0 && fails(READ, EIO) ? -1 : syscall(SYS_read, file, into, size); }

ssize_t write(int file, const void *from, size_t size) { return file == 1 && fails(WRITE, EIO) ? -1 : syscall(SYS_write, file, from, size); }

ssize_t __write(int file, const void *from, size_t size) { return write(file, from, size); }
"""


class Unmade(Exception):
    """No compiler makes the library, or it counts nothing."""


class Failed(Exception):
    """A command fails undisturbed."""


def make_library(folder):
    source, library = folder / "refuses.c", folder / "refuses.so"
    source.write_text(LIBRARY)
    for compiler in ["cc", "gcc", "clang"]:
        try:
            made = subprocess.run([compiler, "-O1", "-shared", "-fPIC", "-o", library, source], capture_output=True, check=False)
        except FileNotFoundError:
            continue
        if made.returncode == 0:
            return library
    raise Unmade("no C compiler makes the library that refuses allocations")


class Refusing:
    """Runs a program in which a call fails."""

    def __init__(self, program, folder):
        self.program, self.folder, self.library = program, folder, make_library(folder)

    def run(self, words, given, kind="allocation", number=0):
        """The status and what is written of a run in which the call of this kind and number fails, and how many calls of each kind there were."""
        with tempfile.NamedTemporaryFile(dir=self.folder) as counts, open(given, "rb") as standard_input:
            counts.write(bytes(8 * len(KINDS)))
            counts.flush()
            called = {"REFUSED_KIND": str(list(KINDS).index(kind)), "REFUSED_CALL": str(number), "COUNTED_CALLS": counts.name}
            environment = {**os.environ, "LD_PRELOAD": str(self.library), **called}
            try:
                ran = subprocess.run([self.program, *words], stdin=standard_input, capture_output=True, env=environment, timeout=SECONDS, check=False)
            except subprocess.TimeoutExpired:
                return (f"none in {SECONDS} seconds", b"", b""), {}
            counts.seek(0)
            return (ran.returncode, ran.stdout, ran.stderr), {kind: int.from_bytes(counts.read(8), sys.byteorder) for kind in KINDS}

    def whole_run(self, words, given):
        """How an undisturbed run ends, and how many calls of each kind it makes."""
        whole, counts = self.run(words, given)
        if whole[0] != 0:
            raise Failed(f"{' '.join(words)} of {pathlib.Path(given).name}: {shown(whole)}")
        if not counts["allocation"] or not counts["write"]:
            raise Unmade("the calls of the program aren't counted")
        return whole, counts


def shown(ended):
    status, out, say = ended
    return f"status {status}, {len(out)} bytes on standard output, {say[:100]!r} on standard error"


def is_right(kind, ended, whole):
    """Whether a run ends as it must without a call of this kind. Where a write fails a part of the text may be written, or all."""
    status, out, say = ended
    may_be_written = whole[1] if kind == "write" else b""
    return (status, say) == KINDS[kind] and may_be_written.startswith(out)


def wrong_ends(kind, ends, whole):
    """A line for each run of a command that doesn't end as it must. In each but the last one a call of this kind fails."""
    wrong = [f"{kind} {number}: {shown(ended)}" for number, ended in enumerate(ends[:-1], 1) if not is_right(kind, ended, whole)]
    return wrong + ([] if ends[-1] == whole else [f"no {kind}: {shown(ends[-1])}"])


def commands_of(refusing, description, folder):
    """The commands on a description, and on what is made of it, each with its words and its input."""
    made = {}
    for word in ["build", "boot"]:
        made[word] = folder / f"{pathlib.Path(description).stem}.{word}"
        made[word].write_bytes(refusing.whole_run([word], description)[0][1])
    files = read_container_file(made["build"])
    for word, script in {"bare": {}, "skipped": {SCRIPT: bytes(COMMAND_SIZE)}}.items():
        made[word] = folder / f"{pathlib.Path(description).stem}.{word}"
        made[word].write_bytes(container({name: content for name, content in files.items() if name != SCRIPT} | script))
    made["legacy"] = folder / f"{pathlib.Path(description).stem}.legacy"
    made["legacy"].write_bytes(dump_text(legacy_memory(read_dump_file(made["boot"]), SECOND, 3)))
    top = str(tomllib.loads(pathlib.Path(description).read_text(encoding="utf-8"))["top_mib"])
    return [
        (["boot"], description),
        (["boot", *OPTIONS], description),
        (["build"], description),
        (["load", "--top", top], made["build"]),
        (["load", "--install", "--top", top], made["bare"]),
        (["load", "--install", "--top", top], made["skipped"]),
        (["decode"], made["boot"]),
        (["decode", "--list"], made["boot"]),
        (["decode", "--legacy"], made["legacy"]),
        (["decode", "--list", "--legacy"], made["legacy"]),
        (["decode", "--list", "--any"], made["legacy"]),
    ]


def finds_wrong(kind, ends, whole):
    """A line for each wrong end that isn't found in place of that of the first run, and for a last run that ends otherwise."""
    status, line = KINDS[kind]
    wrong = {
        "another status": (status + 1, b"", line),
        "a written byte": (status, whole[1] + b"x", line),
        "another line": (status, b"", b"no room\n"),
        "no line": (status, b"", b""),
        "a signal": (-11, b"", b""),
    }
    turned = {what: [ended, *ends[1:]] for what, ended in wrong.items()}
    turned["another output"] = [*ends[:-1], (whole[0], whole[1] + b"x", whole[2])]
    return [f"a {kind}, no judge: it doesn't find {what}" for what, others in turned.items() if not wrong_ends(kind, others, whole)]


def judge_command(refusing, words, given, pool):
    """How many calls of each kind a command makes, and a line for each run of it that doesn't end as it must."""
    whole, counts = refusing.whole_run(words, given)
    faults = []
    for kind, count in counts.items():
        ends = list(pool.map(lambda number: refusing.run(words, given, kind, number)[0], range(1, count + 2)))
        faults += wrong_ends(kind, ends, whole)[:SHOWN] or (finds_wrong(kind, ends, whole) if count else [])
    return counts, faults


def judge(program, descriptions, folder):
    refusing = Refusing(built_program(program), folder)
    nothing = folder / "nothing"
    nothing.write_bytes(b"")
    commands = [command for description in descriptions for command in commands_of(refusing, description, folder)]
    commands.append((["gen", PROCESSORS], nothing))
    faults, told = [], {}
    with concurrent.futures.ThreadPoolExecutor(len(os.sched_getaffinity(0))) as pool:
        for words, given in commands:
            called = " ".join(words) + ("" if given == nothing else f" of {pathlib.Path(given).name}")
            told[called], found = judge_command(refusing, words, given, pool)
            faults += [f"{called}, without {line}" for line in found]
    return faults, told


def main(words):
    if len(words) < 2:
        print(__doc__.strip(), file=sys.stderr)
        return 2
    with tempfile.TemporaryDirectory() as folder:
        try:
            faults, told = judge(words[0], words[1:], pathlib.Path(folder))
        except (Unmade, Refused) as why:
            print(f"{why}: refused memory and failing streams weren't tried")
            return 3
        except Failed as why:
            print(why, file=sys.stderr)
            return 2
    if faults:
        print("\n".join(faults), file=sys.stderr)
        return 1
    for called, counts in told.items():
        print(f"{called}: each failed alone of {', '.join(f'{count} {kind}s' for kind, count in counts.items())}")
    return 0


if __name__ == "__main__":
    sys.exit(main(sys.argv[1:]))
