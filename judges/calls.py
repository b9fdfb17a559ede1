"""Calls of a program in great number, each with an input of its own, compared with what a reader works out of the same input. What the judges that
have second readers (judges/plain) share.

A difference is told with the input. So that a judge is one, the first answer of each outcome is also compared with others: with another status, a
byte more or fewer, and another line; each must be found.
"""

import collections
import os
import pathlib
import random
import subprocess
import sys

sys.path.append(str(pathlib.Path(__file__).resolve().parent.parent / "tools"))  # whose modules the judges share

from endings import Refused, number_of

SHOWN, LONGEST = 5, 2000  # of the differences, and how many characters of one

SEED, PERCENT = 1, 100  # where the words don't say another seed, and how many percent of the inputs are drawn

Ended = collections.namedtuple("Ended", "status out said")


def built_program(path):
    """The program itself, where it is one, or else the one that the script ./vmtables runs, which looks at each call whether that is to be built."""
    if not os.access(path, os.X_OK) or not os.path.isfile(path):
        raise Refused(f"{path}: there is no such program")
    if pathlib.Path(path).read_bytes()[:4] == b"\x7fELF":
        return path
    subprocess.run([path, "--version"], check=True, stdout=subprocess.DEVNULL, stdin=subprocess.DEVNULL)  # builds it where it isn't built
    built = pathlib.Path(path).resolve().parent / "crates" / "vmtables_cli" / "out" / "vmtables_cli"
    if not built.exists():
        raise Refused(f"{path} is no program, and the one that it runs isn't found")
    return str(built)


class Program:
    """A program that is called with words and an input. Its streams are files in memory, since pipes take as long as a short call itself."""

    def __init__(self, path, *words):
        self.path = built_program(path)
        self.words = words
        self.streams = [os.memfd_create(name) for name in ("input", "output", "said")]

    def ended(self, given, *words):
        """How a call ends, with more words behind those of each."""
        for stream in self.streams:
            os.ftruncate(stream, 0)
            os.lseek(stream, 0, os.SEEK_SET)
        self.put(given)
        actions = [(os.POSIX_SPAWN_DUP2, stream, number) for number, stream in enumerate(self.streams)]
        child = os.posix_spawn(self.path, [self.path, *self.words, *words], os.environ, file_actions=actions)
        _, status = os.waitpid(child, 0)
        return Ended(os.waitstatus_to_exitcode(status), self.taken(1), self.taken(2))

    def put(self, given):
        written = 0
        while written < len(given):
            written += os.pwrite(self.streams[0], given[written:], written)

    def taken(self, number):
        stream = self.streams[number]
        return os.pread(stream, os.fstat(stream).st_size, 0)


def others(ended):
    """Answers beside one, of which none may pass for it."""
    yield ended._replace(status=ended.status + 1)
    for stream in ("out", "said"):
        text = getattr(ended, stream)
        yield ended._replace(**{stream: text + b"\n"})
        if text:
            yield ended._replace(**{stream: text[:-1]})
            yield ended._replace(**{stream: bytes([text[0] ^ 1]) + text[1:]})


class Comparison:
    """Compares how calls of a program end with what a reader says of their inputs, and counts how many inputs had each outcome, which is what the
    function `outcome` names an answer. Those that stand in front of another one in a call have the outcome `fine`.
    """

    def __init__(self, program, outcome, fine, reader=None):
        self.program = program
        self.outcome = outcome
        self.fine = fine
        self.reader = reader
        self.calls = 0
        self.outcomes = collections.Counter()
        self.answered = set()
        self.differences = []

    def compare(self, what, given, *words, inputs=1):
        """Has the program and the reader answer one call, in which there are so many inputs."""
        self.judge(what, given, self.reader(given, *words), *words, inputs=inputs)

    def judge(self, what, given, wanted, *words, inputs=1):
        """Has the program answer one call as it should."""
        wanted = Ended(*wanted)
        ended = self.program.ended(given, *words)
        outcome = self.outcome(wanted)
        self.calls += 1
        self.outcomes[outcome] += 1
        self.outcomes[self.fine] += inputs - 1
        if ended != wanted:
            self.differences.append(f"{what}: {shown(ended)} in place of {shown(wanted)}, of {given_text(given)}")
        elif outcome not in self.answered and any(other == ended for other in others(wanted)):
            self.differences.append(f"no judge: {what}: nothing is wrong with another answer")
        self.answered.add(outcome)

    def lacking(self, outcomes, least):
        """What is wrong with how often outcomes came."""
        for outcome in outcomes:
            if self.outcomes[outcome] < least:
                yield f"no judge: {outcome} came {self.outcomes[outcome]} times, and should come {least} times"

    def report(self, what, faults=()):
        """Prints what is wrong, or what is right; returns the status."""
        wrong = [*self.differences, *faults]
        if not wrong:
            counts = ", ".join(f"{name} {count}" for name, count in sorted(self.outcomes.items()))
            print(f"{self.outcomes.total()} {what} in {self.calls} calls, each as the plain reader says: {counts}; other answers are found")
            return 0
        for line in wrong[:SHOWN]:
            print(line[:LONGEST])
        if wrong[SHOWN:]:
            print(f"and {len(wrong) - SHOWN} more")
        return 1


class Joined:
    """Inputs one behind the other in one call: those of which nothing is wrong, and the next one that has a fault, which ends them."""

    def __init__(self, comparison, most_bytes=1 << 14):
        self.comparison = comparison
        self.most_bytes = most_bytes
        self.content = b""
        self.inputs = 0

    def add(self, what, content, is_last):
        """Adds an input, which is the last of its call where a fault ends it."""
        self.content += content
        self.inputs += 1
        if is_last or len(self.content) >= self.most_bytes:
            self.give(what)

    def give(self, what):
        if self.inputs > 0:
            self.comparison.compare(what, self.content, inputs=self.inputs)
        self.content, self.inputs = b"", 0


def shown(ended):
    return f"status {ended.status}, {len(ended.out)} bytes {ended.out[-200:]!r} and {ended.said[:200]!r}"


def given_text(given):
    return given.decode("latin-1") if len(given) < LONGEST // 2 else f"{given[: LONGEST // 4]!r}.. of {len(given)} bytes"


class Seeds:
    """Random generators of a seed, one for each purpose, so that what one draws doesn't change what another one does."""

    def __init__(self, words):
        """Takes the words SEED and PERCENT from the command line, where they are given."""
        self.seed = number_of(words[0], "SEED") if words else SEED
        self.percent = number_of(words[1], "PERCENT") if words[1:] else PERCENT

    def draws(self, purpose):
        return random.Random(f"{purpose} {self.seed}")

    def count(self, number):
        """So many percent of a number, but at least one."""
        return max(1, number * self.percent // 100)
