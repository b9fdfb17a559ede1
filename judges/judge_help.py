#!/usr/bin/env python3
"""Judges whether the manual page docs/vmtables.1 and what `vmtables --help` prints say the same. It is no part of the product: it serves the
checks of judges/run.sh alone.

usage: judge_help.py PROGRAM

PROGRAM stands for ./vmtables. What must hold:

- the synopsis of the page has the lines of usage that are printed, and `--help` and `--version`, and no other;
- the page has each command, each option and each status that is printed, and no other, and says of each what is printed of it;
- it says of the same options as the text that one may be given only with another, and that at most one of two may be given;
- the statuses are those of tools/explain.py.

Then a fault must be found wherever one of these is missing in the page or in the text, or is another.

Status 0: all of this holds; 1: something doesn't, each with a line; 2: PROGRAM can't be run or prints no help, or the page can't be read.
"""

import pathlib
import re
import subprocess
import sys
from typing import NamedTuple

ROOT = pathlib.Path(__file__).resolve().parent.parent
sys.path.append(str(ROOT / "tools"))  # whose modules the judges share

from endings import refused
from explain import LINES, OF_TRIES

PAGE = ROOT / "docs/vmtables.1"
SHOWN = 12  # of the faults


# What is said of two options.
PAIRS = [re.compile(r"(--\w+) may be given only with (--\w+)"), re.compile(r"at most one of (--\w+) and (--\w+) may be given")]


class NoHelp(Exception):
    pass


class Said(NamedTuple):
    """The lines of usage, and what is said of each command, option and status, and of pairs of options."""

    usages: set
    commands: dict
    options: dict
    statuses: dict
    pairs: set


def put(entries, name, texts):
    """Has texts stand with a name, beside those that stand there."""
    entries.setdefault(name, [])
    entries[name] += [text for text in texts if text not in entries[name]]


def said_by_help(text):
    """What the text of `--help` says. A part is a line at the margin, and what is indented behind it."""
    usage, _, rest = text.partition("\n\n")
    usages = {line.removeprefix("usage:").strip() for line in usage.splitlines()}
    commands, options, statuses, pairs = {}, {}, {}, set()
    for head, *lines in (part.splitlines() for part in re.split(r"\n(?=\S)", rest)):
        said = {line.strip() for line in lines if any(pair.fullmatch(line.strip()) for pair in PAIRS)}
        pairs |= said
        lines = [line for line in lines if line and line.strip() not in said]
        if head == "Status:":
            statuses = numbered(lines)
        elif head.startswith("--"):
            usages.add(f"vmtables {head}")
            put(options, head, [])
        elif lines:
            put(commands, head, [lines[0].strip(), *operands(lines[1:])])
            for name, texts in options_in(lines[1:]):
                put(options, name, texts)
    return Said(usages, commands, options, statuses, pairs)


def numbered(lines):
    statuses, number = {}, None
    for line in lines:
        start = re.match(r" {4}(\d+) +(.*)", line)
        if start is not None:
            number = int(start[1])
            statuses[number] = [start[2]]
        elif number is not None:
            statuses[number] = [f"{statuses[number][0]} {line.strip()}"]
    return statuses


def groups_in(lines):
    """Lines of an indent of 4, each with those behind it that have 8."""
    group = None
    for line in lines:
        if not line.startswith(" " * 8):
            group = [line.strip()]
            yield group
        elif group is None:
            raise NoHelp(f"`--help` has no name in front of {line.strip()!r}")
        else:
            group.append(line.strip())


def options_in(lines):
    return [(name, texts) for name, *texts in [*groups_in(lines)] if name.startswith("--")]


def operands(lines):
    return [text for name, *texts in [*groups_in(lines)] if not name.startswith("--") for text in texts]


def plain(words):
    """What the words of a macro line of mdoc print, but for the names of the macros."""
    shown = []
    for word in words:
        if word == "Fl":
            shown.append("-")
        elif word not in ("Ar", "Cm", "Nm", "Op", "Pa", "Pq", "Ql"):
            shown.append(shown.pop() + word if shown and shown[-1] == "-" else word)
    return " ".join(shown).replace("\\&", "")


def shown_line(line):
    if not line.startswith("."):
        return line
    text = plain(line[1:].split())
    return f"[{text}]" if line.startswith(".Op ") else text


def sections_of(page):
    """The lines of each section and subsection, by its name."""
    sections, lines = {}, []
    for line in page.splitlines():
        name = re.fullmatch(r"\.S[hs] (.*)", line)
        if name is not None:
            lines = sections.setdefault(name[1], [])
        elif not line.startswith('.\\"'):
            lines.append(line)
    return sections


def items_of(lines):
    """What stands behind each head of a list, up to its end, by the head's first word."""
    items, texts = {}, None
    for line in lines:
        if line.startswith(".It "):
            words = plain(line[1:].split()[1:])
            if words in items:
                raise NoHelp(f"the page has {words} twice")
            texts = items.setdefault(words, [])
        elif line == ".El":
            texts = None
        elif texts is not None:
            texts.append(shown_line(line))
    return {words: [" ".join(texts)] for words, texts in items.items()}


def said_by_page(page):
    sections = sections_of(page)
    usages = [" ".join(shown_line(line) for line in part.splitlines()) for part in "\n".join(sections.get("SYNOPSIS", [])).split(".Nm\n") if part]
    statuses = {int(number): texts for number, texts in items_of(sections.get("EXIT STATUS", [])).items()}
    options = items_of(sections.get("Options", []))
    pairs = {found[0] for text in options.values() for pair in PAIRS for found in pair.finditer(" ".join(text))}
    return Said({f"vmtables {usage}" for usage in usages}, items_of(sections.get("Commands", [])), options, statuses, pairs)


def more_in(what, printed, paged):
    yield from (f"{what} {name}: `--help` has it, and docs/vmtables.1 hasn't" for name in sorted(printed - paged))
    yield from (f"{what} {name}: docs/vmtables.1 has it, and `--help` hasn't" for name in sorted(paged - printed))


def text_differences(what, printed, paged):
    for name in printed.keys() & paged.keys():
        for text in printed[name]:
            if text not in paged[name][0]:
                yield f"{what} {name}: `--help` says {text!r}, and docs/vmtables.1 {paged[name][0]!r}"


def differences(help_text, page):
    """What the text and the page say otherwise."""
    printed, paged = said_by_help(help_text), said_by_page(page)
    yield from more_in("usage", printed.usages, paged.usages)
    yield from more_in("what is said of options", printed.pairs, paged.pairs)
    for what, one, other in zip(("command", "option", "status"), printed[1:4], paged[1:4]):
        yield from more_in(what, one.keys(), other.keys())
        yield from text_differences(what, one, other)
    known = {0} | {line.status for line in LINES}
    if printed.statuses.keys() != known:
        yield f"statuses: `--help` has {sorted(printed.statuses)}, and tools/explain.py {sorted(known)}"


def faults_of(help_text, page):
    try:
        return [*differences(help_text, page)]
    except (NoHelp, ValueError) as refusal:
        return [str(refusal)]


def tells(line, before):
    """Whether a line of the page says that there is a command or an option."""
    return line.startswith((".It ", ".Op ")) or (before == ".Nm" and line.startswith((".Cm ", ".Fl ")))


def changes(help_text, page):
    """What is changed, and both texts with that."""
    lines = page.splitlines()
    synopsis, options = lines.index(".Sh SYNOPSIS"), lines.index(".Sh FILES")
    statuses = range(lines.index(".Sh EXIT STATUS"), lines.index(".Sh EXAMPLES"))
    for at, line in enumerate(lines):
        if (synopsis < at < options and tells(line, lines[at - 1])) or (at in statuses and line.startswith(".It ")):
            yield f"line {at + 1} of the page left out", help_text, "\n".join([*lines[:at], *lines[at + 1 :]])
    printed = help_text.splitlines()
    for at, line in enumerate(printed):
        if re.match(r"usage:| {6,7}vmtables| {4}(--|\d)|--", line):
            yield f"line {at + 1} of the text left out", "\n".join([*printed[:at], *printed[at + 1 :]]), page
        if re.match(r" {4,8}[a-z0-9]", line) and not printed[at - 1].startswith("--"):
            yield f"line {at + 1} of the text changed", "\n".join([*printed[:at], f"{line} more", *printed[at + 1 :]]), page


def help_of(program):
    run = subprocess.run([program, "--help"], stdin=subprocess.DEVNULL, capture_output=True, check=False)
    text = run.stdout.decode(errors="replace")
    if run.returncode != 0 or not text.startswith("usage: "):
        said = [line for line in run.stderr.decode(errors="replace").splitlines() if not line.startswith(OF_TRIES)]
        raise NoHelp(f"{program} --help ends with status {run.returncode} and prints no usage: {' '.join(said)}")
    return text


def judge(help_text, page):
    """Prints what is wrong, or what is right; returns the status."""
    faults, tried = faults_of(help_text, page), []
    if not faults:
        tried = [*changes(help_text, page)]
        faults = [f"no judge: nothing is wrong with {what}" for what, *changed in tried if not faults_of(*changed)]
    for line in faults[:SHOWN]:
        print(line)
    if faults[SHOWN:]:
        print(f"and {len(faults) - SHOWN} more")
    if not faults:
        said = said_by_help(help_text)
        counts = f"commands: {len(said.commands)}, options: {len(said.options)}, statuses: {len(said.statuses)}"
        print(f"--help and docs/vmtables.1 say the same: {counts}; changes: {len(tried)}, each found")
    return 1 if faults else 0


def main(program):
    try:
        return judge(help_of(program), PAGE.read_text())
    except (OSError, NoHelp) as refusal:
        return refused(refusal)


if __name__ == "__main__":
    if len(sys.argv) != 2:
        sys.exit("usage: judge_help.py PROGRAM")
    sys.exit(main(*sys.argv[1:]))
