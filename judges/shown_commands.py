#!/usr/bin/env python3
"""Runs the commands that a document shows, and compares what they print with what it says.

A command is a line of a fenced block that begins with `$ `, and with it those right behind it that begin with `> `, as a shell shows a command of
several lines. The lines behind it, up to the next command or the end of the block, are what it prints, on standard output and standard error; a
last line `status N` is its exit status, which is 0 where none is told. The commands run one after the other in a folder of their own, with links to
what stands in the current one, so that one may read what another wrote.

A command that needs a program or a file that isn't there is skipped, and its line says so.

usage: shown_commands.py DOCUMENT PROGRAM     PROGRAM is what ./vmtables is to be

Prints a line for each command. Status 0: each printed what the document says; 1: one didn't.
"""

import os
import pathlib
import shutil
import subprocess
import sys
import tempfile

LONGEST = 600  # seconds that a command may take
QEMU, OVMF = "qemu-system-x86_64", "/usr/share/ovmf/OVMF.fd"
# What a command needs which has this in it.
NEEDED = {
    **{"q35": [QEMU], "i440fx": [QEMU], "isapc": [QEMU], "microvm": [QEMU], "guest-": [QEMU], "pc-": [QEMU], "pc.": [QEMU], "guest.": [QEMU]},
    **{"ovmf": [QEMU, OVMF]},
}
OF_TRIES = ("checked: ended", "run=ended")  # how lines begin by which `rt try` says that nothing is proved


def shown_commands(document):
    """Yields each command with the lines that it is to print."""
    inside, command, lines = False, None, []
    for line in document.splitlines():
        starts = inside and line.startswith("$ ")
        if (line.startswith("```") or starts) and command is not None:
            yield command, lines
            command, lines = None, []
        if line.startswith("```"):
            inside = not inside
        elif starts:
            command, lines = line[2:], []
        elif command is not None and not lines and line.startswith("> "):
            command += "\n" + line[2:]
        elif command is not None:
            lines.append(line)


def expected(lines):
    """Returns the text that lines say is printed, and the status."""
    status = 0
    if lines and lines[-1].startswith("status "):
        status = int(lines[-1].removeprefix("status "))
        lines = lines[:-1]
    return "".join(line + "\n" for line in lines), status


def printed(command, folder):
    """Runs a command in a folder; returns what it printed, but for the lines of `rt try` itself, and its status."""
    run = subprocess.run(
        ["bash", "-c", command],
        cwd=folder,
        stdin=subprocess.DEVNULL,
        stdout=subprocess.PIPE,
        stderr=subprocess.STDOUT,
        timeout=LONGEST,
        text=True,
    )
    lines = run.stdout.splitlines(keepends=True)
    return "".join(line for line in lines if not line.startswith(OF_TRIES)), run.returncode


def missing(command):
    """Returns a program or a file that a command needs, where it isn't there."""
    needed = [tool for part, tools in NEEDED.items() if part in command for tool in tools]
    return next((tool for tool in needed if shutil.which(tool) is None and not os.path.exists(tool)), None)


def make_folder(folder, root, program):
    """Makes a folder that has all that stands at the top of the repository, and the program as ./vmtables."""
    for entry in root.iterdir():
        if entry.name != "vmtables":
            (folder / entry.name).symlink_to(entry)
    (folder / "vmtables").symlink_to(program)


def main(document, program):
    wrong = 0
    with tempfile.TemporaryDirectory() as name:
        folder = pathlib.Path(name)
        make_folder(folder, pathlib.Path.cwd(), pathlib.Path(program).resolve())
        for command, lines in shown_commands(pathlib.Path(document).read_text()):
            shown = command.split("\n")[0]
            if (tool := missing(command)) is not None:
                print(f"  $ {shown}: skipped, since {tool} isn't there")
                continue
            text, status = expected(lines)
            got, ended = printed(command, folder)
            if (got, ended) == (text, status):
                print(f"  $ {shown}: prints what {document} says")
            else:
                wrong += 1
                print(f"  $ {shown}: status {ended}, and printed\n{got}  in place of status {status} and\n{text}", end="")
    return 1 if wrong else 0


if __name__ == "__main__":
    if len(sys.argv) != 3:
        sys.exit(__doc__)
    sys.exit(main(*sys.argv[1:]))
