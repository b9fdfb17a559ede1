#!/usr/bin/env python3
"""Has rt try wrong programs that stand in crates/NAME/planted, which `rt ci` doesn't read, as it tries those in crates/NAME/must-fail: the check must
refuse each (docs/PROOFS.md, "Wrong programs").

usage: try_planted.py NAME..

NAME is a crate, all of whose planted edits are tried, or one of them, as zone_alloc/always_no_room. `rt must-fail` tries them in a temporary
folder of links to the crates, so that what was proved here serves there, and what is proved there serves here. It prints what each comes to.

Status: that of rt, which is 0 where each edit is refused; 2: a word names no crate or no planted edit, or rt isn't there.
"""

import pathlib
import subprocess
import sys
import tempfile

from endings import Refused, ended

ROOT = pathlib.Path(__file__).resolve().parent.parent
EDITS = {"must-fail", "planted"}  # the folders of a crate that are not linked


def planted_edits(word):
    """A crate's name, and those of its planted edits that a word names."""
    crate, _, edit = word.partition("/")
    found = sorted((ROOT / "crates" / crate / "planted").glob(f"{edit or '*'}.edit"))
    if not found:
        raise Refused(f"{word}: no such edit is planted")
    return crate, found


def link_crate(crate, copy):
    """Links what a crate is proved from, and what is kept of its proofs, into a folder."""
    copy.mkdir(parents=True)
    (crate / "out").mkdir(exist_ok=True)
    for part in crate.iterdir():
        if part.name not in EDITS:
            (copy / part.name).symlink_to(part)


def link_crates(top):
    """Links all crates, and what says how they stand on each other, into a folder."""
    for file in ("crates.txt", "HANDLES"):
        (top / file).symlink_to(ROOT / file)
    for crate in (ROOT / "crates").iterdir():
        link_crate(crate, top / "crates" / crate.name)


def main(*words):
    edits = [planted_edits(word) for word in words]
    with tempfile.TemporaryDirectory(prefix="try-planted-") as room:
        top = pathlib.Path(room)
        link_crates(top)
        for crate, found in edits:
            folder = top / "crates" / crate / "must-fail"
            folder.mkdir(exist_ok=True)
            for edit in found:
                (folder / edit.name).write_bytes(edit.read_bytes())
        names = dict.fromkeys(crate for crate, _ in edits)
        return subprocess.run(["rt", "must-fail", *names], cwd=top).returncode


if __name__ == "__main__":
    if len(sys.argv) < 2:
        sys.exit("usage: try_planted.py NAME..")
    sys.exit(ended(main, sys.argv[1:]))
