"""How a script of tools/, judges/ and bench/ ends where it can't do its work: with one line on standard error that names the script, the place
and the cause, and with status 2.
"""

import pathlib
import sys

REFUSED = 2


class Refused(Exception):
    """What a script is given is nothing that it can work on."""


def cause_of(refusal):
    """Where something failed, and why."""
    if isinstance(refusal, OSError) and refusal.filename is not None:
        return f"{refusal.filename}: {refusal.strerror}"
    return str(refusal)


def refused(refusal):
    """Prints the line, and returns the status."""
    print(f"{pathlib.Path(sys.argv[0]).name}: {cause_of(refusal)}", file=sys.stderr)
    return REFUSED


def ended(main, words):
    """The status of a script's main with its words. Where a file can't be read or written, or the words or a file are refused, the line says so."""
    try:
        return main(*words) or 0
    except (OSError, Refused) as refusal:
        return refused(refusal)


def number_of(word, what, base=10):
    """The number that a word spells."""
    try:
        return int(word, base)
    except ValueError as refusal:
        raise Refused(f"{what} is {word!r}, and no number") from refusal


def folder_of(word):
    """A folder that is there."""
    folder = pathlib.Path(word)
    if not folder.is_dir():
        raise Refused(f"{word}: {'it is no folder' if folder.exists() else 'there is no such folder'}")
    return folder
