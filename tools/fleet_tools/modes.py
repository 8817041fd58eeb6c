"""Modes of files: what trees had, as a table beside a script, and who may read a script of theirs."""
import os
import re
import stat
import sys

from .faults import Fault, printable
from .places import PLACE, place_of

WIDEST, OWN = 0o644, 0o600  # the most that a written file allows, and what it allows where only its owner may read
ALL_READ = 0o004

ROW = re.compile(f"([0-7]{{4}}) ({PLACE})")


def through(folder):
    """What a folder of this mode takes of the modes of its files: what those can't do who can't enter it."""
    return (0 if folder & 0o010 else 0o070) | (0 if folder & 0o001 else 0o007)


def table_of(trees):
    """The table of the files' modes: a line each, in the order of places."""
    rows = sorted((place, mode) for tree in trees for place, mode in tree.modes.items())
    return "".join(f"{mode:04o} {place}\n" for place, mode in rows).encode("ascii")


def read_table(path):
    """The modes of a table, by place."""
    with open(path, encoding="utf-8", errors="surrogateescape") as file:
        lines = file.read().split("\n")
    found = {}
    for number, line in enumerate(lines[:-1] if lines[-1] == "" else lines, 1):
        row = ROW.fullmatch(line)
        if not row:
            raise Fault(f"{printable(path)}: line {number} is no mode and place, as import --modes writes them")
        found[place_of(row[2])] = int(row[1], 8)
    return found


def own_files(trees):
    """How many files of trees not all may read."""
    return sum(not mode & ALL_READ for tree in trees for mode in tree.modes.values())


def is_own(path):
    """Whether nobody but its owner may read a file."""
    return stat.S_ISREG(os.stat(path).st_mode) and not os.stat(path).st_mode & 0o044


def make_output_own():
    """Makes standard output, where it is a file, one that only its owner may read; whether it is a file."""
    sys.stdout.flush()
    at = sys.stdout.fileno()
    if not stat.S_ISREG(os.fstat(at).st_mode):
        return False
    try:
        os.fchmod(at, stat.S_IMODE(os.fstat(at).st_mode) & OWN)
    except OSError as fault:
        raise Fault(f"standard output: it can't be made one that only its owner may read: {fault.strerror}") from fault
    return True
