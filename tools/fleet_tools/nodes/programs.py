"""The program that keeps a node in a file, `fleet_node`, and runs of it as the user whose file it is."""
import os
import random
import re
import subprocess
import time
from contextlib import contextmanager, suppress

from ..faults import Fault, Status, cut, printable
from ..program import REPOSITORY

NAME = "fleet_node"
VARIABLE = "FLEET_NODE"
# Where it stands: of a package, and as the repository builds it.
PLACES = (os.path.join(REPOSITORY, "bin", NAME), os.path.join(REPOSITORY, "crates", NAME, "out", NAME))

# With what each line begins that it tells on standard error.
TELLS = "fleet: "
# What it refuses where another process has the file open, which leaves all as it was, and how many seconds that is waited for.
BUSY, BUSY_SECONDS = "Z4", 5

# What it refuses of a file, in words.
SENTENCES = {
    "X7": "two state files write under one number: make one of them anew under a free number",
    "Z1": "something stands there already",
    "Z2": "no state file",
    "Z3": "a state file of another format",
    "Z4": "another process has it open",
    "Z5": "the disk refuses, or the file is damaged",
    "Z7": "its counters are spent",
}

# The ends of the names of files that the program keeps beside a state file: what isn't yet in it, and the same of a compaction.
BESIDE = ("", "-wal", ".compact", ".compact-wal")

HOW_TO_BUILD = f"""the program of nodes isn't built. This builds it, with Rattle's `rt` on the path:
  (cd {os.path.join(REPOSITORY, "crates", NAME)} && rt run)    proves it and all below it, compiles it and runs it: an hour or more, once
{VARIABLE}=FILE names one that stands elsewhere"""


class NodeFault(Fault):
    """What the program refused over a file, by the code that it told; none where it told none."""

    def __init__(self, path, told, code=""):
        super().__init__(f"{printable(path)}: {told}", Status.WRONG)
        self.told, self.code = told, code


def program():
    """The path of the program."""
    named = os.environ.get(VARIABLE)
    found = [os.path.abspath(named)] if named else PLACES
    for it in found:
        if os.path.isfile(it) and os.access(it, os.X_OK):
            return it
    raise Fault(f"{VARIABLE}={printable(named)}: no file that can be run" if named else HOW_TO_BUILD)


def is_entered(path, uid, gid):
    """Whether this user may enter the folder of a path, and all folders above it."""
    at = os.path.dirname(os.path.realpath(path))
    while True:
        found = os.stat(at)
        bit = 0o100 if found.st_uid == uid else 0o010 if found.st_gid == gid else 0o001
        if not found.st_mode & bit:
            return False
        if at == "/":
            return True
        at = os.path.dirname(at)


@contextmanager
def as_owner(path):
    """The words with which a process is started as the user whose file this is, where root starts it. Where that user can't enter its folder, as
    outside of a service with DynamicUser=, root runs it, and what stands beside the file is given to the user then."""
    try:
        found = os.stat(path)
    except OSError:
        found = None
    if os.geteuid() != 0 or not found or found.st_uid == 0:
        yield {}
    elif is_entered(path, found.st_uid, found.st_gid):
        yield {"user": found.st_uid, "group": found.st_gid, "extra_groups": []}
    else:
        try:
            yield {}
        finally:
            for it in BESIDE:
                with suppress(OSError):
                    os.chown(path + it, found.st_uid, found.st_gid, follow_symlinks=False)


def code_of(line):
    """The code of a refusal that a line tells; nothing where it tells none."""
    found = re.match("[A-Z][0-9]{1,2}(?= [A-Z])", line)
    return found[0] if found else ""


def in_words(line):
    """A refusal as the program tells it, and what it means, where that is known."""
    words = SENTENCES.get(code_of(line))
    return f"{cut(line)}: {words}" if words else cut(line)


def told_line(told):
    """The first line of what it told on standard error; nothing where it told none."""
    return next((it.removeprefix(TELLS).rstrip() for it in told.splitlines() if it.strip()), "")


def refusal_of(path, status, told):
    """The fault where the program ended with a status other than 0 over a file, having told this on standard error."""
    line = told_line(told) if status > 0 else f"{NAME} ended with signal {-status}"
    return NodeFault(path, in_words(line) or f"{NAME} ended with status {status}", code_of(line))


def pause():
    """Waits a short while, of another length each time, so that two who are in each other's way don't meet again."""
    time.sleep(random.uniform(0.02, 0.3))


def ran_once(path, word, words, given):
    """What the program writes when it does something over a file, given these bytes."""
    try:
        with as_owner(path) as owner:
            done = subprocess.run([program(), word, path, *words], input=given, capture_output=True, check=False, cwd="/", **owner)
    except OSError as fault:
        raise Fault(f"{NAME} can't be run: {fault.strerror}") from fault
    if done.returncode:
        raise refusal_of(path, done.returncode, done.stderr.decode("utf-8", "surrogateescape"))
    return done.stdout


def ran(path, word, words, given):
    """The same, which waits some seconds while another process has the file open."""
    until = time.monotonic() + BUSY_SECONDS
    while True:
        try:
            return ran_once(path, word, words, given)
        except NodeFault as fault:
            if fault.code != BUSY or time.monotonic() >= until:
                raise
        pause()
