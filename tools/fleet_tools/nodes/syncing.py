"""Syncs of a state file: with whom, and what is told of each."""
import re
import socket
import sys
from dataclasses import dataclass
from typing import Callable

from ..faults import Fault, Status, printable
from ..reports import say, say_objects, tell
from .exchanges import Failed, patiently, unix_socket, with_socket, with_ssh
from .files import FIRST
from .folder_syncs import FolderSync, by_folder
from .programs import NodeFault

PORT = 7446
ADDRESS = re.compile(r"(?:\[([0-9A-Fa-f:.%\w]+)\]|([A-Za-z0-9._-]+))(?::([0-9]{1,5}))?|([0-9A-Fa-f:.]*:[0-9A-Fa-f:.]*:[0-9A-Fa-f:.%\w]*)")
# What ssh takes as a machine and not as an option.
REACHED = re.compile("[!-,.-~][!-~]*")


@dataclass(frozen=True)
class Target:
    """With whom a state file is synced: the name by which that is told, and what does it."""

    name: str
    work: Callable


def of_host(word, _asked=None):
    """A machine whose systemd listens at a port."""
    found = ADDRESS.fullmatch(word)
    port = int(found[3] or PORT) if found else 0
    if not 0 < port < 65_536 or word.startswith("-"):
        raise Fault(f"{printable(word)}: no HOST or HOST:PORT")
    at = (found[1] or found[2] or found[4], port)
    return Target(word, lambda state, asked: with_socket(state, lambda: socket.create_connection(at, timeout=asked.seconds), asked.seconds))


def of_ssh(word):
    """A machine that ssh reaches."""
    if not REACHED.fullmatch(word):
        raise Fault(f"{printable(word)}: no machine that ssh reaches")
    return Target(word, lambda state, asked: with_ssh(state, word, asked.seconds, asked.state_there or FIRST))


def of_socket(word):
    """A socket of this machine."""
    return Target(printable(word), lambda state, asked: with_socket(state, lambda: unix_socket(word, asked.seconds), asked.seconds))


def of_folder(word):
    """A folder that is carried."""
    return Target(printable(word), lambda state, asked: by_folder(state, word))


KINDS = {"ssh": of_ssh, "dir": of_folder, "socket": of_socket}


def of_line(line):
    """The target that a line of a file names."""
    kind, colon, rest = line.partition(":")
    made = KINDS.get(kind) if colon and rest and not rest.isdigit() else None
    return made(rest) if made else of_host(line)


def targets_in(path):
    """The targets that the lines of a file name."""
    with sys.stdin if path == "-" else open(path, encoding="utf-8", errors="surrogateescape") as file:
        lines = [it.strip() for it in file.read().split("\n")]
    found = []
    for number, line in enumerate(lines, 1):
        if line and not line.startswith("#"):
            try:
                found.append(of_line(line))
            except Fault as fault:
                raise Fault(f"{printable(path)}: line {number}: {fault}") from fault
    return found


def targets_of(asked):
    """All targets that a call names."""
    named = [(of_host, asked.hosts), (of_ssh, asked.ssh), (of_socket, asked.socket), (of_folder, asked.dir)]
    found = [make(word) for make, words in named for word in words]
    found += [it for path in asked.source for it in targets_in(path)]
    if not found and not asked.source:
        raise Fault("with whom? HOST[:PORT], --ssh [USER@]HOST, --socket PATH, --dir FOLDER or --from FILE tells")
    return found


@dataclass(frozen=True)
class Outcome:
    """What came of a sync: with whom, how many places changed here, of that what each node's pieces changed, what was passed over, and why it
    failed, if it did, with the code of a refusal."""

    name: str
    changed: int
    done: FolderSync
    why: str = ""
    code: str = ""

    def is_well(self):
        """Whether nothing went wrong."""
        return not self.why and not self.done.passed

    def lines(self):
        """The lines that are printed of it."""
        if not self.why:
            yield from (f"{self.name}: {it}: {in_places(count)}" for it, count in self.done.changed.items())
            yield f"{self.name}: {in_places(self.changed) if self.changed else 'nothing new here'}"

    def told(self):
        """The lines that are told of it."""
        yield from (f"{self.name}: {it}" for it in self.done.passed)
        if self.why:
            yield f"{self.name}: {self.why}{f'; {in_places(self.changed)} before that' if self.changed else ''}"

    def object(self):
        """The object of it."""
        more = {"of": self.done.changed} if self.done.changed else {}
        passed = {"passed": self.done.passed} if self.done.passed else {}
        why = {"failed": self.why, **({"refused": self.code} if self.code else {})} if self.why else {}
        return {"with": self.name, "changed": self.changed, **more, **passed, **why}


def in_number(count, what):
    """So many of something, in words."""
    return f"{count:,} {what if count == 1 else f'{what}s'}"


def in_places(count):
    """How many places changed, in words."""
    return f"{in_number(count, 'place')} changed here"


def versions_in(state):
    """The version that stands at each place."""
    return {it.place: it.version for it in state.held()}


def synced(state, target, asked, before):
    """Syncs with one. What came of it, and the versions that stand then; those that stood before it are given."""
    done, why, code = FolderSync(), "", ""
    try:
        done = patiently(lambda: target.work(state, asked)) or done
    except Failed as failed:
        why, code = str(failed), failed.code
    except NodeFault as fault:
        why, code = str(fault), fault.code
    after = versions_in(state)
    changed = sum(before.get(place) != version for place, version in after.items())
    return Outcome(target.name, changed, done, why, code), after


def sync_all(asked, state, targets, progress):
    """Syncs with all, one after another, and tells what came of each. The status."""
    held, status = versions_in(state), Status.WELL
    for number, target in enumerate(targets, 1):
        progress.tell(f"{number} of {len(targets)}: {target.name}")
        outcome, held = synced(state, target, asked, held)
        progress.end()
        for it in outcome.told():
            tell(f"{asked.verb}: {it}")
        if asked.json:
            say_objects([outcome.object()])
        else:
            say(outcome.lines())
        sys.stdout.flush()
        status = status if outcome.is_well() else Status.WRONG
    return status
