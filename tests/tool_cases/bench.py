"""What cases work with: a room for trees, and runs of `tools/fleet`."""
import atexit
import os
import shutil
import subprocess
import sys
import tarfile
import tempfile
from dataclasses import dataclass

from repository import ROOT

from .calls import Call, Ran

FLEET = os.path.join(ROOT, "tools", "fleet")


def unpacked():
    """The trees of tests/trees.tar, which the gate would refuse as folders, since they have links: in a folder that goes at the end."""
    room = tempfile.mkdtemp(prefix="trees-")
    atexit.register(shutil.rmtree, room, ignore_errors=True)
    with tarfile.open(os.path.join(ROOT, "tests", "trees.tar")) as archive:
        archive.extractall(room)
    return os.path.join(room, "trees")


TREES = unpacked()
E, R, L, U = "/etc/systemd/system", "/run/systemd/system", "/usr/local/lib/systemd/system", "/usr/lib/systemd/system"

os.umask(0o022)  # modes are compared

LINKS = 20_000  # names of one file


@dataclass(frozen=True)
class Link:
    """A link that a tree is made with."""

    target: str


def started(words, around, **more):
    """Runs `tools/fleet` in these surroundings, to its end."""
    ran = subprocess.run([sys.executable, FLEET, *words], env=around, check=False, **{"stdout": subprocess.PIPE, "stderr": subprocess.PIPE, **more})
    return Ran(ran.returncode, ran.stdout, ran.stderr)


class Bench:
    """The program that is asked, and a room of its own for each case."""

    def __init__(self, program, room):
        self.program, self.room = program, room

    def fleet(self, *words, status=0, env=(), **more):
        """Runs `fleet`, which must end with this status: `tools/fleet` itself where more is said of how it runs, and else a fork."""
        around = {**os.environ, "FLEET_SHELL": self.program, **dict(env)}
        found = started(words, around, **more) if more else Call(words, around, is_piped=True).ended()
        same(found.status, status, f"status of {words}: {found}")
        return found

    def tree(self, name, entries):
        """Makes a tree: from paths to texts, bytes, links, or nothing for a folder. Its root."""
        root = os.path.join(self.room, name)
        for path, content in entries.items():
            at = os.fsencode(root) + (path if isinstance(path, bytes) else path.encode())
            os.makedirs(at if content is None else os.path.dirname(at), exist_ok=True)
            if isinstance(content, Link):
                os.symlink(content.target, at)
            elif content is not None:
                with open(at, "wb") as file:
                    file.write(content if isinstance(content, bytes) else content.encode())
        return root

    def many(self, name, count, text):
        """Makes a tree of so many units in one folder, all with this text. Its root."""
        root = self.tree(name, {f"{U}/u00000.service": text})
        for number in range(1, count):
            # a file has only so many names
            same_as = f"{root}{U}/u{number // LINKS * LINKS:05}.service"
            at = f"{root}{U}/u{number:05}.service"
            if at == same_as:
                shutil.copyfile(f"{root}{U}/u00000.service", at)
            else:
                os.link(same_as, at)
        return root

    def path(self, name):
        """A path in the room."""
        return os.path.join(self.room, name)

    def counting(self):
        """A program that is the program, and the file to which it adds a line for each run."""
        count, wrapper = self.path("count"), self.path("counting")
        with open(wrapper, "w", encoding="utf-8") as file:
            file.write(f'#!/bin/sh\necho run >> "{count}"\nexec "{self.program}"\n')
        os.chmod(wrapper, 0o755)
        return wrapper, count


def same(found, wanted, what=""):
    """Fails where what was found isn't what is wanted."""
    if found != wanted:
        raise AssertionError(f"{what}\n--- wanted\n{shown(wanted)}\n--- found\n{shown(found)}")


def shown(value):
    """A value for a reader, a list line by line, and of what is long its begin."""
    text = "\n".join(map(str, value)) if isinstance(value, (list, tuple)) else str(value)
    return text if len(text) < 4000 else text[:4000] + ".."
