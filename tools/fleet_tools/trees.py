"""Reads the unit load path below a root: what a store takes of it, and what is told of the rest."""
import os
import stat
from dataclasses import dataclass, field
from enum import Enum
from functools import reduce
from operator import or_
from typing import Dict, List

from .faults import Fault, printable
from .files import bytes_of, led_to
from .modes import through
from .places import DIRECTORIES, MOST_FILE_BYTES, MOST_NAME_BYTES, MOST_TARGET_BYTES, WORD, Content, Link, Place, is_unit_name

# What is /usr/lib/systemd/system where /lib is /usr/lib.
OLD_DIRECTORY = "/lib/systemd/system"

# Where a manager finds units that nobody wrote as files of the load path, and where old distributions have theirs.
OTHER_DIRECTORIES = {
    "/run/systemd/generator": "units that generators made",
    "/run/systemd/generator.early": "units that generators made",
    "/run/systemd/generator.late": "units that generators made",
    "/run/systemd/transient": "transient units",
    "/etc/systemd/system.control": "what `systemctl set-property` wrote",
    "/run/systemd/system.control": "what `systemctl set-property` wrote",
    "/etc/systemd/system.attached": "units of attached images",
    "/run/systemd/system.attached": "units of attached images",
    OLD_DIRECTORY: "units of a system whose /lib isn't /usr/lib",
}

NAME_RULE = f"its name isn't 1 to {MOST_NAME_BYTES} bytes of printable ASCII without spaces"
TARGET_RULE = f"its target isn't 1 to {MOST_TARGET_BYTES:,} bytes of printable ASCII without spaces"
EVERY = 500  # files between two looks of the progress line


class Grade(Enum):
    """What came of an entry that is told."""

    LEFT_OUT = "left out"
    UNREAD = "can't be read"
    TAKEN = "taken, but"
    EMPTY = "nothing to take"


@dataclass(frozen=True)
class Told:
    """An entry of a tree, what came of it, and why."""

    path: str
    grade: Grade
    why: str

    def __str__(self):
        return f"{printable(self.path)}: {self.grade.value}: {self.why}"


@dataclass
class Tree:
    """What stands below a root, for the fleet or for a host: what a store takes of it, the modes of its files, what is told, and how
    many links were taken as the files to which they lead."""

    root: str
    host: str = ""
    entries: Dict[Place, Content] = field(default_factory=dict)
    modes: Dict[Place, int] = field(default_factory=dict)
    told: List[Told] = field(default_factory=list)
    followed: int = 0

    def ordered(self):
        """The places with their contents, in the order of the store."""
        return sorted(self.entries.items())

    def lines(self):
        """What is told, a line each; of all empty folders one line."""
        yield from (str(it) for it in self.told if it.grade is not Grade.EMPTY)
        empty = [printable(it.path) for it in self.told if it.grade is Grade.EMPTY]
        if empty:
            yield f"{', '.join(empty)}: {Grade.EMPTY.value}: {'an empty folder' if len(empty) == 1 else f'{len(empty):,} empty folders'}"

    def followed_words(self):
        """What is told of links that were taken as files."""
        count = f"{self.followed:,} {'link is' if self.followed == 1 else 'links are'} taken as the {'file' if self.followed == 1 else 'files'}"
        return f"{printable(self.root)}: {count} to which {'it leads' if self.followed == 1 else 'they lead'}"

    def count(self, grade):
        """How many entries were told so."""
        return sum(it.grade is grade for it in self.told)


@dataclass(frozen=True)
class Spot:
    """A folder that is read: the directory that it belongs to, the folder's name in it (none for the directory itself), and where in the tree
    it really stands."""

    rank: int
    folder: str
    where: str

    def shown(self, name=""):
        """The path by which an entry is told."""
        return "/".join([DIRECTORIES[self.rank], *[it for it in (self.folder, name) if it]])


class Reader:
    """Reads one tree."""

    def __init__(self, root, host, progress, is_following):
        self.tree = Tree(root, host)
        self.is_following = is_following
        self.base = root.rstrip("/")
        self.progress = progress
        self.homes = {}
        self.masks = {}
        # where aliases may lead: also to directories that this tree lacks, since another one has them
        self.aliased = set(DIRECTORIES) if os.path.lexists(f"{self.base}/lib") else {*DIRECTORIES, OLD_DIRECTORY}

    def read(self):
        """Reads the whole tree."""
        if not os.path.isdir(self.tree.root):
            raise Fault(f"{printable(self.tree.root)}: no folder")
        spots = [it for it in map(self.spot_of, range(len(DIRECTORIES))) if it]
        self.aliased.update(self.homes)
        read = [self.read_folder(it) for it in spots]
        if not any(read):
            causes = [f"; {it}" for it in self.tree.told[:1]]
            raise Fault(f"{printable(self.tree.root)}: none of {', '.join(DIRECTORIES)} stands there and can be read{''.join(causes)}")
        for path, what in OTHER_DIRECTORIES.items():
            self.look_at_other(path, what)
        return self.tree

    def tell(self, path, grade, why):
        """Tells of an entry."""
        self.tree.told.append(Told(path, grade, why))

    def tell_unread(self, path, fault):
        """Tells of an entry that couldn't be read."""
        self.tell(path, Grade.UNREAD, fault.strerror or str(fault))

    def spot_of(self, rank):
        """Where a directory of the load path stands; nothing where there is none, or where it is another one under a second name."""
        path = DIRECTORIES[rank]
        try:
            where = led_to(self.base, path)
        except OSError as fault:
            self.tell_unread(path, fault)
            return None
        if where in self.homes:
            self.tell(path, Grade.LEFT_OUT, f"it is the same folder as {DIRECTORIES[self.homes[where]]}, and is read there")
            return None
        if not os.path.lexists(self.base + where):
            return None
        self.homes[where] = rank
        return Spot(rank, "", where)

    def read_folder(self, spot):
        """Reads a folder; false where that failed."""
        try:
            self.masks[spot.where] = through(os.stat(self.base + spot.where).st_mode)
            with os.scandir(self.base + spot.where) as it:
                found = sorted(it, key=lambda entry: entry.name)
        except OSError as fault:
            self.tell_unread(spot.shown(), fault)
            return False
        if not found and spot.folder:
            self.tell(spot.shown(), Grade.EMPTY, "an empty folder")
        for entry in found:
            if not WORD.fullmatch(entry.name) or len(entry.name) > MOST_NAME_BYTES:
                self.tell(spot.shown(entry.name), Grade.LEFT_OUT, NAME_RULE)
                continue
            try:
                self.read_entry(spot, entry)
            except OSError as fault:
                self.tell_unread(spot.shown(entry.name), fault)
        return True

    def read_entry(self, spot, entry):
        """Reads one entry of a folder."""
        if entry.is_symlink():
            self.read_link(spot, entry)
        elif entry.is_dir(follow_symlinks=False):
            self.read_subfolder(spot, entry.name, f"{spot.where}/{entry.name}")
        elif entry.is_file(follow_symlinks=False):
            self.read_file(spot, entry)
        else:
            self.tell(spot.shown(entry.name), Grade.LEFT_OUT, "neither a file nor a link nor a folder")

    def take(self, spot, name, content, mode=None):
        """Takes an entry, of a file with its mode, as far as the folder lets it count."""
        place = Place(self.tree.host, spot.rank, spot.folder, name)
        self.tree.entries[place] = content
        if mode is not None:
            self.tree.modes[place] = stat.S_IMODE(mode) & ~self.masks[spot.where]
        if len(self.tree.entries) % EVERY == 0:
            self.progress.tell(f"{self.tree.root}: {len(self.tree.entries):,} files and links")

    def read_subfolder(self, spot, name, where):
        """Reads a folder in a directory of the load path; one level deeper nothing is read."""
        if spot.folder:
            self.tell(spot.shown(name), Grade.LEFT_OUT, "a folder in a folder")
            return
        if is_unit_name(name):
            self.tell(spot.shown(name), Grade.TAKEN, "a folder where a unit's file is expected: what it holds is of no unit")
        self.read_folder(Spot(spot.rank, name, where))

    def read_file(self, spot, entry):
        """Takes a file, unless it is too large."""
        self.take_file(spot, entry.name, entry.path, entry.stat(follow_symlinks=False).st_mode)

    def take_file(self, spot, name, path, mode):
        """Takes the file at a path, unless it is too large; whether it was taken."""
        content = bytes_of(path, MOST_FILE_BYTES)
        if len(content) > MOST_FILE_BYTES:
            self.tell(spot.shown(name), Grade.LEFT_OUT, f"over {MOST_FILE_BYTES:,} bytes")
            return False
        self.take(spot, name, content, mode)
        return True

    def read_link(self, spot, entry):
        """Takes a link with its target, or reads the folder to which it leads."""
        target, path = os.readlink(entry.path), spot.shown(entry.name)
        is_dropin = spot.folder.endswith(".d") and entry.name.endswith(".conf") and entry.name != ".conf"
        if self.is_following and target != "/dev/null" and self.take_led_to(spot, entry.name, target, is_dropin):
            return
        if spot.folder:
            if is_dropin and target != "/dev/null":
                self.tell(path, Grade.LEFT_OUT, f"a drop-in that is a link, to {printable(target)}")
                return
        elif target != "/dev/null" and self.follow(spot, entry.name, target):
            return
        if not WORD.fullmatch(target) or len(target) > MOST_TARGET_BYTES:
            self.tell(path, Grade.LEFT_OUT, TARGET_RULE)
            return
        self.take(spot, entry.name, Link(target))

    def take_led_to(self, spot, name, target, is_dropin):
        """Takes the file to which a link of a drop-in's name leads, or one of a unit's name that leads out of the load path; false where there
        is none below the root, so that the link is read as one."""
        try:
            if not (is_dropin or not spot.folder and is_unit_name(name) and self.leads_away(spot, target)):
                return False
            where = led_to(self.base, f"{spot.where}/{name}")
            mode = os.lstat(self.base + where).st_mode & ~self.mask_above(where)
        except OSError:
            return False
        if not stat.S_ISREG(mode):
            return False
        self.tree.followed += self.take_file(spot, name, self.base + where, mode)
        return True

    def mask_above(self, path):
        """What the folders above a path of the tree take of the mode of its file."""
        parts = path.split("/")[1:-1]
        return reduce(or_, (through(os.lstat(f"{self.base}/{'/'.join(parts[: at + 1])}").st_mode) for at in range(len(parts))), 0)

    def leads_away(self, spot, target):
        """Whether a link of a directory leads to no directory of the load path. An alias is of what its own target names, wherever that leads."""
        return self.folder_of(spot, target) not in self.aliased

    def folder_of(self, spot, target):
        """The folder in which the target of a link stands."""
        return led_to(self.base, os.path.join(spot.where, os.path.dirname(target)))

    def follow(self, spot, name, target):
        """Looks where a link in a directory leads. True where that is a folder, which is then read in its place."""
        path = spot.shown(name)
        try:
            where = led_to(self.base, f"{spot.where}/{name}")
        except OSError as fault:
            self.tell(path, Grade.TAKEN, f"its way doesn't end: {fault.strerror}")
            return False
        if os.path.isdir(self.base + where):
            self.tell(path, Grade.TAKEN, f"a link to the folder {printable(where)}, which is read as if it stood here")
            self.read_subfolder(spot, name, where)
            return True
        if is_unit_name(name) and self.leads_away(spot, target):
            away = f"{self.folder_of(spot, target)}/{os.path.basename(target)}"
            self.tell(path, Grade.TAKEN, f"it leads out of the load path, to {printable(away)}, where nothing is read")
        return False

    def look_at_other(self, path, what):
        """Tells of a directory that isn't part of the load path here, where it holds something."""
        try:
            where = led_to(self.base, path)
            names = [] if where in self.homes else os.listdir(self.base + where)
        except (FileNotFoundError, NotADirectoryError):
            return
        except OSError as fault:
            self.tell_unread(path, fault)
            return
        if names:
            self.tell(path, Grade.LEFT_OUT, f"{what}; {len(names)} there")


def named_root(word):
    """The name and the root of a word that is `NAME=ROOT`, or, without a name, `ROOT`."""
    name, equals, root = word.partition("=")
    return (name, root) if equals and not os.path.isdir(word) else ("", word)


def read_tree(root, host, progress, is_following=False):
    """Reads the tree below a root, for a host or, without one, for the fleet; by following, links that lead out of the load path are taken as
    the files to which they lead."""
    return Reader(root, host, progress, is_following).read()
