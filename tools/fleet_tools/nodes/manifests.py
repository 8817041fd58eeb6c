"""What the fleet wrote below a root: the rows of a manifest, from bytes and to bytes."""
import hashlib
import re
from dataclasses import dataclass, field
from typing import Dict, FrozenSet, Tuple

from ..faults import Fault, cut
from ..places import DIRECTORIES, MOST_NAME_BYTES, Content, Link, Place

# The first line of a manifest: of one that tells all as it is, and of one beside which changes were begun and may not be done.
DONE, BEGUN = "fleet-apply 1", "fleet-apply 1 begun"

ROW = re.compile(r"(file [0-9a-f]{64}|link [!-~]{1,4095}|folder) ([!-~]+)")
FOLDER = "folder"

# A folder in one of the four directories: the number of the directory, and its name.
Folder = Tuple[int, str]


@dataclass(frozen=True)
class Manifest:
    """What the fleet wrote: by place the prints of what it has there, of which one stands; the folders that it made; and whether changes were
    begun that may not be done."""

    prints: Dict[Place, Tuple[str, ...]] = field(default_factory=dict)
    folders: FrozenSet[Folder] = frozenset()
    is_begun: bool = False

    def text(self):
        """Its bytes: a line at the head, then a row each, in the order of places."""
        rows = [f"{it} {place.path()}" for place, prints in sorted(self.prints.items()) for it in prints]
        rows += [f"{FOLDER} {folder_path(it)}" for it in sorted(self.folders)]
        return "".join(f"{it}\n" for it in [BEGUN if self.is_begun else DONE, *rows]).encode("ascii")


def print_of(content: Content):
    """The print of what stands at a place: of a file that of its bytes, of a link its target."""
    return f"link {content.target}" if isinstance(content, Link) else f"file {hashlib.sha256(content).hexdigest()}"


def folder_path(folder):
    """The path of a folder in one of the four directories."""
    return f"{DIRECTORIES[folder[0]]}/{folder[1]}"


def parts_of(path):
    """A directory's number and what a path has below it: one name or two; nothing where it isn't such a path."""
    for rank, directory in enumerate(DIRECTORIES):
        if path.startswith(f"{directory}/"):
            parts = path[len(directory) + 1 :].split("/")
            is_sound = len(parts) <= 2 and all(is_name(it) for it in parts)
            return (rank, parts) if is_sound else None
    return None


def is_name(part):
    """Whether a part of a path names something in a folder."""
    return 0 < len(part) <= MOST_NAME_BYTES and part not in (".", "..")


def manifest_of(text):
    """The manifest with these bytes; a fault where they are none."""
    lines = text.decode("latin-1").split("\n")
    if lines[0] not in (DONE, BEGUN) or lines[-1]:
        raise Fault(f"its first line is `{cut(lines[0])}`, and is to be `{DONE}`" if lines[0] not in (DONE, BEGUN) else "its last line has no end")
    prints, folders = {}, set()
    for number, line in enumerate(lines[1:-1], 2):
        row = ROW.fullmatch(line)
        found = parts_of(row[2]) if row else None
        if not found or row[1] == FOLDER and len(found[1]) != 1:
            raise Fault(f"line {number} is no row of a file, a link or a folder: {cut(line)}")
        rank, parts = found
        if row[1] == FOLDER:
            folders.add((rank, parts[0]))
        else:
            place = Place("", rank, parts[0] if len(parts) == 2 else "", parts[-1])
            prints[place] = tuple(dict.fromkeys([*prints.get(place, ()), row[1]]))
    return Manifest(prints, frozenset(folders), lines[0] == BEGUN)
