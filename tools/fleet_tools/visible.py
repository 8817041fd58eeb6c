"""What of the load path a host sees, and which units' files these are."""
from typing import NamedTuple

from .places import KINDS, Content, Link, Place, is_unit_name


class Visible(NamedTuple):
    """What stands at a path of the load path for a host."""

    place: Place
    content: Content


def visible(trees, host):
    """What a host sees of each folder and name: its own before the fleet's in a directory, and an earlier directory before a later one."""
    rows = [(place.rank, not place.host, place, content) for tree in trees if tree.host in ("", host) for place, content in tree.entries.items()]
    found = {}
    for _, _, place, content in sorted(rows, key=lambda it: it[:2]):
        found.setdefault((place.folder, place.name), Visible(place, content))
    return found


def kind_of_file(place):
    """The type of the units that read a file; nothing where it is no unit's."""
    if not place.folder:
        return place.name.rpartition(".")[2] if is_unit_name(place.name) else None
    owner, _, ending = place.folder.rpartition(".")
    kind = owner.rpartition(".")[2]
    return kind if ending == "d" and kind in KINDS and place.name.endswith(".conf") else None


def unit_files(seen):
    """The files of units among what is visible, each with the type of its units; neither links nor masks."""
    rows = [(it, kind_of_file(it.place)) for it in seen.values() if it.content and not isinstance(it.content, Link)]
    return [(it, kind) for it, kind in rows if kind]
