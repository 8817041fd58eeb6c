"""What stands in the log of a state file, and what a version of a place put there."""
import time

from ..faults import Fault, Status
from ..places import Link, place_of, unit_asked

# The folders in which a link pulls its namesake in.
PULLING = (".wants", ".requires", ".upholds")


def stamp(seconds):
    """A time in seconds since 1970, in words."""
    try:
        return time.strftime("%Y-%m-%dT%H:%M:%SZ", time.gmtime(seconds))
    except (OverflowError, OSError, ValueError):
        return f"@{seconds}"


def number_of(version):
    """A version as it is compared: its counter, then its writer."""
    counter, writer = version.split(".")
    return int(counter), int(writer)


def names_of(unit):
    """A unit's name, and its template's."""
    stem, _, kind = unit.rpartition(".")
    prefix, at, instance = stem.partition("@")
    return {unit, f"{prefix}@.{kind}"} if at and instance else {unit}


def dropin_folders(unit):
    """The folders whose files are drop-ins of a unit: of its name, of the names that it begins with, up to a dash, and of its type."""
    found = set()
    for name in names_of(unit):
        stem, _, kind = name.rpartition(".")
        prefix, at, rest = stem.partition("@")
        ends = [it for it in range(1, len(prefix)) if prefix[it - 1] == "-"]
        found |= {f"{name}.d", f"{kind}.d", *(f"{prefix[:it]}{at}{rest}.{kind}.d" for it in ends)}
    return found


def is_of(place, unit):
    """Whether a place is of a unit: its file or its template's, a drop-in, a link that has it pulled in, or one by which it pulls others in."""
    at, names = place_of(place), names_of(unit)
    if not at.folder:
        return at.name in names
    if at.folder in dropin_folders(unit):
        return True
    owner, dot, ending = at.folder.rpartition(".")
    return dot + ending in PULLING and (at.name in names or owner in names)


def logged(state, word):
    """The edits in the log, by time and then version, each with whether it stands now at its place: all, those of a place, or of a unit."""
    rows = state.log()
    last = {}
    for it in rows:
        last[it.place] = max(last.get(it.place, (0, 0)), number_of(it.version))
    if word is not None:
        wanted = {it for it in last if (it == word if "/" in word else is_of(it, unit_asked(word)))}
        rows = [it for it in rows if it.place in wanted]
    return [(it, number_of(it.version) == last[it.place]) for it in sorted(rows, key=lambda it: (it.time, number_of(it.version), it.place))]


def logged_line(row, stands):
    """The line of an edit in the log."""
    return f"{stamp(row.time)} {row.version} {row.place} {row.what}{' *' if stands else ''}"


def logged_object(row, stands):
    """The object of an edit in the log."""
    kind, _, told = row.what.partition(" ")
    what = {kind: int(told) if kind == "file" else told or True}
    return {"time": stamp(row.time), "version": row.version, "place": row.place, **what, "stands": stands}


def content_of(state, place, version):
    """What the edit of a place with a version put there: bytes, a link, or nothing where it removed."""
    found = next((it for it in state.log() if it.place == place and number_of(it.version) == number_of(version)), None)
    if not found:
        raise Fault(f"{place}: the log has no edit {version} of it; `fleet log {place}` tells which there are", Status.WRONG)
    if found.what == "gone":
        return None
    content = state.content(place, found.version)
    return Link(content.decode("ascii")) if found.what.startswith("link ") else content


def peer_line(peer, is_here=False):
    """The line of a node."""
    return f"{peer.writer} {peer.mark} {'here' if is_here else stamp(peer.seen) if peer.seen else 'told'}"


def peer_object(peer, is_here=False):
    """The object of a node."""
    return {"writer": peer.writer, "mark": peer.mark, **({"here": True} if is_here else {"met": stamp(peer.seen) if peer.seen else None})}
