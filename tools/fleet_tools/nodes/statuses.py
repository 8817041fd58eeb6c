"""How a state file stands: what it holds, whom it met, and what a machine's folders have otherwise."""
from dataclasses import dataclass
from typing import List, Tuple

from ..faults import printable
from ..places import DIRECTORIES, place_of
from ..reports import shown_host
from .applying import Obstacle, differing, removed_places
from .files import Peer
from .histories import stamp
from .hosts import host_of
from .syncing import in_number
from .writing import Disk, found_below

# What a folder has otherwise than a host's tree, in the order in which it is told.
COUNTED = {"lacks": "lacks {}", "otherwise": "has {} otherwise", "removed": "still has {} that the state removed"}


@dataclass(frozen=True)
class Held:
    """How many places a state file has for the fleet, for how many of how many hosts, and how many removals."""

    fleet: int
    own: int
    hosts: int
    removals: int


@dataclass(frozen=True)
class Standing:
    """How a state file stands, and rows of a path, how the folder has it, and what stands in the way, if that is so; `apart` counts the paths of
    directories that aren't compared."""

    path: str
    node: Peer
    identity: str
    held: Held
    peers: Tuple[Peer, ...]
    host: str
    root: str
    rows: List[Tuple[str, str, str]]
    apart: int

    def count(self, what):
        """How many paths the folder has so."""
        return sum(it == what for _, it, _ in self.rows)

    def last_met(self):
        """The peer that was met last; nothing where none was."""
        return max((it for it in self.peers if it.seen), key=lambda it: it.seen, default=None)


def held_in(rows):
    """What rows of a state file come to."""
    places = [(place_of(it.place), it.length >= 0 or bool(it.target)) for it in rows]
    own = [place.host for place, is_there in places if is_there and place.host]
    return Held(sum(is_there for _, is_there in places) - len(own), len(own), len(set(own)), sum(not is_there for _, is_there in places))


def rows_of(differences, found):
    """Rows of what differs: the path, how, and what stands in the way, if that is so."""
    ways = {it: stands.why for it, stands in found.items() if isinstance(stands, Obstacle)}
    return [(it.path(), how, ways.get(it, "")) for it, how in differences]


def standing(state, named, root, is_all):
    """How a state file stands, compared with the folders of a host."""
    node, peers = state.peers()
    held, (host, _) = state.held(), host_of(named, Disk(root))
    tree, _ = state.tree(host)
    ranks = range(len(DIRECTORIES)) if is_all else range(1)
    wanted = {it: content for it, content in tree.items() if it.rank in ranks}
    removed = {it for it in removed_places(held, host) if it.rank in ranks}
    found = found_below(root, {*wanted, *removed})
    rows = rows_of(differing(wanted, removed, found), found)
    return Standing(state.path, node, state.identity(), held_in(held), tuple(peers), host, root, rows, len(tree) - len(wanted))


def lines_of(it, is_each):
    """The lines that tell how a state file stands."""
    yield f"state {printable(it.path)}"
    yield f"writer {it.node.writer}"
    yield f"identity {it.identity}"
    yield (f"holds {in_number(it.held.fleet, 'place')} of the fleet, {it.held.own:,} of {in_number(it.held.hosts, 'host')}, "
           f"{in_number(it.held.removals, 'removal')}")
    last = it.last_met()
    yield f"knows {in_number(len(it.peers), 'peer')}" + (f", met {last.writer} last, {stamp(last.seen)}" if last else ", met none")
    apart = f"; {in_number(it.apart, 'path')} of other directories left out" if it.apart else ""
    counts = [words.format(in_number(it.count(what), "path")) for what, words in COUNTED.items() if it.count(what)]
    yield f"{shown_host(it.host)} at {printable(it.root)}: {', '.join(counts) or 'nothing differs'}{apart}"
    if is_each:
        yield from (f"{what}: {path}{f': {why}' if why else ''}" for path, what, why in it.rows)


def objects_of(it, is_each):
    """The objects that tell the same."""
    last = it.last_met()
    yield {"state": it.path, "writer": it.node.writer, "identity": it.identity, "places": it.held.fleet, "host_places": it.held.own,
           "hosts": it.held.hosts, "removals": it.held.removals, "peers": len(it.peers), "last_met": last and last.writer,
           "met": last and stamp(last.seen), "host": it.host, "root": it.root, "left_out": it.apart,
           **{it_is: it.count(it_is) for it_is in COUNTED}}
    if is_each:
        yield from ({"path": path, "is": what, **({"why": why} if why else {})} for path, what, why in it.rows)
