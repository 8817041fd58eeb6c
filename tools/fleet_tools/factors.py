"""What the trees of hosts share, given once to the fleet; each host keeps what it has otherwise, and sees what it saw."""
from collections import Counter
from functools import reduce
from operator import and_
from typing import List, NamedTuple

from .faults import Fault
from .places import Link
from .trees import Tree

# What the folders end in whose links name units.
LINK_FOLDERS = (".wants", ".requires", ".upholds")
MASK = Link("/dev/null")


class Factored(NamedTuple):
    """The fleet's tree and those of the hosts, and how many places the fleet has of theirs now."""

    trees: List[Tree]
    shared: int


def hides(place, content):
    """Whether what a host has of its own at a place hides whatever the fleet has there: in folders of links a link does, elsewhere a file or
    a mask. Others are passed over for some questions, and then the fleet's is seen."""
    if place.folder.endswith(LINK_FOLDERS):
        return isinstance(content, Link)
    return isinstance(content, bytes) or content == MASK


def shared_at(place, contents, count):
    """What at least half of so many hosts have at a place, where all have something and what the others have hides it; else nothing."""
    if len(contents) < count:
        return None
    content, times = Counter(contents).most_common(1)[0]
    is_shared = times >= 2 and 2 * times >= count and all(it == content or hides(place, it) for it in contents)
    return content if is_shared else None


def shared_by(trees):
    """The contents that become the fleet's, by the fleet's places. Of files with one name in several folders of a directory the folder decides
    only among those of a host or among the fleet's: so these are shared where all hosts have the same."""
    at = {}
    for tree in trees:
        for place, content in tree.entries.items():
            at.setdefault(place._replace(host=""), []).append(content)
    found = {place: shared_at(place, contents, len(trees)) for place, contents in at.items()}
    rows = {}
    for place in at:
        if place.folder:
            rows.setdefault((place.rank, place.name), []).append(place)
    for places in rows.values():
        is_one = all(found[it] is not None and len(set(at[it])) == 1 for it in places)
        if len(places) > 1 and not is_one:
            found.update(dict.fromkeys(places))
    return {place: content for place, content in found.items() if content is not None}


def factored(trees):
    """The trees of hosts, with what they share in a tree of the fleet."""
    if any(not it.host for it in trees):
        raise Fault("--factor makes the fleet's tree of the hosts': give trees of hosts alone")
    shared = shared_by(trees)
    modes = {place: [] for place in shared}
    for tree in trees:
        for place, mode in tree.modes.items():
            modes.get(place._replace(host=""), []).append(mode)
    fleet = Tree("", "", shared, {place: reduce(and_, found) for place, found in modes.items() if found})
    return Factored([fleet, *(own_tree(it, shared) for it in trees)], len(shared))


def own_tree(tree, shared):
    """What a host keeps for its own."""
    entries = {place: content for place, content in tree.entries.items() if shared.get(place._replace(host="")) != content}
    return Tree(tree.root, tree.host, entries, {place: mode for place, mode in tree.modes.items() if place in entries}, tree.told)
