"""What is to be done so that a root has what a host sees: steps, from what is wanted, what stands there, and what the fleet wrote before."""
import re
from dataclasses import dataclass, replace
from enum import Enum
from typing import Dict, List, Set, Tuple, Union

from ..places import Content, Place, place_of
from ..trees import Tree
from .manifests import Folder, Manifest, folder_path, print_of


# Names under which something is written before it is put in its place: no unit's, and no drop-in's.
STAGED = ".fleet-apply-"
STAGED_NAME = re.compile(r"\.fleet-apply-[0-9a-f]{16}")


def is_staged(name):
    """Whether a name is one under which something is written before it is in its place."""
    return STAGED_NAME.fullmatch(name) is not None


class Do(Enum):
    """What is done at a place."""

    WRITE = "write"
    REMOVE = "remove"
    KEEP = "keep"


NEW, CHANGED, TAKEN = "new", "changed", "taken over"
FOREIGN = "the fleet didn't write it"
BY_NOW = "something else stands there by now"
SINCE = "it was changed since the fleet wrote it"
GONE, EMPTY = "the fleet has it no more", "empty"
STAGE = "apply has names of this kind for what isn't in its place yet"
NAMED = "a file, a link or a folder can't have the name of another"


@dataclass(frozen=True)
class Obstacle:
    """What stands in the way at a place, in words: neither a file nor a link, or something that isn't to be gone through."""

    why: str


# What stands at a place.
Found = Union[Content, Obstacle, None]


@dataclass(frozen=True)
class Step:
    """What is done at a place and why, what stands there, and what is written."""

    do: Do
    place: Place
    why: str
    found: Found = None
    content: Content = b""

    def line(self):
        """The line on it."""
        return f"{self.do.value} {self.place.path()}: {self.why}"

    def object(self):
        """The object of it."""
        return {"do": self.do.value, "path": self.place.path(), "why": self.why}


@dataclass(frozen=True)
class Work:
    """The steps; the folders that are made and those that are removed; what the fleet has while they are taken, and afterwards."""

    steps: List[Step]
    made: Set[Folder]
    emptied: List[Folder]
    before: Manifest
    after: Manifest

    def done(self, do):
        """The steps that do this."""
        return [it for it in self.steps if it.do is do]

    def changes(self):
        """The steps that change something."""
        return [it for it in self.steps if it.do is not Do.KEEP]

    def is_needed(self):
        """Whether anything is to be written, be it the manifest."""
        return bool(self.changes() or self.emptied or self.before != self.after)

    def meanwhile(self):
        """What the fleet has while the steps are taken: of each place all that may stand there."""
        places = {*self.before.prints, *self.after.prints}
        prints = {it: tuple(dict.fromkeys([*self.before.prints.get(it, ()), *self.after.prints.get(it, ())])) for it in places}
        return Manifest(prints, self.before.folders | self.after.folders, True)

    def lines(self):
        """The lines on the steps, in the order in which they are taken, and what is kept."""
        emptied = [f"{Do.REMOVE.value} {folder_path(it)}/: {EMPTY}" for it in self.emptied]
        return [*(it.line() for it in self.changes()), *emptied, *(it.line() for it in self.done(Do.KEEP))]

    def objects(self):
        """The objects of the same."""
        emptied = [{"do": Do.REMOVE.value, "path": f"{folder_path(it)}/", "why": EMPTY} for it in self.emptied]
        return [*(it.object() for it in self.changes()), *emptied, *(it.object() for it in self.done(Do.KEEP))]


@dataclass(frozen=True)
class Ground:
    """What stands below a root: of places, the names in folders that the fleet made and in those that it needs, each nothing where it lacks."""

    found: Dict[Place, Found]
    names: Dict[Folder, Set[str]]


def work_of(wanted: Dict[Place, Content], ground: Ground, manifest: Manifest, ranks, is_adopting):
    """The work so that the directories of these ranks have what is wanted. What the manifest tells of others stays as it is."""
    steps, prints = [], {it: those for it, those in manifest.prints.items() if it.rank not in ranks}
    blocked = {it: Step(Do.KEEP, it, why) for it, why in unwritable(wanted)}
    for place in sorted({*wanted, *(it for it in manifest.prints if it.rank in ranks)}):
        known, content = manifest.prints.get(place, ()), wanted.get(place)
        step = blocked.get(place) or step_at(place, content, ground.found[place], known, is_adopting)
        steps += [step] if step else []
        if step and step.do is Do.KEEP:
            prints[place] = known
        elif content is not None and (step or known or is_adopting):
            prints[place] = (print_of(content),)
    steps.sort(key=lambda it: [*Do].index(it.do))
    made = {(it.place.rank, it.place.folder) for it in steps if it.do is Do.WRITE and it.place.folder} - ground.names.keys()
    emptied = emptied_by(steps, ground, manifest, ranks)
    folders = {it for it in manifest.folders if it[0] not in ranks or it in ground.names} - {*emptied} | made
    return Work(steps, made, emptied, manifest, Manifest({it: those for it, those in prints.items() if those}, frozenset(folders)))


def unwritable(wanted):
    """The wanted places that can't be written, and why: in folders whose name something else has that is wanted, and under names of apply's own."""
    names = {(it.rank, it.name) for it in wanted if not it.folder}
    yield from ((it, NAMED) for it in wanted if it.folder and (it.rank, it.folder) in names)
    yield from ((it, STAGE) for it in wanted if is_staged(it.name))


def step_at(place, content, found, known, is_adopting):
    """The step at a place, for what is wanted there or nothing, what stands there, and the prints that the manifest has of it; nothing where
    all is as it is to be."""
    if isinstance(found, Obstacle):
        return Step(Do.KEEP, place, found.why, found)
    if found == content:
        return None
    if found is None:
        return Step(Do.WRITE, place, NEW, None, content)
    is_own = print_of(found) in known
    if not is_own and not is_adopting:
        return Step(Do.KEEP, place, SINCE if known else FOREIGN, found)
    if content is None:
        return Step(Do.REMOVE, place, GONE, found)
    return Step(Do.WRITE, place, CHANGED if is_own else TAKEN, found, content)


def emptied_by(steps, ground, manifest, ranks):
    """The folders that the fleet made and in which nothing stands when the steps are done, in order."""
    gone, come = ({(it.place.rank, it.place.folder, it.place.name) for it in steps if it.do is do} for do in (Do.REMOVE, Do.WRITE))
    filled = {it[:2] for it in come}
    mine = [it for it in sorted(manifest.folders) if it[0] in ranks and it in ground.names and it not in filled]
    return [it for it in mine if not any((*it, name) not in gone for name in ground.names[it])]


def tree_after(tree: Tree, work: Work):
    """A tree as it is when the work is done."""
    changed = {it.place for it in work.changes()}
    entries = {it: content for it, content in tree.entries.items() if it not in changed}
    entries.update({it.place: it.content for it in work.done(Do.WRITE)})
    paths = {it.path() for it in changed}
    return replace(tree, entries=entries, told=[it for it in tree.told if it.path not in paths])


def differing(wanted: Dict[Place, Content], removed: Set[Place], found: Dict[Place, Found]) -> List[Tuple[Place, str]]:
    """What differs between a host's tree and a root's folders, in the order of places: of what is wanted what `lacks` there or is `otherwise`,
    and of what the state removed what stands there all the same, `removed`. `found` is of both, as `writing.found_below` has it."""
    rows = [(it, "lacks" if found[it] is None else "otherwise") for it, content in wanted.items() if found[it] != content]
    rows += [(it, "removed") for it in removed - wanted.keys() if not (found[it] is None or isinstance(found[it], Obstacle))]
    return sorted(rows)


def removed_places(held, host):
    """The places that a host sees as removed, the fleet's as its own: `held` are what a state holds, removals too."""
    gone = [place_of(it.place) for it in held if it.length < 0 and not it.target]
    return {it._replace(host="") for it in gone if it.host in ("", host)}
