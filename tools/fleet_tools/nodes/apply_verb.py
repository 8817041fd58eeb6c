"""`fleet apply`: what a host sees of a state becomes what its folders have."""
import os
import shutil
import subprocess
import sys
from dataclasses import dataclass
from typing import Dict, List

from ..faults import Fault, Status, cut, printable
from ..places import DIRECTORIES, Content, Place
from ..profiles import Profile
from ..program import program_of
from ..reports import say, say_objects, shown_host, tell
from ..trees import Grade, Tree, read_tree
from . import objections
from .applying import BY_NOW, Do, Step, is_staged, tree_after, work_of
from .effects import effects_of
from .files import NodeFile
from .hosts import host_of
from .verbs import state_of
from .writing import Disk, NotWritten, carry_out, manifest_after

MANAGER, MOST_SECONDS = "systemctl", 600
LEFT = "left by a run that was killed"
BEGUN = "# an apply before this one was begun and not done: what it told to reload and restart counts too"


@dataclass(frozen=True)
class Aim:
    """What a run is about: the state, the host and by what it is known, whether the state has anything of its own for it, what it sees, with crossed
    units, and of that what is to be written, in the directories of these ranks."""

    node: NodeFile
    host: str
    by: str
    has_own: bool
    entries: Dict[Place, Content]
    crossed: List[str]
    ranks: range

    def wanted(self):
        """What is to be written, by place."""
        return {it: content for it, content in self.entries.items() if it.rank in self.ranks}

    def head(self):
        """The line at the head."""
        count, left_out = len(self.entries), len(self.entries) - len(self.wanted())
        words = [f"# {shown_host(self.host)} ({self.by})", ", of which the state has nothing of its own" if self.host and not self.has_own else "",
                 f": {count:,} {'file or link' if count == 1 else 'files and links'}",
                 f"; {left_out:,} of them in directories that are left out (--all-directories)" if left_out else ""]
        return "".join(words)

    def object(self):
        """The object of the same."""
        count = len(self.entries)
        return {"host": self.host, "by": self.by, "has_own": self.has_own, "places": count, "left_out": count - len(self.wanted())}


class Report:
    """What is told on standard output: lines, or with --json objects."""

    def __init__(self, is_json):
        self.is_json = is_json

    def put(self, lines, objects):
        """Tells this, now."""
        if self.is_json:
            say_objects(objects)
        else:
            say(lines)
        sys.stdout.flush()

    def head(self, aim, manifest):
        """Tells what the run is about, and whether one before it wasn't done."""
        self.put([aim.head(), *([BEGUN] if manifest.is_begun else [])], [{**aim.object(), "is_begun": manifest.is_begun}])

    def work(self, work, leftovers):
        """Tells the steps."""
        lines = [f"{Do.REMOVE.value} {printable(it)}: {LEFT}" for it in leftovers]
        objects = [{"do": Do.REMOVE.value, "path": it, "why": LEFT} for it in leftovers]
        self.put([*lines, *work.lines()], [*objects, *work.objects()])

    def effects(self, effects, host):
        """Tells what changes for units, and what is to be done then."""
        changes, deeds = effects.changes, {it: those for it, those in effects.deeds.items() if those}
        lines = [line for at, those in changes.items() for line in (at, *(line for it in those for line in it.lines()))]
        lines += [f"{it}: {' '.join(those)}" for it, those in deeds.items()]
        self.put([Profile.MANAGER.head(), *lines] if lines else [],
                 [*(it.object([host]) for those in changes.values() for it in those), *({"do": it, "units": those} for it, those in deeds.items())])

    def against(self, lines, words):
        """Tells why the work is better not done, and what is done then."""
        self.put([], [{"against": it} for it in lines])
        for it in [*lines, *([words] if lines and words else [])]:
            tell(f"apply: {it}")

    def left(self, steps):
        """Tells the steps that weren't taken after all."""
        kept = [Step(Do.KEEP, it.place, BY_NOW) for it in steps]
        self.put([it.line() for it in kept], [it.object() for it in kept])

    def counts(self, work, left, is_done):
        """Tells how many places were written, removed and kept, or would be."""
        written, removed = (sum(it.do is do and it not in left for it in work.steps) for do in (Do.WRITE, Do.REMOVE))
        kept = len(work.done(Do.KEEP)) + len(left)
        words = f"{written:,} written, {removed:,} removed" if is_done else f"nothing is written; {written:,} to write, {removed:,} to remove"
        self.put([f"{words}, {kept:,} kept"], [{"written": written, "removed": removed, "kept": kept, "is_done": is_done}])


def tree_of(disk, progress):
    """The tree below a root, without what runs left that were killed; an empty one where none of its directories is there."""
    is_there = any(os.path.lexists(disk.root.rstrip("/") + it) for it in DIRECTORIES)
    tree = read_tree(disk.root, "", progress) if is_there else Tree(disk.root)
    tree.entries = {it: content for it, content in tree.entries.items() if not is_staged(it.name)}
    progress.end()
    for it in tree.told:
        if it.grade is Grade.UNREAD:
            tell(f"{it}: it isn't known what it does")
    return tree


def aim_of(asked, disk):
    """What a run is about."""
    node, (host, by) = state_of(asked), host_of(asked.host, disk)
    entries, crossed = node.tree(host)
    has_own = any(it.place.startswith(f"{host}:") for it in node.held()) if host else False
    return Aim(node, host, by, has_own, entries, crossed, range(len(DIRECTORIES) if asked.all_directories else 1))


def apply(asked, progress):
    """`fleet apply`: writes what a host sees of a state into its folders."""
    disk, report = Disk(asked.root), Report(asked.json)
    if asked.reload and disk.root != "/":
        raise Fault("--reload is of the machine itself: it goes with no other --root")
    if not asked.dry_run:
        disk.lock(False)
    aim, (manifest, known) = aim_of(asked, disk), disk.manifest()
    report.head(aim, manifest)
    ground, leftovers = disk.ground(aim.wanted(), manifest, aim.ranks), disk.leftovers(aim.ranks)
    work = work_of(aim.wanted(), ground, manifest, aim.ranks, asked.adopt)
    report.work(work, leftovers)
    is_against = told_before(asked, progress, report, aim, work, tree_of(disk, progress) if work.changes() else None)
    if asked.dry_run or is_against and not asked.force:
        report.counts(work, [], False)
        return Status.WRONG if is_against and not asked.force or work.done(Do.KEEP) else Status.WELL
    return carried_out(asked, disk, report, work, known, leftovers)


def told_before(asked, progress, report, aim, work, tree):
    """Tells what a work comes to, of a tree that it changes, and why it is better not done. Whether it is."""
    program, against = program_of(False), objections.of_work(work, aim.wanted())
    if tree:
        trees = tree, tree_after(tree, work)
        effects = effects_of(program, progress, trees, asked.target)
        report.effects(effects, aim.host)
        against += objections.of_plan(effects)
    against += objections.of_crossed(aim, program, progress)
    if tree and asked.verify:
        against += objections.of_analyze(trees)
    progress.end()
    instead = "--force: it is written all the same" if asked.force else "nothing is written: --force writes all the same"
    report.against(against, instead if work.is_needed() else "")
    return bool(against)


def carried_out(asked, disk, report, work, known, leftovers):
    """Takes the steps of a work. The status."""
    left, fault = [], ""
    if work.is_needed() or leftovers:
        try:
            left = carry_out(disk, work, known, leftovers)
            fault = reload_fault() if asked.reload else ""
            if not fault:
                disk.write_manifest(manifest_after(work, left))
        except NotWritten as why:
            count = len(work.changes())
            raise Fault(f"{why}; {disk.taken:,} of {count:,} {'step is' if count == 1 else 'steps are'} done: apply again to do the rest") from why
    report.left(left)
    report.counts(work, left, True)
    if fault:
        tell(f"apply: {fault}; the next apply with --reload tries it again")
    return Status.WRONG if fault or left or work.done(Do.KEEP) else Status.WELL


def reload_fault():
    """Lets the machine's manager read its units anew; why it didn't, or nothing."""
    program = shutil.which(MANAGER)
    if not program:
        return f"{MANAGER} isn't on this machine"
    try:
        ran = subprocess.run([program, "daemon-reload"], stdin=subprocess.DEVNULL, stdout=subprocess.PIPE, stderr=subprocess.STDOUT, check=False,
                             timeout=MOST_SECONDS)
    except (OSError, subprocess.TimeoutExpired) as fault:
        return f"{MANAGER} daemon-reload: {cut(str(fault))}"
    told = ran.stdout.decode("utf-8", "surrogateescape").strip()
    return f"{MANAGER} daemon-reload ended with status {ran.returncode}{f': {cut(told)}' if told else ''}" if ran.returncode else ""
