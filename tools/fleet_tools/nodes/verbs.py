"""What the verbs over a state file do: each is given the words of the call and a line of progress, and gives the exit status."""
import os
import secrets

from ..faults import Fault, Status, printable
from ..places import Link
from ..reports import say, say_objects, tell
from . import editing, editors, histories, statuses, syncing
from .files import NodeFile, state_path

# The greatest number under which a node writes.
MOST_WRITER = 4_294_967_295


def state_of(asked):
    """The state file that a call is about, which must be there."""
    path = state_path(asked.state)
    if not os.path.lexists(path):
        raise Fault(f"{printable(path)}: no state file: `fleet init` makes one, --state FILE names another")
    return NodeFile(path)


def init(asked, _progress):
    """`fleet init`: makes a state file."""
    path = state_path(asked.state)
    writer = asked.writer if asked.writer is not None else 1 + secrets.randbelow(MOST_WRITER)
    if not os.path.lexists(path):
        os.makedirs(os.path.dirname(path), exist_ok=True)
    NodeFile(path).run("init", str(writer))
    if asked.json:
        say_objects([{"state": path, "writer": writer}])
    else:
        say([f"{printable(path)}: writer {writer}"])
    return Status.WELL


def put(asked, _progress):
    """`fleet put`: a file at a place."""
    state = state_of(asked)
    return editing.told_edits(asked, [editing.changed(state, asked.place, editing.content_given(asked.file))])


def link(asked, _progress):
    """`fleet link`: a link at a place."""
    return editing.told_edits(asked, [editing.changed(state_of(asked), asked.place, Link(asked.target))])


def remove(asked, _progress):
    """`fleet rm`: nothing at places."""
    return editing.told_edits(asked, editing.removed(state_of(asked), asked.places))


def mask(asked, _progress):
    """`fleet mask`: a unit that can't be started."""
    place = editing.masked_place(asked.unit, asked.host)
    return editing.told_edits(asked, [editing.changed(state_of(asked), place, editing.MASK)])


def edit(asked, _progress):
    """`fleet edit`: a place's file in an editor."""
    return editing.told_edits(asked, [editors.edit(state_of(asked), asked.place, asked.force)])


def revert(asked, _progress):
    """`fleet revert`: what an edit of a place wrote, once more."""
    state = state_of(asked)
    return editing.told_edits(asked, [editing.changed(state, asked.place, histories.content_of(state, asked.place, asked.version))])


def log(asked, _progress):
    """`fleet log`: the edits that stand in the log."""
    rows = histories.logged(state_of(asked), asked.of)
    if asked.of is not None and not rows:
        tell(f"{asked.verb}: {asked.of}: the log has no edit of it")
    if asked.json:
        say_objects(histories.logged_object(*it) for it in rows)
    else:
        say(histories.logged_line(*it) for it in rows)
    return Status.WELL


def peers(asked, _progress):
    """`fleet peers`: the node, and those that it knows."""
    own, others = state_of(asked).peers()
    if asked.json:
        say_objects([histories.peer_object(own, True), *map(histories.peer_object, others)])
    else:
        say([histories.peer_line(own, True), *map(histories.peer_line, others)])
    return Status.WELL


def status(asked, _progress):
    """`fleet status`: how the state file stands, and what the machine's folder has otherwise."""
    found = statuses.standing(state_of(asked), asked.host, asked.root, asked.all_directories)
    if asked.json:
        say_objects(statuses.objects_of(found, asked.all))
    else:
        say(statuses.lines_of(found, asked.all))
    return Status.WRONG if found.rows else Status.WELL


def sync(asked, progress):
    """`fleet sync`: exchanges with others what differs."""
    targets = syncing.targets_of(asked)
    return syncing.sync_all(asked, state_of(asked), targets, progress)
