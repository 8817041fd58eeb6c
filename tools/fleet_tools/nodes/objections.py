"""Why a work is better not done: a plan that is refused, units that a manager reads otherwise than the fleet's store, what systemd-analyze says."""
import re
import shutil
import tempfile
from collections import Counter

from .. import verifying
from ..answers import Answers, odd_sections
from ..asking import Store, needed
from ..checks import numbered
from ..exports import Writer
from ..faults import Fault
from ..places import Link, is_unit_name
from ..profiles import Profile
from ..refusals import Refusal
from ..scripts import script_of
from ..trees import Tree
from ..visible import visible
from .applying import Do
from .files import HERE

LINE = re.compile(":[0-9]+:")
PULLING = ("Wants", "Requires", "Upholds")


def of_work(work, wanted):
    """That all is removed that the fleet wrote, if so: the state may be another one, or of other hosts."""
    count = len(work.done(Do.REMOVE))
    return [f"the state has nothing for this host, and all that the fleet wrote is to be removed: {numbered(count, 'place')}"] \
        if count and not wanted else []


def of_plan(effects):
    """That the target has no plan afterwards, if so."""
    before = effects.before
    if not isinstance(effects.after, Refusal):
        return []
    if before == effects.after:
        was = "it was so before"
    elif isinstance(before, Refusal):
        is_new = (before.code, before.told) == ("P2", (effects.target,))
        was = f"{effects.target} is new" if is_new else f"before it was refused otherwise: {before}"
    else:
        was = "before there was one"
    return [f"no plan of {effects.target} {Profile.MANAGER.clause()}: {effects.after.reason(Profile.MANAGER)}; {was}"]


def of_crossed(aim, program, progress):
    """The units that a manager reads of a host's tree otherwise than the fleet's store does for the host, with the places of both."""
    node, entries, crossed = aim.node, aim.entries, aim.crossed
    if not crossed:
        return []
    alone = Store(program, progress, [Tree("", "", entries)], [""], None, Profile.FILES).shown("", crossed)
    known = {it.place for it in node.held()}
    written = node.run("run", given=script_of([f"show {HERE}@{aim.host} {it}".encode("ascii") for it in crossed]))
    answers = Answers(written, known, odd_sections(it for it in entries.values() if not isinstance(it, Link)))
    stored = {it: needed(answers.unit(), it) for it in crossed}
    answers.ended()
    return [f"{it}: crossed: {'; '.join(others(stored[it], alone[it])) or 'its drop-ins or links are others'}" for it in crossed]


def others(stored, alone):
    """How a unit of the fleet's store and the same of the tree alone differ, in words."""
    own = [{it.rpartition("/")[2]: it for it in unit.dropins} for unit in (stored, alone)]
    for name in sorted({*own[0], *own[1]}):
        one, other = (it.get(name) for it in own)
        if one != other and (one or "").partition(":")[2] != other:
            yield f"{name}: the fleet's store reads {one or 'none'}, the written tree has {other or 'none'}"
    for kind in PULLING:
        for who, those, rest in (("the fleet's store", stored, alone), ("the written tree", alone, stored)):
            names = [it for it in those.to(kind) if it not in rest.to(kind)]
            if names:
                yield f"{kind}={' '.join(names)} by {who} alone"


def of_analyze(trees):
    """What systemd-analyze says of the second tree that it doesn't say of the first, on whatever line of a file."""
    program = shutil.which(verifying.ASKED)
    if not program:
        raise Fault(f"--verify: {verifying.ASKED} isn't on this machine")
    before, after = (said(program, it) for it in trees)
    known, found = Counter(LINE.sub(":", it) for it in before), []
    for it in after:
        key = LINE.sub(":", it)
        found += [] if known[key] else [f"{verifying.ASKED}: {it}"]
        known[key] -= 1 if known[key] else 0
    return found


def said(program, tree):
    """What it says of a tree's units."""
    names = sorted({name for (folder, name), it in visible([tree], "").items()
                    if not folder and is_unit_name(name) and it.content and not isinstance(it.content, Link)})
    if not names:
        return []
    with tempfile.TemporaryDirectory(prefix="fleet-") as root:
        Writer(root, {}, False).write(tree.entries)
        return verifying.lines_of(program, root, names)
