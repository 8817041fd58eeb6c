"""What each verb of `fleet` does: it is given the words of the call and a line of progress, and gives the exit status."""
import json
import os
import sys
from dataclasses import replace
from shlex import quote

from . import check_reports, checks, diff_sides, diffs, drawings, exports, meeting_lines, merges, pictures, verifying
from .asking import NODE, Seen, Store, hosts_of, needed
from .factors import factored
from .faults import Fault, Status, printable
from .modes import OWN, WIDEST, is_own, make_output_own, own_files, read_table, table_of
from .nodes.state_trees import is_state, trees_of_state
from .origins import Origins, shown_with_origins
from .places import HOST, HOST_RULE
from .profiles import Profile
from .program import program_of
from .refusals import Refusal
from .reports import by_hosts, of_refusal, of_unit, say, say_bytes, say_objects, tell
from .scripts import edits_of, node_of, parts_of, remarks_of, script_of
from .trees import Grade, named_root, read_tree
from .wholes import NewFolder, write_whole

# The node of a file in the scripts that it runs.
LASTING = "here"

COUNTS = {Grade.LEFT_OUT: "left out", Grade.UNREAD: "that can't be read", Grade.TAKEN: "to be looked at"}


def tell_own(trees, words):
    """Tells what comes of it that not all may read some files of trees, if that is so."""
    count = own_files(trees)
    if count:
        tell(f"{count:,} {'file' if count == 1 else 'files'} that not all may read: {words}")


def say_script(script, trees):
    """Prints a script of these trees. Where not all may read their files, a file with it is one that only its owner may read."""
    is_file = own_files(trees) > 0 and make_output_own()
    tell_own(trees, "only its owner may read the script" if is_file else "keep the script so that only its owner may read it")
    say_bytes(script)


def read_trees(words, progress, is_following=False):
    """Reads trees, of which each is for the fleet or for a host of its own, or of a state file all that it has."""
    named = [named_root(it) for it in words]
    refuse_hosts([host for host, _ in named])
    trees = [it for host, root in named for it in (trees_of_state(root, host) if is_state(root) else [read_tree(root, host, progress, is_following)])]
    refuse_hosts([it.host for it in trees])
    progress.end()
    return trees


def refuse_hosts(hosts):
    """Refuses hosts that have no host's name, or of which two are one."""
    for host in hosts:
        if host and not HOST.fullmatch(host):
            raise Fault(f"{printable(host)}: no host's name: {HOST_RULE}")
        if hosts.count(host) > 1:
            raise Fault(f"two trees for {f'the host {host}' if host else 'the whole fleet'}: `fleet merge` lets trees meet")


def counts_of(tree):
    """How many entries were told of a tree, by what came of them; nothing where none was."""
    counts = [(tree.count(grade), words) for grade, words in COUNTS.items()]
    return ", ".join(f"{count:,} {words}" for count, words in counts if count)


def tell_counts(trees):
    """Tells of each tree how many of its entries the store hasn't as they are."""
    for tree in trees:
        if counts_of(tree):
            tell(f"{printable(tree.root)}: {counts_of(tree)}; `fleet import` tells which")
        if tree.followed:
            tell(tree.followed_words())


def tell_each(trees):
    """Tells of each entry that the store hasn't as it is, and how many they are."""
    for tree in trees:
        for it in tree.lines():
            tell(it)
        if tree.followed:
            tell(tree.followed_words())
        if tree.told:
            tell(", ".join([f"{printable(tree.root)}: {len(tree.entries):,} taken", *filter(None, [counts_of(tree)])]))


def import_trees(asked, progress):
    """`fleet import`: the script of some trees."""
    trees = read_trees(asked.roots, progress, asked.follow)
    tell_each(trees)
    read = trees
    if asked.factor:
        trees, shared = factored(trees)
        own = sum(len(it.entries) for it in trees[1:])
        tell(f"what hosts share and the fleet has now: {shared:,}; what hosts have of their own: {own:,}")
    if asked.split is not None:
        split(asked, trees)
    else:
        lines = [*node_of(asked.node or NODE, trees, 1 if asked.writer is None else asked.writer), *remarks_of(trees)]
        script = None if asked.json else script_of(lines)
        if asked.modes:
            write_whole(asked.modes, table_of(trees))
        if asked.json:
            say_objects({"place": str(place), **merges.content_object(content)} for tree in trees for place, content in tree.ordered())
        else:
            say_script(script, trees)
    if asked.json:
        say_objects({"path": it.path, "told": it.grade.value, "why": it.why, "host": tree.host} for tree in read for it in tree.told)
    return Status.WRONG if any(it.count(Grade.UNREAD) for it in read) else Status.WELL


def split(asked, trees):
    """Writes several scripts of trees, for the node of a file, which has its edits one script after the other."""
    if asked.node is not None or asked.writer is not None:
        raise Fault(f"--split writes scripts for the node `{LASTING}` of a file, which has a writer: leave --node and --writer out")
    folder, parts = NewFolder(asked.split), parts_of(edits_of(LASTING, trees))
    mode, wide = OWN if own_files(trees) else WIDEST, max(3, len(str(len(parts))))
    with folder:
        for number, lines in enumerate(parts, 1):
            write_whole(os.path.join(folder.staged, f"{number:0{wide}}.script"), script_of(lines), mode)
    tell_own(trees, "only its owner may read the scripts")
    if asked.modes:
        write_whole(asked.modes, table_of(trees))
    if asked.json:
        say_objects([{"scripts": len(parts), "folder": asked.split}])
    else:
        say([f"{len(parts):,} {'script' if len(parts) == 1 else 'scripts'} in {printable(asked.split)}; to read them into a node's file: "
             f'for it in {printable(quote(asked.split))}/*.script; do fleet_node run FILE < "$it" || break; done'])


def store_of(asked, progress, roots, hosts=lambda trees: None):
    """The store of some trees, asked for these hosts: without others for the host that is named, or else for that of a tree that stands alone."""
    program = program_of(asked.unproved)
    trees = read_trees(roots, progress, asked.follow)
    alone = [trees[0].host] if len(trees) == 1 else [""]
    wanted = hosts(trees) or (hosts_of(trees, asked.host) if asked.host is not None else alone)
    return Store(program, progress, trees, wanted, asked.workers, Profile(asked.profile))


def asked_of_tree(asked, progress):
    """The store of a tree and of those beside it, of which how much isn't taken is told."""
    store = store_of(asked, progress, [asked.root, *asked.more])
    tell_counts(store.trees)
    return store


def running_of(asked):
    """The units that run: those of the line, and the first word of each line of a file, as `systemctl list-units --plain` prints them."""
    names = list(asked.running)
    if asked.running_from:
        with sys.stdin if asked.running_from == "-" else open(asked.running_from, encoding="utf-8", errors="surrogateescape") as file:
            rows = [it.split() for it in file]
        names += [it[0] for it in rows if it and not it[0].startswith("#")]
    return list(dict.fromkeys(names))


def ask(asked, progress):
    """`fleet cat` and `list`: one question of one unit."""
    store = asked_of_tree(asked, progress)
    answers = store.asked([(store.hosts[0], (asked.verb, asked.unit))])
    found = answers.distances() if asked.verb == "list" else answers.last_block()
    answers.ended()
    if isinstance(found, Refusal):
        return refused(asked, f"{asked.verb} of {asked.unit}", str(found), found)
    if asked.json:
        say_objects([{"distance": it, "unit": name} for it, name in found] if asked.verb == "list" else [{"line": it} for it in found])
    else:
        say([f"{it} {name}" for it, name in found] if asked.verb == "list" else found)
    return Status.WELL


def refused(asked, what, words, refusal):
    """Tells a refusal, with --json on standard output."""
    tell(f"{what}: {words}")
    if asked.json:
        say_objects([{"of": what, **of_refusal(refusal)}])
    return Status.WRONG


def show(asked, progress):
    """`fleet show`: what units come to, one after another; with where each value and dependency comes from, if that is asked for."""
    store = asked_of_tree(asked, progress)
    host = store.hosts[0]
    answers = store.asked([(host, ("show", it)) for it in asked.units] + ([(host, ("units",))] if asked.where else []))
    found = [answers.unit() for _ in asked.units]
    origins = Origins(store, Seen(host, needed(answers.units(), ""), {})) if asked.where else None
    answers.ended()
    status = Status.WELL
    for at, (name, unit) in enumerate(zip(asked.units, found)):
        if isinstance(unit, Refusal):
            status = refused(asked, f"show of {name}", str(unit), unit)
        elif asked.json:
            say_objects([{**of_unit(unit), **(origins.objects(unit) if origins else {})}])
        else:
            say([*([""] if at else []), *(shown_with_origins(unit, origins) if origins else unit.lines())])
    return status


def plan(asked, progress):
    """`fleet plan`: what stops and what starts."""
    store, names = asked_of_tree(asked, progress), (asked.unit, *running_of(asked))
    answers = store.asked([(store.hosts[0], ("plan", *names))])
    found = answers.plan()
    answers.ended()
    if isinstance(found, Refusal):
        return refused(asked, *refused_plan(found, store.profile, names), found)
    rows = [("stop", it) for it in found.stop] + [("start", it) for it in found.start]
    if asked.json:
        say_objects({"do": verb, "unit": name, "profile": store.profile.value} for verb, name in rows)
    else:
        say([store.profile.head(), *(f"{verb} {name}" for verb, name in rows)])
    return Status.WELL


def refused_plan(refusal, profile, names):
    """What was asked, and why there is no plan of the first of these names while the others run."""
    return f"plan of {names[0]} {profile.clause()}", f"{refusal.about(names)}{refusal.reason(profile)}"


def check(asked, progress):
    """`fleet check`: what is wrong with the units that each host has."""
    store = store_of(asked, progress, [asked.root, *asked.more], lambda trees: hosts_of(trees, asked.host))
    tell_each(store.trees)
    found = checks.check(store, asked.target, asked.all, *([verifying.said] if asked.verify else []))
    for it in check_reports.without_target(found, store.hosts):
        tell(it)
    if asked.json:
        say_objects(check_reports.objects_of(found, store.profile, store.hosts))
    else:
        say(check_reports.lines_of(found, store.profile, store.hosts))
    return Status.WRONG if found.wrong else Status.WELL


def export(asked, _progress):
    """`fleet export`: a node's files as a tree."""
    folder = NewFolder(asked.folder)
    with open(asked.script, "rb") as file:
        script = file.read()
    modes = read_table(asked.modes) if asked.modes else {}
    shown = exports.shown(script, asked.node, asked.host, program_of(asked.unproved))
    entries = shown.entries
    with folder:
        writer = exports.Writer(folder.staged, {it: modes.get(own) for it, own in shown.origins.items()}, is_own(asked.script))
        writer.write(entries)
    hosts = sorted({it.host for it in entries} - {""})
    beside = "".join(f" {it}={asked.folder}/{exports.HOSTS}/{it}" for it in hosts)
    written = len(entries) - len(writer.blocked)
    if asked.json:
        say_objects([{"written": written, "blocked": writer.blocked, "crossed": shown.crossed, "hosts": hosts}])
    else:
        say([f"{written:,} files and links; to read them again: fleet import {asked.folder}{beside}"])
    for name in shown.crossed:
        tell(f"{name}: crossed: read alone, the tree gives it other drop-ins or links than the host has")
    for place in writer.blocked:
        tell(f"{place}: not written: a file, a link or a folder can't have the name of another")
    return Status.WRONG if writer.blocked else Status.WELL


def diff(asked, progress):
    """`fleet diff`: the units that come to something else in another tree, or on another host, for each host."""
    rows = diff_sides.of_hosts(asked, progress, store_of) if asked.hosts else diff_sides.of_trees(asked, progress, store_of)
    every, found = [it for it, _, _ in rows], {}
    for host, one, other in rows:
        for at, changes in diffs.differences(one, other).items():
            found.setdefault((at, tuple(changes)), []).append(host)
    trees = list({id(it): it for _, one, other in rows for side in (one, other) for it in side.store.trees}.values())
    tell_counts(trees)
    unread = [str(it) for tree in trees for it in tree.told if it.grade is Grade.UNREAD]
    for it in unread:
        tell(f"{it}: it isn't known whether it differs")
    if asked.json:
        say_objects(it.object(hosts) for (_, changes), hosts in found.items() for it in changes)
    elif found:
        blocks = {"\n".join([at, *(line for it in changes for line in it.lines())]): hosts for (at, changes), hosts in found.items()}
        say([Profile(asked.profile).head(), *by_hosts(blocks, every)])
    return Status.WRONG if found or unread else Status.WELL


def picture_of(asked, store):
    """The picture of a plan, or of why there is none, and the status."""
    host = store.hosts[0]
    wanted = (asked.unit, *running_of(asked))
    seen, = store.seen(lambda _: [wanted])
    planned, units = seen.plans[asked.unit], seen.units
    names = pictures.named_in(planned) if isinstance(planned, Refusal) else [*planned.stop, *planned.start]
    known = {name for it in units.values() for name in it.names}
    missing = [it for it in names if it not in known]
    if missing:  # instances that nothing names but the question
        units = pictures.completed({**units, **{it.name: it for it in store.shown(host, missing).values()}})
    if not isinstance(planned, Refusal):
        return pictures.picture_of_plan(asked.unit, planned, units), Status.WELL
    tell(": ".join(refused_plan(planned, store.profile, wanted)))
    return pictures.picture_of_refusal(asked.unit, planned, units), Status.WRONG


def draw(asked, progress):
    """`fleet draw`: a plan, or why there is none, as a picture."""
    picture, status = picture_of(asked, store := asked_of_tree(asked, progress))
    picture = replace(picture if asked.all_edges else pictures.without_what_follows(picture), title=f"{picture.title} {store.profile.clause()}")
    if asked.json:
        text = "".join(f"{json.dumps(it)}\n" for it in pictures.objects_of(picture))
    else:
        text = drawings.dot(picture) if asked.dot else drawings.svg(picture, asked.plain)
    if asked.output:
        with open(asked.output, "w", encoding="utf-8") as file:
            file.write(text)
    else:
        sys.stdout.write(text)
    return status


def merge(asked, progress):
    """`fleet merge`: what the nodes of some trees hold after they met."""
    named, before = merges.named_nodes(asked.roots, bool(asked.base)), merges.named_base(asked.base)
    if asked.prefer is not None and asked.prefer not in [name for name, _ in named]:
        raise Fault(f"--prefer {asked.prefer}: no node of this name")
    base = [read_tree(root, host, progress, asked.follow) for host, root in before]
    trees = [(name, [read_tree(root, host, progress, asked.follow) for host, root in roots]) for name, roots in named]
    progress.end()
    nodes, every = merges.nodes_of(trees, base), [*base, *(it for _, own in trees for it in own)]
    tell_counts(every)
    for node in nodes:
        for place in node.unsaid:
            tell(f"{place}: what {node.name} has there isn't taken, so nothing is changed by it")
    is_unsure = any(it.unsaid for it in nodes) or any(it.count(Grade.UNREAD) for it in every)
    status = met(asked, nodes, every)
    return Status.WRONG if is_unsure else status


def met(asked, nodes, trees):
    """Prints what nodes hold after they met, or the script for it. The status."""
    is_choosing = asked.text or asked.prefer is not None
    if asked.script and not is_choosing:
        say_script(script_of(merges.script_lines(nodes)), trees)
        return Status.WELL
    program = program_of(asked.unproved)
    first = merges.merged(nodes, program)
    choices = merges.choices_of(first, nodes, asked.prefer, asked.text) if is_choosing else {}
    edits = [it for it in choices.values() if merges.is_edit(it)]
    if asked.script:
        say_script(script_of(merges.script_lines(nodes, edits)), trees)
    else:
        told = merges.merged(nodes, program, edits) if edits else first, first, choices, asked.show
        if asked.json:
            say_objects(meeting_lines.objects(*told))
        else:
            say(meeting_lines.told(*told))
    is_left = any(it.others and not meeting_lines.is_settled(it.place, choices) for it in first)
    return Status.WRONG if is_left else Status.WELL
