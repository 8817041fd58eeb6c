"""Looks through trees for what is wrong with their units, for each host, and with a target's plan."""
from dataclasses import dataclass, field
from typing import Dict, List, Tuple

from .answers import NEEDING, UnitStatus
from .beside import counts_beside
from .cycles import MOST_RINGS, reached, rings
from .faults import printable
from .file_faults import faults_in, notes_left, told_by
from .profiles import EARLY, Profile, hint
from .refusals import BAD_LINKS, NOTES, Refusal, cycle_words
from .trees import Grade
from .unit_faults import REFUSES, refused_for
from .unmodelled import is_made, left_out_by, read_otherwise

ANALYZE = "systemd-analyze"
# The target that is looked at where none is named, the first that a tree has.
TARGETS = ("default.target", "multi-user.target")
STATUS_REFUSALS = {UnitStatus.NOT_FOUND: ("P2 NotFound", "has no file"), UnitStatus.MASKED: ("P3 Masked", "is masked"),
                   UnitStatus.BAD: ("P4 Bad", "has a bad link")}


@dataclass(frozen=True)
class Finding:
    """Something that is wrong: the unit, the file's line or the target where it is, a part of it or nothing, and why."""

    at: str
    part: str
    why: str

    def __str__(self):
        return ": ".join(it for it in (self.at, self.part, self.why) if it)


@dataclass
class Check:
    """What was looked through: of each host how many units, what is wrong, each with its hosts, and what isn't modelled or is read otherwise."""

    units: Dict[str, int] = field(default_factory=dict)
    wrong: Dict[Finding, List[str]] = field(default_factory=dict)
    left_out: Dict[Tuple[str, str, str, int], List[str]] = field(default_factory=dict)
    without_target: List[str] = field(default_factory=list)

    def add(self, rows, line, host):
        """Adds a line for a host to these rows."""
        hosts = rows.setdefault(line, [])
        if host not in hosts:
            hosts.append(host)


def check(store, target, is_all, asked_too=lambda seen, store: ()):
    """Looks through all units of a store for each of its hosts, and the plan of a target, or of each host's boot; with all cycles of units
    that no target reaches, if these are asked for, and what another one says who is asked too."""
    found = Check()
    targets = {host: target or default_target(store, host) for host in store.hosts}
    for seen in store.seen(lambda host: [(targets[host],)] if targets[host] else [], with_trees=True):
        found.units[seen.host] = len(seen.units)
        if not targets[seen.host]:
            found.without_target.append(seen.host)
        for it in [*wrong_for(seen, store), *wrong_with_plans(seen, is_all)]:
            found.add(found.wrong, it, seen.host)
        trees = [it for it in store.trees if it.host in ("", seen.host)]
        beside, unread = counts_beside(trees) if store.profile is Profile.MANAGER else ([], [])
        for path, why in [*((it.path, it.why) for tree in trees for it in tree.told if it.grade is Grade.UNREAD), *unread]:
            found.add(found.wrong, Finding(printable(path), "", f"{Grade.UNREAD.value}: {why}"), seen.host)
        for line in asked_too(seen, store):
            found.add(found.wrong, Finding(ANALYZE, "", line), seen.host)
        for row in left_out_for(seen, store.profile, trees, beside):
            found.add(found.left_out, row, seen.host)
    return found


def default_target(store, host):
    """The target of a host's own boot."""
    names = {place.name for tree in store.trees if tree.host in ("", host) for place in tree.entries if not place.folder}
    return next((it for it in TARGETS if it in names), None)


def wrong_for(seen, store):
    """What is wrong with the files and the units that a host sees."""
    rows = faults_in(store.trees, seen.host)
    told = told_by(rows)
    yield from (Finding(f"{place}:{line}", "", why) for place, line, _, why in rows)
    for name in sorted(seen.units):
        yield from wrong_with(seen.units[name], seen.units, store.profile, told)
    for name in EARLY:
        if name in seen.units:
            yield from lacked(seen.units[name], store.profile)


def wrong_with(unit, units, profile, told):
    """What is wrong with a unit and isn't told of its files."""
    if unit.status is UnitStatus.BAD:
        yield Finding(unit.name, "", f"{unit.told}: {BAD_LINKS[unit.told.split(' ')[0]]}")
    for note in notes_left(unit, told):
        name, words = NOTES[note.code]
        # a note on a file's line is the same for all units that read the file
        at = (note.where, "") if note.code in ("K1", "K2", "K3") else (unit.name, printable(note.where))
        yield Finding(*at, f"{note.code} {name}: {words}")
    for why in refused_for(unit):
        yield Finding(unit.name, "", f"{printable(why)}: {REFUSES}")
    for kind in NEEDING:
        for other in unit.to(kind):
            # what most units require is told once, see below
            is_known = hint(profile, other) or profile is Profile.FILES and is_made(units[other])
            if not (units[other].is_loaded() or is_known):
                refusal, words = STATUS_REFUSALS[units[other].status]
                yield Finding(unit.name, f"{kind}={other}", f"{refusal}: it {words}")


def lacked(unit, profile):
    """What is wrong with a target that a tree lacks and that most units require, if it is one."""
    count = len({*unit.to("RequiredBy"), *unit.to("BoundBy")})
    if profile is Profile.MANAGER and not unit.is_loaded() and count:
        refusal, words = STATUS_REFUSALS[unit.status]
        verb = "requires" if count == 1 else "require"
        yield Finding(unit.name, "", f"{refusal}: it {words}, and {numbered(count, 'unit')} {verb} it; {hint(profile, unit.name)}")


def wrong_with_plans(seen, is_all):
    """Why targets have no plan, with all cycles of what they reach, and if it is asked for of all other units."""
    told = []
    for target, planned in seen.plans.items():
        if isinstance(planned, Refusal):
            yield Finding(target, "no plan", str(planned))
            known = [planned.told] if planned.code == "P8" else []
            found = rings(reached(target, seen.units), seen.units, known)
            yield from told_rings(target, "a further cycle" if known else "a cycle", found[len(known) :])
            told += found
    if is_all:
        loaded = {name for name, it in seen.units.items() if it.is_loaded()}
        yield from told_rings("", "a cycle of units that no target starts", rings(loaded, seen.units, told)[len(told) :])


def told_rings(target, what, found):
    """What is told of cycles: of a target's, or each of its first unit."""
    for ring in found:
        yield Finding(target or ring[0], what, cycle_words(*ring))
    if len(found) >= MOST_RINGS:
        yield Finding(target or "all units", "more cycles", f"the search ends at {MOST_RINGS}")


def left_out_for(seen, profile, trees, beside):
    """Rows of what isn't modelled or is read otherwise for a host: which of both, what it is, of what it is counted, and how often."""
    planned = next(iter(seen.plans.values()), None)
    rows = [("not modelled", *it) for it in left_out_by(profile, seen.units, trees, beside, planned)]
    rows += [("read otherwise", *it) for it in read_otherwise(profile, seen.units, trees)]
    if seen.crossed:
        rows.append(("read otherwise", "crossed units, which have other drop-ins in the host's tree alone", "unit", len(seen.crossed)))
    return [it for it in rows if it[3]]


def numbered(count, thing):
    """So many things, in words."""
    return f"{count:,} {thing}{'' if count == 1 else 's'}"
