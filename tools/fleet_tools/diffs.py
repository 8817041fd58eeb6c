"""Tells which units come to something else on another side, field by field, and which files that no unit reads do."""
from dataclasses import dataclass
from typing import Dict, List, Tuple

from .answers import EDGE_KINDS
from .file_faults import read
from .origins import Origins
from .places import Link, is_template
from .trees import Grade
from .visible import kind_of_file, visible

ALONE = "which no unit reads"


@dataclass(frozen=True)
class Change:
    """A field of a unit or of a file, with all that it holds on both sides, and where each comes from, if that is asked for."""

    at: str
    field: str
    before: Tuple[str, ...]
    after: Tuple[str, ...]
    origins: Tuple[Tuple[str, ...], Tuple[str, ...]] = ((), ())

    def lines(self):
        """The lines on it: what went and what came, and where the same stands in another order, both orders."""
        gone, come = ([(at, it) for at, it in enumerate(those) if it not in others]
                      for those, others in ((self.before, self.after), (self.after, self.before)))
        if gone or come:
            yield from (f"  {sign} {self.field}: {it}{self.origin(side, at)}" for sign, side, rows in (("-", 0, gone), ("+", 1, come))
                        for at, it in rows)
        else:
            yield f"  - {self.field}: {', '.join(self.before)}"
            yield f"  + {self.field}: {', '.join(self.after)}"

    def origin(self, side, at):
        """Where a value of a side comes from, as a clause."""
        return f"  ({self.origins[side][at]})" if self.origins[side] else ""

    def object(self, hosts):
        """The object of it."""
        where = {"where": {"before": list(self.origins[0]), "after": list(self.origins[1])}} if self.origins != ((), ()) else {}
        return {"at": self.at, "field": self.field, "before": list(self.before), "after": list(self.after), **where, "hosts": hosts}


class Side:
    """What a host sees on one side of a difference: the fields of its units, and those of its files that no unit reads."""

    def __init__(self, store, seen, is_of_host=False, with_origins=False):
        self.store, self.seen, self.is_of_host = store, seen, is_of_host
        self.origins = Origins(store, seen) if with_origins else None
        self.visible = {it.place.path(): it for it in visible(store.trees, seen.host).values()}

    def place(self, text):
        """A place as it is compared: of two hosts, without the host's name."""
        return text[text.index("/") :] if self.is_of_host and "/" in text else text

    def fields_of(self, name):
        """The fields of a unit: what it is, its settings, and its edges; of a unit that isn't there, none."""
        unit = self.seen.units.get(name)
        if unit is None:
            return {}
        head = {"status": [f"{unit.status.value} {self.place(unit.told)}".rstrip()],
                "names": list(unit.names), "drop-ins": [self.place(it) for it in unit.dropins]}
        return {**head, **unit.settings, **{kind: list(unit.edges[kind]) for kind in EDGE_KINDS if kind in unit.edges}}

    def origins_of(self, name, field, those):
        """Where what a unit's field holds comes from; nothing where that isn't asked for, or is no value and no dependency."""
        unit = self.seen.units.get(name)
        if not self.origins or not unit or not those:
            return ()
        if field in unit.edges:
            return tuple(self.origins.of_edge(unit, field, it) for it in those)
        return tuple(self.origins.of_values(unit).get(field, ()))

    def alone(self):
        """The paths of files that a host sees and that no unit reads."""
        read_by_units = {it for unit in self.seen.units.values() for it in unit.files()}
        return {path for path, it in self.visible.items() if str(it.place) not in read_by_units}

    def fields_at(self, path):
        """The fields of what stands at a path, if it is of a unit or a template; none where nothing does."""
        return fields_alone(self.visible[path]) if path in self.visible else {}

    def told(self):
        """What of the trees wasn't taken, by path: fields of what came of it, and why."""
        return {it.path: {it.grade.value: [it.why]} for tree in self.store.trees if tree.host in ("", self.seen.host) for it in tree.told
                if it.grade in (Grade.LEFT_OUT, Grade.UNREAD)}


def fields_alone(seen):
    """The fields of a file that no unit reads, or of a link of a template; none of what is of no unit."""
    place, content = seen
    owner = place.folder.rpartition(".")[0] if place.folder else place.name
    if isinstance(content, Link) or not content:
        # what a link or a mask does to a unit, that unit tells
        what = {"link": [content.target]} if content else {"file": ["empty"]}
        return what if "@" in owner and is_template(owner) else {}
    if not kind_of_file(place):
        return {}
    fields = {}
    for it in read(content).assignments:
        fields.setdefault(it.setting(), []).append(it.value)
    return {**fields, **{f"line {line}": [code] for line, code in read(content).notes}} or {"file": ["without settings"]}


def differences(one, other) -> Dict[str, List[Change]]:
    """What differs between two sides, by the unit's name or the file's path."""
    found = {}
    for name in sorted({*one.seen.units, *other.seen.units}):
        found[name] = changes_of(name, one.fields_of(name), other.fields_of(name), (one, other))
    for path in sorted(one.alone() | other.alone()):
        found[f"{path} ({ALONE})"] = changes_of(path, one.fields_at(path), other.fields_at(path))
    here, there = one.told(), other.told()
    for path in sorted({*here, *there}):
        found.setdefault(path, []).extend(changes_of(path, here.get(path, {}), there.get(path, {})))
    return {at: changes for at, changes in found.items() if changes}


def changes_of(at, first, second, sides=()):
    """The changes between the fields of two sides."""
    groups = sorted({**first, **second}, key=lambda it: (it in EDGE_KINDS, EDGE_KINDS.index(it) if it in EDGE_KINDS else 0))
    changes = []
    for field in groups:
        before, after = tuple(first.get(field, ())), tuple(second.get(field, ()))
        if before != after:
            origins = tuple(side.origins_of(at, field, those) for side, those in zip(sides, (before, after)))
            changes.append(Change(at, field, before, after, origins or ((), ())))
    return changes
