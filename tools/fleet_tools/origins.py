"""Which file said each value of a unit and each of its dependencies. The program tells the files of a unit in the order in which they are read;
their lines are read here once more, and what doesn't fit what the program says has no origin."""
import re

from .answers import INVERSES
from .file_faults import read
from .places import Link, is_template
from .visible import visible

UNKNOWN = "?"
MANAGER = "the manager"
FAMILIES = ("Condition", "Assert")
ESCAPE = re.compile(r"\\x([0-9A-Fa-f]{2})|-")
FOLDERS = {"Wants": "wants", "Requires": "requires", "Upholds": "upholds"}


def unescaped(text):
    """The text for which a part of a name stands."""
    return ESCAPE.sub(lambda it: chr(int(it[1], 16)) if it[1] else "/", text)


def expanded(text, name):
    """A text of a unit, with what its specifiers of the name stand for."""
    stem = name.rpartition(".")[0]
    prefix, _, instance = stem.partition("@")
    last = prefix.rpartition("-")[2]
    stands = {"n": name, "N": stem, "p": prefix, "i": instance, "j": last, "%": "%", "P": unescaped(prefix), "I": unescaped(instance),
              "J": unescaped(last)}
    return re.sub("%(.)", lambda it: stands.get(it[1], it[0]), text)


def stands_for(word, unit):
    """The name that a word of a unit's list stands for: of a template the unit's own instance, or its prefix."""
    name = expanded(word, unit.name)
    if "@" in name and is_template(name):
        prefix, _, instance = unit.name.rpartition(".")[0].partition("@")
        return name.replace("@", f"@{instance or prefix}", 1)
    return name


def family_of(setting):
    """The settings that an empty value of this one empties, by how they begin."""
    section, _, key = setting.partition(".")
    family = next((it for it in FAMILIES if section == "Unit" and key.startswith(it)), None)
    return f"Unit.{family}" if family else None


def folders_of(unit, kind):
    """The folders in which a unit's links of a kind may stand."""
    for name in unit.names:
        yield f"{name}.{FOLDERS[kind]}"
        stem, _, ending = name.rpartition(".")
        prefix, at, instance = stem.partition("@")
        if at and instance:
            yield f"{prefix}@.{ending}.{FOLDERS[kind]}"
        parts = prefix.split("-")
        yield from (f"{'-'.join(parts[:count])}-{at}.{ending}.{FOLDERS[kind]}" for count in range(1, len(parts)))


class Origins:
    """Where the values and the dependencies of a host's units come from."""

    def __init__(self, store, seen):
        self.entries, self.units = store.entries, seen.units
        self.links = {key: it.place for key, it in visible(store.trees, seen.host).items() if key[0] and isinstance(it.content, Link)}
        self.by_name = {name: it for it in seen.units.values() for name in it.names}

    def said(self, unit):
        """All that a unit's files say, in order: the place with its line, the setting, and the value."""
        for place in unit.files():
            content = self.entries.get(place)
            if isinstance(content, bytes):
                yield from ((f"{place}:{it.line}", it.setting(), it.value) for it in read(content).assignments)

    def of_values(self, unit):
        """The origins of each setting's values, in order."""
        rows = {}
        for where, setting, value in self.said(unit):
            if value:
                rows.setdefault(setting, []).append((where, value))
                continue
            family = family_of(setting)
            for it in [it for it in rows if it == setting or family and it.startswith(family)]:
                rows[it] = []
        return {setting: fitting(rows.get(setting, []), values) for setting, values in unit.settings.items()}

    def of_edge(self, unit, kind, other_name):
        """The origin of a unit's dependency of a kind on another: a line of its own files or of the other's, a link, or the manager."""
        other = self.by_name.get(other_name)
        own = self.line_of(unit, kind, other_name) or self.link_of(unit, kind, other_name)
        theirs = other and (self.line_of(other, INVERSES[kind], unit.name) or self.link_of(other, INVERSES[kind], unit.name))
        return own or theirs or self.naming(unit, other_name) or (other and self.naming(other, unit.name)) or MANAGER

    def objects(self, unit):
        """The origins of a unit's values and dependencies, for its object."""
        edges = {kind: [self.of_edge(unit, kind, it) for it in names] for kind, names in unit.edges.items()}
        return {"where": {"values": self.of_values(unit), "edges": edges}}

    def names_of(self, name):
        """The names of a unit."""
        return self.by_name[name].names if name in self.by_name else (name,)

    def line_of(self, unit, kind, other_name):
        """The line of a unit's files whose list of a kind names another."""
        names = self.names_of(other_name)
        return next((where for where, setting, value in self.said(unit) if setting == f"Unit.{kind}"
                     for word in value.split() if stands_for(word, unit) in names), None)

    def link_of(self, unit, kind, other_name):
        """The place of the link by which a unit has a dependency of a kind on another."""
        if kind not in FOLDERS:
            return None
        names = self.names_of(other_name)
        return next((str(place) for folder in folders_of(unit, kind) for (at, name), place in self.links.items()
                     if at == folder and stands_for(name, unit) in names), None)

    def naming(self, unit, other_name):
        """The line of a unit's files that names another otherwise, as Slice= does."""
        names = self.names_of(other_name)
        return next((where for where, setting, value in self.said(unit) if not setting.startswith("Install.")
                     for word in value.split() if expanded(word, unit.name) in names), None)


def fitting(rows, values):
    """The origins of values, of rows of an origin and what stands there: where all of them count or the last alone, and fit."""
    for those in (rows, rows[-1:]):
        if len(those) == len(values) and all("%" in text or text == value for (_, text), value in zip(those, values)):
            return [where for where, _ in those]
    texts = dict((text, where) for where, text in rows)
    return [texts.get(it, UNKNOWN) for it in values]


def shown_with_origins(unit, origins):
    """The lines of a unit, each value and each dependency with its origin."""
    yield f"unit {unit.name}"
    yield f"status {unit.status_words()}"
    yield f"names {' '.join(unit.names)}"
    yield from (f"dropin {it}" for it in unit.dropins)
    where = {setting: iter(those) for setting, those in origins.of_values(unit).items()}
    yield from (f"{setting}={value}  ({next(where[setting])})" for setting, value in unit.values)
    yield from (f"{kind}: {it}  ({origins.of_edge(unit, kind, it)})" for kind, names in unit.edges.items() for it in names)
    yield from (f"note {it.code} {it.where}" for it in unit.notes)
