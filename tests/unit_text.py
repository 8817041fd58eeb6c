"""Names, lines and settings of unit files, for tests/unit_model.py: what can be said of a name or of a text alone."""
import functools
import re

DIRECTORIES = ["/etc/systemd/system", "/run/systemd/system", "/usr/local/lib/systemd/system", "/usr/lib/systemd/system"]
UNIT_KINDS = "service socket device mount automount swap target path timer slice scope".split()
WITHOUT_ALIASES = {"mount", "slice", "swap", "automount"}
MOST_ALIASES, MOST_NAMES = 8, 4096

# The kinds of dependencies in order, each with its inverse.
INVERSES = {}
for pair in ("Before After", "Wants WantedBy", "Requires RequiredBy", "Requisite RequisiteOf", "BindsTo BoundBy", "PartOf ConsistsOf",
             "Conflicts ConflictedBy", "OnFailure OnFailureOf", "PropagatesReloadTo ReloadPropagatedFrom"):
    one, other = pair.split()
    INVERSES[one], INVERSES[other] = other, one
SETTABLE = "Before After Wants Requires Requisite BindsTo PartOf Conflicts OnFailure PropagatesReloadTo ReloadPropagatedFrom".split()

FAULT_NAMES = {"H1": "HostName", "F1": "Directory", "F2": "Depth", "F3": "Component", "E3": "NotVisible", "N1": "Length", "N2": "Kind",
               "N3": "EmptyPrefix", "N4": "BadByte", "B1": "Kind", "B2": "Shape", "B3": "Loop", "B4": "Target", "P1": "Template",
               "P2": "NotFound", "P3": "Masked", "P4": "Bad", "P5": "ManualStart", "P6": "Requisite", "P7": "Conflict", "P8": "Cycle",
               "L2": "TooManyUnits"}


class Link(str):
    """A link to this target."""


class Refused(Exception):
    """A refusal, by its code and what it tells beside."""

    def line(self):
        code, *told = self.args
        return " ".join(["error:", code, FAULT_NAMES[code], *map(str, told)])


# ---- names


@functools.cache
class Name:
    """A unit name, or N1 to N4: one object for each text."""

    def __init__(self, text):
        if not 1 <= len(text) <= 255:
            raise Refused("N1")
        self.text = text
        self.stem, dot, self.kind = text.rpartition(".")
        if not dot or self.kind not in UNIT_KINDS:
            raise Refused("N2")
        self.prefix, at, self.instance = self.stem.partition("@")
        if not self.prefix:
            raise Refused("N3")
        bad = re.search(r"[^A-Za-z0-9:\-_.\\@]", self.stem)
        if bad:
            raise Refused("N4", bad.start())
        self.shape = "plain" if not at else "instance" if self.instance else "template"

    def template(self):
        """The template of an instance, and nothing of other names."""
        return f"{self.prefix}@.{self.kind}" if self.shape == "instance" else None


@functools.cache
def name_or_none(text):
    try:
        return Name(text)
    except Refused:
        return None


def filled(template, instance):
    """A template with this instance, if that is a name."""
    name = Name(template)
    return name_or_none(f"{name.prefix}@{instance}.{name.kind}") and f"{name.prefix}@{instance}.{name.kind}"


def stands_for(text, unit):
    """The unit that a word names in a unit: of a template the one with the unit's instance, or with its prefix. Nothing where it names none."""
    name, own = name_or_none(text), Name(unit)
    if name and name.shape == "template":
        return filled(text, own.instance or own.prefix)
    return name and text


def escaped(text):
    """The text as a part of a name: undone by `unescaped`."""
    escapes = lambda it: "-" if it[0] == "/" else f"\\x{ord(it[0]):02x}"
    return re.sub(r"^\.|[^A-Za-z0-9:_.]", escapes, text)


def unescaped(text):
    """Undoes escapes. Nothing where one is malformed."""
    if re.search(r"\\(?!x[0-9A-Fa-f]{2})", text):
        return None
    return re.sub(r"\\x(..)|-", lambda it: chr(int(it[1], 16)) if it[1] else "/", text)


def expanded(text, unit):
    """Puts what they stand for in the place of specifiers. Nothing where a part that is to be unescaped is malformed."""
    name = Name(unit)
    last = name.prefix.rpartition("-")[2]
    stands = {"n": unit, "N": name.stem, "p": name.prefix, "i": name.instance, "j": last, "%": "%",
              "P": unescaped(name.prefix), "I": unescaped(name.instance), "J": unescaped(last)}
    if any(stands.get(it, "") is None for it in re.findall(r"%(.)", text, re.S)):
        return None
    return re.sub(r"%(.)", lambda it: stands.get(it[1], it[0]), text, flags=re.S)


# ---- unit files


def logical_lines(text):
    """The logical lines of a file, each with the number of its first physical line."""
    text = text.removeprefix("\xef\xbb\xbf")
    lines = text.split("\n")
    last = lines.pop()
    lines = [it.removesuffix("\r") for it in lines] + ([last] if last else [])
    found, begun = [], None
    for number, line in enumerate(lines, 1):
        bare = line.strip(" \t\r")
        if bare[:1] in ("#", ";"):
            continue
        if not bare:
            if begun:
                found.append(begun)
            begun = None
            continue
        at, before = begun or (number, "")
        if line.endswith("\\"):
            begun = at, before + line[:-1] + " "
        else:
            found.append((at, before + line))
            begun = None
    if begun:
        found.append(begun)
    return [(at, it.strip(" \t\r")) for at, it in found if it.strip(" \t\r")]


def read(text):
    """The assignments of a file, as section, key and value, and its notes, as code and line."""
    items, notes, section, is_bad = [], [], None, False
    for at, line in logical_lines(text):
        if line.startswith("["):
            is_bad = not (line.endswith("]") and len(line) > 2)
            if is_bad:
                notes.append(("K3", at))
            else:
                section = line[1:-1]
        elif is_bad:
            continue
        elif section is None:
            notes.append(("K1", at))
        else:
            key, equals, value = line.partition("=")
            key, value = key.strip(" \t\r"), value.strip(" \t\r")
            if equals and key:
                items.append((section, key, value))
            else:
                notes.append(("K2", at))
    return items, notes


# ---- settings


def family(section, key):
    """The family of keys that an empty value of this one empties."""
    return next((it for it in ("Condition", "Assert") if section == "Unit" and key.startswith(it)), None)


TRUE, FALSE = ("1", "yes", "true", "on"), ("0", "no", "false", "off")


def settings_of(items, kept, switches):
    """The values of each key, and the notes on bad booleans: of these switches the last good one counts, and these keys keep all values."""
    items = [it for it in items if not it[0].startswith("X-") and not it[1].startswith("X-")]
    rows, notes = {}, []
    for section, key, value in items:
        at = section, key
        if at in kept:
            if value:
                rows.setdefault(at, []).append(value)
        elif at in switches:
            if value.lower() in TRUE + FALSE:
                rows[at] = [value]
            else:
                notes.append(("K4", f"{section}.{key}"))
        elif value:
            rows.setdefault(at, []).append(value)
        else:
            rows.setdefault(at, [])
            kin = family(section, key)
            for other in rows:
                if other == at or kin and family(*other) == kin:
                    rows[other] = []
    return rows, notes
