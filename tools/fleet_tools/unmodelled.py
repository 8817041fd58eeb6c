"""What of a tree the program's rules leave out or read otherwise, counted; docs/SYSTEMD.md says what a reader of a plan must expect of each.
What the rules leave out by a profile is a table of it."""
import re

from .answers import NEEDING, UnitStatus
from .places import KINDS, Link
from .profiles import Profile
from .refusals import Refusal
from .trees import Grade
from .unit_faults import OFF, values_of

PAGE = "docs/SYSTEMD.md"

# Settings that pull, stop or order units for systemd, and by files are ordinary values.
FURTHER = ("Upholds", "OnSuccess", "PropagatesStopTo", "StopPropagatedFrom", "JoinsNamespaceOf", "RequiresMountsFor", "BindTo",
           "PropagateReloadTo", "PropagateReloadFrom")
# Those of them that are also left out by manager, and the old spellings of others.
PROPAGATING = ("StopPropagatedFrom", "PropagatesStopTo", "OnSuccess", "JoinsNamespaceOf")
OLD_SPELLINGS = ("BindTo", "PropagateReloadTo", "PropagateReloadFrom")
# Settings that give a unit dependencies of their own accord, beside those that come by default.
IMPLYING = ("Slice", "BusName", "PAMName", "WorkingDirectory", "RootDirectory", "RootImage", "StateDirectory", "CacheDirectory",
            "LogsDirectory", "RuntimeDirectory", "ConfigurationDirectory", "PrivateTmp", "StandardInput", "StandardOutput", "StandardError",
            "TTYPath", "Sockets", "Socket", "Service", "Unit")
TRIGGERING = (".socket", ".timer", ".path", ".automount")
PROCESSES = ("service", "socket", "mount", "swap")

# A specifier that isn't one of those that are read.
MACHINE = re.compile(rb"(?<!%)(?:%%)*%(?![nNpPiIjJ])[A-Za-z]")
# A list of units, or by manager of paths too, with a quote.
LISTS = b"Before|After|Wants|Requires|Requisite|BindsTo|PartOf|Conflicts|OnFailure|PropagatesReloadTo|ReloadPropagatedFrom"
LISTS_OF_MANAGER = LISTS + b"|Upholds|RequiresMountsFor"
QUOTED = rb"(?m)^[ \t]*(?:%b)[ \t]*=(?:[^\n]*\\\n)*[^\n]*[\"']"
QUOTES_THERE = (b"'", b'"')
COMMENT = re.compile(rb"(?m)^[ \t]*[#;].*$")

# ---- of units


def has_defaults(unit):
    """Whether systemd would give a unit default dependencies."""
    said = unit.settings.get("Unit.DefaultDependencies", ["yes"])
    return not unit.name.endswith(".device") and (not said or said[-1].lower() not in OFF)


def has_key(unit, keys):
    """Whether a unit sets one of these keys, in any section but [Install]."""
    return not unit.keys.isdisjoint(keys)


def is_triggering(unit):
    """Whether a unit triggers another one."""
    return unit.name.endswith(TRIGGERING)


def is_ordering_target(unit):
    """Whether systemd would start a target after what it pulls."""
    return unit.name.endswith(".target") and has_defaults(unit) and any(unit.to(kind) for kind in ("Wants", "Requires"))


def is_made(unit):
    """Whether no file stands for a unit that systemd makes without one."""
    return unit.status is UnitStatus.NOT_FOUND and unit.name.endswith((".device", ".slice"))


def is_device(unit):
    """Whether a unit is a device, for which no file stands."""
    return unit.status is UnitStatus.BUILT_IN and unit.name.endswith(".device")


def is_of_initrd(unit):
    """Whether a unit is for the initial RAM disk alone."""
    settings = unit.settings
    return any("/etc/initrd-release" in settings.get(f"Unit.{key}", []) for key in ("ConditionPathExists", "AssertPathExists"))


def names_init(unit):
    """Whether a unit has to do with the manager's own scope."""
    return any("init.scope" in names for names in unit.edges.values())


def is_killable(unit):
    """Whether systemd-oomd may kill a unit, which then pulls it."""
    return any(values_of(unit, key)[-1:] == ["kill"] for key in ("ManagedOOMSwap", "ManagedOOMMemoryPressure"))


def has_earlier_slice(unit):
    """Whether a unit sets a slice, and later another one."""
    return len(set(values_of(unit, "Slice"))) > 1


# What by each profile is left out of units: what it is, and whether a unit has it.
BY_FILES = (
    ("DefaultDependencies= never off", has_defaults),
    ("targets that systemd starts after all that they pull", is_ordering_target),
    ("settings that pull, stop or order and aren't read, as Upholds= or RequiresMountsFor=", lambda it: has_key(it, FURTHER)),
    ("settings that imply dependencies, as Slice= or BusName=", lambda it: has_key(it, IMPLYING)),
    ("sockets, timers, paths and automounts, whose trigger isn't followed", is_triggering),
    ("[Install], which says what `systemctl enable` would link", lambda it: any(key.startswith("Install.") for key, _ in it.values)),
)
BY_MANAGER = (
    ("devices of the machine, which start at once here", is_device),
    ("init.scope, which the manager makes for itself", names_init),
    ("units of the initial RAM disk, where the manager adds otherwise", is_of_initrd),
    ("what systemd-oomd may kill, by which it is pulled", is_killable),
    ("images, for which modprobe@ is pulled", lambda it: it.kind in PROCESSES and bool(values_of(it, "RootImage"))),
    ("an earlier Slice= before the last, which stays required", has_earlier_slice),
    ("StopPropagatedFrom=, PropagatesStopTo=, OnSuccess= and JoinsNamespaceOf=", lambda it: has_key(it, PROPAGATING)),
)

# ---- of files and folders

SPECIFIERS = "specifiers of the machine, which stay as they are written"
QUOTES = "quotes in dependency lists, which are read as part of a name"
LINKS_OF_TYPES = "folders of links for a type, as service.wants"


def files_with(trees, pattern, signs):
    """How many files have this outside of comments, which none has without one of these signs."""
    contents = [it for tree in trees for it in tree.entries.values() if not isinstance(it, Link) and any(sign in it for sign in signs)]
    return sum(bool(re.search(pattern, COMMENT.sub(b"", it))) for it in contents)


def places_in(trees, is_meant):
    """How many places are in folders that are meant."""
    return sum(is_meant(place.folder) for tree in trees for place in tree.entries)


def is_of_type(folder):
    """Whether this is a folder of links for all units of a type."""
    return folder in {f"{kind}.{ending}" for kind in KINDS for ending in ("wants", "requires")}


def not_taken(trees):
    """How many places the store doesn't have as they are."""
    return sum(tree.count(Grade.LEFT_OUT) + tree.count(Grade.UNREAD) for tree in trees)


def needs_made(unit, units):
    """Whether a unit requires one that systemd makes without a file."""
    return any(is_made(units[it]) for kind in NEEDING for it in unit.to(kind))


# ---- what is told


def left_out_by(profile, units, trees, beside, planned):
    """How often trees use what a profile leaves out: rows of what it is, of what is counted, and how many. What stands beside their unit
    folders is counted already."""
    loaded = [it for it in units.values() if it.is_loaded()]
    rows = [(what, "unit", sum(map(has, loaded))) for what, has in (BY_FILES if profile is Profile.FILES else BY_MANAGER)]
    if profile is Profile.FILES:
        return [*rows, ("requirements of devices or slices without a file", "unit", sum(needs_made(it, units) for it in loaded)),
                (SPECIFIERS, "file", files_with(trees, MACHINE, [b"%"])), (QUOTES, "file", files_with(trees, QUOTED % LISTS, QUOTES_THERE)),
                ("what stands in .upholds folders", "place", places_in(trees, lambda it: it.endswith(".upholds"))),
                (LINKS_OF_TYPES, "link", places_in(trees, is_of_type)), ("left out of the store", "place", not_taken(trees))]
    is_cycle = isinstance(planned, Refusal) and planned.code == "P8"
    return [*rows, (SPECIFIERS, "file", files_with(trees, MACHINE, [b"%"])), *beside, ("cycles, of which systemd drops a job", "plan", int(is_cycle))]


def read_otherwise(profile, units, trees):
    """The same of what files say and systemd reads otherwise, where a profile doesn't count it as left out."""
    if profile is Profile.FILES:
        return []
    return [("old spellings of settings, as BindTo=", "unit", sum(has_key(it, OLD_SPELLINGS) for it in units.values())),
            (QUOTES, "file", files_with(trees, QUOTED % LISTS_OF_MANAGER, QUOTES_THERE)), (LINKS_OF_TYPES, "link", places_in(trees, is_of_type)),
            ("left out of the store", "place", not_taken(trees))]
