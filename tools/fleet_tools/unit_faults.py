"""Why systemd refuses to load a unit that has a file: what a unit of its type must say, and mustn't."""
from .answers import UnitStatus
from .places import path_named, whole_path
from .readings import FALSE as OFF

REFUSES = "systemd refuses it"
# What the keys begin with of which a unit of a type has one, and the keys that say the path after which a unit is named.
NEEDED_KEYS = {"socket": ("Listen",), "timer": ("On",), "path": ("Path", "DirectoryNotEmpty"), "mount": ("What",)}
PATH_KEYS = {"mount": "Where", "automount": "Where", "swap": "What"}
KILLING_ALL = ("control-group", "mixed")


def values_of(unit, key):
    """The values of a key in the section of the unit's type."""
    return unit.settings.get(f"{unit.section}.{key}", [])


def last_of(unit, key, default):
    """The last value of a key in the section of the unit's type."""
    return (values_of(unit, key) or [default])[-1]


def service_type(unit):
    """The type of a service, where it says none the one that follows from the rest."""
    default = "dbus" if values_of(unit, "BusName") else "simple" if values_of(unit, "ExecStart") else "oneshot"
    return last_of(unit, "Type", default)


def faults_of_service(unit):
    """Why systemd refuses a service."""
    commands, sort = values_of(unit, "ExecStart"), service_type(unit)
    if len(commands) == 1 and sort == "simple" and not values_of(unit, "PAMName"):
        return
    is_kept = last_of(unit, "RemainAfterExit", "no").lower() not in OFF
    acts = unit.settings.get("Unit.SuccessAction", ["none"])[-1:] not in (["none"], [])
    if not (commands or values_of(unit, "ExecStop") or acts):
        yield "without ExecStart="
    elif not commands and sort != "oneshot":
        yield f"without ExecStart=, which only one of Type=oneshot may be; this is of Type={sort}"
    elif not (commands or is_kept or acts):
        yield "without ExecStart= and without RemainAfterExit=yes"
    if len(commands) > 1 and sort != "oneshot":
        yield f"several ExecStart=, which only one of Type=oneshot may have; this is of Type={sort}"
    if sort == "oneshot" and last_of(unit, "Restart", "no") in ("always", "on-success"):
        yield f"Restart={last_of(unit, 'Restart', 'no')}, which one of Type=oneshot may not have"
    if sort == "dbus" and not values_of(unit, "BusName"):
        yield "of Type=dbus without BusName="
    if values_of(unit, "PAMName") and last_of(unit, "KillMode", KILLING_ALL[0]) not in KILLING_ALL:
        yield f"PAMName= with KillMode={last_of(unit, 'KillMode', '')}"


def faults_of_others(unit):
    """Why systemd refuses a unit of another type."""
    kind = unit.kind
    heads = tuple(f"{unit.section}.{it}" for it in NEEDED_KEYS.get(kind, ()))
    if heads and not any(key.startswith(heads) for key, _ in unit.values):
        yield f"without {', '.join(f'{it}..=' if it in ('Listen', 'On', 'Path') else f'{it}=' for it in NEEDED_KEYS[kind])}"
    said = values_of(unit, PATH_KEYS[kind])[-1:] if kind in PATH_KEYS else []
    if said and whole_path(said[0]) != whole_path(path_named(unit.name)):
        yield f"{PATH_KEYS[kind]}={said[0]}, which isn't the path after which it is named, {path_named(unit.name)}"


def refused_for(unit):
    """Why systemd refuses a unit that has a file; nothing where it doesn't."""
    if unit.status is not UnitStatus.LOADED:
        return []
    return [*(faults_of_service(unit) if unit.kind == "service" else faults_of_others(unit))]
