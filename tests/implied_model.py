"""The profiles of tests/unit_model.py. In `files` a unit has what its files ask for. In `manager` it also has what the system manager of
systemd 252 adds: the implicit and default dependencies of systemd.unit(5), which the page of each type of unit lists, and what it adds beyond
its pages. tests/implied.txt has what systemd itself said of small trees.

What a unit implies alone is in three tables: IMPLIED, DEFAULTS and PATHS. A row holds for the units that have one of its roles. A role is a
type of unit, or one of ROLES, which are types under a condition. What needs two units, orders after mounts and orders of targets after what
they pull, is in ManagerGraph, as are plans."""
import re

from unit_graph import PULLING, Graph
from unit_text import FALSE, INVERSES, SETTABLE, TRUE, Name, escaped, name_or_none, stands_for, unescaped

# Units that are always loaded and active, "perpetual" in systemd.unit(5); systemd.special(7) has them.
PERPETUAL = ("-.slice", "system.slice", "-.mount")

# ---- paths


def path_of(text):
    """A path without empty components and dots. Nothing where the text begins with no slash, or goes up by two dots."""
    parts = [it for it in (text or "").split("/") if it not in ("", ".")]
    return None if not (text or "").startswith("/") or ".." in parts else "/" + "/".join(parts)


def paths_of(texts):
    return [it for it in map(path_of, texts) if it]


def is_at_or_below(path, top):
    return path is not None and (path == top or path.startswith(f"{top}/"))


def is_below(path, top):
    return path != top and is_at_or_below(path, top)


def above(path):
    """The folder that a path is in."""
    return path.rpartition("/")[0] or "/"


def unit_at(path, kind):
    """The unit of this type that is named after a path."""
    return f"{escaped(path[1:]) or '-'}.{kind}"


# ---- a unit and its values


def words_of(values):
    """The words of values, between white space."""
    return [word for value in values for word in re.split(r"[ \t\r]+", value) if word]


class Facts:
    """A loaded unit as the rules below ask it: its name, and the values in the section of its type, as in [Service] for a service."""

    def __init__(self, unit):
        self.settings = unit["settings"]
        self.text, self.name = unit["name"], Name(unit["name"])
        self.kind = self.name.kind
        # The path that a mount, an automount or a swap is named after, where it is named after one.
        path = path_of("/" + (unescaped(self.name.stem) or ""))
        self.place = path if path and unit_at(path, self.kind) == self.text else None
        # The options of a mount, without what they are set to.
        self.options = [it.partition("=")[0] for it in (self.last("Options") or "").split(",")]
        # The path that is mounted or swapped to, if it is one. A swap that doesn't say it has that of its name.
        self.what = path_of(self.last("What")) if self.kind == "mount" or self.has("What") else self.place
        self.roles = {self.kind} | {role for role, (kinds, holds) in ROLES.items() if self.kind in kinds.split() and holds(self)}

    def values(self, *keys):
        """The values of these keys, with specifiers expanded, after the last line that empties them."""
        return [it for key in keys for it in self.settings.get((self.kind.capitalize(), key), [])]

    def words(self, *keys):
        return words_of(self.values(*keys))

    def has(self, *keys):
        return bool(self.values(*keys))

    def last(self, key):
        return next(reversed(self.values(key)), None)

    def yes(self, key):
        """Whether the last value that is a boolean is true; other values are passed over."""
        return next((it for it in reversed([it.lower() for it in self.values(key)]) if it in TRUE + FALSE), None) in TRUE

    def names_in_row(self, roles, names):
        """The names of a row of a table, where the unit has one of the row's roles."""
        if self.roles.isdisjoint(roles.split(", ")):
            return []
        return names.split() if isinstance(names, str) else names(self)

    def takes(self, *options):
        """Whether a mount has one of these options."""
        return bool({*options}.intersection(self.options))

    def sister(self, kind):
        """The unit of another type with the same name before the dot."""
        return [f"{self.name.stem}.{kind}"]

    def defaults(self):
        """Whether default dependencies are asked for. Where nothing is said, perpetual units have none."""
        said = self.settings.get(("Unit", "DefaultDependencies"))
        return said[-1].lower() in TRUE if said else self.text not in PERPETUAL


# ---- roles

COMMANDS = "ExecStartPre ExecStartPost ExecStopPre ExecStopPost".split()
KEPT_DIRECTORIES = "StateDirectory CacheDirectory LogsDirectory".split()
LOGS = "journal kmsg journal+console kmsg+console syslog syslog+console".split()
INPUTS = "tty tty-force tty-fail socket fd".split()
NETWORK_TYPES = ("afs ceph cifs gfs gfs2 ncp ncpfs nfs nfs4 ocfs2 orangefs pvfs2 smb3 smbfs davfs glusterfs lustre sshfs").split()
QUOTA_OPTIONS = "usrquota grpquota quota usrjquota grpjquota".split()
QUOTA_TYPES = [None, *"ext2 ext3 ext4 reiserfs jfs f2fs".split()]
SYSTEM_TREES = "/run/initramfs /proc /sys /dev".split()


def is_process(unit):
    """Whether the settings of systemd.exec(5) count: always for services, mounts and swaps, for sockets where commands are set."""
    return unit.kind != "socket" or unit.has(*COMMANDS)


def is_logging(unit):
    """Whether output or errors go to the journal or the kernel's log, alone or beside the console. Output goes to the journal where nothing is
    said, but for the root mount. A service that inherits its output has the journal, unless its input is a terminal, a socket or a file."""
    output = unit.last("StandardOutput") or ("null" if unit.text == "-.mount" else "inherit" if unit.kind == "service" else "journal")
    if unit.kind == "service" and output == "inherit":
        source = unit.last("StandardInput") or "null"
        output = output if source in INPUTS or source.startswith("fd:") else "journal"
    return output in LOGS or unit.last("StandardError") in LOGS


def is_private(unit):
    """Whether a process has temporary directories of its own, which DynamicUser= implies."""
    return unit.yes("PrivateTmp") or unit.yes("DynamicUser")


def is_bind(unit):
    """Whether a mount shows what is mounted already."""
    return unit.takes("bind", "rbind") or unit.last("Type") in ("bind", "rbind")


def is_extrinsic(unit):
    """Whether a mount is there before the manager and stays to the end: the root, /usr and /etc, what is in the initial file system and the
    kernel's own trees."""
    is_early = unit.place in ("/", "/usr", "/etc") or any(is_at_or_below(unit.place, it) for it in SYSTEM_TREES)
    return unit.kind == "mount" and (is_early or unit.takes("x-initrd.mount"))


def is_network(unit):
    """Whether a mount waits for the network: by its option, or by its type, also as a type of FUSE."""
    return unit.takes("_netdev") or (unit.last("Type") or "").removeprefix("fuse.") in NETWORK_TYPES


def may_fail(unit):
    """Whether the last of the options nofail and fail is the first of these."""
    return next((it for it in reversed(unit.options) if it in ("nofail", "fail")), None) == "nofail"


def is_on_device(unit):
    """Whether what is mounted or swapped to is a device's path."""
    return is_below(unit.what, "/dev") or is_below(unit.what, "/sys")


def needs_device(unit):
    """Whether a mount waits for a device: not one that binds, nor the root file system."""
    return is_on_device(unit) and unit.what not in ("/dev/root", "/dev/nfs") and not is_bind(unit) and unit.place != "/"


# Each role, with the types that may have it, and when they do.
PROCESSES = "service mount swap socket"
ROLES = {
    "process": (PROCESSES, is_process),
    "keeping process": (PROCESSES, lambda it: is_process(it) and it.has(*KEPT_DIRECTORIES)),
    "private process": (PROCESSES, lambda it: is_process(it) and is_private(it)),
    "process on an image": (PROCESSES, lambda it: is_process(it) and it.has("RootImage")),
    "process with its own journal": (PROCESSES, lambda it: is_process(it) and it.has("LogNamespace")),
    "logging process": (PROCESSES, lambda it: is_process(it) and not it.has("LogNamespace") and is_logging(it)),
    "service on the bus": ("service", lambda it: it.has("BusName") and it.last("Type") in (None, "dbus")),
    "lasting socket": ("socket", lambda it: not it.yes("Accept")),
    "calendar timer": ("timer", lambda it: it.has("OnCalendar")),
    "persistent timer": ("timer", lambda it: it.yes("Persistent")),
    "local mount": ("mount", lambda it: not is_extrinsic(it) and not is_network(it)),
    "network mount": ("mount", lambda it: not is_extrinsic(it) and is_network(it)),
    "awaited local mount": ("mount", lambda it: not is_extrinsic(it) and not is_network(it) and not may_fail(it)),
    "awaited network mount": ("mount", lambda it: not is_extrinsic(it) and is_network(it) and not may_fail(it)),
    "memory mount": ("mount", lambda it: not is_extrinsic(it) and it.last("Type") == "tmpfs"),
    "inner mount": ("mount automount", lambda it: it.place not in (None, "/")),
    "mount of a path": ("mount", lambda it: not is_network(it) or is_bind(it) or it.takes("loop")),
    "quota mount": ("mount", lambda it: it.takes(*QUOTA_OPTIONS) and it.last("Type") in QUOTA_TYPES and not is_bind(it)),
    "mount on a device": ("mount", needs_device),
    "mount that needs a device": ("mount", lambda it: needs_device(it) and not it.takes("x-systemd.device-bound")),
    "mount that is bound to a device": ("mount", lambda it: needs_device(it) and it.takes("x-systemd.device-bound")),
    "swap on a device": ("swap", is_on_device),
    "swap on a file": ("swap", lambda it: not is_on_device(it)),
}

# ---- implied names


def slice_of(unit):
    """The slice that a unit is in: of a slice the one that its name begins with; else the one that is set (systemd.resource-control(5)); else
    one for all instances of a template; else the root slice for what is there from the beginning, and the system's for all others."""
    if unit.kind == "slice":
        return [] if unit.text == "-.slice" else [f"{unit.name.stem.rpartition('-')[0]}.slice" if "-" in unit.name.stem else "-.slice"]
    names = [it for it in map(name_or_none, unit.values("Slice")) if it and it.kind == "slice" and it.shape != "template"]
    if names:
        return [names[-1].text]
    if unit.name.shape == "instance":
        return [f"system-{escaped(unit.name.prefix)}.slice"]
    return ["-.slice" if unit.text in PERPETUAL or is_extrinsic(unit) else "system.slice"]


def own_journal(unit):
    """The two sockets of a journal of its own."""
    return [f"systemd-journald{it}@{unit.last('LogNamespace')}.socket" for it in ("", "-varlink")]


def set_sockets(unit):
    """The sockets that a service is set to have."""
    return [it for it in unit.words("Sockets") if it.endswith(".socket")]


def served(unit):
    """The service that a socket starts: the last one that is set, else the one of the same name."""
    names = [it for it in map(name_or_none, unit.values("Service")) if it and it.kind == "service" and it.shape != "template"]
    return [names[-1].text] if names else unit.sister("service")


def activated(unit):
    """The unit that a timer or a path starts: the first one that is set and isn't itself, else the service of the same name."""
    names = [it for it in (stands_for(it, unit.text) for it in unit.values("Unit")) if it and it != unit.text]
    return names[:1] or unit.sister("service")


def interface(unit):
    """The device of the network interface that a socket is bound to, but for the loopback interface."""
    name = unit.last("BindToDevice")
    path = path_of(f"/sys/subsystem/net/devices/{name}") if name not in (None, "lo") else None
    return [unit_at(path, "device")] if path else []


def device(unit):
    """The device that is mounted or swapped to."""
    return [unit_at(unit.what, "device")]


def block_device(unit):
    """The target after which a block device is unlocked, see systemd.special(7); for what is below /dev."""
    return [f"blockdev@{escaped(unit.what[1:])}.target"] if is_below(unit.what, "/dev") else []


# Roles, kinds of dependencies, and the names: in words, or as a function of the unit.
IMPLIED = [
    # systemd.resource-control(5), systemd.slice(5)
    ("service, socket, mount, swap, slice", "Requires After InSlice", slice_of),
    # systemd.exec(5); that state, caches and logs wait for a writable root, and images for devices, it doesn't say
    ("keeping process", "After", "systemd-remount-fs.service"),
    ("private process", "After Wants", "tmp.mount"),
    ("private process", "After", "systemd-tmpfiles-setup.service"),
    ("process on an image", "After", "systemd-udevd.service"),
    ("process with its own journal", "After Requires", own_journal),
    ("logging process", "After", "systemd-journald.socket"),
    # systemd.service(5); a service that has a name on the bus and no type is one of the bus
    ("service", "Wants After TriggeredBy", set_sockets),
    ("service on the bus", "Requires After", "dbus.socket"),
    # systemd.socket(5), systemd.timer(5), systemd.path(5), systemd.automount(5)
    ("lasting socket", "Before Triggers", served),
    ("socket", "After BindsTo", interface),
    ("timer, path", "Before Triggers", activated),
    ("automount", "Before Triggers", lambda it: it.sister("mount")),
    # systemd.mount(5) and systemd.swap(5); a mount is bound to its device by an option alone, not always as the page says
    ("mount on a device, swap on a device", "After", device),
    ("mount that needs a device, swap on a device", "Requires", device),
    ("mount that is bound to a device", "BindsTo", device),
    ("mount on a device, swap on a device", "After", block_device),
    ("quota mount", "Before Wants", "systemd-quotacheck.service quotaon.service"),
    ("swap on a file", "After", "systemd-remount-fs.service"),
]

# The same for units that have default dependencies: in the page of each type under that heading, but that memory waits for swaps.
DEFAULTS = [
    ("service, socket, path, timer", "Requires After", "sysinit.target"),
    ("service, socket, path, timer, target, slice", "Before Conflicts", "shutdown.target"),
    ("service", "After", "basic.target"),
    ("socket", "Before", "sockets.target"),
    ("path", "Before", "paths.target"),
    ("timer", "Before", "timers.target"),
    ("calendar timer", "After", "time-sync.target time-set.target"),
    ("local mount, network mount, automount, swap", "Before Conflicts", "umount.target"),
    ("local mount, automount", "After", "local-fs-pre.target"),
    ("awaited local mount, automount", "Before", "local-fs.target"),
    ("network mount", "After", "remote-fs-pre.target network.target network-online.target"),
    ("network mount", "Wants", "network-online.target"),
    ("awaited network mount", "Before", "remote-fs.target"),
    ("memory mount", "After", "swap.target"),
    ("swap", "Before", "swap.target"),
]

# ---- paths whose mounts a unit needs

DIRECTORIES_BELOW = {"RuntimeDirectory": "/run", "StateDirectory": "/var/lib", "CacheDirectory": "/var/cache", "LogsDirectory": "/var/log",
                     "ConfigurationDirectory": "/etc"}


def working_paths(unit):
    """Where a process works. A working directory after a dash may be missing."""
    return [it for it in map(unit.last, ("WorkingDirectory", "RootDirectory", "RootImage")) if it]


def own_directories(unit):
    """The directories that the manager makes for a process, which are named below one of its own. What follows a colon names a link to one;
    what is named from the root, or among those of dynamic users, is passed over."""
    found = []
    for key, top in DIRECTORIES_BELOW.items():
        for word in unit.words(key):
            path = path_of(f"{top}/{word.partition(':')[0]}")
            if not word.startswith("/") and not is_at_or_below(path, f"{top}/private"):
                found.append(path)
    return found


def addresses(unit):
    """The paths at which a socket listens, by sockets or a named pipe: /var/run is read as /run."""
    paths = paths_of(unit.values("ListenStream", "ListenDatagram", "ListenSequentialPacket", "ListenFIFO"))
    return [it.removeprefix("/var") if is_at_or_below(it, "/var/run") else it for it in paths]


# Roles, and the paths; what is no path is passed over. The pages of the types and systemd.exec(5) have them.
PATHS = [
    ("process", working_paths),
    ("process", own_directories),
    ("private process", "/var/tmp"),
    ("socket", addresses),
    ("socket", lambda it: it.values("ListenSpecial", "ListenUSBFunction")),
    ("path", lambda it: it.values("PathExists", "PathExistsGlob", "PathChanged", "PathModified", "DirectoryNotEmpty")),
    ("persistent timer", "/var/lib/systemd/timers"),
    ("inner mount", lambda it: [above(it.place)]),
    ("mount of a path, swap", lambda it: [it.what]),
]

# ---- profiles


class Files:
    """The profile in which a unit has what its files ask for."""

    settable, perpetual, graph = SETTABLE, (), Graph
    kept = {("Unit", key) for key in SETTABLE}
    switches = {("Unit", "RefuseManualStart")}

    def choice(self, name, said):
        """What the profile makes of what the load path says for a name."""
        return said

    def imply(self, unit):
        """Gives a loaded unit what it implies."""


# ---- edges and plans of the manager


class ManagerGraph(Graph):
    """Edges with those that need two units, and plans as the manager makes them."""

    inverses = {**INVERSES, "Upholds": "UpheldBy", "UpheldBy": "Upholds", "Triggers": "TriggeredBy", "TriggeredBy": "Triggers",
                "InSlice": "SliceOf", "SliceOf": "InSlice"}
    pulling, wishing = (*PULLING, "Upholds"), ("Wants", "Upholds")

    def __init__(self, mains, units):
        super().__init__(mains, units)
        loaded = [it for it in units if self.is_loaded(it)]
        for name in loaded:
            self.add_mounts(name)
        orders = {(target, name) for target in loaded for name in self.ordered(target)}
        for target, name in orders:
            if (name, target) not in orders:
                self.add(target, "After", name)

    def add_mounts(self, name):
        """A unit comes after the loaded mounts at and above each of its paths, and requires those that have a file, as RequiresMountsFor= of
        systemd.unit(5) tells."""
        for path in self.units[name]["paths"]:
            tops = {path, "/", *[path[: it.start()] for it in re.finditer("/", path) if it.start()]}
            for mount in {unit_at(it, "mount") for it in tops} - {name}:
                if mount in self.units and self.is_loaded(mount):
                    self.add(name, "After", mount)
                    if self.units[mount]["said"][0] == "fragment":
                        self.add(name, "Requires", mount)

    def ordered(self, target):
        """The loaded units that a target would come after since it pulls them: where both have default dependencies, and it isn't said to come
        before. See the default dependencies of systemd.target(5). Of two targets that would come after each other neither does."""
        if Name(target).kind != "target" or not self.units[target]["defaults"]:
            return []
        pulled = self.to(("Requires", "Requisite", "Wants", "BindsTo", "Upholds"), target)
        return [it for it in pulled if self.is_loaded(it) and self.units[it]["defaults"] and it not in self.edges["Before", target]]

    def running(self, names):
        """Perpetual units always run."""
        return super().running(names).union(PERPETUAL)

    def onward(self, kinds, at, begin, running):
        """A running unit needs and pulls nothing, unless the walk began at it."""
        return self.to(kinds, at) if at == begin or at not in running else []

    def has_requisites(self, name, running):
        """Isn't asked of what is wanted: a requisite may still be pulled by another unit."""
        return True

    def missing(self, name, pulled, running):
        """The requisites that neither run nor are pulled."""
        return [it for it in self.to(["Requisite"], name) if it not in running and it not in pulled]

    def losing(self, extra, pulled, running):
        """The units that are only wanted, don't run and miss a requisite."""
        return {it for it in extra - running if self.missing(it, pulled, running)}

    def stopped(self, target, chosen, running):
        """What runs already stops nothing, but for the target; perpetual units never stop."""
        return self.stopped_by((chosen - running) | {target}, running - chosen - {*PERPETUAL})


class Manager(Files):
    """The profile in which a unit also has what the system manager adds."""

    settable, perpetual, graph = [*SETTABLE, "Upholds"], PERPETUAL, ManagerGraph
    kept = {*Files.kept, ("Unit", "Upholds"), ("Unit", "RequiresMountsFor"), ("Service", "Sockets")}
    switches = {*Files.switches, ("Unit", "DefaultDependencies")}

    def choice(self, name, said):
        """Devices, the root mount and slices need no file, where a slice's name is a way down from the root slice: no part between dashes is
        empty. A mask on a perpetual unit is as if nothing stood there."""
        it = Name(name)
        is_slice = it.kind == "slice" and it.shape == "plain" and (it.stem == "-" or all(it.stem.split("-")))
        if said[0] == "not-found" and (it.kind == "device" or is_slice or name == "-.mount") or said[0] == "masked" and name in PERPETUAL:
            return ("built-in",)
        return said

    def imply(self, unit):
        """Adds to a loaded unit the names that it implies, whether it has default dependencies, and the paths whose mounts it needs. What is
        no unit name is passed over."""
        facts = Facts(unit)
        unit["defaults"] = facts.defaults()
        unit["named"] = {kind: unit["named"].get(kind, set()) for kind in ManagerGraph.inverses}
        for roles, kinds, names in [*IMPLIED, *(DEFAULTS if unit["defaults"] else [])]:
            for kind in kinds.split():
                unit["named"][kind].update(it for it in (stands_for(name, facts.text) for name in facts.names_in_row(roles, names)) if it)
        # A device can't be delayed: an order before one is passed over.
        unit["named"]["Before"] = {it for it in unit["named"]["Before"] if Name(it).kind != "device"}
        needed = words_of(unit["settings"].get(("Unit", "RequiresMountsFor"), []))
        unit["paths"] = {*paths_of([*needed, *[it for row in PATHS for it in facts.names_in_row(*row)]])}


PROFILES = {"files": Files(), "manager": Manager()}
