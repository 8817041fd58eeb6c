"""What is asked by manager, worked by hand from the rules, and what is told of what these leave out."""
import os

from .bench import E, L, Link, U, same
from .told import FILES, HEADS

EARLY = {f"{U}/sysinit.target": "[Unit]\n", f"{U}/basic.target": "[Unit]\nRequires=sysinit.target\nAfter=sysinit.target\n",
         f"{U}/shutdown.target": "[Unit]\nDefaultDependencies=no\n"}
SMALL = {
    **EARLY, f"{U}/a.socket": "[Socket]\nListenStream=/run/a\n",
    f"{U}/a.service": "[Unit]\nUpholds=b.service\n[Service]\nExecStart=/a\nSlice=own.slice\n",
    f"{U}/b.service": "[Unit]\nDefaultDependencies=no\n[Service]\nExecStart=/b\n",
}


def by_manager(bench):
    """A small tree: what a socket and a slice without a file come to, what is pulled, and plans; by files less."""
    root = bench.tree("a", SMALL)
    same(bench.fleet("show", root, "a.socket", "--profile", "manager").lines(), [
        "unit a.socket", f"status loaded {U}/a.socket", "names a.socket", "Socket.ListenStream=/run/a",
        "Before: a.service shutdown.target sockets.target", "After: -.mount sysinit.target system.slice", "Requires: sysinit.target system.slice",
        "Conflicts: shutdown.target", "Triggers: a.service", "InSlice: system.slice",
    ])
    same(bench.fleet("show", root, "own.slice", "--profile", "manager").lines(), [
        "unit own.slice", "status built-in", "names own.slice", "Before: a.service shutdown.target", "After: -.slice", "Requires: -.slice",
        "RequiredBy: a.service", "Conflicts: shutdown.target", "InSlice: -.slice", "SliceOf: a.service",
    ])
    same(bench.fleet("show", root, "own.slice").lines(), ["unit own.slice", "status not-found", "names own.slice"])
    same(bench.fleet("list", root, "a", "--profile", "manager").lines(),
         ["0 a.service", "1 b.service", "1 own.slice", "1 sysinit.target", "2 -.slice", "2 system.slice"])
    same(bench.fleet("list", root, "a").lines(), ["0 a.service"])
    same(bench.fleet("plan", root, "a").lines(),
         [HEADS["manager"], "start b.service", "start own.slice", "start sysinit.target", "start a.service"])
    same(bench.fleet("plan", root, "a", "sysinit.target", "b.service").lines(), [HEADS["manager"], "start own.slice", "start a.service"])
    same(bench.fleet("plan", root, "shutdown.target", "a.service", "own.slice", "system.slice").lines(),
         [HEADS["manager"], "stop a.service", "stop own.slice", "start shutdown.target"])
    same(bench.fleet("plan", root, "a", *FILES).lines(), [HEADS["files"], "start a.service"])


def without_early_boot(bench):
    """Where a unit requires a target of early boot and the tree lacks it, it is told what that target is; by files it isn't."""
    why = "it is of systemd's own package, and most units require it by default, which --profile files leaves out"
    lacks = bench.tree("lacks", {f"{U}/a.service": "[Service]\nExecStart=/a\n", f"{U}/b.target": "[Unit]\nRequires=basic.target\n"})
    ran = bench.fleet("plan", lacks, "a", status=1)
    same((ran.out, ran.told()), (b"", [f"plan of a.service (profile manager): P2 NotFound sysinit.target: it has no file; {why}"]))
    same(bench.fleet("plan", lacks, "b.target", status=1).told(),
         ["plan of b.target (profile manager): P2 NotFound basic.target: it has no file; it is of systemd's own package"])
    same(bench.fleet("plan", lacks, "b.target", *FILES, status=1).told(),
         ["plan of b.target (profile files): P2 NotFound basic.target: it has no file"])
    same(bench.fleet("plan", lacks, "a", *FILES).lines(), [HEADS["files"], "start a.service"])
    same(bench.fleet("check", lacks, "a", status=1).lines()[1:4], [
        f"sysinit.target: P2 NotFound: it has no file, and 1 unit requires it; {why}",
        "basic.target: P2 NotFound: it has no file, and 1 unit requires it; it is of systemd's own package",
        "a.service: no plan: P2 NotFound sysinit.target: it has no file",
    ])
    masked = bench.tree("masked", {**SMALL, f"{E}/sysinit.target": ""})
    same(bench.fleet("plan", masked, "a", status=1).told(), [f"plan of a.service (profile manager): P3 Masked sysinit.target: it is masked; {why}"])
    same(bench.fleet("check", masked, "a", status=1).lines()[1], f"sysinit.target: P3 Masked: it is masked, and 3 units require it; {why}")


def what_is_left_out(bench):
    """Of each thing that is left out by manager it is told how many units, files or lines have it; what files say and is read otherwise is
    told apart."""
    off = "[Unit]\nDefaultDependencies=off\n"
    root = bench.tree("a", {
        f"{U}/a.service": f"{off}OnSuccess=b.service\n[Service]\nExecStart=/a\nSlice=x.slice\nSlice=y.slice\nManagedOOMSwap=kill\nRootImage=/i\n",
        f"{U}/b.service": f"{off}ConditionPathExists=/etc/initrd-release\nAfter=init.scope\n[Service]\nType=oneshot\nWorkingDirectory=%S/x\n",
        f"{U}/c.service": f"{off}# Wants='b.service'\nBindTo=b.service\nWants=b.service \\\n 'a.service'\n[Service]\nExecStart=/c\n",
        f"{U}/d.timer": off, f"{U}/e.path": f"{off}[Path]\nDirectoryMode=0700\n", f"{U}/f.socket": f"{off}[Socket]\nAccept=yes\n",
        f"{U}/r.target": f"{off}RequiresMountsFor='/x'\n",
        f"{U}/x-y.mount": f"{off}[Mount]\nWhat=/dev/d\nWhere=/x/z\n", f"{U}/x-z.mount": f"{off}[Mount]\nWhat=/y\nWhere=//x/./z/\n",
        f"{U}/srv-w.swap": f"{off}[Swap]\nWhat=/w\n", f"{U}/v.service": f"{off}[Service]\nExecStop=/v\nRemainAfterExit=yes\n",
        f"{U}/two.service": f"{off}[Service]\nExecStart=/1\nExecStart=/2\n",
        f"{U}/one.service": f"{off}[Service]\nType=oneshot\nExecStart=/1\nExecStart=/2\n",
        f"{E}/a.service.upholds/b.service": Link("../b.service"), f"{E}/service.wants/b.service": Link("../b.service"),
        f"{E}/a.service.d/x.conf": Link("y.conf"), "/run/systemd/transient/t.service": "",
        "/etc/fstab": "# of the machine\n/dev/a / ext4\n\n b /b none\n",
        "/usr/lib/systemd/system-generators/one": "x", "/usr/lib/systemd/system-generators/two": "x",
        "/etc/systemd/system-generators/two": Link("/dev/null"), "/usr/lib/systemd/user/u.service": "x", "/usr/lib/systemd/user/read.me": "x",
        "/etc/systemd/system.conf": "[Manager]\n#DefaultStandardError=null\nDefaultStandardOutput=null\n",
        "/usr/lib/systemd/system.conf.d/x.conf": "[Manager]\n DefaultStandardError = inherit\n", "/run/systemd/system.conf": Link("system.conf"),
    })
    ran = bench.fleet("check", root, "a", status=1)
    same(ran.lines()[1:-2], [
        "b.service: without ExecStart=: systemd refuses it", "c.service: Unit.Wants: K6 BadName: a word that is no unit name; it is passed over",
        *(f"{name}: {why}: systemd refuses it" for name, why in (
            ("d.timer", "without On..="), ("e.path", "without Path..=, DirectoryNotEmpty="), ("f.socket", "without Listen..="),
            ("srv-w.swap", "What=/w, which isn't the path after which it is named, /srv/w"),
            ("two.service", "several ExecStart=, which only one of Type=oneshot may have; this is of Type=simple"),
            ("x-y.mount", "Where=/x/z, which isn't the path after which it is named, /x/y"),
        )), "/run/systemd/system.conf: can't be read: Too many levels of symbolic links",
        "not modelled: devices of the machine, which start at once here: 1 unit",
        "not modelled: init.scope, which the manager makes for itself: 1 unit",
        "not modelled: units of the initial RAM disk, where the manager adds otherwise: 1 unit",
        "not modelled: what systemd-oomd may kill, by which it is pulled: 1 unit", "not modelled: images, for which modprobe@ is pulled: 1 unit",
        "not modelled: an earlier Slice= before the last, which stays required: 1 unit",
        "not modelled: StopPropagatedFrom=, PropagatesStopTo=, OnSuccess= and JoinsNamespaceOf=: 1 unit",
        "not modelled: specifiers of the machine, which stay as they are written: 1 file",
        "not modelled: generators, which aren't run: 1 file", "not modelled: units of users' managers, which aren't read: 1 file",
        "not modelled: mounts and swaps of the machine, which a generator makes of /etc/fstab: 2 lines",
        "not modelled: DefaultStandardOutput= and DefaultStandardError= of the manager: 2 lines",
        "read otherwise: old spellings of settings, as BindTo=: 1 unit",
        "read otherwise: quotes in dependency lists, which are read as part of a name: 2 files",
        "read otherwise: folders of links for a type, as service.wants: 1 link", "read otherwise: left out of the store: 2 places",
    ])
    ring = {**EARLY, f"{U}/a.service": "[Unit]\nAfter=b.service\nRequires=b.service\n[Service]\nExecStart=/a\n",
            f"{U}/b.service": "[Unit]\nAfter=a.service\n[Service]\nExecStart=/b\n"}
    same(bench.fleet("check", bench.tree("ring", ring), "a", status=1).lines()[1:3], [
        "a.service: no plan: P8 Cycle a.service b.service: they wait for each other: a.service before b.service, b.service before a.service",
        "not modelled: cycles, of which systemd drops a job: 1 plan",
    ])


def what_defaults_change(bench):
    """Where a unit gives up its defaults, by manager it differs in what they are, by files in a value alone. Equal trees don't differ."""
    one = bench.tree("one", {f"{U}/a.service": "[Unit]\n"})
    other = bench.tree("other", {f"{U}/a.service": "[Unit]\nDefaultDependencies=no\n"})
    value = ["a.service", "  + Unit.DefaultDependencies: no"]
    same(bench.fleet("diff", one, other, status=1).lines(), [
        HEADS["manager"], *value, "  - Before: shutdown.target", "  - After: basic.target", "  - After: sysinit.target",
            "  - Requires: sysinit.target",
        "  - Conflicts: shutdown.target", "basic.target", "  - status: not-found", "  - names: basic.target", "  - Before: a.service",
        "shutdown.target", "  - status: not-found", "  - names: shutdown.target", "  - After: a.service", "  - ConflictedBy: a.service",
        "sysinit.target", "  - status: not-found", "  - names: sysinit.target", "  - Before: a.service", "  - RequiredBy: a.service",
    ])
    same(bench.fleet("diff", one, other, *FILES, status=1).lines(), [HEADS["files"], *value])
    same(bench.fleet("diff", one, one).out, b"")


def an_older_program(bench):
    """A program that knows no profiles is told as such, and asked by files as ever."""
    root = bench.tree("a", {f"{L}/a.service": "[Unit]\n"})
    with open(bench.path("older"), "w", encoding="utf-8") as file:
        file.write(f"#!/bin/sh\nsed 's/^profile /profiles /' | \"{bench.program}\"\n")
    os.chmod(bench.path("older"), 0o755)
    ran = bench.fleet("plan", root, "a", env={"FLEET_SHELL": bench.path("older")}, status=1)
    same(ran.told(), ["plan: --profile: X1 UnknownCommand: the program is older than these tools: build it anew"])
    same(bench.fleet("plan", root, "a", *FILES, env={"FLEET_SHELL": bench.path("older")}).lines(), [HEADS["files"], "start a.service"])


CASES = [by_manager, without_early_boot, what_is_left_out, what_defaults_change, an_older_program]
