"""What is asked of trees is answered as the rules say: units, plans, what is wrong, what differs."""
import os
import shutil
import subprocess
import sys

import unit_model as model
from repository import ROOT

from .bench import FLEET, TREES, E, L, Link, R, U, same

DEBIAN, WEB1, BROKEN = (os.path.join(TREES, it) for it in ("debian", "web1", "broken"))

# The line at the head of what is printed by each profile, and the words that ask by files where a manager comes first.
HEADS = {"files": "# profile files: what unit files say alone", "manager": "# profile manager: what unit files say and systemd's manager adds"}
FILES = ("--profile", "files")
NO_START = "{}.service: without ExecStart=: systemd refuses it"
SERVICE = "[Service]\nExecStart=/x\n"


def store_of(root, host=""):
    """What stands in a tree of tests/trees, read for the model."""
    found = {}
    for directory in model.DIRECTORIES:
        for at, folders, names in os.walk(root + directory):
            for name in [*names, *(it for it in folders if os.path.islink(f"{at}/{it}"))]:
                path = f"{at}/{name}"
                place = host + path[len(root) :]
                if os.path.islink(path):
                    found[place] = model.Link(os.readlink(path))
                else:
                    with open(path, encoding="latin-1", newline="") as file:
                        found[place] = file.read()
    return found


def modelled(call, *words):
    """What the model answers."""
    try:
        return call(*words)[:-1]
    except model.Refused as refusal:
        return [refusal.line()]


def as_the_model_says(bench):
    """Each question about the tree of tests/trees is answered as the rules say, for the fleet and for a host, by each profile."""
    store = {**store_of(DEBIAN), **store_of(WEB1, "web1:")}
    more = ["--with", f"web1={WEB1}"]
    asked = {None: ["app-shop-web.service", "default.target", "sshd.service"], "web1": ["nginx.service", "autovt@tty2.service"]}
    plans = (("default.target", []), ("multi-user.target", ["rescue.service", "ssh.socket"]), ("app-wiki.service", ["postgresql.service"]))
    for host, words in ((None, more), ("web1", [*more, "--host", "web1"])):
        for name in asked[host]:
            same(bench.fleet("cat", DEBIAN, name, *words).lines(), modelled(model.cat, store, host, name), f"cat {name}")
        for profile, head in HEADS.items():
            by, graph = [*words, "--profile", profile], model.asked_graph(store, host, asked[host], profile)
            for name in asked[host]:
                same(bench.fleet("show", DEBIAN, name, *by).lines(), model.shown(graph, graph.mains[name])[:-1], f"show {name} {profile}")
            same(bench.fleet("list", DEBIAN, "graphical.target", *by, "--workers", "4").lines(),
                 modelled(model.list_pulled, store, host, "graphical.target", profile))
            for name, running in plans if profile == "manager" or not host else plans[:1]:
                found = bench.fleet("plan", DEBIAN, name, *running, *by).lines()
                same(found, [head, *modelled(model.plan, store, host, name, running, profile)], f"plan {name} {profile}")


def worked_by_hand(bench):
    """A unit of the tree, worked by hand: the host's own file, whose drop-ins come from four directories, by rank and by name."""
    web1 = ["--with", f"web1={WEB1}", "--host", "web1"]
    same(bench.fleet("show", DEBIAN, "nginx", *web1).lines(), [
        "unit nginx.service", f"status loaded web1:{E}/nginx.service", "names nginx.service", f"dropin {E}/service.d/90-protect.conf",
        f"dropin web1:{E}/nginx.service.d/limits.conf", "Unit.Description=Web server of this host", "Service.ExecStart=/srv/nginx/nginx",
        "Service.ProtectSystem=full", "Service.LimitNOFILE=262144", "After: network-online.target", "Wants: network-online.target",
        "WantedBy: multi-user.target",
    ])
    same(bench.fleet("plan", DEBIAN, "app-wiki.service", *FILES).lines(),
         [HEADS["files"], "start postgresql@15-main.service", "start postgresql.service", "start app-wiki.service"])
    same(bench.fleet("plan", DEBIAN, "ssh.service", "ssh.socket", *FILES).lines(), [HEADS["files"], "stop ssh.socket", "start ssh.service"])
    same(bench.fleet("cat", f"web1={WEB1}", "nginx").lines()[0], f"# web1:{E}/nginx.service")
    starts = bench.fleet("plan", DEBIAN, "multi-user.target", *web1, *FILES).lines()
    same([it in starts for it in ("start cron.service", "start app-shop-worker.service", "start app-shop-web.service")], [False, False, True])
    same(bench.fleet("cat", DEBIAN, "autovt@tty2").lines()[-3:],
         [f"# {E}/getty@tty2.service.d/noclear.conf", "[Service]", "TTYVTDisallocate=no"])


def refusals(bench):
    """A refusal ends with status 1, is told in words, and prints nothing."""
    for words, told in (
        (["plan", BROKEN, "first", *FILES], "plan of first.service (profile files): P8 Cycle first.service third.service second.service: they "
         "wait for each other: first.service before third.service, third.service before second.service, second.service before first.service"),
        (["plan", BROKEN, "both.target", *FILES], "plan of both.target (profile files): P7 Conflict day.service night.service: day.service and "
         "night.service conflict, and both are required"),
        (["plan", BROKEN, "lacks", *FILES], "plan of lacks.service (profile files): P2 NotFound gone.service: it has no file"),
        (["cat", BROKEN, "masked"], "cat of masked.service: P3 Masked masked.service: it is masked"),
        (["cat", BROKEN, "kind"], "cat of kind.service: P4 Bad kind.service: its link is bad"),
        (["show", BROKEN, "escape@.service"], "show of escape@.service: P1 Template: a template: ask for an instance of it"),
        (["list", BROKEN, "a!.service"], "list of a!.service: N4 BadByte 1"),
        (["plan", DEBIAN, "shutdown.target"], "plan of shutdown.target (profile manager): P5 ManualStart: it refuses to be started by hand"),
        (["plan", DEBIAN, "example-broker"], "plan of example-broker.service (profile manager): P6 Requisite example-broker.service dbus.service: "
         "example-broker.service starts only where dbus.service runs already"),
    ):
        ran = bench.fleet(*words, status=1)
        same((ran.out, ran.told()[-1]), (b"", told))
    same(bench.fleet("show", BROKEN, "gone").lines(), ["unit gone.service", "status not-found", "names gone.service", "RequiredBy: lacks.service"])


def what_runs(bench):
    """What runs is read from the line and from a file, as `systemctl list-units --plain` prints it."""
    root = bench.tree("a", {f"{U}/t.target": "[Unit]\nRequires=a.service b.service c.service\nAfter=a.service b.service c.service\n",
                            **{f"{U}/{it}.service": "[Unit]\n" for it in "abc"}})
    with open(bench.path("running"), "w", encoding="utf-8") as file:
        file.write("# what runs\nb.service loaded active running A service\n\n  n.service\n")
    same(bench.fleet("plan", root, "t.target", "a", "--running-from", bench.path("running"), *FILES).lines()[1:],
         ["start c.service", "start t.target"])
    same(bench.fleet("plan", root, "t.target", "--running-from", "-", *FILES, input=b"c.service\n").lines()[1:],
         ["start a.service", "start b.service", "start t.target"])


def wrong_units(bench):
    """All that is wrong with a tree is told, a line each, with status 1. By manager most units require what the tree lacks: that is one line."""
    notes = f"{U}/notes.service"
    cycle = "first.service before third.service, third.service before second.service, second.service before first.service"
    ring = f"they wait for each other: {cycle}"
    wrong = [
        f"{notes}:1: K1 OutsideSection: a line before the first section", f"{notes}:5: RefuseManualStart=perhaps: not a boolean",
        f"{notes}:6: K2 NoEquals: a line without a key and a `=`",
        f"{notes}:7: K3 BadHeader: a section's header without its end; what follows it is passed over",
        "away.service: B4 Target: the link leads to no unit name", NO_START.format("day"),
        "escape@a\\x2.service: Unit.Description: K5 BadEscape: a specifier for what can't be unescaped; the value is passed over",
        NO_START.format("escape@a\\x2"), NO_START.format("first"),
        "kind.service: B1 Kind: the link leads to another kind of unit, or is of a kind without aliases", NO_START.format("lacks"),
        "lacks.service: Requires=gone.service: P2 NotFound: it has no file", "lacks.service: Requires=masked.service: P3 Masked: it is masked",
        "lacks.service: BindsTo=kind.service: P4 Bad: it has a bad link", "loop1.service: B3 Loop: more than 8 links, or a loop of them",
        "loop2.service: B3 Loop: more than 8 links, or a loop of them", NO_START.format("night"),
        "notes.service: Unit.Wants: K6 BadName: a word that is no unit name; it is passed over", NO_START.format("second"),
        "shape.service: B2 Shape: the link leads from a plain name, a template or an instance to one that doesn't fit",
        NO_START.format("third"), NO_START.format("use"),
    ]
    last = "what isn't modelled, and what to expect of it: docs/SYSTEMD.md"
    same(bench.fleet("check", BROKEN, *FILES, status=1).lines(), [
        HEADS["files"], *wrong, f"multi-user.target: no plan: P8 Cycle first.service third.service second.service: {ring}",
        "not modelled: DefaultDependencies= never off: 11 units", "not modelled: targets that systemd starts after all that they pull: 2 units",
        "18 units, 23 things wrong", last,
    ])
    same(bench.fleet("check", BROKEN, "both.target", *FILES, status=1).lines()[23][:57], "both.target: no plan: P7 Conflict day.service night.servi")
    # beside the 18 units: -.slice, system.slice and -.mount, the slice of an instance, the journal's socket, and three targets
    same(bench.fleet("check", BROKEN, status=1).lines(), [
        HEADS["manager"], *wrong, "sysinit.target: P2 NotFound: it has no file, and 9 units require it; it is of systemd's own package, and most "
        "units require it by default, which --profile files leaves out", "multi-user.target: no plan: P2 NotFound sysinit.target: it has no file",
        f"multi-user.target: a cycle: {ring}", "26 units, 25 things wrong",
    ])


def nothing_wrong(bench):
    """The tree of tests/trees has nothing wrong; what it uses that isn't modelled is counted."""
    counts = {}
    for profile, head in HEADS.items():
        found = bench.fleet("check", DEBIAN, "--profile", profile)
        units = model.Units(store_of(DEBIAN), None, profile).load([])[1]
        same((found.err, found.lines()[0], found.lines()[-2]), (b"", head, f"{len(units)} units, 0 things wrong"))
        same([it for it in found.lines()[1:] if not it.startswith("not modelled: ")], found.lines()[-2:])
        counts[profile] = dict(it.removeprefix("not modelled: ").rsplit(": ", 1) for it in found.lines()[1:-2])
    same(counts["files"]["DefaultDependencies= never off"], "45 units")
    same(counts["files"]["specifiers of the machine, which stay as they are written"], "1 file")
    same(counts["files"]["what stands in .upholds folders"], "1 place")
    same(counts["manager"], {
        "devices of the machine, which start at once here": "2 units", "specifiers of the machine, which stay as they are written": "1 file",
        "StopPropagatedFrom=, PropagatesStopTo=, OnSuccess= and JoinsNamespaceOf=": "1 unit",
    })


def without_a_file(bench):
    """What systemd makes without a file isn't there by files and is by manager, and nothing is wrong with it."""
    made = {f"{U}/t.target": "[Unit]\nDefaultDependencies=no\nRequires=a.device\n", f"{U}/u.service": f"[Unit]\nBindsTo=a.device b.slice\n{SERVICE}"}
    root = bench.tree("made", made)
    same(bench.fleet("check", root, "t.target", *FILES, status=1).lines()[1:4], [
        "t.target: no plan: P2 NotFound a.device: it has no file", "not modelled: DefaultDependencies= never off: 1 unit",
        "not modelled: requirements of devices or slices without a file: 2 units",
    ])
    off = {f"{E}/u.service.d/off.conf": "[Unit]\nDefaultDependencies=no\n"}
    # beside these four what always runs, the journal's socket, and the target before which a slice stops
    same(bench.fleet("check", bench.tree("made", off), "t.target").lines(), [
        HEADS["manager"], "not modelled: devices of the machine, which start at once here: 1 unit", "9 units, 0 things wrong",
        "what isn't modelled, and what to expect of it: docs/SYSTEMD.md",
    ])
    same(bench.fleet("plan", root, "u").lines()[1:], ["start a.device", "start b.slice", "start u.service"])
    # no slice is made of a name that is no way down from the root slice
    odd = bench.tree("odd", {f"{U}/t.target": "[Unit]\nDefaultDependencies=no\nRequires=a--b.slice\n"})
    same(bench.fleet("check", odd, "t.target", status=1).lines()[1], "t.target: Requires=a--b.slice: P2 NotFound: it has no file")
    same(bench.fleet("check", odd, "t.target", *FILES, status=1).lines()[1:3], [
        "t.target: no plan: P2 NotFound a--b.slice: it has no file", "not modelled: requirements of devices or slices without a file: 1 unit",
    ])
    plain = bench.tree("plain", {f"{U}/a.service": f"[Unit]\nDefaultDependencies=no\nDescription=100%%Hosts %n\n# %H\n{SERVICE}"})
    ran = bench.fleet("check", plain, *FILES)
    same((ran.lines(), ran.told()), ([HEADS["files"], "1 unit, 0 things wrong"],
                                     ["neither default.target nor multi-user.target is there, and no target is named: no plan is looked at"]))


def what_is_counted(bench):
    """Of each thing that isn't modelled by files it is told how many units, files or places have it."""
    off = "[Unit]\nDefaultDependencies=off\n"
    root = bench.tree("a", {
        f"{U}/a.service": off + "Upholds=b.service\nDescription=%%H %n\n[Service]\nBusName=x\nWorkingDirectory=%S/x\n", f"{U}/b.service": off,
        f"{U}/c.service": off + "# Wants='b.service'\nRequiresMountsFor=/x\nWants=b.service \\\n 'a.service'\n", f"{U}/d.timer": off,
        f"{U}/e.target": "[Unit]\nRequires=b.service\n[Install]\nUpholds=x\nWantedBy=y\n", f"{U}/f.target": off + "Wants=b.service\n",
        f"{E}/a.service.upholds/b.service": Link("../b.service"), f"{E}/service.wants/b.service": Link("../b.service"),
        f"{E}/a.service.d/x.conf": Link("y.conf"), "/run/systemd/transient/t.service": "",
    })
    same([it for it in bench.fleet("check", root, "a", *FILES, status=1).lines() if it.startswith("not modelled")], [f"not modelled: {it}" for it in (
        "DefaultDependencies= never off: 1 unit", "targets that systemd starts after all that they pull: 1 unit",
        "settings that pull, stop or order and aren't read, as Upholds= or RequiresMountsFor=: 2 units",
        "settings that imply dependencies, as Slice= or BusName=: 1 unit",
        "sockets, timers, paths and automounts, whose trigger isn't followed: 1 unit",
        "[Install], which says what `systemctl enable` would link: 1 unit",
        "specifiers of the machine, which stay as they are written: 1 file", "quotes in dependency lists, which are read as part of a name: 1 file",
        "what stands in .upholds folders: 1 place", "folders of links for a type, as service.wants: 1 link",
        "left out of the store: 2 places",
    )])


def asked_once(bench):
    """A check of 400 units, instances among them, runs the program once, also where a specifier alone names units."""
    entries = {f"{U}/u{number}.service": f"[Unit]\nAfter=u{number - 1}.service\nWants=i@{number % 99}.service\n{SERVICE}" for number in range(299)}
    root = bench.tree("a", {**entries, f"{U}/i@.service": SERVICE, f"{U}/multi-user.target": "[Unit]\nWants=u5.service\n",
                            f"{E}/multi-user.target.wants/i@x.service": Link("../i@.service")})
    program, count = bench.counting()
    ran = bench.fleet("check", root, *FILES, env={"FLEET_SHELL": program})
    # u-1.service has no file, and is nothing that a unit requires
    same(ran.lines()[-2], f"{299 + 99 + 1 + 1 + 1} units, 0 things wrong")
    wanted = len(model.Units(store_of(root), None, "manager").load([])[1])
    ran = bench.fleet("check", root, env={"FLEET_SHELL": program}, status=1)
    same(ran.lines()[-1], f"{wanted} units, 1 thing wrong")
    more = bench.tree("b", {f"{U}/a@.service": f"[Unit]\nRequires=b@%i.service\n{SERVICE}", f"{U}/t.target": "[Unit]\nWants=a@1.service\n"})
    ran = bench.fleet("check", more, "t.target", *FILES, env={"FLEET_SHELL": program}, status=1)
    same(ran.lines()[1], "a@1.service: Requires=b@1.service: P2 NotFound: it has no file")
    with open(count, encoding="utf-8") as file:
        same(file.read(), "run\n" * 3)


def progress_of_answers(bench):
    """Where standard error is a terminal, a line there tells how many questions are asked, and goes."""
    root = bench.many("a", 300, SERVICE + "[Unit]\n" + "Description=a long line\n" * 20)
    terminal, end = os.openpty()
    ran = bench.fleet("check", root, "u00001", *FILES, stderr=end)
    os.close(end)
    shown = os.read(terminal, 100_000).decode()
    os.close(terminal)
    same((ran.lines()[-2], shown.startswith("\r\x1b[Kasking the program: 2 questions"), shown.endswith("\r\x1b[K")),
         ("300 units, 0 things wrong", True, True), repr(shown))


def too_many_units(bench):
    """More names than are loaded are refused."""
    root = bench.many("a", 4_097, "[Unit]\n")
    same(bench.fleet("check", root, status=1).told()[-1], "check: L2 TooManyUnits: more than 4,096 names must be loaded")


def differences(bench):
    """Units that differ between two trees are told field by field, with status 1; equal trees have nothing to tell."""
    one = bench.tree("one", {
        f"{U}/a.service": "[Unit]\nAfter=b.service c.service\nDescription=one\n[Service]\nE=1\nE=2\n", f"{U}/b.service": "[Unit]\n",
        f"{U}/c.service": "[Unit]\n", f"{U}/same.service": "[Unit]\nDescription=same\n", f"{U}/only.service": "[Unit]\n",
    })
    other = bench.tree("other", {
        f"{L}/a.service": "[Unit]\nAfter=b.service\nWants=n.service\nDescription=other\n[Service]\nE=2\nE=1\n", f"{E}/b.service": "",
        f"{U}/c.service": "[Unit]\n", f"{U}/same.service": "\n[Unit]\nDescription = same\n", f"{R}/a.service.d/x.conf": "[X]\nY=Z\n",
    })
    same(bench.fleet("diff", one, other, *FILES, status=1).lines(), [
        HEADS["files"],
        "a.service", f"  - status: loaded {U}/a.service", f"  + status: loaded {L}/a.service", "  + drop-ins: " + f"{R}/a.service.d/x.conf",
        "  - Unit.Description: one", "  + Unit.Description: other", "  - Service.E: 1, 2", "  + Service.E: 2, 1", "  + X.Y: Z",
        "  - After: c.service", "  + Wants: n.service",
        "b.service", f"  - status: loaded {U}/b.service", "  + status: masked",
        "c.service", "  - Before: a.service",
        "n.service", "  + status: not-found", "  + names: n.service", "  + WantedBy: a.service",
        "only.service", f"  - status: loaded {U}/only.service", "  - names: only.service",
    ])
    same(bench.fleet("diff", one, one).out, b"")


def words_that_are_no_words(bench):
    """What the command line can't mean ends with status 2, and says why."""
    for words, told in (
        (["show", DEBIAN, "a b"], "a b: no unit's name"), (["show", DEBIAN, "x\ny"], "x\\x0ay: no unit's name"),
        (["frob"], "invalid choice"),
        (["plan", DEBIAN], "required: UNIT"), (["show", DEBIAN, "x", "--host", "a_b"], "no host's name"),
        (["import", DEBIAN, "--node", "a-b"], "no node's name"), (["import", DEBIAN, "--writer", "4294967296"], "over 4294967295"),
        (["plan", DEBIAN, "x", "--profile", "none"], "invalid choice"), (["cat", DEBIAN, "x", "--profile", "files"], "unrecognized arguments"),
        (["merge", "a_b=x"], "a_b: no node's or host's name"), (["merge", "n=x", "n=y"], "n: two nodes of this name"),
    ):
        ran = bench.fleet(*words, status=2)
        same((ran.out, told in ran.err.decode()), (b"", True), ran.err.decode())
    same(bench.fleet("show", DEBIAN, "x", "--workers", "65", status=1).told()[-1], "show: --workers: L1 Workers")
    for verb in ("import", "show", "cat", "list", "plan", "check", "export", "diff", "draw", "merge"):
        same(bench.fleet(verb, "--help").out.startswith(b"usage: fleet " + verb.encode()), True)


def without_the_program(bench):
    """Where there is no program, it is told how to build it; one that fails is told too; a pipe that closes is quiet."""
    ran = bench.fleet("show", DEBIAN, "x", status=2, env={"FLEET_SHELL": bench.path("none")})
    same(ran.told(), [f"show: FLEET_SHELL={bench.path('none')}: no such file"])
    with open(bench.path("fails"), "w", encoding="utf-8") as file:
        file.write("#!/bin/sh\ncat > /dev/null\necho 'fleet: out of memory' >&2\nexit 2\n")
    os.chmod(bench.path("fails"), 0o755)
    ran = bench.fleet("show", DEBIAN, "x", status=2, env={"FLEET_SHELL": bench.path("fails")})
    same(ran.told(), [f"show: {bench.path('fails')} ended with status 2: fleet: out of memory"])
    # a copy of the tools in which nothing is built, as a fresh clone is
    shutil.copytree(os.path.join(ROOT, "tools"), bench.path("clone/tools"))
    bare = {name: value for name, value in os.environ.items() if name != "FLEET_SHELL"}
    words = [bench.path("clone/tools/fleet"), "show", DEBIAN, "x"]
    ran = subprocess.run(words, env=bare, stdout=subprocess.PIPE, stderr=subprocess.PIPE, check=False)
    same((ran.returncode, [it in ran.stderr for it in (b"rt run", b"rt ci", b"--unproved")]), (2, [True] * 3), ran.stderr.decode())
    reader, writer = os.pipe()
    os.close(reader)
    ran = subprocess.run([FLEET, "import", DEBIAN], stdout=writer, stderr=subprocess.PIPE, check=False)
    os.close(writer)
    same(ran.stderr, b"")


def unproved(bench):
    """With --unproved `rt try` is asked, which is told."""
    os.makedirs(bench.path("bin"))
    with open(bench.path("bin/rt"), "w", encoding="utf-8") as file:
        file.write(f'#!/bin/sh\n[ "$1" = try ] && [ -f specs/../src/main.rt ] && exec "{bench.program}"\n')
    os.chmod(bench.path("bin/rt"), 0o755)
    ran = bench.fleet("list", DEBIAN, "cron", "--unproved", env={"FLEET_SHELL": "", "PATH": f"{bench.path('bin')}:{os.environ['PATH']}"})
    same((ran.lines(), ran.told()), (["0 cron.service"], ["asking the unproved program by `rt try`, which takes some minutes"]))
    os.symlink(sys.executable, bench.path("python3"))
    ran = bench.fleet("list", DEBIAN, "cron", "--unproved", env={"PATH": bench.room}, status=2)
    same(ran.told(), ["list: --unproved needs Rattle's `rt` on the path"])


CASES = [as_the_model_says, worked_by_hand, refusals, what_runs, wrong_units, nothing_wrong, without_a_file, what_is_counted, asked_once,
         progress_of_answers, too_many_units, differences, words_that_are_no_words, without_the_program, unproved]
