"""What `fleet check` finds wrong: keys and values as systemd 252 reads them, what it refuses, cycles, for each host; and that a 0 is one."""
import json
import os
import random
import shutil
import subprocess

import unit_text

from .bench import E, L, Link, R, U, same
from fleet_tools.sections import unit_file_of
from .profiled import EARLY
from .told import FILES, HEADS, SERVICE

OFF = "[Unit]\nDefaultDependencies=no\n"
# Values that systemd 252 reads, and those that it passes over or refuses, as `systemd-analyze verify` says of each.
VALUES = (
    ("Service", "RemainAfterExit", ("yes", "T", "0", "off"), ("", "maybe", "2", "%i")),
    ("Service", "TimeoutStartSec", ("5", "5min 3s", "1.5h", ".5s", "1y 2M", "infinity", "+5"), ("", "5 foo", "5.", "-5s", "5ns", "Infinity")),
    ("Service", "TimeoutAbortSec", ("", "90"), ("soon",)),
    ("Service", "TimerSlackNSec", ("50", "5ns"), ("5 foo",)),
    ("Service", "MemoryMax", ("", "2G", "5 G", "5M5K", "10%", "10.5%", "infinity"), ("0", "0%", "120%", "5X", "5k", "70%%", "5K5M")),
    ("Service", "MemoryMin", ("0", "0%", "1K"), ("1KB", "101%")),
    ("Service", "LimitNOFILE", ("1024", "1:2", "infinity"), ("", "1k", "1:2:3", "2:1", "infinity:5")),
    ("Service", "LimitSTACK", ("8M", "1K:2M"), ("8X",)), ("Service", "LimitCPU", ("5min", "1:2"), ("5 foo",)),
    ("Service", "TasksMax", ("", "10", "10%", "infinity"), ("0", "-1", "120%")), ("Service", "CPUQuota", ("", "20%", "120%"), ("20", "0%")),
    ("Service", "CPUWeight", ("1", "10000", "idle"), ("0", "10001")), ("Service", "Nice", ("", "-20", "19"), ("20", "-21", "low")),
    ("Service", "UMask", ("022", "0644"), ("", "999", "u=rwx", "77777")),
    ("Service", "KillSignal", ("SIGTERM", "TERM", "15", "RTMIN+3", "SIGRTMAX-30"), ("", "term", "SIGFOO", "65", "SIGRTMIN+31")),
    ("Service", "Type", ("simple", "idle"), ("", "Simple", "notify-reload")), ("Service", "Restart", ("always", "on-watchdog"), ("", "yes")),
    ("Service", "KillMode", ("", "mixed"), ("all",)), ("Service", "ProtectSystem", ("strict", "yes"), ("", "read-only")),
    ("Service", "StandardOutput", ("journal", "append:/x", "fd:x"), ("", "file:", "log")),
    ("Unit", "StartLimitBurst", ("0", "4294967295"), ("", "-1", "4294967296")), ("Unit", "CollectMode", ("inactive",), ("", "always")),
    ("Unit", "JobTimeoutAction", ("reboot-force",), ("restart",)),
)
LINES = ("[A]", "[B", "[]", "k=v", "k = v ", "# c", " ; c", "k=v\\", "\\", "", "  ", "\r", "a=b\r", "x", "=y", "[U]\r", "\t[T] ", " k=\\\r",
         "#c\\", "k=1 \\")
ANALYZE = shutil.which("systemd-analyze")


def at_line(text, sign):
    """The number of the line of a text that begins so."""
    return next(number for number, line in enumerate(text.split("\n"), 1) if line.startswith(sign))


def keys(bench):
    """Sections and keys that systemd doesn't know are told, with the nearest that it knows; what begins with X- is anybody's own."""
    text = ("[Unit]\nDescripton=x\nafter=y\nRestart=no\nX-Own=1\nFrobnicate=1\n[Servce]\nA=b\n[X-Mine]\nC=d\n[Service]\nExecStart=/x\nexecstart=/y\n"
            "StartLimitInterval=5\nMemoryLimit=1G\n[Socket]\nListenStream=1\n[Install]\nWantedBy=x\nWants=y\n")
    root = bench.tree("a", {f"{U}/a.service": OFF + text, f"{U}/b@.timer": "[Timer]\nOnCalender=daily\n",
        f"{E}/a-.service.d/x.conf": "[Unit]\nWant=y\n",
                            f"{E}/timer.d/y.conf": "[Service]\nUser=x\n", f"{E}/read.me": "[Unit]\nNo=unit\n", f"{E}/a.service.wants/x": "[U]\n"})
    wrong = (
        ("a.service", "Descripton", "Descripton= is no key of [Unit]: do you mean Description=?"),
        ("a.service", "after", "after= is no key of [Unit]: do you mean After=?"),
        ("a.service", "Restart", "Restart= is no key of [Unit], but of [Service]"), ("a.service", "Frob", "Frobnicate= is no key of [Unit]"),
        ("a.service", "[Servce", "[Servce] is no section: do you mean [Service]?"),
        ("a.service", "execstart", "execstart= is no key of [Service]: do you mean ExecStart=?"),
        ("a.service", "[Socket", "[Socket] is no section of a service"), ("a.service", "Wants", "Wants= is no key of [Install], but of [Unit]"),
    )
    lines = bench.fleet("check", root, "a", *FILES, status=1).lines()
    same(sorted(it for it in lines if it.startswith("/")), sorted([
        *(f"{U}/{name}:{at_line(OFF + text, sign)}: {why}" for name, sign, why in wrong),
        f"{U}/b@.timer:2: OnCalender= is no key of [Timer]: do you mean OnCalendar=?",
        f"{E}/a-.service.d/x.conf:2: Want= is no key of [Unit]: do you mean Wants=?",
        f"{E}/timer.d/y.conf:1: [Service] is no section of a timer",
    ]))


def values(bench):
    """Values that systemd reads are passed over, and those that it doesn't are told, each with its line."""
    rows = [(section, key, value, is_good) for section, key, good, bad in VALUES for value, is_good in
            [*((it, True) for it in good), *((it, False) for it in bad)]]
    text = "".join(f"[{section}]\n{key}={value}\n" for section, key, value, _ in rows)
    root = bench.tree("a", {f"{U}/a.service": text, f"{U}/b.service": f"[Unit]\n{SERVICE}"})
    found = bench.fleet("check", root, "b", *FILES, status=1).lines()
    told = {int(it.split(":")[1]) for it in found if it.startswith(f"{U}/a.service:")}
    wanted = {2 * at for at, row in enumerate(rows, 1) if not row[3]}
    same(sorted(told ^ wanted), [], [rows[it // 2 - 1] for it in sorted(told ^ wanted)])
    same([it.partition(": ")[2] for it in found if "Simple" in it or "TimeoutAbort" in it],
         ["TimeoutAbortSec=soon: not a time span", "Type=Simple: not one of the words of its page: do you mean simple?"])
    if ANALYZE:
        with open(bench.path("a.service"), "w", encoding="utf-8") as file:
            file.write(text)
        said = subprocess.run([ANALYZE, "verify", "--man=no", bench.path("a.service")], stderr=subprocess.PIPE, check=False, encoding="utf-8").stderr
        heard = {int(it.split(":")[1]) for it in said.split("\n") if it.startswith(bench.path("a.service:"))}
        same(sorted(heard ^ wanted), [], [rows[it // 2 - 1] for it in sorted(heard ^ wanted)])


def lines_as_the_model_says(_bench):
    """The lines of files are read as tests/unit_text.py, which knows the rules, reads them: of 3,000 made of odd lines."""
    odd = random.Random(7)
    for _ in range(3_000):
        text = "\n".join(odd.choice(LINES) for _ in range(odd.randint(0, 7))) + odd.choice(["", "\n"])
        found, (items, notes) = unit_file_of(text.encode()), unit_text.read(text)
        same([(it.section, it.key, it.value) for it in found.assignments], items, repr(text))
        same(sorted((code, line) for line, code in found.notes), sorted(notes), repr(text))


def what_systemd_refuses(bench):
    """What systemd refuses to load is told with the cause; the rules are those of systemd.service(5) and of the other types' pages."""
    refused = {
        "none": ("ExecStartPre=/x\n", "without ExecStart="), "stop": ("ExecStop=/x\n", "without ExecStart= and without RemainAfterExit=yes"),
        "simple": ("Type=simple\nExecStop=/x\nRemainAfterExit=yes\n",
        "without ExecStart=, which only one of Type=oneshot may be; this is of Type=simple"),
        "two": ("ExecStart=/x\nExecStart=/y\n", "several ExecStart=, which only one of Type=oneshot may have; this is of Type=simple"),
        "again": ("Type=oneshot\nExecStart=/x\nRestart=always\n", "Restart=always, which one of Type=oneshot may not have"),
        "bus": ("Type=dbus\nExecStart=/x\n", "of Type=dbus without BusName="),
        "pam": ("ExecStart=/x\nPAMName=y\nKillMode=process\n", "PAMName= with KillMode=process"),
    }
    good = {"one": "ExecStart=/x\n", "kept": "ExecStop=/x\nRemainAfterExit=yes\n", "turns": "Type=oneshot\nExecStart=/x\nExecStart=/y\n",
            "reset": "ExecStart=/x\nExecStart=\nExecStart=/y\n", "named": "BusName=a.b\nExecStart=/x\n",
            "part": "Type=oneshot\nExecStart=/x\nRestart=on-failure\n"}
    entries = {f"{U}/{name}.service": f"{OFF}[Service]\n{text}" for name, text in [*((it, text) for it, (text, _) in refused.items()), *good.items()]}
    root = bench.tree("a", {**entries, f"{U}/act.service": f"{OFF}SuccessAction=none\n[Service]\n",
        f"{U}/off.service": f"{OFF}SuccessAction=poweroff\n"})
    found = bench.fleet("check", root, "one", *FILES, status=1).lines()
    wanted = {**{f"{name}.service": why for name, (_, why) in refused.items()}, "act.service": "without ExecStart="}
    same([it for it in found if "refuses" in it], [f"{name}: {why}: systemd refuses it" for name, why in sorted(wanted.items())])
    if ANALYZE:
        for name in [*refused, *good, "act", "off"]:
            said = subprocess.run([ANALYZE, "verify", "--man=no", f"--root={root}", f"{name}.service"], stderr=subprocess.PIPE, check=False,
                encoding="utf-8").stderr
            same(" Refusing." in said, f"{name}.service" in wanted, said)


def rings(bench):
    """All cycles of a target are told, each once: a ring, and then what is left without one of its orders. Those of units that no target starts are
    told with --all. Worked by hand."""
    after = {"a": "b", "b": "c", "c": "a", "d": "e", "e": "d a", "x": "y", "y": "x"}
    entries = {f"{U}/{name}.service": f"[Unit]\nAfter={' '.join(f'{it}.service' for it in those.split())}\n{SERVICE}"
               for name, those in after.items()}
    root = bench.tree("a", {**entries, f"{U}/t.target": "[Unit]\nWants=a.service b.service c.service d.service e.service\n"})

    def words(*names):
        ring = [f"{one}.service before {other}.service" for one, other in zip(names, [*names[1:], names[0]])]
        return "they wait for each other: " + ", ".join(ring)

    first = f"t.target: no plan: P8 Cycle a.service c.service b.service: {words('a', 'c', 'b')}"
    second = f"t.target: a further cycle: {words('d', 'e')}"
    third = f"x.service: a cycle of units that no target starts: {words('x', 'y')}"
    same(bench.fleet("check", root, "t.target", *FILES, status=1).lines()[1:3], [first, second])
    same(bench.fleet("check", root, "t.target", "--all", *FILES, status=1).lines()[1:4], [first, second, third])
    same(bench.fleet("check", root, "x", "--all", *FILES, status=1).lines()[1:4],
         [f"a.service: a cycle of units that no target starts: {words('a', 'c', 'b')}",
         f"d.service: a cycle of units that no target starts: {words('d', 'e')}",
          third])
    # three units that all wait for each other: of six orders three make none
    knot = bench.tree("knot",
        {f"{U}/{it}.service": f"[Unit]\nAfter={' '.join(f'{at}.service' for at in 'abc' if at != it)}\n{SERVICE}" for it in "abc"})
    told = [it for it in bench.fleet("check", knot, "a", "--all", *FILES, status=1).lines() if "wait for each other" in it]
    same(told, [f"{ring[0]}.service: a cycle of units that no target starts: {words(*ring)}" for ring in ("ab", "ac", "bc")])
    same(bench.fleet("check", knot, "a", *FILES).lines()[-2], "3 units, 0 things wrong")


def each_host(bench):
    """Each host of which a tree is given is looked at, beside the fleet, and each line is told with those for which it is; --host narrows it."""
    fleet = bench.tree("fleet", {**EARLY, f"{U}/a.service": SERVICE, f"{U}/multi-user.target": "[Unit]\nRequires=b.service\n"})
    one = bench.tree("one", {f"{E}/b.service": SERVICE, f"{E}/c.service": "[Service]\nExecStrat=/x\n"})
    two = bench.tree("two", {f"{E}/a.service": "[Unit]\nRequires=gone.service\n" + SERVICE})
    words = ["check", fleet, "--with", f"two={two}", "--with", f"one={one}"]
    lacks = ["multi-user.target: Requires=b.service: P2 NotFound: it has no file",
        "multi-user.target: no plan: P2 NotFound b.service: it has no file"]
    of_two = "a.service: Requires=gone.service: P2 NotFound: it has no file"
    of_one = [f"one:{E}/c.service:2: ExecStrat= is no key of [Service]: do you mean ExecStart=?", "c.service: without ExecStart=: systemd refuses it"]
    # beside the files: -.slice, system.slice, -.mount, the journal's socket, and what is required and has no file
    ran = bench.fleet(*words, status=1)
    same([it for it in ran.lines() if not it.startswith(("not ", "what "))], [
        HEADS["manager"], "# for the fleet and two", *lacks, "# for one", *of_one, "# for two", of_two,
        "the fleet: 10 units, 2 things wrong", "one: 11 units, 2 things wrong", "two: 11 units, 3 things wrong",
    ])
    same([it for it in bench.fleet(*words, "--host", "two", status=1).lines()][1:4], [of_two, *lacks])
    found = [json.loads(it) for it in bench.fleet(*words, "--json", status=1).lines()]
    same([(it["at"], it["hosts"]) for it in found if it["is"] == "wrong"],
         [("multi-user.target", ["", "two"])] * 2 + [(f"one:{E}/c.service:2", ["one"]), ("c.service", ["one"]), ("a.service", ["two"])])
    same([(it["hosts"], it["units"], it["wrong"]) for it in found if it["is"] == "summary"], [([""], 10, 2), (["one"], 11, 2), (["two"], 11, 3)])
    good = bench.tree("good", {f"{E}/b.service": SERVICE})
    same(bench.fleet("check", fleet, "--with", f"good={good}", "--host", "good").lines()[-1], "10 units, 0 things wrong")


def crossed(bench):
    """A unit to which the tree of its host alone gives another drop-in is told: of one rank the host's own goes first here, and for a manager the
    one in the earlier folder of the unit. `export` tells it too."""
    fleet = bench.tree("fleet", {**EARLY, f"{U}/a-b.service": SERVICE, f"{E}/a-b.service.d/y.conf": "[Service]\nNice=2\n"})
    host = bench.tree("host", {f"{E}/a-.service.d/y.conf": "[Service]\nNice=3\n",
                               f"{E}/c.service": "[Service]\nExecStart=/end\n# a\ncrossed x\nend\n"})
    found = bench.fleet("check", fleet, "a-b", "--with", f"h={host}", status=1).lines()
    same([it for it in found if it.startswith(("#", "read", f"h:{E}"))][1:], [
        "# for h", f"h:{E}/c.service:4: K2 NoEquals: a line without a key and a `=`",
        f"h:{E}/c.service:5: K2 NoEquals: a line without a key and a `=`",
        "# for h", "read otherwise: crossed units, which have other drop-ins in the host's tree alone: 1 unit"])
    same(bench.fleet("show", fleet, "a-b", "--with", f"h={host}", "--host", "h").lines()[3:], [
        f"dropin h:{E}/a-.service.d/y.conf", "Service.ExecStart=/x", "Service.Nice=3"])
    with open(bench.path("script"), "wb") as file:
        file.write(bench.fleet("import", fleet, f"h={host}").out)
    ran = bench.fleet("export", bench.path("script"), "tree", bench.path("out"), "--host", "h")
    same(ran.told(), ["a-b.service: crossed: read alone, the tree gives it other drop-ins or links than the host has"])
    same(bench.fleet("show", bench.path("out"), "a-b").lines()[3], f"dropin {E}/a-b.service.d/y.conf")


def no_such_host(bench):
    """A host of which no tree is given is an error of every verb that may name one."""
    root = bench.tree("a", {f"{U}/a.service": SERVICE})
    with open(bench.path("script"), "w", encoding="utf-8") as file:
        file.write(f"node n 1\nput n {U}/a.service A\nput n h:{U}/a.service B\n")
    for words in (["show", root, "a"], ["cat", root, "a"], ["list", root, "a"], ["plan", root, "a"], ["check", root], ["draw", root, "a"],
        ["diff", root, root]):
        ran = bench.fleet(*words, "--host", "web9", status=2)
        same((ran.out, ran.told()), (b"", [f"{words[0]}: --host web9: no tree stands for this host"]))
    ran = bench.fleet("export", bench.path("script"), "n", bench.path("out"), "--host", "web9", status=2)
    same((ran.told(), os.path.exists(bench.path("out"))), (["export: --host web9: n has no place of this host"], False))
    same(bench.fleet("diff", root, "--with", f"a={root}", "--hosts", "a", "b", status=2).told(), ["diff: --host b: no tree stands for this host"])


def no_false_all_clear(bench):
    """What can't be read is wrong: a file of a tree, and a template that no instance reads."""
    text = {f"{U}/a.service": OFF + SERVICE}
    same(bench.fleet("check", bench.tree("good", text), "a").lines()[-1][-16:], ", 0 things wrong")
    odd = bench.tree("odd", {**text, f"{U}/t@.service": "Type=simple\n[Service]\nType=smple\nno line\n[Bad\n"})
    same(bench.fleet("check", odd, "a", status=1).lines()[1:5], [
        f"{U}/t@.service:1: K1 OutsideSection: a line before the first section",
        f"{U}/t@.service:3: Type=smple: not one of the words of its page: do you mean simple?",
        f"{U}/t@.service:4: K2 NoEquals: a line without a key and a `=`",
        f"{U}/t@.service:5: K3 BadHeader: a section's header without its end; what follows it is passed over",
    ])
    lost = bench.tree("lost", {**text, R: Link("/nowhere/../run/systemd/system")})
    ran = bench.fleet("check", lost, "a", status=1)
    same(ran.lines()[1], f"{R}: can't be read: Too many levels of symbolic links")
    hidden = bench.tree("hidden", {**text, f"{E}/a.service": SERVICE + "[Unit]\nDefaultDependencies=no\n", f"{L}/a.service": "[Srvice]\n"})
    same(bench.fleet("check", hidden, "a").lines()[-1][-16:], ", 0 things wrong")


def verified(bench):
    """With --verify systemd-analyze of the machine is asked too, and its lines are told as its own; where it isn't there, that is an error."""
    root = bench.tree("a", {**EARLY, f"{U}/a.service": "[Unit]\nRequires=b.service\n[Service]\nExecStart=/x\nEnvironment=a b\n",
        f"{U}/b.service": SERVICE})
    host = bench.tree("h", {f"{E}/b.service": "[Service]\nExecStart=/y\nIPAddressAllow=nowhere\n"})
    os.makedirs(bench.path("bin"))
    with open(bench.path("bin/systemd-analyze"), "w", encoding="utf-8") as file:
        file.write('#!/bin/sh\nfor it; do root="${it#--root=}"; [ "$root" = "$it" ] || at="$root"; done\n'
                   'echo "$at/x.service:1: odd" >&2\nls "$at/etc/systemd/system" 2>/dev/null\n'
                   'echo "a.service: Command /x is not executable: No such file or directory"\nexit 1\n')
    os.chmod(bench.path("bin/systemd-analyze"), 0o755)
    around = {"PATH": f"{bench.path('bin')}:{os.environ['PATH']}"}
    found = bench.fleet("check", root, "a", "--with", f"h={host}", "--verify", env=around, status=1).lines()
    same([it for it in found if it.startswith(("systemd-analyze", "#"))][1:],
        ["# for all", "systemd-analyze: /x.service:1: odd", "# for h", "systemd-analyze: b.service"])
    ran = bench.fleet("check", root, "a", "--verify", env={"PATH": bench.path("none")}, status=2)
    same(ran.told(), ["check: --verify: systemd-analyze isn't on this machine"])
    if ANALYZE:
        found = bench.fleet("check", root, "a", "--with", f"h={host}", "--verify", status=1).lines()
        same([it for it in found if it.startswith(("systemd-analyze: /", "# for h"))],
             [*(f"systemd-analyze: {U}/a.service:5: Invalid environment assignment, ignoring: {it}" for it in "ab"), "# for h",
              f"systemd-analyze: {E}/b.service:3: Address prefix is invalid, ignoring assignment: nowhere"], found)


CASES = [keys, values, lines_as_the_model_says, what_systemd_refuses, rings, each_host, crossed, no_such_host, no_false_all_clear, verified]
