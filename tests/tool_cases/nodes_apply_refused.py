"""`fleet apply` stops before it writes where a plan is refused, a unit is crossed or systemd-analyze says more, and never leaves the root."""
import fcntl
import os
import shutil
import subprocess

from .bench import FLEET, E, Link, U, same
from .nodes_apply_bench import BOOT, MANIFEST, OWN, SERVICE, Applying, all_below, row, times_below, unasked

INSTEAD = "apply: nothing is written: --force writes all the same"
PULLS = f"put {E}/default.target [Unit]\\nRequires=a.service\\n"


def refused_plans(bench):
    """Nothing is written where the target has no plan afterwards, which is told with what was before, unless that is forced. The target is the one
    that is named, else default.target, else multi-user.target."""
    it = Applying(bench, BOOT)
    it.edit(f"put {E}/a.service {SERVICE}", f"put {E}/default.target [Unit]\\nRequires=gone.service\\n")
    why = "apply: no plan of default.target (profile manager): P2 NotFound gone.service: it has no file"
    before = times_below(it.root)
    same(it.run(status=1).told(), [f"{why}; default.target is new", INSTEAD])
    same(it.run("--target", "a.service", "--dry-run").told(), [])
    same(times_below(it.root), before)
    it.edit(PULLS)
    same(it.run().told(), [])
    it.edit(f"put {E}/a.service [Unit]\\nAfter=b.service\\nRequires=b.service\\n[Service]\\nExecStart=/bin/true\\n",
            f"put {E}/b.service [Unit]\\nAfter=a.service\\n{SERVICE}")
    before = times_below(it.root)
    cycle = "P8 Cycle a.service b.service: they wait for each other: a.service before b.service, b.service before a.service"
    why = "apply: no plan of default.target (profile manager): "
    ran = it.run(status=1)
    same((ran.told(), ran.lines()[-1]), ([f"{why}{cycle}; before there was one", INSTEAD], "nothing is written; 2 to write, 0 to remove, 0 kept"))
    same(times_below(it.root), before)
    same(it.run("--target", "multi-user.target", "--dry-run").told(), [])
    same(it.run("--force").told(), [f"{why}{cycle}; before there was one", "apply: --force: it is written all the same"])
    it.edit(f"put {E}/other.service {SERVICE}")
    same(it.run(status=1).told(), [f"{why}{cycle}; it was so before", INSTEAD])
    it.edit(f"remove {E}/a.service")
    same(it.run(status=1).told(), [f"{why}P2 NotFound a.service: it has no file; before it was refused otherwise: {cycle}", INSTEAD])
    it.edit(f"remove {E}/default.target", f"put {E}/multi-user.target [Unit]\\nRequires=a.service\\n")
    same(it.run(status=1).told(),
         ["apply: no plan of multi-user.target (profile manager): P2 NotFound a.service: it has no file; before there was one", INSTEAD])


def crossed_units(bench):
    """Nothing is written where a manager reads a unit otherwise than the fleet's store does for the host, told with the places of both."""
    it = Applying(bench)
    it.edit(f"put {E}/a.service {SERVICE}", f"link {E}/b.service a.service", f"put {E}/a.service.d/x.conf [Unit]\\nDescription=fleet\\n",
            f"put web1:{E}/b.service.d/x.conf [Unit]\\nDescription=web1\\n")
    why = f"apply: a.service: crossed: x.conf: the fleet's store reads web1:{E}/b.service.d/x.conf, the written tree has {E}/a.service.d/x.conf"
    before = times_below(it.root)
    same(it.run(status=1).told(), [why, INSTEAD])
    same(times_below(it.root), before)
    same(it.run("--host", "web2", "--dry-run").told(), [])
    same(it.run("--force").told(), [why, "apply: --force: it is written all the same"])
    same(it.run(status=1).told(), [why])
    it.edit(f"remove web1:{E}/b.service.d/x.conf", f"link {E}/a.service.wants/c.service ../c.service",
            f"link web1:{E}/b.service.wants/c.service /dev/null")
    same(it.run(status=1).told(), ["apply: a.service: crossed: Wants=c.service by the written tree alone", INSTEAD])


def all_is_removed(bench):
    """A state that has nothing for the host takes away what the fleet wrote only by force: it may be another state."""
    it = Applying(bench)
    it.edit(f"put {E}/a.service {SERVICE}", f"put {E}/b.service {SERVICE}")
    it.run()
    it.edit(f"remove {E}/a.service", f"remove {E}/b.service")
    before = times_below(it.root)
    why = "apply: the state has nothing for this host, and all that the fleet wrote is to be removed: 2 places"
    same(it.run(status=1).told(), [why, INSTEAD])
    same(times_below(it.root), before)
    same(it.run("--force").lines()[-1], "0 written, 2 removed, 0 kept")
    same(it.run().lines()[-1], "0 written, 0 removed, 0 kept")


def systemd_analyze(bench):
    """With --verify nothing is written where systemd-analyze says of the tree as it will be what it doesn't say of it as it is; what is written it
    takes as the tree that it is."""
    if not shutil.which("systemd-analyze"):
        return
    it = Applying(bench, {**BOOT, f"{E}/old.service": "[Service]\nExecStart=./old\n"})
    it.edit(f"put {E}/a.service {SERVICE}", f"put {E}/a.service.d/x.conf [Service]\\nUser=x\\n", f"link {E}/b.service a.service")
    same(it.run("--verify").told(), [])
    ran = subprocess.run(["systemd-analyze", "verify", "--man=no", f"--root={os.path.realpath(it.root)}", "a.service"], capture_output=True,
                         check=False)
    said = [line for line in (ran.stdout + ran.stderr).decode().split("\n") if line and "is not executable" not in line]
    same([line for line in said if "a.service" in line], [])
    it.edit(f"put {E}/a.service [Service]\\nExecStart=./new\\n")
    before = times_below(it.root)
    told = it.run("--verify", status=1).told()
    same((len([line for line in told if line.startswith(f"apply: systemd-analyze: {E}/a.service:2: ")]) > 0, told[-1]), (True, INSTEAD), told)
    same([line for line in told if "old.service" in line], [])
    same(times_below(it.root), before)
    it.run("--verify", "--force")
    it.edit(f"put {E}/a.service # a line more\\n[Service]\\nExecStart=./new\\n")
    same(it.run("--verify").told(), [])


def links_that_lead_away(bench):
    """Nothing is written, removed or made through a link of the root: not through a directory, one above it or a folder that is one, nor through one
    at a place of its own; nothing outside is changed."""
    outside = bench.tree("outside", {"/system/x.d/k.conf": "K", "/system/a.service": "OUT", "/file": "F", f"{OWN}/manifest": "fleet-apply 1\n",
                                     "/d/none": ""})
    edits = (f"put {E}/a.service {SERVICE}", f"put {E}/x.d/y.conf Y", f"put {E}/w.service {SERVICE}")
    before = all_below(outside)
    away = {"etc": ({"/etc": Link(outside)}, "/etc is a link"), "systemd": ({"/etc/systemd": Link(outside)}, "/etc/systemd is a link"),
            "up": ({"/etc/systemd": Link("../../outside")}, "/etc/systemd is a link"), "system": ({E: Link(f"{outside}/system")}, f"{E} is a link"),
            "inside": ({E: Link("/usr"), "/usr/x": "X"}, f"{E} is a link")}
    for name, (entries, why) in away.items():
        it = Applying(bench, {}, name)
        os.unlink(f"{it.root}/etc/hostname")
        os.rmdir(f"{it.root}/etc")
        bench.tree(name, entries)
        it.edit(*edits)
        for words in ([], ["--adopt", "--force"]):
            lines = it.run("--host", "web1", *words, status=1).lines()
            same([line for line in lines if not line.startswith("#")], [
                *(f"keep {E}/{place}: {why}, through which nothing is written" for place in ("a.service", "w.service", "x.d/y.conf")),
                "0 written, 0 removed, 3 kept"])
        same(all_below(outside), before)
    it = Applying(bench, {f"{E}/x.d": Link(f"{outside}/system/x.d"), f"{E}/a.service": Link(f"{outside}/file"),
                          f"{E}/dangling.service": Link(f"{outside}/new"),
                          f"{E}/.fleet-apply-0123456789abcdef": Link(f"{outside}/d"),
                          f"{E}/z.d/.fleet-apply-0123456789abcdee": Link(f"{outside}/file")}, "folder")
    it.edit(f"put {E}/dangling.service {SERVICE}")
    same([line for line in it.run(status=1).lines() if line.startswith("keep")],
         [f"keep {E}/a.service: the fleet didn't write it", f"keep {E}/dangling.service: the fleet didn't write it",
          f"keep {E}/x.d/y.conf: {E}/x.d is a link, through which nothing is written"])
    same([line for line in it.run("--adopt", status=1).lines() if line.startswith(("write", "remove", "keep"))],
         [f"write {E}/a.service: taken over", f"write {E}/dangling.service: taken over",
          f"keep {E}/x.d/y.conf: {E}/x.d is a link, through which nothing is written"])
    same((all_below(outside), os.path.islink(f"{it.root}{E}/a.service"), os.listdir(f"{it.root}{E}/z.d")), (before, False, []))
    for path, target in ((OWN, outside + OWN), ("/var/lib", outside), (MANIFEST, f"{outside}/file"), (f"{OWN}/lock", f"{outside}/new")):
        it = Applying(bench, {path: Link(target)}, path.replace("/", "-"))
        same(it.run(status=2).told()[0].startswith(f"apply: {it.root}{OWN}"), True)
        same((all_below(outside), os.path.lexists(f"{it.root}{E}")), (before, False))


def manifests_of_others(bench):
    """A manifest that is none, or that names anything but places, is told by its line, and nothing is done; one that lists what the fleet didn't
    write as it stands there takes nothing away."""
    print_, head = f"file {'0' * 64}", "fleet-apply 1\n"
    it = Applying(bench, {"/etc/passwd": "P", f"{E}/own.service": "O"})
    it.edit(f"put {E}/a.service {SERVICE}")
    for text, why in (("", "its first line is ``, and is to be `fleet-apply 1`"), ("fleet-apply 2\n",
        "its first line is `fleet-apply 2`, and is to be `fleet-apply 1`"),
                      (f"{head}{print_} {E}/a", "its last line has no end")):
        bench.tree("root", {MANIFEST: text})
        same(it.run(status=2, given=unasked(({}, []))).told(), [f"apply: {it.root}{MANIFEST}: {why}"])
    for bad in (f"{print_} /etc/passwd", f"{print_} {E}/../../passwd", f"{print_} {E}/..", f"{print_} {E}/a/b/c", f"{print_} {E}//a",
                f"{print_} {E}/", "folder /etc",
                f"folder {E}", f"folder {E}/a/b", f"folder {E}/..", f"file 0 {E}/a", f"link {E}/a", f"link  {E}/a", f"{print_} {E}/a b",
                f"{print_} {E}/\xe9", "", "x"):
        bench.tree("root", {MANIFEST: f"{head}{print_} {E}/a\n{bad}\n".encode("latin-1")})
        told = it.run(status=2, given=unasked(({}, []))).told()
        same((told[0].startswith(f"apply: {it.root}{MANIFEST}: line 3 is no row of a file, a link or a folder: "), len(told)), (True, 1), told)
    bench.tree("root", {MANIFEST: f"{head}{print_} {E}/own.service\nlink x {E}/own.service\nfolder {E}/own.service\nfolder {E}/gone.d\n"})
    same([line for line in it.run(status=1).lines() if line.startswith(("keep", "remove"))],
         [f"keep {E}/own.service: it was changed since the fleet wrote it"])
    same(it.manifest(), [head.strip(), row(f"{E}/a.service", "[Service]\nExecStart=/bin/true\n"), f"{print_} {E}/own.service",
                         f"link x {E}/own.service"])


def one_at_a_time(bench):
    """Where another apply writes below the same root, it is refused; a dry run isn't. Where another one wrote since the plan was made, nothing is
    written."""
    it = Applying(bench)
    it.edit(f"put {E}/a.service {SERVICE}")
    it.run()
    it.edit(f"put {E}/b.service {SERVICE}")
    with open(f"{it.root}{OWN}/lock", "rb") as file:
        fcntl.flock(file, fcntl.LOCK_SH)
        same(it.run(status=1).told(), [f"apply: {it.root}{OWN}/lock: another apply writes below this root"])
        it.run("--dry-run")

    def other_first():
        """Another apply comes first, once the plan is made."""
        from fleet_tools.nodes import apply_verb
        carry_out = apply_verb.carry_out

        def late(*those):
            with open(f"{it.root}{MANIFEST}", "a", encoding="ascii") as file:
                file.write(f"{row(f'{E}/c.service', 'C')}\n")
            return carry_out(*those)

        apply_verb.carry_out = late

    same(it.run(status=1, given=other_first).told(), [f"apply: {it.root}{OWN}: another apply wrote below this root meanwhile: apply again"])
    same(os.listdir(it.root + E), ["a.service"])


def by_now(bench):
    """What somebody writes between the plan and the step is kept and told."""
    it = Applying(bench)
    it.edit(*(f"put {E}/{name}.service {SERVICE}" for name in "abc"))
    it.run()
    it.edit(f"put {E}/a.service A", f"remove {E}/b.service", f"put {E}/d.service D", f"put {E}/e.service E")

    def others_write():
        from fleet_tools.nodes import apply_verb
        carry_out = apply_verb.carry_out
        apply_verb.carry_out = lambda *those: bench.tree("root", {f"{E}/{name}.service": "OWN" for name in "abd"}) and carry_out(*those)

    lines = it.run(status=1, given=others_write).lines()
    same(lines[-4:], [*(f"keep {E}/{name}.service: something else stands there by now" for name in "adb"), "1 written, 0 removed, 3 kept"])
    same([row for row in it.manifest()[1:] if "/d." in row], [])
    same(sorted(line for line in it.run(status=1).lines() if line.startswith("keep")),
         [*(f"keep {E}/{name}.service: it was changed since the fleet wrote it" for name in "ab"), f"keep {E}/d.service: the fleet didn't write it"])


def reloads(bench):
    """--reload lets the machine's manager reload after changes, and again where that failed; it is of the machine itself."""
    it = Applying(bench)
    it.edit(f"put {E}/fleet-test-a.service {SERVICE}")
    same(it.run("--reload", status=2).told(), ["apply: --reload is of the machine itself: it goes with no other --root"])
    bench.tree("root", {
        "/bin/systemctl": f'#!/bin/sh\necho "$@" >> {bench.path("told")}\n[ ! -e {bench.path("fails")} ] || {{ echo no manager; false; }}\n'})
    os.chmod(f"{it.root}/bin/systemctl", 0o755)
    for path in (E, U, "/var"):
        os.makedirs(it.root + path)
    binds = " && ".join(f"mount --bind {it.root}{path} {path}" for path in (E, U, "/var"))
    if os.geteuid() or subprocess.run(["unshare", "--mount", "sh", "-c", binds], stderr=subprocess.DEVNULL, check=False).returncode:
        return

    def on_this_machine(status=0):
        """Applies to this machine, whose folders are those of the root meanwhile."""
        words = f"{FLEET} apply --state {it.state} --host web1 --reload --force"
        ran = subprocess.run(["unshare", "--mount", "sh", "-c", f"{binds} && exec {words}"], check=False, capture_output=True, env={
            **os.environ, "PATH": f"{it.root}/bin:{os.environ['PATH']}", "FLEET_SHELL": bench.program})
        same(ran.returncode, status, ran)
        told = open(bench.path("told"), encoding="ascii").read() if os.path.exists(bench.path("told")) else ""
        return ran.stderr.decode().split("\n")[-2:-1], told.count("daemon-reload\n"), it.manifest()[0]

    same(on_this_machine()[1:], (1, "fleet-apply 1"))
    same(on_this_machine()[1:], (1, "fleet-apply 1"))
    it.edit(f"put {E}/fleet-test-b.service {SERVICE}")
    bench.tree("", {"/fails": ""})
    why = "fleet: apply: systemctl daemon-reload ended with status 1: no manager; the next apply with --reload tries it again"
    same(on_this_machine(1), ([why], 2, "fleet-apply 1 begun"))
    os.unlink(bench.path("fails"))
    same(on_this_machine()[1:], (3, "fleet-apply 1"))


CASES = [refused_plans, crossed_units, all_is_removed, systemd_analyze, links_that_lead_away, manifests_of_others, one_at_a_time, by_now, reloads]
