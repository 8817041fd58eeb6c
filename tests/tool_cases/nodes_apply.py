"""`fleet apply` writes what a host sees into its folders, takes away what the fleet has no more, and keeps what isn't the fleet's."""
import os
import shutil
import stat
from contextlib import suppress

from fleet_tools.nodes import applying, writing
from fleet_tools.nodes.files import NodeFile

from .bench import E, L, Link, R, U, same
from .nodes_apply_bench import BOOT, MANIFEST, OWN, SERVICE, Applying, all_below, row, times_below

TRUE = "[Service]\nExecStart=/bin/true\n"
FOLDER = (stat.S_IFDIR, 0o755)
FLEETS = (f"put {E}/a.service {SERVICE}", f"put {E}/b.service {SERVICE}", f"put web1:{E}/b.service", f"put web2:{E}/c.service {SERVICE}",
          f"put {E}/a.service.d/x.conf [Unit]\\nDescription=\\x41\\n", f"link {E}/multi-user.target.wants/a.service ../a.service",
          f"link {E}/alias.service a.service", f"put {U}/d.service {SERVICE}", f"put {E}/gone.service {SERVICE}", f"remove {E}/gone.service")
DROPIN = "[Unit]\nDescription=A\n"


def written_for_a_host(bench):
    """All that the host sees of etc is written, its own over the fleet's, with modes of their own whatever the umask, and listed; the second run
    writes nothing."""
    it = Applying(bench)
    it.edit(*FLEETS)
    ran = it.run(given=lambda: os.umask(0o077))
    same(ran.lines()[:7], [
        "# web1 (/etc/hostname): 6 files and links; 1 of them in directories that are left out (--all-directories)",
        f"write {E}/a.service: new", f"write {E}/alias.service: new", f"write {E}/b.service: new", f"write {E}/a.service.d/x.conf: new",
        f"write {E}/multi-user.target.wants/a.service: new", "# profile manager: what unit files say and systemd's manager adds"])
    same((ran.lines()[-1], ran.told()), ("5 written, 0 removed, 0 kept", []))
    files = {f"{E}/a.service": (0o644, TRUE.encode()), f"{E}/alias.service": Link("a.service"), f"{E}/b.service": (0o644, b""),
             f"{E}/a.service.d": FOLDER, f"{E}/a.service.d/x.conf": (0o644, DROPIN.encode()), f"{E}/multi-user.target.wants": FOLDER,
             f"{E}/multi-user.target.wants/a.service": Link("../a.service")}
    folders = dict.fromkeys(["/etc", "/etc/systemd", E, "/var", "/var/lib", OWN], FOLDER)
    found = all_below(it.root)
    same({path: it for path, it in found.items() if path not in (f"{OWN}/lock", MANIFEST)}, {**folders, **files, "/etc/hostname": (0o644, b"web1\n")})
    same((found[f"{OWN}/lock"], found[MANIFEST][0]), ((0o600, b""), 0o644))
    same(it.manifest(), ["fleet-apply 1", row(f"{E}/a.service", TRUE), row(f"{E}/alias.service", Link("a.service")), row(f"{E}/b.service", ""),
                         row(f"{E}/a.service.d/x.conf", DROPIN), row(f"{E}/multi-user.target.wants/a.service", Link("../a.service")),
                         f"folder {E}/a.service.d", f"folder {E}/multi-user.target.wants"])
    before = times_below(it.root)
    ran = it.run()
    same((ran.lines()[1:], ran.told(), times_below(it.root)), (["0 written, 0 removed, 0 kept"], [], before))


def all_directories(bench):
    """All four directories are written where that is asked for; a later run for etc alone leaves the others as they are, listed too."""
    it = Applying(bench)
    it.edit(*(f"put {at}/{name}.service {SERVICE}" for at, name in zip((E, R, L, U), "abcd")), f"put {U}/d.service.d/x.conf [Unit]\\n")
    same(it.run("--all-directories").lines()[0], "# web1 (/etc/hostname), of which the state has nothing of its own: 5 files and links")
    rows = [row(f"{at}/{name}.service", TRUE) for at, name in zip((E, R, L, U), "abcd")] + [row(f"{U}/d.service.d/x.conf", "[Unit]\n")]
    same(it.manifest(), ["fleet-apply 1", *rows, f"folder {U}/d.service.d"])
    it.edit(f"remove {E}/a.service", f"remove {U}/d.service.d/x.conf", f"put {E}/z.service {SERVICE}")
    same(it.run().lines()[-1], "1 written, 1 removed, 0 kept")
    same(it.manifest(), ["fleet-apply 1", row(f"{E}/z.service", TRUE), *rows[1:], f"folder {U}/d.service.d"])
    same(it.run("--all-directories").lines()[-1], "0 written, 1 removed, 0 kept")
    same(os.path.lexists(f"{it.root}{U}/d.service.d"), False)


def which_host(bench):
    """The host is the one that is named, else the first word of etc/hostname, else the fleet; of / it is this machine. That the state has nothing of
    the host's own is told, and so is a name that is none."""
    it = Applying(bench)
    machine = it.run("--root", "/", "--dry-run").lines()[0]
    with suppress(FileNotFoundError), open("/etc/hostname", encoding="ascii") as file:
        same(machine, f"# {file.read().split()[0]} (/etc/hostname), of which the state has nothing of its own: 0 files and links")
    it.edit(f"put {E}/a.service {SERVICE}", f"put web1:{E}/b.service {SERVICE}")
    nothing = ", of which the state has nothing of its own"
    heads = [(["--host", "web2"], None, f"web2 (--host){nothing}: 1 file or link"), ([], "# this machine\n\n  web1 more\n",
        "web1 (/etc/hostname): 2 files and links"),
             ([], "web\n", f"web (/etc/hostname){nothing}: 1 file or link"), ([], "\n", "the fleet (no host is named): 1 file or link"),
             ([], "# web1\n", "the fleet (no host is named): 1 file or link")]
    for words, text, head in heads:
        os.unlink(f"{it.root}/etc/hostname")
        bench.tree("root", {"/etc/hostname": text or ""})
        same(it.run("--dry-run", *words).lines()[0], f"# {head}")
    os.unlink(f"{it.root}/etc/hostname")
    same(it.run("--dry-run").lines()[0], "# the fleet (no host is named): 1 file or link")
    bench.tree("root", {"/etc/hostname": "\xfc:x\n"})
    same(it.run(status=2).told(),
         ["apply: /etc/hostname: \\xc3\\xbc:x: no host's name: 1 to 64 ASCII letters, digits, dashes and dots; --host names one"])


def changed_and_removed(bench):
    """What the fleet changed is changed and what it removed is removed, with folders that it made and that are empty then; folders that were
    there before stay, and so do those in which something of others is, until that is gone."""
    it = Applying(bench, {f"{E}/old.service.d": None})
    it.edit(*(f"put {E}/{name} [Unit]\\n" for name in ("a.service", "b.service", "old.service.d/x.conf", "new.service.d/x.conf",
                                                       "full.service.d/x.conf")),
            f"link {E}/a.service.wants/l.service ../l.service", f"link {E}/l.service a.service")
    it.run()
    bench.tree("root", {f"{E}/full.service.d/own.conf": "[Unit]\n"})
    it.edit(f"put {E}/a.service {SERVICE}", f"link {E}/l.service b.service", *(f"remove {E}/{name}" for name in (
        "b.service", "old.service.d/x.conf", "new.service.d/x.conf", "full.service.d/x.conf", "a.service.wants/l.service")))
    lines = it.run().lines()
    same(lines[1:10],
         [f"write {E}/a.service: changed", f"write {E}/l.service: changed", *(f"remove {E}/{name}: the fleet has it no more" for name in (
        "b.service", "a.service.wants/l.service", "full.service.d/x.conf", "new.service.d/x.conf", "old.service.d/x.conf")),
        f"remove {E}/a.service.wants/: empty", f"remove {E}/new.service.d/: empty"])
    same(lines[-1], "2 written, 5 removed, 0 kept")
    same(sorted(path for path in all_below(it.root + E)), ["/a.service", "/full.service.d", "/full.service.d/own.conf", "/l.service",
                                                           "/old.service.d"])
    same(it.manifest()[1:], [row(f"{E}/a.service", TRUE), row(f"{E}/l.service", Link("b.service")), f"folder {E}/full.service.d"])
    os.unlink(f"{it.root}{E}/full.service.d/own.conf")
    same(it.run().lines()[1:], [f"remove {E}/full.service.d/: empty", "0 written, 0 removed, 0 kept"])
    same(it.manifest()[1:], [row(f"{E}/a.service", TRUE), row(f"{E}/l.service", Link("b.service"))])


def not_the_fleets(bench):
    """What the fleet didn't write is kept and told, whatever it is, and taken over where that is asked for. What stands there just so isn't the
    fleet's either, and isn't removed with the fleet's, unless it was taken over."""
    kept = {f"{E}/file.service": "[Unit]\n", f"{E}/link.service": Link("/elsewhere"), f"{E}/masked.service": Link("/dev/null"),
            f"{E}/large.service": "#" * 70_000}
    it = Applying(bench, {**kept, f"{E}/same.service": TRUE, f"{E}/samelink.service": Link("same.service"), f"{E}/own.service": TRUE})
    names = sorted(kept)
    it.edit(*(f"put {path} {SERVICE}" for path in names), f"put {E}/same.service {SERVICE}", f"link {E}/samelink.service same.service")
    before = all_below(it.root)
    ran = it.run(status=1)
    same(ran.lines()[1:], [*(f"keep {path}: the fleet didn't write it" for path in names), "0 written, 0 removed, 4 kept"])
    same(all_below(it.root), before)
    it.edit(f"remove {E}/same.service")
    same(it.run(status=1).lines()[1:], ran.lines()[1:])
    it.edit(f"put {E}/same.service {SERVICE}")
    same([line for line in it.run("--adopt").lines() if line.startswith(("write", "keep", "5", "4"))],
         [*(f"write {path}: taken over" for path in names), "4 written, 0 removed, 0 kept"])
    same(it.manifest()[1:], [row(path, Link("same.service") if "samelink" in path else TRUE) for path in sorted([*names, f"{E}/same.service",
        f"{E}/samelink.service"])])
    it.edit(f"remove {E}/same.service", f"remove {E}/file.service")
    it.run()
    same([os.path.lexists(f"{it.root}{E}/{name}.service") for name in ("same", "file", "own", "masked")], [False, False, True, True])


def changed_since(bench):
    """What the fleet wrote and somebody changed since is kept and told each time, be it wanted otherwise or no more, until it is as it was, is as
    it is wanted, is gone or is taken over."""
    it = Applying(bench)
    it.edit(*(f"put {E}/{name}.service {SERVICE}" for name in "abcde"))
    it.run()
    for name in "abcd":
        with open(f"{it.root}{E}/{name}.service", "a", encoding="ascii") as file:
            file.write("# own\n")
    os.unlink(f"{it.root}{E}/e.service")
    os.symlink("/dev/null", f"{it.root}{E}/e.service")
    it.edit(f"put {E}/a.service [Unit]\\n", f"remove {E}/b.service", f"put {E}/c.service {SERVICE}# own\\n", f"remove {E}/d.service")
    kept = [f"keep {E}/{name}.service: it was changed since the fleet wrote it" for name in "abde"]
    before = all_below(it.root + E)
    for _ in range(2):
        same(it.run(status=1).lines()[1:], [*kept, "0 written, 0 removed, 4 kept"])
        same(all_below(it.root + E), before)
    # what is as wanted is the fleet's again, and is removed with it
    it.edit(f"remove {E}/c.service")
    os.unlink(f"{it.root}{E}/d.service")
    with open(f"{it.root}{E}/b.service", "w", encoding="ascii") as file:
        file.write(TRUE)
    lines = it.run(status=1).lines()
    same(([line for line in lines if line.startswith(("remove", "keep"))], lines[-1]), (
        [*(f"remove {E}/{name}.service: the fleet has it no more" for name in "bc"), kept[0], kept[3]], "0 written, 2 removed, 2 kept"))
    same(it.run("--adopt").lines()[-1], "2 written, 0 removed, 0 kept")
    same(all_below(it.root + E), {"/a.service": (0o644, b"[Unit]\n"), "/e.service": (0o644, TRUE.encode())})


def in_the_way(bench):
    """A folder, a pipe or whatever isn't a file or a link is kept in any case, and so is a file where a folder is needed; what can't stand beside
    something else that is wanted isn't written."""
    it = Applying(bench, {f"{E}/folder.service/x": "X", f"{E}/file.service.d": "F"})
    os.mkfifo(f"{it.root}{E}/pipe.service")
    it.edit(f"put {E}/folder.service {SERVICE}", f"put {E}/pipe.service {SERVICE}", f"put {E}/file.service.d/x.conf {SERVICE}",
            f"put {E}/two {SERVICE}",
            f"put {E}/two/x {SERVICE}", f"put {E}/.fleet-apply-0123456789abcdef X", f"put {E}/.fleet-apply-x X")
    kept = [f"keep {E}/.fleet-apply-0123456789abcdef: apply has names of this kind for what isn't in its place yet",
            f"keep {E}/folder.service: a folder stands there", f"keep {E}/pipe.service: neither a file nor a link stands there",
            f"keep {E}/file.service.d/x.conf: {E}/file.service.d is no folder",
            f"keep {E}/two/x: a file, a link or a folder can't have the name of another"]
    before = all_below(it.root)
    for words in ([], ["--adopt"], ["--adopt", "--force"]):
        lines = it.run(*words, status=1).lines()
        same([line for line in lines if line.startswith("keep")], kept)
    found = all_below(it.root, [OWN])
    same({path: content for path, content in found.items() if before.get(path) != content and not path.startswith("/var")},
         {f"{E}/two": (0o644, TRUE.encode()), f"{E}/.fleet-apply-x": (0o644, b"X")})
    # a file becomes a folder, and a folder a file, in two runs
    it = Applying(bench, name="other")
    it.edit(*(f"remove {E}/{name}" for name in ("folder.service", "pipe.service", "file.service.d/x.conf", "two", "two/x",
                                                ".fleet-apply-0123456789abcdef")),
            f"put {E}/a A", f"put {E}/b/x X")
    it.run()
    it.edit(f"remove {E}/a", f"remove {E}/b/x", f"put {E}/a/x X", f"put {E}/b B")
    it.run(status=1)
    same(it.run().lines()[-1], "2 written, 0 removed, 0 kept")
    same({path: content for path, content in all_below(it.root + E).items() if "fleet" not in path},
         {"/a": FOLDER, "/a/x": (0o644, b"X"), "/b": (0o644, b"B")})


def what_is_told_is_what_is_done(bench):
    """The differences that are told before are those that `fleet diff` finds afterwards; a dry run tells the same and writes nothing."""
    it = Applying(bench, {**BOOT, f"{E}/foreign.service": TRUE, f"{E}/foreign.service.d/x.conf": "[Unit]\nDescription=Y\n",
                          f"{E}/left.service.d": None})
    it.edit(*FLEETS, f"put {E}/foreign.service [Unit]\\n", f"put {E}/default.target [Unit]\\nWants=a.service t.timer\\n",
            f"put {E}/t.timer [Timer]\\nOnBootSec=1\\n",
            f"put {E}/t.service {SERVICE}", f"put {E}/t@.service {SERVICE}", f"link {E}/left.service.d/y.conf /dev/null")
    it.run(status=1)
    it.edit(f"put {E}/a.service [Unit]\\nAfter=foreign.service\\n[Service]\\nExecStart=/bin/false\\n", f"put {E}/t.timer [Timer]\\nOnBootSec=2\\n",
            f"remove {E}/alias.service", f"put {E}/t@.service [Unit]\\n", f"put {E}/new.service {SERVICE}",
            f"link {E}/default.target.wants/new.service ../new.service",
            f"remove web1:{E}/b.service", f"put web1:{E}/a.service.d/x.conf [Unit]\\nDescription=Z\\n", f"remove {E}/t.service")
    for words, steps in (((), 9), (("--adopt",), 1)):
        copy = bench.path(f"copy{steps}")
        shutil.copytree(it.root, copy, symlinks=True)
        before = times_below(it.root)
        dry = it.run("--dry-run", *words, status=0 if words else 1)
        same(times_below(it.root), before)
        ran = it.run(*words, status=0 if words else 1)
        same(ran.lines()[:-1], dry.lines()[:-1])
        count = len([line for line in ran.lines() if line.startswith(("write ", "remove "))])
        same((count, dry.lines()[-1]),
             (steps, f"nothing is written; {ran.lines()[-1].replace('written', 'to write').replace('removed', 'to remove')}"))
        told = [line for line in ran.lines()[1:-1] if line.split(" ")[0] not in ("write", "remove", "keep", "reload:", "restart:", "stop:", "start:")]
        same(told, bench.fleet("diff", copy, it.root, status=1).lines())


def when_it_takes_effect(bench):
    """Units whose files change are to be reloaded, those whose own section changes restarted, those that the target starts anew started, and those
    that are gone or started no more stopped."""
    it = Applying(bench, BOOT)
    it.edit(*(f"put {E}/{name}.service {SERVICE}" for name in ("edited", "described", "gone", "masked", "dropped", "ordered", "same")),
            f"put {E}/x.socket [Socket]\\nListenStream=1\\n", f"put {E}/y.slice [Slice]\\nMemoryMax=1\\n",
            f"link {E}/multi-user.target.wants/gone.service ../gone.service",
            f"link {E}/multi-user.target.wants/dropped.service ../dropped.service",
            f"link {E}/multi-user.target.wants/edited.service ../edited.service")
    it.run()
    it.edit(f"put {E}/edited.service [Service]\\nExecStart=/bin/false\\n", f"put {E}/described.service [Unit]\\nDescription=D\\n{SERVICE}",
            f"remove {E}/gone.service",
            f"put {E}/masked.service", f"remove {E}/multi-user.target.wants/dropped.service", f"put {E}/x.socket [Socket]\\nListenStream=2\\n",
            f"put {E}/y.slice [Slice]\\nMemoryMax=2\\n", f"put {E}/ordered.service [Unit]\\nAfter=same.service\\n{SERVICE}",
            f"put {E}/new.service {SERVICE}",
            f"link {E}/multi-user.target.wants/new.service ../new.service")
    lines = it.run().lines()
    same([line for line in lines if line.partition(":")[0] in ("reload", "restart", "stop", "start")], [
        "reload: described.service edited.service gone.service masked.service multi-user.target new.service ordered.service x.socket y.slice",
        "restart: edited.service x.socket", "stop: dropped.service gone.service masked.service", "start: new.service"])


def as_objects(bench):
    """With --json all of it is objects, a line each, with the same status."""
    it = Applying(bench, {f"{E}/own.service": "O", f"{E}/.fleet-apply-0123456789abcdef": ""})
    it.edit(f"put {E}/own.service {SERVICE}", f"put {E}/a.service {SERVICE}", f"put {E}/a.service.d/x.conf X")
    it.run(status=1)
    it.edit(f"put {E}/a.service [Service]\\nExecStart=/bin/false\\n", f"remove {E}/a.service.d/x.conf")
    bench.tree("root", {f"{E}/.fleet-apply-0123456789abcdef": ""})
    lines = it.run("--json", status=1).lines()
    same(lines, [
        '{"host": "web1", "by": "/etc/hostname", "has_own": false, "places": 2, "left_out": 0, "is_begun": false}',
        f'{{"do": "remove", "path": "{E}/.fleet-apply-0123456789abcdef", "why": "left by a run that was killed"}}',
        f'{{"do": "write", "path": "{E}/a.service", "why": "changed"}}',
        f'{{"do": "remove", "path": "{E}/a.service.d/x.conf", "why": "the fleet has it no more"}}',
        f'{{"do": "remove", "path": "{E}/a.service.d/", "why": "empty"}}',
        f'{{"do": "keep", "path": "{E}/own.service", "why": "the fleet didn\'t write it"}}',
        f'{{"at": "a.service", "field": "drop-ins", "before": ["{E}/a.service.d/x.conf"], "after": [], "hosts": ["web1"]}}',
        '{"at": "a.service", "field": "Service.ExecStart", "before": ["/bin/true"], "after": ["/bin/false"], "hosts": ["web1"]}',
        '{"do": "reload", "units": ["a.service"]}', '{"do": "restart", "units": ["a.service"]}',
        '{"written": 1, "removed": 1, "kept": 1, "is_done": true}'])


def what_differs(bench):
    """What a root lacks of a host's tree, has otherwise, or has though the state removed it for the host, as `status` tells it."""
    it = Applying(bench, {f"{E}/same": "S", f"{E}/other": "O", f"{E}/removed": "R", f"{E}/own": "O", f"{E}/folder/x": "X", f"{E}/gone/x": "X",
                          f"{E}/theirs": "T", f"{E}/l": Link("a"), f"{E}/m": Link("b")})
    it.edit(*(f"put {E}/{name} S" for name in ("same", "other", "lacks", "removed", "folder", "gone", "theirs")), f"link {E}/l a", f"link {E}/m a",
            f"put {E}/was S", *(f"remove {E}/{name}" for name in ("removed", "gone", "was")), f"put web2:{E}/theirs X", f"remove web2:{E}/theirs",
            f"put web1:{E}/mine X", f"remove web1:{E}/mine", f"put {E}/mine X", f"remove {E}/mine")
    node = NodeFile(it.state)
    wanted, removed = node.tree("web1")[0], applying.removed_places(node.held(), "web1")
    same(sorted(str(place) for place in removed), [f"{E}/{name}" for name in ("gone", "mine", "removed", "was")])
    found = writing.found_below(it.root, [*wanted, *removed])
    same([(str(place), how) for place, how in applying.differing(wanted, removed, found)], [
        (f"{E}/folder", "otherwise"), (f"{E}/lacks", "lacks"), (f"{E}/m", "otherwise"), (f"{E}/other", "otherwise"), (f"{E}/removed", "removed"),
        (f"{E}/theirs", "otherwise")])


def where_nobody_reads(bench):
    """Where what is to be done can't be told, nothing is done."""
    it = Applying(bench)
    it.edit(f"put {E}/a.service {SERVICE}")
    before = times_below(it.root)
    ends = os.pipe()
    os.close(ends[0])
    with open("/dev/full", "wb") as full:
        for at, status, told in ((ends[1], 1, []), (full, 2, ["apply: input or output: No space left on device"])):
            same(bench.fleet(*it.words(), stdout=at, status=status, env={"PYTHONUNBUFFERED": ""}).told(), told)
            same(times_below(it.root), before)


CASES = [written_for_a_host, all_directories, which_host, changed_and_removed, not_the_fleets, changed_since, in_the_way,
         what_is_told_is_what_is_done,
         when_it_takes_effect, as_objects, what_differs, where_nobody_reads]
