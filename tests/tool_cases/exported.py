"""Trees are written as a whole, with modes no wider than they had."""
import os
import signal
import stat
import subprocess
import sys
import time

from .bench import FLEET, E, L, R, U, same
from .written import entries_of, script

FULL = "neither new nor an empty folder"


def modes_of(root):
    """The modes of all files below a folder, by their paths in it, in octal."""
    found = {f"{at}/{name}" for at, _, names in os.walk(root) for name in names}
    return {it[len(root) :]: f"{stat.S_IMODE(os.lstat(it).st_mode):04o}" for it in found if not os.path.islink(it)}


def with_modes(bench, name, modes):
    """A tree of files with these modes. Its root."""
    root = bench.tree(name, {path: path for path in modes})
    for path, mode in modes.items():
        os.chmod(root + path, mode)
    return root


def modes_come_back(bench):
    """With the table files have their modes again, none wider than 0644: 0600 stays 0600, and no file can be run or written by others. The
    table names places, those of hosts too."""
    # in the order of places
    modes = {f"{E}/a": 0o644, f"{E}/b": 0o600, f"{E}/c": 0o640, f"{R}/e": 0o666, f"{L}/d": 0o755, f"{U}/f": 0o400, f"{U}/x.d/g": 0o4711}
    own = {f"{E}/a": 0o600, f"{E}/h": 0o660}
    one, web1 = with_modes(bench, "one", modes), with_modes(bench, "web1", own)
    os.symlink("a", f"{one}{E}/l")
    ran = bench.fleet("import", one, f"web1={web1}", "--modes", bench.path("modes"))
    with open(bench.path("modes"), encoding="ascii") as file:
        same(file.read().splitlines(), [*(f"{mode:04o} {path}" for path, mode in modes.items()),
                                        *(f"{mode:04o} web1:{path}" for path, mode in own.items())])
    at = script(bench, ran.out)
    bench.fleet("export", at, "tree", bench.path("out"), "--modes", bench.path("modes"))
    wanted = {f"{E}/a": "0644", f"{E}/b": "0600", f"{E}/c": "0640", f"{L}/d": "0644", f"{R}/e": "0644", f"{U}/f": "0400", f"{U}/x.d/g": "0600"}
    same(modes_of(bench.path("out")), {**wanted, f"/hosts/web1{E}/a": "0600", f"/hosts/web1{E}/h": "0640"})
    bench.fleet("export", at, "tree", bench.path("seen"), "--modes", bench.path("modes"), "--host", "web1")
    same(modes_of(bench.path("seen")), {**wanted, f"{E}/a": "0600", f"{E}/h": "0640"})
    # a host's own file without a row has not the fleet's mode
    table = script(bench, f"0400 {E}/a\n0600 {E}/b\n", "table")
    bench.fleet("export", at, "tree", bench.path("lacks"), "--modes", table, "--host", "web1")
    same(modes_of(bench.path("lacks")), {**dict.fromkeys([*wanted, f"{E}/h"], "0644"), f"{E}/b": "0600"})
    bench.fleet("export", at, "tree", bench.path("plain"))
    same(set(modes_of(bench.path("plain")).values()), {"0644"})
    for text, number in ((f"0644 {E}/a\n0999 {E}/b\n", 2), ("0644 a\n", 1), (f"\n0644 {E}/a\n", 1)):
        ran = bench.fleet("export", at, "tree", bench.path("none"), "--modes", script(bench, text, "bad"), status=2)
        same(ran.told(), [f"export: {bench.path('bad')}: line {number} is no mode and place, as import --modes writes them"])
    same(os.path.exists(bench.path("none")), False)


def folders_that_not_all_enter(bench):
    """A file in a folder that only its owner may enter counts as one that only its owner may read."""
    root = with_modes(bench, "one", {f"{E}/a": 0o644, f"{E}/x.d/b": 0o644, f"{E}/y.d/c": 0o644, f"{U}/z.d/d": 0o644})
    for path, mode in (("x.d", 0o700), ("y.d", 0o750)):
        os.chmod(f"{root}{E}/{path}", mode)
    ran = bench.fleet("import", root, "--modes", bench.path("modes"))
    same(ran.told(), ["2 files that not all may read: keep the script so that only its owner may read it"])
    with open(bench.path("modes"), encoding="ascii") as file:
        same(file.read().splitlines(), [f"0644 {E}/a", f"0600 {E}/x.d/b", f"0640 {E}/y.d/c", f"0644 {U}/z.d/d"])


def scripts_of_ones_own(bench):
    """A script with a file that not all may read is one that only its owner may read, where it is a file; of such a script files are 0600
    where no table has another mode."""
    root = with_modes(bench, "one", {f"{E}/a": 0o644, f"{E}/b": 0o600})
    own, plain = bench.path("own"), bench.path("plain")
    for name, trees, mode, told in ((own, [root], "0600", ["1 file that not all may read: only its owner may read the script"]),
                                    (plain, [bench.tree("two", {f"{E}/a": "A"})], "0644", [])):
        with open(name, "wb") as file:
            same(bench.fleet("import", *trees, stdout=file).told(), told)
        same(f"{stat.S_IMODE(os.stat(name).st_mode):04o}", mode)
    with open(bench.path("met"), "wb") as file:
        bench.fleet("merge", "--script", f"one={root}", stdout=file)
    same(f"{stat.S_IMODE(os.stat(bench.path('met')).st_mode):04o}", "0600")
    bench.fleet("export", own, "tree", bench.path("out"))
    same(modes_of(bench.path("out")), {f"{E}/a": "0600", f"{E}/b": "0600"})
    table = script(bench, f"0644 {E}/a\n", "table")
    bench.fleet("export", own, "tree", bench.path("more"), "--modes", table)
    same(modes_of(bench.path("more")), {f"{E}/a": "0644", f"{E}/b": "0600"})


def as_a_whole(bench):
    """The folder is there as a whole or not at all: after a fault, which names the file, nothing is left, and an empty folder stays empty; a
    new folder and those above it are made, an empty one keeps its mode."""
    deep = bench.path("/".join(["d" * 250] * 14))
    os.makedirs(f"{deep}/here")
    long = f"{U}/{'f' * 255}/{'n' * 255}"
    at = script(bench, f"node a 1\nput a {E}/a A\nput a {E}/b B\nput a {long} L\nput a {U}/z Z\n")
    for name in ("here", "new", "above/new"):
        ran = bench.fleet("export", at, "a", f"{deep}/{name}", status=2)
        same(ran.told(), [f"export: {long}: not written: File name too long; nothing is left of the tree"])
        same((os.listdir(deep), os.listdir(f"{deep}/here")), (["here"], []))
    os.makedirs(bench.path("empty"))
    os.chmod(bench.path("empty"), 0o750)
    bench.fleet("export", at, "a", bench.path("empty"))
    same((sorted(entries_of(bench.path("empty"))), stat.S_IMODE(os.stat(bench.path("empty")).st_mode)), ([f"{E}/a", f"{E}/b", long, f"{U}/z"], 0o750))
    bench.fleet("export", at, "a", bench.path("m/n/o"))
    same(len(entries_of(bench.path("m/n/o"))), 4)
    same(bench.fleet("export", at, "a", bench.path("m"), status=2).told(), [f"export: {bench.path('m')}: {FULL}"])
    os.symlink("empty", bench.path("link"))
    same(bench.fleet("export", at, "a", bench.path("link"), status=2).told(), [f"export: {bench.path('link')}: {FULL}"])


def a_disk_that_fills(bench):
    """Where a file can't be written to its end, it is named and nothing is left."""
    at = script(bench, f"node a 1\nput a {E}/a A\nput a {E}/big {'x' * 60_000}\nput a {U}/z Z\n")
    wrapper = bench.path("wrapper")
    begun = bench.path("begun")
    with open(wrapper, "w", encoding="utf-8") as file:
        # when it is asked for the texts, the tool may from now on write no more than 50,000 bytes into a file, as if a disk were full
        file.write(f"#!{sys.executable}\nimport os, resource\nif os.path.exists({begun!r}):\n"
                   f"    resource.prlimit(os.getppid(), resource.RLIMIT_FSIZE, (50_000, 50_000))\n"
                   f"open({begun!r}, 'w').close()\nos.execv({bench.program!r}, [{bench.program!r}])\n")
    os.chmod(wrapper, 0o755)
    ran = bench.fleet("export", at, "a", bench.path("out"), status=2, env={"FLEET_SHELL": wrapper})
    same(ran.told(), [f"export: {E}/big: not written: File too large; nothing is left of the tree"])
    same(sorted(os.listdir(bench.room)), ["begun", "script", "wrapper"])


def stopped_while_it_writes(bench):
    """A stop by Ctrl-C or by a signal leaves nothing of the tree."""
    at = script(bench, "node a 1\n" + "".join(f"put a {U}/u{number:05}.service A\n" for number in range(4_000)))
    for number in (signal.SIGINT, signal.SIGTERM):
        around = {**os.environ, "FLEET_SHELL": bench.program}
        with subprocess.Popen([FLEET, "export", at, "a", bench.path("out")], env=around, stderr=subprocess.PIPE, stdout=subprocess.PIPE) as ran:
            until = time.monotonic() + 60
            while not any(it.startswith(".out.") for it in os.listdir(bench.room)) and time.monotonic() < until:
                time.sleep(0.002)
            ran.send_signal(number)
            _, err = ran.communicate()
        same((ran.returncode, err, os.listdir(bench.room)), (-number, b"", ["script"]))


CASES = [modes_come_back, folders_that_not_all_enter, scripts_of_ones_own, as_a_whole, a_disk_that_fills, stopped_while_it_writes]
