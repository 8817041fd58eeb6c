"""However `fleet apply` ends, each file is whole, nothing of others is lost, and the next run comes to the same as one that wasn't stopped."""
import errno
import os
import random
import resource
import shutil
import signal
import subprocess
import time

from fleet_tools.nodes import apply_verb
from fleet_tools.nodes.files import NodeFile

from .bench import FLEET, E, same
from .nodes_apply_bench import MANIFEST, OWN, SERVICE, Applying, all_below, ended, unasked

# What changes the disk, and what only waits for it.
CALLS, WAIT = ("mkdir", "fchmod", "unlink", "rmdir", "rename", "symlink", "open"), "fsync"
STAGED = "/.fleet-apply-"
ROUNDS, EVERY = 6, 4
MOST = 5  # times what it takes to tell the words of the call


def at_call(number, how, tree, is_waiting=False):
    """The same, so that at the call of this number that changes the disk, or also waits for it, from the first step on, something happens. Nothing
    is waited for until it lasts: no machine goes down here."""
    carry_out = apply_verb.carry_out

    def prepared():
        unasked(tree)()

        def counted(*those):
            count = [0]

            def with_count(call, name):
                def counting(*words, **more):
                    is_change = bool(words[1] & os.O_CREAT) if name == "open" else name != WAIT or is_waiting
                    count[0] += is_change
                    if is_change and count[0] == number:
                        how()
                    return call(*words, **more) if name != WAIT else None

                return counting

            for name in (*CALLS, WAIT):
                setattr(os, name, with_count(getattr(os, name), name))
            return carry_out(*those)

        apply_verb.carry_out = counted

    return prepared


class Stopping:
    """A root that one apply changes in all ways in which it can, and the same for as many tries as it takes."""

    def __init__(self, bench):
        self.it = Applying(bench, {f"{E}/own.service": "OWN", f"{E}/kept.d/own.conf": "OWN", f"{E}/was.d": None})
        self.first, self.copies = self.it.root, 0
        self.it.edit(f"put {E}/a.service {SERVICE}", f"put {E}/b.service {SERVICE}", f"put {E}/own.service {SERVICE}",
                     f"link {E}/l.service a.service",
                     f"put {E}/kept.d/x.conf X", f"put {E}/gone.d/x.conf X", f"put {E}/was.d/x.conf X", f"link {E}/a.wants/b.service ../b.service")
        self.it.run(status=1)
        self.it.edit(f"put {E}/a.service A{'a' * 40_000}", f"remove {E}/b.service", f"link {E}/l.service n.service", f"put {E}/n.service N",
                     f"remove {E}/kept.d/x.conf", f"remove {E}/gone.d/x.conf", f"put {E}/new.d/x.conf X",
                     f"link {E}/new.wants/l.service ../l.service",
                     f"put {E}/was.d/x.conf Y", f"remove {E}/a.wants/b.service")
        self.before, self.tree = self.shown(), NodeFile(self.it.state).tree("web1")
        self.copy()
        self.again(1)
        self.after = self.shown()

    def copy(self):
        """Another copy of the root as it was."""
        self.copies += 1
        self.it.root = f"{self.first}.{self.copies}"
        shutil.copytree(self.first, self.it.root, symlinks=True)

    def shown(self):
        """All that is there, but what isn't in its place yet, of which nothing is there when a run ended well."""
        return all_below(self.it.root)

    def again(self, status):
        """Applies once more."""
        return self.it.run(status=status, given=at_call(0, None, self.tree))

    def stopped(self, how, every=1, is_waiting=False):
        """For each call in turn, or one of so many, a run in which that happens; the run after it comes to the same as one that wasn't stopped."""
        number, status = 1 - every, None
        while status != 1:
            number += every
            self.copy()
            ran = self.it.run(status=None, given=at_call(number, how, self.tree, is_waiting))
            status = ran.status
            yield ran
            self.each_is_whole()
            self.again(1)
            same(self.shown(), self.after, f"after call {number}")
            shutil.rmtree(self.it.root)
        same(number > 25, True, number)

    def each_is_whole(self):
        """Each path has what it had or what it is to have, but what isn't in its place."""
        found = {path: it for path, it in self.shown().items() if STAGED not in path and path != MANIFEST}
        both = [{path: it for path, it in those.items() if path != MANIFEST} for those in (self.before, self.after)]
        odd = [path for path in {*found, *both[0], *both[1]} if found.get(path) not in [it.get(path) for it in both]]
        same(odd, [], {it: found.get(it) for it in odd})

    def left(self):
        """What isn't in its place."""
        return [path for path in self.shown() if STAGED in path]


def killed_at_each_call(bench):
    """Killed before any call that changes the disk, each file is whole, and the next run does the rest, tells so, and leaves nothing of the first."""
    it = Stopping(bench)
    ended, left = [], 0
    for ran in it.stopped(lambda: os.kill(os.getpid(), signal.SIGKILL)):
        ended.append(ran.status)
        left += len(it.left())
    same((set(ended[:-1]), ended[-1], left > 10), ({-signal.SIGKILL}, 1, True))


def stopped_at_each_call(bench):
    """The same where a signal asks for the end: nothing is left that isn't in its place."""
    it = Stopping(bench)
    for ran in it.stopped(lambda: os.kill(os.getpid(), signal.SIGTERM), EVERY):
        same((ran.status in (-signal.SIGTERM, 1), ran.err, it.left()), (True, b"", []))


def refused_at_each_call(bench):
    """Where the disk refuses a call, it is told at which path and how far it came, and nothing is left that isn't in its place."""
    it = Stopping(bench)

    def full():
        raise OSError(errno.ENOSPC, os.strerror(errno.ENOSPC))

    for ran in it.stopped(full, EVERY, True):
        if ran.status != 1:
            same((ran.status, len(ran.told()), it.left()), (2, 1, []), ran)
            same(": not written: No space left on device; " in ran.told()[0] and " of 10 steps are done: apply again to do the rest" in ran.told()[0],
                 True, ran)


def killed_at_random(bench):
    """Killed at any moment, each file is whole, nothing of others is lost, and the next run comes to the same; so does one behind several that were
    killed one after the other."""
    it = Applying(bench, {f"{E}/own{number}.service": "OWN" for number in range(5)})
    it.edit(*(f"put {E}/u{number}.service.d/x.conf {number}" for number in range(16)),
            *(f"put {E}/v{number}.service {SERVICE}" for number in range(12)))
    it.run()
    by_chance, first, whole, killed = random.Random(7), it.root, [], 0
    it.edit(*(f"remove {E}/u{number}.service.d/x.conf" for number in range(8)), *(f"put {E}/v{number}.service {'x' * 9_000}" for number in range(8)),
            *(f"put {E}/w{number}.service.d/x.conf {number}" for number in range(8)))
    before, given = all_below(first), unasked(NodeFile(it.state).tree("web1"))
    for number in range(ROUNDS + 1):
        it.root = f"{first}.{number}"
        shutil.copytree(first, it.root, symlinks=True)
        for _ in range(0 if not number else 1 + number % 3):
            killed += killed_while_writing(it, by_chance.random() ** 2 * 0.06, given)
            found = {path: content for path, content in all_below(it.root).items() if STAGED not in path and path != MANIFEST}
            odd = [path for path, content in found.items() if content not in (before.get(path), whole[0].get(path))]
            same((odd, [path for path in before if path not in found and path in whole[0] and path != MANIFEST]), ([], []))
        it.run(given=given)
        whole.append(all_below(it.root))
        same(whole[-1], whole[0])
    same(killed >= ROUNDS, True, killed)


def killed_while_writing(it, seconds, given):
    """Kills a run some time after its first write; whether it took so long."""
    run, until = it.begin(given=given), time.monotonic() + 60
    while time.monotonic() < until and not os.waitid(os.P_PID, run[0], os.WEXITED | os.WNOHANG | os.WNOWAIT):
        with open(it.root + MANIFEST, "rb") as file:
            if file.readline().endswith(b"begun\n"):
                time.sleep(seconds)
                os.killpg(run[0], signal.SIGKILL)
                break
        time.sleep(0.0005)
    return ended(*run).status == -signal.SIGKILL


def a_file_too_large(bench):
    """Where a file can't be written to its end, it is named, what stood there stands, and the next run goes on."""
    it = Applying(bench)
    it.edit(*(f"put {E}/{name} {name}" for name in "abc"))
    it.run()
    it.edit(f"put {E}/a A", f"put {E}/b {'b' * 60_000}", f"put {E}/c C")

    def with_limit():
        carry_out = apply_verb.carry_out
        apply_verb.carry_out = lambda *those: resource.setrlimit(resource.RLIMIT_FSIZE, (50_000, 50_000)) or carry_out(*those)

    ran = it.run(status=2, given=with_limit)
    same(ran.told(), [f"apply: {it.root}{E}/b: not written: File too large; 1 of 3 steps are done: apply again to do the rest"])
    same(all_below(it.root + E), {"/a": (0o644, b"A"), "/b": (0o644, b"b"), "/c": (0o644, b"c")})
    ran = it.run()
    same((ran.lines()[1], ran.lines()[-1]), (apply_verb.BEGUN, "2 written, 0 removed, 0 kept"))
    same(all_below(it.root + E), {"/a": (0o644, b"A"), "/b": (0o644, b"b" * 60_000), "/c": (0o644, b"C")})


def disks(bench):
    """On a disk that is full, and on one that is read only, it is told and each file is whole; with room it goes on."""
    it = Applying(bench, {f"{E}/own": "O"})
    it.edit(*(f"put {E}/{name} {name * 60_000}" for name in "abcd"))
    call = f"{FLEET} apply --state {it.state} --root {it.root}"
    full = f"""mount -t tmpfs -o size=400k none {it.root}/etc && mkdir -p {it.root}{E} && echo web1 > {it.root}/etc/hostname &&
        head -c 250000 /dev/zero > {it.root}/etc/full && {{ {call} > /dev/null; echo $? >&2; ls -A {it.root}{E} > {bench.path('some')}
        rm {it.root}/etc/full
        {call} > /dev/null; echo $? >&2; ls -A {it.root}{E} > {bench.path('all')}; cat {it.root}{E}/*; }}"""
    only = f"mount --bind {it.root} {it.root} && mount -o remount,ro,bind {it.root} && {{ {call} > /dev/null; echo $? >&2; }}"
    around = {**os.environ, "FLEET_SHELL": bench.program}
    ran = subprocess.run(["unshare", "--mount", "sh", "-c", full], env=around, capture_output=True, check=False)
    if os.geteuid() or ran.returncode and not ran.stdout:
        return
    told = ran.stderr.decode().split("\n")
    same(told, [f"fleet: apply: {it.root}{E}/c: not written: No space left on device; 2 of 4 steps are done: apply again to do the rest", "2", "0",
                ""])
    same(([open(bench.path(name), encoding="ascii").read().split() for name in ("some", "all")], ran.stdout),
         ([[*"ab"], [*"abcd"]], "".join(it * 60_000 for it in "abcd").encode()))
    shutil.rmtree(it.root + OWN)
    ran = subprocess.run(["unshare", "--mount", "sh", "-c", only], env=around, capture_output=True, check=False)
    same(ran.stderr.decode().split("\n"),
         [f"fleet: apply: {it.root}{OWN}/lock: not written: Read-only file system; 0 of 4 steps are done: apply again to do the rest", "2", ""])


def seconds_of(bench, *words):
    """The seconds of processor that a call of `tools/fleet` takes, and what it prints."""
    before = resource.getrusage(resource.RUSAGE_CHILDREN)
    found = bench.fleet(*words, stdin=subprocess.DEVNULL)
    after = resource.getrusage(resource.RUSAGE_CHILDREN)
    return after.ru_utime + after.ru_stime - before.ru_utime - before.ru_stime, found


def of_seven_hundred(bench):
    """Of 700 files where one changed, an apply takes at most five times what it takes to tell its words: a second, where that is a fifth."""
    it = Applying(bench)
    it.edit(*(f"put {E}/u{number:03}.service [Unit]\\nDescription={number}\\nAfter=u{number // 2:03}.service\\n{SERVICE}Restart=always\\nUser=x\\n"
              for number in range(600)),
            *(f"link {E}/multi-user.target.wants/u{number:03}.service ../u{number:03}.service" for number in range(0, 600, 6)))
    it.run(given=unasked(NodeFile(it.state).tree("web1")))
    took = []
    while not took or min(took) > MOST and len(took) < 3:
        it.edit(f"put {E}/u300.service [Unit]\\nDescription={len(took)}\\n{SERVICE}")
        seconds, ran = seconds_of(bench, *it.words())
        same(ran.lines()[-1], "1 written, 0 removed, 0 kept")
        took.append(seconds / seconds_of(bench, "apply", "--help")[0])
    same(min(took) <= MOST, True, took)


CASES = [killed_at_each_call, stopped_at_each_call, refused_at_each_call, killed_at_random, a_file_too_large, disks, of_seven_hundred]
