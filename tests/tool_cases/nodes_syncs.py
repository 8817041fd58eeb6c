"""Syncs over ssh and over sockets: each outcome is told, what came stays, and all who may be reached are."""
import json
import os
import random
import signal
import time
from contextlib import ExitStack

from .bench import E, same
from .nodes_bench import PROGRAM, Held, Node, Server, counting, cutter, ssh, until_lines

NOTHING = "nothing new here"


def pair(bench, **more):
    """Two nodes, each with an edit of its own, and one at the same place."""
    one, other = Node(bench.path("one"), 1), Node(bench.path(more.get("other", "other")), 2)
    one.script(f"put here {E}/one.service 1", f"put here {E}/both.service 1")
    other.script(f"put here {E}/other.service 2", f"put here {E}/away.service 2", f"put here {E}/both.service 2", f"remove here {E}/other.service")
    other.script(f"remove here {E}/away.service")
    return one, other


def by_ssh(bench):
    """ssh starts the program there over the state file that is named, whatever letters its path has; then both hold the same."""
    one, other = pair(bench, other="it's $HOME; `touch x`\\ \"2\"")
    around = ssh(bench)
    words = ["sync", "--ssh", "root@web1", "--state-there", other.file]
    same(one.fleet(*words, env=around).lines(), ["root@web1: 3 places changed here"])
    same(one.files(), {f"{E}/one.service": ("1.1", "file 1"), f"{E}/both.service": ("3.2", "file 1"), f"{E}/other.service": ("4.2", "gone"),
                         f"{E}/away.service": ("5.2", "gone")})
    same(one.identity(), other.identity())
    for it in (one, other):
        same(it.fleet("sync", "--ssh", "web1", "--state-there", (other if it is one else one).file, env=around).lines(), [f"web1: {NOTHING}"])
    same([json.loads(it) for it in one.fleet(*words, "--json", env=around).lines()], [{"with": "root@web1", "changed": 0}])
    same([it.split(" ")[0] for node in (one, other) for it in node.fleet("peers").lines()], ["1", "2", "2", "1"])
    same(os.path.lexists(bench.path("x")), False)


def by_sockets(bench):
    """A socket of this machine, and a port of one, with a service that systemd starts for each connection."""
    one, other = pair(bench)
    with Server(PROGRAM, "exchange", other.file, path=bench.path("so cket")):
        same(one.fleet("sync", "--socket", bench.path("so cket")).lines()[0].startswith(f"{bench.path('so cket')}: "), True)
        same(one.identity(), other.identity())
    one.script(f"put here {E}/new.service 3")
    with Server(PROGRAM, "exchange", other.file) as server:
        for name in (f"127.0.0.1:{server.port}", f"localhost:{server.port}", f"[127.0.0.1]:{server.port}"):
            same(one.fleet("sync", name).lines(), [f"{name}: {NOTHING}"])
        same(one.identity(), other.identity())
        other.script(f"put here {E}/new.service 44", f"put here {E}/next.service 44")
        same(one.fleet("sync", f"127.0.0.1:{server.port}").lines(), [f"127.0.0.1:{server.port}: 2 places changed here"])
    same(one.identity(), other.identity())


def all_are_tried(bench):
    """Of several targets each has its outcome, in their order, and one that fails stops no other: status 1."""
    one, other = pair(bench)
    around = ssh(bench)
    with Server(PROGRAM, "exchange", other.file) as server:
        ran = one.fleet("sync", "127.0.0.1:1", f"localhost:{server.port}", "--ssh", "away", "--ssh", "web1", "--state-there", bench.path("none"),
                        "--socket", bench.path("none"), "--dir", bench.path("none"), env=around, status=1)
    same((len(ran.lines()), ran.lines()[0].startswith(f"localhost:{server.port}: ")), (1, True))
    same(ran.told(), [f"sync: {it}" for it in (
        "127.0.0.1:1: no connection: Connection refused", "away: ssh: Could not resolve hostname away", "web1: there: Z2 NotANode: no state file",
        f"{bench.path('none')}: no connection: No such file or directory", f"{bench.path('none')}: No such file or directory")])
    same(one.identity(), other.identity())


def refused_peers(bench):
    """What goes wrong there or here is told by the name of the refusal, and changes nothing."""
    one, other = pair(bench)
    twin = Node(bench.path("twin"), 1)
    twin.script(f"put here {E}/twin.service 1")
    held, words = one.files(), ["sync", "--ssh", "web1", "--state-there"]
    cases = [
        (other.file, "printf 'Warning: key\\n\\nPermission denied (publickey).\\n' >&2\nexit 255\n", "Permission denied (publickey).", ""),
        (other.file, "echo 'a banner' >&2\necho 'fleet: Z5 Disk' >&2\nexit 1\n", "there: Z5 Disk: the disk refuses, or the file is damaged", ""),
        (twin.file, "", "there: X7 WriterTaken: two state files write under one number: make one of them anew under a free number", "here"),
        (other.file, "echo 'Welcome to web1'\n", "here: a frame is longer than a megabyte", ""),
        (other.file, "exit 0\n", "here: ", ""), (other.file, "kill -9 $$\n", "there: ", ""),
        (other.file, "echo 'bash: fleet_node: command not found' >&2\nexit 127\n", "there: bash: fleet_node: command not found", ""),
        (other.file, "printf '\\033[31m' >&2\nexit 3\n", "there: \\x1b[31m", ""),
    ]
    for number, (file, before, told, or_there) in enumerate(cases):
        ran = one.fleet(*words, file, env=ssh(bench, before, f"ssh{number}"), status=1)
        found = ran.told()[0].replace("here: X7", "there: X7") if or_there else ran.told()[0]
        same((ran.out, len(ran.told()), found.startswith(f"sync: web1: {told}")), (b"", 1, True), ran)
        same(one.files(), held)
    ran = one.fleet(*words, other.file, "--json", env=ssh(bench, "exit 7\n", "other"), status=1)
    same(json.loads(ran.out)["failed"].startswith("there: it ended with status 7"), True, ran)
    ran = one.fleet(*words, twin.file, "--json", env=ssh(bench), status=1)
    same(json.loads(ran.out)["refused"], "X7")
    same(one.fleet(*words, other.file, env={"FLEET_SSH": bench.path("none")}, status=1).told(),
         [f"sync: web1: {bench.path('none')}: it can't be run: No such file or directory"])
    same((one.files(), twin.files()), (held, {f"{E}/twin.service": ("1.1", "file 1")}))


def wrong_words(bench):
    """Whom no word names isn't asked; nothing is read as an option of ssh."""
    one = Node(bench.path("one"), 1)
    for words in ([], ["--ssh=-oProxyCommand=x"], ["--ssh", ""], ["a b"], ["web1:"], ["web1:0"], ["web1:70000"], ["web1:1:2:x"], ["[::1"], ["x/y"],
                  ["web1", "--seconds", "0"], ["web1", "--seconds", "x"]):
        ran = one.fleet("sync", *words, env=ssh(bench), status=2)
        same((ran.out, len(ran.told()) >= 1), (b"", True), words)


def named_in_a_file(bench):
    """A file names machines, ssh's, sockets and folders, a line each; a line that names none is told, and nothing is done."""
    one, other = pair(bench)
    os.mkdir(bench.path("a folder"))
    around = ssh(bench)
    with Server(PROGRAM, "exchange", other.file, path=bench.path("socket")), Server(PROGRAM, "exchange", other.file) as server:
        text = (f"# all\n\n  127.0.0.1:{server.port}  \nssh:root@web1\r\nsocket:{bench.path('socket')}\n#ssh:away\ndir:{bench.path('a folder')}\n"
                f"127.0.0.1:{server.port}")
        names = [f"127.0.0.1:{server.port}", "root@web1", bench.path("socket"), bench.path("a folder"), f"127.0.0.1:{server.port}"]
        with open(bench.path("targets"), "w", encoding="utf-8") as file:
            file.write(text)
        ran = one.fleet("sync", "--from", bench.path("targets"), "--state-there", other.file, env=around)
        same([it.rpartition(": ")[0] for it in ran.lines()], names)
        ran = one.fleet("sync", "--from", "-", "--state-there", other.file, env=around, given=text.encode())
        same(ran.lines(), [f"{it}: {NOTHING}" for it in names])
        same(one.identity(), other.identity())
        other.script(f"put here {E}/more.service 1")
        ran = one.fleet("sync", "--from", "-", given=f"127.0.0.1:{server.port}\nssh:-oX=y\n".encode(), status=2)
        same((ran.out, ran.told()), (b"", ["sync: -: line 2: -oX=y: no machine that ssh reaches"]))
        same(f"{E}/more.service" in one.files(), False)
    same((one.fleet("sync", "--from", "-", given=b"# none\n").out, one.fleet("sync", "--from", bench.path("none"), status=2).out), (b"", b""))


def busy_ones(bench):
    """Where either side has another exchange, it is tried again; a socket that ends without a word may be busy too."""
    one, other = pair(bench)
    words = ["sync", "--ssh", "web1", "--state-there", other.file]
    around, runs = counting(bench)
    for number, node in enumerate((one, other)):
        other.script(f"put here {E}/{number}.service x")
        with Held(node) as held:
            call = one.call(*words, env={**ssh(bench), **around})
            until_lines(runs, 3)
            held.free()
            same((call.ended().status, one.identity()), (0, other.identity()))
        os.unlink(runs)
    once = f'if mkdir "{bench.path("once")}" 2>/dev/null; then\necho "fleet: Z4 Busy" >&2\nexit 1\nfi\n'
    same(one.fleet(*words, env=ssh(bench, once, "once-ssh")).lines(), [f"web1: {NOTHING}"])
    at_first = ["sh", "-c", f'mkdir "{bench.path("first")}" 2>/dev/null || exec "{PROGRAM}" exchange "{other.file}"']
    with Server(*at_first) as server:
        same(one.fleet("sync", f"localhost:{server.port}").lines(), [f"localhost:{server.port}: {NOTHING}"])


def silent_ones(bench):
    """A peer that says nothing is given up, and what was started for it ends."""
    one, other = pair(bench)
    around = ssh(bench, f'echo $$ > "{bench.path("pid")}"\nexec sleep 100\n')
    begun = time.monotonic()
    ran = one.fleet("sync", "--ssh", "web1", "--state-there", other.file, "--seconds", "1", env=around, status=1)
    same((ran.out, ran.told()), (b"", ["sync: web1: given up after 1 s without a byte from there"]))
    same((is_running(bench.path("pid")), time.monotonic() - begun < 20), (False, True))
    with Server() as server:
        ran = one.fleet("sync", f"127.0.0.1:{server.port}", "--seconds", "1", status=1)
        same(ran.told(), [f"sync: 127.0.0.1:{server.port}: given up after 1 s without a byte from there"])
    around = ssh(bench, 'printf "\\0"\nexec sleep 100\n', "begins")
    ran = one.fleet("sync", "--ssh", "web1", "--seconds", "1", env=around, status=1)
    same(ran.told(), ["sync: web1: given up after 1 s without a byte"])
    one.script(f"put here {E}/free.service x")


def is_running(path):
    """Whether the process runs whose number a file tells."""
    with open(path, encoding="ascii") as file:
        number = int(file.read())
    try:
        os.kill(number, 0)
        return True
    except ProcessLookupError:
        return False


def cut_off(bench):
    """What came whole before an exchange broke off stays, and how much that was is told; the next sync brings the rest."""
    one, other = Node(bench.path("one"), 1), Node(bench.path("other"), 2)
    other.script(*(f"put here {E}/{it:02}.service {'x' * 60_000}" for it in range(40)))
    around = ssh(bench, cutter(1_500_000), "cuts")
    ran = one.fleet("sync", "--ssh", "web1", "--state-there", other.file, env=around, status=1)
    came = len(one.files())
    same((0 < came < 40, ran.out, len(ran.told())), (True, b"", 1), ran)
    same(ran.told()[0].endswith(f"; {came} places changed here before that"), True, ran)
    same(one.fleet("sync", "--ssh", "web1", "--state-there", other.file, env=ssh(bench)).lines(), [f"web1: {40 - came} places changed here"])
    same(one.identity(), other.identity())


def stopped(bench):
    """A signal ends a sync quietly, with all that was started for it, and what was told until then was told."""
    one, other = pair(bench)
    for number in (signal.SIGINT, signal.SIGTERM, signal.SIGHUP):
        around = ssh(bench, f'[ "$1" = x ] || {{ echo $$ > "{bench.path("pid")}"; exec sleep 100; }}\n')
        with Server(PROGRAM, "exchange", other.file) as server:
            call = one.call("sync", f"localhost:{server.port}", "--ssh", "web1", "--state-there", other.file, env=around)
            until = time.monotonic() + 20
            while not os.path.exists(bench.path("pid")) and time.monotonic() < until:
                time.sleep(0.02)
            time.sleep(0.1)
            call.signal(number)
            ran = call.ended()
        same((ran.status, ran.err, len(ran.lines())), (-number, b"", 1), ran)
        same(is_running(bench.path("pid")), False)
        os.unlink(bench.path("pid"))
    same(one.identity(), other.identity())


def edited_at_random(maker, node, held, number):
    """Has a node make an edit, and notes what was answered."""
    place = f"{maker.choice(['', 'web1:'])}{E}/{maker.randrange(12)}.service"
    text = "x" * maker.choice([0, 3, 9_000])
    answer, = node.script(f"remove here {place}" if maker.random() < 0.2 else f"put here {place} {number}{text}")
    if answer.startswith("ok "):
        version = tuple(map(int, answer[3:].split(".")))
        held[place] = max(held.get(place, (0, 0)), version)


def meeting(maker, one, other, servers, folder):
    """The words of a sync of two nodes, by one of the three ways."""
    return maker.choice([["--ssh", "x", "--state-there", other.file], ["--socket", servers[other.writer].path], ["--dir", folder]])


def fleets_at_random(bench):
    """Three nodes in a ring and ten, edited at random, sync by all three ways while some are killed; then all hold the same: every edit that was
    answered, as the greatest versions have it."""
    for count, turns in ((3, 24), (10, 30)):
        maker, held = random.Random(count), {}
        nodes = [Node(bench.path(f"{count}-{it}"), it) for it in range(1, count + 1)]
        folder, around = bench.path(f"folder-{count}"), ssh(bench)
        os.mkdir(folder)
        with ExitStack() as stack:
            servers = {it.writer: stack.enter_context(Server(PROGRAM, "exchange", it.file, path=f"{it.file}.socket")) for it in nodes}
            for number in range(turns):
                one, other = maker.sample(nodes, 2)
                edited_at_random(maker, one, held, number)
                edited_at_random(maker, other, held, number)
                call = one.call("sync", *meeting(maker, one, other, servers, folder), env=around)
                if maker.random() < 0.5:
                    time.sleep(maker.random() * 0.2)
                    call.signal(maker.choice([signal.SIGKILL, signal.SIGTERM]))
                same(call.ended().status in (0, -signal.SIGKILL, -signal.SIGTERM), True)
            for one, other in [*zip(nodes, nodes[1:]), *zip(nodes[::-1], nodes[-2::-1])]:
                one.fleet("sync", "--ssh", "x", "--state-there", other.file, env=around)
        same({it.identity() for it in nodes}, {nodes[0].identity()})
        same({place: tuple(map(int, version.split("."))) for place, (version, _) in nodes[-1].files().items()}, held)


CASES = [by_ssh, by_sockets, all_are_tried, refused_peers, wrong_words, named_in_a_file, busy_ones, silent_ones, cut_off, stopped, fleets_at_random]
