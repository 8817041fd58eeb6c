"""Syncs by a folder that anything may carry: each node writes its own files alone, each whole; what others leave there harms nothing."""
import json
import os
import random
import shutil
import signal
import subprocess
import time

import spelling

from .bench import E, same
from .nodes_bench import PROGRAM, Node, script_at

NOTHING = "nothing new here"


def nodes_of(bench, count):
    """Nodes that each have an edit of their own, and a folder."""
    nodes = [Node(bench.path(f"node-{it}"), it) for it in range(1, count + 1)]
    for it in nodes:
        it.script(f"put here {E}/{it.writer}.service {'x' * it.writer}")
    os.mkdir(bench.path("folder"))
    return nodes, bench.path("folder")


def found_in(folder):
    """What stands in a folder: bytes by name, of a link its target, and when each was written, as what."""
    found = {}
    for it in os.scandir(folder):
        about = it.stat(follow_symlinks=False)
        content = os.readlink(it.path) if it.is_symlink() else None
        if it.is_file(follow_symlinks=False):
            with open(it.path, "rb") as file:
                content = file.read()
        found[it.name] = content, about.st_mtime_ns, about.st_ino
    return found


def is_whole(name, content):
    """Whether bytes are a digest or a piece, as the name says."""
    try:
        return bool(spelling.read(name.rpartition(".")[2], content) or True)
    except spelling.Fault:
        return False


def by_folder(bench):
    """Nodes of a folder come to hold the same; a node's own files are its digest and a piece for each that lacks something, and no other. It is told
    what came of whom."""
    (one, two, three), folder = nodes_of(bench, 3)
    names = {it.writer: it.name() for it in (one, two, three)}
    same(one.fleet("sync", "--dir", folder).lines(), [f"{folder}: {NOTHING}"])
    same(sorted(os.listdir(folder)), [f"{names[1]}.digest"])
    same(two.fleet("sync", "--dir", folder).lines(), [f"{folder}: {NOTHING}"])
    same(three.fleet("sync", "--dir", folder).lines(), [f"{folder}: {NOTHING}"])
    same(sorted(os.listdir(folder)), sorted([*(f"{it}.digest" for it in names.values()), f"{names[2]}.for.{names[1]}.piece",
                                             f"{names[3]}.for.{names[1]}.piece", f"{names[3]}.for.{names[2]}.piece"]))
    same(one.fleet("sync", "--dir", folder).lines(), [f"{folder}: {names[2]}: 1 place changed here", f"{folder}: {names[3]}: 1 place changed here",
                                                      f"{folder}: 2 places changed here"])
    ran = two.fleet("sync", "--dir", folder, "--json")
    same(json.loads(ran.out)["changed"], 2)
    same(sum(json.loads(ran.out)["of"].values()) >= 2, True)
    three.fleet("sync", "--dir", folder)
    same({it.identity() for it in (one, two, three)}, {one.identity()})
    for it in (one, two, three):
        same(it.fleet("sync", "--dir", folder).lines(), [f"{folder}: {NOTHING}"])
    same(sorted(os.listdir(folder)), sorted(f"{it}.digest" for it in names.values()))
    before = found_in(folder)
    for it in (three, one, two):
        same(it.fleet("sync", "--dir", folder).lines(), [f"{folder}: {NOTHING}"])
    same(found_in(folder), before)
    same({os.stat(f"{folder}/{it}").st_mode & 0o777 for it in before}, {0o644})


def foreign_files(bench):
    """Links, pipes, folders and odd names in the folder are not followed, opened or written through, and stop nobody."""
    (one, two), folder = nodes_of(bench, 2)
    own, other = one.name(), two.name()
    two.fleet("sync", "--dir", folder)
    secret = bench.path("secret")
    with open(secret, "wb") as file:
        file.write(b"secret")
    os.symlink(secret, f"{folder}/{own}.digest")
    os.symlink(secret, f"{folder}/{own}.for.{other}.piece")
    os.symlink(secret, f"{folder}/3-aaaaaaaa.digest")
    os.symlink(f"{folder}/{other}.digest", f"{folder}/4-aaaaaaaa.digest")
    os.mkfifo(f"{folder}/5-aaaaaaaa.for.{own}.piece")
    os.mkdir(f"{folder}/6-aaaaaaaa.digest")
    os.mkdir(f"{folder}/7-aaaaaaaa.for.{own}.piece")
    odd = [f"../{own}.digest", "8-aaaaaaaa.digest\n", "8-AAAAAAAA.digest", "-8-aaaaaaaa.digest", "8-aaaaaaaa.digest.tmp", f".{other}.digest.x",
           "$(touch x)", f"08-aaaaaaaa.for.{own}.piece", "\x1b[31m.digest", f"8-aaaaaaaa.for.{own}.piece "]
    for it in odd[1:]:
        with open(f"{folder}/{it}", "wb") as file:
            file.write(b"odd")
    before = {it: found for it, found in found_in(folder).items() if not it.startswith(own)}
    ran = one.fleet("sync", "--dir", folder, status=1)
    same(ran.told(), [f"sync: {folder}: {name}: passed over: {why}" for name, why in (
        (f"5-aaaaaaaa.for.{own}.piece", "no file"), (f"7-aaaaaaaa.for.{own}.piece", "no file"),
        ("3-aaaaaaaa.digest", "a link"), ("4-aaaaaaaa.digest", "a link"),
        ("6-aaaaaaaa.digest", "no file"))])
    after = found_in(folder)
    same({it: found for it, found in after.items() if not it.startswith(own)}, before)
    same([is_whole(it, found[0]) for it, found in after.items() if it.startswith(own)], [True, True])
    with open(secret, "rb") as file:
        same(file.read(), b"secret")
    same(two.fleet("sync", "--dir", folder, status=1).lines(), [f"{folder}: {own}: 1 place changed here", f"{folder}: 1 place changed here"])
    os.unlink(f"{folder}/{own}.digest")
    os.mkdir(f"{folder}/{own}.digest")
    ran = one.fleet("sync", "--dir", folder, status=1)
    same((ran.out, [it for it in ran.told() if "passed over" not in it][0].startswith(f"sync: {folder}: ")), (b"", True))
    same([it for it in os.listdir(folder) if it.startswith(f".{own}")], [])


def damaged_files(bench):
    """What is no piece or no digest is told with its refusal and passed over; the rest is taken, and nothing of it is."""
    (one, two, three), folder = nodes_of(bench, 3)
    for it in (one, two, three):
        it.fleet("sync", "--dir", folder)
    own, other, third = one.name(), two.name(), three.name()
    at = f"{folder}/{other}.for.{own}.piece"
    with open(at, "rb") as file:
        whole = file.read()
    with open(f"{folder}/{other}.digest", "rb") as file:
        digest = file.read()
    for content, code in ((b"", "Y1 Truncated"), (whole[:-1], "Y5 Checksum"), (whole[:20], "Y1 Truncated"), (whole + b"x", "Y5 Checksum"),
                          (b"x" * 50, "Y2 Magic"), (whole[:-1] + bytes([whole[-1] ^ 1]), "Y5 Checksum"), (digest, "Y4 Kind")):
        held = one.files()
        with open(at, "wb") as file:
            file.write(content)
        three.script(f"put here {E}/more.service {len(held)}{'x' * len(content)}")
        three.fleet("sync", "--dir", folder, status=None)
        ran = one.fleet("sync", "--dir", folder, status=1)
        same(ran.told(), [f"sync: {folder}: {other}.for.{own}.piece: passed over: {code}"])
        same((f"{folder}: {third}: " in ran.out.decode(), f"{E}/2.service" in one.files(), len(one.files())), (True, False, 3))
    with open(at, "wb") as file:
        file.write(whole)
    with open(f"{folder}/{other}.digest", "wb") as file:
        file.write(digest[:30])
    ran = one.fleet("sync", "--dir", folder, status=1)
    same(ran.told(), [f"sync: {folder}: {other}.digest: passed over: Y1 Truncated"])
    same(f"{E}/2.service" in one.files(), True)
    same(f"{own}.for.{other}.piece" in os.listdir(folder), True)
    for it in (two, three, one, two, three):
        it.fleet("sync", "--dir", folder)
    same({it.identity() for it in (one, two, three)}, {one.identity()})


def two_of_a_number(bench):
    """Another node of the node's own number ends the sync before anything is taken or written; of two others of one number the one that was met
    is synced with, and of two strangers none."""
    (one, two), folder = nodes_of(bench, 2)
    twin = Node(bench.path("twin"), 1)
    twin.script(f"put here {E}/twin.service 1")
    two.fleet("sync", "--dir", folder)
    twin.fleet("sync", "--dir", folder)
    two.fleet("sync", "--dir", folder)
    before, held = found_in(folder), one.files()
    words = "X7 WriterTaken: two state files write under one number: make one of them anew under a free number, and remove its files"
    same(one.fleet("sync", "--dir", folder, status=1).told(), [f"sync: {folder}: {twin.name()}: {words}"])
    same(json.loads(one.fleet("sync", "--dir", folder, "--json", status=1).out)["refused"], "X7")
    same((found_in(folder), one.files()), (before, held))
    with open(f"{folder}/{one.name()}.digest", "wb") as file:
        file.write(before[f"{twin.name()}.digest"][0])
    ran = two.fleet("sync", "--dir", folder, status=1)
    same(ran.told(), sorted(f"sync: {folder}: {it.name()}: passed over: {words} ({other.name()})" for it, other in ((one, twin), (twin, one))))
    same([it for it in os.listdir(folder) if it.startswith(f"{two.name()}.for.")], [])
    meet(two, one)
    ran = two.fleet("sync", "--dir", folder, status=1)
    same(ran.told(), [f"sync: {folder}: {twin.name()}: passed over: {words} ({one.name()})"])
    same([it for it in os.listdir(folder) if it.startswith(f"{two.name()}.for.")], [f"{two.name()}.for.{one.name()}.piece"])


def meet(one, other):
    """An exchange of two nodes over pipes."""
    far = other.begin("exchange")
    near = subprocess.Popen([far.args[0], "exchange", one.file, "--call"], stdin=far.stdout, stdout=far.stdin)
    far.stdin.close()
    far.stdout.close()
    same((near.wait(), far.wait()), (0, 0))
    far.stderr.close()


def left_by_killed_runs(bench):
    """What a killed run of the node left half-written goes with the next one; what one that runs has begun, and that of others, stays."""
    (one,), folder = nodes_of(bench, 1)
    gone = subprocess.run(["sh", "-c", "echo $$"], capture_output=True, check=True).stdout.decode().strip()
    own = one.name()
    kept = [f".{own}.digest.{os.getpid()}-00000000", f".2-aaaaaaaa.digest.{gone}-00000000", f".{own}.digest.{gone}", f".{own}.x.{gone}-00000000"]
    for it in [*kept, f".{own}.digest.{gone}-00000000", f".{own}.for.2-aaaaaaaa.piece.{gone}-0123abcd"]:
        with open(f"{folder}/{it}", "wb") as file:
            file.write(b"half")
    one.fleet("sync", "--dir", folder)
    same(sorted(os.listdir(folder)), sorted([*kept, f"{own}.digest"]))
    with open(f"{folder}/{own}.for.2-aaaaaaaa.piece", "wb") as file:
        file.write(b"for one that has no digest")
    one.fleet("sync", "--dir", folder)
    same(f"{own}.for.2-aaaaaaaa.piece" in os.listdir(folder), False)


def killed_at_random(bench):
    """Nodes that sync by a folder are killed at any moment, while others look: no file there is ever half under its name, and nothing is lost."""
    maker, (nodes, folder) = random.Random(3), nodes_of(bench, 3)
    begun = time.monotonic()
    nodes[0].fleet("sync", "--dir", folder)
    longest, answered = time.monotonic() - begun, {}
    for number in range(15):
        node = maker.choice(nodes)
        place = f"{E}/{maker.randrange(8)}.service"
        version = node.fleet("put", place, given=b"%d %s" % (number, maker.randrange(20_000) * b"x")).lines()[0].split(" ")[1]
        answered[place] = max(answered.get(place, (0, 0)), tuple(map(int, version.split("."))))
        call = node.call("sync", "--dir", folder)
        time.sleep(maker.random() * longest)
        call.signal(signal.SIGKILL if number % 3 else signal.SIGTERM)
        same(call.ended().status in (0, -signal.SIGKILL, -signal.SIGTERM), True)
        wrong = [it for it, found in found_in(folder).items() if not it.startswith(".") and not is_whole(it, found[0])]
        same(wrong, [])
    for it in nodes * 3:
        it.fleet("sync", "--dir", folder)
    same({it.identity() for it in nodes}, {nodes[0].identity()})
    held = nodes[0].files()
    same({it: tuple(map(int, held[it][0].split("."))) for it in answered}, answered)
    same(sorted(os.listdir(folder)), sorted(f"{it.name()}.digest" for it in nodes))


def carried_apart(bench):
    """A folder is carried between machines by copies that come late, in part and in any order; in the end all hold the same."""
    maker, (nodes, _) = random.Random(8), nodes_of(bench, 4)
    folders = [bench.path(f"of-{it.writer}") for it in nodes]
    for it in folders:
        os.mkdir(it)
    for turn in range(20):
        at, to = maker.randrange(4), maker.randrange(4)
        if turn < 12:
            nodes[at].script(f"put here {E}/{maker.randrange(6)}.service {turn}")
        nodes[at].fleet("sync", "--dir", folders[at])
        # as rsync carries a node's own files, and deletes those that went
        own = nodes[at].name()
        for name in set(os.listdir(folders[at])) | set(os.listdir(folders[to])) if at != to else ():
            if name.startswith(own) and maker.random() < (0.5 if turn < 12 else 1):
                if os.path.exists(f"{folders[at]}/{name}"):
                    shutil.copyfile(f"{folders[at]}/{name}", f"{folders[to]}/{name}")
                else:
                    os.unlink(f"{folders[to]}/{name}")
    for _ in range(2):
        for at, node in enumerate(nodes):
            node.fleet("sync", "--dir", folders[at])
            for to in folders:
                for name in os.listdir(folders[at]):
                    if name.startswith(node.name()) and to != folders[at]:
                        shutil.copyfile(f"{folders[at]}/{name}", f"{to}/{name}")
    for at, node in enumerate(nodes):
        node.fleet("sync", "--dir", folders[at])
    same({it.identity() for it in nodes}, {nodes[0].identity()})


def folders_that_fail(bench):
    """A folder that isn't there, or is none, is told; where nothing can be written, what could be taken was."""
    (one, two), folder = nodes_of(bench, 2)
    same(one.fleet("sync", "--dir", bench.path("node-2"), status=1).told(), [f"sync: {bench.path('node-2')}: Not a directory"])
    one.fleet("sync", "--dir", folder)
    two.fleet("sync", "--dir", folder)
    os.unlink(f"{folder}/{one.name()}.digest")
    os.mkdir(f"{folder}/{one.name()}.digest")
    ran = one.fleet("sync", "--dir", folder, status=1)
    same((ran.out, len(ran.told()), ran.told()[0].endswith("; 1 place changed here before that")), (b"", 1, True), ran)
    same((f"{E}/2.service" in one.files(), [it for it in os.listdir(folder) if it.startswith(".")]), (True, []))


def a_disk_that_fills(bench):
    """Where a file can't be written to its end, that is told, and under its name stays what stood there, whole."""
    (one,), folder = nodes_of(bench, 1)
    one.fleet("sync", "--dir", folder)
    before = found_in(folder)
    one.script(*(f"put here {E}/a-{it:03}.service x" for it in range(300)))
    unbound = script_at(bench, "unbound", f'ulimit -S -f unlimited\nexec "{PROGRAM}" "$@"\n')
    ran = one.fleet("sync", "--dir", folder, most=4_096, env={"FLEET_NODE": unbound}, status=1)
    same((ran.out, ran.told()), (b"", [f"sync: {folder}: {one.name()}.digest: File too large"]))
    same(found_in(folder), before)
    one.fleet("sync", "--dir", folder)
    same(is_whole("x.digest", found_in(folder)[f"{one.name()}.digest"][0]), True)


CASES = [by_folder, foreign_files, damaged_files, two_of_a_number, left_by_killed_runs, killed_at_random, carried_apart, folders_that_fail,
         a_disk_that_fills]
