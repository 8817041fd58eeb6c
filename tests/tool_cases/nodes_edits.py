"""Edits of a state file: what is told of them is what stands in the file, and what is refused changes nothing."""
import json
import os
import random

from .bench import E, R, U, same
from .nodes_bench import Held, Node, counting, fleet, program, script_at, until_lines

UNIT = b"[Unit]\nDescription=web\n"


def made(bench):
    """A state file that `init` makes; under the number that was asked for, or one of its own."""
    at = bench.path("var/lib/fleet/node")
    same(fleet("init", "--state", at, "--writer", "7").lines(), [f"{at}: writer 7"])
    same(fleet("init", "--state", at, status=1).told(), [f"init: {at}: Z1 Exists: something stands there already"])
    told = [json.loads(fleet("init", "--state", bench.path(str(it)), "--json").out) for it in range(2)]
    same(len({it["writer"] for it in told}), 2)
    for number, it in enumerate(told):
        same(program("peers", bench.path(str(number))).split(b" ")[0], str(it["writer"]).encode())
    for env in ({"FLEET_STATE": at}, {"STATE_DIRECTORY": f"{os.path.dirname(at)}:/elsewhere"}):
        same(fleet("peers", env=env).lines()[0].startswith("7 "), True)
    same(fleet("peers", "--state", bench.path("none"), status=2).told(),
         [f"peers: {bench.path('none')}: no state file: `fleet init` makes one, --state FILE names another"])


def edits(bench):
    """put, link, rm and mask tell the version and what stands there now; what changes nothing is no edit."""
    node = Node(bench.path("a"), 3)
    with open(bench.path("unit"), "wb") as file:
        file.write(UNIT)
    web, wants = f"{E}/web.service", f"{E}/multi-user.target.wants/web.service"
    same(node.fleet("put", web, bench.path("unit")).lines(), [f"{web} 1.3 file 23"])
    same(node.fleet("put", f"web1:{web}", "-", given=b"").lines(), [f"web1:{web} 2.3 file 0"])
    same(node.fleet("link", wants, "../web.service").lines(), [f"{wants} 3.3 link ../web.service"])
    same(node.fleet("mask", "cups").lines(), [f"{E}/cups.service 4.3 link /dev/null"])
    same(node.fleet("mask", "cups.socket", "--host", "web1").lines(), [f"web1:{E}/cups.socket 5.3 link /dev/null"])
    held, identity = node.files(), node.identity()
    same(node.fleet("put", web, given=UNIT).lines(), [f"{web}: nothing changed"])
    same(node.fleet("link", wants, "../web.service").lines(), [f"{wants}: nothing changed"])
    same(node.fleet("mask", "cups").lines(), [f"{E}/cups.service: nothing changed"])
    same((node.files(), node.identity()), (held, identity))
    same(node.fleet("put", web, given=UNIT[:-1]).lines(), [f"{web} 6.3 file 22"])
    same(node.fleet("rm", web, f"web1:{web}").lines(), [f"{web} 7.3 gone", f"web1:{web} 8.3 gone"])
    same(node.files(), {web: ("7.3", "gone"), f"{E}/cups.service": ("4.3", "link /dev/null"), wants: ("3.3", "link ../web.service"),
                        f"web1:{E}/cups.socket": ("5.3", "link /dev/null"), f"web1:{web}": ("8.3", "gone")})


def objects_of_edits(bench):
    """With --json an edit is an object, and so is a refusal."""
    node = Node(bench.path("a"), 1)
    place = f"{E}/a.service"
    rows = [node.fleet("put", place, "--json", given=b"A"), node.fleet("put", place, "--json", given=b"A"), node.fleet("link", place, "b", "--json"),
            node.fleet("rm", place, place, "--json", status=1)]
    same([json.loads(it) for ran in rows for it in ran.lines()], [
        {"place": place, "version": "1.1", "file": 1}, {"place": place, "unchanged": True}, {"place": place, "version": "2.1", "link": "b"},
        {"place": place, "version": "3.1", "gone": True},
        {"of": place, "refused": "E2", "name": "Nothing", "told": [], "words": "E2 Nothing: nothing stands there"}])


def bytes_of_files(bench):
    """A file stands there byte by byte as it was given: any bytes, without a last line feed, with carriage returns, as long as may be."""
    node = Node(bench.path("a"), 1)
    contents = bytes(range(256)), b"\r\n", b"\\n \\x41\\", b"# x\nend\n", b" ", b"x" * 65_536, bytes(65_536), b"\xff" * 65_536
    for number, content in enumerate(contents):
        place = f"{E}/{number}.service"
        node.fleet("put", place, given=content)
        same(node.text(place), content)
        same(node.fleet("put", place, given=content).lines(), [f"{place}: nothing changed"])


def refused_edits(bench):
    """What is refused is told by its place, code and name, and changes nothing."""
    node = Node(bench.path("a"), 1)
    node.fleet("put", f"{E}/a.service", given=b"A")
    held = node.files()
    for words, given, told in (
            (["put", "/etc/a.service"], b"A", "/etc/a.service: F1 Directory"), (["put", f"{E}/a/b/c"], b"A", f"{E}/a/b/c: F2 Depth"),
            (["put", f"{E}/.."], b"A", f"{E}/..: F3 Component"), (["link", f"h_1:{E}/a", "x"], b"", f"h_1:{E}/a: H1 HostName"),
            (["put", f"{E}/a.service"], b"x" * 65_537, f"{E}/a.service: C1 FileTooLarge"),
            (["put", f"{E}/new"], b"\xff" * 300_000, f"{E}/new: C1 FileTooLarge"),
            (["link", f"{E}/a.service", "x" * 4_096], b"", f"{E}/a.service: C2 BadLink"), (["rm", f"{E}/b"], b"", f"{E}/b: E2 Nothing"),
            (["rm", f"{R}/a.service"], b"", f"{R}/a.service: E2 Nothing"), (["edit", f"{E}/{'x' * 256}"], b"", f"{E}/{'x' * 256}: F3 Component")):
        ran = node.fleet(*words, given=given, status=1)
        same((ran.out, len(ran.told()), ran.told()[0].startswith(f"{words[0]}: {told}: ")), (b"", 1, True), ran)
    for words in (["put", f"{E}/a b"], ["put", ""], ["rm", f"{E}/a.service\r"], ["rm", f"{E}/a\nremove here {E}/a.service"], ["put", f"{E}/\xe9"],
                  ["link", f"{E}/a", "x y"], ["link", f"{E}/a", ""], ["mask", "a b"], ["mask", "a", "--host", "h:"], ["revert", f"{E}/a", "1"]):
        same(node.fleet(*words, given=b"A", status=2).out, b"")
    same(node.fleet("mask", "no!unit", status=1).told(), ["mask: no!unit.service: no unit's name, so nothing has to be masked"])
    same(node.fleet("put", f"{E}/a.service", bench.path("none"), status=2).told(), [f"put: {bench.path('none')}: No such file or directory"])
    same(node.files(), held)


def removals_are_one_script(bench):
    """All places of `rm` are one run of the program, and one that is refused stops no other."""
    node = Node(bench.path("a"), 1)
    places = [f"{E}/{it}" for it in "abc"]
    node.script(*(f"put here {it} x" for it in places))
    around, runs = counting(bench)
    ran = node.fleet("rm", places[0], f"{E}/none", places[1], "/x", places[2], env=around, status=1)
    same(ran.lines(), [f"{places[0]} 4.1 gone", f"{places[1]} 5.1 gone", f"{places[2]} 6.1 gone"])
    same([it.partition(": F1")[0] for it in ran.told()], [f"rm: {E}/none: E2 Nothing: nothing stands there", "rm: /x"])
    with open(runs, encoding="ascii") as file:
        same(file.read().split(), ["run"])


def other_files(bench):
    """What is no state file, and a program that isn't there or fails, is told in a line."""
    for name, text, told in (("empty", b"", "Z2 NotANode: no state file"), ("text", b"x" * 5_000, "Z")):
        with open(bench.path(name), "wb") as file:
            file.write(text)
        ran = fleet("put", f"{E}/a", "--state", bench.path(name), given=b"A", status=1)
        same((ran.out, len(ran.told()), ran.told()[0].startswith(f"put: {bench.path(name)}: {told}")), (b"", 1, True), ran)
    node = Node(bench.path("a"), 1)
    none = bench.path("none")
    same(node.fleet("log", env={"FLEET_NODE": none}, status=2).told(), [f"log: FLEET_NODE={none}: no file that can be run"])
    for text, told in (("kill -9 $$\n", "fleet_node ended with signal 9"), ("printf 'fleet: \\033x\\n' >&2\nexit 1\n", "\\x1bx"),
                       ("exit 3\n", "fleet_node ended with status 3")):
        same(node.fleet("log", env={"FLEET_NODE": script_at(bench, "other", text)}, status=1).told(), [f"log: {node.file}: {told}"])
    for verb in ("log", "peers"):
        ran = node.fleet(verb, env={"FLEET_NODE": script_at(bench, "other", "echo what")}, status=2)
        same(ran.told()[0].startswith(f"{verb}: the program told `what` of its "), True, ran)


def waits_where_busy(bench):
    """While another process has the file, a verb waits some seconds, and then it is refused and nothing was done."""
    node, place = Node(bench.path("a"), 1), f"{E}/a"
    around, runs = counting(bench)
    with Held(node) as held:
        call = node.call("put", place, given=b"A", env=around)
        until_lines(runs, 2)
        held.free()
        same(call.ended().lines(), [f"{place} 1.1 file 1"])
    with Held(node):
        same(node.fleet("rm", place, status=1).told(), [f"rm: {node.file}: Z4 Busy: another process has it open"])
    same(node.files(), {place: ("1.1", "file 1")})


def random_edits(bench):
    """Random edits by the verbs: what is told, held and logged is what a list of edits comes to."""
    maker, node, now, log = random.Random(5), Node(bench.path("a"), 9), {}, []
    places = [f"{host}{E}/{name}" for host in ("", "h:") for name in ("a.service", "b.service", "a.service.d/x.conf")] + [f"{U}/a.service"]
    for _ in range(60):
        place, words = maker.choice(places), maker.choice(["file 0", "file 3", "link x", "link y/z", "gone", "gone"])
        kind, _, told = words.partition(" ")
        given = b"x" * int(told) if kind == "file" else b""
        call = {"file": ["put", place], "link": ["link", place, told], "gone": ["rm", place]}[kind]
        before = now.get(place, ("", "gone"))
        is_refused = kind == "gone" and before[1] == "gone"
        ran = node.fleet(*call, given=given, status=1 if is_refused else 0)
        if is_refused or before[1] == words:
            same(ran.lines(), [] if is_refused else [f"{place}: nothing changed"])
            continue
        version = f"{len(log) + 1}.9"
        same(ran.lines(), [f"{place} {version} {words}"])
        now[place] = version, words
        log.append((version, place, words))
    same(node.files(), now)
    stands = {(version, place) for place, (version, _) in now.items()}
    same([it.split(" ", 1)[1] for it in node.fleet("log").lines()],
         [f"{version} {place} {words}{' *' if (version, place) in stands else ''}" for version, place, words in log])


CASES = [made, edits, objects_of_edits, bytes_of_files, refused_edits, removals_are_one_script, other_files, waits_where_busy, random_edits]
