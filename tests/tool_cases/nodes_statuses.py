"""`fleet status`: what a state file holds, whom it met, and what a machine's folder has otherwise."""
import json
import socket

from .bench import E, R, U, Link, same
from .nodes_bench import Node, ssh


def counted(bench):
    """Places of the fleet and of hosts, removals, peers and who was met last are told."""
    node, other = Node(bench.path("a"), 1), Node(bench.path("b"), 7)
    root = bench.tree("root", {"/etc/hostname": "web1\n"})
    same(node.fleet("status", "--root", root).lines(), [
        f"state {node.file}", "writer 1", f"identity {node.identity()}", "holds 0 places of the fleet, 0 of 0 hosts, 0 removals",
        "knows 0 peers, met none", f"web1 at {root}: nothing differs"])
    node.script(f"put here {E}/a x", f"put here {E}/b x", f"put here h1:{E}/a x", f"put here h1:{E}/b x", f"put here h2:{E}/a x", f"put here {E}/c x")
    node.script(f"remove here {E}/c", f"remove here h2:{E}/a")
    node.fleet("sync", "--ssh", "x", "--state-there", other.file, env=ssh(bench))
    met = node.fleet("peers").lines()[1].split(" ")[2]
    same(node.fleet("status", "--root", root, status=1).lines()[2:], [
        f"identity {node.identity()}", "holds 2 places of the fleet, 2 of 1 host, 2 removals", f"knows 1 peer, met 7 last, {met}",
        f"web1 at {root}: lacks 2 paths"])


def differing(bench):
    """What the folder lacks, has otherwise or still has though it was removed is counted and, if asked for, told path by path; links in the folder
    are taken as links."""
    node = Node(bench.path("a"), 1)
    node.script(*(f"put here {E}/{it} {it}" for it in ("same", "lacking", "other", "linked", "folder", "large", "x.d/same", "own")),
                f"link here {E}/link x", f"link here {E}/turned x", f"put here h1:{E}/own mine", f"put here h2:{E}/own theirs", f"put here {U}/lib x",
                f"put here {E}/gone x", f"put here h1:{E}/hidden x", f"put here {E}/hidden fleet", f"put here h2:{E}/foreign x",
                f"put here {R}/gone x")
    node.script(f"remove here {E}/gone", f"remove here h1:{E}/hidden", f"remove here h2:{E}/foreign", f"remove here {R}/gone")
    root = bench.tree("root", {
        f"{E}/same": "same", f"{E}/other": "otherwise", f"{E}/linked": Link("same"), f"{E}/folder/x": "", f"{E}/large": b"x" * 70_000,
        f"{E}/x.d/same": "x.d/same", f"{E}/own": "mine", f"{E}/link": Link("x"), f"{E}/turned": Link("y"), f"{E}/gone": "",
        f"{E}/hidden": "fleet", f"{E}/foreign": "", f"{R}/gone": "", f"{E}/unknown": "", "/etc/hostname": "# a name\n\n h1 more\nx\n"})
    ran = node.fleet("status", "--root", root, status=1)
    told = f"h1 at {root}: lacks 1 path, has 5 paths otherwise, still has 1 path that the state removed; 1 path of other directories left out"
    same(ran.lines()[-1], told)
    each = [f"otherwise: {E}/folder: a folder stands there", *(f"otherwise: {E}/{it}" for it in ("large", "linked", "other", "turned"))]
    lines = node.fleet("status", "--root", root, "--all", status=1).lines()
    same((lines[5], sorted(lines[6:])), (told, sorted([f"lacks: {E}/lacking", *each, f"removed: {E}/gone"])))
    lines = node.fleet("status", "--root", root, "--all", "--all-directories", status=1).lines()
    same(sorted(lines[6:]), sorted([f"lacks: {E}/lacking", f"lacks: {U}/lib", *each, f"removed: {E}/gone", f"removed: {R}/gone"]))
    lines = node.fleet("status", "--root", root, "--host", "h2", "--all", status=1).lines()
    same(sorted(lines[6:]), sorted([f"lacks: {E}/lacking", f"otherwise: {E}/own", *each, f"removed: {E}/gone", f"removed: {E}/foreign"]))
    lines = node.fleet("status", "--root", root, "--host", "unknown", "--all", status=1).lines()
    same(sorted(lines[6:]), sorted([f"lacks: {E}/lacking", f"otherwise: {E}/own", *each, f"removed: {E}/gone"]))
    head, *rows = [json.loads(it) for it in node.fleet("status", "--root", root, "--json", "--all", status=1).lines()]
    same([head[it] for it in ("places", "host_places", "hosts", "removals", "lacks", "otherwise", "removed", "left_out", "host", "met")],
         [12, 2, 2, 4, 1, 5, 1, 1, "h1", None])
    same((len(rows), rows[0]["path"].startswith(E)), (7, True))


def through_links(bench):
    """A folder that is a link is one through which `apply` writes nothing, so what it holds isn't looked at."""
    node = Node(bench.path("a"), 1)
    node.script(f"put here {E}/a x", f"put here {E}/out.d/a x")
    outside = bench.tree("outside", {"/a": "x", "/out/a": "x"})
    root = bench.tree("root", {f"{E}/a": "x", f"{E}/out.d": Link(f"{outside}/out")})
    same(node.fleet("status", "--root", root, "--host", "h", "--all", status=1).lines()[5:], [
        f"h at {root}: has 1 path otherwise", f"otherwise: {E}/out.d/a: {E}/out.d is a link, through which nothing is written"])
    root = bench.tree("loop", {"/etc/systemd/system": Link("/loop"), "/loop": Link("/loop")})
    same(node.fleet("status", "--root", root, "--host", "h", "--all", status=1).lines()[5:], [
        f"h at {root}: has 2 paths otherwise",
        *(f"otherwise: {E}/{it}: {E} is a link, through which nothing is written" for it in ("a", "out.d/a"))])


def hosts(bench):
    """The host is the one that is named, or that the root names, or, of /, this machine; a root that names none is compared with the fleet's."""
    node = Node(bench.path("a"), 1)
    root = bench.tree("root", {"/etc": None})
    same(node.fleet("status", "--root", root).lines()[-1], f"the fleet at {root}: nothing differs")
    with open(f"{root}/etc/hostname", "w", encoding="ascii") as file:
        file.write("a/b\n")
    told = "status: /etc/hostname: a/b: no host's name: 1 to 64 ASCII letters, digits, dashes and dots; --host names one"
    same(node.fleet("status", "--root", root, status=2).told(), [told])
    same(node.fleet("status", "--root", root, "--host", "h").lines()[-1], f"h at {root}: nothing differs")
    ran = node.fleet("status")
    try:
        with open("/etc/hostname", encoding="utf-8") as file:
            own = file.read().split()[0]
    except (FileNotFoundError, IndexError):
        own = socket.gethostname()
    same(ran.lines()[-1], f"{own} at /: nothing differs")


CASES = [counted, differing, through_links, hosts]
