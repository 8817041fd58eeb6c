"""Trees are written as nodes show them, and nodes that meet hold what the rules say."""
import os

from .bench import TREES, E, L, Link, R, U, same

WHY = "why: trees tell no times, and a counter counts its node's edits in the order of places: "
DEBIAN, WEB1 = (os.path.join(TREES, it) for it in ("debian", "web1"))


def script(bench, text, name="script"):
    """A script in a file."""
    with open(bench.path(name), "wb") as file:
        file.write(text if isinstance(text, bytes) else text.encode())
    return bench.path(name)


def entries_of(root):
    """All files and links below a folder, by their paths in it."""
    found = {}
    for at, folders, names in os.walk(root):
        for name in [*names, *(it for it in folders if os.path.islink(f"{at}/{it}"))]:
            path = f"{at}/{name}"
            if os.path.islink(path):
                found[path[len(root) :]] = Link(os.readlink(path))
            else:
                with open(path, "rb") as file:
                    found[path[len(root) :]] = file.read()
    return found


def there_and_back(bench):
    """What is written from a script of trees and read again gives the same script: the same places, contents and versions."""
    wanted = bench.fleet("import", DEBIAN, f"web1={WEB1}").out
    out = bench.path("out")
    ran = bench.fleet("export", script(bench, wanted), "tree", out)
    same(ran.lines(), [f"{wanted.count(10) - 1} files and links; to read them again: fleet import {out} web1={out}/hosts/web1"])
    again = bench.fleet("import", out, f"web1={out}/hosts/web1")
    same((again.out, again.err), (wanted, b""))


def every_byte(bench):
    """Files of all bytes come back as they were."""
    entries = {f"{E}/all.x": bytes(range(256)), f"{E}/empty.x": b"", f"{U}/d/end": b"end\r\nend\n", f"{U}/spaces": b"  a \\n \\\\x \\t\t ",
               f"{R}/last": b"\r", f"{U}/l": Link("../\\x2f%i"), f"{U}/m": Link("gone"), f"{U}/n": b"gone"}
    ran = bench.fleet("import", bench.tree("a", entries))
    bench.fleet("export", script(bench, ran.out), "tree", bench.path("out"))
    same(entries_of(bench.path("out")), entries)


def what_a_node_shows(bench):
    """Of a longer script a node's last state is written: no removed places, of each the version that stands; questions among its lines
    change nothing, whatever they print."""
    text = "\r\n".join([
        "# two nodes", "node a 1", "node b 2", f"put a {E}/x.service end\\nok 9.9\\n", "cat a x.service", "files a",
        f"text a {E}/x.service", "workers 2", "", "  ",
        f"put  b   {E}/x.service  two spaces \\x41", f"put b {U}/y.service Y", "show a x.service", f"put b {U}/z.service Z", "frob",
        f"put b {U}/w.service bad \\q", f"remove b {U}/z.service", "part p b a", "send p a", "crowd a 2 2", f"link a {E}/l.service  x.service ",
        f"put a web1:{E}/x.service W", "same a b", "plan a x.service", f"put b {U}/y.service only b's", "merge a b",
    ])
    at = script(bench, text + "\r\nput b /etc/systemd/system/cr.service A\r")
    bench.fleet("export", at, "a", bench.path("a"))
    wanted = {f"{E}/x.service": b" two spaces A", f"{U}/y.service": b"Y", f"{E}/l.service": Link("x.service"), f"/hosts/web1{E}/x.service": b"W"}
    same(entries_of(bench.path("a")), wanted)
    bench.fleet("export", at, "b", bench.path("b"))
    same(entries_of(bench.path("b")), {**wanted, f"{U}/y.service": b"only b's", f"{E}/cr.service": b"A\r"})
    bench.fleet("export", at, "a", bench.path("w"), "--host", "web1")
    same(entries_of(bench.path("w")), {f"{E}/x.service": b"W", f"{U}/y.service": b"Y", f"{E}/l.service": Link("x.service")})


def not_written(bench):
    """What can't be written is refused, and nothing is written through a link or out of the folder."""
    at = script(bench, f"node a 1\nput a {E}/x.service A\n")
    full = bench.tree("full", {"/x": "x"})
    ran = bench.fleet("export", at, "a", full, status=2)
    same((ran.told(), os.listdir(full)), ([f"export: {full}: neither new nor an empty folder"], ["x"]))
    same(bench.fleet("export", at, "a", f"{full}/x", status=2).told(), [f"export: {full}/x: neither new nor an empty folder"])
    same(bench.fleet("export", at, "n", bench.path("n"), status=1).told(), ["export: n: X3 UnknownNode"])
    none = bench.path("none")
    same(bench.fleet("export", none, "a", bench.path("n"), status=2).told(), [f"export: {none}: No such file or directory"])
    same(os.path.exists(bench.path("n")), False)
    os.makedirs(bench.path("outside"))
    both = script(bench, f"node a 1\nlink a {E}/x.service.d {bench.path('outside')}\nput a {E}/x.service.d/y.conf Y\nput a {E}/f F\n"
                  f"put a {E}/f/g G\nput a ..:{E}/h H\nput a {E}/z Z\n")
    ran = bench.fleet("export", both, "a", bench.path("out"), status=1)
    why = "not written: a file, a link or a folder can't have the name of another"
    same(ran.told(), [f"{E}/f/g: {why}", f"{E}/x.service.d/y.conf: {why}", f"..:{E}/h: {why}"])
    same(entries_of(bench.path("out")), {f"{E}/x.service.d": Link(bench.path("outside")), f"{E}/f": b"F", f"{E}/z": b"Z"})
    same((os.listdir(bench.path("outside")), sorted(os.listdir(bench.room))), ([], ["full", "out", "outside", "script"]))


def nodes_meet(bench):
    """Nodes that meet hold at each place the greatest version: the greater counter, and of equal ones the greater writer."""
    one = bench.tree("one", {f"{E}/a": "1", f"{E}/b": "same", f"{E}/c": "1", f"{U}/only": Link("x")})
    two = bench.tree("two", {f"{E}/a": "22", f"{E}/b": "same", f"{L}/x": "", f"{U}/only": "two"})
    three = bench.tree("three", {f"{E}/c": "333"})
    # counters go by the order of places: a 1, b 2, c 3, only 4; a 1, b 2, x 3, only 4; c 1
    rows = [(f"{E}/a", "1.2 two file 2"), (f"{E}/b", "2.2 two file 4"), (f"{E}/c", "3.1 node1 file 1"), (f"{L}/x", "3.2 two file 0"),
            (f"{U}/only", "4.2 two file 3")]
    same(bench.fleet("merge", one, f"two={two}", three, status=1).lines(), [
        *(f"{place:{len(L) + 2}} {what}" for place, what in rows), f"differed: {E}/a: two's 1.2 stands, over node1's 1.1",
        f"differed: {E}/c: node1's 3.1 stands, over node3's 1.3", f"differed: {U}/only: two's 4.2 stands, over node1's 4.1",
        f"{WHY}at 1 the node stands that edited more places before; at 2 counters are equal, and the node stands that is named later",
        "5 places, at 3 of which nodes differed",
    ])
    text = bench.fleet("merge", "--script", one, f"two={two}", three).out
    bench.fleet("export", script(bench, text), "node3", bench.path("out"))
    same(entries_of(bench.path("out")), {f"{E}/a": b"22", f"{E}/b": b"same", f"{E}/c": b"1", f"{L}/x": b"", f"{U}/only": b"two"})
    same(bench.fleet("merge", one).lines()[-1], "4 places, at 0 of which nodes differed")


def nodes_with_a_base(bench):
    """With a tree that all held before, nodes edit what theirs have otherwise: what one alone changed stands, removals too, and only where two
    changed a place did they differ."""
    base = bench.tree("start", {f"{E}/a": "a", f"{E}/b": "b", f"{E}/c": "c", f"{E}/d": "d"})
    one = bench.tree("one", {f"{E}/a": "a", f"{E}/b": "one", f"{E}/d": "one", f"{E}/n": "new"})
    two = bench.tree("two", {f"{E}/a": "two", f"{E}/b": "b", f"{E}/c": "c", f"{E}/n": Link("new")})
    # the base's counters are 1 to 4; then one: b 5, c gone 6, d 7, n 8; and two: a 5, d gone 6, n 7
    same(bench.fleet("merge", "--base", base, f"one={one}", f"two={two}", status=1).lines(), [
        f"{E}/a 5.2 two file 3", f"{E}/b 5.1 one file 3", f"{E}/c 6.1 one gone", f"{E}/d 7.1 one file 3", f"{E}/n 8.1 one file 3",
        f"differed: {E}/d: one's 7.1 stands, over two's 6.2", f"differed: {E}/n: one's 8.1 stands, over two's 7.2",
        f"{WHY}at 2 the node stands that edited more places before", "5 places, at 2 of which nodes differed",
    ])
    same(bench.fleet("merge", "--base", base, f"base={one}", status=2).told(), ["merge: base: two nodes of this name"])


CASES = [there_and_back, every_byte, what_a_node_shows, not_written, nodes_meet, nodes_with_a_base]
