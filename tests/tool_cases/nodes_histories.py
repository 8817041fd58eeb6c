"""What stands in the log is told, of a place or of a unit, and can be brought back; peers are told."""
import json
import re
import time

from .bench import E, L, R, U, same
from .nodes_bench import Node, program, ssh

STAMP = re.compile(r"[0-9]{4}-[0-9]{2}-[0-9]{2}T[0-9]{2}:[0-9]{2}:[0-9]{2}Z")


def without_times(ran):
    """The lines of a log without their times, which must be times."""
    rows = [it.partition(" ") for it in ran.lines()]
    same([it for it, _, _ in rows if not STAMP.fullmatch(it)], [])
    return [rest for _, _, rest in rows]


def logs(bench):
    """All edits that stand in the log come by time and version, with a star behind the one that stands at its place; those of a place alone."""
    node, other = Node(bench.path("a"), 2), Node(bench.path("b"), 10)
    a, b, begun = f"{E}/a.service", f"h:{E}/b.service", int(time.time())
    for it in (f"put here {a} 1", f"link here {b} x", f"put here {a} 22"):
        node.script(it)
    other.script(f"put here {a} 4444")
    time.sleep(1)
    # an edit that came later than its version would have it, and stands nowhere, is in the log of the other alone
    other.fleet("sync", "--ssh", "a", "--state-there", node.file, env=ssh(bench))
    same(without_times(other.fleet("log")), [f"1.10 {a} file 4", f"2.2 {b} link x *", f"3.2 {a} file 2 *"])
    node.script(f"remove here {b}")
    node.script(f"put here {a} 333")
    same(without_times(node.fleet("log")), [f"1.2 {a} file 1", f"2.2 {b} link x", f"3.2 {a} file 2", f"4.2 {b} gone *", f"5.2 {a} file 3 *"])
    same(without_times(node.fleet("log", a)), [f"1.2 {a} file 1", f"3.2 {a} file 2", f"5.2 {a} file 3 *"])
    same(without_times(node.fleet("log", b)), [f"2.2 {b} link x", f"4.2 {b} gone *"])
    told = STAMP.match(node.fleet("log").lines()[-1])[0]
    same(abs(time.mktime(time.strptime(told, "%Y-%m-%dT%H:%M:%SZ")) - time.timezone - begun) < 30, True)
    found = [json.loads(it) for it in node.fleet("log", b, "--json").lines()]
    same([{**it, "time": bool(STAMP.fullmatch(it["time"]))} for it in found], [
        {"time": True, "version": "2.2", "place": b, "link": "x", "stands": False},
        {"time": True, "version": "4.2", "place": b, "gone": True, "stands": True}])
    none = node.fleet("log", f"{R}/a.service")
    same((none.out, none.told()), (b"", [f"log: {R}/a.service: the log has no edit of it"]))


def in_order(bench):
    """Versions are in the order of numbers, not of letters; equal times too."""
    node = Node(bench.path("a"), 2)
    node.script(*(f"put here {E}/{it:02}.service x" for it in range(12, 0, -1)))
    same([it.split(" ")[0] for it in without_times(node.fleet("log"))], [f"{it}.2" for it in range(1, 13)])


def of_units(bench):
    """A unit's places are its files and its template's, its drop-ins, links that pull it in, and its own folders of such links, for all hosts."""
    of_web = [f"{E}/web@1.service", f"{E}/web@.service", f"h:{U}/web@.service", f"{R}/web@1.service.d/a.conf", f"h:{E}/web@.service.d/a.conf",
              f"{L}/service.d/all.conf", f"{E}/multi-user.target.wants/web@1.service", f"h:{E}/x.target.requires/web@.service",
              f"{E}/y.service.upholds/web@1.service", f"{E}/web@1.service.wants/z.socket", f"{E}/web@.service.requires/z.socket"]
    of_dashed = [f"{E}/a-b-c.service", f"{E}/a-b-.service.d/x.conf", f"{E}/a-.service.d/x.conf", f"{E}/a-b-c.service.d/x.conf"]
    others = [f"{E}/web@2.service", f"{E}/web.service", f"{E}/web@1.socket", f"{E}/web@2.service.d/a.conf", f"{E}/socket.d/a.conf",
              f"{E}/x.target.wants/web@2.service", f"{E}/x.target.after/web@1.service", f"{E}/web@2.service.wants/z.socket",
              f"{E}/b-.service.d/x.conf", f"{E}/a.service.d/x.conf", f"{E}/service.wants/q.service"]
    node = Node(bench.path("a"), 1)
    node.script(*(f"put here {it} x" for it in [*of_web, *of_dashed, *others]))

    def told(unit):
        return {it.split(" ")[1] for it in without_times(node.fleet("log", unit))}

    same(told("web@1"), set(of_web))
    same(told("web@1.service"), set(of_web))
    same(told("a-b-c"), {*of_dashed, f"{L}/service.d/all.conf"})
    same(told("web@.service"), {it for it in of_web if "web@1" not in it})
    same(told("x.target"), {f"h:{E}/x.target.requires/web@.service", f"{E}/x.target.wants/web@2.service"})


def reverts(bench):
    """What an edit put there is put there again, byte by byte, as an edit of its own; what stands there already is none."""
    node, place = Node(bench.path("a"), 1), f"h:{E}/a.service"
    content = bytes(range(256))
    node.fleet("put", place, given=content)
    node.fleet("link", place, "x.service")
    node.fleet("rm", place)
    same(node.fleet("revert", place, "1.1").lines(), [f"{place} 4.1 file 256"])
    same(node.text(place), content)
    same(node.fleet("revert", place, "4.1").lines(), [f"{place}: nothing changed"])
    same(node.fleet("revert", place, "2.1").lines(), [f"{place} 5.1 link x.service"])
    same(node.fleet("revert", place, "3.1").lines(), [f"{place} 6.1 gone"])
    same(node.fleet("revert", place, "3.1").lines(), [f"{place}: nothing changed"])
    same(node.files(), {place: ("6.1", "gone")})
    for version in ("7.1", "1.2", "0.1"):
        same(node.fleet("revert", place, version, status=1).told(),
             [f"revert: {place}: the log has no edit {version} of it; `fleet log {place}` tells which there are"])
    program("compact", node.file)
    same(node.fleet("revert", place, "1.1", status=1).out, b"")


def peers(bench):
    """The node itself comes first, then those that it met, with the time, and those of whom it was told."""
    one, two, three = (Node(bench.path(str(it)), it) for it in (1, 2, 3))
    around = ssh(bench)
    two.fleet("sync", "--ssh", "x", "--state-there", three.file, env=around)
    one.fleet("sync", "--ssh", "x", "--state-there", two.file, env=around)
    marks = {it.writer: program("peers", it.file).decode().split(" ")[1] for it in (one, two, three)}
    lines = one.fleet("peers").lines()
    same((lines[0], sorted(it.rpartition(" ")[0] for it in lines)),
         (f"1 {marks[1]} here", [f"{number} {mark}" for number, mark in sorted(marks.items())]))
    by_number = {it.split(" ")[0]: it.split(" ")[2] for it in lines}
    same((bool(STAMP.fullmatch(by_number["2"])), by_number["3"]), (True, "told"))
    found = {it["writer"]: it for it in map(json.loads, one.fleet("peers", "--json").lines())}
    same((found[1], found[3], bool(STAMP.fullmatch(found[2]["met"]))), ({"writer": 1, "mark": marks[1], "here": True},
                                                                       {"writer": 3, "mark": marks[3], "met": None}, True))


CASES = [logs, in_order, of_units, reverts, peers]
