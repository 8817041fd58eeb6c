"""What `fleet diff` and `fleet show --where` tell: every difference of units and of files that no unit reads, for each host, and which file said
what."""
import json
import os

from .bench import E, L, Link, R, U, same
from .profiled import EARLY
from .told import FILES, HEADS, SERVICE


def over_all_hosts(bench):
    """Two fleets are compared for the fleet and for each host of either; on the side without its tree a host has none of its own files."""
    old = bench.tree("old", {f"{U}/a.service": "[Unit]\nDescription=old\n", f"{U}/b.service": "[Unit]\nDescription=b\n"})
    new = bench.tree("new", {f"{U}/a.service": "[Unit]\nDescription=new\n", f"{U}/b.service": "[Unit]\nDescription=b\n"})
    one = bench.tree("one", {f"{E}/a.service": "[Unit]\nDescription=own\n"})
    two = bench.tree("two", {f"{E}/b.service": "[Unit]\nDescription=own\n"})
    words = ["diff", old, new, "--with", f"one={one}", "--other-with", f"one={one}", "--other-with", f"two={two}", *FILES]
    changed = ["a.service", "  - Unit.Description: old", "  + Unit.Description: new"]
    own = ["b.service", f"  - status: loaded {U}/b.service", f"  + status: loaded two:{E}/b.service", "  - Unit.Description: b",
        "  + Unit.Description: own"]
    same(bench.fleet(*words, status=1).lines(), [HEADS["files"], "# for the fleet and two", *changed, "# for two", *own])
    same(bench.fleet(*words, "--host", "one").out, b"")
    same(bench.fleet(*words, "--host", "two", status=1).lines(), [HEADS["files"], *changed, *own])
    found = [json.loads(it) for it in bench.fleet(*words, "--json", status=1).lines()]
    same(found[0], {"at": "a.service", "field": "Unit.Description", "before": ["old"], "after": ["new"], "hosts": ["", "two"]})
    same([(it["field"], it["hosts"]) for it in found], [("Unit.Description", ["", "two"]), ("status", ["two"]), ("Unit.Description", ["two"])])
    same(bench.fleet("diff", f"one={one}", f"two={two}", *FILES, status=1).lines()[1:3], ["a.service", f"  - status: loaded {E}/a.service"])


def two_hosts(bench):
    """Two hosts of one fleet are compared, and their places without their names; it is one question."""
    fleet = bench.tree("fleet", {f"{U}/a.service": "[Unit]\nDescription=all\n[Service]\nNice=1\n"})
    one = bench.tree("one", {f"{E}/a.service.d/x.conf": "[Service]\nNice=2\n"})
    two = bench.tree("two", {f"{E}/a.service.d/x.conf": "[Service]\nNice=3\n", f"{E}/b.service": ""})
    program, count = bench.counting()
    words = ["diff", fleet, "--with", f"a={one}", "--with", f"b={two}", *FILES]
    ran = bench.fleet(*words, "--hosts", "a", "b", status=1, env={"FLEET_SHELL": program})
    same(ran.lines(), [HEADS["files"], "a.service", "  - Service.Nice: 2", "  + Service.Nice: 3", "b.service", "  + status: masked",
        "  + names: b.service"])
    with open(count, encoding="utf-8") as file:
        same(file.read(), "run\n")
    same(bench.fleet(*words, "--hosts", "a", "b", "--where", status=1).lines()[2:4],
         [f"  - Service.Nice: 2  (a:{E}/a.service.d/x.conf:2)", f"  + Service.Nice: 3  (b:{E}/a.service.d/x.conf:2)"])
    same(bench.fleet(*words, "--hosts", "a", "a").out, b"")
    for more, told in (([], "diff: without --hosts it compares two trees, and one is named"),
                       (["--hosts", "a", "b", "--host", "a"],
                       "diff: --hosts compares two hosts of one tree, which --with gives: it goes with no other tree and no --host")):
        same(bench.fleet(*words, *more, status=2).told(), [told])


def no_false_equal(bench):
    """Trees that differ in what no unit reads differ: a template without instances, a drop-in of no unit, what a store doesn't take, what can't be
    read. What is hidden, a comment, and what is of no unit make no difference."""
    base = {f"{U}/a.service": "[Unit]\n", f"{U}/t@.service": "[Service]\nExecStart=/a %i\n", f"{E}/a.service": "[Unit]\n", f"{E}/read.me": "1"}
    one = bench.tree("one", base)

    def told(name, entries, status=1):
        ran = bench.fleet("diff", one, bench.tree(name, {**base, **entries}), *FILES, status=status)
        return ran.lines()[1:]

    same(told("template", {f"{U}/t@.service": "[Service]\nExecStart=/b %i\n"}),
         [f"{U}/t@.service (which no unit reads)", "  - Service.ExecStart: /a %i", "  + Service.ExecStart: /b %i"])
    same(told("mask", {f"{E}/t@.service": ""}), [
        f"{E}/t@.service (which no unit reads)", "  + file: empty", f"{U}/t@.service (which no unit reads)", "  - Service.ExecStart: /a %i"])
    # a template that is the same on both sides, and of which the one has an instance
    same([it for it in told("wanted", {f"{E}/a.service.wants/t@1.service": Link("../t@.service")}) if "reads" in it], [])
    same(told("alias", {f"{E}/s@.service": Link("t@.service")}), [f"{E}/s@.service (which no unit reads)", "  + link: t@.service"])
    same(told("dropin", {f"{E}/none.service.d/x.conf": "[Unit]\nA=b\n"}), [f"{E}/none.service.d/x.conf (which no unit reads)", "  + Unit.A: b"])
    same(told("linked", {f"{E}/a.service.d/x.conf": Link("../y.conf")}),
         [f"{E}/a.service.d/x.conf", "  + left out: a drop-in that is a link, to ../y.conf"])
    same(told("same", {f"{U}/a.service": "[Unit]\nHidden=1\n", f"{U}/t@.service": "# a\n[Service]\n\nExecStart = /a %i\n", f"{E}/read.me": "2"},
        status=0), [])
    lost = {**base, R: Link("/nowhere/../run/systemd/system")}
    both = [bench.tree(it, lost) for it in ("lost", "too")]
    ran = bench.fleet("diff", *both, *FILES, status=1)
    same((ran.out, ran.told()[-1]), (b"", f"{R}: can't be read: Too many levels of symbolic links: it isn't known whether it differs"))


def where(bench):
    """With --where each value and each dependency is told with what says it, worked by hand: own files by order, resets, links, other units'
    files, the manager; and what a specifier stands for."""
    root = bench.tree("a", {
        **EARLY, f"{U}/x@.service": "[Unit]\nDescription=of %i\nAfter=o.service\nWants=p-%i.service\n[Service]\nExecStart=/1\nExecStart=/2\nNice=1\n",
        f"{E}/x@7.service.d/a.conf": "[Service]\nExecStart=\nExecStart=/3\n", f"{L}/x@.service.d/b.conf": "[Service]\nNice=2\nSlice=own.slice\n",
        f"{U}/o.service": "[Unit]\nBefore=other.target\n", f"{U}/other.target": "[Unit]\nRequires=x@7.service\n",
        f"{E}/x@7.service.wants/q.service": Link("../q.service"), f"{E}/o.service.requires/x@7.service": Link("../x@.service"),
    })
    template, own, slice_of = f"{U}/x@.service", f"{E}/x@7.service.d/a.conf", f"{L}/x@.service.d/b.conf"
    rows = [
        ("Unit.Description=of 7", f"{template}:2"), ("Service.ExecStart=/3", f"{own}:3"), ("Service.Nice=1", f"{template}:8"),
        ("Service.Nice=2", f"{slice_of}:2"), ("Service.Slice=own.slice", f"{slice_of}:3"), ("After: o.service", f"{template}:3"),
        ("Wants: p-7.service", f"{template}:4"), ("Wants: q.service", f"{E}/x@7.service.wants/q.service"),
        ("RequiredBy: o.service", f"{E}/o.service.requires/x@7.service"), ("RequiredBy: other.target", f"{U}/other.target:2"),
    ]
    head = ["unit x@7.service", f"status loaded {template}", "names x@7.service", f"dropin {own}", f"dropin {slice_of}"]
    same(bench.fleet("show", root, "x@7", "--where").lines(), [*head, *(f"{what}  ({place})" for what, place in rows)])
    found = bench.fleet("show", root, "x@7", "--where", "--profile", "manager").lines()
    same([it for it in found if it.startswith(("Requires", "InSlice", "Before: other", "Conflicts"))], [
        f"Before: other.target  ({U}/other.target:2)", f"Requires: own.slice  ({slice_of}:3)", "Requires: sysinit.target  (the manager)",
        "Conflicts: shutdown.target  (the manager)", f"InSlice: own.slice  ({slice_of}:3)"])
    unit = json.loads(bench.fleet("show", root, "x@7", "--where", "--json").out)
    same((unit["where"]["values"]["Service.Nice"], unit["where"]["edges"]["Wants"]), ([f"{template}:8", f"{slice_of}:2"], [rows[6][1], rows[7][1]]))


def several(bench):
    """Several units are shown one after another in one run, with an empty line between them; a refused one is told, and the others shown."""
    root = bench.tree("a", {f"{U}/a.service": "[Unit]\nDescription=A\n", f"{U}/b.service": SERVICE})
    program, count = bench.counting()
    ran = bench.fleet("show", root, "a", "b", "a", env={"FLEET_SHELL": program})
    one = ["unit a.service", f"status loaded {U}/a.service", "names a.service", "Unit.Description=A"]
    same(ran.lines(), [*one, "", "unit b.service", f"status loaded {U}/b.service", "names b.service", "Service.ExecStart=/x", "", *one])
    with open(count, encoding="utf-8") as file:
        same(file.read(), "run\n")
    ran = bench.fleet("show", root, "t@.service", "a", status=1)
    same((ran.lines()[1:], ran.told()), (one, ["show of t@.service: P1 Template: a template: ask for an instance of it"]))


def as_json(bench):
    """Every verb prints JSON, an object a line, with the status that it has without."""
    root = bench.tree("a", {f"{U}/a.service": "[Unit]\nWants=b.service\nDescription=\xfc\n" + SERVICE, f"{U}/b.service": SERVICE,
                            f"{E}/bad.service.d/x.conf": Link("y")})
    with open(bench.path("a/usr/lib/systemd/system/a.service"), "ab") as file:
        file.write(b"[X-Own]\nBytes=\xff\n")

    def objects(*words, status=0):
        return [json.loads(it) for it in bench.fleet(*words, "--json", status=status).lines()]

    unit, = objects("show", root, "a")
    same((unit["unit"], unit["status"], unit["told"], unit["values"]["Unit.Description"], unit["edges"]),
         ("a.service", "loaded", f"{U}/a.service", ["\xfc"], {"Wants": ["b.service"]}))
    same(unit["values"].get("X-Own.Bytes"), None)
    same(objects("list", root, "a"), [{"distance": 0, "unit": "a.service"}, {"distance": 1, "unit": "b.service"}])
    same(objects("plan", root, "a", *FILES), [{"do": "start", "unit": it, "profile": "files"} for it in ("a.service", "b.service")])
    same(objects("plan", root, "gone", *FILES, status=1)[0]["refused"], "P2")
    same(objects("cat", root, "b"), [{"line": it} for it in (f"# {U}/b.service", "[Service]", "ExecStart=/x")])
    same(objects("import", root), [{"place": f"{U}/a.service", "file": os.path.getsize(f"{root}{U}/a.service")}, {"place": f"{U}/b.service",
        "file": len(SERVICE)},
                                   {"path": f"{E}/bad.service.d/x.conf", "told": "left out", "why": "a drop-in that is a link, to y", "host": ""}])
    same(objects("merge", f"one={root}")[1], {"place": f"{U}/b.service", "version": "2.1", "node": "one", "file": len(SERVICE), "over": []})
    with open(bench.path("script"), "w", encoding="utf-8") as file:
        file.write(f"node n 1\nput n {U}/a.service A\n")
    same(objects("export", bench.path("script"), "n", bench.path("out")), [{"written": 1, "blocked": [], "crossed": [], "hosts": []}])
    same(objects("draw", root, "a", *FILES)[1:], [{"unit": "a.service", "is": "asked", "row": 2}, {"unit": "b.service", "is": "starts", "row": 1},
         {"from": "b.service", "to": "a.service", "unit": "a.service", "tie": "wishes for", "other": "b.service"}])
    same(objects("diff", root, root, *FILES), [])


CASES = [over_all_hosts, two_hosts, no_false_equal, where, several, as_json]
