"""Pictures show each unit once, below all for which it waits, with arrows that all point down, and what is at fault."""
import json
import os
import re
import shutil
import subprocess
import xml.etree.ElementTree as xml

import unit_model as model

from repository import ROOT

from .bench import TREES, U, same
from .profiled import SMALL
from .told import FILES, HEADS, store_of

DEBIAN, BROKEN = (os.path.join(TREES, it) for it in ("debian", "broken"))
SVG = "{http://www.w3.org/2000/svg}"


def boxes_of(text):
    """The boxes of an SVG: of each name its class, and where it stands, as left, top, right and bottom."""
    found = {}
    for group in xml.fromstring(text).iter(f"{SVG}g"):
        rect, name = group.find(f"{SVG}rect"), group.find(f"{SVG}text")
        if rect is not None:
            x, y, wide, tall = (float(rect.get(it)) for it in ("x", "y", "width", "height"))
            found[name.text] = group.get("class"), (x, y, x + wide, y + tall)
    return found


def lines_of(text):
    """How many lines of each class an SVG has, without those of its legend."""
    counts = {}
    for group in xml.fromstring(text).iter(f"{SVG}g"):
        for path in group.findall(f"{SVG}path"):
            sort = path.get("class").split(" ")[0]
            counts[sort] = counts.get(sort, 0) + 1
    return counts


def ends_of(text):
    """The lines of an SVG, without those of its legend: rows of class, and of the units at both ends."""
    return [(path.get("class").split(" ")[0], path.get("data-from"), path.get("data-to")) for group in xml.fromstring(text).iter(f"{SVG}g")
            for path in group.findall(f"{SVG}path")]


def look(text):
    """That no two boxes of an SVG meet, that all lie on it, that names fit into them, that lines lead down, and that it is no wider than a
    screen; the boxes."""
    page, boxes = xml.fromstring(text), boxes_of(text)
    wide, tall = float(page.get("width")), float(page.get("height"))
    same(wide <= 1920, True, f"{wide} wide")
    spots = sorted((spot, name) for name, (_, spot) in boxes.items())
    for at, ((left, top, right, bottom), name) in enumerate(spots):
        same((left >= 0, top >= 60, right <= wide, bottom <= tall, right - left >= 7.2 * len(name)), (True,) * 5, name)
        for (other_left, other_top, _, other_bottom), other in spots[at + 1 :]:
            same(other_left >= right or other_top >= bottom or other_bottom <= top, True, f"{name} and {other} meet")
    for sort, one, other in ends_of(text):
        same(sort in ("waited", "conflict") or "waited" in lines_of(text) or boxes[one][1][3] < boxes[other][1][1], True, f"{sort} {one} {other}")
    return boxes


def rows_of(boxes):
    """The names of boxes by their row of the picture, from above."""
    rows = {}
    for name, (_, spot) in boxes.items():
        rows.setdefault(spot[1], []).append(name)
    return [sorted(rows[it]) for it in sorted(rows)]


def steps(bench):
    """A plan of five units, worked by hand: a requirement, wishes, an order alone, and what stops; an arrow that follows from others is left
    out, but for --all-edges."""
    root = bench.tree("a", {
        f"{U}/t.target": "[Unit]\nRequires=a.service\nWants=b.service c.service\nAfter=a.service c.service\n",
        f"{U}/a.service": "[Unit]\nAfter=b.service\n",
        f"{U}/b.service": "[Unit]\nConflicts=old.service\n", f"{U}/c.service": "[Unit]\n", f"{U}/old.service": "[Unit]\n",
    })
    words = ["draw", root, "t.target", "old.service", *FILES]
    text = bench.fleet(*words).out.decode()
    boxes = look(text)
    same({name: sort for name, (sort, _) in boxes.items()},
         {"old.service": "stops", "a.service": "starts", "b.service": "starts", "c.service": "starts", "t.target": "asked"})
    same(rows_of(boxes), [["old.service"], ["b.service", "c.service"], ["a.service"], ["t.target"]])
    drawn = [("needs", "a.service", "t.target"), ("wishes", "c.service", "t.target"), ("order", "b.service", "a.service"),
             ("conflict", "old.service", "b.service")]
    same(sorted(ends_of(text)), sorted(drawn))
    # that the target wishes for b follows, for the picture, from a, which waits for b; the hint has it
    same(sorted(ends_of(bench.fleet(*words, "--all-edges").out.decode())), sorted([*drawn, ("wishes", "b.service", "t.target")]))
    same("t.target\nrequires: a.service\nwishes for: b.service c.service</title>" in text, True)
    same(bench.fleet(*words, "--dot").lines(), [
        "digraph plan {", '  label="t.target: 4 to start, 1 to stop (profile files)";', "  rankdir=TB;", "  node [shape=box, fontname=monospace];",
        '  "old.service" [label="old.service", color=red, fontcolor=red];', '  { rank=same; "old.service"; }',
        '  "b.service" [label="b.service"];', '  "c.service" [label="c.service"];', '  { rank=same; "b.service"; "c.service"; }',
        '  "a.service" [label="a.service"];', '  { rank=same; "a.service"; }', '  "t.target" [label="t.target", penwidth=2];',
        '  { rank=same; "t.target"; }', '  "a.service" -> "t.target" [color="#2c4a68", tooltip="t.target requires a.service"];',
        '  "c.service" -> "t.target" [color="#5f8f5a", style=dashed, tooltip="t.target wishes for c.service"];',
        '  "b.service" -> "a.service" [color="#9aa6b2", style=dotted, tooltip="b.service starts before a.service"];',
        '  "old.service" -> "b.service" [color=red, dir=none, tooltip="old.service conflicts with b.service"];', "}",
    ])
    found = [json.loads(it) for it in bench.fleet(*words, "--json").lines()]
    same([(it["from"], it["to"], it["unit"], it["tie"], it["other"]) for it in found if "tie" in it][:2],
         [("a.service", "t.target", "t.target", "requires", "a.service"), ("c.service", "t.target", "t.target", "wishes for", "c.service")])
    same([(it["unit"], it["is"], it["row"]) for it in found if "row" in it][:2], [("old.service", "stops", 0), ("b.service", "starts", 1)])


def against_the_order(bench):
    """What starts before a unit that it requires stands above it all the same, and instances that the question alone names are drawn."""
    root = bench.tree("a", {f"{U}/a@.service": "[Unit]\nRequires=b@%i.service\nBefore=b@%i.service\n", f"{U}/b@.service": "[Unit]\n"})
    text = bench.fleet("draw", root, "a@1", *FILES).out.decode()
    same((rows_of(look(text)), ends_of(text)), ([["a@1.service"], ["b@1.service"]], [("needs", "a@1.service", "b@1.service")]))
    same('"a@1.service requires b@1.service"' in bench.fleet("draw", root, "a@1", "--dot", *FILES).out.decode(), True)


def triggers(bench):
    """A plan by manager, worked by hand: what triggers another unit has a line to it, a slice has those of what requires it."""
    root = bench.tree("a", {**SMALL, f"{U}/t.target": "[Unit]\nWants=a.service a.socket\n"})
    text = bench.fleet("draw", root, "t.target").out.decode()
    same(rows_of(look(text)), [["b.service", "own.slice", "sysinit.target"], ["a.socket"], ["a.service"], ["t.target"]])
    # sysinit.target leads to the service over its socket, and all to the target over the service
    same(sorted(ends_of(text)), [("needs", "own.slice", "a.service"), ("needs", "sysinit.target", "a.socket"), ("triggers", "a.socket", "a.service"),
                                 ("wishes", "a.service", "t.target"), ("wishes", "b.service", "a.service")])
    all_edges = bench.fleet("draw", root, "t.target", "--all-edges").out.decode()
    same(lines_of(all_edges), {"needs": 3, "wishes": 3, "triggers": 1})
    same("t.target: 6 to start (profile manager)" in text, True)
    dot = bench.fleet("draw", root, "t.target", "--dot").lines()
    same([it for it in dot if "triggers" in it],
        ['  "a.socket" -> "a.service" [color="#8a5aa8", style=dashed, tooltip="a.socket triggers a.service"];'])


def behind_all(bench):
    """In the pictures of a tree and of 250 units each unit stands below all for which it waits; what is drawn leads from each to all others to
    which all lines lead, and no line follows from others."""
    text = "[Unit]\nWants=u{0:03}.service\nAfter=u{0:03}.service u{1:03}.service\n"
    entries = {f"{U}/u{number:03}.service": text.format(number // 3, number * 7 // 11) for number in range(249)}
    wants = " ".join(f"u{it:03}.service" for it in range(249))
    many = bench.tree("many", {**entries, f"{U}/t.target": f"[Unit]\nDefaultDependencies=no\nWants={wants}\nAfter={wants}\n"})
    for root, target, profile, count in ((DEBIAN, "multi-user.target", "files", 38), (DEBIAN, "multi-user.target", "manager", None),
                                         (many, "t.target", "files", 250)):
        drawn = bench.fleet("draw", root, target, "--profile", profile).out.decode()
        boxes = look(drawn)
        head, *plan = bench.fleet("plan", root, target, "--profile", profile).lines()
        plan = [it.partition(" ")[2] for it in plan]
        same((sorted(boxes), len(boxes), head), (sorted(plan), count or len(plan), HEADS[profile]))
        graph = model.asked_graph(store_of(root), None, [target], profile)
        for name in plan:
            same([it for it in graph.to(["After"], name) if it in boxes and boxes[it][1][3] >= boxes[name][1][1]], [], name)
        pairs, every = (ways_of(ends_of(it)) for it in (drawn, bench.fleet("draw", root, target, "--all-edges", "--profile", profile).out.decode()))
        same((leading(pairs), [it for it in pairs if it in leading(pairs - {it})]), (leading(every), []), f"{target} {profile}")


def ways_of(ends):
    """The pairs of units that lines join."""
    return {(one, other) for _, one, other in ends}


def leading(pairs):
    """All pairs of units of which the one leads to the other."""
    after = {}
    for one, other in pairs:
        after.setdefault(one, set()).add(other)

    def reached(name):
        found, waiting = set(), [name]
        while waiting:
            new = after.get(waiting.pop(), set()) - found
            found |= new
            waiting += new
        return found

    return {(one, other) for one in after for other in reached(one)}


def faults(bench):
    """Where there is no plan, what is at fault is drawn: a cycle as a ring, a conflict with the ways that lead to it. Status 1."""
    cycle = bench.fleet("draw", BROKEN, "multi-user.target", *FILES, status=1).out.decode()
    same({name: sort for name, (sort, _) in look(cycle).items()}, {f"{it}.service": "faulty" for it in ("first", "second", "third")})
    same(lines_of(cycle), {"waited": 3, "needs": 1, "wishes": 1})
    conflict = bench.fleet("draw", BROKEN, "both.target", "--output", bench.path("both.svg"), *FILES, status=1)
    with open(bench.path("both.svg"), encoding="utf-8") as file:
        text = file.read()
    same((conflict.out, {name: sort for name, (sort, _) in look(text).items()}),
         (b"", {"both.target": "asked", "day.service": "faulty", "night.service": "faulty"}))
    same(sorted(ends_of(text)), [("conflict", "day.service", "night.service"), ("needs", "day.service", "both.target"),
                                 ("needs", "night.service", "both.target")])
    for name, boxes, lines in (
        ("lacks", {"lacks.service": "asked", "gone.service": "faulty"}, {"needs": 1}), ("kind", {"kind.service": "faulty"}, {}),
        ("escape@.service", {"escape@.service": "faulty"}, {}),
    ):
        text = bench.fleet("draw", BROKEN, name, *FILES, status=1).out.decode()
        same(({it: sort for it, (sort, _) in look(text).items()}, lines_of(text)), (boxes, lines), name)
    # by manager the way to what most units require
    ran = bench.fleet("draw", BROKEN, "multi-user.target", status=1)
    same({it: sort for it, (sort, _) in look(ran.out.decode()).items()},
         {"multi-user.target": "asked", "first.service": "starts", "sysinit.target": "faulty"})
    same("multi-user.target: no plan: P2 NotFound sysinit.target: it has no file (profile manager)" in ran.out.decode(), True)
    same(ran.told()[-1].startswith("plan of multi-user.target (profile manager): P2 NotFound sysinit.target: it has no file; "), True)
    text = bench.fleet("draw", DEBIAN, "example-broker", status=1).out.decode()
    same((rows_of(look(text)), ends_of(text)),
         ([["dbus.service"], ["example-broker.service"]], [("requisite", "dbus.service", "example-broker.service")]))


def rings(bench):
    """Cycles of any length stand in a ring, apart from each other."""
    for count in (2, 3, 4, 9, 40):
        names = [f"unit-with-a-name-that-is-long-{number:02}.service" for number in range(count)]
        before = zip(names, [names[-1], *names])
        root = bench.tree(f"ring{count}", {f"{U}/{name}": f"[Unit]\nRequires={other}\nAfter={other}\n" for name, other in before})
        text = bench.fleet("draw", root, names[0], *FILES, status=1).out.decode()
        same((sorted(look(text)), lines_of(text)), (names, {"waited": count, "needs": count}))


def spelled(bench):
    """Names of any bytes stand in a picture as text."""
    root = bench.tree("a", {f"{U}/a\\x2d&.service": "x", f"{U}/a\\x2db.service": "[Unit]\nDescription=<&>\n"})
    text = bench.fleet("draw", root, "a\\x2db.service", *FILES).out.decode()
    same((list(boxes_of(text)), re.findall("<title>.*</title>", text)), (["a\\x2db.service"], ["<title>a\\x2db.service</title>"]))
    same(list(boxes_of(bench.fleet("draw", root, "a<&b", status=1).out.decode())), ["a<&b.service"])
    same('"a\\\\x2db.service"' in bench.fleet("draw", root, "a\\x2db.service", "--dot", *FILES).out.decode(), True)


def searched(bench):
    """A picture has a field to search, buttons to zoom and a script of its own, and takes nothing from elsewhere; with --plain it has none, and
    is else the same. The script is one that a browser reads, where `node` is there."""
    live, plain = (bench.fleet("draw", DEBIAN, "app-wiki.service", *more).out.decode() for more in ((), ("--plain",)))
    page, bare = xml.fromstring(live), xml.fromstring(plain)
    same([len([*it.iter(f"{SVG}{tag}")]) for it in (page, bare) for tag in ("script", "foreignObject")], [1, 1, 0, 0])
    ids = {it.get("id") for it in page.iter() if it.get("id")}
    same({"bar", "search", "told", "more", "less", "fit"} <= ids, True)
    script = page.find(f"{SVG}script").text
    same(sorted(set(re.findall(r'getElementById\("(\w+)"\)', script)) - ids), [])
    same(re.findall(r'(?:href|src|url)="?\(?(?!#)[^ ]+', live), [])
    same((boxes_of(live), ends_of(live)), (boxes_of(plain), ends_of(plain)))
    if shutil.which("node"):
        with open(bench.path("picture.js"), "w", encoding="utf-8") as file:
            file.write(script)
        same(subprocess.run(["node", "--check", bench.path("picture.js")], stderr=subprocess.PIPE, check=False).stderr, b"")


def front(bench):
    """The picture of README.md is what the tool draws."""
    with open(os.path.join(ROOT, "docs", "plan.svg"), "rb") as picture:
        same(bench.fleet("draw", DEBIAN, "app-wiki.service", "--plain").out, picture.read())


def asked_once(bench):
    """A picture takes one run of the program, and one more where the question alone names an instance."""
    program, count = bench.counting()
    for words in ((DEBIAN, "multi-user.target"), (BROKEN, "multi-user.target"), (BROKEN, "both.target", *FILES)):
        bench.fleet("draw", *words, env={"FLEET_SHELL": program}, status=int(words[0] == BROKEN))
    with open(count, encoding="utf-8") as file:
        same(file.read(), "run\n" * 3)


CASES = [steps, against_the_order, triggers, behind_all, faults, rings, spelled, searched, front, asked_once]
