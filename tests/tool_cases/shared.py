"""What hosts share is given once and nothing changes for them; large fleets come in several scripts; links out of the load path are followed."""
import json
import os
import random
import re
import shutil
import subprocess

from fleet_tools.factors import factored
from fleet_tools.modes import through
from fleet_tools.places import Link as To
from fleet_tools.places import Place
from fleet_tools.progress import Progress
from fleet_tools.scripts import MOST_SCRIPT_BYTES, node_of
from fleet_tools.trees import Tree, read_tree

from .bench import TREES, E, Link, R, U, same
from .exported import modes_of
from .written import entries_of, script

DEBIAN, WEB1, BROKEN = (os.path.join(TREES, it) for it in ("debian", "web1", "broken"))


def what_is_shared(bench):
    """The fleet's becomes what at least half of the hosts have where none lacks it; others keep their own, and what isn't shared stays."""
    hosts = [bench.tree(name, entries) for name, entries in (
        ("one", {f"{E}/all": "1", f"{E}/most": "m", f"{E}/half": "h", f"{E}/few": "1", f"{E}/lacked": "l", f"{U}/l.service": Link("x.service")}),
        ("two", {f"{E}/all": "1", f"{E}/most": "m", f"{E}/half": "h", f"{E}/few": "2", f"{E}/lacked": "l", f"{U}/l.service": Link("x.service")}),
        ("three", {f"{E}/all": "1", f"{E}/most": "m", f"{E}/half": "3", f"{E}/few": "3", f"{E}/lacked": "l", f"{U}/l.service": Link("x.service")}),
        ("four", {f"{E}/all": "1", f"{E}/most": "4", f"{E}/half": "4", f"{E}/few": "4", f"{U}/l.service": Link("y.service")}),
    )]
    ran = bench.fleet("import", "--factor", *(f"h{at}={root}" for at, root in enumerate(hosts, 1)))
    # an alias doesn't hide another one at its place, so that l.service stays with all hosts
    same(ran.lines()[1:], [
        f"put tree {E}/all 1", f"put tree {E}/half h", f"put tree {E}/most m",
        *(f"{line} {text}" for it in (1, 2, 3) for line, text in (
            (f"put tree h{it}:{E}/few", it), *([(f"put tree h{it}:{E}/half", 3)] if it == 3 else []), (f"put tree h{it}:{E}/lacked", "l"),
            (f"link tree h{it}:{U}/l.service", "x.service"))),
        f"put tree h4:{E}/few 4", f"put tree h4:{E}/half 4", f"put tree h4:{E}/most 4", f"link tree h4:{U}/l.service y.service",
    ])
    same(ran.told(), ["what hosts share and the fleet has now: 3; what hosts have of their own: 14"])
    again = bench.fleet("import", "--factor", "--json", *(f"h{at}={root}" for at, root in enumerate(hosts, 1)))
    same([json.loads(it)["place"] for it in again.lines()], [it.split(" ")[2] for it in ran.lines()[1:]])
    same(bench.fleet("import", "--factor", f"h1={hosts[0]}", hosts[1], status=2).told()[-1],
         "import: --factor makes the fleet's tree of the hosts': give trees of hosts alone")
    one = bench.fleet("import", "--factor", f"h1={hosts[0]}")
    same(one.lines(), bench.fleet("import", f"h1={hosts[0]}").lines())


def the_narrowest_mode(bench):
    """What hosts share has in the table the mode that all of them allow."""
    roots = [bench.tree(it, {f"{E}/a": "A", f"{E}/b": "B"}) for it in ("one", "two")]
    os.chmod(f"{roots[1]}{E}/a", 0o600)
    bench.fleet("import", "--factor", f"h1={roots[0]}", f"h2={roots[1]}", "--modes", bench.path("modes"))
    with open(bench.path("modes"), encoding="ascii") as file:
        same(file.read().splitlines(), [f"0600 {E}/a", f"0644 {E}/b"])


def units_of(bench, stores, hosts, profiles):
    """What the program answers of all units and of the tree of each host by some profiles, a list for each of some lists of trees, without
    the hosts in front of places."""
    nodes = [f"n{at}" for at in range(len(stores))]
    lines = [it for at, trees in enumerate(stores) for it in node_of(nodes[at], trees, at)]
    asked = [f"{question} {node}@{host}".encode() for node in nodes for profile in profiles for host in hosts
             for question in (f"profile {profile}\nunits", "tree")]
    ran = subprocess.run([bench.program], input=b"\n".join([*lines, *asked]) + b"\n", stdout=subprocess.PIPE, check=True)
    answers = ran.stdout.split(b"\n", len(lines))[-1]
    for host in hosts:
        answers = answers.replace(f" {host}:/".encode(), b" /").replace(f"\n{host}:/".encode(), b"\n/")
    # each question by a profile begins with a line that says so
    parts = re.split(rb"(?m)^ok\n", answers)[1:]
    count = len(parts) // len(nodes)
    return [parts[at : at + count] for at in range(0, len(parts), count)]


def hosts_see_the_same(bench):
    """On real trees each host sees the same tree and the same units, whether what hosts share is the fleet's or not."""
    roots = {}
    for at, more in enumerate((WEB1, BROKEN, None)):
        roots[f"h{at}"] = bench.path(f"h{at}")
        shutil.copytree(DEBIAN, roots[f"h{at}"], symlinks=True)
        if more:
            subprocess.run(["cp", "-a", f"{more}/.", roots[f"h{at}"]], check=True)
    shutil.rmtree(f"{roots['h2']}{E}/service.d")
    words = [f"{host}={root}" for host, root in roots.items()]
    scripts = [bench.fleet("import", *words, *more).lines() for more in ([], ["--factor"])]
    same((2 * len(scripts[1]) < len(scripts[0]), sum(":" not in it.split(" ")[2] for it in scripts[1][1:]) > 60), (True, True))
    same([it for lines in scripts for it in lines if it.startswith("#")], ["# h2 has no place of its own"])
    for number, lines in enumerate(scripts):
        at = script(bench, "\n".join(lines) + "\n", f"script{number}")
        for host in roots:
            bench.fleet("export", at, "tree", bench.path(f"out{number}{host}"), "--host", host)
    for host in roots:
        same(entries_of(bench.path(f"out1{host}")), entries_of(bench.path(f"out0{host}")), host)
    trees = [read_tree(root, host, Progress()) for host, root in roots.items()]
    one, other = units_of(bench, [trees, factored(trees).trees], roots, ("files", "manager"))
    same((len(one), min(map(len, one)) > 20_000), (6, True))
    same(other, one)


def random_fleets(bench):
    """The same of random small trees, with drop-ins of one name in several folders, aliases, masks, templates, and files where links count."""
    chance = random.Random(6)
    folders = {"": ("a.service", "b.service", "t@.service", "t@i.service"), "a.service.d": ("1.conf", "2.conf"), "service.d": ("1.conf", "2.conf"),
               "b.service.d": ("1.conf",), "t@.service.d": ("1.conf",), "t@i.service.d": ("1.conf", "2.conf"),
               "a.service.wants": ("b.service", "t@i.service"), "b.service.wants": ("b.service", "t@i.service"),
               "t@.service.requires": ("a.service",), "t@i.service.requires": ("a.service",)}
    contents = (b"", b"[Unit]\nDescription=1\n", b"[Unit]\nDescription=2\nAfter=t@i.service\n", To("/dev/null"), To("a.service"), To("t@.service"),
                To("x"))
    places = [(rank, folder, name) for rank in (0, 3) for folder, names in folders.items() for name in names]
    stores = []
    for _ in range(30):
        usual = {it: chance.choice(contents) for it in places if chance.random() < 0.6}
        trees = []
        for host in ("p", "q", "r"):
            entries = {it: chance.choice(contents) if chance.random() < 0.15 else content for it, content in usual.items() if chance.random() > 0.02}
            trees.append(Tree("", host, {Place(host, *it): content for it, content in entries.items()}))
        stores += [trees, factored(trees).trees]
    found = units_of(bench, stores, "pqr", ("manager",))
    for at in range(0, len(found), 2):
        same(found[at + 1], found[at], f"turn {at // 2}: {stores[at]}")


def a_large_fleet(bench):
    """A fleet of 200 hosts whose script would be too large is told how it comes in, and does with what hosts share given once."""
    roots = [bench.tree("h000", {f"{U}/u{number}.service": f"[Unit]\nDescription={number}{'x' * 1_700}\n" for number in range(50)})]
    for number in range(1, 200):
        roots.append(bench.path(f"h{number:03}"))
        shutil.copytree(roots[0], roots[-1], copy_function=os.link)
    for root in roots[::7]:
        bench.tree(os.path.basename(root), {f"{E}/own.service": root})
    words = ["import", *(f"{os.path.basename(it)}={it}" for it in roots)]
    told = bench.fleet(*words, status=2).told()[-1]
    same((told.startswith("import: too large: the script has 17,"), told.endswith("`--split` writes several scripts")), (True, True), told)
    ran = bench.fleet(*words, "--factor")
    # the others are named as ones without a place
    same((len(ran.lines()), ran.told()), (1 + 50 + 29 + 171, ["what hosts share and the fleet has now: 50; what hosts have of their own: 29"]))
    # in several scripts, without what is shared
    ran = bench.fleet(*words, "--split", bench.path("parts"))
    names = sorted(os.listdir(bench.path("parts")))
    same((names, ran.lines()), (["001.script", "002.script"], [
        f"2 scripts in {bench.path('parts')}; to read them into a node's file: for it in {bench.path('parts')}/*.script; "
        'do fleet_node run FILE < "$it" || break; done']))
    texts = []
    for name in names:
        with open(bench.path(f"parts/{name}"), "rb") as file:
            texts.append(file.read())
    same([len(it) <= MOST_SCRIPT_BYTES for it in texts], [True, True])
    text = b"".join(texts)
    same((text.count(b"\n"), len(text) > MOST_SCRIPT_BYTES), (200 * 50 + 29, True))
    with open(bench.path("whole"), "wb") as file:
        file.write(b"node here 1\n" + b"\n".join(text.split(b"\n")[:3]) + b"\n")
    bench.fleet("export", bench.path("whole"), "here", bench.path("out"))
    same(sorted(entries_of(bench.path("out"))), sorted(f"/hosts/h000{it}" for it in (f"{E}/own.service", f"{U}/u0.service", f"{U}/u1.service")))


def split_scripts(bench):
    """Several scripts are written as a whole, for the node of a file; where not all may read a file, only their owner may read them."""
    root = bench.tree("one", {f"{E}/a": "A", f"{E}/l": Link("x")})
    out = bench.path("parts")
    same(bench.fleet("import", root, "--split", out, "--node", "a", status=2).told(),
         ["import: --split writes scripts for the node `here` of a file, which has a writer: leave --node and --writer out"])
    same(os.path.exists(out), False)
    bench.fleet("import", root, "--split", out, "--modes", bench.path("modes"))
    with open(f"{out}/001.script", encoding="ascii") as file:
        same(file.read().splitlines(), [f"put here {E}/a A", f"link here {E}/l x"])
    same((modes_of(out), os.path.exists(bench.path("modes"))), ({"/001.script": "0644"}, True))
    same(bench.fleet("import", root, "--split", out, status=2).told(), [f"import: {out}: neither new nor an empty folder"])
    os.chmod(f"{root}{E}/a", 0o640)
    ran = bench.fleet("import", root, "--split", bench.path("own"))
    same((modes_of(bench.path("own")), ran.told()), ({"/001.script": "0600"}, ["1 file that not all may read: only its owner may read the scripts"]))
    ran = bench.fleet("import", bench.tree("none", {f"{E}/x.d": None}), "--split", bench.path("empty"), "--json")
    same([json.loads(it) for it in ran.lines()], [{"scripts": 1, "folder": bench.path("empty")},
                                                  {"path": f"{E}/x.d", "told": "nothing to take", "why": "an empty folder", "host": ""}])
    same(modes_of(bench.path("empty")), {"/001.script": "0644"})


def links_are_followed(bench):
    """With --follow links out of the load path are taken as the files below the root to which they lead, and so are drop-ins that are links;
    aliases, masks and links in folders of links stay. How many is told."""
    store = "/nix/store/1-unit"
    root = bench.tree("nixos", {
        "/etc/systemd/system": Link("/etc/static/systemd/system"), "/etc/static/systemd/system": Link("/nix/store/0-units"),
        f"{store}-a/a.service": "A", f"{store}-a/a@.service": "T", f"{store}-a/over.conf": "O", f"{store}-a/private": "P",
        "/nix/store/0-units/a.service": Link(f"{store}-a/a.service"), "/nix/store/0-units/t@.service": Link("../1-unit-a/a@.service"),
        "/nix/store/0-units/alias.service": Link("a.service"), "/nix/store/0-units/full.service": Link("/etc/systemd/system/a.service"),
        "/nix/store/0-units/a.service.d/overrides.conf": Link(f"{store}-a/over.conf"), "/nix/store/0-units/b.service.d": Link("a.service.d"),
        "/nix/store/0-units/c.service": Link("/dev/null"), "/nix/store/0-units/a.service.d/zero.conf": Link("/dev/null"),
        "/nix/store/0-units/m.target.wants/a.service": Link("../a.service"),
        "/nix/store/0-units/m.target.wants/x.service": Link(f"{store}-a/a.service"),
        "/nix/store/0-units/gone.service": Link(f"{store}-b/gone.service"), "/nix/store/0-units/dir.service": Link(f"{store}-a"),
        "/nix/store/0-units/over.service": Link("/nix/big"), "/nix/big": b"x" * 65_537, "/nix/store/0-units/readme": Link(f"{store}-a/a.service"),
        "/nix/store/0-units/loop.service": Link("/loop/a"), "/loop": Link("/loop"),
        "/run/systemd/system/chain.service": Link("/one/two"), "/one": Link("/three"), "/three/two": Link("../four"), "/four": "F",
    })
    ran = bench.fleet("import", "--follow", root)
    lines = ran.lines()
    same(lines[1:], [
        f"put tree {E}/a.service A", f"link tree {E}/alias.service a.service", f"link tree {E}/c.service /dev/null",
        f"link tree {E}/full.service {E}/a.service",
        f"link tree {E}/gone.service {store}-b/gone.service", f"link tree {E}/loop.service /loop/a", f"link tree {E}/readme {store}-a/a.service",
        f"put tree {E}/t@.service T", f"put tree {E}/a.service.d/overrides.conf O", f"link tree {E}/a.service.d/zero.conf /dev/null",
        f"put tree {E}/b.service.d/overrides.conf O", f"link tree {E}/b.service.d/zero.conf /dev/null",
        *(f"put tree {E}/dir.service/{it}" for it in ("a.service A", "a@.service T", "over.conf O", "private P")),
        f"link tree {E}/m.target.wants/a.service ../a.service", f"link tree {E}/m.target.wants/x.service {store}-a/a.service",
        f"put tree {R}/chain.service F",
    ])
    same(ran.told(), [
        f"{E}/b.service.d: taken, but: a link to the folder /nix/store/0-units/a.service.d, which is read as if it stood here",
        f"{E}/dir.service: taken, but: a link to the folder {store}-a, which is read as if it stood here",
        *ran.told()[2:-2], f"{root}: 5 links are taken as the files to which they lead", ran.told()[-1],
    ])
    same(f"{E}/over.service: left out: over 65,536 bytes" in ran.told(), True)
    shown = bench.fleet("cat", root, "a", "--follow")
    same((shown.lines(), shown.told()[-1]), ([f"# {E}/a.service", "A", f"# {E}/a.service.d/overrides.conf", "O"],
                                             f"{root}: 5 links are taken as the files to which they lead"))


def linked_units(bench):
    """A unit that `systemctl link` linked is one by --follow; nothing outside of the root is taken, and who may read it is kept."""
    outside = bench.tree("outside", {"/u.service": "not the tree's"})
    root = bench.tree("a", {"/opt/app/app.service": "[Unit]\nDescription=app\n", f"{E}/app.service": Link("/opt/app/app.service"),
                            f"{E}/out.service": Link(f"{outside}/u.service"), f"{E}/up.service": Link("../" * 40 + outside[1:] + "/u.service"),
                            f"{U}/x.service.d/x.conf": Link(f"{outside}/u.service")})
    os.chmod(f"{root}/opt", 0o700)
    ran = bench.fleet("import", "--follow", root, "--modes", bench.path("modes"))
    same((ran.lines()[1:], b"not the tree's" in ran.out), ([
        f"put tree {E}/app.service [Unit]\\nDescription=app\\n", f"link tree {E}/out.service {outside}/u.service",
        f"link tree {E}/up.service {'../' * 40}{outside[1:]}/u.service",
    ], False))
    same(ran.told()[-3:], [f"{root}: 1 link is taken as the file to which it leads", f"{root}: 3 taken, 1 left out, 2 to be looked at",
                           "1 file that not all may read: keep the script so that only its owner may read it"])
    with open(bench.path("modes"), encoding="ascii") as file:
        same(file.read(), f"0600 {E}/app.service\n")
    same([through(it) for it in (0o755, 0o700, 0o750, 0o711, 0o705)], [0, 0o077, 0o007, 0, 0o070])
    same(bench.fleet("show", root, "app", "--follow").lines()[1], f"status loaded {E}/app.service")
    base = bench.tree("start", {f"{E}/app.service": "old"})
    same(bench.fleet("merge", "--follow", "--base", base, f"a={root}").lines()[0].split()[1:], ["2.1", "a", "file", "23"])


CASES = [what_is_shared, the_narrowest_mode, hosts_see_the_same, random_fleets, a_large_fleet, split_scripts, links_are_followed, linked_units]
