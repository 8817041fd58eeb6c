"""A state file stands for trees: what is asked of it is what is asked of folders with the same files."""
from .bench import E, U, Link, same
from .nodes_bench import Node, fleet

FLEET = {f"{U}/a.service": "[Unit]\nDescription=fleet\n[Service]\nExecStart=/bin/a\n", f"{E}/m.target": "[Unit]\nWants=a.service\n",
         f"{E}/alias.service": Link("a.service"), f"{U}/bytes.service": bytes(range(1, 256))}
WEB1 = {f"{E}/a.service.d/web.conf": "[Unit]\nDescription=web1\n", f"{E}/m.target": "[Unit]\nWants=b.service\n"}


def same_as_folders(bench):
    """show, cat, list, plan, check, diff, draw and import tell of a state file what they tell of its trees, for the fleet and for hosts."""
    base, web1 = bench.tree("base", FLEET), bench.tree("web1", WEB1)
    node, around = Node(bench.path("state"), 1), {"FLEET_SHELL": bench.program}
    for host, tree in (("", FLEET), ("web1:", WEB1)):
        for path, content in tree.items():
            if isinstance(content, Link):
                node.fleet("link", host + path, content.target)
            else:
                node.fleet("put", host + path, given=content if isinstance(content, bytes) else content.encode())
    node.script(f"put here {E}/gone.service x")
    node.script(f"remove here {E}/gone.service", f"put here web2:{E}/gone.service x")
    node.script(f"remove here web2:{E}/gone.service")
    for words in (["show", "a", "--host", "web1"], ["show", "alias"], ["cat", "bytes"], ["list", "m.target", "--host", "web1"], ["plan", "m.target"],
                  ["draw", "m.target", "--dot"], ["check", "m.target"], ["check", "m.target", "--host", "web1"]):
        verb, unit, *more = words
        folders = fleet(verb, base, unit, "--with", f"web1={web1}", *more, env=around, status=None)
        state = fleet(verb, node.file, unit, *more, env=around, status=None)
        same((state.out, state.status), (folders.out, folders.status), words)
        same(state.status in (0, 1) and bool(state.out), True, state)
    same(fleet("import", node.file).out, fleet("import", base, f"web1={web1}").out)
    same(fleet("diff", node.file, base, "--other-with", f"web1={web1}", env=around).out, b"")
    same(fleet("diff", node.file, base, env=around, status=1).lines()[0].startswith("# profile manager"), True)


def wrong_roots(bench):
    """A state file is of no host; one that can't be read, and a file that is none, are told."""
    node, around = Node(bench.path("state"), 1), {"FLEET_SHELL": bench.program}
    node.script(f"put here {E}/a.service x")
    told = f"show: web1={node.file}: a state file, which has the places of the fleet and of its hosts: name it alone, and --host HOST asks for a host"
    same(fleet("show", f"web1={node.file}", "a", env=around, status=2).told(), [told])
    same(fleet("import", node.file, bench.tree("tree", FLEET), status=2).told(),
         ["import: two trees for the whole fleet: `fleet merge` lets trees meet"])
    with open(bench.path("other"), "wb") as file:
        file.write(b"SQLite format 3\0" + bytes(5_000))
    same(fleet("import", bench.path("other"), status=1).told()[0].startswith(f"import: {bench.path('other')}: Z"), True)
    with open(bench.path("text"), "wb") as file:
        file.write(b"SQLite")
    same(fleet("import", bench.path("text"), status=2).told(), [f"import: {bench.path('text')}: no folder"])


CASES = [same_as_folders, wrong_roots]
