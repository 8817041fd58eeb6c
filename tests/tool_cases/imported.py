"""Trees are read as they are, and what isn't taken is told; nothing stops the rest."""
import os
import resource
import socket

from .bench import TREES, E, L, Link, R, U, same
from fleet_tools import files
from fleet_tools.progress import Progress
from fleet_tools.trees import read_tree

MOST_SECONDS = 2.0


def text_and_order(bench):
    """A tree gives its script, in the order of places, with texts spelled."""
    root = bench.tree("a", {
        f"{U}/b.service": "[Unit]\n\tDescription=\\a b\r\n", f"{U}/b.service.d/10.conf": b"\x00\xc3\xbf~", f"{U}/zz.service": " x",
        f"{E}/a.target.wants/b.service": Link("../b.service"), f"{E}/b.service": Link("/dev/null"), f"{R}/empty.service": "",
        f"{L}/@.x": "end\n", f"{E}/c.service": Link("/usr/lib/systemd/system/b.service"),
    })
    ran = bench.fleet("import", root)
    same(ran.lines(), [
        "node tree 1", f"link tree {E}/b.service /dev/null", f"link tree {E}/c.service {U}/b.service",
        f"link tree {E}/a.target.wants/b.service ../b.service", f"put tree {R}/empty.service", f"put tree {L}/@.x end\\n",
        f"put tree {U}/b.service [Unit]\\n\\tDescription=\\\\a b\\x0d\\n", f"put tree {U}/zz.service  x",
        f"put tree {U}/b.service.d/10.conf \\x00\\xc3\\xbf~",
    ])
    same(ran.err, b"")
    same(bench.fleet("import", root).out, ran.out)


def hosts_behind_the_fleet(bench):
    """Trees of hosts stand at places of theirs, behind the fleet's and in the order of their names, whatever the order of words."""
    one = bench.tree("one", {f"{E}/a.service": "1"})
    ran = bench.fleet("import", f"web2={one}", f"web-1.x={one}", one, "--node", "n7", "--writer", "9")
    same(ran.lines(), ["node n7 9", f"put n7 {E}/a.service 1", f"put n7 web-1.x:{E}/a.service 1", f"put n7 web2:{E}/a.service 1"])
    same(bench.fleet("import", one, one, status=2).told(), ["import: two trees for the whole fleet: `fleet merge` lets trees meet"])
    same(bench.fleet("import", f"w={one}", f"w={one}", status=2).told()[0][:36], "import: two trees for the host w: `f")
    same(bench.fleet("import", f"w_b={one}", status=2).told()[0][:21], "import: w_b: no host'")


def what_is_not_taken(bench):
    """What a store doesn't take is told, a line each with a count, and the rest is taken."""
    root = bench.tree("a", {
        f"{E}/a.service": "A", f"{E}/a b.service": "x", f"{E}/big.service": b"x" * 65_537, f"{E}/full.service": b"\xff" * 65_536,
        f"{E}/a.service.d/10.conf": Link("../other.conf"), f"{E}/a.service.d/20.conf": Link("/dev/null"), f"{E}/a.service.d/readme": Link("x"),
        f"{E}/a.service.d/deep/x.conf": "x", f"{E}/a.service.wants/s.service": Link("with space"), f"{E}/empty.wants": None,
        f"{E}/long.service": Link("y" * 4_095), f"{U}/t.service/x": "x", b"/etc/systemd/system/\xff\xfe.service": "x",
        f"{E}/b\nc.service": "x", f"{L}/{'n' * 247}.service": "N", f"{L}/{'f' * 255}/{'m' * 255}": "M",
        "/run/systemd/generator/m.mount": "[Mount]\n", "/lib/systemd/system/old.service": "x",
    })
    os.mkfifo(f"{root}{E}/pipe.service")
    with socket.socket(socket.AF_UNIX) as it:
        here = os.getcwd()
        os.chdir(f"{root}{E}")
        it.bind("socket.service")
        os.chdir(here)
    ran = bench.fleet("import", root)
    name, neither = "left out: its name isn't 1 to 255 bytes of printable ASCII without spaces", "left out: neither a file nor a link nor a folder"
    same(ran.told(), [
        f"{E}/a b.service: {name}", f"{E}/a.service.d/10.conf: left out: a drop-in that is a link, to ../other.conf",
        f"{E}/a.service.d/deep: left out: a folder in a folder",
        f"{E}/a.service.wants/s.service: left out: its target isn't 1 to 4,095 bytes of printable ASCII without spaces",
        f"{E}/b\\x0ac.service: {name}", f"{E}/big.service: left out: over 65,536 bytes",
        f"{E}/pipe.service: {neither}", f"{E}/socket.service: {neither}", f"{E}/\\xff\\xfe.service: {name}",
        f"{U}/t.service: taken, but: a folder where a unit's file is expected: what it holds is of no unit",
        "/run/systemd/generator: left out: units that generators made; 1 there",
        "/lib/systemd/system: left out: units of a system whose /lib isn't /usr/lib; 1 there",
        f"{E}/empty.wants: nothing to take: an empty folder",
        f"{root}: 8 taken, 11 left out, 1 to be looked at",
    ])
    same([it.split(" ")[2] for it in ran.lines()[1:]], [
        f"{E}/a.service", f"{E}/full.service", f"{E}/long.service", f"{E}/a.service.d/20.conf", f"{E}/a.service.d/readme",
        f"{L}/{'n' * 247}.service", f"{L}/{'f' * 255}/{'m' * 255}", f"{U}/t.service/x",
    ])
    same(len(ran.lines()[2]), len(f"put tree {E}/full.service ") + 4 * 65_536)


def links_that_lead_away(bench):
    """Links are followed inside of the tree alone: aliases keep their targets, folders are read, loops and ways out are told."""
    outside = bench.tree("outside", {"/b.service": "not the tree's", "/secret.d/x.conf": "not the tree's"})
    root = bench.tree("a", {
        f"{U}/a.service": "A", f"{E}/absolute.service": Link(f"{U}/a.service"), f"{E}/merged.service": Link("/lib/systemd/system/a.service"),
        "/lib": Link("usr/lib"), f"{E}/loop1.service": Link("loop2.service"), f"{E}/loop2.service": Link("loop1.service"),
        f"{E}/self.service": Link("self.service"), f"{E}/b.service": Link("/srv/b.service"), "/srv/b.service": "B",
        f"{E}/o.service": Link(f"{outside}/b.service"), f"{E}/up.service": Link("../" * 40 + outside[1:] + "/b.service"),
        f"{E}/a.service.d": Link("/usr/share/a.d"), "/usr/share/a.d/1.conf": "D", f"{E}/s.service.d": Link(f"{outside}/secret.d"),
        f"{E}/gone.service": Link("nothing.service"), f"{E}/w.wants": Link("w.wants"), f"{E}/x.service": Link("/etc/alternatives/x"),
        "/etc/alternatives/x": Link(f"{U}/a.service"),
    })
    away, loop = "where nothing is read", "taken, but: its way doesn't end: Too many levels of symbolic links"
    ran = bench.fleet("import", root)
    same(ran.told(), [
        f"{E}/a.service.d: taken, but: a link to the folder /usr/share/a.d, which is read as if it stood here",
        f"{E}/b.service: taken, but: it leads out of the load path, to /srv/b.service, {away}", f"{E}/loop1.service: {loop}",
        f"{E}/loop2.service: {loop}", f"{E}/o.service: taken, but: it leads out of the load path, to {outside}/b.service, {away}",
        f"{E}/self.service: {loop}", f"{E}/up.service: taken, but: it leads out of the load path, to {outside}/b.service, {away}",
        f"{E}/w.wants: {loop}", f"{E}/x.service: taken, but: it leads out of the load path, to /etc/alternatives/x, {away}",
        f"{root}: 14 taken, 9 to be looked at",
    ])
    same(ran.lines()[1:4], [f"link tree {E}/absolute.service {U}/a.service", f"link tree {E}/b.service /srv/b.service",
                            f"link tree {E}/gone.service nothing.service"])
    same(f"put tree {E}/a.service.d/1.conf D" in ran.lines(), True)
    same(b"not the tree's" in ran.out, False)


def links_to_what_others_have(bench):
    """A link to a directory that this tree lacks leads to where another tree, or the machine, has it: nothing is told."""
    root = bench.tree("a", {f"{E}/a.service": Link(f"{U}/b.service"), f"{E}/b.service": Link("/lib/systemd/system/c.service")})
    same(bench.fleet("import", root).err, b"")
    os.makedirs(f"{root}/lib")
    same(bench.fleet("import", root).told()[0],
         f"{E}/b.service: taken, but: it leads out of the load path, to /lib/systemd/system/c.service, where nothing is read")


def directories_that_are_one(bench):
    """A directory that stands under two names is read under the first, and one that is a link inside of the tree is read there."""
    root = bench.tree("a", {f"{U}/a.service": "A", "/usr/local/lib": Link("../lib"), "/etc": Link("/other"), "/other/systemd/system/b.service": "B"})
    ran = bench.fleet("import", root)
    same(ran.lines()[1:], [f"put tree {E}/b.service B", f"put tree {L}/a.service A"])
    same(ran.told()[0], f"{U}: left out: it is the same folder as {L}, and is read there")


def no_tree(bench):
    """What is no tree is refused with status 2, and nothing is written."""
    root = bench.tree("a", {"/etc/systemd/system": "a file", "/usr/x": "x"})
    ran = bench.fleet("import", root, status=2)
    same((ran.out, "none of /etc/systemd/system" in ran.told()[0], "Not a directory" in ran.told()[0]), (b"", True, True))
    same(bench.fleet("import", bench.path("nowhere"), status=2).told(), [f"import: {bench.path('nowhere')}: no folder"])
    one = bench.tree("b", {"/etc/systemd/system": "a file", f"{U}/a.service": "A"})
    ran = bench.fleet("import", one, status=1)
    same((ran.lines()[1:], ran.told()[0]), ([f"put tree {U}/a.service A"], f"{E}: can't be read: Not a directory"))


def read_by_nobody(root):
    """What is told of a tree, read by a user who isn't root and owns none of it."""
    reader, writer = os.pipe()
    child = os.fork()
    if child == 0:
        try:
            if os.getuid() == 0:
                os.setgroups([])
                os.setgid(65_534)
                os.setuid(65_534)
            tree = read_tree(root, "", Progress())
            os.write(writer, "\n".join([*map(str, tree.told), *map(str, sorted(tree.entries))]).encode())
        finally:
            os._exit(0)
    os.close(writer)
    with os.fdopen(reader) as file:
        text = file.read()
    os.waitpid(child, 0)
    return text.split("\n")


def no_right_to_read(bench):
    """A file and a folder without the right to read are told, and the rest is taken."""
    root = bench.tree("a", {f"{E}/a.service": "A", f"{E}/b.service": "B", f"{E}/c.service.d/1.conf": "C"})
    for at, mode in ((f"{root}{E}/b.service", 0), (f"{root}{E}/c.service.d", 0), (bench.room, 0o755), (os.path.dirname(bench.room), 0o755)):
        os.chmod(at, mode)
    try:
        found = read_by_nobody(root)
    finally:
        os.chmod(f"{root}{E}/c.service.d", 0o755)
    same(found, [f"{E}/b.service: can't be read: Permission denied", f"{E}/c.service.d: can't be read: Permission denied", f"{E}/a.service"])


def meanwhile(call, work):
    """A call of the system after which something else happens."""

    def both(*words, **more):
        found = call(*words, **more)
        work()
        return found

    return both


def files_that_change(bench):
    """A file that is another one at each look is told, and so is one that goes; one that changes once is read again."""
    root = bench.tree("a", {f"{E}/a.service": "A", f"{E}/z.service": "Z"})
    path, kept, grown = f"{root}{E}/a.service", files.os.read, []

    def grow():
        with open(path, "ab") as file:
            file.write(b"more")
        grown.append(1)

    def grow_once():
        if not grown:
            grow()

    def go():
        if os.path.exists(path):
            os.unlink(path)

    found = []
    for work in (grow, grow_once):
        grown.clear()
        files.os.read = meanwhile(kept, work)
        try:
            found.append(read_tree(root, "", Progress()))
        finally:
            files.os.read = kept
    scan, files.os.scandir = files.os.scandir, lambda at: Then(scan(at), go)
    try:
        found.append(read_tree(root, "", Progress()))
    finally:
        files.os.scandir = scan
    same([[*map(str, it.told)] for it in found], [[f"{E}/a.service: can't be read: it changes while it is read"], [],
                                                  [f"{E}/a.service: can't be read: No such file or directory"]])
    same([[place.name for place in it.entries] for it in found], [["z.service"], ["a.service", "z.service"], ["z.service"]])


class Then:
    """The entries of a folder, behind which something else happens."""

    def __init__(self, entries, work):
        self.entries, self.work = [*entries], work

    def __enter__(self):
        return self.entries

    def __exit__(self, *_):
        self.work()


def a_great_many(bench):
    """A hundred thousand files are all read; 20,000 in two seconds of the processor."""
    text = "[Unit]\nDescription=one of many\n[Service]\nType=simple\nExecStart=/bin/true\nRestart=always\n[Install]\nWantedBy=multi-user.target\n"
    ran = bench.fleet("import", bench.many("all", 100_000, "[Unit]\n"))
    lines = ran.lines()
    same((len(lines), lines[1].split(" ")[2], lines[-1].split(" ")[2], ran.err), (100_001, f"{U}/u00000.service", f"{U}/u99999.service", b""))
    some = bench.many("some", 20_000, text)
    before = resource.getrusage(resource.RUSAGE_CHILDREN)
    same(len(bench.fleet("import", some).lines()), 20_001)
    after = resource.getrusage(resource.RUSAGE_CHILDREN)
    spent = after.ru_utime + after.ru_stime - before.ru_utime - before.ru_stime
    same(spent <= MOST_SECONDS, True, f"{spent:.2f} seconds")


def progress_on_a_terminal(bench):
    """Where standard error is a terminal, a line there tells how far the reading is, and goes before anything else is told."""
    root = bench.many("a", 1_200, "[Unit]\n")
    os.makedirs(f"{root}{E}/a.wants")
    terminal, end = os.openpty()
    bench.fleet("import", root, stderr=end)
    os.close(end)
    shown = os.read(terminal, 100_000).decode()
    os.close(terminal)
    same((shown.startswith(f"\r\x1b[K{root}: 500 files and links"), f"\r\x1b[Kfleet: {E}/a.wants: nothing" in shown), (True, True), repr(shown))


def too_large(bench):
    """A tree whose script the program wouldn't read is refused, with its size; nothing is written."""
    root = bench.tree("a", {f"{U}/u{number}.service": b"\xff" * 65_536 for number in range(65)})
    ran = bench.fleet("import", root, status=2)
    size = len("node tree 1\n") + sum(len(f"put tree {U}/u{number}.service \n") + 4 * 65_536 for number in range(65))
    same((ran.out, ran.told()), (b"", [f"import: too large: the script has {size:,} bytes, and the program reads at most 16,777,216: "
                                            "`fleet import --factor` gives what hosts share once, `--split` writes several scripts"]))


def own_tree_is_whole(bench):
    """The tree of tests/trees is taken whole, and nothing is told of it."""
    root = os.path.join(TREES, "debian")
    ran = bench.fleet("import", root)
    held = sum(len(names) for at, _, names in os.walk(root) if "/systemd/" in at)
    held += sum(os.path.islink(f"{at}/{it}") for at, below, _ in os.walk(root) if "/systemd/" in at for it in below)
    same((len(ran.lines()) - 1, ran.err), (held, b""))


CASES = [text_and_order, hosts_behind_the_fleet, what_is_not_taken, links_that_lead_away, links_to_what_others_have, directories_that_are_one,
         no_tree, no_right_to_read, files_that_change, a_great_many, progress_on_a_terminal, too_large, own_tree_is_whole]
