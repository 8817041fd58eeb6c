"""Nodes that meet: where they differed the status says so, what each had is shown, and a choice is an edit on top."""
import json

from fleet_tools.joins import NoJoin, joined

from .bench import E, L, Link, U, same
from .written import WHY, entries_of, script

LATER = "counters are equal, and the node stands that is named later"
MORE = "the node stands that edited more places before"


def three_trees(bench):
    """A base, and two trees that changed one file in other lines, one in the same line, and one into a link."""
    text = "[Service]\nA=1\nB=2\n\nC=3\n"
    base = bench.tree("start", {f"{E}/a": text, f"{E}/b": text, f"{E}/c": text, f"{E}/d": "d"})
    one = bench.tree("one", {f"{E}/a": text.replace("A=1", "A=one"), f"{E}/b": text.replace("C=3", "C=one"), f"{E}/c": Link("x")})
    two = bench.tree("two", {f"{E}/a": text.replace("B=2", "B=two"), f"{E}/b": text.replace("C=3", "C=two"), f"{E}/c": "", f"{E}/d": "d"})
    return base, f"one={one}", f"two={two}"


def differing_is_a_status(bench):
    """Status 1 where nodes differed, 0 where none did; equal counters and unequal ones are explained in one line."""
    one, two = bench.tree("one", {f"{E}/a": "1", f"{E}/b": "1"}), bench.tree("two", {f"{E}/b": "2"})
    # one's counters are a 1, b 2; two's is b 1, though it was written as late as anything
    lines = [f"{E}/a 1.1 one file 1", f"{E}/b 2.1 one file 1", f"differed: {E}/b: one's 2.1 stands, over two's 1.2", f"{WHY}at 1 {MORE}",
             "2 places, at 1 of which nodes differed"]
    same(bench.fleet("merge", f"one={one}", f"two={two}", status=1).lines(), lines)
    same(bench.fleet("merge", f"one={one}", f"two={one}").lines(),
         [f"{E}/a 1.2 two file 1", f"{E}/b 2.2 two file 1", "2 places, at 0 of which nodes differed"])


def contents_are_shown(bench):
    """What each node has where they differed, below the line that says so: files line by line, spelled as in scripts, links, removals."""
    base = bench.tree("start", {f"{E}/{it}": "x\n" for it in "abc"})
    one = bench.tree("one", {f"{E}/a": "1\n\n\té\\\nend", f"{E}/b": Link("/dev/null"), f"{E}/c": "x\n"})
    two = bench.tree("two", {f"{E}/a": "", f"{E}/b": "2\n"})
    lines = bench.fleet("merge", "--show", "--base", base, f"one={one}", f"two={two}", status=1).lines()
    # the base's are 1 to 3; one: a 4, b 5; two: a 4, b 5, c gone 6
    same(lines[3:], [
        f"differed: {E}/a: two's 4.2 stands, over one's 4.1", "  two: file 0", "  one: file 11", "    1", "", "    \\t\\xc3\\xa9\\\\",
        "    end (no line feed)", f"differed: {E}/b: two's 5.2 stands, over one's 5.1", "  two: file 2", "    2", "  one: link /dev/null",
        f"{WHY}at 2 {LATER}", "3 places, at 2 of which nodes differed",
    ])
    three = bench.tree("three", {f"{E}/a": "x\n", f"{E}/b": "x\n", f"{E}/c": "3\n"})
    lines = bench.fleet("merge", "--show", "--base", base, f"two={two}", f"three={three}", status=1).lines()
    same(lines[3:7], [f"differed: {E}/c: two's 6.1 stands, over three's 4.2", "  two: gone", "  three: file 2", "    3"])


def a_node_is_preferred(bench):
    """With --prefer what a node has stands, as an edit of its on top; status 1 only where it had edited nothing and others differ."""
    base, one, two = three_trees(bench)
    # the base's are 1 to 4; one: a 5, b 6, c 7, d gone 8; two: a 5, b 6, c 7; then one's on top: a 9, b 10, c 11
    words = ["merge", "--base", base, one, two]
    lines = bench.fleet(*words, "--prefer", "one").lines()
    same(lines, [
        f"{E}/a 9.1 one file 25", f"{E}/b 10.1 one file 25", f"{E}/c 11.1 one link x", f"{E}/d 8.1 one gone",
        f"preferred: {E}/a: one's 9.1 stands, over two's 5.2", f"preferred: {E}/b: one's 10.1 stands, over two's 6.2",
        f"preferred: {E}/c: one's 11.1 stands, over two's 7.2", "4 places, at 3 of which nodes differed, 3 of them settled by choice",
    ])
    lines = bench.fleet(*words, "--prefer", "two").lines()
    same(lines[0], f"{E}/a 5.2 two file 25")
    same(lines[4:], [f"preferred: {E}/{it}: two's {at}.2 stands, over one's {at}.1" for at, it in enumerate("abc", 5)]
         + ["4 places, at 3 of which nodes differed, 3 of them settled by choice"])
    text = bench.fleet(*words, "--prefer", "one", "--script").out
    for node in ("one", "two"):
        bench.fleet("export", script(bench, text), node, bench.path(f"out-{node}"))
        same(entries_of(bench.path(f"out-{node}")), entries_of(bench.path("one")))
    three = bench.tree("three", {f"{E}/a": "x", f"{E}/b": "x", f"{E}/c": "x", f"{E}/d": "d"})
    lines = bench.fleet(*words[:-1], f"three={three}", bench.path("start"), "--prefer", "node3", status=1).lines()
    same(lines[-1], "4 places, at 3 of which nodes differed, 0 of them settled by choice")
    same(bench.fleet(*words, "--prefer", "base", status=2).told(), ["merge: --prefer base: no node of this name"])


def removals_are_preferred(bench):
    """A removal may be what is preferred, and what is preferred over a removal."""
    base = bench.tree("start", {f"{E}/a": "a", f"{E}/b": "b"})
    one, two = bench.tree("one", {f"{E}/a": "1"}), bench.tree("two", {f"{E}/b": "2"})
    # one: a 3, b gone 4; two: a gone 3, b 4
    words = ["merge", "--base", base, f"one={one}", f"two={two}"]
    same(bench.fleet(*words, "--prefer", "one").lines()[:2], [f"{E}/a 5.1 one file 1", f"{E}/b 6.1 one gone"])
    same(bench.fleet(*words, "--prefer", "two").lines()[:2], [f"{E}/a 3.2 two gone", f"{E}/b 4.2 two file 1"])


def texts_are_joined(bench):
    """With --text files that differ in other lines are joined over the base's; overlapping lines are left and told, and so is what is no
    text for all; with a preferred node besides, nothing is left."""
    base, one, two = three_trees(bench)
    words = ["merge", "--text", "--base", base, one, two]
    # counters as above; on top two's a, since two's stood there
    wanted = f"joined: {E}/a: two's 9.2 stands, of two's 5.2 and one's 5.1"
    lines = bench.fleet(*words, status=1).lines()
    same(lines, [
        f"{E}/a 9.2 two file 27", f"{E}/b 6.2 two file 25", f"{E}/c 7.2 two file 0", f"{E}/d 8.1 one gone", wanted,
        f"differed: {E}/b: two's 6.2 stands, over one's 6.1; not joined: changes overlap at line 5",
        f"differed: {E}/c: two's 7.2 stands, over one's 7.1; not joined: not all are files", f"{WHY}at 2 {LATER}",
        "4 places, at 3 of which nodes differed, 1 of them settled by choice",
    ])
    lines = bench.fleet(*words, "--prefer", "one").lines()
    same(lines[4:], [wanted, f"preferred: {E}/b: one's 9.1 stands, over two's 6.2", f"preferred: {E}/c: one's 10.1 stands, over two's 7.2",
                     "4 places, at 3 of which nodes differed, 3 of them settled by choice"])
    text = bench.fleet(*words, "--prefer", "one", "--script").out
    bench.fleet("export", script(bench, text), "base", bench.path("out"))
    same(entries_of(bench.path("out")), {
        f"{E}/a": b"[Service]\nA=one\nB=two\n\nC=3\n", f"{E}/b": b"[Service]\nA=1\nB=2\n\nC=one\n", f"{E}/c": Link("x"),
    })
    new = [bench.tree(it, {f"{E}/n": it}) for it in ("p", "q")]
    lines = bench.fleet("merge", "--text", *new, status=1).lines()
    same(lines[1], f"differed: {E}/n: node2's 1.2 stands, over node1's 1.1; not joined: the base has no file there")


def lines_that_overlap(bench):
    """Changes are joined where each line has its place: apart, the same at both, and side by side where each line stands for one."""
    old = b"1\n2\n3\n4\n5\n"
    for texts, wanted in (
        ([b"1\nb\n3\n4\n5\n", b"1\n2\n3\nd\n5\n"], b"1\nb\n3\nd\n5\n"), ([b"0\n1\n2\n3\n4\n5\n", b"1\n2\n3\n4\n5\n6"], b"0\n1\n2\n3\n4\n5\n6"),
        ([b"2\n3\n4\n5\n", b"1\n2\n3\n4\n"], b"2\n3\n4\n"), ([b"1\nb\n3\n4\n5\n", b"1\nb\n3\n4\ne\n"], b"1\nb\n3\n4\ne\n"),
        ([b"1\nb\n3\n4\n5\n", b"1\n2\nc\n4\n5\n"], b"1\nb\nc\n4\n5\n"),
        ([b"a\n2\n3\n4\n5\n", b"1\n2\nc\n4\n5\n", b"1\n2\n3\n4\ne\n"], b"a\n2\nc\n4\ne\n"),
        ([b"1\n2\n3\n4\n5", b"a\n2\n3\n4\n5\n"], b"a\n2\n3\n4\n5"), ([old, b""], b""), ([b"1\r\n2\n3\n4\n5\n", old], b"1\r\n2\n3\n4\n5\n"),
    ):
        same((joined(old, texts), joined(old, texts[::-1])), (wanted, wanted), texts)
    for texts, why in (
        ([b"1\nb\n3\n4\n5\n", b"1\nB\n3\n4\n5\n"], "line 2"), ([b"1\nx\n2\n3\n4\n5\n", b"1\ny\n2\n3\n4\n5\n"], "behind line 1"),
        ([b"1\nx\n2\n3\n4\n5\n", b"1\nb\n3\n4\n5\n"], "behind line 1 and line 2"), ([b"1\n3\n4\n5\n", b"1\n2\nc\n4\n5\n"], "line 2 and line 3"),
        ([b"1\nb\nc\n4\n5\n", b"1\n2\nC\n4\n5\n"], "lines 2 to 3 and line 3"), ([b"", b"1\nb\n3\n4\n5\n"], "lines 1 to 5 and line 2"),
        ([b"1\n2\n3\n4\n5\n6", b"1\n2\n3\n4\n5\n7"], "behind line 5"),
    ):
        for it in (texts, texts[::-1]):
            try:
                same(joined(old, it), f"no join of {texts} in {bench.room}")
            except NoJoin as found:
                same(str(found), f"changes overlap at {why}", texts)
    many = [b"".join(b"%d\n" % (number * step) for number in range(60_000)) for step in (1, 2, 3)]
    try:
        same(joined(many[0], many[1:]), "no join of so many lines")
    except NoJoin as found:
        same(str(found), "too many lines differ")


def names_as_given(bench):
    """A node may have a host's name, with dashes and dots: answers tell it as given, and scripts have a name of their own for it."""
    one, two = bench.tree("one", {f"{E}/a": "1"}), bench.tree("two", {f"{E}/a": "2"})
    nodes = [f"web-1.example.org={one}", f"{'h' * 63}.={two}"]
    same(bench.fleet("merge", *nodes, "--prefer", "web-1.example.org").lines(), [
        f"{E}/a 2.1 web-1.example.org file 1", f"preferred: {E}/a: web-1.example.org's 2.1 stands, over {'h' * 63}.'s 1.2",
        "1 places, at 1 of which nodes differed, 1 of them settled by choice",
    ])
    ran = bench.fleet("merge", "--script", *nodes)
    first, second = (it.split(" ")[1] for it in ran.lines()[2:4])
    same(ran.lines()[:2], [f"# web-1.example.org is the node {first}", f"# {'h' * 63}. is the node {second}"])
    same((first[:13], len(first) <= 32, len(second), second[:24]), ("web1exampleor", True, 32, "h" * 24))
    bench.fleet("export", script(bench, ran.out), "web-1.example.org", bench.path("out"))
    same(entries_of(bench.path("out")), {f"{E}/a": b"2"})
    same(bench.fleet("merge", f"a-1={one}", f"a.1={two}", status=1).lines()[0], f"{E}/a 1.2 a.1 file 1")


def hosts_have_trees(bench):
    """Nodes may have trees of hosts too, and the base; of a host of which a node has none it says nothing."""
    base, own = bench.tree("start", {f"{E}/a": "a", f"{E}/b": "b"}), bench.tree("start-web1", {f"{E}/a": "w", f"{U}/c": "c"})
    one, one_web = bench.tree("one", {f"{E}/a": "1", f"{E}/b": "b"}), bench.tree("one-web1", {f"{E}/a": "w1"})
    two = bench.tree("two", {f"{E}/a": "2", f"{E}/b": "b"})
    # the base's: a 1, b 2, web1:a 3, web1:c 4; one: a 5, web1:a 6, web1:c gone 7; two: a 5
    ran = bench.fleet("merge", "--base", base, "--base", f"web1={own}", f"one={one}", f"one:web1={one_web}", f"two={two}", "--text",
                      "--prefer", "two")
    same(ran.lines(), [
        f"{E}/a          5.2 two file 1", f"{E}/b          2.0 base file 1", f"web1:{E}/a     6.1 one file 2", f"web1:{U}/c 7.1 one gone",
        f"preferred: {E}/a: two's 5.2 stands, over one's 5.1", "4 places, at 1 of which nodes differed, 1 of them settled by choice",
    ])
    same(bench.fleet("merge", f"one={one}", f"one:w={one}", f"one:w={two}", status=2).told(), ["merge: one: two trees for the host w"])
    same(bench.fleet("merge", "--base", base, "--base", one, f"one={one}", status=2).told(), ["merge: two bases for the whole fleet"])
    same(bench.fleet("merge", f"one:w_1={one}", status=2).told()[0][:17], "merge: w_1: no no")


def what_is_not_taken_is_not_gone(bench):
    """What a tree has and the store doesn't take isn't removed by the node; it is told, with status 1."""
    base = bench.tree("start", {f"{E}/big": "b", f"{E}/x.d/10.conf": "x", f"{E}/x.d/20.conf": "x", f"{L}/z": "z"})
    one = bench.tree("one", {f"{E}/big": b"b" * 65_537, f"{E}/x.d/10.conf": Link("y"), f"{L}/z": "z"})
    two = bench.tree("two", {f"{E}/big": "b", f"{E}/x.d/10.conf": "x", f"{E}/x.d/20.conf": "x", f"{L}/z": "zz"})
    ran = bench.fleet("merge", "--base", base, f"one={one}", f"two={two}", status=1)
    same([it.split() for it in ran.lines()], [
        [f"{E}/big", "1.0", "base", "file", "1"], [f"{E}/x.d/10.conf", "2.0", "base", "file", "1"], [f"{E}/x.d/20.conf", "5.1", "one", "gone"],
        [f"{L}/z", "5.2", "two", "file", "2"], ["4", "places,", "at", "0", "of", "which", "nodes", "differed"],
    ])
    same(ran.told(), [f"{one}: 2 left out; `fleet import` tells which"]
         + [f"{E}/{it}: what one has there isn't taken, so nothing is changed by it" for it in ("big", "x.d/10.conf")])


def settled_as_json(bench):
    """With --json each place is an object, which says over whom it stands, and, where nodes differed, how that was settled or why not; with
    --show also what each has."""
    base, one, two = three_trees(bench)

    def objects(*words, status=0):
        return [json.loads(it) for it in bench.fleet("merge", "--json", "--base", base, one, two, *words, status=status).lines()]

    # counters as in the cases above
    found = objects("--text", status=1)
    same(found, [
        {"place": f"{E}/a", "version": "9.2", "node": "two", "file": 27,
         "over": [{"node": "one", "version": "5.1"}, {"node": "two", "version": "5.2"}], "settled": "joined"},
        {"place": f"{E}/b", "version": "6.2", "node": "two", "file": 25, "over": [{"node": "one", "version": "6.1"}], "settled": None,
         "why": "changes overlap at line 5"},
        {"place": f"{E}/c", "version": "7.2", "node": "two", "file": 0, "over": [{"node": "one", "version": "7.1"}], "settled": None,
         "why": "not all are files"},
        {"place": f"{E}/d", "version": "8.1", "node": "one", "gone": True, "over": []},
    ])
    found = objects("--prefer", "one", "--show")
    same([it.get("settled") for it in found], ["preferred"] * 3 + [None])
    same((found[2]["link"], found[2]["over"]), ("x", [{"node": "two", "version": "7.2", "file": 0, "text": ""}]))
    same((found[1]["text"][-7:], found[1]["over"][0]["text"][-7:]), ("\nC=one\n", "\nC=two\n"))


CASES = [differing_is_a_status, contents_are_shown, a_node_is_preferred, removals_are_preferred, texts_are_joined, lines_that_overlap, names_as_given,
         hosts_have_trees, what_is_not_taken_is_not_gone, settled_as_json]
