"""`fleet edit`: what the editor left is written, or kept where it can't be; nothing is written that wasn't edited."""
import os
import re
import signal
import stat
import time

from .bench import E, U, same
from .nodes_bench import PROGRAM, Node, script_at

PLACE = f"{E}/web.service"


def editing(bench, text, name="editor"):
    """The surroundings in which an editor does this with the file that it is given last."""
    return {"EDITOR": script_at(bench, name, text), "TMPDIR": drafts(bench)}


def drafts(bench):
    """Where drafts are."""
    os.makedirs(bench.path("drafts"), exist_ok=True)
    return bench.path("drafts")


def kept(bench):
    """The texts that were kept."""
    found = [os.path.join(at, name) for at, _, names in os.walk(drafts(bench)) for name in names]
    return [open(it, "rb").read() for it in found]


def edits(bench):
    """The editor gets a file of its owner's alone, which ends in the place's name and has what stands there; what it leaves is written."""
    node = Node(bench.path("a"), 1)
    node.fleet("put", PLACE, given=b"[Unit]\n")
    around = editing(bench, f'cp "$1" "{bench.path("seen")}"\nstat -c "%a %n" "$1" "${{1%/*}}" > "{bench.path("modes")}"\n'
                            'printf "[Install]\\n" >> "$1"\n')
    ran = node.fleet("edit", PLACE, env=around)
    same((ran.lines(), ran.told(), node.text(PLACE)), ([f"{PLACE} 2.1 file 17"], [], b"[Unit]\n[Install]\n"))
    with open(bench.path("seen"), "rb") as file:
        same(file.read(), b"[Unit]\n")
    with open(bench.path("modes"), encoding="utf-8") as file:
        rows = [it.split(" ") for it in file.read().splitlines()]
    same(([mode for mode, _ in rows], rows[0][1].endswith("/web.service")), (["600", "700"], True))
    same(os.listdir(drafts(bench)), [])
    place = f"h:{U}/a.service.d/10-x.conf"
    same(node.fleet("edit", place, env=editing(bench, 'case "$1" in *-x.conf) printf new > "$1";; esac\n')).lines(), [f"{place} 3.1 file 3"])
    # an editor with options, and one that puts another file in its place
    around = {**editing(bench, 'printf "$1" > "$3.new"\nmv "$3.new" "$3"\n'), "VISUAL": f"'{bench.path('editor')}' 'a b' --wait"}
    same((node.fleet("edit", PLACE, env={**around, "EDITOR": "false"}).lines(), node.text(PLACE)), ([f"{PLACE} 4.1 file 3"], b"a b"))


def nothing_edited(bench):
    """Where nothing was changed nothing is written, nor is a new file that was left empty, which would mask a unit; one that stands there can be
    emptied. A link isn't edited."""
    node = Node(bench.path("a"), 1)
    node.script(f"put here {PLACE} text", f"link here {E}/l.service x")
    held = node.files()
    same(node.fleet("edit", PLACE, env=editing(bench, "touch $1\n")).lines(), [f"{PLACE}: nothing changed"])
    ran = node.fleet("edit", f"{E}/new", env=editing(bench, "true\n"))
    same((ran.lines(), ran.told()), ([f"{E}/new: nothing changed"], [
        f"{E}/new: left empty, so nothing is written: an empty file masks a unit, and `fleet put` makes one"]))
    same(node.fleet("edit", f"{E}/l.service", env=editing(bench, "echo x > $1\n"), status=1).told(),
         [f"edit: {E}/l.service: a link to x: `fleet link` changes it"])
    same((node.fleet("edit", "/x", env=editing(bench, "echo x > $1\n"), status=1).out, node.files(), os.listdir(drafts(bench))), (b"", held, []))
    same(node.fleet("edit", PLACE, env=editing(bench, ": > $1\n")).lines(), [f"{PLACE} 3.1 file 0"])


def editors_that_fail(bench):
    """Where the editor fails nothing is written, which is told; what was edited until then is kept."""
    node = Node(bench.path("a"), 1)
    node.script(f"put here {PLACE} text")
    held = node.files()
    for text, told, left in (("exit 3\n", "the editor ended with status 3", []), ("kill -9 $$\n", "the editor ended with signal 9", []),
                             ("rm $1\n", "the editor left no file", []), ("echo half > $1\nexit 1\n", "the editor ended with status 1", [b"half\n"])):
        ran = node.fleet("edit", PLACE, env=editing(bench, text), status=1)
        same((ran.out, ran.told()[-1], kept(bench)), (b"", f"edit: {PLACE}: nothing is written: {told}", left))
    none = bench.path("none")
    same(node.fleet("edit", PLACE, env={"EDITOR": none, "TMPDIR": drafts(bench)}, status=1).told(),
         [f"edit: {PLACE}: nothing is written: {none}: it can't be run: No such file or directory"])
    same(node.fleet("edit", PLACE, env={"PATH": bench.path("none")}, status=2).told(), ["edit: no editor: VISUAL or EDITOR names one"])
    same(node.files(), held)


def kept_texts(bench):
    """What can't be written is kept in a file that is told: where it is too large, and where the program fails."""
    node = Node(bench.path("a"), 1)
    node.script(f"put here {PLACE} text")
    held = node.files()
    ran = node.fleet("edit", PLACE, env=editing(bench, "head -c 70000 /dev/zero > $1\n"), status=1)
    path = re.fullmatch("the edited text is kept: (.*)", ran.told()[0])[1]
    same((os.stat(path).st_size, stat.S_IMODE(os.stat(path).st_mode), ran.told()[1]),
         (70_000, 0o600, f"edit: {PLACE}: C1 FileTooLarge: over 65,536 bytes"))
    os.unlink(path)
    breaking = f'echo mine > "$1"\nprintf "#!/bin/sh\\nexit 5\\n" > "{bench.path("program")}"\n'
    around = {**editing(bench, breaking), "FLEET_NODE": script_at(bench, "program", f'exec "{PROGRAM}" "$@"\n')}
    ran = node.fleet("edit", PLACE, env=around, status=1)
    same((kept(bench), len(ran.told()), ran.told()[1]), ([b"mine\n"], 2, f"edit: {node.file}: fleet_node ended with status 5"))
    same(node.files(), held)


def changed_meanwhile(bench):
    """Where the place was changed meanwhile, nothing is written and the text is kept; --force writes it; the same text on both sides is no edit."""
    changes = ("put here {} theirs", "file 6 (2.1)"), ("remove here {}", "gone (2.1)"), ("link here {} x", "link x (2.1)")
    for number, (line, told) in enumerate(changes):
        node = Node(bench.path(str(number)), 1)
        node.script(f"put here {PLACE} text")
        around = editing(bench, f'echo "{line.format(PLACE)}" | "{PROGRAM}" run "{node.file}" > /dev/null\necho mine > $1\n')
        ran = node.fleet("edit", PLACE, env=around, status=1)
        same((ran.out, ran.told()[1]), (b"", f"edit: {PLACE}: nothing is written: meanwhile it became {told}; --force writes over it"))
        same((kept(bench)[-1:], node.files()[PLACE][0]), ([b"mine\n"], "2.1"))
        forced = ([f"{PLACE} 4.1 file 5"], [f"{PLACE} 3.1 file 5"], [])[number]
        same(node.fleet("edit", PLACE, "--force", env=around, status=0 if forced else 1).lines(), forced)
    node = Node(bench.path("new"), 1)
    around = editing(bench, f'echo "put here {PLACE} theirs" | "{PROGRAM}" run "{node.file}" > /dev/null\nprintf mine > $1\n')
    same(node.fleet("edit", PLACE, env=around, status=1).told()[1],
         f"edit: {PLACE}: nothing is written: meanwhile it became file 6 (1.1); --force writes over it")
    around = editing(bench, f'echo "put here {E}/b both" | "{PROGRAM}" run "{node.file}" > /dev/null\nprintf both > $1\n')
    same((node.fleet("edit", f"{E}/b", env=around).lines(), node.files()[f"{E}/b"]), ([f"{E}/b: nothing changed"], ("2.1", "file 4")))


def stopped_while_editing(bench):
    """Ctrl-C is the editor's; another signal ends the verb, writes nothing, and keeps what was saved."""
    node = Node(bench.path("a"), 1)
    node.script(f"put here {PLACE} text")
    text = f'trap "echo saved >> $1; exit 0" TERM\necho mine > $1\ntouch "{bench.path("begun")}"\nsleep 0.5\nsleep 0.5\necho more >> $1\n'
    for number, ended in ((signal.SIGINT, 0), (signal.SIGTERM, -signal.SIGTERM), (signal.SIGHUP, -signal.SIGHUP)):
        call = node.call("edit", PLACE, env=editing(bench, text))
        until = time.monotonic() + 20
        while not os.path.exists(bench.path("begun")) and time.monotonic() < until:
            time.sleep(0.02)
        call.signal(number)
        ran = call.ended()
        same((ran.status, node.files()[PLACE]), (ended, ("2.1", "file 10")), ran)
        same((kept(bench)[-1:], len(ran.told())), ([b"mine\nsaved\n"], 1) if ended else ([], 0))
        os.unlink(bench.path("begun"))


CASES = [edits, nothing_edited, editors_that_fail, kept_texts, changed_meanwhile, stopped_while_editing]
