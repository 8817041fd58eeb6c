"""However a call ends, it says why in one line; answers are read by their grammar; the man page and completions are the command line's."""
import os
import re
import shutil
import signal
import subprocess
import time

from fleet_tools import exports, merges
from fleet_tools.asking import Store
from fleet_tools.faults import Fault
from fleet_tools.profiles import Profile
from fleet_tools.program import Program
from fleet_tools.progress import Progress
from fleet_tools.trees import read_tree
from repository import ROOT

from .bench import FLEET, TREES, E, L, U, same
from .profiled import SMALL
from .written import script

DEBIAN = os.path.join(TREES, "debian")
VERBS = ("import", "export", "merge", "show", "cat", "list", "plan", "check", "diff", "draw", "init", "put", "link", "rm", "mask", "edit", "revert",
         "log", "peers", "status", "sync")


class Other:
    """A program that answers what a function makes of the true answers."""

    def __init__(self, bench, change):
        self.true, self.change = Program((bench.program,), bench.room, True), change
        self.known = {}

    def truth(self, lines, tell):
        asked = b"\n".join(lines)
        if asked not in self.known:
            self.known[asked] = self.true.answer(lines, tell)
        return self.known[asked]

    def answer(self, lines, tell=lambda ended: None):
        return self.change(self.truth(lines, tell))


class Late:
    """The same, but that its first answer is the true one."""

    def __init__(self, other):
        self.other, self.is_first = other, True

    def answer(self, lines, tell=lambda ended: None):
        is_first, self.is_first = self.is_first, False
        return self.other.truth(lines, tell) if is_first else self.other.answer(lines, tell)


def questions(bench):
    """Functions that ask a program, each of a small tree: all units and a plan, single units, nodes that meet, what a node holds, its texts, and a
    host's tree, what a unit pulls."""
    root = bench.tree("a", {**SMALL, f"{U}/a.service.d/x.conf": "[Unit\n[Service]\nRestart=%\n"})
    tree = read_tree(root, "", Progress())
    text = f"node a 1\nput a {E}/x.service X\nput a {E}/y.service Y\\n\nlink a h:{E}/x.service z\nput a h:{U}/w.service".encode()
    nodes = merges.nodes_of([("one", [tree]), ("two", [tree])], [])

    def store(program):
        return Store(program, Progress(), [tree], [""], 2, Profile.MANAGER)

    return [lambda it: store(it).seen(lambda _: [("a.service",)]), lambda it: store(it).shown("", ["a.service", "b.service"]),
            lambda it: merges.merged(nodes, it), lambda it: exports.shown(text, "a", None, it),
            lambda it: exports.shown(text, "a", None, Late(it)), lambda it: exports.shown(text, "a", "h", Late(it)),
            lambda it: store(it).asked([("", ("list", "a.service"))]).last_block()]


def answers_that_end_early(bench):
    """Answers that end anywhere but at their end are told in one line."""
    for number, ask in enumerate(questions(bench)):
        lengths = []
        whole = Other(bench, lambda it: lengths.append(len(it)) or it)
        ask(whole)
        for length in range(lengths[0]):
            whole.change = lambda it: it[:length]
            try:
                same(ask(whole), f"a fault of question {number} after {length} bytes")
            except Fault as fault:
                same("\n" in str(fault), False, fault)


def answers_of_others(bench):
    """Where a line is another one than may come, it is told, escaped and cut; so is a line too many."""
    for number, ask in enumerate(questions(bench)[:-1]):
        counts = []
        other = Other(bench, lambda it: counts.append(it.count(b"\n")) or it)
        ask(other)
        for at in range(counts[0] + 1):
            for line in (b"\xff\x1b[31m" + b"x" * 200, b"error:", b"status \xc3\xa9", b"end end"):
                other.change = lambda it: b"\n".join([*it.split(b"\n")[:at], line, *it.split(b"\n")[at:]])
                try:
                    same(ask(other), f"a fault of question {number} with {line} at line {at}")
                except Fault as fault:
                    same((str(fault).isascii(), str(fault).isprintable(), len(str(fault)) < 300), (True, True, True), fault)


def lines_that_look_like_others(bench):
    """A section or a key of a unit that reads as another line of an answer is a value all the same."""
    text = ("[note K1 /x:1]\nA=b\n[Unit]\ndropin=1\nDescription=d\n[dropin /x]\ny=z.conf\n[Before: b.service]\nX=y\n[note K6 Unit]\nWants=1\n"
            f"[note K2 {U}/a.service:3.]\nK=1\n[dropin {E}/a.service.d/x]\ny=z.conf\n[end]\nend=end\n[error: X1 Y]\nK=v\n[Service]\nno value\n")
    for more in ("", "[Unit]\nAfter=b.service\nWants=??\n"):
        root = bench.tree(f"a{len(more)}", {f"{U}/a.service": text + more, f"{U}/b.service": "[Unit]\n", f"{U}/a.service.d/0.conf": "[X]\nY=1\n"})
        store = Store(Program((bench.program,), bench.room, True), Progress(), [read_tree(root, "", Progress())], [""], None, Profile.FILES)
        unit = store.seen()[0].units["a.service"]
        same(sorted(unit.values), sorted([
            ("note K1 /x:1.A", "b"), ("Unit.dropin", "1"), ("Unit.Description", "d"), ("dropin /x.y", "z.conf"), ("Before: b.service.X", "y"),
            ("note K6 Unit.Wants", "1"), (f"note K2 {U}/a.service:3..K", "1"), (f"dropin {E}/a.service.d/x.y", "z.conf"), ("end.end", "end"),
            ("error: X1 Y.K", "v"), ("X.Y", "1"),
        ]))
        same(unit.dropins, (f"{U}/a.service.d/0.conf",))
        same([(it.code, it.where) for it in unit.notes], [("K2", f"{U}/a.service:21"), *([("K6", "Unit.Wants")] if more else [])])
        same(unit.edges, {"After": ("b.service",)} if more else {})
    lines = bench.fleet("check", root, "a", "--profile", "files", status=1).lines()
    same([it for it in lines if ": K" in it], [f"{U}/a.service:21: K2 NoEquals: a line without a key and a `=`",
                                               "a.service: Unit.Wants: K6 BadName: a word that is no unit name; it is passed over"])


def words_of_a_plan(bench):
    """Of several names of units the one that is none is named."""
    bad = script(bench, "UNIT LOAD\nb.service loaded\n", "running")
    root = bench.tree("a", SMALL)
    told = "plan of a.service (profile manager): UNIT: N2 Kind: its ending is no kind of unit"
    for verb in ("plan", "draw"):
        same(bench.fleet(verb, root, "a", "--running-from", bad, status=1).told()[-1], told)
    same(bench.fleet("plan", root, "a!", "b", status=1).told(), ["plan of a!.service (profile manager): a!.service: N4 BadByte 1"])


def empty_folders(bench):
    """All empty folders are told in one line."""
    root = bench.tree("a", {f"{E}/a.service": "A", f"{E}/a.service.d": None, f"{E}/x.wants": None, f"{L}/y z.wants/a": "", f"{U}/y.wants": None})
    same(bench.fleet("import", root).told(), [
        f"{L}/y z.wants: left out: its name isn't 1 to 255 bytes of printable ASCII without spaces",
        f"{E}/a.service.d, {E}/x.wants, {U}/y.wants: nothing to take: 3 empty folders", f"{root}: 1 taken, 1 left out",
    ])


def other_programs(bench):
    """A program that isn't the one that is asked is told in one line, whatever it does: it doesn't run, says nothing, too much, or fails."""
    answered = "the program answered `{}`, which is no answer to what it was asked: is it fleet_shell, and of this repository?"
    texts = {
        "none": (None, "FLEET_SHELL={}: no such file"), "plain": ("#!/bin/sh\necho ok\n", "FLEET_SHELL={}: no file that can be run"),
        "format": ("\x7fELF no program", "{}: it can't be run: Exec format error"),
        "quiet": ("#!/bin/sh\n", "the program answered less than it was asked"),
        "lost": ("#!/nowhere/sh\n", "{}: it can't be run: No such file or directory"),
        "cat": ("#!/bin/sh\nexec cat\n", answered.format("profile manager")), "yes": ("#!/bin/sh\nexec yes\n", answered.format("y")),
        "long": ("#!/bin/sh\nexec yes '' | tr '\\n' 'x'\n", answered.format("x" * 120 + "..")),
        "fails": ("#!/bin/sh\ncat > /dev/null\nprintf '\\033[1mone\\ntwo\\n' >&2\nexit 7\n", "{} ended with status 7: \\x1b[1mone"),
        "killed": ("#!/bin/sh\necho ok\nkill -9 $$\n", "{} ended with signal 9"), "late": ("#!/bin/sh\necho ok\necho what\n", None),
    }
    root = bench.tree("a", SMALL)
    for name, (text, told) in texts.items():
        at = bench.path(name)
        if text is not None:
            with open(at, "w", encoding="utf-8") as file:
                file.write(text)
            os.chmod(at, 0o644 if name == "plain" else 0o755)
        ran = bench.fleet("check", root, "a", status=2, env={"FLEET_SHELL": at})
        wanted = told and f"check: {told.format(at)}"
        same((len(ran.told()), ran.out, wanted or ran.told()[0]), (1, b"", ran.told()[0]), name)
    same(bench.fleet("check", root, "a", status=2, env={"FLEET_SHELL": root}).told(), [f"check: FLEET_SHELL={root}: no file that can be run"])


def no_answer_of_a_try(bench):
    """Where `rt try` has no answer, as of answers over 1 MiB, it is told what to do."""
    os.makedirs(bench.path("bin"))
    with open(bench.path("bin/rt"), "w", encoding="utf-8") as file:
        file.write("#!/bin/sh\necho 'interpreter: no-answer: x' >&2\n"
                   "echo 'checked: no-answer: the program wrote more than 1048576 bytes' >&2\nexit 6\n")
    os.chmod(bench.path("bin/rt"), 0o755)
    ran = bench.fleet("list", DEBIAN, "cron", "--unproved", status=2, env={"PATH": f"{bench.path('bin')}:{os.environ['PATH']}"})
    same(ran.told()[1:], ["list: `rt try` has no answer: it gives no answers of over 1 MiB, nor after an hour: build the program and leave "
                          "--unproved out, or ask of one unit (checked: no-answer: the program wrote more than 1048576 bytes)"])


def streams_that_fail(bench):
    """What can't be printed isn't taken for printed: status 2, and a line where that can be told."""
    root = bench.tree("a", SMALL)
    with open("/dev/full", "wb") as full:
        for words in (["import", root], ["check", root, "a"], ["show", root, "a"], ["merge", root], ["--help"], ["--version"]):
            ran = bench.fleet(*words, status=2, stdout=full)
            same((len(ran.told()), "No space left on device" in ran.told()[-1]), (1, True), ran.told())
        same(bench.fleet("import", bench.path("none"), status=2, stderr=full).out, b"")
    around = {**os.environ, "FLEET_SHELL": bench.program}
    for close, status, told in ((">&-", 2, b"fleet: standard output is closed\n"), ("2>&-", 0, b""), ("<&-", 0, b"")):
        ran = subprocess.run(["bash", "-c", f'exec "$0" "$@" {close}', FLEET, "import", root], env=around, capture_output=True, check=False)
        same((ran.returncode, ran.stderr, bool(ran.stdout)), (status, told, status == 0), close)


def stopped_anywhere(bench):
    """A stop by Ctrl-C at any moment is quiet, and the process ends by that signal."""
    around = {**os.environ, "FLEET_SHELL": bench.program}
    for turn in range(24):
        words = (["check", DEBIAN], ["merge", DEBIAN, DEBIAN], ["import", DEBIAN])[turn % 3]
        with subprocess.Popen([FLEET, *words], env=around, stdout=subprocess.DEVNULL, stderr=subprocess.PIPE) as ran:
            time.sleep(turn * 0.02)
            ran.send_signal(signal.SIGINT)
            _, err = ran.communicate()
        same((b"fleet" in err.replace(b"fleet: ", b""), ran.returncode in (-signal.SIGINT, 0, 1, 130)), (False, True), (turn, ran.returncode, err))


def version(bench):
    """--version tells the name and the version."""
    same(re.fullmatch(rb"fleet [0-9]+\.[0-9]+\n", bench.fleet("--version").out) is not None, True)


def manual_and_completions(bench):
    """The man page and the completions have each verb with its options, and are ones that their programs read, where these are there."""
    ran = subprocess.run([os.path.join(ROOT, "tools", "fleet_words"), bench.path("out")], stdout=subprocess.PIPE, check=True)
    names = [it.removeprefix(bench.path("out/share/")) for it in ran.stdout.decode().splitlines()]
    same(names, ["man/man1/fleet.1", "bash-completion/completions/fleet", "zsh/site-functions/_fleet", "fish/vendor_completions.d/fleet.fish"])
    texts = {}
    for name in names:
        with open(bench.path(f"out/share/{name}"), encoding="utf-8") as file:
            texts[name] = file.read()
    for verb in VERBS:
        told = bench.fleet(verb, "--help", env={"COLUMNS": "1000"}).out.decode().partition("options:")[2]
        options = sorted(set(re.findall(r"(?<![\w-])--([a-z-]+)", told)) - {"help"})
        page = texts["man/man1/fleet.1"].partition(f".SS fleet {verb}\n")[2].partition("\n.S")[0]
        same(sorted(set(it.replace("\\-", "-") for it in re.findall(r"(?m)^\.B \\-\\-([a-z\\-]+)", page))), options, verb)
        found = re.search(rf'"{verb} -"\*\).*-W "([^"]*)"', texts["bash-completion/completions/fleet"])[1].split()
        same(sorted(found), sorted(["--help", *(f"--{it}" for it in options)]), verb)
        zsh = texts["zsh/site-functions/_fleet"].partition(f"\n    {verb})\n")[2].partition(";;")[0]
        same(sorted(set(re.findall(r"'\*?--([a-z-]+)\[", zsh))), sorted(["help", *options]), verb)
        fish = re.findall(rf"seen_subcommand_from {verb}' (?:-s h )?-l ([a-z-]+)", texts["fish/vendor_completions.d/fleet.fish"])
        same(sorted(fish), sorted(["help", *options]), verb)
    for words in (["bash", "-n", names[1]], ["zsh", "-n", names[2]], ["fish", "-n", names[3]], ["groff", "-man", "-Tutf8", "-ww", "-z", names[0]]):
        if shutil.which(words[0]):
            ran = subprocess.run([*words[:-1], bench.path(f"out/share/{words[-1]}")], stdout=subprocess.PIPE, stderr=subprocess.STDOUT, check=False)
            same((ran.returncode, ran.stdout), (0, b""), words)


def completed(bench):
    """What bash completes: verbs, a verb's options, the values of an option, files."""
    subprocess.run([os.path.join(ROOT, "tools", "fleet_words"), bench.path("out")], stdout=subprocess.DEVNULL, check=True)
    bench.tree("here", {"/one tree/x": "", "/two": "2"})
    for words, wanted in (("fleet m", ["mask", "merge"]), ("fleet plan --pro", ["--profile"]), ("fleet plan --profile m", ["manager"]),
                          ("fleet import one", ["one tree"]), ("fleet export --modes t", ["two"]), ("fleet show --host ", [""]),
                          ("fleet cat --", ["--help", "--follow", "--host", "--workers", "--with", "--json", "--unproved"])):
        parts = words.split(" ")
        text = f'. "$1"; COMP_WORDS=({" ".join(map(repr, parts))}); COMP_CWORD={len(parts) - 1}; _fleet; printf "%s\\n" "${{COMPREPLY[@]}}"'
        ran = subprocess.run(["bash", "-c", text, "bash", bench.path("out/share/bash-completion/completions/fleet")], cwd=bench.path("here"),
                             stdout=subprocess.PIPE, stderr=subprocess.PIPE, check=False)
        same((sorted(ran.stdout.decode().splitlines()), ran.stderr), (sorted(wanted), b""), words)


CASES = [answers_that_end_early, answers_of_others, lines_that_look_like_others, words_of_a_plan, empty_folders, other_programs, no_answer_of_a_try,
         streams_that_fail, stopped_anywhere, version, manual_and_completions, completed]
