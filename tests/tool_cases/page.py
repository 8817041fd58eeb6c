"""docs/GUIDE.md and docs/TREES.md: each command of a page is run, in order, and prints what the page shows.

A block ```` ```console ```` has commands behind `$ `, continued behind `> `, and what each prints. One that is marked `console machine`
depends on the machine: its commands are run, and what they print isn't compared. Times may be others than the page's."""
import os
import re
import subprocess

from repository import ROOT

from .bench import same

DOCS = os.path.join(ROOT, "docs")
TIME = re.compile(r"[0-9]{4}-[0-9]{2}-[0-9]{2}T[0-9]{2}:[0-9]{2}:[0-9]{2}Z")
BLOCK = re.compile(r"(?ms)^```(console[ a-z]*)\n(.*?)^```$")
MARK = "-- that was it, with status"


def commands_of(block):
    """The commands of a block, each with what the page shows of it."""
    found = []
    for line in block.split("\n")[:-1]:
        if line.startswith("$ "):
            found.append([[line[2:]], []])
        elif line.startswith("> ") and not found[-1][1]:
            found[-1][0].append(line[2:])
        else:
            found[-1][1].append(line)
    return [("\n".join(command), shown) for command, shown in found]


def run_all(commands, bench):
    """What each of these commands prints in one shell, in a folder where the repository's stand, and its status."""
    for name in ("tools", "tests", "crates", "examples", "docs"):
        os.symlink(os.path.join(ROOT, name), bench.path(name))
    script = "".join(f"{{ {it}\n}} 2>&1; echo; echo '{MARK}' $?\n" for it in commands)
    around = {**os.environ, "FLEET_SHELL": bench.program, "FLEET_NODE": os.environ.get("FLEET_NODE", ""), "LC_ALL": "C"}
    words = {"stdout": subprocess.PIPE, "env": around, "cwd": bench.room, "encoding": "utf-8", "errors": "replace"}
    parts = re.split(f"\n?\n{MARK} ([0-9]+)\n", subprocess.run(["bash", "-c", script], check=False, **words).stdout)
    return [(text.split("\n") if text else [], int(status)) for text, status in zip(parts[::2], parts[1::2])]


def text_of(name):
    """A page."""
    with open(os.path.join(DOCS, name), encoding="utf-8") as file:
        return file.read()


def compare(name, bench):
    """Compares what a page shows with what its commands print."""
    rows = [(command, shown, kind) for kind, block in BLOCK.findall(text_of(name)) for command, shown in commands_of(block)]
    ran = run_all([command for command, _, _ in rows], bench)
    same(len(ran), len(rows))
    for (command, shown, kind), (printed, status) in zip(rows, ran):
        if kind == "console machine":
            same((status in (0, 1, 2), "Traceback" in "\n".join(printed)), (True, False), command)
        else:
            same([TIME.sub("TIME", it) for it in printed], [TIME.sub("TIME", it) for it in shown], f"$ {command}")


def the_guide(bench):
    """What the page of state files shows is what its commands print."""
    compare("GUIDE.md", bench)


def the_page_of_trees(bench):
    """What the page of trees shows is what its commands print."""
    compare("TREES.md", bench)


CASES = [the_guide, the_page_of_trees]
