"""What cases of `fleet apply` work with: a state, a root, and runs in processes of their own that begin where the tools are loaded already."""
import hashlib
import io
import os
import stat
import subprocess
import sys
import tempfile
import traceback
from contextlib import suppress

from fleet_tools import command_line, stops
from fleet_tools.nodes import apply_verb
from fleet_tools.nodes.files import NodeFile
from fleet_tools.nodes.programs import program

from .bench import Link, Ran, same

PARSER = command_line.parser()
SERVICE = "[Service]\\nExecStart=/bin/true\\n"
# Targets that a manager's plan of the boot needs.
BOOT = {f"/usr/lib/systemd/system/{it}.target": "[Unit]\nDefaultDependencies=no\n" for it in ("basic", "sysinit", "shutdown", "multi-user")}
OWN = "/var/lib/fleet-apply"
MANIFEST = f"{OWN}/manifest"


def begun(work, given=None):
    """Begins something in a process of its own and in a group of its own, in which `given` was done before: the process, and files with what it
    writes."""
    out, err = tempfile.TemporaryFile(), tempfile.TemporaryFile()
    sys.stdout.flush()
    at = os.fork()
    if at:
        with suppress(OSError):
            os.setpgid(at, at)  # whoever of both comes first
        return at, out, err
    status = 70
    try:
        os.setpgid(0, 0)
        os.dup2(out.fileno(), 1)
        os.dup2(err.fileno(), 2)
        sys.stdout, sys.stderr = (io.TextIOWrapper(os.fdopen(it, "wb", closefd=False), "utf-8", "surrogateescape") for it in (1, 2))
        if given:
            given()
        status = work()
    except BaseException:
        traceback.print_exc()
    finally:
        sys.stdout.flush()
        sys.stderr.flush()
        os._exit(status)


def ended(at, *written):
    """How a process ended, as a status or less than nothing for a signal, with what it wrote."""
    _, status = os.waitpid(at, 0)
    for it in written:
        it.seek(0)
    return Ran(os.waitstatus_to_exitcode(status), *(it.read() for it in written))


def unasked(tree):
    """What is done before a run that needs no program: what the host sees is known, and of its units nothing is asked, which changes no step."""

    def prepared():
        apply_verb.told_before = lambda *_: False
        NodeFile.tree, NodeFile.held = lambda *_: tree, lambda _: []

    return prepared


class Applying:
    """A state and a root, and runs of `fleet apply`."""

    def __init__(self, bench, entries=(), name="root"):
        self.bench, self.state, self.root = bench, bench.path("state"), bench.tree(name, {"/etc/hostname": "web1\n", **dict(entries)})
        if not os.path.exists(self.state):
            subprocess.run([program(), "init", self.state, "1"], check=True)

    def edit(self, *lines):
        """Edits the state, whose node is left out of the lines: `put PLACE TEXT`, `link PLACE TARGET`, `remove PLACE`."""
        words = [it.partition(" ") for it in lines]
        text = "".join(f"{word} here {rest}\n" for word, _, rest in words)
        ran = subprocess.run([program(), "run", self.state], input=text.encode(), stdout=subprocess.PIPE, check=True)
        same([it for it in ran.stdout.decode().split("\n") if it.startswith("error")], [], text)

    def words(self, *words):
        """The words of a call."""
        return ["apply", "--state", self.state, "--root", self.root, *words]

    def begin(self, *words, given=None):
        """Begins to apply the state to the root."""

        def work():
            os.environ["FLEET_SHELL"] = self.bench.program
            with stops.stoppable():
                try:
                    return int(command_line.run(PARSER.parse_args(self.words(*words))))
                except stops.Stopped as stop:
                    return stops.ended_by(stop.number)

        return begun(work, given)

    def run(self, *words, status=0, given=None):
        """Applies the state to the root."""
        found = ended(*self.begin(*words, given=given))
        if status is not None:
            same(found.status, status, f"status of {words}: {found}")
        return found

    def manifest(self):
        """The lines of the manifest."""
        with open(self.root + MANIFEST, encoding="ascii") as file:
            return file.read().split("\n")[:-1]


def row(path, content):
    """The row of a manifest of a file or a link."""
    return f"link {content.target} {path}" if isinstance(content, Link) else f"file {hashlib.sha256(content.encode()).hexdigest()} {path}"


def all_below(root, without=()):
    """All that is below a folder, by its path in it: folders, files and links, with modes and contents."""
    found = {}
    for at, folders, names in os.walk(root):
        for name in [*names, *folders]:
            path = f"{at}/{name}"
            mode = os.lstat(path).st_mode
            if stat.S_ISLNK(mode):
                found[path[len(root) :]] = Link(os.readlink(path))
            elif stat.S_ISREG(mode):
                with open(path, "rb") as file:
                    found[path[len(root) :]] = (stat.S_IMODE(mode), file.read())
            else:
                found[path[len(root) :]] = (stat.S_IFMT(mode), stat.S_IMODE(mode))
    return {path: it for path, it in found.items() if not path.startswith(tuple(without) or ("\0",))}


def times_below(root):
    """When each entry below a folder was changed last, and which it is."""
    found = {root: os.lstat(root)}
    found.update((f"{at}/{it}", os.lstat(f"{at}/{it}")) for at, folders, names in os.walk(root) for it in [*names, *folders])
    return {path: (it.st_ino, it.st_mtime_ns, it.st_ctime_ns) for path, it in found.items()}
