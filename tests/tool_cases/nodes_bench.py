"""What cases over state files work with: nodes in files, calls of `fleet`, and far sides of exchanges."""
import os
import signal
import socket
import subprocess
import sys
import time

from repository import ROOT

from .bench import same
from .calls import Call

PROGRAM = os.path.abspath(os.environ.get("FLEET_NODE") or os.path.join(ROOT, "crates", "fleet_node", "out", "fleet_node"))
# What the surroundings tell of states is none of a case's.
APART = ("FLEET_STATE", "STATE_DIRECTORY", "VISUAL", "EDITOR", "FLEET_SSH")


def begun(*words, env=(), **more):
    """A call of `fleet` that runs, in surroundings without states."""
    around = {it: said for it, said in os.environ.items() if it not in APART}
    return Call(words, {**around, "FLEET_NODE": PROGRAM, **dict(env)}, **more)


def fleet(*words, status=0, **more):
    """Runs `fleet`, which must end with this status, or, where none is wanted, with any."""
    found = begun(*words, **more).ended()
    same(found.status, found.status if status is None else status, f"status of {words}: {found}")
    return found


def program(*words, given=b"", status=0):
    """What the program writes, which must end with this status; while what a killed process began still has the file, it waits."""
    until = time.monotonic() + 20
    while True:
        ran = subprocess.run([PROGRAM, *words], input=given, capture_output=True, check=False)
        if ran.stderr != b"fleet: Z4 Busy\n" or time.monotonic() > until:
            break
        time.sleep(0.05)
    same(ran.returncode, status, f"status of the program with {words}: {ran}")
    return ran.stdout


class Node:
    """A node in a file."""

    def __init__(self, file, writer):
        self.file, self.writer, self.known = file, writer, ""
        program("init", file, str(writer))

    def fleet(self, verb, *words, **more):
        """Runs a verb over its file."""
        return fleet(verb, "--state", self.file, *words, **more)

    def call(self, verb, *words, **more):
        """Begins a verb over its file."""
        return begun(verb, "--state", self.file, *words, **more)

    def script(self, *lines):
        """The answers to a script, in which the node is `here`."""
        return program("run", self.file, given="".join(f"{it}\n" for it in lines).encode()).decode().splitlines()

    def files(self):
        """What it holds: a version and what stands there, by place."""
        rows = [it.split(" ", 2) for it in self.script("files here")[:-1]]
        return {place: (version, what) for place, version, what in rows}

    def text(self, place):
        """The bytes of a file that stands at a place."""
        version, what = self.files()[place]
        same(what.startswith("file "), True, what)
        return program("content", self.file, place, *version.split("."))

    def identity(self):
        """The identity of what it holds."""
        return program("id", self.file).decode().strip()

    def name(self):
        """Its name in a folder: its number and the first digits of its mark."""
        if not self.known:
            writer, mark, _ = program("peers", self.file).decode().splitlines()[0].split(" ")
            self.known = f"{writer}-{mark[:8]}"
        return self.known

    def begin(self, *words):
        """The program over its file, which runs."""
        return subprocess.Popen([PROGRAM, *words[:1], self.file, *words[1:]], stdin=subprocess.PIPE, stdout=subprocess.PIPE, stderr=subprocess.PIPE)


class Held:
    """While this lasts, another process has a node's file open."""

    def __init__(self, node):
        self.node = node

    def __enter__(self):
        self.process = self.node.begin("exchange", "--call")
        self.process.stdout.read(1)
        return self

    def free(self):
        """Lets it go."""
        self.process.kill()
        self.process.communicate()

    def __exit__(self, *_):
        self.free()


def script_at(bench, name, text):
    """A file that the shell runs."""
    at = bench.path(name)
    with open(at, "w", encoding="utf-8") as file:
        file.write(f"#!/bin/sh\n{text}")
    os.chmod(at, 0o755)
    return at


def counting(bench):
    """The surroundings in which each run of the program adds a line to a file, and that file."""
    runs = bench.path("runs")
    return {"FLEET_NODE": script_at(bench, "counting", f'echo "$1" >> "{runs}"\nexec "{PROGRAM}" "$@"\n')}, runs


def until_lines(path, count):
    """Waits until a file has so many lines."""
    until = time.monotonic() + 60
    while time.monotonic() < until:
        if os.path.exists(path):
            with open(path, "rb") as file:
                if file.read().count(b"\n") >= count:
                    return
        time.sleep(0.02)
    raise AssertionError(f"{path}: never {count} lines")


# An `ssh` that drops its options and its machine, and has the shell run what is left, as the far one would.
SSH = """while [ "$1" = -o ]; do shift 2; done
[ "$1" = away ] && { echo 'ssh: Could not resolve hostname away' >&2; exit 255; }
shift
%sexec sh -c "$*"
"""


def ssh(bench, before="", name="ssh"):
    """The surroundings in which ssh runs what it is told here; before that it does something."""
    os.makedirs(bench.path("bin"), exist_ok=True)
    if not os.path.lexists(bench.path("bin/fleet_node")):
        script_at(bench, "bin/fleet_node", f'exec "{PROGRAM}" "$@"\n')
    return {"FLEET_SSH": script_at(bench, f"bin/{name}", SSH % before), "PATH": f"{bench.path('bin')}:{os.environ['PATH']}"}


# Carries so many bytes from its input to its output, each at once.
CUTTER = """import os, sys
left = int(sys.argv[1])
while left > 0 and (block := os.read(0, min(left, 65536))):
    os.write(1, block)
    left -= len(block)
"""


def cutter(count):
    """Shell words that run the command there, of whose output so many bytes come."""
    return f"""sh -c "$*" | {sys.executable} -S -E -c '{CUTTER}' {count}\nexit 0\n"""


class Server:
    """While this lasts, a process listens, and does for each connection what systemd does for a socket unit with Accept=yes: it runs these words
    with the connection as their standard input and output; without words it says nothing."""

    def __init__(self, *words, path=None):
        self.words, self.path = words, path

    def __enter__(self):
        server = socket.socket(socket.AF_UNIX if self.path else socket.AF_INET)
        server.bind(self.path or ("127.0.0.1", 0))
        server.listen()
        self.port = None if self.path else server.getsockname()[1]
        self.process = os.fork()
        if self.process == 0:
            try:
                self.serve(server)
            finally:
                os._exit(0)
        server.close()
        return self

    def serve(self, server):
        """Accepts connections until it is killed."""
        kept = []
        while True:
            met, _ = server.accept()
            if self.words:
                subprocess.Popen(self.words, stdin=met, stdout=met, stderr=subprocess.DEVNULL)
                met.close()
            else:
                kept.append(met)

    def __exit__(self, *_):
        os.kill(self.process, signal.SIGKILL)
        os.waitpid(self.process, 0)
        if self.path:
            os.unlink(self.path)
