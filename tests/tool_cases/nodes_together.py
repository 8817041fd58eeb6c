"""Fleets of three and of ten machines as folders: random edits, exchanges over a folder, over ssh and over sockets, files applied, and processes
killed in the midst. In the end all hold the same, which is what was answered, and each folder is the tree of its host."""
import os
import random
import shutil
import signal
import socket
import subprocess
import sys
import threading
import time

from repository import ROOT

from .bench import FLEET, E, same

NODE = os.path.abspath(os.environ.get("FLEET_NODE") or os.path.join(ROOT, "crates", "fleet_node", "out", "fleet_node"))
UNITS = 12
# How long a process runs before it is killed, at most, in seconds: about as long as it takes.
MOST_SECONDS = 0.4
# Of ssh only what these cases need: its options and the target are dropped, and the command runs here.
SSH = """#!/bin/sh
while [ "${1#-}" != "$1" ]; do case $1 in -o) shift 2;; *) shift;; esac; done
shift
exec sh -c "$*"
"""


class Machine:
    """A machine: its state, its root, and the socket at which others reach it."""

    def __init__(self, bench, number):
        self.host, self.writer = f"m{number}", number + 1
        self.root = os.path.join(bench.room, self.host)
        self.state, self.at = os.path.join(self.root, "node"), os.path.join(self.root, "socket")
        self.around = {**os.environ, "FLEET_NODE": NODE, "FLEET_SHELL": bench.program, "FLEET_STATE": self.state, "FLEET_SSH": bench.path("ssh"),
                       "PATH": f"{os.path.dirname(NODE)}:{os.environ['PATH']}"}
        os.makedirs(self.root)
        self.program("init", str(self.writer))

    def program(self, word, *words, given=b""):
        """What the program writes over the state."""
        return subprocess.run([NODE, word, self.state, *words], input=given, stdout=subprocess.PIPE, check=True).stdout

    def identity(self):
        return self.program("id").decode().strip()

    def begin(self, *words):
        """Begins a verb of the tool."""
        return subprocess.Popen([sys.executable, FLEET, *words], env=self.around, stdout=subprocess.PIPE, stderr=subprocess.STDOUT)

    def apply(self):
        """Begins to write the files."""
        return self.begin("apply", "--host", self.host, "--root", self.root)

    def edit(self, maker, model):
        """Makes an edit, and notes in the model what was answered: of each place the greatest version and what it wrote."""
        unit = f"u{maker.randrange(UNITS):02}.service"
        scope = maker.choice(["", "", f"m{maker.randrange(3)}:"])
        place = scope + maker.choice([f"{E}/{unit}", f"{E}/{unit}.d/{maker.randrange(2)}.conf", f"{E}/multi-user.target.wants/{unit}"])
        if ".wants/" in place:
            line, wrote = f"link here {place} ../{unit}", f"../{unit}"
        else:
            wrote = f"[Service]\\nExecStart=/bin/true {maker.randrange(1_000_000)}\\n"
            line = f"put here {place} {wrote}"
        if maker.random() < 0.2:
            line, wrote = f"remove here {place}", None
        answer = self.program("run", given=f"{line}\n".encode()).decode().split()
        if answer[0] == "ok":
            version = tuple(map(int, answer[1].split(".")))
            model[place] = max(model.get(place, ((0, 0), None)), (version, wrote), key=lambda it: it[0])


class Door:
    """Hands each connection at a machine's socket to a program of its own, as a socket unit with Accept=yes does."""

    def __init__(self, machine):
        self.machine, self.listener = machine, socket.socket(socket.AF_UNIX)
        self.listener.bind(machine.at)
        self.listener.listen()
        threading.Thread(target=self.serve, daemon=True).start()

    def serve(self):
        while True:
            try:
                connection, _ = self.listener.accept()
            except OSError:
                return
            with connection:
                subprocess.Popen([NODE, "exchange", self.machine.state], stdin=connection, stdout=connection, stderr=subprocess.DEVNULL)

    def close(self):
        self.listener.shutdown(socket.SHUT_RDWR)
        self.listener.close()


class Fleet:
    """Machines, what was answered at them, and chance."""

    def __init__(self, bench, count):
        self.bench, self.maker, self.model = bench, random.Random(count), {}
        with open(bench.path("ssh"), "w", encoding="ascii") as file:
            file.write(SSH)
        os.chmod(bench.path("ssh"), 0o755)
        os.mkdir(bench.path("share"))
        self.machines = [Machine(bench, it) for it in range(count)]
        self.doors = [Door(it) for it in self.machines]

    def sync(self, machine, other, way):
        """Begins an exchange of one machine with another, on one of the three ways."""
        words = {"dir": ("--dir", self.bench.path("share")), "ssh": ("--ssh", other.host, "--state-there", other.state),
                 "socket": ("--socket", other.at)}[way]
        return machine.begin("sync", "--seconds", "20", *words)

    def step(self):
        """An edit, or an exchange or an apply that may be killed."""
        one, other = self.maker.sample(self.machines, 2)
        chance = self.maker.random()
        if chance < 0.6:
            one.edit(self.maker, self.model)
            return
        ran = one.apply() if chance > 0.85 else self.sync(one, other, self.maker.choice(["dir", "ssh", "socket"]))
        if self.maker.random() < 0.6:
            time.sleep(self.maker.random() * MOST_SECONDS)
            ran.send_signal(signal.SIGKILL)
        ran.communicate()

    def settle(self):
        """Exchanges that nobody disturbs, around the ring and back, so that each hears of all."""
        ways = ["dir", "ssh", "socket"]
        ring = [*zip(self.machines, self.machines[1:])]
        for at, (one, other) in enumerate([*ring, *((it, before) for before, it in ring[::-1])]):
            ran = self.sync(one, other, ways[at % len(ways)] if at % len(ways) else "ssh")
            told = ran.communicate()[0].decode()
            same(ran.returncode, 0, f"{one.host} with {other.host}: {told}")

    def compare(self):
        """All hold the same, which is what was answered; and each root has the tree of its host."""
        same({it.identity() for it in self.machines}, {self.machines[0].identity()})
        held = [it.split(" ") for it in self.machines[0].program("run", given=b"files here\n").decode().splitlines()[:-1]]
        wanted = {place: (".".join(map(str, version)), wrote is not None) for place, (version, wrote) in self.model.items()}
        same({it[0]: (it[1], it[2] != "gone") for it in held}, wanted)
        for it in self.machines:
            ran = it.apply()
            told = ran.communicate()[0].decode()
            same(ran.returncode, 0, f"{it.host}: {told}")
            tree = self.bench.path(f"tree-{it.host}")
            it.program("tree", tree, "--host", it.host)
            same(below(f"{it.root}{E}"), below(f"{tree}{E}"), it.host)

    def close(self):
        for it in self.doors:
            it.close()


def below(folder):
    """What stands below a folder: by path bytes, or a link's target."""
    found = {}
    for at, _, names in os.walk(folder):
        for it in [*names, *(name for name in os.listdir(at) if os.path.islink(f"{at}/{name}"))]:
            path = os.path.join(at, it)
            with open(path, "rb") if not os.path.islink(path) else open(os.devnull, "rb") as file:
                found[path[len(folder) :]] = os.readlink(path) if os.path.islink(path) else file.read()
    return found


def lives(bench, count, steps):
    """A fleet of so many machines, for so many steps, and then in peace."""
    fleet = Fleet(bench, count)
    try:
        for _ in range(steps):
            fleet.step()
        fleet.settle()
        fleet.compare()
    finally:
        fleet.close()
        shutil.rmtree(bench.path("share"), ignore_errors=True)


def three_machines(bench):
    """Three machines come to one state, and each folder is the tree of its host."""
    lives(bench, 3, 60)


def ten_machines(bench):
    """So do ten."""
    lives(bench, 10, 60)


CASES = [three_machines, ten_machines]
