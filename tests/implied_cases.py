"""The cases of tests/implied.txt, which tells how they are written, and answers as lines of a case."""
import os
import re
import subprocess

import unit_model as model

FILE = os.path.join(os.path.dirname(os.path.realpath(__file__)), "implied.txt")
SHORT = dict(zip("ERLU", model.DIRECTORIES))
ESCAPES = {"\\n": "\n", "\\\\": "\\"}
TARGETS = {"U/sysinit.target": "[Unit]\n", "U/basic.target": "[Unit]\nRequires=sysinit.target\nAfter=sysinit.target\n",
           "U/shutdown.target": "[Unit]\nDefaultDependencies=no\n"}
PROFILE = "manager"
KINDS = model.PROFILES[PROFILE].graph.inverses


class Case:
    """A case: its store, the requests of its plans as lists of a target and what runs, the lines that the rules must say, and those that
    systemd says."""

    def __init__(self, name):
        self.name, self.store, self.requests, self.lines, self.said = name, {}, [], [], []

    def put(self, path, content):
        self.store[SHORT[path[0]] + path[1:]] = content

    def read(self, line):
        word, _, rest = line.partition(" ")
        path, _, text = rest.partition(" ")
        if word == "targets":
            for path, text in TARGETS.items():
                self.put(path, text)
        elif word == "put":
            self.put(path, re.sub(r"\\.", lambda it: ESCAPES[it[0]], text))
        elif word == "link":
            self.put(path, model.Link(text))
        elif word == "-":
            self.said.append(rest)
        elif word != "--":
            self.lines.append(rest if word == "+" else line)
            self.said += [] if word == "+" else [line]
            request = re.match(r"plan (.*?): ", self.lines[-1])
            if request and request[1].split() not in self.requests:
                self.requests.append(request[1].split())

    def script(self):
        """The lines of a script that puts the tree into a node."""
        edits = [f"link a {place} {it}" if isinstance(it, model.Link) else f"put a {place} {spelled(it)}" for place, it in self.store.items()]
        return ["node a 1", *edits]


def spelled(text):
    """A text as a script spells it."""
    return text.replace("\\", "\\\\").replace("\n", "\\n")


def cases():
    with open(FILE, encoding="ascii") as it:
        lines = it.read().splitlines()
    found = []
    for line in lines:
        if line.startswith("== "):
            found.append(Case(line[3:]))
        elif found and line:
            found[-1].read(line)
    return found


# ---- answers


def asked(program, script, node, requests):
    """How a program answers each plan's question and for all units, by manager, behind a script of lines that each have one line as answer."""
    questions = [f"profile {PROFILE}", *[f"plan {node} {' '.join(it)}" for it in requests], f"units {node}"]
    text = "".join(f"{it}\n" for it in [*script, *questions]).encode("latin-1")
    ran = subprocess.run([program], input=text, stdout=subprocess.PIPE, check=False)
    lines, answers = ran.stdout.decode("latin-1").split("\n")[len(script) + 1 :], []
    for _ in requests:
        size = next((at for at, it in enumerate(lines, 1) if it == "end" or it.startswith("error: ")), len(lines))
        answers.append(lines[:size])
        lines = lines[size:]
    return [*answers, lines]


def edge_lines(answer):
    """The edges of all loaded units that an answer tells, a line for each unit and kind."""
    found, name, is_loaded = [], "", False
    for line in answer:
        word, _, rest = line.partition(" ")
        if word == "unit":
            name = rest
        elif word == "status":
            is_loaded = rest.startswith(("loaded", "built-in"))
        elif is_loaded and word[-1:] == ":" and word[:-1] in KINDS:
            found.append(f"{name} {line}")
    return found


def plan_line(request, answer):
    """What a plan stops and starts, each in the order of names, or the name of its refusal."""
    words = [it.split(" ") for it in answer]
    said = [word for it in words if it[0] == "error:" for word in ("refused", *it[2:3])]
    for step in ("stop", "start"):
        names = sorted(it[1] for it in words if it[0] == step)
        said += [step, *names] if names else []
    return f"plan {' '.join(request)}: {' '.join(said)}"
