"""Writes what a node of a script shows as a tree."""
import os
from dataclasses import dataclass
from typing import Dict, List

from .answers import Answers
from .asking import needed
from .faults import Fault
from .modes import OWN, WIDEST
from .places import Content, Link, Place, place_of
from .scripts import node_word, remarked_hosts
from .wholes import umask

# Commands that change no node, so that a script's nodes are the same without them; the answers to all others have one line.
READING = ("files", "text", "cat", "show", "units", "tree", "list", "plan", "same", "crowd", "workers")
MOST_LINE_BYTES = 300_000

# Where in a tree the trees of hosts stand.
HOSTS = "hosts"


def changing_lines(script):
    """The lines of a script whose answers have one line each, and without which its nodes would be others."""
    *lines, last = script.split(b"\n")
    for line in [*(it[:-1] if it.endswith(b"\r") else it for it in lines), last]:
        words = line.split(b" ")
        first = next((it for it in words if it), b"")
        if first and not line.startswith(b"#") and first.decode("latin-1") not in READING and len(line) <= MOST_LINE_BYTES:
            yield line


@dataclass(frozen=True)
class Shown:
    """What a node shows: contents by place, the places that the node has them at, and the crossed units."""

    entries: Dict[Place, Content]
    origins: Dict[Place, Place]
    crossed: List[str]


def shown(script, node, host, program):
    """What a node shows when the script is done: all visible places with their contents, or, for a host, those of the one tree that it sees, as
    the fleet's."""
    lines, word = list(changing_lines(script)), node_word(node)
    # a carriage return before a line feed is none of the line's own
    written = [it + b"\r" if it.endswith(b"\r") else it for it in lines]
    answers = asked(program, written, [f"files {word}"])
    places = {it.place: it.length for it in needed(answers.files(), node) if it.length >= 0 or it.target}
    answers.ended()
    if host is not None and host not in remarked_hosts(script) and not any(it.startswith(f"{host}:") for it in places):
        raise Fault(f"--host {host}: {node} has no place of this host")
    lengths = {place: length for place, length in places.items() if length >= 0}
    answers = asked(program, written, [f"text {word} {it}" for it in places] if host is None else [f"tree {word}@{host}"])
    rows, crossed = (dict(answers.text(lengths) for _ in places), []) if host is None else needed(answers.tree(lengths, host), node)
    answers.ended()
    entries = entries_of(rows)
    return Shown(entries, {it: it._replace(host=host) if host is not None and f"{host}:{it}" in places else it for it in entries}, crossed)


def entries_of(rows):
    """What stands at places that answers tell, each with bytes or a link's target."""
    return {place_of(place): content if isinstance(content, bytes) else Link(content) for place, content in rows.items()}


def asked(program, written, questions):
    """The answers to questions behind a script, whose own are passed over."""
    answers = Answers(program.answer([*written, *(it.encode("ascii") for it in questions)]))
    answers.changes(len(written))
    return answers


class Writer:
    """Writes places into a new tree, of the modes that are known, the others of one mode. Nothing is written through a link of it."""

    def __init__(self, root, modes, is_own):
        self.root = root
        self.modes = modes
        self.mode = (OWN if is_own else WIDEST) & ~umask()
        self.folders = {self.root}
        self.blocked = []

    def write(self, entries):
        """Writes all, in order; what can't stand beside what stands there already is kept for `blocked`."""
        for place, content in sorted(entries.items()):
            base = os.path.join(self.root, HOSTS, place.host) if place.host else self.root
            try:
                self.write_at(base + place.path(), place, content)
            except OSError as fault:
                raise Fault(f"{place}: not written: {fault.strerror}; nothing is left of the tree") from fault

    def write_at(self, path, place, content):
        """Writes a file or a link, where nothing stands in the way."""
        if not self.make_folders(os.path.dirname(path)) or os.path.lexists(path):
            self.blocked.append(str(place))
        elif isinstance(content, Link):
            os.symlink(content.target, path)
        else:
            with open(os.open(path, os.O_WRONLY | os.O_CREAT | os.O_EXCL | os.O_CLOEXEC, OWN), "wb") as file:
                file.write(content)
                os.fchmod(file.fileno(), self.mode if self.modes.get(place) is None else self.modes[place] & WIDEST)

    def make_folders(self, path):
        """Makes a folder and those above it; false where something else stands in the way."""
        if path in self.folders:
            return True
        if not self.make_folders(os.path.dirname(path)):
            return False
        if os.path.lexists(path):
            return False
        os.mkdir(path)
        self.folders.add(path)
        return True
