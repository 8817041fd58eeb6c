"""A node in a file, as the verbs use it: what it holds, edits of it, its log and its peers."""
import os
import re
from dataclasses import dataclass

from ..answers import Answers, Held
from ..asking import needed
from ..exports import entries_of
from ..faults import Fault, printable
from ..places import PLACE, Link
from ..scripts import edit_line, script_of
from .programs import ran

# The node of a file in the scripts that it runs.
HERE = "here"
VARIABLE = "FLEET_STATE"
FIRST = "/var/lib/fleet/node"

TRIES = 5

# The refusal of a place at which nothing stands.
NOT_VISIBLE = "E3"

LOGGED = re.compile(rf"({PLACE}) ([0-9]+\.[0-9]+) @([0-9]+) (file [0-9]+|link [!-~]+|gone)")
PEER = re.compile(r"([0-9]+) ([0-9a-f]{32}) (here|told|@[0-9]+)")


class NoPlace(Exception):
    """The refusal of what is no place."""

    def __init__(self, refusal):
        super().__init__(str(refusal))
        self.refusal = refusal


@dataclass(frozen=True)
class Logged:
    """An edit that stands in the log: its place, its version, when it was committed, in seconds since 1970, and what it wrote, as `history` of
    the program says it."""

    place: str
    version: str
    time: int
    what: str


@dataclass(frozen=True)
class Peer:
    """A node: the number under which it writes, the mark of its file, and when it was last met, in seconds since 1970; 0 if it was only told of."""

    writer: int
    mark: str
    seen: int = 0


def state_path(named):
    """The state file that is meant: the one that is named, or the one of the surroundings, or the machine's."""
    folder = os.environ.get("STATE_DIRECTORY", "").split(":")[0]
    return os.path.abspath(named or os.environ.get(VARIABLE) or (os.path.join(folder, "node") if folder else FIRST))


class NodeFile:
    """The file of a node. Each call runs the program once."""

    def __init__(self, path):
        self.path = path

    def run(self, word, *words, given=b""):
        """What the program writes when it does something over the file."""
        return ran(self.path, word, words, given)

    def answers(self, lines):
        """The answers to the lines of a script, in which the node is `here`."""
        return Answers(self.run("run", given=script_of(lines)))

    def identity(self):
        """The identity of what it holds: 64 hexadecimal digits."""
        return self.run("id").decode("ascii").strip()

    def held(self):
        """What it holds, place by place, removals too."""
        answers = self.answers([f"files {HERE}".encode("ascii")])
        found = needed(answers.files(), HERE)
        answers.ended()
        return found

    def visible(self):
        """The places at which something stands, with what does, as `Held` tells it."""
        return {it.place: it for it in self.held() if it.length >= 0 or it.target}

    def contents(self):
        """What stands at each place: bytes or a link."""
        places = [it.place for it in self.held() if it.length >= 0 or it.target]
        for _ in range(TRIES):
            answers = self.answers([f"files {HERE}".encode("ascii"), *(f"text {HERE} {it}".encode("ascii") for it in places)])
            rows = [it for it in needed(answers.files(), HERE) if it.length >= 0 or it.target]
            if [it.place for it in rows] == places:
                lengths = {it.place: it.length for it in rows if it.length >= 0}
                found = entries_of(dict(answers.text(lengths) for _ in places))
                answers.ended()
                return found
            places = [it.place for it in rows]  # another process edited it meanwhile
        raise Fault(f"{printable(self.path)}: it changes while it is read")

    def text(self, held: Held):
        """The bytes of a file, or the target of a link, that stands at a place."""
        answers = self.answers([f"text {HERE} {held.place}".encode("ascii")])
        _, content = answers.text({held.place: held.length} if held.length >= 0 else {})
        answers.ended()
        return content

    def at(self, place):
        """What is held at a place, a removal too, and what stands there: bytes, a link, or nothing. Both are nothing where it was never edited;
        instead of them, the refusal of what is no place."""
        answers = self.answers([f"files {HERE}".encode("ascii"), f"text {HERE} {place}".encode("ascii")])
        held = {it.place: it for it in needed(answers.files(), HERE)}
        refusal, content = answers.refused(), None
        if refusal and refusal.code != NOT_VISIBLE:
            raise NoPlace(refusal)
        if not refusal:
            _, found = answers.text({place: held[place].length} if held[place].length >= 0 else {})
            content = found if isinstance(found, bytes) else Link(found)
        answers.ended()
        return held.get(place), content

    def edit_over(self, place, content):
        """Edits a place, as `edit` does. What was held there until then, and what the edit comes to."""
        answers = self.answers([f"files {HERE}".encode("ascii"), edit_line(HERE, place, content)])
        held = {it.place: it for it in needed(answers.files(), HERE)}
        found = answers.refused() or answers.versions(1)[0]
        answers.ended()
        return held.get(place), found

    def edit(self, edits):
        """Edits places, each with bytes, a link, or nothing for a removal. What each comes to: its version, or a refusal, in order."""
        answers = self.answers([edit_line(HERE, place, content) for place, content in edits])
        found = [answers.refused() or answers.versions(1)[0] for _ in edits]
        answers.ended()
        return found

    def take(self, piece):
        """Takes a piece, and returns how many places changed."""
        answers = Answers(self.run("take", given=piece))
        found = answers.number_changed()
        answers.ended()
        return found

    def tree(self, host):
        """What a host sees: contents by place, as the fleet's, and the crossed units. Without a host, what the fleet shows."""
        node = f"{HERE}@{host}" if host else HERE
        answers = self.answers([f"files {HERE}".encode("ascii"), f"tree {node}".encode("ascii")])
        lengths = {it.place: it.length for it in needed(answers.files(), HERE) if it.length >= 0}
        rows, crossed = needed(answers.tree(lengths, host), node)
        answers.ended()
        return entries_of(rows), crossed

    def log(self):
        """All edits that stand in its log, in the order of places and versions."""
        return [logged_of(it) for it in self.run("log").decode("ascii").splitlines()]

    def content(self, place, version):
        """The bytes that the edit of a place with this version put: of a file, or a link's target."""
        return self.run("content", place, *version.split("."))

    def peers(self):
        """The node itself, and those that it met or was told of."""
        own, *others = [peer_of(it) for it in self.run("peers").decode("ascii").splitlines()]
        return own, others


def logged_of(line):
    """The edit that a line of the log tells."""
    found = LOGGED.fullmatch(line)
    if not found:
        raise Fault(f"the program told `{printable(line)}` of its log, which is no edit")
    return Logged(found[1], found[2], int(found[3]), found[4])


def peer_of(line):
    """The node that a line of peers tells."""
    found = PEER.fullmatch(line)
    if not found:
        raise Fault(f"the program told `{printable(line)}` of its peers, which is none")
    return Peer(int(found[1]), found[2], int(found[3][1:]) if found[3].startswith("@") else 0)
