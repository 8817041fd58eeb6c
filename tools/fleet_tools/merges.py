"""Lets the trees of some nodes meet in the program, and tells what all hold then."""
from dataclasses import dataclass
from typing import Dict, Optional, Tuple

from .answers import Answers, text_of
from .asking import needed
from .faults import Fault, printable
from .joins import NoJoin, joined
from .places import HOST, HOST_RULE, MOST_FILE_BYTES, Content, Link, Place
from .scripts import edit_line, node_word
from .trees import Grade, named_root

BASE = "base"


@dataclass(frozen=True)
class Node:
    """A node: its name, its writer's number, what it edits in order, which is places with their new contents, nothing for a removal, and the
    places of which its trees don't say what it has there."""

    name: str
    writer: int
    edits: Dict[Place, Optional[Content]]
    unsaid: Tuple[Place, ...] = ()

    def word(self):
        """Its name in scripts."""
        return node_word(self.name)


@dataclass(frozen=True)
class Held:
    """What all hold at a place: the version that stands there with its node and content, and the nodes that had edited it otherwise, with
    their versions and contents."""

    place: Place
    version: str
    node: Node
    content: Optional[Content]
    others: Tuple[Tuple[Node, str, Optional[Content]], ...]


@dataclass(frozen=True)
class Choice:
    """What is chosen for a place at which nodes differed: by which node, its content, and how. Without a content that is chosen it is said
    why not."""

    held: Held
    how: str
    node: Optional[Node] = None
    content: Optional[Content] = None


def entries_in(trees):
    """All that trees hold."""
    return {place: content for tree in trees for place, content in tree.entries.items()}


def unsaid_in(trees, places):
    """Those of some places that trees have and that couldn't be read or aren't taken, or whose folders couldn't: they aren't gone there."""
    heads = {(tree.host, it.path) for tree in trees for it in tree.told if it.grade in (Grade.LEFT_OUT, Grade.UNREAD)}
    return tuple(it for it in places if not heads.isdisjoint((it.host, path) for path in it.above()))


def nodes_of(named, base):
    """The nodes of some names with their trees. Without a base each edits all that its trees hold. With one all hold the base's files first,
    as edits of a node of its own, and each edits what its trees have otherwise: it puts what differs and removes what isn't there."""
    before = entries_in(base)
    found = [Node(BASE, 0, dict(sorted(before.items())))] if base else []
    for writer, (name, trees) in enumerate(named, 1):
        here, hosts = entries_in(trees), {it.host for it in trees}
        unsaid = unsaid_in(trees, sorted(before.keys() - here.keys()))
        places = sorted({*here, *(it for it in before if it.host in hosts)} - {*unsaid})
        edits = {it: here.get(it) for it in places if here.get(it) != before.get(it)}
        found.append(Node(name, writer, edits, unsaid))
    return found


def script_lines(nodes, choices=()):
    """The script: each node edits, what all held before first, and then all exchange what they have; then what is chosen, on top."""
    lines = [f"# {it.name} is the node {it.word()}".encode("ascii") for it in nodes if it.word() != it.name]
    lines += [f"node {it.word()} {it.writer}".encode("ascii") for it in nodes]
    for it in nodes:
        if it.writer and not nodes[0].writer:
            lines.append(f"merge {nodes[0].word()} {it.word()}".encode("ascii"))
        lines += [edit_line(it.word(), place, content) for place, content in it.edits.items()]
    lines.append(b"sweep")
    if choices:
        lines += [*(edit_line(it.node.word(), it.held.place, it.content) for it in choices), b"sweep"]
    return lines


def merged(nodes, program, choices=()):
    """What all nodes hold after they exchanged their edits, and what was chosen on top, place by place."""
    words = [it.word() for it in nodes]
    same = [f"same {words[0]} {it}".encode("ascii") for it in words[1:]]
    answers = Answers(program.answer([*script_lines(nodes, choices), *same, f"files {words[0]}".encode("ascii")]))
    for _ in nodes:
        answers.done()
    put = {}
    for node in nodes:
        if node.writer and not nodes[0].writer:
            answers.changed()
        put.update((version, (node, *edit)) for version, edit in zip(answers.versions(len(node.edits)), node.edits.items()))
    answers.done()
    if choices:
        versions = answers.versions(len(choices))
        put.update((version, (it.node, it.held.place, it.content)) for version, it in zip(versions, choices))
        answers.done()
    for _ in same:
        answers.is_same()
    own = {(node.name, place): version for version, (node, place, _) in reversed(put.items())}
    rows = needed(answers.files(), words[0])
    answers.ended()
    return [held_at(it, nodes, put, own) for it in rows]


def held_at(row, nodes, put, own):
    """What a row of `files` tells, beside what the nodes had put there: of each version its node, place and content, and each node's first
    version of a place."""
    winner, at, content = put.get(row.version, (None, None, None))
    if winner is None or str(at) != row.place or content_words(content) != row.words():
        raise Fault(f"the program holds {printable(f'{row.words()} at {row.place} as {row.version}')}, which no node had put")
    others = [it for it in nodes if it.writer and at in it.edits and it.edits[at] != content]
    return Held(at, row.version, winner, content, tuple((it, own[it.name, at], it.edits[at]) for it in others))


def preferred(held, node):
    """What a node has at a place where nodes differed, as a choice, if it edited that."""
    return Choice(held, "preferred", node, node.edits[held.place]) if node and held.place in node.edits else None


def text_joined(held, base):
    """The joined text of a place where nodes differed, as a choice; or why there is none. All must be files, the base's too."""
    before = base.edits.get(held.place) if base else None
    texts = [before, held.content, *(content for _, _, content in held.others)]
    if not all(isinstance(it, bytes) for it in texts):
        return Choice(held, "the base has no file there" if isinstance(held.content, bytes) and before is None else "not all are files")
    try:
        text = joined(texts[0], texts[1:])
    except NoJoin as why:
        return Choice(held, str(why))
    if len(text) > MOST_FILE_BYTES:
        return Choice(held, f"joined it would be over {MOST_FILE_BYTES:,} bytes")
    return Choice(held, "joined", held.node, text)


def choices_of(held, nodes, prefer, is_text):
    """What is chosen for each place at which nodes differed, by its place: a joined text where that is asked for and lines don't overlap, else
    what a preferred node has; where neither is, why not."""
    base = nodes[0] if not nodes[0].writer else None
    chosen = next((it for it in nodes if it.writer and it.name == prefer), None)
    found = {}
    for it in held:
        if it.others:
            text = text_joined(it, base) if is_text else None
            found[it.place] = text if text and text.node else preferred(it, chosen) or text or Choice(it, "")
    return found


def is_edit(choice):
    """Whether a choice asks for an edit: not where what is chosen stands already."""
    return choice.node is not None and choice.content != choice.held.content


def content_words(content):
    """What stands at a place, as `files` of the program says it."""
    if content is None:
        return "gone"
    return f"link {content.target}" if isinstance(content, Link) else f"file {len(content)}"


def content_object(content, is_shown=False):
    """The object of what stands at a place; of a file also its text, if that is to be shown."""
    if content is None:
        return {"gone": True}
    if isinstance(content, Link):
        return {"link": content.target}
    return {"file": len(content), **({"text": text_of(content)} if is_shown else {})}


def named_node(word):
    """A word of the call as a node's name, a host or nothing, and a root: `NODE=ROOT`, `NODE:HOST=ROOT`, or `ROOT` alone."""
    name, root = named_root(word)
    node, _, host = name.partition(":")
    for it in [*([node] if node else []), *([host] if ":" in name else [])]:
        if not HOST.fullmatch(it):
            raise Fault(f"{printable(it)}: no node's or host's name: {HOST_RULE}")
    return node, host, root


def named_nodes(words, has_base):
    """The names of nodes in the order of their first words, each with its hosts and roots."""
    found = {}
    for at, word in enumerate(words, 1):
        name, host, root = named_node(word)
        trees = found.setdefault(name or f"node{at}", {})
        if host in trees:
            raise Fault(f"{name}: two nodes of this name" if not host else f"{name}: two trees for the host {host}")
        trees[host] = root
    if has_base and BASE in found:
        raise Fault(f"{BASE}: two nodes of this name")
    scripted = [node_word(it) for it in found]
    for name in found:
        if scripted.count(node_word(name)) > 1:
            raise Fault(f"{name}: two nodes of its name in scripts, {node_word(name)}")
    return [(name, list(trees.items())) for name, trees in found.items()]


def named_base(words):
    """The hosts and roots of a base: `ROOT`, or `HOST=ROOT`."""
    found = {}
    for word in words:
        host, root = named_root(word)
        if host and not HOST.fullmatch(host):
            raise Fault(f"{printable(host)}: no host's name: {HOST_RULE}")
        if host in found:
            raise Fault(f"two bases for {f'the host {host}' if host else 'the whole fleet'}")
        found[host] = root
    return list(found.items())
