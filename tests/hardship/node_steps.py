"""The steps of a line of worked_threads, walked over the answers that were given.

A step says, for a node and its answers, in which states the node may be then; in none where it must not give these
answers.
"""
from dataclasses import replace

from node_model import REFUSED, TURNS, Node, Sight, Take, Wrong


def seat(node, said):
    """A seat is given while there is one, but where its reader's place was refused."""
    is_left = len(node.seen) < node.room
    if said == ["A2 NoSeat"]:
        return [replace(node, told=node.told + is_left)]
    return [node.with_seat()] if is_left and said == [f"seat {len(node.seen)}"] else []


def place_of(word):
    """The host that a word of a place names, empty for the fleet, and the last part of its path."""
    host, path = ("", word) if word.startswith("/") else word.split(":", 1)
    return host, path.rsplit("/", 1)[1]


def version_text(version):
    """A version as answers write it."""
    return f"{version[0]}.{version[1]}"


def taken(node, said, number, take, answer, pending):
    """A take is answered, pending or refused."""
    if said == [REFUSED]:
        return node.refused()
    if said == [pending]:
        return [node.pending(take)]
    if said != [answer]:
        return []
    after = node.answered(number, take)
    return [replace(after, token=after.shown.takes)]


def edit(node, said, number, place, _text):
    """An edit gets the next counter, where one is left."""
    take = Take(place_of(place))
    version = take.version(node)
    if version is None:
        return [node] if said == ["E1 VersionsSpent"] else []
    text = version_text(version)
    return taken(node, said, number, take, f"ok {text}", f"A3 Pending {text}")


def piece_of(place, counter, writer):
    """A piece of one edit."""
    return Take(place_of(place), (int(counter), int(writer)))


def absorb(node, said, number, place, counter, writer, _text):
    """A piece of one edit changes a place where its version is greater."""
    take = piece_of(place, counter, writer)
    changed = int(take.piece > node.accepted.held.get(take.place, (0, -1)))
    return taken(node, said, number, take, f"changed {changed}", "A3 Pending")


def learn(node, said, number):
    """A seat learns the last token that was given, and has then seen what it had and what the token tells."""
    if node.token is None:
        return [node] if said == ["no token"] else []
    after = node.sees(number, node.token)
    return [after] if said == [f"seen {after.seen[number]}"] else []


def view(node, said, number):
    """A view shows what was published, which the seat has then seen."""
    return [node.sees(number, node.shown.takes)] if said == [node.shown.told()] else []


def served(states, number, take):
    """How a message may go from each of these: a node, and how many were answered, pending and refused before."""
    for node, (answered, pending, refused) in states:
        if take.version(node) is None:
            yield node, (answered, pending, refused + 1)
            continue
        yield node.answered(number, take), (answered + 1, pending, refused)
        yield node.pending(take), (answered, pending + 1, refused)
        for after in node.refused():
            yield after, (answered, pending, refused + 1)


def serve(node, said, number, times, *messages):
    """Each message up to the end is answered, pending or refused; the gate is asked for each."""
    takes = messages[: messages.index(None)] if None in messages else messages
    often = min(int(times) + 1, TURNS)
    asked = "".join(f" {number}:{often}" for number in range(len(takes)))
    states = [(node, (0, 0, 0))]
    for take in takes:
        states = list(served(states, number, take))
    return [after for after, counts in states if said == [*told_counts(counts), "asked for" + asked]]


def told_counts(counts):
    """How the counts of an inbox are told."""
    return [f"{word} {count}" for word, count in zip(("answered", "pending", "refused"), counts)]


STEPS = {"seat": seat, "edit": edit, "absorb": absorb, "learn": learn, "view": view, "serve": serve}

# How many words stand behind each, but for those of an inbox.
SIZES = {"seat": 0, "edit": 3, "absorb": 5, "learn": 1, "view": 1, "serve": 2}

# How many answers a step has, where it isn't one.
ANSWERS = {"serve": 4}


def messages_of(words):
    """The messages of an inbox, up to the word `+` or the last one: takes, and None for the end of the service."""
    while words:
        kind = words.pop(0)
        if kind == "+":
            return
        size = {"edit": 2, "absorb": 4, "end": 0}[kind]
        given, words[:] = words[:size], words[size:]
        yield Take(place_of(given[0])) if kind == "edit" else piece_of(*given[:3]) if given else None


def steps_of(words):
    """The steps that words write, each with its words; what stands behind them is left."""
    while words and words[0] in STEPS:
        kind = words.pop(0)
        given, words[:] = words[: SIZES[kind]], words[SIZES[kind] :]
        if given:
            given[0] = int(given[0])
        yield kind, [*given, *(messages_of(words) if kind == "serve" else ())]


def step(nodes, kind, given, lines):
    """In which states a node may be after a step, of those in which it may have been; its answers are taken."""
    if given and given[0] >= len(nodes[0].seen):
        said, wanted = lines[:1], ["no seat"]
        after = nodes if said == wanted else []
    else:
        said = lines[: ANSWERS.get(kind, 1)]
        after = [state for node in nodes for state in STEPS[kind](node, said, *given)]
    del lines[: len(said)]
    if not after:
        raise Wrong(f"{kind} is answered by {said}")
    return after


def close(nodes, said):
    """A node is closed, at the second time where the first was refused; all that was accepted is there. How often it
    told that memory was refused."""
    told = [node.told for node in nodes if said in ends_of(node)]
    if not told:
        raise Wrong(f"closed with {said}")
    return min(told) + said.count(REFUSED)


def ends_of(node):
    """The answers with which a node may end."""
    closed = "closed " + node.accepted.told()
    return [closed], [REFUSED, closed], [REFUSED, REFUSED]


def opened(words, lines):
    """The node that a line opens, with what it answers of its blank; None where it must not open one."""
    call, writer, room = words.pop(0), int(words.pop(0)), int(words.pop(0))
    held = {}
    if call == "over":
        place, version = place_of(words.pop(0)), (int(words.pop(0)), int(words.pop(0)))
        held[place] = version
        words.pop(0)
    told = int(lines[:1] == ["no blank: out of memory"])
    del lines[:told]
    if not 1 <= room <= 64:
        return None
    return Node(writer, room, Sight(held), Sight(held), told=told)


def walk(line, said, refusals):
    """Goes through a line and its answers, and raises Wrong at one that must not be where so much was refused. It gives
    how often the answers tell of it."""
    words, lines = line.split(), list(said)
    node = opened(words, lines)
    if node is None:
        if lines != ["A1 Seats"]:
            raise Wrong(f"opened with {lines}")
        return 0
    nodes = [node]
    for kind, given in steps_of(words):
        nodes = step(nodes, kind, given, lines)
    if words == ["short"] and nodes[0].seen and lines.pop(0) != "A4 SeatsOut 1":
        raise Wrong("closed without a seat")
    told = close(nodes, lines)
    if told > refusals:
        raise Wrong(f"{told} were told of, and {refusals} refused")
    return told

