"""What is printed of nodes that met: what all hold, and the places at which they differed."""
from .merges import content_object, content_words
from .scripts import spelled


def told(held, first, choices, is_shown):
    """The lines on what all hold: each place with its version, node and content, and behind them the places at which nodes differed, each as
    it stood before anything was chosen."""
    wide = max([len(str(it.place)) for it in held], default=0)
    for it in held:
        yield f"{str(it.place):{wide}} {it.version} {it.node.name} {content_words(it.content)}"
    now = {it.place: it for it in held}
    differed = [it for it in first if it.others]
    for it in differed:
        yield differed_line(it, now[it.place], choices.get(it.place))
        if is_shown:
            yield from contents(it)
    yield from summary(held, differed, choices)


def objects(held, first, choices, is_shown):
    """The objects of what all hold at each place: the nodes over which it stands, and, where nodes differed before anything was chosen, how that
    was settled, or why not."""
    differed = {it.place for it in first if it.others}
    for it in held:
        choice = choices.get(it.place)
        settled = {"settled": choice.how if is_settled(it.place, choices) else None} if it.place in differed else {}
        why = {"why": choice.how} if choice and choice.how and not choice.node else {}
        over = [{"node": node.name, "version": version, **(content_object(content, True) if is_shown else {})}
                for node, version, content in it.others]
        own = content_object(it.content, is_shown and it.place in differed)
        yield {"place": str(it.place), "version": it.version, "node": it.node.name, **own, "over": over, **settled, **why}


def is_settled(place, choices):
    """Whether it was chosen what stands at a place."""
    return place in choices and choices[place].node is not None


def differed_line(before, now, choice):
    """The line on a place at which nodes differed."""
    if choice and choice.how == "joined":
        return f"joined: {now.place}: {owned(now)} stands, of {' and '.join([owned(before), *lost(before)])}"
    if choice and choice.node:
        return f"preferred: {now.place}: {owned(now)} stands, over {', '.join(lost(now))}"
    why = f"; not joined: {choice.how}" if choice and choice.how else ""
    return f"differed: {now.place}: {owned(now)} stands, over {', '.join(lost(now))}{why}"


def owned(held):
    """The node and the version that stand at a place."""
    return f"{held.node.name}'s {held.version}"


def lost(held):
    """The nodes and versions that don't stand at a place."""
    return [f"{node.name}'s {version}" for node, version, _ in held.others]


def contents(held):
    """The lines on what each node had at a place: of a file its own lines, spelled as in scripts."""
    for node, content in [(held.node, held.content), *((node, content) for node, _, content in held.others)]:
        yield f"  {node.name}: {content_words(content)}"
        if isinstance(content, bytes) and content:
            *whole, last = content.split(b"\n")
            yield from (f"    {spelled(it).decode('ascii')}" if it else "" for it in whole)
            if last:
                yield f"    {spelled(last).decode('ascii')} (no line feed)"


def counter(version):
    """The counter of a version."""
    return int(version.partition(".")[0])


def summary(held, differed, choices):
    """The last lines: why what stands stands where nothing was chosen, and counts."""
    left = [it for it in differed if not is_settled(it.place, choices)]
    if left:
        equal = sum(any(counter(version) == counter(it.version) for _, version, _ in it.others) for it in left)
        ways = [(len(left) - equal, "the node stands that edited more places before"),
                (equal, "counters are equal, and the node stands that is named later")]
        why = "; ".join(f"at {count:,} {words}" for count, words in ways if count)
        yield f"why: trees tell no times, and a counter counts its node's edits in the order of places: {why}"
    chosen = f", {len(differed) - len(left):,} of them settled by choice" if choices else ""
    yield f"{len(held):,} places, at {len(differed):,} of which nodes differed{chosen}"
