"""Wrong bodies as edits write them: what an edit changes, in which function that is, and which can be tried in one check."""
import os
import re

from repository import ROOT

# The line at which a function begins, with what it is indented by, and its name.
FUNCTION = re.compile(r"(\s*)(?:pub(?:\([a-z]+\))? )?(?:const )?fn (\w+)")
# What the prover says of a function whose proof it seeks, where it doesn't find one: the file, and a line of the function.
NOT_FOUND = re.compile(r"note: (src/\S+?):(\d+):\d+: (it is not proved that .*)")
# What it says of a proof that is written and doesn't fit: the folder of the function's answers.
NOT_FITTING = re.compile(r"\./proofs/(\S+)/Answers\.antt:\d+:\d+: error: (.*)")


def changes_of(name, edit):
    """Returns the changes that an edit of a crate makes, in their order: a file of the crate, a text of it, and what stands for that."""
    changes, file, old = [], "", ""
    with open(f"{ROOT}/crates/{name}/edits/{edit}", encoding="utf-8") as it:
        for line in it.read().split("\n"):
            if line.startswith("file: "):
                file = line[6:].strip()
            elif line.startswith("old: "):
                old = line[5:]
            elif line.startswith("new:"):
                changes.append((file, old, line[4:].removeprefix(" ")))
    return changes


def text_of(folder, file):
    path = f"{folder}/{file}"
    if not os.path.isfile(path):
        return ""
    with open(path, encoding="utf-8") as it:
        return it.read()


def changed(folder, changes):
    """Returns the texts that the changes make of the files in a crate's folder, or None if one of them doesn't stand there just once."""
    texts = {}
    for file, old, new in changes:
        text = texts.get(file) or text_of(folder, file)
        if not old or text.count(old) != 1:
            return None
        texts[file] = text.replace(old, new)
    return texts


def function_at(lines, at):
    """Returns the first and the last line of the function that has this line, with what is written above it, and its name, or None if
    none has it."""
    for begins in range(at, -1, -1):
        found = FUNCTION.match(lines[begins])
        if found:
            first = begins
            while lines[first - 1].strip().startswith("#["):
                first -= 1
            ends = (last for last in range(at, len(lines)) if lines[last] == found[1] + "}")
            return first, next(ends, len(lines)), found[2]
        if begins < at and lines[begins].startswith("}"):
            return None
    return None


def place_of(folder, changes):
    """Returns the file, the lines and the name of the one function with clauses of its own in which all changes are, or None. Whoever calls
    such a function sees its clauses alone, so what is changed in it can make no other function fail."""
    places = set()
    for file, old, _ in changes:
        lines = text_of(folder, file).split("\n")
        at = next((number for number, line in enumerate(lines) if old in line), 0)
        function = function_at(lines, at)
        if not function or not any(re.match(r"\s*ensures\b", line) for line in lines[function[0] : at]):
            return None
        places.add((file, *function))
    return places.pop() if len(places) == 1 else None


def answers_of(folder, place):
    """Returns a pattern for where below proofs/ the answers of a function stand, or None if another of its file has its name."""
    file, _, _, name = place
    names = [found[2] for found in map(FUNCTION.match, text_of(folder, file).split("\n")) if found]
    module = re.sub(r"^src/|\.rt$", "", file)
    return re.compile(re.escape(module) + r"/(?:[^/]+/)?" + name) if names.count(name) == 1 else None


def changes_of_all(name, edits):
    return [change for edit in edits for change in changes_of(name, edit)]


def batches_of(name, edits):
    """Returns the edits of a crate in lots that can be tried in one check: by its place each edit, at most one of a function, and the text
    of none changed by those before it. Edits that may touch more than one function are left out."""
    folder, lots = f"{ROOT}/crates/{name}", []
    for edit in edits:
        place = place_of(folder, changes_of(name, edit))
        if not place:
            continue
        fits = lambda lot: place not in lot and changed(folder, changes_of_all(name, [*lot.values(), edit])) is not None
        lot = next((it for it in lots if fits(it)), None)
        if lot is None:
            lot = {}
            lots.append(lot)
        lot[place] = edit
    return lots


def refused_of(name, lot, said):
    """Returns the edits of a lot in whose functions the prover, by what it said of all in one check, found a goal that isn't proved, each
    with what it said."""
    refused = {}
    if not re.search(r"^logic=not-proved", said, re.M):
        return refused
    answers = {place: answers_of(f"{ROOT}/crates/{name}", place) for place in lot}
    for line in said.split("\n"):
        sought, written = NOT_FOUND.match(line), NOT_FITTING.match(line)
        for place, edit in lot.items():
            file, first, last, _ = place
            if sought and sought[1] == file and first < int(sought[2]) <= last + 1:
                refused.setdefault(edit, sought[3])
            if written and answers[place] and answers[place].fullmatch(written[1]):
                refused.setdefault(edit, written[2])
    return refused
