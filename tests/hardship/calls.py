"""Calls of the libraries that are refused memory: the lines of worked_calls."""
from cases import Case
from lines import answers_behind, is_silent, name_of
from programs import first_line, judge_in_turn

PROGRAM = "worked_calls"

# Of the random worlds one in so many is worked; of all other lines each.
WORLDS_APART = 40

# How an answer says that memory was refused: the line, or a refusal of the call in words of its own.
REFUSED = (b"memory", b"out of memory")

AT = b"; refused at "

# Calls at what is held, where there is room, or where a pair stands alone in its map, which take no memory: these are never made again,
# and all others at some request.
HELD = (
    b"again remove ",
    b"again put E/x=A",
    b"again put E/x=B 1.2:E/x=A",
    b"again split 1 ",
    b"again at 1:1.1=65,2:1.1=65,3:1.1=65,4:1.1=65 4 ",
    b"again join 1:1.1=65,2:1.1=65,3:1.1=65 1:1.2=66,4:1.1=67",
)


def is_right(line, answer, said):
    """Whether an answer is the right one, or one that was made again behind what may have stood between."""
    if said == answer:
        return True
    if not line.startswith(b"again ") or not said.startswith(answer + AT):
        return False
    return lies_between(line, answer, said[len(answer + AT) :])


def lies_between(line, answer, between):
    """Whether what stood between two calls lies between what was there at first and the answer."""
    call, rest = line[len(b"again ") :].split(b" ", 1)
    if call == b"split":
        return between.split(b": ", 1)[1] == rest.split(b" ", 1)[1]
    if call in (b"put", b"remove"):
        return entries(between, b" ") == entries(rest.partition(b" ")[2], b" ")
    if call == b"at":
        return entries(between, b",") == entries(rest.split(b" ")[0], b",")
    if call == b"join":
        return is_amid(rest.split(b" ")[0], between, answer, b",")
    if call in (b"exchange", b"sweep"):
        return all(is_amid(*three, b" ") for three in replicas(call, rest, between, answer))
    return is_amid(rest.split(b"+")[0].strip(), between, answer, b" ")


def replicas(call, rest, between, answer):
    """For each replica, what it held at first, then, and at last."""
    words = rest if call == b"exchange" else rest.split(b" ", 1)[1]
    at_first = [part.strip() for part in words.split(b"+")]
    then, at_last = (text.split(b" | ") for text in (between, answer))
    for place, text in enumerate(at_first):
        yield (text, held(then[place]), held(at_last[place]))


def held(replica):
    """What a replica holds, without its writer."""
    return replica.split(b" has ", 1)[1]


def is_amid(before, between, after, parted):
    """Whether each entry in between is the one from before or the one from after, and none from before is missing."""
    before, between, after = (entries(text, parted) for text in (before, between, after))
    allowed = all(entry in (before.get(key), after.get(key)) for key, entry in between.items())
    return allowed and set(before) <= set(between)


def entries(text, parted):
    """The entries of a map or a store in words, by key or by path."""
    if text in (b"", b"none", b"nothing"):
        return {}
    return dict(entry for word in text.split(parted) for entry in entries_of(word, parted))


def entries_of(word, parted):
    """The key and the value of an entry in words; each key, where there is a range."""
    if parted != b",":
        return [entry_of(word)]
    keys, value = word.split(b":", 1)
    first, dash, last = keys.partition(b"-")
    return [(b"%d" % key, value) for key in range(int(first), int(last if dash else first) + 1)]


def entry_of(word):
    """The path and the value of an entry in words."""
    version, placed = word.split(b":", 1)
    places = [place for place in (placed.find(b"="), placed.find(b">")) if place >= 0]
    end = min(places, default=len(placed))
    return placed[:end], (version, placed[end:])


def judge(tally, place, run, line, answer):
    """Whether a run gave the right answer, or said that memory was refused."""
    tally.note(run)
    behind = line + b" -> "
    said = run.answers[len(behind) : -1] if run.answers.startswith(behind) else None
    if run.status == 0 and said == answer:
        tally.whole += bool(run.refusals)
    elif run.refusals and run.status == 0 and said in REFUSED:
        tally.told += 1
    elif is_silent(run):
        tally.told += 1
    elif run.refusals and run.status == 0 and said and is_right(line, answer, said):
        tally.again += 1
    else:
        tally.wrong(place, f"status {run.status}: {first_line(run.answers)}")


def once(bench, tally, line, answer):
    """One request is refused."""
    judge_in_turn(judge, bench, tally, PROGRAM, line + b"\n", line, answer)
    if line.startswith(b"again ") and (tally.again == 0) != line.startswith(HELD):
        tally.wrong(f"at {tally.again} requests", "the call was made again")


def cases():
    """The lines, in groups by their subjects."""
    worlds = 0
    for line, answer in answers_behind(PROGRAM):
        is_world = line.startswith(b"world run")
        worlds += is_world
        if is_world and worlds > 6 and worlds % WORLDS_APART:
            continue
        subject = line.split(b" ", 1)[0].decode()
        yield Case(f"calls: {subject}", name_of(line), once, (line, answer), weight=len(line) // 8, refuses=True)
