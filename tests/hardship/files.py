"""Nodes in files: their program is refused memory, and their disk refuses opens, reads, writes, syncs, renames and removals.

Each call is refused in turn, alone or with all behind it. What was answered must then stand in the file, and of what was in
flight all or nothing; C's SQLite (Python's module) must find the file sound; and what was refused goes well when it is asked
again.
"""
import os
import shutil
import sqlite3
import sys
from dataclasses import dataclass, replace

from cases import Case
from programs import ROOT

sys.path.insert(0, os.path.join(ROOT, "tests"))
import spelling

PROGRAM = "fleet_node"
DISK, MEMORY = b"fleet: Z5 Disk\n", b"fleet: out of memory\n"
FOLDER = "/etc/systemd/system"
OWN, OTHER, SEED = 1, 2, 77

# About how many of a run's requests for memory are refused, each in a run of its own, and as many calls at files with all behind them.
SOME = 60


def entry(name, counter, writer, text):
    """A place in the first directory, and the entry of a file, or of a removal, there."""
    return (b"", 0, b"", name), (counter, writer, None if text is None else ("file", text))


# The scripts that make a node, each a commit of its own, and what it then holds.
FIRST = [
    f"put here {FOLDER}/a.service {'A' * 5000}\nput here {FOLDER}/b.service B\n",
    f"remove here {FOLDER}/b.service\nput here {FOLDER}/c.service C\n",
]
BEGUN = dict([entry(b"a.service", 1, OWN, b"A" * 5000), entry(b"b.service", 3, OWN, None), entry(b"c.service", 4, OWN, b"C")])

# A piece, one entry of which is old, and what a node that took it holds.
PIECE = dict([entry(b"a.service", 4, OTHER, b"a" * 9000), entry(b"c.service", 1, OTHER, b"old"), entry(b"d.service", 5, OTHER, b"D")])
TAKEN = BEGUN | {place: it for place, it in PIECE.items() if place[3] != b"c.service"}

# Lines, with their answers and edits.
SCRIPT = [
    (f"put here {FOLDER}/e.service E\n", b"ok 5.1\n", entry(b"e.service", 5, OWN, b"E")),
    (f"remove here {FOLDER}/a.service\n", b"ok 6.1\n", entry(b"a.service", 6, OWN, None)),
    (f"put here {FOLDER}/c.service {'c' * 6000}\n", b"ok 7.1\n", entry(b"c.service", 7, OWN, b"c" * 6000)),
]


@dataclass(frozen=True)
class Asked:
    """What is asked of a node: a word, what is given, the answers, or what makes them of the file, and what the file holds at first
    and after each answer."""

    word: str
    given: bytes
    answers: tuple
    stores: tuple


def framed(*frames):
    """The bytes of frames on a stream: each behind its length."""
    return b"".join(len(it).to_bytes(4, "big") + it for it in (spelling.spelled("frame", frame) for frame in frames))


def versions_of(store):
    return {place: written[:2] for place, written in store.items()}


def exchanged():
    """An exchange that another node begins, which holds a piece: it comes in two frames, each of which is committed."""
    first, second = ({place: PIECE[place]} for place in sorted(PIECE) if TAKEN[place] == PIECE[place])
    begin = (OTHER, bytes(16), SEED, []), [(None, None, 1)], [], {}, False
    given = framed(begin, (None, [], [(None, None, versions_of(PIECE))], first, True), (None, [], [], second, False))
    return Asked("exchange", given, exchange_answers, (BEGUN, BEGUN, BEGUN | first, TAKEN))


def nodes_in(base):
    """The mark of the node in a file, and those that it knows."""
    known = base.execute("SELECT DISTINCT mark, writer FROM peer ORDER BY mark, writer").fetchall()
    return base.execute("SELECT mark FROM meta").fetchone()[0], known


def exchange_answers(base):
    """What the node in a file must say in it: it asks for what is newer than its versions, and then sends what is asked back."""
    mark, known = nodes_in(base)
    newer = {place: written for place, written in BEGUN.items() if TAKEN[place] == written}
    asks = (OWN, mark, SEED, known), [], [(None, None, versions_of(BEGUN))], {}, False
    return framed(asks), b"", framed((None, [], [], newer, False))


def peers_answers(base):
    """What it tells of itself, where it knows nobody."""
    mark, _ = nodes_in(base)
    return (b"%d %b here\n" % (OWN, mark.hex().encode()),)


def log_answers(base):
    """The lines of its log."""
    rows = base.execute("SELECT place, counter, writer, time, kind, length(content) FROM edit ORDER BY place, counter, writer").fetchall()
    lines = [f"{place} {counter}.{writer} @{time} {f'file {length}' if kind else 'gone'}\n" for place, counter, writer, time, kind, length in rows]
    return ("".join(lines).encode(),)


def stores_of(edits):
    """What a node holds at first, and after each of these edits."""
    stores = [BEGUN]
    for place, written in edits:
        stores.append(stores[-1] | {place: written})
    return tuple(stores)


def all_asked():
    """All that is asked of a node that is there."""
    lines, answers, edits = zip(*SCRIPT)
    yield Asked("take", spelling.spelled("piece", PIECE), (b"changed 2\n",), (BEGUN, TAKEN))
    yield Asked("run", "".join(lines).encode(), answers, stores_of(edits))
    yield exchanged()
    yield Asked("compact", b"", (), (BEGUN,))
    yield Asked("store", b"", (spelling.spelled("store", BEGUN),), (BEGUN, BEGUN))
    yield Asked("log", b"", log_answers, (BEGUN, BEGUN))
    yield Asked("peers", b"", peers_answers, (BEGUN, BEGUN))


def made(bench):
    """A folder with the file of a node that holds what the first scripts make, closed as a program leaves it."""
    folder = os.path.join(bench.room, "first")
    if not os.path.isdir(folder):
        os.mkdir(folder)
        file = os.path.join(folder, "node")
        bench.run(PROGRAM, b"", words=("init", file, str(OWN)))
        for script in FIRST:
            bench.run(PROGRAM, script.encode(), words=("run", file))
    return folder


def copied(bench):
    """The file of such a node, in a folder of its own."""
    folder = os.path.join(bench.room, "node")
    shutil.rmtree(folder, ignore_errors=True)
    shutil.copytree(made(bench), folder)
    return os.path.join(folder, "node")


def with_answers(asked, file):
    """What is asked, with the answers of the node in the file."""
    if not callable(asked.answers):
        return asked
    base = sqlite3.connect(f"file:{file}?mode=ro", uri=True)
    try:
        return replace(asked, answers=asked.answers(base))
    finally:
        base.close()


def held(bench, file):
    """What the file holds, as an unhindered program tells; None if it is no node's."""
    run = bench.run(PROGRAM, b"", words=("store", file))
    return spelling.read("store", run.answers) if run.status == 0 else None


def is_sound(file):
    """Whether C's SQLite finds the file sound."""
    base = sqlite3.connect(f"file:{file}?mode=ro", uri=True)
    try:
        return base.execute("PRAGMA integrity_check").fetchall() == [("ok",)]
    finally:
        base.close()


def answered(answers, out):
    """How many of the answers were begun, if the bytes are a prefix of them all; else None."""
    if not b"".join(answers).startswith(out):
        return None
    return next(count for count in range(len(answers) + 1) if len(b"".join(answers[:count])) >= len(out))


def judge(bench, tally, place, run, asked, file, told):
    """Whether a run that was refused something answered only what then stands in the file, and told why it answered no more. Returns what
    the file holds."""
    tally.note(run)
    found, count = held(bench, file), answered(asked.answers, run.answers)
    stands = count is not None and found in asked.stores[count:] and is_sound(file)
    if stands and run.status == 0 and count == len(asked.answers) and run.words == b"":
        tally.whole += bool(run.refusals)
    elif stands and run.status == 1 and run.words in told:
        tally.told += 1
    else:
        held_now = asked.stores.index(found) if found in asked.stores else "another store" if found else "no node"
        tally.wrong(place, f"status {run.status}, {run.words!r}, answers begun {count}, the file holds {held_now}")
    return found


def in_turn(bench, tally, asked, refused, told):
    """Asks a node while the first, the second and each further call is refused, until none is. What changed nothing is asked once more."""
    kind, ending = refused
    unsaid, asked = asked, with_answers(asked, copied(bench))
    plain = bench.run(PROGRAM, asked.given, words=(asked.word, copied(bench)))
    for number in numbers(plain, kind, ending):
        file, place = copied(bench), f"call {number}{ending}"
        run = bench.run(PROGRAM, asked.given, words=(asked.word, file), **{kind: f"{number}{ending}"})
        left = set(os.listdir(os.path.dirname(file))) - {"node", "node-wal"}
        if left and not ending:
            tally.wrong(place, f"{sorted(left)} left beside the node")
        if judge(bench, tally, place, run, asked, file, told) == BEGUN and run.status:
            again = with_answers(unsaid, file)
            judge(bench, tally, f"again behind {number}{ending}", bench.run(PROGRAM, again.given, words=(again.word, file)), again, file, ())
            tally.again += 1


def numbers(plain, kind, ending):
    """Which calls are refused: each call at a file alone; of requests for memory, and of calls with all behind them, some at equal distances."""
    calls = plain.files if kind == "FAIL_FILES" else plain.requests
    return range(1, calls + 2, max(1, calls // SOME) if ending or kind == "REFUSE_MEMORY" else 1)


def init(bench, tally, refused, told):
    """Makes a node while each call is refused. If it isn't made, nothing is left, or where all further calls fail a file that no open takes
    for another node."""
    kind, ending = refused
    for number in numbers(bench.run(PROGRAM, b"", words=("init", new(bench), str(OWN))), kind, ending):
        file = new(bench)
        run = bench.run(PROGRAM, b"", words=("init", file, str(OWN)), **{kind: f"{number}{ending}"})
        tally.note(run)
        found, left = held(bench, file), os.listdir(os.path.dirname(file))
        if run.status == 0 and found == {} and is_sound(file):
            tally.whole += bool(run.refusals)
        elif run.status == 1 and run.words in told and (not left or ending and found in ({}, None)):
            tally.told += 1
        else:
            tally.wrong(f"call {number}{ending}", f"status {run.status}, {run.words!r}, {sorted(left)} left, which hold {found}")


def new(bench):
    """The name of a file in a folder that has none."""
    folder = os.path.join(bench.room, "new")
    shutil.rmtree(folder, ignore_errors=True)
    os.mkdir(folder)
    return os.path.join(folder, "node")


def cases():
    """Each command, with each request for memory and each call at a file refused alone, and each call at a file with all behind it."""
    hardships = {
        "a request refused": (("REFUSE_MEMORY", ""), (MEMORY,)),
        "a call at a file fails": (("FAIL_FILES", ""), (DISK,)),
        "calls at files fail from one on": (("FAIL_FILES", "-"), (DISK,)),
    }
    for name, words in hardships.items():
        for asked in all_asked():
            yield Case(f"files, {name}", asked.word, in_turn, (asked, *words), weight=40, refuses=True)
        yield Case(f"files, {name}", "init", init, words, weight=40, refuses=True)
