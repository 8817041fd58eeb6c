"""Running nodes that are refused memory: lines of worked_threads."""
from cases import Case
from lines import answers_below, is_silent, name_of
from node_model import Wrong
from node_steps import walk
from programs import first_line, judge_in_turn

PROGRAM = "worked_threads"
# The first words of its lines of nodes, and which of those wait for other threads.
CALLS = ("node", "over", "threads", "crowd", "pair")
WAITING = ("threads", "pair")
X, Y, Z = (f"/etc/systemd/system/{name}" for name in "xyz")

# Lines, and what each answers where something is refused at each answer that says so, and nowhere else. A node takes
# memory to publish only until it has published once, so of the takes of a line the first alone can be pending.
WANTED = (
    # The edit is accepted and not shown. The next one publishes it first. A close that is refused is made again.
    (
        f"node 7 1 seat edit 0 {X} A view 0 edit 0 {Y} B view 0 absorb 0 {Z} 9 3 C view 0",
        [
            "seat 0",
            "A3 Pending 1.7",
            "takes 0",
            "ok 2.7",
            "takes 2 x 1.7 y 2.7",
            "changed 1",
            "takes 3 x 1.7 y 2.7 z 9.3",
            "out of memory",
            "closed takes 3 x 1.7 y 2.7 z 9.3",
        ],
    ),
    # The same of a piece, which the close publishes, at the second time.
    (
        f"node 7 1 seat absorb 0 {Z} 9 3 C view 0",
        ["seat 0", "A3 Pending", "takes 0", "out of memory", "closed takes 1 z 9.3"],
    ),
    # What is pending isn't published where that is refused once more, and what came then isn't accepted.
    (
        f"node 7 1 seat edit 0 {X} A absorb 0 {Y} 9 3 B view 0 absorb 0 {Z} 9 3 C view 0",
        [
            "seat 0",
            "A3 Pending 1.7",
            "out of memory",
            "takes 0",
            "changed 1",
            "takes 2 x 1.7 z 9.3",
            "closed takes 2 x 1.7 z 9.3",
        ],
    ),
    # An inbox with one edit, which the close publishes.
    (
        f"node 7 1 seat serve 0 0 edit {X} A end + view 0",
        ["seat 0", "answered 0", "pending 1", "refused 0", "asked for 0:1", "takes 0", "closed takes 1 x 1.7"],
    ),
    # One with a piece, which the edit behind it publishes, and a close that is refused.
    (
        f"node 7 1 seat serve 0 0 absorb {Z} 9 3 A edit {X} B + view 0",
        [
            "seat 0",
            "answered 1",
            "pending 1",
            "refused 0",
            "asked for 0:1 1:1",
            "takes 2 x 10.7 z 9.3",
            "out of memory",
            "closed takes 2 x 10.7 z 9.3",
        ],
    ),
    # A blank that is refused is made of the replica that comes back.
    (
        f"over 7 1 {X} 4 9 A seat edit 0 {Y} B",
        ["no blank: out of memory", "seat 0", "ok 5.7", "closed takes 1 x 4.9 y 5.7"],
    ),
)

# Lines at which each two requests are refused, and what some two of them give.
PAIRS = (
    # The publish of a piece, and then that of the close.
    (
        f"node 7 1 seat absorb 0 {Z} 9 3 C view 0",
        ["seat 0", "A3 Pending", "takes 0", "out of memory", "closed takes 1 z 9.3"],
    ),
    # The publish of an edit, and then once more in front of a piece.
    (
        f"node 7 1 seat edit 0 {X} A absorb 0 {Z} 9 3 C view 0",
        ["seat 0", "A3 Pending 1.7", "out of memory", "takes 0", "closed takes 1 x 1.7"],
    ),
    # The same of messages of an inbox.
    (
        f"node 7 1 seat serve 0 0 edit {X} A absorb {Z} 9 3 C + view 0 edit 0 {Y} B",
        [
            "seat 0",
            "answered 0",
            "pending 1",
            "refused 1",
            "asked for 0:1 1:1",
            "takes 0",
            "ok 2.7",
            "closed takes 2 x 1.7 y 2.7",
        ],
    ),
    # A token tells of the takes that were published, those that were pending among them.
    (
        f"node 7 2 seat seat edit 0 {X} A learn 1 edit 0 {Y} B learn 1",
        [
            "seat 0",
            "seat 1",
            "A3 Pending 1.7",
            "no token",
            "ok 2.7",
            "seen 2",
            "out of memory",
            "closed takes 2 x 1.7 y 2.7",
        ],
    ),
)


def said_of(line, run):
    """The answers to a line; None where something else was written."""
    told = run.answers.decode().split("\n")
    if run.status != 0 or told[0] != line or told[-1] != "":
        return None
    return [text[2:] for text in told[1:-1]]


def judge(tally, place, run, line, answers=None):
    """Whether a run gave these answers, or those of a node that was refused memory; what it answered."""
    tally.note(run)
    said = said_of(line, run)
    if said is not None and said == answers:
        tally.whole += bool(run.refusals)
    elif is_silent(run) or (run.refusals and said == ["memory"]):
        tally.told += 1
    elif run.refusals and said is not None and line.split()[0] in ("node", "over"):
        judge_steps(tally, place, line, said, run.refusals)
    else:
        tally.wrong(place, f"status {run.status}: {said} {first_line(run.answers)}")
    return said


def judge_steps(tally, place, line, said, refusals):
    """Whether a node that was refused memory at a step may give these answers."""
    try:
        told = walk(line, said, refusals)
    except (Wrong, IndexError) as fault:
        tally.wrong(place, f"{fault}: {said}")
        return
    tally.again += bool(told)
    tally.whole += not told


def once(bench, tally, line, answers):
    """One request is refused."""
    judge_in_turn(judge, bench, tally, PROGRAM, (line + "\n").encode(), line, answers)


def refused_at(bench, line, numbers):
    """A run of a line at which these requests are refused."""
    return bench.run(PROGRAM, (line + "\n").encode(), REFUSE_MEMORY=",".join(map(str, numbers)))


def twice(bench, tally, line, wanted):
    """Each two requests are refused, and some two of them give these answers."""
    requests, is_met = bench.run(PROGRAM, (line + "\n").encode()).requests, False
    for first in range(1, requests + 1):
        for second in range(first + 1, requests + 3):
            run = refused_at(bench, line, [first, second])
            said = judge(tally, f"requests {first}, {second}", run, line)
            is_met = is_met or said == wanted
    if not is_met:
        tally.wrong("at no two requests", f"{wanted}")


def refused_steps(wanted):
    """The places of the answers at which something was refused."""
    words = ("A3 Pending", "pending 1", "out of memory", "no blank")
    return [place for place, answer in enumerate(wanted) if answer.startswith(words)]


def exactly(bench, tally, line, wanted):
    """Finds one request after another whose refusal gives these answers, so far as the next one goes. Each run on the
    way is judged."""
    refused = []
    for place in refused_steps(wanted):
        number = next_refusal(bench, tally, line, wanted[: place + 1], refused)
        if number is None:
            tally.wrong(f"behind requests {refused}", f"no refusal gives {wanted[place]!r}")
            return
        refused.append(number)
    run = refused_at(bench, line, refused)
    if judge(tally, f"requests {refused}", run, line) != wanted or run.refusals != len(refused):
        tally.wrong(f"requests {refused}", f"{run.refusals} refused: {said_of(line, run)}")


def next_refusal(bench, tally, line, front, refused):
    """The least request behind those refused whose refusal gives answers with this front."""
    first = refused[-1] + 1 if refused else 1
    requests = refused_at(bench, line, refused).requests
    found = None
    for number in range(first, requests + 1):
        run = refused_at(bench, line, [*refused, number])
        said = judge(tally, f"requests {[*refused, number]}", run, line)
        if found is None and said is not None and said[: len(front)] == front:
            found = number
    return found


def cases():
    """The lines, but those of many threads and of one that waits for another; and what takes several refusals."""
    for line, answers in answers_below(PROGRAM):
        call = line.split(b" ", 1)[0].decode()
        if call in CALLS and call not in WAITING and b" beside " not in line:
            words = (line.decode(), [answer.decode() for answer in answers])
            yield Case(f"nodes: {call}", name_of(line), once, words, weight=100, refuses=True)
    for line, wanted in WANTED:
        name = name_of(line.encode())
        yield Case("nodes: publishes refused", name, exactly, (line, wanted), weight=200, refuses=True)
    for line, wanted in PAIRS:
        name = name_of(line.encode())
        yield Case("nodes: two requests refused", name, twice, (line, wanted), weight=5_000, refuses=True)
