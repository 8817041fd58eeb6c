"""Scripts that are read from readers that fail, and answered to writers that fail."""
from cases import Case
from scripts import PROGRAM, all_scripts

READ_FAULT = b"fleet: read fault\n"
WRITE_FAULT = b"fleet: write fault\n"

# The program makes so many reads of a script at most.
MOST_READS = 20_000_000

# Where each so manieth read is interrupted, that limit is met before the one on bytes.
INTERRUPTED = 6


def ends(tally, place, run, status, answers, words):
    """Notes whether a run ended so."""
    tally.runs += 1
    if (run.status, run.answers, run.words) != (status, answers, words):
        tally.wrong(place, f"status {run.status}, {len(run.answers)} bytes, {run.words!r}")


def unread(bench, tally, script, slow):
    """Each read fails in turn: nothing is written."""
    reads = bench.run(PROGRAM, script, **slow).reads
    for number in range(1, reads + 1):
        run = bench.run(PROGRAM, script, FAIL_READS=number, **slow)
        ends(tally, f"read {number}", run, 1, b"", READ_FAULT)


def unwritten(bench, tally, script, answers, kind, slow):
    """Each write fails in turn: what was taken before stays, and nothing is written behind it."""
    writes = bench.run(PROGRAM, script, **slow).writes
    for number in range(1, writes + 1):
        front = answers[: number - 1] if slow else b""
        run = bench.run(PROGRAM, script, **{kind: f"{number}"}, **slow)
        ends(tally, f"{kind} {number}", run, 1, front, WRITE_FAULT)


def unwritten_from(bench, tally, script, answers, kind):
    """From each write on all fail: what was taken before stays."""
    for number in range(1, len(answers) + 1):
        run = bench.run(PROGRAM, script, SHORT_WRITES=1, **{kind: f"{number}-"})
        ends(tally, f"{kind} {number}-", run, 1, answers[: number - 1], WRITE_FAULT)


def slow(bench, tally, script, answers):
    """Reads and writes of one byte, and interrupted reads, give the same answers."""
    for hardships in (
        {"SHORT_READS": 1},
        {"SHORT_WRITES": 1},
        {"SHORT_READS": 1, "SHORT_WRITES": 1, "INTERRUPT_READS": 2},
    ):
        run = bench.run(PROGRAM, script, **hardships)
        ends(tally, f"{hardships}", run, 0, answers, b"")


def long_answers(bench, tally):
    """Answers of more bytes than are written at once: each write fails in turn, behind whole writes."""
    script = b"frob\n" * 20_000
    answers = b"error: X1 UnknownCommand\n" * 20_000
    whole = bench.run(PROGRAM, script)
    ends(tally, "no failure", whole, 0, answers, b"")
    for kind in ("FAIL_WRITES", "EMPTY_WRITES", "INTERRUPT_WRITES"):
        for number in range(1, whole.writes + 1):
            run = bench.run(PROGRAM, script, **{kind: number})
            is_front = answers.startswith(run.answers) and len(run.answers) < len(answers)
            ends(tally, f"{kind} {number}", run, 1, run.answers if is_front else answers, WRITE_FAULT)


def unheard(bench, tally):
    """Statuses stay where standard error takes no words."""
    script = b"node a 1\n"
    for status, answers, hardships in (
        (0, b"ok\n", {}),
        (1, b"", {"FAIL_READS": 1}),
        (1, b"", {"FAIL_WRITES": 1}),
        (2, b"", {"REFUSE_MEMORY": "1-"}),
    ):
        run = bench.run(PROGRAM, script, is_heard=False, **hardships)
        ends(tally, f"unheard, {hardships}", run, status, answers, b"")


def comment(size):
    """A script of so many bytes with one command, in its last line."""
    command = b"frob\n"
    line = b"#" * 99 + b"\n"
    lines, rest = divmod(size - len(command), len(line))
    return line * lines + b"#" * (rest - 1) + b"\n" * bool(rest) + command


def many_reads(bench, tally, bytes_more, status, answers, words):
    """Reads of one byte, every sixth interrupted, up to the limit on reads: one byte more is one too many."""
    interrupted = MOST_READS // INTERRUPTED
    script = comment(MOST_READS - interrupted - 1 + bytes_more)
    run = bench.run(PROGRAM, script, limit=120, SHORT_READS=1, INTERRUPT_READS=INTERRUPTED)
    ends(tally, f"{len(script)} bytes", run, status, answers, words)
    if run.reads != MOST_READS:
        tally.wrong(f"{len(script)} bytes", f"{run.reads} reads")


def most_bytes(bench, tally):
    """A script of as many bytes as there may be is answered."""
    run = bench.run(PROGRAM, comment(16_777_216))
    ends(tally, "16,777,216 bytes", run, 0, b"error: X1 UnknownCommand\n", b"")


def cases():
    """All failing and slow pipes."""
    group = "reads and writes"
    unknown = b"error: X1 UnknownCommand\n"
    within = (0, 0, unknown, b"")
    yield Case(group, "as many reads as there may be", many_reads, within, weight=9_000)
    beyond = (1, 1, b"", READ_FAULT)
    yield Case(group, "a read too many", many_reads, beyond, weight=9_000)
    yield Case(group, "as many bytes as there may be", most_bytes, weight=20)
    yield Case(group, "long answers", long_answers, weight=20)
    yield Case(group, "nobody hears", unheard)
    for name, script, answers in all_scripts():
        yield Case(group, f"{name}: slow pipes", slow, (script, answers))
        yield Case(group, f"{name}: each read fails", unread, (script, {}))
        one = {"SHORT_READS": 1}
        yield Case(group, f"{name}: each read of a byte fails", unread, (script, one), weight=50)
        for kind in ("FAIL_WRITES", "EMPTY_WRITES", "INTERRUPT_WRITES"):
            words = (script, answers, kind)
            yield Case(group, f"{name}: {kind}", unwritten, (*words, {}))
            slowly = (*words, {"SHORT_WRITES": 1})
            yield Case(group, f"{name}: {kind} by bytes", unwritten, slowly, weight=50)
        words = (script, answers, "EMPTY_WRITES")
        yield Case(group, f"{name}: from a write on none takes a byte", unwritten_from, words, weight=50)
