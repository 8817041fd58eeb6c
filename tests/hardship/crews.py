"""Threads that loads start: as many workers as a script asks for come to work, one starts none, and what is asked again behind an
edit starts no more."""
from cases import Case
from scripts import PROGRAM

# So many units are named by the first, so that a round has enough to share out.
UNITS = 100

# A drop-in of what is asked for, which then waits for one of its units.
EDIT = rb"put a /etc/systemd/system/t.target.d/late.conf [Unit]\nAfter=u0.service\n"


def script(workers, command):
    """A script that loads a store of many units by so many workers; by one, without a word on it, where that is None."""
    names = b" ".join(b"u%d.service" % number for number in range(UNITS))
    lines = [b"node a 1", rb"put a /etc/systemd/system/t.target [Unit]\nWants=%s\n" % names]
    lines += [rb"put a /etc/systemd/system/u%d.service [Unit]\nAfter=t.target\n" % number for number in range(UNITS)]
    lines += [] if workers is None else [b"workers %d" % workers]
    return b"\n".join([*lines, command, b""])


def answers(run, workers):
    """The answers to the commands behind those that make the store and say how many workers load."""
    return run.answers.split(b"\n")[UNITS + 2 + (workers is not None) :]


def answers_alike(bench, tally, command):
    """The answer is that of one worker. One worker starts no thread, and more start one each at the least, but for one."""
    alone = bench.run(PROGRAM, script(None, command))
    tally.note(alone)
    if alone.threads:
        tally.wrong("one worker", f"{alone.threads} threads")
    for workers in (1, 2, 3, 4, 16, 64):
        run = bench.run(PROGRAM, script(workers, command))
        tally.note(run)
        if answers(run, workers) != answers(alone, None):
            tally.wrong(f"{workers} workers", "another answer")
        if (run.threads == 0) != (workers == 1) or run.threads < workers - 1:
            tally.wrong(f"{workers} workers", f"{run.threads} threads")


def answers_again(bench, tally, command):
    """What is asked once more behind an edit is answered as by one worker, and starts no more threads than are started where it is asked
    once: what was loaded is refreshed, and not loaded anew."""
    both = b"\n".join([command, EDIT, command])
    alone, once, again = (bench.run(PROGRAM, script(*words)) for words in ((None, both), (16, command), (16, both)))
    for run in (alone, once, again):
        tally.note(run)
    if answers(again, 16) != answers(alone, None):
        tally.wrong("asked again", "another answer")
    if not 0 < again.threads <= once.threads:
        tally.wrong("asked again", f"{again.threads} threads, and {once.threads} where it is asked once")


def cases():
    """Two cases for each command that loads."""
    commands = (b"show a t.target", b"list a t.target", b"plan a t.target")
    for command in commands:
        yield Case("threads of loads", command.decode(), answers_alike, (command,))
        yield Case("threads of loads", f"{command.decode()}, twice", answers_again, (command,))
