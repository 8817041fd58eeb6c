"""Whole scripts whose program is refused memory."""
import os

from cases import Case
from programs import HERE, judge_in_turn

PROGRAM = "fleet_shell"
WORDS = b"fleet: out of memory\n"


def all_scripts():
    """The names of the scripts in scripts/, each with its bytes and its answers."""
    folder = os.path.join(HERE, "scripts")
    for file in sorted(os.listdir(folder)):
        name, kind = os.path.splitext(file)
        if kind == ".script":
            yield name, read(folder, file), read(folder, name + ".answers")


def read(folder, file):
    """The bytes of a file."""
    with open(os.path.join(folder, file), "rb") as source:
        return source.read()


def judge(tally, place, run, answers):
    """Whether a run gave the whole answers, or a front of them and the words of want of memory."""
    tally.note(run)
    if run.status == 0 and run.answers == answers and run.words == b"":
        tally.whole += bool(run.refusals)
    elif run.refusals and is_starved(run, answers):
        tally.told += 1
    else:
        tally.wrong(place, f"status {run.status}, {len(run.answers)} bytes, {run.words!r}")


def is_starved(run, answers):
    """Whether a run ended as one that was refused memory does."""
    return run.status == 2 and run.words == WORDS and answers.startswith(run.answers)


def once(bench, tally, script, answers):
    """One request is refused, and those behind it are not."""
    judge_in_turn(judge, bench, tally, PROGRAM, script, answers)


def from_then_on(bench, tally, script, answers):
    """All requests from one on are refused."""
    number = 1
    while True:
        run = bench.run(PROGRAM, script, REFUSE_MEMORY=f"{number}-")
        judge(tally, f"requests from {number} on", run, answers)
        if run.refusals == 0:
            return
        number += 1


def cases():
    """A script, once with each request refused alone, and once with all from it on."""
    for name, script, answers in all_scripts():
        words = (script, answers)
        yield Case("scripts, a request refused", name, once, words, weight=50, refuses=True)
        yield Case("scripts, all requests refused from one on", name, from_then_on, words, weight=50, refuses=True)
