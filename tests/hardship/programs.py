"""Runs of a program at which memory, reads, writes and calls at files are refused; refuse.c says how."""
import os
import struct
import subprocess
import tempfile
from dataclasses import dataclass

HERE = os.path.dirname(os.path.abspath(__file__))
ROOT = os.path.dirname(os.path.dirname(HERE))

# Up to so many requests each of them is refused in turn; of more only so many, by a stride, and of a great many fewer.
EACH_UP_TO = 2_000
SAMPLES = 500
A_GREAT_MANY = 100_000
FEW_SAMPLES = 25

# No run takes longer than so many seconds, but where it is told otherwise.
LIMIT = 60


@dataclass(frozen=True)
class Run:
    """How a run ended, what it wrote, and what it asked for."""

    status: int
    answers: bytes
    words: bytes
    requests: int
    refusals: int
    reads: int
    writes: int
    threads: int
    files: int


class Hung(Exception):
    """A program didn't end."""


class Bench:
    """Where programs run: the folder of the crates, what is preloaded, and a room for files."""

    def __init__(self, crates, shim):
        self.crates = crates
        self.shim = shim
        self.room = tempfile.mkdtemp(prefix="hardship-")
        self.counts = os.path.join(self.room, "counts")
        self.input = os.path.join(self.room, "input")
        self.given = None

    def program(self, name):
        """The file of a built program."""
        return os.path.join(self.crates, name, "out", name)

    def give(self, text):
        """Puts the bytes that the next run reads into a file, unless they stand there."""
        if self.given != text:
            with open(self.input, "wb") as file:
                file.write(text)
            self.given = text

    def run(self, name, text, words=(), limit=LIMIT, is_heard=True, **hardships):
        """Runs a program on these words and bytes, with what is refused named as refuse.c names it. Unless it is heard, its standard error is closed."""
        self.give(text)
        surroundings = {"LD_PRELOAD": self.shim, "HARDSHIP_COUNTS": self.counts}
        surroundings.update({key: str(value) for key, value in hardships.items()})
        with open(self.input, "rb") as source:
            process = subprocess.Popen(
                [self.program(name), *words],
                stdin=source,
                stdout=subprocess.PIPE,
                stderr=subprocess.PIPE,
                env=surroundings,
                preexec_fn=None if is_heard else lambda: os.close(2),
            )
            try:
                answers, words = process.communicate(timeout=limit)
            except subprocess.TimeoutExpired:
                process.kill()
                process.communicate()
                raise Hung(f"{name} had not ended after {limit} seconds, at {hardships}") from None
        return Run(process.returncode, answers, words, *self.counted())

    def counted(self):
        """What the last run asked for."""
        with open(self.counts, "rb") as file:
            return struct.unpack("<6Q", file.read(48))


def strides(requests):
    """How far apart the requests are that are refused, of so many."""
    if requests <= EACH_UP_TO:
        return 1
    return requests // (SAMPLES if requests <= A_GREAT_MANY else FEW_SAMPLES)


def refused_in_turn(bench, name, text):
    """The runs of a program whose first, second and each further request is refused, until one meets no refusal."""
    plain = bench.run(name, text)
    stride = strides(plain.requests)
    number = 1
    while True:
        run = bench.run(name, text, REFUSE_MEMORY=number)
        yield number, run
        if run.refusals == 0 and number > plain.requests:
            return
        number += stride


def judge_in_turn(judge, bench, tally, name, text, *words):
    """Judges each run of a program of which one request is refused, by these words."""
    for number, run in refused_in_turn(bench, name, text):
        judge(tally, f"request {number}", run, *words)


def first_line(text):
    """The first line of bytes, cut to be shown."""
    return text.split(b"\n", 1)[0][:100].decode("latin-1")
