"""Cases: what is run, and what came of it."""
import time
from dataclasses import dataclass, field


@dataclass
class Tally:
    """What came of a case: how many runs it took, at how many something was refused, and how these ended."""

    runs: int = 0
    refused: int = 0
    whole: int = 0
    told: int = 0
    again: int = 0
    problems: list = field(default_factory=list)
    seconds: float = 0.0

    def add(self, other):
        """Adds what came of another case."""
        self.runs += other.runs
        self.refused += other.refused
        self.whole += other.whole
        self.told += other.told
        self.again += other.again
        self.seconds += other.seconds

    def wrong(self, place, words):
        """Notes what is wrong, of the first few."""
        if len(self.problems) < 5:
            self.problems.append(f"{place}: {words}")

    def note(self, run):
        """Counts a run."""
        self.runs += 1
        if run.refusals:
            self.refused += 1


@dataclass(frozen=True)
class Case:
    """A case: the group that it belongs to, its name, what is called with a bench and the words behind it, and whether
    memory is refused in it."""

    group: str
    name: str
    work: object
    words: tuple = ()
    weight: int = 1
    refuses: bool = False


def done(case, bench):
    """What comes of a case."""
    tally = Tally()
    begun = time.monotonic()
    try:
        case.work(bench, tally, *case.words)
    except Exception as fault:  # whatever goes wrong is one case that failed, and the others go on
        tally.wrong("broke off", repr(fault))
    if not tally.runs or (case.refuses and not tally.refused):
        tally.wrong(f"in {tally.runs} runs", "nothing was refused")
    tally.seconds = time.monotonic() - begun
    return tally
