"""What the program refuses, in words."""
import re
from dataclasses import dataclass
from typing import Tuple

from .faults import printable
from .places import HOST_RULE, is_unit_name
from .profiles import hint


@dataclass(frozen=True)
class Refusal:
    """A refusal: its code, its name, and what it tells beside."""

    code: str
    name: str
    told: Tuple[str, ...]

    def reason(self, profile):
        """The refusal, and what helps a reader to whom it comes by this profile."""
        more = hint(profile, self.told[0]) if self.code in ("P2", "P3", "P4") else ""
        return f"{self}; {more}" if more else str(self)

    def about(self, names):
        """The words in front of a refusal that say which of several names it is about, where one of them is no unit's."""
        wrong = [it for it in names if not is_unit_name(it)] if self.code[0] == "N" and len(names) > 1 else []
        return f"{printable(wrong[0])}: " if wrong else ""

    def __str__(self):
        words = SENTENCES.get(self.code)
        spelled = " ".join([self.code, self.name, *self.told])
        return f"{spelled}: {words(*self.told)}" if words else spelled


def cycle_words(*names):
    """A cycle, in words."""
    ring = [f"{one} before {other}" for one, other in zip(names, [*names[1:], names[0]])]
    return "they wait for each other: " + ", ".join(ring)


SENTENCES = {
    "C1": lambda: "over 65,536 bytes",
    "C2": lambda: "a target is 1 to 4,095 bytes of printable ASCII without spaces",
    "E2": lambda: "nothing stands there",
    "E3": lambda: "nothing stands there",
    "F1": lambda: "a place is a path in /etc, /run, /usr/local/lib or /usr/lib/systemd/system, behind `HOST:` where it is one host's",
    "F2": lambda: "more than a folder and a name",
    "F3": lambda: "a folder or a name that none may have",
    "H1": lambda: f"no host's name: {HOST_RULE}",
    "L2": lambda: "more than 4,096 names must be loaded",
    "N2": lambda: "its ending is no kind of unit",
    "P1": lambda: "a template: ask for an instance of it",
    "P2": lambda _name: "it has no file",
    "P3": lambda _name: "it is masked",
    "P4": lambda _name: "its link is bad",
    "P5": lambda: "it refuses to be started by hand",
    "P6": lambda name, other: f"{name} starts only where {other} runs already",
    "P7": lambda one, other: f"{one} and {other} conflict, and both are required",
    "P8": cycle_words,
    "X1": lambda: "the program is older than these tools: build it anew",
}

# Why the link of a unit is bad.
BAD_LINKS = {
    "B1": "the link leads to another kind of unit, or is of a kind without aliases",
    "B2": "the link leads from a plain name, a template or an instance to one that doesn't fit",
    "B3": "more than 8 links, or a loop of them",
    "B4": "the link leads to no unit name",
}

# What is noted of files and settings.
NOTES = {
    "K1": ("OutsideSection", "a line before the first section"),
    "K2": ("NoEquals", "a line without a key and a `=`"),
    "K3": ("BadHeader", "a section's header without its end; what follows it is passed over"),
    "K4": ("BadBoolean", "neither yes nor no"),
    "K5": ("BadEscape", "a specifier for what can't be unescaped; the value is passed over"),
    "K6": ("BadName", "a word that is no unit name; it is passed over"),
}


# How many units these refusals tell.
TOLD = {**dict.fromkeys(("C1", "C2", "E2", "E3", "F1", "F2", "F3", "H1"), 0), "L2": 0, "P1": 0, "P2": 1, "P3": 1, "P4": 1, "P5": 0, "P6": 2, "P7": 2, "X1": 0}
REFUSAL = re.compile(r"error: ([A-Z][0-9]) ([A-Za-z]+)((?: [!-~]+)*)")


def refusal_of(line):
    """The refusal that an answer's line tells; nothing where it tells none."""
    found = REFUSAL.fullmatch(line)
    told = tuple(found[3].split()) if found else ()
    return Refusal(found[1], found[2], told) if found and TOLD.get(found[1], len(told)) == len(told) else None
