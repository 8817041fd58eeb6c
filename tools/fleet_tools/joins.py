"""Joins what several made of one text, where they changed different lines of it."""
from dataclasses import dataclass
from difflib import SequenceMatcher
from os.path import commonprefix
from typing import Tuple

# Pairs of lines that are compared at most; of longer texts no join is sought.
MOST_PAIRS = 4_000_000


@dataclass(frozen=True, order=True)
class Change:
    """Lines that stand in place of those from the first up to the last (exclusive) of the text that all began with."""

    first: int
    last: int
    lines: Tuple[bytes, ...]

    def is_line_by_line(self):
        """Whether each line stands in place of one."""
        return self.last - self.first == len(self.lines)

    def overlaps(self, other):
        """Whether both change the same lines, or so touch each other that their order isn't said."""
        if self == other or self.last < other.first or other.last < self.first:
            return False
        is_beside = self.last == other.first or other.last == self.first
        return not (is_beside and self.is_line_by_line() and other.is_line_by_line())

    def words(self):
        """The lines that it changes, for a reader."""
        if self.last - self.first > 1:
            return f"lines {self.first + 1} to {self.last}"
        return f"line {self.first + 1}" if self.last > self.first else f"behind line {self.first}"


class NoJoin(Exception):
    """Why texts aren't joined."""


def shared_ends(one, other):
    """How many lines two texts have in common at the head, and behind that at the tail."""
    head = len(commonprefix([one, other]))
    return head, len(commonprefix([one[head:][::-1], other[head:][::-1]]))


def changes_of(base, text):
    """The changes that make one list of lines of another."""
    head, tail = shared_ends(base, text)
    old, new = base[head : len(base) - tail], text[head : len(text) - tail]
    if len(old) * len(new) > MOST_PAIRS:
        raise NoJoin("too many lines differ")
    rows = SequenceMatcher(None, old, new, autojunk=False).get_opcodes()
    return [Change(head + first, head + last, tuple(new[start:end])) for kind, first, last, start, end in rows if kind != "equal"]


def joined(base, texts):
    """The text with all changes that the texts have of the base; a fault that names the lines where some overlap."""
    lines = split_lines(base)
    changes = sorted({change for text in texts for change in changes_of(lines, split_lines(text))})
    for one, other in zip(changes, changes[1:]):
        if one.overlaps(other):
            raise NoJoin(f"changes overlap at {' and '.join(dict.fromkeys([one.words(), other.words()]))}")
    for change in changes[::-1]:
        lines[change.first : change.last] = change.lines
    return b"".join(lines)


def split_lines(text):
    """The lines of a text, each with its line feed."""
    *whole, last = text.split(b"\n")
    return [it + b"\n" for it in whole] + ([last] if last else [])
