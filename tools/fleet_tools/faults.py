"""What ends a verb before its answer, and the exit statuses."""
from enum import IntEnum


class Status(IntEnum):
    """How `fleet` ends."""

    WELL = 0
    WRONG = 1  # the answer is a refusal, or something is wrong
    UNREAD = 2  # a tree, a script or the words of the call can't be read, or the program can't be run


class Fault(Exception):
    """Why a verb can't go on: what is told, and the status with which it ends."""

    def __init__(self, words, status=Status.UNREAD):
        super().__init__(words)
        self.status = status


def printable(text):
    """A text of any bytes on one line: what isn't a printable ASCII character is spelled as `\\xHH`."""
    if text.isascii() and text.isprintable():
        return text
    spelled = text.encode("utf-8", "surrogateescape")
    return "".join(chr(it) if 32 <= it <= 126 else f"\\x{it:02x}" for it in spelled)


def cut(text, most=120):
    """The same, and of what is long its begin."""
    told = printable(text)
    return told if len(told) <= most else told[:most] + ".."
