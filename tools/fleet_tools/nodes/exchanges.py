"""Exchanges of a state file with another node, over ssh or a socket."""
import os
import shlex
import signal
import socket
import tempfile
import time
from contextlib import closing
from dataclasses import dataclass

from ..faults import cut
from . import programs
from .crossings import OfProcess, OfSocket, carried, ways_between

SSH = "FLEET_SSH"
# The status of an ssh that didn't get there.
UNREACHED = 255
MOST_TOLD = 65_536
# What a side tells that the other one left alone.
LEFT = ("Y1 Truncated", "read fault", "write fault")
# How many seconds an exchange is tried again where either side is busy with another one.
BUSY_SECONDS = 10


class Failed(Exception):
    """Why nothing more came of a target: in words, with the code of a refusal, and whether it may go another time soon."""

    def __init__(self, words, code="", is_busy=False):
        super().__init__(words)
        self.code, self.is_busy = code, is_busy


@dataclass(frozen=True)
class Side:
    """How a side of an exchange ended: its status, none where it didn't, and the line that it told."""

    status: int
    line: str

    def code(self):
        """The code of the refusal that it told."""
        return programs.code_of(self.line)

    def is_well(self):
        """Whether it ended well."""
        return self.status == 0

    def is_left(self):
        """Whether it tells no more than that the other side said or heard no more."""
        return self.line in LEFT or self.status in (-signal.SIGPIPE, 128 + signal.SIGPIPE)


def side_of(status, told):
    """How a side ended, of which this file has what it told: the program's line, or else the first one; of an ssh that didn't get there the last."""
    told.seek(0)
    lines = [it.strip() for it in told.read(MOST_TOLD).decode("utf-8", "surrogateescape").splitlines() if it.strip()]
    own = [it for it in lines if it.startswith(programs.TELLS)]
    return Side(status, (own or (lines[-1:] if status == UNREACHED else lines[:1]) or [""])[0].removeprefix(programs.TELLS))


def failure(here, there, count, is_socket):
    """Why an exchange ended early, of what its sides told, where so many bytes came from there."""
    sides = ("here", here), ("there", there)
    for where, it in sides:
        if it.code() == programs.BUSY:
            return Failed(f"{where}: {programs.in_words(it.line)}", it.code(), True)
    if is_socket and not count and here.is_left():
        return Failed("it ended without a word: it is busy, or no node's; its journal tells", "", True)
    told = next((it for it in sides if not it[1].is_well() and not it[1].is_left()), sides[there.line != "" and not there.is_well()])
    where, it = told
    front = "" if it is there and it.status == UNREACHED and it.line else f"{where}: "
    return Failed(f"{front}{programs.in_words(it.line) or f'it ended with status {it.status}'}", it.code())


def exchange(state, begin, seconds, is_socket):
    """One exchange of a state file with the side that this begins, which is given a file for what it tells."""
    with tempfile.TemporaryFile() as told_there, tempfile.TemporaryFile() as told_here, closing(begin(told_there)) as there:
        words = [programs.program(), "exchange", state.path, "--call"]
        with programs.as_owner(state.path) as owner, closing(OfProcess(words, told_here, cwd="/", **owner)) as here:
            ways = ways_between(here, there)
            is_carried = carried(ways, seconds)
            ended = [it.ended(seconds) if is_carried else None for it in (here, there)]
        if None in ended:
            raise Failed(f"given up after {seconds} s without a byte{'' if ways[1].count else ' from there'}")
        sides = [side_of(status, told) for status, told in zip(ended, (told_here, told_there))]
    if not all(it.is_well() for it in sides):
        raise failure(*sides, ways[1].count, is_socket)


def patiently(work):
    """Does some work, again for some seconds where it is busy."""
    until = time.monotonic() + BUSY_SECONDS
    while True:
        try:
            return work()
        except Failed as failed:
            if not failed.is_busy or time.monotonic() >= until:
                raise
        programs.pause()


def with_ssh(state, where, seconds, there):
    """Exchanges with the state file of that path on a machine that ssh reaches."""
    command = shlex.split(os.environ.get(SSH) or "ssh")
    words = [*command, "-o", "BatchMode=yes", where, shlex.join([programs.NAME, "exchange", there])]

    def begin(told):
        """Starts ssh."""
        try:
            return OfProcess(words, told)
        except OSError as fault:
            raise Failed(f"{cut(command[0])}: it can't be run: {fault.strerror}") from fault

    exchange(state, begin, seconds, False)


def with_socket(state, connect, seconds):
    """Exchanges with the node behind a socket that this connects."""

    def begin(_told):
        """Connects."""
        try:
            return OfSocket(connect())
        except OSError as fault:
            raise Failed(f"no connection: {fault.strerror or fault}") from fault

    exchange(state, begin, seconds, True)


def unix_socket(path, seconds):
    """A connection with a socket of this machine."""
    made = socket.socket(socket.AF_UNIX)
    try:
        made.settimeout(seconds)
        made.connect(path)
    except BaseException:
        made.close()
        raise
    return made
