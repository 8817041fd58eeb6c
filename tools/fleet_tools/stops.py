"""How `fleet` begins and ends as a process: its streams, and the signals that stop it."""
import os
import signal
import sys
from contextlib import contextmanager

from .faults import Status
from .reports import tell

STOPS = (signal.SIGINT, signal.SIGTERM, signal.SIGHUP)


class Stopped(BaseException):
    """A signal stops the work: what was begun is tidied up, and nothing is told."""

    def __init__(self, number):
        super().__init__()
        self.number = number


def stop(number, _frame):
    """Stops the work, once."""
    for it in STOPS:
        signal.signal(it, signal.SIG_IGN)
    raise Stopped(number)


@contextmanager
def stoppable():
    """While this lasts, signals that would end the process stop the work in it; those that were ignored stay so."""
    caught = [it for it in STOPS if signal.getsignal(it) is not signal.SIG_IGN]
    try:
        for it in caught:
            signal.signal(it, stop)
        yield
    finally:
        for it in caught:
            signal.signal(it, signal.SIG_DFL)


def ended_by(number):
    """Ends the process as the signal would have; the status where it can't."""
    signal.signal(number, signal.SIG_DFL)
    os.kill(os.getpid(), number)
    return 128 + number


def is_open(number):
    """Whether a stream of this number is open."""
    try:
        os.fstat(number)
        return True
    except OSError:
        return False


def streams_ready():
    """Makes the standard streams take any bytes; false where answers can't be written, which is told."""
    is_writable = sys.stdout is not None and is_open(1)
    while os.open(os.devnull, os.O_RDWR) <= 2:
        pass  # no file that is opened later takes the number of a closed stream
    if sys.stderr is None:
        sys.stderr = open(2, "w", closefd=False)
    sys.stderr.reconfigure(encoding="utf-8", errors="surrogateescape")
    if not is_writable:
        tell("standard output is closed")
        return False
    sys.stdout.reconfigure(encoding="utf-8", errors="surrogateescape")
    return True


def flushed(status):
    """The status of a work that is done, where all that it printed could be written."""
    try:
        sys.stdout.flush()
        return status
    except OSError as fault:
        tell(f"standard output: {fault.strerror}")
        return Status.UNREAD
