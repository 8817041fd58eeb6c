"""Calls of `fleet` in processes that are forked: as those of `tools/fleet`, but that nothing has to be loaded for them."""
import os
import resource
import signal
import sys
import tempfile
import traceback
from dataclasses import dataclass

from repository import ROOT

sys.path.insert(0, os.path.join(ROOT, "tools"))

from fleet_tools.command_line import main


@dataclass(frozen=True)
class Ran:
    """How a run ended."""

    status: int
    out: bytes
    err: bytes

    def lines(self):
        return self.out.decode("latin-1").split("\n")[:-1]

    def told(self):
        """What was told on standard error."""
        return [it.removeprefix("fleet: ") for it in self.err.decode("latin-1").split("\n")[:-1]]


def in_child(words, streams, around, most):
    """What a forked process does: `fleet` with these words, streams and surroundings; if that is given, it writes no file longer."""
    try:
        if most is not None:
            resource.setrlimit(resource.RLIMIT_FSIZE, (most, resource.RLIM_INFINITY))
        for number, it in enumerate(streams):
            os.dup2(it.fileno(), number)
        sys.stdin, sys.stdout, sys.stderr = open(0, closefd=False), open(1, "w", closefd=False), open(2, "w", 1, closefd=False)
        tempfile.tempdir = None
        for number in (signal.SIGINT, signal.SIGTERM, signal.SIGHUP):  # whoever runs these cases may ignore some
            signal.signal(number, signal.SIG_DFL)
        os.environ.clear()
        os.environ.update(around)
        os._exit(main(list(words)))
    except BaseException:
        traceback.print_exc()
    finally:
        os._exit(99)


def whole(file):
    """What a file holds, or what is left in a pipe; it is closed."""
    with file:
        if file.seekable():
            file.seek(0)
        return file.read()


class Call:
    """A call of `fleet` that runs, in these surroundings. What it prints goes to a file, or into a pipe that is read at its end."""

    def __init__(self, words, around, given=b"", most=None, is_piped=False):
        self.given, self.told = tempfile.TemporaryFile(), tempfile.TemporaryFile()
        self.given.write(given)
        self.given.seek(0)
        self.printed, out = map(os.fdopen, os.pipe(), ("rb", "wb")) if is_piped else 2 * [tempfile.TemporaryFile()]
        sys.stdout.flush()
        sys.stderr.flush()
        self.process = os.fork()
        if self.process == 0:
            in_child(words, [self.given, out, self.told], around, most)
        if is_piped:
            out.close()

    def signal(self, number):
        """Sends it a signal."""
        os.kill(self.process, number)

    def ended(self):
        """How it ended."""
        piped = None if self.printed.seekable() else whole(self.printed)
        _, status = os.waitpid(self.process, 0)
        self.given.close()
        return Ran(os.waitstatus_to_exitcode(status), whole(self.printed) if piped is None else piped, whole(self.told))
