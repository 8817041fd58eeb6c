"""Carries the bytes of an exchange between the program here and the other side, both ways."""
import os
import select
import socket
import subprocess

BLOCK = 65_536


class Way:
    """One way: what comes from one stream goes into another. Both are closed by `end`, each once."""

    def __init__(self, source, sink, ends):
        self.source, self.sink, self.ends = source, sink, ends
        self.waiting, self.count, self.is_open = b"", 0, True

    def step(self):
        """Reads or writes once."""
        try:
            if self.waiting:
                self.waiting = self.waiting[os.write(self.sink, self.waiting) :]
                return
            self.waiting = os.read(self.source, BLOCK)
            self.count += len(self.waiting)
            if not self.waiting:
                self.end()
        except BlockingIOError:
            pass
        except OSError:  # the other end is gone
            self.end()

    def end(self):
        """Closes both ends, so that neither side waits for the other."""
        self.is_open = False
        for it in self.ends:
            try:
                it()
            except OSError:
                pass


def carried(ways, seconds):
    """Carries until every way has ended; false where for so many seconds no byte went any way."""
    for way in ways:
        os.set_blocking(way.source, False)
        os.set_blocking(way.sink, False)
    while left := [it for it in ways if it.is_open]:
        reading, writing = [it.source for it in left if not it.waiting], [it.sink for it in left if it.waiting]
        readable, writable, _ = select.select(reading, writing, [], seconds)
        if not readable and not writable:
            return False
        for way in left:
            if way.sink in writable if way.waiting else way.source in readable:
                way.step()
    return True


class OfProcess:
    """The streams of a process that is started so, and that ends when this does."""

    def __init__(self, words, told, **more):
        self.process = subprocess.Popen(words, stdin=subprocess.PIPE, stdout=subprocess.PIPE, stderr=told, **more)
        self.source, self.sink = self.process.stdout.fileno(), self.process.stdin.fileno()

    def end_source(self):
        """Reads no more."""
        self.process.stdout.close()

    def end_sink(self):
        """Writes no more."""
        self.process.stdin.close()

    def ended(self, seconds):
        """The status with which it ends within so many seconds; nothing where it doesn't."""
        try:
            return self.process.wait(seconds)
        except subprocess.TimeoutExpired:
            return None

    def close(self):
        """Ends it, where it still runs."""
        if self.process.poll() is None:
            self.process.kill()
        self.process.wait()
        for it in (self.process.stdin, self.process.stdout):
            try:
                it.close()
            except OSError:
                pass


class OfSocket:
    """The streams of a connected socket."""

    def __init__(self, connected):
        self.socket = connected
        self.source = self.sink = connected.fileno()

    def end_source(self):
        """Reads no more."""
        self.socket.shutdown(socket.SHUT_RD)

    def end_sink(self):
        """Writes no more, which the other side sees."""
        self.socket.shutdown(socket.SHUT_WR)

    def ended(self, _seconds):
        """The status of the other side, which none tells."""
        return 0

    def close(self):
        """Closes it."""
        self.socket.close()


def ways_between(here, there):
    """Both ways between two sides."""
    return Way(here.source, there.sink, (here.end_source, there.end_sink)), Way(there.source, here.sink, (there.end_source, here.end_sink))
