"""A folder that anything may carry from machine to machine, in which each node has files of its own and reads those of the others."""
import errno
import os
import re
import secrets
import stat
from contextlib import suppress

from ..files import READ_FLAGS
from ..wholes import FILE_MODE

NUMBER = "(?:0|[1-9][0-9]{0,9})"
NAMED = rf"{NUMBER}-[0-9a-f]{{8}}"
DIGEST = re.compile(rf"({NAMED})\.digest")
PIECE = re.compile(rf"({NAMED})\.for\.({NAMED})\.piece")
STAGED = re.compile(rf"\.({NAMED})\.(?:digest|for\.{NAMED}\.piece)\.([0-9]{{1,9}})-[0-9a-f]{{8}}")

# The most bytes of a file that are read.
MOST_BYTES = 1 << 30


def name_of(peer):
    """The name of a node, with which those of all its files begin."""
    return f"{peer.writer}-{peer.mark[:8]}"


def is_running(process):
    """Whether there is a process of this number."""
    try:
        os.kill(process, 0)
    except ProcessLookupError:
        return False
    except OSError:
        pass
    return True


class SharedFolder:
    """The folder, as the node of a name uses it. Links in it are not followed, and only the node's own files are written."""

    def __init__(self, path, own):
        self.path, self.own = path, own
        self.at = os.open(path, os.O_RDONLY | os.O_DIRECTORY | os.O_CLOEXEC)

    def close(self):
        """Closes it."""
        os.close(self.at)

    def look(self):
        """The nodes that have a digest there, and rows of the nodes whose pieces are there and for whom."""
        names = sorted(os.listdir(self.at))
        self.remove_left(names)
        return [it[1] for it in map(DIGEST.fullmatch, names) if it], [(it[1], it[2]) for it in map(PIECE.fullmatch, names) if it]

    def remove_left(self, names):
        """Removes what a killed run of this node left there half-written."""
        for name in names:
            found = STAGED.fullmatch(name)
            if found and found[1] == self.own and not is_running(int(found[2])):
                self.remove(name)

    def read(self, name):
        """The bytes of a file."""
        mode = os.stat(name, dir_fd=self.at, follow_symlinks=False).st_mode
        if not stat.S_ISREG(mode):
            raise OSError(errno.EINVAL, "a link" if stat.S_ISLNK(mode) else "no file", name)
        with open(os.open(name, READ_FLAGS, dir_fd=self.at), "rb") as file:
            if os.fstat(file.fileno()).st_size > MOST_BYTES:
                raise OSError(errno.EFBIG, f"over {MOST_BYTES:,} bytes", name)
            return file.read(MOST_BYTES)

    def write(self, name, content):
        """Writes a file of the node's own, whole or not at all, where it isn't so already. Whether it was written."""
        with suppress(OSError):
            if self.read(name) == content:
                return False
        staged = f".{name}.{os.getpid()}-{secrets.token_hex(4)}"
        try:
            made = os.open(staged, os.O_WRONLY | os.O_CREAT | os.O_EXCL | os.O_CLOEXEC, FILE_MODE, dir_fd=self.at)
            with open(made, "wb") as file:
                file.write(content)
                file.flush()
                os.fsync(made)
            os.replace(staged, name, src_dir_fd=self.at, dst_dir_fd=self.at)
        except BaseException as fault:
            self.remove(staged)
            if isinstance(fault, OSError):
                raise OSError(fault.errno, fault.strerror, name) from fault
            raise
        return True

    def remove(self, name):
        """Removes a file of the node's own; whether it was there."""
        try:
            os.unlink(name, dir_fd=self.at)
            return True
        except FileNotFoundError:
            return False
