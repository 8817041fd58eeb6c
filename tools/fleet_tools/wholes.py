"""Folders and files that are written beside their place and put there as a whole, or not at all."""
import os
import secrets
import shutil
import stat

from .faults import Fault, printable

FOLDER_MODE, FILE_MODE = 0o777, 0o644  # less what the umask takes


def umask():
    """What the umask takes of modes."""
    found = os.umask(0o077)
    os.umask(found)
    return found


class NewFolder:
    """A folder that is new or takes the place of an empty one. It is written at `staged`; where something fails, nothing of it is left."""

    def __init__(self, path):
        self.path = os.path.realpath(path)
        if os.path.lexists(path) and not (os.path.isdir(path) and not os.listdir(path)):
            raise Fault(f"{printable(path)}: neither new nor an empty folder")
        self.mode = stat.S_IMODE(os.stat(path).st_mode) if os.path.isdir(path) else FOLDER_MODE & ~umask()
        self.staged = staged_beside(self.path)
        self.made = []

    def __enter__(self):
        try:
            self.make_above(os.path.dirname(self.path))
            self.made.append(self.staged)
            os.mkdir(self.staged, 0o700)
        except BaseException:
            self.remove()
            raise
        return self

    def __exit__(self, kind, _fault, _trace):
        try:
            if kind is None:
                os.chmod(self.staged, self.mode)
                os.rename(self.staged, self.path)
                self.made = []
        except OSError as fault:
            raise Fault(f"{printable(self.path)}: not written: {fault.strerror}") from fault
        finally:
            try:
                self.remove()
            except BaseException:  # as a stop meanwhile: what was made goes all the same
                self.remove()
                raise

    def make_above(self, path):
        """Makes a folder and those above it."""
        if not os.path.isdir(path):
            self.make_above(os.path.dirname(path))
            self.made.append(path)
            os.mkdir(path)

    def remove(self):
        """Removes what was made."""
        for path in self.made[::-1]:
            if path == self.staged:
                shutil.rmtree(path, ignore_errors=True)
            elif os.path.isdir(path) and not os.listdir(path):
                os.rmdir(path)
        left = os.path.lexists(self.staged)
        self.made = []
        if left:
            raise Fault(f"{printable(self.staged)}: it is left there and can't be removed")


def staged_beside(path):
    """A path beside a path, for what is put there later."""
    return os.path.join(os.path.dirname(path), f".{os.path.basename(path)[:200]}.{os.getpid()}-{secrets.token_hex(4)}")


def write_whole(path, content, mode=FILE_MODE):
    """Writes a file of at most this mode. What isn't a file, as a pipe, is written into."""
    if os.path.lexists(path) and not os.path.isfile(path):
        with open(path, "wb") as file:
            file.write(content)
        return
    path = os.path.realpath(path)
    staged = staged_beside(path)
    try:
        with open(os.open(staged, os.O_WRONLY | os.O_CREAT | os.O_EXCL | os.O_CLOEXEC, mode), "wb") as file:
            file.write(content)
        os.replace(staged, path)
    except BaseException as fault:
        if os.path.lexists(staged):
            os.unlink(staged)
        if isinstance(fault, OSError):
            raise Fault(f"{printable(path)}: not written: {fault.strerror}") from fault
        raise
