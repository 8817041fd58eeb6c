"""Files and links of a tree, read so that nothing outside of the tree is taken for the tree's."""
import errno
import os
import stat

MOST_LINKS = 40
TRIES = 3

READ_FLAGS = os.O_RDONLY | os.O_NOFOLLOW | os.O_NONBLOCK | os.O_CLOEXEC


class Unsettled(OSError):
    """A file that is another one whenever it is looked at."""


def led_to(root, path):
    """The path in the tree below root to which a path of it leads. Links on the way are the tree's own: an absolute target begins at the
    root again, and none leads out of it. What isn't there leads to itself."""
    waiting = path.split("/")[::-1]
    at, links = "", 0
    while waiting:
        part = waiting.pop()
        if part in ("", "."):
            continue
        if part == "..":
            at = at.rpartition("/")[0]
            continue
        try:
            target = os.readlink(f"{root}{at}/{part}")
        except OSError:
            at = f"{at}/{part}"
            continue
        links += 1
        if links > MOST_LINKS:
            raise OSError(errno.ELOOP, os.strerror(errno.ELOOP), path)
        if target.startswith("/"):
            at = ""
        waiting += target.split("/")[::-1]
    return at


def read_once(path, most):
    """The bytes of a file of at most so many; of a longer one, one more. Nothing where it changed meanwhile."""
    file = os.open(path, READ_FLAGS)
    try:
        before = os.fstat(file)
        if not stat.S_ISREG(before.st_mode):
            return None
        wanted = min(before.st_size, most) + 1
        found = os.read(file, wanted)
        while len(found) < wanted:
            more = os.read(file, wanted - len(found))
            if not more:
                break
            found += more
        after = os.fstat(file)
    finally:
        os.close(file)
    is_same = (before.st_size, before.st_mtime_ns) == (after.st_size, after.st_mtime_ns)
    return found if is_same and len(found) == min(before.st_size, most + 1) else None


def bytes_of(path, most):
    """The bytes of a file of at most so many; of a longer one, one more."""
    for _ in range(TRIES):
        found = read_once(path, most)
        if found is not None:
            return found
    raise Unsettled(errno.EAGAIN, "it changes while it is read", path)
