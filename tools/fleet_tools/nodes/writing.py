"""The disk below a root, as the fleet reads and writes it: no link below the root is followed, and each file is there whole or not at all."""
import errno
import fcntl
import os
import secrets
import stat
from contextlib import contextmanager, suppress

from ..faults import Fault, Status, printable
from ..files import READ_FLAGS
from ..places import DIRECTORIES, MOST_FILE_BYTES, Link
from .applying import STAGED, Do, Ground, Obstacle, is_staged
from .manifests import Manifest, folder_path, manifest_of

OWN_FOLDER = "/var/lib/fleet-apply"
MANIFEST, LOCK = "manifest", "lock"
MOST_MANIFEST_BYTES = 67_108_864

FILE_MODE, FOLDER_MODE = 0o644, 0o755  # whatever the umask
FOLDER_FLAGS = os.O_RDONLY | os.O_DIRECTORY | os.O_NOFOLLOW | os.O_CLOEXEC
LOCK_FLAGS = os.O_RDONLY | os.O_NOFOLLOW | os.O_NONBLOCK | os.O_CLOEXEC  # only its owner may read it, so that only its owner may lock it
NEW_FLAGS = os.O_WRONLY | os.O_CREAT | os.O_EXCL | os.O_NOFOLLOW | os.O_CLOEXEC


class Blocked(Exception):
    """Something on the way to a folder that is no folder: what, in words."""


class NotWritten(Fault):
    """A write that failed: what is told is the path and why."""

    def __init__(self, path, why):
        super().__init__(f"{printable(path)}: not written: {why}")


class Disk:
    """A root, by an open folder. Paths are below it."""

    def __init__(self, root):
        self.root = os.path.realpath(root)
        self.at = os.open(self.root, FOLDER_FLAGS)
        self.locked = None
        self.taken = 0  # steps
        self.unsynced = set()

    def shown(self, path):
        """A path as it is told."""
        return printable(path if self.root == "/" else self.root + path)

    # what stands there

    @contextmanager
    def folder(self, path, is_making=False):
        """A folder, open; nothing where it lacks, unless it is to be made. Blocked where something else is on the way."""
        at = os.dup(self.at)
        try:
            done = ""
            for name in path.split("/")[1:]:
                done = f"{done}/{name}"
                further = self.entered(at, name, done, is_making)
                if further is None:
                    yield None
                    return
                at, before = further, at
                os.close(before)
            yield at
        finally:
            os.close(at)

    def entered(self, at, name, path, is_making):
        """A folder in an open one, open; nothing where it lacks, unless it is to be made."""
        try:
            return os.open(name, FOLDER_FLAGS, dir_fd=at)
        except FileNotFoundError:
            if not is_making:
                return None
        except OSError as fault:
            raise Blocked(what_blocks(at, name, path, fault)) from fault
        os.mkdir(name, FOLDER_MODE, dir_fd=at)
        made = os.open(name, FOLDER_FLAGS, dir_fd=at)
        os.fchmod(made, FOLDER_MODE)
        os.fsync(at)
        return made

    def found(self, places):
        """What stands at places."""
        found = {}
        for path, those in by_folder(places).items():
            try:
                with self.folder(path) as at:
                    found.update({it: None if at is None else look(at, it.name) for it in those})
            except Blocked as blocked:
                found.update(dict.fromkeys(those, Obstacle(str(blocked))))
        return found

    def ground(self, wanted, manifest, ranks):
        """What stands at wanted places and at those that the fleet wrote, and in the folders of both."""
        places = {it for it in (*wanted, *manifest.prints) if it.rank in ranks}
        folders = {(it.rank, it.folder) for it in places if it.folder} | {it for it in manifest.folders if it[0] in ranks}
        names = {it: self.names(folder_path(it)) for it in folders}
        return Ground(self.found(places), {it: those for it, those in names.items() if those is not None})

    def names(self, path):
        """What has a name in a folder, but what was left by a run that was killed; nothing where there is no folder."""
        with suppress(Blocked):
            with self.folder(path) as at:
                return None if at is None else {it for it in os.listdir(at) if not is_staged(it)}
        return None

    def leftovers(self, ranks):
        """The paths of what runs left that were killed, in the directories of these ranks and beside the manifest."""
        found = []
        for path in [*(DIRECTORIES[it] for it in ranks), OWN_FOLDER]:
            with suppress(Blocked):
                with self.folder(path) as at:
                    found += [] if at is None else [f"{path}/{it}" for it in staged_below(at)]
        return found

    # what is read and written beside the tree

    def text(self, path, most):
        """The bytes of a file; nothing where it lacks."""
        folder, _, name = path.rpartition("/")
        try:
            with self.folder(folder) as at:
                found = None if at is None else look(at, name, most)
        except Blocked as blocked:
            raise Fault(f"{self.shown(path)}: {blocked}") from blocked
        if found is not None and not isinstance(found, bytes):
            raise Fault(f"{self.shown(path)}: {found.why if isinstance(found, Obstacle) else 'a link stands there'}")
        return found

    def manifest(self):
        """What the fleet wrote, and the bytes that tell it."""
        path = f"{OWN_FOLDER}/{MANIFEST}"
        text = self.text(path, MOST_MANIFEST_BYTES)
        try:
            return (Manifest(), b"") if text is None else (manifest_of(text), text)
        except Fault as fault:
            raise Fault(f"{self.shown(path)}: {fault}") from fault

    def lock(self, is_making):
        """Keeps others from applying to this root until the end of the process. Where no lock's file is there, and none is to be made, none can."""
        path = f"{OWN_FOLDER}/{LOCK}"
        with self.writing(path, OWN_FOLDER, is_making) as at:
            if self.locked is None and at is not None:
                with suppress(FileNotFoundError):
                    self.locked = os.open(LOCK, LOCK_FLAGS | (os.O_CREAT if is_making else 0), 0o600, dir_fd=at)
                    fcntl.flock(self.locked, fcntl.LOCK_EX | fcntl.LOCK_NB)

    @contextmanager
    def writing(self, path, folder, is_making=True):
        """A folder, open, to write there; what fails is told of a path."""
        try:
            with self.folder(folder, is_making) as at:
                yield at
        except Blocked as blocked:
            raise NotWritten(self.shown(path), blocked) from blocked
        except BlockingIOError as fault:
            raise Fault(f"{self.shown(path)}: another apply writes below this root", Status.WRONG) from fault
        except OSError as fault:
            raise NotWritten(self.shown(path), fault.strerror) from fault

    def write_manifest(self, manifest):
        """Writes the manifest, whole and lasting."""
        path = f"{OWN_FOLDER}/{MANIFEST}"
        with self.writing(path, OWN_FOLDER) as at:
            put(at, MANIFEST, manifest.text())
            os.fsync(at)

    # the steps

    def take(self, step):
        """Takes a step; false where something else stands there by now."""
        path = step.place.path()
        folder, _, name = path.rpartition("/")
        with self.writing(path, folder, step.do is Do.WRITE) as at:
            if (None if at is None else look(at, name)) != step.found:
                return False
            if step.do is Do.WRITE:
                put(at, name, step.content)
            else:
                os.unlink(name, dir_fd=at)
            self.unsynced.add(folder)
            self.taken += 1
        return True

    def remove_folder(self, folder):
        """Removes a folder, if nothing is in it by now."""
        path = folder_path(folder)
        above, _, name = path.rpartition("/")
        with self.writing(path, above, False) as at:
            if at is None:
                return
            with passing_over(errno.ENOENT, errno.ENOTDIR, errno.ENOTEMPTY, errno.EEXIST):
                os.rmdir(name, dir_fd=at)
                self.unsynced.add(above)

    def remove_leftover(self, path):
        """Removes what a run left that was killed."""
        folder, _, name = path.rpartition("/")
        with self.writing(path, folder, False) as at:
            if at is not None:
                with suppress(FileNotFoundError):
                    os.unlink(name, dir_fd=at)

    def sync(self):
        """Lets all that changed in folders last."""
        for path in sorted(self.unsynced):
            with self.writing(path, path, False) as at:
                if at is not None:
                    os.fsync(at)
        self.unsynced = set()


def by_folder(places):
    """Places by the paths of the folders in which they are."""
    found = {}
    for it in places:
        found.setdefault(it.path().rpartition("/")[0], []).append(it)
    return found


def look(at, name, most=MOST_FILE_BYTES):
    """What stands under a name in an open folder, of a long file its begin: one that has a byte more than it may have."""
    try:
        mode = os.stat(name, dir_fd=at, follow_symlinks=False).st_mode
        if stat.S_ISLNK(mode):
            return Link(os.readlink(name, dir_fd=at))
        if stat.S_ISDIR(mode):
            return Obstacle("a folder stands there")
        if not stat.S_ISREG(mode):
            return Obstacle("neither a file nor a link stands there")
        with open(os.open(name, READ_FLAGS, dir_fd=at), "rb") as file:
            return file.read(most + 1)
    except FileNotFoundError:
        return None
    except OSError as fault:
        return Obstacle(f"it can't be read: {fault.strerror}")


def what_blocks(at, name, path, fault):
    """Why what stands in an open folder can't be entered as a folder, in words."""
    with suppress(OSError):
        mode = os.stat(name, dir_fd=at, follow_symlinks=False).st_mode
        if stat.S_ISLNK(mode):
            return f"{path} is a link, through which nothing is written"
        if not stat.S_ISDIR(mode):
            return f"{path} is no folder"
    return f"{path}: {fault.strerror}"


def staged_below(at):
    """What was written in an open folder and in those in it and isn't in its place, by its path there."""
    with os.scandir(at) as it:
        entries = list(it)
    found = [it.name for it in entries if is_staged(it.name) and not it.is_dir(follow_symlinks=False)]
    for entry in entries:
        if entry.is_dir(follow_symlinks=False):
            with suppress(OSError):
                below = os.open(entry.name, FOLDER_FLAGS, dir_fd=at)
                try:
                    found += [f"{entry.name}/{it}" for it in os.listdir(below) if is_staged(it)]
                finally:
                    os.close(below)
    return sorted(found)


def put(at, name, content):
    """Puts a file or a link under a name in an open folder, in place of a file or a link that stands there."""
    staged = f"{STAGED}{secrets.token_hex(8)}"
    try:
        if isinstance(content, Link):
            os.symlink(content.target, staged, dir_fd=at)
        else:
            with open(os.open(staged, NEW_FLAGS, 0o600, dir_fd=at), "wb") as file:
                file.write(content)
                file.flush()
                os.fchmod(file.fileno(), FILE_MODE)
                os.fsync(file.fileno())
        os.rename(staged, name, src_dir_fd=at, dst_dir_fd=at)
    except BaseException:
        with suppress(OSError):
            os.unlink(staged, dir_fd=at)
        raise


@contextmanager
def passing_over(*numbers):
    """Passes over faults of the system with these numbers."""
    try:
        yield
    except OSError as fault:
        if fault.errno not in numbers:
            raise


def carry_out(disk, work, known, leftovers):
    """Takes all steps of a work, of which the manifest had the bytes `known`. Gives those that weren't taken, since something else stands there
    by now. The manifest then still tells that a work is begun."""
    disk.lock(True)
    if disk.manifest()[1] != known:
        raise Fault(f"{disk.shown(OWN_FOLDER)}: another apply wrote below this root meanwhile: apply again", Status.WRONG)
    disk.write_manifest(work.meanwhile())
    for it in leftovers:
        disk.remove_leftover(it)
    left = [it for it in work.changes() if not disk.take(it)]
    for it in work.emptied:
        disk.remove_folder(it)
    disk.sync()
    return left


def manifest_after(work, left):
    """What the fleet has when all steps but these were taken."""
    prints = {**work.after.prints}
    for it in left:
        prints.pop(it.place, None)
        if it.place in work.before.prints:
            prints[it.place] = work.before.prints[it.place]
    return Manifest(prints, work.after.folders)


def found_below(root, places):
    """What stands at places below a root."""
    return Disk(root).found(places)
