"""What trees have beside their unit folders that a system manager heeds, counted: no store has it."""
import os
import re

from .files import bytes_of, led_to
from .places import is_unit_name

MOST_BYTES = 1_048_576  # of a file that is looked at

FOLDERS = ("/etc/systemd", "/run/systemd", "/usr/local/lib/systemd", "/usr/lib/systemd")
# Each thing, what is counted of it, and the lines of files or the names of folders that count.
LINES = (
    ("mounts and swaps of the machine, which a generator makes of /etc/fstab", re.compile(rb"(?m)^[ \t]*[^#\s].*$"), ("/etc/fstab",), ()),
    ("DefaultStandardOutput= and DefaultStandardError= of the manager", re.compile(rb"(?m)^[ \t]*DefaultStandard(?:Output|Error)[ \t]*=.*$"),
     tuple(f"{it}/system.conf" for it in FOLDERS), tuple(f"{it}/system.conf.d" for it in FOLDERS)),
)
NAMES = (
    ("generators, which aren't run", lambda _: True, tuple(f"{it}/system-generators" for it in FOLDERS)),
    ("units of users' managers, which aren't read", is_unit_name, tuple(f"{it}/user" for it in FOLDERS)),
)


class Beside:
    """Looks beside the unit folders of a tree, and keeps what can't be read."""

    def __init__(self, root):
        self.base = root.rstrip("/")
        self.unread = []

    def looked(self, path, look, default):
        """What a look at a path of the tree gives; the default where nothing is there, or where it can't be read, which is kept."""
        try:
            return look(self.base + led_to(self.base, path))
        except (FileNotFoundError, NotADirectoryError):
            return default
        except OSError as fault:
            self.unread.append((path, fault.strerror))
            return default

    def paths(self, folders):
        """The paths of what is in folders, of each name in the first that has it; without what a link to /dev/null or an empty file masks."""
        found = {}
        for folder in folders:
            for name, is_masked in self.looked(folder, lambda at: [(it, is_mask(f"{at}/{it}")) for it in sorted(os.listdir(at))], []):
                found.setdefault(name, None if is_masked else f"{folder}/{name}")
        return [it for it in found.values() if it]

    def lines(self, path, pattern):
        """How many lines of a file match."""
        return len(pattern.findall(self.looked(path, lambda at: bytes_of(at, MOST_BYTES), b"")))


def is_mask(path):
    """Whether a link to /dev/null or an empty file stands here."""
    return os.readlink(path) == "/dev/null" if os.path.islink(path) else os.path.isfile(path) and not os.path.getsize(path)


def counts_beside(trees):
    """Rows of what it is, what is counted, and how many there are in all trees; and what can't be read, with why."""
    looks = [Beside(it.root) for it in trees]
    rows = []
    for what, is_meant, folders in NAMES:
        rows.append((what, "file", sum(is_meant(os.path.basename(path)) for look in looks for path in look.paths(folders))))
    for what, pattern, files, folders in LINES:
        rows.append((what, "line", sum(look.lines(path, pattern) for look in looks for path in (*files, *look.paths(folders)))))
    return rows, list(dict.fromkeys(line for look in looks for line in look.unread))
