"""Unit names, and the places of a store: paths of the unit load path, for the whole fleet or for one host."""
import re
from dataclasses import dataclass
from typing import NamedTuple, Union

DIRECTORIES = ("/etc/systemd/system", "/run/systemd/system", "/usr/local/lib/systemd/system", "/usr/lib/systemd/system")

MOST_FILE_BYTES = 65_536
MOST_TARGET_BYTES = 4_095
MOST_NAME_BYTES = 255

KINDS = ("service", "socket", "device", "mount", "automount", "swap", "target", "path", "timer", "slice", "scope")
UNIT_NAME = r"[A-Za-z0-9:\-_.\\][A-Za-z0-9:\-_.\\@]*\.(?:" + "|".join(KINDS) + ")"

PLACE = r"(?:[A-Za-z0-9.\-]{1,64}:)?(?:" + "|".join(DIRECTORIES) + ")/[!-~]+"

WORD = re.compile("[!-~]+")
HOST = re.compile(r"[A-Za-z0-9.\-]{1,64}")
HOST_RULE = "1 to 64 ASCII letters, digits, dashes and dots"
NODE = re.compile("[A-Za-z0-9]{1,32}")
NODE_RULE = "1 to 32 ASCII letters and digits"


@dataclass(frozen=True)
class Link:
    """A link, by its target."""

    target: str


# What stands at a place: the bytes of a file, or a link.
Content = Union[bytes, Link]


class Place(NamedTuple):
    """A place: a host's name or nothing for the fleet, the number of its directory, a folder or nothing, and a name. Places are ordered
    as the store orders them: the fleet's first, then by directory, and there names before folders."""

    host: str
    rank: int
    folder: str
    name: str

    def path(self):
        """The path without the host."""
        return "/".join([DIRECTORIES[self.rank], *([self.folder] if self.folder else []), self.name])

    def above(self):
        """The path and those of the folders in which it is, up to its directory."""
        directory = DIRECTORIES[self.rank]
        return [self.path(), directory, *([f"{directory}/{self.folder}"] if self.folder else [])]

    def __str__(self):
        return f"{self.host}:{self.path()}" if self.host else self.path()


def place_of(text):
    """The place that the program wrote so."""
    host, colon, path = ("", "", text) if text.startswith("/") else text.partition(":")
    for rank, directory in enumerate(DIRECTORIES):
        if path.startswith(f"{directory}/"):
            folder, _, name = path[len(directory) + 1 :].rpartition("/")
            return Place(host, rank, folder, name)
    raise ValueError(f"no place: {text}")


def is_unit_name(name):
    """Whether this is the name of a unit or of a template."""
    return len(name) <= MOST_NAME_BYTES and re.fullmatch(UNIT_NAME, name) is not None


def is_template(name):
    """Whether a unit name is a template's."""
    stem = name.rpartition(".")[0]
    return stem.find("@") == len(stem) - 1


def path_named(name):
    """The path after which a mount, an automount, a swap or a device is named."""
    stem = name.rpartition(".")[0]
    return "/" + re.sub(r"\\x([0-9A-Fa-f]{2})|-", lambda it: chr(int(it[1], 16)) if it[1] else "/", stem)


def whole_path(path):
    """A path without empty parts and dots, a character for each byte of it."""
    spelled = path.encode("utf-8", "surrogateescape").decode("latin-1") if not path.isascii() else path
    return [it for it in spelled.split("/") if it not in ("", ".")]


def is_asked(name):
    """Whether one may ask what this name comes to: a unit name, and no template's."""
    return is_unit_name(name) and not is_template(name)


def unit_asked(word):
    """The unit that a word of the command line names: `nginx` is `nginx.service`, as for systemctl."""
    return word if word.rpartition(".")[2] in KINDS and "." in word else f"{word}.service"
