"""The places of a state file as trees: the fleet's, and one of each host that has places of its own."""
import os
import stat

from ..faults import Fault, printable
from ..trees import Tree
from .files import NodeFile

MAGIC = b"SQLite format 3\0"


def is_state(path):
    """Whether this is a file that begins as a state file does."""
    try:
        if not stat.S_ISREG(os.stat(path).st_mode):
            return False
        with open(path, "rb") as file:
            return file.read(len(MAGIC)) == MAGIC
    except FileNotFoundError:
        return False


def trees_of_state(path, host=""):
    """The trees of a state file, which tells by itself what is a host's."""
    if host:
        raise Fault(f"{printable(host)}={printable(path)}: a state file, which has the places of the fleet and of its hosts: name it alone, and "
                    "--host HOST asks for a host")
    trees = {"": Tree(path)}
    for place, content in NodeFile(os.path.abspath(path)).contents().items():
        trees.setdefault(place.host, Tree(path, place.host)).entries[place] = content
    return [trees[it] for it in sorted(trees)]
