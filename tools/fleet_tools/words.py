"""Words that verbs of `fleet`'s command line share."""
import argparse
import re
import sys

from .faults import printable
from .places import HOST, HOST_RULE, NODE, NODE_RULE, WORD, unit_asked
from .profiles import Profile

NUMBER_LIMIT = 4_294_967_295


class Parser(argparse.ArgumentParser):
    """Reads words; help that can't be printed is a fault, which the original passes over."""

    def _print_message(self, message, file=None):
        if message:
            (file or sys.stderr).write(message)


def matched(pattern, what):
    """A word that a pattern must match as a whole."""

    def read(word):
        """The word, where it matches."""
        if not re.fullmatch(pattern, word):
            raise argparse.ArgumentTypeError(f"{printable(word)}: {what}")
        return word

    return read


def unit(word):
    """A unit's name; what kind of name it is the program says."""
    return unit_asked(matched(WORD, "no unit's name")(word))


def writer(word):
    """A writer's number."""
    number = int(matched("[0-9]{1,10}", "no number")(word))
    if number > NUMBER_LIMIT:
        raise argparse.ArgumentTypeError(f"{word}: over {NUMBER_LIMIT}")
    return number


host = matched(HOST, f"no host's name: {HOST_RULE}")
node = matched(NODE, f"no node's name: {NODE_RULE}")
workers = matched("[0-9]{1,10}", "no number")


def asking():
    """The words of all verbs that run the program."""
    made = argparse.ArgumentParser(add_help=False, parents=[printing()])
    made.add_argument("--unproved", action="store_true", help="run the program without proofs, by `rt try`, in some minutes")
    return made


def printing():
    """The words of all verbs."""
    made = argparse.ArgumentParser(add_help=False)
    made.add_argument("--json", action="store_true", help="print JSON, an object a line, with the same exit status")
    return made


def reading():
    """The words of all verbs that read trees."""
    made = argparse.ArgumentParser(add_help=False)
    made.add_argument("--follow", action="store_true",
                      help="take links that lead out of the load path, and drop-ins that are links, as the files below ROOT to which they lead")
    return made


def of_store():
    """The words of verbs that ask about a store made of trees."""
    made = argparse.ArgumentParser(add_help=False, parents=[reading()])
    made.add_argument("--host", type=host, metavar="HOST", help="ask for this host alone, of which a tree is given")
    made.add_argument("--workers", type=workers, metavar="N", help="load by 1 to 64 threads, which changes no answer")
    return made


def of_tree():
    """The words of verbs that ask about one tree, and trees of hosts beside it."""
    made = argparse.ArgumentParser(add_help=False, parents=[of_store()])
    made.add_argument("root", metavar="ROOT", help="the tree; of web1=ROOT alone web1 is the host that is asked for")
    made.add_argument("--with", dest="more", action="append", default=[], metavar="HOST=ROOT",
                      help="the tree of a host beside it; again for others")
    return made


def add_profile(made, first):
    """Adds the word that says the profile, and which one comes first."""
    made.add_argument("--profile", choices=[it.value for it in Profile], default=first.value,
                      help="manager: what files say and what systemd's manager adds, as default dependencies; files: what files say alone "
                           f"({first.value})")


def add_where(made):
    """Adds the word that asks where things come from."""
    made.add_argument("--where", action="store_true", help="with each value and each dependency, tell the file's line that says it")


def add_running(made):
    """Adds the words that say what runs."""
    made.add_argument("running", nargs="*", type=unit, metavar="RUNNING", help="units that run already")
    made.add_argument("--running-from", metavar="FILE", help="a file whose lines each begin with a unit that runs; - is standard input")


def add(found, name, work, parents, about, more=""):
    """Adds a verb."""
    made = found.add_parser(name, help=about, description=f"{about}.{' ' if more else ''}{more}", parents=parents)
    made.set_defaults(work=work)
    return made
