"""The words of the verbs over a state file."""
import argparse

from ..places import WORD
from ..words import add, host, matched, printing, unit, writer
from . import verbs
from .apply_words import add_apply
from .files import FIRST, VARIABLE
from .syncing import PORT

place = matched(WORD, "no place: printable ASCII without spaces")
target = matched(WORD, "no link's target: printable ASCII without spaces")
version = matched(r"[0-9]{1,20}\.[0-9]{1,10}", "no version, as 12.7 is one")
seconds = matched("[1-9][0-9]{0,5}", "no number of seconds")

PLACE = "a path in a directory of the load path, as /etc/systemd/system/web.service, for one host behind its name and a colon"


def of_state():
    """The words of all verbs over a state file."""
    made = argparse.ArgumentParser(add_help=False, parents=[printing()])
    made.add_argument("--state", metavar="FILE", help=f"the state file ({VARIABLE}, or {FIRST})")
    return made


def of_place():
    """The words of verbs that edit a place."""
    made = argparse.ArgumentParser(add_help=False, parents=[of_state()])
    made.add_argument("place", type=place, metavar="PLACE", help=PLACE)
    return made


def add_verbs_of_nodes(found):
    """Adds the verbs over a state file."""
    made = add(found, "init", verbs.init, [of_state()], "make a state file that holds nothing",
               "Each state file of a fleet writes under a number of its own. Without --writer one is chosen at random, and told.")
    made.add_argument("--writer", type=writer, metavar="N", help="the number under which it writes; no other file may have it")
    add_edits(found)
    add_looks(found)
    add_sync(found)
    add_apply(found, [of_state()])


def add_edits(found):
    """Adds the verbs that edit places."""
    made = add(found, "put", verbs.put, [of_place()], "put a file at a place",
               "It is in the state file when its version is told. What is there already as it is given is no edit.")
    made.add_argument("file", nargs="?", metavar="FILE", help="the file; - or none is standard input. An empty one masks a unit")
    made = add(found, "link", verbs.link, [of_place()], "put a link at a place")
    made.add_argument("target", type=target, metavar="TARGET", help="to what it leads")
    made = add(found, "rm", verbs.remove, [of_state()], "remove what stands at places", "All that can be removed is removed at once.")
    made.add_argument("places", nargs="+", type=place, metavar="PLACE", help=PLACE)
    made = add(found, "mask", verbs.mask, [of_state()], "mask a unit: put a link to /dev/null in /etc/systemd/system")
    made.add_argument("unit", type=unit, metavar="UNIT", help="the unit")
    made.add_argument("--host", type=host, metavar="HOST", help="for this host alone")
    made = add(found, "edit", verbs.edit, [of_place()], "edit a place's file, or a new one, in an editor",
               "VISUAL or EDITOR names the editor. Where the place was changed meanwhile, nothing is written and the text is kept.")
    made.add_argument("--force", action="store_true", help="write also over what came meanwhile")
    made = add(found, "revert", verbs.revert, [of_place()], "put at a place what an earlier edit put there",
               "This is an edit of its own; of a removal it is one.")
    made.add_argument("version", type=version, metavar="VERSION", help="the edit's version, as `log` tells it")


def add_looks(found):
    """Adds the verbs that tell of a state file."""
    made = add(found, "log", verbs.log, [of_state()], "tell the edits that stand in the log, by time",
               "What stands now at its place has a star. A compaction leaves each place's last edit.")
    made.add_argument("of", nargs="?", type=matched(WORD, "neither a place nor a unit"), metavar="PLACE|UNIT",
                      help="tell those of a place; or those of a unit, for the fleet and all hosts: its files, its drop-ins, and links that pull it in "
                           "or by which it pulls others in")
    add(found, "peers", verbs.peers, [of_state()], "tell the nodes that this one met or was told of",
        "Each with its number, its mark, and when it was met.")
    made = add(found, "status", verbs.status, [of_state()], "tell how the state file stands, and what a machine's folder has otherwise",
               "Status 1 where something differs.")
    made.add_argument("--host", type=host, metavar="HOST", help="the host whose folder it is (the one that ROOT/etc/hostname names)")
    made.add_argument("--root", default="/", metavar="ROOT", help="below which the machine's folders stand (/)")
    made.add_argument("--all-directories", action="store_true", help="compare all four directories, and not /etc/systemd/system alone")
    made.add_argument("--all", action="store_true", help="tell each path that differs")


def add_sync(found):
    """Adds the verb that exchanges with others."""
    made = add(found, "sync", verbs.sync, [of_state()], "exchange with other nodes what differs",
               "All are tried, one after another; status 1 where one failed. What came before an exchange broke off stays.")
    made.add_argument("hosts", nargs="*", metavar="HOST[:PORT]",
                      help=f"a machine where systemd hands connections to `fleet_node exchange FILE` ({PORT})")
    made.add_argument("--ssh", action="append", default=[], metavar="[USER@]HOST", help="a machine that ssh reaches; FLEET_SSH names another command")
    made.add_argument("--socket", action="append", default=[], metavar="PATH", help="a socket of this machine")
    made.add_argument("--dir", action="append", default=[], metavar="FOLDER", help="a folder that anything carries to and from others")
    made.add_argument("--from", dest="source", action="append", default=[], metavar="FILE",
                      help="a file whose lines are HOST[:PORT], ssh:[USER@]HOST, socket:PATH or dir:FOLDER; - is standard input")
    made.add_argument("--state-there", metavar="FILE", help=f"the state file of those that ssh reaches ({FIRST})")
    made.add_argument("--seconds", type=lambda word: int(seconds(word)), default=60, metavar="N",
                      help="give up one that says nothing for so long (60)")
