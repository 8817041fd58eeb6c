"""The words of `fleet`'s command line."""
import argparse
import gc
import os
import sys
import traceback

from . import VERSION, verbs
from .checks import TARGETS
from .faults import Fault, Status, printable
from .nodes.words import add_verbs_of_nodes
from .profiles import Profile
from .progress import Progress
from .reports import tell
from .stops import Stopped, ended_by, flushed, stoppable, streams_ready
from .words import (Parser, add, add_profile, add_running, add_where, asking, host, node, of_store, of_tree, printing, reading, unit, writer)

ABOUT = """Reads the unit load path below each ROOT (/etc, /run, /usr/local/lib and /usr/lib/systemd/system), puts it into a store,
and asks the proved program what it comes to."""

ENDS = """ROOT is a folder, as / or the top of an image. web1=ROOT is the tree of the host web1 alone, whose files stand over the fleet's. A state file
is a ROOT too, which has the places of the fleet and of all its hosts.

Exit status: 0; 1 where the answer is a refusal, something is wrong or trees differ; 2 where a tree or the words can't be read, or the
program can't be run. FLEET_SHELL names the program; without it, it is crates/fleet_shell/out/fleet_shell of this repository.
FLEET_NODE names the one that keeps state files, FLEET_STATE the state file.
`fleet VERB --help` tells more of a verb."""

def add_verbs_of_trees(found):
    """Adds the verbs that read trees and write trees."""
    made = add(found, "import", verbs.import_trees, [reading(), printing()], "write the script that puts trees into a store",
               "What the store doesn't take is told on standard error, a line each and a count at the end. Status 1 where something can't be read.")
    made.add_argument("roots", nargs="+", metavar="ROOT", help="trees, one for the fleet and one for each host, as web1=ROOT")
    made.add_argument("--node", type=node, help="the node's name in the script (tree)")
    made.add_argument("--writer", type=writer, metavar="N", help="its writer's number (1)")

    made.add_argument("--modes", metavar="FILE", help="write a table of the files' modes, for export")
    made.add_argument("--factor", action="store_true", help="give what at least half of the hosts have, and no host lacks, to the fleet, once; "
                      "each host sees what it saw")
    made.add_argument("--split", metavar="FOLDER", help="write as many scripts as it takes into a new folder, for a node in a file")

    made = add(found, "export", verbs.export, [asking()], "write what a node of a script shows as a tree",
               "The fleet's files go below FOLDER, those of a host below FOLDER/hosts/HOST. It is written as a whole, or nothing is. "
               "Of a script that only its owner may read, files have the mode 0600 where --modes has none for them.")
    made.add_argument("script", metavar="SCRIPT", help="a file with a script, as import writes it")
    made.add_argument("node", type=host, metavar="NODE", help="the node's name in it, or the name that merge was given for it")
    made.add_argument("folder", metavar="FOLDER", help="a folder that is new or empty")
    made.add_argument("--modes", metavar="FILE", help="the table that import wrote: files have these modes, but none wider than 0644")
    made.add_argument("--host", type=host, metavar="HOST", help="write the one tree that this host sees: its own files over the fleet's")

    made = add(found, "merge", verbs.merge, [reading(), asking()], "let trees meet, each as a node, and print what all hold then",
               "For each place the version that stands there, with its node; then each place at which nodes differed, who won, and over "
               "which version. A tree has no history: a node edits the places of its tree in order, and each edit's version counts on from all "
               "that the node holds. Status 1 where nodes differed and nothing was chosen, or where a tree can't be read.")
    made.add_argument("roots", nargs="+", metavar="ROOT", help="trees; alice=ROOT is the tree of the node alice, alice:web1=ROOT her tree of the "
                      "host web1, ROOT alone is named by its place")
    made.add_argument("--base", metavar="ROOT", action="append", default=[],
                      help="the tree that all held before: a node then edits only what its own has otherwise; again for hosts, as web1=ROOT")
    made.add_argument("--prefer", type=host, metavar="NODE", help="where nodes differed let what this one has stand, as an edit of its on top")
    made.add_argument("--text", action="store_true", help="where nodes differed in lines of a text that don't overlap, join these over the base's")
    made.add_argument("--show", action="store_true", help="print what each node has where they differed, spelled as in scripts")
    made.add_argument("--script", action="store_true", help="print the script of the nodes instead, without running it where nothing is to be chosen")


def add_verbs_of_units(found):
    """Adds the verbs that ask about units."""
    made = add(found, "show", verbs.show, [of_tree(), asking()], "print what units come to: names, status, drop-ins, values, dependencies, notes",
               "Several units are printed one after another, an empty line between them.")
    made.add_argument("units", nargs="+", type=unit, metavar="UNIT", help="a unit; without a kind a service")
    add_where(made)
    add_profile(made, Profile.FILES)

    for name, about in (("cat", "print a unit's file and its drop-ins"), ("list", "print what a unit pulls, each with its distance")):
        made = add(found, name, verbs.ask, [of_tree(), asking()], about)
        made.add_argument("unit", type=unit, metavar="UNIT", help="a unit; without a kind a service")
        if name == "cat":
            made.set_defaults(profile=Profile.FILES.value)
        else:
            add_profile(made, Profile.FILES)

    made = add(found, "plan", verbs.plan, [of_tree(), asking()], "print what stops and what starts, in order, where a unit is to start",
               "A line at the head says by which profile. docs/SYSTEMD.md says what plans leave out.")
    made.add_argument("unit", type=unit, metavar="UNIT", help="the unit that is to start")
    add_running(made)
    add_profile(made, Profile.MANAGER)


def add_verbs_of_fleets(found):
    """Adds the verbs that look at all units, and the one that draws."""
    made = add(found, "check", verbs.check, [of_tree(), asking()], "print what is wrong with a tree's units, a line each",
               "For the fleet and for each host of which a tree is given: lines, sections, keys and values that systemd doesn't know, bad links, "
               "what systemd refuses, requirements that can't be met, and why a target has no plan, with all its cycles; then what isn't "
               "modelled, counted. Status 1 where something is wrong or can't be read.")
    made.add_argument("--all", action="store_true", help="look for cycles among all units, also those that no target starts")
    made.add_argument("--verify", action="store_true", help="ask systemd-analyze of this machine too, and tell what it says as its own")
    add_profile(made, Profile.MANAGER)
    made.add_argument("target", nargs="?", type=unit, metavar="TARGET", help=f"whose plan is looked at ({', else '.join(TARGETS)})")

    made = add(found, "diff", verbs.diff, [of_store(), asking()], "print which units differ between two trees or two hosts, field by field",
               "Two trees are compared for the fleet and for each host; with --hosts two hosts of one tree. What differs of files that no unit "
               "reads, as of templates without instances, is told behind the units. Status 1 where something differs or can't be read.")
    made.add_argument("root", metavar="ROOT", help="a tree")
    made.add_argument("other", nargs="?", metavar="ROOT", help="another")
    made.add_argument("--with", dest="more", action="append", default=[], metavar="HOST=ROOT",
                      help="the tree of a host beside the first; again for others")
    made.add_argument("--other-with", dest="more_other", action="append", default=[], metavar="HOST=ROOT", help="the same beside the other tree")
    made.add_argument("--hosts", nargs=2, type=host, metavar=("HOST", "HOST"), help="compare these two hosts of the first tree")
    add_where(made)
    add_profile(made, Profile.MANAGER)

    made = add(found, "draw", verbs.draw, [of_tree(), asking()], "draw the plan of a unit as SVG, a band for each step",
               "All arrows point down, from what must stand to what waits for it. Where there is no plan, the cycle or the conflict is drawn. In a "
               "browser the picture is searched and zoomed, and a unit tells its ties.")
    made.add_argument("unit", type=unit, metavar="TARGET", help="the unit that is to start")
    add_running(made)
    add_profile(made, Profile.MANAGER)
    made.add_argument("--dot", action="store_true", help="write DOT text instead, for Graphviz")
    made.add_argument("--all-edges", action="store_true", help="draw those arrows too that follow from others")
    made.add_argument("--plain", action="store_true", help="leave out what makes the picture searchable, for pages that show it as an image")
    made.add_argument("--output", metavar="FILE", help="where to write it, instead of standard output")


def parser():
    """What reads the command line."""
    made = Parser("fleet", description=ABOUT, epilog=ENDS, formatter_class=argparse.RawDescriptionHelpFormatter)
    made.add_argument("--version", action="version", version=f"fleet {VERSION}")
    found = made.add_subparsers(dest="verb", metavar="VERB", required=True)
    add_verbs_of_trees(found)
    add_verbs_of_units(found)
    add_verbs_of_fleets(found)
    add_verbs_of_nodes(found)
    return made


def run(asked):
    """Does what the words ask for. The status."""
    progress = Progress()
    try:
        status = asked.work(asked, progress)
        sys.stdout.flush()
        return status
    except BrokenPipeError:
        raise
    except Fault as fault:
        why, status = str(fault), fault.status
    except OSError as fault:
        why, status = f"{printable(os.fsdecode(fault.filename or 'input or output'))}: {fault.strerror}", Status.UNREAD
    except MemoryError:
        why, status = "out of memory", Status.UNREAD
    except Exception as fault:  # of these tools: told in one line, as all that ends a verb
        why, status = f"a fault of these tools: {type(fault).__name__}: {printable(str(fault))} ({place_of_fault(fault)})", Status.UNREAD
    finally:
        progress.end()
    tell(f"{asked.verb}: {why}")
    return status


def place_of_fault(fault):
    """The file and line of these tools where something was raised."""
    frame = traceback.extract_tb(fault.__traceback__)[-1]
    return f"{os.path.basename(frame.filename)}:{frame.lineno}"


def main(words):
    """Does what the words ask for, quietly where nobody reads it to its end or where it is stopped. The status."""
    gc.disable()  # a run is short, and makes no rings of objects
    if not streams_ready():
        return Status.UNREAD
    try:
        with stoppable():
            return int(run(parser().parse_args(words)))
    except BrokenPipeError:
        return Status.WRONG
    except SystemExit as ended:
        return flushed(ended.code or 0)
    except OSError as fault:
        tell(f"standard output: {fault.strerror}")
        return Status.UNREAD
    except Stopped as stop:
        return ended_by(stop.number)
