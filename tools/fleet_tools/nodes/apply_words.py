"""The words of `fleet apply`."""
from ..checks import TARGETS
from ..words import add, host, unit
from .apply_verb import apply


def add_apply(found, parents):
    """Adds the verb that writes what a host sees into its folders."""
    made = add(found, "apply", apply, parents, "write what a host sees of a state file into its folders, and tell before what changes",
               "The units that change are printed field by field, then what is to be reloaded and restarted. Files that the fleet didn't write, or "
               "that were changed since, are kept. Status 1 where something is kept, or nothing is written for a reason that is told.")
    made.add_argument("--host", type=host, metavar="HOST", help="write for this host (ROOT/etc/hostname, else this machine's name where ROOT is /)")
    made.add_argument("--root", metavar="ROOT", default="/", help="the folder whose etc/systemd/system is written (/)")
    made.add_argument("--dry-run", action="store_true", help="print the same and write nothing")
    made.add_argument("--all-directories", action="store_true", help="write all four directories of the load path, not etc/systemd/system alone")
    made.add_argument("--adopt", action="store_true", help="take over what stands at the fleet's places and isn't the fleet's: it is overwritten")
    made.add_argument("--force", action="store_true", help="write also where the plan is refused, a unit is crossed or --verify says something new")
    made.add_argument("--verify", action="store_true", help="ask systemd-analyze of this machine before and after, and write nothing if it says more")
    made.add_argument("--reload", action="store_true", help="run `systemctl daemon-reload` after changes; only where ROOT is /")
    made.add_argument("--target", type=unit, metavar="UNIT", help=f"whose plan must stand afterwards ({', else '.join(TARGETS)})")
