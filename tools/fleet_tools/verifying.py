"""Asks systemd-analyze, where it stands on the machine, what it says of the units that a host sees."""
import os
import re
import shutil
import subprocess
import tempfile

from .checks import ANALYZE as ASKED
from .exports import Writer, entries_of
from .faults import Fault, cut
from .places import Link, is_unit_name
from .visible import visible

MOST_SECONDS = 600
MOST_LETTERS = 500
# What it says of commands, where only unit files stand in the tree.
OF_COMMANDS = re.compile(r": Command .* is not executable: ")


def said(seen, store):
    """The lines that it says of a host's units; a fault where it isn't there."""
    program = shutil.which(ASKED)
    if not program:
        raise Fault(f"--verify: {ASKED} isn't on this machine")
    names = sorted({name for (folder, name), it in visible(store.trees, seen.host).items()
                    if not folder and is_unit_name(name) and it.content and not isinstance(it.content, Link)})
    if not names:
        return []
    fleet = next((it for it in store.trees if not it.host), None)
    if not seen.host and os.path.isdir(fleet.root):
        return lines_of(program, fleet.root, names)
    with tempfile.TemporaryDirectory(prefix="fleet-") as root:
        Writer(root, {}, False).write(entries_of(seen.tree) if seen.host else fleet.entries)
        return lines_of(program, root, names)


def lines_of(program, root, names):
    """The lines that it says of these units of a tree, without what lacks beside unit files."""
    root = os.path.realpath(root)
    words = [program, "verify", "--man=no", *([f"--root={root}"] if root != "/" else []), *names]
    try:
        ran = subprocess.run(words, stdin=subprocess.DEVNULL, stdout=subprocess.PIPE, stderr=subprocess.STDOUT, check=False, timeout=MOST_SECONDS)
    except (OSError, subprocess.TimeoutExpired) as fault:
        raise Fault(f"--verify: {ASKED}: {cut(str(fault))}") from fault
    lines = ran.stdout.decode("utf-8", "surrogateescape").splitlines()
    is_whole = any(os.path.isdir(f"{root}/{it}") for it in ("usr/bin", "bin"))
    told = [it.replace(f"{root}/", "/") if root != "/" else it for it in lines if is_whole or not OF_COMMANDS.search(it)]
    if ran.returncode and not lines:
        told = [f"it ended with status {ran.returncode}"]
    return [cut(it, MOST_LETTERS) for it in dict.fromkeys(told)]
