"""Which host a root is of."""
import os

from ..faults import Fault, cut
from ..places import HOST, HOST_RULE

HOSTNAME = "/etc/hostname"
MOST_HOSTNAME_BYTES = 4_096


def host_of(named, disk):
    """The host that a root is of, and by what it is known: the fleet where nothing names one."""
    if named:
        return named, "--host"
    text = disk.text(HOSTNAME, MOST_HOSTNAME_BYTES)
    rows = [it.split() for it in (text or b"").decode("utf-8", "surrogateescape").split("\n")]
    words = [it[0] for it in rows if it and not it[0].startswith("#")]
    found, by = (words[0], HOSTNAME) if words else (os.uname().nodename, "this machine's name") if disk.root == "/" else ("", "no host is named")
    if found and not HOST.fullmatch(found):
        raise Fault(f"{by}: {cut(found)}: no host's name: {HOST_RULE}; --host names one")
    return found, by
