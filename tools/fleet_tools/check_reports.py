"""What `fleet check` prints of what it found."""
from .checks import TARGETS, numbered
from .reports import by_hosts, shown_host
from .unmodelled import PAGE


def lines_of(found, profile, hosts):
    """The lines of a check: what is wrong, what isn't modelled, and a summary for each host."""
    yield profile.head()
    yield from by_hosts({str(it): those for it, those in found.wrong.items()}, hosts)
    yield from by_hosts({f"{kind}: {what}: {numbered(count, of)}": those for (kind, what, of, count), those in found.left_out.items()}, hosts)
    for host in hosts:
        at = f"{shown_host(host)}: " if len(hosts) > 1 else ""
        yield f"{at}{numbered(found.units[host], 'unit')}, {numbered(wrong_count(found, host), 'thing')} wrong"
    if found.left_out:
        yield f"what isn't modelled, and what to expect of it: {PAGE}"


def wrong_count(found, host):
    """How many things are wrong for a host."""
    return sum(host in those for those in found.wrong.values())


def objects_of(found, profile, hosts):
    """The objects of a check; a host without a name is the fleet."""
    for it, those in found.wrong.items():
        yield {"is": "wrong", "at": it.at, "part": it.part, "why": it.why, "hosts": those}
    for (kind, what, of, count), those in found.left_out.items():
        yield {"is": kind, "what": what, "of": of, "count": count, "hosts": those}
    for host in hosts:
        yield {"is": "summary", "hosts": [host], "profile": profile.value, "units": found.units[host], "wrong": wrong_count(found, host)}


def without_target(found, hosts):
    """The lines on hosts of which no plan was looked at."""
    for host in found.without_target:
        at = f"{shown_host(host)}: " if len(hosts) > 1 else ""
        yield f"{at}neither {' nor '.join(TARGETS)} is there, and no target is named: no plan is looked at"
