"""How answers are printed: lines, grouped by the hosts for which they are, or JSON, an object a line."""
import json
import sys
from contextlib import suppress


def tell(line):
    """Tells a line on standard error, if that can be written: the status stands in any case."""
    with suppress(OSError):
        print(f"fleet: {line}", file=sys.stderr, flush=True)


def say(lines):
    """Prints these lines."""
    sys.stdout.write("".join(f"{it}\n" for it in lines))


def say_bytes(text):
    """Prints these bytes."""
    sys.stdout.flush()
    sys.stdout.buffer.write(text)
    sys.stdout.buffer.flush()


def say_objects(objects):
    """Prints these objects as JSON, one a line. A byte that is no part of UTF-8 is a lone surrogate from U+DC80 to U+DCFF, as Python has it."""
    sys.stdout.write("".join(f"{json.dumps(it)}\n" for it in objects))


def shown_host(host):
    """A host as it is told."""
    return host or "the fleet"


def hosts_in_words(hosts, every):
    """Hosts, told among all that were asked for."""
    if len(hosts) == len(every):
        return "all"
    shown = [shown_host(it) for it in hosts]
    return " and ".join(filter(None, [", ".join(shown[:-1]), shown[-1]]))


def by_hosts(rows, every):
    """Rows grouped by the hosts for which they are, each group behind a line that tells these; without such lines where one host is asked for.
    `rows` are from what is told to its hosts."""
    groups = {}
    for it, hosts in rows.items():
        groups.setdefault(tuple(hosts), []).append(it)
    for hosts in sorted(groups, key=lambda it: (-len(it), [every.index(host) for host in it])):
        if len(every) > 1:
            yield f"# for {hosts_in_words(hosts, every)}"
        yield from groups[hosts]


def of_refusal(refusal):
    """The object of a refusal."""
    return {"refused": refusal.code, "name": refusal.name, "told": list(refusal.told), "words": str(refusal)}


def of_unit(unit):
    """The object of a unit."""
    head = {"unit": unit.name, "status": unit.status.value, **({"told": unit.told} if unit.told else {}), "names": list(unit.names)}
    return {**head, "dropins": list(unit.dropins), "values": unit.settings, "edges": {kind: list(names) for kind, names in unit.edges.items()},
            "notes": [{"code": it.code, "where": it.where} for it in unit.notes]}
