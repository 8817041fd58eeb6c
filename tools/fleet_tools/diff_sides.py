"""The sides of a difference: two trees for each host, or two hosts of one fleet."""
from .asking import hosts_of
from .diffs import Side
from .faults import Fault, printable


def of_hosts(asked, progress, store_of):
    """Two hosts of one fleet, as a row of what it is called and both sides."""
    if asked.other or asked.more_other or asked.host is not None:
        raise Fault("--hosts compares two hosts of one tree, which --with gives: it goes with no other tree and no --host")
    one, other = asked.hosts
    store = store_of(asked, progress, [asked.root, *asked.more], lambda trees: [*hosts_of(trees, one), *hosts_of(trees, other)])
    first, second = store.seen()
    return [(f"{one} and {other}", *(Side(store, it, True, asked.where) for it in (first, second)))]


def of_trees(asked, progress, store_of):
    """Two fleets, as a row for each host: its name and both sides."""
    if not asked.other:
        raise Fault("without --hosts it compares two trees, and one is named")
    roots = ([asked.root, *asked.more], [asked.other, *asked.more_other])
    stores = [store_of(asked, progress, words, lambda trees: [it.host for it in trees]) for words in roots]
    pairs = pairs_of(*(store.hosts for store in stores), asked.host)
    for store, wanted in zip(stores, zip(*pairs)):
        store.hosts = list(dict.fromkeys(wanted))
    seen = [{it.host: it for it in store.seen()} for store in stores]
    is_of_host = len(pairs) == 1 and pairs[0][0] != pairs[0][1] and "" not in pairs[0]
    return [(one or other, *(Side(store, those[it], is_of_host, asked.where) for store, those, it in zip(stores, seen, (one, other))))
            for one, other in pairs]


def pairs_of(first, second, host):
    """The hosts that are compared, one of each fleet: the fleets themselves and each host of either, on a side without its tree as one with
    none of its own. Of trees of one host each, these two."""
    if "" not in first or "" not in second:
        if len(first) == len(second) == 1 and "" not in (*first, *second):
            return [(first[0], second[0])]
        raise Fault("a host's tree alone can be compared with one other host's tree alone")
    names = [it for it in dict.fromkeys([*first, *second]) if host is None or it == host]
    if not names:
        raise Fault(f"--host {printable(host)}: no tree stands for this host")
    return [(it if it in first else "", it if it in second else "") for it in sorted(names)]
