"""Cycles: units that wait for each other, each found in turn."""
from collections import deque

from .answers import NEEDING, WISHING

MOST_RINGS = 200  # that are told of one search


def reached(target, units):
    """The units that are there and that a target reaches over what they require and wish for, itself too."""
    main = next((it.name for it in units.values() if target in it.names), target)
    found, waiting = set(), [main]
    while waiting:
        name = waiting.pop()
        if name in units and name not in found and units[name].is_loaded():
            found.add(name)
            waiting += [it for kind in (*NEEDING, *WISHING) for it in units[name].to(kind)]
    return found


def followers_of(names, units):
    """Of each of these units those of them that wait for it."""
    found = {it: [] for it in names}
    for name in sorted(names):
        for other in units[name].to("After"):
            if other in found:
                found[other].append(name)
    return found


def knots(followers):
    """The sets of units each of which waits for all others of its set, over others or not; in the order of their least names."""
    numbers, lows, stack, on_stack, found = {}, {}, [], set(), []
    for root in followers:
        if root in numbers:
            continue
        work = [(root, iter(followers[root]))]
        numbers[root] = lows[root] = len(numbers)
        stack.append(root)
        on_stack.add(root)
        while work:
            name, rest = work[-1]
            for other in rest:
                if other not in numbers:
                    numbers[other] = lows[other] = len(numbers)
                    stack.append(other)
                    on_stack.add(other)
                    work.append((other, iter(followers[other])))
                    break
                if other in on_stack:
                    lows[name] = min(lows[name], numbers[other])
            else:
                work.pop()
                if work:
                    lows[work[-1][0]] = min(lows[work[-1][0]], lows[name])
                if lows[name] == numbers[name]:
                    at = stack.index(name)
                    found.append(stack[at:])
                    del stack[at:]
                    on_stack.difference_update(found[-1])
    return sorted((sorted(it) for it in found if len(it) > 1), key=lambda it: it[0])


def ring_through(first, names, followers):
    """A shortest ring from a unit back to it, each before the next."""
    came, row = {first: None}, deque([first])
    while row:
        name = row.popleft()
        for other in followers[name]:
            if other == first:
                way = [name]
                while came[way[-1]]:
                    way.append(came[way[-1]])
                return way[::-1]
            if other in names and other not in came:
                came[other] = name
                row.append(other)
    return None


def rings(names, units, known=()):
    """The cycles of these units: those that are known, and then one after another, each searched for without the last order of those before it.
    In a ring each starts before the next, and the last before the first, which is the least."""
    followers = followers_of(names, units)
    found = []
    for ring in known:
        if ring[0] in followers.get(ring[-1], ()):
            followers[ring[-1]].remove(ring[0])
            found.append(list(ring))
    waiting = knots(followers)
    while waiting and len(found) < MOST_RINGS:
        knot = waiting.pop(0)
        ring = ring_through(knot[0], set(knot), followers)
        found.append(ring)
        followers[ring[-1]].remove(ring[0])
        waiting = knots({it: [other for other in followers[it] if other in set(knot)] for it in knot}) + waiting
    return found
