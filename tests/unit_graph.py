"""Edges between the units of a load, and plans, for tests/unit_model.py; tests/implied_model.py has what is otherwise in the profile
`manager`."""
from unit_text import INVERSES, Refused

LOADED = ("fragment", "built-in")
PULLING = ("Requires", "Requisite", "BindsTo", "Wants")
NEEDING = ("Requires", "BindsTo")
TYING = ("Requires", "Requisite", "BindsTo", "PartOf")


def closure(sources, steps):
    found, waiting = set(), [*sources]
    while waiting:
        at = waiting.pop()
        if at not in found:
            found.add(at)
            waiting += steps(at)
    return found


class Graph:
    """A load with its edges in both directions."""

    inverses, pulling, wishing = INVERSES, PULLING, ("Wants",)

    def __init__(self, mains, units):
        self.mains, self.units = mains, units
        self.edges = {(kind, name): set() for kind in self.inverses for name in units}
        for name, unit in units.items():
            for kind, names in unit["named"].items():
                for other in {mains[it] for it in names} - {name}:
                    self.add(name, kind, other)

    def add(self, name, kind, other):
        self.edges[kind, name].add(other)
        self.edges[self.inverses[kind], other].add(name)

    def to(self, kinds, name):
        return sorted(set().union(*[self.edges[kind, name] for kind in kinds]))

    def is_loaded(self, name):
        return self.units[name]["said"][0] in LOADED

    def rivals(self, name):
        return self.to(("Conflicts", "ConflictedBy"), name)

    def depths(self, name):
        found, row, depth = {}, [name], 0
        while row:
            found.update(dict.fromkeys(row, depth))
            row = sorted({it for at in row for it in self.to(self.pulling, at)} - found.keys())
            depth += 1
        return sorted((depth, name) for name, depth in found.items())

    # ---- what plans ask, where profiles differ

    def running(self, names):
        """The units that run, where these are said to."""
        return {self.mains[it] for it in names}

    def onward(self, kinds, at, begin, running):
        """Where a walk along these kinds that began there goes on to from a unit."""
        return self.to(kinds, at)

    def has_requisites(self, name, running):
        """Whether a unit may be pulled by its requisites."""
        return running.issuperset(self.to(["Requisite"], name))

    def missing(self, name, pulled, running):
        """The requisites that a unit misses, once this is pulled."""
        return [it for it in self.to(["Requisite"], name) if it not in running]

    def losing(self, extra, pulled, running):
        """The units among those that are only wanted that are dropped since they miss a requisite."""
        return set()

    # ---- plans

    def need(self, name, running):
        return closure([name], lambda it: self.onward(NEEDING, it, name, running))

    def refuse_unloaded(self, name):
        if not self.is_loaded(name):
            raise Refused({"not-found": "P2", "masked": "P3", "bad": "P4"}[self.units[name]["said"][0]], name)

    def refuse(self, target, running):
        """Refuses for the first cause that stands, but for a cycle."""
        self.refuse_unloaded(target)
        need = sorted(self.need(target, running))
        for name in need:
            self.refuse_unloaded(name)
        if self.units[target]["manual"]:
            raise Refused("P5")
        pulled = self.pulled(target, running)
        for name in need:
            for other in self.missing(name, pulled, running):
                raise Refused("P6", name, other)
        for name in need:
            for other in self.rivals(name):
                if other in need:
                    raise Refused("P7", name, other)

    def pulled(self, target, running):
        """What the target needs and wants, and so on; what is wanted only where it is good."""
        needed = self.need(target, running)

        def is_good(name):
            return all(
                self.is_loaded(it) and self.has_requisites(it, running) and needed.isdisjoint(self.rivals(it)) for it in self.need(name, running)
            )

        def asked(name):
            wanted = self.onward(self.wishing, name, target, running)
            return [*self.onward(NEEDING, name, target, running), *[it for it in wanted if is_good(it)]]

        return closure([target], asked)

    def chosen(self, target, running):
        pulled = self.pulled(target, running)
        extra = pulled - self.need(target, running)
        losers = self.losing(extra, pulled, running)
        for namer in extra:
            for named in extra.intersection(self.to(["Conflicts"], namer)):
                both = namer in self.to(["Conflicts"], named)
                losers.add(max(namer, named) if both else named)
        left = {it for it in pulled if losers.isdisjoint(self.need(it, running))}
        return closure([target], lambda name: left.intersection(self.onward((*NEEDING, *self.wishing), name, target, running)))

    def started(self, units):
        """The units in the order in which they start; refused for a cycle."""
        waits = {it: units.intersection(self.to(["After"], it)) for it in units}
        found = []
        while len(found) < len(units):
            free = [it for it in units if it not in found and waits[it].issubset(found)]
            if not free:
                raise Refused("P8", *self.cycle(units.difference(found)))
            found.append(min(free))
        return found

    def cycle(self, left):
        while True:
            stuck = {it for it in left if left.intersection(self.to(["After"], it))}
            if stuck == left:
                break
            left = stuck
        way = [min(left)]
        while True:
            at = min(left.intersection(self.to(["After"], way[-1])))
            if at in way:
                ring = way[way.index(at):][::-1]
                first = ring.index(min(ring))
                return ring[first:] + ring[:first]
            way.append(at)

    def stopped(self, target, chosen, running):
        return self.stopped_by(chosen, running - chosen)

    def stopped_by(self, those, outside):
        """The units outside that conflict with one of those, and the units outside that are tied to one that stops."""
        ousted = [it for it in outside if those.intersection(self.rivals(it))]
        takes = lambda name: [it for it in outside if name in self.to(TYING, it)]
        return sorted(closure(ousted, takes))
