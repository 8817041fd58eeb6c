"""What a picture of a plan shows: units in steps, and the lines between them."""
from dataclasses import dataclass, replace
from enum import Enum
from typing import Tuple

from .answers import INVERSES, NEEDING, WISHING

TYING = ("Requires", "Requisite", "BindsTo", "PartOf")
# Refusals that are about the way from the target to some units.
ON_THE_WAY = ("P2", "P3", "P4", "P6", "P7")


class Role(Enum):
    """What a unit is in a picture."""

    STARTS = "starts"
    ASKED = "asked"
    STOPS = "stops"
    FAULTY = "faulty"


class Tie(Enum):
    """What a line says of its first unit and its second."""

    NEEDS = "requires"
    WISHES = "wishes for"
    TRIGGERS = "triggers"
    ORDER = "starts before"
    CONFLICT = "conflicts with"
    WAITED = "must start before"
    REQUISITE = "needs running"


# Ties whose words the first unit of a line says of the second.
OF_THE_FIRST = (Tie.ORDER, Tie.TRIGGERS, Tie.CONFLICT, Tie.WAITED)


class Shape(Enum):
    """How a picture's units stand: in rows, each below what it waits for, requires or wishes for; or in a ring."""

    ROWS = "rows"
    RING = "ring"


@dataclass(frozen=True)
class Box:
    """A unit, what it is, and its row, from above; what stops has row 0."""

    name: str
    role: Role
    row: int


@dataclass(frozen=True)
class Line:
    """A line from a unit that must stand to one that waits for it, and what it says of them: in the words of the tie the second to the first,
    or, where `is_turned`, the first to the second."""

    source: str
    target: str
    tie: Tie
    is_turned: bool = False

    def said(self):
        """The unit of which the tie says something, and the other one."""
        is_first = (self.tie in OF_THE_FIRST) != self.is_turned
        return (self.source, self.target) if is_first else (self.target, self.source)


@dataclass(frozen=True)
class Picture:
    """A picture: its title, its units in order, its lines, those of them that are drawn, and how the units stand."""

    title: str
    boxes: Tuple[Box, ...]
    lines: Tuple[Line, ...]
    drawn: Tuple[Line, ...]
    shape: Shape


def named_in(refusal):
    """The units that a refusal of a plan names."""
    return refusal.told if refusal.code in (*ON_THE_WAY, "P8") else ()


def main_name(name, units):
    """The main name of a unit that is among these."""
    return next((it.name for it in units.values() if name in it.names), name)


def completed(units):
    """Units that were told by several answers, with each edge on both of its sides."""
    edges = {name: {kind: list(names) for kind, names in it.edges.items()} for name, it in units.items()}
    for name, unit in units.items():
        for kind, names in unit.edges.items():
            for other in names:
                back = edges.get(other, {}).setdefault(INVERSES[kind], [])
                if name not in back:
                    back.append(name)
    return {name: replace(it, edges={kind: tuple(names) for kind, names in edges[name].items()}) for name, it in units.items()}


def orders_of(start, units):
    """The order among units that start: pairs of the one that must stand, and of the one that waits for it."""
    return [(other, name) for name in sorted(start) for other in units[name].to("After") if other in start]


def ties_of(names, units):
    """What these units require of each other, wish for, and trigger otherwise: rows of the one that does, the other, and the tie. What is in
    a slice requires it, so that slices have lines too."""
    found = {}
    for tie, kinds in ((Tie.NEEDS, NEEDING), (Tie.WISHES, WISHING), (Tie.TRIGGERS, ("Triggers",))):
        for name in names:
            for other in (it for kind in kinds for it in units[name].to(kind) if it in names):
                if tie is not Tie.TRIGGERS or (other, name) not in found:
                    found.setdefault((name, other), tie)
    return [(name, other, tie) for (name, other), tie in found.items()]


def rows_of(names, orders, ties):
    """The row of each unit, one below all that lead to it, and the pairs of ties turned so that none leads up: one that would close a circle
    goes the other way."""
    after, turned = {it: set() for it in names}, {}
    for source, target in orders:
        after[source].add(target)
    for source, target in ties:
        turned[source, target] = (source, target) not in turned and leads_to(target, source, after)
        first, second = (target, source) if turned[source, target] else (source, target)
        after[first].add(second)
    rows = {}
    for name in in_order(names, after):
        rows.setdefault(name, 1)
        for it in after[name]:
            rows[it] = max(rows.get(it, 1), rows[name] + 1)
    return rows, turned


def leads_to(one, other, after):
    """Whether a way leads from a unit to another."""
    found, waiting = {one}, [one]
    while waiting:
        name = waiting.pop()
        if name == other:
            return True
        new = after[name] - found
        found |= new
        waiting += new
    return False


def in_order(names, after):
    """The units, each behind all that lead to it."""
    left = {it: 0 for it in names}
    for those in after.values():
        for it in those:
            left[it] += 1
    free, found = [it for it in names if not left[it]], []
    while free:
        found.append(name := free.pop(0))
        for it in sorted(after[name]):
            left[it] -= 1
            if not left[it]:
                free.append(it)
    return found


def picture_of_plan(target, plan, units):
    """The picture of a plan, with all its lines."""
    asked, known = main_name(target, units), set(plan.start)
    # what triggers another unit stands before it
    ties = {(name, other) if tie is Tie.TRIGGERS else (other, name): tie for name, other, tie in ties_of(plan.start, units)}
    rows, turned = rows_of(plan.start, orders := orders_of(known, units), ties)
    lines = [Line(*(pair[::-1] if turned[pair] else pair), tie, turned[pair]) for pair, tie in ties.items()]
    said = {frozenset(it) for it in ties}
    lines += [Line(*pair, Tie.ORDER) for pair in orders if frozenset(pair) not in said]
    boxes = [Box(it, Role.STOPS, 0) for it in plan.stop]
    boxes += [Box(it, Role.ASKED if it == asked else Role.STARTS, rows[it]) for it in plan.start]
    for name in plan.stop:
        rivals = {*units[name].to("Conflicts"), *units[name].to("ConflictedBy")}
        lines += [Line(name, it, Tie.CONFLICT) for it in plan.start if it in rivals]
        lines += [Line(it, name, Tie.NEEDS) for it in plan.stop if any(it in units[name].to(kind) for kind in TYING)]
    count = f"{len(plan.start)} to start" + (f", {len(plan.stop)} to stop" if plan.stop else "")
    return Picture(f"{target}: {count}", tuple(boxes), tuple(lines), tuple(lines), Shape.ROWS)


def without_what_follows(picture):
    """A picture that draws no line between units where others lead from the one to the other."""
    if picture.shape is not Shape.ROWS:
        return picture
    numbers = {it.name: 1 << at for at, it in enumerate(picture.boxes)}
    falling = [it for it in picture.lines if it.tie is not Tie.CONFLICT]
    after = {it.name: {} for it in picture.boxes}
    for line in falling:
        after[line.source][line.target] = line
    below, follows = {}, set()
    for name in in_order(list(after), {it: set(those) for it, those in after.items()})[::-1]:
        # units from which ways lead, and those that are on ways of two lines or more
        below[name] = numbers[name]
        far = 0
        for it in after[name]:
            far |= below[it] & ~numbers[it]
            below[name] |= below[it]
        follows |= {(name, it) for it in after[name] if far & numbers[it]}
    return replace(picture, drawn=tuple(it for it in picture.lines if it.tie is Tie.CONFLICT or (it.source, it.target) not in follows))


def objects_of(picture):
    """The objects of a picture: each unit, and each line that is drawn."""
    yield {"title": picture.title}
    yield from ({"unit": it.name, "is": it.role.value, "row": it.row} for it in picture.boxes)
    for it in picture.drawn:
        unit, other = it.said()
        yield {"from": it.source, "to": it.target, "unit": unit, "tie": it.tie.value, "other": other}


def picture_of_cycle(target, refusal, units):
    """The picture of units that wait for each other."""
    names = refusal.told
    boxes = tuple(Box(it, Role.FAULTY, 1) for it in names)
    lines = [Line(one, other, Tie.WAITED) for one, other in zip(names, [*names[1:], names[0]])]
    lines += [Line(name, other, tie, True) if tie is Tie.TRIGGERS else Line(other, name, tie) for name, other, tie in ties_of(names, units)]
    return Picture(f"{target}: no plan, {len(names)} units wait for each other", boxes, tuple(lines), tuple(lines), Shape.RING)


def way_to(name, asked, units):
    """The units on a shortest way of requirements to this one from that which is asked for; it alone where there is none."""
    came, row = {asked: None}, [asked]
    while row and name not in came:
        pairs = [(it, at) for at in row if at in units for kind in NEEDING for it in units[at].to(kind)]
        row = [it for it in dict.fromkeys(it for it, _ in pairs) if it not in came]
        came.update({it: at for it, at in reversed(pairs) if it in row})
    way = [name]
    while came.get(way[-1]):
        way.append(came[way[-1]])
    return way[::-1]


def picture_of_refusal(target, refusal, units):
    """The picture of why there is no plan: the units at fault, and the way of requirements on which the target comes to them."""
    if refusal.code == "P8":
        return picture_of_cycle(target, refusal, units)
    asked = main_name(target, units)
    faulty = refusal.told if refusal.code in ON_THE_WAY else (asked,)
    ways = [way_to(it, asked, units) for it in faulty if refusal.code != "P6" or it == faulty[0]]
    depths = {}
    for way in ways:
        for depth, name in enumerate(way):
            depths[name] = min(depth, depths.get(name, depth))
    if refusal.code == "P6":
        depths.setdefault(faulty[1], depths[faulty[0]] + 1)
    last = 1 + max(depths.values())
    boxes = [Box(it, Role.FAULTY if it in faulty else Role.ASKED if it == asked else Role.STARTS, last - depth) for it, depth in depths.items()]
    lines = [Line(other, one, Tie.NEEDS) for one, other in dict.fromkeys(pair for way in ways for pair in zip(way, way[1:]))]
    if refusal.code in ("P6", "P7"):
        lines.append(Line(*faulty, Tie.CONFLICT) if refusal.code == "P7" else Line(*faulty[::-1], Tie.REQUISITE))
    return Picture(f"{target}: no plan: {refusal}", tuple(boxes), tuple(lines), tuple(lines), Shape.ROWS)
