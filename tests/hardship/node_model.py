"""What a node may answer that is refused memory: its state in plain words, step by step.

A take is accepted and then published. Where memory is refused, an edit or a piece is answered by `out of memory`, which
accepts nothing, or by `A3 Pending`, which accepts it without publishing it. At most one take is pending: the next edit
or piece, or the close, publishes it first. Whether an edit that was refused then had published the pending take isn't
told at once, so of some answers a node may be in two states; what it answers later tells which.
"""
from dataclasses import dataclass, replace

MOST = 2**64 - 1
REFUSED = "out of memory"

# A gate is asked so often for one message at most.
TURNS = 1_000_000


class Wrong(Exception):
    """An answer that a node must not give."""


@dataclass(frozen=True)
class Sight:
    """What a node holds at a moment: the version at each place, and how many takes there were. A place is its host, empty
    for the fleet, and its name."""

    held: dict
    takes: int = 0

    def told(self):
        """As the answers write it."""
        places = sorted(self.held.items())
        return " ".join([f"takes {self.takes}", *(f"{name} {c}.{w}" for (_, name), (c, w) in places)])

    def with_take(self, place, version):
        """After a take at a place."""
        return Sight({**self.held, place: max(version, self.held.get(place, version))}, self.takes + 1)


@dataclass(frozen=True)
class Take:
    """An edit or a piece of one edit, which has its version."""

    place: tuple
    piece: tuple = None

    def version(self, node):
        """The version that it gets; None where the node has none left."""
        if self.piece is not None:
            return self.piece
        counter = node.high() + 1
        return (counter, node.writer) if counter <= MOST else None


@dataclass(frozen=True)
class Node:
    """A node: what it accepted, what it shows, how many takes each seat has seen and the last token tells, and how often
    it told that memory was refused."""

    writer: int
    room: int
    accepted: Sight
    shown: Sight
    seen: tuple = ()
    token: int = None
    told: int = 0

    def high(self):
        """The greatest counter held."""
        return max((version[0] for version in self.accepted.held.values()), default=0)

    def with_seat(self):
        """A seat more, which has seen what is shown."""
        return replace(self, seen=(*self.seen, self.shown.takes))

    def sees(self, seat, takes):
        """A seat has seen so many takes, or more before."""
        seen = list(self.seen)
        seen[seat] = max(seen[seat], takes)
        return replace(self, seen=tuple(seen))

    def answered(self, seat, take):
        """After a take that was answered, behind the one that was pending."""
        accepted = self.accepted.with_take(take.place, take.version(self))
        return replace(self, accepted=accepted, shown=accepted).sees(seat, accepted.takes)

    def pending(self, take):
        """After a take that was accepted and isn't shown, behind the one that was pending."""
        accepted = self.accepted.with_take(take.place, take.version(self))
        return replace(self, accepted=accepted, shown=self.accepted, told=self.told + 1)

    def refused(self):
        """After a take that was refused memory, as the node may then be: what was pending was published, or wasn't."""
        same = replace(self, told=self.told + 1)
        published = replace(same, shown=self.accepted)
        return [same] if same == published else [same, published]
