"""Edits of places, and how they are told: an edit that changes nothing is none."""
import sys
from dataclasses import dataclass
from typing import Optional

from ..faults import Fault, Status, printable
from ..merges import content_object, content_words
from ..places import MOST_FILE_BYTES, Content, Link, is_unit_name
from ..refusals import Refusal
from ..reports import of_refusal, say, say_objects, tell
from .files import NoPlace

# What masks a unit, and where.
MASK, MASKING = Link("/dev/null"), "/etc/systemd/system"


@dataclass(frozen=True)
class Edited:
    """What came of an edit of a place: the version that it got, none where it changed nothing, or a refusal; and what it put there, nothing
    for a removal."""

    place: str
    content: Optional[Content]
    version: str = ""
    refusal: Optional[Refusal] = None

    def line(self):
        """The line that is printed of it."""
        return f"{self.place} {self.version} {content_words(self.content)}" if self.version else f"{self.place}: nothing changed"

    def object(self):
        """The object of it."""
        if self.refusal:
            return {"of": self.place, **of_refusal(self.refusal)}
        return {"place": self.place, **({"version": self.version, **content_object(self.content)} if self.version else {"unchanged": True})}


def edited(place, content, outcome):
    """What came of an edit whose outcome is a version or a refusal."""
    return Edited(place, content, refusal=outcome) if isinstance(outcome, Refusal) else Edited(place, content, outcome)


def changed(state, place, content):
    """Puts something at a place, or removes what is there, where that changes something."""
    try:
        _, now = state.at(place)
    except NoPlace as none:
        return Edited(place, content, refusal=none.refusal)
    if now == content:
        return Edited(place, content)
    return edited(place, content, state.edit([(place, content)])[0])


def removed(state, places):
    """Removes what stands at places: of a place where nothing does it is refused."""
    return [edited(place, None, outcome) for place, outcome in zip(places, state.edit([(it, None) for it in places]))]


def masked_place(unit, host):
    """The place at which a link masks a unit, for the fleet or a host."""
    if not is_unit_name(unit):
        raise Fault(f"{printable(unit)}: no unit's name, so nothing has to be masked", Status.WRONG)
    return f"{host}:{MASKING}/{unit}" if host else f"{MASKING}/{unit}"


def content_given(path):
    """The bytes of a file, or of standard input; of more than a place takes the first ones, which the program refuses."""
    if path in (None, "-"):
        return sys.stdin.buffer.read(MOST_FILE_BYTES + 1)
    with open(path, "rb") as file:
        return file.read(MOST_FILE_BYTES + 1)


def told_edits(asked, rows):
    """Prints what came of edits; refusals are told. The status."""
    for it in rows:
        if it.refusal:
            tell(f"{asked.verb}: {it.place}: {it.refusal}")
    if asked.json:
        say_objects(it.object() for it in rows)
    else:
        say(it.line() for it in rows if not it.refusal)
    return Status.WRONG if any(it.refusal for it in rows) else Status.WELL
