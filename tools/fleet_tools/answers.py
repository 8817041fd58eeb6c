"""What the program answers, read by its grammar (docs/SCRIPTS.md)."""
import re
from dataclasses import dataclass
from enum import Enum
from typing import Dict, Tuple

from .faults import Fault, cut
from .places import PLACE, UNIT_NAME
from .refusals import BAD_LINKS, Refusal, refusal_of

# The kinds of dependencies in the order in which the program prints them, and those that units name.
EDGE_KINDS = ("Before", "After", "Wants", "WantedBy", "Requires", "RequiredBy", "Requisite", "RequisiteOf", "BindsTo", "BoundBy", "PartOf",
              "ConsistsOf", "Conflicts", "ConflictedBy", "OnFailure", "OnFailureOf", "PropagatesReloadTo", "ReloadPropagatedFrom",
              "Upholds", "UpheldBy", "Triggers", "TriggeredBy", "InSlice", "SliceOf")
INVERSES = {**dict(zip(EDGE_KINDS[::2], EDGE_KINDS[1::2])), **dict(zip(EDGE_KINDS[1::2], EDGE_KINDS[::2]))}
NEEDING = ("Requires", "BindsTo")
WISHING = ("Wants", "Upholds")

POSITIONS = {kind: at for at, kind in enumerate(EDGE_KINDS)}
NAMES = re.compile(rf"{UNIT_NAME}(?: {UNIT_NAME})*")
NAMES_LINE = re.compile(rf"names ({UNIT_NAME}(?: {UNIT_NAME})*)")
FILE_NOTE = re.compile(r"note (K[123]) (.*):[1-9][0-9]*")
VALUE_NOTE = re.compile(r"note (K[456]) .*\..*")
NUMBER = re.compile("[0-9]+")
VERSION = r"[0-9]+\.[0-9]+"
NO_LINE, OK_LINE, SAME_LINE, END_LINE, CHANGED_LINE = (re.compile(it) for it in ("", "ok", "same", "end", "changed [0-9]+"))
VERSION_LINE = re.compile(f"ok {VERSION}")
# What a command answers that may change nodes.
CHANGE_LINE = re.compile(f"ok(?: {VERSION})?|(?:changed|entries) [0-9]+|error: [!-~]+ [ -~]+")
HELD_LINE = re.compile(f"({PLACE}) ({VERSION}) (?:file ([0-9]+)|link ([!-~]+)|gone)")
PLACE_ALONE = re.compile(PLACE)
CROSSED_LINE = re.compile(f"crossed ({UNIT_NAME})")
# A section whose lines of values may look like other lines of an answer.
ODD_SECTION = re.compile(rb"(?m)^[ \t\r]*\[(dropin [^\n]*|note [^\n]*|[^\n]*=[^\n]*)\][ \t\r]*$")


class Kept:
    """What a method gives, kept in the object once it was asked for."""

    def __init__(self, work):
        self.work = work

    def __get__(self, it, _owner):
        value = it.__dict__[self.work.__name__] = self.work(it)
        return value


class UnitStatus(Enum):
    """What stands for a unit's name."""

    LOADED = "loaded"
    BUILT_IN = "built-in"  # without a file, as a manager has devices, slices and the root mount
    NOT_FOUND = "not-found"
    MASKED = "masked"
    BAD = "bad"


STATUSES = {it.value: it for it in UnitStatus}


@dataclass(frozen=True)
class Note:
    """A note on a unit: its code, and the file's line or the setting that it is about."""

    code: str
    where: str


@dataclass(frozen=True)
class Unit:
    """What a unit comes to. `told` is its fragment's place, or why its link is bad; values are rows of setting and value."""

    name: str
    status: UnitStatus
    told: str
    names: Tuple[str, ...]
    dropins: Tuple[str, ...]
    values: Tuple[Tuple[str, str], ...]
    edges: Dict[str, Tuple[str, ...]]
    notes: Tuple[Note, ...]

    def to(self, kind):
        """The units to which it has an edge of this kind."""
        return self.edges.get(kind, ())

    @Kept
    def settings(self):
        """The values of each setting, in order."""
        found = {}
        for setting, value in self.values:
            found.setdefault(setting, []).append(value)
        return found

    @Kept
    def kind(self):
        """Its type."""
        return self.name.rpartition(".")[2]

    @Kept
    def section(self):
        """The section of its type."""
        return self.kind.capitalize()

    @Kept
    def keys(self):
        """The keys that it sets, but in [Install]."""
        return {it.rpartition(".")[2] for it in self.settings if not it.startswith("Install.")}

    def files(self):
        """The places of its fragment and its drop-ins, in the order in which they are read."""
        return (*([self.told] if self.status is UnitStatus.LOADED else []), *self.dropins)

    def is_loaded(self):
        """Whether it is there, by a file or without one."""
        return self.status in (UnitStatus.LOADED, UnitStatus.BUILT_IN)

    def lines(self):
        """The lines with which the program tells it."""
        yield f"unit {self.name}"
        yield f"status {self.status_words()}"
        yield f"names {' '.join(self.names)}"
        yield from (f"dropin {it}" for it in self.dropins)
        yield from (f"{setting}={value}" for setting, value in self.values)
        yield from (f"{kind}: {' '.join(names)}" for kind, names in self.edges.items())
        yield from (f"note {it.code} {it.where}" for it in self.notes)

    def status_words(self):
        """Its status as the program prints it."""
        return f"{self.status.value} {self.told}".rstrip()


@dataclass(frozen=True)
class Plan:
    """What stops and what starts, in order."""

    stop: Tuple[str, ...]
    start: Tuple[str, ...]


@dataclass(frozen=True)
class Held:
    """What a line of `files` tells: the place, its version, and a file's length or a link's target; neither where it was removed."""

    place: str
    version: str
    length: int = -1
    target: str = ""

    def words(self):
        """What stands there, as `files` of the program says it."""
        if self.length >= 0:
            return f"file {self.length}"
        return f"link {self.target}" if self.target else "gone"


def wrong(line):
    """The fault of an answer with a line that none has in its place."""
    return Fault(f"the program answered `{cut(line)}`, which is no answer to what it was asked: is it fleet_shell, and of this repository?")


class Answers:
    """The answers to a script, taken one after another. Units in them are of a store with these places, some of whose sections are odd."""

    def __init__(self, written, places=None, odd=()):
        self.written, self.at = written, 0
        self.places, self.odd = places, tuple(f"{it}." for it in odd)
        # lists of names that were told already
        self.lists = {}

    def line(self):
        """The next line."""
        end = self.written.find(b"\n", self.at)
        if end < 0:
            left = self.written[self.at :]
            raise Fault("the program answered less than it was asked" + (f"; it ends in `{cut(text_of(left))}`" if left else ""))
        line, self.at = self.written[self.at : end], end + 1
        return text_of(line)

    def ended(self):
        """Fails where more was answered than was asked."""
        if self.at != len(self.written):
            raise wrong(self.line())

    def expect(self, pattern):
        """The next line, which must be of this pattern."""
        line = self.line()
        if not pattern.fullmatch(line):
            raise wrong(line)
        return line

    def versions(self, count):
        """The versions that so many edits got."""
        return [self.expect(VERSION_LINE)[len("ok ") :] for _ in range(count)]

    def done(self):
        """Passes over the answer to a command that has no more to tell than that it was done."""
        self.expect(OK_LINE)

    def changes(self, count):
        """Passes over the answers to so many commands that each have one line."""
        for _ in range(count):
            self.expect(CHANGE_LINE)

    def changed(self):
        """Passes over the answer to a merge."""
        self.expect(CHANGED_LINE)

    def number_changed(self):
        """How many places a merge or a piece changed."""
        return int(self.expect(CHANGED_LINE)[len("changed ") :])

    def is_same(self):
        """Passes over the answer that two nodes hold the same."""
        self.expect(SAME_LINE)

    def refused(self):
        """The refusal that the next line tells, if it tells one."""
        if not self.written.startswith(b"error: ", self.at):
            return None
        line = self.line()
        refusal = refusal_of(line)
        if not refusal:
            raise wrong(line)
        return refusal

    def block(self):
        """The lines of an answer up to its `end`, none of which may be a line of it, or the refusal that stands in its place."""
        refusal = self.refused()
        if refusal:
            return refusal
        if self.written.startswith(b"end\n", self.at):
            self.at += len(b"end\n")
            return []
        end = self.written.find(b"\nend\n", self.at)
        if end < 0:
            self.line()
            raise Fault("the program answered less than it was asked: its answer has no `end`")
        lines = text_of(self.written[self.at : end]).split("\n")
        self.at = end + len(b"\nend\n")
        return lines

    def last_block(self):
        """The same for the last answer, whose lines may be any."""
        refusal = self.refused()
        if refusal:
            self.ended()
            return refusal
        if not (b"\n" + self.written[self.at :]).endswith(b"\nend\n"):
            raise wrong(self.line())
        lines = text_of(self.written[self.at :]).split("\n")[:-2]
        self.at = len(self.written)
        return lines

    def unit(self):
        """A unit, or a refusal."""
        lines = self.block()
        return lines if isinstance(lines, Refusal) else self.unit_of(lines)

    def units(self):
        """All units that are loaded, by name, or a refusal."""
        found = {}
        while True:
            lines = self.block()
            if isinstance(lines, Refusal):
                return lines
            if not lines:
                return found
            unit = self.unit_of(lines)
            found[unit.name] = unit

    def plan(self):
        """A plan, or a refusal."""
        lines = self.block()
        return lines if isinstance(lines, Refusal) else plan_of(lines)

    def distances(self):
        """Rows of a distance and a name, or a refusal."""
        lines = self.block()
        if isinstance(lines, Refusal):
            return lines
        rows = [it.partition(" ") for it in lines]
        for (distance, _, name), line in zip(rows, lines):
            if not (NUMBER.fullmatch(distance) and re.fullmatch(UNIT_NAME, name)):
                raise wrong(line)
        return [(int(distance), name) for distance, _, name in rows]

    def files(self):
        """What a node holds, place by place, or a refusal."""
        lines = self.block()
        return lines if isinstance(lines, Refusal) else [held_of(it) for it in lines]

    def content(self, files, host=""):
        """What stands at the place that the next lines tell, of files of these lengths by place: the place, and bytes or a link's target. In the
        tree of a host its own files stand over the fleet's, without its name."""
        line = self.line()
        place, middle, target = line.partition(" link ")
        if middle and target and " " not in place and "/" in place:
            return place, target
        place = line.removeprefix("# ")
        known = f"{host}:{place}" if f"{host}:{place}" in files else place
        if place == line or known not in files:
            raise wrong(line)
        content = self.written[self.at : self.at + files[known]]
        self.at += len(content)
        if not content.endswith(b"\n"):
            self.expect(NO_LINE)
        return place, content

    def text(self, files):
        """The same as an answer of its own."""
        found = self.content(files)
        self.finish()
        return found

    def tree(self, files, host):
        """The places of a host's tree with their contents, and the crossed units, or a refusal."""
        refusal = self.refused()
        if refusal:
            return refusal
        found, crossed = {}, []
        while not self.written.startswith((b"end\n", b"crossed "), self.at):
            place, content = self.content(files, host)
            found[place] = content
        while self.written.startswith(b"crossed ", self.at):
            crossed.append(self.expect(CROSSED_LINE)[len("crossed ") :])
        self.finish()
        return found, crossed

    def finish(self):
        """Takes the end of an answer."""
        self.expect(END_LINE)

    # ---- units

    def unit_of(self, lines):
        """The unit that these lines tell. Behind the drop-ins come lines of values, which begin with a section's name and may look like
        anything, then edges and notes."""
        if len(lines) < 3 or not lines[0].startswith("unit ") or not NAMES_LINE.fullmatch(lines[2]):
            raise wrong(lines[0])
        status, told = self.status_of(lines[1])
        first = 3
        while first < len(lines) and self.is_dropin(lines[first], lines[first - 1] if first > 3 else ""):
            first += 1
        dropins = tuple(it[len("dropin ") :] for it in lines[3:first])
        own = {told, *dropins}
        last = len(lines)
        while last > first and self.is_note(lines[last - 1], own):
            last -= 1
        notes = tuple(Note(*it.split(" ", 2)[1:]) for it in lines[last:])
        begin, edges = last, []
        while begin > first and (edge := self.edge_in(lines[begin - 1])):
            edges.append(edge)
            begin -= 1
        positions = [POSITIONS[kind] for kind, _ in edges]
        if positions != sorted(set(positions), reverse=True):
            raise wrong(lines[begin])
        values = tuple(map(self.value_of, lines[first:begin]))
        return Unit(lines[0][len("unit ") :], status, told, tuple(lines[2].split(" ")[1:]), dropins, values, dict(edges[::-1]), notes)

    def edge_in(self, line):
        """The kind and the names of edges that a line tells; nothing where it tells none."""
        kind, _, text = line.partition(": ")
        if kind not in POSITIONS:
            return None
        names = self.lists.get(text)
        if names is None and NAMES.fullmatch(text):
            names = self.lists[text] = tuple(text.split(" "))
        return names and (kind, names)

    def status_of(self, line):
        """The status that a line tells, and what it tells beside."""
        word, _, told = line[len("status ") :].partition(" ")
        status = STATUSES.get(word)
        is_well = self.is_place(told) if status is UnitStatus.LOADED else told[:2] in BAD_LINKS if status is UnitStatus.BAD else not told
        if not line.startswith("status ") or not status or not is_well:
            raise wrong(line)
        return status, told

    def is_place(self, text):
        """Whether this is a place of the store."""
        return text in self.places if self.places is not None else PLACE_ALONE.fullmatch(text) is not None

    def is_dropin(self, line, before):
        """Whether a line tells a drop-in, of another file name than those before it, which are less."""
        place = line[len("dropin ") :]
        return (line.startswith("dropin ") and place.endswith(".conf") and self.is_place(place)
                and before.rpartition("/")[2] < place.rpartition("/")[2])

    def is_note(self, line, own):
        """Whether a line behind the values tells a note: on a line of one of the unit's own files, or on a value."""
        if not line.startswith("note "):
            return False
        found = FILE_NOTE.fullmatch(line)
        if found and found[2] in own:
            return True
        return bool(VALUE_NOTE.fullmatch(line)) and not ("=" in line and line.startswith(self.odd))

    def value_of(self, line):
        """The setting and the value that a line tells."""
        if not self.odd:
            setting, equals, value = line.partition("=")
            if "." in setting and equals:
                return setting, value
            raise wrong(line)
        head = max((it for it in self.odd if line.startswith(it)), key=len, default="")
        key, equals, value = line[len(head) :].partition("=")
        if not equals or not head and "." not in key:
            raise wrong(line)
        return head + key, value


def text_of(written):
    """The text of bytes of any kind."""
    return written.decode("utf-8", "surrogateescape")


def plan_of(lines):
    """The plan that lines tell: stops, then starts."""
    stop = [it[len("stop ") :] for it in lines if it.startswith("stop ")]
    start = [it[len("start ") :] for it in lines if it.startswith("start ")]
    for line, made in zip(lines, [*(f"stop {it}" for it in stop), *(f"start {it}" for it in start), *lines]):
        if line != made or not re.fullmatch(UNIT_NAME, line.partition(" ")[2]):
            raise wrong(line)
    return Plan(tuple(stop), tuple(start))


def held_of(line):
    """What a line of `files` tells."""
    found = HELD_LINE.fullmatch(line)
    if not found:
        raise wrong(line)
    place, version, length, target = found.groups()
    return Held(place, version, -1 if length is None else int(length), target or "")


def odd_sections(contents):
    """The sections of files whose lines of values may look like other lines of an answer."""
    found = {it for content in contents for it in ODD_SECTION.findall(content) if b"[" in content}
    return sorted(map(text_of, found))
