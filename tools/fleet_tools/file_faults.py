"""What is wrong with unit files, line by line: what is no line of one, and sections, keys and values that systemd doesn't know."""
from functools import cache

from .directives import OWN, fault_of_key, fault_of_section, fault_of_value
from .faults import cut
from .refusals import NOTES
from .sections import unit_file_of
from .visible import unit_files, visible

# The notes on lines, which the program gives of each unit that it loads, and the tool of the other files.
OF_LINES = ("K1", "K2", "K3")
BAD_BOOLEAN = "K4"


@cache
def read(content):
    """The unit file with this content, read once."""
    return unit_file_of(content)


@cache
def faults_of(content, kind):
    """Rows of a line, a setting if it is about one, and what is wrong there, of a file for units of a type."""
    file, known, found = read(content), set(), []
    for line, code in file.notes:
        name, words = NOTES[code]
        found.append((line, "", f"{code} {name}: {words}"))
    for line, section in file.headers:
        fault = fault_of_section(section, kind)
        if fault:
            found.append((line, "", cut(fault)))
        else:
            known.add(section)
    for line, section, key, value in file.assignments:
        fault = section in known and fault_of_assignment(section, key, value)
        if fault:
            found.append((line, f"{section}.{key}", fault))
    return sorted(found)


@cache
def fault_of_assignment(section, key, value):
    """What is wrong with an assignment in a section that may stand there; nothing where it can be read."""
    if section.startswith(OWN) or key.startswith(OWN):
        return None
    fault = fault_of_key(section, key) or fault_of_value(section, key, value)
    return fault and cut(fault)


def faults_in(trees, host):
    """Rows of a file's place, a line, a setting if it is about one, and what is wrong there, of all unit files that a host sees."""
    return [(str(it.place), *row) for it, kind in unit_files(visible(trees, host)) for row in faults_of(it.content, kind)]


def is_told_by(note, unit, told):
    """Whether what a note says of a unit is told of a file's line: which files and settings are."""
    if note.code in OF_LINES:
        return note.where in told
    return note.code == BAD_BOOLEAN and any((place, note.where) in told for place in unit.files())


def told_by(rows):
    """What is told by rows, for `is_told_by`: lines of files, and settings of files."""
    return {f"{place}:{line}" for place, line, _, _ in rows} | {(place, setting) for place, _, setting, _ in rows}


def notes_left(unit, told):
    """The notes on a unit that aren't told of its files' lines."""
    return [it for it in unit.notes if not is_told_by(it, unit, told)]
