"""Unit files, read: their headers, their assignments and their faults, each with its line."""
from dataclasses import dataclass
from typing import List, NamedTuple, Tuple

WHITE = " \t\r"
GOES_ON = ("\\\n", "\\\r\n")


class Assignment(NamedTuple):
    """What a line says: a key of a section, and its value."""

    line: int
    section: str
    key: str
    value: str

    def setting(self):
        """The setting as the program spells it."""
        return f"{self.section}.{self.key}"


@dataclass
class UnitFile:
    """A unit file: its headers with their lines, its assignments, and what is noted of its lines, as codes of notes."""

    headers: List[Tuple[int, str]]
    assignments: List[Assignment]
    notes: List[Tuple[int, str]]


def logical_lines(text):
    """The logical lines of a text, each with the number of its first line: comments and empty lines go, and a backslash at the end goes on."""
    lines = text.removeprefix("\ufeff").split("\n")
    begun, before = 0, ""
    for number, line in enumerate(lines, 1):
        bare = line.strip(WHITE)
        if not bare:
            if begun:
                yield begun, before
                begun, before = 0, ""
        elif bare[0] not in "#;":
            # the last line has no end, and keeps its carriage return
            whole = line[:-1] if line[-1] == "\r" and number < len(lines) else line
            if whole[-1] == "\\":
                begun, before = begun or number, f"{before}{whole[:-1]} "
            elif begun:
                yield begun, before + whole
                begun, before = 0, ""
            else:
                yield number, bare
    if begun:
        yield begun, before


def stripped_lines(text):
    """The same without white space at both ends, and without those that are nothing else."""
    if not any(it in text for it in GOES_ON) and text[-1:] != "\\":
        lines = enumerate(text.removeprefix("\ufeff").split("\n"), 1)
        return [(number, bare) for number, line in lines if (bare := line.strip(WHITE)) and bare[0] not in "#;"]
    return [(number, bare) for number, line in logical_lines(text) if (bare := line.strip(WHITE))]


def unit_file_of(content):
    """The unit file with this content."""
    headers, assignments, notes = [], [], []
    section, is_bad = None, False
    for number, line in stripped_lines(content.decode("utf-8", "surrogateescape")):
        if line[0] == "[":
            is_bad = not (line[-1] == "]" and len(line) > 2)
            if is_bad:
                notes.append((number, "K3"))
            else:
                section = line[1:-1]
                headers.append((number, section))
        elif not is_bad:
            key, equals, value = line.partition("=")
            key = key.rstrip(WHITE)
            if section is None or not equals or not key:
                notes.append((number, "K1" if section is None else "K2"))
            else:
                assignments.append(Assignment(number, section, key, value.lstrip(WHITE)))
    return UnitFile(headers, assignments, notes)
