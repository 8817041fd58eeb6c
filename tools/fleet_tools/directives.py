"""The keys of unit files, by section, as systemd's manual pages have them (directives.txt, which tools/directives writes)."""
import difflib
import os
from functools import cache

from .readings import EMPTIED, is_boolean, reader_of

TABLE = os.path.join(os.path.dirname(os.path.realpath(__file__)), "directives.txt")
# What anybody may use, and systemd passes over.
OWN = "X-"
LEAST_ALIKE = 0.75


@cache
def table():
    """The keys of each section, each with its kind."""
    found = {}
    with open(TABLE, encoding="utf-8") as file:
        for line in file:
            if not line.startswith("#"):
                key, kind, *sections = line.split()
                for it in sections:
                    found.setdefault(it, {})[key] = kind
    return found


def version():
    """The version of systemd of which the table is."""
    with open(TABLE, encoding="utf-8") as file:
        return file.readline().removeprefix("# ").partition(":")[0]


def sections_of(kind):
    """The sections that a unit of a type may have."""
    return ("Unit", kind.capitalize(), "Install")


def nearest(word, words):
    """The word among these that is most like it, if one is."""
    same = [it for it in words if it.lower() == word.lower()]
    return (same or difflib.get_close_matches(word, words, 1, LEAST_ALIKE) or [None])[0]


def meant(word):
    """A question whether this was meant."""
    return f": do you mean {word}?" if word else ""


@cache
def fault_of_section(section, kind):
    """What is wrong with a section of a unit of a type; nothing where it may stand there."""
    if section in sections_of(kind) or section.startswith(OWN):
        return None
    if section in table():
        return f"[{section}] is no section of a {kind}"
    guess = nearest(section, sections_of(kind))
    return f"[{section}] is no section{meant(guess and f'[{guess}]')}"


def fault_of_key(section, key):
    """What is wrong with a key in a section; nothing where it may stand there."""
    known = table().get(section, {})
    if key in known or key.startswith(OWN):
        return None
    guess = nearest(key, known)
    homes = [it for it in table() if key in table()[it]]
    if homes and not (guess and guess.lower() == key.lower()):
        return f"{key}= is no key of [{section}], but of {' and '.join(f'[{it}]' for it in homes)}"
    return f"{key}= is no key of [{section}]{meant(guess and f'{guess}=')}"


def fault_of_value(section, key, value):
    """What is wrong with a key's value; nothing where it can be read, or any text may stand there."""
    kind, reads = ("a boolean", is_boolean) if table()[section][key] == "boolean" else reader_of(section, key) or ("", None)
    if reads is None or reads(value) or not value and key in EMPTIED:
        return None
    return f"{key}={value}: not {kind}{meant(nearest(value, getattr(reads, 'words', ())))}"

